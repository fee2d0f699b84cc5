//! The file's signature: request [2] of document 02.

use crate::command;
use crate::md5;
use crate::scan::{is_line_end, Raw, Refusal, Scanner};
use crate::terms::Terms;

/// The digest, or 2 and 3 as in the reading, then 25, then 24, "both at M02". No other number is
/// given (decisions 116 and 117).
pub fn signature(file: &[u8], terms: Terms) -> Result<[u8; 16], Refusal> {
    let mut scanner = Scanner::without_limit(file, terms);
    let mut before = None;
    let end = loop {
        let raw = scanner.next()?;
        if !raw.extended && command::is_end(raw.text, terms.edition) {
            break raw.place;
        }
        before = Some(raw);
    };
    match scanner.tail() {
        Err(refusal) if refusal.number == 2 => return Err(refusal),
        _ => {}
    }
    let (place, signed) = before.and_then(signed_digest).ok_or(Refusal::new(25, end))?;
    let digest = digest_before(file, place);
    if md5::hex(&digest).as_bytes() == signed.to_ascii_lowercase() {
        Ok(digest)
    } else {
        Err(Refusal::new(24, end))
    }
}

/// "a `.MD5` of exactly 32 hexadecimal digits, either case" (decision 119): its place and digits.
fn signed_digest(raw: Raw<'_>) -> Option<(usize, &[u8])> {
    let mut text = raw.text;
    while let [rest @ .., last] = text {
        if !is_line_end(*last) {
            break;
        }
        text = rest;
    }
    let digits = text.strip_prefix(b"TF.MD5,")?.strip_suffix(b"*")?;
    let is_digest = digits.len() == 32 && digits.iter().all(u8::is_ascii_hexdigit);
    (raw.extended && is_digest).then_some((raw.place, digits))
}

/// The digest "of the file's bytes before that command, CR and LF left out" (decision 120).
pub fn digest_before(file: &[u8], place: usize) -> [u8; 16] {
    let bytes = file[..place].iter().copied();
    let message: Vec<u8> = bytes.filter(|byte| !is_line_end(*byte)).collect();
    md5::digest(&message)
}

#[cfg(test)]
mod tests {
    use super::*;

    fn verified(file: &[u8]) -> Result<[u8; 16], Refusal> {
        signature(file, Terms::PLAIN)
    }

    fn signed(text: &str, md5: &str) -> Vec<u8> {
        format!("{text}%TF.MD5,{md5}*\r\n%\nM02*\n").into_bytes()
    }

    #[test]
    fn line_ends_do_not_count() {
        let text = "G04 one*\r\n%MOMM*%\n";
        let digest = md5::hex(&md5::digest(b"G04 one*%MOMM*%"));
        assert!(verified(&signed(text, &digest)).is_ok());
        assert!(verified(&signed(text, &digest.to_uppercase())).is_ok());
        let wrong = signed(text, &"0".repeat(32));
        assert_eq!(verified(&wrong).err(), Some(Refusal::new(24, wrong.len() - 5)));
        for digits in [&digest[1..], "", &(digest.clone() + "0"), &(digest.clone() + ",1")] {
            let file = signed(text, digits);
            assert_eq!(verified(&file).err(), Some(Refusal::new(25, file.len() - 5)));
        }
    }

    #[test]
    fn unknown_commands_are_stepped_over() {
        assert_eq!(verified(b"M02*").err(), Some(Refusal::new(25, 0)));
        assert_eq!(verified(b"Q*M02*x").err(), Some(Refusal::new(25, 2)));
        assert_eq!(verified(b"Q*M02*\n\x01").err(), Some(Refusal::new(2, 7)));
        assert_eq!(verified(b"Q*").err(), Some(Refusal::new(3, 2)));
    }
}
