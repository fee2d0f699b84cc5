//! What a call on a file names: the edition and the rule of letters (requests [8] and [9] of
//! document 02).

use std::str;

#[derive(Clone, Copy, PartialEq, Eq, Debug)]
pub enum Edition {
    New,
    /// RS-274X of the old book.
    Old,
}

#[derive(Clone, Copy, PartialEq, Eq, Debug)]
pub enum Letters {
    /// Bytes 32 to 126 alone.
    Old,
    /// "attribute fields and G04 text may also hold well-formed UTF-8 from U+0080 up".
    New,
}

#[derive(Clone, Copy, PartialEq, Eq, Debug)]
pub struct Terms {
    pub edition: Edition,
    pub letters: Letters,
}

impl Terms {
    /// Where nothing is named: the newer edition and the old rule of letters.
    pub const PLAIN: Terms = Terms { edition: Edition::New, letters: Letters::Old };

    /// Takes `--edition new|old` and `--letters old|new` out of the words.
    pub fn taken(words: &[String]) -> Option<(Terms, Vec<String>)> {
        let mut terms = Terms::PLAIN;
        let mut others = Vec::new();
        let mut words = words.iter();
        while let Some(word) = words.next() {
            match word.as_str() {
                "--edition" => {
                    terms.edition = match words.next()?.as_str() {
                        "new" => Edition::New,
                        "old" => Edition::Old,
                        _ => return None,
                    }
                }
                "--letters" => {
                    terms.letters = match words.next()?.as_str() {
                        "old" => Letters::Old,
                        "new" => Letters::New,
                        _ => return None,
                    }
                }
                _ => others.push(word.clone()),
            }
        }
        Some((terms, others))
    }

    /// The words that name them, where they are not the plain ones.
    pub fn words(self) -> String {
        let edition = if self.edition == Edition::Old { " --edition old" } else { "" };
        let letters = if self.letters == Letters::New { " --letters new" } else { "" };
        format!("{edition}{letters}")
    }
}

/// The length of the well-formed sequence of a letter from U+0080 up that begins the bytes; "the
/// Unicode standard decides", as Rust's `str` has it (decision 403).
pub fn letter_length(bytes: &[u8]) -> Option<usize> {
    if bytes.first().is_none_or(u8::is_ascii) {
        return None;
    }
    let is_letter =
        |length: &usize| bytes.get(..*length).is_some_and(|b| str::from_utf8(b).is_ok());
    (2..=4).find(is_letter)
}

#[cfg(test)]
mod tests {
    use super::*;

    /// Every letter, written as table 3-7 says, and no other sequence of that length.
    #[test]
    fn letters_are_those_of_the_table() {
        let mut lengths = [0; 5];
        for letter in '\u{80}'..=char::MAX {
            let mut bytes = [0; 4];
            let written = letter.encode_utf8(&mut bytes).as_bytes();
            assert_eq!(letter_length(written), Some(written.len()));
            assert_eq!(letter_length(&written[..written.len() - 1]), None);
            lengths[written.len()] += 1;
        }
        assert_eq!(lengths, [0, 0, 0x780, 0x10000 - 0x800 - 0x800, 0x100000]);
        for bytes in [
            &b"\x80"[..],
            b"\xc0\x80",
            b"\xc1\xbf",
            b"\xe0\x9f\xbf",
            b"\xed\xa0\x80",
            b"a\x80",
            b"\xf0\x8f\xbf\xbf",
            b"\xf4\x90\x80\x80",
            b"\xf5\x80\x80\x80",
            b"\xff",
            b"\xc3(",
            b"",
        ] {
            assert_eq!(letter_length(bytes), None);
        }
    }
}
