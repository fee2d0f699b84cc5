//! Bytes and ends: document 01, the numbers 1, 2, 3 and 18, and the rule on CR and LF in "Form".
//!
//! The extent of a command is found first, so 2 and 3 are given before its text is judged
//! (decision 1).

use crate::command;
use crate::terms::{letter_length, Letters, Terms};

/// "file longer than 16,777,216 bytes" (decision 15).
pub const LONGEST_FILE: usize = 16_777_216;

/// A refusal of the reading: one of document 01's numbers, and its place in the file.
#[derive(Clone, Copy, PartialEq, Eq, Debug)]
pub struct Refusal {
    pub number: u32,
    pub place: usize,
}

impl Refusal {
    pub fn new(number: u32, place: usize) -> Refusal {
        Refusal { number, place }
    }
}

/// A command as its bytes stand in the file.
#[derive(Clone, Copy, Debug)]
pub struct Raw<'a> {
    /// The first byte of the command, `%` for an extended one.
    pub place: usize,
    pub extended: bool,
    /// A word command without its `*`; an extended command without its two `%`.
    pub text: &'a [u8],
}

pub fn is_line_end(byte: u8) -> bool {
    byte == b'\r' || byte == b'\n'
}

pub fn is_printable(byte: u8) -> bool {
    (32..=126).contains(&byte)
}

/// Steps through a file, a command at a time.
pub struct Scanner<'a> {
    file: &'a [u8],
    terms: Terms,
    at: usize,
}

impl<'a> Scanner<'a> {
    /// 1: "file longer than 16,777,216 bytes; place 0".
    pub fn new(file: &'a [u8], terms: Terms) -> Result<Scanner<'a>, Refusal> {
        if file.len() > LONGEST_FILE {
            return Err(Refusal::new(1, 0));
        }
        Ok(Scanner::without_limit(file, terms))
    }

    /// The same, for a call that does not give 1 (decision 116).
    pub fn without_limit(file: &'a [u8], terms: Terms) -> Scanner<'a> {
        Scanner { file, terms, at: 0 }
    }

    /// The next command, or 2 or 3. Without a further command it is 3 at the length (decision 14).
    pub fn next(&mut self) -> Result<Raw<'a>, Refusal> {
        self.skip_line_ends();
        match self.file.get(self.at) {
            None => Err(self.ended()),
            Some(b'%') => self.extended(),
            Some(_) => self.word(),
        }
    }

    /// What stands after M02: nothing but CR and LF, else 2 or 18 at the first other byte
    /// (decision 12).
    pub fn tail(&mut self) -> Result<(), Refusal> {
        self.skip_line_ends();
        match self.file.get(self.at) {
            None => Ok(()),
            Some(byte) if is_printable(*byte) => Err(Refusal::new(18, self.at)),
            Some(_) => Err(Refusal::new(2, self.at)),
        }
    }

    fn ended(&self) -> Refusal {
        Refusal::new(3, self.file.len())
    }

    /// CR and LF are skipped between commands, in any number (decision 5).
    fn skip_line_ends(&mut self) {
        while self.at < self.file.len() && is_line_end(self.file[self.at]) {
            self.at += 1;
        }
    }

    /// A word command runs to the first `*` (decision 4).
    fn word(&mut self) -> Result<Raw<'a>, Refusal> {
        let place = self.at;
        let is_comment = command::is_comment(&self.file[place..], self.terms.edition);
        let mut at = place;
        while at < self.file.len() {
            if self.file[at] == b'*' {
                self.at = at + 1;
                let text = &self.file[place..at];
                return Ok(Raw { place, extended: false, text });
            }
            at += self.length_at(at, is_comment)?;
        }
        Err(self.ended())
    }

    /// The bytes of what stands there: one from 32 to 126, or a letter where the rule lets one
    /// stand; else 2 at its first byte (decision 404).
    fn length_at(&self, at: usize, may_be_letter: bool) -> Result<usize, Refusal> {
        let letter = match self.terms.letters {
            Letters::New if may_be_letter => letter_length(&self.file[at..]),
            _ => None,
        };
        let length = letter.or_else(|| is_printable(self.file[at]).then_some(1));
        length.ok_or(Refusal::new(2, at))
    }

    /// An extended command runs to the very next `%` (decision 2). CR and LF may stand in it after
    /// `*`, and in AM after a comma, in any number (decisions 6 to 9). The fields of an attribute
    /// stand between its first comma and its first `*` (decision 401).
    fn extended(&mut self) -> Result<Raw<'a>, Refusal> {
        let place = self.at;
        let code = self.file.get(place + 1..place + 3).unwrap_or_default();
        let in_macro = code == b"AM";
        let mut before_fields = matches!(code, b"TF" | b"TA" | b"TO");
        let mut in_fields = false;
        let mut line_end_permitted = false;
        let mut at = place + 1;
        while at < self.file.len() {
            let byte = self.file[at];
            if byte == b'%' {
                self.at = at + 1;
                let text = &self.file[place + 1..at];
                return Ok(Raw { place, extended: true, text });
            }
            if is_line_end(byte) && line_end_permitted {
                at += 1;
                continue;
            }
            at += self.length_at(at, in_fields)?;
            in_fields = byte != b'*' && (in_fields || (before_fields && byte == b','));
            before_fields = before_fields && byte != b'*';
            line_end_permitted = byte == b'*' || (byte == b',' && in_macro);
        }
        Err(self.ended())
    }
}

#[cfg(test)]
mod tests {
    use super::*;

    /// The commands before the first refusal, and that refusal.
    fn scanned(file: &[u8]) -> (usize, Refusal) {
        let mut scanner = Scanner::without_limit(file, Terms::PLAIN);
        let mut commands = 0;
        loop {
            match scanner.next() {
                Ok(_) => commands += 1,
                Err(refusal) => return (commands, refusal),
            }
        }
    }

    #[test]
    fn extents_come_first() {
        assert_eq!(scanned(b""), (0, Refusal::new(3, 0)));
        assert_eq!(scanned(b"\r\n\n"), (0, Refusal::new(3, 3)));
        assert_eq!(scanned(b"G99"), (0, Refusal::new(3, 3)));
        assert_eq!(scanned(b"G99\x01*"), (0, Refusal::new(2, 3)));
        assert_eq!(scanned(b"G99*\x01"), (1, Refusal::new(2, 4)));
        assert_eq!(scanned(b"%TFa,50%"), (1, Refusal::new(3, 8)));
        assert_eq!(scanned(b"%\nMOMM*%"), (0, Refusal::new(2, 1)));
    }

    #[test]
    fn line_ends_stand_after_stars_and_in_macros_after_commas() {
        assert_eq!(scanned(b"%MOMM*\r\n\n%"), (1, Refusal::new(3, 10)));
        assert_eq!(scanned(b"%TFa,\nb*%"), (0, Refusal::new(2, 5)));
        assert_eq!(scanned(b"%AMa*\n1,\r\n1*\n%"), (1, Refusal::new(3, 14)));
        assert_eq!(scanned(b"%AMa*\n1\n,1*%"), (0, Refusal::new(2, 7)));
    }

    #[test]
    fn letters_stand_in_fields_and_comments() {
        let terms = Terms { letters: Letters::New, ..Terms::PLAIN };
        let refused = |file: &[u8]| {
            let mut scanner = Scanner::without_limit(file, terms);
            loop {
                if let Err(refusal) = scanner.next() {
                    return (refusal.number, refusal.place);
                }
            }
        };
        assert_eq!(refused("%TOa,é,é*%G04é*G04 é*".as_bytes()), (3, 25));
        assert_eq!(refused("%TOé,é*%".as_bytes()), (2, 3));
        assert_eq!(refused("%TOa,b*é%".as_bytes()), (2, 7));
        assert_eq!(refused("%TO*,é%".as_bytes()), (2, 5));
        assert_eq!(refused("%TDa,é%".as_bytes()), (2, 5));
        assert_eq!(refused("%AMa*0,é*%".as_bytes()), (2, 7));
        assert_eq!(refused("G01é*".as_bytes()), (2, 3));
        assert_eq!(refused(b"G04 \xc3*"), (2, 4));
        assert_eq!(refused(b"%TFa,\xc3\xa9\xa9*%"), (2, 7));
        assert_eq!(refused(b"G04 \xc3\xa9\x7f*"), (2, 6));
        assert_eq!(refused(b"G04 \xc3"), (2, 4));
    }

    #[test]
    fn the_first_byte_after_m02_decides() {
        let tail = |file| {
            let mut scanner = Scanner::without_limit(file, Terms::PLAIN);
            scanner.next().expect("M02");
            scanner.tail()
        };
        assert_eq!(tail(b"M02*\r\n"), Ok(()));
        assert_eq!(tail(b"M02*\nA\x00"), Err(Refusal::new(18, 5)));
        assert_eq!(tail(b"M02*\x00A"), Err(Refusal::new(2, 4)));
    }
}
