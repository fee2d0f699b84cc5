//! Letters beyond ASCII: well-formed ones where they may stand, and others, and elsewhere.

use super::random::Random;
use crate::command::{self, Command};
use crate::scan::Scanner;
use crate::terms::Terms;

/// A well-formed letter; the first and last of every row of the Unicode standard's table 3-7 among
/// them, and noncharacters.
pub fn letter(random: &mut Random) -> char {
    const ENDS: &[char] = &[
        '\u{80}', '\u{9f}', 'é', '\u{7ff}', '\u{800}', '\u{fff}', '\u{1000}', '\u{cfff}',
        '\u{d000}', '\u{d7ff}', '\u{e000}', '\u{feff}', '\u{fffe}', '\u{ffff}', '\u{10000}',
        '\u{3ffff}', '\u{40000}', '\u{fffff}', '\u{100000}', '\u{10ffff}',
    ];
    if random.percent(40) {
        return random.pick(ENDS);
    }
    let greatest = random.pick(&[0x7ff, 0xffff, 0x10ffff]);
    // A surrogate is none.
    char::from_u32(random.between(0x80, greatest) as u32).unwrap_or('ß')
}

/// Lone bytes, cut letters, overlong forms, surrogates, what lies past the last letter.
const ILL_FORMED: &[&[u8]] = &[
    b"\x80", b"\xbf", b"\xc2", b"\xdf", b"\xe0\xa0", b"\xe1\x80", b"\xed\x9f", b"\xef\xbf",
    b"\xf0\x90\x80", b"\xf1\x80\x80", b"\xf4\x8f\xbf", b"\xf4", b"\xc0\x80", b"\xc1\xbf",
    b"\xe0\x80\x80", b"\xe0\x9f\xbf", b"\xf0\x80\x80\x80", b"\xf0\x8f\xbf\xbf", b"\xed\xa0\x80",
    b"\xed\xbf\xbf", b"\xf4\x90\x80\x80", b"\xf5\x80\x80\x80", b"\xf8\x88\x80\x80\x80", b"\xfe",
    b"\xff", b"\xc3\xa9\xa9", b"\xe2\x82\xac\x80", b"\xc2\xc2\xa9", b"\xe1\xc3\xa9", b"\x7f",
];

/// Puts a letter, or what is none, into a field, a comment, a name, a macro, or anywhere.
pub fn put_one(random: &mut Random, file: &mut Vec<u8>, terms: Terms) {
    let bytes = match random.below(3) {
        0 => letter(random).to_string().into_bytes(),
        1 => random.pick(ILL_FORMED).to_vec(),
        _ => (0..=random.below(4)).map(|_| random.between(128, 255) as u8).collect(),
    };
    let (places, others) = places(file, terms);
    let at = match random.below(10) {
        0..=6 if !places.is_empty() => random.pick(&places),
        7..=8 if !others.is_empty() => random.pick(&others),
        _ => random.below(file.len() + 1),
    };
    file.splice(at..at, bytes);
}

/// The places of fields and comments; those of names and macros.
fn places(file: &[u8], terms: Terms) -> (Vec<usize>, Vec<usize>) {
    let (mut places, mut others) = (Vec::new(), Vec::new());
    let mut scanner = Scanner::without_limit(file, terms);
    while let Ok(raw) = scanner.next() {
        let end = raw.place + raw.text.len();
        match command::parse(&raw, terms.edition) {
            Ok(Command::Comment) => places.extend(raw.place + 3..=end),
            Ok(
                Command::FileAttribute(attribute)
                | Command::ApertureAttribute(attribute)
                | Command::ObjectAttribute(attribute),
            ) => {
                let comma = raw.place + 3 + attribute.name.len();
                others.extend(raw.place + 1..=comma);
                places.extend(comma + 1..=end);
            }
            Ok(Command::Macro(_) | Command::DeleteAttribute(_)) => {
                others.extend(raw.place + 1..=end);
            }
            Ok(Command::End) => {
                others.push(end + 1);
                break;
            }
            _ => {}
        }
    }
    (places, others)
}
