//! A question about one file: a mode's words and its answer.

use std::io::{self, Write};

use crate::address::{Address, WORDS};
use crate::attribute::{attribute, file_attributes, Held};
use crate::listing;
use crate::md5;
use crate::mend::mend;
use crate::placement::placement;
use crate::rules::read;
use crate::scan::Refusal;
use crate::sheet::{Room, Sheet};
use crate::signature::signature;
use crate::terms::Terms;

pub enum Question {
    List { room: Room, limit: u64, longest: usize },
    Sheet { room: Room },
    Items { k: u64, count: u64 },
    Address { k: u64 },
    Number { address: Address },
    Numbers,
    Attribute { word: String, held: Held, place: usize, name: String },
    Verify,
    Summary { rows: u64 },
    Mend { raw: bool, room: Room },
    Placement { bytes: u64 },
    Apertures,
    Label,
}

/// A question, and the edition and letters that it names.
pub struct Asked {
    pub terms: Terms,
    pub question: Question,
}

/// What the words ask, or nothing.
pub fn asked(words: &[String]) -> Option<Asked> {
    let (terms, words) = Terms::taken(words)?;
    Some(Asked { terms, question: question(&words)? })
}

fn question(words: &[String]) -> Option<Question> {
    let (mode, rest) = words.split_first()?;
    match mode.as_str() {
        "list" => list(rest),
        "sheet" => Some(Question::Sheet { room: only_room(rest)? }),
        "items" => match rest {
            [k, count] => Some(Question::Items { k: k.parse().ok()?, count: count.parse().ok()? }),
            _ => None,
        },
        "address" => match rest {
            [k] => Some(Question::Address { k: k.parse().ok()? }),
            _ => None,
        },
        "number" => Some(Question::Number { address: address_of(rest)? }),
        "numbers" if rest.is_empty() => Some(Question::Numbers),
        "attribute" | "attr" => match rest {
            [held, place, name] => Some(Question::Attribute {
                word: mode.clone(),
                held: held_of(held)?,
                place: place.parse().ok()?,
                name: name.clone(),
            }),
            _ => None,
        },
        "verify" if rest.is_empty() => Some(Question::Verify),
        "apertures" if rest.is_empty() => Some(Question::Apertures),
        "label" if rest.is_empty() => Some(Question::Label),
        "mend" => match rest.split_first() {
            Some((word, rest)) if word == "--raw" => {
                Some(Question::Mend { raw: true, room: only_room(rest)? })
            }
            _ => Some(Question::Mend { raw: false, room: only_room(rest)? }),
        },
        "placement" => match rest {
            [] => Some(Question::Placement { bytes: u64::MAX }),
            [word, bytes] if word == "--out" => {
                Some(Question::Placement { bytes: bytes.parse().ok()? })
            }
            _ => None,
        },
        "summary" => match rest {
            [] => Some(Question::Summary { rows: u64::MAX }),
            [word, rows] if word == "--rows" => {
                Some(Question::Summary { rows: rows.parse().ok()? })
            }
            _ => None,
        },
        _ => None,
    }
}

fn list(words: &[String]) -> Option<Question> {
    let (mut room, mut limit) = (Room::UNLIMITED, u64::MAX);
    let mut longest = listing::LISTING_LIMIT;
    let mut words = words.iter();
    while let Some(word) = words.next() {
        match word.as_str() {
            "--room" => room = room_of(words.next()?)?,
            "--limit" => limit = words.next()?.parse().ok()?,
            "--long" => longest = usize::MAX,
            _ => return None,
        }
    }
    Some(Question::List { room, limit, longest })
}

/// `--room E,A,M,N`, or nothing: room without limit.
pub fn only_room(words: &[String]) -> Option<Room> {
    match words {
        [] => Some(Room::UNLIMITED),
        [word, room] if word == "--room" => room_of(room),
        _ => None,
    }
}

fn room_of(text: &str) -> Option<Room> {
    let parts: Option<Vec<u64>> = text.split(',').map(|part| part.parse().ok()).collect();
    match parts?[..] {
        [entries, apertures, macros, numbers] => Some(Room { entries, apertures, macros, numbers }),
        _ => None,
    }
}

/// The copy and as many positions as are given; the others are 0.
fn address_of(words: &[String]) -> Option<Address> {
    if words.is_empty() || words.len() > WORDS {
        return None;
    }
    let mut address = [0; WORDS];
    for (word, text) in address.iter_mut().zip(words) {
        *word = text.parse().ok()?;
    }
    Some(address)
}

fn held_of(text: &str) -> Option<Held> {
    match text {
        "TA" => Some(Held::Aperture),
        "TO" => Some(Held::Object),
        _ => None,
    }
}

/// Writes the answer for the file.
pub fn answer(asked: &Asked, file: &[u8], out: &mut dyn Write) -> io::Result<()> {
    let terms = asked.terms;
    let mut of_sheet =
        |room: Room, write: &dyn Fn(&mut dyn Write, &Sheet) -> io::Result<()>| match read(
            file, terms, room,
        ) {
            Ok(sheet) => write(out, &sheet),
            Err(refusal) => writeln!(out, "{}", listing::refusal_line(refusal)),
        };
    match &asked.question {
        Question::List { longest, .. } if file.len() > *longest => {
            writeln!(out, "{}", listing::refusal_line(Refusal::new(1, 0)))
        }
        Question::List { room, limit, .. } => {
            of_sheet(*room, &|out, sheet| listing::write_listing(out, sheet, *limit))
        }
        Question::Sheet { room } => {
            of_sheet(*room, &|out, sheet| writeln!(out, "{}", listing::sheet_line(sheet)))
        }
        Question::Items { k, count } => {
            of_sheet(Room::UNLIMITED, &|out, sheet| listing::write_items(out, sheet, *k, *count))
        }
        Question::Address { k } => of_sheet(Room::UNLIMITED, &|out, sheet| {
            writeln!(out, "{}", listing::address_line(sheet, *k))
        }),
        Question::Number { address } => of_sheet(Room::UNLIMITED, &|out, sheet| {
            writeln!(out, "{}", listing::number_line(sheet, address))
        }),
        Question::Numbers => of_sheet(Room::UNLIMITED, &listing::write_numbers),
        Question::Apertures => of_sheet(Room::UNLIMITED, &listing::write_apertures),
        Question::Label => match file_attributes(file, terms) {
            Ok(attributes) => attributes
                .into_iter()
                .try_for_each(|(name, value)| out.write_all(&[name, b"\t", value, b"\n"].concat())),
            Err(number) => writeln!(out, "refused\t{number}"),
        },
        Question::Summary { rows } => {
            of_sheet(Room::UNLIMITED, &|out, sheet| listing::write_summary(out, sheet, *rows))
        }
        Question::Attribute { word, held, place, name } => {
            match attribute(file, terms, *held, *place, name.as_bytes()) {
                Ok(answer) => writeln!(out, "{word}\t{}\t{}", answer.place, answer.length),
                Err(number) => writeln!(out, "refused\t{number}"),
            }
        }
        Question::Mend { raw, room } => match mend(file, terms, *room) {
            Ok(mended) if *raw => out.write_all(&mended.file),
            Ok(mended) => listing::write_changes(out, &mended),
            Err(refusal) => writeln!(out, "{}", listing::refusal_line(refusal)),
        },
        Question::Placement { bytes } => match placement(file, terms, *bytes) {
            Ok(list) => out.write_all(&list),
            Err(refusal) => writeln!(out, "{}", listing::refusal_line(refusal)),
        },
        Question::Verify => match signature(file, terms) {
            Ok(digest) => writeln!(out, "signed\t{}", md5::hex(&digest)),
            Err(refusal) => writeln!(out, "{}", listing::refusal_line(refusal)),
        },
    }
}
