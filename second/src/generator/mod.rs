//! The generator: files that keep the rules, damaged ones, nearly valid ones and soup, the same
//! for the same seed.

mod aimed;
mod broken;
mod components;
mod damage;
mod letters;
mod questions;
mod random;
mod soup;
mod text;
mod wild;
mod writer;

use std::fs;
use std::io;
use std::path::Path;

use crate::scan::LONGEST_FILE;
use crate::terms::{Letters, Terms};
pub use broken::broken;
pub use components::components;
pub use questions::questions;
use random::Random;
use writer::Writer;

/// One file in so many has the greatest length that is read, or one byte more.
const GIANT_EVERY: u64 = 10_000;

/// What a file is made for.
#[derive(Clone, Copy, PartialEq, Eq)]
pub enum Purpose {
    Reading,
    Mending,
    Placement,
}

/// Writes so many numbered files into the folder.
pub fn make(
    seed: u64,
    count: u64,
    folder: &Path,
    purpose: Purpose,
    terms: Terms,
) -> io::Result<()> {
    fs::create_dir_all(folder)?;
    let make_one = match purpose {
        Purpose::Reading => file,
        Purpose::Mending => broken,
        Purpose::Placement => components,
    };
    for index in 0..count {
        fs::write(folder.join(format!("{index:07}.gbr")), make_one(seed, index, terms))?;
    }
    Ok(())
}

/// The file of that number, for a reading under those terms.
pub fn file(seed: u64, index: u64, terms: Terms) -> Vec<u8> {
    let mut random = Random::new(seed, index);
    if index % GIANT_EVERY == GIANT_EVERY - 1 {
        return giant(random, (index / GIANT_EVERY) as usize, terms);
    }
    let mut own = Random::new(seed, !index);
    let mut file = match random.below(100) {
        0..=24 => Writer::whole(random, terms),
        25..=37 => Writer::panel(random, terms),
        38..=51 => damage::whole(random, terms),
        52..=79 => aimed::whole(random, terms),
        80..=92 => wild::whole(random, terms),
        _ => soup::whole(random, terms),
    };
    if terms.letters == Letters::New && own.percent(40) {
        letters::put_one(&mut own, &mut file, terms);
    }
    file
}

/// 1, or just not: a file that keeps the rules, filled up with LF.
fn giant(random: Random, which: usize, terms: Terms) -> Vec<u8> {
    let mut file = Writer::whole(random, terms);
    file.resize(LONGEST_FILE + 1 - which % 2, b'\n');
    file
}

#[cfg(test)]
const OLD: Terms = Terms { edition: crate::terms::Edition::Old, ..Terms::PLAIN };

/// All terms there are, for the tests.
#[cfg(test)]
pub const TERMS: [Terms; 4] = [
    Terms::PLAIN,
    Terms { letters: Letters::New, ..Terms::PLAIN },
    OLD,
    Terms { letters: Letters::New, ..OLD },
];

#[cfg(test)]
mod tests {
    use super::*;
    use crate::rules::read;
    use crate::sheet::{Item, Room};

    #[test]
    fn files_of_the_writer_keep_the_rules() {
        for index in 0..300 {
            for make in [Writer::whole, Writer::panel] {
                for terms in TERMS {
                    let file = make(Random::new(7, index), terms);
                    let refusal = read(&file, terms, Room::UNLIMITED).err();
                    assert_eq!(refusal, None, "{}", String::from_utf8_lossy(&file));
                }
            }
        }
    }

    /// What the old rule of letters accepts, the new one accepts with the same sheet; files of
    /// bytes below 127 the other way round too.
    #[test]
    fn the_rules_of_letters_share_their_sheets() {
        for index in 0..600 {
            for pair in TERMS.chunks(2) {
                let file = file(5, index, pair[1]);
                let old = read(&file, pair[0], Room::UNLIMITED);
                if old.is_ok() || file.iter().all(|byte| *byte < 127) {
                    assert_eq!(old, read(&file, pair[1], Room::UNLIMITED));
                }
            }
        }
    }

    /// What the newer edition accepts, the old one accepts with the same sheet.
    #[test]
    fn the_old_edition_takes_newer_files() {
        for index in 0..1000 {
            let file = file(9, index, Terms::PLAIN);
            let new = read(&file, Terms::PLAIN, Room::UNLIMITED);
            if new.is_ok() {
                assert_eq!(new, read(&file, OLD, Room::UNLIMITED));
            }
        }
    }

    /// Both ways to the items agree: writing all out, and counting.
    #[test]
    fn counting_finds_what_the_expansion_writes_out() {
        for index in 0..600 {
            let Ok(sheet) = read(&file(3, index, Terms::PLAIN), Terms::PLAIN, Room::UNLIMITED)
            else {
                continue;
            };
            let mut items: Vec<Item> = Vec::new();
            sheet.each_item(&mut |item| {
                items.push(item);
                items.len() < 500
            });
            assert_eq!(items.len() as u64, sheet.total().min(500));
            for (k, item) in items.iter().enumerate() {
                assert_eq!(sheet.item(k as u64).as_ref(), Some(item));
            }
            assert_eq!(sheet.item(sheet.total()), None);
        }
    }
}
