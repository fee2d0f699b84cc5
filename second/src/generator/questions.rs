//! Questions about a file, in the words of the modes: rooms just large enough and one short, items
//! near both ends, attributes at commands and between them.

use super::random::Random;
use crate::command::{self, Command};
use crate::placement::placement;
use crate::rules::read;
use crate::scan::Scanner;
use crate::sheet::{Room, Sheet};
use crate::terms::Terms;

/// A placement list takes the time of the expansion.
const MOST_PLACED: u64 = 100_000;

pub fn questions(seed: u64, file: &[u8], terms: Terms) -> Vec<String> {
    let mut random = Random::new(seed, file.len() as u64);
    let mut questions = ["sheet", "numbers", "apertures", "label"].map(String::from).to_vec();
    if let Ok(sheet) = read(file, terms, Room::UNLIMITED) {
        rooms(&mut random, &sheet.used, &mut questions);
        items(&mut random, &sheet, &mut questions);
        addresses(&mut random, &sheet, &mut questions);
        summaries(&sheet, &mut questions);
        if sheet.total() <= MOST_PLACED {
            placements(file, terms, &mut questions);
        }
    }
    questions.push(String::from("mend"));
    attributes(&mut random, file, terms, &mut questions);
    questions.push(String::from("verify"));
    questions.iter().map(|question| question.clone() + &terms.words()).collect()
}

fn rooms(random: &mut Random, used: &Room, questions: &mut Vec<String>) {
    let used = [used.entries, used.apertures, used.macros, used.numbers];
    let mut ask = |room: [u64; 4]| {
        let [entries, apertures, macros, numbers] = room;
        questions.push(format!("sheet --room {entries},{apertures},{macros},{numbers}"));
    };
    ask(used);
    for part in 0..4 {
        let mut room = used;
        if used[part] > 0 {
            room[part] -= 1;
            ask(room);
            room[part] = random.below(used[part] as usize) as u64;
            ask(room);
        }
    }
}

fn items(random: &mut Random, sheet: &Sheet, questions: &mut Vec<String>) {
    let total = sheet.total();
    let mut ask = |k: u64| questions.push(format!("items {k} 3"));
    ask(0);
    ask(total);
    ask(total.saturating_sub(1));
    ask(total + random.next() % 1000);
    for _ in 0..3 {
        ask(random.next() % (total + 1));
    }
}

/// Addresses of items, and such with one word a little more or less.
fn addresses(random: &mut Random, sheet: &Sheet, questions: &mut Vec<String>) {
    for _ in 0..3 {
        let k = random.next() % (sheet.total() + 1);
        questions.push(format!("address {k}"));
        let Some(mut words) = sheet.address(k) else {
            continue;
        };
        let mut ask = |words: &[u64]| {
            let words: Vec<String> = words.iter().map(u64::to_string).collect();
            questions.push(format!("number {}", words.join(" ")));
        };
        ask(&words);
        ask(&words[..1 + random.below(3)]);
        let word = &mut words[random.below(4)];
        *word = random.pick(&[*word + 1, word.saturating_sub(1), 0]);
        ask(&words);
    }
}

/// In room enough, in just enough, and with a row too few.
fn summaries(sheet: &Sheet, questions: &mut Vec<String>) {
    let apertures = sheet.apertures.len();
    questions.push(String::from("summary"));
    questions.push(format!("summary --rows {}", apertures + 1));
    questions.push(format!("summary --rows {apertures}"));
}

/// In room enough, in just enough, and with a byte too few.
fn placements(file: &[u8], terms: Terms, questions: &mut Vec<String>) {
    questions.push(String::from("placement"));
    if let Ok(list) = placement(file, terms, u64::MAX) {
        questions.push(format!("placement --out {}", list.len()));
        questions.push(format!("placement --out {}", list.len().saturating_sub(1)));
    }
}

/// Places and names as they stand in the file, and some that do not.
fn attributes(random: &mut Random, file: &[u8], terms: Terms, questions: &mut Vec<String>) {
    let mut places = vec![0, file.len()];
    let mut names = vec![String::from("a")];
    if let Ok(mut scanner) = Scanner::new(file, terms) {
        while let Ok(raw) = scanner.next() {
            places.push(raw.place);
            match command::parse(&raw, terms.edition) {
                Ok(Command::ApertureAttribute(attribute) | Command::ObjectAttribute(attribute)) => {
                    names.push(String::from_utf8_lossy(attribute.name).into_owned());
                }
                Ok(Command::Define { .. } | Command::BlockOpen(_)) => {
                    // Asked more often: TA is held here.
                    places.extend([raw.place; 4]);
                }
                Ok(Command::End) => break,
                _ => {}
            }
        }
    }
    for _ in 0..8 {
        let place = match random.below(10) {
            0 => random.below(file.len() + 2),
            _ => random.pick(&places),
        };
        let name = &names[random.below(names.len())];
        questions.push(format!("attr {} {place} {name}", random.pick(&["TA", "TO"])));
    }
}
