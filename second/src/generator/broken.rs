//! Broken files, as mending meets them: cut at every byte, FS and MO doubled, mail behind M02.

use super::damage;
use super::random::Random;
use super::writer::Writer;
use crate::scan::Scanner;
use crate::terms::Terms;

/// Every third file is a short one cut at one of its bytes, the files of a run of them at each.
const RUN: u64 = 600;

pub fn broken(seed: u64, index: u64, terms: Terms) -> Vec<u8> {
    if index % 3 == 0 {
        let nth = index / 3;
        let mut file = short(Random::new(seed, !(nth / RUN)), terms);
        let length = (nth % RUN) as usize % (file.len() + 1);
        file.truncate(length);
        return file;
    }
    let mut random = Random::new(seed, index);
    let own = Random::new(random.next(), 0);
    let mut file = if random.percent(50) { short(own, terms) } else { Writer::whole(own, terms) };
    for _ in 0..random.below(4) {
        repeat_header(&mut random, &mut file, terms);
    }
    match random.below(4) {
        0 => {
            let length = random.below(file.len() + 1);
            file.truncate(length);
        }
        1..=2 => file.extend(footer(&mut random)),
        _ => {}
    }
    if random.percent(10) {
        damage::damage(&mut random, &mut file);
    }
    file
}

fn short(random: Random, terms: Terms) -> Vec<u8> {
    let mut writer = Writer::new(random, terms);
    if writer.random.percent(70) {
        writer.header();
    }
    let steps = writer.random.below(12);
    writer.steps(steps);
    writer.finish();
    writer.file
}

/// One of the file's FS or MO once more, at the end of some command; now and then not quite.
fn repeat_header(random: &mut Random, file: &mut Vec<u8>, terms: Terms) {
    let code = random.pick(&["%FS", "%MO"]);
    let Some(start) = file.windows(3).position(|bytes| bytes == code.as_bytes()) else {
        return;
    };
    let Some(length) = file[start..].iter().position(|byte| *byte == b'*') else {
        return;
    };
    let text = String::from_utf8_lossy(&file[start..start + length]).into_owned();
    let end = random.pick(&["*%", "*%", "*%", "*%", "*%", "*\n%", "*\r\n%", "%", "**%", "\n*%"]);
    let other = random.pick(&["%MOMM", "%MOIN", "%FSLAX36Y36", "%FSTAX24Y24"]);
    let text = if random.percent(8) { other } else { &text };
    let at = match random.below(10) {
        0 => random.below(file.len() + 1),
        _ => random.pick(&command_ends(file, terms)),
    };
    file.splice(at..at, format!("{text}{end}").bytes());
}

/// The places behind the commands, and the first of all.
fn command_ends(file: &[u8], terms: Terms) -> Vec<usize> {
    let mut ends = vec![0];
    let mut scanner = Scanner::without_limit(file, terms);
    while let Ok(raw) = scanner.next() {
        ends.push(raw.place + raw.text.len() + if raw.extended { 2 } else { 1 });
    }
    ends
}

fn footer(random: &mut Random) -> Vec<u8> {
    let ends = random.pick(&["", "\n", "\r\n", "\r\n\r\n"]);
    let footers: [&[u8]; 9] = [
        b"-- \r\nSent from my desk\r\n", b"____\nThis mail is private.*\n", b"M02*\n", b"%TFa,b*%",
        b"\x1a", b"\xc3\xa9", b"A\x00\xff", b" ", b"",
    ];
    [ends.as_bytes(), random.pick(&footers)].concat()
}
