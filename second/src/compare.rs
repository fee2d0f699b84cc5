//! Many files at once: the batch, the census, and the comparisons.

use std::collections::BTreeMap;
use std::fs;
use std::io::{self, Write};
use std::path::{Path, PathBuf};

use crate::listing;
use crate::mend::mend;
use crate::question::{answer, asked};
use crate::rules::read;
use crate::sheet::{Room, Sheet};
use crate::terms::Terms;

/// Items whose lines a batch's hash covers.
const HASHED_ITEMS: u64 = 2000;

// ---------------------------------------------------------------- batch

/// Per file named in the list: its name, the `sheet` or `refused` line with spaces for tabs, and
/// the hash of its first item lines, or `-`.
pub fn batch(list: &str, terms: Terms, room: Room, out: &mut dyn Write) -> io::Result<()> {
    for name in list.lines().filter(|name| !name.is_empty()) {
        let file = fs::read(name)?;
        writeln!(out, "{}", batch_line(name, &file, terms, room))?;
    }
    Ok(())
}

fn batch_line(name: &str, file: &[u8], terms: Terms, room: Room) -> String {
    let (line, hash) = match read(file, terms, room) {
        Ok(sheet) => (listing::sheet_line(&sheet), format!("{:016x}", hash_of_items(&sheet))),
        Err(refusal) => (listing::refusal_line(refusal), String::from("-")),
    };
    format!("{name}\t{}\t{hash}", line.replace('\t', " "))
}

/// Per file named in the list: its name, and what `mend` answers on one line.
pub fn mends(list: &str, terms: Terms, room: Room, out: &mut dyn Write) -> io::Result<()> {
    for name in list.lines().filter(|name| !name.is_empty()) {
        let file = fs::read(name)?;
        writeln!(out, "{name}\t{}", mended_line(&file, terms, room))?;
    }
    Ok(())
}

/// Per byte of the last so many of a file: its place, and what `mend` answers of the file cut there.
pub fn cuts(
    file: &[u8],
    count: usize,
    terms: Terms,
    room: Room,
    out: &mut dyn Write,
) -> io::Result<()> {
    for length in file.len().saturating_sub(count)..file.len() {
        writeln!(out, "{length}\t{}", mended_line(&file[..length], terms, room))?;
    }
    Ok(())
}

fn mended_line(file: &[u8], terms: Terms, room: Room) -> String {
    let mut lines = Vec::new();
    match mend(file, terms, room) {
        Ok(mended) => listing::write_changes(&mut lines, &mended).expect("room for all bytes"),
        Err(refusal) => lines.extend(listing::refusal_line(refusal).bytes()),
    }
    String::from_utf8_lossy(&lines).trim_end().replace(['\t', '\n'], " ")
}

/// FNV-1a, 64 bits.
pub struct Fnv(pub u64);

impl Fnv {
    pub fn new() -> Fnv {
        Fnv(0xcbf2_9ce4_8422_2325)
    }
}

impl Write for Fnv {
    fn write(&mut self, bytes: &[u8]) -> io::Result<usize> {
        for byte in bytes {
            self.0 = (self.0 ^ u64::from(*byte)).wrapping_mul(0x0000_0100_0000_01b3);
        }
        Ok(bytes.len())
    }

    fn flush(&mut self) -> io::Result<()> {
        Ok(())
    }
}

fn hash_of_items(sheet: &Sheet) -> u64 {
    let mut hash = Fnv::new();
    listing::write_first_items(&mut hash, sheet, HASHED_ITEMS).expect("a hash takes all bytes");
    hash.0
}

/// Two batches of the same files, line by line.
pub fn compare(first: &str, second: &str, out: &mut dyn Write) -> io::Result<()> {
    let mut tally = Tally::default();
    let (mut left, mut right) = (first.lines(), second.lines());
    loop {
        match (left.next(), right.next()) {
            (None, None) => break,
            (one, other) if one == other => tally.agree += 1,
            (one, other) => {
                tally.differ += 1;
                writeln!(out, "< {}", one.unwrap_or("(no line)"))?;
                writeln!(out, "> {}", other.unwrap_or("(no line)"))?;
            }
        }
    }
    tally.write(out)
}

// ---------------------------------------------------------------- census

/// How many files of a folder are accepted and how many refused with each number.
pub fn census(folder: &Path, terms: Terms, room: Room, out: &mut dyn Write) -> io::Result<()> {
    let mut counts = BTreeMap::new();
    let files = files_of(folder, "gbr")?;
    for path in &files {
        let number = match read(&fs::read(path)?, terms, room) {
            Ok(_) => 0,
            Err(refusal) => refusal.number,
        };
        *counts.entry(number).or_insert(0u64) += 1;
    }
    for number in (0..=19).chain(29..=31) {
        let count = counts.get(&number).copied().unwrap_or(0);
        writeln!(out, "{number}\t{count}")?;
    }
    writeln!(out, "files\t{}", files.len())
}

fn files_of(folder: &Path, extension: &str) -> io::Result<Vec<PathBuf>> {
    let mut files = Vec::new();
    for entry in fs::read_dir(folder)? {
        let path = entry?.path();
        if path.extension().is_some_and(|found| found == extension) {
            files.push(path);
        }
    }
    files.sort();
    Ok(files)
}

// ---------------------------------------------------------------- cases

#[derive(Default)]
struct Tally {
    agree: u64,
    differ: u64,
}

impl Tally {
    fn write(&self, out: &mut dyn Write) -> io::Result<()> {
        writeln!(out, "{} agree, {} differ", self.agree, self.differ)
    }
}

/// All cases of a folder: NAME.expected is the answer to NAME.args, or to `list` where there is no
/// such file. It is about the file that is named like it up to the first point.
pub fn check_cases(folder: &Path, out: &mut dyn Write) -> io::Result<()> {
    let mut tally = Tally::default();
    for expected in files_of(folder, "expected")? {
        let arguments = expected.with_extension("args");
        let words = match arguments.exists() {
            true => fs::read_to_string(&arguments)?,
            false => String::from("list"),
        };
        let name = name_of(&expected.with_extension(""));
        let stem = name.split('.').next().unwrap_or_default();
        let file = fs::read(folder.join(stem).with_extension("gbr"))?;
        if check(&name, &words, &file, &fs::read(&expected)?, out)? {
            tally.agree += 1;
        } else {
            tally.differ += 1;
        }
    }
    tally.write(out)
}

fn name_of(path: &Path) -> String {
    path.file_name().unwrap_or_default().to_string_lossy().into_owned()
}

/// Whether the answer is the expected one; if not, both are shown.
fn check(
    name: &str,
    words: &str,
    file: &[u8],
    expected: &[u8],
    out: &mut dyn Write,
) -> io::Result<bool> {
    let words: Vec<String> = words.split_whitespace().map(String::from).collect();
    let mut given = Vec::new();
    match asked(&words) {
        Some(asked) => answer(&asked, file, &mut given)?,
        None => given.extend_from_slice(b"no such question\n"),
    }
    if given == expected {
        return Ok(true);
    }
    writeln!(out, "{name}: {}", words.join(" "))?;
    writeln!(out, "  expected {}", String::from_utf8_lossy(expected).replace('\n', " | "))?;
    writeln!(out, "  given    {}", String::from_utf8_lossy(&given).replace('\n', " | "))?;
    Ok(false)
}
