//! The second reader: document 01 read by a program that shares no code with the proved reader.

mod address;
mod arc;
mod attribute;
mod command;
mod compare;
mod generator;
mod listing;
mod macros;
mod md5;
mod mend;
mod number;
mod placement;
mod question;
mod rules;
mod scan;
mod sheet;
mod short;
mod signature;
mod state;
mod summary;
mod templates;
mod terms;

use std::env;
use std::fs;
use std::io::{self, BufWriter, Read, Write};
use std::path::Path;
use std::process::ExitCode;

use generator::Purpose;
use terms::Terms;

const USAGE: &str = "\
second MODE, with the file on standard input:
  list [--room E,A,M,N] [--limit N] [--long]   the listing; --long reads past 65,536 bytes
  sheet [--room E,A,M,N]                       unit, total, records and numbers used, decimals rounded
  items K COUNT                                the listing's lines of those items
  address K                                    the copy of item K and its positions
  number COPY [POSITION..]                     the number of the item with that address
  numbers                                      the numbers kept, a line per AD
  attribute TA|TO PLACE NAME                   place and length of a value (also: attr)
  verify                                       the digest, if the file bears it
  apertures                                    what each aperture is, worked out
  label                                        the file attributes
  placement [--out BYTES]                      the placement list of a component layer
  mend [--raw] [--room E,A,M,N]                what was changed, bytes and MD5 of the mended file; or that file
  cuts COUNT [--room E,A,M,N]                  what mend answers of the file cut at each of its last so many bytes
  summary [--rows N]                           per aperture, then for all regions: how many items, and their bounds
  questions SEED                               some questions about the file, a line each
with a list of file names on standard input:
  batch [--room E,A,M,N]                       a line per file: name, sheet or refusal, hash
  mends [--room E,A,M,N]                       a line per file: name, what mend answers
on folders and files:
  make SEED COUNT DIR [--for mend|placement]   writes generated files, broken ones, or component layers
  census DIR [--room E,A,M,N]                  how many files are answered with each number
  check-cases DIR                              runs the cases of the folder
  short N                                      every string of up to N bytes: how many, and a hash of the answers
  letters N                                    the same of every field of up to N bytes from 128 up, a line per length
  compare FILE FILE                            two outputs of batch, line by line
Whatever reads, asks about or makes files takes --edition new|old and --letters old|new too; new and old where not said.";

fn main() -> ExitCode {
    let words: Vec<String> = env::args().skip(1).collect();
    let mut out = BufWriter::new(io::stdout().lock());
    let outcome = run(&words, &mut out).and_then(|known| out.flush().map(|()| known));
    match outcome {
        Ok(true) => ExitCode::SUCCESS,
        Ok(false) => {
            eprintln!("{USAGE}");
            ExitCode::from(2)
        }
        Err(error) if error.kind() == io::ErrorKind::BrokenPipe => ExitCode::SUCCESS,
        Err(error) => {
            eprintln!("second: {error}");
            ExitCode::FAILURE
        }
    }
}

/// Standard input, whole.
fn input() -> io::Result<Vec<u8>> {
    let mut file = Vec::new();
    io::stdin().lock().read_to_end(&mut file)?;
    Ok(file)
}

/// What generated files are for.
fn purpose(words: &[String]) -> Option<Purpose> {
    let words: Vec<&str> = words.iter().map(String::as_str).collect();
    match words[..] {
        [] => Some(Purpose::Reading),
        ["--for", "mend"] => Some(Purpose::Mending),
        ["--for", "placement"] => Some(Purpose::Placement),
        _ => None,
    }
}

/// False when the words are no mode.
fn run(words: &[String], out: &mut dyn Write) -> io::Result<bool> {
    if let Some(asked) = question::asked(words) {
        question::answer(&asked, &input()?, out)?;
        return Ok(true);
    }
    let Some((terms, words)) = Terms::taken(words) else {
        return Ok(false);
    };
    let Some((mode, rest)) = words.split_first() else {
        return Ok(false);
    };
    match (mode.as_str(), rest) {
        ("batch", rest) => {
            let Some(room) = question::only_room(rest) else {
                return Ok(false);
            };
            let list = io::read_to_string(io::stdin().lock())?;
            compare::batch(&list, terms, room, out)?;
        }
        ("mends", rest) => {
            let Some(room) = question::only_room(rest) else {
                return Ok(false);
            };
            let list = io::read_to_string(io::stdin().lock())?;
            compare::mends(&list, terms, room, out)?;
        }
        ("cuts", [count, rest @ ..]) => {
            let (Ok(count), Some(room)) = (count.parse(), question::only_room(rest)) else {
                return Ok(false);
            };
            compare::cuts(&input()?, count, terms, room, out)?;
        }
        ("census", [folder, rest @ ..]) => {
            let Some(room) = question::only_room(rest) else {
                return Ok(false);
            };
            compare::census(Path::new(folder), terms, room, out)?;
        }
        ("questions", [seed]) => {
            let Ok(seed) = seed.parse() else {
                return Ok(false);
            };
            for question in generator::questions(seed, &input()?, terms) {
                writeln!(out, "{question}")?;
            }
        }
        ("make", [seed, count, folder, rest @ ..]) => {
            let (Ok(seed), Ok(count), Some(purpose)) = (seed.parse(), count.parse(), purpose(rest))
            else {
                return Ok(false);
            };
            generator::make(seed, count, Path::new(folder), purpose, terms)?;
        }
        ("short", [longest]) => {
            let Ok(longest) = longest.parse() else {
                return Ok(false);
            };
            short::short(longest, terms, out)?;
        }
        ("letters", [longest]) => {
            let Ok(longest) = longest.parse() else {
                return Ok(false);
            };
            short::letters(longest, terms, out)?;
        }
        ("check-cases", [folder]) => compare::check_cases(Path::new(folder), out)?,
        ("compare", [first, second]) => {
            compare::compare(&fs::read_to_string(first)?, &fs::read_to_string(second)?, out)?;
        }
        _ => return Ok(false),
    }
    Ok(true)
}
