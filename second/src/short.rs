//! Every string of bytes up to a length: how many there are, and a hash of all the answers.

use std::io::{self, Write};

use crate::compare::Fnv;
use crate::rules::read;
use crate::sheet::Room;
use crate::terms::Terms;

/// The strings as files, by length, then in the order of their bytes; each adds its number and its place, a byte each, to the hash.
pub fn short(longest: usize, terms: Terms, out: &mut dyn Write) -> io::Result<()> {
    let mut hash = Fnv::new();
    let mut count: u64 = 0;
    for length in 0..=longest {
        let mut file = vec![0; length];
        loop {
            let (number, place) = answered(&file, terms);
            hash.write_all(&[number, place])?;
            count += 1;
            if !next(&mut file, 0) {
                break;
            }
        }
    }
    writeln!(out, "short\t{longest}\t{count}\t{:016x}", hash.0)
}

/// The strings of bytes from 128 up, each as a field: `%TFa,` string `*%` is a file without M02, refused with 2 at the fault or with 3. A
/// line per length and half, 1 for the strings whose first byte is below 192: how many strings, how many of them without fault, and the hash
/// as above.
pub fn letters(longest: usize, terms: Terms, out: &mut dyn Write) -> io::Result<()> {
    const HEAD: &[u8] = b"%TFa,";
    for length in 1..=longest {
        let mut file = [HEAD, &vec![128; length], b"*%"].concat();
        for (half, past) in [(1, Some(192)), (2, None)] {
            let mut hash = Fnv::new();
            let (mut count, mut good): (u64, u64) = (0, 0);
            loop {
                let (number, place) = answered(&file, terms);
                hash.write_all(&[number, place])?;
                count += 1;
                good += u64::from(number != 2);
                if !next(&mut file[HEAD.len()..][..length], 128) || past == Some(file[HEAD.len()]) {
                    break;
                }
            }
            writeln!(out, "letters\t{length}\t{half}\t{count}\t{good}\t{:016x}", hash.0)?;
        }
    }
    Ok(())
}

/// The number and place, a byte each; 0 and 0 where the file is accepted.
fn answered(file: &[u8], terms: Terms) -> (u8, u8) {
    match read(file, terms, Room::NONE) {
        Ok(_) => (0, 0),
        Err(refusal) => (refusal.number as u8, refusal.place as u8),
    }
}

/// The next string of the same length of bytes from the least up; false after the last.
fn next(text: &mut [u8], least: u8) -> bool {
    for byte in text.iter_mut().rev() {
        if *byte < 255 {
            *byte += 1;
            return true;
        }
        *byte = least;
    }
    false
}
