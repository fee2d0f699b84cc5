//! Files with something broken: a byte changed, cut, doubled, a number changed, commands moved.

use super::random::Random;
use super::writer::Writer;
use crate::terms::Terms;

pub fn whole(mut random: Random, terms: Terms) -> Vec<u8> {
    let own = Random::new(random.next(), 0);
    let panel = random.percent(30);
    let mut file = if panel { Writer::panel(own, terms) } else { Writer::whole(own, terms) };
    for _ in 0..=random.below(2) {
        damage(&mut random, &mut file);
    }
    file
}

pub fn damage(random: &mut Random, file: &mut Vec<u8>) {
    if file.is_empty() {
        return;
    }
    let at = random.below(file.len());
    match random.below(10) {
        0 => file[at] = random.between(32, 126) as u8,
        1 => file[at] = random.between(0, 255) as u8,
        2 => {
            let byte = random.pick(b"0123456789XYIJDGM%*,.+-$x/()\r\n ");
            file.insert(at, byte);
        }
        3 => {
            file.remove(at);
        }
        4 => {
            let end = (at + 1 + random.below(20)).min(file.len());
            let part = file[at..end].to_vec();
            file.splice(at..at, part);
        }
        5 => {
            let end = (at + 1 + random.below(20)).min(file.len());
            file.drain(at..end);
        }
        6..=7 => change_number(random, file),
        8 => move_command(random, file),
        _ => file.truncate(at),
    }
}

/// The digits of one number become other digits.
fn change_number(random: &mut Random, file: &mut Vec<u8>) {
    let starts: Vec<usize> = (0..file.len())
        .filter(|at| file[*at].is_ascii_digit() && (*at == 0 || !file[*at - 1].is_ascii_digit()))
        .collect();
    if starts.is_empty() {
        return;
    }
    let start = random.pick(&starts);
    let length = file[start..].iter().take_while(|byte| byte.is_ascii_digit()).count();
    let other = match random.below(6) {
        0 => b"0".to_vec(),
        1 => [&file[start..start + length], b"0"].concat(),
        2 => [b"0", &file[start..start + length]].concat(),
        3 => random.between(0, 99).to_string().into_bytes(),
        4 => b"9".repeat(length),
        _ => file[start..start + length - 1].to_vec(),
    };
    file.splice(start..start + length, other);
}

/// A piece that ends in `*` is doubled, dropped, or moved to another place.
fn move_command(random: &mut Random, file: &mut Vec<u8>) {
    let mut pieces: Vec<Vec<u8>> =
        file.split_inclusive(|byte| *byte == b'*').map(<[u8]>::to_vec).collect();
    let from = random.below(pieces.len());
    let to = random.below(pieces.len());
    match random.below(3) {
        0 => {
            let piece = pieces[from].clone();
            pieces.insert(to, piece);
        }
        1 => {
            pieces.remove(from);
        }
        _ => pieces.swap(from, to),
    }
    *file = pieces.concat();
}
