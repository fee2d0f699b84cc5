//! Blocks: 14, 15 and 16.

use crate::generator::random::Random;
use crate::generator::text;
use crate::generator::writer::{Known, Shape, Writer};
use crate::number::ONE;

pub fn orientations(writer: &mut Writer) {
    if writer.random.percent(60) {
        writer.open_block();
        if writer.random.percent(70) {
            writer.flash();
        }
        writer.close();
    }
    let is_block = |known: &&Known| matches!(known.shape, Shape::Block { .. });
    if let Some(block) = writer.apertures.iter().rev().find(is_block).copied() {
        writer.take(block);
    }
    writer.mirror();
    let quarter = writer.random.between(-8, 8) * 90 * ONE;
    let angle = quarter + writer.random.pick(&[0, 0, 0, 1, -1, 45 * ONE]);
    writer.rotate(angle);
    if writer.random.percent(40) {
        let scale = writer.random.pick(&[ONE, ONE, ONE + 1, ONE - 1, 2 * ONE]);
        writer.set_scale(scale);
    }
    let target = writer.new_point();
    if writer.aperture.is_some() {
        writer.operate("D03", target, None);
    }
}

pub fn depths(writer: &mut Writer) {
    match writer.random.below(3) {
        0 => {
            let depth = writer.random.between(14, 18) as usize;
            let (open, close) = ("(".repeat(depth), ")".repeat(depth));
            let name = text::name(&mut writer.random);
            let more = writer.random.pick(&["", "x(1)", "+((1))", "-1"]);
            writer.write_macro(&format!("AM{name}*1,1,1,0,{open}1{close}{more}*"));
        }
        1 => {
            let count = writer.random.between(6, 10);
            for index in 0..count {
                writer.extended(&format!("ABD{}", 1_000_000 + index));
            }
            for _ in 0..count {
                writer.extended("AB");
            }
            writer.point = None;
        }
        _ => {
            writer.take_pen();
            writer.make_square();
            let levels = writer.random.between(6, 9);
            let factors = vec![1; levels as usize];
            tower(writer, &factors);
            if writer.random.percent(50) {
                writer.extended("ABD1999999");
                writer.word("X0Y0D03");
                writer.extended("AB");
            } else {
                writer.word("X0Y0D03");
            }
            writer.point = None;
        }
    }
}

/// Blocks one above the other, each flashing the one below so many times; the last is selected.
fn tower(writer: &mut Writer, factors: &[u64]) {
    for (index, factor) in factors.iter().enumerate() {
        let number = 1_000_000 + index;
        writer.extended(&format!("ABD{number}"));
        for _ in 0..*factor {
            writer.word("X0Y0D03");
        }
        writer.extended("AB");
        writer.word(&format!("D{number}"));
    }
    writer.point = None;
}

/// 10^12 exactly, one below, or past it: by blocks alone, or by blocks and an SR.
pub fn totals(writer: &mut Writer) {
    let closes = writer.open.len();
    for _ in 0..closes {
        writer.close();
    }
    writer.take_pen();
    writer.make_square();
    match writer.random.below(3) {
        0 => {
            let factors = spread(&mut writer.random, &[200; 8]);
            tower(writer, &factors);
            let flashes = writer.random.between(1, 2);
            let in_block = writer.random.percent(50);
            if in_block {
                writer.extended("ABD1999999");
            }
            for _ in 0..flashes {
                writer.word("X0Y0D03");
            }
            if in_block {
                writer.extended("AB");
            }
        }
        1 => {
            let levels = writer.random.between(2, 6) as usize;
            let mut caps = vec![200; levels];
            caps.extend([9_999, 9_999]);
            let mut factors = spread(&mut writer.random, &caps);
            let (ny, nx) = (factors.pop().unwrap_or(1), factors.pop().unwrap_or(1));
            tower(writer, &factors);
            repeat(writer, nx, ny);
        }
        _ => {
            // 10^12 - 1 = 1001 x 9901 x 27 x 37 x 101.
            tower(writer, &[27, 37, 101]);
            repeat(writer, 1_001, 9_901);
            one_more(writer);
        }
    }
    one_more(writer);
    writer.point = None;
}

fn repeat(writer: &mut Writer, nx: u64, ny: u64) {
    if writer.random.percent(25) {
        writer.word("X0Y0D02");
        one_more(writer);
    }
    let (dx, dy) = (writer.random.between(0, 3), writer.random.between(0, 3));
    writer.extended(&format!("SRX{nx}Y{ny}I{dx}J{dy}"));
    writer.word("X0Y0D03");
    if writer.random.percent(25) {
        one_more(writer);
    }
    writer.extended("SR");
}

/// One item more, or two with a contour, or none with an empty block.
fn one_more(writer: &mut Writer) {
    let number = writer.random.between(2_000_000, 2_000_999_999);
    match writer.random.below(5) {
        0 => {
            writer.extended(&format!("ABD{number}"));
            writer.extended("AB");
            writer.word(&format!("D{number}"));
            writer.word("X0Y0D03");
        }
        1 => {
            writer.word("G01");
            writer.mode = "G01";
            writer.file.extend(b"G36*X0Y0D02*X0Y0D01*G37*");
        }
        2..=3 => {
            writer.extended(&format!("ADD{number}C,1"));
            writer.word(&format!("D{number}"));
            writer.word("X0Y0D03");
        }
        _ => {}
    }
}

/// The twelve twos and twelve fives of 10^12, spread over factors with those caps.
fn spread(random: &mut Random, caps: &[u64]) -> Vec<u64> {
    'again: loop {
        let mut factors = vec![1; caps.len()];
        for prime in [2, 5] {
            for _ in 0..12 {
                let room: Vec<usize> =
                    (0..caps.len()).filter(|at| factors[*at] * prime <= caps[*at]).collect();
                if room.is_empty() {
                    continue 'again;
                }
                factors[random.pick(&room)] *= prime;
            }
        }
        return factors;
    }
}
