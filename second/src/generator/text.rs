//! Numbers, names and expressions, written in their many ways.

use super::random::Random;
use crate::number::ONE;

/// A coordinate of at most that many digits.
pub fn coordinate(random: &mut Random, value: i64, most_digits: usize) -> String {
    let digits = value.unsigned_abs().to_string();
    let width = match random.below(8) {
        0 => most_digits,
        1 => digits.len() + random.below(most_digits + 1 - digits.len().min(most_digits)),
        _ => digits.len(),
    };
    format!("{}{digits:0>width$}", sign(random, value))
}

pub fn sign(random: &mut Random, value: i64) -> &'static str {
    match value {
        ..=-1 => "-",
        0 => random.pick(&["", "", "", "", "+", "-"]),
        _ => random.pick(&["", "", "", "", "", "+"]),
    }
}

/// A decimal with the value of so many millionths.
pub fn decimal(random: &mut Random, value: i64) -> String {
    format!("{}{}", sign(random, value), unsigned_decimal(random, value.abs()))
}

/// Now and then a longer one that is rounded to it (document 02, [1]).
pub fn unsigned_decimal(random: &mut Random, value: i64) -> String {
    let (value, tail) =
        if random.percent(8) { long_tail(random, value) } else { (value, String::new()) };
    let fraction = format!("{:06}{tail}", value % ONE);
    let fraction = fraction.trim_end_matches('0');
    let zeros = if random.percent(10) { random.below(9) } else { 0 };
    let point = !fraction.is_empty() || zeros > 0 || random.percent(5);
    let integer = match value / ONE {
        0 if (!fraction.is_empty() || zeros > 0) && random.percent(30) => String::new(),
        integer => integer.to_string(),
    };
    let front = if random.percent(5) { random.below(9) } else { 0 };
    let point = if point { "." } else { "" };
    format!("{}{integer}{point}{fraction}{}", "0".repeat(front), "0".repeat(zeros))
}

/// Digits from the seventh after the point on, up to twelve, and what stands before them: rounded, it is the value.
fn long_tail(random: &mut Random, value: i64) -> (i64, String) {
    let mut digits = random.below(5).to_string();
    let up = value > 0 && random.percent(50);
    if up {
        digits = (5 + random.below(5)).to_string();
    }
    for _ in 0..random.below(12) {
        digits += &random.below(10).to_string();
    }
    (if up { value - 1 } else { value }, digits)
}

pub fn aperture(random: &mut Random, number: i64) -> String {
    let zeros = if random.percent(5) { random.below(12) } else { 0 };
    format!("{}{number}", "0".repeat(zeros))
}

const NAME_STARTS: &[u8] = b"abcdefgXYZCROP._$";
const NAME_BYTES: &[u8] = b"abcXYZ019._";

pub fn name(random: &mut Random) -> String {
    let length = match random.below(40) {
        0 => 127,
        1 => 126,
        _ => 1 + random.below(4),
    };
    let mut name = String::new();
    name.push(char::from(random.pick(NAME_STARTS)));
    while name.len() < length {
        name.push(char::from(random.pick(NAME_BYTES)));
    }
    name
}

/// A string: any printable bytes but `%` and `*`.
pub fn string(random: &mut Random, most: usize) -> String {
    let length = random.below(most + 1);
    let mut text = String::new();
    while text.len() < length {
        let byte = random.between(32, 126) as u8;
        if byte != b'%' && byte != b'*' {
            text.push(char::from(byte));
        }
    }
    text
}

/// Sizes of all orders, the ends of the range among them.
pub fn size(random: &mut Random) -> i64 {
    match random.below(12) {
        0 => 1,
        1 => 999_999_999_999,
        2 => random.between(1, 999_999),
        3 => random.between(1, 999_999_999_999),
        _ => random.between(1, 40) * ONE / 4,
    }
}

/// An expression of good form, with parentheses to the depth given at most.
pub fn expression(random: &mut Random, depth: usize) -> String {
    let mut text = String::from(random.pick(&["", "", "", "-", "+"]));
    text += &factor(random, depth);
    while random.percent(35) {
        text.push(char::from(random.pick(b"+-x/")));
        text += &factor(random, depth);
    }
    text
}

fn factor(random: &mut Random, depth: usize) -> String {
    match random.below(8) {
        0..=1 if depth > 0 => format!("({})", expression(random, depth - 1)),
        2..=3 => format!("${}", variable(random)),
        _ => {
            let value = match random.below(10) {
                0 => 0,
                1 => random.between(0, 999_999_999_999),
                2 => random.between(0, 999),
                _ => random.between(0, 80) * ONE / 8,
            };
            unsigned_decimal(random, value)
        }
    }
}

pub fn variable(random: &mut Random) -> String {
    let number = if random.percent(10) { random.between(1, 64) } else { random.between(1, 6) };
    let zeros = if random.percent(5) { random.below(4) } else { 0 };
    format!("{}{number}", "0".repeat(zeros))
}

/// Puts CR and LF after some of the commas, which only AM permits.
pub fn with_breaks(random: &mut Random, text: &str) -> String {
    let mut broken = String::new();
    for letter in text.chars() {
        broken.push(letter);
        if letter == ',' && random.percent(30) {
            broken += random.pick(&["\n", "\r\n", "\r", "\n\n\r"]);
        }
    }
    broken
}

/// A block of good form that mostly breaks the rules of AD: any code with some expressions.
pub fn expression_list(random: &mut Random) -> String {
    let mut text = String::from(random.pick(&["1", "4", "5", "7", "20", "21", "2", "6", "999"]));
    for _ in 0..random.below(8) {
        text += &format!(",{}", expression(random, 2));
    }
    text
}
