//! Commands of good form, or nearly, written without a look at the state: faults of the state and
//! the order of numbers within one command.

use super::random::Random;
use super::text;
use super::writer::Writer;
use crate::number::ONE;
use crate::terms::{Edition, Terms};

/// A file of steps that keep the rules, with wild commands between them.
pub fn whole(random: Random, terms: Terms) -> Vec<u8> {
    let mut writer = Writer::new(random, terms);
    if writer.random.percent(80) {
        writer.header();
    }
    for _ in 0..=writer.random.below(12) {
        let steps = writer.random.below(5);
        writer.steps(steps);
        let command = command(&mut writer.random, terms.edition);
        writer.write_waiting_code();
        writer.file.extend(command.bytes());
    }
    writer.finish();
    writer.file
}

/// One wild command, with its `*` or `%`.
pub fn command(random: &mut Random, edition: Edition) -> String {
    if edition == Edition::Old && random.percent(40) {
        return old_command(random);
    }
    match random.below(22) {
        0..=4 => operation(random),
        5 => format!("D{}*", number(random)),
        6 => String::from(random.pick(&["G01*", "G02*", "G03*", "G75*", "G36*", "G37*", "G04*"])),
        7..=9 => definition(random),
        10..=11 => macro_definition(random),
        12 => format!("%ABD{}*%", number(random)),
        13 => String::from(random.pick(&["%AB*%", "%SR*%", "G36*", "G37*"])),
        14 => repeat(random),
        15 => format!("%LR{}*%", value_text(random)),
        16 => format!("%LS{}*%", value_text(random)),
        17 => String::from(random.pick(&["%LPC*%", "%LPD*%", "%LMX*%", "%LMY*%", "%LMXY*%"])),
        18 => format!("%TF{}*%", random.pick(&["a", "b", "c", ".d", "a,b"])),
        19 => format!("%{}{}*%", random.pick(&["TA", "TO", "TD"]), random.pick(&["a", "b"])),
        20 => String::from(random.pick(&["%MOMM*%", "%MOIN*%", "%FSLAX36Y36*%", "%FSLAX66Y66*%"])),
        _ => String::from("M02*"),
    }
}

/// The same of the old edition.
fn old_command(random: &mut Random) -> String {
    let codes = ["G1", "G01", "G2", "G3", "G36", "G37", "G70", "G71", "G74", "G75", "G90", "G91"];
    let code = random.pick(&codes);
    match random.below(8) {
        0..=1 => format!("{code}*"),
        2..=4 => format!("{code}{}", operation(random)),
        5 => operation(random).replace("D0", "D"),
        6 => String::from(random.pick(&["M0*", "M01*", "G4*", "G54D10*", "G54D11*", "D1*", "D2*"])),
        _ => format!("%{}*%", random.pick(&["IPPOS", "LNa", "FSLAX77Y77", "FSTIX23Y23", "MOIN"])),
    }
}

/// Aperture numbers, the taken ones of small files most often.
fn number(random: &mut Random) -> &'static str {
    random.pick(&[
        "10", "10", "11", "12", "13", "14", "15", "20", "0012", "2147483647", "2147483648",
        "99999999999999999999",
    ])
}

/// Decimals on either side of every line.
pub fn value_text(random: &mut Random) -> String {
    let value = match random.below(10) {
        0 => 0,
        1 => -1,
        2 => 1,
        3 => random.between(-720, 720) * ONE / 2,
        4 => 999_999_999_999,
        5 => {
            return String::from(random.pick(&[
                "1000000", "0.0000001", "-1000000.5", "1.2345678", "0.0000005", "-0.0000004999",
                "0.123456789012345678", "0.1234567890123456789", "999999.9999995",
                "2.50000000000000000000",
            ]))
        }
        6 => random.between(-2, 14) * ONE,
        _ => random.between(1, 30) * ONE / 4,
    };
    text::decimal(random, value)
}

fn operation(random: &mut Random) -> String {
    let mut text = String::new();
    for (letter, chance) in [("X", 75), ("Y", 75)] {
        if random.percent(chance) {
            text += letter;
            text += &coordinate(random);
        }
    }
    let code = random.pick(&["D01", "D01", "D02", "D03"]);
    if code == "D01" && random.percent(40) {
        text += &format!("I{}J{}", coordinate(random), coordinate(random));
    }
    text + code + "*"
}

/// Digits from one to one too many.
fn coordinate(random: &mut Random) -> String {
    if random.percent(90) {
        let value = random.between(-2, 2);
        return text::coordinate(random, value, 7);
    }
    let digits = random.between(6, 14) as usize;
    let digit = random.pick(&["0", "9", "1"]);
    format!("{}{}", random.pick(&["", "-", "+"]), digit.repeat(digits))
}

fn definition(random: &mut Random) -> String {
    let template = random.pick(&["C", "R", "O", "P", "M", "N", "M", "N", "c"]);
    let count = match random.below(20) {
        0 => 64,
        1 => 65,
        _ => random.below(5),
    };
    let mut text = format!("%ADD{}{template}", number(random));
    for index in 0..count {
        text += if index == 0 { "," } else { "X" };
        text += &value_text(random);
    }
    text + "*%"
}

/// Macros in which faults of several numbers may stand side by side.
fn macro_definition(random: &mut Random) -> String {
    let name = random.pick(&["M", "M", "N", "c", "C", "P"]);
    let mut text = format!("%AM{name}*");
    for _ in 0..=random.below(3) {
        text += &match random.below(14) {
            0 => String::from(random.pick(&["1,1,1,0", "1,2,1,0,0", "2,1", "5,1,2,0,0,1,0"])),
            1 => String::from(random.pick(&["1,1,1/0,0,0", "$1=1/$9", "1,1,999999x2,0,0"])),
            2 => String::from(random.pick(&["1,1,1,0,0.0000001", "$65=1", "$0=1", "1,$65"])),
            3 => format!("1,1,1,0,{}1{}", "(".repeat(17), ")".repeat(17)),
            4 => String::from(random.pick(&["1,,1", "1,1+", "$1", "a", "1,(1", "1,2x-1"])),
            5..=6 => text::expression_list(random),
            7 => format!("${}={}", text::variable(random), text::expression(random, 4)),
            _ => String::from(random.pick(&["1,1,1,0,0", "1,1,$1,0,0", "0 text", "$2=$1x$1"])),
        };
        text.push('*');
    }
    text + "%"
}

fn repeat(random: &mut Random) -> String {
    let steps = ["1", "2", "3", "0", "9999", "10000", "0002", "99999999999999999999999"];
    let (nx, ny) = (random.pick(&steps), random.pick(&steps));
    let (dx, dy) = (value_text(random), value_text(random));
    format!("%SRX{nx}Y{ny}I{dx}J{dy}*%")
}
