//! The header, places and names: 6, 7, 8 and 19.

use crate::generator::text;
use crate::generator::wild;
use crate::generator::writer::{Open, Writer};
use crate::number::ONE;

pub fn header(mut writer: Writer) -> Vec<u8> {
    match writer.random.below(5) {
        0 => writer.lacks_unit = false,
        1 => writer.lacks_format = false,
        2 => {
            writer.header();
            let twice = writer.random.pick(&["MOMM", "MOIN", "FSLAX36Y36", "FSLAX66Y66"]);
            writer.extended(twice);
        }
        3 => {
            let digits = writer.random.pick(&["1", "999999999999", "9999999999999"]);
            let code = writer.random.pick(&["D01", "D02", "D03"]);
            writer.word(&format!("X{digits}{code}"));
        }
        _ => {
            writer.open_block();
            writer.header();
        }
    }
    let steps = writer.random.below(8);
    writer.steps(steps);
    writer.finish();
    writer.file
}

pub fn not_here(writer: &mut Writer) {
    match writer.random.below(6) {
        0..=1 => {
            writer.word("G36");
            if writer.random.percent(50) {
                writer.contour(true);
            }
            let command = wild::command(&mut writer.random, writer.terms.edition);
            writer.file.extend(command.bytes());
        }
        2 => {
            writer.open_block();
            writer.extended(&format!("SR{}", "X2Y2I1J1"));
        }
        3 => {
            writer.open_repeat();
            let inner = writer.random.pick(&["SRX2Y2I1J1", "AB", "SRX0Y2I1J1"]);
            writer.extended(inner);
        }
        4 => {
            let closing = writer.random.pick(&["AB", "SR"]);
            writer.extended(closing);
        }
        _ => {
            let open = writer.random.pick(&["G36*", "%ABD4444*%", "%SRX2Y2I0J0*%", "G37*"]);
            writer.file.extend(open.bytes());
            writer.word("M02");
        }
    }
}

pub fn names(writer: &mut Writer) {
    let taken = writer.apertures.first().map_or(10, |known| known.number);
    match writer.random.below(8) {
        0 => {
            let number = writer.new_number();
            writer.word(&format!("D{number}"));
        }
        1 => {
            writer.open_block();
            if let Some(Open::Block { number, .. }) = writer.open.last() {
                let text = format!("D{number}");
                writer.word(&text);
            }
        }
        2 => writer.extended(&format!("ADD{taken}C,1")),
        3 => writer.extended(&format!("ABD{taken}")),
        4 => {
            writer.open_block();
            if let Some(Open::Block { number, .. }) = writer.open.last() {
                let text = format!("D{number}");
                let code = writer.random.pick(&["AB", "AD"]);
                let rest = if code == "AD" { "C,1" } else { "" };
                writer.extended(&format!("{code}{text}{rest}"));
            }
        }
        5 => {
            let number = writer.new_number();
            let name = text::name(&mut writer.random);
            writer.write_definition(number, &name, &[ONE]);
        }
        6 => {
            let name = writer.random.pick(&["C", "R", "O", "P", "c", "CC", "P0", ".C"]);
            writer.write_macro(&format!("AM{name}*1,1,1,0,0*"));
        }
        _ => {
            let name = writer.random.pick(&["M", "m"]);
            writer.write_macro("AMM*1,1,1,0,0*");
            writer.write_macro(&format!("AM{name}*1,1,1,0,0*"));
        }
    }
}

pub fn file_attributes(writer: &mut Writer) {
    let name = text::name(&mut writer.random);
    let other = writer.random.pick(&["TF", "TA", "TO"]);
    writer.extended(&format!("TF{name},1"));
    let between = writer.random.pick(&["TD", "TDa", "LPD"]);
    writer.extended(between);
    writer.extended(&format!("{other}{name},2"));
}
