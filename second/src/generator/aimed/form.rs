//! Form and numbers: 4 and 5.

use crate::generator::text;
use crate::generator::writer::Writer;
use crate::number::ONE;

const MALFORMED_WORDS: &[&str] = &[
    "G74", "G54D10", "G1", "G001", "G01X0Y0D01", "G01 ", " G01", "g01", "G4", "G04%", "G05", "G70",
    "G36G37", "G", "M2", "M00", "M020", "m02", "M", "D9", "D0", "D1", "D001", "D00", "D", "D-10",
    "D+10", "D10A", "D10.0", "X0Y0D1", "X0Y0", "X1.5Y0D01", "X Y0D02", "XD02", "X-D02", "X+-1D02",
    "X1X1D02", "Y0X0D02", "X0I1D01", "X0J1D01", "I1J1D02", "I0J0D03", "J0I0D01", "I1J1X1D01", "",
    "LPD", "x0y0d02", "X0Y0D04", "X0Y0D10", "X0,Y0D01", "X0Y0Z0D01", "X0Y0D02 ", "X0Y0D001", "AB",
    "TF.a", "I1D01", "X0Y0I1JD01", "Y-0-0D02", "D01D01", "X0D01Y0D01", "?",
];

const MALFORMED_EXTENDED: &[&str] = &[
    "", "FSLAX26Y36", "FSLAX06Y06", "FSLAX76Y76", "FSLAX36Y35", "FSLAX35Y35", "FSTAX36Y36",
    "FSLIX36Y36", "FSLAX36", "FSLAX36Y36 ", "MO", "MOmm", "MOMM ", "MOXX", "ADD10", "ADD9C,1",
    "ADD11C,", "ADD11C,1x2", "ADD11C,1X", "ADD11C,1XX2", "ADD11C,1,2", "ADD11 C,1", "AD11C,1",
    "ADD11C,1.1.1", "ADD11C,.", "ADD11C,+-1", "ADD11C,-", "ADD011", "ADDC,1", "ADD11,1",
    "ADD11M-1,1", "AM", "AMA", "AM1A", "ABD9", "AB10", "ABD", "ABD10,", "ABD1O", "SRX1Y1",
    "SRX1Y1I0", "SRY1X1I0J0", "SRX1Y1J0I0", "SRX+1Y1I0J0", "SRX1.0Y1I0J0", "SRX-1Y1I0J0",
    "SRXYI0J0", "SRX1Y1IJ", "SRX1Y1I0J0 ", "SR1", "LP", "LPX", "LPDD", "LPd", "LMYX", "LMXX", "LM",
    "LMXYX", "LR", "LR.", "LR1e3", "LR--1", "LS", "LSx", "LS1 ", "TF", "TF,", "TF1a", "TA", "TAa$",
    "TO-", "TO ,a", "TDa,b", "TD1", "TD,", "IPPOS", "OFA0B0", "INx", "LNx", "ASAXBY", "KO", "SF",
    "G01", "M02", "D10", "X0Y0D02", "G04 a", "LPD*LPC", "LPD*", "LPD*\nLPC", "*", "TZa", "fslax36",
];

const MALFORMED_EXPRESSIONS: &[&str] = &[
    "", "+", "2x-3", "2+-3", "--3", "(1", "1)", "()", "1 +2", "2X3", "1.2.3", ".", "$", "$x",
    "1$1", "(1)(2)", "1(", "2x", "a", "$1$2", "x2", "/2", "1//2", "1=2", "(+)", "-(-)", "1;2",
];

const MALFORMED_BLOCKS: &[&str] = &[
    "", "$1", "$1=", "=1", "A,1", "1;2", "1,", "1,,2", ",1", "$=1", "$1=2=3", " 1,1", "1 ,1",
    "-1,1", "1.0,1", "$1x2=1", "$a=1", "x",
];

pub fn malformed(writer: &mut Writer) {
    match writer.random.below(5) {
        0..=1 => {
            let text = writer.random.pick(MALFORMED_WORDS);
            writer.word(text);
        }
        2 => {
            let text = writer.random.pick(MALFORMED_EXTENDED);
            let star = writer.random.pick(&["*", "*", "*", "*", "", "**", "*\n*"]);
            writer.file.extend(format!("%{text}{star}%").bytes());
        }
        _ => {
            let expression = writer.random.pick(MALFORMED_EXPRESSIONS);
            let block = writer.random.pick(MALFORMED_BLOCKS);
            let name = text::name(&mut writer.random);
            let text = match writer.random.below(4) {
                0 => format!("AM{name}*1,1,{expression},0,0*"),
                1 => format!("AM{name}*$1={expression}*"),
                2 => format!("AM{name}*1,1,1,0,0*{block}*"),
                _ => format!("AM{name}{}", writer.random.pick(&["*", "*1,1", "", ",1*1*", " *1*"])),
            };
            writer.write_macro(&text);
        }
    }
}

pub fn too_long(writer: &mut Writer) {
    let most = writer.most_digits() + writer.random.below(2);
    let digit = writer.random.pick(&["0", "1", "9"]);
    let digits = digit.repeat(most);
    let sign = writer.random.pick(&["", "-", "+"]);
    let limit = writer.random.pick(&[
        "999999.999999", "0999999.9999990", "1000000", "1000000.0", "0.0000001", "0.0000010",
        "0.1234567",
    ]);
    let number = writer.random.pick(&["2147483647", "2147483648", "002147483647", "4294967306"]);
    let name = text::name(&mut writer.random);
    match writer.random.below(12) {
        0 => writer.word(&format!("X{sign}{digits}Y0D02")),
        1 => writer.word(&format!("X0Y{sign}{digits}D02")),
        2 => {
            writer.take_pen();
            writer.take_point();
            writer.take_mode("G02");
            writer.word(&format!("X0Y0I{sign}{digits}J1D01"));
        }
        3 => {
            writer.take_pen();
            writer.take_point();
            writer.take_mode("G03");
            writer.word(&format!("X0Y0I1J{sign}{digits}D01"));
        }
        4 => writer.word(&format!("D{number}")),
        5 => writer.extended(&format!("ABD{number}")),
        6 => writer.extended(&format!("ADD{number}C,{limit}")),
        7 => writer.extended(&format!("LR{sign}{limit}")),
        8 => writer.extended(&format!("LS{limit}")),
        9 => writer.extended(&format!("SRX1Y1I{limit}J{limit}")),
        10 => {
            let variable = writer.random.pick(&["0", "1", "64", "65", "0064", "99999999999"]);
            let text = match writer.random.below(3) {
                0 => format!("AM{name}*${variable}=1*"),
                1 => format!("AM{name}*1,1,${variable},0,0*"),
                _ => format!("AM{name}*1,1,1,0,{limit}*"),
            };
            writer.write_macro(&text);
        }
        _ => {
            let number = writer.new_number();
            let count = writer.random.pick(&[63, 64, 65, 66]);
            writer.write_macro(&format!("AM{name}*1,1,$64,0,0*"));
            writer.write_definition(number, &name, &vec![ONE; count]);
        }
    }
}
