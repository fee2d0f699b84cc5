//! Expressions and parameters: 9 and 10.

use crate::generator::random::Random;
use crate::generator::text;
use crate::generator::wild;
use crate::generator::writer::Writer;
use crate::number::ONE;

const EXPRESSIONS: &[&str] = &[
    "1/0", "1/$1", "1/(1-1)", "0/0", "1/0.000001", "999999/0.999999", "999999.999999+0.000001",
    "999999.999999+0", "-999999.999999-0.000001", "-999999.999999+0.000001", "1000x1000",
    "1000x999.999999", "999.999999x1000.000001", "1/(0.0005x0.001)", "1/(0.0005x0.000998)",
    "(999999+1)-1", "999999x1.000001", "-1000x1000", "0.000001x0.5", "0.000001x0.499999",
    "0.000001/2", "0.000001/2.000001", "999999.999999/0.999999", "500000x2", "500000x1.999999",
    "333333.333333x3", "1/3x3", "2/3", "-2/3", "$1/3", "-(1/3)", "1-1/3-1/3-1/3",
];

pub fn expressions(writer: &mut Writer) {
    let name = text::name(&mut writer.random);
    let expression = if writer.random.percent(70) {
        String::from(writer.random.pick(EXPRESSIONS))
    } else {
        text::expression(&mut writer.random, 4)
    };
    let text = match writer.random.below(5) {
        0 => format!("AM{name}*$5={expression}*"),
        1 => format!("AM{name}*99,{expression}*"),
        2 => format!("AM{name}*1,1,1,0*1,1,1,0,{expression}*"),
        3 => format!("AM{name}*$1={expression}*$2=1/$1*1,1,1,$1,$2*"),
        _ => format!("AM{name}*0 a*1,1,1,0,{expression}*1,2,1,0,0*"),
    };
    writer.write_macro(&text);
    let number = writer.new_number();
    let parameter = writer.random.pick(&[0, 1, ONE, -ONE, 999_999_999_999]);
    writer.write_definition(number, &name, &[parameter]);
}

pub fn parameters(writer: &mut Writer) {
    let value = |writer: &mut Writer| wild::value_text(&mut writer.random);
    let number = writer.new_number();
    match writer.random.below(6) {
        0 => {
            let text = value(writer);
            writer.extended(&format!("LS{text}"));
        }
        1 => {
            let steps = ["0", "1", "9999", "10000", "00009999"];
            let (nx, ny) = (writer.random.pick(&steps), writer.random.pick(&steps));
            let (dx, dy) = (value(writer), value(writer));
            writer.extended(&format!("SRX{nx}Y{ny}I{dx}J{dy}"));
        }
        2..=3 => {
            let template = writer.random.pick(&["C", "R", "O", "P"]);
            let count = writer.random.below(6);
            let mut text = format!("ADD{number}{template}");
            for index in 0..count {
                text += if index == 0 { "," } else { "X" };
                text += &match writer.random.below(3) {
                    0 => value(writer),
                    _ => {
                        String::from(writer.random.pick(&["1", "3", "6", "12", "0.000001", "5.5"]))
                    }
                };
            }
            writer.extended(&text);
        }
        _ => {
            let name = text::name(&mut writer.random);
            let block = primitive(&mut writer.random);
            writer.write_macro(&format!("AM{name}*{block}*"));
            writer.write_definition(number, &name, &[]);
        }
    }
}

/// Primitives on either side of their lines.
fn primitive(random: &mut Random) -> String {
    let exposure = random.pick(&["0", "1", "1", "1", "2", "0.5", "-1", "0.999999+0.000001"]);
    let size = random.pick(&["0", "1", "0.000001", "-0.000001", "0-0", "2"]);
    let other = random.pick(&["0", "1", "1", "-0.000001"]);
    let vertices = random.pick(&["2", "3", "12", "13", "5.5", "3.000001", "6x1"]);
    match random.below(8) {
        0 => format!("1,{exposure},{size},0,0{}", random.pick(&["", ",0", ",0,0"])),
        1 => format!("20,{exposure},{size},0,0,1,1{}", random.pick(&["", ",0", ",0,0"])),
        2 => format!("21,{exposure},{size},{other},0,0{}", random.pick(&["", ",0", ",0,0"])),
        3 => format!("5,{exposure},{vertices},0,0,{size}{}", random.pick(&["", ",0", ",0,0"])),
        4 => {
            let outer = random.pick(&["1", "1", "0.000001", "0", "-1", "2"]);
            let inner = random.pick(&["0", "0", "1", "0.999999", "-0.000001"]);
            let gap =
                random.pick(&["0", "0.707106", "0.707107", "-0.000001", "1.414213", "1.414214"]);
            format!("7,0,0,{outer},{inner},{gap}{}", random.pick(&["", ",0", ",0", ",0,0"]))
        }
        5 => format!("{},{exposure},{size},0,0", random.pick(&["2", "3", "6", "22", "100", "1"])),
        _ => outline(random),
    }
}

fn outline(random: &mut Random) -> String {
    let points = random.below(5);
    let claimed = match random.below(6) {
        0 => String::from(random.pick(&["0", "5001", "1.5", "-1", "5000"])),
        1 => (points + 1).to_string(),
        _ => points.to_string(),
    };
    let exposure = random.pick(&["0", "1", "1", "3"]);
    let mut text = format!("4,{exposure},{claimed},1,2");
    for index in 0..points {
        text += match (index + 1 == points, random.below(8)) {
            (true, 0) => ",1,2.000001",
            (true, 1) => ",1.000001,2",
            (true, _) => ",1,2",
            _ => ",3,4",
        };
    }
    text + random.pick(&["", ",0", ",0", ",0", ",0,0"])
}
