//! Operations: 11, 12 and 13.

use crate::generator::wild;
use crate::generator::writer::Writer;
use crate::sheet::Point;

pub fn unfit(writer: &mut Writer) {
    match writer.random.below(8) {
        0 => {
            // The point is unset after an opening or a closing.
            writer.take_pen();
            if writer.open.is_empty() || writer.random.percent(50) {
                writer.open_block();
            } else {
                writer.close();
            }
            let operation =
                writer.random.pick(&["X1D02", "Y1D02", "X1D03", "D03", "X1Y1D01", "D02"]);
            writer.word(operation);
        }
        1 => {
            // A pen with a hole, or none at all.
            let number = writer.new_number();
            let template =
                writer.random.pick(&["C,1X1", "C,0X1", "R,1X1", "O,1X1", "P,1X3", "C,0"]);
            writer.extended(&format!("ADD{number}{template}"));
            writer.word(&format!("D{number}"));
            writer.go();
            writer.take_mode("G01");
            writer.word("X5D01");
        }
        2 => {
            writer.take_pen();
            writer.take_point();
            let mode = writer.random.pick(&["G01", "G02", "G03"]);
            writer.take_mode(mode);
            let operation = writer.random.pick(&["X7I5J5D01", "X7D01", "I0J0D01"]);
            writer.word(operation);
        }
        3 => {
            // Circular, with or without G75 before.
            writer.take_pen();
            writer.take_point();
            let mode = writer.random.pick(&["G02", "G03"]);
            writer.word(mode);
            writer.mode = mode;
            writer.word("I3J4D01");
        }
        4 => {
            let operation = writer.random.pick(&["X1Y1D03", "X1Y1D01", "D03", "D01", "X1D02"]);
            writer.word(operation);
        }
        5 => {
            writer.word("G36");
            let operation = writer.random.pick(&["X1Y1D01", "D01", "X1D02", "D02"]);
            writer.word(operation);
            writer.word("G37");
        }
        6 => {
            writer.open_block();
            writer.close();
            if let Some(known) = writer.apertures.last().copied() {
                writer.take(known);
            }
            writer.make_square();
            writer.take_point();
            writer.take_mode("G01");
            let operation = writer.random.pick(&["X1D01", "X1D03"]);
            writer.word(operation);
        }
        _ => {
            for _ in 0..4 {
                let command = wild::command(&mut writer.random, writer.terms.edition);
                writer.file.extend(command.bytes());
            }
        }
    }
}

/// Centres on the line, near it, at its ends and between them.
pub fn centres(writer: &mut Writer) {
    let in_region = writer.random.percent(30);
    if !in_region {
        writer.take_pen();
    }
    let mode = writer.random.pick(&["G02", "G03"]);
    writer.take_mode(mode);
    let far = writer.random.percent(30);
    let far_unit = (writer.greatest() + 1) / 40 / writer.unit_step() * writer.unit_step();
    let unit = if far { far_unit } else { writer.unit_step() };
    let small = |writer: &mut Writer| writer.random.between(-3, 3);
    let start = Point::new(small(writer) * unit, small(writer) * unit);
    let step = Point::new(small(writer) * unit, small(writer) * unit);
    let (length, along) = (writer.random.between(0, 5), writer.random.between(-1, 6));
    let off = writer.random.pick(&[0, 0, 0, 1, -1]);
    if in_region {
        writer.word("G36");
    }
    writer.operate("D02", start, None);
    let end = Point::new(start.x + length * step.x, start.y + length * step.y);
    let offset = Point::new(along * step.x, along * step.y + off);
    writer.operate("D01", end, Some(offset));
    if in_region {
        writer.take_mode("G01");
        writer.operate("D01", start, None);
        writer.word("G37");
    }
}

/// D02 before G36, after it, on both sides or not at all; a centre that makes sense or none; one region behind another.
pub fn own_moves(writer: &mut Writer) {
    let mode = writer.random.pick(&["G01", "G02", "G03"]);
    writer.take_mode(mode);
    for _ in 0..writer.random.between(1, 3) {
        if writer.random.percent(50) {
            writer.take_point();
        }
        writer.word("G36");
        if writer.random.percent(60) {
            writer.go();
        }
        let offset = writer.random.pick(&["", "I1J0", "I0J0"]);
        let first = format!("{}D01", if mode == "G01" { "" } else { offset });
        writer.word(&first);
        writer.word("G37");
    }
}

pub fn contours(writer: &mut Writer) {
    writer.word("G36");
    for nth in 0..writer.random.below(3) {
        writer.contour(nth == 0);
    }
    writer.go();
    let start = writer.point.unwrap_or_default();
    for _ in 0..writer.random.below(4) {
        let target = writer.new_point();
        writer.edge(target);
    }
    // Inwards, so that the point stays within its digits.
    let mut near = |value: i64| {
        let miss = i64::from(writer.random.percent(25));
        value + if value > 0 { -miss } else { miss }
    };
    let last = Point::new(near(start.x), near(start.y));
    writer.edge(last);
    match writer.random.below(3) {
        0 => writer.word("D02"),
        1 => writer.go(),
        _ => {}
    }
    writer.word("G37");
}
