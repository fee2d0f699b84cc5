//! The old edition's own lines: 30, 31, its 5, its codes and units.

use crate::generator::writer::Writer;
use crate::sheet::Point;

const UNREAD: &[&str] = &[
    "ASAXBY", "MIA1", "OFA0B0", "SFA1B1", "IPPOS", "IPNEG", "IR90", "KO", "KOC", "LNtop", "SMA1",
    "AS", "IP ", "IN", "IJ", "IFa", "IC", "IO", "PF", "FSLAX77Y77", "FSTIX07Y07", "FSLAX70Y70",
    "FSLAX67Y76", "FSLAX78Y78", "FSLAX00Y00", "FSAX23Y23", "FSLX23Y23", "FSLAX23Y24",
    "FSLAN2X23Y23", "FSLAX23Y23D2", "FSDAX23Y23", "FSLAX2Y2", "FSTAX60Y60", "FSLAX07Y07 ",
];

/// 30, and forms that are not quite.
pub fn unread(writer: &mut Writer) {
    if writer.random.percent(20) {
        writer.word("G36");
    }
    let text = writer.random.pick(UNREAD);
    let star = writer.random.pick(&["*", "*", "*", "*", "*\n", "", "**", "*IPPOS*"]);
    writer.write_waiting_code();
    writer.file.extend(format!("%{text}{star}%").bytes());
}

const CODES: &[&str] = &[
    "G1", "G001", "G4", "G40", "G41", "G4x", "G041", "G0", "G00", "G10", "G5", "G54", "G54D10",
    "G54D1", "G54D01", "G54D010", "G54X0Y0D02", "G55D10", "G55", "G70", "G71", "G72", "G74", "G90",
    "G91", "G7", "G9", "M0", "M00", "M1", "M01", "M000", "M3", "M02X0", "D1", "D2", "D3", "D0",
    "D4", "D001", "D010", "X0Y0D1", "X0Y0D2", "X0Y0D3", "X0Y0D001", "X0Y0D0", "X0Y0", "G01X0Y0",
    "G01D02", "G1D2", "G2D10", "G01G02X0Y0D02", "G01M02", "G36X0Y0D02", "G37X0Y0D02", "G36D02",
    "G37D02", "G36X0Y0D01", "G37D01", "G37D03", "G36D03", "G70X0Y0D02", "G71D02", "G90X0Y0D03",
    "G91X0Y0D03", "G74D02", "G75D02", "G04X0Y0D02", "N10G01", "X0I1D01", "I1J1D02", "G02I0J0D01",
    "G3I1D1", "G75G02", "G74X0", "g1",
];

/// Codes of one and two digits, alone and before operations, in a region or not.
pub fn codes(writer: &mut Writer) {
    let in_region = writer.random.percent(40);
    if in_region {
        writer.code("G36");
        if writer.random.percent(60) {
            writer.contour(true);
        }
        if writer.random.percent(50) {
            writer.go();
            let target = writer.new_point();
            writer.edge(target);
        }
    }
    for _ in 0..=writer.random.below(2) {
        let code = writer.random.pick(CODES);
        writer.word(code);
    }
    if in_region {
        writer.word("G37");
    }
}

/// Lines and arcs by rectangles, with a hole and without.
pub fn pens(writer: &mut Writer) {
    let number = writer.new_number();
    let template = writer.random.pick(&["R,1X1", "R,1X2", "R,1X1X1", "O,1X1", "C,1"]);
    writer.extended(&format!("ADD{number}{template}"));
    writer.word(&format!("G54D{number}"));
    writer.go();
    for _ in 0..=writer.random.below(2) {
        let operation = writer.random.pick(&[
            "G01D01", "G1D1", "G02D01", "G02I0J0D01", "G3I1J1D1", "G75I1J1D01", "D01", "I1J1D1",
        ]);
        writer.word(operation);
    }
    writer.mode = "";
    writer.g75 = true;
    writer.code("G75");
}

/// A region's end before an operation, its contour closed or not, and each at fault or not.
pub fn closings(writer: &mut Writer) {
    if writer.random.percent(70) {
        writer.take_pen();
    }
    let mode = writer.random.pick(&["G01", "G02", "G03"]);
    writer.word("G36");
    writer.go();
    let target = if writer.random.percent(80) { writer.new_point() } else { Point::default() };
    writer.edge(target);
    writer.mode = mode;
    writer.word(mode);
    let operation = writer.random.pick(&[
        "D01", "D02", "D03", "X0Y0D01", "X1Y1D02", "X1Y1D03", "X1Y1I1J1D01", "X1Y1I0J0D01",
        "I0J0D1", "I1J0D1", "X1I-1J0D1", "X9999999999999D02", "X1Y2I3J4D01",
    ]);
    let code = writer.random.pick(&["G37", "G37", "G37", "G36", "G74", "G70", "G91"]);
    writer.word(&format!("{code}{operation}"));
    writer.point = None;
}

/// 31, and arcs near the tie, near 90 degrees, near 0, and as far out as the format goes.
pub fn quadrants(writer: &mut Writer) {
    let in_region = writer.random.percent(20);
    if !in_region {
        writer.take_pen();
    }
    let mode = writer.random.pick(&["G02", "G03"]);
    writer.mode = mode;
    writer.code(mode);
    writer.g75 = true;
    writer.take_single_quadrant();
    if in_region {
        writer.code("G36");
    }
    let (start, step, size) = quadrant(writer);
    let unit = writer.unit_step();
    let fitted = |writer: &Writer, x: i64, y: i64| {
        Point::new(writer.fitting(x * unit), writer.fitting(y * unit))
    };
    let start = fitted(writer, start.0, start.1);
    let moved = fitted(writer, step.0, step.1);
    let end = start.plus(moved);
    let end = Point::new(writer.fitting(end.x), writer.fitting(end.y));
    let size = fitted(writer, size.0, size.1);
    writer.operate("D02", start, None);
    if writer.random.percent(5) {
        writer.signed_offsets = true;
    }
    writer.operate("D01", end, Some(size));
    writer.signed_offsets = false;
    if in_region {
        writer.code("G01");
        writer.mode = "G01";
        writer.operate("D01", start, None);
        writer.code("G37");
    }
}

type Pair = (i64, i64);

/// Start, step to the end, and sizes of I and J, in steps of the last place.
fn quadrant(writer: &mut Writer) -> (Pair, Pair, Pair) {
    let greatest = writer.greatest() / writer.unit_step();
    let random = &mut writer.random;
    let mut pair = |least, most| (random.between(least, most), random.between(least, most));
    let (start, near) = (pair(-3, 3), pair(-1, 1));
    let (sx, sy) = pair(-5, 5);
    let small = pair(0, 5);
    match random.below(6) {
        0 => (start, (sx, sy), small),
        // Two tie where 2 I dx is the squared distance.
        1 => {
            let (dx, times) = (2 * random.between(1, 4), random.between(-9, 9));
            let i = dx * (1 + times * times) / 2 + random.pick(&[0, 0, 0, 1, -1]);
            let j = random.between(0, 6);
            let (step, size) = ((dx, dx * times), (i, j));
            if random.percent(50) {
                (start, step, size)
            } else {
                (start, (step.1, step.0), (size.1, size.0))
            }
        }
        // A right angle at the centre, or nearly: the end is the start turned, at some distance.
        2..=3 => {
            let times = random.pick(&[1, 1, 1, 2, 3]);
            let (ex, ey) = random.pick(&[(-sy, sx), (sy, -sx)]);
            let off = if random.percent(60) { (0, 0) } else { near };
            let step = (ex * times - sx + off.0, ey * times - sy + off.1);
            (start, step, (sx.abs(), sy.abs()))
        }
        // On one ray from the centre, or nearly.
        4 => {
            let times = random.between(0, 3);
            let step = (sx * (times - 1) + near.0, sy * (times - 1) + near.1);
            (start, step, (sx.abs(), sy.abs()))
        }
        _ => {
            let ends = [greatest, -greatest, 0, greatest / 2, 1, -1];
            let sizes = [greatest, greatest - 1, greatest / 2, 0, 1, greatest / 3];
            let mut pair = |choices: &[i64]| (random.pick(choices), random.pick(choices));
            (pair(&ends), pair(&ends), pair(&sizes))
        }
    }
}

/// 5 for a point: steps up to 10^12 millionths, or just below.
pub fn far_points(writer: &mut Writer) {
    let unit = writer.unit_step();
    let greatest = (10_i64.pow(writer.format.digits() as u32) - 1) * unit;
    writer.incremental = true;
    writer.code("G91");
    let sign = writer.random.pick(&["", "-"]);
    let letter = writer.random.pick(&["X", "Y"]);
    writer.word("X0Y0D02");
    let (mut at, limit) = (0, 1_000_000_000_000_i64);
    while at < limit && writer.random.percent(97) {
        let left = limit - at + writer.random.pick(&[0, -1, 0, -unit, unit]);
        let step = left.min(greatest).max(0) / unit * unit;
        let digits = writer.old_digits(step);
        let code = writer.random.pick(&["D02", "D02", "D2"]);
        writer.word(&format!("{letter}{sign}{digits}{code}"));
        at += step;
        if greatest < limit / 50 || step == 0 {
            break;
        }
    }
    writer.point = None;
}

/// Units by MO, by G70 and G71, by both or by neither.
pub fn units(mut writer: Writer) -> Vec<u8> {
    writer.lacks_unit = false;
    if writer.random.percent(40) {
        // FS replaces what stands before it.
        let notation = writer.random.pick(&["G90", "G91"]);
        writer.word(notation);
    }
    for _ in 0..writer.random.below(4) {
        match writer.random.below(4) {
            0 => writer.extended("MOMM"),
            1 => writer.extended("MOIN"),
            2 => writer.code("G70"),
            _ => writer.code("G71"),
        }
        let steps = writer.random.below(3);
        writer.steps(steps);
    }
    writer.finish();
    writer.file
}
