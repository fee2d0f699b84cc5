//! Bytes and ends: 2, 3 and 18.

use crate::generator::writer::Writer;

pub fn bad_byte(mut writer: Writer) -> Vec<u8> {
    let random = &mut writer.random;
    let byte = random.pick(&[0, 9, 10, 10, 10, 13, 13, 31, 127, 128, 195, 255]);
    let marks: Vec<usize> = (0..writer.file.len())
        .filter(|at| matches!(writer.file[*at], b'*' | b'%' | b','))
        .map(|at| at + 1)
        .collect();
    let at = match random.below(2) {
        0 => random.pick(&marks),
        _ => random.below(writer.file.len() + 1),
    };
    writer.file.insert(at, byte);
    writer.file
}

pub fn cut(mut writer: Writer) -> Vec<u8> {
    let length = writer.file.len();
    let keep = match writer.random.below(3) {
        0 => length.saturating_sub(writer.random.below(8)),
        _ => writer.random.below(length + 1),
    };
    writer.file.truncate(keep);
    writer.file
}

pub fn tail(mut writer: Writer) -> Vec<u8> {
    let random = &mut writer.random;
    let ends = random.pick(&["", "\n", "\r\n", "\n\n\r"]);
    let rest: &[u8] = random.pick(&[b" ", b"M02*", b"%", b"\x00", b"\x7f", b"A\x01", b"", b"G04*"]);
    writer.file.extend(ends.bytes());
    writer.file.extend(rest);
    writer.file
}
