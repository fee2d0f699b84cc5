//! Files aimed at one refusal: the fault, or what stands just on the other side of its line.

mod apertures;
mod blocks;
mod bytes;
mod film;
mod form;
mod operations;
mod places;

use super::random::Random;
use super::writer::Writer;
use crate::terms::Terms;

/// Those of the old edition: its codes (4), points (5), units (6), pens (11), region ends (13).
const OLD_AIMS: [u32; 10] = [30, 31, 31, 31, 31, 4, 5, 6, 11, 13];

/// The numbers that a file of a few thousand bytes can be aimed at, room aside.
pub const AIMS: [u32; 18] = [2, 3, 4, 5, 6, 7, 8, 9, 10, 11, 12, 13, 14, 15, 16, 18, 19, 29];

pub fn whole(random: Random, terms: Terms) -> Vec<u8> {
    let mut writer = Writer::new(random, terms);
    if writer.is_old() && writer.random.percent(60) {
        return old_whole(writer);
    }
    let number = writer.random.pick(&AIMS);
    if number == 6 {
        return places::header(writer);
    }
    let steps = writer.random.below(12);
    writer.steps(steps);
    writer.header();
    match number {
        4 => form::malformed(&mut writer),
        5 => form::too_long(&mut writer),
        7 => places::not_here(&mut writer),
        8 => places::names(&mut writer),
        9 => apertures::expressions(&mut writer),
        10 => apertures::parameters(&mut writer),
        11 => operations::unfit(&mut writer),
        12 => operations::centres(&mut writer),
        13 => operations::contours(&mut writer),
        14 => blocks::orientations(&mut writer),
        15 => blocks::depths(&mut writer),
        16 => blocks::totals(&mut writer),
        19 => places::file_attributes(&mut writer),
        29 => operations::own_moves(&mut writer),
        _ => {}
    }
    let steps = writer.random.below(4);
    writer.steps(steps);
    writer.finish();
    match number {
        2 => bytes::bad_byte(writer),
        3 => bytes::cut(writer),
        18 => bytes::tail(writer),
        _ => writer.file,
    }
}

fn old_whole(mut writer: Writer) -> Vec<u8> {
    let number = writer.random.pick(&OLD_AIMS);
    if number == 6 {
        return film::units(writer);
    }
    let steps = writer.random.below(6);
    writer.steps(steps);
    writer.header();
    match number {
        4 => film::codes(&mut writer),
        5 => film::far_points(&mut writer),
        11 => film::pens(&mut writer),
        13 => film::closings(&mut writer),
        30 => film::unread(&mut writer),
        _ => film::quadrants(&mut writer),
    }
    let steps = writer.random.below(4);
    writer.steps(steps);
    writer.finish();
    writer.file
}
