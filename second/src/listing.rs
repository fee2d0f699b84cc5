//! What is printed: document 01, "The listing, whole", and the answers of the other modes.

use std::io::{self, Write};

use crate::address::Address;
use crate::command::Unit;
use crate::md5;
use crate::mend::Mended;
use crate::scan::Refusal;
use crate::sheet::{Definition, Item, Shape, Sheet};
use crate::summary::REGIONS;

/// "past 65,536 bytes it prints refusal 1" (decision 16).
pub const LISTING_LIMIT: usize = 65_536;

/// An item's line, without its LF.
pub fn item_line(k: u64, item: &Item) -> String {
    let polarity = if item.clear { "clear" } else { "dark" };
    format!(
        "{k}\t{}\t{}\t{polarity}\t{}\t{}\t{}\t{}\t{}\t{}\t{}\t{}\t{}\t{}\t{}\t{}",
        item.kind.name(),
        item.aperture,
        u8::from(item.flip),
        item.angle,
        item.scale,
        item.start.x,
        item.start.y,
        item.end.x,
        item.end.y,
        item.centre.x,
        item.centre.y,
        item.count,
        item.place,
        item.outer,
    )
}

/// "A refused file prints `refused`, number and place, tab-parted."
pub fn refusal_line(refusal: Refusal) -> String {
    format!("refused\t{}\t{}", refusal.number, refusal.place)
}

pub fn sheet_line(sheet: &Sheet) -> String {
    let unit = match sheet.unit {
        Unit::Mm => "mm",
        Unit::Inch => "inch",
    };
    let used = &sheet.used;
    format!(
        "sheet\t{unit}\t{}\t{}\t{}\t{}\t{}\t{}",
        sheet.total(),
        used.entries,
        used.apertures,
        used.macros,
        used.numbers,
        sheet.rounded,
    )
}

/// The listing, with at most that many items.
pub fn write_listing(out: &mut dyn Write, sheet: &Sheet, limit: u64) -> io::Result<()> {
    writeln!(out, "items\t{}", sheet.total())?;
    write_first_items(out, sheet, limit)
}

/// The lines of the first items, from the whole expansion.
pub fn write_first_items(out: &mut dyn Write, sheet: &Sheet, limit: u64) -> io::Result<()> {
    let mut k = 0;
    let mut written = Ok(());
    if limit == 0 {
        return written;
    }
    sheet.each_item(&mut |item| {
        written = writeln!(out, "{}", item_line(k, &item));
        k += 1;
        written.is_ok() && k < limit
    });
    written
}

/// The address of item k; 20 at or past the total.
pub fn address_line(sheet: &Sheet, k: u64) -> String {
    match sheet.address(k) {
        Some(words) => format!("address\t{}", words.map(|word| word.to_string()).join("\t")),
        None => refusal_line(Refusal::new(20, 0)),
    }
}

/// The number of the item with that address; 32 where it names none.
pub fn number_line(sheet: &Sheet, address: &Address) -> String {
    match sheet.number(address) {
        Some(k) => format!("number\t{k}"),
        None => refusal_line(Refusal::new(32, 0)),
    }
}

/// The lines of items k on, each found by counting; 20 at or past the total.
pub fn write_items(out: &mut dyn Write, sheet: &Sheet, k: u64, count: u64) -> io::Result<()> {
    if k >= sheet.total() {
        return writeln!(out, "{}", refusal_line(Refusal::new(20, 0)));
    }
    for k in k..k.saturating_add(count) {
        match sheet.item(k) {
            Some(item) => writeln!(out, "{}", item_line(k, &item))?,
            None => break,
        }
    }
    Ok(())
}

/// A line per AD, in file order.
pub fn write_numbers(out: &mut dyn Write, sheet: &Sheet) -> io::Result<()> {
    for Definition { number, shape } in &sheet.apertures {
        if *shape != Shape::Block {
            writeln!(out, "{number}{}", parted('\t', &shape.numbers()))?;
        }
    }
    Ok(())
}

/// The numbers, each behind a part.
fn parted(part: char, numbers: &[i64]) -> String {
    numbers.iter().map(|number| format!("{part}{number}")).collect()
}

/// A line per aperture in store order: its number, what it is, and its parameters; or a macro's
/// primitives, each a field of a code and parameters, parted by spaces.
pub fn write_apertures(out: &mut dyn Write, sheet: &Sheet) -> io::Result<()> {
    for Definition { number, shape } in &sheet.apertures {
        match shape {
            Shape::Standard(template, parameters) => {
                let template = char::from(*template);
                writeln!(out, "{number}\t{template}{}", parted('\t', parameters))?;
            }
            Shape::Primitives(primitives) => {
                write!(out, "{number}\tmacro")?;
                for primitive in primitives {
                    write!(out, "\t{}", parted(' ', primitive).trim_start())?;
                }
                writeln!(out)?;
            }
            Shape::Block => writeln!(out, "{number}\tblock")?,
        }
    }
    Ok(())
}

/// A line per aperture in store order, then the regions'; 17 with fewer rows than that.
pub fn write_summary(out: &mut dyn Write, sheet: &Sheet, rows: u64) -> io::Result<()> {
    if rows <= sheet.apertures.len() as u64 {
        return writeln!(out, "{}", refusal_line(Refusal::new(17, 0)));
    }
    let summary = sheet.summary();
    let numbers = sheet.apertures.iter().map(|definition| definition.number);
    for number in numbers.chain([REGIONS]) {
        let row = summary.get(&number).copied().unwrap_or_default();
        let name = if number == REGIONS { String::from("regions") } else { number.to_string() };
        let (least, greatest) = row.bounds.map_or_else(Default::default, |b| (b.least, b.greatest));
        writeln!(
            out,
            "{name}\t{}\t{}\t{}\t{}\t{}",
            row.count, least.x, least.y, greatest.x, greatest.y
        )?;
    }
    Ok(())
}

/// A line per change, then the bytes and the MD5 of the mended file; or that there are none.
pub fn write_changes(out: &mut dyn Write, mended: &Mended) -> io::Result<()> {
    if mended.changes.is_empty() {
        return writeln!(out, "unchanged");
    }
    for change in &mended.changes {
        let (name, place) = change.name_and_place();
        writeln!(out, "{name}\t{place}")?;
    }
    let digest = md5::hex(&md5::digest(&mended.file));
    writeln!(out, "bytes\t{}\t{digest}", mended.file.len())
}

#[cfg(test)]
mod tests {
    use super::*;
    use crate::rules::read;
    use crate::sheet::Room;
    use crate::terms::Terms;

    /// P10: the input and output of document 01, its lines longer by [6]'s field.
    #[test]
    fn the_listing_of_document_01() {
        let file = "%FSLAX36Y36*%\n%MOMM*%\n%ADD10C,0.5*%\n%ABD11*%\nD10*\nG01*\nX0Y0D02*\n\
            X1000000Y0D01*\nX0Y2000000D03*\n%AB*%\n%LR90*%\nD11*\n%SRX2Y1I3000.0J0*%\n\
            X10000000Y5000000D03*\n%SR*%\nM02*\n";
        let listing = "items|4\n\
            0|line|10|dark|0|90000000|1000000|10000000|5000000|10000000|6000000|0|0|0|64|132\n\
            1|flash|10|dark|0|90000000|1000000|0|0|8000000|5000000|0|0|0|79|132\n\
            2|line|10|dark|0|90000000|1000000|3010000000|5000000|3010000000|6000000|0|0|0|64|132\n\
            3|flash|10|dark|0|90000000|1000000|0|0|3008000000|5000000|0|0|0|79|132\n";
        let sheet = read(file.as_bytes(), Terms::PLAIN, Room::UNLIMITED).expect("accepted");
        let mut given = Vec::new();
        write_listing(&mut given, &sheet, u64::MAX).expect("room for all bytes");
        assert_eq!(String::from_utf8_lossy(&given).replace('\t', "|"), listing);
    }
}
