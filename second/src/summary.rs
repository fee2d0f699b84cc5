//! A summary beside the sheet: request [11] of document 02.
//!
//! The rows can be had in two ways: [`Sheet::summary_by_items`] is "a pass over the plain
//! expansion", [`Sheet::summary_by_blocks`] looks at each entry once. The tests hold them together.

use std::collections::BTreeMap;

use crate::sheet::{Body, Grid, Item, Kind, Placing, Point, Sheet, Source};

/// The number of the row "for all regions together": contours and edges have aperture 0.
pub const REGIONS: i64 = 0;

/// Up to so many items are passed over.
const MOST_PASSED: u64 = 1_000_000;

/// "the least and greatest x and y" of some points.
#[derive(Clone, Copy, PartialEq, Eq, Debug)]
pub struct Bounds {
    pub least: Point,
    pub greatest: Point,
}

impl Bounds {
    fn of(one: Point, other: Point) -> Bounds {
        Bounds {
            least: Point::new(one.x.min(other.x), one.y.min(other.y)),
            greatest: Point::new(one.x.max(other.x), one.y.max(other.y)),
        }
    }

    fn joined(self, other: Bounds) -> Bounds {
        Bounds {
            least: Bounds::of(self.least, other.least).least,
            greatest: Bounds::of(self.greatest, other.greatest).greatest,
        }
    }

    /// The bounds of the moved points: a move keeps the axes, or exchanges them.
    fn moved(self, change: impl Fn(Point) -> Point) -> Bounds {
        Bounds::of(change(self.least), change(self.greatest))
    }
}

/// The items of one aperture, or all regions.
#[derive(Clone, Copy, PartialEq, Eq, Debug, Default)]
pub struct Row {
    pub count: u64,
    pub bounds: Option<Bounds>,
}

impl Row {
    fn join(&mut self, other: Row) {
        self.count += other.count;
        self.bounds = match (self.bounds, other.bounds) {
            (Some(one), Some(other)) => Some(one.joined(other)),
            (one, other) => one.or(other),
        };
    }
}

/// Rows by aperture number; an aperture without items has none.
pub type Summary = BTreeMap<i64, Row>;

fn join(summary: &mut Summary, aperture: i64, row: Row) {
    summary.entry(aperture).or_default().join(row);
}

/// "Points of a flash are its end alone, and a contour has none beside its edges'."
fn row_of(item: &Item) -> Row {
    let bounds = match item.kind {
        Kind::Contour => None,
        Kind::Flash => Some(Bounds::of(item.end, item.end)),
        _ => Some(Bounds::of(item.start, item.end)),
    };
    Row { count: 1, bounds }
}

impl Sheet {
    pub fn summary(&self) -> Summary {
        if self.total() <= MOST_PASSED {
            self.summary_by_items()
        } else {
            self.summary_by_blocks()
        }
    }

    fn summary_by_items(&self) -> Summary {
        let mut summary = Summary::new();
        self.each_item(&mut |item| {
            join(&mut summary, item.aperture, row_of(&item));
            true
        });
        summary
    }

    /// A block is closed before it is flashed, so its rows are there.
    fn summary_by_blocks(&self) -> Summary {
        let mut blocks = Vec::new();
        for block in &self.blocks {
            blocks.push(summary_of(&block.body, &blocks));
        }
        summary_of(&self.body, &blocks)
    }
}

fn summary_of(body: &Body, blocks: &[Summary]) -> Summary {
    let mut summary = Summary::new();
    for entry in &body.entries {
        match &entry.source {
            Source::Item(item) => join(&mut summary, item.aperture, row_of(item)),
            Source::Block(block, placing) => {
                for (aperture, row) in &blocks[*block] {
                    join(&mut summary, *aperture, flashed(row, placing));
                }
            }
            Source::Repeat(grid, body) => {
                for (aperture, row) in summary_of(body, blocks) {
                    join(&mut summary, aperture, repeated(&row, grid));
                }
            }
        }
    }
    summary
}

fn flashed(row: &Row, placing: &Placing) -> Row {
    let bounds = row.bounds.map(|bounds| bounds.moved(|point| placing.moved(point)));
    Row { count: row.count, bounds }
}

/// The bounds of the first copy and of the last, for steps are at least 0.
fn repeated(row: &Row, grid: &Grid) -> Row {
    let last = grid.shift(grid.copies() - 1);
    let stretched = |bounds: Bounds| bounds.joined(bounds.moved(|point| point.plus(last)));
    Row { count: row.count * grid.copies(), bounds: row.bounds.map(stretched) }
}

#[cfg(test)]
mod tests {
    use crate::generator;
    use crate::rules::read;
    use crate::sheet::Room;
    use crate::terms::Terms;

    #[test]
    fn both_ways_agree_and_the_counts_add_up() {
        let mut compared = 0;
        for index in 0..2000 {
            let Ok(sheet) =
                read(&generator::file(11, index, Terms::PLAIN), Terms::PLAIN, Room::UNLIMITED)
            else {
                continue;
            };
            let summary = sheet.summary_by_blocks();
            assert_eq!(summary.values().map(|row| row.count).sum::<u64>(), sheet.total());
            if sheet.total() <= 20_000 {
                assert_eq!(summary, sheet.summary_by_items());
                compared += 1;
            }
        }
        assert!(compared > 500);
    }
}
