//! The sheet and its items: document 01, "Items".
//!
//! The items can be had in two ways that share only the placing of one item: [`Sheet::each_item`]
//! writes the whole expansion out in order, [`Sheet::item`] finds item k by counting.

use crate::command::Unit;
use crate::number::ONE;

/// A full turn, in millionths of a degree.
pub const TURN: i64 = 360 * ONE;

#[derive(Clone, Copy, PartialEq, Eq, Debug, Default)]
pub struct Point {
    pub x: i64,
    pub y: i64,
}

impl Point {
    pub fn new(x: i64, y: i64) -> Point {
        Point { x, y }
    }

    pub fn plus(self, other: Point) -> Point {
        Point::new(self.x + other.x, self.y + other.y)
    }

    fn flipped(self) -> Point {
        Point::new(-self.x, self.y)
    }

    /// Turned a quarter counterclockwise.
    fn turned(self) -> Point {
        Point::new(-self.y, self.x)
    }
}

/// "Kinds, numbered 1 to 8".
#[derive(Clone, Copy, PartialEq, Eq, Debug)]
pub enum Kind {
    Line = 1,
    Cw,
    Ccw,
    Flash,
    Contour,
    EdgeLine,
    EdgeCw,
    EdgeCcw,
}

impl Kind {
    pub fn name(self) -> &'static str {
        match self {
            Kind::Line => "line",
            Kind::Cw => "cw",
            Kind::Ccw => "ccw",
            Kind::Flash => "flash",
            Kind::Contour => "contour",
            Kind::EdgeLine => "edge-line",
            Kind::EdgeCw => "edge-cw",
            Kind::EdgeCcw => "edge-ccw",
        }
    }

    /// "contours and edges have angle 0, scale 1, no flip, in flashed blocks too".
    fn has_orientation(self) -> bool {
        matches!(self, Kind::Line | Kind::Cw | Kind::Ccw | Kind::Flash)
    }

    /// Used points; the others are 0 and stay 0 (decision 95).
    fn uses_start(self) -> bool {
        self != Kind::Flash
    }

    fn uses_end(self) -> bool {
        self != Kind::Contour
    }

    fn uses_centre(self) -> bool {
        matches!(self, Kind::Cw | Kind::Ccw | Kind::EdgeCw | Kind::EdgeCcw)
    }

    /// "cw and ccw, edges too, change places".
    fn flipped(self) -> Kind {
        match self {
            Kind::Cw => Kind::Ccw,
            Kind::Ccw => Kind::Cw,
            Kind::EdgeCw => Kind::EdgeCcw,
            Kind::EdgeCcw => Kind::EdgeCw,
            other => other,
        }
    }
}

#[derive(Clone, Copy, PartialEq, Eq, Debug)]
pub struct Item {
    pub kind: Kind,
    pub aperture: i64,
    pub clear: bool,
    pub flip: bool,
    pub angle: i64,
    pub scale: i64,
    pub start: Point,
    pub end: Point,
    pub centre: Point,
    pub count: u64,
    pub place: usize,
    /// "the place of the outermost flash, or the item's own place when it is in no block" ([6]).
    pub outer: usize,
}

impl Item {
    fn with_used_points(self, change: impl Fn(Point) -> Point) -> Item {
        let mut item = self;
        if item.kind.uses_start() {
            item.start = change(item.start);
        }
        if item.kind.uses_end() {
            item.end = change(item.end);
        }
        if item.kind.uses_centre() {
            item.centre = change(item.centre);
        }
        item
    }

    /// The item as a flash of the block it is in puts it out.
    fn flashed(self, flash: &Placing) -> Item {
        let mut item = self.with_used_points(|point| flash.moved(point));
        if item.kind.has_orientation() {
            let turn = if flash.flip { flash.angle - item.angle } else { flash.angle + item.angle };
            item.angle = turn.rem_euclid(TURN);
            item.flip = flash.flip != item.flip;
        }
        if flash.flip {
            item.kind = item.kind.flipped();
        }
        item.clear ^= flash.clear;
        item.outer = flash.place;
        item
    }
}

/// How a block is flashed.
#[derive(Clone, Copy, PartialEq, Eq, Debug)]
pub struct Placing {
    pub at: Point,
    pub flip: bool,
    /// A multiple of 90 degrees, from 0 up to below 360.
    pub angle: i64,
    pub clear: bool,
    /// Of its D03.
    pub place: usize,
}

impl Placing {
    /// "each used point is flipped if f, turned q, shifted to the flash point".
    pub fn moved(&self, point: Point) -> Point {
        let mut point = if self.flip { point.flipped() } else { point };
        for _ in 0..self.angle / (TURN / 4) {
            point = point.turned();
        }
        point.plus(self.at)
    }
}

/// Step and repeat.
#[derive(Clone, Copy, PartialEq, Eq, Debug)]
pub struct Grid {
    pub nx: u64,
    pub ny: u64,
    pub dx: i64,
    pub dy: i64,
}

impl Grid {
    pub fn copies(&self) -> u64 {
        self.nx * self.ny
    }

    /// The shift of a copy: "stepping Y first, then X" (decision 103).
    pub fn shift(&self, copy: u64) -> Point {
        let (column, row) = (copy / self.ny, copy % self.ny);
        Point::new(self.dx * column as i64, self.dy * row as i64)
    }
}

/// What one command, or one SR, puts out.
#[derive(Clone, PartialEq, Eq, Debug)]
pub enum Source {
    Item(Item),
    /// A flash of a block aperture: its index in the sheet, and how it is placed.
    Block(usize, Placing),
    Repeat(Grid, Body),
}

#[derive(Clone, PartialEq, Eq, Debug)]
pub struct Entry {
    /// Items of the same body before this entry.
    pub before: u64,
    pub source: Source,
}

/// A run of entries: the top level, a block's, or an SR's.
#[derive(Clone, PartialEq, Eq, Debug, Default)]
pub struct Body {
    pub entries: Vec<Entry>,
    pub total: u64,
}

impl Body {
    pub fn push(&mut self, source: Source, items: u64) {
        self.entries.push(Entry { before: self.total, source });
        self.total += items;
    }

    /// The index of the entry that holds item k, and the item's number among that entry's, for k
    /// below the total. It is the last entry with at most k items before it: entries without items
    /// come before the one that holds item k, or have more before them.
    pub fn holding(&self, k: u64) -> (usize, u64) {
        let index = self.entries.partition_point(|entry| entry.before <= k) - 1;
        (index, k - self.entries[index].before)
    }
}

/// An aperture block.
#[derive(Clone, PartialEq, Eq, Debug)]
pub struct Block {
    pub body: Body,
    /// "1, or one more than the tallest block flashed in it".
    pub height: u32,
}

/// An aperture of the store, as AD or AB made it.
#[derive(Clone, PartialEq, Eq, Debug)]
pub struct Definition {
    pub number: i64,
    pub shape: Shape,
}

#[derive(Clone, PartialEq, Eq, Debug)]
pub enum Shape {
    /// C, R, O or P, and its parameters.
    Standard(u8, Vec<i64>),
    /// A macro's primitives worked out: each a code, as a plain number, and its parameters.
    Primitives(Vec<Vec<i64>>),
    Block,
}

impl Shape {
    /// The numbers kept.
    pub fn numbers(&self) -> Vec<i64> {
        match self {
            Shape::Standard(_, parameters) => parameters.clone(),
            Shape::Primitives(primitives) => primitives.concat(),
            Shape::Block => Vec::new(),
        }
    }
}

/// Records and numbers, used or lent.
#[derive(Clone, Copy, PartialEq, Eq, Debug)]
pub struct Room {
    pub entries: u64,
    pub apertures: u64,
    pub macros: u64,
    pub numbers: u64,
}

impl Room {
    pub const NONE: Room = Room { entries: 0, apertures: 0, macros: 0, numbers: 0 };
    pub const UNLIMITED: Room =
        Room { entries: u64::MAX, apertures: u64::MAX, macros: u64::MAX, numbers: u64::MAX };
}

/// An accepted reading.
#[derive(Clone, PartialEq, Eq, Debug)]
pub struct Sheet {
    pub unit: Unit,
    pub body: Body,
    pub blocks: Vec<Block>,
    /// In the order of the store.
    pub apertures: Vec<Definition>,
    pub used: Room,
    /// "how many decimals were rounded, each written one counted once" (document 02, [1]).
    pub rounded: u64,
}

impl Sheet {
    pub fn total(&self) -> u64 {
        self.body.total
    }

    // ------------------------------------------------------------ the whole expansion

    /// Hands over every item in order, until the taker answers false.
    pub fn each_item(&self, take: &mut dyn FnMut(Item) -> bool) {
        self.write_out(&self.body, take);
    }

    /// False when the taker has had enough. Bodies without items are passed by, for they may be
    /// repeated without end.
    fn write_out(&self, body: &Body, take: &mut dyn FnMut(Item) -> bool) -> bool {
        if body.total == 0 {
            return true;
        }
        body.entries.iter().all(|entry| match &entry.source {
            Source::Item(item) => take(*item),
            Source::Block(block, placing) => {
                let inner = &self.blocks[*block].body;
                self.write_out(inner, &mut |item| take(item.flashed(placing)))
            }
            Source::Repeat(grid, inner) => self.write_out_copies(grid, inner, take),
        })
    }

    fn write_out_copies(
        &self,
        grid: &Grid,
        body: &Body,
        take: &mut dyn FnMut(Item) -> bool,
    ) -> bool {
        if body.total == 0 {
            return true;
        }
        for column in 0..grid.nx {
            for row in 0..grid.ny {
                let shift = Point::new(column as i64 * grid.dx, row as i64 * grid.dy);
                let mut placed =
                    |item: Item| take(item.with_used_points(|point| point.plus(shift)));
                if !self.write_out(body, &mut placed) {
                    return false;
                }
            }
        }
        true
    }

    // ------------------------------------------------------------ one item

    /// Item k, for k below the total.
    pub fn item(&self, k: u64) -> Option<Item> {
        if k >= self.total() {
            return None;
        }
        Some(self.item_of(&self.body, k))
    }

    fn item_of(&self, body: &Body, k: u64) -> Item {
        let (index, k) = body.holding(k);
        match &body.entries[index].source {
            Source::Item(item) => *item,
            Source::Block(block, placing) => {
                self.item_of(&self.blocks[*block].body, k).flashed(placing)
            }
            Source::Repeat(grid, inner) => {
                let shift = grid.shift(k / inner.total);
                let item = self.item_of(inner, k % inner.total);
                item.with_used_points(|point| point.plus(shift))
            }
        }
    }
}
