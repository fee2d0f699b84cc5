//! Operations, and the points they go to.

use super::{Known, Open, Shape, Writer, MOST_ITEMS};
use crate::arc::is_nonsensical;
use crate::generator::text;
use crate::number::ONE;
use crate::sheet::Point;

impl Writer {
    pub fn most_digits(&self) -> usize {
        if self.lacks_format {
            12
        } else {
            self.format.digits()
        }
    }

    /// Often near the current point or on its lines, now and then at the end of the range.
    pub fn new_point(&mut self) -> Point {
        let old = self.point.unwrap_or_default();
        Point::new(self.new_coordinate(old.x), self.new_coordinate(old.y))
    }

    fn new_coordinate(&mut self, old: i64) -> i64 {
        let greatest = self.greatest();
        let value = match self.random.below(10) {
            0..=2 => old,
            3 => self.random.pick(&[greatest, -greatest]),
            4 => self.random.between(-greatest, greatest),
            5..=6 => self.random.between(-3, 3) * self.unit_step(),
            _ => self.random.between(-9, 9) * 100_000,
        };
        self.fitting(value)
    }

    /// Writes the operation; coordinates that stay are left out now and then.
    pub fn operate(&mut self, code: &str, target: Point, offset: Option<Point>) {
        let mut text = std::mem::take(&mut self.waiting_code);
        let old = self.point;
        let from = if self.incremental { old.unwrap_or_default() } else { Point::default() };
        let leave_x = old.is_some_and(|old| old.x == target.x) && self.random.percent(60);
        let leave_y = old.is_some_and(|old| old.y == target.y) && self.random.percent(60);
        if !leave_x {
            text += &format!("X{}", self.coordinate(target.x - from.x));
        }
        if !leave_y {
            text += &format!("Y{}", self.coordinate(target.y - from.y));
        }
        if let Some(offset) = offset {
            text += &format!("I{}", self.offset(offset.x));
            text += &format!("J{}", self.offset(offset.y));
        }
        text += &self.spelled(code);
        self.write_word(&text);
        self.point = Some(target);
    }

    fn coordinate(&mut self, value: i64) -> String {
        if self.is_old() {
            let sign = text::sign(&mut self.random, value);
            return format!("{sign}{}", self.old_digits(value));
        }
        let most = self.most_digits();
        text::coordinate(&mut self.random, value, most)
    }

    /// I or J, without a sign in single quadrant mode.
    fn offset(&mut self, value: i64) -> String {
        if self.is_old() && !self.g75 && !self.signed_offsets {
            return self.old_digits(value);
        }
        self.coordinate(value)
    }

    pub fn fits(&self, new: u128) -> bool {
        let after = match self.open.last() {
            Some(Open::Block { items, .. }) => items + new,
            Some(Open::Repeat { copies, items }) => self.top_items + copies * (items + new),
            None => self.top_items + new,
        };
        after <= MOST_ITEMS
    }

    pub fn count(&mut self, new: u128) {
        match self.open.last_mut() {
            Some(Open::Block { items, .. } | Open::Repeat { items, .. }) => *items += new,
            None => self.top_items += new,
        }
    }

    pub fn go(&mut self) {
        self.header();
        let target = self.new_point();
        self.operate("D02", target, None);
    }

    pub fn take_point(&mut self) {
        if self.point.is_none() {
            self.go();
        }
    }

    pub fn take_mode(&mut self, mode: &'static str) {
        if self.mode != mode {
            self.mode = mode;
            self.code(mode);
        }
        if mode != "G01" && !self.g75 {
            self.g75 = true;
            self.code("G75");
        }
    }

    pub fn line(&mut self) {
        if !self.fits(1) {
            return;
        }
        self.header();
        if !self.has_rectangle() {
            self.take_pen();
        }
        self.take_point();
        self.take_mode("G01");
        let target = self.new_point();
        self.operate("D01", target, None);
        self.count(1);
    }

    pub fn arc(&mut self) {
        if !self.fits(1) {
            return;
        }
        self.header();
        self.take_pen();
        self.take_point();
        let target = self.new_point();
        self.arc_to(target);
        self.count(1);
    }

    pub fn arc_to(&mut self, target: Point) {
        if self.is_old() && self.random.percent(60) && self.quadrant_arc_to(target) {
            return;
        }
        let mode = self.random.pick(&["G02", "G03"]);
        self.take_mode(mode);
        let start = self.point.unwrap_or_default();
        let offset = self.centre(start, target);
        self.operate("D01", target, Some(offset));
    }

    /// Some offset that is not nonsensical.
    fn centre(&mut self, start: Point, end: Point) -> Point {
        loop {
            let offset = Point::new(self.new_coordinate(0), self.new_coordinate(0));
            if !is_nonsensical(start, end, offset) {
                return offset;
            }
        }
    }

    pub fn flash(&mut self) {
        self.header();
        if self.aperture.is_none() || self.random.percent(30) {
            self.select();
        }
        if self.aperture.is_none() {
            self.take_pen();
        }
        self.flash_current();
    }

    /// Flashes the current aperture where the rules allow it.
    fn flash_current(&mut self) {
        let items = match self.aperture.map(|known| known.shape) {
            Some(Shape::Block { height, items }) => {
                if !self.can_flash(height) {
                    return;
                }
                self.make_square();
                if let Some(Open::Block { height: open, .. }) = self.open.last_mut() {
                    *open = (*open).max(height + 1);
                }
                items
            }
            _ => 1,
        };
        if self.fits(items) {
            let target = self.new_point();
            self.operate("D03", target, None);
            self.count(items);
        }
    }

    /// Flashes some block, in some orientation and polarity.
    pub fn flash_block(&mut self) {
        self.header();
        let blocks: Vec<Known> = self
            .apertures
            .iter()
            .copied()
            .filter(|known| matches!(known.shape, Shape::Block { .. }))
            .collect();
        if blocks.is_empty() {
            return;
        }
        // The last ones are the tallest.
        let late = blocks[blocks.len().saturating_sub(2)..].to_vec();
        let block = if self.random.percent(60) {
            self.random.pick(&late)
        } else {
            self.random.pick(&blocks)
        };
        self.take(block);
        if self.random.percent(50) {
            self.mirror();
        }
        if self.random.percent(50) {
            let quarters = self.random.between(-4, 7);
            self.rotate(quarters * 90 * ONE);
        }
        if self.random.percent(40) {
            let polarity = self.random.pick(&["LPD", "LPC"]);
            self.extended(polarity);
        }
        self.flash_current();
    }

    fn can_flash(&self, height: u32) -> bool {
        !matches!(self.open.last(), Some(Open::Block { .. })) || height < 8
    }
}
