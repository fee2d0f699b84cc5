//! Regions, blocks and repeats, transformations and attributes.

use super::{Open, Shape, Writer};
use crate::generator::random::Random;
use crate::generator::text;
use crate::number::ONE;
use crate::sheet::Point;

impl Writer {
    pub fn region(&mut self) {
        self.header();
        self.code("G36");
        for nth in 0..self.random.below(4) {
            self.contour(nth == 0);
        }
        self.code("G37");
    }

    /// A closed contour of one to five edges; the first of its region begins with a D02, but in the
    /// old edition.
    pub fn contour(&mut self, first: bool) {
        if (first && !self.is_old()) || self.random.percent(80) {
            self.go();
        }
        let Some(start) = self.point else {
            return;
        };
        let edges = self.random.between(1, 5);
        if !self.fits(1 + edges as u128) {
            return;
        }
        for left in (0..edges).rev() {
            let target = if left == 0 { start } else { self.new_point() };
            self.edge(target);
            if self.random.percent(5) {
                self.comment();
            }
        }
        self.count(1 + edges as u128);
    }

    pub fn edge(&mut self, target: Point) {
        if self.random.percent(30) {
            self.arc_to(target);
        } else {
            self.take_mode("G01");
            self.operate("D01", target, None);
        }
    }

    pub fn open_block(&mut self) {
        let blocks = self.open.iter().filter(|open| matches!(open, Open::Block { .. })).count();
        if blocks >= 8 {
            return;
        }
        let number = self.new_number();
        let text = text::aperture(&mut self.random, number);
        self.extended(&format!("ABD{text}"));
        self.taken.insert(number);
        self.open.push(Open::Block { number, height: 1, items: 0 });
        self.point = None;
    }

    pub fn open_repeat(&mut self) {
        if !self.open.is_empty() {
            return;
        }
        let steps = |random: &mut Random| {
            let many = random.percent(10);
            random.between(1, if many { 9_999 } else { 4 })
        };
        let (nx, ny) = (steps(&mut self.random), steps(&mut self.random));
        let distance = |random: &mut Random| match random.below(4) {
            0 => 0,
            _ => text::size(random),
        };
        let (dx, dy) = (distance(&mut self.random), distance(&mut self.random));
        let (dx, dy) = (text::decimal(&mut self.random, dx), text::decimal(&mut self.random, dy));
        self.extended(&format!("SRX{nx}Y{ny}I{dx}J{dy}"));
        self.open.push(Open::Repeat { copies: (nx * ny) as u128, items: 0 });
        self.point = None;
    }

    pub fn close(&mut self) {
        match self.open.pop() {
            None => return,
            Some(Open::Block { number, height, items }) => {
                self.extended("AB");
                self.add(number, Shape::Block { height, items });
            }
            Some(Open::Repeat { copies, items }) => {
                self.extended("SR");
                self.top_items += copies * items;
            }
        }
        self.point = None;
    }

    pub fn transform(&mut self) {
        match self.random.below(6) {
            0..=1 => {
                let polarity = self.random.pick(&["LPD", "LPC"]);
                self.extended(polarity);
            }
            2..=3 => self.mirror(),
            4 => {
                let angle = match self.random.below(8) {
                    0..=2 => self.random.between(-9, 9) * 90 * ONE,
                    3..=4 => self.random.between(-30, 30) * 15 * ONE,
                    5 => self.random.between(-9, 9) * 90 * ONE + 1,
                    _ => self.random.between(-999_999_999_999, 999_999_999_999),
                };
                self.rotate(angle);
            }
            _ => {
                let scale = self.random.pick(&[ONE, ONE, ONE / 2, ONE + 1, 1, 999_999_999_999]);
                self.set_scale(scale);
            }
        }
    }

    pub fn mirror(&mut self) {
        let mirror = self.random.pick(&["LMN", "LMX", "LMY", "LMXY"]);
        self.extended(mirror);
    }

    pub fn rotate(&mut self, angle: i64) {
        let text = text::decimal(&mut self.random, angle);
        self.extended(&format!("LR{text}"));
        self.angle = angle;
    }

    pub fn set_scale(&mut self, scale: i64) {
        let text = text::decimal(&mut self.random, scale);
        self.extended(&format!("LS{text}"));
        self.scale = scale;
    }

    /// Scale 1 and a right angle, as the flash of a block needs them.
    pub fn make_square(&mut self) {
        if self.scale != ONE {
            self.set_scale(ONE);
        }
        if self.angle % (90 * ONE) != 0 {
            let angle = self.random.between(-5, 5) * 90 * ONE;
            self.rotate(angle);
        }
    }

    pub fn attribute(&mut self) {
        let name = match self.random.below(3) {
            0 => text::name(&mut self.random),
            _ => String::from(self.random.pick(&["a", "b", ".P", ".AperFunction"])),
        };
        let value = match self.random.below(4) {
            0 => String::new(),
            _ => format!(",{}", self.field(8)),
        };
        match self.random.below(8) {
            0 if self.file_attributes.insert(name.clone()) => {
                self.extended(&format!("TF{name}{value}"));
            }
            0..=2 => self.extended(&format!("TA{name}{value}")),
            3..=5 => self.extended(&format!("TO{name}{value}")),
            6 => self.extended(&format!("TD{name}")),
            _ => self.extended("TD"),
        }
    }
}
