//! The manner of the old edition: its formats, codes of one digit, codes before coordinates, and
//! single quadrant arcs.

use super::{Shape, Writer};
use crate::arc::quadrant_centre;
use crate::generator::random::Random;
use crate::number::Format;
use crate::sheet::Point;
use crate::terms::Edition;

/// Places of all sizes, zeros omitted at either end.
pub fn format(random: &mut Random) -> Format {
    let (integers, decimals) = match random.below(3) {
        0 => random.pick(&[(2, 3), (2, 4), (3, 6), (2, 5)]),
        1 => random.pick(&[(6, 6), (0, 6), (6, 0), (1, 0), (0, 1), (1, 6), (6, 1)]),
        _ => (random.below(7), 1 + random.below(6)),
    };
    Format { integers, decimals, trailing: random.percent(40) }
}

impl Writer {
    pub fn is_old(&self) -> bool {
        self.terms.edition == Edition::Old
    }

    /// One step of the last decimal place.
    pub fn unit_step(&self) -> i64 {
        10_i64.pow(6 - self.format.decimals as u32)
    }

    /// The greatest coordinate; half of what the digits can say where coordinates count from the
    /// last point, so that any point can be reached from any other.
    pub fn greatest(&self) -> i64 {
        let written = 10_i64.pow(self.format.digits() as u32) - 1;
        let kept = if self.is_old() { written / 2 } else { written };
        kept * self.unit_step()
    }

    /// The nearest coordinate that can be written.
    pub fn fitting(&self, value: i64) -> i64 {
        let step = self.unit_step();
        value.clamp(-self.greatest(), self.greatest()) / step * step
    }

    /// FS in the manner of its edition.
    pub fn format_text(&self) -> String {
        let Format { integers, decimals, trailing } = self.format;
        let zeros = if trailing { "T" } else { "L" };
        let notation = if self.incremental { "I" } else { "A" };
        format!("FS{zeros}{notation}X{integers}{decimals}Y{integers}{decimals}")
    }

    /// A coordinate of the old edition, without its sign.
    pub fn old_digits(&mut self, value: i64) -> String {
        let written = value.abs() / self.unit_step();
        let all = format!("{written:0>width$}", width = self.format.digits());
        let short = if self.format.trailing {
            all.trim_end_matches('0')
        } else {
            all.trim_start_matches('0')
        };
        let zeros = all.len() - short.len();
        let more = match self.random.below(6) {
            0 => zeros,
            1 => self.random.below(zeros + 1),
            _ => 0,
        };
        let more = if short.is_empty() { more.max(1) } else { more };
        if self.format.trailing {
            format!("{short}{}", "0".repeat(more))
        } else {
            format!("{}{short}", "0".repeat(more))
        }
    }

    /// A code of one digit for one of two.
    pub fn spelled(&mut self, text: &str) -> String {
        if self.is_old() && self.random.percent(40) {
            return text.replacen("G0", "G", 1).replacen("D0", "D", 1).replacen("M0", "M", 1);
        }
        String::from(text)
    }

    /// A G code: now, or before the next operation.
    pub fn code(&mut self, text: &str) {
        let text = self.spelled(text);
        self.write_waiting_code();
        if self.is_old() && self.random.percent(40) {
            self.waiting_code = text;
        } else {
            self.word(&text);
        }
    }

    /// The code that waits stands alone, since no operation came.
    pub fn write_waiting_code(&mut self) {
        if !self.waiting_code.is_empty() {
            let code = std::mem::take(&mut self.waiting_code);
            self.write_word(&code);
        }
    }

    /// What changes nothing but the notation.
    pub fn old_idle(&mut self) {
        match self.random.below(4) {
            0 => {
                let pause = self.random.pick(&["M00", "M01"]);
                let pause = self.spelled(pause);
                self.word(&pause);
            }
            1 if !self.lacks_unit => {
                let unit = self.random.pick(&["G70", "G71"]);
                self.code(unit);
            }
            _ if !self.lacks_format => {
                self.incremental = !self.incremental;
                self.code(if self.incremental { "G91" } else { "G90" });
            }
            _ => self.word("G4"),
        }
    }

    /// Draws a single quadrant arc to the point, if some sizes of I and J are found for it.
    pub fn quadrant_arc_to(&mut self, target: Point) -> bool {
        let start = self.point.unwrap_or_default();
        let mode = self.random.pick(&["G02", "G03"]);
        let Some(size) = self.quadrant_size(start, target, mode == "G02") else {
            return false;
        };
        if self.mode != mode {
            self.mode = mode;
            self.code(mode);
        }
        self.take_single_quadrant();
        self.operate("D01", target, Some(size));
        true
    }

    pub fn take_single_quadrant(&mut self) {
        if self.g75 {
            self.g75 = false;
            self.code("G74");
        }
    }

    fn quadrant_size(&mut self, start: Point, end: Point, clockwise: bool) -> Option<Point> {
        let (dx, dy) = ((end.x - start.x).abs(), (end.y - start.y).abs());
        for _ in 0..6 {
            let (i, j) = match self.random.below(4) {
                0 => (dx, 0),
                1 => (0, dy),
                2 => (dx / 2, dy / 2),
                _ => (self.random.between(0, dx), self.random.between(0, dy)),
            };
            let size = Point::new(self.fitting(i), self.fitting(j));
            if start == end || quadrant_centre(start, end, size, clockwise).is_some() {
                return Some(size);
            }
        }
        None
    }

    /// Whether the current aperture draws lines though it is no circle.
    pub fn has_rectangle(&self) -> bool {
        self.is_old() && self.aperture.is_some_and(|known| known.shape == Shape::Rectangle)
    }
}
