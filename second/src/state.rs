//! What stands while a file is read: document 01, "State".

use crate::command::{Mirror, Mode};
use crate::number::ONE;
use crate::sheet::{Body, Grid, Point, TURN};

/// An aperture number that is taken.
#[derive(Clone, Copy, PartialEq, Eq)]
pub enum Aperture {
    /// A circle without hole.
    Pen,
    /// A rectangle without hole, with which the old edition draws lines.
    Rectangle,
    /// Any other template.
    Shape,
    /// A closed block, by its index.
    Block(usize),
    OpenBlock,
}

/// "At the start: point, aperture and mode unset; dark; no mirror; angle 0; scale 1."
pub struct Graphics {
    pub point: Option<Point>,
    pub aperture: Option<(i64, Aperture)>,
    pub mode: Option<Mode>,
    pub clear: bool,
    pub mirror: Mirror,
    pub rotation: i64,
    pub scale: i64,
}

impl Graphics {
    pub fn at_start() -> Graphics {
        Graphics {
            point: None,
            aperture: None,
            mode: None,
            clear: false,
            mirror: Mirror::None,
            rotation: 0,
            scale: ONE,
        }
    }

    /// "As flip (of x) and angle: none = no, 0; X = yes, 0; Y = yes, 180; XY = no, 180; then LR is
    /// added; every angle is modulo 360 degrees, from 0 up."
    pub fn orientation(&self) -> (bool, i64) {
        let (flip, angle) = match self.mirror {
            Mirror::None => (false, 0),
            Mirror::X => (true, 0),
            Mirror::Y => (true, TURN / 2),
            Mirror::Xy => (false, TURN / 2),
        };
        (flip, (angle + self.rotation).rem_euclid(TURN))
    }
}

/// An AB or SR that is open.
pub enum Open {
    Block { number: i64, body: Body, height: u32 },
    Repeat { grid: Grid, body: Body },
}

/// A region: whether a D02 stood since its G36 (request [7] of document 02), and the contour begun in it, if any.
#[derive(Default)]
pub struct Region {
    pub moved: bool,
    pub contour: Option<Contour>,
}

pub struct Contour {
    pub start: Point,
    /// The entry that counts its edges.
    pub entry: usize,
}
