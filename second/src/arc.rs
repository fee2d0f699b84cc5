//! Arc centres: document 01, "Arc centre is start plus (I, J)" in "State".

use crate::sheet::Point;

/// 12: "I and J both 0; or start differs from end and the centre lies on their line but not
/// strictly between them." All exact.
pub fn is_nonsensical(start: Point, end: Point, offset: Point) -> bool {
    if offset == Point::default() {
        return true;
    }
    if start == end {
        return false;
    }
    let (cx, cy) = (i128::from(offset.x), i128::from(offset.y));
    let (ex, ey) = (i128::from(end.x - start.x), i128::from(end.y - start.y));
    let is_on_line = cx * ey == cy * ex;
    // How far along from start to end the centre lies: between 0 and the whole squared length.
    let along = cx * ex + cy * ey;
    let is_between = 0 < along && along < ex * ex + ey * ey;
    is_on_line && !is_between
}

/// The centre of a single quadrant arc of the old edition, from the sizes of I and J: "Of the
/// distinct centres given by their signs, those off both ends whose arc in the drawn direction spans
/// above 0 and at most 90 degrees are kept, and the one with the least difference between the squared
/// start and end radii is taken." Nothing where none remains or two tie (31).
pub fn quadrant_centre(start: Point, end: Point, size: Point, clockwise: bool) -> Option<Point> {
    let mut centres: Vec<Point> = Vec::new();
    for (x, y) in [(1, 1), (1, -1), (-1, 1), (-1, -1)] {
        let centre = start.plus(Point::new(x * size.x, y * size.y));
        if !centres.contains(&centre) {
            centres.push(centre);
        }
    }
    let kept = centres.iter().filter(|centre| spans_a_quadrant(start, end, **centre, clockwise));
    let mut by_difference: Vec<(i128, Point)> = kept
        .map(|centre| ((squared(start, *centre) - squared(end, *centre)).abs(), *centre))
        .collect();
    by_difference.sort_by_key(|(difference, _)| *difference);
    match by_difference[..] {
        [(least, _), (next, _), ..] if least == next => None,
        [(_, centre), ..] => Some(centre),
        [] => None,
    }
}

/// Whether the centre is neither end, and the arc around it spans above 0 and up to 90 degrees: with
/// s and e from the centre to start and end, cross(s, e) has the sign of the direction, and
/// dot(s, e) is at least 0.
fn spans_a_quadrant(start: Point, end: Point, centre: Point, clockwise: bool) -> bool {
    let (sx, sy) = from(centre, start);
    let (ex, ey) = from(centre, end);
    let cross = if clockwise { sy * ex - sx * ey } else { sx * ey - sy * ex };
    centre != start && centre != end && cross > 0 && sx * ex + sy * ey >= 0
}

fn squared(point: Point, centre: Point) -> i128 {
    let (x, y) = from(centre, point);
    x * x + y * y
}

fn from(centre: Point, point: Point) -> (i128, i128) {
    (i128::from(point.x - centre.x), i128::from(point.y - centre.y))
}

#[cfg(test)]
mod tests {
    use super::*;

    #[test]
    fn single_quadrants() {
        let centre = |end: (i64, i64), size: (i64, i64), clockwise| {
            let (end, size) = (Point::new(end.0, end.1), Point::new(size.0, size.1));
            quadrant_centre(Point::new(0, 0), end, size, clockwise).map(|c| (c.x, c.y))
        };
        assert_eq!(centre((10, 10), (10, 0), true), Some((10, 0)));
        assert_eq!(centre((10, 10), (10, 0), false), Some((-10, 0)));
        assert_eq!(centre((10, 10), (0, 10), false), Some((0, 10)));
        // A half circle, and no offset.
        assert_eq!(centre((20, 0), (10, 0), true), None);
        assert_eq!(centre((20, 0), (0, 0), true), None);
        // Exactly 90 degrees, and a little more, where another centre remains.
        assert_eq!(centre((2, 0), (1, 1), false), Some((1, 1)));
        assert_eq!(centre((3, 0), (1, 1), false), Some((-1, 1)));
        // Two tie, and just not.
        assert_eq!(centre((2, 20), (101, 1), true), None);
        assert!(centre((2, 20), (102, 1), true).is_some());
    }

    /// P6 and P7 of document 01.
    #[test]
    fn centres_on_the_line() {
        let (start, end) = (Point::new(0, 0), Point::new(2, 0));
        assert!(!is_nonsensical(start, end, Point::new(1, 0)));
        assert!(is_nonsensical(start, end, Point::new(2, 0)));
        assert!(is_nonsensical(start, end, Point::new(-1, 0)));
        assert!(is_nonsensical(start, end, Point::new(0, 0)));
        assert!(!is_nonsensical(start, end, Point::new(2, 1)));
        assert!(!is_nonsensical(start, start, Point::new(1, 0)));
    }
}
