//! The standard templates: document 01, "AD templates" in "Form". A wrong count is 10.

use crate::macros::is_whole_between;

/// "AM cannot take C, R, O or P".
pub fn is_standard(name: &[u8]) -> bool {
    matches!(name, b"C" | b"R" | b"O" | b"P")
}

/// Whether the parameters of a standard template keep its rule. A hole need not fit (decision 80).
pub fn keeps_its_rule(name: &[u8], parameters: &[i64]) -> bool {
    match name {
        b"C" => circle(parameters),
        b"R" | b"O" => two_sizes(parameters),
        b"P" => polygon(parameters),
        _ => false,
    }
}

/// "D01 outside a region with anything but a C aperture without hole" is 11 (decision 82).
pub fn can_draw(name: &[u8], parameters: &[i64]) -> bool {
    name == b"C" && parameters.len() == 1
}

/// The old edition's "lines drawn with a solid rectangle".
pub fn is_solid_rectangle(name: &[u8], parameters: &[i64]) -> bool {
    name == b"R" && parameters.len() == 2
}

/// "C diameter at least 0", then "a hole diameter above 0".
fn circle(parameters: &[i64]) -> bool {
    match parameters {
        [diameter] => *diameter >= 0,
        [diameter, hole] => *diameter >= 0 && *hole > 0,
        _ => false,
    }
}

/// "R and O two sizes above 0".
fn two_sizes(parameters: &[i64]) -> bool {
    match parameters {
        [x, y] => *x > 0 && *y > 0,
        [x, y, hole] => *x > 0 && *y > 0 && *hole > 0,
        _ => false,
    }
}

/// "P diameter above 0, vertices a whole number 3 to 12, optional rotation", a hole only after a
/// rotation.
fn polygon(parameters: &[i64]) -> bool {
    match parameters {
        [diameter, vertices] | [diameter, vertices, _] => {
            *diameter > 0 && is_whole_between(*vertices, 3, 12)
        }
        [diameter, vertices, _, hole] => {
            *diameter > 0 && is_whole_between(*vertices, 3, 12) && *hole > 0
        }
        _ => false,
    }
}
