//! Numbers and names: document 01, "Form". All values are whole millionths.

/// One, in millionths.
pub const ONE: i64 = 1_000_000;

/// "12 before FS".
pub const DIGITS_BEFORE_FS: usize = 12;

/// "a rounded size of 10^12 millionths or more" is 5, and in the old edition such a point.
pub const LARGEST: i64 = 1_000_000_000_000;

/// Aperture numbers end at 2,147,483,647.
const LAST_APERTURE: u64 = 2_147_483_647;

/// A number that has its form: its value, exact or rounded, or 5.
#[derive(Clone, Copy, PartialEq, Eq, Debug)]
pub enum Number {
    Value(i64),
    Rounded(i64),
    OutOfRange,
}

impl Number {
    /// The value; asked only after 5 has been ruled out.
    pub fn value(self) -> i64 {
        match self {
            Number::Value(value) | Number::Rounded(value) => value,
            Number::OutOfRange => panic!("5 is judged first"),
        }
    }

    pub fn is_out_of_range(self) -> bool {
        self == Number::OutOfRange
    }

    pub fn is_rounded(self) -> bool {
        matches!(self, Number::Rounded(_))
    }
}

pub fn all_digits(text: &[u8]) -> bool {
    !text.is_empty() && text.iter().all(u8::is_ascii_digit)
}

fn split_sign(text: &[u8]) -> (bool, &[u8]) {
    match text.first() {
        Some(b'-') => (true, &text[1..]),
        Some(b'+') => (false, &text[1..]),
        _ => (false, text),
    }
}

fn without_leading_zeros(mut digits: &[u8]) -> &[u8] {
    while let [b'0', rest @ ..] = digits {
        digits = rest;
    }
    digits
}

fn without_trailing_zeros(mut digits: &[u8]) -> &[u8] {
    while let [rest @ .., b'0'] = digits {
        digits = rest;
    }
    digits
}

/// The value of at most 18 digits.
fn value_of(digits: &[u8]) -> i64 {
    digits.iter().fold(0, |value, digit| value * 10 + i64::from(digit - b'0'))
}

/// Digits alone, of any length; a value of more than 18 digits counts as the greatest.
pub fn whole(text: &[u8]) -> Option<u64> {
    if !all_digits(text) {
        return None;
    }
    let digits = without_leading_zeros(text);
    if digits.len() > 18 {
        return Some(u64::MAX);
    }
    Some(value_of(digits) as u64)
}

/// "Decimal: optional sign, digits with an optional point, at least one digit." Else 4.
pub fn decimal(text: &[u8]) -> Option<Number> {
    let (negative, size) = split_sign(text);
    match unsigned_decimal(size)? {
        Number::Value(value) if negative => Some(Number::Value(-value)),
        Number::Rounded(value) if negative => Some(Number::Rounded(-value)),
        number => Some(number),
    }
}

/// A decimal without sign, as in a macro's expressions. Zeros at the ends dropped (decision 40),
/// more than 6 digits before the point, more than 18 after it, or a rounded size of 10^12
/// millionths is 5; a value that is no whole number of millionths is rounded (document 02, [1]).
pub fn unsigned_decimal(text: &[u8]) -> Option<Number> {
    let point = text.iter().position(|byte| *byte == b'.');
    let (integer, fraction) = match point {
        Some(at) => (&text[..at], &text[at + 1..]),
        None => (text, &text[..0]),
    };
    let is_digits = |part: &[u8]| part.iter().all(u8::is_ascii_digit);
    if !is_digits(integer) || !is_digits(fraction) || integer.len() + fraction.len() == 0 {
        return None;
    }
    let integer = without_leading_zeros(integer);
    let fraction = without_trailing_zeros(fraction);
    if integer.len() > 6 || fraction.len() > 18 {
        return Some(Number::OutOfRange);
    }
    let parts = 10i128.pow(fraction.len() as u32);
    let exact =
        (i128::from(value_of(integer)) * parts + i128::from(value_of(fraction))) * i128::from(ONE);
    let size = rounded_quotient(exact, parts) as i64;
    if size >= LARGEST {
        return Some(Number::OutOfRange);
    }
    Some(if exact % parts == 0 { Number::Value(size) } else { Number::Rounded(size) })
}

/// A coordinate: its digits as written are counted, the sign not (decision 41).
#[derive(Clone, Copy, PartialEq, Eq, Debug)]
pub struct Coordinate {
    pub digits: usize,
    pub has_sign: bool,
    /// The number as written; 0 when there are more than 12 digits, which is 5 everywhere.
    written: i64,
}

impl Coordinate {
    /// The value in millionths: under T the digits are first filled with zeros at the back.
    pub fn value(self, format: Format) -> i64 {
        let filled = if format.trailing { format.digits() - self.digits } else { 0 };
        self.written * 10_i64.pow((filled + 6 - format.decimals) as u32)
    }
}

/// What FS says of coordinates: the places before and behind the point, and whether it is the
/// trailing zeros that are omitted. In the newer edition there are six decimals, and it is not.
#[derive(Clone, Copy, PartialEq, Eq, Debug)]
pub struct Format {
    pub integers: usize,
    pub decimals: usize,
    pub trailing: bool,
}

impl Format {
    pub fn digits(self) -> usize {
        self.integers + self.decimals
    }
}

/// "A coordinate has an optional sign and 1 to n+6 digits as written." Without a digit 4; how many
/// are too many depends on FS and is judged later.
pub fn coordinate(text: &[u8]) -> Option<Coordinate> {
    let (negative, digits) = split_sign(text);
    if !all_digits(digits) {
        return None;
    }
    let size = if digits.len() > DIGITS_BEFORE_FS { 0 } else { value_of(digits) };
    let written = if negative { -size } else { size };
    let has_sign = digits.len() < text.len();
    Some(Coordinate { digits: digits.len(), has_sign, written })
}

/// "Aperture numbers 10 to 2,147,483,647, leading zeros allowed; below 10 is 4, above is 5."
pub fn aperture_number(text: &[u8]) -> Option<Number> {
    match whole(text)? {
        0..=9 => None,
        number if number > LAST_APERTURE => Some(Number::OutOfRange),
        number => Some(Number::Value(number as i64)),
    }
}

/// "Names: one of letters, `.`, `_`, `$`, then up to 126 of letters, digits, `.`, `_`." Longer
/// ones are no names (decision 32).
pub fn is_name(text: &[u8]) -> bool {
    let Some((first, rest)) = text.split_first() else {
        return false;
    };
    let starts = first.is_ascii_alphabetic() || b"._$".contains(first);
    let follows = |byte: &u8| byte.is_ascii_alphanumeric() || b"._".contains(byte);
    starts && rest.len() <= 126 && rest.iter().all(follows)
}

/// The quotient rounded once "to the nearest millionth, halves away from zero".
pub fn rounded_quotient(numerator: i128, divisor: i128) -> i128 {
    let negative = (numerator < 0) != (divisor < 0);
    let (numerator, divisor) = (numerator.abs(), divisor.abs());
    let size = (2 * numerator + divisor) / (2 * divisor);
    if negative {
        -size
    } else {
        size
    }
}

#[cfg(test)]
mod tests {
    use super::*;

    #[test]
    fn decimals_are_counted_without_the_outer_zeros() {
        assert_eq!(decimal(b"0000001.5000000"), Some(Number::Value(1_500_000)));
        assert_eq!(decimal(b"-.000001"), Some(Number::Value(-1)));
        assert_eq!(decimal(b"5."), Some(Number::Value(5 * ONE)));
        assert_eq!(decimal(b"1000000"), Some(Number::OutOfRange));
        assert_eq!(decimal(b"0.0000000000000000001"), Some(Number::OutOfRange));
        for text in [&b"."[..], b"", b"+", b"1.2.3", b"--1", b"1 "] {
            assert_eq!(decimal(text), None);
        }
    }

    #[test]
    fn decimals_are_rounded_once() {
        assert_eq!(decimal(b"0.12345678"), Some(Number::Rounded(123_457)));
        assert_eq!(decimal(b"0.12345600000000000000"), Some(Number::Value(123_456)));
        assert_eq!(decimal(b"0.0000005"), Some(Number::Rounded(1)));
        assert_eq!(decimal(b"-0.0000005"), Some(Number::Rounded(-1)));
        assert_eq!(decimal(b"-0.000000499999999999"), Some(Number::Rounded(0)));
        assert_eq!(decimal(b"999999.999999499999999999"), Some(Number::Rounded(999_999_999_999)));
        assert_eq!(decimal(b"999999.9999995"), Some(Number::OutOfRange));
    }

    #[test]
    fn quotients_round_halves_away_from_zero() {
        assert_eq!(rounded_quotient(5, 10), 1);
        assert_eq!(rounded_quotient(-5, 10), -1);
        assert_eq!(rounded_quotient(5, -10), -1);
        assert_eq!(rounded_quotient(-4, -10), 0);
        assert_eq!(rounded_quotient(15, 10), 2);
    }

    #[test]
    fn names_have_at_most_127_bytes() {
        assert!(is_name(&[b'a'; 127]));
        assert!(!is_name(&[b'a'; 128]));
        assert!(is_name(b"$"));
        assert!(!is_name(b"a$"));
        assert!(!is_name(b"1a"));
    }
}
