//! The commands and their form: document 01, "What is read" and "Form". What has no form is 4.
//! The old edition's are those of request [9] of document 02, "all else is as in the newer edition".

use crate::macros::{self, Macro};
use crate::number::{
    aperture_number, coordinate, decimal, is_name, whole, Coordinate, Format, Number,
};
use crate::scan::{is_line_end, Raw};
use crate::terms::Edition;

/// "More than 64 parameters in an AD are 5", for every template (decision 45).
const MOST_PARAMETERS: usize = 64;

#[derive(Clone, Copy, PartialEq, Eq, Debug)]
pub enum Unit {
    Mm,
    Inch,
}

#[derive(Clone, Copy, PartialEq, Eq, Debug)]
pub enum Mode {
    Linear,
    Clockwise,
    Counterclockwise,
}

#[derive(Clone, Copy, PartialEq, Eq, Debug)]
pub enum Mirror {
    None,
    X,
    Y,
    Xy,
}

#[derive(Clone, Copy, PartialEq, Eq, Debug)]
pub enum Action {
    /// D01
    Draw,
    /// D02
    Move,
    /// D03
    Flash,
}

#[derive(Clone, Copy, PartialEq, Eq, Debug)]
pub enum Quadrant {
    /// G74, of the old edition alone.
    Single,
    /// G75
    Multi,
}

/// A G code that may stand alone, or in the old edition "before coordinates".
#[derive(Clone, Copy, PartialEq, Eq, Debug)]
pub enum Code {
    Mode(Mode),
    Quadrant(Quadrant),
    RegionBegin,
    RegionEnd,
    /// G70 and G71
    Unit(Unit),
    /// G91, or G90
    Notation {
        incremental: bool,
    },
}

/// "Operations: X and Y optional, each in that order; for D01 only, I and J together after them."
#[derive(Clone, Copy, PartialEq, Eq, Debug)]
pub struct Operation {
    /// A G code before it.
    pub code: Option<Code>,
    pub action: Action,
    pub x: Option<Coordinate>,
    pub y: Option<Coordinate>,
    pub offset: Option<(Coordinate, Coordinate)>,
}

/// A name, and the bytes after its comma where there is one.
#[derive(Clone, Copy, PartialEq, Eq, Debug)]
pub struct Attribute<'a> {
    pub name: &'a [u8],
    pub value: Option<&'a [u8]>,
}

#[derive(Clone, PartialEq, Eq, Debug)]
pub enum Command<'a> {
    Comment,
    Code(Code),
    /// M00 and M01
    Pause,
    End,
    Select(Number),
    Operation(Operation),
    Format {
        format: Format,
        incremental: bool,
    },
    Unit(Unit),
    Define {
        number: Number,
        template: &'a [u8],
        parameters: Vec<Number>,
    },
    Macro(Macro),
    BlockOpen(Number),
    BlockClose,
    RepeatOpen {
        nx: u64,
        ny: u64,
        dx: Number,
        dy: Number,
    },
    RepeatClose,
    Polarity {
        clear: bool,
    },
    Mirror(Mirror),
    Rotate(Number),
    Scale(Number),
    FileAttribute(Attribute<'a>),
    ApertureAttribute(Attribute<'a>),
    ObjectAttribute(Attribute<'a>),
    /// The name deleted, or all of them.
    DeleteAttribute(Option<&'a [u8]>),
}

/// The command; 4 where it is "unknown or not of its form"; 30 for what the old edition does not
/// read of the old book.
pub fn parse<'a>(raw: &Raw<'a>, edition: Edition) -> Result<Command<'a>, u32> {
    if !raw.extended {
        return word(raw.text, edition).ok_or(4);
    }
    if raw.text.starts_with(b"AM") {
        return macros::parse(raw.text).map(Command::Macro).ok_or(4);
    }
    let text = single_block(raw.text).ok_or(4u32)?;
    if edition == Edition::Old && is_unread(text) {
        return Err(30);
    }
    extended(text, edition).ok_or(4)
}

/// "30 for its AS, MI, OF, SF, IP, IR, KO, LN and SM, or 7 places".
fn is_unread(text: &[u8]) -> bool {
    match text {
        [b'F', b'S', places @ ..] => {
            old_format(places).is_some_and(|(format, _)| format.integers.max(format.decimals) == 7)
        }
        [first, second, ..] => UNREAD.contains(&&[*first, *second]),
        _ => false,
    }
}

const UNREAD: [&[u8; 2]; 9] = [b"AS", b"MI", b"OF", b"SF", b"IP", b"IR", b"KO", b"LN", b"SM"];

/// An extended command but AM is one block: no `*` but the one at its end, after which only CR and
/// LF stand (decisions 3, 6 and 31).
fn single_block(text: &[u8]) -> Option<&[u8]> {
    let star = text.iter().position(|byte| *byte == b'*')?;
    let rest = &text[star + 1..];
    if rest.iter().all(|byte| is_line_end(*byte)) {
        Some(&text[..star])
    } else {
        None
    }
}

fn word(text: &[u8], edition: Edition) -> Option<Command<'static>> {
    // A `%` inside a word command makes it 4, in G04 too (decisions 4 and 18).
    if text.contains(&b'%') {
        return None;
    }
    if is_comment(text, edition) {
        return Some(Command::Comment);
    }
    if is_end(text, edition) {
        return Some(Command::End);
    }
    match edition {
        Edition::New => match code(text) {
            Some(code) => Some(Command::Code(code)),
            None => operation(text, edition).or_else(|| select(text)),
        },
        Edition::Old => old_word(text),
    }
}

/// Whether it begins `G04`, or in the old edition `G4` and no digit.
pub fn is_comment(text: &[u8], edition: Edition) -> bool {
    match text {
        [b'G', b'0', b'4', ..] => true,
        [b'G', b'4', b'0'..=b'9', ..] => false,
        [b'G', b'4', ..] => edition == Edition::Old,
        _ => false,
    }
}

/// M02, in the old edition M2 too.
pub fn is_end(text: &[u8], edition: Edition) -> bool {
    text == b"M02" || (edition == Edition::Old && text == b"M2")
}

fn code(text: &[u8]) -> Option<Code> {
    match text {
        b"G01" => Some(Code::Mode(Mode::Linear)),
        b"G02" => Some(Code::Mode(Mode::Clockwise)),
        b"G03" => Some(Code::Mode(Mode::Counterclockwise)),
        b"G75" => Some(Code::Quadrant(Quadrant::Multi)),
        b"G36" => Some(Code::RegionBegin),
        b"G37" => Some(Code::RegionEnd),
        _ => None,
    }
}

/// "one- or two-digit codes; a G code before coordinates; G54, G70, G71, G90, G91; M00 and M01".
fn old_word(text: &[u8]) -> Option<Command<'static>> {
    let Some(after) = text.strip_prefix(b"G") else {
        return match text {
            b"M0" | b"M00" | b"M1" | b"M01" => Some(Command::Pause),
            _ => operation(text, Edition::Old).or_else(|| select(text)),
        };
    };
    let digits = after.iter().take_while(|byte| byte.is_ascii_digit()).count();
    let (number, rest) = after.split_at(digits);
    if number == b"54" {
        return select(rest);
    }
    let code = old_code(number)?;
    if rest.is_empty() {
        return Some(Command::Code(code));
    }
    match operation(rest, Edition::Old)? {
        Command::Operation(operation) => {
            Some(Command::Operation(Operation { code: Some(code), ..operation }))
        }
        _ => None,
    }
}

fn old_code(digits: &[u8]) -> Option<Code> {
    match digits {
        b"1" => code(b"G01"),
        b"2" => code(b"G02"),
        b"3" => code(b"G03"),
        b"70" => Some(Code::Unit(Unit::Inch)),
        b"71" => Some(Code::Unit(Unit::Mm)),
        b"74" => Some(Code::Quadrant(Quadrant::Single)),
        b"90" => Some(Code::Notation { incremental: false }),
        b"91" => Some(Code::Notation { incremental: true }),
        _ => code(&[b"G", digits].concat()),
    }
}

/// `Dn`, n from 10.
fn select(text: &[u8]) -> Option<Command<'static>> {
    let digits = text.strip_prefix(b"D")?;
    Some(Command::Select(aperture_number(digits)?))
}

fn operation(text: &[u8], edition: Edition) -> Option<Command<'static>> {
    let (rest, digit) = match text {
        [rest @ .., b'D', b'0', digit] => (rest, digit),
        [rest @ .., b'D', digit] if edition == Edition::Old => (rest, digit),
        _ => return None,
    };
    let action = match digit {
        b'1' => Action::Draw,
        b'2' => Action::Move,
        b'3' => Action::Flash,
        _ => return None,
    };
    let (x, rest) = field(rest, b'X')?;
    let (y, rest) = field(rest, b'Y')?;
    let (i, rest) = field(rest, b'I')?;
    let (j, rest) = field(rest, b'J')?;
    if !rest.is_empty() {
        return None;
    }
    let offset = match (i, j) {
        (None, None) => None,
        (Some(i), Some(j)) if action == Action::Draw => Some((i, j)),
        _ => return None,
    };
    Some(Command::Operation(Operation { code: None, action, x, y, offset }))
}

/// The coordinate after the letter, if the text begins with it, and what follows.
fn field(text: &[u8], letter: u8) -> Option<(Option<Coordinate>, &[u8])> {
    let Some(after) = text.strip_prefix(&[letter]) else {
        return Some((None, text));
    };
    let end = after.iter().position(|byte| byte.is_ascii_alphabetic()).unwrap_or(after.len());
    let (number, rest) = after.split_at(end);
    Some((Some(coordinate(number)?), rest))
}

fn extended(text: &[u8], edition: Edition) -> Option<Command<'_>> {
    let (code, data) = text.split_at_checked(2)?;
    match code {
        b"FS" => format(data, edition),
        b"MO" => match data {
            b"MM" => Some(Command::Unit(Unit::Mm)),
            b"IN" => Some(Command::Unit(Unit::Inch)),
            _ => None,
        },
        b"AD" => define(data),
        b"AB" if data.is_empty() => Some(Command::BlockClose),
        b"AB" => Some(Command::BlockOpen(aperture_number(data.strip_prefix(b"D")?)?)),
        b"SR" if data.is_empty() => Some(Command::RepeatClose),
        b"SR" => repeat(data),
        b"LP" => match data {
            b"C" => Some(Command::Polarity { clear: true }),
            b"D" => Some(Command::Polarity { clear: false }),
            _ => None,
        },
        b"LM" => match data {
            b"N" => Some(Command::Mirror(Mirror::None)),
            b"X" => Some(Command::Mirror(Mirror::X)),
            b"Y" => Some(Command::Mirror(Mirror::Y)),
            b"XY" => Some(Command::Mirror(Mirror::Xy)),
            _ => None,
        },
        b"LR" => Some(Command::Rotate(decimal(data)?)),
        b"LS" => Some(Command::Scale(decimal(data)?)),
        b"TF" => Some(Command::FileAttribute(attribute(data)?)),
        b"TA" => Some(Command::ApertureAttribute(attribute(data)?)),
        b"TO" => Some(Command::ObjectAttribute(attribute(data)?)),
        b"TD" if data.is_empty() => Some(Command::DeleteAttribute(None)),
        b"TD" if is_name(data) => Some(Command::DeleteAttribute(Some(data))),
        _ => None,
    }
}

/// "FS is `FSLAXn6Yn6`, both n equal, 1 to 6"; all else is 4 (decision 30). The old edition's has
/// "leading or trailing zeros omitted, absolute or incremental".
fn format(data: &[u8], edition: Edition) -> Option<Command<'_>> {
    let (format, incremental) = old_format(data)?;
    let is_new = !format.trailing
        && !incremental
        && format.decimals == 6
        && (1..=6).contains(&format.integers);
    (edition == Edition::Old || is_new).then_some(Command::Format { format, incremental })
}

/// Places 0 to 7 "with at least one in all", both axes alike; and whether it is I.
fn old_format(data: &[u8]) -> Option<(Format, bool)> {
    let [zeros, notation, b'X', n, m, b'Y', n2, m2] = data else {
        return None;
    };
    let trailing = one_of(*zeros, b'L', b'T')?;
    let incremental = one_of(*notation, b'A', b'I')?;
    let is_place = |digit: &u8| (b'0'..=b'7').contains(digit);
    if [n, m] != [n2, m2] || !is_place(n) || !is_place(m) || [n, m] == [&b'0', &b'0'] {
        return None;
    }
    let (integers, decimals) = (usize::from(n - b'0'), usize::from(m - b'0'));
    Some((Format { integers, decimals, trailing }, incremental))
}

/// Which of two letters it is: false for the first, true for the second.
fn one_of(letter: u8, first: u8, second: u8) -> Option<bool> {
    (letter == first || letter == second).then_some(letter == second)
}

/// `ADDn` name, then the parameters: after a comma, parted by `X` (decision 34).
fn define(data: &[u8]) -> Option<Command<'_>> {
    let data = data.strip_prefix(b"D")?;
    let digits = data.iter().take_while(|byte| byte.is_ascii_digit()).count();
    let number = aperture_number(&data[..digits])?;
    let (template, list) = name_and_rest(&data[digits..]);
    if !is_name(template) {
        return None;
    }
    let mut parameters = Vec::new();
    if let Some(list) = list {
        for text in list.split(|byte| *byte == b'X') {
            parameters.push(decimal(text)?);
        }
    }
    Some(Command::Define { number, template, parameters })
}

/// `SRXnYnIdJd`, n digits alone (decisions 37, 38).
fn repeat(data: &[u8]) -> Option<Command<'_>> {
    let (nx, data) = between(data, b'X', b'Y')?;
    let (ny, data) = between(data, b'Y', b'I')?;
    let (dx, data) = between(data, b'I', b'J')?;
    let dy = data.strip_prefix(b"J")?;
    let (nx, ny) = (whole(nx)?, whole(ny)?);
    Some(Command::RepeatOpen { nx, ny, dx: decimal(dx)?, dy: decimal(dy)? })
}

/// What stands between the letter at the front and the next letter, and the text from that on.
fn between(text: &[u8], letter: u8, next: u8) -> Option<(&[u8], &[u8])> {
    let text = text.strip_prefix(&[letter])?;
    let end = text.iter().position(|byte| *byte == next)?;
    Some(text.split_at(end))
}

/// A name, then a comma and any text; the fields may be empty (decision 19).
fn attribute(data: &[u8]) -> Option<Attribute<'_>> {
    let (name, value) = name_and_rest(data);
    is_name(name).then_some(Attribute { name, value })
}

fn name_and_rest(text: &[u8]) -> (&[u8], Option<&[u8]>) {
    match text.iter().position(|byte| *byte == b',') {
        Some(comma) => (&text[..comma], Some(&text[comma + 1..])),
        None => (text, None),
    }
}

impl Command<'_> {
    /// 5: "number too long or outside its range". The digits of a coordinate are counted against
    /// n+6, or 12 before FS (decision 42). SR's n is never 5 (decision 44).
    pub fn has_number_out_of_range(&self, most_digits: usize) -> bool {
        match self {
            Command::Select(number) | Command::BlockOpen(number) => number.is_out_of_range(),
            Command::Rotate(number) | Command::Scale(number) => number.is_out_of_range(),
            Command::RepeatOpen { dx, dy, .. } => dx.is_out_of_range() || dy.is_out_of_range(),
            Command::Define { number, parameters, .. } => {
                number.is_out_of_range()
                    || parameters.len() > MOST_PARAMETERS
                    || parameters.iter().any(|parameter| parameter.is_out_of_range())
            }
            Command::Macro(definition) => definition.has_number_out_of_range,
            Command::Operation(Operation { x, y, offset, .. }) => {
                let (i, j) = offset.unzip();
                let too_long = |part: Option<Coordinate>| {
                    part.is_some_and(|coordinate| coordinate.digits > most_digits)
                };
                [*x, *y, i, j].into_iter().any(too_long)
            }
            _ => false,
        }
    }

    /// How many of its decimals were rounded (document 02, [1]): AD, AM, SR, LR and LS have decimals.
    pub fn rounded(&self) -> u64 {
        let count =
            |numbers: &[Number]| numbers.iter().filter(|number| number.is_rounded()).count() as u64;
        match self {
            Command::Rotate(number) | Command::Scale(number) => count(&[*number]),
            Command::RepeatOpen { dx, dy, .. } => count(&[*dx, *dy]),
            Command::Define { parameters, .. } => count(parameters),
            Command::Macro(definition) => definition.rounded,
            _ => 0,
        }
    }
}

#[cfg(test)]
mod tests {
    use super::*;

    fn parsed(text: &str, edition: Edition) -> Result<Command<'_>, u32> {
        let bytes = text.as_bytes();
        match bytes.strip_prefix(b"%") {
            Some(rest) => parse(&Raw { place: 0, extended: true, text: rest }, edition),
            None => parse(&Raw { place: 0, extended: false, text: bytes }, edition),
        }
    }

    fn of(text: &str) -> Option<Command<'_>> {
        parsed(text, Edition::New).ok()
    }

    fn refused_by_old(text: &str, number: u32) {
        assert_eq!(parsed(text, Edition::Old), Err(number), "{text}");
    }

    #[test]
    fn the_old_edition_has_short_codes_and_codes_before_operations() {
        for text in ["G1", "G01", "G74", "G90", "G37"] {
            assert!(matches!(parsed(text, Edition::Old), Ok(Command::Code(_))), "{text}");
        }
        for text in ["D1", "X1D2", "G1X1Y1D1", "G01D02", "G36D2", "G75I1J1D01", "G70X1D3"] {
            assert!(matches!(parsed(text, Edition::Old), Ok(Command::Operation(_))), "{text}");
        }
        for (text, command) in [("G4", Command::Comment), ("G4x", Command::Comment)] {
            assert_eq!(parsed(text, Edition::Old), Ok(command));
        }
        assert_eq!(parsed("G041", Edition::Old), Ok(Command::Comment));
        for text in ["M0", "M00", "M1", "M01"] {
            assert_eq!(parsed(text, Edition::Old), Ok(Command::Pause));
        }
        assert_eq!(parsed("M2", Edition::Old), Ok(Command::End));
        assert_eq!(parsed("G54D010", Edition::Old), Ok(Command::Select(Number::Value(10))));
        let bad = [
            "G001", "G40", "G0", "G00", "G5", "G54", "G54D1", "G54D01", "G54X1D01", "G1G2X1D1",
            "D0", "G1X1Y1", "G1D10", "D001", "X1D001", "M3", "M002", "G04%", "G55D10", "G1 X1D1",
            "G1I1D1",
        ];
        for text in bad {
            refused_by_old(text, 4);
        }
    }

    #[test]
    fn the_old_edition_leaves_parameters_unread() {
        for text in
            ["%IPPOS*", "%ASAXBY*", "%LNé*", "%SM*", "%KO*\n", "%FSLAX77Y77*", "%FSTIX07Y07*"]
        {
            refused_by_old(text, 30);
        }
        for text in
            ["%IPPOS", "%IP*IP*", "%I*", "%FSLAX78Y78*", "%FSLAX00Y00*", "%FSLAX76Y67*", "%IJ*"]
        {
            refused_by_old(text, 4);
        }
        assert!(matches!(parsed("%FSTIX06Y06*", Edition::Old), Ok(Command::Format { .. })));
    }

    #[test]
    fn operations_keep_their_order() {
        for text in ["D01", "X1D01", "Y+1D02", "X-0Y00D03", "I1J1D01", "X1Y2I3J4D01"] {
            assert!(matches!(of(text), Some(Command::Operation(_))), "{text}");
        }
        let bad = [
            "Y1X1D01", "X1I1D01", "J1I1D01", "I1J1D02", "I1J1X1D01", "X1X1D01", "X1Y1", "XD01",
            "X1.0D01", "X1D1", "X1D001", "G01X1D01", "X D01", "X1D04", "D09", "D1", "D", "D01D01",
        ];
        for text in bad {
            assert_eq!(of(text), None, "{text}");
        }
        assert_eq!(of("D010"), Some(Command::Select(Number::Value(10))));
    }

    #[test]
    fn extended_commands_are_one_block() {
        assert!(of("%LPD*\r\n").is_some());
        for text in ["%LPD", "%LPD**", "%", "%*", "%LPD*X*", "%G01*", "%TDa,b*", "%LMYX*", "%TF*"] {
            assert_eq!(of(text), None, "{text}");
        }
    }
}
