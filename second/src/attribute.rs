//! Attributes: document 01, "Attributes" in "State".

use crate::command::{self, Action, Attribute, Code, Command};
use crate::scan::{Raw, Refusal, Scanner};
use crate::terms::Terms;

/// "The two kinds are held apart (house)."
#[derive(Clone, Copy, PartialEq, Eq, Debug)]
pub enum Held {
    /// TA, taken at AD or AB opening and at a contour's first D01.
    Aperture,
    /// TO, at any command.
    Object,
}

/// "the place and length, in the file, of the bytes after the name's comma (0 and 0 without one)".
#[derive(Clone, Copy, PartialEq, Eq, Debug)]
pub struct Answer {
    pub place: usize,
    pub length: usize,
}

/// An open region: what was held at its G36 and not deleted since, and whether its contour has a
/// D01 already (02, request [3]; decisions 317 to 319).
#[derive(Clone, Copy)]
struct Region {
    carried: Option<Answer>,
    begun: bool,
}

/// The attribute of that name held at the command that begins at the place, or a number: "1 to 4
/// and 18 as reading does, then 22, then 23"; 30 too in the old edition. The other rules of the
/// reading are passed over, and the first M02 ends the walk (decision 108).
pub fn attribute(
    file: &[u8],
    terms: Terms,
    held: Held,
    place: usize,
    name: &[u8],
) -> Result<Answer, u32> {
    let number_of = |refusal: Refusal| refusal.number;
    let mut scanner = Scanner::new(file, terms).map_err(number_of)?;
    let mut current = None;
    let mut region: Option<Region> = None;
    let mut asked = None;
    loop {
        let raw = scanner.next().map_err(number_of)?;
        let command = command::parse(&raw, terms.edition)?;
        // In the old edition a code may stand before an operation: it counts first.
        region = match code_of(&command) {
            Some(Code::RegionBegin) => Some(Region { carried: current, begun: false }),
            Some(Code::RegionEnd) => None,
            _ => region,
        };
        if raw.place == place {
            // Commands strictly before it count, not itself (decision 110).
            asked = Some(match region {
                Some(r) if held == Held::Aperture && !r.begun && acts(&command, Action::Draw) => {
                    r.carried
                }
                _ => current.filter(|_| can_hold(held, &command)),
            });
        }
        region = match (&command, region) {
            (Command::DeleteAttribute(deleted), Some(r)) if deleted.is_none_or(|d| d == name) => {
                Some(Region { carried: None, ..r })
            }
            (c, Some(r)) if acts(c, Action::Draw) => Some(Region { begun: true, ..r }),
            (c, Some(r)) if acts(c, Action::Move) => Some(Region { begun: false, ..r }),
            (_, kept) => kept,
        };
        match (&command, held) {
            (Command::ApertureAttribute(attribute), Held::Aperture)
            | (Command::ObjectAttribute(attribute), Held::Object)
                if attribute.name == name =>
            {
                current = Some(answer(&raw, attribute));
            }
            (Command::DeleteAttribute(deleted), _) if deleted.is_none_or(|d| d == name) => {
                current = None;
            }
            (Command::End, _) => {
                scanner.tail().map_err(number_of)?;
                break;
            }
            _ => {}
        }
    }
    asked.ok_or(22u32)?.ok_or(23)
}

/// The file attributes in file order, a name and the bytes after its comma each; the numbers are
/// those of the attribute call.
pub fn file_attributes(file: &[u8], terms: Terms) -> Result<Vec<(&[u8], &[u8])>, u32> {
    let number_of = |refusal: Refusal| refusal.number;
    let mut scanner = Scanner::new(file, terms).map_err(number_of)?;
    let mut found = Vec::new();
    loop {
        let raw = scanner.next().map_err(number_of)?;
        match command::parse(&raw, terms.edition)? {
            Command::FileAttribute(Attribute { name, value }) => {
                found.push((name, value.unwrap_or_default()));
            }
            Command::End => break,
            _ => {}
        }
    }
    scanner.tail().map_err(number_of)?;
    Ok(found)
}

fn code_of(command: &Command) -> Option<Code> {
    match command {
        Command::Code(code) => Some(*code),
        Command::Operation(operation) => operation.code,
        _ => None,
    }
}

fn acts(command: &Command, action: Action) -> bool {
    matches!(command, Command::Operation(operation) if operation.action == action)
}

/// 23 "also for TA at another command" (decision 111).
fn can_hold(held: Held, command: &Command) -> bool {
    let makes_aperture = matches!(command, Command::Define { .. } | Command::BlockOpen(_));
    held == Held::Object || makes_aperture
}

/// The value stands after `%`, the two letters, the name and its comma (decision 112).
fn answer(raw: &Raw, attribute: &Attribute) -> Answer {
    match attribute.value {
        None => Answer { place: 0, length: 0 },
        Some(value) => {
            let place = raw.place + 1 + 2 + attribute.name.len() + 1;
            Answer { place, length: value.len() }
        }
    }
}
