//! Mending a broken file: request [13] of document 02.

use crate::command::is_end;
use crate::rules::read;
use crate::scan::{is_line_end, is_printable, Refusal, LONGEST_FILE};
use crate::sheet::Room;
use crate::terms::{Edition, Terms};

/// "A tool may make these changes and no others", each with its place in the original.
#[derive(Clone, Copy, PartialEq, Eq, Debug)]
pub enum Change {
    /// "drop a later FS or MO whose text equals the first", at its `%`.
    DropRepeat(usize),
    /// "add a missing `M02*` after the last complete command", at the byte behind that.
    AddEnd(usize),
    /// "drop what follows that command", at the same byte.
    DropTail(usize),
    /// "drop all after M02 where 18 would be given", at the byte behind its `*`.
    DropAfterEnd(usize),
}

impl Change {
    pub fn name_and_place(self) -> (&'static str, usize) {
        match self {
            Change::DropRepeat(place) => ("drop-repeat", place),
            Change::AddEnd(place) => ("add-end", place),
            Change::DropTail(place) => ("drop-tail", place),
            Change::DropAfterEnd(place) => ("drop-after-end", place),
        }
    }
}

#[derive(Clone, PartialEq, Eq, Debug)]
pub struct Mended {
    pub file: Vec<u8>,
    pub changes: Vec<Change>,
}

/// "the reader's own 1 first, then 33 when the file with all these changes made is still refused
/// other than by 17, then 17"; all at place 0.
pub fn mend(file: &[u8], terms: Terms, room: Room) -> Result<Mended, Refusal> {
    if file.len() > LONGEST_FILE {
        return Err(Refusal::new(1, 0));
    }
    let mended = changed(file, terms.edition);
    match read(&mended.file, terms, room) {
        Ok(_) => Ok(mended),
        Err(Refusal { number: 17, .. }) => Err(Refusal::new(17, 0)),
        Err(_) => Err(Refusal::new(33, 0)),
    }
}

/// A complete command, told by its extent alone, whatever its bytes.
struct Extent {
    start: usize,
    end: usize,
}

/// A word command ends with its `*`, an extended one with the next `%`.
fn next_extent(file: &[u8], from: usize) -> Option<Extent> {
    let start = from + file[from..].iter().position(|byte| !is_line_end(*byte))?;
    let (text, last) = if file[start] == b'%' { (start + 1, b'%') } else { (start, b'*') };
    let length = file[text..].iter().position(|byte| *byte == last)?;
    Some(Extent { start, end: text + length + 1 })
}

/// The file with all the changes that apply, whether it is then accepted or not.
fn changed(file: &[u8], edition: Edition) -> Mended {
    let mut mended = Mended { file: Vec::new(), changes: Vec::new() };
    let (mut first_format, mut first_unit) = (None, None);
    let mut kept = 0;
    while let Some(extent) = next_extent(file, kept) {
        let command = &file[extent.start..extent.end];
        let repeats = match command {
            [b'%', b'F', b'S', ..] => is_repeat(command, &mut first_format),
            [b'%', b'M', b'O', ..] => is_repeat(command, &mut first_unit),
            _ => false,
        };
        // Line ends around a dropped command stay.
        mended.file.extend(&file[kept..extent.start]);
        kept = extent.end;
        if repeats {
            mended.changes.push(Change::DropRepeat(extent.start));
            continue;
        }
        mended.file.extend(command);
        if is_end(&command[..command.len() - 1], edition) {
            keep_tail(&mut mended, file, kept);
            return mended;
        }
    }
    mended.changes.push(Change::AddEnd(kept));
    mended.file.extend(b"M02*");
    if kept < file.len() {
        mended.changes.push(Change::DropTail(kept));
    }
    mended
}

/// Whether an FS or MO has the text of the first one, line ends behind its `*` left out.
fn is_repeat<'a>(command: &'a [u8], first: &mut Option<&'a [u8]>) -> bool {
    let mut text = &command[1..command.len() - 1];
    while let [rest @ .., b'\r' | b'\n'] = text {
        text = rest;
    }
    let repeats = *first == Some(text);
    first.get_or_insert(text);
    repeats
}

/// What follows M02 goes where its first byte but CR and LF would be 18.
fn keep_tail(mended: &mut Mended, file: &[u8], end: usize) {
    let tail = &file[end..];
    let first = tail.iter().find(|byte| !is_line_end(**byte));
    if first.is_some_and(|byte| is_printable(*byte)) {
        mended.changes.push(Change::DropAfterEnd(end));
    } else {
        mended.file.extend(tail);
    }
}

#[cfg(test)]
mod tests {
    use super::*;
    use crate::generator;

    /// The report is enough to rebuild the mended file.
    fn rebuilt(file: &[u8], changes: &[Change]) -> Vec<u8> {
        let mut rebuilt = Vec::new();
        let mut at = 0;
        for change in changes {
            rebuilt.extend(&file[at..change.name_and_place().1]);
            match *change {
                Change::DropRepeat(place) => {
                    let length = file[place + 1..].iter().position(|byte| *byte == b'%');
                    at = place + 1 + length.expect("a closing %") + 1;
                }
                Change::AddEnd(place) => {
                    rebuilt.extend(b"M02*");
                    at = place;
                }
                Change::DropTail(_) | Change::DropAfterEnd(_) => at = file.len(),
            }
        }
        rebuilt.extend(&file[at..]);
        rebuilt
    }

    #[test]
    fn what_is_accepted_stays_and_twice_is_once() {
        let mut mended_files = 0;
        for index in 0..3000 {
            for terms in generator::TERMS {
                let file = generator::broken(13, index, terms);
                let accepted = read(&file, terms, Room::UNLIMITED).is_ok();
                let Ok(mended) = mend(&file, terms, Room::UNLIMITED) else {
                    assert!(!accepted);
                    continue;
                };
                assert_eq!(accepted, mended.changes.is_empty());
                assert_eq!(rebuilt(&file, &mended.changes), mended.file);
                let again = mend(&mended.file, terms, Room::UNLIMITED).expect("accepted");
                assert_eq!((again.file, again.changes), (mended.file, Vec::new()));
                mended_files += u64::from(!accepted);
            }
        }
        assert!(mended_files > 3000);
    }

    #[test]
    fn commands_are_told_by_their_extent() {
        let changes = |file: &[u8]| changed(file, Edition::New).changes;
        assert_eq!(changes(b"G04 \x01*\nM02*\x01"), []);
        assert_eq!(changes(b"G01*G0"), [Change::AddEnd(4), Change::DropTail(4)]);
        assert_eq!(changes(b"*%MOMM*"), [Change::AddEnd(1), Change::DropTail(1)]);
        assert_eq!(changes(b"M2*"), [Change::AddEnd(3)]);
        assert_eq!(changed(b"M2*", Edition::Old).changes, []);
        let repeats = b"%MOMM*%%MOMM*\r\n%%MOIN*%%MOMM%M02*\nA";
        assert_eq!(changes(repeats), [Change::DropRepeat(7), Change::DropAfterEnd(33)]);
    }
}
