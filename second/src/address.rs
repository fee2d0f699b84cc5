//! From an item to its copy, and back: request [12] of document 02.
//!
//! The two ways share nothing: [`Sheet::address`] counts items, [`Sheet::number`] positions.

use crate::sheet::{Body, Entry, Sheet, Source};

/// The copy, then nine positions, each counted from 1; "what goes unused is 0" (decision 331).
pub const WORDS: usize = 10;

pub type Address = [u64; WORDS];

/// Positions of the top level that an entry takes: an SR's are those of its body, written once
/// (decision 332).
fn positions(entry: &Entry) -> u64 {
    match &entry.source {
        Source::Repeat(_, body) => body.entries.len() as u64,
        Source::Item(_) | Source::Block(..) => 1,
    }
}

impl Sheet {
    /// The address of item k, for k below the total.
    pub fn address(&self, k: u64) -> Option<Address> {
        if k >= self.total() {
            return None;
        }
        let mut address = [0; WORDS];
        let (index, rest) = self.body.holding(k);
        let (body, within) = match &self.body.entries[index].source {
            Source::Repeat(_, body) => {
                address[0] = rest / body.total + 1;
                (body, rest % body.total)
            }
            Source::Item(_) | Source::Block(..) => (&self.body, k),
        };
        self.write_chain(body, within, &mut address[1..]);
        let before: u64 = self.body.entries[..index].iter().map(positions).sum();
        address[1] = before + if address[0] == 0 { 1 } else { address[1] };
        Some(address)
    }

    /// The positions of item k of the body, down to the item.
    fn write_chain(&self, body: &Body, k: u64, chain: &mut [u64]) {
        let (index, rest) = body.holding(k);
        chain[0] = index as u64 + 1;
        if let Source::Block(block, _) = &body.entries[index].source {
            self.write_chain(&self.blocks[*block].body, rest, &mut chain[1..]);
        }
    }

    /// The number of the item with that address, if it names one.
    pub fn number(&self, address: &Address) -> Option<u64> {
        let [copy, top, chain @ ..] = address;
        let mut position = *top;
        for entry in &self.body.entries {
            if position > positions(entry) {
                position -= positions(entry);
                continue;
            }
            let within = match &entry.source {
                Source::Repeat(grid, body) if (1..=grid.copies()).contains(copy) => {
                    (copy - 1) * body.total + self.number_in(body, position, chain)?
                }
                Source::Item(_) | Source::Block(..) if *copy == 0 && position == 1 => {
                    self.number_of(&entry.source, chain)?
                }
                _ => return None,
            };
            return Some(entry.before + within);
        }
        None
    }

    /// The number, in the body, of the item at that position or below it.
    fn number_in(&self, body: &Body, position: u64, chain: &[u64]) -> Option<u64> {
        let index = usize::try_from(position.checked_sub(1)?).ok()?;
        let entry = body.entries.get(index)?;
        Some(entry.before + self.number_of(&entry.source, chain)?)
    }

    /// The same among the items that one command put out.
    fn number_of(&self, source: &Source, chain: &[u64]) -> Option<u64> {
        match (source, chain) {
            (Source::Item(_), chain) => chain.iter().all(|position| *position == 0).then_some(0),
            (Source::Block(block, _), [position, below @ ..]) => {
                self.number_in(&self.blocks[*block].body, *position, below)
            }
            _ => None,
        }
    }
}

#[cfg(test)]
mod tests {
    use crate::rules::read;
    use crate::sheet::Room;
    use crate::terms::Terms;

    /// A block of three items; a line, then 300 copies of a line and a flash of the block, then
    /// that flash once more.
    const PANEL: &str =
        "%FSLAX36Y36*%%MOMM*%%ADD10C,1*%G01*%ABD11*%D10*X0Y0D03*X1Y0D03*X2Y0D03*%AB*%\
        D10*X0Y0D02*X1Y1D01*%SRX30Y10I1J1*%X0Y0D02*X1Y1D01*D11*X0Y0D03*%SR*%X0Y0D03*M02*";

    #[test]
    fn copies_and_positions_count_from_one() {
        let sheet = read(PANEL.as_bytes(), Terms::PLAIN, Room::UNLIMITED).expect("accepted");
        assert_eq!(sheet.total(), 1 + 300 * 4 + 3);
        assert_eq!(sheet.address(0), Some([0, 1, 0, 0, 0, 0, 0, 0, 0, 0]));
        assert_eq!(sheet.address(1 + 211 * 4 + 3), Some([212, 3, 3, 0, 0, 0, 0, 0, 0, 0]));
        assert_eq!(sheet.address(1 + 300 * 4), Some([0, 4, 1, 0, 0, 0, 0, 0, 0, 0]));
        assert_eq!(sheet.address(1 + 300 * 4 + 3), None);
    }

    #[test]
    fn each_undoes_the_other() {
        let sheet = read(PANEL.as_bytes(), Terms::PLAIN, Room::UNLIMITED).expect("accepted");
        for k in 0..sheet.total() {
            let address = sheet.address(k).expect("below the total");
            assert_eq!(sheet.number(&address), Some(k));
        }
        let mut named = 0;
        for copy in 0..=301 {
            for top in 0..=5 {
                for inner in 0..=4 {
                    let address = [copy, top, inner, 0, 0, 0, 0, 0, 0, 0];
                    if let Some(k) = sheet.number(&address) {
                        assert_eq!(sheet.address(k), Some(address));
                        named += 1;
                    }
                }
            }
        }
        assert_eq!(named, sheet.total());
    }
}
