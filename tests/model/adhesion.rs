//! Document 02, Q-7: slippery rail. A count and so many rows, as kind 15 and packet 64 bring them.

use crate::numbers::Numbers;

/// The most rows.
pub const CONSTRAINTS_MOST: usize = 31;
/// Bytes of a row.
pub const ROW: usize = 16;
/// The greatest start and end.
const PLACE_MOST: u32 = 16_777_215;

/// A row, one of the Temporary Constraints of SUBSET-140 (Table 7). NID_SP, category and range are free.
#[derive(Clone, Copy, PartialEq, Eq, Debug, Default)]
pub struct Constraint {
    pub nidc: u16,
    pub nidsp: u32,
    pub category: u8,
    pub range: u8,
    pub start: u32,
    pub end: u32,
}

impl Constraint {
    pub fn bytes(&self) -> [u8; ROW] {
        let mut bytes = [0; ROW];
        bytes[..2].copy_from_slice(&self.nidc.to_be_bytes());
        bytes[2..6].copy_from_slice(&self.nidsp.to_be_bytes());
        bytes[6..8].copy_from_slice(&[self.category, self.range]);
        bytes[8..12].copy_from_slice(&self.start.to_be_bytes());
        bytes[12..].copy_from_slice(&self.end.to_be_bytes());
        bytes
    }

    fn read(mut from: Numbers) -> Option<Constraint> {
        Some(Constraint {
            nidc: from.u16()?,
            nidsp: from.u32()?,
            category: from.u8()?,
            range: from.u8()?,
            start: from.u32()?,
            end: from.u32()?,
        })
    }

    fn in_range(&self) -> bool {
        self.nidc <= 1023 && self.start <= PLACE_MOST && self.end <= PLACE_MOST
    }
}

/// How many bytes a count and its rows have, by the count in front; one that is missing counts as 0.
pub fn told_bytes(bytes: &[u8]) -> usize {
    1 + ROW * usize::from(bytes.first().copied().unwrap_or(0))
}

/// The whole rows in the bytes behind a count, whatever their values.
pub fn rows_in(bytes: &[u8]) -> Vec<Constraint> {
    let rows = bytes.chunks_exact(ROW).map(|row| Constraint::read(Numbers(row)).expect("a row's bytes"));
    rows.collect()
}

/// Those of a kind 15.
pub fn rows_of(event: &[u8]) -> Vec<Constraint> {
    rows_in(event.get(2..).unwrap_or(&[]))
}

/// Not over 31, and no value beyond its range.
pub fn in_range(rows: &[Constraint]) -> bool {
    rows.len() <= CONSTRAINTS_MOST && rows.iter().all(Constraint::in_range)
}

/// There is a row whose start exceeds its end.
pub fn reversed(rows: &[Constraint]) -> bool {
    rows.iter().any(|row| row.start > row.end)
}
