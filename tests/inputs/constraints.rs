//! Rows of slippery rail: those that the fixed lists share, and random ones with their events, also damaged: in their
//! values, in their count, in their length.

use crate::random::Random;
use model::adhesion::{Constraint, CONSTRAINTS_MOST, ROW};
use model::calls::Call;

/// The greatest start and end.
pub const PLACE_MOST: u32 = 16_777_215;

/// Two rows that are good.
pub const SLIPPERY: [Constraint; 2] = [
    Constraint { nidc: 17, nidsp: 500, category: 1, range: 2, start: 300, end: 4_000 },
    Constraint { nidc: 18, nidsp: 501, category: 3, range: 0, start: 70_000, end: 70_000 },
];

/// Each byte another.
pub const EACH_BYTE: Constraint =
    Constraint { nidc: 0x0102, nidsp: 0x0304_0506, category: 7, range: 8, start: 0x0009_0A0B, end: 0x000C_0D0E };

/// Each field at its end.
pub const GREATEST: Constraint =
    Constraint { nidc: 1023, nidsp: u32::MAX, category: 255, range: 255, start: PLACE_MOST, end: PLACE_MOST };

/// So many rows, each field of each another.
pub fn rows(count: usize) -> Vec<Constraint> {
    let row = |k: u32| Constraint {
        nidc: 17 + k as u16,
        nidsp: 500 + k,
        category: k as u8,
        range: 255 - k as u8,
        start: 1_000 * k,
        end: 1_000 * k + 900,
    };
    (0..count as u32).map(row).collect()
}

/// The same with one of them changed.
pub fn changed(count: usize, k: usize, change: impl Fn(&mut Constraint)) -> Vec<Constraint> {
    let mut rows = rows(count);
    change(&mut rows[k]);
    rows
}

/// A kind 15; `shown` are the rows that the engine shows.
pub fn new_event(random: &mut Random, shown: &[Constraint]) -> Vec<u8> {
    let mut rows = new_rows(random, shown);
    if random.chance(35) {
        (0..random.pick(&[1, 1, 2, 3])).for_each(|_| damage_row(random, &mut rows));
    }
    if random.chance(4) {
        let more = random.pick(&[1, 1, 2, 224]);
        rows.resize_with(CONSTRAINTS_MOST + more, || a_row(random));
    }
    let mut event = Call::adhesion(&rows).event;
    if random.chance(20) {
        damage_bytes(random, &mut event);
    }
    event
}

fn new_rows(random: &mut Random, shown: &[Constraint]) -> Vec<Constraint> {
    let count = match random.weighed(&[10, 15, 30, 15, 10, 20]) {
        0 => 0,
        1 => 1,
        2 => 2 + random.below(6),
        3 => random.below(CONSTRAINTS_MOST + 1),
        4 => CONSTRAINTS_MOST,
        _ => return rewritten(random, shown),
    };
    (0..count).map(|_| a_row(random)).collect()
}

/// The rows shown once more: the same, fewer, one more, in another order, one of them another.
fn rewritten(random: &mut Random, shown: &[Constraint]) -> Vec<Constraint> {
    let mut rows = shown.to_vec();
    match random.below(5) {
        0 => {}
        1 => rows.truncate(random.below(shown.len() + 1)),
        2 if rows.len() < CONSTRAINTS_MOST => rows.push(a_row(random)),
        3 if !rows.is_empty() => {
            let k = random.below(rows.len());
            rows[k] = a_row(random);
        }
        _ => random.shuffle(&mut rows),
    }
    rows
}

fn a_row(random: &mut Random) -> Constraint {
    let any = random.next();
    let start = a_place(random, 0);
    Constraint {
        nidc: random.pick(&[0, 17, 17, 18, 1023]),
        nidsp: random.pick(&[0, 500, 501, any as u32, u32::MAX]),
        category: random.pick(&[0, 1, 2, (any >> 32) as u8]),
        range: random.pick(&[0, 1, (any >> 40) as u8, 255]),
        start,
        end: a_place(random, start),
    }
}

/// From `least` on: that one, one near it, any, the greatest.
fn a_place(random: &mut Random, least: u32) -> u32 {
    match random.weighed(&[20, 40, 30, 10]) {
        0 => least,
        1 => random.between(least, PLACE_MOST.min(least + 20_000)),
        2 => random.between(least, PLACE_MOST),
        _ => PLACE_MOST,
    }
}

/// One value of a row beyond its range, or, more often, the row reversed.
fn damage_row(random: &mut Random, rows: &mut [Constraint]) {
    let Some(last) = rows.len().checked_sub(1) else { return };
    let any = random.below(rows.len());
    let k = random.pick(&[0, last, any]);
    let row = &mut rows[k];
    let beyond = random.pick(&[PLACE_MOST + 1, u32::MAX]);
    match random.weighed(&[1, 1, 1, 3, 2]) {
        0 => row.nidc = random.pick(&[1024, 32_768, 65_535]),
        1 => row.start = beyond,
        2 => row.end = beyond,
        3 => row.start = row.end.saturating_add(1),
        _ => (row.start, row.end) = (row.end, row.start),
    }
}

/// Another count than there are rows, or other rows than the count tells.
fn damage_bytes(random: &mut Random, event: &mut Vec<u8>) {
    let count = event[1];
    let size = event.len();
    match random.below(9) {
        0 => event[1] = count.wrapping_add(1),
        1 => event[1] = count.wrapping_sub(1),
        2 => event[1] = random.pick(&[0, 31, 32, 255]),
        3 => event.push(0),
        4 => event.resize(size + ROW, 0),
        5 => event.truncate(size - 1),
        6 => event.truncate(size.saturating_sub(ROW).max(2)),
        7 => event.truncate(1),
        _ => event.truncate(2),
    }
}
