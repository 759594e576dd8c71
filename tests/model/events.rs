//! Document 01, "Events": one byte kind, then its fields. Kinds 14 and 15: document 02, Q-1 and Q-7.

use crate::adhesion::{in_range, reversed, rows_of, told_bytes, Constraint};
use crate::numbers::{within, Numbers};
use crate::packets::TractionBrake;

pub const UNDEFINED: u32 = 16_777_215;

/// Kinds of events that are looked for by their number.
pub const POSITION_REPORT: u8 = 9;
pub const LOAD: u8 = 11;
pub const SKIP: u8 = 12;
pub const REVOKE: u8 = 13;
pub const TRACTION: u8 = 14;
pub const ADHESION: u8 = 15;

#[derive(Clone, Copy, PartialEq, Eq, Debug)]
pub struct Position {
    pub nidc: u16,
    pub nidsp: u32,
    pub offset: u32,
}

#[derive(Clone, Copy, PartialEq, Eq, Debug)]
pub enum Event {
    PowerOn,
    Configured,
    PowerOff,
    Fault,
    Reports(u8),
    Mode(u8),
    Lever(u8),
    Press,
    Report(Position, u16),
    Length(u32),
    Load,
    Skip(u32),
    Revoke(u32),
    /// The request, and the content of packet 61.
    Traction(i8, TractionBrake),
    /// Its rows stay in the event's bytes.
    Adhesion,
}

/// Numbers 1, 2 and 21.
pub fn read_event(bytes: &[u8]) -> Result<Event, u8> {
    let (&kind, fields) = bytes.split_first().ok_or(1)?;
    let size = match kind {
        1..=4 | 8 | LOAD => 0,
        5..=7 => 1,
        POSITION_REPORT => 12,
        10 | SKIP | REVOKE => 4,
        TRACTION => 6,
        ADHESION => told_bytes(fields),
        _ => return Err(1),
    };
    if fields.len() != size {
        return Err(1);
    }
    if kind == ADHESION {
        return check_rows(&rows_of(bytes));
    }
    read_fields(kind, Numbers(fields)).ok_or(2)
}

/// 2 of any row before 21 of any.
fn check_rows(rows: &[Constraint]) -> Result<Event, u8> {
    if !in_range(rows) {
        return Err(2);
    }
    if reversed(rows) {
        return Err(21);
    }
    Ok(Event::Adhesion)
}

/// The event of a kind from 1 to 14, its fields as long as they must be; `None` if one is out of range.
fn read_fields(kind: u8, mut fields: Numbers) -> Option<Event> {
    Some(match kind {
        1 => Event::PowerOn,
        2 => Event::Configured,
        3 => Event::PowerOff,
        4 => Event::Fault,
        5 => Event::Reports(within(fields.u8()?, 0, 31)?),
        6 => Event::Mode(within(fields.u8()?, 0, 1)?),
        7 => Event::Lever(within(fields.u8()?, 0, 2)?),
        8 => Event::Press,
        POSITION_REPORT => {
            let nidc = within(fields.u16()?, 0, 1023)?;
            let nidsp = fields.u32()?;
            let offset = within(fields.u32()?, 0, UNDEFINED)?;
            Event::Report(Position { nidc, nidsp, offset }, fields.u16()?)
        }
        10 => Event::Length(within(fields.u32()?, 1, 100_000)?),
        LOAD => Event::Load,
        SKIP => Event::Skip(fields.u32()?),
        REVOKE => Event::Revoke(fields.u32()?),
        _ => Event::Traction(within(fields.i8()?, -100, 100)?, TractionBrake::read(&mut fields)?),
    })
}
