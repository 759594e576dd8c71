//! The proved packet reader beside the model's: every string of bytes must be read or refused, and cut, alike.

use crate::engine::{constraint, row_indices};
use crate::hollwern::{front_size, packets as cut, read, read_constraint, Header, PacketFields};
use model::adhesion::{self, CONSTRAINTS_MOST, ROW};
use model::packets::{self, size_64, split_packets, told_size, Content, Packet, TractionBrake, SIZE_68};

/// How many strings were read, and how many refused by 17, 18 and 19.
pub type Readings = [u64; 4];

/// The model's reading as the C interface must answer it.
fn expected(bytes: &[u8]) -> PacketFields {
    let packet = match Packet::read(bytes) {
        Ok(packet) => packet,
        Err(number) => return PacketFields { number, ..PacketFields::default() },
    };
    let packets::Header { nidc, nidsp, offset, speed, operational } = packet.header;
    let header = Header { nidc, nidsp, offset, speed, operational };
    let read = |kind| PacketFields { accepted: true, kind, size: packet.size(), header, ..PacketFields::default() };
    match packet.content {
        Content::Point { nidc, nidtp, q_eoj_reached, alignment, status, stopping } => {
            PacketFields { nidc, nidtp, q_eoj_reached, alignment, status, stopping, ..read(62) }
        }
        Content::Load { nidc, atots, date, seconds, counter, status } => {
            PacketFields { nidc, atots, date, seconds, counter, status, ..read(65) }
        }
        Content::State { state, conditions } => PacketFields { state, conditions, ..read(68) },
        Content::Traction(content) => {
            let TractionBrake { m_ato_trabrrq, m_ato_locobrrq, q_ato_suptb, m_ato_rtbrq } = content;
            PacketFields { m_ato_trabrrq, m_ato_locobrrq, q_ato_suptb, m_ato_rtbrq, ..read(61) }
        }
        Content::Adhesion(ref rows) => PacketFields { constraint_count: rows.len() as u8, ..read(64) },
    }
}

/// The rows that the model reads: none where it refuses the bytes or they are another packet.
fn read_rows(bytes: &[u8]) -> Vec<adhesion::Constraint> {
    match Packet::read(bytes).map(|packet| packet.content) {
        Ok(Content::Adhesion(rows)) => rows,
        _ => Vec::new(),
    }
}

/// The rows with these indices. An error says what differs.
fn try_rows(bytes: &[u8], indices: impl IntoIterator<Item = usize>) -> Result<(), String> {
    let rows = read_rows(bytes);
    for k in indices {
        let (expected, found) = (constraint(&rows, k), read_constraint(bytes, k));
        if found != expected {
            return Err(format!("{bytes:02X?}: row {k} is {expected:?} to the model, {found:?} to the proved reader"));
        }
    }
    Ok(())
}

/// The bytes of the packet in front, by the model's sizes.
fn expected_front(bytes: &[u8]) -> usize {
    told_size(bytes).unwrap_or(bytes.len()).min(bytes.len())
}

/// The packet cut to every length and whole, longer by a byte, and with each of its bytes raised by `step`.
/// Each string takes just its bytes, so that a memory checker sees its ends.
fn strings(packet: &[u8], step: u8) -> Vec<Box<[u8]>> {
    let cut = (0..=packet.len()).map(|n| packet[..n].into());
    let longer = [packet, &[step]].concat().into();
    let changed = (0..packet.len()).map(|k| {
        let mut bytes: Box<[u8]> = packet.into();
        bytes[k] = bytes[k].wrapping_add(step);
        bytes
    });
    cut.chain([longer]).chain(changed).collect()
}

/// One string of bytes, and of a 64 a row, each in turn. An error says what differs.
fn try_string(bytes: &[u8], readings: &mut Readings) -> Result<(), String> {
    let (expected, found) = (expected(bytes), read(bytes));
    if found != expected {
        return Err(format!("{bytes:02X?}: the model reads {expected:?}, the proved reader {found:?}"));
    }
    let (expected, found_front) = (expected_front(bytes), front_size(bytes));
    if found_front != expected {
        return Err(format!("{bytes:02X?}: a packet of {expected} bytes in front, not {found_front}"));
    }
    readings[usize::from(found.number.saturating_sub(16))] += 1;
    let turn = readings.iter().sum::<u64>() as usize;
    try_rows(bytes, (bytes.first() == Some(&64)).then_some(turn % (CONSTRAINTS_MOST + 1)))
}

/// Packet 68 with each of the 65,536 words, its header 0.
pub fn try_words() -> Result<Readings, String> {
    let mut readings = Readings::default();
    for word in 0..=u16::MAX {
        let mut bytes = [0; SIZE_68];
        bytes[0] = 68;
        bytes[SIZE_68 - 2..].copy_from_slice(&word.to_be_bytes());
        try_string(&bytes, &mut readings)?;
    }
    Ok(readings)
}

/// Packet 64 with each of the 256 counts, all else 0: of fitting length, and a byte and a row less and more.
pub fn try_counts() -> Result<Readings, String> {
    let mut readings = Readings::default();
    for count in 0..=u8::MAX {
        let size = size_64(count.into());
        for size in [size, size - 1, size + 1, size - ROW, size + ROW] {
            let mut bytes = vec![0; size];
            bytes[0] = 64;
            bytes.iter_mut().skip(17).take(1).for_each(|byte| *byte = count);
            try_string(&bytes, &mut readings)?;
        }
    }
    Ok(readings)
}

/// The packets that a call wrote, with all rows, and the strings made of each. An error says what differs.
pub fn try_packets(written: &[u8], step: u8, readings: &mut Readings) -> Result<(), String> {
    let packets = split_packets(written);
    if !cut(written).eq(packets.iter().copied()) {
        return Err(format!("written packets are cut otherwise: {written:02X?}"));
    }
    for packet in packets {
        if !read(packet).accepted {
            return Err(format!("a written packet is not read: {packet:02X?}"));
        }
        try_rows(packet, row_indices())?;
        for bytes in strings(packet, step) {
            try_string(&bytes, readings)?;
        }
    }
    Ok(())
}
