//! Trials of the reader and the writer of packet 64 (document 02, Q-7): as many rows as it may have and more, each
//! value at its end and beyond it in the first row and in the last, every length that is not that of the count.

use crate::constraints::{changed, rows, EACH_BYTE, GREATEST, PLACE_MOST};
use crate::packet_trials::{altered, append, power_on, read, read_packet, write, zeros, PacketTrial, NO_HEADER};
use model::adhesion::{Constraint, CONSTRAINTS_MOST, ROW};
use model::packets::{size_64, Content, Header, Packet};

/// Where its count stands.
const COUNT: usize = 17;

/// The train at 20,000, as after P8.
fn announced(rows: Vec<Constraint>) -> Packet {
    let header = Header { nidc: 17, nidsp: 500, offset: 20_000, speed: 0, operational: u32::MAX };
    Packet { header, content: Content::Adhesion(rows) }
}

fn most() -> Packet {
    announced(rows(CONSTRAINTS_MOST))
}

fn headed(header: Header) -> Packet {
    Packet { header, content: Content::Adhesion(Vec::new()) }
}

/// Packets that are written and read back.
fn good() -> [(&'static str, Packet); 5] {
    let greatest = Header { nidc: 1023, nidsp: u32::MAX, offset: PLACE_MOST, speed: 65_535, operational: u32::MAX };
    [
        ("64 without rows", announced(vec![])),
        ("64 of one row, each byte another", announced(vec![EACH_BYTE])),
        ("64 of a blank row", announced(vec![Constraint::default()])),
        ("64 of 31 rows", most()),
        ("64 at its ends", Packet { header: greatest, content: Content::Adhesion(vec![GREATEST; CONSTRAINTS_MOST]) }),
    ]
}

/// Of 31 rows the first and the last with each value beyond its range, and reversed.
fn beyond() -> Vec<(&'static str, Vec<Constraint>)> {
    let changed = |k, change: fn(&mut Constraint)| changed(CONSTRAINTS_MOST, k, change);
    vec![
        ("64 NID_C 1024 in row 1", changed(0, |row| row.nidc = 1024)),
        ("64 NID_C 1024 in row 31", changed(30, |row| row.nidc = 1024)),
        ("64 start and end 16777216 in row 1", changed(0, |row| (row.start, row.end) = (16_777_216, 16_777_216))),
        ("64 start and end 16777216 in row 31", changed(30, |row| (row.start, row.end) = (16_777_216, 16_777_216))),
        ("64 end 16777216 in row 1", changed(0, |row| row.end = 16_777_216)),
        ("64 end 16777216 in row 31", changed(30, |row| row.end = 16_777_216)),
        ("64 row 1 reversed", changed(0, |row| row.start = row.end + 1)),
        ("64 row 31 reversed", changed(30, |row| row.start = row.end + 1)),
        ("64 row 16 reversed", changed(15, |row| (row.start, row.end) = (1, 0))),
        ("64 of 32 rows", rows(CONSTRAINTS_MOST + 1)),
    ]
}

/// Written whole, then behind other packets, in too little memory, and out of range, where the memory is too short as
/// well.
pub fn written64() -> Vec<PacketTrial> {
    let one = || announced(vec![EACH_BYTE]);
    let mut trials: Vec<PacketTrial> = Vec::new();
    trials.extend(good().map(|(name, packet)| {
        let room = packet.size() + 6;
        write(name, packet, room, None)
    }));
    trials.extend([
        append("64 behind power on", [power_on(), one()], 54, None),
        append("64 behind power on with one byte less than it needs", [power_on(), one()], 52, Some(16)),
        append("64 of one row behind one of 31", [most(), one()], 549, None),
        append("64 of one row behind one of 31 with one byte less than it needs", [most(), one()], 547, Some(16)),
        write("64 without rows into 17 bytes", announced(vec![]), size_64(0) - 1, Some(16)),
        write("64 without rows into 18 bytes", announced(vec![]), size_64(0), None),
        write("64 of one row into 18 bytes", one(), size_64(0), Some(16)),
        write("64 of one row into 33 bytes", one(), size_64(1) - 1, Some(16)),
        write("64 of 31 rows into 513 bytes", most(), size_64(CONSTRAINTS_MOST) - 1, Some(16)),
        write("64 of 31 rows into 514 bytes", most(), size_64(CONSTRAINTS_MOST), None),
        write("64 header NID_C 1024", headed(Header { nidc: 1024, ..NO_HEADER }), 4, Some(19)),
        write("64 offset 16777216", headed(Header { offset: 16_777_216, ..NO_HEADER }), 4, Some(19)),
    ]);
    trials.extend(beyond().into_iter().map(|(name, rows)| write(name, announced(rows), 4, Some(19))));
    trials
}

/// Zero but for the number and the count.
fn counted(count: u8, size: usize) -> Vec<u8> {
    let mut bytes = zeros(64, size);
    bytes[COUNT] = count;
    bytes
}

/// 17: below 18 bytes, or not 18 + 16 × count, also where the count is over 31.
fn lengths() -> Vec<PacketTrial> {
    let sized = |name, count, size| read(name, counted(count, size), Some(17));
    vec![
        read("64 alone", zeros(64, 1), Some(17)),
        read("64 of 17 bytes", zeros(64, 17), Some(17)),
        sized("64 of no row in 19 bytes", 0, 19),
        sized("64 of no row in 34 bytes", 0, 34),
        sized("64 of one row in 18 bytes", 1, 18),
        sized("64 of one row in 33 bytes", 1, 33),
        sized("64 of one row in 35 bytes", 1, 35),
        sized("64 of one row in 50 bytes", 1, 50),
        sized("64 of 31 rows in 498 bytes", 31, 498),
        sized("64 of 31 rows in 513 bytes", 31, 513),
        sized("64 of 31 rows in 515 bytes", 31, 515),
        sized("64 of 31 rows in 530 bytes", 31, 530),
        sized("64 of 32 rows in 18 bytes", 32, 18),
        sized("64 of 32 rows in 514 bytes", 32, 514),
        sized("64 of 32 rows in 529 bytes", 32, 529),
        sized("64 of 32 rows in 531 bytes", 32, 531),
        sized("64 of 255 rows in 18 bytes", 255, 18),
        sized("64 of 255 rows in 514 bytes", 255, 514),
    ]
}

/// Of two rows the second: NID_C at 0, NID_SP at 2, category at 6, range at 7, start at 8, end at 12. NID_SP, category
/// and range are free.
fn altered_rows() -> Vec<PacketTrial> {
    let two = counted(2, size_64(2));
    let last = COUNT + 1 + ROW;
    vec![
        altered("64 header NID_C 1024", &two, 1, 0x04, Some(19)),
        altered("64 offset 16777216", &two, 7, 0x01, Some(19)),
        altered("64 NID_C 768", &two, last, 0x03, None),
        altered("64 NID_C 1024", &two, last, 0x04, Some(19)),
        altered("64 NID_SP FF000000", &two, last + 2, 0xFF, None),
        altered("64 category 255", &two, last + 6, 0xFF, None),
        altered("64 range 255", &two, last + 7, 0xFF, None),
        altered("64 start 1, end 0", &two, last + 11, 0x01, Some(19)),
        altered("64 end 16711680", &two, last + 13, 0xFF, None),
        altered("64 end 16777216", &two, last + 12, 0x01, Some(19)),
        altered("64 of one row told as none", &counted(1, size_64(1)), COUNT, 0, Some(17)),
    ]
}

/// Read back; then lengths, and what is beyond its range, also 32 rows of fitting length, blank ones too.
pub fn read64() -> Vec<PacketTrial> {
    let mut trials: Vec<PacketTrial> = good().map(|(name, packet)| read_packet(name, packet, None)).into();
    trials.extend(lengths());
    trials.extend(beyond().into_iter().map(|(name, rows)| read_packet(name, announced(rows), Some(19))));
    trials.push(read("64 of 32 blank rows", counted(32, size_64(32)), Some(19)));
    trials.extend(altered_rows());
    trials
}
