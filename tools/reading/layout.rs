//! Packets 61, 62, 64, 65 and 68 field by field, as SUBSET-140 lays them out (Tables 3, 4, 5, 7, 8, 11): the name of
//! each, its bytes and bits, its range in document 01, where the proved reader's answer has it, and its value in words.

use crate::words;
use proved::hollwern::{read_constraint, Constraint, PacketFields};

#[derive(Clone, Copy)]
pub struct Field {
    pub name: &'static str,
    /// Its first byte in the packet, and how many bytes it is in.
    at: usize,
    width: usize,
    /// Where it is some bits of a BITSET.
    bits: Option<Bits>,
    /// Of a packet 64, which row it is in.
    row: Option<usize>,
    pub highest: u32,
    read: Read,
    pub words: Words,
}

#[derive(Clone, Copy)]
struct Bits {
    set: &'static str,
    low: u32,
    high: u32,
}

/// Where the proved reader's answer has a value: in the packet's fields, or in a row.
#[derive(Clone, Copy)]
enum Read {
    Packet(fn(&PacketFields) -> u32),
    Row(fn(&Constraint) -> u32),
}

type Words = fn(u32) -> String;

const FREE: u32 = u32::MAX;

/// The width of a column with the first and the last byte of a field, in a recording up to 99,999 bytes.
pub const BYTES_WIDTH: usize = 11;

const fn field(
    name: &'static str,
    at: usize,
    width: usize,
    highest: u32,
    read: fn(&PacketFields) -> u32,
    words: Words,
) -> Field {
    Field { name, at, width, bits: None, row: None, highest, read: Read::Packet(read), words }
}

/// A field of the first row.
const fn of_row(
    name: &'static str,
    at: usize,
    width: usize,
    highest: u32,
    read: fn(&Constraint) -> u32,
    words: Words,
) -> Field {
    Field { row: Some(0), read: Read::Row(read), ..field(name, at, width, highest, |_| 0, words) }
}

/// Bits that must be 0; the reader answers none of them.
const fn spare(at: usize, width: usize, set: &'static str, low: u32, high: u32) -> Field {
    field("Spare", at, width, 0, |_| 0, words::nothing).bits(set, low, high)
}

impl Field {
    const fn bits(self, set: &'static str, low: u32, high: u32) -> Field {
        Field { bits: Some(Bits { set, low, high }), ..self }
    }
}

/// The number, and Table 3.
static HEADER: [Field; 6] = [
    field("NID_PACKET_ATO", 0, 1, FREE, |p| p.kind.into(), words::packet_name),
    field("NID_C", 1, 2, 1023, |p| p.header.nidc.into(), words::country),
    field("NID_SP", 3, 4, FREE, |p| p.header.nidsp, words::segment),
    field("D_Sending_Position", 7, 4, 16_777_215, |p| p.header.offset, words::offset),
    field("V_EST", 11, 2, FREE, |p| p.header.speed.into(), words::speed),
    field("NID_OPERATIONAL", 13, 4, FREE, |p| p.header.operational, words::operational),
];
const HEADER_END: usize = 17;

const INFO: &str = "TP_INFO";
const STOPPING: &str = "STOPPING_DATA";
const CHANGE: &str = "ATO_STATE_CHANGE";

/// Table 4.
static TRACTION_BRAKE: [Field; 4] = [
    field("M_ATO_TraBrRq", 17, 1, FREE, |p| p.m_ato_trabrrq.into(), words::unsigned),
    field("M_ATO_LocoBrRq", 18, 1, FREE, |p| p.m_ato_locobrrq.into(), words::unsigned),
    field("Q_ATO_SupTB", 19, 1, FREE, |p| p.q_ato_suptb.into(), words::bits),
    field("M_ATO_RTBRq", 20, 2, FREE, |p| p.m_ato_rtbrq.into(), words::signed),
];

/// Table 5.
static TIMING_POINT: [Field; 9] = [
    field("NID_C", 17, 2, 1023, |p| p.nidc.into(), words::country),
    field("NID_TP", 19, 4, FREE, |p| p.nidtp, words::timing_point),
    field("Q_EOJ_REACHED", 23, 1, 1, |p| p.q_eoj_reached.into(), words::end_of_journey).bits(INFO, 0, 0),
    field("Q_TP_Alignment", 23, 1, 2, |p| p.alignment.into(), words::alignment).bits(INFO, 1, 2),
    field("Q_TP_STATUS", 23, 1, 8, |p| p.status.into(), words::status).bits(INFO, 3, 6),
    spare(23, 1, INFO, 7, 7),
    field("Q_Stop_Location_Tolerance", 24, 1, 31, |p| (p.stopping & 31).into(), words::tolerance).bits(STOPPING, 0, 4),
    field("Q_Accurate_Stopping", 24, 1, 3, |p| (p.stopping >> 5).into(), words::accurate_stopping).bits(STOPPING, 5, 6),
    spare(24, 1, STOPPING, 7, 7),
];

/// Table 7: the count, which rows follow.
static ADHESION_SYSTEM: [Field; 1] =
    [field("N_ATO_ADHE_ITER", COUNT, 1, 31, |p| p.constraint_count.into(), words::constraints)];
const COUNT: usize = HEADER_END;

/// Table 7: the first row; each other one stands so many bytes further.
static CONSTRAINT: [Field; 6] = [
    of_row("NID_C", 18, 2, 1023, |row| row.nidc.into(), words::country),
    of_row("NID_SP", 20, 4, FREE, |row| row.nidsp, words::segment),
    of_row("Q_Adhesion_Category", 24, 1, FREE, |row| row.category.into(), words::constraint),
    of_row("Q_Range", 25, 1, FREE, |row| row.range.into(), words::constraint),
    of_row(START, 26, 4, PLACE_MOST, |row| row.start, words::location),
    of_row("D_TC_End_Location", 30, 4, PLACE_MOST, |row| row.end, words::location),
];
const ROW: usize = 16;
const START: &str = "D_TC_Start_Location";
const PLACE_MOST: u32 = 16_777_215;

/// Table 8.
static JP_RECEIVED: [Field; 6] = [
    field("NID_C", 17, 2, words::UNKNOWN_NIDC, |p| p.nidc.into(), words::country_of_train),
    field("NID_ATOTS", 19, 2, words::UNKNOWN_ATOTS, |p| p.atots.into(), words::atots),
    field("T_JP_Reference_Timestamp_Date", 21, 2, 32_767, |p| p.date.into(), words::date),
    field("T_JP_Reference_Timestamp_Seconds", 23, 4, FREE, |p| p.seconds, words::seconds),
    field("N_JP_Reference_Packet_Counter", 27, 1, FREE, |p| p.counter.into(), words::counter),
    field("Q_JP_STATUS", 28, 1, 1, |p| p.status.into(), words::journey_status),
];

/// Table 11.
static ATO_STATUS: [Field; 3] = [
    field("M_ATO_STATE", 17, 2, 7, |p| p.state.into(), words::state).bits(CHANGE, 0, 3),
    field("M_ATO_OPERATIONAL_CONDITIONS", 17, 2, 511, |p| p.conditions.into(), words::conditions).bits(CHANGE, 4, 12),
    spare(17, 2, CHANGE, 13, 15),
];

/// How many rows follow the content in front of them: those that a packet 64 counts, and a count that is missing is 0.
pub fn rows(packet: &[u8]) -> usize {
    match packet.first() {
        Some(64) => packet.get(COUNT).copied().unwrap_or(0).into(),
        _ => 0,
    }
}

/// The fields of the packet that begins so, by its number and rows; none of another number.
pub fn fields(packet: &[u8]) -> impl Iterator<Item = Field> {
    let content: Option<&[Field]> = match packet.first() {
        Some(61) => Some(&TRACTION_BRAKE),
        Some(62) => Some(&TIMING_POINT),
        Some(64) => Some(&ADHESION_SYSTEM),
        Some(65) => Some(&JP_RECEIVED),
        Some(68) => Some(&ATO_STATUS),
        _ => None,
    };
    let in_front = content.into_iter().flat_map(|content| HEADER.iter().chain(content)).copied();
    in_front.chain((0..rows(packet)).flat_map(|k| CONSTRAINT.iter().map(move |field| field.in_row(k))))
}

/// The bytes of the packet that begins so.
pub fn size_of(packet: &[u8]) -> Option<usize> {
    fields(packet).map(|field| field.at + field.width).max()
}

/// The fields of a whole packet whose values are out of their ranges.
pub fn out_of_range(packet: &[u8]) -> Vec<Field> {
    fields(packet).filter(|field| field.value(packet) > field.highest_in(packet)).collect()
}

/// Document 01: stopping data is 0 unless status 1.
fn has_stopped(packet: &[u8]) -> bool {
    TIMING_POINT.iter().any(|field| field.name == "Q_TP_STATUS" && field.value(packet) == 1)
}

impl Field {
    fn in_row(&self, k: usize) -> Field {
        Field { at: self.at + ROW * k, row: Some(k), ..*self }
    }

    /// Its value in the proved reader's answer for the packet, whose fields are `p`.
    pub fn read(&self, packet: &[u8], p: &PacketFields) -> u32 {
        match self.read {
            Read::Packet(read) => read(p),
            Read::Row(read) => read(&read_constraint(packet, self.row.unwrap_or(0))),
        }
    }

    /// The value that stands in a whole packet's bytes, in range or not.
    pub fn value(&self, packet: &[u8]) -> u32 {
        let bytes = &packet[self.at..self.at + self.width];
        let value = bytes.iter().fold(0, |value, &byte| value << 8 | u32::from(byte));
        self.bits.as_ref().map_or(value, |bits| value >> bits.low & ((1 << (bits.high - bits.low + 1)) - 1))
    }

    /// The highest value that this packet may have here. A row's start may not exceed its end, which stands behind it.
    pub fn highest_in(&self, packet: &[u8]) -> u32 {
        if self.name == START {
            let end = Field { at: self.at + self.width, ..*self };
            return self.highest.min(end.value(packet));
        }
        match &self.bits {
            Some(bits) if bits.set == STOPPING && !has_stopped(packet) => 0,
            _ => self.highest,
        }
    }

    pub fn is_in_row(&self) -> bool {
        self.row.is_some()
    }

    /// The digits of its value in hexadecimal.
    pub fn hex(&self, value: u32) -> String {
        let digits = self.bits.as_ref().map_or(2 * self.width, |bits| (bits.high - bits.low) as usize / 4 + 1);
        format!("{value:0digits$X}")
    }

    /// The part of the packet that it is in; the number is in none.
    pub fn group(&self) -> String {
        match (&self.bits, self.row) {
            (Some(bits), _) => bits.set.into(),
            (_, Some(k)) => format!("Temporary Constraint {}", k + 1),
            _ if self.at == 0 => String::new(),
            _ if self.at < HEADER_END => "ATO Header".into(),
            _ => "Applicable Content".into(),
        }
    }

    /// Its bytes in a recording that has the packet from `start` on, in a column so wide, and its bits.
    pub fn place(&self, start: usize, width: usize) -> String {
        let range = |low: usize, high: usize| if low == high { low.to_string() } else { format!("{low}-{high}") };
        let first = start + self.at;
        let bytes = range(first, first + self.width - 1);
        let bits = self.bits.as_ref().map_or(String::new(), |bits| range(bits.low as usize, bits.high as usize));
        format!("{bytes:<width$} {bits:<6}")
    }
}
