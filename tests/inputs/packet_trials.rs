//! Trials of the reader and the writer of one packet: the input of `crates/packet_trials`, and the lines that the model
//! answers. Each trial says which number it expects; `None` is accepted.

use crate::adhesion_trials::{read64, written64};
use model::adhesion::Constraint;
use model::packets::{Content, Header, Packet, TractionBrake, SIZE_61, SIZE_62, SIZE_65, SIZE_68};
use model::words::hex;

enum Tried {
    Read(Vec<u8>),
    /// At the front of the memory.
    Write(Packet),
    /// From a position on.
    Append(Packet, usize),
}

pub struct PacketTrial {
    pub name: &'static str,
    tried: Tried,
    memory: Vec<u8>,
    pub expected: Option<u8>,
}

impl Tried {
    fn code(&self) -> u8 {
        match self {
            Tried::Read(_) => 0,
            Tried::Write(_) => 1,
            Tried::Append(..) => 2,
        }
    }

    fn position(&self) -> usize {
        match *self {
            Tried::Append(_, at) => at,
            _ => 0,
        }
    }

    fn packet(&self) -> Vec<u8> {
        match self {
            Tried::Read(bytes) => bytes.clone(),
            Tried::Write(packet) | Tried::Append(packet, _) => values_in_bytes(packet),
        }
    }
}

/// Bytes that `crates/packet_trials` has for a packet, and as many for memory.
const ROOM: usize = 600;

/// Number and values, each in bytes of its own, so that all may be out of range; a 64 has as many rows as stand there.
fn values_in_bytes(packet: &Packet) -> Vec<u8> {
    let Header { nidc, nidsp, offset, speed, operational } = packet.header;
    let header = [
        &nidc.to_be_bytes()[..],
        &nidsp.to_be_bytes(),
        &offset.to_be_bytes(),
        &speed.to_be_bytes(),
        &operational.to_be_bytes(),
    ]
    .concat();
    let (number, content) = match packet.content {
        Content::Point { nidc, nidtp, q_eoj_reached, alignment, status, stopping } => {
            let last = [q_eoj_reached, alignment, status, stopping];
            (62, [&nidc.to_be_bytes()[..], &nidtp.to_be_bytes(), &last].concat())
        }
        Content::Load { nidc, atots, date, seconds, counter, status } => {
            let numbers = [nidc, atots, date].map(u16::to_be_bytes).concat();
            (65, [&numbers[..], &seconds.to_be_bytes(), &[counter, status]].concat())
        }
        Content::State { state, conditions } => (68, [&[state][..], &conditions.to_be_bytes()].concat()),
        Content::Traction(content) => (61, content.bytes().to_vec()),
        Content::Adhesion(ref rows) => {
            let count = [rows.len() as u8].into_iter();
            (64, count.chain(rows.iter().flat_map(Constraint::bytes)).collect())
        }
    };
    [&[number][..], &header, &content].concat()
}

/// A packet's number and values in decimal, header first.
fn values_in_words(packet: &Packet) -> String {
    let Header { nidc, nidsp, offset, speed, operational } = packet.header;
    let header = format!("{nidc} {nidsp} {offset} {speed} {operational}");
    match packet.content {
        Content::Point { nidc, nidtp, q_eoj_reached, alignment, status, stopping } => {
            format!("62 {header} {nidc} {nidtp} {q_eoj_reached} {alignment} {status} {stopping}")
        }
        Content::Load { nidc, atots, date, seconds, counter, status } => {
            format!("65 {header} {nidc} {atots} {date} {seconds} {counter} {status}")
        }
        Content::State { state, conditions } => format!("68 {header} {state} {conditions}"),
        Content::Traction(content) => {
            let TractionBrake { m_ato_trabrrq, m_ato_locobrrq, q_ato_suptb, m_ato_rtbrq } = content;
            format!("61 {header} {m_ato_trabrrq} {m_ato_locobrrq} {q_ato_suptb} {m_ato_rtbrq}")
        }
        Content::Adhesion(ref rows) => {
            let words = |&Constraint { nidc, nidsp, category, range, start, end }: &Constraint| {
                format!(" {nidc} {nidsp} {category} {range} {start} {end}")
            };
            format!("64 {header} {}{}", rows.len(), rows.iter().map(words).collect::<String>())
        }
    }
}

impl PacketTrial {
    /// What is tried (1 byte), the position (2), the sizes of name (1), packet (2) and memory (2); then these three.
    pub fn write(&self, to: &mut Vec<u8>) {
        let packet = self.tried.packet();
        let two_bytes = |size: usize| {
            assert!(size <= ROOM, "{}: {size} bytes", self.name);
            (size as u16).to_be_bytes()
        };
        to.push(self.tried.code());
        to.extend(two_bytes(self.tried.position()));
        to.push(u8::try_from(self.name.len()).expect("a size in one byte"));
        to.extend([packet.len(), self.memory.len()].map(two_bytes).concat());
        to.extend([self.name.as_bytes(), &packet, &self.memory].concat());
    }

    /// The model's line, and the number if it refuses.
    pub fn answer(&self) -> (String, Option<u8>) {
        let mut memory = self.memory.clone();
        let answer = match &self.tried {
            Tried::Read(bytes) => Packet::read(bytes).map(|packet| values_in_words(&packet)),
            Tried::Write(packet) => packet.write(&mut memory).map(|count| format!("W {count}")),
            Tried::Append(packet, at) => packet.write(&mut memory[*at..]).map(|count| format!("W {count}")),
        };
        let found = answer.as_ref().err().copied();
        let words = answer.unwrap_or_else(|number| format!("R {number}"));
        let name = self.name;
        let line = match self.tried {
            Tried::Read(_) => format!("{name}: {words}\n"),
            _ => format!("{name}: {words} {}\n", hex(&memory)),
        };
        (line, found)
    }
}

// ---- packets

pub(crate) const NO_HEADER: Header = Header { nidc: 0, nidsp: 0, offset: 0, speed: 0, operational: 0 };

/// Zero but for the fields named.
fn headed(nidc: u16, offset: u32) -> Packet {
    let header = Header { nidc, offset, ..NO_HEADER };
    Packet { header, content: Content::State { state: 0, conditions: 0 } }
}

fn state(state: u8, conditions: u16) -> Packet {
    Packet { header: NO_HEADER, content: Content::State { state, conditions } }
}

/// The bytes are Q_EOJ_REACHED, alignment, status and stopping data.
fn timing_point(header: Header, nidc: u16, nidtp: u32, bytes: [u8; 4]) -> Packet {
    let [q_eoj_reached, alignment, status, stopping] = bytes;
    Packet { header, content: Content::Point { nidc, nidtp, q_eoj_reached, alignment, status, stopping } }
}

fn point(nidc: u16, bytes: [u8; 4]) -> Packet {
    timing_point(NO_HEADER, nidc, 0, bytes)
}

/// Seconds and counter at their ends.
fn received(nidc: u16, atots: u16, date: u16, status: u8) -> Packet {
    let content = Content::Load { nidc, atots, date, seconds: u32::MAX, counter: 255, status };
    Packet { header: NO_HEADER, content }
}

/// Of a load that is turned down with the train known at 20,000: no stamp, NID_ATOTS 16,384, status 1.
fn turned_down() -> Packet {
    let header = Header { nidc: 17, nidsp: 500, offset: 20_000, speed: 0, operational: 0x0012_3456 };
    let content = Content::Load { nidc: 17, atots: 16_384, date: 0, seconds: 0, counter: 0, status: 1 };
    Packet { header, content }
}

/// M_ATO_TraBrRq, M_ATO_LocoBrRq, Q_ATO_SupTB and M_ATO_RTBRq.
fn traction(header: Header, bytes: [u8; 3], m_ato_rtbrq: u16) -> Packet {
    let [m_ato_trabrrq, m_ato_locobrrq, q_ato_suptb] = bytes;
    let content = TractionBrake { m_ato_trabrrq, m_ato_locobrrq, q_ato_suptb, m_ato_rtbrq };
    Packet { header, content: Content::Traction(content) }
}

/// Each field of 61 another: 0102030405.
fn requested() -> Packet {
    let header = Header { nidc: 17, nidsp: 500, offset: 39_900, speed: 0, operational: u32::MAX };
    traction(header, [1, 2, 3], 0x0405)
}

/// Each field of 61 at its end.
fn most_requested() -> Packet {
    let header = Header { nidc: 1023, nidsp: u32::MAX, offset: 16_777_215, speed: 65_535, operational: u32::MAX };
    traction(header, [255, 255, 255], 65_535)
}

/// "Input 00 01 01 prints .. 4400000000000000FFFFFF0000FFFFFFFF0801."
pub(crate) fn power_on() -> Packet {
    let header = Header { offset: 16_777_215, operational: u32::MAX, ..NO_HEADER };
    Packet { header, content: Content::State { state: 1, conditions: 128 } }
}

/// "P7 the stop at 39,900 writes 3E 0011 000001F4 00009BDC 0000 FFFFFFFF 0011 00001B59 09 00."
fn stopped() -> Packet {
    told_of_the_stop([1, 0, 1, 0])
}

/// Of P7's stop: the same where it is held, whose info 1 + 8 × 3 is 19 hexadecimal.
fn held() -> Packet {
    told_of_the_stop([1, 0, 3, 0])
}

/// Its hold ended, aligned to the rear, the End of Journey passed: info 2 × 2 + 8 × 4 is 24 hexadecimal.
fn hold_revoked() -> Packet {
    told_of_the_stop([0, 2, 4, 0])
}

/// It gained the trackside skip, aligned to the middle, the End of Journey ahead: info 1 + 2 × 1 + 8 × 7 is 3B
/// hexadecimal.
fn trackside_skip() -> Packet {
    told_of_the_stop([1, 1, 7, 0])
}

/// It lost it, the End of Journey passed: info 8 × 8 is 40 hexadecimal.
fn trackside_revoked() -> Packet {
    told_of_the_stop([0, 0, 8, 0])
}

fn told_of_the_stop(bytes: [u8; 4]) -> Packet {
    let header = Header { nidc: 17, nidsp: 500, offset: 39_900, speed: 0, operational: u32::MAX };
    timing_point(header, 17, 7001, bytes)
}

/// Each field of 62 at the end of its range: info 1 + 2 × 2 + 8 × 8 is 45 hexadecimal.
fn greatest() -> Packet {
    let header = Header { nidc: 1023, nidsp: u32::MAX, offset: 16_777_215, speed: 65_535, operational: 0 };
    timing_point(header, 1023, u32::MAX, [1, 2, 8, 0])
}

// ---- trials of the writer

pub(crate) fn free(count: usize) -> Vec<u8> {
    vec![0xAA; count]
}

pub(crate) fn write(name: &'static str, packet: Packet, count: usize, expected: Option<u8>) -> PacketTrial {
    PacketTrial { name, tried: Tried::Write(packet), memory: free(count), expected }
}

/// The bytes at the front, and the AA behind them kept.
fn written() -> Vec<PacketTrial> {
    let whole = |name, packet| write(name, packet, 32, None);
    vec![
        whole("power on", power_on()),
        whole("P7", stopped()),
        whole("62 at its ends", greatest()),
        whole("62 held", held()),
        whole("62 hold revoked", hold_revoked()),
        whole("62 skipped by trackside", trackside_skip()),
        whole("62 trackside skip revoked", trackside_revoked()),
        // status 1 is 08, 127 is 7F
        whole("62 stopping data", point(0, [0, 0, 1, 127])),
        // 1,024 is 0400, 16,384 is 4000, 32,767 is 7FFF
        whole("65 at its ends", received(1024, 16_384, 32_767, 0)),
        whole("65 turned down", turned_down()),
        // the stamp is free with status 1 too
        whole("65 status 1 at its ends", received(1024, 16_384, 32_767, 1)),
        // 7 + 16 × 511 is 1FF7
        whole("68 at its ends", state(7, 511)),
        whole("61", requested()),
        whole("61 at its ends", most_requested()),
    ]
}

/// The second packet behind the first in so much memory.
pub(crate) fn append(name: &'static str, packets: [Packet; 2], count: usize, expected: Option<u8>) -> PacketTrial {
    let [first, second] = packets;
    let mut memory = free(count);
    let at = first.put(&mut memory);
    PacketTrial { name, tried: Tried::Append(second, at), memory, expected }
}

/// P7 behind the power on packet: 19 and 25 of 45 bytes, then one that stays; in 43 bytes the second packet is refused.
fn appended() -> Vec<PacketTrial> {
    let append = |name, count, expected| append(name, [power_on(), stopped()], count, expected);
    vec![append("P7 behind power on", 45, None), append("P7 with one byte less than it needs", 43, Some(16))]
}

/// Every state with every set of conditions: 4,096 words.
fn every_word() -> Vec<PacketTrial> {
    const NAMES: [&str; 8] = ["NP", "CO", "NA", "AV", "RE", "EG", "DE", "FA"];
    let words = |(name, code)| (0..512).map(move |conditions| write(name, state(code, conditions), SIZE_68, None));
    NAMES.into_iter().zip(0..).flat_map(words).collect()
}

/// 16: one byte less than the packet has, and far less; not with just enough.
fn no_room() -> Vec<PacketTrial> {
    vec![
        write("68 into 18 bytes", power_on(), SIZE_68 - 1, Some(16)),
        write("62 into 4 bytes", stopped(), 4, Some(16)),
        write("61 into 21 bytes", requested(), SIZE_61 - 1, Some(16)),
        write("61 into 22 bytes", requested(), SIZE_61, None),
    ]
}

/// 19, though the memory is too short as well: each field one above its range, and stopping data with another status
/// than 1.
fn out_of_range() -> Vec<PacketTrial> {
    let beyond = |name, packet| write(name, packet, 4, Some(19));
    vec![
        beyond("62 NID_C 1024", point(1024, [0, 0, 0, 0])),
        beyond("62 Q_EOJ_REACHED 2", point(0, [2, 0, 0, 0])),
        beyond("62 alignment 3", point(0, [0, 3, 0, 0])),
        beyond("62 status 9", point(0, [0, 0, 9, 0])),
        beyond("62 stopping data 128", point(0, [0, 0, 1, 128])),
        beyond("62 stopping data 1, status 0", point(0, [0, 0, 0, 1])),
        beyond("62 stopping data 1, status 3", point(0, [0, 0, 3, 1])),
        beyond("62 stopping data 1, status 4", point(0, [0, 0, 4, 1])),
        beyond("62 stopping data 1, status 7", point(0, [0, 0, 7, 1])),
        beyond("62 stopping data 1, status 8", point(0, [0, 0, 8, 1])),
        beyond("65 NID_C 1025", received(1025, 0, 0, 0)),
        beyond("65 NID_ATOTS 16385", received(0, 16_385, 0, 0)),
        beyond("65 date 32768", received(0, 0, 32_768, 0)),
        beyond("65 status 2", received(0, 0, 0, 2)),
        beyond("header NID_C 1024", headed(1024, 0)),
        beyond("offset 16777216", headed(0, 16_777_216)),
        beyond("68 state 8", state(8, 0)),
        beyond("68 conditions 512", state(0, 512)),
        beyond("61 header NID_C 1024", traction(Header { nidc: 1024, ..NO_HEADER }, [0; 3], 0)),
        beyond("61 offset 16777216", traction(Header { offset: 16_777_216, ..NO_HEADER }, [0; 3], 0)),
    ]
}

// ---- trials of the reader

pub(crate) fn read(name: &'static str, bytes: Vec<u8>, expected: Option<u8>) -> PacketTrial {
    PacketTrial { name, tried: Tried::Read(bytes), memory: Vec::new(), expected }
}

/// The packet's bytes, its values in range or not.
pub(crate) fn read_packet(name: &'static str, packet: Packet, expected: Option<u8>) -> PacketTrial {
    let mut bytes = vec![0; packet.size()];
    packet.put(&mut bytes);
    read(name, bytes, expected)
}

/// The packets of `written`, and their fields.
fn read_back() -> Vec<PacketTrial> {
    let back = |name, packet| read_packet(name, packet, None);
    vec![
        back("power on", power_on()),
        back("P7", stopped()),
        back("62 at its ends", greatest()),
        back("62 held", held()),
        back("62 hold revoked", hold_revoked()),
        back("62 skipped by trackside", trackside_skip()),
        back("62 trackside skip revoked", trackside_revoked()),
        back("65 at its ends", received(1024, 16_384, 32_767, 0)),
        back("65 turned down", turned_down()),
        back("65 status 1 at its ends", received(1024, 16_384, 32_767, 1)),
        back("68 at its ends", state(7, 511)),
        back("61", requested()),
        back("61 at its ends", most_requested()),
    ]
}

/// So many bytes, zero but for the number.
pub(crate) fn zeros(number: u8, count: usize) -> Vec<u8> {
    let mut bytes = vec![0; count];
    bytes.iter_mut().take(1).for_each(|first| *first = number);
    bytes
}

/// 17: empty, or for 61, 62, 65, 68 not 22, 25, 29, 19 bytes, for 64 not 18 and 16 a row, whose trials stand in
/// `adhesion_trials`. 18: another number, whatever the length.
fn lengths_and_numbers() -> Vec<PacketTrial> {
    let sized = |name, number, count, expected| read(name, zeros(number, count), Some(expected));
    vec![
        sized("no bytes", 62, 0, 17),
        sized("62 of 24 bytes", 62, 24, 17),
        sized("62 of 26 bytes", 62, 26, 17),
        sized("65 of 28 bytes", 65, 28, 17),
        sized("65 of 30 bytes", 65, 30, 17),
        sized("68 of 18 bytes", 68, 18, 17),
        sized("68 of 20 bytes", 68, 20, 17),
        sized("61 alone", 61, 1, 17),
        sized("61 of 21 bytes", 61, 21, 17),
        sized("61 of 23 bytes", 61, 23, 17),
        sized("0 alone", 0, 1, 18),
        sized("60 of 22 bytes", 60, 22, 18),
        sized("63 of 25 bytes", 63, 25, 18),
        sized("67 of 19 bytes", 67, 19, 18),
        sized("255 of 29 bytes", 255, 29, 18),
    ]
}

/// A packet's bytes, with one byte altered.
pub(crate) fn altered(name: &'static str, base: &[u8], at: usize, byte: u8, expected: Option<u8>) -> PacketTrial {
    let mut bytes = base.to_vec();
    bytes[at] = byte;
    read(name, bytes, expected)
}

/// The content is NID_C at 17, NID_TP at 19, info at 23, stopping data at 24; an info with status 1 is 08.
fn alter62() -> Vec<PacketTrial> {
    let status0 = zeros(62, SIZE_62);
    let mut status1 = status0.clone();
    status1[23] = 8;
    vec![
        altered("62 NID_C 1024", &status1, 17, 0x04, Some(19)),
        altered("62 alignment 3", &status1, 23, 0x0E, Some(19)),
        altered("62 status 8", &status1, 23, 0x40, None),
        altered("62 status 9", &status1, 23, 0x48, Some(19)),
        altered("62 spare bit 7", &status1, 23, 0x88, Some(19)),
        altered("62 stopping data 127", &status1, 24, 0x7F, None),
        altered("62 spare bit of stopping data", &status1, 24, 0x80, Some(19)),
        altered("62 stopping data 1, status 0", &status0, 24, 0x01, Some(19)),
    ]
}

/// NID_C 1,024 and NID_ATOTS 16,384, zero otherwise. The content is NID_C at 17, NID_ATOTS at 19, date at 21, seconds at
/// 23, counter at 27, status at 28.
fn alter65() -> Vec<PacketTrial> {
    let mut ends = zeros(65, SIZE_65);
    (ends[17], ends[19]) = (4, 64);
    vec![
        altered("65 NID_C 1025", &ends, 18, 0x01, Some(19)),
        altered("65 NID_ATOTS 16385", &ends, 20, 0x01, Some(19)),
        altered("65 date 32768", &ends, 21, 0x80, Some(19)),
        altered("65 status 1", &ends, 28, 0x01, None),
        altered("65 status 2", &ends, 28, 0x02, Some(19)),
        altered("65 status 129", &ends, 28, 0x81, Some(19)),
    ]
}

/// The header is NID_C at 1, NID_SP at 3, offset at 7, speed at 11, NID_OPERATIONAL at 13; the content is the word at 17.
fn alter68() -> Vec<PacketTrial> {
    let zero = zeros(68, SIZE_68);
    vec![
        altered("header NID_C 1024", &zero, 1, 0x04, Some(19)),
        altered("offset 16777216", &zero, 7, 0x01, Some(19)),
        altered("68 state 8", &zero, 18, 0x08, Some(19)),
        altered("68 spare bit 13", &zero, 17, 0x20, Some(19)),
        altered("68 spare bit 14", &zero, 17, 0x40, Some(19)),
        altered("68 spare bit 15", &zero, 17, 0x80, Some(19)),
    ]
}

/// The content, from 17 on, is free.
fn alter61() -> Vec<PacketTrial> {
    let zero = zeros(61, SIZE_61);
    vec![
        altered("61 header NID_C 1024", &zero, 1, 0x04, Some(19)),
        altered("61 offset 16777216", &zero, 7, 0x01, Some(19)),
        altered("61 M_ATO_TraBrRq 255", &zero, 17, 0xFF, None),
        altered("61 M_ATO_LocoBrRq 255", &zero, 18, 0xFF, None),
        altered("61 Q_ATO_SupTB 255", &zero, 19, 0xFF, None),
        altered("61 M_ATO_RTBRq 65280", &zero, 20, 0xFF, None),
        altered("61 M_ATO_RTBRq 255", &zero, 21, 0xFF, None),
    ]
}

pub fn packet_trials() -> Vec<PacketTrial> {
    let writer = [written(), appended(), no_room(), out_of_range(), written64()];
    let reader = [read_back(), lengths_and_numbers(), alter62(), alter65(), alter68(), alter61(), read64()];
    writer.into_iter().chain(reader).flatten().chain(every_word()).collect()
}
