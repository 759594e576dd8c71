//! Document 01, "Packets": 62, 65 and 68, and document 02's 61 and 64, its status 1 of 65 and
//! statuses 3, 4, 7 and 8 of 62, written and read one at a time.

use crate::adhesion::{in_range, reversed, rows_in, told_bytes, Constraint, ROW};
use crate::numbers::{within, Numbers};

#[derive(Clone, Copy, PartialEq, Eq, Debug)]
pub struct Header {
    pub nidc: u16,
    pub nidsp: u32,
    pub offset: u32,
    pub speed: u16,
    pub operational: u32,
}

/// The content of packet 61, as SUBSET-140 lists it (Table 4): all of it is free. The last is an INT16 there, here its
/// unsigned 16 bits.
#[derive(Clone, Copy, PartialEq, Eq, Debug, Default)]
pub struct TractionBrake {
    pub m_ato_trabrrq: u8,
    pub m_ato_locobrrq: u8,
    pub q_ato_suptb: u8,
    pub m_ato_rtbrq: u16,
}

#[derive(Clone, PartialEq, Eq, Debug)]
pub enum Content {
    /// Packet 62. Q_EOJ_REACHED is 0 once the End of Journey is reached or passed.
    Point { nidc: u16, nidtp: u32, q_eoj_reached: u8, alignment: u8, status: u8, stopping: u8 },
    /// Packet 65. Status 0: the load was accepted; 1: it was turned down.
    Load { nidc: u16, atots: u16, date: u16, seconds: u32, counter: u8, status: u8 },
    /// Packet 68.
    State { state: u8, conditions: u16 },
    /// Packet 61.
    Traction(TractionBrake),
    /// Packet 64.
    Adhesion(Vec<Constraint>),
}

#[derive(Clone, PartialEq, Eq, Debug)]
pub struct Packet {
    pub header: Header,
    pub content: Content,
}

pub const SIZE_61: usize = 22;
pub const SIZE_62: usize = 25;
pub const SIZE_65: usize = 29;
pub const SIZE_68: usize = 19;
/// Bytes of number and header.
const HEAD: usize = 17;

/// The bytes of a packet 64 with so many rows.
pub const fn size_64(rows: usize) -> usize {
    HEAD + 1 + ROW * rows
}

/// The length of the packet in front, as its number tells and, of a 64, its count; one that is missing counts as 0.
pub fn told_size(bytes: &[u8]) -> Option<usize> {
    match bytes.first()? {
        61 => Some(SIZE_61),
        62 => Some(SIZE_62),
        64 => Some(HEAD + told_bytes(bytes.get(HEAD..).unwrap_or(&[]))),
        65 => Some(SIZE_65),
        68 => Some(SIZE_68),
        _ => None,
    }
}

/// The packets that a call wrote one behind the other.
pub fn split_packets(mut bytes: &[u8]) -> Vec<&[u8]> {
    let mut packets = Vec::new();
    while let Some(size) = told_size(bytes) {
        let (packet, rest) = bytes.split_at(size);
        packets.push(packet);
        bytes = rest;
    }
    packets
}

/// Writes numbers one after the other; the memory is known to be long enough.
struct Writer<'a> {
    out: &'a mut [u8],
    at: usize,
}

impl Writer<'_> {
    fn put<const N: usize>(&mut self, bytes: [u8; N]) {
        self.out[self.at..self.at + N].copy_from_slice(&bytes);
        self.at += N;
    }
}

impl Header {
    fn in_range(&self) -> bool {
        self.nidc <= 1023 && self.offset <= 16_777_215
    }

    fn put(&self, to: &mut Writer) {
        to.put(self.nidc.to_be_bytes());
        to.put(self.nidsp.to_be_bytes());
        to.put(self.offset.to_be_bytes());
        to.put(self.speed.to_be_bytes());
        to.put(self.operational.to_be_bytes());
    }

    fn read(from: &mut Numbers) -> Option<Header> {
        Some(Header {
            nidc: from.u16()?,
            nidsp: from.u32()?,
            offset: from.u32()?,
            speed: from.u16()?,
            operational: from.u32()?,
        })
    }
}

impl TractionBrake {
    pub fn bytes(&self) -> [u8; 5] {
        let [high, low] = self.m_ato_rtbrq.to_be_bytes();
        [self.m_ato_trabrrq, self.m_ato_locobrrq, self.q_ato_suptb, high, low]
    }

    pub(crate) fn read(from: &mut Numbers) -> Option<TractionBrake> {
        Some(TractionBrake {
            m_ato_trabrrq: from.u8()?,
            m_ato_locobrrq: from.u8()?,
            q_ato_suptb: from.u8()?,
            m_ato_rtbrq: from.u16()?,
        })
    }
}

impl Content {
    fn number(&self) -> u8 {
        match self {
            Content::Point { .. } => 62,
            Content::Load { .. } => 65,
            Content::State { .. } => 68,
            Content::Traction(_) => 61,
            Content::Adhesion(_) => 64,
        }
    }

    fn in_range(&self) -> bool {
        match *self {
            Content::Point { nidc, q_eoj_reached, alignment, status, stopping, .. } => {
                let stopping_fits = stopping == 0 || (status == 1 && stopping <= 127);
                nidc <= 1023 && q_eoj_reached <= 1 && alignment <= 2 && status <= 8 && stopping_fits
            }
            Content::Load { nidc, atots, date, status, .. } => {
                nidc <= 1024 && atots <= 16_384 && date <= 32_767 && status <= 1
            }
            Content::State { state, conditions } => state <= 7 && conditions <= 0x1FF,
            Content::Traction(_) => true,
            Content::Adhesion(ref rows) => in_range(rows) && !reversed(rows),
        }
    }

    fn put(&self, to: &mut Writer) {
        match *self {
            Content::Point { nidc, nidtp, q_eoj_reached, alignment, status, stopping } => {
                to.put(nidc.to_be_bytes());
                to.put(nidtp.to_be_bytes());
                to.put([q_eoj_reached + 2 * alignment + 8 * status, stopping]);
            }
            Content::Load { nidc, atots, date, seconds, counter, status } => {
                to.put(nidc.to_be_bytes());
                to.put(atots.to_be_bytes());
                to.put(date.to_be_bytes());
                to.put(seconds.to_be_bytes());
                to.put([counter, status]);
            }
            Content::State { state, conditions } => to.put((u16::from(state) + 16 * conditions).to_be_bytes()),
            Content::Traction(traction) => to.put(traction.bytes()),
            Content::Adhesion(ref rows) => {
                to.put([rows.len() as u8]);
                rows.iter().for_each(|row| to.put(row.bytes()));
            }
        }
    }

    /// The content as its bytes say; `None` for spare bits that stand.
    fn read(number: u8, from: &mut Numbers) -> Option<Content> {
        Some(match number {
            61 => Content::Traction(TractionBrake::read(from)?),
            64 => Content::Adhesion(rows_in(&from.0[1..])),
            62 => {
                let (nidc, nidtp) = (from.u16()?, from.u32()?);
                let info = within(from.u8()?, 0, 127)?;
                let (q_eoj_reached, alignment, status) = (info & 1, info >> 1 & 3, info >> 3);
                Content::Point { nidc, nidtp, q_eoj_reached, alignment, status, stopping: from.u8()? }
            }
            65 => Content::Load {
                nidc: from.u16()?,
                atots: from.u16()?,
                date: from.u16()?,
                seconds: from.u32()?,
                counter: from.u8()?,
                status: from.u8()?,
            },
            _ => {
                let word = within(from.u16()?, 0, 0x1FFF)?;
                Content::State { state: (word & 15) as u8, conditions: word >> 4 }
            }
        })
    }
}

impl Packet {
    pub fn size(&self) -> usize {
        match self.content {
            Content::Point { .. } => SIZE_62,
            Content::Load { .. } => SIZE_65,
            Content::State { .. } => SIZE_68,
            Content::Traction(_) => SIZE_61,
            Content::Adhesion(ref rows) => size_64(rows.len()),
        }
    }

    fn in_range(&self) -> bool {
        self.header.in_range() && self.content.in_range()
    }

    /// Writes a packet whose values are in range to memory that is long enough.
    pub fn put(&self, out: &mut [u8]) -> usize {
        let mut to = Writer { out, at: 0 };
        to.put([self.content.number()]);
        self.header.put(&mut to);
        self.content.put(&mut to);
        to.at
    }

    /// The writer of one packet: 19, then 16.
    pub fn write(&self, out: &mut [u8]) -> Result<usize, u8> {
        if !self.in_range() {
            return Err(19);
        }
        if out.len() < self.size() {
            return Err(16);
        }
        Ok(self.put(out))
    }

    /// The reader takes one packet exactly: 17, 18, 19.
    pub fn read(bytes: &[u8]) -> Result<Packet, u8> {
        let (&number, fields) = bytes.split_first().ok_or(17)?;
        let size = told_size(bytes).ok_or(18)?;
        if bytes.len() != size {
            return Err(17);
        }
        let mut from = Numbers(fields);
        let header = Header::read(&mut from).ok_or(19)?;
        let content = Content::read(number, &mut from).ok_or(19)?;
        let packet = Packet { header, content };
        packet.in_range().then_some(packet).ok_or(19)
    }
}
