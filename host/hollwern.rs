//! The calls of hollwern.h for a host in Rust, edition 2021 or 2024, with or without std. What each promises stands
//! there; what it asks of the host's memory, the borrows give. For x86-64 Linux only.
//!
//! A host has `#[path = "PREFIX/share/hollwern/hollwern.rs"] mod hollwern;` and is built by
//! `rustc -L PREFIX/lib -l static=hollwern HOST.rs`.
#![allow(dead_code)]

#[cfg(not(all(target_arch = "x86_64", target_os = "linux", target_pointer_width = "64")))]
compile_error!("hollwern.rs: libhollwern.a is for x86-64 Linux only");

/// The version of these declarations; `version` tells that of the archive. They must be equal.
pub const VERSION_MAJOR: u32 = 2;
pub const VERSION_MINOR: u32 = 3;
pub const VERSION_PATCH: u32 = 0;
pub const VERSION: u32 = VERSION_MAJOR * 65_536 + VERSION_MINOR * 256 + VERSION_PATCH;

/// Bytes of an engine.
pub const ENGINE_SIZE: usize = 3_960;
/// No event writes more bytes than this.
pub const BYTES_MOST: usize = 1_673;
/// The most points of a journey.
pub const POINTS_MOST: usize = 64;
/// The most segments of a journey.
pub const SEGMENTS_MOST: usize = 40;
/// The most records of a book.
pub const RECORDS_MOST: usize = 40;
/// The most points of a record.
pub const RECORD_POINTS_MOST: usize = 16;
/// The most zones of a record.
pub const ZONES_MOST: usize = 4;
/// The most bytes of a journey that is not refused.
pub const JOURNEY_BYTES_MOST: usize = 768;
/// The most bytes of a book that is not refused.
pub const BOOK_BYTES_MOST: usize = 8_200;
/// The most rows of kind 15 and of packet 64.
pub const CONSTRAINTS_MOST: usize = 31;
/// Bytes of stack that a load takes.
pub const STACK_LOAD: usize = 30_720;
/// Bytes of stack that any other call takes.
pub const STACK_OTHER: usize = 2_048;

// Event kinds: the first byte of an event.
pub const KIND_POWER_ON: u8 = 1;
pub const KIND_CONFIGURED: u8 = 2;
pub const KIND_POWER_OFF: u8 = 3;
pub const KIND_FAULT: u8 = 4;
pub const KIND_REPORTS: u8 = 5;
pub const KIND_MODE: u8 = 6;
pub const KIND_LEVER: u8 = 7;
pub const KIND_PRESS: u8 = 8;
pub const KIND_POSITION_REPORT: u8 = 9;
pub const KIND_LENGTH: u8 = 10;
pub const KIND_LOAD: u8 = 11;
pub const KIND_SKIP: u8 = 12;
pub const KIND_REVOKE: u8 = 13;
pub const KIND_TRACTION: u8 = 14;
pub const KIND_ADHESION: u8 = 15;

// Kind 5: bits of the reports.
pub const REPORT_ETCS: u8 = 1;
pub const REPORT_NO_EMERGENCY_BRAKE: u8 = 2;
pub const REPORT_NO_INCONSISTENCY: u8 = 4;
pub const REPORT_DATA_VALID: u8 = 8;
pub const REPORT_TRAIN: u8 = 16;

// Kind 6: ETCS mode. Kind 7: lever.
pub const MODE_OTHER: u8 = 0;
pub const MODE_AD: u8 = 1;
pub const LEVER_NEUTRAL: u8 = 0;
pub const LEVER_TRACTION: u8 = 1;
pub const LEVER_BRAKE: u8 = 2;

/// Kind 9 and headers: the offset that means undefined.
pub const OFFSET_UNDEFINED: u32 = 16_777_215;
/// NID_OPERATIONAL where there is no journey or it has none.
pub const NO_OPERATIONAL: u32 = 4_294_967_295;
/// NID_C in the content of packet 65 where the position is not known.
pub const UNKNOWN_NIDC: u16 = 1_024;
/// NID_ATOTS where the journey has none.
pub const NO_ATOTS: u16 = 16_384;

// Bit maps of a record, a journey and a journey's point: the bits that must be 1, together, and those that may be.
pub const RECORD_MAP: u8 = 7;
pub const RECORD_POINTS: u8 = 8;
pub const RECORD_ZONES: u8 = 16;
pub const JOURNEY_MAP: u8 = 26;
pub const JOURNEY_OPERATIONAL: u8 = 1;
pub const JOURNEY_ATOTS: u8 = 4;
pub const POINT_MAP: u8 = 3;
pub const POINT_ALIGNMENT: u8 = 4;
pub const POINT_STOPPING: u8 = 8;
pub const POINT_STOP: u8 = 16;
pub const POINT_SKIPPED: u8 = 32;
pub const POINT_END: u8 = 64;
pub const POINT_HELD: u8 = 128;

// A journey's points and packet 62: what of the train counts at the point.
pub const ALIGNMENT_FRONT: u8 = 0;
pub const ALIGNMENT_MIDDLE: u8 = 1;
pub const ALIGNMENT_REAR: u8 = 2;

// States: no power, configuration, not available, available, ready, engaged, disengaging, failure.
pub const STATE_NP: u8 = 0;
pub const STATE_CO: u8 = 1;
pub const STATE_NA: u8 = 2;
pub const STATE_AV: u8 = 3;
pub const STATE_RE: u8 = 4;
pub const STATE_EG: u8 = 5;
pub const STATE_DE: u8 = 6;
pub const STATE_FA: u8 = 7;

// Bits of the conditions.
pub const CONDITION_ETCS: u16 = 1;
pub const CONDITION_NO_EMERGENCY_BRAKE: u16 = 2;
pub const CONDITION_END_AHEAD: u16 = 4;
pub const CONDITION_LAST_AHEAD: u16 = 8;
pub const CONDITION_PROFILES: u16 = 16;
pub const CONDITION_NO_INCONSISTENCY: u16 = 32;
pub const CONDITION_LOCATED: u16 = 64;
pub const CONDITION_OUTSIDE: u16 = 128;
pub const CONDITION_DATA_VALID: u16 = 256;
pub const ALL_CONDITIONS: u16 = 511;

// Where a point of the journey stands.
pub const STANDING_UNUSED: u8 = 0;
pub const STANDING_TARGETED: u8 = 1;
pub const STANDING_REACHED: u8 = 2;
pub const STANDING_PASSED: u8 = 3;

// Packets: the first byte of each.
pub const PACKET_TRACTION_BRAKE: u8 = 61;
pub const PACKET_TIMING_POINT: u8 = 62;
pub const PACKET_ADHESION_SYSTEM: u8 = 64;
pub const PACKET_JP_RECEIVED: u8 = 65;
pub const PACKET_ATO_STATUS: u8 = 68;

// Status in packet 62.
pub const STATUS_PASSED: u8 = 0;
pub const STATUS_STOPPED: u8 = 1;
pub const STATUS_DEPARTED: u8 = 2;
pub const STATUS_HELD: u8 = 3;
pub const STATUS_HOLD_REVOKED: u8 = 4;
pub const STATUS_SKIPPED: u8 = 5;
pub const STATUS_REVOKED: u8 = 6;
pub const STATUS_TRACKSIDE_SKIP: u8 = 7;
pub const STATUS_TRACKSIDE_REVOKED: u8 = 8;

// Status in packet 65: of a load that is accepted, and of one that 7 to 12 refuse.
pub const JP_ACCEPTED: u8 = 0;
pub const JP_TURNED_DOWN: u8 = 1;

// Why a call was refused; hollwern.h has each in words.
pub const REFUSED_EVENT_FORM: u8 = 1;
pub const REFUSED_EVENT_RANGE: u8 = 2;
pub const REFUSED_NO_POWER: u8 = 3;
pub const REFUSED_POWERED: u8 = 4;
pub const REFUSED_FAULT: u8 = 5;
pub const REFUSED_STATE: u8 = 6;
pub const REFUSED_BOOK_FORM: u8 = 7;
pub const REFUSED_BOOK_TWICE: u8 = 8;
pub const REFUSED_JOURNEY_FORM: u8 = 9;
pub const REFUSED_SEGMENT_TWICE: u8 = 10;
pub const REFUSED_POINTS: u8 = 11;
pub const REFUSED_ORDER: u8 = 12;
pub const REFUSED_BEYOND: u8 = 13;
pub const REFUSED_NO_STOP: u8 = 14;
pub const REFUSED_SKIP: u8 = 15;
pub const REFUSED_OUTPUT: u8 = 16;
pub const REFUSED_PACKET_LENGTH: u8 = 17;
pub const REFUSED_PACKET_NUMBER: u8 = 18;
pub const REFUSED_PACKET_RANGE: u8 = 19;
pub const REFUSED_HELD: u8 = 20;
pub const REFUSED_REVERSED: u8 = 21;

/// An engine. Equal calls on equal engines leave equal ones.
#[repr(C)]
#[derive(Clone, PartialEq, Eq)]
pub struct Engine {
    opaque: [u32; ENGINE_SIZE / 4],
}

/// Where accepted: `number` 0, state, request (whether AD is requested) and bytes written. Where refused: `number`, and
/// bytes written, 29 for a load that is turned down, else 0; state and request are 0.
#[repr(C)]
#[derive(Clone, Copy, PartialEq, Eq, Debug)]
pub struct Answer {
    pub accepted: bool,
    pub number: u8,
    pub state: u8,
    pub request: bool,
    pub bytes: usize,
}

/// What an engine shows. `standings` goes by the order of the journey in force; from `point_count` on it is 0. Of the
/// rows of slippery rail it has the count: `show_constraint` shows each.
#[repr(C)]
#[derive(Clone, Copy, PartialEq, Eq, Debug)]
pub struct Shown {
    pub state: u8,
    pub request: bool,
    pub conditions: u16,
    pub point_count: u8,
    pub standings: [u8; POINTS_MOST],
    pub constraint_count: u8,
}

/// A row of kind 15 and packet 64, a temporary constraint: a stretch of slippery rail. In the bytes the fields stand in
/// another order: NID_C, NID_SP, category, range, start, end. NID_C is 0 to 1,023. Start and end are in cm, counted as
/// SUBSET-126 says (7.3.6.2), each 0 to 16,777,215, start not above end; the unit compares them with each other alone.
/// Category and range are SUBSET-140's Q_Adhesion_Category and Q_Range, both free.
#[repr(C)]
#[derive(Clone, Copy, PartialEq, Eq, Debug, Default)]
pub struct Constraint {
    pub nidsp: u32,
    pub start: u32,
    pub end: u32,
    pub nidc: u16,
    pub category: u8,
    pub range: u8,
}

/// Header of a packet: NID_C, NID_SP, offset in cm, speed in cm/s, NID_OPERATIONAL.
#[repr(C)]
#[derive(Clone, Copy, PartialEq, Eq, Debug, Default)]
pub struct Header {
    pub nidc: u16,
    pub nidsp: u32,
    pub offset: u32,
    pub speed: u16,
    pub operational: u32,
}

/// Where accepted: `number` 0, `kind` the packet's number, `size` its bytes, the header and the fields that the kind
/// has; M_ATO_RTBRq, an INT16, as its unsigned 16 bits; of a packet 64 the count of its rows, which `read_constraint`
/// reads. Where refused: `number`. All else is 0.
#[repr(C)]
#[derive(Clone, Copy, PartialEq, Eq, Debug, Default)]
pub struct PacketFields {
    pub accepted: bool,
    pub number: u8,
    pub kind: u8,
    pub size: usize,
    pub header: Header,
    pub nidc: u16,
    pub nidtp: u32,
    pub q_eoj_reached: u8,
    pub alignment: u8,
    pub status: u8,
    pub stopping: u8,
    pub atots: u16,
    pub date: u16,
    pub seconds: u32,
    pub counter: u8,
    pub state: u8,
    pub conditions: u16,
    pub m_ato_trabrrq: u8,
    pub m_ato_locobrrq: u8,
    pub q_ato_suptb: u8,
    pub m_ato_rtbrq: u16,
    pub constraint_count: u8,
}

unsafe extern "C" {
    fn hollwern_version() -> u32;
    fn hollwern_fresh(e: *mut Engine);
    fn hollwern_step(
        e: *mut Engine,
        event: *const u8,
        event_n: usize,
        journey: *const u8,
        journey_n: usize,
        book: *const u8,
        book_n: usize,
        out: *mut u8,
        out_n: usize,
    ) -> Answer;
    fn hollwern_show(e: *const Engine) -> Shown;
    fn hollwern_show_constraint(e: *const Engine, k: usize) -> Constraint;
    fn hollwern_front_size(bytes: *const u8, n: usize) -> usize;
    fn hollwern_read(bytes: *const u8, n: usize) -> PacketFields;
    fn hollwern_read_constraint(bytes: *const u8, n: usize, k: usize) -> Constraint;
}

/// The version of the archive, to be compared with `VERSION`.
pub fn version() -> u32 {
    unsafe { hollwern_version() }
}

/// Reads one packet, exactly.
pub fn read(bytes: &[u8]) -> PacketFields {
    unsafe { hollwern_read(bytes.as_ptr(), bytes.len()) }
}

/// Reads row `k`, from 0 on, of a packet 64; blank where there is none.
pub fn read_constraint(bytes: &[u8], k: usize) -> Constraint {
    unsafe { hollwern_read_constraint(bytes.as_ptr(), bytes.len(), k) }
}

/// The bytes of the packet in front: all where no packet has that number or fewer are left than it takes.
pub fn front_size(bytes: &[u8]) -> usize {
    unsafe { hollwern_front_size(bytes.as_ptr(), bytes.len()) }
}

/// What a call wrote, packet by packet.
pub fn packets(written: &[u8]) -> impl Iterator<Item = &[u8]> {
    let mut rest = written;
    core::iter::from_fn(move || {
        let (packet, behind) = rest.split_at(front_size(rest));
        rest = behind;
        (!packet.is_empty()).then_some(packet)
    })
}

impl Engine {
    /// All zero, as for a `static`: to be made fresh before any other call.
    pub const fn zeroed() -> Engine {
        Engine { opaque: [0; ENGINE_SIZE / 4] }
    }

    pub fn fresh() -> Engine {
        let mut e = Engine::zeroed();
        e.make_fresh();
        e
    }

    /// Fresh, where it is kept.
    pub fn make_fresh(&mut self) {
        unsafe { hollwern_fresh(self) }
    }

    /// Takes one event. Accepted, its packets stand at the front of `out`; refused, the engine is as it was, and so is
    /// `out`, but for the packet 65 of a load that is turned down.
    pub fn step(&mut self, event: &[u8], journey: &[u8], book: &[u8], out: &mut [u8]) -> Answer {
        let (event, event_n) = (event.as_ptr(), event.len());
        let (journey, journey_n) = (journey.as_ptr(), journey.len());
        let (book, book_n) = (book.as_ptr(), book.len());
        let (out, out_n) = (out.as_mut_ptr(), out.len());
        unsafe { hollwern_step(self, event, event_n, journey, journey_n, book, book_n, out, out_n) }
    }

    pub fn show(&self) -> Shown {
        unsafe { hollwern_show(self) }
    }

    /// Row `k`, from 0 on, of the latest accepted kind 15 since power off; blank where there is none.
    pub fn show_constraint(&self, k: usize) -> Constraint {
        unsafe { hollwern_show_constraint(self, k) }
    }
}
