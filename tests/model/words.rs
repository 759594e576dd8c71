//! Events, profiles and packets in words.

use crate::adhesion::{rows_of, Constraint};
use crate::calls::Call;
use crate::events::{read_event, Event, UNDEFINED};
use crate::packets::{Content, Header, Packet, TractionBrake};
use crate::values::{read_book, Journey, JourneyPoint, Record};

pub const STATES: [&str; 8] = ["NP", "CO", "NA", "AV", "RE", "EG", "DE", "FA"];
/// The states in words.
pub const STATE_NAMES: [&str; 8] =
    ["no power", "configuration", "not available", "available", "ready", "engaged", "disengaging", "failure"];
/// What the driver may do in each state: in a word or two, and at length.
pub const DRIVER: [[&str; 2]; 8] = [
    ["drive by hand", "drive by hand; the unit takes no part"],
    ["drive by hand", "drive by hand; the unit waits to be configured"],
    ["drive by hand", "drive by hand; the unit waits for the conditions that are lacking"],
    ["drive by hand", "drive by hand; for ready the unit waits for train conditions, lever neutral and mode other"],
    ["press engage", "drive by hand, or press engage"],
    ["hands off", "leave driving to the ATO, or take over by the lever at brake or by leaving AD"],
    ["take over: brake", "take over by the lever at brake or by leaving AD"],
    ["drive by hand", "drive by hand; only power off is left to the unit"],
];
pub const MODES: [&str; 2] = ["other", "AD"];
pub const LEVERS: [&str; 3] = ["neutral", "traction", "brake"];
pub const ALIGNMENTS: [&str; 3] = ["front", "middle", "rear"];
/// Status of a timing point in packet 62.
pub const STATUSES: [&str; 9] = [
    "passed",
    "stopped",
    "departed",
    "held",
    "hold revoked",
    "skipped by the driver",
    "driver skip revoked",
    "skipped by trackside",
    "trackside skip revoked",
];
/// Status of a load in packet 65.
pub const LOADS: [&str; 2] = ["journey taken", "profiles turned down"];
pub const CONDITIONS: [&str; 9] = [
    "ETCS conditions",
    "no emergency brake",
    "End of Journey not reached",
    "last point not passed",
    "profiles to the target",
    "no inconsistency",
    "located in the journey",
    "outside zones",
    "data valid",
];

pub fn hex(bytes: &[u8]) -> String {
    bytes.iter().map(|byte| format!("{byte:02X}")).collect()
}

/// The place of checking, of the table of numbers, so far as event calls answer it.
pub fn place_of_number(number: u8) -> &'static str {
    match number {
        1 | 2 | 21 => "event",
        3..=5 => "power",
        6 | 20 => "state",
        7 | 8 => "book",
        9..=12 => "journey",
        13 => "position",
        14 | 15 => "skip",
        _ => "output",
    }
}

/// A number with its thousands apart.
pub fn grouped(number: u64) -> String {
    let digits = number.to_string();
    let mut text = String::new();
    for (k, digit) in digits.chars().enumerate() {
        if k > 0 && (digits.len() - k) % 3 == 0 {
            text.push(',');
        }
        text.push(digit);
    }
    text
}

/// The bytes that hexadecimal digits stand for; `None` for other text.
pub fn bytes_of_hex(text: &str) -> Option<Vec<u8>> {
    let digits: Vec<u32> = text.chars().map(|c| c.to_digit(16)).collect::<Option<_>>()?;
    let pairs = digits.chunks_exact(2);
    pairs.remainder().is_empty().then(|| pairs.map(|pair| (16 * pair[0] + pair[1]) as u8).collect())
}

fn offset_in_words(offset: u32) -> String {
    if offset == UNDEFINED {
        "undefined".into()
    } else {
        offset.to_string()
    }
}

fn event_in_words(event: Event) -> String {
    match event {
        Event::PowerOn => "power on".into(),
        Event::Configured => "configured".into(),
        Event::PowerOff => "power off".into(),
        Event::Fault => "fault".into(),
        Event::Reports(reports) => format!("reports {reports}"),
        Event::Mode(mode) => format!("mode {}", MODES[usize::from(mode)]),
        Event::Lever(lever) => format!("lever {}", LEVERS[usize::from(lever)]),
        Event::Press => "engage press".into(),
        Event::Report(position, speed) => {
            let offset = offset_in_words(position.offset);
            format!("position {}/{} {offset} speed {speed}", position.nidc, position.nidsp)
        }
        Event::Length(length) => format!("train length {length}"),
        Event::Load => "load".into(),
        Event::Skip(nidtp) => format!("driver skip {nidtp}"),
        Event::Revoke(nidtp) => format!("driver revokes skip {nidtp}"),
        Event::Traction(request, content) => format!("traction {request}: {}", traction_in_words(&content)),
        Event::Adhesion => "slippery rail".into(),
    }
}

/// A line a row.
fn rows_in_words(rows: &[Constraint]) -> impl Iterator<Item = String> + '_ {
    rows.iter().zip(1..).map(|(row, k)| {
        let Constraint { nidc, nidsp, category, range, start, end } = row;
        format!("row {k}: NID_C {nidc}, NID_SP {nidsp}, category {category}, range {range}, start {start}, end {end}")
    })
}

/// The last is an INT16.
fn traction_in_words(content: &TractionBrake) -> String {
    let TractionBrake { m_ato_trabrrq, m_ato_locobrrq, q_ato_suptb, m_ato_rtbrq } = *content;
    format!(
        "M_ATO_TraBrRq {m_ato_trabrrq}, M_ATO_LocoBrRq {m_ato_locobrrq}, Q_ATO_SupTB {q_ato_suptb}, M_ATO_RTBRq {}",
        m_ato_rtbrq as i16
    )
}

fn point_in_words(point: &JourneyPoint) -> String {
    let mut words = format!("{} on segment {}", point.nidtp, point.segment);
    let mut add = |present: bool, text: String| {
        if present {
            words += &text;
        }
    };
    add(point.alignment.is_some(), format!(" alignment {}", point.alignment.unwrap_or(0)));
    add(point.stopping.is_some(), format!(" stopping data {}", point.stopping.unwrap_or(0)));
    add(point.stop, " stop".into());
    add(point.skipped, " skipped".into());
    add(point.held, " held".into());
    add(point.end, " End of Journey".into());
    words
}

fn record_in_words(record: &Record) -> String {
    let mut words = format!("{}/{} length {}", record.nidc, record.nidsp, record.length);
    for point in &record.points {
        words += &format!(", {} at {} R {}", point.nidtp, point.place, point.reach);
    }
    for (start, end) in &record.zones {
        words += &format!(", zone {start} to {end}");
    }
    words
}

/// A call in lines: the event, its rows of slippery rail, and for a load the journey and the book, read if their layout
/// is right.
pub fn call_in_words(call: &Call) -> Vec<String> {
    let event = read_event(&call.event);
    let mut lines = vec![event.map_or(format!("bytes {}", hex(&call.event)), event_in_words)];
    if event == Ok(Event::Adhesion) {
        lines.extend(rows_in_words(&rows_of(&call.event)).map(|row| format!("  {row}")));
    }
    if !call.lends_profiles() {
        return lines;
    }
    match Journey::read(&call.journey) {
        None => lines.push(format!("  journey {}", hex(&call.journey))),
        Some(journey) => {
            lines.push(format!("  journey {:?} segments {:?}", journey.operational, journey.segments));
            lines.extend(journey.points.iter().map(|point| format!("    point {}", point_in_words(point))));
        }
    }
    match read_book(&call.book) {
        None => lines.push(format!("  book {}", hex(&call.book))),
        Some(book) => lines.extend(book.iter().map(|record| format!("  record {}", record_in_words(record)))),
    }
    lines
}

fn header_in_words(header: &Header) -> String {
    let offset = offset_in_words(header.offset);
    let place = format!("NID_C {} NID_SP {} offset {offset}", header.nidc, header.nidsp);
    format!("{place} speed {} NID_OPERATIONAL {:08X}", header.speed, header.operational)
}

fn lacking(conditions: u16) -> String {
    let lacks = |k: &usize| conditions >> k & 1 == 0;
    let names: Vec<String> = (0..9).filter(lacks).map(|k| format!("{k} {}", CONDITIONS[k])).collect();
    if names.is_empty() {
        "all nine conditions".into()
    } else {
        format!("lacking: {}", names.join(", "))
    }
}

/// A packet's content in words; `name` gives the name of a timing point.
fn content_in_words(content: &Content, name: &dyn Fn(u32) -> String) -> String {
    match *content {
        Content::Point { nidc, nidtp, q_eoj_reached, alignment, status, stopping } => {
            let end = if q_eoj_reached == 0 { "reached or passed" } else { "ahead" };
            let what = format!("{} {}", name(nidtp), STATUSES[usize::from(status)]);
            let alignment = ALIGNMENTS[usize::from(alignment)];
            format!(
                "62 {what}: NID_C {nidc}, NID_TP {nidtp}, Q_EOJ_REACHED {q_eoj_reached} (End of Journey {end}), \
                 alignment {alignment}, stopping data {stopping}"
            )
        }
        Content::Load { nidc, atots, date, seconds, counter, status } => format!(
            "65 {}: NID_C {nidc}, NID_ATOTS {atots}, date {date}, seconds {seconds}, counter {counter}, \
             status {status}",
            LOADS[usize::from(status)]
        ),
        Content::State { state, conditions } => {
            format!("68 state {}: {}", STATES[usize::from(state)], lacking(conditions))
        }
        Content::Traction(content) => format!("61 traction and brakes requested: {}", traction_in_words(&content)),
        Content::Adhesion(ref rows) => match rows.len() {
            1 => "64 slippery rail: 1 row".into(),
            count => format!("64 slippery rail: {count} rows"),
        },
    }
}

/// A packet given by its bytes, in words: its content, rows in lines of their own, and, in brackets, its header.
pub fn packet_lines(bytes: &[u8], name: &dyn Fn(u32) -> String) -> Vec<String> {
    match Packet::read(bytes) {
        Err(number) => vec![format!("{} refused by {number}", hex(bytes))],
        Ok(Packet { header, content }) => {
            let mut lines = vec![content_in_words(&content, name)];
            if let Content::Adhesion(rows) = &content {
                lines.extend(rows_in_words(rows));
            }
            lines.push(format!("[{}]", header_in_words(&header)));
            lines
        }
    }
}

/// The same in one line.
pub fn packet_in_words(bytes: &[u8], name: &dyn Fn(u32) -> String) -> String {
    packet_lines(bytes, name).join(" ")
}
