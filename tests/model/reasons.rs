//! Why a call is refused, in words: for each number but 16 which of its row's reasons it was. The layouts are read once
//! more, field by field, so that the field can be named; `checked` compares the number with the one answered.

use crate::calls::Call;
use crate::engine::{Engine, Standing, CO, FA, NP, RE};
use crate::events::{Event, Position, ADHESION, LOAD, POSITION_REPORT, REVOKE, SKIP, TRACTION, UNDEFINED};
use crate::numbers::Numbers;
use crate::packets::TractionBrake;
use crate::values::{read_book, Journey, Record};
use crate::words::{grouped, STATES};

/// A number and its reason.
pub type Reason = (u8, String);

/// What records, segments and points are called, by their index: those of the load, for other events those in force.
/// By themselves they are called by their place, from 1.
pub trait Names {
    fn record(&self, k: usize) -> String {
        format!("record {}", k + 1)
    }

    fn segment(&self, k: usize) -> String {
        format!("segment {}", k + 1)
    }

    fn point(&self, k: usize) -> String {
        format!("point {}", k + 1)
    }
}

pub struct ByPlace;

impl Names for ByPlace {}

/// The number that refuses the call and why, if one does, with memory enough.
pub fn reason(engine: &Engine, call: &Call, names: &dyn Names) -> Option<Reason> {
    let refused = match read_event(&call.event) {
        Err(refused) => Err(refused),
        Ok(event) => admit(engine.now.state, event).and_then(|()| match event {
            Event::Press => press(engine, names),
            Event::Load => load(&call.journey, &call.book, names),
            Event::Report(position, _) => position_report(engine, position, names),
            Event::Skip(nidtp) => skip(engine, nidtp, true, names),
            Event::Revoke(nidtp) => skip(engine, nidtp, false, names),
            _ => Ok(()),
        }),
    };
    refused.err()
}

/// Reads numbers from the front; an error names the field.
struct Fields<'a>(Numbers<'a>);

impl Fields<'_> {
    fn number(&mut self, what: &str, width: usize, low: u32, high: u32) -> Result<u32, String> {
        let bytes = self.0.take(width).ok_or(format!("the bytes end before the end of {what}"))?;
        let value = bytes.iter().fold(0, |value, &byte| value << 8 | u32::from(byte));
        if low <= value && value <= high {
            Ok(value)
        } else {
            Err(format!("{what} is {}; it must be {}", spelled(value), range(low, high)))
        }
    }

    /// A byte in two's complement.
    fn signed(&mut self, what: &str, low: i8, high: i8) -> Result<i8, String> {
        let value = self.free(what, 1)? as u8 as i8;
        if low <= value && value <= high {
            Ok(value)
        } else {
            Err(format!("{what} is {value}; it must be {low} to {high}"))
        }
    }

    fn left(&self) -> usize {
        self.0 .0.len()
    }

    /// Any value of so many bytes.
    fn free(&mut self, what: &str, width: usize) -> Result<u32, String> {
        self.number(what, width, 0, u32::MAX)
    }

    /// A bit map: these bits must stand, and none but those of `known`.
    fn map(&mut self, must: u32, known: u32) -> Result<u32, String> {
        let map = self.free("the bit map", 1)?;
        let first = |bits: u32| (bits != 0).then(|| bits.trailing_zeros());
        if let Some(bit) = first(must & !map) {
            return Err(format!("bit {bit} of the bit map must stand"));
        }
        first(map & !known).map_or(Ok(map), |bit| Err(format!("bit {bit} of the bit map must not stand")))
    }
}

fn spelled(value: u32) -> String {
    if value == u32::MAX {
        "FFFFFFFF hexadecimal".into()
    } else {
        grouped(value.into())
    }
}

fn range(low: u32, high: u32) -> String {
    if high == u32::MAX - 1 {
        "below FFFFFFFF hexadecimal".into()
    } else {
        format!("{} to {}", spelled(low), spelled(high))
    }
}

/// Numbers 1, 2 and 21.
fn read_event(bytes: &[u8]) -> Result<Event, Reason> {
    let Some((&kind, fields)) = bytes.split_first() else { return Err((1, "the event is empty".into())) };
    let size = match kind {
        1..=4 | 8 | LOAD => 1,
        5..=7 => 2,
        POSITION_REPORT => 13,
        10 | SKIP | REVOKE => 5,
        TRACTION => 7,
        ADHESION => return read_adhesion(bytes),
        _ => return Err((1, format!("no kind of event has the number {kind}"))),
    };
    if bytes.len() != size {
        return Err((1, format!("its length is {}; of kind {kind} it must be {size}", bytes.len())));
    }
    read_fields(kind, Fields(Numbers(fields))).map_err(|reason| (2, reason))
}

fn read_fields(kind: u8, mut from: Fields) -> Result<Event, String> {
    Ok(match kind {
        1 => Event::PowerOn,
        2 => Event::Configured,
        3 => Event::PowerOff,
        4 => Event::Fault,
        5 => Event::Reports(from.number("the reports' byte", 1, 0, 31)? as u8),
        6 => Event::Mode(from.number("the mode", 1, 0, 1)? as u8),
        7 => Event::Lever(from.number("the lever", 1, 0, 2)? as u8),
        8 => Event::Press,
        POSITION_REPORT => {
            let nidc = from.number("NID_C", 2, 0, 1023)? as u16;
            let nidsp = from.free("NID_SP", 4)?;
            let offset = from.number("the offset", 4, 0, UNDEFINED)?;
            Event::Report(Position { nidc, nidsp, offset }, from.free("the speed", 2)? as u16)
        }
        10 => Event::Length(from.number("the train length", 4, 1, 100_000)?),
        LOAD => Event::Load,
        SKIP => Event::Skip(from.free("NID_TP", 4)?),
        REVOKE => Event::Revoke(from.free("NID_TP", 4)?),
        _ => {
            let request = from.signed("the request", -100, 100)?;
            let content = TractionBrake {
                m_ato_trabrrq: from.free("M_ATO_TraBrRq", 1)? as u8,
                m_ato_locobrrq: from.free("M_ATO_LocoBrRq", 1)? as u8,
                q_ato_suptb: from.free("Q_ATO_SupTB", 1)? as u8,
                m_ato_rtbrq: from.free("M_ATO_RTBRq", 2)? as u16,
            };
            Event::Traction(request, content)
        }
    })
}

fn read_adhesion(bytes: &[u8]) -> Result<Event, Reason> {
    let wrong = |must_be: &str| Err((1, format!("its length is {}; of kind {ADHESION} {must_be}", bytes.len())));
    let Some(&count) = bytes.get(1) else { return wrong("it must be at least 2") };
    let length = 2 + 16 * usize::from(count);
    if bytes.len() != length {
        return wrong(&format!("with a count of {count} it must be {length}"));
    }
    read_rows(Fields(Numbers(&bytes[1..])))
}

/// Each row in its range, then none of them reversed.
fn read_rows(mut from: Fields) -> Result<Event, Reason> {
    let mut reversed = None;
    let beyond = |reason: String| (2, reason);
    for k in 1..=from.number("the count", 1, 0, 31).map_err(beyond)? {
        let (start, end) = read_row(&mut from, k).map_err(beyond)?;
        if start > end && reversed.is_none() {
            let (start, end) = (grouped(start.into()), grouped(end.into()));
            reversed = Some((21, format!("the start of row {k}, {start}, is beyond its end, {end}")));
        }
    }
    reversed.map_or(Ok(Event::Adhesion), Err)
}

/// The row's start and end.
fn read_row(from: &mut Fields, k: u32) -> Result<(u32, u32), String> {
    from.number(&format!("NID_C of row {k}"), 2, 0, 1023)?;
    for (what, width) in [("NID_SP", 4), ("the category", 1), ("the range", 1)] {
        from.free(&format!("{what} of row {k}"), width)?;
    }
    let mut place = |what: &str| from.number(&format!("the {what} of row {k}"), 4, 0, 16_777_215);
    Ok((place("start")?, place("end")?))
}

/// Numbers 3 to 6.
fn admit(state: u8, event: Event) -> Result<(), Reason> {
    let in_words = STATES[usize::from(state)];
    let only_in = |what: &str, only: u8| {
        let only = STATES[usize::from(only)];
        Err((6, format!("{what} is taken in {only} alone, the state is {in_words}")))
    };
    match event {
        Event::PowerOn if state == NP => Ok(()),
        Event::PowerOn => Err((4, format!("power is on already, the state is {in_words}"))),
        _ if state == NP => Err((3, "there is no power: only power on is taken".into())),
        Event::PowerOff => Ok(()),
        _ if state == FA => Err((5, "there is a fault: only power off is taken".into())),
        Event::Configured if state != CO => only_in("configured", CO),
        Event::Press if state != RE => only_in("an engage press", RE),
        _ => Ok(()),
    }
}

/// Number 20, in RE.
fn press(engine: &Engine, names: &dyn Names) -> Result<(), Reason> {
    let mut points = engine.standings().zip(engine.route.points());
    let Some(k) = points.position(|(standing, point)| standing == Standing::Reached && point.held) else {
        return Ok(());
    };
    Err((20, format!("{} is reached, and the train is held there", names.point(k))))
}

/// Numbers 7 to 12.
fn load(journey: &[u8], book: &[u8], names: &dyn Names) -> Result<(), Reason> {
    let with = |number: u8| move |reason: String| (number, reason);
    read_records(book, names).map_err(with(7))?;
    let records = read_book(book).unwrap_or_default();
    twice_in_book(&records, names).map_err(with(8))?;
    read_journey(journey, names).map_err(with(9))?;
    let journey = Journey::read(journey).unwrap_or_default();
    if let Some((a, b)) = twice(&journey.segments) {
        let (one, other) = (names.segment(a), names.segment(b));
        return Err((10, format!("the journey goes through {one} twice{}", also(&one, &other))));
    }
    let journey = Booked { journey, records, names };
    journey.check_points().map_err(with(11))?;
    journey.check_order().map_err(with(12))
}

/// The other name, where it is another.
fn also(one: &str, other: &str) -> String {
    if one == other {
        String::new()
    } else {
        format!(", also as {other}")
    }
}

/// The places of the first two that are equal.
fn twice<T: PartialEq>(values: &[T]) -> Option<(usize, usize)> {
    (0..values.len()).find_map(|b| values[..b].iter().position(|value| *value == values[b]).map(|a| (a, b)))
}

fn read_records(bytes: &[u8], names: &dyn Names) -> Result<(), String> {
    let mut from = Fields(Numbers(bytes));
    let mut count = 0;
    while from.left() > 0 {
        read_record(&mut from).map_err(|reason| format!("{}: {reason}", names.record(count)))?;
        count += 1;
    }
    Ok(())
}

fn read_record(from: &mut Fields) -> Result<(), String> {
    let map = from.map(0b111, 0b1_1111)?;
    from.number("NID_C", 2, 0, 1023)?;
    from.free("NID_SP", 4)?;
    let length = from.number("the length", 4, 1, 16_777_214)?;
    let points = if map & 8 != 0 { from.number("the count of points", 1, 1, 16)? } else { 0 };
    for k in 1..=points {
        from.number(&format!("NID_TP of its point {k}"), 4, 0, u32::MAX - 1)?;
        from.number(&format!("the place of its point {k}"), 4, 0, length)?;
        from.number(&format!("R of its point {k}"), 2, 0, 10_000)?;
    }
    let zones = if map & 16 != 0 { from.number("the count of zones", 1, 1, 4)? } else { 0 };
    for k in 1..=zones {
        let start = from.number(&format!("the start of its zone {k}"), 4, 0, length)?;
        from.number(&format!("the end of its zone {k}"), 4, start, length)?;
    }
    Ok(())
}

/// Number 8, in the order of the records.
fn twice_in_book(records: &[Record], names: &dyn Names) -> Result<(), String> {
    let segments: Vec<(u16, u32)> = records.iter().map(Record::segment).collect();
    if let Some((a, b)) = twice(&segments) {
        let (one, other) = (names.record(a), names.record(b));
        return Err(format!("the segment of {one} stands twice in the book{}", also(&one, &other)));
    }
    for (k, record) in records.iter().enumerate() {
        let nidtps: Vec<u32> = record.points.iter().map(|point| point.nidtp).collect();
        if let Some((a, _)) = twice(&nidtps) {
            return Err(format!("{} has NID_TP {} twice", names.record(k), nidtps[a]));
        }
    }
    if records.len() > 40 {
        return Err(format!("the book has {} records, more than 40", records.len()));
    }
    Ok(())
}

fn read_journey(bytes: &[u8], names: &dyn Names) -> Result<(), String> {
    if bytes.is_empty() {
        return Err("the journey is empty".into());
    }
    let mut from = Fields(Numbers(bytes));
    let map = from.map(0b1_1010, 0b1_1111)?;
    if map & 1 != 0 {
        from.free("NID_OPERATIONAL", 4)?;
    }
    from.number("the date", 2, 0, 32_767)?;
    from.free("the seconds", 4)?;
    from.free("the counter", 1)?;
    if map & 4 != 0 {
        from.number("NID_ATOTS", 2, 0, 16_383)?;
    }
    for k in 0..from.number("the count of segments", 1, 1, 40)? as usize {
        from.number(&format!("NID_C of {}", names.segment(k)), 2, 0, 1023)?;
        from.free(&format!("NID_SP of {}", names.segment(k)), 4)?;
    }
    for k in 0..from.number("the count of points", 1, 1, 64)? as usize {
        read_journey_point(&mut from).map_err(|reason| format!("{}: {reason}", names.point(k)))?;
    }
    match from.left() {
        0 => Ok(()),
        1 => Err("a byte stands behind the last point".into()),
        more => Err(format!("{more} bytes stand behind the last point")),
    }
}

fn read_journey_point(from: &mut Fields) -> Result<(), String> {
    let map = from.map(0b11, 0b1111_1111)?;
    for (bit, what) in [(5, "trackside skips it"), (7, "it is held")] {
        if map >> 4 & 1 == 0 && map >> bit & 1 == 1 {
            return Err(format!("{what} (bit {bit}), and it is no stop (bit 4)"));
        }
    }
    from.number("NID_TP", 4, 0, u32::MAX - 1)?;
    from.free("the segment index", 1)?;
    if map & 4 != 0 {
        from.number("the alignment", 1, 0, 2)?;
    }
    if map & 8 != 0 {
        from.number("the stopping data", 1, 0, 127)?;
    }
    Ok(())
}

/// A journey and a book, each read.
struct Booked<'a> {
    journey: Journey,
    records: Vec<Record>,
    names: &'a dyn Names,
}

impl Booked<'_> {
    fn record(&self, segment: usize) -> Option<&Record> {
        let segment = self.journey.segments[segment];
        self.records.iter().find(|record| record.segment() == segment)
    }

    /// Number 11.
    fn check_points(&self) -> Result<(), String> {
        let (points, segments) = (&self.journey.points, self.journey.segments.len());
        if let Some(k) = points.iter().position(|point| usize::from(point.segment) >= segments) {
            let (name, index) = (self.names.point(k), points[k].segment);
            return Err(format!("{name} has the segment index {index}; the segments are 0 to {}", segments - 1));
        }
        let nidtps: Vec<u32> = points.iter().map(|point| point.nidtp).collect();
        if let Some((a, b)) = twice(&nidtps) {
            let (one, other) = (self.names.point(a), self.names.point(b));
            return Err(format!("NID_TP {} stands twice in the journey: {one}{}", nidtps[a], also(&one, &other)));
        }
        let ends: Vec<String> = (0..points.len()).filter(|&k| points[k].end).map(|k| self.names.point(k)).collect();
        match ends.len() {
            0 => return Err("no point is the End of Journey".into()),
            1 => {}
            count => return Err(format!("{count} points are the End of Journey: {}", ends.join(", "))),
        }
        self.check_booked()
    }

    fn check_booked(&self) -> Result<(), String> {
        for (k, point) in self.journey.points.iter().enumerate() {
            let segment = usize::from(point.segment);
            let Some(record) = self.record(segment) else { continue };
            if record.points.iter().all(|other| other.nidtp != point.nidtp) {
                let (segment, point) = (self.names.segment(segment), self.names.point(k));
                return Err(format!("{segment} is in the book without {point}"));
            }
        }
        Ok(())
    }

    /// The point's place from the journey's start, if it is placed.
    fn place(&self, k: usize) -> Option<u64> {
        let point = &self.journey.points[k];
        let segment = usize::from(point.segment);
        let lengths = (0..segment).map(|before| self.record(before).map(|record| u64::from(record.length)));
        let start = lengths.sum::<Option<u64>>()?;
        let here = self.record(segment)?.points.iter().find(|other| other.nidtp == point.nidtp)?;
        Some(start + u64::from(here.place))
    }

    /// Number 12.
    fn check_order(&self) -> Result<(), String> {
        let points = &self.journey.points;
        for k in 1..points.len() {
            let (before, after) = (self.names.point(k - 1), self.names.point(k));
            let (from, to) = (points[k - 1].segment, points[k].segment);
            if from > to {
                return Err(format!("the segment index falls, from {from} of {before} to {to} of {after}"));
            }
        }
        for k in 1..points.len() {
            let (Some(from), Some(to)) = (self.place(k - 1), self.place(k)) else { continue };
            if from >= to {
                let (before, after) = (self.names.point(k - 1), self.names.point(k));
                let (from, to) = (grouped(from), grouped(to));
                return Err(format!("{after}, {to} from the journey's start, is not behind {before}, at {from}"));
            }
        }
        Ok(())
    }
}

/// Number 13.
fn position_report(engine: &Engine, position: Position, names: &dyn Names) -> Result<(), Reason> {
    let segments = if engine.now.loaded { engine.route.segments() } else { &[] };
    let here = |(nidc, nidsp): (u16, u32)| (nidc, nidsp) == (position.nidc, position.nidsp);
    let Some(k) = segments.iter().position(|segment| here((segment.nidc, segment.nidsp))) else { return Ok(()) };
    let (offset, length) = (position.offset, segments[k].length);
    if segments[k].booked && offset != UNDEFINED && offset > length {
        let (offset, length) = (grouped(offset.into()), grouped(length.into()));
        return Err((13, format!("the offset {offset} is beyond the length of {}, {length}", names.segment(k))));
    }
    Ok(())
}

/// Numbers 14 and 15.
fn skip(engine: &Engine, nidtp: u32, give: bool, names: &dyn Names) -> Result<(), Reason> {
    let points = if engine.now.loaded { engine.route.points() } else { &[] };
    let Some(k) = points.iter().position(|point| point.nidtp == nidtp) else {
        let journey = if points.is_empty() { "no journey is loaded" } else { "the journey has no such point" };
        return Err((14, journey.into()));
    };
    let name = names.point(k);
    if !points[k].stop {
        return Err((14, format!("{name} is a passing point, no stop")));
    }
    let skipped = engine.now.skips >> k & 1 == 1;
    let trackside = if points[k].skipped { "; that trackside skips it counts for nothing here" } else { "" };
    match (engine.standings().nth(k), skipped) {
        (Some(Standing::Reached), _) => Err((15, format!("{name} is reached"))),
        (Some(Standing::Passed), _) => Err((15, format!("{name} is passed"))),
        (_, true) if give => Err((15, format!("the driver skips {name} already"))),
        (_, false) if !give => Err((15, format!("the driver does not skip {name}{trackside}"))),
        _ => Ok(()),
    }
}
