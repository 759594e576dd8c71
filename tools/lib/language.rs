//! The scenario language: a line declares part of a book or journey, or is one event; docs/SCENARIOS.md has every word.
//! A value that its field's bytes cannot hold is an error; one that they hold may be out of the field's range, so that
//! refusals can be tried.

use crate::line::{without_comment, Words};
use crate::named::Named;
use model::adhesion::Constraint;
use model::calls::Call;
use model::events::UNDEFINED;
use model::packets::TractionBrake;
use model::values::{write_book, Journey, JourneyPoint, Record, RecordPoint};
use model::words::{bytes_of_hex, grouped, ALIGNMENTS, LEVERS, MODES};

/// The most that a count of one byte holds.
const COUNT_MOST: usize = 255;
/// The most bytes that the player's input holds of an event or profile, by its length of two bytes.
const BYTES_MOST: usize = 65_535;
const REPORTS: [&str; 5] = ["etcs", "no_brake", "consistent", "valid", "train"];

/// One event of a scenario, with its line.
pub struct Step {
    pub line: usize,
    pub text: String,
    pub call: Call,
    /// The names of the journey and of the book that a load brings.
    pub loads: Option<(String, String)>,
}

struct DeclaredPoint {
    nidtp: u32,
    segment: String,
}

#[derive(Default)]
struct DeclaredJourney {
    profile: Journey,
    /// The names of its segments and of its points, in its order.
    segments: Vec<String>,
    points: Vec<String>,
}

pub struct Scenario {
    pub steps: Vec<Step>,
    segments: Named<Record>,
    points: Named<DeclaredPoint>,
    books: Named<Vec<String>>,
    journeys: Named<DeclaredJourney>,
}

/// A file's text; an error names the file.
pub fn read_text(file: &str) -> Result<String, String> {
    let bytes = std::fs::read(file).map_err(|error| format!("{file}: {error}"))?;
    let text = String::from_utf8(bytes).map_err(|_| format!("{file}: it is no text"))?;
    // some editors put this mark in front
    Ok(text.trim_start_matches('\u{feff}').into())
}

impl Scenario {
    /// Reads a file's scenario; an error names the file and, where it is text, the line.
    pub fn read_file(file: &str) -> Result<Scenario, String> {
        Scenario::read(&read_text(file)?).map_err(|error| format!("{file}, {error}"))
    }

    /// Reads a whole scenario; an error names its line.
    pub fn read(text: &str) -> Result<Scenario, String> {
        let mut scenario = Scenario {
            steps: Vec::new(),
            segments: Named::of("segment"),
            points: Named::of("point"),
            books: Named::of("book"),
            journeys: Named::of("journey"),
        };
        for (k, text) in text.lines().enumerate() {
            scenario.read_line(k + 1, text).map_err(|error| format!("line {}: {error}", k + 1))?;
        }
        Ok(scenario)
    }

    /// The name of the timing point with these numbers: that of the journey's point, else that of the only point
    /// declared with them; where there is no such, NID_TP itself.
    pub fn point_name_in(&self, journey: Option<&str>, nidc: u16, nidtp: u32) -> String {
        let fits = |point: &DeclaredPoint| {
            let segment = self.segments.get(&point.segment);
            point.nidtp == nidtp && segment.is_some_and(|segment| segment.nidc == nidc)
        };
        let of_journey = journey.map_or(&[][..], |journey| self.point_names(journey));
        let in_journey = |name: &&String| self.points.get(name).is_some_and(fits);
        let mut declared = self.points.iter().filter(|(_, point)| fits(point)).map(|(name, _)| name);
        match (of_journey.iter().find(in_journey), declared.next(), declared.next()) {
            (Some(name), _, _) => name.clone(),
            (None, Some(name), None) => name.into(),
            _ => nidtp.to_string(),
        }
    }

    /// The name of the first point declared with this NID_TP, else the number.
    pub fn point_name(&self, nidtp: u32) -> String {
        let named = self.points.iter().find(|(_, point)| point.nidtp == nidtp);
        named.map_or(nidtp.to_string(), |(name, _)| name.into())
    }

    /// The names of a journey's points, in its order.
    pub fn point_names(&self, journey: &str) -> &[String] {
        self.journeys.get(journey).map_or(&[], |journey| &journey.points)
    }

    /// The names of a journey's segments, in its order.
    pub fn segment_names(&self, journey: &str) -> &[String] {
        self.journeys.get(journey).map_or(&[], |journey| &journey.segments)
    }

    /// The names of the segments that a book has records of, in its order.
    pub fn record_names(&self, book: &str) -> &[String] {
        self.books.get(book).map_or(&[], |segments| segments)
    }

    fn read_line(&mut self, line: usize, text: &str) -> Result<(), String> {
        let Some(mut words) = Words::of(text)? else { return Ok(()) };
        match words.first() {
            "segment" => self.read_segment(line, &mut words)?,
            "point" => self.read_point(line, &mut words)?,
            "zone" => self.read_zone(&mut words)?,
            "book" => self.read_book(line, &mut words)?,
            "journey" => self.read_journey(line, &mut words)?,
            "through" => self.read_through(&mut words)?,
            "stop" => self.read_journey_point(true, &mut words)?,
            "passing" => self.read_journey_point(false, &mut words)?,
            event => {
                let (call, loads) = match event {
                    "load" => self.read_load(&mut words)?,
                    _ => (self.read_event(&mut words)?, None),
                };
                self.steps.push(Step { line, text: without_comment(text).into(), call, loads });
            }
        }
        words.end()
    }

    fn read_segment(&mut self, line: usize, words: &mut Words) -> Result<(), String> {
        let name = words.next("the segment's name")?;
        let (nidc, nidsp, length) = (words.value("NID_C")?, words.value("NID_SP")?, words.value("length")?);
        self.segments.add(line, name, Record { nidc, nidsp, length, ..Record::default() })
    }

    fn read_point(&mut self, line: usize, words: &mut Words) -> Result<(), String> {
        let name = words.next("the point's name")?;
        let nidtp = words.value("NID_TP")?;
        words.keyword("on")?;
        let segment = words.next("the segment")?;
        let place = words.value("at")?;
        let reach = words.optional("R")?;
        let record = self.segments.find_mut(segment)?;
        one_more(record.points.len(), &format!("points on '{segment}'"))?;
        self.points.add(line, name, DeclaredPoint { nidtp, segment: segment.into() })?;
        record.points.push(RecordPoint { nidtp, place, reach });
        Ok(())
    }

    fn read_zone(&mut self, words: &mut Words) -> Result<(), String> {
        words.keyword("on")?;
        let segment = words.next("the segment")?;
        let zone = (words.value("from")?, words.value("to")?);
        let zones = &mut self.segments.find_mut(segment)?.zones;
        one_more(zones.len(), &format!("zones on '{segment}'"))?;
        zones.push(zone);
        Ok(())
    }

    fn read_book(&mut self, line: usize, words: &mut Words) -> Result<(), String> {
        let name = words.next("the book's name")?;
        let segments = words.rest();
        for segment in &segments {
            self.segments.find(segment)?;
        }
        self.books.add(line, name, segments)
    }

    fn read_journey(&mut self, line: usize, words: &mut Words) -> Result<(), String> {
        let name = words.next("the journey's name")?;
        let (date, seconds, counter) = (words.value("date")?, words.value("seconds")?, words.value("counter")?);
        let mut profile = Journey { date, seconds, counter, ..Journey::default() };
        if words.takes("NID_OPERATIONAL") {
            profile.operational = Some(read_operational(words)?);
        }
        if words.takes("NID_ATOTS") {
            profile.atots = Some(words.number("NID_ATOTS")?);
        }
        self.journeys.add(line, name, DeclaredJourney { profile, ..DeclaredJourney::default() })
    }

    fn read_through(&mut self, words: &mut Words) -> Result<(), String> {
        let journey = self.journeys.last_mut()?;
        let mut names = vec![words.next("a segment")?.to_string()];
        names.extend(words.rest());
        for name in names {
            let segment = self.segments.find(&name)?.segment();
            one_more(journey.segments.len(), "segments of the journey")?;
            journey.profile.segments.push(segment);
            journey.segments.push(name);
        }
        Ok(())
    }

    fn read_journey_point(&mut self, stop: bool, words: &mut Words) -> Result<(), String> {
        let name = words.next("the point")?;
        let DeclaredPoint { nidtp, segment } = self.points.find(name)?;
        let journey = self.journeys.last_mut()?;
        let index = journey.segments.iter().position(|other| other == segment);
        let index = index.ok_or(format!("the journey above does not go through '{segment}', where '{name}' is"))?;
        let point = JourneyPoint {
            nidtp: *nidtp,
            segment: index as u8,
            alignment: if words.takes("alignment") { Some(words.choice(&ALIGNMENTS)?) } else { None },
            stopping: if words.takes("data") { Some(words.number("data")?) } else { None },
            stop,
            skipped: stop && words.takes("skipped"),
            held: stop && words.takes("held"),
            end: words.takes("end"),
            ..JourneyPoint::default()
        };
        one_more(journey.points.len(), "points of the journey")?;
        journey.profile.points.push(point);
        journey.points.push(name.into());
        Ok(())
    }

    fn read_event(&self, words: &mut Words) -> Result<Call, String> {
        Ok(match words.first() {
            "power" if words.choice(&["on", "off"])? == 0 => Call::power_on(),
            "power" => Call::power_off(),
            "configured" => Call::configured(),
            "fault" => Call::fault(),
            "reports" => Call::reports(read_reports(words)?),
            "mode" => Call::mode(words.choice(&MODES)?),
            "lever" => Call::lever(words.choice(&LEVERS)?),
            "engage" => Call::press(),
            "position" => self.read_position(words)?,
            "length" => Call::length(words.number("length")?),
            "skip" => Call::skip(self.read_point_name(words)?),
            "revoke" => Call::revoke(self.read_point_name(words)?),
            "traction" => read_traction(words)?,
            "slippery" => Call::adhesion(&self.read_slippery(words)?),
            _ => Call::of(read_bytes(words)?),
        })
    }

    /// NID_TP of the point that is named.
    fn read_point_name(&self, words: &mut Words) -> Result<u32, String> {
        Ok(self.points.find(words.next("the point")?)?.nidtp)
    }

    fn read_position(&self, words: &mut Words) -> Result<Call, String> {
        let (nidc, nidsp) = self.segments.find(words.next("the segment")?)?.segment();
        let offset = if words.takes("undefined") { UNDEFINED } else { words.number("the offset")? };
        Ok(Call::position(nidc, nidsp, offset, words.value("speed")?))
    }

    /// The rows of slippery rail, or `none`.
    fn read_slippery(&self, words: &mut Words) -> Result<Vec<Constraint>, String> {
        let mut rows = Vec::new();
        let mut another = words.choice(&["none", "on"])? == 1;
        while another {
            one_more(rows.len(), "rows of slippery rail")?;
            rows.push(self.read_row(words)?);
            another = words.takes("on");
        }
        Ok(rows)
    }

    /// A row of slippery rail, behind its `on`.
    fn read_row(&self, words: &mut Words) -> Result<Constraint, String> {
        let (nidc, nidsp) = self.segments.find(words.next("the segment")?)?.segment();
        let (start, end) = (words.value("from")?, words.value("to")?);
        let (category, range) = (words.optional("category")?, words.optional("range")?);
        Ok(Constraint { nidc, nidsp, category, range, start, end })
    }

    /// The call, and the names of the journey and of the book that it brings, as they stand above.
    fn read_load(&self, words: &mut Words) -> Result<(Call, Option<(String, String)>), String> {
        let (journey, book) = (words.next("the journey")?, words.next("the book")?);
        let mut records = Vec::new();
        for name in self.books.find(book)? {
            records.push(self.segments.find(name)?.clone());
        }
        let call = Call::load(self.journeys.find(journey)?.profile.write(), write_book(&records));
        check_size(&format!("the journey '{journey}'"), &call.journey)?;
        check_size(&format!("the book '{book}'"), &call.book)?;
        Ok((call, Some((journey.into(), book.into()))))
    }
}

/// There is room for one more in a count of one byte.
fn one_more(count: usize, what: &str) -> Result<(), String> {
    if count < COUNT_MOST {
        Ok(())
    } else {
        Err(format!("more than {COUNT_MOST} {what}; the layout counts them by one byte"))
    }
}

fn check_size(what: &str, bytes: &[u8]) -> Result<(), String> {
    if bytes.len() <= BYTES_MOST {
        return Ok(());
    }
    let (size, most) = (grouped(bytes.len() as u64), grouped(BYTES_MOST as u64));
    Err(format!("{what} takes {size} bytes; the player's input holds at most {most}"))
}

fn read_operational(words: &mut Words) -> Result<u32, String> {
    let text = words.next("NID_OPERATIONAL")?;
    let digits = text.len() <= 8 && text.bytes().all(|byte| byte.is_ascii_hexdigit());
    let value = if digits { u32::from_str_radix(text, 16).ok() } else { None };
    value.ok_or(format!("NID_OPERATIONAL: '{text}' is not a hexadecimal number of up to eight digits"))
}

fn read_reports(words: &mut Words) -> Result<u8, String> {
    if words.takes("all") {
        return Ok(31);
    }
    if words.takes("none") {
        return Ok(0);
    }
    let mut reports = 1 << words.choice(&REPORTS)?;
    while !words.is_empty() {
        reports |= 1 << words.choice(&REPORTS)?;
    }
    Ok(reports)
}

/// The request, and the content of packet 61.
fn read_traction(words: &mut Words) -> Result<Call, String> {
    let request = words.signed("the request")?;
    let (m_ato_trabrrq, m_ato_locobrrq) = (words.optional("trabrrq")?, words.optional("locobrrq")?);
    let q_ato_suptb = words.optional("suptb")?;
    let m_ato_rtbrq = if words.takes("rtbrq") { words.signed::<i16>("rtbrq")? as u16 } else { 0 };
    Ok(Call::traction(request, TractionBrake { m_ato_trabrrq, m_ato_locobrrq, q_ato_suptb, m_ato_rtbrq }))
}

fn read_bytes(words: &mut Words) -> Result<Vec<u8>, String> {
    let text = words.next("the event's bytes")?.to_string() + &words.rest().concat();
    let bytes = bytes_of_hex(&text).ok_or(format!("'{text}' is not bytes in hexadecimal, two digits each"))?;
    check_size("the event", &bytes).map(|()| bytes)
}
