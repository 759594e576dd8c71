//! A load's journey by its book: where segments, zones and points lie from the journey's start.

use model::calls::Call;
use model::engine::behind_front;
use model::events::{Position, UNDEFINED};
use model::route::{self, Book, Route};
use model::values::{read_book, Record};
use std::ops::Range;
use tools::language::Scenario;

pub struct Segment {
    pub name: String,
    pub nidc: u16,
    pub nidsp: u32,
    /// From the journey's start, if it is placed.
    pub start: Option<i64>,
    pub booked: bool,
    pub length: i64,
    /// From the segment's start.
    pub zones: Vec<(i64, i64)>,
}

pub struct Point {
    /// Which of the journey's points it is.
    pub index: usize,
    pub name: String,
    pub nidtp: u32,
    pub segment: usize,
    /// From the journey's start, if it is placed.
    pub place: Option<i64>,
    pub reach: i64,
    pub alignment: u8,
    pub stop: bool,
    /// Skipped by trackside.
    pub trackside: bool,
    pub held: bool,
    pub end: bool,
}

/// The journey of an accepted load.
pub struct Plan {
    pub journey: String,
    pub book: String,
    pub operational: u32,
    pub segments: Vec<Segment>,
    pub points: Vec<Point>,
    /// The end of the last placed segment.
    pub end: i64,
}

/// Where the train's front is.
#[derive(Clone, Copy, PartialEq, Debug)]
pub enum Front {
    /// Known, from the journey's start.
    At(i64),
    /// On a segment that is not placed.
    On(usize),
    /// Not known, for this reason.
    Unknown(&'static str),
}

impl Point {
    /// Where the front is when the train's point of alignment is at the place.
    pub fn front_place(&self, train: u32) -> Option<i64> {
        Some(self.place? + i64::from(behind_front(train, self.alignment)))
    }

    /// It is a stop that neither trackside nor the driver skips.
    pub fn is_served(&self, skipped: bool) -> bool {
        self.stop && !self.trackside && !skipped
    }

    /// Where the front must stand for a stop that is served to be reached; for another point, where it may be without
    /// passing it.
    pub fn margin(&self, train: u32, skipped: bool) -> Option<Range<i64>> {
        let at = self.front_place(train)?;
        let reach = if self.is_served(skipped) { self.reach } else { 0 };
        Some(at - reach..at + reach)
    }
}

impl Segment {
    fn of(segment: &route::Segment, placed: bool, records: &[Record], name: String) -> Segment {
        let record = records.iter().find(|record| record.segment() == (segment.nidc, segment.nidsp));
        let zones = record.map_or(&[][..], |record| &record.zones);
        Segment {
            name,
            nidc: segment.nidc,
            nidsp: segment.nidsp,
            start: placed.then_some(i64::from(segment.start)),
            booked: segment.booked,
            length: i64::from(segment.length),
            zones: zones.iter().map(|&(start, end)| (i64::from(start), i64::from(end))).collect(),
        }
    }
}

/// Its name, else its place from 1.
fn named(names: &[String], k: usize) -> String {
    names.get(k).map_or((k + 1).to_string(), String::clone)
}

impl Plan {
    /// `None` for profiles that a load refuses.
    pub fn of(call: &Call, scenario: &Scenario, loads: (String, String)) -> Option<Plan> {
        let records = read_book(&call.book)?;
        let mut route = Route::EMPTY;
        route.read(&call.journey, &Book::read(&call.book).ok()?).ok()?;
        let placed = usize::from(route.placed_segments);
        let segment = |(k, segment): (usize, &route::Segment)| {
            Segment::of(segment, k < placed, &records, named(scenario.segment_names(&loads.0), k))
        };
        let segments: Vec<Segment> = route.segments().iter().enumerate().map(segment).collect();
        let end = segments[..placed].iter().map(|segment| segment.length).sum();
        let point = |(k, point): (usize, &route::Point)| Point {
            index: k,
            name: named(scenario.point_names(&loads.0), k),
            nidtp: point.nidtp,
            segment: usize::from(point.segment),
            place: (k < usize::from(route.placed_points)).then_some(i64::from(point.place)),
            reach: i64::from(point.reach),
            alignment: point.alignment,
            stop: point.stop,
            trackside: point.skipped,
            held: point.held,
            end: point.end,
        };
        let points = route.points().iter().enumerate().map(point).collect();
        let (journey, book) = loads;
        Some(Plan { journey, book, operational: route.operational, segments, points, end })
    }

    /// The zones of placed segments: the segment, start and end.
    pub fn zones(&self) -> impl Iterator<Item = (&Segment, i64, i64)> {
        let placed = self.segments.iter().filter_map(|segment| Some((segment, segment.start?)));
        placed.flat_map(|(segment, at)| segment.zones.iter().map(move |(from, to)| (segment, at + from, at + to)))
    }

    /// Of a position as it was reported.
    pub fn front(&self, position: Position) -> Front {
        if position.offset == UNDEFINED {
            return Front::Unknown("the offset is undefined");
        }
        let at = |segment: &Segment| (segment.nidc, segment.nidsp) == (position.nidc, position.nidsp);
        let Some(k) = self.segments.iter().position(at) else {
            return Front::Unknown("its segment is not in the journey");
        };
        let (segment, offset) = (&self.segments[k], i64::from(position.offset));
        match segment.start {
            _ if segment.booked && offset > segment.length => {
                Front::Unknown("the offset is beyond its segment's length")
            }
            Some(start) => Front::At(start + offset),
            None => Front::On(k),
        }
    }
}
