//! Journeys with their books as values, wrong ones too, and those that the fixed lists share.

use model::calls::Call;
use model::values::{write_book, Journey, JourneyPoint, Record, RecordPoint};

/// The profiles of a load, with bytes dropped from their ends or put behind.
#[derive(Clone, Debug, Default)]
pub struct Profiles {
    pub journey: Journey,
    pub book: Vec<Record>,
    pub journey_cut: usize,
    pub journey_more: Vec<u8>,
    pub book_cut: usize,
    pub book_more: Vec<u8>,
}

impl Profiles {
    pub fn journey_bytes(&self) -> Vec<u8> {
        cut(self.journey.write(), self.journey_cut, &self.journey_more)
    }

    pub fn book_bytes(&self) -> Vec<u8> {
        cut(write_book(&self.book), self.book_cut, &self.book_more)
    }

    /// The call that loads them.
    pub fn load(&self) -> Call {
        Call::load(self.journey_bytes(), self.book_bytes())
    }

    /// The book's record of a segment.
    pub fn record_of(&mut self, segment: (u16, u32)) -> Option<&mut Record> {
        self.book.iter_mut().find(|record| record.segment() == segment)
    }
}

fn cut(mut bytes: Vec<u8>, count: usize, more: &[u8]) -> Vec<u8> {
    bytes.truncate(bytes.len().saturating_sub(count));
    bytes.extend(more);
    bytes
}

pub fn record(nidc: u16, nidsp: u32, length: u32, points: &[(u32, u32, u16)], zones: &[(u32, u32)]) -> Record {
    let points = points.iter().map(|&(nidtp, place, reach)| RecordPoint { nidtp, place, reach }).collect();
    Record { nidc, nidsp, length, points, zones: zones.to_vec(), ..Record::default() }
}

pub fn stop(nidtp: u32, segment: u8) -> JourneyPoint {
    JourneyPoint { nidtp, segment, stop: true, ..JourneyPoint::default() }
}

pub fn passing(nidtp: u32, segment: u8) -> JourneyPoint {
    JourneyPoint { nidtp, segment, ..JourneyPoint::default() }
}

pub fn held(point: JourneyPoint) -> JourneyPoint {
    JourneyPoint { held: true, ..point }
}

/// A stop that trackside skips.
pub fn skipped(point: JourneyPoint) -> JourneyPoint {
    JourneyPoint { skipped: true, ..point }
}

pub fn ending(point: JourneyPoint) -> JourneyPoint {
    JourneyPoint { end: true, ..point }
}

/// Segments 0 and 1 are placed, 2 is not booked, 3 and 4 are booked and so not placed.
pub fn base() -> Profiles {
    let journey = Journey {
        operational: Some(0x0012_3456),
        date: 9_000,
        seconds: 30_000,
        counter: 1,
        atots: Some(42),
        segments: vec![(17, 500), (17, 501), (18, 500), (17, 502), (17, 503)],
        points: vec![
            JourneyPoint { alignment: Some(1), stopping: Some(5), ..stop(7001, 0) },
            passing(7002, 0),
            JourneyPoint { skipped: true, ..stop(7003, 1) },
            JourneyPoint { alignment: Some(2), ..stop(7004, 1) },
            passing(7005, 2),
            passing(7006, 3),
            stop(7007, 3),
            ending(stop(7008, 4)),
        ],
        ..Journey::default()
    };
    let book = vec![
        record(17, 501, 50_000, &[(7004, 50_000, 10_000), (7003, 10_000, 0)], &[(0, 5), (20_000, 21_000)]),
        record(17, 500, 100_000, &[(7001, 40_000, 150), (6000, 0, 1), (7002, 90_000, 150)], &[]),
        record(17, 502, 30_000, &[(7006, 20_000, 1), (7007, 10_000, 1)], &[(7, 7)]),
        record(17, 503, 1_000, &[(7008, 500, 20)], &[]),
    ];
    Profiles { journey, book, ..Profiles::default() }
}

/// A journey of 40 segments and 64 points with a book of 40 records, all as long and far as can be.
pub fn greatest_values() -> Profiles {
    let mut profiles = Profiles::default();
    for k in 0..40 {
        profiles.journey.segments.push((1023, 0xFFFF_FF00 + k));
        let mut points = vec![(100 + 2 * k, 16_777_213, 10_000)];
        profiles.journey.points.push(stop(100 + 2 * k, k as u8));
        if k < 24 {
            points.push((101 + 2 * k, 16_777_214, 10_000));
            profiles.journey.points.push(passing(101 + 2 * k, k as u8));
        }
        (0..14).for_each(|n| points.push((5000 + n, n, 0)));
        let zones = [(0, 0), (5, 5), (9, 10), (3, 3)];
        profiles.book.push(record(1023, 0xFFFF_FF00 + k, 16_777_214, &points, &zones));
    }
    profiles.journey.points[63].end = true;
    profiles
}

/// The journey of P1 to P8.
pub fn p_journey() -> Profiles {
    one_segment(&[(stop(7001, 0), 40_000, 150), (ending(passing(7002, 0)), 90_000, 0)])
}

/// A journey over one segment (17, 500) with these points, each with place and R. If none ends the journey, the last does.
pub fn one_segment(points: &[(JourneyPoint, u32, u16)]) -> Profiles {
    let places: Vec<(u32, u32, u16)> =
        points.iter().map(|(point, place, reach)| (point.nidtp, *place, *reach)).collect();
    let longest = if places.iter().any(|place| place.1 > 99_000) { 1_000_000 } else { 100_000 };
    let book = vec![record(17, 500, longest, &places, &[])];
    let mut points: Vec<JourneyPoint> = points.iter().map(|(point, ..)| point.clone()).collect();
    if points.iter().all(|point| !point.end) {
        points.last_mut().unwrap().end = true;
    }
    let journey = Journey { segments: vec![(17, 500)], points, ..Journey::default() };
    Profiles { journey, book, ..Profiles::default() }
}
