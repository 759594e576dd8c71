//! Profiles of a given size, up to the largest.

use crate::profiles::Profiles;
use model::values::{Journey, JourneyPoint, Record, RecordPoint};

/// The k-th segment.
pub fn segment(k: usize) -> (u16, u32) {
    (17, 500 + k as u32)
}

/// The k-th point on a segment.
pub fn point_name(segment: usize, k: usize) -> u32 {
    (1_000 * segment + k) as u32
}

/// 10,000 long, with 16 points from 1,000 on and 4 zones before them.
fn record(k: usize) -> Record {
    let (nidc, nidsp) = segment(k);
    let point = |n: usize| RecordPoint { nidtp: point_name(k, n), place: 1_000 + 100 * n as u32, reach: 50 };
    let zone = |n: u32| (100 * n, 100 * n + 9);
    let (points, zones) = ((0..16).map(point).collect(), (1..=4).map(zone).collect());
    Record { nidc, nidsp, length: 10_000, points, zones, ..Record::default() }
}

fn stop(segment: usize, k: usize) -> JourneyPoint {
    JourneyPoint {
        nidtp: point_name(segment, k),
        segment: segment as u8,
        alignment: Some((k % 3) as u8),
        stopping: Some(5),
        stop: true,
        ..JourneyPoint::default()
    }
}

/// A journey of so many stops, spread evenly over so many segments, and a book of so many records in journey order.
pub fn profiles(segments: usize, points: usize, records: usize) -> Profiles {
    let on_segment = |k: usize| k * segments / points;
    let first_on = |segment: usize| (0..points).find(|&k| on_segment(k) == segment).unwrap_or(0);
    let mut points: Vec<JourneyPoint> = (0..points).map(|k| stop(on_segment(k), k - first_on(on_segment(k)))).collect();
    points.last_mut().unwrap().end = true;
    let segments = (0..segments).map(segment).collect();
    let journey = Journey { operational: Some(1), atots: Some(2), segments, points, ..Journey::default() };
    Profiles { journey, book: (0..records).map(record).collect(), ..Profiles::default() }
}

/// 40 segments of 16 points and 4 zones, 64 points.
pub fn largest() -> Profiles {
    profiles(40, 64, 40)
}

/// The book's records the other way round, and the points of each.
pub fn reversed(mut profiles: Profiles) -> Profiles {
    profiles.book.reverse();
    profiles.book.iter_mut().for_each(|record| record.points.reverse());
    profiles
}
