//! Random journeys with their books, and rewritten ones. Most are valid.

use crate::profiles::Profiles;
use crate::random::Random;
use model::engine::Engine;
use model::values::{Journey, JourneyPoint, Record, RecordPoint};

fn a_length(random: &mut Random) -> u32 {
    match random.weighed(&[4, 20, 70, 3, 3]) {
        0 => random.between(1, 3),
        1 => random.between(4, 500),
        2 => random.between(500, 60_000),
        3 => random.between(60_000, 16_777_214),
        _ => 16_777_214,
    }
}

fn a_reach(random: &mut Random) -> u16 {
    match random.weighed(&[15, 5, 40, 30, 10]) {
        0 => 0,
        1 => 1,
        2 => 150,
        3 => random.between(2, 2_000) as u16,
        _ => 10_000,
    }
}

fn segment_names(random: &mut Random, count: usize) -> Vec<(u16, u32)> {
    let mut names = Vec::new();
    while names.len() < count {
        let nidc = random.pick(&[0, 17, 17, 18, 1023]);
        let any = random.next() as u32;
        let nidsp = random.pick(&[0, 500, 501, 502, 503, 504, 510, u32::MAX, any]);
        if !names.contains(&(nidc, nidsp)) {
            names.push((nidc, nidsp));
        }
    }
    names
}

fn some_places(random: &mut Random, length: u32, count: usize) -> Vec<u32> {
    let mut places: Vec<u32> = (0..count)
        .map(|_| match random.weighed(&[1, 1, 8]) {
            0 => 0,
            1 => length,
            _ => random.between(0, length),
        })
        .collect();
    places.sort();
    places.dedup();
    places
}

fn some_zones(random: &mut Random, length: u32) -> Vec<(u32, u32)> {
    let count = random.weighed(&[80, 12, 4, 2, 2]);
    let zone = |random: &mut Random| {
        let start = random.between(0, length);
        (start, random.between(start, length.min(start.saturating_add(length / 10))))
    };
    (0..count).map(|_| zone(random)).collect()
}

fn a_point(random: &mut Random, nidtp: u32, segment: usize) -> JourneyPoint {
    let stop = random.chance(65);
    JourneyPoint {
        nidtp,
        segment: segment as u8,
        alignment: random.pick(&[None, None, Some(0), Some(1), Some(1), Some(2), Some(2)]),
        stopping: random.pick(&[None, Some(0), Some(5), Some(96), Some(127)]),
        stop,
        skipped: stop && random.chance(15),
        held: stop && random.chance(30),
        ..JourneyPoint::default()
    }
}

/// How many segments, and at most how many points on each.
fn a_size(random: &mut Random) -> (usize, usize) {
    match random.weighed(&[50, 40, 6, 2, 2]) {
        0 => (random.below(3) + 1, 4),
        1 => (random.below(6) + 1, 3),
        2 => (random.below(4) + 1, 16),
        3 => (40, 2),
        _ => (random.below(40) + 1, 16),
    }
}

/// A new journey with its book.
pub fn new_profiles(random: &mut Random) -> Profiles {
    let (segments, most) = a_size(random);
    let all_booked = random.chance(75);
    let mut journey = a_journey_head(random);
    journey.segments = segment_names(random, segments);
    let mut book = Vec::new();
    let mut ends_at_length = false;
    for (k, &(nidc, nidsp)) in journey.segments.iter().enumerate() {
        let length = a_length(random);
        let mut record = Record { nidc, nidsp, length, ..Record::default() };
        let count = random.below(most + 1);
        for place in some_places(random, length, count) {
            if journey.points.len() < 64 && !(ends_at_length && place == 0) {
                let nidtp = 7001 + journey.points.len() as u32;
                journey.points.push(a_point(random, nidtp, k));
                record.points.push(RecordPoint { nidtp, place, reach: a_reach(random) });
            }
        }
        ends_at_length = record.points.last().is_some_and(|point| point.place == length);
        record.zones = some_zones(random, length);
        if all_booked || random.chance(75) {
            book.push(record);
        }
    }
    complete(random, journey, book)
}

fn a_journey_head(random: &mut Random) -> Journey {
    Journey {
        operational: random.pick(&[None, Some(0), Some(0x0012_3456), Some(u32::MAX)]),
        date: random.pick(&[0, 1, 9_000, 32_767]),
        seconds: random.next() as u32,
        counter: random.next() as u8,
        atots: random.pick(&[None, Some(0), Some(42), Some(16_383)]),
        ..Journey::default()
    }
}

/// At least one point, one End of Journey, records and their points in any order, records that the journey does not use.
fn complete(random: &mut Random, mut journey: Journey, mut book: Vec<Record>) -> Profiles {
    if journey.points.is_empty() {
        journey.points.push(a_point(random, 7001, 0));
        let first = journey.segments[0];
        if let Some(record) = book.iter_mut().find(|record| record.segment() == first) {
            let place = random.between(0, record.length);
            record.points.push(RecordPoint { nidtp: 7001, place, reach: a_reach(random) });
        }
    }
    let end = if random.chance(75) { journey.points.len() - 1 } else { random.below(journey.points.len()) };
    journey.points[end].end = true;
    for record in &mut book {
        if record.points.len() < 16 && random.chance(30) {
            let place = random.between(0, record.length);
            record.points.push(RecordPoint { nidtp: 5_000, place, reach: 1 });
        }
        random.shuffle(&mut record.points);
    }
    if book.len() < 40 && random.chance(20) {
        book.push(Record { nidc: 19, nidsp: 500, length: 1_000, ..Record::default() });
    }
    random.shuffle(&mut book);
    Profiles { journey, book, ..Profiles::default() }
}

/// The journey of the last good load once more, with a change or two.
pub fn rewrite(random: &mut Random, profiles: &mut Profiles, engine: &Engine) {
    for _ in 0..random.below(3) {
        rewrite_once(random, profiles, engine);
    }
    profiles.journey.counter = profiles.journey.counter.wrapping_add(1);
}

fn rewrite_once(random: &mut Random, profiles: &mut Profiles, engine: &Engine) {
    let first = usize::from(engine.now.first).min(profiles.journey.points.len() - 1);
    let any = if random.chance(70) { first } else { random.below(profiles.journey.points.len()) };
    let point = &mut profiles.journey.points[any];
    match random.below(15) {
        0 if point.stop => point.skipped = !point.skipped,
        1 => (point.stop, point.skipped, point.held) = (!point.stop, !point.stop && random.chance(40), false),
        2 => point.alignment = random.pick(&[None, Some(0), Some(1), Some(2)]),
        3 => move_end(random, profiles),
        4 => drop_first_point(profiles),
        5 => drop_first_segment(profiles),
        6 => change_record(random, profiles, engine),
        7 if !profiles.book.is_empty() => {
            profiles.book.remove(random.below(profiles.book.len()));
        }
        8 | 9 if point.stop => point.held = !point.held,
        10 => move_country(profiles, any),
        11 | 12 => change_skips(random, profiles),
        13 => {
            swap_names(random, profiles);
            change_skips(random, profiles);
        }
        _ => profiles.journey.operational = Some(random.next() as u32),
    }
}

/// About half of the stops are skipped, or skipped no longer.
fn change_skips(random: &mut Random, profiles: &mut Profiles) {
    for point in profiles.journey.points.iter_mut().filter(|point| point.stop) {
        point.skipped ^= random.chance(50);
    }
}

/// Two points change their names, in the journey and in the book.
fn swap_names(random: &mut Random, profiles: &mut Profiles) {
    let points = &mut profiles.journey.points;
    let (one, other) = (random.below(points.len()), random.below(points.len()));
    let (first, second) = (points[one].nidtp, points[other].nidtp);
    (points[one].nidtp, points[other].nidtp) = (second, first);
    for point in profiles.book.iter_mut().flat_map(|record| &mut record.points) {
        point.nidtp = match point.nidtp {
            name if name == first => second,
            name if name == second => first,
            name => name,
        };
    }
}

/// The point's segment to another country, where there is none of that name.
fn move_country(profiles: &mut Profiles, k: usize) {
    let index = usize::from(profiles.journey.points[k].segment);
    let (nidc, nidsp) = profiles.journey.segments[index];
    let other = (nidc ^ 1, nidsp);
    if profiles.journey.segments.contains(&other) || profiles.record_of(other).is_some() {
        return;
    }
    if let Some(record) = profiles.record_of((nidc, nidsp)) {
        record.nidc = other.0;
    }
    profiles.journey.segments[index] = other;
}

fn move_end(random: &mut Random, profiles: &mut Profiles) {
    let points = &mut profiles.journey.points;
    points.iter_mut().for_each(|point| point.end = false);
    let end = random.below(points.len());
    points[end].end = true;
}

fn drop_first_point(profiles: &mut Profiles) {
    if profiles.journey.points.len() > 1 {
        let gone = profiles.journey.points.remove(0);
        profiles.journey.points[0].end |= gone.end;
    }
}

fn drop_first_segment(profiles: &mut Profiles) {
    let kept = profiles.journey.points.iter().filter(|point| point.segment > 0).count();
    if kept == 0 {
        return;
    }
    profiles.journey.segments.remove(0);
    profiles.journey.points.retain(|point| point.segment > 0);
    let points = &mut profiles.journey.points;
    points.iter_mut().for_each(|point| point.segment -= 1);
    if points.iter().all(|point| !point.end) {
        points[0].end = true;
    }
}

/// The record of the train's segment: shorter, a zone about the train, or another R.
fn change_record(random: &mut Random, profiles: &mut Profiles, engine: &Engine) {
    let position = engine.now.position;
    let Some(record) = profiles.record_of((position.nidc, position.nidsp)) else { return };
    match random.below(3) {
        0 => {
            let least = record.points.iter().map(|point| point.place).max().unwrap_or(1).max(1);
            record.zones.clear();
            record.length = random.between(least, record.length.max(least));
        }
        1 if position.offset <= record.length => record.zones = vec![(position.offset, position.offset)],
        _ => record.points.iter_mut().for_each(|point| point.reach = random.pick(&[0, 150, 10_000])),
    }
}
