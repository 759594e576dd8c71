//! Wrong events, books and journeys: each cause of the numbers 1, 2, 21 and 7 to 12 by itself.

use crate::constraints::{PLACE_MOST, SLIPPERY};
use crate::profiles::Profiles;
use model::adhesion::Constraint;
use model::calls::Call;
use model::packets::TractionBrake;
use model::values::{JourneyPoint, Record, RecordPoint};

/// A fault with the number that refuses it. The `usize` picks the record or the point.
pub struct Fault {
    pub name: &'static str,
    pub number: u8,
    pub apply: fn(&mut Profiles, usize),
}

const fn fault(number: u8, name: &'static str, apply: fn(&mut Profiles, usize)) -> Fault {
    Fault { name, number, apply }
}

/// A record point by a name that nothing else uses.
fn extra_point(k: usize) -> RecordPoint {
    RecordPoint { nidtp: 900_000 + k as u32, place: 0, reach: 0 }
}

fn extra_record(k: usize) -> Record {
    Record { nidc: 900, nidsp: 900_000 + k as u32, length: 1, ..Record::default() }
}

impl Profiles {
    fn record(&mut self, which: usize) -> &mut Record {
        if self.book.is_empty() {
            self.book.push(Record { nidc: 1000, nidsp: 1, length: 100, ..Record::default() });
        }
        let count = self.book.len();
        &mut self.book[which % count]
    }

    fn point(&mut self, which: usize) -> &mut JourneyPoint {
        let count = self.journey.points.len();
        &mut self.journey.points[which % count]
    }

    fn record_point(&mut self, which: usize) -> &mut RecordPoint {
        let record = self.record(which);
        if record.points.is_empty() {
            record.points.push(extra_point(0));
        }
        let count = record.points.len();
        &mut record.points[which % count]
    }

    /// The record of the journey's segment with this index.
    fn record_at(&mut self, index: u8) -> Option<&mut Record> {
        let segment = *self.journey.segments.get(usize::from(index))?;
        self.record_of(segment)
    }
}

pub const BOOK_FAULTS: &[Fault] = &[
    fault(7, "record without NID_C", |p, k| p.record(k).flip ^= 1),
    fault(7, "record without NID_SP", |p, k| p.record(k).flip ^= 2),
    fault(7, "record without length", |p, k| p.record(k).flip ^= 4),
    fault(7, "record map without bit 0", |p, k| p.record(k).flip_map ^= 1),
    fault(7, "record map without bit 1", |p, k| p.record(k).flip_map ^= 2),
    fault(7, "record map without bit 2", |p, k| p.record(k).flip_map ^= 4),
    fault(7, "record map bit 5", |p, k| p.record(k).flip ^= 32),
    fault(7, "record map bit 6", |p, k| p.record(k).flip ^= 64),
    fault(7, "record map bit 7", |p, k| p.record(k).flip ^= 128),
    fault(7, "record NID_C 1024", |p, k| p.record(k).nidc = 1024),
    fault(7, "record NID_C 65535", |p, k| p.record(k).nidc = 65_535),
    fault(7, "length 0", |p, k| {
        let record = p.record(k);
        record.length = 0;
        record.zones.clear();
        record.points.iter_mut().for_each(|point| point.place = 0);
    }),
    fault(7, "length 16777215", |p, k| p.record(k).length = 16_777_215),
    fault(7, "length FFFFFFFF", |p, k| p.record(k).length = u32::MAX),
    fault(7, "record point count 0", |p, k| {
        let record = p.record(k);
        record.points.clear();
        record.flip ^= 8;
    }),
    fault(7, "17 record points", |p, k| {
        let record = p.record(k);
        (record.points.len()..17).for_each(|n| record.points.push(extra_point(n)));
    }),
    fault(7, "record NID_TP FFFFFFFF", |p, k| p.record_point(k).nidtp = u32::MAX),
    fault(7, "place beyond length", |p, k| {
        let length = p.record(k).length;
        p.record_point(k).place = length.saturating_add(1);
    }),
    fault(7, "R 10001", |p, k| p.record_point(k).reach = 10_001),
    fault(7, "zone count 0", |p, k| {
        let record = p.record(k);
        record.zones.clear();
        record.flip ^= 16;
    }),
    fault(7, "5 zones", |p, k| p.record(k).zones = vec![(0, 1); 5]),
    fault(7, "zone start after its end", |p, k| p.record(k).zones = vec![(1, 0)]),
    fault(7, "zone end beyond length", |p, k| {
        let length = p.record(k).length;
        p.record(k).zones = vec![(0, length.saturating_add(1))];
    }),
    fault(7, "book cut by a byte", |p, k| {
        p.record(k);
        p.book_cut = 1;
    }),
    fault(7, "book cut to the map of a record", |p, _| p.book_more.push(7)),
    fault(7, "0 behind the book", |p, _| p.book_more.push(0)),
    fault(8, "segment twice in the book", |p, k| {
        let record = p.record(k).clone();
        p.book.push(record);
    }),
    fault(8, "NID_TP twice in a record", |p, k| {
        let nidtp = p.record_point(k).nidtp;
        let record = p.record(k);
        record.points.truncate(15);
        record.points.insert(0, RecordPoint { nidtp, place: 0, reach: 7 });
    }),
    fault(8, "41 records", |p, _| (p.book.len()..41).for_each(|n| p.book.push(extra_record(n)))),
];

pub const JOURNEY_FAULTS: &[Fault] = &[
    fault(9, "empty journey", |p, _| p.journey_cut = 100_000),
    fault(9, "journey without stamp", |p, _| p.journey.flip ^= 2),
    fault(9, "journey without segments", |p, _| p.journey.flip ^= 8),
    fault(9, "journey without points", |p, _| p.journey.flip ^= 16),
    fault(9, "journey map without bit 1", |p, _| p.journey.flip_map ^= 2),
    fault(9, "journey map without bit 3", |p, _| p.journey.flip_map ^= 8),
    fault(9, "journey map without bit 4", |p, _| p.journey.flip_map ^= 16),
    fault(9, "journey map bit 5", |p, _| p.journey.flip ^= 32),
    fault(9, "journey map bit 6", |p, _| p.journey.flip ^= 64),
    fault(9, "journey map bit 7", |p, _| p.journey.flip ^= 128),
    fault(9, "date 32768", |p, _| p.journey.date = 32_768),
    fault(9, "NID_ATOTS 16384 written", |p, _| p.journey.atots = Some(16_384)),
    fault(9, "segment count 0", |p, _| p.journey.segments.clear()),
    fault(9, "41 segments", |p, _| {
        (p.journey.segments.len()..41).for_each(|n| p.journey.segments.push((901, n as u32)));
    }),
    fault(9, "journey NID_C 1024", |p, k| {
        let count = p.journey.segments.len();
        p.journey.segments[k % count].0 = 1024;
    }),
    fault(9, "point count 0", |p, _| p.journey.points.clear()),
    fault(9, "65 points", |p, _| {
        let last = p.journey.points.last().cloned().unwrap_or_default();
        let more = |n| JourneyPoint { nidtp: 800_000 + n as u32, end: false, ..last.clone() };
        (p.journey.points.len()..65).for_each(|n| p.journey.points.push(more(n)));
    }),
    fault(9, "NID_TP FFFFFFFF", |p, k| p.point(k).nidtp = u32::MAX),
    fault(9, "alignment 3", |p, k| p.point(k).alignment = Some(3)),
    fault(9, "stopping data 128", |p, k| p.point(k).stopping = Some(128)),
    fault(9, "point without NID_TP", |p, k| p.point(k).flip ^= 1),
    fault(9, "point without index", |p, k| p.point(k).flip ^= 2),
    fault(9, "point map without bit 0", |p, k| p.point(k).flip_map ^= 1),
    fault(9, "point map without bit 1", |p, k| p.point(k).flip_map ^= 2),
    fault(9, "skip without stop", |p, k| no_stop(p.point(k), true, false)),
    fault(9, "hold without stop", |p, k| no_stop(p.point(k), false, true)),
    fault(9, "skipped hold without stop", |p, k| no_stop(p.point(k), true, true)),
    fault(9, "journey cut by a byte", |p, _| p.journey_cut = 1),
    fault(9, "a byte behind the journey", |p, _| p.journey_more.push(0)),
    fault(10, "segment twice in the journey", |p, k| {
        let segment = p.journey.segments[k % p.journey.segments.len()];
        p.journey.segments.push(segment);
    }),
    fault(11, "index beyond", |p, _| {
        let count = p.journey.segments.len() as u8;
        p.journey.points.last_mut().unwrap().segment = count;
    }),
    fault(11, "NID_TP twice in the journey", |p, k| rename_last(p, k)),
    fault(11, "no End of Journey", |p, _| p.journey.points.iter_mut().for_each(|point| point.end = false)),
    fault(11, "two Ends of Journey", |p, k| {
        let first = p.journey.points.iter().position(|point| point.end).unwrap_or(0);
        p.point(first + 1 + k % 3).end = true;
        p.point(first).end = true;
    }),
    fault(11, "booked segment without the point", |p, k| {
        let booked = |p: &mut Profiles, n: usize| p.record_at(p.journey.points[n].segment).is_some();
        let found: Vec<usize> = (0..p.journey.points.len()).filter(|&n| booked(p, n)).collect();
        if !found.is_empty() {
            p.point(found[k % found.len()]).nidtp = 777_777;
        }
    }),
    fault(12, "index falls", |p, _| index_falls(p)),
    fault(12, "places equal", |p, _| move_place(p, 0)),
    fault(12, "places fall", |p, _| move_place(p, 1)),
];

/// A passing point that trackside skips or at which the train is held.
fn no_stop(point: &mut JourneyPoint, skipped: bool, held: bool) {
    (point.stop, point.skipped, point.held) = (false, skipped, held);
}

/// Gives the last point the name of another, in the book too.
fn rename_last(profiles: &mut Profiles, which: usize) {
    let others = profiles.journey.points.len() - 1;
    let nidtp = profiles.point(which % others.max(1)).nidtp;
    let last = profiles.journey.points.last_mut().unwrap();
    let old = std::mem::replace(&mut last.nidtp, nidtp);
    let segment = last.segment;
    if let Some(record) = profiles.record_at(segment) {
        let free = record.points.iter().all(|point| point.nidtp != nidtp);
        if let (true, Some(point)) = (free, record.points.iter_mut().find(|point| point.nidtp == old)) {
            point.nidtp = nidtp;
        }
    }
}

/// Lets the indices of two neighbouring points fall; swaps the points where their indices differ.
fn index_falls(profiles: &mut Profiles) {
    let points = &mut profiles.journey.points;
    if let Some(k) = (1..points.len()).rev().find(|&k| points[k - 1].segment < points[k].segment) {
        points.swap(k - 1, k);
    }
}

/// Puts the first two points of one segment at the same place, or swaps their places.
fn move_place(profiles: &mut Profiles, swap: usize) {
    let points = profiles.journey.points.clone();
    let Some(pair) = points.windows(2).find(|pair| pair[0].segment == pair[1].segment) else { return };
    let Some(record) = profiles.record_at(pair[0].segment) else { return };
    let find = |nidtp| record.points.iter().position(|point| point.nidtp == nidtp);
    let (Some(a), Some(b)) = (find(pair[0].nidtp), find(pair[1].nidtp)) else { return };
    let (first, second) = (record.points[a].place, record.points[b].place);
    record.points[b].place = first;
    record.points[a].place = [first, second][swap];
}

/// A good event of each kind.
pub fn good_events() -> Vec<Vec<u8>> {
    let calls = [
        Call::power_on(),
        Call::configured(),
        Call::power_off(),
        Call::fault(),
        Call::reports(31),
        Call::mode(1),
        Call::lever(2),
        Call::press(),
        Call::position(17, 500, 5, 9),
        Call::length(100),
        Call::load(vec![], vec![]),
        Call::skip(100),
        Call::revoke(100),
        Call::traction(-20, TractionBrake { m_ato_trabrrq: 1, m_ato_locobrrq: 2, q_ato_suptb: 3, m_ato_rtbrq: 0x0405 }),
        Call::adhesion(&SLIPPERY),
    ];
    calls.map(|call| call.event).to_vec()
}

/// Events that 1 refuses: empty, unknown kinds, each kind a byte too short and too long.
pub fn wrong_lengths() -> Vec<Vec<u8>> {
    let mut events = vec![vec![], vec![0], vec![16], vec![17], vec![128], vec![255], vec![0; 13]];
    for event in good_events() {
        events.push([&event[..], &[0]].concat());
        if event.len() > 1 {
            events.push(event[..event.len() - 1].to_vec());
            events.push(event[..1].to_vec());
        }
    }
    events
}

/// Events that 2 refuses, each for one field.
pub fn wrong_ranges() -> Vec<Vec<u8>> {
    let position = |nidc: u16, offset: u32| Call::position(nidc, 500, offset, 0);
    let mut calls: Vec<Call> = [32, 63, 64, 128, 255].map(Call::reports).to_vec();
    calls.extend([2, 128, 255].map(Call::mode));
    calls.extend([3, 4, 255].map(Call::lever));
    calls.extend([position(1024, 5), position(65_535, 5), position(17, 16_777_216), position(17, u32::MAX)]);
    calls.extend([0, 100_001, u32::MAX].map(Call::length));
    calls.extend([101, 127, -101, -128].map(|request| Call::traction(request, TractionBrake::default())));
    calls.extend([
        Call::adhesion(&[Constraint::default(); 32]),
        second_row(|row| row.nidc = 1024),
        second_row(|row| row.start = PLACE_MOST + 1),
        second_row(|row| row.end = PLACE_MOST + 1),
    ]);
    calls.into_iter().map(|call| call.event).collect()
}

/// Events that 21 refuses: a row is reversed, the last one and both.
pub fn reversed_rows() -> Vec<Vec<u8>> {
    let both = SLIPPERY.map(|row| Constraint { start: row.end + 1, ..row });
    [second_row(|row| row.start += 1), Call::adhesion(&both)].map(|call| call.event).to_vec()
}

fn second_row(change: fn(&mut Constraint)) -> Call {
    let mut rows = SLIPPERY;
    change(&mut rows[1]);
    Call::adhesion(&rows)
}
