//! Trials of events, books and journeys alone: each cause of a number by itself, pairs of rows, and the last values that
//! are still accepted. Each says which number it expects; `None` is accepted.

use crate::constraints::GREATEST;
use crate::faults::{good_events, reversed_rows, wrong_lengths, wrong_ranges, Fault, BOOK_FAULTS, JOURNEY_FAULTS};
use crate::profiles::{base, greatest_values, record, Profiles};
use model::adhesion::CONSTRAINTS_MOST;
use model::calls::Call;
use model::packets::TractionBrake;
use model::values::{JourneyPoint, Record, RecordPoint};

pub struct Trial {
    pub name: String,
    pub call: Call,
    pub expected: Option<u8>,
}

fn trial(name: impl Into<String>, call: Call, expected: Option<u8>) -> Trial {
    Trial { name: name.into(), call, expected }
}

/// The events of 1, 2 and 21, each by itself and 1 with one of the others; they are refused alike in every state.
fn event_trials() -> Vec<Trial> {
    let name = |event: &[u8]| format!("event {event:02X?}");
    let mut trials = Vec::new();
    for event in wrong_lengths() {
        trials.push(trial(name(&event), Call::of(event), Some(1)));
    }
    for (events, number) in [(wrong_ranges(), 2), (reversed_rows(), 21)] {
        for event in events {
            trials.push(trial(name(&event), Call::of(event.clone()), Some(number)));
            let longer = [&event[..], &[0]].concat();
            trials.push(trial(name(&longer), Call::of(longer), Some(1)));
        }
    }
    trials
}

fn faulty(faults: &[&Fault], which: usize) -> Profiles {
    let mut profiles = base();
    faults.iter().for_each(|fault| (fault.apply)(&mut profiles, which));
    profiles
}

/// Each fault by itself, at each record, segment or point.
fn single_faults() -> Vec<Trial> {
    let mut trials = Vec::new();
    for fault in BOOK_FAULTS.iter().chain(JOURNEY_FAULTS) {
        let mut seen: Vec<Call> = Vec::new();
        for which in 0..8 {
            let call = faulty(&[fault], which).load();
            if !seen.contains(&call) {
                trials.push(trial(fault.name, call.clone(), Some(fault.number)));
                seen.push(call);
            }
        }
    }
    trials
}

/// Two faults of neighbouring rows: the row above refuses, though its fault is put in last.
fn pairs() -> Vec<Trial> {
    let all: Vec<&Fault> = BOOK_FAULTS.iter().chain(JOURNEY_FAULTS).collect();
    let mut trials = Vec::new();
    for upper in &all {
        for lower in all.iter().filter(|lower| lower.number == upper.number + 1) {
            let name = format!("{} and {}", upper.name, lower.name);
            trials.push(trial(name, faulty(&[lower, upper], 1).load(), Some(upper.number)));
        }
    }
    trials
}

/// Journey and book cut at every byte.
fn cuts() -> Vec<Trial> {
    let (journey, book) = (base().journey_bytes(), base().book_bytes());
    let mut trials = Vec::new();
    for count in 0..journey.len() {
        let call = Call::load(journey[..count].to_vec(), book.clone());
        trials.push(trial(format!("journey cut to {count} bytes"), call, Some(9)));
    }
    let mut whole = Vec::new();
    for record in &base().book {
        let start = whole.len();
        record.write(&mut whole);
        for count in start + 1..whole.len() {
            let call = Call::load(journey.clone(), book[..count].to_vec());
            trials.push(trial(format!("book cut to {count} bytes"), call, Some(7)));
        }
    }
    trials
}

fn changed(change: impl Fn(&mut Profiles)) -> Call {
    let mut profiles = base();
    change(&mut profiles);
    profiles.load()
}

/// Refusals that depend on more than one record or point.
fn more_refusals() -> Vec<Trial> {
    let many = |count: u32| (0..count).map(|k| record(30, k, 1, &[], &[])).collect::<Vec<Record>>();
    let bad = Record { flip: 128, ..record(31, 0, 1, &[], &[]) };
    vec![
        trial("41 good records", changed(|p| p.book = many(41)), Some(8)),
        trial("200 good records", changed(|p| p.book = many(200)), Some(8)),
        trial("41 records, the last bad", changed(|p| p.book = [many(40), vec![bad.clone()]].concat()), Some(7)),
        trial(
            "segment twice before a bad record",
            changed(|p| p.book = [many(2), many(1), vec![bad.clone()]].concat()),
            Some(7),
        ),
        trial("first and last record alike", changed(|p| p.book = [many(40), many(1)].concat()), Some(8)),
        trial(
            "end of a segment and start of the next",
            changed(|p| {
                p.book[1].points[2].place = 100_000;
                p.book[0].points[1].place = 0;
            }),
            Some(12),
        ),
        trial("places fall across segments by index", changed(|p| p.journey.points.swap(1, 2)), Some(12)),
        trial("index falls behind the placed ones", changed(|p| p.journey.points.swap(4, 5)), Some(12)),
        trial("index 255", changed(|p| p.journey.points[7].segment = 255), Some(11)),
        trial("unplaced booked segment without the point", changed(|p| p.journey.points[6].nidtp = 7777), Some(11)),
        trial("point only in another record", changed(|p| p.journey.points[6].nidtp = 6000), Some(11)),
        trial("record without points", changed(|p| p.book[3].points.clear()), Some(11)),
        trial("last point twice", changed(|p| p.journey.points[4].nidtp = 7008), Some(11)),
        trial(
            "every point ends",
            changed(|p| p.journey.points.iter_mut().for_each(|point| point.end = true)),
            Some(11),
        ),
        trial("first and last segment alike", changed(|p| p.journey.segments[4] = (17, 500)), Some(10)),
    ]
}

/// The last values of a journey that no row refuses.
fn accepted_journeys() -> Vec<Trial> {
    let ok = |name: &str, call: Call| trial(name, call, None);
    let point = |change: fn(&mut JourneyPoint)| changed(move |p| change(&mut p.journey.points[0]));
    vec![
        ok("base", base().load()),
        ok("greatest values", greatest_values().load()),
        ok("empty book", changed(|p| p.book.clear())),
        ok(
            "optional fields absent",
            changed(|p| {
                (p.journey.operational, p.journey.atots) = (None, None);
                p.journey.points.iter_mut().for_each(|point| (point.alignment, point.stopping) = (None, None));
            }),
        ),
        ok("NID_OPERATIONAL FFFFFFFF written", changed(|p| p.journey.operational = Some(u32::MAX))),
        ok("date 32767", changed(|p| p.journey.date = 32_767)),
        ok("NID_ATOTS 16383", changed(|p| p.journey.atots = Some(16_383))),
        ok("stamp of greatest values", changed(|p| (p.journey.seconds, p.journey.counter) = (u32::MAX, 255))),
        ok("alignment 2", point(|p| p.alignment = Some(2))),
        ok("alignment 0 written", point(|p| p.alignment = Some(0))),
        ok("stopping data 127", point(|p| p.stopping = Some(127))),
        ok("stopping data on a passing point", point(|p| (p.stop, p.stopping) = (false, Some(127)))),
        ok(
            "NID_TP FFFFFFFE",
            changed(|p| {
                p.journey.points[0].nidtp = 0xFFFF_FFFE;
                p.book[1].points[0].nidtp = 0xFFFF_FFFE;
            }),
        ),
        ok(
            "End of Journey first",
            changed(|p| {
                p.journey.points[7].end = false;
                p.journey.points[0].end = true;
            }),
        ),
        ok("base again", base().load()),
    ]
}

/// Held stops: skipped ones too, the End of Journey, all.
fn accepted_holds() -> Vec<Trial> {
    let held = |name: &str, change: fn(&mut [JourneyPoint])| {
        trial(name, changed(|profiles| change(&mut profiles.journey.points)), None)
    };
    vec![
        held("held", |points| points[0].held = true),
        held("held and skipped", |points| points[2].held = true),
        held("End of Journey held", |points| points[7].held = true),
        held("every stop held", |points| points.iter_mut().for_each(|point| point.held = point.stop)),
    ]
}

/// The last values of a book that no row refuses.
fn accepted_books() -> Vec<Trial> {
    let ok = |name: &str, call: Call| trial(name, call, None);
    vec![
        ok(
            "NID_C 1023",
            changed(|p| (p.journey.segments[2].0, p.book[3].nidc, p.journey.segments[4].0) = (1023, 1023, 1023)),
        ),
        ok(
            "length 1",
            changed(|p| {
                p.book[3].length = 1;
                p.book[3].points[0].place = 1;
            }),
        ),
        ok("length 16777214", changed(|p| p.book[1].length = 16_777_214)),
        ok("R 10000", changed(|p| p.book[1].points[0].reach = 10_000)),
        ok("zone of one place at the end", changed(|p| p.book[1].zones = vec![(100_000, 100_000)])),
        ok("zones that overlap", changed(|p| p.book[1].zones = vec![(5, 50), (0, 10), (50, 60), (5, 50)])),
        ok(
            "NID_TP twice, in two records",
            changed(|p| p.book[0].points.push(RecordPoint { nidtp: 7001, place: 1, reach: 1 })),
        ),
        ok("same NID_SP under another NID_C", changed(|p| p.book.push(record(19, 500, 5, &[], &[])))),
        ok(
            "a place apart across segments",
            changed(|p| {
                p.book[1].points[2].place = 100_000;
                p.book[0].points[1].place = 1;
            }),
        ),
    ]
}

/// Loads in a state where they are accepted or refused by their profiles alone.
fn load_trials() -> Vec<Trial> {
    [single_faults(), pairs(), cuts(), more_refusals(), accepted_journeys(), accepted_holds(), accepted_books()]
        .into_iter()
        .flatten()
        .collect()
}

/// From a fresh engine: events in NP, CO and FA, then the loads in CO.
pub fn all_trials() -> Vec<Trial> {
    let bad_book = faulty(&[&BOOK_FAULTS[0]], 0).load();
    let longer = Call { event: vec![11, 0], ..base().load() };
    let mut trials = event_trials();
    for event in good_events().into_iter().skip(1) {
        trials.push(trial(format!("kind {} in NP", event[0]), Call::of(event), Some(3)));
    }
    trials.push(trial("bad book in NP", bad_book.clone(), Some(3)));
    trials.push(trial("power on", Call::power_on(), None));
    trials.extend(event_trials());
    trials.push(trial("kind 1 in CO", Call::power_on(), Some(4)));
    trials.push(trial("press in CO", Call::press(), Some(6)));
    trials.push(trial("load a byte too long, profiles good", longer, Some(1)));
    let content = TractionBrake { m_ato_trabrrq: 255, m_ato_locobrrq: 255, q_ato_suptb: 255, m_ato_rtbrq: 65_535 };
    for request in [-100, 100] {
        trials.push(trial(format!("request {request}, greatest content"), Call::traction(request, content), None));
    }
    for count in [0, 1, CONSTRAINTS_MOST] {
        trials.push(trial(format!("{count} greatest rows"), Call::adhesion(&vec![GREATEST; count]), None));
    }
    trials.extend(load_trials());
    trials.push(trial("fault", Call::fault(), None));
    trials.extend(event_trials());
    trials.push(trial("kind 1 in FA", Call::power_on(), Some(4)));
    trials.push(trial("bad book in FA", bad_book, Some(5)));
    for event in good_events().into_iter().filter(|event| event[0] != 1 && event[0] != 3) {
        trials.push(trial(format!("kind {} in FA", event[0]), Call::of(event), Some(5)));
    }
    trials.push(trial("power off", Call::power_off(), None));
    trials
}
