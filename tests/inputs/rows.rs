//! Calls to be measured: each kind of event, costly reports and loads, small loads, refusals.

use crate::constraints;
use crate::profiles::Profiles;
use crate::sizes::{largest, point_name, profiles, reversed, segment};
use model::adhesion::CONSTRAINTS_MOST;
use model::calls::Call;
use model::packets::TractionBrake;

pub struct Row {
    pub name: &'static str,
    /// The calls that lead to it.
    pub before: Vec<Call>,
    /// The call that is measured.
    pub call: Call,
    /// How many times the engine's size it may copy: once. A load has no bound.
    pub most: Option<usize>,
}

/// At an offset of the k-th segment.
pub fn at(k: usize, offset: u32, speed: u16) -> Call {
    let (nidc, nidsp) = segment(k);
    Call::position(nidc, nidsp, offset, speed)
}

pub fn on() -> Vec<Call> {
    vec![Call::power_on(), Call::length(20)]
}

/// Ready, standing at the beginning of the k-th segment.
pub fn ready(profiles: &Profiles, k: usize) -> Vec<Call> {
    let calls = [Call::reports(31), profiles.load(), at(k, 500, 0), Call::configured()];
    [on(), calls.to_vec()].concat()
}

/// Engaged there.
pub fn engaged(profiles: &Profiles, k: usize) -> Vec<Call> {
    [ready(profiles, k), vec![Call::press(), Call::mode(1)]].concat()
}

/// A traction request, which writes packet 61 where it is the first since EG was entered.
pub fn traction() -> Call {
    Call::traction(50, TractionBrake::default())
}

fn bounded(name: &'static str, before: &[Call], call: Call) -> Row {
    Row { name, before: before.to_vec(), call, most: Some(1) }
}

fn load(name: &'static str, before: &[Call], profiles: &Profiles) -> Row {
    Row { name, before: before.to_vec(), call: profiles.load(), most: None }
}

pub fn rows() -> Vec<Row> {
    let largest = largest();
    let (first, last) = (ready(&largest, 0), ready(&largest, 39));
    let mut rows = vec![
        bounded("report without change, segment 1", &first, at(0, 500, 0)),
        bounded("report without change, segment 40", &last, at(39, 500, 0)),
        bounded("power on", &[], Call::power_on()),
        bounded("configured", &first[..5], Call::configured()),
        bounded("fault", &first, Call::fault()),
        bounded("reports", &first, Call::reports(30)),
        bounded("mode", &first, Call::mode(1)),
        bounded("lever", &first, Call::lever(2)),
        bounded("press", &first, Call::press()),
        bounded("train length", &first, Call::length(30)),
        bounded("traction request", &engaged(&largest, 0), traction()),
        bounded("report that passes 64 points", &first, at(39, 9_000, 100)),
        bounded("power off", &first, Call::power_off()),
    ];
    rows.extend(at_held_stop(largest.clone()));
    rows.extend(skips(&first));
    rows.extend(slippery_rail(&first));
    rows.extend(loads(&first, largest));
    rows
}

/// The first stop is held: it becomes reached, and a press is refused there.
fn at_held_stop(mut profiles: Profiles) -> Vec<Row> {
    profiles.journey.points[0].held = true;
    let (before, report) = (ready(&profiles, 0), at(0, 1_000, 0));
    let reached = [&before[..], &[report.clone()]].concat();
    vec![
        bounded("report that reaches a held stop", &before, report),
        bounded("refused: press at a held stop", &reached, Call::press()),
    ]
}

fn skips(ready: &[Call]) -> Vec<Row> {
    let point_63 = point_name(39, 0);
    let skipped = [ready, &[Call::skip(point_63)]].concat();
    vec![
        bounded("driver skip of point 63", ready, Call::skip(point_63)),
        bounded("its revocation", &skipped, Call::revoke(point_63)),
        bounded("refused: skip of an unknown name", ready, Call::skip(99_999_999)),
        bounded("refused: unknown kind", ready, Call::of(vec![255])),
    ]
}

/// As many rows of slippery rail as there can be.
pub fn most_rows() -> Call {
    Call::adhesion(&constraints::rows(CONSTRAINTS_MOST))
}

/// In place of as many.
fn slippery_rail(ready: &[Call]) -> Vec<Row> {
    let before = [ready, &[most_rows()]].concat();
    let reversed = constraints::changed(CONSTRAINTS_MOST, 30, |row| row.end = 0);
    vec![
        bounded("slippery rail, 31 rows", &before, most_rows()),
        bounded("slippery rail, no row", &before, Call::adhesion(&[])),
        bounded("refused: last of 31 rows reversed", &before, Call::adhesion(&reversed)),
    ]
}

fn loads(ready: &[Call], largest: Profiles) -> Vec<Row> {
    let cut = Profiles { book_cut: 1, ..largest.clone() };
    let mut skipped = largest.clone();
    skipped.journey.points.iter_mut().for_each(|point| point.skipped = true);
    let small = |segments| profiles(segments, 16, segments);
    vec![
        load("refused: largest book cut by a byte", ready, &cut),
        load("largest load, journey order", &on(), &largest),
        load("largest load, reverse order", &on(), &reversed(largest)),
        load("largest load, 64 trackside skips", ready, &skipped),
        load("load of 1 segment, 16 points", &on(), &small(1)),
        load("load of 2 segments, 16 points", &on(), &small(2)),
        load("load of 4 segments, 16 points", &on(), &small(4)),
    ]
}
