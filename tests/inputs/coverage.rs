//! Counts what the lists of calls bring up.

use crate::constraints::PLACE_MOST;
use model::adhesion::{in_range, rows_of, Constraint, CONSTRAINTS_MOST};
use model::calls::Call;
use model::engine::{behind_front, written, Answer, Engine, Refused, Traction, TURNED_DOWN};
use model::engine::{AV, CO, DE, EG, FA, NA, NP, RE};
use model::events::{ADHESION, LOAD, POSITION_REPORT, TRACTION, UNDEFINED};
use model::packets::{split_packets, Content, Packet};
use model::route::{Point, Segment};
use model::words::STATES;
use std::collections::BTreeMap;

/// A kind 15 that is taken, by the state that it comes in.
const TAKEN_IN: [(u8, &str); 6] = [
    (CO, "slippery rail in CO"),
    (NA, "slippery rail in NA"),
    (AV, "slippery rail in AV"),
    (RE, "slippery rail in RE"),
    (EG, "slippery rail in EG"),
    (DE, "slippery rail in DE"),
];

#[derive(Default)]
pub struct Coverage {
    pub lists: usize,
    pub calls: usize,
    kinds: BTreeMap<u8, usize>,
    states: BTreeMap<u8, usize>,
    numbers: BTreeMap<u8, usize>,
    packets: BTreeMap<String, usize>,
    moves: BTreeMap<(u8, u8), usize>,
    /// Traction requests, also refused ones, by the state that they come in.
    requests: BTreeMap<u8, usize>,
    /// From the range that was remembered, if one was, to that of the request.
    jumps: BTreeMap<(Option<u8>, u8), usize>,
    situations: BTreeMap<&'static str, usize>,
    /// Loads that are turned down, by number and by what is known of the position.
    turned_down: BTreeMap<(u8, &'static str), usize>,
    /// The stop that is reached was crept at.
    crept: bool,
    /// The last call was a load that is turned down.
    just_turned_down: bool,
    /// The last load came while a held stop was reached and kept the hold, and no stop was reached since.
    hold_kept: bool,
}

/// The segment on which the position is known.
fn known_segment(engine: &Engine) -> Option<&Segment> {
    let (now, route) = (&engine.now, &engine.route);
    let segment = route.segments()[..usize::from(route.placed_segments)].get(usize::from(now.segment?))?;
    (now.position.offset <= segment.length).then_some(segment)
}

/// How far the train is beyond the first point not passed, which is placed, and the point's R; `None` unless the
/// position is known.
fn beyond_first(engine: &Engine) -> Option<(i64, i64)> {
    let (now, segment) = (&engine.now, known_segment(engine)?);
    let point = &engine.route.points()[usize::from(now.first)];
    let front = i64::from(segment.start) + i64::from(now.position.offset);
    let d = front - i64::from(behind_front(now.length, point.alignment)) - i64::from(point.place);
    Some((d, i64::from(point.reach)))
}

/// The held stop that is reached.
pub(crate) fn held_stop(engine: &Engine) -> Option<&Point> {
    let point = engine.route.points().get(usize::from(engine.now.first));
    point.filter(|point| engine.now.reached && point.held)
}

impl Coverage {
    pub fn count(&mut self, call: &Call, before: &Engine, after: &Engine, answer: Result<Answer, Refused>, out: &[u8]) {
        self.calls += 1;
        split_packets(&out[..written(answer)]).iter().for_each(|packet| self.count_packet(packet));
        self.count_presses(call, before, answer.err().map(|refused| refused.number));
        if call.event.first() == Some(&TRACTION) {
            *self.requests.entry(before.now.state).or_default() += 1;
        }
        self.count_rows_shown(call, before, after, answer.is_ok());
        match answer {
            Err(Refused { number, .. }) => {
                *self.numbers.entry(number).or_default() += 1;
                if TURNED_DOWN.contains(&number) {
                    self.count_turned_down(number, before);
                }
                if call.event.first() == Some(&ADHESION) {
                    self.count_adhesion_refused(&call.event, before, number);
                }
            }
            Ok(Answer { state, bytes, .. }) => {
                *self.kinds.entry(call.event[0]).or_default() += 1;
                *self.states.entry(state).or_default() += 1;
                *self.moves.entry((before.now.state, state)).or_default() += 1;
                self.count_situations(call.event[0], before, after);
                self.count_creeps(call.event[0], before, after, bytes);
                self.count_traction(call.event[0], before, after, bytes);
                self.count_holds(call.event[0], before, after);
                match call.event[0] {
                    LOAD => self.count_trackside(before, after),
                    ADHESION => self.count_adhesion(&rows_of(&call.event), before),
                    _ => {}
                }
            }
        }
        self.just_turned_down = answer.is_err_and(|refused| TURNED_DOWN.contains(&refused.number));
    }

    /// Situations that document 01's edges lie in.
    fn count_situations(&mut self, kind: u8, before: &Engine, after: &Engine) {
        let (was, now) = (&before.now, &after.now);
        let (load, report) = (kind == LOAD, kind == POSITION_REPORT);
        let points = after.route.points().len() as u8;
        let segment = now.segment.map(|k| after.route.segments()[usize::from(k)]);
        let beyond = |s: &Segment| s.booked && now.position.offset > s.length;
        let mut note = |name, holds: bool| *self.situations.entry(name).or_default() += usize::from(holds);
        note("load at a reached stop", load && was.reached);
        note("load in EG", load && was.state == EG);
        note("load puts points behind", load && now.first > 0);
        note("load leaves none", load && now.first == points);
        note(
            "held offset beyond the new length",
            load && segment.is_some_and(|s| beyond(&s) && now.position.offset != UNDEFINED),
        );
        note("several points passed in a report", report && now.first >= was.first + 2);
        note("departed and passed more", report && was.reached && now.first >= was.first + 2);
        note("stop reached in EG", report && was.state == EG && now.reached && !was.reached);
        note("End of Journey not the last point", load && after.route.end + 1 < points);
        note("End of Journey reached as a stop", report && now.reached && now.first == after.route.end && !was.reached);
        note("target not placed", now.loaded && now.first < points && now.first >= after.route.placed_points);
        note("offset undefined, journey loaded", now.loaded && now.position.offset == UNDEFINED);
        note("on a journey segment not booked", segment.is_some_and(|s| !s.booked));
        note(
            "booked segment not placed",
            now.segment.is_some_and(|k| k >= after.route.placed_segments && segment.is_some_and(|s| s.booked)),
        );
        note("within a zone", now.conditions & 0x80 == 0);
        note("driver skip in force", now.skips != 0);
        note("reached stop held in EG", now.reached && now.state == EG);
        note("load accepted after one turned down", load && self.just_turned_down);
    }

    /// Reports at a reached stop, by document 02: one that does not depart writes no other packet than 68.
    fn count_creeps(&mut self, kind: u8, before: &Engine, after: &Engine, bytes: usize) {
        let (was, now) = (&before.now, &after.now);
        let report = kind == POSITION_REPORT && was.reached;
        let stays = report && now.first == was.first;
        let creeps = stays && now.speed > 0;
        let place = if stays { beyond_first(after) } else { None };
        let mut note = |name, holds: bool| *self.situations.entry(name).or_default() += usize::from(holds);
        note("crept within R", creeps && place.is_some_and(|(d, reach)| -reach <= d && d <= reach));
        note("crept behind -R", creeps && place.is_some_and(|(d, reach)| d < -reach));
        note("crept, position unknown", creeps && place.is_none());
        note("stood beyond R, still reached", stays && now.speed == 0 && place.is_some_and(|(d, reach)| d > reach));
        note("68 at the start of a creep", creeps && was.speed == 0 && bytes > 0);
        note("creep begun in EG, no 68", creeps && was.speed == 0 && now.state == EG && bytes == 0);
        note("departed", report && now.first > was.first);
        note("departed after a creep", report && now.first > was.first && self.crept);
        note("load after a creep", kind == LOAD && self.crept);
        self.crept = now.reached && (creeps || self.crept);
    }

    /// What is remembered of traction requests, and whether packet 61 is written: a request writes no other.
    fn count_traction(&mut self, kind: u8, before: &Engine, after: &Engine, bytes: usize) {
        let (was, now) = (&before.now, &after.now);
        let (request, written) = (kind == TRACTION, bytes > 0);
        let range = |traction: Option<Traction>| traction.map(|traction| traction.range);
        let counted = matches!(was.state, EG | DE);
        if let (true, true, Some(to)) = (request, counted, range(now.traction)) {
            *self.jumps.entry((range(was.traction), to)).or_default() += 1;
        }
        let mut note = |name, holds: bool| *self.situations.entry(name).or_default() += usize::from(holds);
        note("request written in EG", request && was.state == EG && written);
        note("request written in DE", request && was.state == DE && written);
        note("request in EG as remembered", request && was.state == EG && !written);
        note("request in DE as remembered", request && was.state == DE && !written);
        note("request elsewhere, one remembered", request && !counted && was.traction.is_some());
        note("request with another SupTB alone", request && written && range(was.traction) == range(now.traction));
        note("first request in DE", request && was.state == DE && was.traction.is_none());
        note("request remembered from EG to DE", was.state == EG && now.state == DE && was.traction.is_some());
        note("request forgotten at EG", was.state != EG && now.state == EG && was.traction.is_some());
        note("request forgotten at power off", now.state == NP && was.traction.is_some());
    }

    /// Held stops, by document 02: a press that is refused there, and one that is not.
    fn count_presses(&mut self, call: &Call, before: &Engine, number: Option<u8>) {
        let (now, press) = (&before.now, call.event == [8]);
        let held = held_stop(before);
        let place = if now.reached { beyond_first(before) } else { None };
        let refused = press && number == Some(20);
        let mut note = |name, holds: bool| *self.situations.entry(name).or_default() += usize::from(holds);
        note("press at a held stop", refused);
        note("press at a held stop, one pending", refused && now.press);
        note("press at a held stop in a creep", refused && self.crept);
        note("press at a held stop behind -R", refused && place.is_some_and(|(d, reach)| d < -reach));
        note("press at a held stop, position unknown", refused && place.is_none());
        note("press outside RE at a held stop", press && number == Some(6) && held.is_some());
        note("press taken at a reached stop not held", press && number.is_none() && now.reached);
        note("press taken, held stop targeted", press && number.is_none() && held.is_none() && self.hold_kept);
    }

    /// Held stops that become reached, and how they are left.
    fn count_holds(&mut self, kind: u8, before: &Engine, after: &Engine) {
        let (was, now) = (&before.now, &after.now);
        let (report, old) = (kind == POSITION_REPORT, held_stop(before));
        let became = report && now.reached && !was.reached && held_stop(after).is_some();
        let mut note = |name, holds: bool| *self.situations.entry(name).or_default() += usize::from(holds);
        note("held stop reached", became);
        note("held stop reached, a press pending", became && now.press && now.state == RE);
        note("held stop reached in EG", became && was.state == EG);
        note("held stop reached, End of Journey", became && now.first == after.route.end);
        note("held stop reached again after a load", became && self.hold_kept);
        note("engaged at a held stop", was.state != EG && now.state == EG && old.is_some());
        note("held stop departed", report && old.is_some() && now.first > was.first);
        note("held and skipped", now.loaded && after.route.points().iter().any(|point| point.held && point.skipped));
        note("power off at a held stop", now.state == NP && old.is_some());
        note("fault at a held stop", now.state == FA && old.is_some());
        self.hold_kept &= now.loaded && !now.reached;
        if kind == LOAD {
            self.count_loads_at_held_stop(before, after);
        }
    }

    /// What a load makes of the held stop that is reached.
    fn count_loads_at_held_stop(&mut self, before: &Engine, after: &Engine) {
        let (was, now) = (&before.now, &after.now);
        let old = held_stop(before);
        let new = after.route.points().iter().find(|point| old.is_some_and(|old| old.nidtp == point.nidtp));
        let ends = old.is_some() && new.is_none_or(|point| !point.held);
        let keeps = new.filter(|point| point.held);
        let behind = keeps.is_some_and(|point| after.route.points()[..usize::from(now.first)].contains(point));
        let nidc = |engine: &Engine, point: &Point| engine.route.segments()[usize::from(point.segment)].nidc;
        let abroad = new.zip(old).is_some_and(|(new, old)| nidc(after, new) != nidc(before, old));
        let mut note = |name, holds: bool| *self.situations.entry(name).or_default() += usize::from(holds);
        note("hold ended, no such point", ends && new.is_none());
        note("hold ended, stop", ends && new.is_some_and(|point| point.stop && !point.skipped));
        note("hold ended, skipped stop", ends && new.is_some_and(|point| point.skipped));
        note("hold ended, passing point", ends && new.is_some_and(|point| !point.stop));
        note("hold ended, in another country", ends && abroad);
        note("hold ended with a press pending", ends && now.press);
        note("hold ended in EG", ends && was.state == EG);
        note("hold ended, End of Journey behind", ends && after.route.end < now.first);
        note("hold kept", keeps.is_some());
        note("hold kept, skipped", keeps.is_some_and(|point| point.skipped));
        note("hold kept, in another country", keeps.is_some() && abroad);
        note("hold kept, put behind", behind);
        note("no hold ended, stop not held", was.reached && old.is_none());
        self.hold_kept = keeps.is_some();
    }

    /// Trackside skips that a load gives and takes back, by document 02: each point in both journeys, as it was
    /// and as it is.
    fn count_trackside(&mut self, before: &Engine, after: &Engine) {
        let (was, now) = (&before.now, &after.now);
        let (old, new) = (before.route.points(), after.route.points());
        let in_both = |k: usize| Some((old.iter().position(|point| point.nidtp == new[k].nidtp)?, k));
        let mut changed: Vec<(usize, usize)> = (0..new.len()).filter_map(in_both).collect();
        changed.retain(|&(i, k)| old[i].skipped != new[k].skipped);
        let some = was.loaded && !changed.is_empty();
        // the model keeps the points of the journey before power off
        let first = !was.loaded && !changed.is_empty();
        *self.situations.entry("first journey, other skips before power off").or_default() += usize::from(first);
        if !was.loaded {
            changed.clear();
        }
        let any = |holds: &dyn Fn(&Point, &Point) -> bool| changed.iter().any(|&(i, k)| holds(&old[i], &new[k]));
        let at = |holds: &dyn Fn(usize, usize) -> bool| changed.iter().any(|&(i, k)| holds(i, k));
        let nidc = |engine: &Engine, point: &Point| engine.route.segments()[usize::from(point.segment)].nidc;
        let (gained, lost) = (any(&|_, point| point.skipped), any(&|point, _| point.skipped));
        let ended = held_stop(before).filter(|point| !after.route.holds(point.nidtp));
        let placed = usize::from(after.route.placed_points);
        let mut note = |name, holds: bool| *self.situations.entry(name).or_default() += usize::from(holds);
        note("trackside skip gained", gained);
        note("trackside skip lost", lost);
        note("trackside skips gained and lost", gained && lost);
        note("trackside skips in another order", changed.windows(2).any(|pair| pair[0].0 > pair[1].0));
        note("trackside skip, at another index", at(&|i, k| i != k));
        note("trackside skip, in another country", any(&|old, new| nidc(before, old) != nidc(after, new)));
        note("trackside skip, alignment another", any(&|old, new| old.alignment != new.alignment));
        note("trackside skip, put behind", at(&|_, k| k < usize::from(now.first)));
        note("trackside skip, not placed", at(&|_, k| k >= placed));
        note("trackside skip gained, was a passing point", any(&|point, _| !point.stop));
        note("trackside skip lost, is a passing point", any(&|_, point| !point.stop));
        note("trackside skip gained, driver skipped it", at(&|i, k| new[k].skipped && was.skips >> i & 1 == 1));
        note("trackside skip lost, driver skipped it", at(&|i, _| old[i].skipped && was.skips >> i & 1 == 1));
        note("trackside skip gained at a reached stop", at(&|i, _| was.reached && i == usize::from(was.first)));
        note("hold ended, other skips changed", ended.is_some_and(|held| any(&|_, point| point.nidtp != held.nidtp)));
        note("trackside skip, End of Journey behind", some && after.route.end < now.first);
        note("trackside skip in EG", some && was.state == EG);
        note("trackside skip with a press pending", some && now.press);
        note("trackside skip, one turned down before", some && self.just_turned_down);
        note("trackside skips, ten and more", changed.len() >= 10);
        note("trackside skip, 68 behind", some && (was.state, was.conditions) != (now.state, now.conditions));
    }

    /// Slippery rail, by document 02: a kind 15 that is taken, the rows before it, and what it leaves as it is.
    fn count_adhesion(&mut self, rows: &[Constraint], before: &Engine) {
        let (was, count, had) = (&before.now, rows.len(), before.constraints.len());
        let any = |holds: fn(&Constraint) -> bool| rows.iter().any(holds);
        let mut note = |name, holds: bool| *self.situations.entry(name).or_default() += usize::from(holds);
        TAKEN_IN.into_iter().for_each(|(state, name)| note(name, was.state == state));
        note("slippery rail: no row, none before", count == 0 && had == 0);
        note("slippery rail: no row in place of some", count == 0 && had > 0);
        note("slippery rail: fewer rows than before", count > 0 && count < had);
        note("slippery rail: more rows than before", had > 0 && count > had);
        note("slippery rail: the same rows again", count > 0 && rows == before.constraints);
        note("slippery rail: one row", count == 1);
        note("slippery rail: 31 rows", count == CONSTRAINTS_MOST);
        note("slippery rail: 31 rows in place of 31 others", had == count && count == CONSTRAINTS_MOST);
        note("slippery rail: start is end", any(|row| row.start == row.end));
        note("slippery rail: start and end at 16,777,215", any(|row| row.start == PLACE_MOST));
        note("slippery rail: NID_C 1,023", any(|row| row.nidc == 1023));
        note("slippery rail: no journey", !was.loaded);
        note("slippery rail: offset undefined", was.position.offset == UNDEFINED);
        note("slippery rail: the train moves", was.speed > 0);
        note("slippery rail: a press pending", was.press);
        note("slippery rail: at a reached stop", was.reached);
        note("slippery rail: at a reached stop in EG", was.reached && was.state == EG);
        note("slippery rail: a request remembered", was.traction.is_some());
        note("slippery rail: driver skip in force", was.skips != 0);
    }

    /// Kinds 15 that are refused: what is wrong with them, and what is wrong further behind.
    fn count_adhesion_refused(&mut self, event: &[u8], engine: &Engine, number: u8) {
        let (rows, state) = (rows_of(event), engine.now.state);
        let told = usize::from(event.get(1).copied().unwrap_or(0));
        let (size, fitting) = (event.len(), 2 + 16 * told);
        let reversed = rows.iter().position(|row| row.start > row.end);
        let beyond = rows.iter().rposition(|row| !in_range(&[*row]));
        let by = |which: u8| number == which;
        let mut note = |name, holds: bool| *self.situations.entry(name).or_default() += usize::from(holds);
        note("slippery rail, 1: one byte", by(1) && size == 1);
        note("slippery rail, 1: a byte less", by(1) && size > 1 && size + 1 == fitting);
        note("slippery rail, 1: a byte more", by(1) && size == fitting + 1);
        note("slippery rail, 1: a row less", by(1) && size + 16 == fitting);
        note("slippery rail, 1: a row more", by(1) && size == fitting + 16);
        note("slippery rail, 1: a count over 31", by(1) && told > CONSTRAINTS_MOST);
        note("slippery rail, 2: 32 rows", by(2) && told == 32);
        note("slippery rail, 2: 255 rows", by(2) && told == 255);
        note("slippery rail, 2: NID_C", by(2) && rows.iter().any(|row| row.nidc > 1023));
        note("slippery rail, 2: start", by(2) && rows.iter().any(|row| row.start > PLACE_MOST));
        note("slippery rail, 2: end", by(2) && rows.iter().any(|row| row.end > PLACE_MOST));
        note("slippery rail, 2: in the last row of several", by(2) && told > 1 && beyond == Some(told - 1));
        note("slippery rail, 2: a row before it reversed", by(2) && reversed.is_some() && reversed < beyond);
        note("slippery rail, 21: the first row", by(21) && told > 1 && reversed == Some(0));
        note("slippery rail, 21: the last row of several", by(21) && told > 1 && reversed == Some(told - 1));
        note("slippery rail, 21: of 31 rows", by(21) && told == CONSTRAINTS_MOST);
        note("slippery rail, 21: in NP", by(21) && state == NP);
        note("slippery rail, 21: in FA", by(21) && state == FA);
        note("slippery rail, 21: in EG", by(21) && state == EG);
        note("slippery rail, 3", by(3));
        note("slippery rail, 5", by(5));
    }

    /// What other events, and kinds 15 that are refused, leave of the rows.
    fn count_rows_shown(&mut self, call: &Call, before: &Engine, after: &Engine, accepted: bool) {
        let (was, now) = (&before.now, &after.now);
        let some = !before.constraints.is_empty();
        let kind = |which: u8| some && call.event.first() == Some(&which);
        let mut note = |name, holds: bool| *self.situations.entry(name).or_default() += usize::from(holds);
        note("rows kept over a load", accepted && kind(LOAD));
        note("rows kept over a load that is refused", !accepted && kind(LOAD));
        note("rows kept over a report", accepted && kind(POSITION_REPORT));
        note("rows kept where EG is entered", some && was.state != EG && now.state == EG);
        note("rows kept over a fault", some && was.state != FA && now.state == FA);
        note("rows kept, others refused", !accepted && kind(ADHESION));
        note("rows gone at power off", some && was.state != NP && now.state == NP);
        note("rows gone at power off in FA", some && was.state == FA && now.state == NP);
    }

    /// Loads that are turned down, by document 02.
    fn count_turned_down(&mut self, number: u8, engine: &Engine) {
        let position = match known_segment(engine) {
            _ if !engine.now.loaded => "no journey",
            None => "unknown",
            Some(_) => "known",
        };
        *self.turned_down.entry((number, position)).or_default() += 1;
        self.count_kept(engine);
    }

    /// What such a load leaves as it is, and where the train is then.
    fn count_kept(&mut self, engine: &Engine) {
        let now = &engine.now;
        let booked = now.segment.map(|k| engine.route.segments()[usize::from(k)].booked);
        let placed = now.segment.is_some_and(|k| k < engine.route.placed_segments);
        let undefined = now.position.offset == UNDEFINED;
        let mut note = |name, holds: bool| *self.situations.entry(name).or_default() += usize::from(holds);
        note("turned down again at once", self.just_turned_down);
        note("turned down in EG", now.state == EG);
        note("turned down in DE", now.state == DE);
        note("turned down with a press pending", now.press);
        note("turned down at a reached stop", now.reached);
        note("turned down at a held stop", held_stop(engine).is_some());
        note("turned down in a creep", now.reached && self.crept);
        note("turned down, points passed", now.loaded && now.first > 0);
        note("turned down, driver skip in force", now.skips != 0);
        note("turned down, request remembered", now.traction.is_some());
        note("turned down, offset undefined", now.loaded && undefined);
        note("turned down, offset beyond the length", placed && !undefined && known_segment(engine).is_none());
        note("turned down, on a segment not booked", booked == Some(false));
        note("turned down, booked segment not placed", booked == Some(true) && !placed);
    }

    fn count_packet(&mut self, bytes: &[u8]) {
        let name = match Packet::read(bytes).map(|packet| packet.content) {
            Ok(Content::Point { status, .. }) => format!("62/{status}"),
            Ok(Content::Load { status, .. }) => format!("65/{status}"),
            _ => bytes[0].to_string(),
        };
        *self.packets.entry(name).or_default() += 1;
    }

    /// The situations that no call brought up.
    pub fn missing(&self) -> Vec<&str> {
        self.situations.iter().filter(|(_, count)| **count == 0).map(|(name, _)| *name).collect()
    }

    pub fn print(&self) {
        let list = |counts: Vec<String>| counts.join("  ");
        let state = |(&state, count): (&u8, &usize)| format!("{} {count}", STATES[usize::from(state)]);
        println!("accepted by kind:   {}", list(self.kinds.iter().map(|(k, n)| format!("{k}: {n}")).collect()));
        println!("accepted, state:    {}", list(self.states.iter().map(state).collect()));
        println!("refused by number:  {}", list(self.numbers.iter().map(|(k, n)| format!("{k}: {n}")).collect()));
        let turned_down = |((number, position), count): (&(u8, &str), &usize)| format!("{number} {position}: {count};");
        println!("turned down:        {}", list(self.turned_down.iter().map(turned_down).collect()));
        println!("packets (/status):  {}", list(self.packets.iter().map(|(k, n)| format!("{k}: {n}")).collect()));
        let name = |state: u8| STATES[usize::from(state)];
        let moved = self.moves.iter().filter(|((from, to), _)| from != to);
        println!(
            "state changes:      {}",
            list(moved.map(|(&(a, b), n)| format!("{}>{} {n}", name(a), name(b))).collect())
        );
        println!("traction requests:  {}", list(self.requests.iter().map(state).collect()));
        let from = |range: Option<u8>| range.map_or("none".into(), |range| range.to_string());
        let jump = |(&(was, now), count): (&(Option<u8>, u8), &usize)| format!("{}>{now} {count}", from(was));
        println!("ranges:             {}", list(self.jumps.iter().map(jump).collect()));
        println!("situations:         {}", list(self.situations.iter().map(|(k, n)| format!("{k}: {n};")).collect()));
    }
}
