//! The history rule and the engagement rule of document 01, with the departure, the range, the packet of a load that is
//! turned down, held stops, trackside skips and slippery rail of document 02, read
//! literally over the accepted events, and the States rows run over the conditions that follow from them. Nothing here
//! looks at an engine, but for the comparison at the end.

use crate::adhesion::Constraint;
use crate::calls::Call;
use crate::engine::{Engine, Refused, Standing, AV, CO, DE, EG, FA, NA, NP, RE};
use crate::events::{read_event, Event, Position, UNDEFINED};
use crate::values::{read_book, Journey, JourneyPoint, Record};
use std::rc::Rc;

/// The journey and the book of an accepted load.
#[derive(Debug)]
struct Load {
    journey: Journey,
    book: Vec<Record>,
}

impl Load {
    fn record(&self, segment: usize) -> Option<&Record> {
        self.book.iter().find(|record| record.segment() == self.journey.segments[segment])
    }

    /// It and all before it in the journey are in the book.
    fn placed(&self, segment: usize) -> bool {
        (0..=segment).all(|k| self.record(k).is_some())
    }

    /// The sum of the lengths before it.
    fn start(&self, segment: usize) -> i64 {
        (0..segment).map(|k| i64::from(self.record(k).unwrap().length)).sum()
    }

    fn segment_of(&self, position: Position) -> Option<usize> {
        self.journey.segments.iter().position(|&segment| segment == (position.nidc, position.nidsp))
    }

    /// Known: offset defined, its segment placed, the offset within its length.
    fn front(&self, position: Position) -> Option<i64> {
        let segment = self.segment_of(position)?;
        if position.offset == UNDEFINED || !self.placed(segment) {
            return None;
        }
        let within = position.offset <= self.record(segment)?.length;
        within.then(|| self.start(segment) + i64::from(position.offset))
    }

    /// Place from the journey's start and R, of a placed point.
    fn place(&self, point: &JourneyPoint) -> Option<(i64, i64)> {
        let segment = usize::from(point.segment);
        if !self.placed(segment) {
            return None;
        }
        let found = self.record(segment)?.points.iter().find(|other| other.nidtp == point.nidtp)?;
        Some((self.start(segment) + i64::from(found.place), i64::from(found.reach)))
    }
}

/// What the latest accepted events since power off that carry them say, else fresh.
#[derive(Clone, Debug)]
struct Values {
    mode: u8,
    lever: u8,
    reports: u8,
    position: Position,
    speed: u16,
    length: u32,
    load: Option<Rc<Load>>,
    skips: Vec<u32>,
    /// What stands behind the kind byte of a kind 15: its count and rows.
    adhesion: Rc<[u8]>,
}

impl Values {
    fn fresh() -> Values {
        let position = Position { nidc: 0, nidsp: 0, offset: UNDEFINED };
        let (skips, adhesion) = (Vec::new(), Rc::from([0]));
        Values { mode: 0, lever: 0, reports: 0, position, speed: 0, length: 0, load: None, skips, adhesion }
    }

    fn after(mut self, event: Event, call: &Call) -> Values {
        match event {
            Event::Mode(mode) => self.mode = mode,
            Event::Lever(lever) => self.lever = lever,
            Event::Reports(reports) => self.reports = reports,
            Event::Report(position, speed) => (self.position, self.speed) = (position, speed),
            Event::Length(length) => self.length = length,
            Event::Skip(nidtp) => self.skips.push(nidtp),
            Event::Revoke(nidtp) => self.skips.retain(|&other| other != nidtp),
            Event::Load => {
                let (journey, book) = (Journey::read(&call.journey), read_book(&call.book));
                self.load = Some(Rc::new(Load { journey: journey.unwrap(), book: book.unwrap() }));
                self.skips.clear();
            }
            Event::Adhesion => self.adhesion = Rc::from(&call.event[1..]),
            _ => {}
        }
        self
    }

    /// "the engine shows the rows of the latest one since power off, else none", by their places: "NID_C, NID_SP,
    /// category, range, start, end, of 2, 4, 1, 1, 4 and 4 bytes".
    fn constraints(&self) -> Vec<Constraint> {
        let number = |bytes: &[u8]| bytes.iter().fold(0, |number, &byte| 256 * number + u32::from(byte));
        let row = |row: &[u8]| Constraint {
            nidc: number(&row[..2]) as u16,
            nidsp: number(&row[2..6]),
            category: row[6],
            range: row[7],
            start: number(&row[8..12]),
            end: number(&row[12..]),
        };
        self.adhesion[1..].chunks(16).map(row).collect()
    }

    /// "NID_C (2), NID_SP (4), offset (4), speed (2), NID_OPERATIONAL (4; FFFFFFFF hexadecimal with no journey)"
    fn header(&self) -> Vec<u8> {
        let Position { nidc, nidsp, offset } = self.position;
        let operational = self.load.as_ref().and_then(|load| load.journey.operational);
        [
            &nidc.to_be_bytes()[..],
            &nidsp.to_be_bytes(),
            &offset.to_be_bytes(),
            &self.speed.to_be_bytes(),
            &operational.unwrap_or(u32::MAX).to_be_bytes(),
        ]
        .concat()
    }

    fn unskipped_stop(&self, point: &JourneyPoint) -> bool {
        point.stop && !point.skipped && !self.skips.contains(&point.nidtp)
    }

    /// d and R; `None` unless the position is known and the point placed.
    fn distance(&self, point: &JourneyPoint) -> Option<(i64, i64)> {
        let load = self.load.as_ref()?;
        let front = load.front(self.position)?;
        let (place, reach) = load.place(point)?;
        let length = i64::from(self.length);
        let shift = [0, length / 2, length][usize::from(point.alignment.unwrap_or(0))];
        Some((front - shift - place, reach))
    }

    fn margin(&self, point: &JourneyPoint, reach: i64) -> i64 {
        if self.unskipped_stop(point) {
            reach
        } else {
            0
        }
    }

    /// d > margin; false unless the position is known and the point placed.
    fn beyond(&self, point: &JourneyPoint) -> bool {
        self.distance(point).is_some_and(|(d, reach)| d > self.margin(point, reach))
    }

    /// An unskipped stop, speed 0 and d ≥ −R.
    fn halts_at(&self, point: &JourneyPoint) -> bool {
        let near = self.distance(point).is_some_and(|(d, reach)| d >= -reach);
        self.unskipped_stop(point) && self.speed == 0 && near
    }

    /// "A reached stop is now departed only by a report with speed above 0, a known position and d greater than R."
    fn departs_from(&self, point: &JourneyPoint) -> bool {
        self.speed > 0 && self.distance(point).is_some_and(|(d, reach)| d > reach)
    }

    /// How many points the load just accepted puts behind.
    fn put_behind(&self, load: &Load) -> usize {
        load.journey.points.iter().take_while(|point| self.beyond(point)).count()
    }
}

/// An accepted event with what stood right after it.
#[derive(Debug)]
struct Moment {
    event: Event,
    values: Values,
    standings: Vec<Standing>,
    became_reached: bool,
    conditions: u16,
    state: u8,
}

impl Moment {
    fn is_report(&self) -> bool {
        matches!(self.event, Event::Report(..))
    }

    fn o(&self) -> bool {
        self.conditions == 0x1FF
    }

    fn t(&self) -> bool {
        self.values.reports & 16 != 0
    }

    fn n(&self) -> bool {
        self.values.lever == 0
    }

    fn ad(&self) -> bool {
        self.values.mode == 1
    }

    fn otn(&self) -> bool {
        self.o() && self.t() && self.n()
    }

    /// The held stop that is reached by the history rule: held by the load in force.
    fn held_stop(&self) -> Option<&JourneyPoint> {
        let points = &self.values.load.as_ref()?.journey.points;
        let held = |&k: &usize| points[k].held && self.standings[k] == Standing::Reached;
        (0..points.len()).find(held).map(|k| &points[k])
    }

    /// Q_EOJ_REACHED: 0 once the End of Journey is reached or passed, else 1.
    fn q_eoj_reached(&self) -> u8 {
        u8::from(self.conditions & 4 != 0)
    }
}

/// The first report from `from` on that settles the point, and whether it passes there (else it is reached there).
fn settled(moments: &[Moment], from: usize, point: &JourneyPoint) -> Option<(usize, bool)> {
    let reports = (from..moments.len()).filter(|&k| moments[k].is_report());
    reports.map(|k| (k, &moments[k].values)).find_map(|(k, values)| {
        let passes = values.beyond(point);
        (passes || values.halts_at(point)).then_some((k, passes))
    })
}

/// The passing moment of a point that the load did not put behind, and whether it was reached before.
fn passing(moments: &[Moment], from: usize, point: &JourneyPoint) -> (Option<usize>, bool) {
    match settled(moments, from, point) {
        None => (None, false),
        Some((k, true)) => (Some(k), false),
        Some((k, false)) => {
            let departs = |&later: &usize| moments[later].is_report() && moments[later].values.departs_from(point);
            ((k + 1..moments.len()).find(departs), true)
        }
    }
}

/// The history rule: the standing of each point after the last of these moments.
fn history(moments: &[Moment]) -> Vec<Standing> {
    let Some(at) = moments.iter().rposition(|moment| moment.event == Event::Load) else { return Vec::new() };
    let load = moments[at].values.load.clone().unwrap();
    let behind = moments[at].values.put_behind(&load);
    let mut standings = vec![Standing::Passed; behind];
    let mut before = Some(at);
    for point in &load.journey.points[behind..] {
        let Some(from) = before else {
            standings.push(Standing::NotUsed);
            continue;
        };
        let (moment, reached) = passing(moments, from, point);
        standings.push(match moment {
            Some(_) => Standing::Passed,
            None if reached => Standing::Reached,
            None => Standing::Targeted,
        });
        before = moment;
    }
    standings
}

fn nine_conditions(values: &Values, standings: &[Standing]) -> u16 {
    let report = |bit: u8| values.reports >> bit & 1 == 1;
    let [mut c2, mut c3, mut c4, mut c6, mut c7] = [false, false, false, false, true];
    if let Some(load) = &values.load {
        let points = &load.journey.points;
        let end = points.iter().position(|point| point.end).unwrap();
        c2 = !matches!(standings[end], Standing::Passed | Standing::Reached);
        c3 = *standings.last().unwrap() != Standing::Passed;
        let first = standings.iter().position(|&standing| standing != Standing::Passed);
        c4 = first.is_none_or(|k| load.placed(usize::from(points[k].segment)));
        (c6, c7) = where_conditions(values.position, load);
    }
    let nine = [report(0), report(1), c2, c3, c4, report(2), c6, c7, report(3)];
    (0..9).map(|k| u16::from(nine[k]) << k).sum()
}

/// Conditions 6 and 7. An offset beyond its segment's length counts as undefined.
fn where_conditions(position: Position, load: &Load) -> (bool, bool) {
    let offset = position.offset;
    let Some(segment) = load.segment_of(position) else { return (false, true) };
    let record = load.record(segment);
    if offset == UNDEFINED || record.is_some_and(|record| offset > record.length) {
        return (false, true);
    }
    let inside = |&(start, end): &(u32, u32)| (start..=end).contains(&offset);
    (true, !record.is_some_and(|record| record.zones.iter().any(inside)))
}

/// Whether the range holds a request of this size without sign.
fn range_holds(range: u8, size: i32) -> bool {
    match range {
        0 => size == 0,
        1 => (1..=27).contains(&size),
        2 => (23..=77).contains(&size),
        3 => (73..=95).contains(&size),
        _ => (91..=100).contains(&size),
    }
}

/// "It stays in the range it had while that range holds it, else takes the lowest that does."
fn range_after(had: Option<u8>, request: i8) -> u8 {
    let size = i32::from(request).abs();
    let lowest = || [0, 1, 2, 3, 4].into_iter().find(|&range| range_holds(range, size)).unwrap();
    had.filter(|&range| range_holds(range, size)).unwrap_or_else(lowest)
}

/// "Someone holding both journeys can foretell which points the list names, in what order and with which status": each
/// point of the new one whose NID_TP is in both, in the new one's order, with 7 where it gained the trackside skip and 8
/// where it lost it.
fn foretold<'a>(old: &'a Journey, new: &'a Journey) -> impl Iterator<Item = (&'a JourneyPoint, u8)> {
    new.points.iter().filter_map(|point| {
        let before = old.points.iter().find(|before| before.nidtp == point.nidtp)?;
        match (before.skipped, point.skipped) {
            (false, true) => Some((point, 7)),
            (true, false) => Some((point, 8)),
            _ => None,
        }
    })
}

/// The status that a packet 62 has.
fn status(packet: &[u8]) -> Option<u8> {
    (packet[0] == 62).then(|| packet[23] / 8)
}

/// The accepted events since power off.
#[derive(Debug)]
pub struct Rules {
    moments: Vec<Moment>,
    state: u8,
    press: bool,
    request: bool,
}

impl Rules {
    pub fn new() -> Rules {
        Rules { moments: Vec::new(), state: NP, press: false, request: false }
    }

    /// Takes one more accepted event.
    pub fn accept(&mut self, call: &Call) {
        let event = read_event(&call.event).unwrap();
        if event == Event::PowerOff {
            *self = Rules::new();
            return;
        }
        let before = self.moments.last();
        let values = before.map_or(Values::fresh(), |moment| moment.values.clone()).after(event, call);
        let reached_before = before.map_or(Vec::new(), |moment| moment.standings.clone());
        let standings = Vec::new();
        self.moments.push(Moment { event, values, standings, became_reached: false, conditions: 0, state: NP });
        let standings = history(&self.moments);
        let moment = self.moments.last_mut().unwrap();
        let reached_now = |k: usize| standings[k] == Standing::Reached && reached_before[k] != Standing::Reached;
        moment.became_reached = moment.is_report() && (0..standings.len()).any(reached_now);
        moment.conditions = nine_conditions(&moment.values, &standings);
        moment.standings = standings;
        self.run_rows();
        self.moments.last_mut().unwrap().state = self.state;
    }

    /// The rows of "States" and the AD request, for the last moment.
    fn run_rows(&mut self) {
        let last = self.moments.last().unwrap();
        let u = if !last.o() {
            NA
        } else if last.otn() && !last.ad() {
            RE
        } else {
            AV
        };
        let leaves = last.values.lever == 2 || !last.ad();
        let pressed = self.press || last.event == Event::Press;
        self.state = match (self.state, last.event) {
            (_, Event::PowerOn) => CO,
            (_, Event::Fault) => FA,
            (CO, Event::Configured) => u,
            (CO, _) => CO,
            (RE, _) if pressed && last.otn() && last.ad() => EG,
            (NA | AV | RE, _) => u,
            (EG, _) if leaves || last.became_reached => u,
            (EG, _) if last.o() && last.t() => EG,
            (EG, _) => DE,
            (DE, _) if leaves => u,
            (state, _) => state,
        };
        self.press = pressed && self.state == RE;
        let wanted = matches!(self.state, RE | EG | DE) || (self.state == AV && last.ad() && last.n());
        self.request = wanted && (self.request || !last.ad());
    }

    /// The engagement rule: there are a press i and a later AD report j.
    fn engaged(&self) -> bool {
        let moments = &self.moments;
        let no_fault = moments.iter().all(|moment| moment.event != Event::Fault);
        let reports_ad = |&j: &usize| moments[j].event == Event::Mode(1);
        no_fault && (0..moments.len()).filter(reports_ad).any(|j| self.engaged_at(j))
    }

    fn engaged_at(&self, j: usize) -> bool {
        let moments = &self.moments;
        let holds = |moment: &Moment| moment.o() && moment.t() && moment.ad() && moment.values.lever != 2;
        if !moments[j].otn() || !moments[j..].iter().all(holds) {
            return false;
        }
        let none_reached = moments[j + 1..].iter().all(|moment| !moment.became_reached);
        none_reached && (1..j).any(|i| self.pressed_at(i, j))
    }

    fn pressed_at(&self, i: usize, j: usize) -> bool {
        let moments = &self.moments;
        moments[i].event == Event::Press
            && moments[i - 1].held_stop().is_none()
            && moments[..i].iter().any(|moment| moment.event == Event::Configured)
            && moments[i - 1..j].iter().all(|moment| moment.otn() && !moment.ad())
    }

    /// Whether the moment's event was made in EG or DE.
    fn made_in_eg_or_de(&self, k: usize) -> bool {
        k > 0 && matches!(self.moments[k - 1].state, EG | DE)
    }

    fn enters_eg(&self, k: usize) -> bool {
        self.moments[k].state == EG && (k == 0 || self.moments[k - 1].state != EG)
    }

    /// Range and Q_ATO_SupTB, the content's third byte, after so many moments: by the requests made in EG or DE since EG
    /// was last entered.
    fn traction(&self, count: usize) -> Option<(u8, u8)> {
        let entered = (0..count).rfind(|&k| self.enters_eg(k))?;
        let made = (entered + 1..count).filter(|&k| self.made_in_eg_or_de(k));
        made.fold(None, |had: Option<(u8, u8)>, k| match self.moments[k].event {
            Event::Traction(request, content) => {
                Some((range_after(had.map(|(range, _)| range), request), content.bytes()[2]))
            }
            _ => had,
        })
    }

    /// Packet 61 is due for a request made in EG or DE where nothing was remembered before it, or another range or
    /// Q_ATO_SupTB is after it.
    fn traction_due(&self) -> bool {
        let Some(last) = self.moments.len().checked_sub(1) else { return false };
        let request = matches!(self.moments[last].event, Event::Traction(..)) && self.made_in_eg_or_de(last);
        let (before, after) = (self.traction(last), self.traction(last + 1));
        request && (before.is_none() || after != before)
    }

    /// Of the packets of the last accepted call: 61 stands among them just where it is due, with the event's bytes, and
    /// so do those of a stop that is held or held no longer, of trackside skips, and of slippery rail.
    pub fn check_packets(&self, call: &Call, packets: &[&[u8]]) -> Result<(), String> {
        let due = if self.traction_due() { vec![&call.event[2..]] } else { vec![] };
        let written: Vec<&[u8]> = packets.iter().filter(|packet| packet[0] == 61).map(|packet| &packet[17..]).collect();
        if due != written {
            return Err(format!("packet 61: by the rules with {due:02X?}, written with {written:02X?}"));
        }
        self.check_held(packets)?;
        self.check_revoked(packets)?;
        self.check_trackside(packets)?;
        self.check_adhesion(packets)
    }

    /// "Each accepted such event, and nothing else, writes packet 64 with its rows": its content is what the event has
    /// behind its kind byte. No other packet is due then, since the rows of the states come to nothing new.
    fn check_adhesion(&self, packets: &[&[u8]]) -> Result<(), String> {
        let last = self.moments.last().filter(|last| last.event == Event::Adhesion);
        let due = last.map(|last| [&[64][..], &last.values.header(), &last.values.adhesion].concat());
        let as_due = match &due {
            Some(due) => packets == [due],
            None => packets.iter().all(|packet| packet[0] != 64),
        };
        if as_due {
            Ok(())
        } else {
            Err(format!("packet 64: by the rules {due:02X?}, written {packets:02X?}"))
        }
    }

    /// "When a held stop becomes reached, packet 62 with status 3 follows the one with status 1": the same but for the
    /// status, and stopping data 0. No other has status 3.
    fn check_held(&self, packets: &[&[u8]]) -> Result<(), String> {
        let Some(last) = self.moments.last() else { return Ok(()) };
        let held = |packet: &[u8]| last.held_stop().is_some_and(|point| packet[19..23] == point.nidtp.to_be_bytes());
        let mut due = Vec::new();
        for packet in packets.iter().filter(|packet| status(packet) != Some(3)) {
            due.push(packet.to_vec());
            if status(packet) == Some(1) && held(packet) {
                due.push([&packet[..23], &[packet[23] + 8 * (3 - 1), 0]].concat());
            }
        }
        if due == packets {
            Ok(())
        } else {
            Err(format!("status 3: by the rules {due:02X?}, written {packets:02X?}"))
        }
    }

    /// "If an accepted load comes while a held stop is reached, and the new journey has its NID_TP unheld or lacks it,
    /// status 4 is written after packet 65, using the old point's fields but the new journey's Q_EOJ_REACHED."
    fn revoked(&self) -> Option<Vec<u8>> {
        let [.., before, last] = &self.moments[..] else { return None };
        let (old, point) = (before.values.load.as_ref()?, before.held_stop()?);
        let new = last.values.load.as_ref().filter(|_| last.event == Event::Load)?;
        if new.journey.points.iter().any(|other| other.nidtp == point.nidtp && other.held) {
            return None;
        }
        let (nidc, _) = old.journey.segments[usize::from(point.segment)];
        let info = last.q_eoj_reached() + 2 * point.alignment.unwrap_or(0) + 8 * 4;
        Some([&nidc.to_be_bytes()[..], &point.nidtp.to_be_bytes(), &[info, 0]].concat())
    }

    /// Of the packets of the last accepted call: the one of status 4 stands behind 65 where it is due, headed as that is,
    /// and no other has that status.
    fn check_revoked(&self, packets: &[&[u8]]) -> Result<(), String> {
        let revokes = |k: &usize| status(packets[*k]) == Some(4);
        let written: Vec<usize> = (0..packets.len()).filter(revokes).collect();
        let as_due = match self.revoked() {
            None => written.is_empty(),
            Some(due) => written == [1] && packets[1][1..17] == packets[0][1..17] && packets[1][17..] == due,
        };
        if as_due {
            Ok(())
        } else {
            Err(format!("status 4: by the rules {:02X?}, written {packets:02X?}", self.revoked()))
        }
    }

    /// "On an accepted load, each point whose NID_TP is in both journeys and that gained the trackside skip writes
    /// packet 62 with status 7, and each that lost it status 8. They carry the new point's fields, .. in the new
    /// journey's order. A first journey writes neither."
    fn trackside(&self) -> Vec<Vec<u8>> {
        let [.., before, last] = &self.moments[..] else { return Vec::new() };
        let (Some(old), Some(new), Event::Load) = (&before.values.load, &last.values.load, last.event) else {
            return Vec::new();
        };
        let fields = |(point, status): (&JourneyPoint, u8)| {
            let (nidc, _) = new.journey.segments[usize::from(point.segment)];
            let info = last.q_eoj_reached() + 2 * point.alignment.unwrap_or(0) + 8 * status;
            [&nidc.to_be_bytes()[..], &point.nidtp.to_be_bytes(), &[info, 0]].concat()
        };
        foretold(&old.journey, &new.journey).map(fields).collect()
    }

    /// Of the packets of the last accepted call: those of status 7 and 8 are the ones foretold; they stand behind 65,
    /// or behind the one of status 4 where that is due, and are headed as 65 is.
    fn check_trackside(&self, packets: &[&[u8]]) -> Result<(), String> {
        let due = self.trackside();
        let first = if self.revoked().is_some() { 2 } else { 1 };
        let tells = |k: &usize| matches!(status(packets[*k]), Some(7 | 8));
        let written: Vec<usize> = (0..packets.len()).filter(tells).collect();
        let places: Vec<usize> = (first..first + due.len()).collect();
        let as_due = |(&k, due): (&usize, &Vec<u8>)| packets[k][1..17] == packets[0][1..17] && packets[k][17..] == *due;
        if written == places && written.iter().zip(&due).all(as_due) {
            Ok(())
        } else {
            Err(format!("statuses 7 and 8: by the rules {due:02X?}, written {packets:02X?}"))
        }
    }

    /// "A press while a held stop is reached is refused": in RE, and no other call is, by 20.
    pub fn check_press(&self, call: &Call, number: Option<u8>) -> Result<(), String> {
        let held = self.moments.last().is_some_and(|moment| moment.state == RE && moment.held_stop().is_some());
        let refused = call.event == [8] && held;
        if refused == (number == Some(20)) {
            Ok(())
        } else {
            Err(format!("a press at a held stop: by the rules {refused}, answered {number:?}"))
        }
    }

    /// "A load refused by 7 to 12 writes packet 65 with status 1, the header of the engine as it stands, the content's
    /// NID_C by 01's rule against the journey in force, stamp fields 0 and NID_ATOTS 16,384." A refused call is no
    /// moment: all this is of the accepted ones before it.
    fn turned_down(&self) -> Vec<u8> {
        let values = self.moments.last().map_or(Values::fresh(), |moment| moment.values.clone());
        let (load, position) = (values.load.as_ref(), values.position);
        let known = load.is_some_and(|load| load.front(position).is_some());
        let (no_date, no_seconds, no_counter, no_atots) = ([0; 2], [0; 4], [0], 16_384u16);
        [
            &[65][..],
            &values.header(),
            &if known { position.nidc } else { 1024 }.to_be_bytes(),
            &no_atots.to_be_bytes(),
            &no_date,
            &no_seconds,
            &no_counter,
            &[1],
        ]
        .concat()
    }

    /// Of a refused call with memory enough: only 7 to 12 write, and that packet alone.
    pub fn check_refused(&self, refused: Refused, written: &[u8]) -> Result<(), String> {
        let due = if (7..=12).contains(&refused.number) { self.turned_down() } else { Vec::new() };
        if due == written {
            Ok(())
        } else {
            Err(format!("refused by {}: by the rules {due:02X?}, written {written:02X?}", refused.number))
        }
    }

    /// The first thing in which an engine differs from the rules.
    pub fn check(&self, engine: &Engine) -> Result<(), String> {
        let now = &engine.now;
        let fresh = (Vec::new(), 0x080);
        let (standings, conditions) =
            self.moments.last().map_or(fresh, |moment| (moment.standings.clone(), moment.conditions));
        let differs = |what: &str, rules: &dyn std::fmt::Debug, is: &dyn std::fmt::Debug| {
            Err(format!("{what}: by the rules {rules:?}, in the engine {is:?}"))
        };
        let held: Vec<Standing> = engine.standings().collect();
        if standings != held {
            return differs("standings", &standings, &held);
        }
        if conditions != now.conditions {
            return differs("conditions", &conditions, &now.conditions);
        }
        if (self.state, self.press, self.request) != (now.state, now.press, now.request) {
            let rows = (self.state, self.press, self.request);
            return differs("state, press, request", &rows, &(now.state, now.press, now.request));
        }
        let (by_rules, held) = (self.traction(self.moments.len()), now.traction.map(|held| (held.range, held.suptb)));
        if by_rules != held {
            return differs("range and Q_ATO_SupTB", &by_rules, &held);
        }
        let by_rules = self.moments.last().map_or(Vec::new(), |moment| moment.values.constraints());
        if by_rules != engine.constraints {
            return differs("rows of slippery rail", &by_rules, &engine.constraints);
        }
        if self.engaged() != (now.state == EG) {
            return differs("engaged", &self.engaged(), &now.state);
        }
        Ok(())
    }
}
