//! The engine and the meaning of a call.

use crate::adhesion::{rows_of, Constraint};
use crate::calls::Call;
use crate::events::{read_event, Event, Position, UNDEFINED};
use crate::packets::{size_64, Content, Header, Packet, TractionBrake, SIZE_61, SIZE_62, SIZE_65, SIZE_68};
use crate::route::{Book, Point, Route, Stamp, NO_ATOTS};
use std::cmp::Ordering;
use std::ops::RangeInclusive;

pub const NP: u8 = 0;
pub const CO: u8 = 1;
pub const NA: u8 = 2;
pub const AV: u8 = 3;
pub const RE: u8 = 4;
pub const EG: u8 = 5;
pub const DE: u8 = 6;
pub const FA: u8 = 7;

const AD: u8 = 1;
const NEUTRAL: u8 = 0;
const BRAKE: u8 = 2;
const ALL_NINE: u16 = 0x1FF;

/// what each range holds of a request's size without sign, both ends inside.
const RANGES: [(u8, u8); 5] = [(0, 0), (1, 27), (23, 77), (73, 95), (91, 100)];

/// Where a point stands, numbered as the C interface shows it.
#[derive(Clone, Copy, PartialEq, Eq, Debug)]
pub enum Standing {
    NotUsed,
    Targeted,
    Reached,
    Passed,
}

/// What an accepted event returns.
#[derive(Clone, Copy, PartialEq, Eq, Debug)]
pub struct Answer {
    pub state: u8,
    pub request: bool,
    pub bytes: usize,
}

/// What a refusal returns: its number, and how many bytes were written.
#[derive(Clone, Copy, PartialEq, Eq, Debug)]
pub struct Refused {
    pub number: u8,
    pub bytes: usize,
}

/// Bytes written by a call, accepted or refused.
pub fn written(answer: Result<Answer, Refused>) -> usize {
    match answer {
        Ok(Answer { bytes, .. }) | Err(Refused { bytes, .. }) => bytes,
    }
}

/// A load that one of these refuses is "turned down", by the title of document 02's Q-4, "Profiles turned down are
/// recorded too": its journey was received, and that is recorded.
pub const TURNED_DOWN: RangeInclusive<u8> = 7..=12;

/// All of the engine but the route and the rows of slippery rail.
#[derive(Clone, Copy, PartialEq, Eq, Debug)]
pub struct Now {
    pub state: u8,
    pub mode: u8,
    pub lever: u8,
    pub reports: u8,
    pub press: bool,
    pub request: bool,
    pub length: u32,
    pub speed: u16,
    pub position: Position,
    pub loaded: bool,
    pub operational: u32,
    /// The position's segment in the journey.
    pub segment: Option<u8>,
    /// Points before `first` are passed; that one is reached or targeted; later ones are not used.
    pub first: u8,
    pub reached: bool,
    /// A bit for each point that the driver skips.
    pub skips: u64,
    pub conditions: u16,
    /// Range and Q_ATO_SupTB of the last request made in EG or DE, until EG is entered.
    pub traction: Option<Traction>,
}

#[derive(Clone, Copy, PartialEq, Eq, Debug)]
pub struct Traction {
    pub range: u8,
    pub suptb: u8,
}

const FRESH: Now = Now {
    state: NP,
    mode: 0,
    lever: NEUTRAL,
    reports: 0,
    press: false,
    request: false,
    length: 0,
    speed: 0,
    position: Position { nidc: 0, nidsp: 0, offset: UNDEFINED },
    loaded: false,
    operational: 0xFFFF_FFFF,
    segment: None,
    first: 0,
    reached: false,
    skips: 0,
    conditions: 0x080,
    traction: None,
};

fn range_holds(range: u8, size: u8) -> bool {
    let (low, high) = RANGES[usize::from(range)];
    low <= size && size <= high
}

/// The range of a request: it stays in the one it had while that holds it, else takes the lowest that does.
fn range_of(request: i8, had: Option<u8>) -> u8 {
    let size = request.unsigned_abs();
    match had {
        Some(range) if range_holds(range, size) => range,
        _ => (0..5).find(|&range| range_holds(range, size)).expect("a request from -100 to 100"),
    }
}

/// How far behind the train's front the alignment lies: front, middle or rear.
pub fn behind_front(length: u32, alignment: u8) -> u32 {
    match alignment {
        0 => 0,
        1 => length / 2,
        _ => length,
    }
}

/// The packets of an event, but for 68.
enum Changes {
    None,
    /// Points `from..to` passed, the first of them by departure; then point `to` was reached, which may be held.
    Report {
        from: u8,
        to: u8,
        departed: bool,
        reached: bool,
        held: bool,
    },
    /// The driver skipped a point (5) or revoked that (6).
    Driver {
        point: u8,
        status: u8,
    },
    /// The old journey's stop at which the train is held no longer, if there is one; which points' trackside skips are
    /// others than in the old journey.
    Load {
        stamp: Stamp,
        revoked: Option<Revoked>,
        trackside: Trackside,
    },
    Traction(TractionBrake),
    Adhesion(Vec<Constraint>),
}

/// What packet 62 with status 4 says of a stop: as it was in the old journey.
#[derive(Clone, Copy)]
struct Revoked {
    nidc: u16,
    nidtp: u32,
    alignment: u8,
}

/// A bit for each point of the new journey: those that gained the trackside skip, and those that lost it.
#[derive(Clone, Copy)]
struct Trackside {
    gained: u64,
    lost: u64,
}

impl Trackside {
    /// The points of the new journey that the old one names too, by NID_TP alone.
    fn between(old: &Route, new: &Route) -> Trackside {
        let mut skips = Trackside { gained: 0, lost: 0 };
        for (k, point) in new.points().iter().enumerate() {
            let before = old.points().iter().find(|before| before.nidtp == point.nidtp);
            match before.map(|before| (before.skipped, point.skipped)) {
                Some((false, true)) => skips.gained |= 1 << k,
                Some((true, false)) => skips.lost |= 1 << k,
                _ => {}
            }
        }
        skips
    }

    /// The status that packet 62 has of the point, if it writes one.
    fn status(&self, k: u8) -> Option<u8> {
        match (self.gained >> k & 1, self.lost >> k & 1) {
            (1, _) => Some(7),
            (_, 1) => Some(8),
            _ => None,
        }
    }

    fn count(&self) -> usize {
        (self.gained | self.lost).count_ones() as usize
    }
}

impl Changes {
    fn point_reached(&self) -> bool {
        matches!(self, Changes::Report { reached: true, .. })
    }

    fn bytes(&self) -> usize {
        match *self {
            Changes::None => 0,
            Changes::Report { from, to, reached, held, .. } => {
                SIZE_62 * (usize::from(to - from) + usize::from(reached) + usize::from(held))
            }
            Changes::Driver { .. } => SIZE_62,
            Changes::Load { revoked, trackside, .. } => {
                SIZE_65 + SIZE_62 * (usize::from(revoked.is_some()) + trackside.count())
            }
            Changes::Traction(_) => SIZE_61,
            Changes::Adhesion(ref rows) => size_64(rows.len()),
        }
    }
}

#[derive(Clone, PartialEq, Eq, Debug)]
pub struct Engine {
    pub now: Now,
    pub route: Route,
    /// The rows of the latest accepted kind 15 since power off.
    pub constraints: Vec<Constraint>,
}

impl Engine {
    pub fn fresh() -> Engine {
        Engine { now: FRESH, route: Route::EMPTY, constraints: Vec::new() }
    }

    /// One call. A refusal leaves the engine as it was, and writes nothing but the packet of a load that is turned down.
    pub fn call(&mut self, call: &Call, out: &mut [u8]) -> Result<Answer, Refused> {
        self.step(call, out).map_err(|number| {
            let bytes = if TURNED_DOWN.contains(&number) { self.record_turned_down(out) } else { 0 };
            Refused { number, bytes }
        })
    }

    /// Writes packet 65 of a load that is turned down, by the engine and the journey in force, and gives its size;
    /// writes nothing where it does not fit.
    fn record_turned_down(&self, out: &mut [u8]) -> usize {
        const NO_STAMP: Stamp = Stamp { atots: NO_ATOTS, date: 0, seconds: 0, counter: 0 };
        let content = load_content(&self.now, &self.route, NO_STAMP, 1);
        let packet = Packet { header: self.now.header(), content };
        if out.len() < packet.size() {
            return 0;
        }
        packet.put(out)
    }

    /// The answer, or the number that refuses: then engine and memory are as before.
    fn step(&mut self, call: &Call, out: &mut [u8]) -> Result<Answer, u8> {
        let event = read_event(&call.event)?;
        self.now.admit(event, &self.route)?;
        match event {
            Event::Load => return self.load(&call.journey, &call.book, out),
            Event::Adhesion => return self.take_constraints(rows_of(&call.event), out),
            _ => {}
        }
        let mut now = self.now;
        let changes = now.take(event, &self.route)?;
        now.settle(event, &self.route, changes.point_reached());
        let answer = finish(&self.now, &now, &self.route, changes, out)?;
        self.now = now;
        if event == Event::PowerOff {
            self.constraints.clear();
        }
        Ok(answer)
    }

    /// Slippery rail: these rows stand in place of those before, and packet 64 tells them.
    fn take_constraints(&mut self, rows: Vec<Constraint>, out: &mut [u8]) -> Result<Answer, u8> {
        let mut now = self.now;
        now.settle(Event::Adhesion, &self.route, false);
        let answer = finish(&self.now, &now, &self.route, Changes::Adhesion(rows.clone()), out)?;
        self.now = now;
        self.constraints = rows;
        Ok(answer)
    }

    fn load(&mut self, journey: &[u8], book: &[u8], out: &mut [u8]) -> Result<Answer, u8> {
        let book = Book::read(book)?;
        let mut route = Route::EMPTY;
        let stamp = route.read(journey, &book)?;
        let mut now = self.now;
        now.take_load(&route);
        now.settle(Event::Load, &route, false);
        let (revoked, trackside) = (self.revoked_by(&route), self.trackside_by(&route));
        let changes = Changes::Load { stamp, revoked, trackside };
        let answer = finish(&self.now, &now, &route, changes, out)?;
        self.now = now;
        self.route = route;
        Ok(answer)
    }

    /// The held stop that is reached, where the new journey lacks its NID_TP or has it unheld.
    fn revoked_by(&self, next: &Route) -> Option<Revoked> {
        let &Point { segment, nidtp, alignment, .. } = self.now.held_stop(&self.route)?;
        let nidc = self.route.segments()[usize::from(segment)].nidc;
        (!next.holds(nidtp)).then_some(Revoked { nidc, nidtp, alignment })
    }

    /// The trackside skips that the new journey gives and takes back; a first journey does neither.
    fn trackside_by(&self, next: &Route) -> Trackside {
        let old = if self.now.loaded { &self.route } else { &Route::EMPTY };
        Trackside::between(old, next)
    }

    /// Where each point of the journey stands.
    pub fn standings(&self) -> impl Iterator<Item = Standing> + '_ {
        let points = if self.now.loaded { self.route.points().len() as u8 } else { 0 };
        (0..points).map(|k| match k.cmp(&self.now.first) {
            Ordering::Less => Standing::Passed,
            Ordering::Equal if self.now.reached => Standing::Reached,
            Ordering::Equal => Standing::Targeted,
            Ordering::Greater => Standing::NotUsed,
        })
    }
}

impl Now {
    /// Numbers 3 to 6, and 20.
    fn admit(&self, event: Event, route: &Route) -> Result<(), u8> {
        match event {
            Event::PowerOn if self.state != NP => Err(4),
            Event::PowerOn => Ok(()),
            _ if self.state == NP => Err(3),
            Event::PowerOff => Ok(()),
            _ if self.state == FA => Err(5),
            Event::Configured if self.state != CO => Err(6),
            Event::Press if self.state != RE => Err(6),
            Event::Press if self.held_stop(route).is_some() => Err(20),
            _ => Ok(()),
        }
    }

    /// The held stop that is reached.
    fn held_stop<'a>(&self, route: &'a Route) -> Option<&'a Point> {
        let reached = self.reached.then(|| &route.points()[usize::from(self.first)]);
        reached.filter(|point| point.held)
    }

    /// Takes over what the event brings and moves the timing points. Numbers 13 to 15.
    fn take(&mut self, event: Event, route: &Route) -> Result<Changes, u8> {
        match event {
            Event::PowerOff => *self = FRESH,
            Event::Reports(reports) => self.reports = reports,
            Event::Mode(mode) => self.mode = mode,
            Event::Lever(lever) => self.lever = lever,
            Event::Press => self.press = true,
            Event::Length(length) => self.length = length,
            Event::Report(position, speed) => return self.report(position, speed, route),
            Event::Skip(nidtp) => return self.skip(nidtp, route, true),
            Event::Revoke(nidtp) => return self.skip(nidtp, route, false),
            Event::Traction(request, content) => return Ok(self.request_traction(request, content)),
            Event::PowerOn | Event::Configured | Event::Fault | Event::Load | Event::Adhesion => {}
        }
        Ok(Changes::None)
    }

    fn find_segment(&mut self, route: &Route) {
        let Position { nidc, nidsp, .. } = self.position;
        self.segment = if self.loaded { route.find_segment(nidc, nidsp).map(|k| k as u8) } else { None };
    }

    /// The offset is defined, its segment in the journey and, if booked, not shorter than the offset.
    fn located(&self, route: &Route) -> Option<usize> {
        let k = usize::from(self.segment?);
        let segment = &route.segments()[k];
        let beyond = segment.booked && self.position.offset > segment.length;
        (self.position.offset != UNDEFINED && !beyond).then_some(k)
    }

    /// The front position from the journey's start, if the position is known.
    fn front(&self, route: &Route) -> Option<i32> {
        let k = self.located(route)?;
        (k < usize::from(route.placed_segments)).then(|| (route.segments()[k].start + self.position.offset) as i32)
    }

    /// d, for a placed point.
    fn distance(&self, front: i32, point: &Point) -> i32 {
        front - behind_front(self.length, point.alignment) as i32 - point.place as i32
    }

    fn unskipped_stop(&self, k: u8, point: &Point) -> bool {
        point.stop && !point.skipped && self.skips >> k & 1 == 0
    }

    fn take_load(&mut self, route: &Route) {
        self.loaded = true;
        self.operational = route.operational;
        self.skips = 0;
        self.reached = false;
        self.find_segment(route);
        self.first = match self.front(route) {
            Some(front) => self.pass_points(0, front, route),
            None => 0,
        };
    }

    /// The first point from `k` on that is unplaced or has d ≤ margin.
    fn pass_points(&self, mut k: u8, front: i32, route: &Route) -> u8 {
        for point in &route.points()[usize::from(k)..usize::from(route.placed_points).max(usize::from(k))] {
            let margin = if self.unskipped_stop(k, point) { i32::from(point.reach) } else { 0 };
            if self.distance(front, point) <= margin {
                break;
            }
            k += 1;
        }
        k
    }

    /// A position report: number 13, then steps (a) and (b).
    fn report(&mut self, position: Position, speed: u16, route: &Route) -> Result<Changes, u8> {
        self.position = position;
        self.speed = speed;
        self.find_segment(route);
        if let Some(k) = self.segment {
            let segment = &route.segments()[usize::from(k)];
            if segment.booked && position.offset != UNDEFINED && position.offset > segment.length {
                return Err(13);
            }
        }
        if !self.loaded {
            return Ok(Changes::None);
        }
        let from = self.first;
        let departed = self.reached && speed > 0 && self.beyond_reach(route);
        if departed {
            self.first += 1;
            self.reached = false;
        }
        let mut reached = false;
        if let (false, Some(front)) = (self.reached, self.front(route)) {
            self.first = self.pass_points(self.first, front, route);
            reached = speed == 0 && self.reaches(front, route);
            self.reached = reached;
        }
        let held = reached && self.held_stop(route).is_some();
        Ok(Changes::Report { from, to: self.first, departed, reached, held })
    }

    /// The position is known, and the first point not passed, which is reached, has d > R.
    fn beyond_reach(&self, route: &Route) -> bool {
        let point = &route.points()[usize::from(self.first)];
        self.front(route).is_some_and(|front| self.distance(front, point) > i32::from(point.reach))
    }

    /// The first point not passed is a placed, unskipped stop with d ≥ −R.
    fn reaches(&self, front: i32, route: &Route) -> bool {
        self.first < route.placed_points && {
            let point = &route.points()[usize::from(self.first)];
            self.unskipped_stop(self.first, point) && self.distance(front, point) >= -i32::from(point.reach)
        }
    }

    /// Driver skip and its revocation: numbers 14 and 15.
    fn skip(&mut self, nidtp: u32, route: &Route, give: bool) -> Result<Changes, u8> {
        if !self.loaded {
            return Err(14);
        }
        let k = route.find_stop(nidtp).ok_or(14)? as u8;
        let reached_or_passed = k < self.first || (k == self.first && self.reached);
        let given = self.skips >> k & 1 == 1;
        if reached_or_passed || given == give {
            return Err(15);
        }
        self.skips ^= 1 << k;
        Ok(Changes::Driver { point: k, status: if give { 5 } else { 6 } })
    }

    /// A traction request, in the state that it comes in. In EG and DE it is remembered, and told where that changes
    /// what was; in other states it changes nothing.
    fn request_traction(&mut self, request: i8, content: TractionBrake) -> Changes {
        if self.state != EG && self.state != DE {
            return Changes::None;
        }
        let range = range_of(request, self.traction.map(|traction| traction.range));
        let now = Some(Traction { range, suptb: content.q_ato_suptb });
        let changed = self.traction != now;
        self.traction = now;
        if changed {
            Changes::Traction(content)
        } else {
            Changes::None
        }
    }

    /// Conditions, state, press and request after an accepted event.
    fn settle(&mut self, event: Event, route: &Route, point_reached: bool) {
        self.conditions = self.nine_conditions(route);
        let before = self.state;
        self.move_state(event, point_reached);
        if before != EG && self.state == EG {
            self.traction = None;
        }
        let wanted = match self.state {
            RE | EG | DE => true,
            AV => self.mode == AD && self.lever == NEUTRAL,
            _ => false,
        };
        self.request = wanted && (self.request || self.mode != AD);
    }

    fn end_not_reached(&self, route: &Route) -> bool {
        route.end > self.first || (route.end == self.first && !self.reached)
    }

    fn nine_conditions(&self, route: &Route) -> u16 {
        let reports = u16::from(self.reports);
        let reported = reports & 3 | (reports & 4) << 3 | (reports & 8) << 5;
        if !self.loaded {
            return reported | 1 << 7;
        }
        let points = route.points().len() as u8;
        let located = self.located(route);
        let zone = located.is_some_and(|k| route.segments()[k].in_zone(self.position.offset));
        reported
            | u16::from(self.end_not_reached(route)) << 2
            | u16::from(self.first < points) << 3
            | u16::from(self.first < route.placed_points || self.first == points) << 4
            | u16::from(located.is_some()) << 6
            | u16::from(!zone) << 7
    }

    /// The rows of "States".
    fn move_state(&mut self, event: Event, point_reached: bool) {
        let operational = self.conditions == ALL_NINE;
        let train = self.reports & 16 != 0;
        let ready = operational && train && self.lever == NEUTRAL;
        let u = match (operational, ready && self.mode != AD) {
            (false, _) => NA,
            (true, true) => RE,
            (true, false) => AV,
        };
        let braked_or_other = self.lever == BRAKE || self.mode != AD;
        self.state = match self.state {
            NP if event == Event::PowerOn => CO,
            NP => NP,
            _ if event == Event::Fault => FA,
            FA => FA,
            CO if event == Event::Configured => u,
            CO => CO,
            RE if self.press && ready && self.mode == AD => EG,
            EG if braked_or_other || point_reached => u,
            EG if !operational || !train => DE,
            EG => EG,
            DE if !braked_or_other => DE,
            _ => u,
        };
        self.press &= self.state == RE;
    }

    fn header(&self) -> Header {
        Header {
            nidc: self.position.nidc,
            nidsp: self.position.nidsp,
            offset: self.position.offset,
            speed: self.speed,
            operational: self.operational,
        }
    }
}

/// Number 16; then writes the packets, all of them after the event.
fn finish(before: &Now, now: &Now, route: &Route, changes: Changes, out: &mut [u8]) -> Result<Answer, u8> {
    let changed = now.state != before.state || now.conditions != before.conditions;
    let started = before.speed == 0 && now.speed > 0 && now.state != EG;
    let tells_state = changed || started;
    let bytes = changes.bytes() + if tells_state { SIZE_68 } else { 0 };
    if out.len() < bytes {
        return Err(16);
    }
    let mut at = 0;
    let header = now.header();
    let mut put = |content| at += Packet { header, content }.put(&mut out[at..]);
    if let Changes::Load { stamp, .. } = changes {
        put(load_content(now, route, stamp, 0));
    }
    put_points(now, route, &changes, &mut put);
    match changes {
        Changes::Traction(content) => put(Content::Traction(content)),
        Changes::Adhesion(rows) => put(Content::Adhesion(rows)),
        _ => {}
    }
    if tells_state {
        put(Content::State { state: now.state, conditions: now.conditions });
    }
    Ok(Answer { state: now.state, request: now.request, bytes })
}

/// Content of packet 65: status 0 for a load that is accepted, 1 for one that is turned down.
fn load_content(now: &Now, route: &Route, stamp: Stamp, status: u8) -> Content {
    let Stamp { atots, date, seconds, counter } = stamp;
    let nidc = if now.front(route).is_some() { now.position.nidc } else { 1024 };
    Content::Load { nidc, atots, date, seconds, counter, status }
}

/// Packets 62. Q_EOJ_REACHED of each is after that change.
fn put_points(now: &Now, route: &Route, changes: &Changes, put: &mut impl FnMut(Content)) {
    match *changes {
        Changes::Report { from, to, departed, reached, held } => {
            for k in from..to {
                let status = if departed && k == from { 2 } else { 0 };
                put(point_content(route, k, k < route.end, status));
            }
            if reached {
                put(point_content(route, to, to < route.end, 1));
            }
            if held {
                put(point_content(route, to, to < route.end, 3));
            }
        }
        Changes::Load { revoked, trackside, .. } => {
            let end_not_reached = now.end_not_reached(route);
            if let Some(Revoked { nidc, nidtp, alignment }) = revoked {
                let q_eoj_reached = u8::from(end_not_reached);
                put(Content::Point { nidc, nidtp, q_eoj_reached, alignment, status: 4, stopping: 0 });
            }
            for k in 0..route.points().len() as u8 {
                if let Some(status) = trackside.status(k) {
                    put(point_content(route, k, end_not_reached, status));
                }
            }
        }
        Changes::Driver { point, status } => put(point_content(route, point, now.end_not_reached(route), status)),
        Changes::None | Changes::Traction(_) | Changes::Adhesion(_) => {}
    }
}

fn point_content(route: &Route, k: u8, end_not_reached: bool, status: u8) -> Content {
    let point = &route.points()[usize::from(k)];
    Content::Point {
        nidc: route.segments()[usize::from(point.segment)].nidc,
        nidtp: point.nidtp,
        q_eoj_reached: u8::from(end_not_reached),
        alignment: point.alignment,
        status,
        stopping: if status == 1 { point.stopping } else { 0 },
    }
}
