//! Guided random lists of calls. The model's engine runs along, so that every state comes up often.

use crate::constraints::new_event;
use crate::coverage::held_stop;
use crate::faults::{good_events, wrong_lengths, wrong_ranges, Fault, BOOK_FAULTS, JOURNEY_FAULTS};
use crate::journeys::{new_profiles, rewrite};
use crate::profiles::Profiles;
use crate::random::Random;
use model::calls::{Call, MEMORY};
use model::engine::{behind_front, Engine, AV, CO, DE, EG, NA, NP, RE};
use model::events::UNDEFINED;
use model::packets::TractionBrake;

struct Generator {
    random: Random,
    engine: Engine,
    /// The profiles of the last good load, also of one before power off.
    profiles: Profiles,
    /// How often a traction request comes in EG and DE, in percent.
    requests: usize,
}

/// A list of calls from a fresh engine.
pub fn new_list(seed: u64) -> Vec<Call> {
    let mut random = Random(seed);
    let profiles = new_profiles(&mut random);
    let length = 20 + random.below(110);
    let requests = random.pick(&[5, 5, 10, 60]);
    let mut generator = Generator { random, engine: Engine::fresh(), profiles, requests };
    (0..length).map(|_| generator.next_call()).collect()
}

/// A list of calls that leaves the engine as it was: the last is power off.
pub fn new_ended_list(seed: u64) -> Vec<Call> {
    [new_list(seed), vec![Call::power_off()]].concat()
}

impl Generator {
    /// The next call, which the model has taken or refused.
    fn next_call(&mut self) -> Call {
        let call = self.choose_call();
        self.engine.call(&call, &mut [0; MEMORY]).ok();
        call
    }

    fn choose_call(&mut self) -> Call {
        let now = self.engine.now;
        if now.skips != 0 && self.random.chance(8) {
            return self.revoke();
        }
        if matches!(now.state, EG | DE) && self.random.chance(self.requests) {
            return self.traction();
        }
        if held_stop(&self.engine).is_some() && self.random.chance(35) {
            return self.call_at_held_stop();
        }
        match self.random.weighed(&[88, 4, 3, 2, 3]) {
            0 => match now.state {
                NP => Call::power_on(),
                CO => self.call_in_configuration(),
                NA | AV => self.call_towards_ready(),
                RE => self.call_in_ready(),
                EG => self.call_in_engaged(),
                DE => self.call_in_disengaging(),
                _ => self.call_in_fault(),
            },
            1 => self.any_call(),
            2 => self.wrong_event(),
            3 => Call::of(self.any_of(&good_events())),
            _ => self.adhesion(),
        }
    }

    fn any_of(&mut self, events: &[Vec<u8>]) -> Vec<u8> {
        events[self.random.below(events.len())].clone()
    }

    fn wrong_event(&mut self) -> Call {
        let events = if self.random.chance(50) { wrong_lengths() } else { wrong_ranges() };
        Call::of(self.any_of(&events))
    }

    fn any_call(&mut self) -> Call {
        match self.random.weighed(&[1, 1, 1, 1, 3, 3, 4, 3, 6, 3, 6, 5, 5, 5, 6]) {
            0 => Call::power_on(),
            1 => Call::configured(),
            2 => Call::power_off(),
            3 => Call::fault(),
            7 => Call::press(),
            4 => self.reports(),
            5 => Call::mode(self.random.below(2) as u8),
            6 => Call::lever(self.random.below(3) as u8),
            8 => self.position(),
            9 => self.length(),
            10 => self.load(),
            11 => self.skip(),
            12 => self.revoke(),
            13 => self.traction(),
            _ => self.adhesion(),
        }
    }

    fn call_in_configuration(&mut self) -> Call {
        match self.random.weighed(&[25, 25, 20, 20, 10]) {
            0 => Call::configured(),
            1 => self.load(),
            2 => Call::reports(31),
            3 => self.position(),
            _ => self.any_call(),
        }
    }

    /// In NA and AV: mostly what is lacking for RE.
    fn call_towards_ready(&mut self) -> Call {
        let now = self.engine.now;
        if self.random.chance(25) {
            return self.position();
        }
        if self.random.chance(20) {
            return self.any_call();
        }
        let lacks = |condition: u8| now.conditions >> condition & 1 == 0;
        if now.reports != 31 {
            Call::reports(31)
        } else if lacks(2) || lacks(3) || lacks(4) {
            self.load()
        } else if lacks(6) || lacks(7) {
            self.position()
        } else if now.mode == 1 {
            Call::mode(0)
        } else {
            Call::lever(0)
        }
    }

    fn call_in_ready(&mut self) -> Call {
        let first = usize::from(self.engine.now.first);
        let target = self.engine.route.points().get(first);
        if self.engine.now.press && target.is_some_and(|point| point.held) && self.random.chance(25) {
            return self.near_point(first, 0);
        }
        match (self.engine.now.press, self.random.below(100)) {
            (false, 0..=54) => Call::press(),
            (true, 0..=64) => Call::mode(1),
            (_, 65..=84) => self.position(),
            (_, 85..=87) => Call::mode(1),
            _ => self.any_call(),
        }
    }

    fn call_in_engaged(&mut self) -> Call {
        match self.random.weighed(&[62, 3, 3, 4, 4, 10, 8, 1, 4, 1]) {
            0 => self.position(),
            1 => Call::lever(2),
            2 => Call::mode(0),
            3 => self.reports(),
            4 => Call::lever(self.random.below(2) as u8),
            5 => self.load(),
            6 => self.skip(),
            7 => self.revoke(),
            8 => self.length(),
            _ => self.any_call(),
        }
    }

    fn call_in_disengaging(&mut self) -> Call {
        match self.random.weighed(&[45, 12, 15, 8, 20]) {
            0 => self.position(),
            1 => Call::lever(2),
            2 => Call::mode(0),
            3 => Call::reports(31),
            _ => self.any_call(),
        }
    }

    fn call_at_held_stop(&mut self) -> Call {
        match self.random.weighed(&[22, 42, 20, 8, 8]) {
            0 => Call::press(),
            1 => self.load(),
            2 => self.position(),
            3 => Call::mode(1),
            _ => {
                let speed = self.speed();
                self.not_placed(speed)
            }
        }
    }

    fn call_in_fault(&mut self) -> Call {
        if self.random.chance(60) {
            Call::power_off()
        } else {
            self.any_call()
        }
    }

    fn reports(&mut self) -> Call {
        let reports = if self.random.chance(40) { 31 } else { 31 ^ 1 << self.random.below(5) };
        let reports = if self.random.chance(20) { self.random.below(32) as u8 } else { reports };
        Call::reports(reports)
    }

    fn length(&mut self) -> Call {
        let any = self.random.between(1, 40_000);
        Call::length(self.random.pick(&[1, 2, 3, 199, 200, 201, 20_000, 99_999, 100_000, any]))
    }

    /// Often at a border of a range or one beside, and with the Q_ATO_SupTB that is remembered, or one bit of it another.
    fn traction(&mut self) -> Call {
        let border = self.random.pick(&[0, 1, 22, 23, 27, 28, 72, 73, 77, 78, 90, 91, 95, 96, 100]);
        let size = if self.random.chance(80) { border } else { self.random.between(0, 100) as i8 };
        let request = if self.random.chance(50) { size } else { -size };
        let any = self.random.next().to_be_bytes();
        let request = if self.random.chance(2) { any[0] as i8 } else { request };
        let remembered = self.engine.now.traction.map_or(0, |traction| traction.suptb);
        let q_ato_suptb = match self.random.weighed(&[70, 20, 5, 5]) {
            0 => remembered,
            1 => remembered ^ 1 << self.random.below(8),
            2 => 0,
            _ => any[1],
        };
        let m_ato_rtbrq = u16::from_be_bytes([any[4], any[5]]);
        let content = TractionBrake { m_ato_trabrrq: any[2], m_ato_locobrrq: any[3], q_ato_suptb, m_ato_rtbrq };
        Call::traction(request, content)
    }

    fn adhesion(&mut self) -> Call {
        Call::of(new_event(&mut self.random, &self.engine.constraints))
    }

    fn skip(&mut self) -> Call {
        Call::skip(self.point_to_skip(false))
    }

    fn revoke(&mut self) -> Call {
        Call::revoke(self.point_to_skip(true))
    }

    /// A point for a driver skip or its revocation.
    fn point_to_skip(&mut self, revoked: bool) -> u32 {
        let now = self.engine.now;
        let points = self.engine.route.points();
        if points.is_empty() || self.random.chance(6) {
            return self.random.pick(&[0, 7001, 5_000, u32::MAX]);
        }
        let ahead = points[usize::from(now.first)..].iter().filter(|point| point.stop);
        let ahead: Vec<u32> = ahead.map(|point| point.nidtp).collect();
        let skipped = |k: &usize| now.skips >> k & 1 == 1;
        let given: Vec<u32> = (0..points.len()).filter(skipped).map(|k| points[k].nidtp).collect();
        let names = match (revoked, self.random.below(100)) {
            (true, 0..=74) if !given.is_empty() => given,
            (_, 0..=84) if !ahead.is_empty() => ahead[..ahead.len().min(3)].to_vec(),
            _ => points.iter().map(|point| point.nidtp).collect(),
        };
        self.random.pick(&names)
    }

    fn load(&mut self) -> Call {
        let mut profiles = if self.random.chance(45) {
            let mut profiles = self.profiles.clone();
            rewrite(&mut self.random, &mut profiles, &self.engine);
            profiles
        } else {
            new_profiles(&mut self.random)
        };
        if self.random.chance(15) {
            self.add_faults(&mut profiles);
        } else {
            self.profiles = profiles.clone();
        }
        profiles.load()
    }

    /// One fault, sometimes two.
    fn add_faults(&mut self, profiles: &mut Profiles) {
        let times = 1 + usize::from(self.random.chance(30));
        for _ in 0..times {
            let number = self.random.pick(&[7, 7, 8, 9, 9, 10, 11, 11, 12, 12]);
            let faults: Vec<&Fault> = BOOK_FAULTS.iter().chain(JOURNEY_FAULTS).filter(|f| f.number == number).collect();
            let fault = self.random.pick(&faults);
            if !profiles.journey.points.is_empty() && !profiles.journey.segments.is_empty() {
                (fault.apply)(profiles, self.random.below(64));
            }
        }
        if self.random.chance(10) {
            profiles.book_cut = self.random.below(30);
        }
        if self.random.chance(10) {
            profiles.journey_cut = self.random.below(30);
        }
    }

    fn speed(&mut self) -> u16 {
        let any = self.random.next() as u16;
        self.random.pick(&[0, 0, 0, 0, 0, 1, 500, 2_000, 65_535, any])
    }

    fn position(&mut self) -> Call {
        let speed = self.speed();
        let now = self.engine.now;
        if self.engine.route.segments().is_empty() || !now.loaded {
            return Call::position(17, 500, self.random.between(0, 60_000), speed);
        }
        if now.reached && self.random.chance(55) {
            return self.leave();
        }
        match self.random.weighed(&[62, 12, 6, 8, 4, 4, 4]) {
            0 => self.near_point(usize::from(now.first), speed),
            1 => self.advance(speed),
            2 => {
                let any = self.random.below(self.engine.route.points().len());
                self.near_point(any, speed)
            }
            3 => self.segment_edge(speed),
            4 => Call::position(now.position.nidc, now.position.nidsp, UNDEFINED, speed),
            5 => Call::position(now.position.nidc, now.position.nidsp, self.random.between(0, UNDEFINED), speed),
            _ => self.elsewhere(speed),
        }
    }

    /// d at the edges of a point's reach.
    fn near_point(&mut self, k: usize, speed: u16) -> Call {
        let points = self.engine.route.points();
        let k = k.min(points.len() - 1);
        let reach = i64::from(points[k].reach);
        let any = i64::from(self.random.between(0, 4_000)) - 3_000;
        let d = match self.random.weighed(&[10, 10, 16, 10, 10, 6, 22, 16]) {
            0 => -reach - 1,
            1 => -reach,
            2 => 0,
            3 => reach,
            4 => reach + 1,
            5 => 1,
            6 => any,
            _ => -i64::from(self.random.between(0, 20_000)),
        };
        self.at_distance(k, d, speed)
    }

    /// At the reached stop: a departure, at R + 1 or further, a halt there, or a creep, which is neither.
    fn leave(&mut self) -> Call {
        let speed = self.random.pick(&[1, 1, 500, 65_535]);
        let now = self.engine.now;
        let k = usize::from(now.first);
        let reach = i64::from(self.engine.route.points()[k].reach);
        let further = i64::from(self.random.between(0, 20_000));
        match self.random.weighed(&[30, 34, 12, 6, 6, 6, 6]) {
            0 => self.at_distance(k, reach + 1, speed),
            1 => self.at_distance(k, reach + 1 + further, speed),
            2 => self.at_distance(k, reach + 1 + further, 0),
            3 => self.at_distance(k, reach, speed),
            4 => self.at_distance(k, -reach - 1, speed),
            5 => Call::position(now.position.nidc, now.position.nidsp, UNDEFINED, speed),
            _ => self.elsewhere(speed),
        }
    }

    /// The train so far beyond a point, by its length as it stands.
    fn at_distance(&mut self, k: usize, d: i64, speed: u16) -> Call {
        let point = self.engine.route.points()[k];
        let shift = behind_front(self.engine.now.length, point.alignment);
        self.at_front(i64::from(point.place) + i64::from(shift) + d, speed)
    }

    fn advance(&mut self, speed: u16) -> Call {
        let now = self.engine.now;
        let start = now.segment.map_or(0, |k| self.engine.route.segments()[usize::from(k)].start);
        let step = self.random.between(0, 3_000);
        let offset = if now.position.offset == UNDEFINED { 0 } else { now.position.offset };
        self.at_front(i64::from(start) + i64::from(offset) + i64::from(step), speed)
    }

    /// A position on the placed segments, as near to `front` as can be.
    fn at_front(&mut self, front: i64, speed: u16) -> Call {
        let placed = usize::from(self.engine.route.placed_segments);
        let segments = &self.engine.route.segments()[..placed];
        let Some(last) = segments.last() else { return self.elsewhere(speed) };
        let front = front.clamp(0, i64::from(last.start + last.length)) as u32;
        let holds: Vec<usize> = (0..placed)
            .filter(|&k| segments[k].start <= front && front <= segments[k].start + segments[k].length)
            .collect();
        let segment = segments[holds[self.random.below(holds.len())]];
        Call::position(segment.nidc, segment.nidsp, front - segment.start, speed)
    }

    /// At, or one beside, either end of a segment.
    fn segment_edge(&mut self, speed: u16) -> Call {
        let segments = self.engine.route.segments();
        let segment = segments[self.random.below(segments.len())];
        let length = segment.length;
        let offset = self.random.pick(&[0, 1, length.saturating_sub(1), length, length + 1, 16_777_214]);
        Call::position(segment.nidc, segment.nidsp, offset, speed)
    }

    /// A journey segment on which the position is not known.
    fn not_placed(&mut self, speed: u16) -> Call {
        let segments = &self.engine.route.segments()[usize::from(self.engine.route.placed_segments)..];
        if segments.is_empty() {
            return self.elsewhere(speed);
        }
        let segment = segments[self.random.below(segments.len())];
        Call::position(segment.nidc, segment.nidsp, self.random.pick(&[0, 10, 500]), speed)
    }

    /// Any journey segment, or none of the journey's.
    fn elsewhere(&mut self, speed: u16) -> Call {
        let segments = self.engine.route.segments();
        let (mut nidc, mut nidsp) = (17, 599);
        if self.random.chance(60) {
            let segment = segments[self.random.below(segments.len())];
            (nidc, nidsp) = (segment.nidc, segment.nidsp);
            if self.random.chance(20) {
                nidc ^= 1;
            }
        }
        let offset = self.random.pick(&[0, 10, 500, 10_000, 16_777_214]);
        Call::position(nidc, nidsp, offset, speed)
    }
}
