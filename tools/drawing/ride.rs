//! A scenario stepped through the proved engine: what each event gave, and what the picture shows after it.

use crate::plan::{Front, Plan};
use model::calls::MEMORY;
use model::events::{read_event, Event, Position, UNDEFINED};
use model::reasons::reason;
use model::words::{packet_in_words, place_of_number};
use proved::hollwern::{self, Engine, PacketFields, Shown};
use std::ops::Range;
use tools::brought::brought_in_words;
use tools::language::{Scenario, Step};
use tools::points::points_in_words;
use tools::story::StepNames;

/// What the latest accepted events since power off that carry them say, else fresh.
#[derive(Clone, Copy, PartialEq)]
pub struct Reported {
    pub mode: u8,
    pub lever: u8,
    pub reports: u8,
    pub length: u32,
    pub speed: u16,
    pub position: Position,
    /// The last event was a position report.
    pub now: bool,
    /// Of a traction request, where the last event was one.
    pub request: Option<i8>,
}

impl Reported {
    const FRESH: Reported = Reported {
        mode: 0,
        lever: 0,
        reports: 0,
        length: 0,
        speed: 0,
        position: Position { nidc: 0, nidsp: 0, offset: UNDEFINED },
        now: false,
        request: None,
    };

    fn accept(&mut self, event: Event) {
        match event {
            Event::PowerOff => *self = Reported::FRESH,
            Event::Mode(mode) => self.mode = mode,
            Event::Lever(lever) => self.lever = lever,
            Event::Reports(reports) => self.reports = reports,
            Event::Length(length) => self.length = length,
            Event::Report(position, speed) => (self.position, self.speed) = (position, speed),
            _ => {}
        }
        self.now = matches!(event, Event::Report(..));
        self.request = if let Event::Traction(request, _) = event { Some(request) } else { None };
    }
}

/// A packet that an event wrote; a load that is turned down writes one, too.
pub struct Written {
    pub fields: PacketFields,
    pub words: String,
}

pub struct Refusal {
    pub number: u8,
    pub reason: String,
}

impl Refusal {
    pub fn in_words(&self) -> String {
        format!("refused by {} ({}): {}", self.number, place_of_number(self.number), self.reason)
    }
}

/// What an event gave, and what holds after it.
pub struct Moment {
    /// Its number in the picture.
    pub label: String,
    pub line: usize,
    pub text: String,
    /// It no longer matters to what the picture shows.
    pub later: bool,
    pub refused: Option<Refusal>,
    pub shown: Shown,
    /// Of a traction request its range, of slippery rail how many rows.
    pub brought: String,
    /// The points that it passed or put behind, and the one that is targeted or reached.
    pub points: String,
    pub reported: Reported,
    pub packets: Vec<Written>,
    /// The points that the driver skips, by NID_TP.
    pub skips: Vec<u32>,
    pub front: Front,
}

/// The events under one journey, or under none.
pub struct Stretch {
    pub plan: Option<Plan>,
    pub moments: Range<usize>,
}

pub struct Ride {
    pub moments: Vec<Moment>,
    pub stretches: Vec<Stretch>,
}

impl Ride {
    /// The steps through an engine that is fresh.
    pub fn of<'a>(mut engine: Engine, scenario: &Scenario, steps: impl Iterator<Item = &'a Step>) -> Ride {
        let mut ride = Ride { moments: Vec::new(), stretches: vec![Stretch { plan: None, moments: 0..0 }] };
        let (mut reported, mut skips, mut model) = (Reported::FRESH, Vec::new(), model::engine::Engine::fresh());
        for step in steps {
            let mut out = [0; MEMORY];
            let (reason, brought) = told(&mut model, step, &StepNames::of(scenario, ride.journey(), step));
            let answer = engine.step(&step.call.event, &step.call.journey, &step.call.book, &mut out);
            (reported.now, reported.request) = (false, None);
            let accepted = read_event(&step.call.event).ok().filter(|_| answer.accepted);
            if let Some(event) = accepted {
                reported.accept(event);
                ride.turn(event, step, scenario);
            }
            let packets = ride.read_packets(&out[..answer.bytes], scenario);
            if let Some(event) = accepted {
                follow_skips(&mut skips, event, &packets);
            }
            let refused = accepted.is_none().then_some(Refusal { number: answer.number, reason });
            let shown = engine.show();
            ride.add(Moment {
                label: (ride.moments.len() + 1).to_string(),
                line: step.line,
                text: step.text.clone(),
                later: false,
                refused,
                shown,
                brought,
                points: ride.points_in_words(&shown),
                reported,
                packets,
                skips: skips.clone(),
                front: ride.front(reported.position),
            });
        }
        ride.stretches.retain(|stretch| !stretch.moments.is_empty());
        ride
    }

    /// A load begins a stretch, and so does power off where there was a journey.
    fn turn(&mut self, event: Event, step: &Step, scenario: &Scenario) {
        let at = self.moments.len();
        let loaded = self.stretches.last().is_some_and(|stretch| stretch.plan.is_some());
        let plan = match event {
            Event::Load => Plan::of(&step.call, scenario, step.loads.clone().unwrap_or_default()),
            Event::PowerOff if loaded => None,
            _ => return,
        };
        self.stretches.push(Stretch { plan, moments: at..at });
    }

    /// The journey in force.
    fn plan(&self) -> Option<&Plan> {
        self.stretches.last()?.plan.as_ref()
    }

    fn journey(&self) -> Option<&str> {
        Some(&self.plan()?.journey)
    }

    /// The packets that an event wrote, by the proved reader.
    fn read_packets(&self, bytes: &[u8], scenario: &Scenario) -> Vec<Written> {
        let packet = |packet: &[u8]| {
            let fields = hollwern::read(packet);
            let words = packet_in_words(packet, &|nidtp| scenario.point_name_in(self.journey(), fields.nidc, nidtp));
            Written { fields, words }
        };
        hollwern::packets(bytes).map(packet).collect()
    }

    fn front(&self, position: Position) -> Front {
        self.plan().map_or(Front::Unknown("no journey is loaded"), |plan| plan.front(position))
    }

    fn points_in_words(&self, shown: &Shown) -> String {
        let Some(Stretch { plan: Some(plan), moments }) = self.stretches.last() else { return String::new() };
        let before = self.moments.last().filter(|_| !moments.is_empty());
        let names: Vec<&str> = plan.points.iter().map(|point| &*point.name).collect();
        points_in_words(&names, before.map(|moment| &moment.shown.standings[..]), &shown.standings)
    }

    fn add(&mut self, moment: Moment) {
        self.moments.push(moment);
        if let Some(stretch) = self.stretches.last_mut() {
            stretch.moments.end += 1;
        }
    }

    /// Without the first events.
    pub fn without(mut self, first: usize) -> Ride {
        self.moments.drain(..first);
        for Stretch { moments, .. } in &mut self.stretches {
            *moments = moments.start.saturating_sub(first)..moments.end.saturating_sub(first);
        }
        self.stretches.retain(|stretch| !stretch.moments.is_empty());
        self
    }
}

/// What the model says of a step: why it is refused; of a traction request and of slippery rail, what comes of it.
fn told(model: &mut model::engine::Engine, step: &Step, names: &StepNames) -> (String, String) {
    let (reason, before) = (reason(model, &step.call, names), model.clone());
    let _ = model.call(&step.call, &mut [0; MEMORY]);
    let brought = brought_in_words(&step.call.event, &before, model);
    (reason.map_or(String::new(), |(_, reason)| reason), brought)
}

/// Driver skips as the packets tell of them: given by status 5, revoked by 6, cleared by a load and power off.
fn follow_skips(skips: &mut Vec<u32>, event: Event, packets: &[Written]) {
    if matches!(event, Event::Load | Event::PowerOff) {
        skips.clear();
    }
    for packet in packets.iter().filter(|packet| packet.fields.kind == 62) {
        match packet.fields.status {
            5 => skips.push(packet.fields.nidtp),
            6 => skips.retain(|&nidtp| nidtp != packet.fields.nidtp),
            _ => {}
        }
    }
}
