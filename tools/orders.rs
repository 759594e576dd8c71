//! `orders [--draw OUT.svg] SCENARIO`: every order of up to ten events. The scenario has a line `orders [POINT ..]`:
//! what stands before it is the fixed beginning, the events below come in every order, and what is recorded of those
//! points is told (none: of all). Each step goes through the proved engine by its C interface and is compared with the
//! model; shared beginnings are stepped once. `--draw` draws the shortest order of each kind of recording.

use drawing::ride::Ride;
use drawing::strips::{picture, Strip};
use model::engine::written;
use model::packets::{split_packets, Content, Packet};
use model::values::Journey;
use model::words::grouped;
use proved::hollwern::Engine;
use proved::pair::{Memory, Pair};
use std::hash::{DefaultHasher, Hash, Hasher};
use std::path::Path;
use tools::language::{read_text, Scenario, Step};
use tools::outcomes::{orders_in_words, Kind, Outcome, Outcomes, MOST, SHOWN};
use tools::output::print;
use tools::refusals::row;

const USAGE: &str = "usage: tools/orders [--draw OUT.svg] [SCENARIO]";

/// How far an order has come: both engines, and what was recorded since the fixed beginning.
#[derive(Clone)]
struct Run {
    pair: Pair,
    /// A hash of all packets in their order.
    recording: u64,
    outcome: Outcome,
    /// The events after which the outcome last changed.
    recorded: usize,
}

struct Orders<'a> {
    events: &'a [Step],
    points: Vec<u32>,
    memory: Memory,
    path: Vec<usize>,
    outcomes: Outcomes,
}

impl Orders<'_> {
    /// One step of both engines. An error says where they differ.
    fn step(&mut self, run: &mut Run, step: &Step) -> Result<Result<(), u8>, String> {
        let answer = run.pair.call(&step.call, &mut self.memory);
        let answer = answer.map_err(|error| format!("{} at '{}': {error}", self.path_in_words(), step.text))?;
        let packets = &self.memory.proved[..written(answer)];
        if !packets.is_empty() {
            let mut hasher = DefaultHasher::new();
            (run.recording, packets).hash(&mut hasher);
            run.recording = hasher.finish();
        }
        for packet in split_packets(packets) {
            if let Ok(Packet { content: Content::Point { nidtp, status, .. }, .. }) = Packet::read(packet) {
                let point = self.points.iter().position(|&other| other == nidtp);
                point.into_iter().for_each(|point| run.outcome.note(point, status));
            }
        }
        Ok(answer.map(|_| ()).map_err(|refused| refused.number))
    }

    /// Every order of the events in `left`, a bit each.
    fn try_all(&mut self, run: &Run, left: u16) -> Result<(), String> {
        if left == 0 {
            if !run.pair.proved.shows(&run.pair.model) {
                return Err(format!("{}: the engines differ at the end", self.path_in_words()));
            }
            let outcome = (run.outcome, run.recorded);
            self.outcomes.end(&self.path, run.pair.model.now.state, run.recording, outcome);
            return Ok(());
        }
        let events = self.events;
        for k in (0..events.len()).filter(|k| left >> k & 1 == 1) {
            let mut next = run.clone();
            let answer = self.step(&mut next, &events[k])?;
            self.path.push(k);
            if next.outcome != run.outcome {
                next.recorded = self.path.len();
            }
            self.outcomes.step(&self.path, answer, run.outcome, next.outcome);
            self.try_all(&next, left & !(1 << k))?;
            self.path.pop();
        }
        Ok(())
    }

    fn path_in_words(&self) -> String {
        let numbers: Vec<String> = self.path.iter().map(|k| (k + 1).to_string()).collect();
        format!("after events {}", numbers.join(" "))
    }
}

/// The points of these names, of all journeys that are loaded; with no names all of them.
fn points_of(scenario: &Scenario, names: &[String]) -> Result<Vec<u32>, String> {
    let mut points: Vec<u32> = Vec::new();
    for journey in scenario.steps.iter().filter_map(|step| Journey::read(&step.call.journey)) {
        points.extend(journey.points.iter().map(|point| point.nidtp));
    }
    points.sort();
    points.dedup();
    if let Some(name) = names.iter().find(|name| points.iter().all(|&nidtp| scenario.point_name(nidtp) != **name)) {
        return Err(format!("no journey that is loaded has a point '{name}'"));
    }
    points.retain(|&nidtp| names.is_empty() || names.contains(&scenario.point_name(nidtp)));
    if points.len() > 64 {
        return Err("more than 64 points; name those to tell of".into());
    }
    Ok(points)
}

/// The scenario, the line of `orders` and the points that it names.
fn read(text: &str) -> Result<(Scenario, usize, Vec<String>), String> {
    let is_orders = |line: &str| line.split_whitespace().next() == Some("orders");
    let at = text.lines().position(is_orders).ok_or("no line 'orders' says where the fixed beginning ends")?;
    let line = text.lines().nth(at).unwrap_or("").split('#').next().unwrap_or("");
    let names = line.split_whitespace().skip(1).map(String::from).collect();
    let rest: Vec<&str> = text.lines().enumerate().map(|(k, line)| if k == at { "" } else { line }).collect();
    Ok((Scenario::read(&rest.join("\n"))?, at + 1, names))
}

/// A scenario with its fixed beginning and the events that are ordered.
struct Task<'a> {
    file: &'a str,
    scenario: &'a Scenario,
    beginning: &'a [Step],
    events: &'a [Step],
}

impl Task<'_> {
    /// Both engines after the fixed beginning.
    fn start(&self, orders: &mut Orders) -> Result<Run, String> {
        let mut start = Run { pair: Pair::fresh(), recording: 0, outcome: Outcome::default(), recorded: 0 };
        for step in self.beginning {
            let refused = |number| {
                let (line, text, row) = (step.line, &step.text, row(number));
                format!("{}, line {line}: '{text}' of the beginning is refused by {number} ({row})", self.file)
            };
            orders.step(&mut start, step)?.map_err(refused)?;
        }
        Ok(Run { recording: 0, outcome: Outcome::default(), ..start })
    }

    /// The order of a kind as it is drawn, from the last event of the beginning on.
    fn ride(&self, kind: &Kind) -> Ride {
        let steps = self.beginning.iter().chain(kind.order.iter().map(|&k| &self.events[k]));
        let before = self.beginning.len().min(1);
        let mut ride = Ride::of(Engine::fresh(), self.scenario, steps).without(self.beginning.len() - before);
        ride.moments.iter_mut().take(before).for_each(|moment| moment.label = "·".into());
        for (at, (moment, k)) in ride.moments.iter_mut().skip(before).zip(&kind.order).enumerate() {
            moment.label = (k + 1).to_string();
            moment.later = kind.recorded > 0 && at >= kind.recorded;
        }
        ride
    }

    fn picture(&self, kinds: &[(String, &Kind)]) -> String {
        let orders = orders_in_words(kinds.iter().map(|(_, kind)| kind.orders).sum());
        let strip = |(words, kind): &(String, &Kind)| Strip {
            heading: words.clone(),
            note: format!("{} of {orders}; this one: {}", grouped(kind.orders), kind.order_in_words()),
            ride: self.ride(kind),
        };
        let strips: Vec<Strip> = kinds.iter().take(SHOWN).map(strip).collect();
        let name = Path::new(self.file).file_name().map_or(self.file.into(), |name| name.to_string_lossy());
        let title = format!("{name}: {orders} of {} events", self.events.len());
        let most = if strips.len() < kinds.len() { format!(", the {SHOWN} commonest") } else { String::new() };
        let notes = [
            format!("{} kinds of recordings of these points{most}.", kinds.len()),
            "Each is shown by its shortest order: the one in which all is recorded after the fewest events.".into(),
            "The first column is the last event of the fixed beginning; grey columns record nothing more of the points."
                .into(),
        ];
        picture(&title, &notes, &strips)
    }
}

/// Tells of every order; draws where there is a file to draw to.
fn run(file: &str, draw: Option<&str>) -> Result<(), String> {
    let (scenario, line, names) = read(&read_text(file)?).map_err(|error| format!("{file}, {error}"))?;
    let (beginning, events) = scenario.steps.split_at(scenario.steps.partition_point(|step| step.line < line));
    if events.is_empty() || events.len() > MOST {
        return Err(format!("{file}: {} events below 'orders'; 1 to {MOST} can be ordered", events.len()));
    }
    let task = Task { file, scenario: &scenario, beginning, events };
    let points = points_of(&scenario, &names).map_err(|error| format!("{file}, line {line}: {error}"))?;
    let outcomes = Outcomes::new(events.len(), points.len());
    let mut orders = Orders { events, points, memory: Memory::new(), path: Vec::new(), outcomes };
    let start = task.start(&mut orders)?;
    orders.try_all(&start, ((1u32 << events.len()) - 1) as u16)?;
    let names: Vec<String> = orders.points.iter().map(|&nidtp| scenario.point_name(nidtp)).collect();
    let events: Vec<&str> = events.iter().map(|step| step.text.as_str()).collect();
    print(orders.outcomes.in_words(&events, &names).as_bytes())?;
    let Some(out) = draw else { return Ok(()) };
    std::fs::write(out, task.picture(&orders.outcomes.kinds(&names))).map_err(|error| format!("{out}: {error}"))
}

/// The scenario, and the file to draw to.
fn arguments(given: &[String]) -> Result<(&str, Option<&str>), String> {
    let given: Vec<&str> = given.iter().map(String::as_str).collect();
    match given[..] {
        ["--draw", out, file] if out.ends_with(".svg") => Ok((file, Some(out))),
        ["--draw", out, _] => Err(format!("{out} does not end in .svg; {USAGE}")),
        [file] if !file.starts_with("--") => Ok((file, None)),
        _ => Err(USAGE.into()),
    }
}

fn main() {
    let given: Vec<String> = std::env::args().skip(1).collect();
    let failed = |error: String, status: i32| {
        eprintln!("orders: {error}");
        std::process::exit(status);
    };
    match arguments(&given) {
        Err(error) => failed(error, 2),
        Ok((file, draw)) => run(file, draw).unwrap_or_else(|error| failed(error, 1)),
    }
}
