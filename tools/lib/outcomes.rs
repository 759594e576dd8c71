//! What comes of every order of some events, counted and told in words.

use crate::refusals::row;
use model::words::{grouped, STATES};
use std::collections::{BTreeMap, HashMap};
use std::io::IsTerminal;

/// So many events at most.
pub const MOST: usize = 10;
/// So many kinds of recordings are told or drawn at most.
pub const SHOWN: usize = 40;

/// What may be recorded of a point, driver skips aside; the last is that none of the first three was.
const KINDS: [&str; 8] = [
    "passed",
    "stopped",
    "departed",
    "held",
    "hold revoked",
    "skipped by trackside",
    "trackside skip revoked",
    "never passed, stopped or departed",
];
const NEVER: usize = 7;
/// The status in packet 62 of each but the last.
const RECORDED: [u8; NEVER] = [0, 1, 2, 3, 4, 7, 8];
/// So many statuses tell where a point stands.
const STANDS: usize = 3;

/// What was recorded of each point, a bit for each.
#[derive(Clone, Copy, Default, PartialEq, Eq, Hash)]
pub struct Outcome([u64; NEVER]);

impl Outcome {
    pub fn note(&mut self, point: usize, status: u8) {
        if let Some(kind) = RECORDED.iter().position(|&recorded| recorded == status) {
            self.0[kind] |= 1 << point;
        }
    }

    fn has(&self, kind: usize, point: usize) -> bool {
        let recorded = |kind: usize| self.0[kind] >> point & 1 == 1;
        if kind == NEVER {
            !(0..STANDS).any(recorded)
        } else {
            recorded(kind)
        }
    }

    /// Of each point, by its name.
    fn in_words(&self, points: &[String]) -> String {
        if points.is_empty() {
            return "no point to record of".into();
        }
        let point = |(k, name): (usize, &String)| {
            let kinds: Vec<&str> = (0..KINDS.len()).filter(|&kind| self.has(kind, k)).map(|kind| KINDS[kind]).collect();
            format!("{name} {}", kinds.join(" and "))
        };
        points.iter().enumerate().map(point).collect::<Vec<_>>().join("; ")
    }
}

/// The orders that record the same of all the points.
pub struct Kind {
    pub orders: u64,
    /// One of them: the first found of those in which all is recorded after the fewest events.
    pub order: Vec<usize>,
    /// After so many of its events.
    pub recorded: usize,
}

impl Kind {
    /// All is recorded before the bar.
    pub fn order_in_words(&self) -> String {
        let (first, rest) = self.order.split_at(self.recorded);
        format!("{} | {}", numbers(first), numbers(rest)).trim().into()
    }
}

/// For each event, which others come before it.
type Before = [u16; MOST];

/// The orders in which something holds of a point.
#[derive(Clone)]
struct Class {
    orders: u64,
    /// What comes before each event in all of them.
    always: Before,
    /// The shortest beginning of an order that shows it, the first one found.
    shortest: Option<Vec<usize>>,
}

pub struct Outcomes {
    events: usize,
    orders: u64,
    states: [u64; 8],
    recordings: Vec<u64>,
    /// Orders in which an event is refused by a number.
    refusals: BTreeMap<(usize, u8), u64>,
    points: Vec<[Class; KINDS.len()]>,
    kinds: HashMap<Outcome, Kind>,
}

fn factorial(n: usize) -> u64 {
    (1..=n as u64).product()
}

fn before(path: &[usize]) -> Before {
    let mut before = [0; MOST];
    let mut seen = 0;
    for &event in path {
        before[event] = seen;
        seen |= 1 << event;
    }
    before
}

/// How many orders keep to it.
fn orders_with(always: &Before, events: usize) -> u64 {
    let mut ways = vec![0; 1 << events];
    ways[0] = 1;
    for taken in 0..ways.len() {
        for (event, needs) in always.iter().enumerate().take(events) {
            if taken >> event & 1 == 0 && usize::from(*needs) & !taken == 0 {
                ways[taken | 1 << event] += ways[taken];
            }
        }
    }
    ways[ways.len() - 1]
}

pub fn orders_in_words(orders: u64) -> String {
    format!("{} {}", grouped(orders), if orders == 1 { "order" } else { "orders" })
}

fn numbers(events: &[usize]) -> String {
    events.iter().map(|k| (k + 1).to_string()).collect::<Vec<_>>().join(" ")
}

impl Class {
    const NONE: Class = Class { orders: 0, always: [u16::MAX; MOST], shortest: None };

    fn offer(&mut self, path: &[usize]) {
        if self.shortest.as_ref().is_none_or(|shortest| path.len() < shortest.len()) {
            self.shortest = Some(path.to_vec());
        }
    }

    /// The pairs of events that all its orders have in one order, those left out that follow from others.
    fn pairs(&self, events: usize) -> Vec<String> {
        let comes = |a: usize, b: usize| self.always[b] >> a & 1 == 1;
        let direct = |a: usize, b: usize| comes(a, b) && !(0..events).any(|c| comes(a, c) && comes(c, b));
        let pairs = (0..events).flat_map(|a| (0..events).map(move |b| (a, b)));
        pairs.filter(|&(a, b)| direct(a, b)).map(|(a, b)| format!("{} before {}", a + 1, b + 1)).collect()
    }

    fn in_words(&self, kind: &str, events: usize) -> String {
        let mut text = format!("  {kind}: {}", orders_in_words(self.orders));
        let pairs = self.pairs(events).join(", ");
        if self.orders == factorial(events) {
            text += ", all";
        } else if !pairs.is_empty() && orders_with(&self.always, events) == self.orders {
            text += &format!(", exactly those with {pairs}");
        } else if !pairs.is_empty() {
            text += &format!(", each with {pairs}");
        }
        let shortest = self.shortest.as_deref().unwrap_or_default();
        format!("{text}; shortest example: {}\n", numbers(shortest))
    }
}

impl Outcomes {
    pub fn new(events: usize, points: usize) -> Outcomes {
        let none = [Class::NONE; KINDS.len()];
        let (recordings, refusals, kinds) = (Vec::new(), BTreeMap::new(), HashMap::new());
        Outcomes { events, orders: 0, states: [0; 8], recordings, refusals, points: vec![none; points], kinds }
    }

    /// The last event of the path was stepped.
    pub fn step(&mut self, path: &[usize], answer: Result<(), u8>, was: Outcome, now: Outcome) {
        if let (Some(&event), Err(number)) = (path.last(), answer) {
            *self.refusals.entry((event, number)).or_default() += factorial(self.events - path.len());
        }
        if now == was {
            return;
        }
        for (point, classes) in self.points.iter_mut().enumerate() {
            for (kind, class) in classes.iter_mut().enumerate().take(NEVER) {
                if now.has(kind, point) && !was.has(kind, point) {
                    class.offer(path);
                }
            }
        }
    }

    /// An order has ended; the last change of the outcome came with so many of its events.
    pub fn end(&mut self, path: &[usize], state: u8, recording: u64, (outcome, recorded): (Outcome, usize)) {
        self.orders += 1;
        self.states[usize::from(state)] += 1;
        self.recordings.push(recording);
        self.end_points(path, outcome);
        let kind = self.kinds.entry(outcome).or_insert_with(|| Kind { orders: 0, order: path.to_vec(), recorded });
        kind.orders += 1;
        if recorded < kind.recorded {
            (kind.order, kind.recorded) = (path.to_vec(), recorded);
        }
        if self.orders % 100_000 == 0 && std::io::stderr().is_terminal() {
            eprint!("\r{} of {} orders", grouped(self.orders), grouped(factorial(self.events)));
        }
    }

    fn end_points(&mut self, path: &[usize], outcome: Outcome) {
        let before = before(path);
        for (point, classes) in self.points.iter_mut().enumerate() {
            for (kind, class) in classes.iter_mut().enumerate().filter(|(kind, _)| outcome.has(*kind, point)) {
                class.orders += 1;
                class.always.iter_mut().zip(before).for_each(|(always, before)| *always &= before);
                if kind == NEVER {
                    class.offer(path);
                }
            }
        }
    }

    /// What is recorded of the points together, in words, and its orders: the commonest first.
    pub fn kinds(&self, points: &[String]) -> Vec<(String, &Kind)> {
        let mut kinds: Vec<_> = self.kinds.iter().map(|(outcome, kind)| (outcome.in_words(points), kind)).collect();
        kinds.sort_by(|(_, one), (_, other)| other.orders.cmp(&one.orders).then_with(|| one.order.cmp(&other.order)));
        kinds
    }

    fn kinds_in_words(&self, points: &[String]) -> String {
        let kinds = self.kinds(points);
        let count = if kinds.len() == 1 { "1 kind".into() } else { format!("{} kinds", grouped(kinds.len() as u64)) };
        let mut text =
            format!("\n{count} of recordings of these points together; the shortest order of each records all ");
        text += "before |\n";
        for (words, kind) in kinds.iter().take(SHOWN) {
            text += &format!("  {words}: {}; {}\n", orders_in_words(kind.orders), kind.order_in_words());
        }
        if kinds.len() > SHOWN {
            text += &format!("  and {} more, none of them commoner\n", grouped((kinds.len() - SHOWN) as u64));
        }
        text
    }

    fn distinct_recordings(&self) -> usize {
        let mut recordings = self.recordings.clone();
        recordings.sort_unstable();
        recordings.dedup();
        recordings.len()
    }

    /// `events` are the lines of the events, `points` the names of the points.
    pub fn in_words(&self, events: &[&str], points: &[String]) -> String {
        let mut text = String::from("\n");
        for (k, event) in events.iter().enumerate() {
            text += &format!("{:2} {event}\n", k + 1);
        }
        let orders = orders_in_words(self.orders);
        text += &format!("\n{orders}, every step as the independent model has it\n");
        let ended =
            (0..8).filter(|&k| self.states[k] > 0).map(|k| format!("{} {}", STATES[k], grouped(self.states[k])));
        text += &format!("end states: {}\n", ended.collect::<Vec<_>>().join(", "));
        text += &format!("distinct recordings: {}", grouped(self.distinct_recordings() as u64));
        text += " (so many different sequences of packets, byte for byte, come out of all orders)\n";
        for ((event, number), orders) in &self.refusals {
            let (reason, orders) = (row(*number), orders_in_words(*orders));
            let event = format!("event {} ({})", event + 1, events[*event]);
            text += &format!("{event} is refused by {number} ({reason}) in {orders}\n");
        }
        for (name, classes) in points.iter().zip(&self.points) {
            text += &format!("\n{name} is recorded as\n");
            for (kind, class) in KINDS.iter().zip(classes).filter(|(_, class)| class.orders > 0) {
                text += &class.in_words(kind, self.events);
            }
        }
        if !points.is_empty() {
            text += &self.kinds_in_words(points);
        }
        text
    }
}
