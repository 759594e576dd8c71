//! The lanes that tell what holds after each event: the event, the state, AD request, mode, lever, conditions; and the
//! packets that it wrote.

use crate::ride::{Moment, Refusal, Ride, Stretch, Written};
use crate::sheet::{middle, runs, Lane, COLUMN, GUTTER};
use crate::svg::Svg;
use crate::words::{cut, letters, state_in_words, wrapped};
use model::words::{CONDITIONS, DRIVER, LEVERS, MODES, STATES, STATE_NAMES};

/// The lines of the scenario, upwards, and their numbers.
pub struct Events {
    /// What each journey's load names, a line each.
    loads: Vec<Vec<String>>,
}

impl Events {
    pub fn of(ride: &Ride) -> Events {
        let load = |stretch: &Stretch| match &stretch.plan {
            None => Vec::new(),
            Some(plan) => vec![
                format!("journey {}", plan.journey),
                format!("book {}", plan.book),
                format!("NID_OPERATIONAL {:08X}", plan.operational),
            ],
        };
        Events { loads: ride.stretches.iter().map(load).collect() }
    }
}

/// An event's text in one line if it is short, else in two, as even as may be, where need be with long words cut.
fn in_two(text: &str) -> Vec<String> {
    let even = |text: &str| (12..=24).find_map(|width| wrapped(text, width, 2));
    let shortened = || text.split_whitespace().map(|word| cut(word, 12)).collect::<Vec<_>>().join(" ");
    let whole = wrapped(text, 18, 1).or_else(|| even(text)).or_else(|| even(&shortened()));
    whole.unwrap_or_else(|| vec![cut(text, 24)])
}

impl Lane for Events {
    fn height(&self) -> f64 {
        158.0
    }

    fn label(&self, svg: &mut Svg) {
        svg.text("head", 0.0, 152.0, "Event");
    }

    fn gutter(&self, stretch: usize, svg: &mut Svg) {
        for (k, line) in self.loads[stretch].iter().enumerate() {
            let (class, size) = if k == 0 { ("journey", 13.0) } else { ("small", 10.0) };
            svg.text(class, 10.0, 17.0 + 15.0 * k as f64, &cut(line, letters(GUTTER - 18.0, size)));
        }
    }

    fn columns(&self, _: usize, moments: &[Moment], svg: &mut Svg) {
        for (k, moment) in moments.iter().enumerate() {
            let lines = in_two(&moment.text);
            for (line, text) in lines.iter().enumerate() {
                let x = middle(k) + 4.0 + 12.0 * (line as f64 - (lines.len() - 1) as f64 / 2.0);
                svg.upward("event", x, 138.0, text);
            }
            svg.text("number", middle(k), 152.0, &moment.label);
        }
    }
}

/// A figure under each event that has one.
pub struct Figures {
    height: f64,
    /// The label with its class.
    label: (&'static str, &'static str),
    class: &'static str,
    of: fn(&Moment) -> Option<String>,
}

impl Figures {
    /// The numbers of the events once more.
    pub const NUMBERS: Figures =
        Figures { height: 14.0, label: ("small", "event"), class: "number", of: |moment| Some(moment.label.clone()) };

    /// The speed, where it was reported.
    const SPEED: Figures = Figures {
        height: 18.0,
        label: ("head", "Speed, cm/s"),
        class: "speed",
        of: |moment| moment.reported.now.then(|| moment.reported.speed.to_string()),
    };

    /// The traction request, where one was made.
    const REQUEST: Figures = Figures {
        height: 18.0,
        label: ("head", "Traction request"),
        class: "speed",
        of: |moment| moment.reported.request.map(|request| request.to_string()),
    };

    fn line(&self) -> f64 {
        self.height / 2.0 + 3.0
    }
}

impl Lane for Figures {
    fn height(&self) -> f64 {
        self.height
    }

    fn label(&self, svg: &mut Svg) {
        let (class, text) = self.label;
        svg.text(class, 0.0, self.line(), text);
    }

    fn columns(&self, _: usize, moments: &[Moment], svg: &mut Svg) {
        for (k, moment) in moments.iter().enumerate() {
            (self.of)(moment).into_iter().for_each(|text| svg.text(self.class, middle(k), self.line(), &text));
        }
    }
}

/// The state with what the driver may do.
pub struct States;

const STATE_HEIGHT: f64 = 78.0;

/// A wide run in parts, so that each part of a long picture has its words.
fn parts(left: f64, width: f64) -> impl Iterator<Item = (f64, f64)> {
    let count = (width / (12.0 * COLUMN)).floor().max(1.0);
    (0..count as usize).map(move |k| (left + k as f64 * width / count, width / count))
}

fn draw_state(svg: &mut Svg, left: f64, width: f64, state: u8) {
    svg.rect(&format!("state s{state}"), left + 1.0, 2.0, width - 2.0, STATE_HEIGHT - 6.0);
    svg.rect(&format!("state p{state}"), left + 1.0, 2.0, width - 2.0, 8.0);
    parts(left, width).for_each(|(left, width)| draw_state_words(svg, left, width, state));
}

fn draw_state_words(svg: &mut Svg, left: f64, width: f64, state: u8) {
    let (code, inside) = (usize::from(state), width - 4.0);
    let ink = if matches!(state, 5 | 7) { "light" } else { "dark" };
    let at = left + width / 2.0;
    svg.text(&format!("code {ink}"), at, 25.0, STATES[code]);
    if STATE_NAMES[code].len() <= letters(inside, 9.0) {
        svg.text(&format!("doing {ink}"), at, 36.0, STATE_NAMES[code]);
    }
    let fits = |text: &&str| wrapped(text, letters(inside, 8.5), 3);
    let lines = DRIVER[code].iter().rev().find_map(fits).unwrap_or_default();
    for (k, line) in lines.iter().enumerate() {
        svg.text(&format!("doing {ink}"), at, 48.0 + 9.5 * k as f64, line);
    }
}

impl Lane for States {
    fn height(&self) -> f64 {
        STATE_HEIGHT
    }

    fn label(&self, svg: &mut Svg) {
        svg.text("head", 0.0, 25.0, "State");
        svg.text("small", 0.0, 50.0, "what the driver may do");
    }

    fn columns(&self, _: usize, moments: &[Moment], svg: &mut Svg) {
        for (left, width, state) in runs(moments, |moment| moment.shown.state) {
            svg.titled(&state_in_words(state), |svg| draw_state(svg, left, width, state));
        }
    }
}

/// A value by its name.
pub struct Named {
    head: &'static str,
    names: &'static [&'static str],
    of: fn(&Moment) -> u8,
}

impl Lane for Named {
    fn height(&self) -> f64 {
        18.0
    }

    fn label(&self, svg: &mut Svg) {
        svg.text("head", 0.0, 12.0, self.head);
    }

    fn columns(&self, _: usize, moments: &[Moment], svg: &mut Svg) {
        for (left, width, value) in runs(moments, self.of) {
            let name = self.names[usize::from(value)];
            svg.titled(&format!("{}: {name}", self.head), |svg| {
                svg.rect(&format!("value v{value}"), left + 1.0, 2.0, width - 2.0, 14.0);
                for (left, width) in parts(left, width) {
                    svg.text("inside", left + 3.0, 12.5, &cut(name, letters(width - 2.0, 8.0)));
                }
            });
        }
    }
}

/// Whether something holds: a bar where it does.
pub struct Bar {
    head: String,
    thin: bool,
    /// The class and the word where it does not.
    not: (&'static str, &'static str),
    of: Box<dyn Fn(&Moment) -> bool>,
}

impl Bar {
    /// A condition: lacking where it does not hold.
    fn condition(head: &str, of: impl Fn(&Moment) -> bool + 'static) -> Box<dyn Lane> {
        Box::new(Bar { head: head.into(), thin: true, not: ("lacks", "lacking"), of: Box::new(of) })
    }

    fn request() -> Box<dyn Lane> {
        Box::new(Bar {
            head: "AD request".into(),
            thin: false,
            not: ("idle", "no"),
            of: Box::new(|moment| moment.shown.request),
        })
    }
}

impl Lane for Bar {
    fn height(&self) -> f64 {
        if self.thin {
            12.0
        } else {
            18.0
        }
    }

    fn label(&self, svg: &mut Svg) {
        let (class, left) = if self.thin { ("thin", 6.0) } else { ("head", 0.0) };
        svg.text(class, left, self.height() / 2.0 + 3.5, &self.head);
    }

    fn columns(&self, _: usize, moments: &[Moment], svg: &mut Svg) {
        for (left, width, holds) in runs(moments, &self.of) {
            let (class, says) = if holds { ("holds", "yes") } else { self.not };
            svg.titled(&format!("{}: {says}", self.head), |svg| {
                svg.rect(class, left + 1.0, 2.0, width - 2.0, self.height() - 4.0);
            });
        }
    }
}

/// A heading over thin lanes.
struct Heading(&'static str);

impl Lane for Heading {
    fn height(&self) -> f64 {
        16.0
    }

    fn label(&self, svg: &mut Svg) {
        svg.text("head", 0.0, 13.0, self.0);
    }

    fn columns(&self, _: usize, _: &[Moment], _: &mut Svg) {}
}

/// Request, mode, lever, traction requests where there are any, and what O, T and N are made of.
pub fn inputs(ride: &Ride) -> Vec<Box<dyn Lane>> {
    let mut lanes: Vec<Box<dyn Lane>> = vec![
        Bar::request(),
        Box::new(Named { head: "ETCS mode", names: &MODES, of: |moment| moment.reported.mode }),
        Box::new(Named { head: "Lever", names: &LEVERS, of: |moment| moment.reported.lever }),
        Box::new(Figures::SPEED),
    ];
    if ride.moments.iter().any(|moment| moment.reported.request.is_some()) {
        lanes.push(Box::new(Figures::REQUEST));
    }
    let needs: [Box<dyn Lane>; 5] = [
        Box::new(Heading("Engaging needs")),
        Bar::condition("O all nine conditions", |moment| moment.shown.conditions == 0x1FF),
        Bar::condition("T train conditions", |moment| moment.reported.reports & 16 != 0),
        Bar::condition("N lever neutral", |moment| moment.reported.lever == 0),
        Box::new(Heading("Nine conditions")),
    ];
    lanes.extend(needs);
    for (k, name) in CONDITIONS.iter().enumerate() {
        let holds = move |moment: &Moment| moment.shown.conditions >> k & 1 == 1;
        lanes.push(Bar::condition(&format!("{k} {name}"), holds));
    }
    lanes
}

/// The number that refuses an event, and the packets that it wrote, in their order from above. Of refused events only a
/// load that is turned down writes one.
pub struct Packets {
    /// The rows that the fullest column takes.
    most: usize,
}

/// The height of a row, and where a column has many packets.
const ROW: f64 = 16.0;
const LOW_ROW: f64 = 10.0;
/// The height of a refusal.
const REFUSAL: f64 = 26.0;

/// How many rows of this height a moment's refusal takes, if there is one.
fn refusal_rows(moment: &Moment, height: f64) -> usize {
    moment.refused.as_ref().map_or(0, |_| (REFUSAL / height).ceil() as usize)
}

impl Packets {
    pub fn of(ride: &Ride) -> Packets {
        let rows = |moment: &Moment| refusal_rows(moment, ROW) + moment.packets.len();
        Packets { most: ride.moments.iter().map(rows).max().unwrap_or(0).max(2) }
    }

    /// The height of one.
    fn step(&self) -> f64 {
        if self.most > 8 {
            LOW_ROW
        } else {
            ROW
        }
    }

    fn draw(&self, svg: &mut Svg, k: usize, row: usize, packet: &Written) {
        let (top, step, kind) = (6.0 + self.step() * row as f64, self.step(), packet.fields.kind);
        svg.titled(&packet.words, |svg| {
            svg.rect(&format!("packet k{kind}"), middle(k) - 12.0, top, 24.0, step - 2.0);
            let class = if step < 12.0 { "kind low" } else { "kind" };
            svg.text(class, middle(k), top + step / 2.0 + if step < 12.0 { 2.0 } else { 3.0 }, &kind.to_string());
        });
    }
}

fn draw_refusal(svg: &mut Svg, k: usize, refusal: &Refusal) {
    svg.titled(&refusal.in_words(), |svg| {
        svg.rect("refusal", k as f64 * COLUMN + 5.0, 5.0, COLUMN - 10.0, REFUSAL);
        svg.text("kind", middle(k), 14.0, "no");
        svg.text("kind strong", middle(k), 27.0, &refusal.number.to_string());
    });
}

impl Lane for Packets {
    fn height(&self) -> f64 {
        10.0 + self.step() * self.most as f64
    }

    fn label(&self, svg: &mut Svg) {
        svg.text("head", 0.0, 17.0, "Packets written");
        svg.text("small", 0.0, 30.0, "or refused by number");
    }

    fn columns(&self, _: usize, moments: &[Moment], svg: &mut Svg) {
        for (k, moment) in moments.iter().enumerate() {
            let first = refusal_rows(moment, self.step());
            for (row, packet) in moment.packets.iter().enumerate() {
                self.draw(svg, k, first + row, packet);
            }
            if let Some(refusal) = &moment.refused {
                draw_refusal(svg, k, refusal);
            }
        }
    }
}
