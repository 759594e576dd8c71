//! A scenario told in words from the player's lines. The independent model makes the same calls beside it: it knows
//! where each point stands and why a call is refused, and every answer must be its own too.

use crate::answers::{read_answers, Answered};
use crate::brought::brought_in_words;
use crate::language::{Scenario, Step};
use crate::points::points_in_words;
use model::calls::{write_lines, MEMORY};
use model::engine::{written, Answer, Engine, Refused};
use model::events::LOAD;
use model::packets::{split_packets, Content, Packet};
use model::reasons::{reason, Names};
use model::words::{hex, packet_lines, place_of_number, DRIVER, STATES, STATE_NAMES};

pub struct Story<'a> {
    scenario: &'a Scenario,
    model: Engine,
    /// The journey in force.
    journey: Option<&'a str>,
    /// The states that were told in words.
    known: [bool; 8],
    accepted: usize,
    refused: usize,
    pub text: String,
}

impl<'a> Story<'a> {
    pub fn of(scenario: &'a Scenario) -> Story<'a> {
        let text = format!(
            "{} events. Below each, the unit's answer and the packets that it writes for the recorder.\n\
             Distances are in cm, speeds in cm/s; AD is the ETCS mode automatic driving.\n",
            scenario.steps.len()
        );
        let (model, known) = (Engine::fresh(), [false; 8]);
        Story { scenario, model, journey: None, known, accepted: 0, refused: 0, text }
    }

    /// Tells all of it; where there is an error, `text` has what was told so far.
    pub fn tell(&mut self, lines: &str) -> Result<(), String> {
        let answers = read_answers(lines)?;
        let steps = &self.scenario.steps;
        for (step, answered) in steps.iter().zip(&answers) {
            self.text += &format!("\nline {}: {}\n", step.line, step.text);
            self.tell_step(step, answered)?;
        }
        if let Some(more) = answers.get(steps.len()) {
            return Err(format!("the player's line {} is an answer beyond the {} events", more.line, steps.len()));
        }
        if answers.len() < steps.len() {
            return Err(format!("the player's lines end after {} of {} events", answers.len(), steps.len()));
        }
        let events = if self.accepted == 1 { "event" } else { "events" };
        self.text += &format!("\n{} {events} accepted, {} refused; ", self.accepted, self.refused);
        self.text += "the independent model answers the same\n";
        Ok(())
    }

    fn tell_step(&mut self, step: &'a Step, answered: &Answered) -> Result<(), String> {
        let reason = reason(&self.model, &step.call, &StepNames::of(self.scenario, self.journey, step));
        let before = self.model.clone();
        let mut out = [0; MEMORY];
        let answer = self.model.call(&step.call, &mut out);
        let packets = split_packets(&out[..written(answer)]);
        if answered.answer != answer || answered.packets != packets {
            return Err(difference(answered, answer, &out));
        }
        match answer {
            Err(Refused { number, .. }) => {
                let reason = reason.map_or(String::new(), |(_, reason)| reason);
                self.refused += 1;
                self.text += &format!("    refused by {number} ({}): {reason}\n", place_of_number(number));
            }
            Ok(answer) => {
                self.accepted += 1;
                self.note_journey(step);
                let brought = brought_in_words(&step.call.event, &before, &self.model);
                let stood = standings(&before);
                self.tell_answer(answer, &brought, step.loads.is_none().then_some(&stood[..]));
            }
        }
        packets.into_iter().for_each(|packet| self.tell_packet(packet));
        Ok(())
    }

    fn note_journey(&mut self, step: &'a Step) {
        if let Some((journey, _)) = &step.loads {
            self.journey = Some(journey);
        }
        if !self.model.now.loaded {
            self.journey = None;
        }
    }

    /// `brought`: of a traction request and of slippery rail; `stood`: where the points stood, none for a load.
    fn tell_answer(&mut self, answer: Answer, brought: &str, stood: Option<&[u8]>) {
        let k = usize::from(answer.state);
        let first = !std::mem::replace(&mut self.known[k], true);
        let name = if first { format!(" ({})", STATE_NAMES[k]) } else { String::new() };
        let request = if answer.request { "AD requested" } else { "AD not requested" };
        let names = self.journey.map(|journey| self.scenario.point_names(journey));
        let points = names.map_or(String::new(), |names| points_in_words(names, stood, &standings(&self.model)));
        self.text += &format!("    {}{name}, {request}{brought}{points}\n", STATES[k]);
        if first {
            self.text += &format!("        {}: the driver may {}\n", STATES[k], DRIVER[k][1]);
        }
    }

    fn tell_packet(&mut self, bytes: &[u8]) {
        let name = |nidtp: u32| match Packet::read(bytes) {
            Ok(Packet { content: Content::Point { nidc, .. }, .. }) => {
                self.scenario.point_name_in(self.journey, nidc, nidtp)
            }
            _ => nidtp.to_string(),
        };
        self.text += &format!("    {}\n", hex(bytes));
        packet_lines(bytes, &name).iter().for_each(|line| self.text += &format!("        {line}\n"));
    }
}

fn standings(engine: &Engine) -> Vec<u8> {
    engine.standings().map(|standing| standing as u8).collect()
}

fn difference(answered: &Answered, answer: Result<Answer, Refused>, out: &[u8]) -> String {
    let in_a_line = |answer: Result<Answer, Refused>, out: &[u8]| {
        let mut lines = String::new();
        write_lines(answer, out, &mut lines);
        lines.trim_end().replace('\n', " ")
    };
    let (found, expected) = (in_a_line(answered.answer, &answered.packets.concat()), in_a_line(answer, out));
    format!("the player's line {} differs from the model\n  player {found}\n  model  {expected}", answered.line)
}

/// The names of a load's profiles; for another event those of the journey in force.
pub struct StepNames<'a> {
    records: &'a [String],
    segments: &'a [String],
    points: &'a [String],
}

impl<'a> StepNames<'a> {
    pub fn of(scenario: &'a Scenario, journey: Option<&str>, step: &Step) -> StepNames<'a> {
        let (journey, book) = match &step.loads {
            Some((journey, book)) => (Some(journey.as_str()), Some(book.as_str())),
            None if step.call.event.first() == Some(&LOAD) => (None, None),
            None => (journey, None),
        };
        StepNames {
            records: book.map_or(&[], |book| scenario.record_names(book)),
            segments: journey.map_or(&[], |journey| scenario.segment_names(journey)),
            points: journey.map_or(&[], |journey| scenario.point_names(journey)),
        }
    }
}

fn named(kind: &str, names: &[String], k: usize) -> String {
    names.get(k).map_or(format!("{kind} {}", k + 1), |name| format!("{kind} {name}"))
}

impl Names for StepNames<'_> {
    fn record(&self, k: usize) -> String {
        named("record", self.records, k)
    }

    fn segment(&self, k: usize) -> String {
        named("segment", self.segments, k)
    }

    fn point(&self, k: usize) -> String {
        named("point", self.points, k)
    }
}
