//! What the picture says in words.

use crate::plan::{Plan, Point, Segment};
use crate::ride::Moment;
use model::words::{grouped, ALIGNMENTS, DRIVER, LEVERS, MODES, STATES, STATE_NAMES};
use std::ops::Range;

/// A distance in cm, told in metres.
pub fn metres(distance: i64) -> String {
    let sign = if distance < 0 { "-" } else { "" };
    let (whole, rest) = (grouped((distance / 100).unsigned_abs()), (distance % 100).abs());
    let decimals = format!(".{rest:02}");
    format!("{sign}{whole}{} m", if rest == 0 { "" } else { decimals.trim_end_matches('0') })
}

/// The number of letters that a width holds at a size of type.
pub fn letters(width: f64, size: f64) -> usize {
    (width / (0.55 * size)) as usize
}

/// Cut to so many letters, with a sign that it was; what stands at the end often tells names apart.
pub fn cut(text: &str, most: usize) -> String {
    let letters: Vec<char> = text.chars().collect();
    if letters.len() <= most {
        return text.into();
    }
    let end = most.saturating_sub(1) / 3;
    let front = most.saturating_sub(1) - end;
    letters[..front].iter().chain(&['…']).chain(&letters[letters.len() - end..]).collect()
}

/// Lines of so many letters at most, broken at blanks; `None` if a word is longer or the lines are too many.
pub fn wrapped(text: &str, width: usize, most: usize) -> Option<Vec<String>> {
    let mut lines: Vec<String> = Vec::new();
    for word in text.split_whitespace() {
        let letters = word.chars().count();
        match lines.last_mut() {
            _ if letters > width => return None,
            Some(line) if line.chars().count() + 1 + letters <= width => *line += &format!(" {word}"),
            _ => lines.push(word.into()),
        }
    }
    (lines.len() <= most).then_some(lines)
}

pub fn state_in_words(state: u8) -> String {
    let code = usize::from(state);
    format!("{} {}: the driver may {}", STATES[code], STATE_NAMES[code], DRIVER[code][1])
}

pub fn segment_in_words(segment: &Segment) -> String {
    let name = &segment.name;
    if let Some(start) = segment.start {
        return format!("{name}: from {} to {}", metres(start), metres(start + segment.length));
    }
    let zone = |&(from, to): &(i64, i64)| format!("; an inhibition zone from {} to {} of it", metres(from), metres(to));
    let zones: String = segment.zones.iter().map(zone).collect();
    format!("{name}: not placed, since it or a segment before it is not in the book{zones}")
}

pub fn point_in_words(plan: &Plan, point: &Point) -> String {
    let kind = if point.stop { "stop" } else { "passing point" };
    let mut words = format!("{}, {kind}, NID_TP {}, alignment {}", point.name, point.nidtp, alignment(point));
    match point.place {
        Some(place) => words += &format!(", at {} from the journey's start, R {}", metres(place), metres(point.reach)),
        None => words += &format!(", not placed, as {} is not", plan.segments[point.segment].name),
    }
    if point.trackside {
        words += ", skipped by trackside";
    }
    if point.held {
        words += ", held";
    }
    if point.end {
        words += ", End of Journey";
    }
    words
}

fn alignment(point: &Point) -> &'static str {
    ALIGNMENTS[usize::from(point.alignment)]
}

pub fn margin_in_words(point: &Point, train: u32, skipped: bool, margin: &Range<i64>) -> String {
    let (name, from, to) = (&point.name, metres(margin.start), metres(margin.end));
    let taken = format!("train {}, alignment {}", metres(i64::from(train)), alignment(point));
    if !point.is_served(skipped) {
        return format!("{name} is passed when the front is beyond {from} ({taken})");
    }
    format!("{name} is reached when the front stands from {from} to {to} ({taken}, R {})", metres(point.reach))
}

/// What the event gave, in lines: the answer, then the packets.
pub fn moment_in_words(moment: &Moment) -> Vec<String> {
    let mut lines = vec![answer_in_words(moment)];
    lines.extend(moment.packets.iter().map(|packet| packet.words.clone()));
    lines
}

pub fn answer_in_words(moment: &Moment) -> String {
    if let Some(refusal) = &moment.refused {
        return refusal.in_words();
    }
    let code = usize::from(moment.shown.state);
    let request = if moment.shown.request { "AD requested" } else { "AD not requested" };
    format!("{} {}, {request}{}{}", STATES[code], STATE_NAMES[code], moment.brought, moment.points)
}

/// All that holds after an event.
pub fn column_in_words(moment: &Moment) -> String {
    let mode = MODES[usize::from(moment.reported.mode)];
    let lever = LEVERS[usize::from(moment.reported.lever)];
    let head = format!("{} {} (line {})", moment.label, moment.text, moment.line);
    format!("{head}\n{}\nmode {mode}, lever {lever}", moment_in_words(moment).join("\n"))
}
