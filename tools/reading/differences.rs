//! Where a recording differs from what it must be, in words.

use crate::against::{Difference, Must, Run};
use crate::alignment::alike;
use crate::layout::{fields, Field, BYTES_WIDTH};
use crate::recording::{Entry, Item};
use crate::report::{hex_of_front, item_in_words, reason};
use crate::words::{counted, packet_name};
use model::words::hex;
use proved::hollwern::read;

/// How many differ, are missing and are too many.
#[derive(Default, PartialEq, Eq, Debug)]
pub struct Counts {
    pub changed: usize,
    pub missing: usize,
    pub surplus: usize,
}

impl Counts {
    pub fn of(differences: &[Difference]) -> Counts {
        let mut counts = Counts::default();
        for difference in differences {
            match (difference.musts.len(), difference.found.len()) {
                (missing, 0) => counts.missing += missing,
                (0, surplus) => counts.surplus += surplus,
                _ => counts.changed += 1,
            }
        }
        counts
    }

    pub fn in_words(&self) -> String {
        format!("{} changed, {} missing, {} too many", self.changed, self.missing, self.surplus)
    }
}

/// Answers, packets, refused bytes and other lines counted, in words.
fn counted_items<'a>(items: impl Iterator<Item = &'a Item>) -> String {
    let mut counts = [0; 4];
    for item in items {
        counts[match item {
            Item::Answer(_) => 0,
            Item::Bytes(bytes) if read(bytes).accepted => 1,
            Item::Bytes(_) => 2,
            Item::Other(_) => 3,
        }] += 1;
    }
    let names = [("answer", "answers"), ("packet", "packets"), ("refused piece", "refused pieces"), ("line", "lines")];
    let counts = counts.into_iter().zip(names).filter(|(count, _)| *count > 0);
    counts.map(|(count, (one, many))| counted(count, one, many)).collect::<Vec<_>>().join(" and ")
}

fn call_in_words(run: &Run, call: usize) -> String {
    format!("call {}, {}", call + 1, run.calls[call].event)
}

/// Which of its call's packets it is.
fn part_in_words(run: &Run, must: &Must) -> String {
    match must.item {
        Item::Bytes(_) => format!("packet {} of {}", must.packet + 1, run.calls[must.call].packets),
        _ => "answer".into(),
    }
}

fn field_in_words(field: &Field, at: usize, must: &[u8], found: &[u8]) -> String {
    let line = |what: &str, packet: &[u8]| {
        let value = field.value(packet);
        let (hex, words) = (field.hex(value), (field.words)(value));
        format!("      {what:<9}{hex:<9}{value:<11}{words}").trim_end().to_string() + "\n"
    };
    let group = if field.group().is_empty() { String::new() } else { format!(", {}", field.group()) };
    let heading = format!("    {}{}{group}\n", field.place(at, BYTES_WIDTH), field.name);
    heading + &line("must be", must) + &line("is", found)
}

/// Other bytes in the place of a packet, and not as many.
fn other_size(must: &[u8], found: &[u8]) -> String {
    let ahead = alike(must.iter(), found.iter());
    let behind = alike(must[ahead..].iter().rev(), found[ahead..].iter().rev());
    let line = |what: &str, bytes: &[u8]| {
        let between = &bytes[ahead..bytes.len() - behind];
        let hex = if between.is_empty() { "nothing".into() } else { hex_of_front(between) };
        format!("      {what:<9}{hex}\n")
    };
    let same = |which: &str, count: usize| match count {
        0 => String::new(),
        count => format!("      the {which} {count} as they must be\n"),
    };
    let sizes = format!("    {} must be here, {} are\n", counted(must.len(), "byte", "bytes"), found.len());
    sizes + &same("first", ahead) + &line("must be", must) + &line("is", found) + &same("last", behind)
}

/// Other bytes in the place of a packet.
fn changed_bytes(at: usize, must: &[u8], found: &[u8]) -> String {
    let mut text = String::new();
    if must.len() == found.len() {
        let differing = fields(must).filter(|field| field.value(must) != field.value(found));
        differing.for_each(|field| text += &field_in_words(&field, at, must, found));
    } else {
        text += &other_size(must, found);
    }
    if !read(found).accepted {
        text += &format!("    refused by {}\n", reason(found));
    }
    text
}

fn changed(run: &Run, must: &Must, found: &Entry) -> String {
    let heading = format!("  {}, {}", call_in_words(run, must.call), part_in_words(run, must));
    match (&must.item, &found.item) {
        (Item::Bytes(must), Item::Bytes(bytes)) => {
            let packet = format!("{} {}", must[0], packet_name(must[0].into()));
            format!("{heading}, {packet}, differs\n{}", changed_bytes(found.at, must, bytes))
        }
        (must, found) => {
            let must = if let Item::Bytes(bytes) = must { hex(bytes) } else { item_in_words(must) };
            format!("{heading} differs\n      must be  {must}\n      is       {}\n", item_in_words(found))
        }
    }
}

fn missing(run: &Run, difference: &Difference, most: usize) -> String {
    let what = counted_items(difference.musts.iter().map(|must| &must.item));
    let verb = if difference.musts.len() == 1 { "is" } else { "are" };
    let mut text = format!("  {what} {verb} missing\n");
    for must in difference.musts.iter().take(most) {
        let part = format!("{}, {}", call_in_words(run, must.call), part_in_words(run, must));
        text += &format!("  {part}\n    {}\n", item_in_words(&must.item));
    }
    text + &more(difference.musts.len(), most)
}

fn surplus(run: &Run, difference: &Difference, most: usize) -> String {
    let what = counted_items(difference.found.iter().map(|entry| &entry.item));
    let behind =
        difference.behind.map_or("before the first".into(), |call| format!("behind {}", call_in_words(run, call)));
    let mut text = format!("  {what} too many, {behind}\n");
    difference.found.iter().take(most).for_each(|entry| text += &format!("    {}\n", item_in_words(&entry.item)));
    text + &more(difference.found.len(), most)
}

fn more(count: usize, most: usize) -> String {
    if count > most {
        format!("    and {} more\n", count - most)
    } else {
        String::new()
    }
}

/// One difference, with its place in the recording. Of several that are missing or too many, `most` are told.
pub fn in_words(run: &Run, difference: &Difference, most: usize) -> String {
    let line = difference.found.first().and_then(|entry| entry.line);
    let line = line.map_or(String::new(), |line| format!(", line {line}"));
    let end = match (difference.at_end, difference.musts.is_empty(), difference.found.is_empty()) {
        (true, false, true) => ": the recording stops early",
        (true, true, false) => ": the recording goes on",
        (false, false, true) if difference.at == 0 && difference.behind.is_none() => ": the recording begins late",
        _ => "",
    };
    let heading = format!("byte {}{line}{end}\n", difference.at);
    heading
        + &match (&difference.musts[..], &difference.found[..]) {
            ([must], [found]) => changed(run, must, found),
            (_, []) => missing(run, difference, most),
            _ => surplus(run, difference, most),
        }
}
