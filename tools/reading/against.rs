//! A recording against the one that must be: the proved engine's, for a list of calls.

use crate::alignment::{alike, gaps, pairs};
use crate::recording::{Answered, Entry, Item};
use crate::words::counted;
use model::calls::{Call, MEMORY};
use model::engine::written;
use proved::engine::Proved;
use proved::hollwern::packets;

/// A call that was played.
pub struct Played {
    /// Its event in words.
    pub event: String,
    pub answer: Answered,
    pub packets: usize,
}

/// An answer or a packet that the recording must have.
pub struct Must {
    pub call: usize,
    /// Which of the call's packets it is, from 0; 0 for the answer.
    pub packet: usize,
    pub item: Item,
}

/// What the proved engine answers and writes from fresh on, with the player's output memory.
#[derive(Default)]
pub struct Run {
    pub calls: Vec<Played>,
    musts: Vec<Must>,
}

/// One that is another, some that are missing (`found` is empty), or some too many (`musts` is).
pub struct Difference<'a> {
    /// The byte of the recording.
    pub at: usize,
    pub musts: Vec<&'a Must>,
    pub found: Vec<Entry>,
    /// The call of what stands before.
    pub behind: Option<usize>,
    /// Whether nothing follows on either side.
    pub at_end: bool,
}

/// The cost of a pair, beside that of one alone.
const OTHER_ANSWER: usize = 2;
const DAMAGED: usize = 15;

impl Run {
    /// Plays calls, each with its event in words.
    pub fn play<'a>(calls: impl IntoIterator<Item = (String, &'a Call)>) -> Run {
        let mut run = Run::default();
        let (mut engine, mut out) = (Box::new(Proved::fresh()), [0; MEMORY]);
        for (event, call) in calls {
            let answer = engine.call(call, &mut out);
            run.add(event, answer, &out[..written(answer)]);
        }
        run
    }

    fn add(&mut self, event: String, answer: Answered, written: &[u8]) {
        let call = self.calls.len();
        let answered = self.musts.len() + 1;
        self.musts.push(Must { call, packet: 0, item: Item::Answer(answer) });
        let packets = packets(written).enumerate();
        self.musts.extend(packets.map(|(packet, bytes)| Must { call, packet, item: Item::Bytes(bytes.to_vec()) }));
        self.calls.push(Played { event, answer, packets: self.musts.len() - answered });
    }

    /// What it took and wrote, in words.
    pub fn in_words(&self) -> String {
        let refused = self.calls.iter().filter(|call| call.answer.is_err()).count();
        let packets = self.calls.iter().map(|call| call.packets).sum();
        let bytes = self.musts.iter().map(|must| must.item.bytes().len()).sum();
        let calls = counted(self.calls.len(), "call", "calls");
        let written = format!("{}, {}", counted(packets, "packet", "packets"), counted(bytes, "byte", "bytes"));
        format!("{calls} ({} accepted, {refused} refused), {written}", self.calls.len() - refused)
    }

    /// Every difference of a recording, from its front. Answers count where the recording has some.
    pub fn differences(&self, found: &[Entry]) -> Vec<Difference<'_>> {
        let answers = has_answers(found);
        let musts: Vec<&Must> = self.musts.iter().filter(|must| answers || !is_answer(&must.item)).collect();
        let mut differences = Vec::new();
        for (lacking, others) in gaps(&items_of(&musts), &items_in(found), &unlikeness) {
            let at_end = lacking.end == musts.len() && others.end == found.len();
            let behind = lacking.start.checked_sub(1).map(|k| musts[k].call);
            let before = others.start.checked_sub(1).map(|k| &found[k]);
            let at = before.map_or(0, Entry::end);
            let mut gap = in_gap(&musts[lacking], &found[others], at, behind);
            if let Some(last) = gap.last_mut() {
                last.at_end = at_end;
            }
            differences.extend(gap);
        }
        differences
    }
}

fn is_answer(item: &Item) -> bool {
    matches!(item, Item::Answer(_))
}

/// Whether a recording is the player's lines.
pub fn has_answers(found: &[Entry]) -> bool {
    found.iter().any(|entry| is_answer(&entry.item))
}

fn items_of<'a>(musts: &[&'a Must]) -> Vec<&'a Item> {
    musts.iter().map(|must| &must.item).collect()
}

fn items_in(found: &[Entry]) -> Vec<&Item> {
    found.iter().map(|entry| &entry.item).collect()
}

/// How many of the bytes found are those that must be there, up to one run that is lost or put in; a run that can be
/// taken in several places is taken where a packet ends. `None` where the bytes differ by more than that, and are not
/// as many as they must be.
fn before_run(must: &[u8], is: &[u8], ends: &[usize]) -> Option<usize> {
    let ahead = alike(must.iter(), is.iter());
    let behind = alike(must.iter().rev(), is.iter().rev());
    let least = must.len().min(is.len()).saturating_sub(behind);
    match ends.iter().find(|&&end| least <= end && end <= ahead) {
        _ if must.len() == is.len() => Some(ahead),
        Some(&end) => Some(end),
        None => (least <= ahead).then_some(ahead),
    }
}

/// The bytes found, cut where the packets end that must be there, none for a packet that has no byte left: a damaged
/// number, and bytes lost or put in, make the reader cut elsewhere. `None` where nothing is damaged, where the bytes
/// are neither as many as they must be nor differ by one run that is lost or put in, and of a text, where each line
/// stands for itself.
fn cut_alike(musts: &[&Must], found: &[Entry]) -> Option<Vec<Option<Entry>>> {
    let damaged = found.iter().any(|entry| entry.item.is_refused());
    if musts.is_empty() || !damaged || found.iter().any(|entry| entry.line.is_some()) {
        return None;
    }
    let must = items_of(musts).iter().flat_map(|item| item.bytes()).copied().collect::<Vec<u8>>();
    let is = items_in(found).iter().flat_map(|item| item.bytes()).copied().collect::<Vec<u8>>();
    let ends = ends_of(musts);
    let ahead = before_run(&must, &is, &ends)?;
    let place = |end: usize| if end <= ahead { end } else { ahead.max((end + is.len()).saturating_sub(must.len())) };
    let mut from = 0;
    let cut = ends.iter().skip(1).map(|&end| {
        let piece = &is[from..place(end)];
        let entry = Entry { at: found[0].at + from, line: None, item: Item::Bytes(piece.to_vec()) };
        from = place(end);
        (!piece.is_empty()).then_some(entry)
    });
    Some(cut.collect())
}

/// 0, and where each of the packets ends that must be there.
fn ends_of(musts: &[&Must]) -> Vec<usize> {
    let sizes = musts.iter().map(|must| must.item.bytes().len());
    let ends = sizes.scan(0, |end, size| {
        *end += size;
        Some(*end)
    });
    [0].into_iter().chain(ends).collect()
}

/// How unlike what is found is to what must be; `None` where the one is no damaged form of the other.
fn unlikeness(must: &Item, found: &Item) -> Option<usize> {
    match (must, found) {
        (Item::Bytes(must), Item::Bytes(found)) if must.len() == found.len() => {
            Some(must.iter().zip(found).filter(|(must, found)| must != found).count())
        }
        (Item::Bytes(_), Item::Bytes(_)) => found.is_refused().then_some(DAMAGED),
        (Item::Answer(must), Item::Answer(found)) => Some(if must == found { 0 } else { OTHER_ANSWER }),
        (_, Item::Other(_)) => Some(DAMAGED),
        _ => None,
    }
}

/// What stands for what in a gap.
fn paired<'a>(musts: &[&'a Must], found: &[Entry]) -> Vec<(Option<&'a Must>, Option<Entry>)> {
    if let Some(cut) = cut_alike(musts, found) {
        return musts.iter().zip(cut).map(|(must, entry)| (Some(*must), entry)).collect();
    }
    let pairs = pairs(&items_of(musts), &items_in(found), &unlikeness);
    pairs.into_iter().map(|(i, j)| (i.map(|i| musts[i]), j.map(|j| found[j].clone()))).collect()
}

/// The differences of a gap, which begins at a byte and behind a call's packets. Those that are missing or too many one
/// after the other are one.
fn in_gap<'a>(musts: &[&'a Must], found: &[Entry], mut at: usize, mut behind: Option<usize>) -> Vec<Difference<'a>> {
    let mut differences: Vec<Difference> = Vec::new();
    let mut alone = None;
    for (must, entry) in paired(musts, found) {
        let call = must.map(|must| must.call).or(behind);
        at = entry.as_ref().map_or(at, |entry| entry.at);
        let end = entry.as_ref().map_or(at, Entry::end);
        let equal = must.zip(entry.as_ref()).is_some_and(|(must, entry)| must.item == entry.item);
        let now_alone = (must.is_some() != entry.is_some()).then_some(must.is_some());
        match differences.last_mut() {
            _ if equal => {}
            Some(last) if now_alone.is_some() && now_alone == alone => {
                last.musts.extend(must);
                last.found.extend(entry);
            }
            _ => {
                let (musts, found) = (must.into_iter().collect(), entry.into_iter().collect());
                differences.push(Difference { at, musts, found, behind, at_end: false });
            }
        }
        (at, behind, alone) = (end, call, now_alone);
    }
    differences
}
