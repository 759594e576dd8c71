//! The session of the page, and the worked book and journey that it loads.

use crate::engines::play;
use crate::text::{hex_bytes, number_of, same, wrong, BlockLine, Checked, Page};
use model::adhesion::Constraint;
use model::calls::Call;
use model::engine::EG;
use model::values::{read_book, Journey};
use model::words::hex;
use proved::pair::Pair;

/// A call with what the page says of it.
struct Step<'a> {
    line: usize,
    call: Call,
    answer: Option<(usize, &'a str)>,
    packets: Vec<(usize, Vec<u8>)>,
    shows: Option<(usize, &'a str)>,
    rows: Vec<(usize, &'a str)>,
}

fn read_steps<'a>(lines: &'a [BlockLine<'a>]) -> Checked<Vec<Step<'a>>> {
    let mut steps: Vec<Step> = Vec::new();
    for block_line in lines {
        let line = block_line.line;
        let (word, rest) = block_line.split();
        if word == "event" {
            let call = Call::of(hex_bytes(line, rest)?);
            steps.push(Step { line, call, answer: None, packets: Vec::new(), shows: None, rows: Vec::new() });
            continue;
        }
        let Some(step) = steps.last_mut() else { return wrong(line, "no event before this line") };
        match word {
            "journey" => step.call.journey.extend(hex_bytes(line, rest)?),
            "book" => step.call.book.extend(hex_bytes(line, rest)?),
            "answer" => step.answer = Some((line, rest)),
            "packet" => step.packets.push((line, hex_bytes(line, rest)?)),
            "shows" => step.shows = Some((line, rest)),
            "row" => step.rows.push((line, rest)),
            _ => return wrong(line, format!("'{word}' is no word of a session")),
        }
    }
    Ok(steps)
}

fn shown(pair: &Pair) -> String {
    let now = &pair.model.now;
    let standings: String = pair.model.standings().map(|standing| format!(" {}", standing as u8)).collect();
    format!("{} {} {:03X}{standings}", now.state, u8::from(now.request), now.conditions)
}

/// The rows of slippery rail that are shown, `none` where there are none.
fn shown_rows(pair: &Pair) -> Vec<String> {
    let row = |row: &Constraint| {
        let Constraint { nidc, nidsp, category, range, start, end } = row;
        format!("{nidc} {nidsp} {category} {range} {start} {end}")
    };
    match &pair.model.constraints[..] {
        [] => vec!["none".into()],
        rows => rows.iter().map(row).collect(),
    }
}

/// Each line of rows is a row that is shown, and there are as many.
fn check_rows(pair: &Pair, lines: &[(usize, &str)]) -> Checked<()> {
    let shown = shown_rows(pair);
    for (k, (line, expected)) in lines.iter().enumerate() {
        same(*line, "row", *expected, shown.get(k).map_or("", |row| row))?;
    }
    lines.last().map_or(Ok(()), |(line, _)| same(*line, "rows", lines.len(), shown.len()))
}

fn play_step(pair: &mut Pair, step: &Step) -> Checked<()> {
    let (answer, packets) = play(pair, std::slice::from_ref(&step.call), step.line)?;
    let Some((line, expected)) = step.answer else { return wrong(step.line, "an event without an answer") };
    same(line, "answer", expected, &answer)?;
    for (k, (line, packet)) in step.packets.iter().enumerate() {
        let found = packets.get(k).map_or("none".into(), |found| hex(found));
        same(*line, "packet", hex(packet), found)?;
    }
    if packets.len() > step.packets.len() {
        return wrong(line, format!("the page lacks the packet {}", hex(&packets[step.packets.len()])));
    }
    check_rows(pair, &step.rows)?;
    step.shows.map_or(Ok(()), |(line, expected)| same(line, "shows", expected, &shown(pair)))
}

/// The number that the comment names first, if it does, is that of the bytes; maps are not told by their number.
fn check_comment(line: &BlockLine, bytes: &[u8]) -> Checked<()> {
    let mut words = line.comment.split([' ', ':']).filter_map(number_of);
    match words.next() {
        Some(number) if !line.comment.starts_with("map") => {
            same(line.line, "value", number, bytes.iter().fold(0, |number, byte| 256 * number + i64::from(*byte)))
        }
        _ => Ok(()),
    }
}

/// The lines of a worked block, put together, are what the session lends.
fn check_worked(page: &Page, word: &str, mut lent: &[u8]) -> Checked<()> {
    let lines = page.block(word)?;
    for line in &lines {
        let bytes = hex_bytes(line.line, line.text)?;
        let (head, rest) = lent.split_at(bytes.len().min(lent.len()));
        same(line.line, &format!("{word} of the session"), hex(&bytes), hex(head))?;
        check_comment(line, &bytes)?;
        lent = rest;
    }
    same(lines[lines.len() - 1].line, &format!("{word} of the session, behind this line"), "", &hex(lent))
}

/// Plays the session from a fresh engine; how many calls it has, and its load.
pub fn check(page: &Page, mut pair: Pair) -> Checked<(usize, Call)> {
    let lines = page.block("session")?;
    let steps = read_steps(&lines)?;
    for step in &steps {
        play_step(&mut pair, step)?;
    }
    let last = lines[lines.len() - 1].line;
    if pair.model.now.state != EG {
        return wrong(last, "the session does not end engaged");
    }
    let Some(load) = steps.iter().find(|step| step.call.lends_profiles()) else {
        return wrong(last, "the session has no load");
    };
    if read_book(&load.call.book).is_none() || Journey::read(&load.call.journey).is_none() {
        return wrong(load.line, "the model does not read the journey or the book of this load");
    }
    check_worked(page, "book", &load.call.book)?;
    check_worked(page, "journey", &load.call.journey)?;
    Ok((steps.len(), load.call.clone()))
}
