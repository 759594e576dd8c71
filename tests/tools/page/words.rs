//! What the page lists: states, conditions, reports, standings, numbers, application conditions.

use crate::engines::play;
use crate::text::{number_of, same, wrong, Checked, Page, Row};
use model::calls::Call;
use model::engine::TURNED_DOWN;
use model::events::UNDEFINED;
use model::values::{write_book, Journey, JourneyPoint, Record, RecordPoint};
use model::words::{DRIVER, LOADS, STATES, STATE_NAMES};
use proved::hollwern::read;
use proved::pair::Pair;
use std::collections::BTreeSet;

/// The most characters of a line.
const LINE: usize = 120;
/// Their places in the table are behind 6 and behind 2.
const HELD: u8 = 20;
const REVERSED: u8 = 21;
const STANDINGS: [&str; 4] = ["not used", "targeted", "reached", "passed"];
/// With no journey.
const NO_CONDITION: u16 = 0x080;

fn check_states(page: &Page) -> Checked<()> {
    let rows = page.table("State codes", "Code")?;
    same(rows[0].line, "states", rows.len(), STATES.len())?;
    for (k, row) in rows.iter().enumerate() {
        same(row.line, "code", row.number("Code")?, k as i64)?;
        same(row.line, "state", row.text("State")?, STATES[k])?;
        same(row.line, "name", row.text("Name")?, STATE_NAMES[k])?;
        same(row.line, "the driver may", row.text("The driver may")?, DRIVER[k][1])?;
    }
    Ok(())
}

/// Each report alone gives just the condition that the page names.
fn check_reports(page: &Page) -> Checked<()> {
    let conditions = page.table("The nine conditions", "Condition")?;
    for (k, row) in conditions.iter().enumerate() {
        same(row.line, "condition", row.number("Condition")?, k as i64)?;
        same(row.line, "bit", row.number("Bit of the word")?, 4 + k as i64)?;
    }
    same(conditions[0].line, "conditions", conditions.len(), 9)?;
    for (bit, row) in page.table("Bits of the reports", "Bit")?.iter().enumerate() {
        same(row.line, "bit", row.number("Bit")?, bit as i64)?;
        let mut pair = Pair::fresh();
        play(&mut pair, &[Call::power_on(), Call::reports(1 << bit)], row.line)?;
        let alone = pair.model.now.conditions & !NO_CONDITION;
        let counts = if alone == 0 { "T".into() } else { format!("condition {}", alone.trailing_zeros()) };
        same(row.line, "counts as", row.text("Counts as")?, &counts)?;
        if alone != 0 {
            let condition = &conditions[alone.trailing_zeros() as usize];
            same(condition.line, "it is 1 when", condition.text("It is 1 when")?, &format!("report bit {bit}"))?;
        }
    }
    Ok(())
}

/// A stop 7001 at 40,000 with R 150 and a passing point 7002 at 90,000, the End of Journey or not.
fn journey_of_two(end: bool) -> Journey {
    let stop = JourneyPoint { nidtp: 7001, stop: true, ..JourneyPoint::default() };
    let passing = JourneyPoint { nidtp: 7002, end, ..JourneyPoint::default() };
    Journey { segments: vec![(17, 500)], points: vec![stop, passing], ..Journey::default() }
}

/// Over one segment of 100,000.
fn load_of(journey: Journey) -> Call {
    let places = [(7001, 40_000, 150), (7002, 90_000, 0)];
    let points = places.map(|(nidtp, place, reach)| RecordPoint { nidtp, place, reach }).to_vec();
    let record = Record { nidc: 17, nidsp: 500, length: 100_000, points, ..Record::default() };
    Call::load(journey.write(), write_book(&[record]))
}

fn two_points() -> Call {
    load_of(journey_of_two(true))
}

/// The two as the row has them.
fn check_two(row: &Row, pair: &Pair) -> Checked<()> {
    for (column, standing) in ["The stop", "The passing point"].into_iter().zip(pair.model.standings()) {
        same(row.line, column, row.text(column)?, STANDINGS[standing as usize])?;
    }
    Ok(())
}

/// Where the two stand after one report at speed 0.
fn check_standings(page: &Page) -> Checked<()> {
    for row in page.table("7. Timing points", "Front at")? {
        let report = Call::position(17, 500, row.number("Front at")? as u32, 0);
        let mut pair = Pair::fresh();
        play(&mut pair, &[Call::power_on(), two_points(), report], row.line)?;
        check_two(&row, &pair)?;
    }
    Ok(())
}

fn numbers_of(packets: &[Vec<u8>]) -> String {
    let numbers: Vec<String> = packets.iter().map(|packet| packet[0].to_string()).collect();
    if numbers.is_empty() {
        "none".into()
    } else {
        numbers.join(" ")
    }
}

/// Where they stand after one report more at the reached stop, and the packets that it writes.
fn check_creeps(page: &Page) -> Checked<()> {
    for row in page.table("7. Timing points", "Then at")? {
        let offset = if row.text("Then at")? == "undefined" { UNDEFINED } else { row.number("Then at")? as u32 };
        let report = Call::position(17, 500, offset, row.number("Speed")? as u16);
        let mut pair = Pair::fresh();
        play(&mut pair, &[Call::power_on(), two_points(), Call::position(17, 500, 40_000, 0)], row.line)?;
        let (_, packets) = play(&mut pair, &[report], row.line)?;
        check_two(&row, &pair)?;
        same(row.line, "packets", row.text("Packets")?, &numbers_of(&packets))?;
    }
    Ok(())
}

/// The statuses of packet 62, each as an event writes it.
fn check_statuses(page: &Page) -> Checked<()> {
    let report = |offset, speed| Call::position(17, 500, offset, speed);
    let told = [
        ("held", report(40_000, 0)),
        ("hold revoked", two_points()),
        ("driver skip", Call::skip(7001)),
        ("skip revoked", Call::revoke(7001)),
        ("stopped", report(40_000, 0)),
        ("departed", report(40_151, 1)),
        ("passed", report(90_001, 1)),
        ("skipped by trackside", first_point(|point| point.skipped = true)),
        ("trackside skip revoked", two_points()),
    ];
    let rows = page.table("Packet 62", "Status")?;
    same(rows[0].line, "statuses", rows.len(), told.len())?;
    let mut pair = Pair::fresh();
    play(&mut pair, &[Call::power_on(), held_points(|_| {})], rows[0].line)?;
    for (meaning, call) in told {
        let Some(row) = rows.iter().find(|row| row.text("Meaning").is_ok_and(|text| text == meaning)) else {
            return wrong(rows[0].line, format!("no status '{meaning}'"));
        };
        let (_, packets) = play(&mut pair, &[call], row.line)?;
        let last = packets.iter().rfind(|packet| packet[0] == 62).map_or(-1, |packet| read(packet).status.into());
        same(row.line, meaning, row.number("Status")?, last)?;
    }
    Ok(())
}

/// The two, the stop held, with another change.
fn held_points(change: impl Fn(&mut Journey)) -> Call {
    let mut journey = journey_of_two(true);
    journey.points[0].held = true;
    change(&mut journey);
    load_of(journey)
}

/// What a load writes while a held stop is reached.
fn check_holds(page: &Page) -> Checked<()> {
    let first = |change: fn(&mut JourneyPoint)| held_points(move |journey| change(&mut journey.points[0]));
    let loads = [
        ("held", first(|_| {})),
        ("held, and skipped by trackside", first(|point| point.skipped = true)),
        ("held, in another country", held_points(|journey| journey.segments[0].0 = 18)),
        ("a stop, not held", first(|point| point.held = false)),
        ("skipped by trackside, not held", first(|point| (point.skipped, point.held) = (true, false))),
        ("a passing point", first(|point| (point.stop, point.held) = (false, false))),
        ("not there", held_points(|journey| drop(journey.points.remove(0)))),
    ];
    let rows = page.table("7. Timing points", "In the new journey")?;
    same(rows[0].line, "journeys", rows.len(), loads.len())?;
    for (row, (name, load)) in rows.iter().zip(loads) {
        same(row.line, "in the new journey", row.text("In the new journey")?, name)?;
        let mut pair = Pair::fresh();
        let before = [Call::power_on(), held_points(|_| {}), Call::position(17, 500, 40_000, 0)];
        play(&mut pair, &before, row.line)?;
        let (_, packets) = play(&mut pair, &[load], row.line)?;
        same(row.line, "packets", row.text("Packets")?, &numbers_of(&packets))?;
    }
    Ok(())
}

/// The two, the stop changed.
fn first_point(change: impl Fn(&mut JourneyPoint)) -> Call {
    let mut journey = journey_of_two(true);
    change(&mut journey.points[0]);
    load_of(journey)
}

/// The load whose journey has the stop as the page names it.
fn load_with(name: &str, line: usize) -> Checked<Call> {
    Ok(match name {
        "a stop" | "a stop that the driver skips" => two_points(),
        "a passing point" => first_point(|point| point.stop = false),
        "skipped by trackside" | "skipped by trackside, and by the driver" => first_point(|point| point.skipped = true),
        "not there" => {
            let mut journey = journey_of_two(true);
            journey.points.remove(0);
            load_of(journey)
        }
        _ => return wrong(line, format!("no journey has it as '{name}'")),
    })
}

/// What a load writes of a point, by what it is in the journey before and in the new one.
fn check_trackside(page: &Page) -> Checked<()> {
    for row in page.table("7. Timing points", "Before the load")? {
        let before = row.text("Before the load")?;
        let mut calls = vec![Call::power_on(), load_with(before, row.line)?];
        if before.contains("driver") {
            calls.push(Call::skip(7001));
        }
        let mut pair = Pair::fresh();
        play(&mut pair, &calls, row.line)?;
        let (_, packets) = play(&mut pair, &[load_with(row.text("In its journey")?, row.line)?], row.line)?;
        let told = packets.iter().find(|packet| packet[0] == 62).map(|packet| read(packet).status.to_string());
        same(row.line, "status", row.text("Status")?, told.as_deref().unwrap_or("none"))?;
    }
    Ok(())
}

/// The statuses of packet 65, each as a load writes it, with what is the journey's in it.
fn check_loads(page: &Page) -> Checked<()> {
    let rows = page.table("Packet 65", "Status")?;
    same(rows[0].line, "statuses", rows.len(), LOADS.len())?;
    let (date, seconds, counter, atots) = (5, 6, 7, 8);
    for (status, row) in rows.iter().enumerate() {
        let journey = Journey { date, seconds, counter, atots: Some(atots), ..journey_of_two(status == 0) };
        let (_, packets) = play(&mut Pair::fresh(), &[Call::power_on(), load_of(journey)], row.line)?;
        let packet = read(&packets[0]);
        same(row.line, "status", row.number("Status")?, packet.status.into())?;
        same(row.line, "meaning", row.text("Meaning")?, LOADS[status])?;
        let fields: [(&str, u32, u32); 4] = [
            ("NID_ATOTS", packet.atots.into(), atots.into()),
            ("Date", packet.date.into(), date.into()),
            ("Seconds", packet.seconds, seconds),
            ("Counter", packet.counter.into(), counter.into()),
        ];
        for (column, found, of_journey) in fields {
            let text = row.text(column)?;
            let told = number_of(text).map_or(text.into(), |number| number.to_string());
            let found = if found == of_journey { "the journey's".into() } else { found.to_string() };
            same(row.line, column, told, found)?;
        }
    }
    Ok(())
}

/// The numbers of the places, put together, count up from 1, with the last two in places of their own; those that are
/// explained count up to the last.
fn check_numbers(page: &Page) -> Checked<()> {
    let mut in_order = [1, 2, REVERSED].into_iter().chain(3..=6).chain([HELD]).chain(7..HELD);
    for row in page.table("10. Numbers", "Place")? {
        for number in row.text("Numbers")?.split(' ') {
            let next = in_order.next().unwrap_or(0);
            same(row.line, "number", number, &next.to_string())?;
            let writes = if TURNED_DOWN.contains(&next) { "packet 65" } else { "nothing" };
            same(row.line, "writes", row.text("Writes")?, writes)?;
        }
    }
    same(1, "numbers not in the table", in_order.count(), 0)?;
    same(1, "numbers", count_items(page, "## 10. Numbers", "- **")?, REVERSED.into())
}

/// Items that begin so count up from 1 without a gap; how many there are.
fn count_items(page: &Page, heading: &str, begin: &str) -> Checked<usize> {
    let mut count = 0;
    let items = page.lines().skip_while(|(_, text)| *text != heading).skip(1);
    for (line, text) in items.take_while(|(_, text)| !text.starts_with("## ")) {
        let Some((number, _)) = text.strip_prefix(begin).and_then(|rest| rest.split_once("**")) else { continue };
        count += 1;
        same(line, "item", number, &count.to_string())?;
    }
    Ok(count)
}

fn check_lines(page: &Page) -> Checked<()> {
    match page.lines().find(|(_, text)| text.chars().count() > LINE) {
        Some((line, _)) => wrong(line, format!("more than {LINE} characters")),
        None => Ok(()),
    }
}

fn names(text: &str) -> impl Iterator<Item = &str> {
    let names = text.split(|c: char| !c.is_ascii_alphanumeric() && c != '_');
    names.filter(|name| name.to_lowercase().starts_with("hollwern_"))
}

/// Names of the header that the page uses are there; a figure in brackets behind one is its value.
fn check_names(page: &Page, header: &str) -> Checked<()> {
    let known: BTreeSet<&str> = names(header).collect();
    for (line, text) in page.lines() {
        for name in names(text) {
            if !known.contains(name) {
                return wrong(line, format!("the header has no {name}"));
            }
            let figure = text.split_once(&format!("`{name}` (")).and_then(|(_, rest)| rest.split_once(')'));
            if let Some(value) = figure.and_then(|(figure, _)| number_of(figure))
                && !header.contains(&format!("#define {name} {value}\n"))
            {
                return wrong(line, format!("the header does not define {name} as {value}"));
            }
        }
    }
    Ok(())
}

/// How many application conditions there are.
pub fn check(page: &Page, header: &str) -> Checked<usize> {
    check_states(page)?;
    check_reports(page)?;
    check_standings(page)?;
    check_creeps(page)?;
    check_holds(page)?;
    check_trackside(page)?;
    check_statuses(page)?;
    check_loads(page)?;
    check_numbers(page)?;
    check_lines(page)?;
    check_names(page, header)?;
    match count_items(page, "## 12. Application conditions", "- **AC-")? {
        0 => wrong(1, "no application conditions"),
        count => Ok(count),
    }
}
