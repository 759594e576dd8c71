//! The tables of events: kinds, lengths, states, fields and their ranges, and the rows of kind 15.

use crate::engines::{engines, play, refusal};
use crate::text::{bounds, in_range, number_of, put, same, wrong, Checked, Page, Row, Size};
use model::adhesion::{Constraint, CONSTRAINTS_MOST};
use model::calls::Call;
use model::words::STATES;
use proved::pair::Pair;

/// So many bytes more than an event has are tried.
const LONGER: usize = 20;
/// The most rows that a count of one byte says.
const COUNT_MOST: usize = 255;

struct Field {
    line: usize,
    /// It says how many rows follow.
    counts: bool,
    offset: usize,
    width: usize,
    low: i64,
    high: i64,
}

struct Kind {
    line: usize,
    kind: u8,
    size: Size,
    taken: Vec<usize>,
    fields: Vec<Field>,
    /// Those of the first row.
    of_row: Vec<Field>,
}

fn field_of(row: &Row) -> Checked<Field> {
    let (low, high) = row.range("Range")?;
    let (offset, width) = (row.number_to("Offset", 255)?, row.width()?);
    Ok(Field { line: row.line, counts: row.text("Field")? == "count", offset, width, low, high })
}

/// The codes of the states that the cell names.
fn states_of(row: &Row) -> Checked<Vec<usize>> {
    let code = |name: &str| STATES.iter().position(|state| *state == name);
    let codes: Option<Vec<usize>> = row.text("Taken in")?.split(' ').map(code).collect();
    codes.map_or_else(|| wrong(row.line, "a state that there is not"), Ok)
}

fn kinds(page: &Page) -> Checked<Vec<Kind>> {
    let rows = page.table("Fields of events", "Kind")?;
    let mut kinds = Vec::new();
    for row in page.table("Kinds", "Kind")? {
        let kind = row.number_to("Kind", 255)?;
        let (mut fields, mut of_row) = (Vec::new(), Vec::new());
        for field in &rows {
            match field.each("Kind")? {
                (other, false) if other == kind => fields.push(field_of(field)?),
                (other, true) if other == kind => of_row.push(field_of(field)?),
                _ => {}
            }
        }
        let (size, taken) = (row.size("Bytes")?, states_of(&row)?);
        kinds.push(Kind { line: row.line, kind: kind as u8, size, taken, fields, of_row });
    }
    Ok(kinds)
}

impl Kind {
    /// The event with so many rows and its fields at their lowest, but for the one at an offset.
    fn event(&self, rows: usize, changed: Option<(usize, i64)>) -> Vec<u8> {
        let mut bytes = vec![self.kind];
        let of_rows = (0..rows).flat_map(|k| self.of_row.iter().map(move |field| (k, field)));
        for (k, field) in self.fields.iter().map(|field| (0, field)).chain(of_rows) {
            let value = match changed {
                Some((offset, value)) if offset == field.offset + k * self.size.row => value,
                _ if field.counts => rows as i64,
                _ => field.low,
            };
            put(value, field.width, &mut bytes);
        }
        bytes
    }

    /// How many rows are tried.
    fn counts(&self) -> &[usize] {
        if self.size.row == 0 {
            &[0]
        } else {
            &[0, 1, 2, CONSTRAINTS_MOST, CONSTRAINTS_MOST + 1, COUNT_MOST]
        }
    }

    /// Fields stand one behind the other and fill the event, and no other length is taken.
    fn check_length(&self, fresh: &Pair) -> Checked<()> {
        let mut at = 1;
        for field in self.fields.iter().chain(&self.of_row) {
            same(field.line, "offset", field.offset, at)?;
            at += field.width;
        }
        same(self.line, "bytes, those of the fields counted", self.size.with(1), at)?;
        for &rows in self.counts() {
            let mut event = self.event(rows, None);
            let whole = event.len();
            same(self.line, &format!("bytes with {rows} rows"), self.size.with(rows), whole)?;
            event.resize(whole + LONGER, 0);
            for size in 1..=event.len() {
                let number = refusal(fresh, &Call::of(event[..size].to_vec()), self.line)?;
                if (number == 1) == (size == whole) {
                    return wrong(self.line, format!("kind {} of {size} bytes: number {number}", self.kind));
                }
            }
        }
        Ok(())
    }

    /// Each field at the ends of its range and next to them; those of a row in the first and in the last of the most.
    fn check_ranges(&self, fresh: &Pair) -> Checked<()> {
        let of_rows = [0, CONSTRAINTS_MOST - 1].into_iter().flat_map(|k| {
            self.of_row.iter().map(move |field| (field, CONSTRAINTS_MOST, field.offset + k * self.size.row))
        });
        for (field, rows, offset) in self.fields.iter().map(|field| (field, 0, field.offset)).chain(of_rows) {
            for (value, inside) in bounds(field.line, field.low, field.high, 8 * field.width)? {
                let rows = if field.counts { value as usize } else { rows };
                let call = Call::of(self.event(rows, Some((offset, value))));
                in_range(field.line, value, inside, refusal(fresh, &call, field.line)? == 2)?;
            }
        }
        Ok(())
    }

    /// Taken by power and state in the states that the page names, else refused as it says below the table.
    fn check_states(&self, engines: &[Pair]) -> Checked<()> {
        for (state, engine) in engines.iter().enumerate() {
            let number = refusal(engine, &Call::of(self.event(0, None)), self.line)?;
            let refused = match (STATES[state], self.kind) {
                (_, 1) => 4,
                ("NP", _) => 3,
                ("FA", _) => 5,
                _ => 6,
            };
            let taken = !(3..=6).contains(&number);
            if taken != self.taken.contains(&state) || (!taken && number != refused) {
                return wrong(self.line, format!("kind {} in {}: number {number}", self.kind, STATES[state]));
            }
        }
        Ok(())
    }
}

fn check_unknown(kinds: &[Kind], fresh: &Pair) -> Checked<()> {
    let line = kinds[0].line;
    for kind in (0..=255).filter(|kind| kinds.iter().all(|known| known.kind != *kind)) {
        for size in 1..=LONGER {
            let mut event = vec![0; size];
            event[0] = kind;
            if refusal(fresh, &Call::of(event), line)? != 1 {
                return wrong(line, format!("kind {kind} is not on the page"));
            }
        }
    }
    Ok(())
}

/// What holds after power on.
fn check_before(page: &Page) -> Checked<()> {
    let rows = page.table("Fields of events", "Kind")?;
    let mut pair = Pair::fresh();
    play(&mut pair, &[Call::power_on()], rows[0].line)?;
    let now = &pair.model.now;
    for row in &rows {
        let found = match row.text("Field")? {
            _ if row.each("Kind")?.1 => continue,
            "count" => pair.model.constraints.len() as u32,
            "reports" => now.reports.into(),
            "mode" => now.mode.into(),
            "lever" => now.lever.into(),
            "NID_C" => now.position.nidc.into(),
            "NID_SP" => now.position.nidsp,
            "offset" => now.position.offset,
            "speed" => now.speed.into(),
            "train length" => now.length,
            _ => continue,
        };
        same(row.line, "before", row.number("Before")?, found.into())?;
    }
    Ok(())
}

/// Rows of kind 15 from a start to an end each, as the page has them, in the states that it names: the number that
/// refuses them, if one does.
fn check_rows(page: &Page, engines: &[Pair]) -> Checked<()> {
    for row in page.table("Fields of events", "Rows, each from start to end")? {
        let call = Call::adhesion(&constraints_of(&row)?);
        for (state, name) in STATES.iter().enumerate() {
            let Ok(told) = row.text(&format!("In {name}")) else { continue };
            let found = match refusal(&engines[state], &call, row.line)? {
                0 => "taken".into(),
                number => number.to_string(),
            };
            same(row.line, &format!("in {name}"), told, &found)?;
        }
    }
    Ok(())
}

/// The rows of a cell such as 0-5 5-4.
fn constraints_of(row: &Row) -> Checked<Vec<Constraint>> {
    let text = row.text("Rows, each from start to end")?;
    let constraint = |ends: &str| {
        let (start, end) = ends.split_once('-')?;
        Some(Constraint { start: number_of(start)? as u32, end: number_of(end)? as u32, ..Constraint::default() })
    };
    let rows: Option<Vec<Constraint>> = text.split(' ').filter(|ends| *ends != "none").map(constraint).collect();
    rows.map_or_else(|| wrong(row.line, format!("'{text}' is no rows")), Ok)
}

/// How many kinds there are. `load` is one that leads to every state.
pub fn check(page: &Page, load: &Call) -> Checked<usize> {
    let kinds = kinds(page)?;
    let engines = engines(load, kinds[0].line)?;
    for kind in &kinds {
        kind.check_length(&engines[0])?;
        kind.check_ranges(&engines[0])?;
        kind.check_states(&engines)?;
    }
    check_rows(page, &engines)?;
    check_unknown(&kinds, &engines[0])?;
    check_before(page)?;
    Ok(kinds.len())
}
