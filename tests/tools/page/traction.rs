//! The tables of packet 61's ranges, played in EG and in DE.

use crate::engines::{calls_to, engines, play};
use crate::text::{same, wrong, Checked, Page, Row};
use model::calls::Call;
use model::engine::{DE, EG};
use model::packets::TractionBrake;
use proved::pair::Pair;

/// The highest request.
const MOST: i64 = 100;

/// The requests, without sign, that a range holds.
struct Range {
    line: usize,
    low: i64,
    high: i64,
}

impl Range {
    fn holds(&self, size: i64) -> bool {
        self.low <= size && size <= self.high
    }
}

struct Ranges(Vec<Range>);

impl Ranges {
    fn of(page: &Page) -> Checked<Ranges> {
        let mut ranges = Vec::new();
        for (k, row) in page.table("Packet 61", "Range")?.iter().enumerate() {
            same(row.line, "range", row.number("Range")?, k as i64)?;
            let (low, high) = row.range("Request without sign")?;
            ranges.push(Range { line: row.line, low, high });
        }
        Ok(Ranges(ranges))
    }

    /// A request that this range alone holds.
    fn only(&self, k: usize) -> Checked<i64> {
        let Some(range) = self.0.get(k) else { return wrong(1, format!("no range {k}")) };
        let alone = |size: &i64| self.0.iter().filter(|range| range.holds(*size)).count() == 1;
        let found = (range.low..=range.high).find(alone);
        found.map_or_else(|| wrong(range.line, "no request is in this range alone"), Ok)
    }

    /// What the engine remembers: the range whose request, if it is the next, writes nothing.
    fn remembered(&self, pair: &Pair, line: usize) -> Checked<String> {
        for k in 0..self.0.len() {
            if !writes(&mut pair.clone(), self.only(k)?, line)? {
                return Ok(k.to_string());
            }
        }
        Ok("none".into())
    }

    /// From each range, both its ends stay in it and what lies next to them does not, whatever the sign.
    fn check_ends(&self, fresh: &Pair) -> Checked<()> {
        for (k, range) in self.0.iter().enumerate() {
            let mut in_range = fresh.clone();
            writes(&mut in_range, self.only(k)?, range.line)?;
            let sizes = [range.low, range.high, range.low - 1, range.high + 1];
            for size in sizes.into_iter().filter(|size| (0..=MOST).contains(size)) {
                for request in [size, -size] {
                    let stays = !writes(&mut in_range.clone(), request, range.line)?;
                    if stays != range.holds(size) {
                        let does = if stays { "stays in" } else { "leaves" };
                        return wrong(range.line, format!("{request} {does} range {k}"));
                    }
                }
            }
        }
        Ok(())
    }

    /// One example: from a range, or with nothing remembered, by a request.
    fn check_example(&self, row: &Row, mut pair: Pair) -> Checked<()> {
        if row.text("From range")? != "none" {
            let request = self.only(row.number_to("From range", 4)?)?;
            writes(&mut pair, request, row.line)?;
        }
        same(row.line, "from range", row.text("From range")?, &self.remembered(&pair, row.line)?)?;
        let written = writes(&mut pair, row.number("Request")?, row.line)?;
        same(row.line, "to range", row.text("To range")?, &self.remembered(&pair, row.line)?)?;
        same(row.line, "packet 61", row.text("Packet 61")?, written_in_words(written))
    }
}

fn request_of(request: i8, q_ato_suptb: u8) -> Call {
    Call::traction(request, TractionBrake { q_ato_suptb, ..TractionBrake::default() })
}

/// Whether the request writes packet 61; it is accepted, and writes nothing else.
fn writes(pair: &mut Pair, request: i64, line: usize) -> Checked<bool> {
    let Ok(byte) = i8::try_from(request) else { return wrong(line, format!("{request} is no signed byte")) };
    let (answer, packets) = play(pair, &[request_of(byte, 0)], line)?;
    match &packets[..] {
        [] if answer.starts_with('A') => Ok(false),
        [packet] if packet[0] == 61 => Ok(true),
        _ => wrong(line, format!("the request {request} is answered {answer}")),
    }
}

fn written_in_words(written: bool) -> &'static str {
    if written {
        "written"
    } else {
        "no"
    }
}

/// Whether the second of two equal requests is written, by what comes between them.
fn check_between(row: &Row, mut pair: Pair, load: &Call) -> Checked<()> {
    let again = [vec![Call::power_off()], calls_to(EG, load)].concat();
    let between = match row.text("Between two equal requests")? {
        "nothing" => vec![],
        "a request that is refused" => vec![request_of(101, 0)],
        "the change from EG to DE" => vec![Call::reports(0)],
        "a request with another Q_ATO_SupTB" => vec![request_of(50, 128)],
        "EG left and entered again" => vec![Call::mode(0), request_of(10, 0), Call::press(), Call::mode(1)],
        "power off, and on to EG again" => again,
        other => return wrong(row.line, format!("'{other}' is not known here")),
    };
    writes(&mut pair, 50, row.line)?;
    play(&mut pair, &between, row.line)?;
    let written = writes(&mut pair, 50, row.line)?;
    same(row.line, "the second", row.text("The second")?, written_in_words(written))
}

/// How many examples there are. `load` is one that leads to every state.
pub fn check(page: &Page, load: &Call) -> Checked<usize> {
    let ranges = Ranges::of(page)?;
    let examples = page.table("Packet 61", "From range")?;
    let engines = engines(load, examples[0].line)?;
    for state in [EG, DE] {
        let fresh = &engines[usize::from(state)];
        ranges.check_ends(fresh)?;
        examples.iter().try_for_each(|row| ranges.check_example(row, fresh.clone()))?;
    }
    let kept = page.table("Packet 61", "Between two equal requests")?;
    kept.iter().try_for_each(|row| check_between(row, engines[usize::from(EG)].clone(), load))?;
    Ok(examples.len() + kept.len())
}
