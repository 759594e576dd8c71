//! The player's input as a list of calls, and the player's lines for an answer, written and read.

use crate::adhesion::Constraint;
use crate::engine::{written, Answer, Engine, Refused, TURNED_DOWN};
use crate::events::{ADHESION, LOAD, POSITION_REPORT, REVOKE, SKIP, TRACTION};
use crate::numbers::Numbers;
use crate::packets::{split_packets, TractionBrake, SIZE_65};
use crate::words::{hex, STATES};

/// Bytes of output memory that the player lends.
pub const MEMORY: usize = 4096;

#[derive(Clone, PartialEq, Eq, Debug, Default)]
pub struct Call {
    pub event: Vec<u8>,
    /// Lent after the kind of a load only.
    pub journey: Vec<u8>,
    pub book: Vec<u8>,
}

impl Call {
    /// An event as it stands.
    pub fn of(event: Vec<u8>) -> Call {
        Call { event, ..Call::default() }
    }

    pub fn power_on() -> Call {
        Call::of(vec![1])
    }

    pub fn configured() -> Call {
        Call::of(vec![2])
    }

    pub fn power_off() -> Call {
        Call::of(vec![3])
    }

    pub fn fault() -> Call {
        Call::of(vec![4])
    }

    pub fn reports(reports: u8) -> Call {
        Call::of(vec![5, reports])
    }

    pub fn mode(mode: u8) -> Call {
        Call::of(vec![6, mode])
    }

    pub fn lever(lever: u8) -> Call {
        Call::of(vec![7, lever])
    }

    pub fn press() -> Call {
        Call::of(vec![8])
    }

    pub fn position(nidc: u16, nidsp: u32, offset: u32, speed: u16) -> Call {
        let mut event = vec![POSITION_REPORT];
        event.extend(nidc.to_be_bytes());
        event.extend(nidsp.to_be_bytes());
        event.extend(offset.to_be_bytes());
        event.extend(speed.to_be_bytes());
        Call::of(event)
    }

    pub fn length(length: u32) -> Call {
        Call::with_number(10, length)
    }

    pub fn load(journey: Vec<u8>, book: Vec<u8>) -> Call {
        Call { event: vec![LOAD], journey, book }
    }

    pub fn skip(nidtp: u32) -> Call {
        Call::with_number(SKIP, nidtp)
    }

    pub fn revoke(nidtp: u32) -> Call {
        Call::with_number(REVOKE, nidtp)
    }

    pub fn traction(request: i8, content: TractionBrake) -> Call {
        Call::of([&[TRACTION][..], &request.to_be_bytes(), &content.bytes()].concat())
    }

    pub fn adhesion(rows: &[Constraint]) -> Call {
        let head = [ADHESION, rows.len() as u8];
        let rows = rows.iter().flat_map(Constraint::bytes);
        Call::of(head.into_iter().chain(rows).collect())
    }

    /// A load of wrong length still brings its profiles.
    pub fn lends_profiles(&self) -> bool {
        self.event.first() == Some(&LOAD)
    }

    fn with_number(kind: u8, value: u32) -> Call {
        Call::of([&[kind][..], &value.to_be_bytes()].concat())
    }
}

fn read_bytes(from: &mut Numbers) -> Option<Vec<u8>> {
    let length = from.u16()?;
    Some(from.take(usize::from(length))?.to_vec())
}

/// `None` where the input is cut short.
fn read_call(from: &mut Numbers) -> Option<Call> {
    let mut call = Call::of(read_bytes(from)?);
    if call.lends_profiles() {
        (call.journey, call.book) = (read_bytes(from)?, read_bytes(from)?);
    }
    Some(call)
}

pub fn read_calls(input: &[u8]) -> Vec<Call> {
    let mut from = Numbers(input);
    std::iter::from_fn(|| read_call(&mut from)).collect()
}

fn write_call(call: &Call, to: &mut Vec<u8>) {
    let mut put = |bytes: &[u8]| {
        to.extend((bytes.len() as u16).to_be_bytes());
        to.extend(bytes);
    };
    put(&call.event);
    if call.lends_profiles() {
        put(&call.journey);
        put(&call.book);
    }
}

pub fn write_calls(calls: &[Call]) -> Vec<u8> {
    let mut bytes = Vec::new();
    calls.iter().for_each(|call| write_call(call, &mut bytes));
    bytes
}

/// The player's line for an answer.
pub fn answer_line(answer: Result<Answer, Refused>) -> String {
    match answer {
        Ok(Answer { state, request, bytes }) => format!("A {state} {} {bytes}", u8::from(request)),
        Err(Refused { number, bytes }) => format!("R {number} {bytes}"),
    }
}

/// The answer that a line is, just as the player writes it: its memory has room for packet 65.
pub fn read_answer(line: &str) -> Option<Result<Answer, Refused>> {
    let words: Vec<&str> = line.split(' ').collect();
    let answer = match words[..] {
        ["R", number, _] => {
            let number = number.parse().ok().filter(|number| matches!(number, 1..=16 | 20 | 21))?;
            Err(Refused { number, bytes: if TURNED_DOWN.contains(&number) { SIZE_65 } else { 0 } })
        }
        ["A", state, request, bytes] => {
            let state = state.parse().ok().filter(|&state: &u8| usize::from(state) < STATES.len())?;
            Ok(Answer { state, request: request == "1", bytes: bytes.parse().ok()? })
        }
        _ => return None,
    };
    (answer_line(answer) == line).then_some(answer)
}

/// The player's lines for one call.
pub fn write_lines(answer: Result<Answer, Refused>, out: &[u8], text: &mut String) {
    *text += &(answer_line(answer) + "\n");
    let packets = split_packets(&out[..written(answer)]);
    packets.iter().for_each(|packet| *text += &format!("{}\n", hex(packet)));
}

/// What the player prints for these calls, from a fresh engine.
pub fn play(calls: &[Call]) -> String {
    let mut engine = Engine::fresh();
    let mut out = [0; MEMORY];
    let mut text = String::new();
    for call in calls {
        let answer = engine.call(call, &mut out);
        write_lines(answer, &out, &mut text);
    }
    text
}
