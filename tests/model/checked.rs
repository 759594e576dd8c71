//! The model with every check around each call: a refusal leaves the engine as it was and has a reason, memory behind
//! the packets is kept, too short memory is 16, or no packet of a load that is turned down; the packets read back and
//! stand in order, the literal rules agree, and what was told since the load tells where each point stands.

use crate::calls::{Call, MEMORY};
use crate::engine::{written, Answer, Engine, Refused};
use crate::packets::{split_packets, Content, Packet, SIZE_65};
use crate::reasons::{reason, ByPlace};
use crate::rules::Rules;
use crate::told::Told;

/// The packets of a call, by their numbers: only 62 stands there more than once.
const ORDER: [u8; 5] = [65, 62, 61, 64, 68];
/// What short memory is filled with.
const BLANK: u8 = 0xA5;

pub struct Checked {
    pub engine: Engine,
    pub out: [u8; MEMORY],
    rules: Rules,
    told: Told,
    calls: usize,
}

impl Checked {
    pub fn new() -> Checked {
        Checked { engine: Engine::fresh(), out: [0; MEMORY], rules: Rules::new(), told: Told::default(), calls: 0 }
    }

    pub fn call(&mut self, call: &Call) -> Result<Result<Answer, Refused>, String> {
        self.calls += 1;
        self.out = [self.calls as u8; MEMORY];
        let (before, memory) = (self.engine.clone(), self.out);
        let answer = self.engine.call(call, &mut self.out);
        let reason = reason(&before, call, &ByPlace);
        if reason.as_ref().map(|(number, _)| *number) != answer.err().map(|refused| refused.number) {
            return Err(format!("the answer is {answer:?}, the reason found {reason:?}"));
        }
        self.rules.check_press(call, answer.err().map(|refused| refused.number))?;
        let bytes = written(answer);
        if self.out[bytes..] != memory[bytes..] {
            return Err("memory behind the packets changed".into());
        }
        match answer {
            Err(_) if self.engine != before => return Err("a refusal changed the engine".into()),
            Err(refused) => self.rules.check_refused(refused, &self.out[..bytes])?,
            Ok(_) => {
                self.rules.accept(call);
                self.rules.check_packets(call, &split_packets(&self.out[..bytes]))?;
            }
        }
        self.check_packets(bytes)?;
        let step = |engine: &mut Engine, out: &mut [u8]| engine.call(call, out);
        check_short_memory(&before, step, answer, &self.out[..bytes], |engine| *engine == before)?;
        self.told.take(&split_packets(&self.out[..bytes]), &self.engine);
        self.rules.check(&self.engine)?;
        self.told.check(&self.engine)?;
        Ok(answer)
    }

    fn check_packets(&self, bytes: usize) -> Result<(), String> {
        let packets = split_packets(&self.out[..bytes]);
        if packets.iter().map(|packet| packet.len()).sum::<usize>() != bytes {
            return Err("bytes written are not packets".into());
        }
        let place = |packet: &[u8]| ORDER.iter().position(|&number| number == packet[0]);
        let follows = |pair: &[&[u8]]| place(pair[0]) < place(pair[1]) || pair[0][0] == 62 && pair[1][0] == 62;
        if !packets.windows(2).all(follows) {
            return Err("the packets are not in their order".into());
        }
        for bytes in packets {
            let packet = Packet::read(bytes).map_err(|number| format!("own packet refused by {number}"))?;
            let mut again = vec![0; bytes.len()];
            packet.write(&mut again).map_err(|number| format!("packet not written again: {number}"))?;
            if again != bytes {
                return Err("packet written again differs".into());
            }
            let now = &self.engine.now;
            let expected = Content::State { state: now.state, conditions: now.conditions };
            if matches!(packet.content, Content::State { .. }) && packet.content != expected {
                return Err("packet 68 does not tell the engine's state".into());
            }
        }
        Ok(())
    }
}

/// The same call with memory too short and just enough; how many calls that took. The memory takes just these bytes, so
/// that a memory checker sees its ends.
pub fn check_short_memory<E: Clone>(
    before: &E,
    call: impl FnMut(&mut E, &mut [u8]) -> Result<Answer, Refused>,
    answer: Result<Answer, Refused>,
    written: &[u8],
    unchanged: impl Fn(&E) -> bool,
) -> Result<usize, String> {
    match answer {
        Ok(_) => check_accepted(before.clone(), call, written, unchanged),
        // there is nothing to write that could not fit
        Err(Refused { bytes: 0, .. }) => Ok(0),
        Err(refused) => check_turned_down(before, call, refused.number, written, unchanged),
    }
}

/// In memory too short an accepted call is 16 and changes nothing, a load also where packet 65 alone would fit; with
/// just enough it writes the same again.
fn check_accepted<E>(
    mut engine: E,
    mut call: impl FnMut(&mut E, &mut [u8]) -> Result<Answer, Refused>,
    written: &[u8],
    unchanged: impl Fn(&E) -> bool,
) -> Result<usize, String> {
    let mut short = vec![0, SIZE_65, written.len().saturating_sub(1)];
    short.retain(|&size| size < written.len());
    for &size in &short {
        let mut out = vec![BLANK; size].into_boxed_slice();
        let answer = call(&mut engine, &mut out);
        let too_short = Err(Refused { number: 16, bytes: 0 });
        if answer != too_short || out.iter().any(|&byte| byte != BLANK) || !unchanged(&engine) {
            return Err(format!("with {size} bytes of memory it answers {answer:?}"));
        }
    }
    let mut out = vec![BLANK; written.len()].into_boxed_slice();
    let answer = call(&mut engine, &mut out);
    if answer.is_err() || *out != *written {
        return Err(format!("with just enough memory it answers {answer:?}"));
    }
    Ok(short.len() + 1)
}

/// A load that is turned down keeps its number in memory of any length: too short for packet 65, nothing is written,
/// and a byte behind the packet is kept.
fn check_turned_down<E: Clone>(
    before: &E,
    mut call: impl FnMut(&mut E, &mut [u8]) -> Result<Answer, Refused>,
    number: u8,
    packet: &[u8],
    unchanged: impl Fn(&E) -> bool,
) -> Result<usize, String> {
    const SIZES: [usize; 4] = [0, SIZE_65 - 1, SIZE_65, SIZE_65 + 1];
    for size in SIZES {
        let mut engine = before.clone();
        let mut out = vec![BLANK; size].into_boxed_slice();
        let answer = call(&mut engine, &mut out);
        let packet = if size < SIZE_65 { &[] } else { packet };
        let (front, behind) = out.split_at(packet.len());
        let as_due = answer == Err(Refused { number, bytes: packet.len() });
        if !as_due || front != packet || behind.iter().any(|&byte| byte != BLANK) || !unchanged(&engine) {
            return Err(format!("turned down with {size} bytes of memory it answers {answer:?} and writes {out:02X?}"));
        }
    }
    Ok(SIZES.len())
}
