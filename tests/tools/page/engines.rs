//! The proved engine and the model side by side, in each state.

use crate::text::{wrong, Checked};
use model::calls::{answer_line, Call};
use model::engine::{written, AV, CO, DE, EG, FA, NA, NP, RE};
use model::packets::split_packets;
use model::values::Journey;
use model::words::STATES;
use proved::hollwern::{read, PacketFields};
use proved::pair::{Memory, Pair};

/// Plays the calls; the answer to the last, and the packets that it wrote.
pub fn play(pair: &mut Pair, calls: &[Call], line: usize) -> Checked<(String, Vec<Vec<u8>>)> {
    let mut last = (String::new(), Vec::new());
    let mut memory = Memory::new();
    for call in calls {
        let answer = match pair.call(call, &mut memory) {
            Err(difference) => return wrong(line, difference),
            Ok(answer) => answer,
        };
        let packets = split_packets(&memory.proved[..written(answer)]).into_iter().map(<[u8]>::to_vec).collect();
        last = (answer_line(answer), packets);
        if !pair.proved.shows(&pair.model) {
            return wrong(line, "the engine shows other values than the model");
        }
    }
    Ok(last)
}

/// The number that refuses the call on such an engine; 0 where it is accepted.
pub fn refusal(on: &Pair, call: &Call, line: usize) -> Checked<u8> {
    let (answer, _) = play(&mut on.clone(), std::slice::from_ref(call), line)?;
    let number = answer.strip_prefix("R ").and_then(|rest| rest.split(' ').next());
    Ok(number.map_or(0, |number| number.parse().unwrap()))
}

/// The packets of these calls from a fresh engine, as they are read.
pub fn packets_of(calls: &[Call], line: usize) -> Checked<Vec<PacketFields>> {
    let mut pair = Pair::fresh();
    let mut packets = Vec::new();
    for call in calls {
        packets.extend(play(&mut pair, std::slice::from_ref(call), line)?.1.iter().map(|packet| read(packet)));
    }
    Ok(packets)
}

/// From fresh to the state with this code, by this load.
pub fn calls_to(state: u8, load: &Call) -> Vec<Call> {
    let (nidc, nidsp) = Journey::read(&load.journey).map_or((0, 0), |journey| journey.segments[0]);
    let located = [Call::power_on(), load.clone(), Call::position(nidc, nidsp, 0, 0), Call::reports(31)].to_vec();
    let then = |before: Vec<Call>, calls: &[Call]| [&before[..], calls].concat();
    match state {
        CO => vec![Call::power_on()],
        NA => then(calls_to(CO, load), &[Call::configured()]),
        AV => then(located, &[Call::lever(1), Call::configured()]),
        RE => then(located, &[Call::configured()]),
        EG => then(calls_to(RE, load), &[Call::press(), Call::mode(1)]),
        DE => then(calls_to(EG, load), &[Call::reports(0)]),
        FA => then(calls_to(CO, load), &[Call::fault()]),
        _ => Vec::new(),
    }
}

/// An engine in each state, by its code.
pub fn engines(load: &Call, line: usize) -> Checked<Vec<Pair>> {
    let mut engines = Vec::new();
    for state in NP..=FA {
        let mut pair = Pair::fresh();
        play(&mut pair, &calls_to(state, load), line)?;
        if pair.model.now.state != state {
            return wrong(line, format!("with this load no {} is come to", STATES[usize::from(state)]));
        }
        engines.push(pair);
    }
    Ok(engines)
}
