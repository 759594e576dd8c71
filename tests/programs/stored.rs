//! `stored FOLDER`: writes the stored lists of two programs, each into a folder of its name in FOLDER. `player/stdin`: the
//! trials of profiles, the edges, and a call cut short; `packet_trials/stdin`: the trials of packets; `stdout`: the lines
//! that the model answers. Nothing is written if a trial is answered by another number than it names.

use inputs::edges::all_edges;
use inputs::packet_trials::{packet_trials, PacketTrial};
use inputs::trials::{all_trials, Trial};
use model::calls::{play, read_calls, write_calls, Call, MEMORY};
use model::engine::Engine;

/// Power on, then a load whose journey is shorter than its length says.
const CUT_SHORT: [u8; 10] = [0, 1, 1, 0, 1, 11, 0, 3, 1, 2];

fn is_wrong(name: &str, expected: Option<u8>, found: Option<u8>) -> bool {
    if found != expected {
        eprintln!("trial '{name}': expected {expected:?}, the model answers {found:?}");
    }
    found != expected
}

/// How many trials the model answers by another number.
fn wrong_trials(trials: &[Trial]) -> usize {
    let mut engine = Engine::fresh();
    let mut out = [0; MEMORY];
    let mut number = |call: &Call| engine.call(call, &mut out).err().map(|refused| refused.number);
    trials.iter().filter(|trial| is_wrong(&trial.name, trial.expected, number(&trial.call))).count()
}

fn wrong_packet_trials(trials: &[PacketTrial]) -> usize {
    trials.iter().filter(|trial| is_wrong(trial.name, trial.expected, trial.answer().1)).count()
}

fn store(folder: &str, input: &[u8], lines: &str) -> std::io::Result<()> {
    std::fs::create_dir_all(folder)?;
    std::fs::write(format!("{folder}/stdout"), lines)?;
    std::fs::write(format!("{folder}/stdin"), input)
}

fn main() -> std::io::Result<()> {
    let Some(folder) = std::env::args().nth(1) else {
        eprintln!("usage: stored FOLDER");
        std::process::exit(2);
    };
    let (trials, packet_trials) = (all_trials(), packet_trials());
    if wrong_trials(&trials) + wrong_packet_trials(&packet_trials) > 0 {
        std::process::exit(1);
    }
    let mut calls: Vec<Call> = trials.into_iter().map(|trial| trial.call).collect();
    calls.extend(all_edges());
    let input = [write_calls(&calls), CUT_SHORT.to_vec()].concat();
    store(&format!("{folder}/player"), &input, &play(&read_calls(&input)))?;

    let mut input = Vec::new();
    packet_trials.iter().for_each(|trial| trial.write(&mut input));
    let lines: String = packet_trials.iter().map(|trial| trial.answer().0).collect();
    store(&format!("{folder}/packet_trials"), &input, &lines)
}
