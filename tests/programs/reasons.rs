//! `reasons`: the trials of loads that are refused, one of each name: the number, the name and the reason found. A name
//! says what was put in, a reason what was found. Left out are two faults at once and profiles cut short.

use inputs::trials::all_trials;
use model::calls::MEMORY;
use model::engine::{Engine, Refused};
use model::reasons::{reason, ByPlace};

fn main() {
    let mut engine = Engine::fresh();
    let mut out = [0; MEMORY];
    let mut names = Vec::new();
    for trial in all_trials() {
        let reason = reason(&engine, &trial.call, &ByPlace);
        let answer = engine.call(&trial.call, &mut out);
        let alone = trial.call.lends_profiles() && !trial.name.contains(" and ") && !trial.name.contains(" cut to ");
        if let (Err(Refused { number: number @ 7..=12, .. }), true, false) =
            (answer, alone, names.contains(&trial.name))
        {
            let reason = reason.map_or(String::new(), |(_, reason)| reason);
            println!("{number} {}: {reason}", trial.name);
            names.push(trial.name);
        }
    }
}
