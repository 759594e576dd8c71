//! `scenario play PLAYER FILE`: a scenario, played by the player program and told in words.
//! `scenario encode FILE`: the events of a scenario as the player's input.
//! `scenario explain FILE`: the player's lines, from standard input, in words beside the scenario's events.

use model::calls::{write_calls, Call};
use std::io::Read;
use tools::language::Scenario;
use tools::output::print;
use tools::player::run_player;
use tools::story::Story;

const USAGE: &str = "usage: scenario play PLAYER FILE, scenario encode FILE, \
                     or scenario explain FILE with the player's lines on standard input";

fn calls(scenario: &Scenario) -> Vec<Call> {
    scenario.steps.iter().map(|step| step.call.clone()).collect()
}

/// What was told so far is printed before an error.
fn tell(scenario: &Scenario, lines: &str) -> Result<(), String> {
    let mut story = Story::of(scenario);
    let told = story.tell(lines);
    print(story.text.as_bytes())?;
    told
}

fn run(arguments: &[&str]) -> Result<(), String> {
    match *arguments {
        ["play", player, file] => {
            let scenario = Scenario::read_file(file)?;
            if scenario.steps.is_empty() {
                return Err(format!("{file} has no event: there is nothing to play"));
            }
            tell(&scenario, &run_player(player, &calls(&scenario))?)
        }
        ["encode", file] => print(&write_calls(&calls(&Scenario::read_file(file)?))),
        ["explain", file] => {
            let mut lines = String::new();
            let read = std::io::stdin().read_to_string(&mut lines);
            read.map_err(|error| format!("the player's lines: {error}"))?;
            tell(&Scenario::read_file(file)?, &lines)
        }
        _ => {
            eprintln!("{USAGE}");
            std::process::exit(2);
        }
    }
}

fn main() {
    let arguments: Vec<String> = std::env::args().skip(1).collect();
    let arguments: Vec<&str> = arguments.iter().map(String::as_str).collect();
    if matches!(arguments[..], ["--help"] | ["-h"]) {
        println!("{USAGE}");
        return;
    }
    if let Err(error) = run(&arguments) {
        eprintln!("{error}");
        std::process::exit(1);
    }
}
