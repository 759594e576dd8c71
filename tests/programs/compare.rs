//! `compare PLAYER COUNT SEED`: the model against a player program on so many guided random lists of calls, and the
//! model against the literal rules after every call. On a difference it prints the shortest list found that still differs.
//! `compare PLAYER --input FILE` takes the calls of a file instead. So many lists that every situation that is counted must
//! come up fail where one does not.

use inputs::coverage::Coverage;
use inputs::lists::new_ended_list;
use model::calls::{play, read_calls, write_calls, write_lines, Call};
use model::checked::Checked;
use model::words::{call_in_words, hex};
use tools::player::run_player;

/// Lists that one run of the player takes, each ended by power off.
const BATCH: u64 = 200;
/// From so many random lists on every situation must have come up.
const ENOUGH: usize = 10_000;

/// What the model prints, with every check around each call.
fn checked_lines(calls: &[Call], coverage: &mut Coverage) -> Result<String, String> {
    let mut model = Checked::new();
    let mut text = String::new();
    for (k, call) in calls.iter().enumerate() {
        let before = model.engine.clone();
        let answer = model.call(call).map_err(|error| format!("call {k}: {error}"))?;
        coverage.count(call, &before, &model.engine, answer, &model.out);
        write_lines(answer, &model.out, &mut text);
    }
    Ok(text)
}

/// Drops calls while the list is still `wrong`.
fn shortest(mut calls: Vec<Call>, wrong: &dyn Fn(&[Call]) -> bool) -> Vec<Call> {
    let mut size = calls.len().div_ceil(2);
    loop {
        let before = calls.len();
        let mut at = 0;
        while at < calls.len() {
            let mut fewer = calls.clone();
            fewer.drain(at..(at + size).min(calls.len()));
            if wrong(&fewer) {
                calls = fewer;
            } else {
                at += size;
            }
        }
        if size == 1 && calls.len() == before {
            return calls;
        }
        size = size.div_ceil(2);
    }
}

fn print_list(calls: &[Call]) {
    for (k, call) in calls.iter().enumerate() {
        println!("{k:3} {}", call_in_words(call).join("\n    "));
    }
    println!("as the player's input: {}", hex(&write_calls(calls)));
}

fn print_difference(calls: &[Call], player: &str) {
    print_list(calls);
    let expected = play(calls);
    let found = match run_player(player, calls) {
        Ok(found) => found,
        Err(error) => {
            println!("{error}");
            return;
        }
    };
    let lines = expected.lines().count().max(found.lines().count());
    for k in 0..lines {
        let (left, right) = (expected.lines().nth(k), found.lines().nth(k));
        if left != right {
            println!("line {}:\n  model  {}\n  player {}", k + 1, left.unwrap_or("-"), right.unwrap_or("-"));
            return;
        }
    }
}

/// One run of the player. False, with the shortest list printed, on any difference.
fn agrees(player: &str, lists: &[Vec<Call>], coverage: &mut Coverage) -> bool {
    let joined = lists.concat();
    let expected = match checked_lines(&joined, coverage) {
        Ok(text) => text,
        Err(error) => {
            println!("the model differs from the rules: {error}");
            let wrong = |calls: &[Call]| checked_lines(calls, &mut Coverage::default()).is_err();
            print_list(&shortest(joined, &wrong));
            return false;
        }
    };
    if run_player(player, &joined).is_ok_and(|found| found == expected) {
        return true;
    }
    if let Err(error) = run_player(player, &[]) {
        println!("{error}");
        return false;
    }
    let wrong = |calls: &[Call]| !run_player(player, calls).is_ok_and(|found| found == play(calls));
    let alone = lists.iter().find(|list| wrong(list)).cloned();
    println!("the player differs from the model; the shortest list found that still does:");
    print_difference(&shortest(alone.unwrap_or(joined), &wrong), player);
    false
}

fn compare_random(player: &str, count: u64, seed: u64, coverage: &mut Coverage) -> bool {
    let mut done = 0;
    while done < count {
        let batch = BATCH.min(count - done);
        let lists: Vec<Vec<Call>> = (done..done + batch).map(|k| new_ended_list(seed.wrapping_add(k))).collect();
        if !agrees(player, &lists, coverage) {
            return false;
        }
        done += batch;
        coverage.lists += batch as usize;
    }
    true
}

/// `None` for wrong use.
fn compare(arguments: &[&str], coverage: &mut Coverage) -> Option<Result<bool, String>> {
    Some(match *arguments {
        [player, "--input", file] => {
            coverage.lists = 1;
            let input = std::fs::read(file).map_err(|error| format!("{file}: {error}"));
            input.map(|input| agrees(player, &[read_calls(&input)], coverage))
        }
        [player, count, seed] => Ok(compare_random(player, count.parse().ok()?, seed.parse().ok()?, coverage)),
        _ => return None,
    })
}

fn main() {
    let arguments: Vec<String> = std::env::args().skip(1).collect();
    let arguments: Vec<&str> = arguments.iter().map(String::as_str).collect();
    let mut coverage = Coverage::default();
    match compare(&arguments, &mut coverage) {
        None => {
            eprintln!("usage: compare PLAYER COUNT SEED, or compare PLAYER --input FILE");
            std::process::exit(2);
        }
        Some(Err(error)) => {
            eprintln!("{error}");
            std::process::exit(1);
        }
        Some(Ok(false)) => std::process::exit(1),
        Some(Ok(true)) => {}
    }
    println!("{} lists, {} calls: model, player and rules agree", coverage.lists, coverage.calls);
    coverage.print();
    let missing = coverage.missing();
    if coverage.lists >= ENOUGH && !missing.is_empty() {
        println!("no list brings up: {}", missing.join("; "));
        std::process::exit(1);
    }
}
