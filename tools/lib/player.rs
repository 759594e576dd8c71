//! A player program, run on a list of calls.

use model::calls::{write_calls, Call};
use std::io::Write;
use std::process::{Command, Stdio};

/// The lines that it prints. An error where it cannot be run, fails, or says anything on standard error.
pub fn run_player(player: &str, calls: &[Call]) -> Result<String, String> {
    let mut command = Command::new(player);
    command.stdin(Stdio::piped()).stdout(Stdio::piped()).stderr(Stdio::piped());
    let mut child = command.spawn().map_err(|error| format!("the player {player} cannot be run: {error}"))?;
    let bytes = write_calls(calls);
    let mut input = child.stdin.take();
    // a player that ends early shows it by its lines
    let writer = std::thread::spawn(move || input.as_mut().map(|input| input.write_all(&bytes)));
    let output = child.wait_with_output().map_err(|error| format!("the player {player}: {error}"))?;
    let _ = writer.join();
    let said = String::from_utf8_lossy(&output.stderr);
    if !output.status.success() || !said.is_empty() {
        return Err(format!("the player {player} failed ({}) {}", output.status, said.trim_end()).trim_end().into());
    }
    String::from_utf8(output.stdout).map_err(|_| format!("the player {player} prints something that is no text"))
}
