//! `draw SCENARIO OUT.svg`: a scenario's run as a picture.
//! `draw SCENARIO OUT.html`: the same picture, the words beside it.

use drawing::page::{page, picture};
use drawing::ride::Ride;
use proved::hollwern::Engine;
use std::path::Path;
use tools::language::Scenario;

const USAGE: &str = "usage: tools/draw SCENARIO OUT.svg|OUT.html";

/// A titled run as a file.
type Draw = fn(&str, &Ride) -> String;

/// The scenario, the file to draw to, and how.
fn arguments(given: &[String]) -> Result<(&str, &str, Draw), String> {
    let [scenario, out] = given else { return Err(USAGE.into()) };
    match Path::new(out).extension().and_then(|extension| extension.to_str()) {
        Some("svg") => Ok((scenario, out, picture)),
        Some("html") => Ok((scenario, out, page)),
        _ => Err(format!("{out} ends neither in .svg nor in .html; {USAGE}")),
    }
}

fn run(file: &str, out: &str, draw: Draw) -> Result<(), String> {
    let scenario = Scenario::read_file(file)?;
    if scenario.steps.is_empty() {
        return Err(format!("{file} has no event: there is nothing to draw"));
    }
    let ride = Ride::of(Engine::fresh(), &scenario, scenario.steps.iter());
    let name = Path::new(file).file_name().map_or(file.into(), |name| name.to_string_lossy());
    std::fs::write(out, draw(&format!("{name}, event by event"), &ride)).map_err(|error| format!("{out}: {error}"))
}

fn main() {
    let given: Vec<String> = std::env::args().skip(1).collect();
    let failed = |error: String, status: i32| {
        eprintln!("draw: {error}");
        std::process::exit(status);
    };
    match arguments(&given) {
        Err(error) => failed(error, 2),
        Ok((file, out, draw)) => run(file, out, draw).unwrap_or_else(|error| failed(error, 1)),
    }
}
