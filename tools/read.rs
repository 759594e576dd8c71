//! `read [--hex] [--brief] FILE`: a recording in words.
//! `read [--hex] [--all] --against CALLS FILE`: a recording beside what the proved engine writes for the calls.

use model::calls::{read_calls, write_calls, Call};
use model::words::call_in_words;
use reading::against::{has_answers, Run};
use reading::differences::{self, Counts};
use reading::recording::{entries, Entry};
use reading::report::Report;
use reading::words::counted;
use std::io::{BufWriter, ErrorKind, Read, Write};
use std::process::ExitCode;
use tools::language::Scenario;

/// Differences are told up to this many, and of several packets that are missing or too many in a row, so many.
const DIFFERENCES: usize = 20;
const IN_A_ROW: usize = 5;

#[derive(Default)]
struct Arguments {
    hex: bool,
    brief: bool,
    all: bool,
    against: Option<String>,
    file: String,
}

/// An error is wrong use.
fn read_arguments(mut words: impl Iterator<Item = String>) -> Result<Arguments, String> {
    let mut arguments = Arguments::default();
    let mut files = Vec::new();
    while let Some(word) = words.next() {
        match word.as_str() {
            "--hex" => arguments.hex = true,
            "--brief" => arguments.brief = true,
            "--all" => arguments.all = true,
            "--against" => arguments.against = Some(words.next().ok_or("--against needs CALLS and FILE")?),
            option if option.starts_with('-') && option != "-" => return Err(format!("no option is named '{option}'")),
            _ => files.push(word),
        }
    }
    let [file] = &files[..] else { return Err(format!("one FILE is needed, {} given", files.len())) };
    if arguments.brief && arguments.against.is_some() {
        return Err("--brief and --against do not go together".into());
    }
    if arguments.all && arguments.against.is_none() {
        return Err("--all goes with --against alone".into());
    }
    if file == "-" && arguments.against.as_deref() == Some("-") {
        return Err("CALLS and FILE cannot both be standard input".into());
    }
    arguments.file = file.clone();
    Ok(arguments)
}

fn read_file(name: &str) -> Result<Vec<u8>, String> {
    let mut bytes = Vec::new();
    let read = if name == "-" {
        std::io::stdin().read_to_end(&mut bytes)
    } else {
        std::fs::File::open(name).and_then(|mut file| file.read_to_end(&mut bytes))
    };
    read.map_err(|error| format!("{name}: {error}"))?;
    Ok(bytes)
}

/// Each call with its event in words, and whether the input is cut short behind them.
fn read_played(name: &str) -> Result<(Vec<(String, Call)>, Option<String>), String> {
    if name.ends_with(".scn") {
        let steps = Scenario::read_file(name)?.steps.into_iter();
        return Ok((steps.map(|step| (format!("line {}: {}", step.line, step.text), step.call)).collect(), None));
    }
    let bytes = read_file(name)?;
    let calls = read_calls(&bytes);
    let left = bytes.len() - write_calls(&calls).len();
    if calls.is_empty() && left > 0 {
        return Err(format!("{name}: no call in it; a scenario is taken where the name ends in .scn"));
    }
    let left_over = counted(left, "byte", "bytes");
    let cut = (left > 0).then(|| format!("{name}: cut short: {left_over} at its end, no whole call, not played"));
    Ok((calls.into_iter().map(|call| (call_in_words(&call)[0].clone(), call)).collect(), cut))
}

/// Whether all is read.
fn tell(entries: &[Entry], brief: bool, out: &mut impl Write) -> std::io::Result<bool> {
    let mut report = Report::new(entries, brief);
    out.write_all(report.begin().as_bytes())?;
    for entry in entries {
        out.write_all(report.tell(entry).as_bytes())?;
    }
    out.write_all(report.end().as_bytes())?;
    Ok(report.sound())
}

/// Whether the recording is as it must be; `cut` where the calls are cut short, `all` where each difference is told.
fn compare(run: &Run, cut: bool, all: bool, entries: &[Entry], out: &mut impl Write) -> std::io::Result<bool> {
    let differences = run.differences(entries);
    let (most, in_a_row) = if all { (usize::MAX, usize::MAX) } else { (DIFFERENCES, IN_A_ROW) };
    for difference in differences.iter().take(most) {
        writeln!(out, "{}", differences::in_words(run, difference, in_a_row))?;
    }
    if differences.len() > most {
        writeln!(out, "and {} more; --all tells them\n", differences.len() - most)?;
    }
    let so_far = if cut { " so far" } else { "" };
    let answers = if has_answers(entries) { ", and each answer" } else { "" };
    if differences.is_empty() {
        writeln!(out, "as it must be{so_far}: {}{answers}", run.in_words())?;
    } else {
        writeln!(out, "differs: {}\nmust be: {}", Counts::of(&differences).in_words(), run.in_words())?;
    }
    Ok(differences.is_empty())
}

/// Whether all is well. An error is a file that cannot be read, or output that cannot be written.
fn run(arguments: &Arguments) -> Result<bool, String> {
    let mut out = BufWriter::new(std::io::stdout().lock());
    let played = arguments.against.as_deref().map(read_played).transpose()?;
    let file = read_file(&arguments.file)?;
    let entries = entries(&file, arguments.hex).map_err(|error| format!("{}: {error}", arguments.file))?;
    let sound = match &played {
        None => tell(&entries, arguments.brief, &mut out),
        Some((calls, cut)) => {
            let run = Run::play(calls.iter().map(|(event, call)| (event.clone(), call)));
            compare(&run, cut.is_some(), arguments.all, &entries, &mut out).and_then(|same| {
                cut.iter().try_for_each(|cut| writeln!(out, "{cut}"))?;
                Ok(same && cut.is_none())
            })
        }
    };
    match sound.and_then(|sound| out.flush().map(|()| sound)) {
        // nobody reads on
        Err(error) if error.kind() == ErrorKind::BrokenPipe => Ok(false),
        flushed => flushed.map_err(|error| format!("standard output: {error}")),
    }
}

fn main() -> ExitCode {
    let words = std::env::args_os().skip(1).map(|word| word.to_string_lossy().into_owned());
    let arguments = match read_arguments(words) {
        Ok(arguments) => arguments,
        Err(error) => {
            eprintln!("tools/read: {error}; tools/read --help says more");
            return ExitCode::from(2);
        }
    };
    match run(&arguments) {
        Ok(true) => ExitCode::SUCCESS,
        Ok(false) => ExitCode::FAILURE,
        Err(error) => {
            eprintln!("tools/read: {error}");
            ExitCode::FAILURE
        }
    }
}
