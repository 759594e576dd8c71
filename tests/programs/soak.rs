//! `soak STATE COUNT PROGRAM`: guided random lists against the model, through the C interface, until so many calls have
//! agreed. The packets that each call wrote are read by both readers, also cut, longer and changed; before all that, a
//! packet 68 with each of the 65,536 words, a packet 64 with each count, and the stored edges.
//! STATE holds what has agreed so far: lists, calls, packets read and refused; the next run goes on from there. PROGRAM
//! is a digest of this very program, with the library, the model and the lists in it: what another one did counts for
//! nothing.

use inputs::edges::all_edges;
use inputs::lists::new_list;
use model::calls::Call;
use model::engine::written;
use model::words::call_in_words;
use proved::pair::{Memory, Pair};
use proved::reading::{try_counts, try_packets, try_words, Readings};

/// The seed of list 0, far from those of `tests/run`.
const SEED: u64 = 1_000_000_000;
/// Calls between two lines.
const REPORT: u64 = 1_000_000;
/// One call in so many is also tried with memory too short and just enough.
const SHORT: usize = 8;

#[derive(Clone, Copy, Default)]
struct Done {
    lists: u64,
    calls: u64,
    readings: Readings,
}

/// The file that holds what this program has done.
struct State<'a> {
    file: &'a str,
    program: &'a str,
}

impl State<'_> {
    /// What was done before; nothing, and it says so, where another program did it.
    fn read(&self) -> Result<Done, String> {
        let text = match std::fs::read_to_string(self.file) {
            Ok(text) => text,
            Err(error) if error.kind() == std::io::ErrorKind::NotFound => return Ok(Done::default()),
            Err(error) => return Err(format!("{}: {error}", self.file)),
        };
        let (program, numbers) = text.split_once('\n').unwrap_or((&text, ""));
        if program != self.program {
            println!("{} is of another program (library, model or lists): beginning anew", self.file);
            return Ok(Done::default());
        }
        let numbers: Vec<u64> = numbers.split_whitespace().map_while(|word| word.parse().ok()).collect();
        let &[lists, calls, read, short, unknown, beyond] = &numbers[..] else {
            return Err(format!("{} is damaged; remove it to begin anew", self.file));
        };
        Ok(Done { lists, calls, readings: [read, short, unknown, beyond] })
    }

    /// Whole or not at all, wherever the run is stopped.
    fn write(&self, done: Done) -> Result<(), String> {
        let [read, short, unknown, beyond] = done.readings;
        let numbers = format!("{} {} {read} {short} {unknown} {beyond}", done.lists, done.calls);
        let new = format!("{}.new", self.file);
        let written = std::fs::write(&new, format!("{}\n{numbers}\n", self.program));
        written.and_then(|()| std::fs::rename(&new, self.file)).map_err(|error| format!("{}: {error}", self.file))
    }
}

/// The vectors take just their bytes, so that a memory checker sees their ends.
fn exact(mut call: Call) -> Call {
    [&mut call.event, &mut call.journey, &mut call.book].into_iter().for_each(|bytes| bytes.shrink_to_fit());
    call
}

/// `turn` chooses whether short memory is tried, and how the packets' bytes are changed.
fn try_call(pair: &mut Pair, call: &Call, memory: &mut Memory, turn: usize, done: &mut Done) -> Result<(), String> {
    let before = (turn % SHORT == 0).then(|| pair.clone());
    let answer = pair.call(call, memory)?;
    if !pair.proved.shows(&pair.model) {
        return Err("state, request, conditions, standings or rows differ".into());
    }
    done.calls += 1;
    let written = &memory.proved[..written(answer)];
    if let Some(before) = before {
        if answer.is_err() && !pair.is_as(&before) {
            return Err("a refusal changed the engine".into());
        }
        done.calls += before.call_short(call, answer, written)? as u64;
    }
    try_packets(written, 1 + (turn % 255) as u8, &mut done.readings)
}

/// The calls from fresh engines on; `first` is the turn of the first.
fn try_calls(calls: Vec<Call>, memory: &mut Memory, first: usize, done: &mut Done) -> Result<(), String> {
    let mut pair = Pair::fresh();
    for (k, call) in calls.into_iter().map(exact).enumerate() {
        try_call(&mut pair, &call, memory, first + k, done).map_err(|difference| {
            let call = call_in_words(&call).join("\n  ");
            format!("call {k}: {difference}\n  {call}")
        })?;
    }
    Ok(())
}

/// How many calls that took.
fn try_edges() -> Result<u64, String> {
    let mut done = Done::default();
    let tried = try_calls(all_edges(), &mut Memory::new(), 0, &mut done);
    tried.map(|()| done.calls).map_err(|difference| format!("edges, {difference}"))
}

/// What is done with one more list.
fn try_list(mut done: Done, memory: &mut Memory) -> Result<Done, String> {
    let (seed, first) = (SEED + done.lists, done.lists as usize);
    let tried = try_calls(new_list(seed), memory, first, &mut done);
    tried.map_err(|difference| format!("list of seed {seed}, {difference}"))?;
    done.lists += 1;
    Ok(done)
}

/// Lists until so many calls have agreed, those before counted in.
fn try_lists(state: &State, mut done: Done, count: u64) -> Result<Done, String> {
    let mut memory = Memory::new();
    let mut reported = done.calls;
    while done.calls < count {
        done = try_list(done, &mut memory)?;
        if done.calls >= reported + REPORT {
            reported = done.calls;
            state.write(done)?;
            println!("{} calls so far", done.calls);
        }
    }
    state.write(done)?;
    Ok(done)
}

fn run(state: &State, count: u64) -> Result<(), String> {
    let before = state.read()?;
    let [read, _, _, beyond] = try_words()?;
    println!("every word of packet 68: {read} read alike, {beyond} refused by 19");
    let [read, short, _, beyond] = try_counts()?;
    println!("every count of packet 64: {read} read alike, {short} refused by 17, {beyond} by 19");
    println!("the stored edges: {} calls agree", try_edges()?);
    let done = try_lists(state, before, count)?;
    let (lists, calls) = (done.lists - before.lists, done.calls - before.calls);
    if before.calls > 0 {
        println!("before: {} lists, {} calls, by earlier runs of this very program", before.lists, before.calls);
    }
    if calls == 0 {
        println!("now: none; the count was reached before");
        return Ok(());
    }
    println!("now: {lists} lists, {calls} calls: the proved engine and the model agree");
    let [read, short, unknown, beyond] = [0, 1, 2, 3].map(|k| done.readings[k] - before.readings[k]);
    println!(
        "now: {read} strings of bytes read as packets alike; {short} refused by 17, {unknown} by 18, {beyond} by 19"
    );
    Ok(())
}

fn main() {
    let arguments: Vec<String> = std::env::args().collect();
    let count = arguments.get(2).and_then(|count| count.parse().ok());
    let ([_, file, _, program], Some(count)) = (&arguments[..], count) else {
        eprintln!("usage: soak STATE COUNT PROGRAM");
        std::process::exit(2);
    };
    if let Err(error) = run(&State { file, program }, count) {
        println!("{error}");
        std::process::exit(1);
    }
}
