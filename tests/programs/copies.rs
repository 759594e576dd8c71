//! `copies ARCHIVE`: the bytes that each kind of event copies through the C interface, by count: those that the code of
//! libhost.a hands to memcpy, memmove and memset. And its stack, as a painted stack shows it and as the frames of the
//! functions in ARCHIVE add up, over all calls that it exports; hollwern.h, hollwern.rs and hollwern.ads must have the
//! figures that these give, which are the bounds. Wrong figures and lines above their bounds are named, and it fails.

use counted::declarations::Declared;
use counted::engine::Proved;
use counted::frames::{Chain, Frames};
use counted::hollwern::ENGINE_SIZE;
use counted::measure::stack_of;
use counted::pair::{Memory, Pair};
use counted::stack::Stack;
use inputs::lists::new_ended_list;
use inputs::rows::{rows, Row};
use model::calls::{Call, MEMORY};
use std::sync::atomic::{AtomicUsize, Ordering::Relaxed};

const DECLARATIONS: [&str; 3] = ["host/hollwern.h", "host/hollwern.rs", "host/hollwern.ads"];
/// The figures are rounded up to a multiple of this.
const STACK_UNIT: usize = 1024;
/// More than this program's own frames and memcpy take of a painted stack.
const CALLER: usize = 512;
/// The functions that a load alone calls, by the beginning of their names. The compiler makes most of them part of
/// their callers, so that the archive may have but one; any that it has must not count for other events.
const OF_LOAD: [&str; 7] = ["engine::load", "effects::load", "segment_record::", "book::", "journey::", "journey_rows::", "route::"];

static COPIED: AtomicUsize = AtomicUsize::new(0);

/// `tests/build` makes the code call these instead of memcpy, memmove and memset.
#[unsafe(no_mangle)]
unsafe extern "C" fn counted_memcpy(to: *mut u8, from: *const u8, n: usize) -> *mut u8 {
    unsafe { counted_memmove(to, from, n) }
}

#[unsafe(no_mangle)]
unsafe extern "C" fn counted_memmove(to: *mut u8, from: *const u8, n: usize) -> *mut u8 {
    COPIED.fetch_add(n, Relaxed);
    unsafe { std::ptr::copy(from, to, n) };
    to
}

#[unsafe(no_mangle)]
unsafe extern "C" fn counted_memset(to: *mut u8, byte: i32, n: usize) -> *mut u8 {
    COPIED.fetch_add(n, Relaxed);
    unsafe { std::ptr::write_bytes(to, byte as u8, n) };
    to
}

/// After the calls that lead to the row, on which proved engine and model agree, as on the row's own.
fn lead_to(row: &Row) -> Proved {
    let (mut pair, mut memory) = (Pair::fresh(), Memory::new());
    let mut agreed = |pair: &mut Pair, call: &Call| match pair.call(call, &mut memory) {
        Ok(answer) => answer,
        Err(difference) => panic!("{}: {difference}", row.name),
    };
    row.before.iter().for_each(|call| assert!(agreed(&mut pair, call).is_ok()));
    let _ = agreed(&mut pair.clone(), &row.call);
    *pair.proved
}

/// Bytes copied by the row's call, and its stack.
fn cost(row: &Row) -> (usize, usize) {
    let engine = lead_to(row);
    let mut out = [0; MEMORY];
    let (mut counted, mut painted) = (engine.clone(), engine);
    let before = COPIED.load(Relaxed);
    let _ = counted.call(&row.call, &mut out);
    let copied = COPIED.load(Relaxed) - before;
    (copied, stack_of(|| painted.call(&row.call, &mut out)))
}

/// The deepest stack of a load and of any other event, in random lists.
fn deepest_in_lists() -> [usize; 2] {
    let mut proved = Proved::fresh();
    let mut stack = Stack::new(1 << 17);
    let mut out = [0; MEMORY];
    let mut deepest = [0; 2];
    for call in (0..200).flat_map(new_ended_list) {
        let _ = stack.run(0xA5, || proved.call(&call, &mut out));
        let deepest = &mut deepest[usize::from(!call.lends_profiles())];
        *deepest = stack.used().max(*deepest);
    }
    deepest
}

/// Bytes of stack of a load and of any other call.
struct Stacks {
    load: usize,
    other: usize,
}

impl Stacks {
    /// As a file declares them; 0 for one that it does not declare.
    fn declared(path: &str) -> Stacks {
        let constants = Declared::read(path).constants;
        let size = |name: &str| constants.get(name).map_or(0, |&size| size as usize);
        Stacks { load: size("STACK_LOAD"), other: size("STACK_OTHER") }
    }
}

/// The deepest chain of all calls, and of all but a load.
struct Deepest {
    load: Chain,
    other: Chain,
}

impl Deepest {
    fn of(frames: &Frames) -> Deepest {
        let calls: Vec<&str> = frames.names().filter(|name| name.starts_with("hollwern_")).collect();
        let declared = Declared::read(DECLARATIONS[0]).calls;
        assert!(calls.iter().copied().eq(declared.keys()), "the header declares other calls than {calls:?}");
        let of_load = |name: &&str| OF_LOAD.iter().any(|start| name.starts_with(start));
        let left_out: Vec<&str> = frames.names().filter(of_load).collect();
        assert!(!left_out.is_empty(), "the archive has no function that a load alone calls");
        println!("exported: {}; a load's own functions: {}", calls.join(", "), left_out.join(", "));
        let deepest = |left_out: &[&str]| {
            let chains = calls.iter().map(|call| frames.deepest(call, left_out));
            chains.max_by_key(|chain| chain.bytes).expect("no call is exported")
        };
        Deepest { load: deepest(&[]), other: deepest(&left_out) }
    }

    /// What the declarations must say.
    fn stacks(&self) -> Stacks {
        let [load, other] = [&self.load, &self.other].map(|chain| chain.bytes.next_multiple_of(STACK_UNIT));
        Stacks { load, other }
    }
}

/// What is above a bound, or declared wrong.
#[derive(Default)]
struct Wrong(Vec<String>);

impl Wrong {
    fn print(&mut self, name: &str, copied: &str, stack: usize, most: usize, above: bool) {
        println!("{name:36} {copied:22} {stack:>8} {most:>6} {}", if above { "over" } else { "" });
        if above {
            self.0.push(name.into());
        }
    }

    /// A painted stack has the share of this program as well.
    fn print_painted(&mut self, name: &str, copied: &str, stack: usize, most: usize, above: bool) {
        self.print(name, copied, stack, most, above || stack > most + CALLER);
    }

    fn print_row(&mut self, row: &Row, stacks: &Stacks) {
        let (copied, stack) = cost(row);
        let engines = copied as f64 / ENGINE_SIZE as f64;
        let most = row.most.map_or("-".into(), |most| most.to_string());
        let stack_most = if row.call.lends_profiles() { stacks.load } else { stacks.other };
        let above = row.most.is_some_and(|most| copied > most * ENGINE_SIZE);
        self.print_painted(row.name, &format!("{copied:>7} {engines:>8.2} {most:>5}"), stack, stack_most, above);
    }

    /// A painted stack deeper than the frames and the share of the caller: they were not all read.
    fn print_frames(&mut self, name: &str, chain: &Chain, painted: usize, most: usize) {
        self.print(name, "", chain.bytes, most, painted > chain.bytes + CALLER);
        println!("    {}", chain.functions.join(", "));
    }

    fn check_declared(&mut self, path: &str, stacks: &Stacks) {
        let Stacks { load, other } = Stacks::declared(path);
        if (load, other) != (stacks.load, stacks.other) {
            let by_frames = format!("the frames make {} and {}", stacks.load, stacks.other);
            self.0.push(format!("stack in {path}: {load} and {other}, {by_frames}"));
        }
    }

    fn end_if_any(&self) {
        if !self.0.is_empty() {
            println!("{} over or wrong: {}", self.0.len(), self.0.join("; "));
            std::process::exit(1);
        }
    }
}

fn main() {
    let archive = std::env::args().nth(1).expect("copies ARCHIVE");
    let deepest = Deepest::of(&Frames::of(&archive));
    let stacks = deepest.stacks();

    let mut wrong = Wrong::default();
    DECLARATIONS.iter().for_each(|path| wrong.check_declared(path, &stacks));
    wrong.end_if_any();
    println!("engine: {ENGINE_SIZE} bytes\n{:36}  copied  engines  most    stack   most", "");
    rows().iter().for_each(|row| wrong.print_row(row, &stacks));
    assert!(COPIED.load(Relaxed) > 0, "nothing was counted");
    let [load, other] = deepest_in_lists();
    wrong.print_painted("200 random lists, loads", "", load, stacks.load, false);
    wrong.print_painted("200 random lists, other events", "", other, stacks.other, false);
    wrong.print_frames("frames, any call", &deepest.load, load, stacks.load);
    wrong.print_frames("frames, any call but a load", &deepest.other, other, stacks.other);
    wrong.end_if_any();
}
