//! `bytes COUNT`: equal calls, equal bytes. The same calls on two engines, whose stacks and output memories are filled
//! differently before each call: the stored edges, then guided random lists, until so many calls are made. After each call
//! every byte of one engine is that of the other.

use inputs::edges::all_edges;
use inputs::lists::new_list;
use model::calls::{Call, MEMORY};
use model::engine::{written, Answer, Refused};
use model::words::call_in_words;
use proved::engine::Proved;
use proved::stack::Stack;
use std::collections::BTreeMap;

/// More than a call takes, so that all that it finds on its stack is the fill.
const STACK: usize = 128 * 1024;
/// One call in so many is first made with memory too short for any packet.
const SHORT: usize = 8;
const SHORT_MEMORY: usize = 18;
const TOO_SHORT: Result<Answer, Refused> = Err(Refused { number: 16, bytes: 0 });

/// An engine, with what it is lent for a call.
struct Lent {
    engine: Box<Proved>,
    stack: Stack,
    out: Box<[u8]>,
}

struct Two {
    engines: [Lent; 2],
    calls: usize,
    accepted: BTreeMap<u8, usize>,
    refused: BTreeMap<u8, usize>,
}

impl Lent {
    fn new() -> Lent {
        Lent { engine: Box::new(Proved::fresh()), stack: Stack::new(STACK), out: vec![0; MEMORY].into() }
    }

    fn make_fresh(&mut self, fill: u8) {
        let engine = &mut self.engine;
        self.stack.run(fill, || engine.make_fresh());
    }

    fn call(&mut self, call: &Call, memory: usize, fill: u8) -> Result<Answer, Refused> {
        self.out.fill(fill);
        let (engine, out) = (&mut self.engine, &mut self.out[..memory]);
        self.stack.run(fill, || engine.call(call, out))
    }
}

impl Two {
    /// Both fresh: one in memory that is all zero, the other where an engine was in use.
    fn make_fresh(&mut self) -> Result<(), String> {
        let [fill, other_fill] = self.fills();
        let [one, other] = &mut self.engines;
        *one.engine = Proved::fresh();
        one.make_fresh(fill);
        other.make_fresh(other_fill);
        self.compare()
    }

    /// They differ in every bit.
    fn fills(&self) -> [u8; 2] {
        [self.calls as u8, !self.calls as u8]
    }

    fn compare(&self) -> Result<(), String> {
        let [one, other] = self.engines.each_ref().map(|lent| lent.engine.bytes());
        let differs: Vec<usize> = (0..one.len()).filter(|&k| one[k] != other[k]).collect();
        let Some(&k) = differs.first() else { return Ok(()) };
        Err(format!("{} bytes differ, first that at offset {k}: {:02X}, {:02X}", differs.len(), one[k], other[k]))
    }

    fn call(&mut self, call: &Call, memory: usize) -> Result<Result<Answer, Refused>, String> {
        let [fill, other_fill] = self.fills();
        let [one, other] = &mut self.engines;
        let answer = one.call(call, memory, fill);
        if other.call(call, memory, other_fill) != answer {
            return Err("the answers differ".into());
        }
        let written = written(answer);
        if one.out[..written] != other.out[..written] {
            return Err("the packets differ".into());
        }
        self.calls += 1;
        match answer {
            Ok(_) => *self.accepted.entry(call.event[0]).or_default() += 1,
            Err(refused) => *self.refused.entry(refused.number).or_default() += 1,
        }
        self.compare().map(|()| answer)
    }

    fn try_call(&mut self, call: &Call) -> Result<(), String> {
        if self.calls % SHORT == 0 && self.call(call, SHORT_MEMORY)? != TOO_SHORT {
            return Ok(());
        }
        self.call(call, MEMORY).map(|_| ())
    }

    fn try_list(&mut self, list: &[Call]) -> Result<(), String> {
        self.make_fresh().map_err(|difference| format!("fresh: {difference}"))?;
        for (k, call) in list.iter().enumerate() {
            let in_words = |difference| format!("call {k}: {difference}\n  {}", call_in_words(call).join("\n  "));
            self.try_call(call).map_err(in_words)?;
        }
        Ok(())
    }

    /// So many calls, by the list's name where they differ.
    fn try_lists(&mut self, count: usize) -> Result<(), String> {
        self.try_list(&all_edges()).map_err(|difference| format!("edges, {difference}"))?;
        let mut seed = 0;
        while self.calls < count {
            self.try_list(&new_list(seed)).map_err(|difference| format!("list of seed {seed}, {difference}"))?;
            seed += 1;
        }
        Ok(())
    }
}

fn main() {
    let Some(count) = std::env::args().nth(1).and_then(|text| text.parse().ok()) else {
        eprintln!("usage: bytes COUNT");
        std::process::exit(2);
    };
    let engines = [Lent::new(), Lent::new()];
    let mut two = Two { engines, calls: 0, accepted: BTreeMap::new(), refused: BTreeMap::new() };
    if let Err(difference) = two.try_lists(count) {
        println!("{difference}");
        std::process::exit(1);
    }
    println!("{} calls: after each, every byte of two engines is equal", two.calls);
    let counts = |of: &BTreeMap<u8, usize>| of.iter().map(|(k, n)| format!("{k}: {n}")).collect::<Vec<_>>().join("  ");
    println!("accepted by kind:   {}\nrefused by number:  {}", counts(&two.accepted), counts(&two.refused));
}
