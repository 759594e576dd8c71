//! The proved engine beside the model: every call goes to both and must be answered alike.

use crate::engine::Proved;
use model::calls::{Call, MEMORY};
use model::checked::check_short_memory;
use model::engine::{Answer, Engine, Refused};

/// The proved engine stands in memory of its own, so that a memory checker sees its ends.
#[derive(Clone)]
pub struct Pair {
    pub proved: Box<Proved>,
    pub model: Engine,
}

/// The output memory of each. They begin alike, so bytes that a call must keep are alike after it.
pub struct Memory {
    pub proved: Box<[u8]>,
    model: Box<[u8]>,
}

impl Memory {
    pub fn new() -> Memory {
        let blank = || vec![0; MEMORY].into_boxed_slice();
        Memory { proved: blank(), model: blank() }
    }
}

impl Pair {
    pub fn fresh() -> Pair {
        Pair { proved: Box::new(Proved::fresh()), model: Engine::fresh() }
    }

    /// The answer of both. An error says what differs.
    pub fn call(&mut self, call: &Call, memory: &mut Memory) -> Result<Result<Answer, Refused>, String> {
        let expected = self.model.call(call, &mut memory.model);
        let found = self.proved.call(call, &mut memory.proved);
        if found != expected {
            return Err(format!("the model answers {expected:?}, the proved engine {found:?}"));
        }
        if memory.proved != memory.model {
            return Err("the output memory differs".into());
        }
        Ok(found)
    }

    /// Both hold the same bytes.
    pub fn is_as(&self, other: &Pair) -> bool {
        self.proved.bytes() == other.proved.bytes() && self.model == other.model
    }

    /// The same call of the proved engine with memory too short and just enough; how many calls that took.
    pub fn call_short(&self, call: &Call, answer: Result<Answer, Refused>, written: &[u8]) -> Result<usize, String> {
        let step = |proved: &mut Box<Proved>, out: &mut [u8]| proved.call(call, out);
        let unchanged = |proved: &Box<Proved>| proved.bytes() == self.proved.bytes();
        let short = check_short_memory(&self.proved, step, answer, written, unchanged);
        short.map_err(|error| format!("the proved engine: {error}"))
    }
}
