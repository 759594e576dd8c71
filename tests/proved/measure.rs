//! Time and stack of calls.

use crate::stack::Stack;
use std::hint::black_box;
use std::time::{Duration, Instant};

/// Engines that one reading of the clock covers.
const BATCH: usize = 8;
/// Spent on each figure.
const BUDGET: Duration = Duration::from_millis(100);

pub struct Timer {
    /// Nanoseconds of the clock and the loop, for each call.
    clock: f64,
}

fn median(mut times: Vec<f64>) -> f64 {
    times.sort_by(f64::total_cmp);
    times[times.len() / 2]
}

/// Nanoseconds of a call on a copy of `start`, with the clock: the median of many batches.
fn time_batches<E: Clone, R>(start: &E, call: &mut impl FnMut(&mut E) -> R) -> f64 {
    let mut engines = vec![start.clone(); BATCH];
    let mut times = Vec::new();
    let begin = Instant::now();
    while begin.elapsed() < BUDGET || times.len() < 10 {
        engines.iter_mut().for_each(|engine| engine.clone_from(start));
        let clock = Instant::now();
        for engine in &mut engines {
            black_box(call(black_box(engine)));
        }
        times.push(clock.elapsed().as_nanos() as f64 / BATCH as f64);
    }
    median(times)
}

impl Timer {
    pub fn new() -> Timer {
        Timer { clock: time_batches(&0u8, &mut |byte| *byte = black_box(1)) }
    }

    /// Nanoseconds of a call on a copy of `start`.
    pub fn time<E: Clone, R>(&self, start: &E, mut call: impl FnMut(&mut E) -> R) -> f64 {
        (time_batches(start, &mut call) - self.clock).max(0.0)
    }
}

/// Bytes of stack that `call` uses.
pub fn stack_of<R>(call: impl FnOnce() -> R) -> usize {
    let mut stack = Stack::new(1 << 20);
    stack.run(0xA5, || black_box(call()));
    stack.used()
}
