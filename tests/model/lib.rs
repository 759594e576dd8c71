//! The independent model: document 01 with of document 02 once more, in plain Rust. It gives the expected
//! lines of the tests and is the baseline for speed. Nothing here looks at the proved core.

pub mod adhesion;
pub mod calls;
pub mod checked;
pub mod engine;
pub mod events;
mod numbers;
pub mod packets;
pub mod reasons;
pub mod route;
mod rules;
mod told;
pub mod values;
pub mod words;
