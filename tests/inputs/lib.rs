//! What the engine is called with: fixed lists of calls and guided random ones, and a count of what they bring up.

mod adhesion;
mod adhesion_trials;
mod constraints;
pub mod coverage;
mod creeps;
pub mod edges;
mod faults;
mod held;
mod journeys;
pub mod lists;
pub mod packet_trials;
pub mod profiles;
mod random;
pub mod rows;
mod script;
pub mod sizes;
mod trackside;
pub mod trials;
mod turned_down;
