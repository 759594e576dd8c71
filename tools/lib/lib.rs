//! What the tools share: the scenario language, the player and its lines, a scenario told in words, where points stand,
//! what comes of traction requests and slippery rail, and what is recorded over many orders of events.

pub mod answers;
pub mod brought;
pub mod language;
mod line;
mod named;
pub mod outcomes;
pub mod output;
pub mod player;
pub mod points;
pub mod refusals;
pub mod story;
