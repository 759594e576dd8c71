//! Recordings: read packet by packet through the proved reader and told in words, and compared with what the proved
//! engine writes for a list of calls.

pub mod against;
mod alignment;
mod anchors;
pub mod differences;
pub mod layout;
pub mod recording;
pub mod report;
pub mod words;
