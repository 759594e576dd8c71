//! A run as a picture: what each event of a scenario gave, drawn event by event.

pub mod journey;
pub mod lanes;
pub mod look;
pub mod page;
pub mod plan;
pub mod ride;
pub mod scale;
pub mod sheet;
pub mod strips;
pub mod svg;
pub mod words;
