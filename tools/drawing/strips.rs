//! Runs drawn under each other, each with what it stands for.

use crate::journey::Journey;
use crate::lanes::{Events, Packets, States};
use crate::page::{ended, headed, EDGE, LEAST};
use crate::ride::Ride;
use crate::sheet::{Lane, Sheet};

const HEAD: f64 = 38.0;

pub struct Strip {
    pub heading: String,
    pub note: String,
    pub ride: Ride,
}

fn sheet(strip: &Strip) -> Sheet {
    let ride = &strip.ride;
    let lanes: Vec<Box<dyn Lane + '_>> =
        vec![Box::new(Events::of(ride)), Box::new(States), Box::new(Journey::low(ride)), Box::new(Packets::of(ride))];
    Sheet::of(ride, &lanes, false)
}

/// `notes` stand below the title.
pub fn picture(title: &str, notes: &[String], strips: &[Strip]) -> String {
    let sheets: Vec<Sheet> = strips.iter().map(sheet).collect();
    let width = sheets.iter().map(Sheet::width).fold(LEAST, f64::max);
    let mut svg = headed(title, notes, 44.0);
    let mut top = 60.0 + 14.0 * notes.len() as f64;
    for (strip, sheet) in strips.iter().zip(&sheets) {
        svg.line("strip", (EDGE, top), (EDGE + width, top));
        svg.text("journey", EDGE, top + 18.0, &strip.heading);
        svg.text("note", EDGE, top + 33.0, &strip.note);
        svg.shifted(EDGE, top + HEAD, &sheet.whole());
        top += HEAD + sheet.height + 16.0;
    }
    ended(svg, title, width, top)
}
