//! What comes of an accepted event that moves neither state nor points, in words: of a traction request, and of slippery
//! rail.

use model::engine::{Engine, Now, DE, EG};
use model::events::{ADHESION, TRACTION};

/// Of an accepted event, by the engine before and after it; nothing of another kind.
pub fn brought_in_words(event: &[u8], before: &Engine, after: &Engine) -> String {
    match event.first() {
        Some(&TRACTION) => request_in_words(&before.now, &after.now),
        Some(&ADHESION) => rows_in_words(before.constraints.len(), after.constraints.len()),
        _ => String::new(),
    }
}

/// The range of the request and the one before it.
fn request_in_words(before: &Now, now: &Now) -> String {
    if !matches!(before.state, EG | DE) {
        return "; a request counts in EG and DE alone".into();
    }
    let (Some(is), was) = (now.traction, before.traction) else { return String::new() };
    let mut words = match was {
        None => format!("; the first request since EG was entered, range {}", is.range),
        Some(was) if was.range == is.range => format!("; the request stays in range {}", is.range),
        Some(was) => format!("; the request goes from range {} to {}", was.range, is.range),
    };
    if was.is_some_and(|was| was.suptb != is.suptb) {
        words += ", Q_ATO_SupTB changes";
    }
    words
}

/// How many rows the unit shows, and how many it showed before.
fn rows_in_words(before: usize, now: usize) -> String {
    let counted = |rows: usize| match rows {
        0 => "none".into(),
        1 => "1 row".into(),
        _ => format!("{rows} rows"),
    };
    format!("; slippery rail: {} in place of {}", counted(now), counted(before))
}
