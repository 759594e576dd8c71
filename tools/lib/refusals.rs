//! The table of numbers in words, so far as an event gets them.

const ROWS: [&str; 16] = [
    "event empty, of unknown kind or wrong length",
    "field of the event out of range",
    "no power",
    "power is on already",
    "fault: only power off is left",
    "not in this state",
    "book: bad map, range or length",
    "book: a segment or, in one record, a timing point twice, or over 40 records",
    "journey: bad map, range or length",
    "journey: a segment twice",
    "journey: index beyond, a timing point twice, not just one End of Journey, or a booked segment without the point",
    "journey: index falls, or places do not rise",
    "offset beyond the segment's length",
    "no stop of that name",
    "point reached or passed, skip already given, or none to revoke",
    "output memory too short",
];

/// What its row says.
pub fn row(number: u8) -> &'static str {
    match number {
        1..=16 => ROWS[usize::from(number) - 1],
        20 => "a press at a held stop",
        21 => "a row of slippery rail starts behind its end",
        _ => "a number that no event gets",
    }
}
