//! Where the points of a journey stand, in words.

use model::engine::Standing;

/// Where a point stands, numbered as the C interface shows it.
pub const TARGETED: u8 = Standing::Targeted as u8;
pub const REACHED: u8 = Standing::Reached as u8;
pub const PASSED: u8 = Standing::Passed as u8;

/// The points that an event passed or, by a load (nothing stands before it), put behind; and the one that is targeted
/// or reached. Standings go by the order of the names.
pub fn points_in_words(names: &[impl AsRef<str>], before: Option<&[u8]>, now: &[u8]) -> String {
    let points = || names.iter().map(AsRef::as_ref).zip(now.iter().copied()).enumerate();
    let was_passed = |k: usize| before.and_then(|before| before.get(k)) == Some(&PASSED);
    let passed = points().filter(|&(k, (_, standing))| standing == PASSED && !was_passed(k));
    let passed: Vec<&str> = passed.map(|(_, (name, _))| name).collect();
    let mut text = String::new();
    if !passed.is_empty() {
        text += &format!("; {}: {}", if before.is_some() { "passed" } else { "put behind" }, passed.join(", "));
    }
    let present = points().map(|(_, point)| point).find(|(_, standing)| *standing != PASSED);
    text + &match present {
        Some((name, REACHED)) => format!("; reached: {name}"),
        Some((name, _)) => format!("; targeted: {name}"),
        None => "; no point left".into(),
    }
}
