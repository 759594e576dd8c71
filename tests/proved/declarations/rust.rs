//! Declarations in Rust, and the proved code.

use super::{Declared, Type};

pub fn read(mut declared: Declared, text: &str) -> Declared {
    let lines: Vec<&str> = text.lines().map(|line| line.split("//").next().unwrap_or_default()).collect();
    for line in &lines {
        let constant = line.trim_start_matches("pub ").strip_prefix("const ").and_then(|line| line.split_once(": "));
        if let Some((name, (_, value))) = constant.and_then(|(name, rest)| Some((name, rest.split_once(" = ")?))) {
            declared.add_constant(name, value.trim_end_matches(';'));
        }
        if let Some((name, value)) = line.trim().strip_suffix(',').and_then(|line| line.split_once(" = ")) {
            declared.add_constant(&snake(name), value);
        }
    }
    let text = lines.join("\n");
    read_structs(&mut declared, &text);
    read_calls(&mut declared, &text);
    declared
}

/// The name of a constant for a variant with its number, `TimingPoint = 62,`: `Timing_Point`, and `NP` as it is.
fn snake(name: &str) -> String {
    let letters: Vec<char> = name.chars().collect();
    let words = letters.iter().enumerate().map(|(i, letter)| match i.checked_sub(1) {
        Some(before) if letter.is_uppercase() && letters[before].is_lowercase() => format!("_{letter}"),
        _ => letter.to_string(),
    });
    words.collect()
}

/// One field a line: `pub standings: [u8; POINTS_MOST],`
fn read_structs(declared: &mut Declared, text: &str) {
    for part in text.split("pub struct ").skip(1) {
        let Some((name, fields)) = part.split_once(" {\n") else { continue };
        for line in fields.lines().take_while(|line| !line.starts_with('}')) {
            let line = line.trim().trim_start_matches("pub ").trim_end_matches(',');
            let Some((field, typed)) = line.split_once(": ") else { continue };
            let array = typed.trim_start_matches('[').trim_end_matches(']').split_once("; ");
            let (typed, count) = array.map_or((typed, None), |(typed, count)| (typed, declared.value(count)));
            declared.add_field(name, field, typed.into(), count);
        }
    }
}

/// `fn hollwern_front_size(bytes: *const u8, n: usize) -> usize;`
fn read_calls(declared: &mut Declared, text: &str) {
    for part in text.split("fn hollwern_").skip(1) {
        let (name, rest) = part.split_once('(').unwrap_or_default();
        let (arguments, rest) = rest.split_once(')').unwrap_or_default();
        let arguments = arguments.split(',').filter_map(|argument| argument.split_once(": "));
        let answer = rest.trim_start().strip_prefix("-> ").and_then(|rest| rest.split(['\n', ';']).next());
        let types = arguments.flat_map(|(_, typed)| types(typed)).chain([answer.unwrap_or_default().into()]);
        declared.calls.insert(format!("hollwern_{name}"), types.collect());
    }
}

/// A slice is handed over as a pointer and a count.
fn types(typed: &str) -> Vec<Type> {
    match typed {
        "&[u8]" => vec!["*const u8".into(), "usize".into()],
        "&mut [u8]" => vec!["*mut u8".into(), "usize".into()],
        _ => match (typed.strip_prefix("&mut "), typed.strip_prefix('&')) {
            (Some(typed), _) => vec![format!("*mut {typed}")],
            (None, Some(typed)) => vec![format!("*const {typed}")],
            (None, None) => vec![typed.into()],
        },
    }
}
