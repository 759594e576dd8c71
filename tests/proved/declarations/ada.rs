//! A package specification in Ada.

use super::{camel, Declared, Type};
use std::collections::BTreeMap;

pub fn read(mut declared: Declared, text: &str) -> Declared {
    let lines: Vec<&str> = text.lines().map(|line| line.split("--").next().unwrap_or_default().trim()).collect();
    for line in &lines {
        if let Some((name, value)) = line.trim_end_matches(';').split_once(" : constant := ") {
            declared.add_constant(name, value);
        }
    }
    let text = lines.join("\n");
    read_structs(&mut declared, &text);
    read_calls(&mut declared, &text);
    declared
}

fn type_of(name: &str) -> Type {
    match name.trim().trim_start_matches("Hollwern.") {
        "Address" => "*".into(),
        "C_bool" => "bool".into(),
        "size_t" => "usize".into(),
        name => match name.strip_prefix("Unsigned_") {
            Some(bits) => format!("u{bits}"),
            None => camel(name),
        },
    }
}

/// The arrays, `type Standing_Array is array (0 .. Points_Most - 1) of Unsigned_8;`, by their names.
fn arrays(declared: &Declared, text: &str) -> BTreeMap<String, (Type, Option<u64>)> {
    let arrays = text.lines().filter_map(|line| {
        let (name, array) = line.strip_prefix("type ")?.split_once(" is array (0 .. ")?;
        let (count, typed) = array.trim_end_matches(';').split_once(" - 1) of ")?;
        Some((name.into(), (type_of(typed), declared.value(count))))
    });
    arrays.collect()
}

/// One field a line: `Standings : Standing_Array;`. Words of Ada have `The_` before them.
fn read_structs(declared: &mut Declared, text: &str) {
    let arrays = arrays(declared, text);
    for part in text.split("end record").filter_map(|part| part.rsplit_once("type ")) {
        let Some((name, fields)) = part.1.split_once(" is record\n") else { continue };
        for line in fields.lines() {
            let Some((field, rest)) = line.trim_end_matches(';').split_once(" : ") else { continue };
            let typed = rest.split(" := ").next().unwrap_or_default();
            let (typed, count) = arrays.get(typed).cloned().unwrap_or((type_of(typed), None));
            declared.add_field(&camel(name), field.strip_prefix("The_").unwrap_or(field), typed, count);
        }
    }
}

/// From `function` or `procedure` to `External_Name => "hollwern_front_size"`.
fn read_calls(declared: &mut Declared, text: &str) {
    let parts: Vec<&str> = text.split("External_Name => \"").collect();
    for (before, behind) in parts.iter().zip(&parts[1..]) {
        let start = before.rfind("function ").max(before.rfind("procedure ")).unwrap_or(before.len());
        let head = before[start..].split("with Import").next().unwrap_or_default();
        let arguments = head.split_once('(').map_or("", |(_, rest)| rest.split(')').next().unwrap_or_default());
        let arguments = arguments.split(';').filter_map(|argument| argument.split_once(" : "));
        let answer = head.split_once("return ").map_or("".into(), |(_, answer)| type_of(answer));
        let types = arguments.map(|(_, typed)| argument_type(typed)).chain([answer]).collect();
        declared.calls.insert(behind.split('"').next().unwrap_or_default().into(), types);
    }
}

/// A record is handed over by its address.
fn argument_type(typed: &str) -> Type {
    match (typed.strip_prefix("in out "), type_of(typed)) {
        (Some(typed), _) => format!("*mut {}", type_of(typed)),
        (None, typed) if typed.starts_with(char::is_uppercase) => format!("*const {typed}"),
        (None, typed) => typed,
    }
}
