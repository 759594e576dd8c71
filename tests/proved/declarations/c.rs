//! A header in C.

use super::{camel, Declared, Type};

pub fn read(mut declared: Declared, text: &str) -> Declared {
    let text = without_comments(text);
    let (directives, lines): (Vec<&str>, Vec<&str>) = text.lines().partition(|line| line.starts_with('#'));
    for line in directives {
        if let Some((name, value)) = line.strip_prefix("#define HOLLWERN_").and_then(|line| line.split_once(' ')) {
            declared.add_constant(name, value);
        }
    }
    let text = lines.join("\n");
    read_structs(&mut declared, &text);
    read_calls(&mut declared, &text);
    declared
}

fn without_comments(text: &str) -> String {
    let mut parts = text.split("/*");
    let first = parts.next().unwrap_or_default().to_string();
    parts.fold(first, |text, part| text + part.split_once("*/").map_or("", |(_, behind)| behind))
}

fn type_of(name: &str) -> Type {
    match name {
        "void" => "".into(),
        "bool" => "bool".into(),
        "size_t" => "usize".into(),
        _ => match name.strip_prefix("hollwern_") {
            Some(name) => camel(name),
            None => name.replace("uint", "u").trim_end_matches("_t").into(),
        },
    }
}

/// One field a line: `uint8_t standings[HOLLWERN_POINTS_MOST];`
fn read_structs(declared: &mut Declared, text: &str) {
    for part in text.split("typedef struct hollwern_").skip(1) {
        let Some((name, fields)) = part.split_once(" {\n") else { continue };
        let fields = fields.lines().take_while(|line| !line.starts_with('}'));
        for line in fields {
            let Some((typed, name_and_count)) = line.trim().trim_end_matches(';').split_once(' ') else { continue };
            let (field, count) = name_and_count.split_once('[').unwrap_or((name_and_count, ""));
            let count = declared.value(count.trim_end_matches(']'));
            declared.add_field(&camel(name), field, type_of(typed), count);
        }
    }
}

/// `size_t hollwern_front_size(const uint8_t *bytes, size_t n);`
fn read_calls(declared: &mut Declared, text: &str) {
    for statement in text.split(';') {
        let Some((before, arguments)) = statement.trim_end_matches(')').split_once('(') else { continue };
        let mut words = before.split_whitespace().rev();
        let (Some(name), Some(answer)) = (words.next(), words.next()) else { continue };
        if name.starts_with("hollwern_") {
            let arguments = arguments.split(',').map(argument_type);
            let types = arguments.filter(|typed| !typed.is_empty()).chain([type_of(answer)]);
            declared.calls.insert(name.into(), types.collect());
        }
    }
}

fn argument_type(argument: &str) -> Type {
    let argument = argument.trim();
    let plain = argument.trim_start_matches("const ");
    let typed = type_of(plain.split(' ').next().unwrap_or_default());
    match (argument.contains('*'), plain == argument) {
        (false, _) => typed,
        (true, true) => format!("*mut {typed}"),
        (true, false) => format!("*const {typed}"),
    }
}
