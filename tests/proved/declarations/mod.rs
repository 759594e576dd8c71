//! What hosts' declarations and the proved code declare, read from their texts: constants, structs, calls. Names are
//! brought to one form, that of Rust without the prefix; a line that is in none of the expected forms declares nothing,
//! so that it is missed.

mod ada;
mod c;
pub mod layout;
mod rust;

use std::collections::BTreeMap;

#[derive(Default)]
pub struct Declared {
    pub constants: BTreeMap<String, u64>,
    /// The fields of each struct, in order.
    pub structs: BTreeMap<String, Vec<Field>>,
    /// The types of each call's arguments and, last, of its answer.
    pub calls: BTreeMap<String, Vec<Type>>,
}

#[derive(Clone, PartialEq, Eq, Debug)]
pub struct Field {
    pub name: String,
    pub typed: Type,
    /// How many, where it is an array.
    pub count: Option<u64>,
}

/// A type by its name in Rust, as `u8`; `*const u8`, `*mut Engine`; `*` where the declaration has no more; empty for no
/// answer.
pub type Type = String;

impl Declared {
    /// By the file's ending: .h, .ads, .rs; .rt, the proved code, is read as Rust.
    pub fn read(path: &str) -> Declared {
        Declared::default().and_read(path)
    }

    /// With what is declared elsewhere.
    pub fn and_read(self, path: &str) -> Declared {
        let text = std::fs::read_to_string(path).unwrap_or_else(|error| panic!("{path}: {error}"));
        match path.rsplit_once('.') {
            Some((_, "h")) => c::read(self, &text),
            Some((_, "ads")) => ada::read(self, &text),
            _ => rust::read(self, &text),
        }
    }

    /// With a struct by another name.
    pub fn renamed(mut self, from: &str, to: &str) -> Declared {
        if let Some(fields) = self.structs.remove(from) {
            self.structs.insert(to.into(), fields);
        }
        let fields = self.structs.values_mut().flatten().map(|field| &mut field.typed);
        let types = fields.chain(self.calls.values_mut().flatten());
        types.filter(|typed| *typed == from).for_each(|typed| *typed = to.into());
        self
    }

    /// A constant joins those before it, which its value may name; one whose value cannot be told does not.
    fn add_constant(&mut self, name: &str, value: &str) {
        if let Some(value) = self.value(value) {
            self.constants.insert(name.to_uppercase(), value);
        }
    }

    /// The value of a sum of products and quotients of numbers and constants.
    fn value(&self, text: &str) -> Option<u64> {
        let text = text.trim().trim_start_matches('(').trim_end_matches(')');
        let mut terms = text.split(" + ").map(|term| {
            if let Some((left, right)) = term.split_once(" / ") {
                return Some(self.value(left)? / self.value(right)?);
            }
            term.split(" * ").map(|factor| self.factor(factor.trim())).product()
        });
        terms.try_fold(0, |sum, term| Some(sum + term?))
    }

    fn factor(&self, text: &str) -> Option<u64> {
        let name = text.to_uppercase();
        let named = self.constants.get(name.trim_start_matches("HOLLWERN_"));
        named.copied().or_else(|| text.replace('_', "").trim_end_matches('u').parse().ok())
    }

    fn add_field(&mut self, owner: &str, name: &str, typed: Type, count: Option<u64>) {
        let field = Field { name: name.to_lowercase(), typed, count };
        self.structs.entry(owner.into()).or_default().push(field);
    }
}

/// `packet_fields` and `Packet_Fields` as `PacketFields`.
fn camel(name: &str) -> String {
    let words = name.split('_').filter(|word| !word.is_empty());
    words.map(|word| word[..1].to_uppercase() + &word[1..].to_lowercase()).collect()
}
