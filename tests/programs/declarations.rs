//! `declarations`: hollwern.h, hollwern.rs and hollwern.ads declare the same constants, structs and calls, and those of
//! the proved code; an engine takes the bytes that they say, none of them padding. Every difference is named, and it
//! fails.

use inputs::sizes::largest;
use proved::declarations::layout::Layout;
use proved::declarations::Declared;
use std::collections::{BTreeMap, BTreeSet};
use std::fmt::Debug;

/// Constants of the header by the beginning of their names, the crate that has them, and how they begin there.
const CONSTANTS: [(&str, &str, &str); 18] = [
    ("VERSION_", "host", ""),
    ("KIND_", "event", ""),
    ("STATUS_", "packets", ""),
    ("JP_", "packets", ""),
    ("PACKET_", "packets", ""),
    ("REFUSED_", "wire", ""),
    ("STATE_", "state_codes", ""),
    ("STANDING_", "position", ""),
    ("OFFSET_", "engine_value", ""),
    ("NO_OPERATIONAL", "engine_value", "NO_OPERATIONAL"),
    ("NO_ATOTS", "journey", "NO_ATOTS"),
    ("UNKNOWN_NIDC", "packets", "UNKNOWN_NIDC"),
    ("POINTS_MOST", "engine_value", "MAX_POINTS"),
    ("SEGMENTS_MOST", "engine_value", "MAX_SEGMENTS"),
    ("RECORDS_MOST", "engine_value", "MAX_SEGMENTS"),
    ("RECORD_POINTS_MOST", "segment_record", "MAX_RECORD_POINTS"),
    ("ZONES_MOST", "engine_value", "MAX_ZONES"),
    ("CONSTRAINTS_MOST", "adhesion", "MAX_CONSTRAINTS"),
];
/// Structs of the header and the crate that has them.
const STRUCTS: [(&str, &str); 5] = [
    ("Answer", "host"),
    ("Shown", "call"),
    ("Header", "packets"),
    ("PacketFields", "packet_fields"),
    ("Constraint", "adhesion"),
];
/// A struct of the proved code that the header has by another name.
const RENAMED: (&str, &str) = ("TemporaryConstraint", "Constraint");
/// Constants of the header that the proved code has as definitions: the file, how the line begins, and what stands before
/// the number at its end.
const STATED: [(&str, &str, &str, &str); 2] = [
    // how much an event writes at most
    ("BYTES_MOST", "crates/call/proofs/Sizes.antt", "pub bytes_most :", " ≤ "),
    ("ALL_CONDITIONS", "crates/conditions/specs/Conditions.antt", "all_conditions =", " = "),
];

type Named<T> = BTreeMap<String, T>;

/// What differs from the header.
#[derive(Default)]
struct Differences(Vec<String>);

impl Differences {
    fn compare<T: PartialEq + Debug>(&mut self, path: &str, name: &str, header: Option<T>, found: Option<T>) {
        if header != found {
            let told = |declared: Option<T>| declared.map_or("nothing".into(), |declared| format!("{declared:?}"));
            self.0.push(format!("{name}: {} in hollwern.h, {} in {path}", told(header), told(found)));
        }
    }

    fn compare_all<T: PartialEq + Debug>(&mut self, path: &str, header: &Named<T>, found: &Named<T>) {
        let names: BTreeSet<&String> = header.keys().chain(found.keys()).collect();
        names.into_iter().for_each(|name| self.compare(path, name, header.get(name), found.get(name)));
    }

    fn compare_declarations(&mut self, path: &str, header: &Declared) {
        let found = Declared::read(path);
        self.compare_all(path, &header.constants, &found.constants);
        self.compare_all(path, &header.structs, &found.structs);
        let mut calls = header.calls.clone();
        if path.ends_with(".ads") {
            // an address is not told from another there
            let types = calls.values_mut().flatten().filter(|typed| typed.ends_with(" u8"));
            types.for_each(|typed| *typed = "*".into());
        }
        self.compare_all(path, &calls, &found.calls);
    }

    fn compare_with_proved(&mut self, header: &Declared) {
        for (beginning, name, there) in CONSTANTS {
            let (path, proved) = read_crate(name);
            for (name, value) in header.constants.iter().filter(|(name, _)| name.starts_with(beginning)) {
                let found = proved.constants.get(&name.replacen(beginning, there, 1));
                self.compare(&path, name, Some(value), found);
            }
        }
        for (name, owner) in STRUCTS {
            let (path, proved) = read_crate(owner);
            self.compare(&path, name, header.structs.get(name), proved.structs.get(name));
        }
        let (path, host) = read_crate("host");
        self.compare_all(&path, &header.calls, &host.calls);
    }

    fn check_engine(&mut self, header: &Declared) {
        let (path, proved) = read_crate("engine_value");
        let (engine, lent) = (proved.layout("Engine"), header.layout("Engine"));
        let size_and_alignment = |layout: &Layout| (layout.size, layout.alignment);
        let [of_engine, of_lent] = [&engine, &lent].map(|layout| layout.as_ref().map(size_and_alignment));
        self.compare(&path, "an engine's size and alignment", of_lent, of_engine);
        self.compare(&path, "padding in an engine", Some(0), engine.map(|layout| layout.padding));
    }

    fn check_stated(&mut self, header: &Declared) {
        for (name, path, beginning, before) in STATED {
            let text = std::fs::read_to_string(path).unwrap_or_else(|error| panic!("{path}: {error}"));
            let stated = text.lines().find(|line| line.starts_with(beginning));
            let proved = stated.and_then(|line| line.rsplit_once(before)?.1.parse().ok());
            self.compare(path, name, header.constants.get(name).copied(), proved);
        }
    }

    fn check_profiles_most(&mut self, header: &Declared) {
        let call = largest().load();
        for (name, bytes) in [("JOURNEY_BYTES_MOST", call.journey), ("BOOK_BYTES_MOST", call.book)] {
            self.compare("the largest load", name, header.constants.get(name).copied(), Some(bytes.len() as _));
        }
    }
}

/// The crate's file and what it declares; it may count by the constants of `adhesion` and `engine_value` and have
/// their structs.
fn read_crate(name: &str) -> (String, Declared) {
    let path = |name: &str| format!("crates/{name}/src/lib.rt");
    let others = ["adhesion", "engine_value"].into_iter().filter(|&other| other != name);
    let declared = others.chain([name]).fold(Declared::default(), |declared, name| declared.and_read(&path(name)));
    let (from, to) = RENAMED;
    (path(name), declared.renamed(from, to))
}

fn main() {
    let header = Declared::read("host/hollwern.h");
    let mut differences = Differences::default();
    differences.compare_declarations("host/hollwern.rs", &header);
    differences.compare_declarations("host/hollwern.ads", &header);
    differences.compare_with_proved(&header);
    differences.check_engine(&header);
    differences.check_stated(&header);
    differences.check_profiles_most(&header);
    if differences.0.is_empty() {
        let Declared { constants, structs, calls } = header;
        let counts = format!("{} constants, {} structs, {} calls", constants.len(), structs.len(), calls.len());
        println!("declarations: {counts} alike in hollwern.h, hollwern.rs, hollwern.ads and the proved code");
        return;
    }
    differences.0.iter().for_each(|difference| println!("{difference}"));
    std::process::exit(1);
}
