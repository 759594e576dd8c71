//! Stack by the frames of an archive's functions, as objdump lists them (x86-64). What it cannot read ends the program:
//! a frame whose size is not a number there, a call by an address, a call of what is not in the archive.

use std::collections::{BTreeMap, BTreeSet};
use std::process::Command;

/// Called, but not in the archive: taken as functions that need no frame.
const OUTSIDE: [&str; 3] = ["memcpy", "memmove", "memset"];
/// What a function that calls none may use below its frame.
const RED_ZONE: usize = 128;

#[derive(Default)]
struct Function {
    pushed: usize,
    /// Taken by `sub`, in one step or in several.
    taken: usize,
    /// Given back by one `add`, which undoes them all.
    given: usize,
    calls: BTreeSet<String>,
}

pub struct Frames {
    functions: BTreeMap<String, Function>,
}

/// The deepest chain of calls.
pub struct Chain {
    pub bytes: usize,
    pub functions: Vec<String>,
}

impl Function {
    /// The frame and the address to return to.
    fn bytes(&self) -> usize {
        8 + self.pushed + self.taken.max(self.given)
    }

    fn read_instruction(&mut self, instruction: &str) {
        let (operation, operands) = instruction.split_once(' ').unwrap_or((instruction, ""));
        let operands = operands.trim();
        // an `add` of -128 may stand for a `sub` of 128
        let number = || u64::from_str_radix(operands.strip_prefix("$0x")?.strip_suffix(",%rsp")?, 16).ok();
        let size = number().map(|number| (number as i64).unsigned_abs() as usize);
        match (operation, size) {
            ("push", _) => self.pushed += 8,
            ("sub", Some(size)) => self.taken += size,
            ("add", Some(size)) => self.given = self.given.max(size),
            _ => assert!(!operands.ends_with(",%rsp") || operation == "cmp", "a frame not read: {instruction}"),
        }
    }
}

impl Frames {
    pub fn of(archive: &str) -> Frames {
        let run = Command::new("objdump").args(["-dr", "--no-show-raw-insn", archive]).output();
        let listing = run.unwrap_or_else(|error| panic!("objdump: {error}")).stdout;
        let mut functions = BTreeMap::new();
        let mut function = &mut Function::default();
        let mut unnamed = None;
        for line in String::from_utf8_lossy(&listing).lines() {
            if let Some((_, place)) = line.split_once("R_X86_64_PLT32\t") {
                let name = place.trim_start_matches(".text.").trim_end_matches("-0x4");
                function.calls.insert(name.into());
                unnamed = None;
            } else if let Some((_, name)) = line.strip_suffix(">:").and_then(|line| line.split_once(" <")) {
                function = functions.entry(name.into()).or_default();
            } else if let Some((_, instruction)) = line.split_once(":\t") {
                assert!(unnamed.is_none(), "a call without a name behind it: {unnamed:?}");
                unnamed = instruction.strip_prefix("call ").map(String::from);
                function.read_instruction(instruction);
            }
        }
        Frames { functions }
    }

    pub fn names(&self) -> impl Iterator<Item = &str> {
        self.functions.keys().map(String::as_str)
    }

    /// From a function on, without those that are left out.
    pub fn deepest(&self, name: &str, left_out: &[&str]) -> Chain {
        let Some(function) = self.functions.get(name) else { panic!("{name} is not in the archive") };
        let called = function.calls.iter().map(String::as_str);
        let called = called.filter(|name| !OUTSIDE.contains(name) && !left_out.contains(name));
        let below = called.map(|name| self.deepest(name, left_out)).max_by_key(|chain| chain.bytes);
        let below = below.unwrap_or(Chain { bytes: RED_ZONE, functions: vec![] });
        let functions = [vec![name.into()], below.functions].concat();
        Chain { bytes: function.bytes() + below.bytes, functions }
    }
}
