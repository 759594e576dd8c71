//! A recording: bytes as a recorder holds them, cut into packets and what lies between, or text with a line a packet.

use model::calls::{answer_line, read_answer};
use model::engine::{Answer, Refused};
use model::words::{bytes_of_hex, hex};
use proved::hollwern::{front_size, read, PacketFields};
use std::hash::{Hash, Hasher};

/// What the player answers a call.
pub type Answered = Result<Answer, Refused>;

#[derive(Clone, PartialEq, Eq, Debug)]
pub enum Item {
    Answer(Answered),
    /// A packet, or bytes that the reader refuses.
    Bytes(Vec<u8>),
    /// A line of a text that is neither.
    Other(String),
}

#[derive(Clone)]
pub struct Entry {
    /// The bytes of packets before it.
    pub at: usize,
    /// Its line in a text.
    pub line: Option<usize>,
    pub item: Item,
}

/// UTF-8's, in front of a text.
const BYTE_ORDER_MARK: &[u8] = "\u{FEFF}".as_bytes();

impl Hash for Item {
    fn hash<H: Hasher>(&self, hasher: &mut H) {
        self.line().hash(hasher);
    }
}

impl Item {
    /// The line that it is in a text.
    pub fn line(&self) -> String {
        match self {
            Item::Answer(answer) => answer_line(*answer),
            Item::Bytes(bytes) => hex(bytes),
            Item::Other(text) => text.clone(),
        }
    }

    /// None of a line that is no packet.
    pub fn bytes(&self) -> &[u8] {
        match self {
            Item::Bytes(bytes) => bytes,
            _ => &[],
        }
    }

    pub fn is_refused(&self) -> bool {
        matches!(self, Item::Bytes(bytes) if !read(bytes).accepted)
    }
}

impl Entry {
    /// The bytes of packets up to its end.
    pub fn end(&self) -> usize {
        self.at + self.item.bytes().len()
    }
}

fn read_front(bytes: &[u8]) -> PacketFields {
    read(&bytes[..front_size(bytes)])
}

/// The bytes of the piece in front: a packet, also one that is refused by 19 where a whole packet follows it or none is
/// read inside it; else all up to the next byte from which a whole packet is read.
fn piece_size(bytes: &[u8]) -> usize {
    let size = front_size(bytes);
    let is_whole_at = |&at: &usize| read_front(&bytes[at..]).accepted;
    if [0, size].iter().any(is_whole_at) {
        return size;
    }
    (1..size).find(is_whole_at).unwrap_or(size)
}

/// Bytes cut into pieces: packets and what lies between them.
pub fn pieces(bytes: &[u8]) -> Vec<&[u8]> {
    let mut pieces = Vec::new();
    let mut left = bytes;
    while !left.is_empty() {
        let (piece, rest) = left.split_at(piece_size(left));
        pieces.push(piece);
        left = rest;
    }
    pieces
}

/// A recorder's bytes.
fn entries_of_bytes(bytes: &[u8]) -> Vec<Entry> {
    let mut entries: Vec<Entry> = Vec::new();
    for piece in pieces(bytes) {
        let at = entries.last().map_or(0, Entry::end);
        entries.push(Entry { at, line: None, item: Item::Bytes(piece.to_vec()) });
    }
    entries
}

/// Hexadecimal digits of whole bytes, with or without blanks between bytes.
fn read_hex(text: &str) -> Option<Vec<u8>> {
    let groups: Option<Vec<Vec<u8>>> = text.split_whitespace().map(bytes_of_hex).collect();
    groups.map(|groups| groups.concat())
}

fn read_line(text: &str) -> Item {
    let answer = read_answer(text).map(Item::Answer);
    let other = || Item::Other(text.to_string());
    answer.or_else(|| read_hex(text).map(Item::Bytes)).unwrap_or_else(other)
}

/// The player's lines, or any text with a packet in hexadecimal a line. Empty lines do not count.
fn entries_of_text(text: &str) -> Vec<Entry> {
    let mut entries: Vec<Entry> = Vec::new();
    for (k, line) in text.lines().enumerate().filter(|(_, line)| !line.trim().is_empty()) {
        let at = entries.last().map_or(0, Entry::end);
        entries.push(Entry { at, line: Some(k + 1), item: read_line(line.trim_end()) });
    }
    entries
}

fn is_of_text(byte: &u8) -> bool {
    byte.is_ascii_graphic() || byte.is_ascii_whitespace()
}

fn is_mostly_text(file: &[u8]) -> bool {
    2 * file.iter().filter(|byte| is_of_text(byte)).count() >= file.len() && !file.contains(&0)
}

/// A recorder's bytes, or with `hex` a text; an error where it is plainly the other. No packet is text: NID_C, behind
/// its number, begins with a byte of 3 at most.
pub fn entries(file: &[u8], hex: bool) -> Result<Vec<Entry>, String> {
    match (hex, is_mostly_text(file)) {
        (false, true) if file.get(1).is_some_and(|&byte| byte > 3) => {
            Err("text, and no bytes of packets: lines are read with --hex".into())
        }
        (false, _) => Ok(entries_of_bytes(file)),
        (true, true) => {
            let text = file.strip_prefix(BYTE_ORDER_MARK).unwrap_or(file);
            Ok(entries_of_text(&String::from_utf8_lossy(text)))
        }
        (true, false) => {
            let at = file.iter().position(|byte| !is_of_text(byte)).unwrap_or(0);
            Err(format!("byte {at} is {:02X}: no text in hexadecimal; bytes are read without --hex", file[at]))
        }
    }
}
