//! What a recording says: every packet with its fields by name and in words, every refusal with its reason and where
//! the reading goes on, and totals.

use crate::layout::{fields, out_of_range, rows, size_of, Field, BYTES_WIDTH};
use crate::recording::{Answered, Entry, Item};
use crate::words::{self, counted};
use model::engine::written;
use model::words::{hex, ALIGNMENTS};
use proved::hollwern::{read, read_constraint, Constraint, PacketFields};
use std::collections::BTreeMap;

#[derive(Default)]
pub struct Report {
    /// One line a packet.
    brief: bool,
    /// The place of the last entry.
    last: Option<(usize, Option<usize>)>,
    table: Table,
    /// The bytes of packets so far, read or refused.
    bytes: usize,
    bytes_read: usize,
    /// Packets read by number, refusals by number.
    packets: BTreeMap<u8, usize>,
    refusals: BTreeMap<u8, usize>,
    /// Answers that accept and that refuse.
    answers: [usize; 2],
    /// Lines of a text that are wrong.
    wrong_lines: usize,
    /// The last answer: its line, the bytes that it says, and those that stood before it.
    answered: Option<(usize, usize, usize)>,
}

fn sum(counts: &BTreeMap<u8, usize>) -> usize {
    counts.values().sum()
}

fn by_number(counts: &BTreeMap<u8, usize>) -> String {
    let each: Vec<String> = counts.iter().map(|(number, count)| format!("{number}: {count}")).collect();
    each.join(", ")
}

fn place(entry: &Entry) -> String {
    let line = entry.line.map_or(String::new(), |line| format!(", line {line}"));
    format!("byte {}{line}", entry.at)
}

/// The tables of packets, with a first column for the bytes of a field that is wide enough for the whole recording.
#[derive(Default)]
struct Table {
    bytes_width: usize,
}

impl Table {
    fn of(bytes: usize) -> Table {
        Table { bytes_width: BYTES_WIDTH.max(2 * bytes.to_string().len() + 1) }
    }

    fn columns(&self) -> String {
        let width = self.bytes_width;
        format!("  {:<width$} bit   {:<35}hex      decimal    in words\n\n", "byte", "field")
    }

    fn row(&self, field: &Field, start: usize, value: u32, words: &str) -> String {
        let (place, name, hex) = (field.place(start, self.bytes_width), field.name, field.hex(value));
        format!("  {place}{name:<35}{hex:<9}{value:<11}{words}").trim_end().to_string() + "\n"
    }

    /// A line in the column of the fields' names.
    fn line(&self, text: &str) -> String {
        format!("{:1$}{text}\n", "", self.bytes_width + 9)
    }

    fn packet(&self, entry: &Entry, bytes: &[u8], p: &PacketFields) -> String {
        let heading = format!("{} {}, {} bytes", p.kind, words::packet_name(p.kind.into()), p.size);
        let mut text = format!("{}: packet {heading}\n", place(entry));
        let mut group = String::new();
        for field in fields(bytes) {
            if field.group() != group {
                group = field.group();
                text += &self.line(&group);
            }
            let value = field.read(bytes, p);
            text += &self.row(&field, entry.at, value, &(field.words)(value));
            if field.name == "M_ATO_OPERATIONAL_CONDITIONS" {
                words::each_condition(value).iter().for_each(|line| text += &self.line(&format!("  {line}")));
            }
        }
        text + "\n"
    }

    fn refusal(&self, entry: &Entry, bytes: &[u8], is_last: bool) -> String {
        let mut text = format!("{}: refused by {}\n", place(entry), reason(bytes));
        if !bytes.is_empty() {
            text += &format!("  {}\n", hex_of_front(bytes));
        }
        let number = read(bytes).number;
        if number == 19 {
            let wrong = out_of_range(bytes);
            let row = |field: &Field| self.row(field, entry.at, field.value(bytes), &range_in_words(field, bytes));
            text.extend(wrong.iter().map(row));
            if wrong.is_empty() {
                text += "  the reader refuses it, though every field is in the range that is known here\n";
            }
        }
        text + &next_in_words(entry, number, is_last)
    }
}

/// A row of slippery rail.
fn constraint_in_words(row: Constraint) -> String {
    let Constraint { nidsp, start, end, nidc, category, range } = row;
    format!("NID_C {nidc} NID_SP {nidsp} from {start} to {end}, category {category}, range {range}")
}

/// The content of a packet in one line.
fn content_in_words(bytes: &[u8], p: &PacketFields) -> String {
    match p.kind {
        61 => {
            let brakes = format!("M_ATO_TraBrRq {} M_ATO_LocoBrRq {}", p.m_ato_trabrrq, p.m_ato_locobrrq);
            format!("{brakes} Q_ATO_SupTB {:02X} M_ATO_RTBRq {}", p.q_ato_suptb, p.m_ato_rtbrq as i16)
        }
        62 => {
            let end = if p.q_eoj_reached == 0 { "EoJ reached" } else { "EoJ not reached" };
            let (status, alignment) = (words::status(p.status.into()), ALIGNMENTS[usize::from(p.alignment)]);
            format!("NID_C {} NID_TP {}: {status}; {end}; {alignment}; data {:02X}", p.nidc, p.nidtp, p.stopping)
        }
        64 if p.constraint_count == 0 => words::constraints(0),
        64 => {
            let rows = (0..rows(bytes)).map(|k| constraint_in_words(read_constraint(bytes, k)));
            rows.collect::<Vec<_>>().join("; ")
        }
        65 => {
            let (nidc, atots, rest) = (p.nidc, p.atots, format!("seconds {}, counter {}", p.seconds, p.counter));
            match p.status {
                0 => format!("NID_C {nidc} NID_ATOTS {atots}: JP of {}, {rest}", words::date(p.date.into())),
                _ => format!("NID_C {nidc} NID_ATOTS {atots}: profiles turned down; date {}, {rest}", p.date),
            }
        }
        _ => format!("{}; {}", words::state(p.state.into()), words::conditions(p.conditions.into())),
    }
}

fn packet_in_brief(entry: &Entry, bytes: &[u8], p: &PacketFields) -> String {
    let line = entry.line.map_or(String::new(), |line| format!("line {line:<6}"));
    let (name, content) = (words::packet_name(p.kind.into()), content_in_words(bytes, p));
    format!("{:>8}  {line}{} {name:<12}  {content}\n", entry.at, p.kind)
}

/// Why the reader refuses these bytes.
pub fn reason(bytes: &[u8]) -> String {
    let named = |number: u8| format!("{number} {}", words::packet_name(number.into()));
    match (read(bytes).number, bytes.first()) {
        (17, Some(&number)) => {
            let size = size_of(bytes).unwrap_or(0);
            let what = if bytes.len() < size { "cut short" } else { "too long" };
            let there = counted(bytes.len(), "is", "are");
            let with = match rows(bytes) {
                0 => String::new(),
                rows => format!(" of {}", counted(rows, "row", "rows")),
            };
            format!("17, {what}: packet {}{with} has {size} bytes, {there} there", named(number))
        }
        (17, None) => "17, empty".into(),
        (18, Some(&number)) => format!("18, another number than 61, 62, 64, 65, 68: {}", named(number)),
        (19, Some(&number)) => format!("19, value out of range in packet {}", named(number)),
        (number, _) => format!("{number}"),
    }
}

/// The first bytes in hexadecimal.
pub fn hex_of_front(bytes: &[u8]) -> String {
    const MOST: usize = 40;
    if bytes.len() <= MOST {
        hex(bytes)
    } else {
        format!("{} ..", hex(&bytes[..MOST]))
    }
}

/// A packet's number, name and content, or why it is refused, in one line; and its bytes.
fn bytes_in_brief(bytes: &[u8]) -> String {
    let packet = read(bytes);
    if !packet.accepted {
        return format!("refused by {}\n    {}", reason(bytes), hex_of_front(bytes));
    }
    let name = words::packet_name(packet.kind.into());
    format!("{} {name}: {}\n    {}", packet.kind, content_in_words(bytes, &packet), hex(bytes))
}

/// What is wrong with a value.
fn range_in_words(field: &Field, bytes: &[u8]) -> String {
    let group = field.group();
    match (field.highest_in(bytes), field.highest) {
        (0, 0) => format!("must be 0, {group}"),
        (highest, most) if highest == most => format!("out of range 0 to {highest}, {group}"),
        (highest, _) if field.is_in_row() => format!("must not exceed its end, {highest}, {group}"),
        _ => "must be 0 unless Q_TP_STATUS is 1".into(),
    }
}

/// Where the reading goes on behind a refusal.
fn next_in_words(entry: &Entry, number: u8, is_last: bool) -> String {
    let bytes = counted(entry.item.bytes().len(), "byte", "bytes");
    let next = match (entry.line, is_last) {
        (_, true) => "nothing follows".to_string(),
        (Some(_), _) => "goes on at the next line".to_string(),
        _ => format!("goes on at byte {}", entry.end()),
    };
    match (entry.line, number) {
        (None, 17) if entry.item.bytes().is_empty() => "\n".into(),
        (None, 17) if is_last => format!("  {bytes} left over\n\n"),
        (None, 17) => format!("  {bytes} skipped; a whole packet is read from byte {}\n\n", entry.end()),
        (None, 18) => format!("  {bytes} skipped; {next}\n\n"),
        (None, 19) if !is_last => format!("  {next}, the packet's end\n\n"),
        _ => format!("  {next}\n\n"),
    }
}

/// The front of a line that was not read; what no terminal should get stands as U+FFFD.
fn line_in_words(text: &str) -> String {
    let shown = |c: char| if c.is_control() { char::REPLACEMENT_CHARACTER } else { c };
    format!("'{}'", text.chars().take(60).map(shown).collect::<String>())
}

/// An answer or a packet in words, or a line that is neither.
pub fn item_in_words(item: &Item) -> String {
    match item {
        Item::Answer(answer) => format!("{}: {}", item.line(), answer_in_words(*answer)),
        Item::Bytes(bytes) => bytes_in_brief(bytes),
        Item::Other(text) => line_in_words(text),
    }
}

/// The answer in words.
fn answer_in_words(answer: Answered) -> String {
    let bytes = counted(written(answer), "byte", "bytes");
    match answer {
        Err(refused) => format!("call refused by {}; {bytes} written", refused.number),
        Ok(answer) => {
            let request = if answer.request { "AD requested" } else { "AD not requested" };
            format!("call accepted: {}; {request}; {bytes} written", words::state(answer.state.into()))
        }
    }
}

impl Report {
    pub fn new(entries: &[Entry], brief: bool) -> Report {
        let last = entries.last().map(|entry| (entry.at, entry.line));
        let table = Table::of(entries.last().map_or(0, Entry::end));
        Report { brief, last, table, ..Report::default() }
    }

    /// Above the first entry.
    pub fn begin(&self) -> String {
        if self.brief {
            String::new()
        } else {
            self.table.columns()
        }
    }

    /// One entry in words.
    pub fn tell(&mut self, entry: &Entry) -> String {
        match &entry.item {
            Item::Bytes(bytes) => self.tell_bytes(entry, bytes),
            Item::Answer(answer) => {
                let before = self.close_answer();
                self.answers[usize::from(answer.is_err())] += 1;
                self.answered = Some((entry.line.unwrap_or(0), written(*answer), entry.at));
                let line = entry.line.unwrap_or(0);
                format!("{before}line {line}: {}\n", item_in_words(&entry.item))
            }
            Item::Other(_) => {
                self.wrong_lines += 1;
                self.answered = None;
                let (line, text) = (entry.line.unwrap_or(0), item_in_words(&entry.item));
                format!("line {line}: neither a packet in hexadecimal nor an answer of the player: {text}\n")
            }
        }
    }

    fn tell_bytes(&mut self, entry: &Entry, bytes: &[u8]) -> String {
        let packet = read(bytes);
        self.bytes += bytes.len();
        if !packet.accepted {
            *self.refusals.entry(packet.number).or_default() += 1;
            return self.table.refusal(entry, bytes, self.last == Some((entry.at, entry.line)));
        }
        *self.packets.entry(packet.kind).or_default() += 1;
        self.bytes_read += bytes.len();
        if self.brief {
            packet_in_brief(entry, bytes, &packet)
        } else {
            self.table.packet(entry, bytes, &packet)
        }
    }

    /// Whether the last answer says as many bytes as stand below it.
    fn close_answer(&mut self) -> String {
        match self.answered.take() {
            Some((line, says, before)) if says != self.bytes - before => {
                self.wrong_lines += 1;
                let stand = counted(self.bytes - before, "byte stands", "bytes stand");
                format!("line {line}: the answer says {}, {stand} below it\n", counted(says, "byte", "bytes"))
            }
            _ => String::new(),
        }
    }

    /// The totals. A recording of nothing is refused, as the reader refuses it.
    pub fn end(&mut self) -> String {
        let mut text = self.close_answer();
        if self.bytes == 0 && self.answers == [0, 0] && self.wrong_lines == 0 {
            let nothing = Entry { at: 0, line: None, item: Item::Bytes(Vec::new()) };
            text += &self.tell(&nothing);
        }
        let mut total = |name: &str, count: usize, more: String| {
            text += format!("{name:<16}{count:>8}  {more}").trim_end();
            text += "\n";
        };
        total("bytes", self.bytes, format!("read: {}, not read: {}", self.bytes_read, self.bytes - self.bytes_read));
        total("packets", sum(&self.packets), by_number(&self.packets));
        total("refusals", sum(&self.refusals), by_number(&self.refusals));
        if self.answers != [0, 0] {
            let [accepted, refused] = self.answers;
            total("answers", accepted + refused, format!("accepted: {accepted}, refused: {refused}"));
        }
        if self.wrong_lines > 0 {
            total("wrong lines", self.wrong_lines, String::new());
        }
        text
    }

    /// Whether all was read.
    pub fn sound(&self) -> bool {
        self.refusals.is_empty() && self.wrong_lines == 0
    }
}
