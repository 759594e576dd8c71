//! `recordings write SCENARIO FOLDER`: the scenario's calls as the player's input, and what the model records for them,
//! as the player's lines and as bytes: files calls, lines and bytes.
//! `recordings COUNT`: the recordings of so many random lists, from the model. Each is read whole and is as it must be;
//! with a byte changed or lost, a packet lost or twice, and cut at its end and at its front, just that is found. So are
//! long losses of a long recording. What is told of any damage, put into what must be, gives the recording.

use inputs::lists::new_list;
use model::calls::{play, read_answer, write_calls, Call};
use model::packets::{self, split_packets};
use model::words::bytes_of_hex;
use reading::against::{Difference, Run};
use reading::differences::{self, Counts};
use reading::layout::{fields, out_of_range, size_of};
use reading::recording::{entries, pieces, Entry};
use reading::report::Report;
use tools::language::Scenario;

/// Far from the seeds of other programs.
const SEED: u64 = 3_000_000_000;
/// So often each recording is damaged.
const TURNS: usize = 10;

/// A packet that must be recorded: its call, which of the call's packets it is, and its bytes.
struct Packet {
    call: usize,
    number: usize,
    bytes: Vec<u8>,
}

/// The packets of the player's lines.
fn packets_in(lines: &str) -> Vec<Packet> {
    let mut packets = Vec::new();
    let (mut calls, mut number) = (0, 0);
    for line in lines.lines() {
        if read_answer(line).is_some() {
            (calls, number) = (calls + 1, 0);
        } else if let Some(bytes) = bytes_of_hex(line) {
            packets.push(Packet { call: calls - 1, number, bytes });
            number += 1;
        }
    }
    packets
}

fn bytes_of(packets: &[Packet]) -> Vec<u8> {
    packets.iter().flat_map(|packet| &packet.bytes).copied().collect()
}

fn played(calls: &[Call]) -> Run {
    Run::play(calls.iter().map(|call| (String::new(), call)))
}

fn read_whole(file: &[u8], hex: bool) -> Result<Vec<Entry>, String> {
    let entries = entries(file, hex)?;
    let mut report = Report::new(&entries, false);
    let text: String = entries.iter().map(|entry| report.tell(entry)).collect();
    report.end();
    if report.sound() {
        Ok(entries)
    } else {
        Err(format!("not read whole:\n{text}"))
    }
}

/// The fields that are told are those of the packet's bytes, and all are in range just where the model reads it.
fn check_fields(packet: &[u8]) -> Result<(), String> {
    let read = proved::hollwern::read(packet);
    let in_range = out_of_range(packet).is_empty();
    if read.accepted != packets::Packet::read(packet).is_ok() || read.accepted != in_range {
        return Err(format!("{packet:02X?}: read {}, in range {in_range}", read.accepted));
    }
    match fields(packet).find(|field| read.accepted && field.read(packet, &read) != field.value(packet)) {
        Some(field) => Err(format!("{packet:02X?}: {}", field.name)),
        None => Ok(()),
    }
}

/// The recording that the differences tell: what must be, with each difference put in at its byte.
fn retold(musts: &[Packet], differences: &[Difference]) -> Result<Vec<u8>, String> {
    let mut recording = Vec::new();
    let mut left = musts.iter();
    for difference in differences {
        while recording.len() < difference.at {
            recording.extend(&left.next().ok_or("a difference behind the end")?.bytes);
        }
        let named = difference.musts.iter().map(|must| (must.call, must.packet));
        let there = left.by_ref().take(difference.musts.len()).map(|packet| (packet.call, packet.number));
        if recording.len() != difference.at || !named.eq(there) {
            return Err(format!("the difference at byte {} is elsewhere", difference.at));
        }
        recording.extend(difference.found.iter().flat_map(|entry| entry.item.bytes()));
    }
    recording.extend(left.flat_map(|packet| &packet.bytes));
    Ok(recording)
}

/// A damaged recording and, where that is plain, how many differences it has: changed, missing, too many.
struct Trial {
    damage: String,
    recording: Vec<u8>,
    counts: Option<Counts>,
}

impl Trial {
    fn new(damage: impl Into<String>, recording: Vec<u8>, [changed, missing, surplus]: [usize; 3]) -> Trial {
        Trial { damage: damage.into(), recording, counts: Some(Counts { changed, missing, surplus }) }
    }

    /// Just so many are found, and what they tell is the recording.
    fn check(&self, run: &Run, musts: &[Packet]) -> Result<(), String> {
        let found = run.differences(&entries(&self.recording, false)?);
        let told: String = found.iter().map(|difference| differences::in_words(run, difference, 5)).collect();
        if self.counts.as_ref().is_some_and(|counts| *counts != Counts::of(&found)) {
            return Err(format!("{}: {:?} expected\n{told}", self.damage, self.counts));
        }
        if retold(musts, &found).map_err(|error| format!("{}: {error}\n{told}", self.damage))? != self.recording {
            return Err(format!("{}: another recording is told\n{told}", self.damage));
        }
        Ok(())
    }
}

/// One byte changed or lost, one packet lost or twice, the end lost, the front lost, and several; `turn` chooses where.
fn damaged(packets: &[Packet], turn: usize) -> Vec<Trial> {
    let chosen = turn * 7 % packets.len();
    let (before, behind) = (bytes_of(&packets[..chosen]), bytes_of(&packets[chosen + 1..]));
    let packet = &packets[chosen].bytes;
    let byte = turn * 11 % packet.len();
    let (front, rest) = packet.split_at(byte);
    let with = |pieces: &[&[u8]]| [&before[..], &pieces.concat(), &behind].concat();
    let other = rest[0].wrapping_add(1 + (turn % 255) as u8);
    let cut = usize::from(byte > 0);
    let follow = packets.len() - chosen - 1;
    let mut trials = vec![
        Trial::new("byte changed", with(&[front, &[other], &rest[1..]]), [1, 0, 0]),
        Trial::new("byte lost", with(&[front, &rest[1..]]), [1, 0, 0]),
        Trial::new("packet lost", with(&[]), [0, 1, 0]),
        Trial::new("packet twice", with(&[packet, packet]), [0, 0, 1]),
        Trial::new("end lost", [&before, front].concat(), [cut, follow + 1 - cut, 0]),
    ];
    if follow > 0 {
        trials.push(Trial::new("front lost", [rest, &behind].concat(), [cut, chosen, 0]));
    }
    trials.push(several(bytes_of(packets), turn));
    trials.iter_mut().for_each(|trial| trial.damage += &format!(", packet {chosen}, byte {byte}"));
    trials
}

/// A stretch put in elsewhere, a stretch lost and a byte changed.
fn several(mut recording: Vec<u8>, turn: usize) -> Trial {
    let size = recording.len();
    let (from, to, lost) = (turn * 13 % size, turn * 29 % size, turn * 17 % size);
    let stretch = recording[from..size.min(from + turn % 60)].to_vec();
    recording.splice(to..to, stretch);
    recording.drain(lost..size.min(lost + turn % 50));
    if let Some(byte) = recording.get_mut(turn * 37 % size) {
        *byte ^= 1 << (turn % 8);
    }
    Trial { damage: "several".into(), recording, counts: None }
}

/// The packets of one list.
fn try_list(seed: u64) -> Result<usize, String> {
    let calls = new_list(seed);
    let lines = play(&calls);
    let packets = packets_in(&lines);
    let recording = bytes_of(&packets);
    let run = played(&calls);
    if pieces(&recording) != split_packets(&recording) {
        return Err("cut elsewhere than the model cuts".into());
    }
    for (file, hex) in [(&recording[..], false), (lines.as_bytes(), true)] {
        if !file.is_empty() && !run.differences(&read_whole(file, hex)?).is_empty() {
            return Err("differs from what it must be".into());
        }
    }
    let turns = if packets.is_empty() { 0 } else { TURNS };
    for turn in (0..turns).map(|k| seed as usize * TURNS + k) {
        for trial in damaged(&packets, turn) {
            trial.check(&run, &packets)?;
            let is_packet = |piece: &&&[u8]| size_of(piece) == Some(piece.len());
            pieces(&trial.recording).iter().filter(is_packet).try_for_each(|piece| check_fields(piece))?;
        }
    }
    Ok(packets.len())
}

/// A train that creeps along in rounds of so many metres: at each the reports change, so that every packet of a round
/// is another.
fn creeping(packets: u32, round: u32) -> Vec<Call> {
    let step = |k: u32| [Call::position(17, 500, 100 * (k % round), 0), Call::reports((k % 2) as u8)];
    let steps = (1..packets).flat_map(step);
    [Call::power_on()].into_iter().chain(steps).collect()
}

/// So many packets lost in a row: at the front, in the middle, at the end; at the front with 5 bytes of the next; in
/// all these places, with a byte changed too; and so many twice.
fn losses(packets: &[Packet], lost: usize) -> Vec<Trial> {
    let part = |from: usize, to: usize| bytes_of(&packets[from..to]);
    let (count, middle) = (packets.len(), packets.len() / 2);
    let mut changed = part(middle + lost, count - lost);
    changed[20] += 1;
    let front_lost = part(lost, count).split_off(5);
    let all = [&part(lost, middle)[5..], &changed].concat();
    let trials = [
        ("front", part(lost, count), [0, lost, 0]),
        ("middle", [part(0, middle), part(middle + lost, count)].concat(), [0, lost, 0]),
        ("end", part(0, count - lost), [0, lost, 0]),
        ("front and 5 bytes", front_lost, [1, lost, 0]),
        ("all of these", all, [2, 3 * lost, 0]),
        ("none, but front twice", [part(0, lost), part(0, count)].concat(), [0, 0, lost]),
    ];
    trials.map(|(place, bytes, counts)| Trial::new(format!("{lost} lost: {place}"), bytes, counts)).into()
}

/// Long recordings: one in which no packet comes twice, and one of the same round over and over.
fn try_losses() -> Result<(), String> {
    for (round, lost) in [(6001, &[1, 50, 100, 300, 1000][..]), (500, &[1, 50, 100])] {
        let calls = creeping(6001, round);
        let (packets, run) = (packets_in(&play(&calls)), played(&calls));
        for trial in lost.iter().flat_map(|&lost| losses(&packets, lost)) {
            trial.check(&run, &packets).map_err(|error| format!("rounds of {round}: {error}"))?;
        }
    }
    Ok(())
}

fn write(scenario: &str, folder: &str) -> Result<(), String> {
    let text = std::fs::read_to_string(scenario).map_err(|error| format!("{scenario}: {error}"))?;
    let steps = Scenario::read(&text)?.steps;
    let calls: Vec<Call> = steps.into_iter().map(|step| step.call).collect();
    let lines = play(&calls);
    let bytes = bytes_of(&packets_in(&lines));
    let files = [("calls", write_calls(&calls)), ("bytes", bytes), ("lines", lines.into_bytes())];
    for (name, content) in files {
        std::fs::write(format!("{folder}/{name}"), content).map_err(|error| format!("{folder}/{name}: {error}"))?;
    }
    Ok(())
}

fn run() -> Result<(), String> {
    let arguments: Vec<String> = std::env::args().skip(1).collect();
    match &arguments.iter().map(String::as_str).collect::<Vec<_>>()[..] {
        ["write", scenario, folder] => write(scenario, folder),
        [count] => {
            let count: u64 = count.parse().map_err(|_| format!("'{count}' is no number"))?;
            try_losses()?;
            let mut packets = 0;
            for seed in SEED..SEED + count {
                packets += try_list(seed).map_err(|error| format!("list {seed}: {error}"))?;
            }
            println!("{count} random recordings of {packets} packets are read and compared, also damaged");
            Ok(())
        }
        _ => Err("recordings COUNT, or recordings write SCENARIO FOLDER".into()),
    }
}

fn main() {
    if let Err(error) = run() {
        eprintln!("{error}");
        std::process::exit(1);
    }
}
