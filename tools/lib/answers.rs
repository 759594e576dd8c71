//! The player's lines, read strictly: what is damaged is an error with its line, never mended.

use model::calls::read_answer;
use model::engine::{written, Answer, Refused};
use model::packets::Packet;
use model::words::{bytes_of_hex, hex};

/// An answer with the packets that were written.
pub struct Answered {
    /// The line of the answer.
    pub line: usize,
    pub answer: Result<Answer, Refused>,
    pub packets: Vec<Vec<u8>>,
}

/// All answers; an error names the line.
pub fn read_answers(text: &str) -> Result<Vec<Answered>, String> {
    if !text.is_empty() && !text.ends_with('\n') {
        return Err("the player's last line is cut short".into());
    }
    let mut lines = text.split_terminator('\n').enumerate().map(|(k, line)| (k + 1, line));
    let mut answers = Vec::new();
    while let Some((line, text)) = lines.next() {
        let answer = read_answer(text).ok_or(format!("the player's line {line}, '{text}', is no answer"))?;
        let mut left = written(answer);
        let mut packets = Vec::new();
        while left > 0 {
            let (line, text) = lines.next().ok_or(format!("the player's lines end, {left} bytes of packets short"))?;
            let wrong = |what: String| format!("the player's line {line}, '{text}', {what}");
            let packet = read_packet(text).map_err(wrong)?;
            left = left.checked_sub(packet.len()).ok_or(wrong(format!("is longer than the {left} bytes left")))?;
            packets.push(packet);
        }
        answers.push(Answered { line, answer, packets });
    }
    Ok(answers)
}

fn read_packet(line: &str) -> Result<Vec<u8>, String> {
    let bytes = bytes_of_hex(line).filter(|bytes| hex(bytes) == line);
    let bytes = bytes.ok_or("is no packet in uppercase hexadecimal")?;
    match Packet::read(&bytes) {
        Ok(_) => Ok(bytes),
        Err(number) => Err(format!("is no packet: its reader refuses it by {number}")),
    }
}
