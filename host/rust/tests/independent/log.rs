//! The log program by document 01, "The log": the bytes of a log in, the bytes of its answers out.
//!
//! Like the device, it was written from the document alone and shares nothing with the core.

use super::device::{Act, Device, Report, ROOM};

/// Lengths of a frame in bytes, "exact for 01 (25 bytes) and 02 (5), 5 to 4,189 for 00".
pub const SHORTEST_COMMAND: usize = 5;
pub const LONGEST_COMMAND: usize = 4189;
pub const FINISH_LENGTH: usize = 25;
pub const DRAINED_LENGTH: usize = 5;
/// A line with more digits is over-long.
pub const MOST_DIGITS: usize = 2 * LONGEST_COMMAND;

/// The refusal of a line that is no frame.
pub const NO_FRAME: u32 = 7;

/// All that is written for a whole log.
pub fn answers(input: &[u8]) -> Vec<u8> {
    answers_of(Device::default(), input)
}

/// The same by any device, such as one with a slip.
pub fn answers_of(device: Device, input: &[u8]) -> Vec<u8> {
    let mut log = Log { device };
    lines(input).into_iter().flat_map(|line| log.line(line)).collect()
}

/// The lines of a log: "lines end at byte 10; a last line read without it counts if not empty".
pub fn lines(input: &[u8]) -> Vec<&[u8]> {
    let mut lines: Vec<&[u8]> = input.split(|&byte| byte == 10).collect();
    lines.pop_if(|last| last.is_empty());
    lines
}

/// The program between two lines: "a fresh table at the start".
#[derive(Default)]
pub struct Log {
    pub device: Device,
}

impl Log {
    /// What is written for a line, which is given without its byte 10.
    pub fn line(&mut self, line: &[u8]) -> Vec<u8> {
        let Some(act) = frame(line) else { return refusal(NO_FRAME) };
        let done = self.device.step(&act, ROOM);
        if done.refusal != 0 {
            return refusal(done.refusal);
        }
        let mut written = Vec::new();
        let mut rest = &done.written[..];
        // An answer is ticket, byte count and response; the count is not shown.
        while let Some((ticket, more)) = rest.split_first_chunk::<4>() {
            let (count, more) = more.split_first_chunk::<4>().expect("a byte count");
            let (response, more) = more.split_at(u32::from_le_bytes(*count) as usize);
            written.extend(written_line(&[&[0x80], &ticket[..], response].concat()));
            rest = more;
        }
        written
    }
}

/// "`ff` and the refusal number", which is one byte.
fn refusal(number: u32) -> Vec<u8> {
    written_line(&[0xff, number as u8])
}

/// A line as it is written: lower case, and byte 10 at its end.
fn written_line(bytes: &[u8]) -> Vec<u8> {
    let mut line = digits(bytes);
    line.push(10);
    line
}

/// Lower-case hexadecimal.
pub fn digits(bytes: &[u8]) -> Vec<u8> {
    let digit = |value: u8| b"0123456789abcdef"[usize::from(value)];
    bytes.iter().flat_map(|byte| [digit(byte / 16), digit(byte % 16)]).collect()
}

/// The bytes of a line whose characters are all digits, of either case, and even in number.
pub fn bytes(line: &[u8]) -> Option<Vec<u8>> {
    let digit = |&character: &u8| char::from(character).to_digit(16);
    let values: Vec<u32> = line.iter().map(digit).collect::<Option<_>>()?;
    let pairs = values.chunks_exact(2);
    pairs.remainder().is_empty().then(|| pairs.map(|pair| (16 * pair[0] + pair[1]) as u8).collect())
}

/// The frame of a line, if it is one: "`00` ticket command; `01` stream, queue type, resource,
/// flags, timestamp; `02` stream".
pub fn frame(line: &[u8]) -> Option<Act> {
    if line.len() > MOST_DIGITS {
        return None;
    }
    let bytes = bytes(line)?;
    let (&kind, fields) = bytes.split_first()?;
    let word = |at: usize| u32::from_le_bytes(fields[at..at + 4].try_into().expect("4 bytes"));
    match (kind, bytes.len()) {
        (0, SHORTEST_COMMAND..=LONGEST_COMMAND) => {
            Some(Act::Command { ticket: word(0), frame: fields[4..].to_vec() })
        }
        (1, FINISH_LENGTH) => Some(Act::Finish(Report {
            stream: word(0),
            queue_type: word(4),
            resource: word(8),
            flags: word(12),
            timestamp: u64::from(word(16)) | u64::from(word(20)) << 32,
        })),
        (2, DRAINED_LENGTH) => Some(Act::Drained { stream: word(0) }),
        _ => None,
    }
}

/// The line of a step, in lower case and without byte 10, however long it gets.
pub fn line_of(act: &Act) -> Vec<u8> {
    let bytes = match act {
        Act::Command { ticket, frame } => [&[0], &ticket.to_le_bytes()[..], frame].concat(),
        Act::Finish(Report { stream, queue_type, resource, flags, timestamp }) => {
            let words = [stream, queue_type, resource, flags].map(|word| word.to_le_bytes());
            [&[1], &words.concat()[..], &timestamp.to_le_bytes()].concat()
        }
        Act::Drained { stream } => [&[2], &stream.to_le_bytes()[..]].concat(),
    };
    digits(&bytes)
}

/// The program fed piece by piece: it keeps one line, and of an over-long one as much as shows
/// that it is.
#[derive(Default)]
pub struct Reader {
    log: Log,
    line: Vec<u8>,
}

impl Reader {
    /// What is written once this piece is read.
    pub fn read(&mut self, piece: &[u8]) -> Vec<u8> {
        let mut written = Vec::new();
        for &byte in piece {
            if byte == 10 {
                written.extend(self.log.line(&self.line));
                self.line.clear();
            } else if self.line.len() <= MOST_DIGITS {
                self.line.push(byte);
            }
        }
        written
    }

    /// What is written once the input has ended.
    pub fn end(mut self) -> Vec<u8> {
        if self.line.is_empty() {
            return Vec::new();
        }
        self.log.line(&self.line)
    }
}
