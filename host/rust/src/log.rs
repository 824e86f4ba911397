//! Logs: lines of hexadecimal, each a frame or an answer, as `docs/LOG.md` has them.
//!
//! A frame is a question to a device: a command of the guest, or a report of the back end. A log may
//! hold the answers too, each behind its question, such as another maker's device gave. [`check`] says
//! whether they are those that the core gives.
//!
//! ```
//! use virtio_video_decoder::log::{check, Fault, Verdict};
//!
//! // A command that fails, with its answer, and a report that is refused.
//! let log = b"00050000000301000007000000\n\
//!             80050000000203000007000000\n\
//!             0207000000\n\
//!             ff05\n";
//! assert_eq!(check(log), Verdict::Accepted);
//!
//! // The refusal is missing: the end of the log stands in its place.
//! let verdict = check(&log[..log.len() - 5]);
//! assert_eq!(verdict, Verdict::Wrong { line: 4, fault: Fault::Missing });
//! assert_eq!(verdict.to_string(), "line 4: missing");
//! ```
//!
//! For a program that shows what a log holds, [`lines`] and [`Line`] take it apart, and
//! [`Frame::replay`] runs its questions. This one writes what the log program `video_log` writes:
//!
//! ```
//! use virtio_video_decoder::log::{lines, AnswerLine, Line};
//! use virtio_video_decoder::Decoder;
//!
//! let mut decoder = Decoder::new();
//! let mut written = String::new();
//! for line in lines(b"00050000000301000007000000\n0207000000\n\n") {
//!     let answers = match Line::read(line) {
//!         Line::Question(frame) => frame.replay(&mut decoder),
//!         Line::Answer(_) | Line::Neither => vec![AnswerLine::Refusal(7)],
//!     };
//!     answers.iter().for_each(|answer| written += &format!("{answer}\n"));
//! }
//! assert_eq!(written, "80050000000203000007000000\nff05\nff07\n");
//! ```

use crate::answer::word;
use crate::{ffi, wire, Answer, Answers, Decoder, Refusal};
use std::fmt;

/// The most bytes that a line has: those of a `00` frame with the longest command. A longer line is
/// neither a frame nor an answer.
pub const MAX_LINE: usize = 2 * (SHORTEST_COMMAND + wire::MAX_CMD_LENGTH);

/// Bytes of a `00` frame with no byte of a command, which is its first byte and the ticket.
const SHORTEST_COMMAND: usize = 5;
const FINISH_LENGTH: usize = 25;
const DRAINED_LENGTH: usize = 5;

/// Whether a log with its answers is right, and if not, where it first is not.
///
/// It is written as the program `log_check` writes it.
#[derive(Clone, Copy, Debug, PartialEq, Eq, Hash)]
pub enum Verdict {
    /// Every line is a frame or an answer, none of these before the first frame, and behind each frame
    /// stand exactly the answers that the core gives, in order.
    Accepted,
    /// It is not so, and this is the first wrong line.
    Wrong {
        /// Its number, counted from 1. The end of the log is one past the last line.
        line: u64,
        /// What is wrong there.
        fault: Fault,
    },
}

impl fmt::Display for Verdict {
    fn fmt(&self, f: &mut fmt::Formatter<'_>) -> fmt::Result {
        match self {
            Verdict::Accepted => write!(f, "accepted"),
            Verdict::Wrong { line, fault } => write!(f, "line {line}: {fault}"),
        }
    }
}

/// What is wrong with a line of a log.
#[derive(Clone, Copy, Debug, PartialEq, Eq, Hash)]
#[repr(u32)]
pub enum Fault {
    /// An answer is due, and a question or the end of the log stands in its place.
    Missing = 1,
    /// An answer stands where none is due.
    Extra = 2,
    /// An answer stands where one is due, and has other bytes.
    Different = 3,
    /// The line is neither a frame nor an answer, or has more than [`MAX_LINE`] bytes: refusal 7.
    Refused = 7,
}

impl Fault {
    /// Every fault, by rising number.
    pub const ALL: [Fault; 4] = [Fault::Missing, Fault::Extra, Fault::Different, Fault::Refused];

    /// The number of the fault: 1, 2, 3 or 7.
    pub const fn number(self) -> u32 {
        self as u32
    }

    /// The fault of that number, if there is one.
    pub fn from_number(number: u32) -> Option<Fault> {
        Self::ALL.into_iter().find(|fault| fault.number() == number)
    }
}

impl fmt::Display for Fault {
    fn fmt(&self, f: &mut fmt::Formatter<'_>) -> fmt::Result {
        f.write_str(match self {
            Fault::Missing => "missing",
            Fault::Extra => "extra",
            Fault::Different => "different",
            Fault::Refused => "refused 7",
        })
    }
}

/// Checks a log that holds questions and answers, any bytes.
///
/// The questions are run on a device of its own, which is fresh at the start. The verdict is that of the first
/// wrong line. Upper and lower case of digits are the same. An empty log is accepted.
pub fn check(log: &[u8]) -> Verdict {
    let ffi::Verdict { line, verdict } = ffi::check_log(log);
    if verdict == 0 {
        return Verdict::Accepted;
    }
    let fault = Fault::from_number(verdict).unwrap_or_else(|| {
        panic!("verdict {verdict} is not known: archive and package do not match")
    });
    Verdict::Wrong { line, fault }
}

/// The lines of a log, without the byte 10 that ends each. A last line without it counts if it is not
/// empty.
///
/// ```
/// use virtio_video_decoder::log::lines;
///
/// assert_eq!(lines(b"0207000000\n\nff").collect::<Vec<_>>(), [&b"0207000000"[..], b"", b"ff"]);
/// assert_eq!(lines(b"").count(), 0);
/// assert_eq!(lines(b"\n").count(), 1);
/// ```
pub fn lines(log: &[u8]) -> impl Iterator<Item = &[u8]> {
    let ended = log.split_inclusive(|&byte| byte == b'\n');
    ended.map(|line| line.strip_suffix(b"\n").unwrap_or(line))
}

/// What a line of a log is.
#[derive(Clone, Debug, PartialEq, Eq)]
pub enum Line {
    /// A frame.
    Question(Frame),
    /// A line that begins with `80` or `ff`, digits of either case, whatever follows: an answer, or
    /// nothing where it cannot be read as one. The core writes none of that kind.
    Answer(Option<AnswerLine>),
    /// Anything else, an empty line too, and whatever has more than [`MAX_LINE`] bytes.
    Neither,
}

impl Line {
    /// What the line is, whose bytes are given without the byte 10 that ends it.
    ///
    /// ```
    /// use virtio_video_decoder::log::{AnswerLine, Frame, Line};
    ///
    /// assert_eq!(Line::read(b"0207000000"), Line::Question(Frame::Drained { stream: 7 }));
    /// assert_eq!(Line::read(b"FF05"), Line::Answer(Some(AnswerLine::Refusal(5))));
    /// assert_eq!(Line::read(b"80 and more"), Line::Answer(None));
    /// assert_eq!(Line::read(b"02070000"), Line::Neither);
    /// ```
    pub fn read(line: &[u8]) -> Line {
        if line.len() > MAX_LINE {
            return Line::Neither;
        }
        let start = line.get(..2).unwrap_or_default();
        if start == b"80" || start.eq_ignore_ascii_case(b"ff") {
            return Line::Answer(AnswerLine::from_line(line));
        }
        Frame::from_line(line).map_or(Line::Neither, Line::Question)
    }
}

/// A frame: a step of a device.
#[derive(Clone, Debug, PartialEq, Eq)]
pub enum Frame {
    /// `00`: a command of the guest.
    Command {
        /// The number that its answer carries.
        ticket: u32,
        /// Its bytes, from 0 to [`wire::MAX_CMD_LENGTH`].
        command: Vec<u8>,
    },
    /// `01`: the back end is done with a buffer. The numbers may be any.
    Finish {
        /// The stream's number.
        stream: u32,
        /// [`wire::QUEUE_TYPE_INPUT`], [`wire::QUEUE_TYPE_OUTPUT`], or no queue's.
        queue_type: u32,
        /// The resource's number.
        resource: u32,
        /// [`wire::BUFFER_FLAG_ERR`], [`wire::BUFFER_FLAG_EOS`], and what else is set.
        flags: u32,
        /// For the answer of an output.
        timestamp: u64,
    },
    /// `02`: the back end has drained a stream without outputs.
    Drained {
        /// The stream's number.
        stream: u32,
    },
}

impl Frame {
    /// The frame of a line, if it is one. [`Line::read`] tells the other lines apart.
    fn from_line(line: &[u8]) -> Option<Frame> {
        let bytes = bytes_of(line)?;
        let (&kind, fields) = bytes.split_first()?;
        let word = |at| word(fields, at);
        match (kind, bytes.len()) {
            (0, SHORTEST_COMMAND..) => {
                Some(Frame::Command { ticket: word(0), command: fields[4..].to_vec() })
            }
            (1, FINISH_LENGTH) => Some(Frame::Finish {
                stream: word(0),
                queue_type: word(4),
                resource: word(8),
                flags: word(12),
                timestamp: u64::from(word(16)) | u64::from(word(20)) << 32,
            }),
            (2, DRAINED_LENGTH) => Some(Frame::Drained { stream: word(0) }),
            _ => None,
        }
    }

    /// The stream that the step is of. A command under 8 bytes is of none.
    pub fn stream(&self) -> Option<u32> {
        match self {
            Frame::Command { command, .. } => (command.len() >= 8).then(|| word(command, 4)),
            Frame::Finish { stream, .. } | Frame::Drained { stream } => Some(*stream),
        }
    }

    /// Makes the step on this device, and gives the lines that the log program writes for it. There may
    /// be none.
    pub fn replay(&self, decoder: &mut Decoder) -> Vec<AnswerLine> {
        let line = |answer: Answer<'_>| AnswerLine::Response {
            ticket: answer.ticket,
            response: answer.response.to_vec(),
        };
        match self.step(decoder) {
            Ok(answers) => answers.map(line).collect(),
            Err(refusal) => vec![AnswerLine::Refusal(refusal.number() as u8)],
        }
    }

    fn step<'d>(&self, decoder: &'d mut Decoder) -> Result<Answers<'d>, Refusal> {
        match *self {
            Frame::Command { ticket, ref command } => decoder.command(ticket, command),
            // Of any queue type, which a `Finish` has not.
            Frame::Finish { stream, queue_type, resource, flags, timestamp } => {
                let (table, room) = (decoder.table.as_mut_slice(), decoder.room.as_mut_slice());
                let outcome =
                    ffi::finish(table, stream, queue_type, resource, flags, timestamp, room);
                decoder.answers(outcome)
            }
            Frame::Drained { stream } => decoder.drained(stream),
        }
    }
}

/// An answer in a log. It is written as the line is, in lower case.
#[derive(Clone, Debug, PartialEq, Eq)]
pub enum AnswerLine {
    /// `80`: a response to the guest.
    Response {
        /// The ticket of the command that is answered.
        ticket: u32,
        /// The bytes for the guest; in a log that another device wrote, any number of any bytes.
        /// [`Response::from_bytes`](crate::Response::from_bytes) says what they are.
        response: Vec<u8>,
    },
    /// `ff`: the step was refused with that number, which is a [`Refusal`]'s, or 7 for a line that is no
    /// frame; in a log that another device wrote, any number.
    Refusal(u8),
}

impl AnswerLine {
    /// What a line says that begins as an answer; nothing if it goes on as none.
    fn from_line(line: &[u8]) -> Option<AnswerLine> {
        match bytes_of(line)?[..] {
            [0x80, ref rest @ ..] if rest.len() >= 4 => {
                Some(AnswerLine::Response { ticket: word(rest, 0), response: rest[4..].to_vec() })
            }
            [0xff, number] => Some(AnswerLine::Refusal(number)),
            _ => None,
        }
    }
}

impl fmt::Display for AnswerLine {
    fn fmt(&self, f: &mut fmt::Formatter<'_>) -> fmt::Result {
        let mut digits = |bytes: &[u8]| bytes.iter().try_for_each(|byte| write!(f, "{byte:02x}"));
        match self {
            AnswerLine::Response { ticket, response } => {
                digits(&[0x80])?;
                digits(&ticket.to_le_bytes())?;
                digits(response)
            }
            AnswerLine::Refusal(number) => digits(&[0xff, *number]),
        }
    }
}

/// The bytes that a line's digits stand for, of either case; nothing if there is anything else.
fn bytes_of(line: &[u8]) -> Option<Vec<u8>> {
    let digit = |digit: u8| char::from(digit).to_digit(16);
    let pairs = line.chunks_exact(2);
    if !pairs.remainder().is_empty() {
        return None;
    }
    pairs.map(|pair| Some((digit(pair[0])? << 4 | digit(pair[1])?) as u8)).collect()
}
