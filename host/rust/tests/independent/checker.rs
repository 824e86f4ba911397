//! The checker of other makers' logs by document 02, request 7: the bytes of a log in, questions and
//! answers mixed, and a verdict out.
//!
//! Like the log program, it was written from the document alone and shares nothing with the core.

use std::collections::VecDeque;
use std::fmt;

use super::device::Device;
use super::log::{frame, lines, Log, MOST_DIGITS, NO_FRAME};

/// What is wrong with a line.
#[derive(Clone, Copy, Debug, PartialEq, Eq)]
pub enum Fault {
    /// "Missing where a question or the end stands in an answer's stead."
    Missing,
    /// "Extra where no answer is due."
    Extra,
    /// "Different where an answer stands with other bytes."
    Different,
    /// "Neither a frame nor an answer, or over the base's length."
    Refused,
}

/// It accepts, "otherwise it names the first wrong line, counted from 1, the end being one past the
/// last".
#[derive(Clone, Copy, Debug, PartialEq, Eq)]
pub enum Verdict {
    Accepted,
    Wrong(usize, Fault),
}

/// The line that the program writes, without its byte 10.
impl fmt::Display for Verdict {
    fn fmt(&self, f: &mut fmt::Formatter) -> fmt::Result {
        match self {
            Verdict::Accepted => write!(f, "accepted"),
            Verdict::Wrong(line, Fault::Missing) => write!(f, "line {line}: missing"),
            Verdict::Wrong(line, Fault::Extra) => write!(f, "line {line}: extra"),
            Verdict::Wrong(line, Fault::Different) => write!(f, "line {line}: different"),
            Verdict::Wrong(line, Fault::Refused) => write!(f, "line {line}: refused {NO_FRAME}"),
        }
    }
}

impl Verdict {
    /// The line, 0 where there is none, and the verdict's number, as the archive gives them.
    pub fn numbers(self) -> (u64, u32) {
        match self {
            Verdict::Accepted => (0, 0),
            Verdict::Wrong(line, Fault::Missing) => (line as u64, 1),
            Verdict::Wrong(line, Fault::Extra) => (line as u64, 2),
            Verdict::Wrong(line, Fault::Different) => (line as u64, 3),
            Verdict::Wrong(line, Fault::Refused) => (line as u64, NO_FRAME),
        }
    }
}

/// What a line is taken for.
#[derive(Clone, Copy, Debug, PartialEq, Eq)]
pub enum Sort {
    Question,
    Answer,
    Neither,
}

/// "A line beginning 80 or ff is an answer", whatever follows, but for one "over the base's length".
pub fn sort(line: &[u8]) -> Sort {
    let begins = |digits: &[u8]| line.get(..2).is_some_and(|two| same(two, digits));
    if line.len() > MOST_DIGITS {
        Sort::Neither
    } else if begins(b"80") || begins(b"ff") {
        Sort::Answer
    } else if frame(line).is_some() {
        Sort::Question
    } else {
        Sort::Neither
    }
}

/// "The case of digits is no difference." What our definition gives is digits only, so that nothing
/// else has a case here.
pub fn same(stands: &[u8], due: &[u8]) -> bool {
    stands.eq_ignore_ascii_case(due)
}

/// The verdict on a whole log.
pub fn check(log: &[u8]) -> Verdict {
    check_by(Device::default(), log)
}

/// The same by any device, such as one with a slip.
pub fn check_by(device: Device, log: &[u8]) -> Verdict {
    let mut definition = Log { device };
    let lines = lines(log);
    let mut due = VecDeque::new();
    for (&line, number) in lines.iter().zip(1..) {
        match sort(line) {
            Sort::Neither => return Verdict::Wrong(number, Fault::Refused),
            Sort::Question if !due.is_empty() => return Verdict::Wrong(number, Fault::Missing),
            Sort::Question => due.extend(answers(&mut definition, line)),
            Sort::Answer => match due.pop_front() {
                None => return Verdict::Wrong(number, Fault::Extra),
                Some(due) if same(line, &due) => {}
                Some(_) => return Verdict::Wrong(number, Fault::Different),
            },
        }
    }
    if due.is_empty() {
        Verdict::Accepted
    } else {
        Verdict::Wrong(lines.len() + 1, Fault::Missing)
    }
}

/// "The answers after each step are exactly those our definition gives for it": the lines that the log
/// program writes, each without its byte 10.
pub fn answers(definition: &mut Log, question: &[u8]) -> Vec<Vec<u8>> {
    lines(&definition.line(question)).into_iter().map(<[u8]>::to_vec).collect()
}
