//! How many answers are pending, by document 02, request 8: the two questions, answered from the words
//! that a table keeps for them, and got by going through every resource and drain of the records. A
//! third way, by the steps and their answers alone, is the book.

use std::collections::BTreeMap;

use super::device::*;
use super::layout::{FIGURES_AT, MARKS_AT, TOTAL_AT, WORDS};

/// "How many answers each stream is owed, and the device owes in all."
#[derive(Clone, Copy, Debug, PartialEq, Eq)]
pub enum Question {
    InAll,
    OfStream(u32),
}

impl Question {
    /// Its number among the kinds of step.
    pub fn kind(self) -> u32 {
        match self {
            Question::InAll => IN_ALL,
            Question::OfStream(_) => OF_STREAM,
        }
    }
}

/// What a question gives back: a refusal number or 0, the figure, and how many words it read.
#[derive(Clone, Copy, Debug, PartialEq, Eq)]
pub struct Pending {
    pub refusal: u32,
    pub pending: u32,
    pub words_read: u32,
}

impl Pending {
    /// "A question tests refusal 1 only, giving 0 and 0 words with it."
    pub const SHORT: Pending = Pending { refusal: 1, pending: 0, words_read: 0 };

    pub fn said(pending: u32, words_read: usize) -> Pending {
        Pending { refusal: 0, pending, words_read: words_read as u32 }
    }

    /// "One for each place looked at up to its own and one for its figure."
    fn found(pending: u32, place: usize) -> Pending {
        Pending::said(pending, place + 2)
    }

    /// "Or eight if it is unknown", and "an unknown stream owes 0".
    fn unknown() -> Pending {
        Pending::said(0, 8)
    }
}

/// What these words hold, whether the table is valid or not.
pub fn by_words(table: &[u32], question: Question) -> Pending {
    if table.len() < WORDS {
        return Pending::SHORT;
    }
    let Question::OfStream(stream) = question else {
        return Pending::said(table[TOTAL_AT], 1);
    };
    for place in 0..PLACES {
        // A mark of 0 is no stream's, and so there is no mark for 2^32 - 1.
        if table[MARKS_AT + place].checked_sub(1) == Some(stream) {
            return Pending::found(table[FIGURES_AT + place], place);
        }
    }
    Pending::unknown()
}

/// The same "got by going through every resource and drain".
pub fn by_records(device: &Device, question: Question) -> Pending {
    match question {
        Question::InAll => Pending::said(device.streams().map(of_stream).sum(), 1),
        Question::OfStream(number) => match device.place_of(number) {
            Some(place) => {
                Pending::found(device.places[place].as_ref().map_or(0, of_stream), place)
            }
            None => Pending::unknown(),
        },
    }
}

/// One answer for each Queued buffer of either queue, and one for a drain.
pub fn of_stream(stream: &Stream) -> u32 {
    let queues = [&stream.input, &stream.output];
    let resources = queues.into_iter().flat_map(|queue| queue.resources.iter().flatten());
    let drains = stream.drain.iter().count();
    (resources.filter(|resource| resource.is_queued()).count() + drains) as u32
}

/// What is pending by stream number, kept by the steps and their answers: "debts not paid are owed".
#[derive(Default)]
pub struct Book(BTreeMap<u32, u32>);

impl Book {
    /// The book of a table that is lent with these records.
    pub fn of(device: &Device) -> Book {
        Book(device.streams().map(|stream| (stream.number, of_stream(stream))).collect())
    }

    /// Notes a step: a command that is taken in silence is owed its answer, and what a step writes
    /// beside its own answer, which is a command's last, was owed.
    pub fn note(&mut self, act: &Act, done: &Done) {
        let mut answered = streams_answered(&done.written);
        if let (Act::Command { frame, .. }, 0) = (act, done.refusal) {
            if answered.pop().is_none() {
                *self.0.entry(word(frame, 4)).or_default() += 1;
            }
        }
        for stream in answered {
            *self.0.get_mut(&stream).expect("an answer to what was owed") -= 1;
        }
    }

    /// The figure that a question is to get.
    pub fn figure(&self, question: Question) -> u32 {
        match question {
            Question::InAll => self.0.values().sum(),
            Question::OfStream(stream) => self.0.get(&stream).copied().unwrap_or(0),
        }
    }
}

/// The stream number in each answer, behind its ticket, byte count and type.
fn streams_answered(mut answers: &[u8]) -> Vec<u32> {
    let mut streams = Vec::new();
    while !answers.is_empty() {
        streams.push(word(answers, 12));
        answers = &answers[8 + word(answers, 4) as usize..];
    }
    streams
}
