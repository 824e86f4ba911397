//! Which commands wait for their answers.

use crate::commands;
use crate::text::{self, Fields};
use std::collections::BTreeMap;
use virtio_video_decoder::log::{AnswerLine, Frame};
use virtio_video_decoder::wire;

/// What a command wants. In this order the core answers what a step ends: inputs and outputs, each by
/// rising number, and the drain.
#[derive(Clone, Copy, Debug, PartialEq, Eq, PartialOrd, Ord)]
enum Wanted {
    Buffer {
        queue_type: u32,
        resource: u32,
    },
    Drain,
    /// Something else, by the command's type.
    Other(u32),
}

impl Wanted {
    fn by(command: Fields<'_>) -> Wanted {
        match command.word(0) {
            wire::CMD_RESOURCE_QUEUE => {
                Wanted::Buffer { queue_type: command.word(8), resource: command.word(12) }
            }
            wire::CMD_STREAM_DRAIN => Wanted::Drain,
            other => Wanted::Other(other),
        }
    }

    fn in_words(self) -> String {
        match self {
            Wanted::Buffer { queue_type, resource } => text::resource(queue_type, resource),
            Wanted::Drain => "drain".to_owned(),
            Wanted::Other(number) => commands::name(number),
        }
    }
}

/// A command of the log.
#[derive(Clone, Copy, Debug, PartialEq, Eq)]
pub struct Asked {
    line: u64,
    ticket: u32,
    stream: u32,
    wanted: Wanted,
}

impl Asked {
    /// The command of a line. A report is none, and without a whole header nothing is known of it.
    pub fn by(line: u64, question: &Frame) -> Option<Asked> {
        let Frame::Command { ticket, ref command } = *question else { return None };
        let wanted = Wanted::by(Fields(command));
        question.stream().map(|stream| Asked { line, ticket, stream, wanted })
    }

    pub fn in_words(&self) -> String {
        format!("{} of line {}", self.wanted.in_words(), self.line)
    }
}

/// The commands to which the log shows no answer yet, by their streams. A log may leave any number of
/// them unanswered, so that each is found without a look at the others.
#[derive(Default)]
pub struct Pending(BTreeMap<u32, OfStream>);

#[derive(Default)]
struct OfStream {
    by_wanted: BTreeMap<(Wanted, u64), Asked>,
    by_ticket: BTreeMap<(u32, u64), Asked>,
}

impl Pending {
    pub fn ask(&mut self, asked: Asked) {
        let of_stream = self.0.entry(asked.stream).or_default();
        of_stream.by_wanted.insert((asked.wanted, asked.line), asked);
        of_stream.by_ticket.insert((asked.ticket, asked.line), asked);
    }

    /// Takes in an answer and gives the command that it goes to: `to` where that is known, else the
    /// oldest one with its ticket and stream.
    pub fn answer(&mut self, answer: &AnswerLine, to: Option<Asked>) -> Option<Asked> {
        let asked = to.or_else(|| self.oldest(answer))?;
        let of_stream = self.0.get_mut(&asked.stream)?;
        of_stream.by_wanted.remove(&(asked.wanted, asked.line))?;
        of_stream.by_ticket.remove(&(asked.ticket, asked.line));
        if of_stream.by_wanted.is_empty() {
            self.0.remove(&asked.stream);
        }
        Some(asked)
    }

    fn oldest(&self, answer: &AnswerLine) -> Option<Asked> {
        let AnswerLine::Response { ticket, response } = answer else { return None };
        let of_stream = self.0.get(&Fields(response).word(4))?;
        let mut of_ticket = of_stream.by_ticket.range((*ticket, 0)..=(*ticket, u64::MAX));
        of_ticket.next().map(|(_, asked)| *asked)
    }

    /// The streams in which a command waits.
    pub fn streams(&self) -> impl Iterator<Item = u32> + '_ {
        self.0.keys().copied()
    }

    /// Who waits in this stream; of more than the core ever keeps waiting, the first.
    pub fn in_words(&self, stream: u32) -> String {
        const SHOWN: usize = 2 * wire::MAX_RESOURCES + 1;
        let Some(OfStream { by_wanted, .. }) = self.0.get(&stream) else {
            return format!("stream {stream}: nothing pending");
        };
        let waits = |asked: &Asked| {
            let Asked { line, ticket, wanted, .. } = asked;
            format!("{} (ticket {ticket}, line {line})", wanted.in_words())
        };
        let mut waiting: Vec<String> = by_wanted.values().take(SHOWN).map(waits).collect();
        if by_wanted.len() > SHOWN {
            waiting.push(format!("{} more", by_wanted.len() - SHOWN));
        }
        format!("stream {stream}: pending {}", waiting.join(", "))
    }
}

/// The queueings and drains that the core accepted and has not answered, which tells to whom its
/// answers go also where tickets repeat.
#[derive(Default)]
pub struct Accepted(BTreeMap<(u32, Wanted), Asked>);

impl Accepted {
    /// Takes in a step that the core accepted. Gives the commands that it ends, in the order of their
    /// answers.
    pub fn step(&mut self, question: &Frame, asked: Option<Asked>) -> Vec<Asked> {
        match *question {
            Frame::Command { ref command, .. } => match asked {
                Some(asked) => self.command(asked, Fields(command)),
                None => Vec::new(),
            },
            Frame::Finish { stream, queue_type, resource, flags, .. } => {
                let buffer = Wanted::Buffer { queue_type, resource };
                let last = flags & wire::BUFFER_FLAG_EOS != 0;
                self.end(stream, |wanted| wanted == buffer || last && wanted == Wanted::Drain)
            }
            Frame::Drained { stream } => self.end(stream, |wanted| wanted == Wanted::Drain),
        }
    }

    fn command(&mut self, asked: Asked, command: Fields<'_>) -> Vec<Asked> {
        match (asked.wanted, command.word(8)) {
            (Wanted::Buffer { .. } | Wanted::Drain, _) => {
                self.0.insert((asked.stream, asked.wanted), asked);
                Vec::new()
            }
            (Wanted::Other(wire::CMD_QUEUE_CLEAR), queue) => {
                self.end(asked.stream, |wanted| match wanted {
                    Wanted::Buffer { queue_type, .. } => queue_type == queue,
                    // It ends with a clear of the input.
                    _ => queue == wire::QUEUE_TYPE_INPUT,
                })
            }
            (Wanted::Other(wire::CMD_STREAM_DESTROY), _) => self.end(asked.stream, |_| true),
            _ => Vec::new(),
        }
    }

    /// Takes out what of this stream is ended.
    fn end(&mut self, stream: u32, ended: impl Fn(Wanted) -> bool) -> Vec<Asked> {
        let mut out = Vec::new();
        self.0.retain(|&(of, wanted), asked| {
            let ends = of == stream && ended(wanted);
            if ends {
                out.push(*asked);
            }
            !ends
        });
        out
    }
}
