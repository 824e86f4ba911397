//! A whole log in words, line by line.

use crate::pending::{Accepted, Asked, Pending};
use crate::{answers, commands, text};
use std::collections::VecDeque;
use std::io::{self, Write};
use virtio_video_decoder::log::{self, AnswerLine, Fault, Frame, Line, Verdict};
use virtio_video_decoder::{Decoder, Response};

/// Writes what the log says, what is pending after each step, and what the checker says of it.
pub fn explain(log: &[u8], out: &mut impl Write) -> io::Result<()> {
    let answered = log::lines(log).any(|line| matches!(Line::read(line), Line::Answer(_)));
    let mut account = Account {
        out,
        verdict: answered.then(|| log::check(log)),
        core: Core::default(),
        step: None,
        pending: Pending::default(),
        unsaid: None,
    };
    let mut end = 1;
    for line in log::lines(log) {
        account.line(end, line)?;
        end += 1;
    }
    account.end(end)
}

/// The core, on which the questions are replayed.
#[derive(Default)]
struct Core {
    decoder: Decoder,
    accepted: Accepted,
}

/// A question of the log, and of the core's answers to it those that the log has not shown.
struct Step {
    question: Frame,
    asked: Option<Asked>,
    due: VecDeque<Due>,
}

/// An answer that the core gives, and the command that it goes to. The refusal of a report goes to none.
struct Due {
    answer: AnswerLine,
    to: Option<Asked>,
}

impl Core {
    fn replay(&mut self, line: u64, question: Frame) -> Step {
        let asked = Asked::by(line, &question);
        let answers = question.replay(&mut self.decoder);
        let ended = match answers.iter().any(turns_down) {
            true => Vec::new(),
            false => self.accepted.step(&question, asked),
        };
        // What a step ends is answered first, then the step itself.
        let to = ended.into_iter().map(Some).chain(std::iter::repeat(asked));
        let due = answers.into_iter().zip(to).map(|(answer, to)| Due { answer, to }).collect();
        Step { question, asked, due }
    }
}

impl Step {
    /// An answer in words, with the command that it goes to if that is another than the question.
    fn in_words(&self, answer: &AnswerLine, to: Option<Asked>) -> String {
        let other = to.filter(|to| Some(to) != self.asked.as_ref());
        let to = other.map(|to| to.in_words());
        answers::in_words(answer, Some(&self.question), to.as_deref())
    }
}

struct Account<'w, W> {
    out: &'w mut W,
    /// The checker's; none where the log has no answers.
    verdict: Option<Verdict>,
    core: Core,
    step: Option<Step>,
    pending: Pending,
    /// The stream of the last step, until it is said what is pending there.
    unsaid: Option<u32>,
}

impl<W: Write> Account<'_, W> {
    fn line(&mut self, number: u64, line: &[u8]) -> io::Result<()> {
        match Line::read(line) {
            Line::Question(frame) => self.question(number, frame),
            Line::Answer(answer) => self.answer(number, line, answer),
            Line::Neither => self.neither(number, line),
        }
    }

    fn question(&mut self, number: u64, frame: Frame) -> io::Result<()> {
        self.say_pending()?;
        writeln!(self.out, "{number:>6}  {}", question_in_words(&frame))?;
        self.mark(number, self.next_due())?;
        self.unsaid = frame.stream();
        let mut step = self.core.replay(number, frame);
        if let Some(asked) = step.asked {
            self.pending.ask(asked);
        }
        if self.verdict.is_none() {
            for Due { answer, to } in std::mem::take(&mut step.due) {
                writeln!(self.out, "            core: {}", step.in_words(&answer, to))?;
                self.pending.answer(&answer, to);
            }
        }
        self.step = Some(step);
        Ok(())
    }

    fn answer(&mut self, number: u64, line: &[u8], answer: Option<AnswerLine>) -> io::Result<()> {
        let due = self.step.as_mut().and_then(|step| step.due.pop_front());
        let words = match answer {
            None => format!("an answer that cannot be read: {}", text::escaped(line)),
            Some(answer) => self.take(&answer, due.as_ref()),
        };
        writeln!(self.out, "{number:>6}      {words}")?;
        let due = self.step.as_ref().zip(due.as_ref());
        self.mark(number, due.map(|(step, due)| due_in_words(step, due)))
    }

    /// Takes in an answer of the log, where this one is due, and gives it in words.
    fn take(&mut self, answer: &AnswerLine, due: Option<&Due>) -> String {
        let right = due.filter(|due| due.answer == *answer);
        let asked = self.step.as_ref().and_then(|step| step.asked);
        // A refusal has no ticket: if it is not the one that is due, it still is to the question.
        let known = match answer {
            AnswerLine::Refusal(_) => asked,
            AnswerLine::Response { .. } => right.and_then(|due| due.to),
        };
        let to = self.pending.answer(answer, known);
        match &self.step {
            Some(step) => step.in_words(answer, to),
            None => answers::in_words(answer, None, None),
        }
    }

    fn neither(&mut self, number: u64, line: &[u8]) -> io::Result<()> {
        self.say_pending()?;
        let (why, line) = (text::why_neither(line), text::escaped(line));
        let colon = if line.is_empty() { "" } else { ": " };
        writeln!(self.out, "{number:>6}  neither a frame nor an answer ({why}){colon}{line}")?;
        if self.verdict.is_none() {
            let refusal = answers::in_words(&AnswerLine::Refusal(7), None, None);
            writeln!(self.out, "            core: {refusal}")?;
        }
        self.mark(number, None)
    }

    /// What is pending after the last step, once its answers were shown.
    fn say_pending(&mut self) -> io::Result<()> {
        match self.unsaid.take() {
            Some(stream) => writeln!(self.out, "            {}", self.pending.in_words(stream)),
            None => Ok(()),
        }
    }

    /// The answer that is due next, as a line and in words.
    fn next_due(&self) -> Option<(String, String)> {
        let step = self.step.as_ref()?;
        step.due.front().map(|due| due_in_words(step, due))
    }

    /// The checker's verdict, if this is the line that it names. `due` is the answer that is due here.
    fn mark(&mut self, number: u64, due: Option<(String, String)>) -> io::Result<()> {
        let fault = match self.verdict {
            Some(Verdict::Wrong { line, fault }) if line == number => fault,
            _ => return Ok(()),
        };
        let (line, words) = due.unwrap_or_default();
        let what = match fault {
            Fault::Missing => format!("before this the core answers {line}"),
            Fault::Different => format!("the core answers {line}"),
            Fault::Extra => "no answer is due here".to_owned(),
            Fault::Refused => "no line of a log".to_owned(),
        };
        writeln!(self.out, "        ^^^ {fault}: {what}")?;
        match fault {
            Fault::Missing | Fault::Different => writeln!(self.out, "            {words}"),
            Fault::Extra | Fault::Refused => Ok(()),
        }
    }

    /// The verdict, and who still waits. `number` is one past the last line.
    fn end(&mut self, number: u64) -> io::Result<()> {
        self.say_pending()?;
        if matches!(self.verdict, Some(Verdict::Wrong { line, .. }) if line == number) {
            writeln!(self.out, "{number:>6}  the end of the log")?;
            self.mark(number, self.next_due())?;
        }
        writeln!(self.out)?;
        match self.verdict {
            None => writeln!(self.out, "The log has no answers, so there was nothing to check.")?,
            Some(Verdict::Accepted) => writeln!(self.out, "The checker says: accepted")?,
            Some(wrong) => {
                writeln!(self.out, "The checker says: {wrong}")?;
                writeln!(self.out, "It stops there: nothing behind that line was checked.")?;
            }
        }
        self.say_pending_at_the_end()
    }

    fn say_pending_at_the_end(&mut self) -> io::Result<()> {
        let mut streams = self.pending.streams().peekable();
        match streams.peek() {
            None => writeln!(self.out, "At the end nothing is pending.")?,
            Some(_) => writeln!(self.out, "At the end:")?,
        }
        for stream in streams {
            writeln!(self.out, "    {}", self.pending.in_words(stream))?;
        }
        Ok(())
    }
}

fn due_in_words(step: &Step, due: &Due) -> (String, String) {
    (due.answer.to_string(), step.in_words(&due.answer, due.to))
}

fn question_in_words(frame: &Frame) -> String {
    match *frame {
        Frame::Command { ticket, ref command } => {
            format!("command, ticket {ticket}: {}", commands::in_words(command))
        }
        Frame::Finish { stream, queue_type, resource, flags, timestamp } => {
            let (resource, flags) = (text::resource(queue_type, resource), text::flags(flags));
            format!("report: finish, stream {stream}: {resource}, timestamp {timestamp}{flags}")
        }
        Frame::Drained { stream } => format!("report: drained, stream {stream}"),
    }
}

/// Whether this answer says that the step was not accepted.
fn turns_down(answer: &AnswerLine) -> bool {
    match answer {
        AnswerLine::Refusal(_) => true,
        AnswerLine::Response { response, .. } => {
            matches!(Response::from_bytes(response), Some(Response::Error { .. }))
        }
    }
}
