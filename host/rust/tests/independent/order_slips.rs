//! Slips of order: wrong variants in which what a finish without EOS gives or leaves depends on the
//! finishes of its stream that came before it.

use super::device::*;
use super::frames::{put, put_long};
use super::layout::{
    self, BLOCK, DRAIN_AT, FIGURES_AT, INPUT_AT, MARKS_AT, SPENT_END, TOTAL_AT, UNUSED_AT, WORDS,
};
use super::on_words::{on_words, Core, OnWords, Outcome};
use super::pending;
use super::pending_slips::place_of;
use super::random::queue;
use super::slips::Slip;
use OrderSlip::*;

/// What the buffers of a queue have to come in the order of.
#[derive(Clone, Copy, Debug, PartialEq, Eq)]
pub enum By {
    Slot,
    Number,
    Timestamp,
}

#[derive(Clone, Copy, Debug, PartialEq, Eq)]
pub enum OrderSlip {
    // Of what is refused with 5.
    /// A buffer that is not the first of those Queued in its queue.
    NotFirst(By),
    /// With a drain pending, an output while an input is Queued.
    OutputWhileDraining,
    /// With a drain pending and no input Queued, the last Queued output.
    LastOutputWithoutEos,
    /// An output while the input of the same number is Queued.
    OutputBeforeItsInput,

    // Of the answer.
    /// It carries the ticket of the buffer that is Queued in the lowest slot of the queue.
    TicketOfFirst,
    /// An input's carries the lowest timestamp that is Queued with the inputs.
    InputOfOldest,
    /// An output's carries the timestamp of the input that is Queued in the lowest slot, if one is.
    OutputOfFirstInput,
    /// It carries ERR once a report of the stream did.
    ErrSticks,
    /// With a drain pending and no input Queued, that of the last Queued output carries EOS.
    EosOnLast,
    /// Its size is the number of answers that are still pending.
    SizeOfPending,
    /// The number of answers that are still pending stands behind it in the room.
    PendingInRoom,
    /// Where the drain alone is still pending, the byte count is that of an answer to it too.
    DrainCounted,
    /// The number is looked for among the inputs first, whatever the queue type.
    InputLookedForFirst,

    // Of the records.
    /// The resource in the last used slot of the queue and the finished one change places.
    LastTakesSlot,
    /// The finished resource goes behind all others of its queue.
    FinishedGoesLast,
    /// The last buffer that was Queued in its queue is Created again.
    LastIsCreated,
    /// With an input, the output of the same number is Dequeued too, unanswered.
    InputTakesOutput,
    /// With ERR, all others of the queue are Dequeued too, unanswered.
    ErrTakesQueue,
    /// With ERR, the timestamps of all others of the queue become 0.
    ErrForgetsTimestamps,
    /// The rate of the outputs is taken from the timestamp of the last one.
    RateOfLast,
    /// A pending drain takes on the ticket of the last buffer.
    DrainOfLastTicket,
    /// Where nothing is Queued any more, the drain is answered too.
    NothingQueuedEndsDrain,
    /// An input after which nothing is Queued any more drops the drain, unanswered.
    LastInputDropsDrain,

    // Of the other words.
    /// The number of the last resource is kept in this word of the stream's block, or of the table.
    LastKept(usize),
    /// A finish with ERR leaves the figures to the next one to settle.
    ErrLeavesFigures,
    /// A finish of an output leaves the total to the next one to settle.
    OutputLeavesTotal,
}

const NAMED: [OrderSlip; 33] = [
    NotFirst(By::Slot),
    NotFirst(By::Number),
    NotFirst(By::Timestamp),
    OutputWhileDraining,
    LastOutputWithoutEos,
    OutputBeforeItsInput,
    TicketOfFirst,
    InputOfOldest,
    OutputOfFirstInput,
    ErrSticks,
    EosOnLast,
    SizeOfPending,
    PendingInRoom,
    DrainCounted,
    InputLookedForFirst,
    LastTakesSlot,
    FinishedGoesLast,
    LastIsCreated,
    InputTakesOutput,
    ErrTakesQueue,
    ErrForgetsTimestamps,
    RateOfLast,
    DrainOfLastTicket,
    NothingQueuedEndsDrain,
    LastInputDropsDrain,
    LastKept(OWN_WORD),
    LastKept(INPUT_AT),
    LastKept(BLOCK - 1),
    LastKept(SPENT_END),
    LastKept(WORDS - 1),
    LastKept(WORDS),
    ErrLeavesFigures,
    OutputLeavesTotal,
];

/// Slips of finishes for which order matters too, though they were made for something else.
const OF_DRAINS: [Slip; 7] = [
    Slip::OutputsWaitForInputs,
    Slip::LastInputEndsDrain,
    Slip::LastOutputEndsDrain,
    Slip::EndedBy(INPUT, 0),
    Slip::EndedBy(INPUT, ERR),
    Slip::EndedBy(OUTPUT, 0),
    Slip::EndedBy(OUTPUT, ERR),
];

/// A word without use of a block.
const OWN_WORD: usize = 5;

/// Every slip that two orders of one run have to show.
pub fn all() -> Vec<Slip> {
    NAMED.into_iter().map(Slip::Order).chain(OF_DRAINS).collect()
}

/// On the words.
impl OrderSlip {
    /// A finish report on a lent table.
    pub fn finish(self, table: &mut [u32], report: &Report, room: &mut [u8]) -> Outcome {
        match (self, place_of(table, report.stream)) {
            (ErrSticks | LastKept(_), Some(place)) => self.keep(place, table, report, room),
            (ErrLeavesFigures | OutputLeavesTotal, _) => self.settle_late(table, report, room),
            (PendingInRoom | DrainCounted, Some(place)) => {
                let outcome = OnWords(None).finish(table, report, room);
                self.say_more(place, table, outcome, room)
            }
            _ => on_words(None, FINISH, table, room, |device, room| {
                self.finish_records(device, report, room)
            }),
        }
    }

    /// The step beside a word of the slip's own, which is 0 to the device itself.
    fn keep(self, place: usize, table: &mut [u32], report: &Report, room: &mut [u8]) -> Outcome {
        let at = match self {
            LastKept(at @ BLOCK..) => at,
            LastKept(at) => place * BLOCK + at,
            _ => place * BLOCK + OWN_WORD,
        };
        let kept = table.get_mut(at).map_or(0, std::mem::take);
        let sticks = if self == ErrSticks { kept } else { 0 };
        let report = Report { flags: report.flags | sticks, ..*report };
        let outcome = OnWords(None).finish(table, &report, room);
        if let Some(word) = table.get_mut(at) {
            *word = match self {
                _ if outcome.refusal != 0 => kept,
                ErrSticks => report.flags & ERR,
                _ => report.resource,
            };
        }
        outcome
    }

    /// The step on figures that are settled before it, and not always after it.
    fn settle_late(self, table: &mut [u32], report: &Report, room: &mut [u8]) -> Outcome {
        let (late, part) = match self {
            OutputLeavesTotal => (report.queue_type == OUTPUT, TOTAL_AT..MARKS_AT),
            _ => (report.flags & ERR != 0, TOTAL_AT..UNUSED_AT),
        };
        let kept = table[part.clone()].to_vec();
        layout::settle(table);
        let outcome = OnWords(None).finish(table, report, room);
        if late || outcome.refusal != 0 {
            table[part].copy_from_slice(&kept);
        }
        outcome
    }

    /// More is given back than was written, or more is written than is given back.
    fn say_more(self, place: usize, table: &[u32], outcome: Outcome, room: &mut [u8]) -> Outcome {
        let Outcome { refusal, written } = outcome;
        if refusal != 0 {
            return outcome;
        }
        if self == PendingInRoom {
            put(room, written as usize, table[FIGURES_AT + place]);
            return outcome;
        }
        let drain_alone = [table[FIGURES_AT + place], table[place * BLOCK + DRAIN_AT]] == [1, 1];
        Outcome { refusal, written: written + if drain_alone { 16 } else { 0 } }
    }
}

/// On the records.
impl OrderSlip {
    fn finish_records(self, device: &mut Device, report: &Report, room: usize) -> Done {
        let Some(before) = device.stream(report.stream).cloned() else {
            return device.finish(report, room);
        };
        if self.refuses(&before, report) {
            return Done::refused(5, "out of order");
        }
        let report = self.read(&before, report);
        let mut done = device.finish(&report, room);
        let mut streams = device.places.iter_mut().flatten();
        let stream = streams.find(|stream| stream.number == report.stream);
        if let (0, Some(stream)) = (done.refusal, stream) {
            self.change_answer(&before, &report, &mut done.written);
            self.change_queue(stream, &report);
            self.change_stream(stream, &report, &mut done.written);
        }
        done
    }

    fn refuses(self, stream: &Stream, report: &Report) -> bool {
        let output = report.queue_type == OUTPUT;
        let draining = output && stream.drain.is_some();
        let inputs = stream.input.any_queued();
        match self {
            NotFirst(by) => first(queue(stream, report.queue_type), by) != Some(report.resource),
            OutputWhileDraining => draining && inputs,
            LastOutputWithoutEos => draining && !inputs && stream.output.queued() == 1,
            OutputBeforeItsInput => output && stream.has_queued(INPUT, report.resource),
            _ => false,
        }
    }

    /// The report as it is read.
    fn read(self, stream: &Stream, report: &Report) -> Report {
        let queue_type = match self {
            InputLookedForFirst if stream.has_queued(INPUT, report.resource) => INPUT,
            InputLookedForFirst => OUTPUT,
            _ => report.queue_type,
        };
        Report { queue_type, ..*report }
    }

    /// Changes the answer, by the stream before the step.
    fn change_answer(self, before: &Stream, report: &Report, answer: &mut [u8]) {
        let input = report.queue_type == INPUT;
        let (first_ticket, _) = queued(queue(before, report.queue_type)).next().unwrap_or_default();
        let inputs = || queued(&before.input).map(|(_, timestamp)| timestamp);
        let last_output = !before.input.any_queued() && before.output.queued() == 1;
        match self {
            TicketOfFirst => put(answer, 0, first_ticket),
            InputOfOldest if input => put_long(answer, 16, inputs().min().unwrap_or_default()),
            OutputOfFirstInput if !input => {
                put_long(answer, 16, inputs().next().unwrap_or(report.timestamp))
            }
            EosOnLast if !input && last_output && before.drain.is_some() => {
                put(answer, 24, report.flags | EOS)
            }
            SizeOfPending => put(answer, 28, pending::of_stream(before) - 1),
            _ => {}
        }
    }

    /// Changes the queue after the step.
    fn change_queue(self, stream: &mut Stream, report: &Report) {
        let Some(queue_type) = QueueType::of(report.queue_type) else { return };
        let queue = stream.queue(queue_type);
        let any_queued = queue.any_queued();
        let slots = &mut queue.resources;
        let finished =
            |slot: &Option<Resource>| slot.is_some_and(|it| it.number == report.resource);
        let Some(at) = slots.iter().position(finished) else { return };
        let others = slots.iter_mut().flatten().map(|other| &mut other.state);
        let others = others.filter(|state| matches!(state, State::Queued { .. }));
        match self {
            LastTakesSlot => {
                if let Some(last) = slots.iter().rposition(Option::is_some) {
                    slots.swap(at, last);
                }
            }
            FinishedGoesLast => slots[at..].rotate_left(1),
            LastIsCreated if !any_queued => {
                slots[at] = Some(Resource { number: report.resource, state: State::Created })
            }
            ErrTakesQueue if report.flags == ERR => {
                others.for_each(|state| *state = State::Dequeued)
            }
            ErrForgetsTimestamps if report.flags == ERR => others.for_each(forget_timestamp),
            _ => {}
        }
    }

    /// Changes the rest of the stream after the step, and writes another answer.
    fn change_stream(self, stream: &mut Stream, report: &Report, written: &mut Vec<u8>) {
        let input = report.queue_type == INPUT;
        let nothing_queued = !stream.input.any_queued() && !stream.output.any_queued();
        match self {
            InputTakesOutput if input && stream.has_queued(OUTPUT, report.resource) => {
                if let Some(output) = stream.output.find(report.resource) {
                    output.state = State::Dequeued;
                }
            }
            RateOfLast if !input => stream.output.parameters.rate = report.timestamp as u32,
            DrainOfLastTicket => stream.drain = stream.drain.map(|_| word(written, 0)),
            LastInputDropsDrain if input && nothing_queued => stream.drain = None,
            NothingQueuedEndsDrain if nothing_queued => {
                if let Some(ticket) = stream.drain.take() {
                    let answer = [ticket, 8, OK_NODATA, stream.number];
                    written.extend(answer.into_iter().flat_map(u32::to_le_bytes));
                }
            }
            _ => {}
        }
    }
}

/// The ticket and timestamp of each Queued buffer of a queue, by slots.
fn queued(queue: &Queue) -> impl Iterator<Item = (u32, u64)> + '_ {
    queue.resources.iter().flatten().filter_map(|resource| match resource.state {
        State::Queued { ticket, timestamp } => Some((ticket, timestamp)),
        _ => None,
    })
}

/// The number of the first buffer that is Queued in a queue.
fn first(queue: &Queue, by: By) -> Option<u32> {
    let mut queued = queue.resources.iter().flatten().filter(|resource| resource.is_queued());
    let first = match by {
        By::Slot => queued.next(),
        By::Number => queued.min_by_key(|resource| resource.number),
        By::Timestamp => queued.min_by_key(|resource| match resource.state {
            State::Queued { timestamp, .. } => timestamp,
            _ => u64::MAX,
        }),
    };
    first.map(|resource| resource.number)
}

fn forget_timestamp(state: &mut State) {
    if let State::Queued { timestamp, .. } = state {
        *timestamp = 0;
    }
}
