//! The independent device on a lent table: the same work as the core, the test of validity
//! included.

use super::device::*;
use super::layout::{
    self, BLOCK, DRAIN_AT, INPUT_AT, OUTPUT_AT, SLOT, SLOTS_AT, SPENT_AT, SPENT_END, TAIL_AT, WORDS,
};
use super::pending::{by_words, Pending, Question};
use super::pending_slips::PendingSlip;
use super::slips::Slip;

/// What a step gives back: a refusal number or 0, with the number of bytes written.
#[derive(Clone, Copy, Debug, PartialEq, Eq)]
pub struct Outcome {
    pub refusal: u32,
    pub written: u32,
}

/// The six entries of a core.
pub trait Core {
    fn fresh(&self, table: &mut [u32]) -> u32;
    fn command(&self, table: &mut [u32], ticket: u32, frame: &[u8], answers: &mut [u8]) -> Outcome;
    fn finish(&self, table: &mut [u32], report: &Report, answers: &mut [u8]) -> Outcome;
    fn drained(&self, table: &mut [u32], stream: u32, answers: &mut [u8]) -> Outcome;
    fn pending_in_all(&self, table: &[u32]) -> Pending;
    fn pending_of_stream(&self, table: &[u32], stream: u32) -> Pending;

    fn step(&self, table: &mut [u32], act: &Act, answers: &mut [u8]) -> Outcome {
        by_kind(self, table, act, answers)
    }

    fn ask(&self, table: &[u32], question: Question) -> Pending {
        match question {
            Question::InAll => self.pending_in_all(table),
            Question::OfStream(stream) => self.pending_of_stream(table, stream),
        }
    }
}

/// A step through the entry of its kind.
fn by_kind(
    core: &(impl Core + ?Sized),
    table: &mut [u32],
    act: &Act,
    answers: &mut [u8],
) -> Outcome {
    match act {
        Act::Command { ticket, frame } => core.command(table, *ticket, frame, answers),
        Act::Finish(report) => core.finish(table, report, answers),
        Act::Drained { stream } => core.drained(table, *stream, answers),
    }
}

/// The independent device as a core, with a slip or none.
#[derive(Clone, Copy, Debug, Default)]
pub struct OnWords(pub Option<Slip>);

impl Core for OnWords {
    fn fresh(&self, table: &mut [u32]) -> u32 {
        if table.len() < needed(self.0, FRESH) {
            return 1;
        }
        let end = match self.0 {
            Some(Slip::FreshAllWords) => table.len(),
            Some(Slip::FreshFills(words)) => words,
            _ => WORDS,
        };
        let kept = match self.0 {
            Some(Slip::FreshKeepsSpent) => SPENT_AT..SPENT_END,
            Some(Slip::Pending(PendingSlip::FreshKeeps(part))) => part.words(),
            _ => 0..0,
        };
        for (at, word) in table.iter_mut().enumerate().take(end) {
            if !kept.contains(&at) {
                *word = 0;
            }
        }
        0
    }

    fn command(&self, table: &mut [u32], ticket: u32, frame: &[u8], answers: &mut [u8]) -> Outcome {
        match (self.0, word(frame, 0), frame.len()) {
            (Some(Slip::QueueHeadStopsQueueing), RESOURCE_QUEUE, 64) => {
                queue_unless_stopped(table, ticket, frame, answers)
            }
            (Some(Slip::ClearSetsQueueHead), QUEUE_CLEAR, 16) => {
                clear_and_mark(table, ticket, frame, answers)
            }
            _ => on_words(self.0, COMMAND, table, answers, |device, room| {
                device.command(ticket, frame, room)
            }),
        }
    }

    fn finish(&self, table: &mut [u32], report: &Report, answers: &mut [u8]) -> Outcome {
        match self.0 {
            Some(Slip::Order(slip)) => slip.finish(table, report, answers),
            _ => {
                on_words(self.0, FINISH, table, answers, |device, room| device.finish(report, room))
            }
        }
    }

    fn drained(&self, table: &mut [u32], stream: u32, answers: &mut [u8]) -> Outcome {
        on_words(self.0, DRAINED, table, answers, |device, room| device.drained(stream, room))
    }

    fn pending_in_all(&self, table: &[u32]) -> Pending {
        asked(self.0, table, Question::InAll)
    }

    fn pending_of_stream(&self, table: &[u32], stream: u32) -> Pending {
        asked(self.0, table, Question::OfStream(stream))
    }

    fn step(&self, table: &mut [u32], act: &Act, answers: &mut [u8]) -> Outcome {
        let mut step = |table: &mut [u32]| by_kind(self, table, act, answers);
        match self.0 {
            Some(Slip::Pending(slip)) => slip.miscount(act, table, step),
            _ => step(table),
        }
    }
}

/// A question, which has no test but that of the table's length.
fn asked(slip: Option<Slip>, table: &[u32], question: Question) -> Pending {
    match slip {
        Some(Slip::Pending(slip)) => slip.ask(table, question),
        Some(Slip::Needs(..)) if table.len() < needed(slip, question.kind()) => Pending::SHORT,
        Some(Slip::Needs(..)) => by_words(&filled(table), question),
        _ => by_words(table, question),
    }
}

/// The words of a table, those that are missing being zero, which only a slip gets to see.
pub fn filled(table: &[u32]) -> Vec<u32> {
    let mut whole = table.to_vec();
    whole.resize(WORDS.max(table.len()), 0);
    whole
}

/// One step on a lent table and answer room: test, read, step, write back.
pub fn step_on_words(table: &mut [u32], act: &Act, room: &mut [u8]) -> Outcome {
    OnWords(None).step(table, act, room)
}

/// A queueing under `QueueHeadStopsQueueing`.
fn queue_unless_stopped(
    table: &mut [u32],
    ticket: u32,
    frame: &[u8],
    answers: &mut [u8],
) -> Outcome {
    let stopped = head_named(table, frame).is_some_and(|head| table[head] != 0);
    let slip = stopped.then_some(Slip::QueueHeadOf1Taken);
    on_words(slip, COMMAND, table, answers, |device, room| {
        if !stopped {
            return device.command(ticket, frame, room);
        }
        let answer = [ticket, 8, INVALID_OPERATION, word(frame, 4)];
        Done::taken(answer.into_iter().flat_map(u32::to_le_bytes).collect())
    })
}

/// A clear under `ClearSetsQueueHead`.
fn clear_and_mark(table: &mut [u32], ticket: u32, frame: &[u8], answers: &mut [u8]) -> Outcome {
    let outcome = OnWords(None).command(table, ticket, frame, answers);
    if let (0, Some(head)) = (outcome.refusal, head_named(table, frame)) {
        table[head] = 1;
    }
    outcome
}

/// Where word 0 of the queue stands that a frame names, if it does.
fn head_named(table: &[u32], frame: &[u8]) -> Option<usize> {
    let in_block = match QueueType::of(word(frame, 8))? {
        QueueType::Input => INPUT_AT,
        QueueType::Output => OUTPUT_AT,
    };
    let mut blocks = table.chunks_exact(BLOCK).take(PLACES);
    let place = blocks.position(|block| block[0] == 1 && block[1] == word(frame, 4))?;
    Some(place * BLOCK + in_block)
}

/// The words that a table has to have.
fn needed(slip: Option<Slip>, kind: u32) -> usize {
    match slip {
        Some(Slip::Needs(of, words)) if of == kind => words,
        _ => WORDS,
    }
}

fn refuse(refusal: u32) -> Outcome {
    Outcome { refusal, written: 0 }
}

/// A step of this kind, "tested 1, 3, 2, then" the step's own.
pub fn on_words(
    slip: Option<Slip>,
    kind: u32,
    table: &mut [u32],
    room: &mut [u8],
    step: impl FnOnce(&mut Device, usize) -> Done,
) -> Outcome {
    if table.len() < needed(slip, kind) {
        return refuse(1);
    }
    if table.len() < WORDS {
        let mut whole = filled(table);
        let outcome = on_words(slip, kind, &mut whole, room, step);
        table.copy_from_slice(&whole[..table.len()]);
        return outcome;
    }
    if room.len() < ROOM && !slip.is_some_and(|slip| slip.leaves_room_to_device(kind)) {
        match slip {
            Some(Slip::ShortRoomSpends) => spend_all_the_same(table, step),
            Some(Slip::ShortRoomEndsDrain) => drain_all_the_same(table, step),
            _ => {}
        }
        return refuse(3);
    }
    on_enough(slip, kind, table, room, step)
}

/// A step with words and room enough: the table is tested, read, and written back.
fn on_enough(
    slip: Option<Slip>,
    kind: u32,
    table: &mut [u32],
    room: &mut [u8],
    step: impl FnOnce(&mut Device, usize) -> Done,
) -> Outcome {
    let (words, rest) = table.split_at_mut(WORDS);
    let slip = match slip {
        Some(Slip::TakenBy(of, rule)) if of == kind => Some(Slip::Taken(rule)),
        _ => slip,
    };
    let Ok(mut device) = layout::read(words, slip) else {
        return refuse(2);
    };
    if slip == Some(Slip::AllWordsAsked) && rest.iter().any(|&word| word != 0) {
        return refuse(2);
    }
    let done = step(&mut device, room.len());
    if done.refusal != 0 {
        if slip.is_some_and(Slip::changes_refused) {
            layout::write(&device, words);
        }
        return refuse(done.refusal);
    }
    if slip == Some(Slip::StepForgets(kind)) {
        let live: Vec<u32> = device.streams().map(|stream| stream.number).collect();
        device.spent.keep(|number| live.contains(&number));
    }
    write_back(slip, kind, &device, words);
    // Only a slip gets here with a room that is too short.
    let count = done.written.len().min(room.len());
    room[..count].copy_from_slice(&done.written[..count]);
    if slip == Some(Slip::RoomCleared) {
        room[count..].fill(0);
    }
    Outcome { refusal: 0, written: done.written.len() as u32 }
}

/// Under `ShortRoomSpends`: of what the step would do with room enough, the spent numbers stay.
fn spend_all_the_same(table: &mut [u32], step: impl FnOnce(&mut Device, usize) -> Done) {
    if let Ok(mut device) = layout::read(&table[..WORDS], None) {
        step(&mut device, ROOM);
        layout::write_spent(&device, table);
    }
}

/// Under `ShortRoomEndsDrain`: of what the step would do with room enough, the ends of drains stay.
fn drain_all_the_same(table: &mut [u32], step: impl FnOnce(&mut Device, usize) -> Done) {
    let words = &mut table[..WORDS];
    let Ok(mut device) = layout::read(words, None) else { return };
    step(&mut device, ROOM);
    let mut after = words.to_vec();
    layout::write(&device, &mut after);
    for block in blocks_drained(words, &after) {
        words[block + DRAIN_AT..][..2].fill(0);
    }
}

/// Where the blocks start whose drains are owed before a step and not after it.
pub fn blocks_drained(before: &[u32], after: &[u32]) -> Vec<usize> {
    let drained = |block: &usize| before[block + DRAIN_AT] == 1 && after[block + DRAIN_AT] == 0;
    (0..SPENT_AT).step_by(BLOCK).filter(drained).collect()
}

/// Writes the records back after a step of this kind. Only for a slip that leaves a word is the table
/// copied first, so that the benchmark does not measure that.
fn write_back(slip: Option<Slip>, kind: u32, device: &Device, words: &mut [u32]) {
    match slip {
        Some(slip @ (Slip::DrainWordLeft(..) | Slip::LastOutputWordLeft(_))) => {
            write_but_for_a_word(slip, kind, device, words)
        }
        _ => layout::write(device, words),
    }
}

/// Writes the records back but for the word that the slip leaves where a drain was ended.
fn write_but_for_a_word(slip: Slip, kind: u32, device: &Device, words: &mut [u32]) {
    let before = words.to_vec();
    layout::write(device, words);
    for block in blocks_drained(&before, words) {
        match slip {
            Slip::DrainWordLeft(of, at) if of == kind => {
                words[block + at] = before[block + at];
            }
            Slip::LastOutputWordLeft(at) if kind == FINISH => {
                let mut slots = (block + OUTPUT_AT + SLOTS_AT..block + TAIL_AT).step_by(SLOT);
                if let Some(slot) = slots.find(|&slot| words[slot] != before[slot]) {
                    words[slot + at] = before[slot + at];
                }
            }
            _ => {}
        }
    }
}
