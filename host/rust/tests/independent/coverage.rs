//! What a run has met: a comparison is worth as much as what its steps got to, so the test asks for
//! all of this.

use std::collections::BTreeMap;
use std::fmt;

use super::asked;
use super::device::*;
use super::drains::{Pasts, DRAIN_EDGES, SLOT_EDGES};
use super::layout::{has_hole, WORDS};
use super::pending::{self, Question};
use super::random::BAD_TEXT;

/// Stands for a command of an unknown type or 0x0100.
pub const UNKNOWN: u32 = QUERY_CAPABILITY;

/// The tests of 01 and 02: kind of step, reason, and what it gives.
pub const REASONS: &[(u32, Why, u32)] = &[
    (COMMAND, "answer buffer under 1,056 bytes", 3),
    (COMMAND, "command under 8 bytes", 4),
    (FINISH, "answer buffer under 1,056 bytes", 3),
    (FINISH, "flags outside ERR and EOS", 6),
    (FINISH, "no buffer now Queued", 5),
    (FINISH, "EOS on an input", 6),
    (FINISH, "EOS with no drain owed", 6),
    (FINISH, "EOS with an input still Queued", 5),
    (DRAINED, "answer buffer under 1,056 bytes", 3),
    (DRAINED, "no such stream", 5),
    (DRAINED, "no drain owed", 5),
    (DRAINED, "an input still Queued", 5),
    (DRAINED, "output resources there", 5),
    (UNKNOWN, "unknown type or 0x0100", INVALID_OPERATION),
    (STREAM_CREATE, "wrong length", INVALID_PARAMETER),
    (STREAM_CREATE, "number spent", INVALID_STREAM),
    (STREAM_CREATE, "number above 1,023", INVALID_STREAM),
    (STREAM_CREATE, "input memory type not 0", INVALID_PARAMETER),
    (STREAM_CREATE, "output memory type not 0", INVALID_PARAMETER),
    (STREAM_CREATE, "format outside 0x1000 to 0x1005", INVALID_PARAMETER),
    (STREAM_CREATE, "tag without a NUL", INVALID_PARAMETER),
    (STREAM_CREATE, "bytes before the first NUL that aren't UTF-8", INVALID_PARAMETER),
    (STREAM_CREATE, "no place", OUT_OF_MEMORY),
    (STREAM_DESTROY, "wrong length", INVALID_PARAMETER),
    (STREAM_DESTROY, "stream not live", INVALID_STREAM),
    (STREAM_DRAIN, "wrong length", INVALID_PARAMETER),
    (STREAM_DRAIN, "stream not live", INVALID_STREAM),
    (STREAM_DRAIN, "already draining", INVALID_OPERATION),
    (RESOURCE_CREATE, "wrong length", INVALID_PARAMETER),
    (RESOURCE_CREATE, "stream not live", INVALID_STREAM),
    (RESOURCE_CREATE, "bad queue type", INVALID_PARAMETER),
    (RESOURCE_CREATE, "layout not 1 or 2", INVALID_PARAMETER),
    (RESOURCE_CREATE, "plane count not 1 to 8", INVALID_PARAMETER),
    (RESOURCE_CREATE, "true sum not 1 to 256", INVALID_PARAMETER),
    (RESOURCE_CREATE, "length not 88 + 16 x sum", INVALID_PARAMETER),
    (RESOURCE_CREATE, "an entry of length 0", INVALID_PARAMETER),
    (RESOURCE_CREATE, "an entry with address + length above 2^64", INVALID_PARAMETER),
    (RESOURCE_CREATE, "number present", INVALID_RESOURCE),
    (RESOURCE_CREATE, "no place", OUT_OF_MEMORY),
    (RESOURCE_QUEUE, "wrong length", INVALID_PARAMETER),
    (RESOURCE_QUEUE, "stream not live", INVALID_STREAM),
    (RESOURCE_QUEUE, "bad queue type", INVALID_PARAMETER),
    (RESOURCE_QUEUE, "size count above 8", INVALID_PARAMETER),
    (RESOURCE_QUEUE, "an input while draining", INVALID_OPERATION),
    (RESOURCE_QUEUE, "number absent", INVALID_RESOURCE),
    (RESOURCE_QUEUE, "already Queued", INVALID_OPERATION),
    (RESOURCE_DESTROY_ALL, "wrong length", INVALID_PARAMETER),
    (RESOURCE_DESTROY_ALL, "stream not live", INVALID_STREAM),
    (RESOURCE_DESTROY_ALL, "bad queue type", INVALID_PARAMETER),
    (RESOURCE_DESTROY_ALL, "any of that queue Queued", INVALID_OPERATION),
    (QUEUE_CLEAR, "wrong length", INVALID_PARAMETER),
    (QUEUE_CLEAR, "stream not live", INVALID_STREAM),
    (QUEUE_CLEAR, "bad queue type", INVALID_PARAMETER),
    (GET_PARAMS, "wrong length", INVALID_PARAMETER),
    (GET_PARAMS, "stream not live", INVALID_STREAM),
    (GET_PARAMS, "bad queue type", INVALID_PARAMETER),
    (SET_PARAMS, "wrong length", INVALID_PARAMETER),
    (SET_PARAMS, "stream not live", INVALID_STREAM),
    (SET_PARAMS, "bad queue type", INVALID_PARAMETER),
    (SET_PARAMS, "input format not the stream's", INVALID_PARAMETER),
    (SET_PARAMS, "output format not 3", INVALID_PARAMETER),
    (SET_PARAMS, "width odd or outside 16 to 4,096", INVALID_PARAMETER),
    (SET_PARAMS, "height odd or outside 16 to 4,096", INVALID_PARAMETER),
    (SET_PARAMS, "any of that queue Queued", INVALID_OPERATION),
    (QUERY_CONTROL, "wrong length", INVALID_PARAMETER),
    (QUERY_CONTROL, "stream not live", INVALID_STREAM),
    (QUERY_CONTROL, "unsupported control", UNSUPPORTED_CONTROL),
    (GET_CONTROL, "wrong length", INVALID_PARAMETER),
    (GET_CONTROL, "stream not live", INVALID_STREAM),
    (GET_CONTROL, "unsupported control", UNSUPPORTED_CONTROL),
    (SET_CONTROL, "wrong length", INVALID_PARAMETER),
    (SET_CONTROL, "stream not live", INVALID_STREAM),
    (SET_CONTROL, "unsupported control", UNSUPPORTED_CONTROL),
];

/// The refusals that come before the device's own tests.
pub const TABLE_SHORT: Why = "table under 4,160 words";
pub const TABLE_NOT_VALID: Why = "table not valid";

/// What success answers: 0 where nothing is answered to the step itself.
pub const SUCCESSES: &[(u32, u32)] = &[
    (STREAM_CREATE, OK_NODATA),
    (STREAM_DESTROY, OK_NODATA),
    (STREAM_DRAIN, 0),
    (RESOURCE_CREATE, OK_NODATA),
    (RESOURCE_QUEUE, 0),
    (RESOURCE_DESTROY_ALL, OK_NODATA),
    (QUEUE_CLEAR, OK_NODATA),
    (GET_PARAMS, OK_GET_PARAMS),
    (SET_PARAMS, OK_NODATA),
    (FINISH, 0),
    (DRAINED, 0),
];

/// Types of the answers to what was owed: those of buffers, finished or stopped, and of drains, ended
/// by a report or stopped.
pub const OWED: &[(u32, u32)] = &[
    (FINISH, OK_RESOURCE_QUEUE),
    (QUEUE_CLEAR, OK_RESOURCE_QUEUE),
    (STREAM_DESTROY, OK_RESOURCE_QUEUE),
    (FINISH, OK_NODATA),
    (DRAINED, OK_NODATA),
    (QUEUE_CLEAR, OK_NODATA),
    (STREAM_DESTROY, OK_NODATA),
];

/// Edges and the answer or refusal that shows their side; 0 where success answers nothing.
const EDGES: &[(&str, u32)] = &[
    ("tag empty", OK_NODATA),
    ("tag of 63 letters and a NUL", OK_NODATA),
    ("tag of 64 letters", INVALID_PARAMETER),
    ("tag with bad bytes behind its NUL", OK_NODATA),
    ("tag with a character cut by its NUL", INVALID_PARAMETER),
    ("tag with characters of each length", OK_NODATA),
    ("entry sum 0", INVALID_PARAMETER),
    ("entry sum 1 to 256", OK_NODATA),
    ("entry sum 256", OK_NODATA),
    ("entry sum 257", INVALID_PARAMETER),
    ("entry sum 2^32 + 1", INVALID_PARAMETER),
    ("entry sum 2^32 to 2^32 + 256", INVALID_PARAMETER),
    ("one entry more or less", INVALID_PARAMETER),
    ("eight planes", OK_NODATA),
    ("nine planes", INVALID_PARAMETER),
    ("no plane", INVALID_PARAMETER),
    ("entry ending at 2^64", OK_NODATA),
    ("last byte of memory", OK_NODATA),
    ("entry ending one past 2^64", INVALID_PARAMETER),
    ("entry of length 0", INVALID_PARAMETER),
    ("0x0104 of 87 bytes on a dead stream", INVALID_PARAMETER),
    ("0x0104 of 88 bytes on a dead stream", INVALID_STREAM),
    ("0x0104 of 89 bytes on a dead stream", INVALID_STREAM),
    ("size count 8", 0),
    ("size count 9", INVALID_PARAMETER),
    ("clear of an empty queue, no drain owed", OK_NODATA),
    ("clear of an empty queue, drain owed", OK_NODATA),
    ("0 wide", INVALID_PARAMETER),
    ("14 wide", INVALID_PARAMETER),
    ("15 wide", INVALID_PARAMETER),
    ("16 wide", OK_NODATA),
    ("4,095 wide", INVALID_PARAMETER),
    ("4,096 wide", OK_NODATA),
    ("4,097 wide", INVALID_PARAMETER),
    ("4,098 wide", INVALID_PARAMETER),
    ("2^31 + 16 wide", INVALID_PARAMETER),
    ("0 high", INVALID_PARAMETER),
    ("14 high", INVALID_PARAMETER),
    ("15 high", INVALID_PARAMETER),
    ("16 high", OK_NODATA),
    ("4,095 high", INVALID_PARAMETER),
    ("4,096 high", OK_NODATA),
    ("4,097 high", INVALID_PARAMETER),
    ("4,098 high", INVALID_PARAMETER),
    ("2^31 + 16 high", INVALID_PARAMETER),
    ("word 0 of an input queue 1", 2),
    ("word 0 of an input queue above 1", 2),
    ("word 0 of an output queue 1", 2),
    ("word 0 of an output queue above 1", 2),
    ("drain's word 0, its ticket 0", OK_NODATA),
    ("drain's word 0, its ticket not 0", 2),
    ("drain's word 1, its ticket 0", OK_NODATA),
    ("drain's word 1, its ticket not 0", OK_NODATA),
    ("drain's word 2, its ticket 0", 2),
    ("drain's word 2, its ticket not 0", 2),
    ("drain's word above 2", 2),
    ("live number not spent", 2),
    ("live number 1,024", 2),
    ("live number 1,024 above a spent one", 2),
    ("live number of 2^31 or more", 2),
    ("word 4,128 not 0", 2),
    ("word 4,146 not 0", 2),
    ("word 4,159 not 0", 2),
    ("total 0", 2),
    ("total 1", 2),
    ("total one more", 2),
    ("total one less", 2),
    ("total 256 more", 2),
    ("total of at most 264", 2),
    ("total 2^32 - 1", 2),
    ("mark of a live place 0", 2),
    ("mark of a live place without the 1", 2),
    ("mark of a live place one more", 2),
    ("mark of a live place 1,024 more", 2),
    ("mark of a live place 2^16 more", 2),
    ("mark of a live place 1", 2),
    ("mark of a live place that of another", 2),
    ("mark of a vacant place 1", 2),
    ("mark of a vacant place 2^32 - 1", 2),
    ("mark of a vacant place that of a spent number", 2),
    ("mark of a vacant place that of another", 2),
    ("figure of a vacant place 1", 2),
    ("figure of a vacant place 2^32 - 1", 2),
    ("figure of a vacant place that of another", 2),
    ("figure 0", 2),
    ("figure one more", 2),
    ("figure one less", 2),
    ("figure 256 more", 2),
    ("figure of at most 33", 2),
    ("figure of another place", 2),
    ("figure 2^32 - 1", 2),
    ("figure and total one more", 2),
    ("figure one more, another one less", 2),
    ("marks of two places turned", 2),
    ("figures of two places turned", 2),
    ("marks and figures of two places turned", 2),
    (FORGOTTEN, OK_NODATA),
];

/// A number to create, on a table that was made fresh amid its steps.
const FORGOTTEN: Why = "number spent before the table was made fresh";

/// The same of stream numbers, as they are before the step.
const NUMBER_EDGES: &[(&str, u32)] = &[
    ("number 0", OK_NODATA),
    ("number 31", OK_NODATA),
    ("number 32", OK_NODATA),
    ("number 1,023", OK_NODATA),
    ("number 1,024", INVALID_STREAM),
    ("number 1,024 above a spent one", INVALID_STREAM),
    ("number 1,024 above one not spent", INVALID_STREAM),
    ("number of 2^16 or more, its low half under 1,024", INVALID_STREAM),
    ("number of 2^31 or more", INVALID_STREAM),
    ("number beside a spent one", OK_NODATA),
    ("number of a live stream", INVALID_STREAM),
    ("number of a destroyed stream", INVALID_STREAM),
    (LATE_FINISH, 5),
    (LATE_DRAINED, 5),
];

/// Reports for a destroyed stream that would fit another one.
const LATE_FINISH: Why = "finish for a destroyed stream, its buffer Queued in another";
const LATE_DRAINED: Why = "drained for a destroyed stream, another can be drained";

/// A creation's number and another fault of it, both at once: what the first of the two gives.
const NUMBERS_AT_FAULT: [Why; 3] =
    ["number of a live stream", "number of a destroyed stream", "number above 1,023"];
const OTHER_FAULTS: [(Why, u32); 7] = [
    ("wrong length", INVALID_PARAMETER),
    ("input memory type not 0", INVALID_STREAM),
    ("output memory type not 0", INVALID_STREAM),
    ("format outside 0x1000 to 0x1005", INVALID_STREAM),
    ("tag without a NUL", INVALID_STREAM),
    ("bytes before the first NUL that aren't UTF-8", INVALID_STREAM),
    ("no place", INVALID_STREAM),
];

/// Lengths of a table beside the edges, in words.
const LENGTHS: [usize; 5] = [4095, 4096, 4159, 4160, 4161];

/// Deep states, and whether these records or the step that led to them are such.
fn depths(device: &Device, written: &[u8], words: usize) -> [(Why, bool); 18] {
    let queues = || device.streams().flat_map(|stream| [&stream.input, &stream.output]);
    let queued = |stream: &Stream| stream.input.queued() + stream.output.queued();
    let on_both = |stream: &Stream| {
        let mut inputs = stream.input.resources.iter().flatten();
        inputs.any(|resource| stream.output.has(resource.number))
    };
    let live = device.streams().count();
    let drains = device.streams().filter(|stream| stream.drain.is_some()).count();
    let of_zero = device.streams().any(|stream| stream.drain == Some(0));
    let hole = has_hole(&device.places) || queues().any(|queue: &Queue| has_hole(&queue.resources));
    // The last two answers are then the drain's and the command's own.
    let together = types(written).ends_with(&[OK_RESOURCE_QUEUE, OK_NODATA, OK_NODATA]);
    let spent = device.spent.count();
    [
        ("8 streams live", live == PLACES),
        ("16 resources in a queue", queues().any(Queue::is_full)),
        ("16 Queued in a queue", queues().any(|queue| queue.queued() == SLOTS)),
        ("32 Queued in a stream", device.streams().any(|stream| queued(stream) == 2 * SLOTS)),
        ("100 Queued in a table", device.streams().map(queued).sum::<usize>() >= 100),
        ("4 drains owed", drains >= 4),
        (
            "256 answers pending in a table",
            device.streams().map(pending::of_stream).sum::<u32>() >= 256,
        ),
        ("a drain owed, its ticket 0", of_zero),
        ("a free place before a used one", hole),
        ("one resource number on both queues", device.streams().any(on_both)),
        ("1,056 bytes written", written.len() == ROOM),
        ("drain and buffers answered together", together),
        ("words behind the first 4,160", words > WORDS),
        ("a spent number that is not live", spent > live),
        ("no place, and a number not spent", live == PLACES && spent < NUMBERS),
        ("200 numbers spent", spent >= 200),
        ("all numbers spent, no stream live", spent == NUMBERS && live == 0),
        ("all numbers spent, some streams live", spent == NUMBERS && live > 0),
    ]
}

/// How often each of some things was met.
#[derive(Default)]
struct Counts<K>(BTreeMap<K, u64>);

impl<K: Ord> Counts<K> {
    fn add(&mut self, met: K) {
        *self.0.entry(met).or_default() += 1;
    }

    fn of(&self, met: K) -> u64 {
        self.0.get(&met).copied().unwrap_or(0)
    }
}

/// The counts of a run.
#[derive(Default)]
pub struct Coverage {
    pub steps: u64,
    /// By kind of step, refusal and the code answered to the step itself.
    outcomes: Counts<(u32, u32, u32)>,
    /// Answers to what was owed, by kind of step and type.
    owed: Counts<(u32, u32)>,
    reasons: Counts<(u32, Why)>,
    edges: Counts<(Why, u32)>,
    depths: Counts<Why>,
    /// By a creation's number, its one other fault and what is given.
    faults: Counts<(Why, Why, u32)>,
    /// Good creations, by the reason for which the same number was last refused.
    after: Counts<Why>,
    /// Commands and reports for a destroyed stream, by kind of step and what is given.
    late: Counts<(u32, u32)>,
    /// By kind of step, or of another call, and the table's length.
    lengths: Counts<(u32, usize)>,
    /// Questions for pending answers, by each of their names, and all of them.
    asked: Counts<Why>,
    questions: u64,
    /// Of the table at hand: numbers whose creation was refused, with the reason.
    refused: BTreeMap<u32, Why>,
    /// Of the table at hand: the numbers that were spent when it was last made fresh.
    forgotten: Spent,
    /// Of the table at hand: what its records do not hold of drains.
    pasts: Pasts,
}

impl Coverage {
    /// Counts a step by what the independent device made of it.
    pub fn count(&mut self, act: &Act, done: &Done, edge: Option<Why>) {
        self.steps += 1;
        let kind = kind_of(act, done.refusal);
        let mut owed = types(&done.written);
        // A command's own answer is its last.
        let code = match act {
            Act::Command { .. } => owed.pop().unwrap_or(0),
            _ => 0,
        };
        for code in owed {
            self.owed.add((kind, code));
        }
        self.outcomes.add((kind, done.refusal, code));
        if let Some(why) = done.why {
            self.reasons.add((kind, why));
        }
        if let Some(edge) = edge {
            self.edges.add((edge, if done.refusal != 0 { done.refusal } else { code }));
        }
    }

    /// Another table is at hand, or the same one made fresh while these numbers were spent.
    pub fn start_table(&mut self, forgotten: Spent) {
        self.refused.clear();
        self.pasts.clear();
        self.forgotten = forgotten;
    }

    /// Counts a question on this table, with its records if it is valid.
    pub fn count_question(&mut self, table: &[u32], device: Option<&Device>, question: Question) {
        self.questions += 1;
        self.count_length(question.kind(), table.len());
        asked::names(table, device, question).into_iter().for_each(|name| self.asked.add(name));
    }

    /// Counts a step, or another call, by the length of its table.
    pub fn count_length(&mut self, kind: u32, words: usize) {
        self.lengths.add((kind, words));
    }

    /// Counts a step by the records before it: by what its stream number was, and by the drain of
    /// its stream.
    pub fn count_before(&mut self, before: &Device, act: &Act, done: &Done) {
        let given = match done.refusal {
            0 => types(&done.written).pop().unwrap_or(0),
            refusal => refusal,
        };
        self.count_number(before, act, done, given);
        for name in self.pasts.names(before, act) {
            self.edges.add((name, given));
        }
        self.pasts.note(before, act, done.why);
    }

    fn count_number(&mut self, before: &Device, act: &Act, done: &Done, given: u32) {
        match (before.creation(act), act) {
            (Some((number, hits)), _) if done.refusal == 0 => {
                self.count_creation(before, number, &hits, given);
                self.count_after(number, done.why);
            }
            (None, Act::Command { frame, .. }) if before.destroyed(word(frame, 4)) => {
                self.late.add((kind_of(act, done.refusal), given));
            }
            (None, Act::Finish(report)) if before.destroyed(report.stream) => {
                self.late.add((FINISH, given));
                let fits = |of: &Stream| of.has_queued(report.queue_type, report.resource);
                if before.streams().any(fits) {
                    self.edges.add((LATE_FINISH, given));
                }
            }
            (None, Act::Drained { stream }) if before.destroyed(*stream) => {
                self.late.add((DRAINED, given));
                if before.streams().any(Stream::can_be_drained) {
                    self.edges.add((LATE_DRAINED, given));
                }
            }
            _ => {}
        }
    }

    /// Counts a creation by each name of its number, if it has at most one fault besides.
    fn count_creation(&mut self, before: &Device, number: u32, hits: &[Why], given: u32) {
        let others: Vec<Why> =
            OTHER_FAULTS.into_iter().map(|(why, _)| why).filter(|why| hits.contains(why)).collect();
        for name in self.names(before, number) {
            match others[..] {
                [] => self.edges.add((name, given)),
                [other] => self.faults.add((name, other, given)),
                _ => {}
            }
        }
    }

    /// Counts a good creation by why the number was refused before it.
    fn count_after(&mut self, number: u32, why: Option<Why>) {
        if let Some(why) = why {
            self.refused.insert(number, why);
        } else if let Some(why) = self.refused.remove(&number) {
            self.after.add(why);
        }
    }

    /// What a creation's number is, by all its names.
    fn names(&self, before: &Device, number: u32) -> impl Iterator<Item = Why> {
        let spent = |number| before.spent.has(number);
        let less_1024 = number.checked_sub(1024).filter(|&less| less < 1024);
        let names = [
            (number == 0, "number 0"),
            (number == 31, "number 31"),
            (number == 32, "number 32"),
            (number == 1023, "number 1,023"),
            (number == 1024, "number 1,024"),
            (number > 1023, "number above 1,023"),
            (less_1024.is_some_and(spent), "number 1,024 above a spent one"),
            (less_1024.is_some_and(|less| !spent(less)), "number 1,024 above one not spent"),
            (
                number >= 1 << 16 && number & 0xffff < 1024,
                "number of 2^16 or more, its low half under 1,024",
            ),
            (number >= 1 << 31, "number of 2^31 or more"),
            (spent(number ^ 1), "number beside a spent one"),
            (before.place_of(number).is_some(), "number of a live stream"),
            (before.destroyed(number), "number of a destroyed stream"),
            (self.forgotten.has(number), FORGOTTEN),
        ];
        names.into_iter().filter(|name| name.0).map(|name| name.1)
    }

    /// Counts the states that a step on a valid table of so many words has led to.
    pub fn count_depth(&mut self, device: &Device, written: &[u8], words: usize) {
        for (depth, met) in depths(device, written, words) {
            if met {
                self.depths.add(depth);
            }
        }
    }

    /// Whatever was met fewer than so many times, and whatever should not have been met at all.
    pub fn complaints(&self, least: u64) -> Vec<String> {
        let counts = [
            self.of_lists(wanted_reasons()),
            self.of_edges(wanted_edges()),
            self.of_numbers(),
            self.of_lengths(),
            self.of_questions(),
            self.of_depths(),
        ];
        let mut complaints = rare(counts.concat(), least);
        let mut deny = |kind: u32, number: u32| {
            let (kind, number) = (name(kind), number_name(number));
            complaints.push(format!("{kind}: {number} cannot occur by documents 01 and 02"));
        };
        for &(kind, refusal, code) in self.outcomes.0.keys() {
            let number = if refusal != 0 { refusal } else { code };
            let success = SUCCESSES.contains(&(kind, code)) && refusal == 0;
            let known = wanted_reasons().any(|(of, _, given)| of == kind && given == number);
            if !success && !known {
                deny(kind, number);
            }
        }
        for &(kind, code) in self.owed.0.keys().filter(|owed| !OWED.contains(owed)) {
            deny(kind, code);
        }
        complaints
    }

    /// What of all this a log shows, with its counts.
    pub fn of_log(&self) -> Vec<(u64, String)> {
        let reasons = REASONS.iter().copied().filter(|reason| reason.2 != 3);
        let edges = NUMBER_EDGES.iter().chain(DRAIN_EDGES).copied();
        [self.of_lists(reasons), self.of_edges(edges), self.of_numbers()].concat()
    }

    /// These reasons, each success and each answer to what was owed, with their counts.
    fn of_lists(&self, reasons: impl Iterator<Item = (u32, Why, u32)>) -> Vec<(u64, String)> {
        let mut counts = Vec::new();
        for (kind, why, number) in reasons {
            let count = self.reasons.of((kind, why));
            counts.push((count, format!("{}, {why} ({})", name(kind), number_name(number))));
        }
        for &(kind, code) in SUCCESSES {
            let count = self.outcomes.of((kind, 0, code));
            counts.push((count, format!("{}, success", name(kind))));
        }
        for &(kind, code) in OWED {
            let count = self.owed.of((kind, code));
            counts.push((count, format!("{}, owed ({})", name(kind), number_name(code))));
        }
        counts
    }

    fn of_edges(&self, edges: impl Iterator<Item = (Why, u32)>) -> Vec<(u64, String)> {
        let named = |edge: (Why, u32)| format!("{} ({})", edge.0, number_name(edge.1));
        edges.map(|edge| (self.edges.of(edge), named(edge))).collect()
    }

    /// What of the rules of stream numbers is to be met, with its counts: two faults at once, a good
    /// creation after a refused one, and steps for a destroyed stream.
    fn of_numbers(&self) -> Vec<(u64, String)> {
        let mut counts = Vec::new();
        for name in NUMBERS_AT_FAULT {
            for (other, code) in OTHER_FAULTS {
                let count = self.faults.of((name, other, code));
                counts.push((count, format!("{name}, {other} ({})", number_name(code))));
            }
        }
        for (why, _) in OTHER_FAULTS {
            let count = self.after.of(why);
            counts.push((count, format!("number created after it was refused: {why}")));
        }
        for (kind, given) in wanted_late() {
            let count = self.late.of((kind, given));
            let given = number_name(given);
            counts.push((count, format!("{} for a destroyed stream ({given})", name(kind))));
        }
        counts
    }

    /// The questions with their counts.
    fn of_questions(&self) -> Vec<(u64, String)> {
        let names = asked::wanted().into_iter();
        names.map(|name| (self.asked.of(name), format!("asked: {name}"))).collect()
    }

    /// The tables beside each edge of their length, by kind of step, with their counts.
    fn of_lengths(&self) -> Vec<(u64, String)> {
        let mut counts = Vec::new();
        for kind in [FRESH, COMMAND, FINISH, DRAINED, IN_ALL, OF_STREAM] {
            for words in LENGTHS {
                let count = self.lengths.of((kind, words));
                let kind = if kind == COMMAND { "command" } else { name(kind) };
                counts.push((count, format!("{kind}, table of {words} words")));
            }
        }
        counts
    }

    /// The deep states with their counts.
    fn of_depths(&self) -> Vec<(u64, String)> {
        let names = depths(&Device::default(), &[], 0).map(|(depth, _)| depth);
        names.map(|depth| (self.depths.of(depth), depth.to_string())).to_vec()
    }
}

/// What was counted fewer than so many times.
pub fn rare(counts: Vec<(u64, String)>, least: u64) -> Vec<String> {
    let rare = counts.into_iter().filter(|&(count, _)| count < least);
    rare.map(|(count, what)| format!("{what}: {count} times, wanted {least}")).collect()
}

fn wanted_reasons() -> impl Iterator<Item = (u32, Why, u32)> {
    let of_tables = [COMMAND, FINISH, DRAINED]
        .into_iter()
        .flat_map(|kind| [(kind, TABLE_SHORT, 1), (kind, TABLE_NOT_VALID, 2)]);
    REASONS.iter().copied().chain(of_tables)
}

fn wanted_edges() -> impl Iterator<Item = (Why, u32)> {
    let of_tags = BAD_TEXT.iter().map(|&(edge, _)| (edge, INVALID_PARAMETER));
    EDGES.iter().chain(NUMBER_EDGES).chain(DRAIN_EDGES).chain(SLOT_EDGES).copied().chain(of_tags)
}

/// The kinds of step that can come for a destroyed stream, and what is given. A finish may have bad
/// flags too, which are tested first.
fn wanted_late() -> impl Iterator<Item = (u32, u32)> {
    let not_live = REASONS.iter().filter(|&&(_, why, _)| why == "stream not live");
    not_live.map(|&(kind, _, code)| (kind, code)).chain([(FINISH, 5), (FINISH, 6), (DRAINED, 5)])
}

/// Prints the outcomes by kind of step, and whatever is to be met with its count.
impl fmt::Display for Coverage {
    fn fmt(&self, out: &mut fmt::Formatter) -> fmt::Result {
        writeln!(out, "{} steps, {} questions", self.steps, self.questions)?;
        let mut last = None;
        for (&(kind, refusal, code), count) in &self.outcomes.0 {
            if last != Some(kind) {
                write!(out, "{}{:<24}", if last.is_some() { "\n" } else { "" }, name(kind))?;
                last = Some(kind);
            }
            let number = if refusal != 0 { refusal } else { code };
            write!(out, " {} {count:<7}", number_name(number))?;
        }
        writeln!(out)?;
        for (title, counts) in [
            ("By reason, successes, and what was owed", self.of_lists(wanted_reasons())),
            ("Stream numbers", self.of_numbers()),
            ("Lengths of tables", self.of_lengths()),
            ("Questions", self.of_questions()),
            ("Edges", self.of_edges(wanted_edges())),
            ("Deep states", self.of_depths()),
        ] {
            writeln!(out, "\n{title}:")?;
            for (count, what) in counts {
                writeln!(out, "{count:>8}  {what}")?;
            }
        }
        Ok(())
    }
}

/// The kind that a step is counted under: of a command that was not refused, its type.
fn kind_of(act: &Act, refusal: u32) -> u32 {
    match act {
        Act::Command { frame, .. } if refusal == 0 => match word(frame, 0) {
            kind @ STREAM_CREATE..=SET_CONTROL => kind,
            _ => UNKNOWN,
        },
        _ => act.kind(),
    }
}

/// The type of each answer.
fn types(mut answers: &[u8]) -> Vec<u32> {
    let mut types = Vec::new();
    while let Some((head, rest)) = answers.split_first_chunk::<8>() {
        let count = u32::from_le_bytes([head[4], head[5], head[6], head[7]]) as usize;
        types.push(rest.first_chunk().map_or(0, |&code| u32::from_le_bytes(code)));
        answers = &rest[count.min(rest.len())..];
    }
    types
}

pub fn name(kind: u32) -> &'static str {
    match kind {
        COMMAND => "command refused",
        FINISH => "finish",
        DRAINED => "drained",
        FRESH => "fresh",
        IN_ALL => "total asked",
        OF_STREAM => "stream asked",
        UNKNOWN => "0x0100 and unknown",
        STREAM_CREATE => "0x0101 create",
        STREAM_DESTROY => "0x0102 destroy",
        STREAM_DRAIN => "0x0103 drain",
        RESOURCE_CREATE => "0x0104 resource create",
        RESOURCE_QUEUE => "0x0105 queue",
        RESOURCE_DESTROY_ALL => "0x0106 destroy all",
        QUEUE_CLEAR => "0x0107 clear",
        GET_PARAMS => "0x0108 get",
        SET_PARAMS => "0x0109 set",
        QUERY_CONTROL => "0x010a query control",
        GET_CONTROL => "0x010b get control",
        SET_CONTROL => "0x010c set control",
        _ => "?",
    }
}

fn number_name(number: u32) -> String {
    match number {
        0 => "taken ".to_string(),
        1..=7 => format!("ref. {number}"),
        code => format!("0x{code:04x}"),
    }
}
