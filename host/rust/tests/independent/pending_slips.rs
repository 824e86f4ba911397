//! Slips of pending answers: wrong variants of what is counted and where it stands, of what a step
//! makes of it, of the test of a table, and of the questions.

use std::ops::Range;

use super::device::*;
use super::layout::{
    self, Behind, BLOCK, FIGURES_AT, INPUT_AT, MARKS_AT, OUTPUT_AT, SLOT, SLOTS_AT, SPENT_END,
    TOTAL_AT, UNUSED_AT, WORDS,
};
use super::on_words::{blocks_drained, filled, Outcome};
use super::pending::{by_words, Pending, Question};
use Part::*;
use PendingSlip::*;

/// The parts of the figures of pending answers.
#[derive(Clone, Copy, Debug, PartialEq, Eq)]
pub enum Part {
    Total,
    Marks,
    Figures,
}

impl Part {
    /// Where it stands in a table.
    pub fn words(self) -> Range<usize> {
        match self {
            Total => TOTAL_AT..MARKS_AT,
            Marks => MARKS_AT..FIGURES_AT,
            Figures => FIGURES_AT..UNUSED_AT,
        }
    }

    /// Itself, of the words behind the spent numbers.
    fn of(self, behind: &[u32]) -> &[u32] {
        let Range { start, end } = self.words();
        &behind[start - SPENT_END..end - SPENT_END]
    }

    /// The part that a word is in.
    fn at(at: usize) -> Option<Part> {
        [Total, Marks, Figures].into_iter().find(|part| part.words().contains(&at))
    }
}

#[derive(Clone, Copy, Debug, PartialEq, Eq)]
pub enum PendingSlip {
    // Of what is counted.
    /// A drain is not counted.
    DrainNotCounted,
    /// The buffers of this queue are not counted.
    QueueNotCounted(QueueType),
    /// The buffer in the last slot of this queue is not counted.
    LastSlotNotCounted(QueueType),
    /// Resources in this state are counted too.
    AlsoCounted(Why),
    /// A figure is at most 32.
    FigureAtMost32,
    /// The total is kept in 8 bits.
    TotalIn8Bits,
    /// The last place is not in the total.
    LastPlaceNotInTotal,
    /// The total is the number of streams to which something is pending.
    StreamsInTotal,

    // Of where it stands.
    /// A mark is the number without the 1.
    MarkWithoutOne,
    /// The mark of a live place is 1.
    MarkOfOne,
    /// The mark of stream 0 is 0.
    ZeroUnmarked,
    /// The mark of a vacant place is 2^32 - 1.
    VacantMarkHigh,
    /// Marks and figures stand without gaps, whatever the places.
    Packed,
    /// Those of the last place stand first.
    PlacesTurned,
    /// The figures stand before the marks.
    FiguresBeforeMarks,
    /// The figure of each place stands behind its mark.
    InTurn,
    /// The total stands last.
    TotalLast,
    /// All stands one word before its place.
    OneWordEarly,

    // Of steps.
    /// This kind of step leaves this part as it was.
    Left(u32, Part),
    /// This kind of step on this queue leaves all parts as they were.
    LeftOf(u32, u32),
    /// This kind of step lowers this part by 1, however many are answered.
    LowersByOne(u32, Part),
    /// This kind of step lowers this part by the buffers alone, and not by the drain that it ends.
    DrainStays(u32, Part),
    /// A clear lowers by the buffers of both queues and a drain.
    ClearLowersByAll,
    /// A destruction makes the total 0.
    DestroyForgetsAll,
    /// Destroying all lowers by what it frees.
    DestroyAllLowers,
    /// What changes a figure changes that of the first place.
    InFirstPlace,
    /// This kind of step raises or lowers figure and total where it is not taken.
    RefusedCounts(u32),
    /// Making fresh leaves this part.
    FreshKeeps(Part),

    // Of valid tables. A table is taken, though ...
    /// ... this part is wrong for a vacant place.
    VacantTaken(Part),
    /// ... this part is wrong for a live place.
    LiveTaken(Part),
    /// ... this part is too high.
    MoreTaken(Part),
    /// ... this part is too low.
    FewerTaken(Part),
    /// ... this part is wrong, but is at most this.
    AtMostTaken(Part, u32),
    /// ... this part is right in so many bits alone.
    InBitsTaken(Part, u32),
    /// ... this part is right for other places.
    AnyOrderTaken(Part),
    /// ... marks and figures together are right for other places.
    PlacesTurnedTaken,
    /// ... the figures are wrong, but the total is their sum.
    SumTaken,
    /// ... the figures are wrong, but their sum is right.
    FiguresOfSumTaken,
    /// ... the mark of a live place is another, but not 0.
    MarkOfAnyTaken,
    /// ... the mark of a vacant place is that of a destroyed stream.
    MarkOfDestroyedTaken,
    /// ... a mark is the number without the 1.
    MarkWithoutOneTaken,

    // Of both questions, each by its kind.
    /// A table that is not valid is refused with 2.
    Tests(u32),
    /// Of a table that is not valid the figure is 0.
    NothingOfInvalid(u32),
    /// A table of more than 4,160 words is refused with 1.
    LongRefused(u32),
    /// Refusal 1 comes with the figure and the words read.
    ShortReads(u32),
    /// Refusal 1 comes with the figure.
    ShortOwes(u32),
    /// Refusal 1 comes with the words that would be read.
    ShortCounts(u32),
    /// A short table is taken, and gives 0 and 0.
    ShortTaken(u32),
    /// A short table is refused with another number.
    ShortGives(u32, u32),

    // Of the question for the total.
    /// It says that it read so many words.
    InAllReads(usize),
    /// It reads this word.
    InAllAt(usize),
    /// It finds its word from the end of the table.
    InAllFromEnd,
    /// It counts in the blocks.
    InAllOfBlocks,
    /// It adds the figures.
    InAllOfFigures,
    /// It adds the figures of the places with a mark.
    InAllOfMarked,
    /// It gives the last 8 bits.
    InAllIn8Bits,
    /// It gives at most 264.
    InAllAtMost264,

    // Of the question for a stream.
    /// It reads the marks from here on.
    MarksFrom(usize),
    /// It reads the figures from here on.
    FiguresFrom(usize),
    /// It finds marks and figures from the end of the table.
    FromEnd,
    /// It looks for the number in the blocks.
    FoundInBlocks,
    /// It counts in the block of the place.
    CountsInBlock,
    /// It gives the mark.
    MarkGiven,
    /// It gives the last 8 bits.
    GivenIn8Bits,
    /// It gives at most 33.
    GivenAtMost33,
    /// It takes a vacant place for that of stream 2^32 - 1.
    MarkWraps,
    /// It takes the place of stream 2^32 - 2 for that of stream 2^32 - 1.
    MarkSaturates,
    /// It takes a mark for that of the number that it is.
    MarkIsNumber,
    /// It looks at so many bits of a mark.
    MarkInBits(u32),
    /// Numbers above 1,023 are unknown, with so many words read.
    HighUnknown(usize),
    /// Numbers that are not spent are unknown.
    UnspentUnknown,
    /// The word of the figure is not counted.
    FigureNotCounted,
    /// One word too many is counted.
    OneTooMany,
    /// The places before are not counted.
    BeforeNotCounted,
    /// All places are counted.
    AllCounted,
    /// Vacant places are not counted.
    VacantNotCounted,
    /// For an unknown stream so many words are counted.
    UnknownReads(usize),
    /// An unknown stream is refused with 5.
    UnknownRefused,
    /// An unknown stream owes the total.
    UnknownOwesAll,
    /// The places are looked at from the last on.
    FromLast,
    /// Of several places with the mark the last one counts.
    LastMatch,
    /// The figures of all places with the mark are added.
    MatchesAdded,
    /// It stops at a vacant place.
    StopsAtVacant,
    /// A stream to which nothing is pending is unknown.
    ZeroUnknown,
    /// This place is not looked at.
    Overlooked(usize),
}

/// The slips of what is counted, of where it stands, of steps and of tables, but for those of a step
/// that leaves a part.
const NAMED: &[PendingSlip] = &[
    DrainNotCounted,
    QueueNotCounted(QueueType::Input),
    QueueNotCounted(QueueType::Output),
    LastSlotNotCounted(QueueType::Input),
    LastSlotNotCounted(QueueType::Output),
    AlsoCounted("Created"),
    AlsoCounted("Dequeued"),
    FigureAtMost32,
    TotalIn8Bits,
    LastPlaceNotInTotal,
    StreamsInTotal,
    MarkWithoutOne,
    MarkOfOne,
    ZeroUnmarked,
    VacantMarkHigh,
    Packed,
    PlacesTurned,
    FiguresBeforeMarks,
    InTurn,
    TotalLast,
    OneWordEarly,
    LowersByOne(FINISH, Total),
    LowersByOne(FINISH, Figures),
    LowersByOne(QUEUE_CLEAR, Total),
    LowersByOne(QUEUE_CLEAR, Figures),
    LowersByOne(STREAM_DESTROY, Total),
    DrainStays(QUEUE_CLEAR, Total),
    DrainStays(QUEUE_CLEAR, Figures),
    DrainStays(STREAM_DESTROY, Total),
    ClearLowersByAll,
    DestroyForgetsAll,
    DestroyAllLowers,
    InFirstPlace,
    RefusedCounts(RESOURCE_QUEUE),
    RefusedCounts(STREAM_DRAIN),
    RefusedCounts(FINISH),
    RefusedCounts(DRAINED),
    FreshKeeps(Total),
    FreshKeeps(Marks),
    FreshKeeps(Figures),
    VacantTaken(Marks),
    VacantTaken(Figures),
    LiveTaken(Marks),
    LiveTaken(Figures),
    MoreTaken(Total),
    MoreTaken(Figures),
    FewerTaken(Total),
    FewerTaken(Figures),
    AtMostTaken(Total, 264),
    AtMostTaken(Marks, 1024),
    AtMostTaken(Figures, 33),
    InBitsTaken(Total, 8),
    InBitsTaken(Marks, 10),
    InBitsTaken(Marks, 16),
    InBitsTaken(Figures, 8),
    AnyOrderTaken(Marks),
    AnyOrderTaken(Figures),
    PlacesTurnedTaken,
    SumTaken,
    FiguresOfSumTaken,
    MarkOfAnyTaken,
    MarkOfDestroyedTaken,
    MarkWithoutOneTaken,
];

/// The slips of one of the questions.
const OF_QUESTIONS: &[PendingSlip] = &[
    InAllReads(0),
    InAllReads(2),
    InAllReads(9),
    InAllAt(TOTAL_AT - 1),
    InAllAt(TOTAL_AT + 1),
    InAllAt(UNUSED_AT - 1),
    InAllFromEnd,
    InAllOfBlocks,
    InAllOfFigures,
    InAllOfMarked,
    InAllIn8Bits,
    InAllAtMost264,
    MarksFrom(MARKS_AT - 1),
    MarksFrom(MARKS_AT + 1),
    FiguresFrom(FIGURES_AT - 1),
    FiguresFrom(FIGURES_AT + 1),
    FromEnd,
    FoundInBlocks,
    CountsInBlock,
    MarkGiven,
    GivenIn8Bits,
    GivenAtMost33,
    MarkWraps,
    MarkSaturates,
    MarkIsNumber,
    MarkInBits(10),
    MarkInBits(16),
    HighUnknown(0),
    HighUnknown(8),
    UnspentUnknown,
    FigureNotCounted,
    OneTooMany,
    BeforeNotCounted,
    AllCounted,
    VacantNotCounted,
    UnknownReads(0),
    UnknownReads(1),
    UnknownReads(7),
    UnknownReads(9),
    UnknownRefused,
    UnknownOwesAll,
    FromLast,
    LastMatch,
    MatchesAdded,
    StopsAtVacant,
    ZeroUnknown,
    Overlooked(0),
    Overlooked(PLACES - 1),
];

/// The kinds of step that change the figures, with the parts that each changes.
const CHANGES: [(u32, &[Part]); 7] = [
    (STREAM_CREATE, &[Marks]),
    (STREAM_DESTROY, &[Total, Marks, Figures]),
    (STREAM_DRAIN, &[Total, Figures]),
    (RESOURCE_QUEUE, &[Total, Figures]),
    (QUEUE_CLEAR, &[Total, Figures]),
    (FINISH, &[Total, Figures]),
    (DRAINED, &[Total, Figures]),
];

/// Every slip of pending answers.
pub fn all() -> Vec<PendingSlip> {
    let mut slips = NAMED.to_vec();
    for (kind, parts) in CHANGES {
        slips.extend(parts.iter().map(|&part| Left(kind, part)));
    }
    for kind in [RESOURCE_QUEUE, QUEUE_CLEAR, FINISH] {
        slips.extend([INPUT, OUTPUT].map(|queue_type| LeftOf(kind, queue_type)));
    }
    slips.extend(of_questions());
    slips
}

/// Every slip of the questions.
pub fn of_questions() -> Vec<PendingSlip> {
    let mut slips = OF_QUESTIONS.to_vec();
    for kind in [IN_ALL, OF_STREAM] {
        slips.extend([Tests, NothingOfInvalid, LongRefused].map(|slip| slip(kind)));
        slips.extend([ShortReads, ShortOwes, ShortCounts, ShortTaken].map(|slip| slip(kind)));
        slips.extend([2, 3].map(|number| ShortGives(kind, number)));
    }
    slips
}

/// What is counted and where it stands.
impl PendingSlip {
    /// The words behind the spent numbers.
    pub fn behind(self, device: &Device) -> Behind {
        let mut places = device.places.each_ref().map(|place| match place {
            Some(stream) => (self.mark(stream.number), self.figure(stream)),
            None if self == VacantMarkHigh => (u32::MAX, 0),
            None => (0, 0),
        });
        let total = self.total(&places.map(|place| place.1));
        match self {
            Packed => places.sort_by_key(|&place| place == (0, 0)),
            PlacesTurned => places.reverse(),
            _ => {}
        }
        self.laid_out(total, &places)
    }

    fn mark(self, number: u32) -> u32 {
        match self {
            MarkWithoutOne => number,
            MarkOfOne => 1,
            ZeroUnmarked if number == 0 => 0,
            _ => number.wrapping_add(1),
        }
    }

    fn figure(self, stream: &Stream) -> u32 {
        let counted = |queue: &Queue, of: QueueType| {
            let slots = SLOTS - usize::from(self == LastSlotNotCounted(of));
            let resources = queue.resources[..slots].iter().flatten();
            let counts = |resource: &&Resource| {
                resource.is_queued() || self == AlsoCounted(resource.state.name())
            };
            if self == QueueNotCounted(of) {
                return 0;
            }
            resources.filter(counts).count() as u32
        };
        let drain = u32::from(stream.drain.is_some() && self != DrainNotCounted);
        let buffers =
            counted(&stream.input, QueueType::Input) + counted(&stream.output, QueueType::Output);
        match self {
            FigureAtMost32 => (buffers + drain).min(32),
            _ => buffers + drain,
        }
    }

    fn total(self, figures: &[u32]) -> u32 {
        let sum = figures.iter().sum();
        match self {
            TotalIn8Bits => sum & 0xff,
            LastPlaceNotInTotal => figures[..PLACES - 1].iter().sum(),
            StreamsInTotal => figures.iter().filter(|&&figure| figure > 0).count() as u32,
            _ => sum,
        }
    }

    fn laid_out(self, total: u32, places: &[(u32, u32)]) -> Behind {
        let total = vec![total];
        let (marks, figures): (Vec<u32>, Vec<u32>) = places.iter().copied().unzip();
        let in_turn = || places.iter().flat_map(|&(mark, figure)| [mark, figure]).collect();
        let words = match self {
            FiguresBeforeMarks => [vec![0], total, figures, marks],
            InTurn => [vec![0], total, in_turn(), vec![]],
            TotalLast => [vec![0], marks, figures, total],
            OneWordEarly => [total, marks, figures, vec![]],
            _ => [vec![0], total, marks, figures],
        };
        let mut behind = Behind::default();
        behind.iter_mut().zip(words.concat()).for_each(|(to, word)| *to = word);
        behind
    }
}

/// Steps.
impl PendingSlip {
    /// Makes a step, and then changes the figures that it leaves.
    pub fn miscount(
        self,
        act: &Act,
        table: &mut [u32],
        step: impl FnOnce(&mut [u32]) -> Outcome,
    ) -> Outcome {
        let before = table.to_vec();
        let outcome = step(table);
        if table.len() < WORDS || [2, 3].contains(&outcome.refusal) {
            return outcome;
        }
        let place = act.stream().and_then(|stream| place_of(&before, stream));
        if before == table {
            self.change_though_refused(act, place, table);
        } else {
            self.change(act, place, &before, table);
        }
        outcome
    }

    /// Changes the figures after a step that changed the table.
    fn change(self, act: &Act, place: Option<usize>, before: &[u32], table: &mut [u32]) {
        let (kind, queue_type) = act.kind_and_queue();
        let place = place.unwrap_or(0);
        match self {
            Left(of, part) if of == kind => keep(part.words(), before, table),
            LeftOf(of, on) if (of, on) == (kind, queue_type) => {
                keep(TOTAL_AT..UNUSED_AT, before, table)
            }
            LowersByOne(of, part) if of == kind => {
                for at in part.words().filter(|&at| before[at] > 0) {
                    table[at] = table[at].max(before[at] - 1);
                }
            }
            DrainStays(of, part) if of == kind => {
                for block in blocks_drained(before, table) {
                    let in_part = if part == Total { 0 } else { block / BLOCK };
                    table[part.words().start + in_part] += 1;
                }
            }
            ClearLowersByAll if kind == QUEUE_CLEAR => {
                raise(table, place, table[FIGURES_AT + place].wrapping_neg());
            }
            DestroyForgetsAll if kind == STREAM_DESTROY => table[TOTAL_AT] = 0,
            DestroyAllLowers if kind == RESOURCE_DESTROY_ALL => {
                raise(table, place, resources(table, place).wrapping_sub(resources(before, place)));
            }
            InFirstPlace => {
                let by = table[FIGURES_AT + place].wrapping_sub(before[FIGURES_AT + place]);
                table[FIGURES_AT + place] = before[FIGURES_AT + place];
                table[FIGURES_AT] = table[FIGURES_AT].wrapping_add(by);
            }
            _ => {}
        }
    }

    /// Changes the figures after a step that did not change the table.
    fn change_though_refused(self, act: &Act, place: Option<usize>, table: &mut [u32]) {
        let (kind, _) = act.kind_and_queue();
        if let (RefusedCounts(of), Some(place)) = (self, place) {
            if of == kind {
                let report = !matches!(act, Act::Command { .. });
                raise(table, place, if report { u32::MAX } else { 1 });
            }
        }
    }
}

/// The place of a live stream, by the blocks.
pub fn place_of(table: &[u32], stream: u32) -> Option<usize> {
    let mut blocks = table.chunks_exact(BLOCK).take(PLACES);
    blocks.position(|block| block[..2] == [1, stream])
}

/// How many resources a place has.
fn resources(table: &[u32], place: usize) -> u32 {
    let queues = [INPUT_AT, OUTPUT_AT].map(|at| place * BLOCK + at + SLOTS_AT);
    let slots = queues.into_iter().flat_map(|at| (at..).step_by(SLOT).take(SLOTS));
    slots.filter(|&at| table[at] != 0).count() as u32
}

/// Makes these words what they were.
fn keep(words: Range<usize>, before: &[u32], table: &mut [u32]) {
    table[words.clone()].copy_from_slice(&before[words]);
}

/// Raises the figure of a place and the total.
fn raise(table: &mut [u32], place: usize, by: u32) {
    for at in [TOTAL_AT, FIGURES_AT + place] {
        table[at] = table[at].wrapping_add(by);
    }
}

/// Valid tables.
impl PendingSlip {
    /// Whether the word at this place, which is not the right one, is taken.
    pub fn takes(self, device: &Device, at: usize, found: &[u32], right: &Behind) -> bool {
        let Some(part) = Part::at(at) else { return false };
        let place = at - part.words().start;
        let (word, wanted) = (found[at - SPENT_END], right[at - SPENT_END]);
        let vacant = device.places[place].is_none();
        match self {
            VacantTaken(of) => of == part && vacant,
            LiveTaken(of) => of == part && !vacant,
            MoreTaken(of) => of == part && word > wanted,
            FewerTaken(of) => of == part && word < wanted,
            AtMostTaken(of, most) => of == part && word <= most,
            InBitsTaken(of, bits) => of == part && same_in(bits, word, wanted),
            AnyOrderTaken(of) => of == part && sorted(part.of(found)) == sorted(part.of(right)),
            PlacesTurnedTaken => part != Total && sorted(pairs(found)) == sorted(pairs(right)),
            SumTaken => part != Marks && sum(found) == u64::from(Total.of(found)[0]),
            FiguresOfSumTaken => part == Figures && sum(found) == sum(right),
            MarkOfAnyTaken => part == Marks && word != 0 && !vacant,
            MarkOfDestroyedTaken => part == Marks && device.destroyed(word.wrapping_sub(1)),
            MarkWithoutOneTaken => part == Marks && word.wrapping_add(1) == wanted,
            _ => false,
        }
    }
}

/// Whether two words have the same last bits, so many.
fn same_in(bits: u32, word: u32, other: u32) -> bool {
    (word ^ other).trailing_zeros() >= bits
}

fn sorted<T: Ord + Clone>(items: impl AsRef<[T]>) -> Vec<T> {
    let mut items = items.as_ref().to_vec();
    items.sort();
    items
}

/// The mark and figure of each place.
fn pairs(behind: &[u32]) -> Vec<(u32, u32)> {
    Marks.of(behind).iter().copied().zip(Figures.of(behind).iter().copied()).collect()
}

/// The sum of the figures.
fn sum(behind: &[u32]) -> u64 {
    Figures.of(behind).iter().copied().map(u64::from).sum()
}

/// Questions.
impl PendingSlip {
    pub fn ask(self, table: &[u32], question: Question) -> Pending {
        let kind = question.kind();
        if table.len() < WORDS {
            return self.ask_short(table, question);
        }
        let invalid = || layout::read(&table[..WORDS], None).is_err();
        match self {
            LongRefused(of) if of == kind && table.len() > WORDS => Pending::SHORT,
            Tests(of) if of == kind && invalid() => Pending { refusal: 2, ..Pending::SHORT },
            NothingOfInvalid(of) if of == kind && invalid() => {
                Pending { pending: 0, ..by_words(table, question) }
            }
            _ => match question {
                Question::InAll => self.ask_in_all(table),
                Question::OfStream(stream) => self.ask_of_stream(table, stream),
            },
        }
    }

    fn ask_short(self, table: &[u32], question: Question) -> Pending {
        let kind = question.kind();
        let Pending { pending, words_read, .. } = by_words(&filled(table), question);
        match self {
            ShortReads(of) if of == kind => Pending { refusal: 1, pending, words_read },
            ShortOwes(of) if of == kind => Pending { pending, ..Pending::SHORT },
            ShortCounts(of) if of == kind => Pending { words_read, ..Pending::SHORT },
            ShortTaken(of) if of == kind => Pending { refusal: 0, ..Pending::SHORT },
            ShortGives(of, refusal) if of == kind => Pending { refusal, ..Pending::SHORT },
            _ => Pending::SHORT,
        }
    }

    fn ask_in_all(self, table: &[u32]) -> Pending {
        let total = table[TOTAL_AT];
        let places = || table[Marks.words()].iter().zip(&table[Figures.words()]);
        let sum = |figures: &mut dyn Iterator<Item = &u32>| {
            figures.fold(0, |sum: u32, &figure| sum.wrapping_add(figure))
        };
        let said = match self {
            InAllAt(at) => table[at],
            InAllFromEnd => table[table.len() - (WORDS - TOTAL_AT)],
            InAllOfBlocks => layout::settled(table)[0],
            InAllOfFigures => sum(&mut places().map(|place| place.1)),
            InAllOfMarked => sum(&mut places().filter(|place| *place.0 != 0).map(|place| place.1)),
            InAllIn8Bits => total & 0xff,
            InAllAtMost264 => total.min(264),
            _ => total,
        };
        Pending::said(said, if let InAllReads(words) = self { words } else { 1 })
    }

    fn ask_of_stream(self, table: &[u32], stream: u32) -> Pending {
        let high = stream as usize >= NUMBERS;
        let spent = || layout::read_spent(table, None).has(stream);
        match self {
            HighUnknown(words) if high => return Pending::said(0, words),
            UnspentUnknown if !spent() => return Pending::said(0, PLACES),
            _ => {}
        }
        let mut places: Vec<usize> = (0..PLACES).collect();
        if matches!(self, FromLast | LastMatch) {
            places.reverse();
        }
        let mut counted = 0;
        for &place in &places {
            let vacant = self.mark_at(table, place) == 0;
            counted += usize::from(!(vacant && self == VacantNotCounted));
            if self.is_found(table, place, stream) {
                let figure = self.figure_of(table, place, stream);
                return Pending::said(figure, self.words_of(place, counted));
            }
            if vacant && self == StopsAtVacant {
                return Pending::said(0, counted);
            }
        }
        self.of_unknown(table)
    }

    fn mark_at(self, table: &[u32], place: usize) -> u32 {
        match self {
            MarksFrom(at) => table[at + place],
            FromEnd => table[table.len() - (WORDS - MARKS_AT) + place],
            _ => table[MARKS_AT + place],
        }
    }

    /// Whether a place is that of the stream.
    fn is_found(self, table: &[u32], place: usize, stream: u32) -> bool {
        let mark = self.mark_at(table, place);
        let right = mark != 0 && mark - 1 == stream;
        match self {
            FoundInBlocks => table[place * BLOCK] != 0 && table[place * BLOCK + 1] == stream,
            MarkWraps => mark == stream.wrapping_add(1),
            MarkSaturates => mark == stream.saturating_add(1),
            MarkIsNumber => mark == stream,
            MarkInBits(bits) => mark != 0 && same_in(bits, mark - 1, stream),
            ZeroUnknown => right && table[FIGURES_AT + place] != 0,
            Overlooked(overlooked) => right && place != overlooked,
            _ => right,
        }
    }

    /// The figure that is given where the stream is in this place, the first that was looked at.
    fn figure_of(self, table: &[u32], place: usize, stream: u32) -> u32 {
        let figure = table[FIGURES_AT + place];
        match self {
            FiguresFrom(at) => table[at + place],
            FromEnd => table[table.len() - (WORDS - FIGURES_AT) + place],
            CountsInBlock => layout::settled(table)[FIGURES_AT - TOTAL_AT + place],
            MarkGiven => table[MARKS_AT + place],
            GivenIn8Bits => figure & 0xff,
            GivenAtMost33 => figure.min(33),
            MatchesAdded => {
                let matching = (0..PLACES).filter(|&place| self.is_found(table, place, stream));
                matching.fold(0, |sum: u32, place| sum.wrapping_add(table[FIGURES_AT + place]))
            }
            _ => figure,
        }
    }

    /// The words read for a stream in this place, after so many marks.
    fn words_of(self, place: usize, counted: usize) -> usize {
        match self {
            FigureNotCounted => counted,
            OneTooMany => counted + 2,
            BeforeNotCounted => 2,
            AllCounted => PLACES + 1,
            LastMatch => place + 2,
            _ => counted + 1,
        }
    }

    fn of_unknown(self, table: &[u32]) -> Pending {
        let vacant = table[Marks.words()].iter().filter(|&&mark| mark == 0).count();
        match self {
            UnknownReads(words) => Pending::said(0, words),
            UnknownRefused => Pending { refusal: 5, ..Pending::SHORT },
            UnknownOwesAll => Pending::said(table[TOTAL_AT], PLACES),
            VacantNotCounted => Pending::said(0, PLACES - vacant),
            _ => Pending::said(0, PLACES),
        }
    }
}
