//! Slips: wrong variants of the independent device. The comparison has to catch every one of them,
//! else it is too weak.

use super::coverage::{OWED, REASONS, SUCCESSES, UNKNOWN};
use super::device::*;
use super::layout::{
    Broken, DRAIN_AT, FIGURES_AT, MARKS_AT, SPENT_AT, SPENT_END, TOTAL_AT, UNUSED_AT, WORDS,
};
use super::order_slips::OrderSlip;
use super::pending_slips::{self, PendingSlip};

/// One slip. A device has at most one.
#[derive(Clone, Copy, Debug, PartialEq, Eq)]
pub enum Slip {
    // Of the lists of tests; a test is named by the kind of step and its reason.
    /// The test is left out.
    Skipped(u32, Why),
    /// The test is made before all others of its list.
    First(u32, Why),
    /// The test is made after all others of its list.
    Last(u32, Why),
    /// The test is made after this one if that is later, and before it if that is earlier.
    Beyond(u32, Why, Why),
    /// The test gives this number.
    Gives(u32, Why, u32),

    // Of the types of answers, each by the kind of step that writes it.
    /// Buffers, finished or stopped, are answered with 0x0200.
    BufferOfPlainType(u32),
    /// A drain, ended by a report or stopped, is answered with 0x0202.
    DrainOfBufferType(u32),
    /// Plain success is 0x0202.
    SuccessOfBufferType(u32),

    // Of the commands and reports.
    /// 2^32 + 1 entries pass as 1.
    EntryCountsIn32Bits,
    /// All eight entry counts are added, whatever the plane count.
    CountsBehindPlanes,
    /// With layout 1 only the first entry count is used.
    SingleBufferFirstCount,
    /// An entry that ends at 2^64 is refused.
    EntryEndAtTop,
    /// The exact length of 0x0104 is asked before the stream is live.
    ExactLengthBeforeLive,
    /// A clear of the output ends a drain.
    OutputClearEndsDrain,
    /// A clear of the input ends a drain only where it stops a buffer.
    InputClearNeedsBuffers,
    /// The drain is answered before the buffers that it waited for.
    DrainBeforeBuffers,
    /// Destroying answers the outputs first.
    OutputsBeforeInputs,
    /// A queueing refused as already Queued overwrites the kept ticket.
    RefusedQueueKeepsTicket,
    /// A refused drain overwrites the kept ticket.
    RefusedDrainKeepsTicket,
    /// A finish of input 5 is read as one of output 5.
    InputReadAsOutput,
    /// A finished input is answered with the report's timestamp.
    InputTimestampOfReport,
    /// A finished output is answered with its own timestamp.
    OutputTimestampOwn,
    /// Buffers are answered in the order of their places.
    AnswersInSlotOrder,
    /// Numbers from 2^31 on are answered first.
    AnswersInSignedOrder,
    /// A new stream takes the highest free place.
    HighestPlace,
    /// A new resource takes the highest free place.
    HighestSlot,
    /// A freed place is filled by moving later streams down.
    StreamsMoveDown,
    /// The tag's bytes behind its first NUL are looked at.
    TagBehindNul,
    /// Surrogates are taken for UTF-8.
    TagSurrogates,
    /// A character cut by the NUL is taken.
    TagCutCharacter,
    /// An empty tag is bad.
    EmptyTagRefused,
    /// A set changes both queues.
    SetBothQueues,
    /// Stopped buffers are Created again.
    StoppedIsCreated,
    /// Finished buffers are Created again.
    FinishedIsCreated,
    /// Stopped buffers carry no ERR.
    StoppedWithoutErr,
    /// Stopped outputs carry no timestamp.
    StoppedOutputsOfTimeZero,
    /// A query of a control may have more than 16 bytes.
    LongControlQuery,
    /// Inputs are answered with 0x0200.
    InputOfPlainType,
    /// Outputs are answered with 0x0200.
    OutputOfPlainType,
    /// Buffers with ERR are answered with 0x0200.
    ErrOfPlainType,
    /// Buffers with EOS are answered with 0x0200.
    EosOfPlainType,
    /// A buffer's answer has no size.
    BufferWithoutSize,
    /// Destroy all ends a drain.
    DestroyAllEndsDrain,
    /// An output is refused while draining.
    OutputRefusedWhileDraining,
    /// A command's type is read as 16 bits.
    TypeIn16Bits,
    /// The padding of 0x0105 has to be zero.
    PaddingLookedAt,
    /// Only the low half of a timestamp is kept.
    TimestampIn32Bits,
    /// The second plane's stride is half the width.
    HalfSecondStride,
    /// The size of an output follows the defaults.
    DefaultPlaneSizes,

    // Of a finish that ends a drain.
    /// The drain is answered before the buffer that carries EOS.
    DrainBeforeLastOutput,
    /// EOS leaves the drain, which it has answered, owed.
    EosKeepsDrain,
    /// EOS leaves the drain owed and unanswered.
    EosLeavesDrain,
    /// EOS drops the drain, unanswered.
    EosForgetsDrain,
    /// A finish with these flags, which carry EOS, does not end the drain.
    NotEndedBy(u32),
    /// A finish of this queue with these flags ends the drain too, once no input is Queued.
    EndedBy(u32, u32),
    /// The last input's finish ends a drain.
    LastInputEndsDrain,
    /// The finish of the last Queued output ends a drain, whatever its flags.
    LastOutputEndsDrain,
    /// The buffer that carries EOS is answered under the drain's ticket.
    LastOutputOfDrainTicket,
    /// The buffer that carries EOS is answered without it.
    LastOutputWithoutEos,
    /// The buffer that carries EOS stays Queued.
    LastOutputStaysQueued,
    /// Behind a buffer, the drain's answer carries the resource's number in place of the stream's.
    LastDrainOfResource,
    /// Behind a buffer, the drain is answered under the buffer's ticket.
    LastDrainOfBufferTicket,
    /// Behind a buffer, the drain's answer has flags and a size.
    LastDrainWithFlags,
    /// Behind a buffer, the drain's answer has no stream.
    LastDrainWithoutStream,
    /// EOS frees the inputs.
    EosFreesInputs,
    /// EOS stops the other Queued outputs.
    EosStopsOutputs,
    /// EOS leaves the other Queued outputs Dequeued, unanswered.
    EosDequeuesOutputs,
    /// Where this kind of step ends a drain, those of all streams are dropped, unanswered.
    EndsAllDrains(u32),

    // Of a finish with EOS that comes before the last input, or is refused for another reason.
    /// With an input Queued, EOS is taken and leaves the drain owed.
    EarlyEosLeavesDrain,
    /// With an input Queued, EOS is taken where these are the flags.
    EarlyEosTakenWith(u32),
    /// With an input Queued, EOS is refused, and its buffer is Dequeued, unanswered.
    EarlyEosDequeues,
    /// An EOS that was refused with an input Queued ends the drain once the last input is finished.
    EarlyEosRemembered,
    /// EOS is refused while another output is Queued, whatever the inputs.
    EosWaitsForOutputs,
    /// EOS is refused while an input or another output is Queued.
    EosWaitsForBoth,
    /// EOS is refused while there are inputs, Queued or not.
    EosWaitsForIdleInputs,
    /// EOS is refused while an input of any stream is Queued.
    EosWaitsForAnyStream,
    /// An output is refused while an input is Queued, EOS or not.
    OutputsWaitForInputs,
    /// EOS is taken while a drain of any stream is owed; where its own owes none, it answers the
    /// buffer alone.
    EosByAnyDrain,
    /// An EOS that is refused for this reason drops the drain, unanswered.
    RefusedEosEnds(Why),
    /// To this kind of report, only the inputs in so many slots, the first ones, can be Queued.
    QueuedInputsSeenBelow(u32, usize),

    // Of drained reports.
    /// A drained report is always refused with 5.
    DrainedRefused,
    /// A drained report stays owed.
    DrainedKeepsDrain,
    /// A drained report is refused while an input of any stream is Queued.
    DrainedWaitsForAnyStream,
    /// A drained report is refused while there are inputs, whatever the outputs.
    DrainedLooksAtInputs,
    /// A drained report is refused while there are resources of either queue.
    DrainedLooksAtBoth,
    /// To a drained report, outputs in this state are none.
    OutputsOverlooked(Why),
    /// To a drained report, only Queued outputs are outputs.
    OnlyQueuedOutputsCount,
    /// To a drained report, only the outputs in so many slots, the first ones, are outputs.
    OutputsSeenBelow(usize),
    /// To a drained report, the outputs of all streams are its stream's.
    OutputsOfAnyStream,
    /// Whether there are outputs is asked when the drain comes and not when it is reported.
    OutputsAskedAtDrain,
    /// A drained report that is refused for this reason drops the drain, unanswered.
    RefusedDrainedEnds(Why),

    // Of the spent numbers.
    /// A number may be created again once its stream is destroyed.
    OnlyLiveRefused,
    /// A number may be created again while its stream lives.
    OnlyDestroyedRefused,
    /// A destroyed stream's number is refused after all other tests, a live one's in its place.
    DestroyedAskedLast,
    /// Destroying a stream gives its number back.
    DestroyUnspends,
    /// Destroying the last stream gives all numbers back.
    LastDestroyForgets,
    /// A number is spent only when its stream is destroyed.
    SpentByDestroy,
    /// A creation that is refused for this reason spends its number.
    RefusedSpends(Why),
    /// A creation of a number above 1,023 spends the number of its last ten bits.
    HighSpendsLastBits,
    /// Any command spends its number.
    CommandSpends,
    /// A resource's number is spent as if it were a stream's.
    ResourceSpends,
    /// A creation spends the number so far from its own too, which is in the same word or in the one
    /// beside it.
    NeighbourSpent(u32),
    /// A creation gives back the other numbers of its word.
    CreationForgetsBeside,
    /// A creation gives back the numbers of all other words.
    CreationForgetsOthers,
    /// This kind of step gives back all numbers that are not live.
    StepForgets(u32),
    /// Numbers above this one are refused.
    HighestNumber(u32),
    /// Only the low half of a number is asked to be at most 1,023.
    NumberIn16Bits,
    /// Numbers from 2^31 on are taken for negative ones.
    NumberSigned,
    /// A command to a destroyed stream is answered with 0x0300.
    LateCommandIs0300,
    /// This kind of report for a destroyed stream is taken in silence.
    LateReportTaken(u32),
    /// This kind of report for a destroyed stream is taken for another stream that it fits.
    LateReportLands(u32),
    /// A finish for a destroyed stream is refused with 5, whatever its flags.
    LateBeforeFlags,

    // Of the table and the room.
    /// A table that breaks this rule is taken.
    Taken(Broken),
    /// A table that breaks this rule is taken by this kind of step.
    TakenBy(u32, Broken),
    /// A table is taken whatever word 0 of this queue is.
    QueueHeadTaken(QueueType),
    /// A table is taken in which word 0 of a queue is 1.
    QueueHeadOf1Taken,
    /// A table is taken in which word 0 of a queue is 2^31 or more.
    HighQueueHeadTaken,
    /// Where word 0 of a queue is 1, a queueing on that queue is answered with 0x0300.
    QueueHeadStopsQueueing,
    /// A clear leaves word 0 of its queue 1.
    ClearSetsQueueHead,
    /// A table is taken in which the drain's word is this one.
    DrainWordTaken(u32),
    /// A table is taken in which the drain's word is 2^31 or more.
    HighDrainWordTaken,
    /// Where this kind of step ends a drain, this word of the drain stays as it was.
    DrainWordLeft(u32, usize),
    /// Where a finish ends a drain, this word of its buffer stays as it was.
    LastOutputWordLeft(usize),
    /// A live number of at most 1,023 need not be spent.
    LowLiveTaken,
    /// A live number above 1,023 is taken.
    HighLiveTaken,
    /// A live number is looked up by its last ten bits.
    LiveByLastBits,
    /// Only the first live number is asked to be spent.
    FirstLiveAsked,
    /// A table with a spent number that is not live is not valid.
    SpentHasToLive,
    /// A table is taken whatever this word behind the spent numbers is.
    BehindTaken(usize),
    /// The highest bit of a word stands for its lowest number.
    SpentBitsTurned,
    /// The bytes of a word stand in the other order.
    SpentBytesTurned,
    /// The last word of the spent numbers stands for the lowest ones.
    SpentWordsTurned,
    /// Number n is bit n / 32 of word n % 32.
    SpentSwapped,
    /// The spent numbers stand one word further on.
    SpentOneWordOn,
    /// A table with a free place before a used one is not valid.
    HolesRefused,
    /// The table's validity is tested before the room.
    TableBeforeRoom,
    /// A creation that is good but for its short room spends its number.
    ShortRoomSpends,
    /// A step that would end a drain but for its short room drops it.
    ShortRoomEndsDrain,
    /// The room's bytes behind those written are cleared.
    RoomCleared,
    /// This kind of step, or making fresh, refuses a table under so many words.
    Needs(u32, usize),
    /// The words behind the first 4,160 have to be zero too.
    AllWordsAsked,
    /// Making fresh clears so many words.
    FreshFills(usize),
    /// Making fresh leaves the spent numbers.
    FreshKeepsSpent,
    /// Making fresh clears the words behind the first 4,160.
    FreshAllWords,

    /// Of pending answers.
    Pending(PendingSlip),

    /// Of the order of finishes. These are not among `all`: two orders of one run have to show them,
    /// without another device beside.
    Order(OrderSlip),
}

impl Slip {
    /// Whether it is made on the table's words or the room, so that records and logs do not show it.
    pub fn of_words(self) -> bool {
        match self {
            Slip::Taken(_)
            | Slip::TakenBy(..)
            | Slip::QueueHeadTaken(_)
            | Slip::QueueHeadOf1Taken
            | Slip::HighQueueHeadTaken
            | Slip::QueueHeadStopsQueueing
            | Slip::ClearSetsQueueHead
            | Slip::DrainWordTaken(_)
            | Slip::HighDrainWordTaken
            | Slip::DrainWordLeft(..)
            | Slip::LastOutputWordLeft(_)
            | Slip::StepForgets(_)
            | Slip::LowLiveTaken
            | Slip::HighLiveTaken
            | Slip::LiveByLastBits
            | Slip::FirstLiveAsked
            | Slip::SpentHasToLive
            | Slip::BehindTaken(_)
            | Slip::SpentBitsTurned
            | Slip::SpentBytesTurned
            | Slip::SpentWordsTurned
            | Slip::SpentSwapped
            | Slip::SpentOneWordOn
            | Slip::HolesRefused
            | Slip::TableBeforeRoom
            | Slip::ShortRoomSpends
            | Slip::ShortRoomEndsDrain
            | Slip::RoomCleared
            | Slip::Needs(..)
            | Slip::AllWordsAsked
            | Slip::FreshFills(_)
            | Slip::FreshKeepsSpent
            | Slip::FreshAllWords
            | Slip::Pending(_) => true,
            Slip::Skipped(_, why) => why == "answer buffer under 1,056 bytes",
            Slip::First(_, why) => why == "command under 8 bytes",
            _ => false,
        }
    }

    /// Places, states that go on alike, the table's words and rooms do not show in a log, and a queue's
    /// last slot hardly does.
    pub fn shown_by_logs(self) -> bool {
        !self.of_words()
            && !matches!(
                self,
                Slip::HighestPlace
                    | Slip::HighestSlot
                    | Slip::OutputsSeenBelow(_)
                    | Slip::QueuedInputsSeenBelow(_, 2..)
                    | Slip::StreamsMoveDown
                    | Slip::StoppedIsCreated
                    | Slip::FinishedIsCreated
            )
    }

    /// The room is tested before the table, and again in the device's own lists; for these slips of
    /// this kind of step only the second test is made.
    pub fn leaves_room_to_device(self, kind: u32) -> bool {
        match self {
            Slip::TableBeforeRoom => true,
            Slip::Skipped(of, "answer buffer under 1,056 bytes") => of == kind,
            Slip::First(of, "command under 8 bytes") => of == kind,
            _ => false,
        }
    }

    /// Whether it remembers of a stream what its record does not hold. A table has no word for that: a
    /// bit put there to keep it would be caught at once and show nothing of the slip. So these are
    /// left to the logs, where the device goes on from step to step.
    pub fn remembers(self) -> bool {
        matches!(self, Slip::OutputsAskedAtDrain | Slip::EarlyEosRemembered)
    }

    /// Whether a report that is refused changes the records.
    pub fn changes_refused(self) -> bool {
        matches!(
            self,
            Slip::EarlyEosDequeues | Slip::RefusedEosEnds(_) | Slip::RefusedDrainedEnds(_)
        )
    }
}

/// The slips of single names; those of the lists, of the types of answers and of the rules are made
/// from the tables of reasons, answers and rules.
const NAMED: &[Slip] = &[
    Slip::EntryCountsIn32Bits,
    Slip::CountsBehindPlanes,
    Slip::SingleBufferFirstCount,
    Slip::EntryEndAtTop,
    Slip::ExactLengthBeforeLive,
    Slip::OutputClearEndsDrain,
    Slip::InputClearNeedsBuffers,
    Slip::DrainBeforeBuffers,
    Slip::OutputsBeforeInputs,
    Slip::RefusedQueueKeepsTicket,
    Slip::RefusedDrainKeepsTicket,
    Slip::InputReadAsOutput,
    Slip::InputTimestampOfReport,
    Slip::OutputTimestampOwn,
    Slip::AnswersInSlotOrder,
    Slip::AnswersInSignedOrder,
    Slip::HighestPlace,
    Slip::HighestSlot,
    Slip::StreamsMoveDown,
    Slip::TagBehindNul,
    Slip::TagSurrogates,
    Slip::TagCutCharacter,
    Slip::EmptyTagRefused,
    Slip::SetBothQueues,
    Slip::StoppedIsCreated,
    Slip::FinishedIsCreated,
    Slip::StoppedWithoutErr,
    Slip::StoppedOutputsOfTimeZero,
    Slip::LongControlQuery,
    Slip::InputOfPlainType,
    Slip::OutputOfPlainType,
    Slip::ErrOfPlainType,
    Slip::EosOfPlainType,
    Slip::BufferWithoutSize,
    Slip::DestroyAllEndsDrain,
    Slip::OutputRefusedWhileDraining,
    Slip::TypeIn16Bits,
    Slip::PaddingLookedAt,
    Slip::TimestampIn32Bits,
    Slip::HalfSecondStride,
    Slip::DefaultPlaneSizes,
    Slip::DrainBeforeLastOutput,
    Slip::EosKeepsDrain,
    Slip::EosLeavesDrain,
    Slip::EosForgetsDrain,
    Slip::NotEndedBy(EOS),
    Slip::NotEndedBy(ERR + EOS),
    Slip::EndedBy(INPUT, 0),
    Slip::EndedBy(INPUT, ERR),
    Slip::EndedBy(OUTPUT, 0),
    Slip::EndedBy(OUTPUT, ERR),
    Slip::LastInputEndsDrain,
    Slip::LastOutputEndsDrain,
    Slip::LastOutputOfDrainTicket,
    Slip::LastOutputWithoutEos,
    Slip::LastOutputStaysQueued,
    Slip::LastDrainOfResource,
    Slip::LastDrainOfBufferTicket,
    Slip::LastDrainWithFlags,
    Slip::LastDrainWithoutStream,
    Slip::EosFreesInputs,
    Slip::EosStopsOutputs,
    Slip::EosDequeuesOutputs,
    Slip::EndsAllDrains(FINISH),
    Slip::EndsAllDrains(DRAINED),
    Slip::EndsAllDrains(QUEUE_CLEAR),
    Slip::EndsAllDrains(STREAM_DESTROY),
    Slip::EarlyEosLeavesDrain,
    Slip::EarlyEosTakenWith(EOS),
    Slip::EarlyEosTakenWith(ERR + EOS),
    Slip::EarlyEosDequeues,
    Slip::EarlyEosRemembered,
    Slip::EosWaitsForOutputs,
    Slip::EosWaitsForBoth,
    Slip::EosWaitsForIdleInputs,
    Slip::EosWaitsForAnyStream,
    Slip::OutputsWaitForInputs,
    Slip::EosByAnyDrain,
    Slip::RefusedEosEnds("flags outside ERR and EOS"),
    Slip::RefusedEosEnds("no buffer now Queued"),
    Slip::RefusedEosEnds("EOS on an input"),
    Slip::RefusedEosEnds("EOS with an input still Queued"),
    Slip::QueuedInputsSeenBelow(FINISH, 1),
    Slip::QueuedInputsSeenBelow(FINISH, SLOTS - 1),
    Slip::QueuedInputsSeenBelow(DRAINED, 1),
    Slip::QueuedInputsSeenBelow(DRAINED, SLOTS - 1),
    Slip::DrainedRefused,
    Slip::DrainedKeepsDrain,
    Slip::DrainedWaitsForAnyStream,
    Slip::DrainedLooksAtInputs,
    Slip::DrainedLooksAtBoth,
    Slip::OutputsOverlooked("Created"),
    Slip::OutputsOverlooked("Queued"),
    Slip::OutputsOverlooked("Dequeued"),
    Slip::OnlyQueuedOutputsCount,
    Slip::OutputsSeenBelow(1),
    Slip::OutputsSeenBelow(SLOTS - 1),
    Slip::OutputsOfAnyStream,
    Slip::OutputsAskedAtDrain,
    Slip::RefusedDrainedEnds("an input still Queued"),
    Slip::RefusedDrainedEnds("output resources there"),
    Slip::OnlyLiveRefused,
    Slip::OnlyDestroyedRefused,
    Slip::DestroyedAskedLast,
    Slip::DestroyUnspends,
    Slip::LastDestroyForgets,
    Slip::SpentByDestroy,
    Slip::HighSpendsLastBits,
    Slip::CommandSpends,
    Slip::ResourceSpends,
    Slip::NeighbourSpent(1),
    Slip::NeighbourSpent(32),
    Slip::CreationForgetsBeside,
    Slip::CreationForgetsOthers,
    Slip::StepForgets(COMMAND),
    Slip::StepForgets(FINISH),
    Slip::StepForgets(DRAINED),
    Slip::HighestNumber(1022),
    Slip::HighestNumber(1024),
    Slip::NumberIn16Bits,
    Slip::NumberSigned,
    Slip::LateCommandIs0300,
    Slip::LateReportTaken(FINISH),
    Slip::LateReportTaken(DRAINED),
    Slip::LateReportLands(FINISH),
    Slip::LateReportLands(DRAINED),
    Slip::LateBeforeFlags,
    Slip::QueueHeadTaken(QueueType::Input),
    Slip::QueueHeadTaken(QueueType::Output),
    Slip::QueueHeadOf1Taken,
    Slip::HighQueueHeadTaken,
    Slip::QueueHeadStopsQueueing,
    Slip::ClearSetsQueueHead,
    Slip::DrainWordTaken(2),
    Slip::DrainWordTaken(3),
    Slip::DrainWordTaken(u32::MAX),
    Slip::HighDrainWordTaken,
    Slip::DrainWordLeft(FINISH, DRAIN_AT),
    Slip::DrainWordLeft(FINISH, DRAIN_AT + 1),
    Slip::DrainWordLeft(DRAINED, DRAIN_AT),
    Slip::DrainWordLeft(DRAINED, DRAIN_AT + 1),
    Slip::DrainWordLeft(COMMAND, DRAIN_AT),
    Slip::DrainWordLeft(COMMAND, DRAIN_AT + 1),
    Slip::LastOutputWordLeft(0),
    Slip::LastOutputWordLeft(2),
    Slip::LastOutputWordLeft(3),
    Slip::LastOutputWordLeft(4),
    Slip::LowLiveTaken,
    Slip::HighLiveTaken,
    Slip::LiveByLastBits,
    Slip::FirstLiveAsked,
    Slip::SpentHasToLive,
    Slip::SpentBitsTurned,
    Slip::SpentBytesTurned,
    Slip::SpentWordsTurned,
    Slip::SpentSwapped,
    Slip::SpentOneWordOn,
    Slip::HolesRefused,
    Slip::TableBeforeRoom,
    Slip::ShortRoomSpends,
    Slip::ShortRoomEndsDrain,
    Slip::RoomCleared,
    Slip::AllWordsAsked,
    Slip::FreshFills(SPENT_AT),
    Slip::FreshFills(SPENT_END),
    Slip::FreshFills(TOTAL_AT),
    Slip::FreshFills(MARKS_AT),
    Slip::FreshFills(FIGURES_AT),
    Slip::FreshFills(UNUSED_AT),
    Slip::FreshFills(WORDS - 1),
    Slip::FreshFills(WORDS + 1),
    Slip::FreshKeepsSpent,
    Slip::FreshAllWords,
];

/// Tests in the wrong order or with a wrong number; those of a creation's number are in `of_numbers`.
const OF_TESTS: &[Slip] = &[
    Slip::First(COMMAND, "command under 8 bytes"),
    Slip::First(STREAM_DRAIN, "stream not live"),
    Slip::First(STREAM_CREATE, "no place"),
    Slip::First(RESOURCE_CREATE, "number present"),
    Slip::First(RESOURCE_CREATE, "no place"),
    Slip::Last(RESOURCE_CREATE, "number present"),
    Slip::First(RESOURCE_QUEUE, "number absent"),
    Slip::First(RESOURCE_QUEUE, "an input while draining"),
    Slip::Last(RESOURCE_QUEUE, "an input while draining"),
    Slip::First(SET_PARAMS, "any of that queue Queued"),
    Slip::First(QUERY_CONTROL, "unsupported control"),
    Slip::First(SET_CONTROL, "stream not live"),
    Slip::First(FINISH, "no buffer now Queued"),
    Slip::First(FINISH, EARLY),
    Slip::Beyond(FINISH, EARLY, "no buffer now Queued"),
    Slip::Beyond(FINISH, "EOS on an input", EARLY),
    Slip::Beyond(FINISH, "EOS with no drain owed", EARLY),
    Slip::Last(FINISH, "no buffer now Queued"),
    Slip::Last(FINISH, "flags outside ERR and EOS"),
    Slip::Gives(STREAM_CREATE, "no place", INVALID_PARAMETER),
    Slip::Gives(RESOURCE_CREATE, "no place", INVALID_RESOURCE),
    Slip::Gives(RESOURCE_CREATE, "number present", INVALID_PARAMETER),
    Slip::Gives(RESOURCE_QUEUE, "already Queued", INVALID_RESOURCE),
    Slip::Gives(STREAM_DRAIN, "already draining", INVALID_PARAMETER),
    Slip::Gives(FINISH, "EOS with no drain owed", 5),
    Slip::Gives(FINISH, EARLY, 6),
    Slip::Gives(DRAINED, "output resources there", 6),
];

/// The last test of a finish.
const EARLY: Why = "EOS with an input still Queued";

/// The fields of a creation, by the tests made of them.
const FIELDS: [Why; 5] = [
    "input memory type not 0",
    "output memory type not 0",
    "format outside 0x1000 to 0x1005",
    "tag without a NUL",
    "bytes before the first NUL that aren't UTF-8",
];

/// The tests of a creation's number.
const OF_NUMBER: [Why; 2] = ["number spent", "number above 1,023"];

/// Every slip that has to be caught.
pub fn all() -> Vec<Slip> {
    let mut slips: Vec<Slip> = Broken::ALL.into_iter().map(Slip::Taken).collect();
    slips.extend(of_skipped_tests());
    slips.extend(OF_TESTS);
    slips.extend(of_answers());
    slips.extend(of_numbers());
    slips.extend(of_tables());
    slips.extend(NAMED);
    slips.extend(pending_slips::all().into_iter().map(Slip::Pending));
    slips
}

/// Each test left out, but for two: the first test of all is no list, and a drained report for no
/// stream is refused in the same way as one with no drain owed.
fn of_skipped_tests() -> impl Iterator<Item = Slip> {
    let tests = REASONS.iter().map(|&(kind, why, _)| (kind, why));
    tests
        .filter(|&(kind, why)| kind != UNKNOWN && (kind, why) != (DRAINED, "no such stream"))
        .map(|(kind, why)| Slip::Skipped(kind, why))
}

/// Each answer of 0x0200 or 0x0202 with the other of them.
fn of_answers() -> Vec<Slip> {
    let owed = OWED.iter().map(|&(kind, code)| match code {
        OK_RESOURCE_QUEUE => Slip::BufferOfPlainType(kind),
        _ => Slip::DrainOfBufferType(kind),
    });
    let plain = SUCCESSES.iter().filter(|&&(_, code)| code == OK_NODATA);
    owed.chain(plain.map(|&(kind, _)| Slip::SuccessOfBufferType(kind))).collect()
}

/// Those of a creation's number: each of its two tests before the length, behind each field and
/// behind "no place", or with another code, and each other refusal of a creation spending it.
fn of_numbers() -> Vec<Slip> {
    let mut slips = Vec::new();
    for why in OF_NUMBER {
        slips.push(Slip::First(STREAM_CREATE, why));
        slips.extend(FIELDS.map(|field| Slip::Beyond(STREAM_CREATE, why, field)));
        slips.push(Slip::Last(STREAM_CREATE, why));
        slips.extend(
            [INVALID_OPERATION, OUT_OF_MEMORY, INVALID_PARAMETER]
                .map(|code| Slip::Gives(STREAM_CREATE, why, code)),
        );
    }
    let others = FIELDS.into_iter().chain(["wrong length", "no place"]);
    slips.extend(others.map(Slip::RefusedSpends));
    slips
}

/// Those of a table's length, of some rules of a valid table, each in one entry alone, and of each word
/// behind the spent numbers.
fn of_tables() -> Vec<Slip> {
    let mut slips = Vec::new();
    for kind in [COMMAND, FINISH, DRAINED] {
        let rules = [Broken::Drain, Broken::QueueHead, Broken::NotSpent, Broken::Unused];
        let of_pending = [Broken::Total, Broken::Mark, Broken::Figure];
        slips.extend(rules.into_iter().chain(of_pending).map(|rule| Slip::TakenBy(kind, rule)));
    }
    for kind in [FRESH, COMMAND, FINISH, DRAINED] {
        slips.extend([SPENT_AT, WORDS - 1, WORDS + 1].map(|words| Slip::Needs(kind, words)));
    }
    slips.extend(of_short_questions());
    slips.extend((SPENT_END..WORDS).map(Slip::BehindTaken));
    slips
}

/// Those of the length of a table that a question is asked of: the words that it reads, and others.
pub fn of_short_questions() -> Vec<Slip> {
    let mut slips = Vec::new();
    for (kind, read) in [(IN_ALL, MARKS_AT), (OF_STREAM, UNUSED_AT)] {
        slips.extend([SPENT_AT, read, WORDS - 1, WORDS + 1].map(|words| Slip::Needs(kind, words)));
    }
    slips
}
