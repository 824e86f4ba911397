//! Records and spent numbers to the table's 4,160 words and back, by docs/LAYOUT.md ("What valid
//! asks"), and not by the core's own test.

use super::device::*;
use super::pending;
use super::slips::Slip;

pub const WORDS: usize = 4160;
pub const BLOCK: usize = 512;
/// Where the spent numbers stand, behind the blocks, and where they end.
pub const SPENT_AT: usize = 4096;
pub const SPENT_END: usize = 4128;
/// Where the figures of pending answers stand: the total, the marks of the places, their figures.
pub const TOTAL_AT: usize = 4129;
pub const MARKS_AT: usize = 4130;
pub const FIGURES_AT: usize = 4138;
/// From here on the table's words have no use; nor has the one between spent numbers and total.
pub const UNUSED_AT: usize = 4146;
/// Where the drain's word stands in a block, its ticket behind it.
pub const DRAIN_AT: usize = 3;
/// Where a queue starts in a block.
pub const INPUT_AT: usize = 8;
pub const OUTPUT_AT: usize = 92;
/// A queue's words before its slots, and a slot's words.
pub const SLOTS_AT: usize = 4;
pub const SLOT: usize = 5;
const QUEUE: usize = SLOTS_AT + SLOTS * SLOT;
/// From here on a block's words have no use.
pub const TAIL_AT: usize = OUTPUT_AT + QUEUE;

/// The words behind the spent numbers.
pub type Behind = [u32; WORDS - SPENT_END];

/// The rule that a table breaks, the first one found.
#[derive(Clone, Copy, Debug, PartialEq, Eq, PartialOrd, Ord)]
pub enum Broken {
    /// Word 0 of a block is neither 0 nor 1.
    Live,
    /// A vacant place is not all zero.
    Vacant,
    /// The drain's word is neither 0 nor 1.
    Drain,
    /// A drain's ticket stands while none is owed.
    DrainTicket,
    /// A slot's state is above 3.
    SlotState,
    /// A free slot is not all zero.
    FreeSlot,
    /// A ticket or timestamp stands in a slot that is not Queued.
    NotQueued,
    /// One of words 5 to 7 of a live block is not zero.
    Head,
    /// Word 0 of a queue of a live block, which has no use, is not zero.
    QueueHead,
    /// One of words 176 to 511 of a live block is not zero.
    Tail,
    /// The coded format is outside 0x1000 to 0x1005.
    Format,
    /// A width or height is odd or outside 16 to 4,096.
    Extent,
    /// A resource number stands twice in a queue.
    ResourceTwice,
    /// A stream number stands in two live places.
    StreamTwice,
    /// The number of a live place is not spent.
    NotSpent,
    /// Word 4,128 or one of words 4,146 to 4,159 is not zero.
    Unused,
    /// The total is not that of the answers pending.
    Total,
    /// The mark of a place is not its stream's number and 1, or not 0 where it is vacant.
    Mark,
    /// The figure of a place is not that of the answers pending to its stream.
    Figure,
}

impl Broken {
    pub const ALL: [Broken; 19] = [
        Broken::Live,
        Broken::Vacant,
        Broken::Drain,
        Broken::DrainTicket,
        Broken::SlotState,
        Broken::FreeSlot,
        Broken::NotQueued,
        Broken::Head,
        Broken::QueueHead,
        Broken::Tail,
        Broken::Format,
        Broken::Extent,
        Broken::ResourceTwice,
        Broken::StreamTwice,
        Broken::NotSpent,
        Broken::Unused,
        Broken::Total,
        Broken::Mark,
        Broken::Figure,
    ];
}

/// The records that the words stand for, or the rule that they break.
pub fn read(words: &[u32], slip: Option<Slip>) -> Result<Device, Broken> {
    let mut device = Device { slip, ..Device::default() };
    for (place, block) in device.places.iter_mut().zip(words.chunks_exact(BLOCK)) {
        *place = read_place(block, slip)?;
    }
    device.spent = read_spent(words, slip);
    let live = || device.streams().map(|stream| stream.number);
    ask(!twice(live()), Broken::StreamTwice, slip)?;
    let asked = if slip == Some(Slip::FirstLiveAsked) { 1 } else { PLACES };
    let spent = live().take(asked).all(|number| taken_as_spent(&device.spent, number, slip));
    ask(spent, Broken::NotSpent, slip)?;
    ask_behind(&device, &words[SPENT_END..WORDS], slip)?;
    ask_too_much(&device, slip)?;
    Ok(device)
}

/// What only a slip asks of a table.
fn ask_too_much(device: &Device, slip: Option<Slip>) -> Result<(), Broken> {
    match slip {
        Some(Slip::SpentHasToLive) => {
            let live = device.spent.numbers().all(|number| device.stream(number).is_some());
            ask(live, Broken::NotSpent, None)
        }
        Some(Slip::HolesRefused) => {
            let mut queues = device.streams().flat_map(|stream| [&stream.input, &stream.output]);
            ask(!queues.any(|queue| has_hole(&queue.resources)), Broken::FreeSlot, None)
        }
        _ => Ok(()),
    }
}

/// "The number of every live place is spent, so that it is at most 1,023."
fn taken_as_spent(spent: &Spent, number: u32, slip: Option<Slip>) -> bool {
    let high = number as usize >= NUMBERS;
    match slip {
        Some(Slip::LowLiveTaken) => !high,
        Some(Slip::HighLiveTaken) => high || spent.has(number),
        Some(Slip::LiveByLastBits) => spent.has(number % NUMBERS as u32),
        _ => spent.has(number),
    }
}

/// "The mark and the figure of each place and the total are those that follow from the blocks", and
/// the words without use amid them are zero.
fn ask_behind(device: &Device, found: &[u32], slip: Option<Slip>) -> Result<(), Broken> {
    let right = slipped(device, behind_records(device));
    for (at, (word, wanted)) in (SPENT_END..).zip(found.iter().zip(&right)) {
        let passed = || match slip {
            Some(Slip::BehindTaken(taken)) => at == taken,
            Some(Slip::Pending(slip)) => slip.takes(device, at, found, &right),
            _ => false,
        };
        let rule = match at {
            TOTAL_AT => Broken::Total,
            MARKS_AT..FIGURES_AT => Broken::Mark,
            FIGURES_AT..UNUSED_AT => Broken::Figure,
            _ => Broken::Unused,
        };
        ask(word == wanted || passed(), rule, slip)?;
    }
    Ok(())
}

/// The words behind the spent numbers, by the records.
fn behind_records(device: &Device) -> Behind {
    behind(device.places.each_ref().map(|place| {
        let stream = place.as_ref()?;
        Some((stream.number, pending::of_stream(stream)))
    }))
}

/// The same by the words of the blocks, whatever else is wrong with them.
fn behind_blocks(words: &[u32]) -> Behind {
    let queues = [INPUT_AT + SLOTS_AT..OUTPUT_AT, OUTPUT_AT + SLOTS_AT..TAIL_AT];
    let mut streams = [None; PLACES];
    for (stream, block) in streams.iter_mut().zip(words.chunks_exact(BLOCK)) {
        if block[0] != 0 {
            let slots = queues.iter().flat_map(|queue| block[queue.clone()].chunks_exact(SLOT));
            let queued = slots.filter(|slot| slot[0] == 2).count() as u32;
            *stream = Some((block[1], queued + u32::from(block[DRAIN_AT] != 0)));
        }
    }
    behind(streams)
}

/// The words behind the spent numbers, of the number and figure in each place.
fn behind(streams: [Option<(u32, u32)>; PLACES]) -> Behind {
    let mut words = Behind::default();
    for (place, stream) in streams.into_iter().enumerate() {
        let Some((number, figure)) = stream else { continue };
        // 2^32 - 1, which has no mark, stands in no valid table.
        words[MARKS_AT - SPENT_END + place] = number.wrapping_add(1);
        words[FIGURES_AT - SPENT_END + place] = figure;
        words[TOTAL_AT - SPENT_END] += figure;
    }
    words
}

/// These words, or what a slip has in their stead.
fn slipped(device: &Device, right: Behind) -> Behind {
    match device.slip {
        Some(Slip::Pending(slip)) => slip.behind(device),
        _ => right,
    }
}

/// The figures of pending answers that follow from the blocks of these words.
pub fn settled(words: &[u32]) -> [u32; UNUSED_AT - TOTAL_AT] {
    let behind = behind_blocks(words);
    std::array::from_fn(|at| behind[TOTAL_AT - SPENT_END + at])
}

/// Makes the figures of pending answers follow from the blocks, which were changed.
pub fn settle(words: &mut [u32]) {
    let settled = settled(words);
    words[TOTAL_AT..UNUSED_AT].copy_from_slice(&settled);
}

/// "Number n is bit n % 32 of word 4,096 + n / 32", which is how `Spent` has it too.
pub fn read_spent(words: &[u32], slip: Option<Slip>) -> Spent {
    let mut spent = Spent::default();
    match misplaced(slip) {
        None => spent.0.copy_from_slice(&words[SPENT_AT..SPENT_END]),
        Some(place) => {
            let stands = |&number: &u32| {
                let (at, bit) = place(number);
                words[at] >> bit & 1 == 1
            };
            spent.extend(numbers().filter(stands));
        }
    }
    spent
}

/// Where a slip has the bit of a number, by its word and bit; none for all other slips.
fn misplaced(slip: Option<Slip>) -> Option<impl Fn(u32) -> (usize, u32)> {
    let moved: fn(usize, u32) -> (usize, u32) = match slip? {
        Slip::SpentBitsTurned => |word, bit| (word, 31 - bit),
        Slip::SpentBytesTurned => |word, bit| (word, bit ^ 24),
        Slip::SpentWordsTurned => |word, bit| (31 - word, bit),
        Slip::SpentSwapped => |word, bit| (bit as usize, word as u32),
        Slip::SpentOneWordOn => |word, bit| (word + 1, bit),
        _ => return None,
    };
    Some(move |number| {
        let (word, bit) = Spent::bit_of(number);
        let (word, bit) = moved(word, bit);
        (SPENT_AT + word, bit)
    })
}

fn read_place(block: &[u32], slip: Option<Slip>) -> Result<Option<Stream>, Broken> {
    ask(block[0] <= 1, Broken::Live, slip)?;
    if block[0] == 0 {
        ask(all_zero(block), Broken::Vacant, slip)?;
        return Ok(None);
    }
    let coded_format = block[2];
    let drain = read_drain(block[DRAIN_AT], block[DRAIN_AT + 1], slip)?;
    ask(all_zero(&block[5..INPUT_AT]), Broken::Head, slip)?;
    ask(all_zero(&block[TAIL_AT..]), Broken::Tail, slip)?;
    ask((0x1000..=0x1005).contains(&coded_format), Broken::Format, slip)?;
    Ok(Some(Stream {
        number: block[1],
        coded_format,
        drain,
        input: read_queue(&block[INPUT_AT..OUTPUT_AT], QueueType::Input, coded_format, slip)?,
        output: read_queue(&block[OUTPUT_AT..TAIL_AT], QueueType::Output, coded_format, slip)?,
        kept: false,
    }))
}

/// The drain of a block's two words: whether it is pending, 0 or 1, and its ticket, "0 while none is
/// pending".
fn read_drain(word: u32, ticket: u32, slip: Option<Slip>) -> Result<Option<u32>, Broken> {
    let passed = match slip {
        Some(Slip::DrainWordTaken(taken)) => word == taken,
        Some(Slip::HighDrainWordTaken) => word >= 1 << 31,
        _ => false,
    };
    ask(word <= 1 || passed, Broken::Drain, slip)?;
    ask(word != 0 || ticket == 0, Broken::DrainTicket, slip)?;
    Ok((word != 0).then_some(ticket))
}

fn read_queue(
    words: &[u32],
    queue_type: QueueType,
    coded_format: u32,
    slip: Option<Slip>,
) -> Result<Queue, Broken> {
    let (head, width, height, rate) = (words[0], words[1], words[2], words[3]);
    let passed = match slip {
        Some(Slip::QueueHeadTaken(of)) => of == queue_type,
        Some(Slip::QueueHeadOf1Taken) => head == 1,
        Some(Slip::HighQueueHeadTaken) => head >= 1 << 31,
        _ => false,
    };
    ask(head == 0 || passed, Broken::QueueHead, slip)?;
    for extent in [width, height] {
        ask(extent % 2 == 0 && (16..=4096).contains(&extent), Broken::Extent, slip)?;
    }
    let mut resources = [None; SLOTS];
    for (resource, slot) in resources.iter_mut().zip(words[SLOTS_AT..].chunks_exact(SLOT)) {
        *resource = read_slot(slot, slip)?;
    }
    let numbers = resources.iter().flatten().map(|resource: &Resource| resource.number);
    ask(!twice(numbers), Broken::ResourceTwice, slip)?;
    Ok(Queue {
        parameters: Parameters::left_by_set(queue_type, coded_format, width, height, rate),
        resources,
    })
}

fn read_slot(slot: &[u32], slip: Option<Slip>) -> Result<Option<Resource>, Broken> {
    let number = slot[1];
    let state = match slot[0] {
        0 => {
            ask(all_zero(slot), Broken::FreeSlot, slip)?;
            return Ok(None);
        }
        1 => State::Created,
        2 => State::Queued {
            ticket: slot[2],
            timestamp: u64::from(slot[4]) << 32 | u64::from(slot[3]),
        },
        3 => State::Dequeued,
        _ => {
            ask(false, Broken::SlotState, slip)?;
            State::Dequeued
        }
    };
    let queued = matches!(state, State::Queued { .. });
    ask(queued || all_zero(&slot[2..]), Broken::NotQueued, slip)?;
    Ok(Some(Resource { number, state }))
}

/// The words of the records and the spent numbers, and of the answers pending by them. `words` are
/// the table's first 4,160.
pub fn write(device: &Device, words: &mut [u32]) {
    for (place, block) in device.places.iter().zip(words.chunks_exact_mut(BLOCK)) {
        match place {
            None => block.fill(0),
            Some(stream) => write_place(stream, block),
        }
    }
    let behind = slipped(device, behind_blocks(words));
    words[SPENT_END..WORDS].copy_from_slice(&behind);
    write_spent(device, words);
}

/// The words of the spent numbers.
pub fn write_spent(device: &Device, words: &mut [u32]) {
    words[SPENT_AT..SPENT_END].fill(0);
    match misplaced(device.slip) {
        None => words[SPENT_AT..SPENT_END].copy_from_slice(&device.spent.0),
        Some(place) => {
            for (at, bit) in device.spent.numbers().map(place) {
                words[at] |= 1 << bit;
            }
        }
    }
}

fn write_place(stream: &Stream, block: &mut [u32]) {
    block[0] = 1;
    block[1] = stream.number;
    block[2] = stream.coded_format;
    let drain = stream.drain.map_or([0, 0], |ticket| [1, ticket]);
    block[DRAIN_AT..DRAIN_AT + 2].copy_from_slice(&drain);
    block[5..INPUT_AT].fill(0);
    write_queue(&stream.input, &mut block[INPUT_AT..OUTPUT_AT]);
    write_queue(&stream.output, &mut block[OUTPUT_AT..TAIL_AT]);
    block[TAIL_AT..].fill(0);
}

fn write_queue(queue: &Queue, words: &mut [u32]) {
    words[0] = 0;
    words[1] = queue.parameters.width;
    words[2] = queue.parameters.height;
    words[3] = queue.parameters.rate;
    for (resource, slot) in queue.resources.iter().zip(words[SLOTS_AT..].chunks_exact_mut(SLOT)) {
        slot.copy_from_slice(&match resource {
            None => [0; SLOT],
            Some(Resource { number, state: State::Created }) => [1, *number, 0, 0, 0],
            Some(Resource { number, state: State::Queued { ticket, timestamp } }) => {
                [2, *number, *ticket, *timestamp as u32, (*timestamp >> 32) as u32]
            }
            Some(Resource { number, state: State::Dequeued }) => [3, *number, 0, 0, 0],
        });
    }
}

/// The words that have no use in the table of these records: no value but 0 may stand there. (A
/// free slot's state is not among them, since with another state it is another record.)
pub fn without_use(device: &Device) -> Vec<usize> {
    let mut unused = Vec::new();
    for (place, start) in device.places.iter().zip((0..).step_by(BLOCK)) {
        let Some(stream) = place else {
            unused.extend(start..start + BLOCK);
            continue;
        };
        if stream.drain.is_none() {
            unused.push(start + DRAIN_AT + 1);
        }
        unused.extend(start + 5..start + INPUT_AT);
        for (queue, at) in [(&stream.input, INPUT_AT), (&stream.output, OUTPUT_AT)] {
            unused.push(start + at);
            for (slot, resource) in queue.resources.iter().enumerate() {
                let first = start + at + SLOTS_AT + slot * SLOT;
                match resource.map(|resource| resource.state) {
                    None => unused.extend(first + 1..first + SLOT),
                    Some(State::Queued { .. }) => {}
                    Some(State::Created | State::Dequeued) => {
                        unused.extend(first + 2..first + SLOT)
                    }
                }
            }
        }
        unused.extend(start + TAIL_AT..start + BLOCK);
    }
    unused.push(SPENT_END);
    unused.extend(UNUSED_AT..WORDS);
    unused
}

fn ask(kept: bool, rule: Broken, slip: Option<Slip>) -> Result<(), Broken> {
    if kept || slip == Some(Slip::Taken(rule)) {
        Ok(())
    } else {
        Err(rule)
    }
}

/// Without a way out of the loop, so that many words are looked at together.
fn all_zero(words: &[u32]) -> bool {
    words.iter().fold(0, |all, word| all | word) == 0
}

fn twice(numbers: impl Iterator<Item = u32>) -> bool {
    let mut seen = [0; if PLACES > SLOTS { PLACES } else { SLOTS }];
    for (count, number) in numbers.enumerate() {
        if seen[..count].contains(&number) {
            return true;
        }
        seen[count] = number;
    }
    false
}

/// Whether a free place stands before a used one.
pub fn has_hole<T>(places: &[Option<T>]) -> bool {
    places.windows(2).any(|pair| pair[0].is_none() && pair[1].is_some())
}
