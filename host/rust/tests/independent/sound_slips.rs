//! Slips: wrong variants of the independent sound device. The comparisons have to catch every one
//! of them, else they are too weak.

use super::sound::{Test::*, *};
use Slip::*;

/// One slip. A device has at most one.
#[derive(Clone, Copy, Debug, PartialEq, Eq)]
pub enum Slip {
    // Of the list of tests.
    /// The test is left out.
    Skipped(Test),
    /// The test is made at this place of the list.
    Moved(Test, usize),
    /// The test gives this number.
    Gives(Test, u32),
    /// A message that this test hits changes the state.
    Changes(Test),
    /// The test looks at the fields of set format in messages of other codes too.
    OfAllCodes(Test),

    // Of the life order: state, code, and the state that it leads to.
    NotTaken(u32, u32),
    TakenToo(u32, u32),
    LeadsTo(u32, u32, u32),

    // Of the fields.
    /// The field is read from this byte on.
    ReadAt(Field, usize),
    /// The field is read in so many bytes.
    ReadIn(Field, usize),
    BigEndian(Field),
    /// Padding other than zero fails.
    PaddingLookedAt,

    // Of single tests.
    Room263Enough,
    Room264Refused,
    /// Only code 0 is asked for 264 bytes of room, the others for 4.
    RoomForOwnAnswer,
    /// Of the room's length only these bits are looked at.
    RoomIn(usize),
    State6Taken,
    State5Refused,
    /// Of the state only these bits are looked at.
    StateIn(u32),
    Message8Refused,
    Message7Taken,
    /// Of the message's length only these bits are looked at.
    LengthIn(usize),
    /// Bytes behind a whole message are let be.
    LongerTaken,
    /// Set format may leave out its padding.
    SetFormatIn14,
    /// The other codes may have 16 bytes too.
    AllIn16,
    Code6Unknown,
    Code7Known,
    /// Fewer or as many as the least number of channels fail.
    MinExclusive,
    MaxExclusive,
    /// A range without any number in it takes all.
    EmptyRangeTaken,
    BoundsSwapped,
    /// 0 channels fail, whatever the range.
    ZeroChannelsRefused,
    Format7Undefined,
    Rate13Undefined,
    FormatByRates,
    RateByFormats,
    MasksSwapped,
    /// Bit n + 1 stands for format n.
    FormatBitBeside,
    RateBitBeside,
    RatesIn8Bits,

    // Of the answer.
    /// Code 0 is answered with 4 bytes.
    MapIn4Bytes,
    /// So many zeros stand behind the status.
    Zeros(usize),
    /// The zeros are counted but not written.
    ZerosNotWritten,
    /// The zeros are written but not counted.
    ZerosNotCounted,
    /// Code 0 in under 8 bytes is answered with 264 bytes.
    ZerosInUnder8,
    /// Code 0 is answered with 264 bytes only where it has 8 itself.
    ZerosOnlyIn8,
    /// Code 0 is answered with 264 bytes only for a known stream.
    ZerosOnlyForStreams,
    /// Every answer has 264 bytes.
    ZerosAlways,
    /// The room's bytes behind those written are cleared.
    RoomCleared,
    StatusBigEndian,
    /// The upper half of the status is not written.
    StatusIn2Bytes,
    SuccessIs0,
    RefusalWrites,
    RefusalCounts,
    RefusalGivesFresh,
}

/// The slips of single names; the others are made from the lists of tests, fields and transitions.
const NAMED: &[Slip] = &[
    OfAllCodes(TooFewChannels),
    OfAllCodes(FormatNotOffered),
    OfAllCodes(RateNotOffered),
    PaddingLookedAt,
    Room263Enough,
    Room264Refused,
    RoomForOwnAnswer,
    RoomIn(0xffff),
    State6Taken,
    State5Refused,
    StateIn(0xff),
    StateIn(0xffff),
    Message8Refused,
    Message7Taken,
    LengthIn(0xff),
    LengthIn(0xffff),
    LongerTaken,
    SetFormatIn14,
    AllIn16,
    Code6Unknown,
    Code7Known,
    MinExclusive,
    MaxExclusive,
    EmptyRangeTaken,
    BoundsSwapped,
    ZeroChannelsRefused,
    Format7Undefined,
    Rate13Undefined,
    FormatByRates,
    RateByFormats,
    MasksSwapped,
    FormatBitBeside,
    RateBitBeside,
    RatesIn8Bits,
    MapIn4Bytes,
    Zeros(259),
    Zeros(261),
    ZerosNotWritten,
    ZerosNotCounted,
    ZerosInUnder8,
    ZerosOnlyIn8,
    ZerosOnlyForStreams,
    ZerosAlways,
    RoomCleared,
    StatusBigEndian,
    StatusIn2Bytes,
    SuccessIs0,
    RefusalWrites,
    RefusalCounts,
    RefusalGivesFresh,
];

/// Every slip there is.
pub fn all() -> Vec<Slip> {
    let mut slips: Vec<Slip> = Test::ALL.into_iter().map(Skipped).collect();
    slips.extend(moves());
    for test in Test::ALL {
        let numbers = if test.refuses() { 1..=4 } else { OK..=OK + 3 };
        let others = numbers.filter(|&number| number != test.number());
        slips.extend(others.map(|number| Gives(test, number)));
        slips.push(Changes(test));
    }
    slips.extend(of_life());
    slips.extend(of_fields());
    slips.extend(NAMED);
    slips
}

/// Whether no message can be hit by both tests.
pub fn exclude(one: Test, other: Test) -> bool {
    match (one.min(other), one.max(other)) {
        (UnknownCode, ChannelMap) | (UnknownStream, InputStream) => true,
        (ShortMessage | UnknownCode | ChannelMap, later) => later.of_set_format(),
        _ => false,
    }
}

/// Each test at each other place, but where that gives the same answers: all the tests that it is
/// moved over give its own number or exclude it.
fn moves() -> impl Iterator<Item = Slip> {
    let places = 0..Test::ALL.len();
    Test::ALL.into_iter().flat_map(move |test| {
        let from = test as usize;
        let shows = move |other: &Test| test.number() != other.number() && !exclude(test, *other);
        places.clone().filter_map(move |to| {
            let passed = if to < from { to..from } else { from + 1..to + 1 };
            // One place up is the neighbour's one place down.
            let new = to + 1 != from;
            (new && Test::ALL[passed].iter().any(shows)).then_some(Moved(test, to))
        })
    })
}

/// Each transition missing or leading to each other state, and each other pair of a state and a
/// code taken.
fn of_life() -> Vec<Slip> {
    let mut slips = Vec::new();
    for state in FRESH..=STOPPED {
        for code in SET_FORMAT..=UNPAUSE {
            let Some(next) = life(state, code) else {
                slips.push(TakenToo(state, code));
                continue;
            };
            slips.push(NotTaken(state, code));
            let others = (FRESH..=STOPPED).filter(|&other| other != next);
            slips.extend(others.map(|other| LeadsTo(state, code, other)));
        }
    }
    slips
}

/// Each field read in each other place or width that is near.
fn of_fields() -> Vec<Slip> {
    let mut slips = Vec::new();
    for (field, places, widths) in [
        (Field::Code, &[4][..], &[1, 2, 3][..]),
        (Field::Stream, &[0, 8], &[1, 2, 3]),
        (Field::Channels, &[4, 9, 10], &[1, 4]),
        (Field::Format, &[8, 11, 12], &[1, 4]),
        (Field::Rate, &[10, 13, 14], &[1, 4]),
    ] {
        slips.extend(places.iter().map(|&at| ReadAt(field, at)));
        slips.extend(widths.iter().map(|&bytes| ReadIn(field, bytes)));
        slips.push(BigEndian(field));
    }
    slips
}

/// Where a code leads in any state that takes it.
fn leads_to(code: u32) -> Option<u32> {
    LIFE.iter().find(|&&(_, taken, _)| taken == code).map(|&(_, _, next)| next)
}

impl Slip {
    /// The field as the slip reads it.
    pub fn field(self, message: &[u8], field: Field) -> u32 {
        let (at, bytes) = field.place();
        match self {
            ReadAt(other, at) if other == field => little_endian(message, at, bytes),
            ReadIn(other, bytes) if other == field => little_endian(message, at, bytes),
            BigEndian(other) if other == field => {
                little_endian(message, at, bytes).swap_bytes() >> (32 - 8 * bytes)
            }
            _ => little_endian(message, at, bytes),
        }
    }

    /// The next state as the slip has it.
    pub fn next(self, state: u32, code: u32) -> Option<u32> {
        match self {
            NotTaken(of, taken) if (of, taken) == (state, code) => None,
            TakenToo(of, taken) if (of, taken) == (state, code) => leads_to(code),
            LeadsTo(of, taken, other) if (of, taken) == (state, code) => Some(other),
            StateIn(mask) => life(state & mask, code),
            _ => life(state, code),
        }
    }

    /// Changes the list of tests.
    pub fn bend_tests(self, seen: &Seen, tests: &mut Tests) {
        match self {
            Skipped(test) => tests[test as usize].1 = false,
            Moved(test, to) => {
                let from = test as usize;
                if to < from {
                    tests[to..=from].rotate_right(1);
                } else {
                    tests[from..=to].rotate_left(1);
                }
            }
            _ => {
                for (test, hit) in tests {
                    *hit = self.single_test(seen, *test).unwrap_or(*hit);
                }
            }
        }
    }

    /// What the slip makes of this test, if it is about it.
    fn single_test(self, seen: &Seen, test: Test) -> Option<bool> {
        let code = seen.field(Field::Code);
        let (length, room, state) = (seen.message.len(), seen.room, seen.state);
        let set = code == SET_FORMAT;
        let whole = if set { 16 } else { 8 };
        Some(match (self, test) {
            (Room263Enough, ShortRoom) => room < ROOM - 1,
            (Room264Refused, ShortRoom) => room <= ROOM,
            (RoomForOwnAnswer, ShortRoom) => room < if code == CHMAP_INFO { ROOM } else { STATUS },
            (RoomIn(mask), ShortRoom) => room & mask < ROOM,
            (State6Taken, NoState) => state > STOPPED + 1,
            (State5Refused, NoState) => state >= STOPPED,
            (StateIn(mask), NoState) => state & mask > STOPPED,
            (Message8Refused, ShortMessage) => length <= 8,
            (Message7Taken, ShortMessage) => length < 7,
            (LengthIn(mask), ShortMessage) => length & mask < 8,
            (LengthIn(mask), WrongLength) => length & mask != whole,
            (LongerTaken, WrongLength) => length < whole,
            (SetFormatIn14, WrongLength) => length != whole && !(set && length == 14),
            (AllIn16, WrongLength) => length != whole && length != 16,
            (Code6Unknown, UnknownCode) => code >= UNPAUSE,
            (Code7Known, UnknownCode) => code > UNPAUSE + 1,
            _ => return self.test_of_fields(seen, test),
        })
    }

    /// The same for the tests of set format.
    fn test_of_fields(self, seen: &Seen, test: Test) -> Option<bool> {
        let Config { channels_min, channels_max, formats, rates } = seen.config;
        let (min, max) = (u32::from(channels_min), u32::from(channels_max));
        let channels = seen.field(Field::Channels);
        let format = seen.field(Field::Format);
        let rate = seen.field(Field::Rate);
        let bent = match (self, test) {
            (OfAllCodes(of), TooFewChannels) if of == test => return Some(channels < min),
            (OfAllCodes(of), FormatNotOffered) if of == test => {
                return Some(!offered(formats, format));
            }
            (OfAllCodes(of), RateNotOffered) if of == test => return Some(!offered(rates, rate)),
            (PaddingLookedAt, TooFewChannels) => channels < min || seen.field(Field::Padding) != 0,
            (MinExclusive, TooFewChannels) => channels <= min,
            (MaxExclusive, TooManyChannels) => channels >= max,
            (EmptyRangeTaken, TooFewChannels) => channels < min && min <= max,
            (EmptyRangeTaken, TooManyChannels) => channels > max && min <= max,
            (BoundsSwapped, TooFewChannels) => channels < max,
            (BoundsSwapped, TooManyChannels) => channels > min,
            (ZeroChannelsRefused, TooFewChannels) => channels < min.max(1),
            (Format7Undefined, UndefinedFormat) => format >= FMT_FLOAT64,
            (Rate13Undefined, UndefinedRate) => rate >= RATE_384000,
            (FormatByRates | MasksSwapped, FormatNotOffered) => !offered(rates, format),
            (RateByFormats | MasksSwapped, RateNotOffered) => !offered(formats, rate),
            (FormatBitBeside, FormatNotOffered) => !offered(formats, format + 1),
            (RateBitBeside, RateNotOffered) => !offered(rates, rate + 1),
            (RatesIn8Bits, RateNotOffered) => !offered(rates & 0xff, rate),
            _ => return None,
        };
        Some(bent && seen.field(Field::Code) == SET_FORMAT)
    }

    /// Changes what comes of the tests.
    pub fn bend_effect(self, seen: &Seen, effect: &mut Effect) {
        let leads_to = leads_to(seen.field(Field::Code));
        let Effect { hit, outcome, bytes } = effect;
        let refused = hit.is_some_and(Test::refuses);
        match self {
            Gives(test, number) if *hit == Some(test) && refused => outcome.refusal = number,
            Gives(test, number) if *hit == Some(test) => {
                bytes[..STATUS].copy_from_slice(&number.to_le_bytes());
            }
            Changes(test) if *hit == Some(test) => outcome.state = leads_to.unwrap_or(FRESH),
            Skipped(OutOfOrder) if hit.is_none() => outcome.state = leads_to.unwrap_or(FRESH),
            SuccessIs0 if hit.is_none() => bytes.fill(0),
            RefusalWrites if refused => bytes.extend(BAD_MSG.to_le_bytes()),
            RefusalCounts if refused => outcome.written = STATUS as u32,
            RefusalGivesFresh if refused => outcome.state = FRESH,
            _ if !refused => self.bend_answer(seen, effect),
            _ => {}
        }
    }

    /// Changes the bytes of an answer and their count.
    fn bend_answer(self, seen: &Seen, effect: &mut Effect) {
        let length = seen.message.len();
        let map = effect.hit == Some(ChannelMap);
        let short_map = length >= 4 && seen.field(Field::Code) == CHMAP_INFO;
        match self {
            MapIn4Bytes if map => effect.resize(STATUS),
            Zeros(count) if map => effect.resize(STATUS + count),
            ZerosNotWritten => effect.bytes.truncate(STATUS),
            ZerosNotCounted => effect.outcome.written = STATUS as u32,
            ZerosInUnder8 if effect.hit == Some(ShortMessage) && short_map => effect.resize(ROOM),
            ZerosOnlyIn8 if map && length != 8 => effect.resize(STATUS),
            ZerosOnlyForStreams if map && seen.field(Field::Stream) > INPUT => {
                effect.resize(STATUS);
            }
            ZerosAlways => effect.resize(ROOM),
            RoomCleared => effect.bytes.resize(seen.room, 0),
            StatusBigEndian => effect.bytes[..STATUS].reverse(),
            StatusIn2Bytes if !map => effect.bytes.truncate(2),
            _ => {}
        }
    }
}

impl Effect {
    /// So many bytes written, zeros behind the status.
    fn resize(&mut self, bytes: usize) {
        self.bytes.resize(bytes, 0);
        self.outcome.written = bytes as u32;
    }
}
