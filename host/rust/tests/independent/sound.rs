//! The sound device, output only: the whole effect of one control message.
//!
//! It was written from document 02 (request 10) and document 001 (the draft) without a look at the
//! core's definitions or code, and is to stay so. `slip` makes a wrong variant (see `sound_slips`)
//! and is `None` in the device itself.

use super::sound_slips::Slip;
use Test::*;

/// The status and 260 zeros; "answer room under 264 is refused".
pub const ROOM: usize = 264;
pub const STATUS: usize = 4;

pub const OK: u32 = 0x8000;
pub const BAD_MSG: u32 = 0x8001;
pub const NOT_SUPP: u32 = 0x8002;

pub const CHMAP_INFO: u32 = 0;
pub const SET_FORMAT: u32 = 1;
pub const PREPARE: u32 = 2;
pub const START: u32 = 3;
pub const STOP: u32 = 4;
pub const PAUSE: u32 = 5;
pub const UNPAUSE: u32 = 6;

pub const OUTPUT: u32 = 0;
pub const INPUT: u32 = 1;

/// The last sample format and the last frame rate that the draft defines.
pub const FMT_FLOAT64: u32 = 7;
pub const RATE_384000: u32 = 13;

/// "0 to 5 for the six in the order above."
pub const FRESH: u32 = 0;
pub const SET: u32 = 1;
pub const PREPARED: u32 = 2;
pub const RUNNING: u32 = 3;
pub const PAUSED: u32 = 4;
pub const STOPPED: u32 = 5;

/// "Fresh takes 1; set takes 1, 2; prepared 1, 3; running 4, 5; paused 4, 6; stopped 1, 2": state,
/// code, and the state that it leads to.
pub const LIFE: [(u32, u32, u32); 11] = [
    (FRESH, SET_FORMAT, SET),
    (SET, SET_FORMAT, SET),
    (SET, PREPARE, PREPARED),
    (PREPARED, SET_FORMAT, SET),
    (PREPARED, START, RUNNING),
    (RUNNING, STOP, STOPPED),
    (RUNNING, PAUSE, PAUSED),
    (PAUSED, STOP, STOPPED),
    (PAUSED, UNPAUSE, RUNNING),
    (STOPPED, SET_FORMAT, SET),
    (STOPPED, PREPARE, PREPARED),
];

/// The state that the code leads to, if the state takes it.
pub fn life(state: u32, code: u32) -> Option<u32> {
    let taken = LIFE.iter().find(|&&(of, taken, _)| (of, taken) == (state, code));
    taken.map(|&(_, _, next)| next)
}

/// The draft's configuration of the output stream.
#[derive(Clone, Copy, Debug, PartialEq, Eq)]
pub struct Config {
    pub channels_min: u8,
    pub channels_max: u8,
    /// Bit n stands for format n.
    pub formats: u16,
    /// Bit n stands for rate n.
    pub rates: u16,
}

/// What a message gives back: a refusal number or 0, the state after it, and the bytes written.
#[derive(Clone, Copy, Debug, PartialEq, Eq)]
pub struct Outcome {
    pub refusal: u32,
    pub state: u32,
    pub written: u32,
}

/// The one entry of a core.
pub trait Core {
    fn control(&self, state: u32, config: Config, message: &[u8], room: &mut [u8]) -> Outcome;
}

/// The independent device as a core, with a slip or none.
#[derive(Clone, Copy, Debug, Default)]
pub struct Sound(pub Option<Slip>);

impl Core for Sound {
    fn control(&self, state: u32, config: Config, message: &[u8], room: &mut [u8]) -> Outcome {
        let effect = Seen { state, config, message, room: room.len(), slip: self.0 }.effect();
        effect.write(room);
        effect.outcome
    }
}

/// The tests in their order. Where a line of the request has several, each has its own name.
#[derive(Clone, Copy, Debug, PartialEq, Eq, PartialOrd, Ord)]
pub enum Test {
    ShortRoom,
    NoState,
    ShortMessage,
    UnknownCode,
    ChannelMap,
    WrongLength,
    UnknownStream,
    InputStream,
    OutOfOrder,
    TooFewChannels,
    TooManyChannels,
    UndefinedFormat,
    FormatNotOffered,
    UndefinedRate,
    RateNotOffered,
}

impl Test {
    pub const ALL: [Test; 15] = [
        ShortRoom,
        NoState,
        ShortMessage,
        UnknownCode,
        ChannelMap,
        WrongLength,
        UnknownStream,
        InputStream,
        OutOfOrder,
        TooFewChannels,
        TooManyChannels,
        UndefinedFormat,
        FormatNotOffered,
        UndefinedRate,
        RateNotOffered,
    ];

    /// The refusal or the status that a hit gives.
    pub fn number(self) -> u32 {
        match self {
            ShortRoom => 3,
            NoState => 2,
            ShortMessage | UnknownCode => BAD_MSG,
            ChannelMap => NOT_SUPP,
            WrongLength | UnknownStream => BAD_MSG,
            InputStream => NOT_SUPP,
            OutOfOrder | TooFewChannels | TooManyChannels => BAD_MSG,
            UndefinedFormat | FormatNotOffered | UndefinedRate | RateNotOffered => NOT_SUPP,
        }
    }

    pub fn refuses(self) -> bool {
        self <= NoState
    }

    /// Whether the test looks at a field that only set format has.
    pub fn of_set_format(self) -> bool {
        self >= TooFewChannels
    }
}

/// The tests in the order in which they are made, and whether each is hit.
pub type Tests = [(Test, bool); Test::ALL.len()];

/// A field of a message.
#[derive(Clone, Copy, Debug, PartialEq, Eq)]
pub enum Field {
    Code,
    Stream,
    Channels,
    Format,
    Rate,
    Padding,
}

impl Field {
    /// Its first byte and its number of bytes.
    pub fn place(self) -> (usize, usize) {
        match self {
            Field::Code => (0, 4),
            Field::Stream => (4, 4),
            Field::Channels => (8, 2),
            Field::Format => (10, 2),
            Field::Rate => (12, 2),
            Field::Padding => (14, 2),
        }
    }
}

/// The bytes that are not there count as zeros; only a slip gets to use them.
pub fn little_endian(message: &[u8], at: usize, bytes: usize) -> u32 {
    let byte = |at: usize| message.get(at).map_or(0, |&byte| u32::from(byte));
    (at..at + bytes).rev().fold(0, |number, at| number << 8 | byte(at))
}

/// Whether the bit of a format or a rate is in the configured mask.
pub fn offered(mask: u16, number: u32) -> bool {
    number < 16 && mask >> number & 1 == 1
}

/// All that a message's effect depends on.
#[derive(Clone, Copy, Debug)]
pub struct Seen<'m> {
    pub state: u32,
    pub config: Config,
    pub message: &'m [u8],
    /// Bytes of the room.
    pub room: usize,
    pub slip: Option<Slip>,
}

impl Seen<'_> {
    pub fn field(&self, field: Field) -> u32 {
        let (at, bytes) = field.place();
        match self.slip {
            None => little_endian(self.message, at, bytes),
            Some(slip) => slip.field(self.message, field),
        }
    }

    /// The state that the code leads to now, if it is taken.
    pub fn next(&self, code: u32) -> Option<u32> {
        match self.slip {
            None => life(self.state, code),
            Some(slip) => slip.next(self.state, code),
        }
    }

    /// "Tests in order", after the two that refuse.
    pub fn tests(&self) -> Tests {
        let Config { channels_min, channels_max, formats, rates } = self.config;
        let code = self.field(Field::Code);
        let stream = self.field(Field::Stream);
        let channels = self.field(Field::Channels);
        let format = self.field(Field::Format);
        let rate = self.field(Field::Rate);
        let set = code == SET_FORMAT;
        let mut tests = [
            (ShortRoom, self.room < ROOM),
            (NoState, self.state > STOPPED),
            (ShortMessage, self.message.len() < 8),
            (UnknownCode, code > UNPAUSE),
            (ChannelMap, code == CHMAP_INFO),
            (WrongLength, self.message.len() != if set { 16 } else { 8 }),
            (UnknownStream, stream > INPUT),
            (InputStream, stream == INPUT),
            (OutOfOrder, self.next(code).is_none()),
            (TooFewChannels, set && channels < u32::from(channels_min)),
            (TooManyChannels, set && channels > u32::from(channels_max)),
            (UndefinedFormat, set && format > FMT_FLOAT64),
            (FormatNotOffered, set && !offered(formats, format)),
            (UndefinedRate, set && rate > RATE_384000),
            (RateNotOffered, set && !offered(rates, rate)),
        ];
        if let Some(slip) = self.slip {
            slip.bend_tests(self, &mut tests);
        }
        tests
    }

    pub fn effect(&self) -> Effect {
        let hit = self.tests().into_iter().find(|&(_, hit)| hit).map(|(test, _)| test);
        let mut effect = match hit {
            Some(test) if test.refuses() => Effect::refused(test, self.state),
            // "Failing messages change nothing."
            Some(test) => Effect::answered(hit, self.state, test.number()),
            None => {
                let next = self.next(self.field(Field::Code)).unwrap_or(self.state);
                Effect::answered(hit, next, OK)
            }
        };
        if let Some(slip) = self.slip {
            slip.bend_effect(self, &mut effect);
        }
        effect
    }
}

/// The whole effect of a message.
#[derive(Clone, Debug, PartialEq, Eq)]
pub struct Effect {
    pub hit: Option<Test>,
    pub outcome: Outcome,
    /// The bytes at the start of the room; those behind them stay.
    pub bytes: Vec<u8>,
}

impl Effect {
    /// "Refused": the state stays as it was given, and nothing is written.
    fn refused(test: Test, state: u32) -> Effect {
        let outcome = Outcome { refusal: test.number(), state, written: 0 };
        Effect { hit: Some(test), outcome, bytes: Vec::new() }
    }

    /// "The answer is the status, 4 bytes, and to code 0 in 8 bytes or more 260 zero bytes after it."
    fn answered(hit: Option<Test>, state: u32, status: u32) -> Effect {
        let mut bytes = status.to_le_bytes().to_vec();
        if hit == Some(ChannelMap) {
            bytes.resize(ROOM, 0);
        }
        let outcome = Outcome { refusal: 0, state, written: bytes.len() as u32 };
        Effect { hit, outcome, bytes }
    }

    pub fn write(&self, room: &mut [u8]) {
        // Only a slip writes more than there is room for.
        let count = self.bytes.len().min(room.len());
        room[..count].copy_from_slice(&self.bytes[..count]);
    }
}
