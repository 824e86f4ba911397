//! The whole device as records, written from documents 01 (the scope) and 02 and the structs of the
//! draft alone, in their order and words.
//!
//! It knows nothing of the table's words and shares nothing with the core. Each test of a step
//! carries 01's reason, so that a run can count which of them were met; `slip` makes a wrong
//! variant (see `slips`) and is `None` in the device itself.

use std::fmt;

use super::slips::Slip;

pub const PLACES: usize = 8;
pub const SLOTS: usize = 16;
/// "Numbers above 1,023 are refused", so that there are so many.
pub const NUMBERS: usize = 1024;
/// "One step writes at most 1,056 bytes."
pub const ROOM: usize = 1056;

/// The numbers that a stream can have.
pub fn numbers() -> impl DoubleEndedIterator<Item = u32> {
    0..NUMBERS as u32
}

pub const QUERY_CAPABILITY: u32 = 0x0100;
pub const STREAM_CREATE: u32 = 0x0101;
pub const STREAM_DESTROY: u32 = 0x0102;
pub const STREAM_DRAIN: u32 = 0x0103;
pub const RESOURCE_CREATE: u32 = 0x0104;
pub const RESOURCE_QUEUE: u32 = 0x0105;
pub const RESOURCE_DESTROY_ALL: u32 = 0x0106;
pub const QUEUE_CLEAR: u32 = 0x0107;
pub const GET_PARAMS: u32 = 0x0108;
pub const SET_PARAMS: u32 = 0x0109;
pub const QUERY_CONTROL: u32 = 0x010A;
pub const GET_CONTROL: u32 = 0x010B;
pub const SET_CONTROL: u32 = 0x010C;

/// Kinds of step, and of other calls, that are not the type of a known command, to name their tests.
pub const COMMAND: u32 = 0;
pub const FINISH: u32 = 1;
pub const DRAINED: u32 = 2;
pub const FRESH: u32 = 3;
pub const IN_ALL: u32 = 4;
pub const OF_STREAM: u32 = 5;

pub const OK_NODATA: u32 = 0x0200;
pub const OK_RESOURCE_QUEUE: u32 = 0x0202;
pub const OK_GET_PARAMS: u32 = 0x0203;
pub const INVALID_OPERATION: u32 = 0x0300;
pub const OUT_OF_MEMORY: u32 = 0x0301;
pub const INVALID_STREAM: u32 = 0x0302;
pub const INVALID_RESOURCE: u32 = 0x0303;
pub const INVALID_PARAMETER: u32 = 0x0304;
pub const UNSUPPORTED_CONTROL: u32 = 0x0305;

pub const INPUT: u32 = 0x100;
pub const OUTPUT: u32 = 0x101;
pub const NV12: u32 = 3;
pub const ERR: u32 = 1;
pub const EOS: u32 = 2;

/// A step: "a command (a 32-bit ticket and the guest's bytes), a finish report or a drained
/// report".
#[derive(Clone, Debug, PartialEq, Eq)]
pub enum Act {
    Command { ticket: u32, frame: Vec<u8> },
    Finish(Report),
    Drained { stream: u32 },
}

impl Act {
    /// The kind of step, whatever the type of a command.
    pub fn kind(&self) -> u32 {
        match self {
            Act::Command { .. } => COMMAND,
            Act::Finish(_) => FINISH,
            Act::Drained { .. } => DRAINED,
        }
    }

    /// The kind, of a command its type, and the queue type that a command or finish names.
    pub fn kind_and_queue(&self) -> (u32, u32) {
        match self {
            Act::Command { frame, .. } => (word(frame, 0), word(frame, 8)),
            Act::Finish(report) => (FINISH, report.queue_type),
            Act::Drained { .. } => (DRAINED, 0),
        }
    }

    /// "A step belongs to the stream number in it; a command under 8 bytes belongs to none."
    pub fn stream(&self) -> Option<u32> {
        match self {
            Act::Command { frame, .. } => (frame.len() >= 8).then(|| word(frame, 4)),
            Act::Finish(report) => Some(report.stream),
            Act::Drained { stream } => Some(*stream),
        }
    }
}

/// A finish report: "stream, queue type, resource, flags, 64-bit timestamp".
#[derive(Clone, Copy, Debug, PartialEq, Eq)]
pub struct Report {
    pub stream: u32,
    pub queue_type: u32,
    pub resource: u32,
    pub flags: u32,
    pub timestamp: u64,
}

impl Report {
    /// Whether EOS is among the flags, with or without ERR.
    pub fn has_eos(&self) -> bool {
        self.flags & EOS != 0
    }
}

/// The records, by place: "a record is compared by what it holds", but a new one takes the lowest
/// free place.
#[derive(Clone, Debug, Default, PartialEq, Eq)]
pub struct Device {
    pub places: [Option<Stream>; PLACES],
    pub spent: Spent,
    pub slip: Option<Slip>,
}

/// The spent numbers: "a number whose creation has ever succeeded since the table was made fresh".
/// Each is a bit, so that a step is not slowed down by all 1,024 of them.
#[derive(Clone, Default, PartialEq, Eq)]
pub struct Spent(pub [u32; NUMBERS / 32]);

/// "A live stream's record holds its number, coded format, a drain owed or not with its ticket, and
/// for each queue ..."
#[derive(Clone, Debug, PartialEq, Eq)]
pub struct Stream {
    pub number: u32,
    pub coded_format: u32,
    /// The ticket of an owed drain.
    pub drain: Option<u32>,
    pub input: Queue,
    pub output: Queue,
    /// What a slip remembers of a stream, in no table. The device itself has no use for it.
    pub kept: bool,
}

/// "... its parameters and its resources".
#[derive(Clone, Debug, PartialEq, Eq)]
pub struct Queue {
    pub parameters: Parameters,
    pub resources: [Option<Resource>; SLOTS],
}

/// "A resource holds its number, its state and, while Queued, its ticket and timestamp."
#[derive(Clone, Copy, Debug, PartialEq, Eq)]
pub struct Resource {
    pub number: u32,
    pub state: State,
}

#[derive(Clone, Copy, Debug, PartialEq, Eq)]
pub enum State {
    Created,
    Queued { ticket: u32, timestamp: u64 },
    Dequeued,
}

/// struct virtio_video_params, 112 bytes.
#[derive(Clone, Debug, PartialEq, Eq)]
pub struct Parameters {
    pub queue_type: u32,
    pub format: u32,
    pub width: u32,
    pub height: u32,
    pub minimum: u32,
    pub maximum: u32,
    /// Left, top, width, height.
    pub crop: [u32; 4],
    pub rate: u32,
    pub plane_count: u32,
    /// Size and stride.
    pub planes: [(u32, u32); 8],
}

#[derive(Clone, Copy, Debug, PartialEq, Eq)]
pub enum QueueType {
    Input,
    Output,
}

/// The reason of a test, for the counts of a run.
pub type Why = &'static str;

/// The first test that was hit: the refusal or error code it gives.
#[derive(Clone, Copy, Debug, PartialEq, Eq)]
pub struct Hit {
    pub number: u32,
    pub why: Why,
}

/// What a step comes to: a refusal number or 0, the bytes written, and the reason of a refusal or
/// error answer.
#[derive(Clone, Debug, PartialEq, Eq)]
pub struct Done {
    pub refusal: u32,
    pub written: Vec<u8>,
    pub why: Option<Why>,
}

impl Done {
    pub fn refused(number: u32, why: Why) -> Done {
        Done { refusal: number, written: Vec::new(), why: Some(why) }
    }

    pub fn taken(written: Vec<u8>) -> Done {
        Done { refusal: 0, written, why: None }
    }
}

impl Device {
    /// A step of any kind with an answer buffer of `room` bytes.
    pub fn step(&mut self, act: &Act, room: usize) -> Done {
        match act {
            Act::Command { ticket, frame } => self.command(*ticket, frame, room),
            Act::Finish(report) => self.finish(report, room),
            Act::Drained { stream } => self.drained(*stream, room),
        }
    }

    /// A command. Refusals 1 and 2 speak of a table and do not arise here.
    pub fn command(&mut self, ticket: u32, frame: &[u8], room: usize) -> Done {
        let tests = [
            (room < ROOM, 3, "answer buffer under 1,056 bytes"),
            (frame.len() < 8, 4, "command under 8 bytes"),
        ];
        if let Err(hit) = first_hit(self.slip, COMMAND, &tests) {
            return Done::refused(hit.number, hit.why);
        }
        let number = word(frame, 4);
        let mut answers = Answers::new(self.slip, word(frame, 0));
        let served = self.serve(ticket, number, frame, &mut answers);
        if let Err(hit) = served {
            // "An error answer is 8 bytes: code, stream number."
            answers.put(ticket, &[hit.number, number]);
        }
        Done { refusal: 0, written: answers.bytes, why: served.err().map(|hit| hit.why) }
    }

    /// The command itself, "first hit answers: unknown type or 0x0100; wrong length; stream not
    /// live (for 0x0101: spent, or above 1,023); then each command's own list".
    fn serve(
        &mut self,
        ticket: u32,
        number: u32,
        frame: &[u8],
        answers: &mut Answers,
    ) -> Result<(), Hit> {
        let mut kind = word(frame, 0);
        if self.slip == Some(Slip::TypeIn16Bits) {
            kind &= 0xffff;
        }
        let Some(right_length) = right_length(self.slip, kind, frame) else {
            return Err(Hit { number: INVALID_OPERATION, why: "unknown type or 0x0100" });
        };
        if kind == STREAM_CREATE {
            self.stream_create(number, frame)?;
            answers.success(ticket, number);
            return Ok(());
        }
        if let Some(place) = self.asked_place(kind, number, right_length)? {
            let draining = self.is_draining(number);
            self.serve_live(place, kind, ticket, frame, answers)?;
            if draining && !self.is_draining(number) {
                self.drain_ended(kind);
            }
        }
        Ok(())
    }

    /// The place of the live stream that a command is for, after the tests that come before the
    /// command's own list. Only a slip lets these pass without one.
    fn asked_place(
        &mut self,
        kind: u32,
        number: u32,
        right_length: bool,
    ) -> Result<Option<usize>, Hit> {
        let place = self.place_of(number);
        let late = self.slips_late(Slip::LateCommandIs0300, number);
        let not_live = if late { INVALID_OPERATION } else { INVALID_STREAM };
        if self.slip == Some(Slip::CommandSpends) && right_length {
            self.spent.add(number);
        }
        first_hit(
            self.slip,
            kind,
            &[
                (!right_length, INVALID_PARAMETER, "wrong length"),
                (place.is_none(), not_live, "stream not live"),
                (kind >= QUERY_CONTROL, UNSUPPORTED_CONTROL, "unsupported control"),
            ],
        )?;
        Ok(place)
    }

    /// A command's own list and work, on the stream in this place.
    fn serve_live(
        &mut self,
        place: usize,
        kind: u32,
        ticket: u32,
        frame: &[u8],
        answers: &mut Answers,
    ) -> Result<(), Hit> {
        let slip = self.slip;
        let Some(stream) = self.places[place].as_mut() else { return Ok(()) };
        let number = stream.number;
        match kind {
            STREAM_DESTROY => {
                stream.stop_all(slip, answers);
                self.free(place);
            }
            STREAM_DRAIN => return stream.drain(slip, ticket),
            RESOURCE_CREATE => {
                stream.resource_create(slip, frame)?;
                if slip == Some(Slip::ResourceSpends) {
                    self.spent.add(word(frame, 12));
                }
            }
            RESOURCE_QUEUE => return stream.resource_queue(slip, ticket, frame),
            RESOURCE_DESTROY_ALL => stream.resource_destroy_all(slip, frame)?,
            QUEUE_CLEAR => stream.queue_clear(slip, frame, answers)?,
            GET_PARAMS => return stream.get_params(slip, ticket, frame, answers),
            SET_PARAMS => stream.set_params(slip, frame)?,
            _ => {}
        }
        answers.success(ticket, number);
        Ok(())
    }

    /// 0x0101. "A creation that was refused spends nothing."
    fn stream_create(&mut self, number: u32, frame: &[u8]) -> Result<(), Hit> {
        let tests = self.creation_tests(number, frame);
        let mut served = first_hit(self.slip, STREAM_CREATE, &tests);
        if self.slip == Some(Slip::DestroyedAskedLast) && self.spent.has(number) {
            served = served.and(Err(Hit { number: INVALID_STREAM, why: "number spent" }));
        }
        if let Err(hit) = served {
            self.spend_though_refused(number, hit);
            return served;
        }
        if let Some(place) = self.free_place() {
            self.places[place] = Some(Stream::new(number, word(frame, 16)));
            self.spend(number);
        }
        Ok(())
    }

    /// The tests of a creation in their order.
    fn creation_tests(&self, number: u32, frame: &[u8]) -> [(bool, u32, Why); 9] {
        let right_length = right_length(self.slip, STREAM_CREATE, frame) == Some(true);
        let coded_format = word(frame, 16);
        let (no_nul, not_utf8) = tag_faults(self.slip, frame);
        [
            (!right_length, INVALID_PARAMETER, "wrong length"),
            (self.refused_as_spent(number), INVALID_STREAM, "number spent"),
            (self.refused_as_high(number), INVALID_STREAM, "number above 1,023"),
            (word(frame, 8) != 0, INVALID_PARAMETER, "input memory type not 0"),
            (word(frame, 12) != 0, INVALID_PARAMETER, "output memory type not 0"),
            (
                !(0x1000..=0x1005).contains(&coded_format),
                INVALID_PARAMETER,
                "format outside 0x1000 to 0x1005",
            ),
            (no_nul, INVALID_PARAMETER, "tag without a NUL"),
            (not_utf8, INVALID_PARAMETER, "bytes before the first NUL that aren't UTF-8"),
            (self.free_place().is_none(), OUT_OF_MEMORY, "no place"),
        ]
    }

    /// The number of a creation with the reason of each of its tests that is hit, not of the first
    /// alone; none where the step is no creation.
    pub fn creation(&self, act: &Act) -> Option<(u32, Vec<Why>)> {
        let Act::Command { frame, .. } = act else { return None };
        if frame.len() < 8 || word(frame, 0) != STREAM_CREATE {
            return None;
        }
        let number = word(frame, 4);
        let tests = self.creation_tests(number, frame);
        Some((number, tests.into_iter().filter(|test| test.0).map(|test| test.2).collect()))
    }

    /// "A new stream or resource takes the lowest free place."
    fn free_place(&self) -> Option<usize> {
        let mut places = self.places.iter();
        match self.slip {
            Some(Slip::HighestPlace) => places.rposition(Option::is_none),
            _ => places.position(Option::is_none),
        }
    }

    /// "A number whose creation has ever succeeded since the table was made fresh is refused."
    fn refused_as_spent(&self, number: u32) -> bool {
        match self.slip {
            Some(Slip::OnlyLiveRefused | Slip::DestroyedAskedLast) => {
                self.place_of(number).is_some()
            }
            Some(Slip::OnlyDestroyedRefused) => self.destroyed(number),
            _ => self.spent.has(number),
        }
    }

    /// "Numbers above 1,023 are refused too."
    fn refused_as_high(&self, number: u32) -> bool {
        match self.slip {
            Some(Slip::HighestNumber(highest)) => number > highest,
            Some(Slip::NumberIn16Bits) => number & 0xffff > 1023,
            Some(Slip::NumberSigned) => number as i32 > 1023,
            _ => number > 1023,
        }
    }

    /// A creation was refused: only a slip spends its number.
    fn spend_though_refused(&mut self, number: u32, hit: Hit) {
        match self.slip {
            Some(Slip::RefusedSpends(why)) if why == hit.why => self.spent.add(number),
            Some(Slip::HighSpendsLastBits) if hit.why == "number above 1,023" => {
                self.spent.add(number % NUMBERS as u32)
            }
            _ => {}
        }
    }

    /// A creation has succeeded.
    fn spend(&mut self, number: u32) {
        match self.slip {
            Some(Slip::SpentByDestroy) => return,
            Some(Slip::NeighbourSpent(apart)) => self.spent.add(number ^ apart),
            Some(Slip::CreationForgetsBeside) => self.spent.keep(|other| other / 32 != number / 32),
            Some(Slip::CreationForgetsOthers) => self.spent.keep(|other| other / 32 == number / 32),
            _ => {}
        }
        self.spent.add(number);
    }

    /// Frees a place. Its number stays spent.
    fn free(&mut self, place: usize) {
        let Some(stream) = self.places[place].take() else { return };
        let last = self.places.iter().all(Option::is_none);
        match self.slip {
            Some(Slip::StreamsMoveDown) => self.places[place..].rotate_left(1),
            Some(Slip::DestroyUnspends) => self.spent.keep(|other| other != stream.number),
            Some(Slip::SpentByDestroy) => self.spent.add(stream.number),
            Some(Slip::LastDestroyForgets) if last => self.spent = Spent::default(),
            _ => {}
        }
    }

    /// A finish report: "flags above 3 (6), then 5, then the EOS rule (6)", and "with an input still
    /// Queued" EOS "is refused with 5, after the tests a finish already has".
    pub fn finish(&mut self, report: &Report, room: usize) -> Done {
        let slip = self.slip;
        let taken = self.slips_late(Slip::LateReportTaken(FINISH), report.stream);
        let late_first = self.slips_late(Slip::LateBeforeFlags, report.stream);
        let fits = |stream: &Stream| stream.has_queued(report.queue_type, report.resource);
        let number = self.reported(FINISH, report.stream, fits);
        let early = self.waits_for_inputs(number, report);
        let draining = self.awaits_eos(number);
        let mut stream = self.live(number);
        let queued = stream.as_mut().is_some_and(|stream| stream.buffer(slip, report).is_some());
        let input = report.queue_type == INPUT;
        let eos = report.has_eos();
        let tests = [
            (room < ROOM, 3, "answer buffer under 1,056 bytes"),
            (report.flags > ERR + EOS && !late_first, 6, "flags outside ERR and EOS"),
            (!queued && !taken, 5, "no buffer now Queued"),
            (eos && input, 6, "EOS on an input"),
            (eos && !draining, 6, "EOS with no drain owed"),
            (early, 5, "EOS with an input still Queued"),
        ];
        if let Err(hit) = first_hit(slip, FINISH, &tests) {
            if let Some(stream) = stream.filter(|_| eos) {
                stream.eos_though_refused(slip, report, hit);
            }
            return Done::refused(hit.number, hit.why);
        }
        let mut answers = Answers::new(slip, FINISH);
        if let Some(stream) = stream {
            stream.finish(slip, report, &mut answers);
        }
        if eos {
            self.drain_ended(FINISH);
        }
        Done::taken(answers.bytes)
    }

    /// A drained report: refused with 5 for "no such stream, no drain owed, or an input still
    /// Queued", and it "stays only for streams without output resources, and answers 5 otherwise".
    pub fn drained(&mut self, number: u32, room: usize) -> Done {
        let slip = self.slip;
        let taken = self.slips_late(Slip::LateReportTaken(DRAINED), number);
        let number = self.reported(DRAINED, number, Stream::can_be_drained);
        let outputs = self.has_outputs(number);
        let owed = self.is_draining(number);
        let input_queued = self.drained_waits_for_inputs(number);
        let stream = self.live(number);
        let tests = [
            (room < ROOM, 3, "answer buffer under 1,056 bytes"),
            (stream.is_none() && !taken, 5, "no such stream"),
            (!owed && !taken, 5, "no drain owed"),
            (input_queued, 5, "an input still Queued"),
            (outputs, 5, "output resources there"),
        ];
        if let Err(hit) = first_hit(slip, DRAINED, &tests) {
            if let Some(stream) = stream {
                stream.drained_though_refused(slip, hit);
            }
            return Done::refused(hit.number, hit.why);
        }
        let mut answers = Answers::new(slip, DRAINED);
        if let Some(stream) = stream {
            let owed = stream.drain;
            stream.stop_drain(&mut answers);
            if slip == Some(Slip::DrainedKeepsDrain) {
                stream.drain = owed;
            }
        }
        self.drain_ended(DRAINED);
        Done::taken(answers.bytes)
    }

    /// A step of this kind has ended a drain: only a slip ends those of all streams.
    fn drain_ended(&mut self, kind: u32) {
        if self.slip == Some(Slip::EndsAllDrains(kind)) {
            self.places.iter_mut().flatten().for_each(|stream| stream.drain = None);
        }
    }

    /// Whether the live stream of this number owes a drain.
    fn is_draining(&self, number: u32) -> bool {
        self.stream(number).is_some_and(|stream| stream.drain.is_some())
    }

    /// Whether a finish with EOS finds a drain owed.
    fn awaits_eos(&self, number: u32) -> bool {
        match self.slip {
            Some(Slip::EosByAnyDrain) => self.streams().any(|stream| stream.drain.is_some()),
            _ => self.is_draining(number),
        }
    }

    /// Whether a finish carries EOS and comes before the last input of its stream.
    fn waits_for_inputs(&self, number: u32, report: &Report) -> bool {
        let Some(stream) = self.stream(number) else { return false };
        let queued = stream.input_queued(self.slip, FINISH);
        if !report.has_eos() {
            let waits = self.slip == Some(Slip::OutputsWaitForInputs);
            return waits && queued && report.queue_type == OUTPUT;
        }
        // The finish's own buffer is one of those Queued.
        let others = stream.output.queued() > 1;
        match self.slip {
            Some(Slip::EarlyEosLeavesDrain) => false,
            Some(Slip::EarlyEosTakenWith(taken)) => queued && report.flags != taken,
            Some(Slip::EosWaitsForOutputs) => others,
            Some(Slip::EosWaitsForBoth) => queued || others,
            Some(Slip::EosWaitsForIdleInputs) => stream.input.has_any(),
            Some(Slip::EosWaitsForAnyStream) => self.any_input_queued(),
            _ => queued,
        }
    }

    /// Whether a drained report comes before the last input of its stream.
    fn drained_waits_for_inputs(&self, number: u32) -> bool {
        match self.slip {
            Some(Slip::DrainedWaitsForAnyStream) => self.any_input_queued(),
            slip => self.stream(number).is_some_and(|stream| stream.input_queued(slip, DRAINED)),
        }
    }

    /// Whether an input of any stream is Queued.
    fn any_input_queued(&self) -> bool {
        self.streams().any(|stream| stream.input.any_queued())
    }

    /// Whether the stream that a drained report is for has output resources.
    fn has_outputs(&self, number: u32) -> bool {
        match self.slip {
            Some(Slip::OutputsOfAnyStream) => self.streams().any(|stream| stream.output.has_any()),
            slip => self.stream(number).is_some_and(|stream| stream.has_outputs(slip)),
        }
    }

    /// Whether this slip is made, on a step for a destroyed stream.
    fn slips_late(&self, slip: Slip, number: u32) -> bool {
        self.slip == Some(slip) && self.destroyed(number)
    }

    /// The number of the stream that a report is for: its own. A slip lets a report for a destroyed
    /// stream land in another that it fits.
    fn reported(&self, kind: u32, number: u32, fits: impl Fn(&Stream) -> bool) -> u32 {
        if !self.slips_late(Slip::LateReportLands(kind), number) {
            return number;
        }
        let landing = self.streams().find(|stream| fits(stream));
        landing.map_or(number, |stream| stream.number)
    }

    /// Whether the number is spent and its stream lives no more.
    pub fn destroyed(&self, number: u32) -> bool {
        self.spent.has(number) && self.place_of(number).is_none()
    }

    pub fn place_of(&self, number: u32) -> Option<usize> {
        self.places
            .iter()
            .position(|place| place.as_ref().is_some_and(|stream| stream.number == number))
    }

    /// The live streams.
    pub fn streams(&self) -> impl Iterator<Item = &Stream> {
        self.places.iter().flatten()
    }

    /// The live stream of this number.
    pub fn stream(&self, number: u32) -> Option<&Stream> {
        self.streams().find(|stream| stream.number == number)
    }

    fn live(&mut self, number: u32) -> Option<&mut Stream> {
        self.places.iter_mut().flatten().find(|stream| stream.number == number)
    }
}

impl fmt::Debug for Spent {
    fn fmt(&self, out: &mut fmt::Formatter) -> fmt::Result {
        out.debug_set().entries(self.numbers()).finish()
    }
}

impl Spent {
    /// The word and the bit of a number, the lowest bit being bit 0.
    pub fn bit_of(number: u32) -> (usize, u32) {
        (number as usize / 32, number % 32)
    }

    pub fn has(&self, number: u32) -> bool {
        let (at, bit) = Spent::bit_of(number);
        self.0.get(at).is_some_and(|word| word >> bit & 1 == 1)
    }

    /// There is no room for a number above 1,023, which only a slip gets to see.
    pub fn add(&mut self, number: u32) {
        let (at, bit) = Spent::bit_of(number);
        if let Some(word) = self.0.get_mut(at) {
            *word |= 1 << bit;
        }
    }

    pub fn count(&self) -> usize {
        self.0.iter().map(|word| word.count_ones() as usize).sum()
    }

    pub fn numbers(&self) -> impl Iterator<Item = u32> + '_ {
        numbers().filter(|&number| self.has(number))
    }

    pub fn keep(&mut self, kept: impl Fn(u32) -> bool) {
        let before = std::mem::take(self);
        self.extend(before.numbers().filter(|&number| kept(number)));
    }
}

impl Extend<u32> for Spent {
    fn extend<I: IntoIterator<Item = u32>>(&mut self, numbers: I) {
        numbers.into_iter().for_each(|number| self.add(number));
    }
}

impl Stream {
    /// "Defaults: 640 by 480, rate 0."
    pub fn new(number: u32, coded_format: u32) -> Stream {
        let queue = |queue_type| Queue {
            parameters: Parameters::left_by_set(queue_type, coded_format, 640, 480, 0),
            resources: [None; SLOTS],
        };
        Stream {
            number,
            coded_format,
            drain: None,
            input: queue(QueueType::Input),
            output: queue(QueueType::Output),
            kept: false,
        }
    }

    pub fn queue(&mut self, queue_type: QueueType) -> &mut Queue {
        match queue_type {
            QueueType::Input => &mut self.input,
            QueueType::Output => &mut self.output,
        }
    }

    /// Whether the buffer that a report names is Queued.
    pub fn has_queued(&self, queue_type: u32, resource: u32) -> bool {
        let queue = match QueueType::of(queue_type) {
            Some(QueueType::Input) => &self.input,
            Some(QueueType::Output) => &self.output,
            None => return false,
        };
        let mut resources = queue.resources.iter().flatten();
        resources.any(|found| found.number == resource && found.is_queued())
    }

    /// Whether a drained report would be taken.
    pub fn can_be_drained(&self) -> bool {
        self.drain.is_some() && !self.input.any_queued() && !self.output.has_any()
    }

    /// Whether an input is still Queued, as this kind of report sees it.
    fn input_queued(&self, slip: Option<Slip>, kind: u32) -> bool {
        match slip {
            Some(Slip::QueuedInputsSeenBelow(of, slots)) if of == kind => {
                self.input.resources[..slots].iter().flatten().any(Resource::is_queued)
            }
            _ => self.input.any_queued(),
        }
    }

    /// Whether there are output resources, in any state, as a drained report sees it.
    fn has_outputs(&self, slip: Option<Slip>) -> bool {
        let (inputs, outputs) = (self.input.has_any(), self.output.has_any());
        match slip {
            Some(Slip::DrainedRefused) => true,
            Some(Slip::DrainedLooksAtInputs) => inputs,
            Some(Slip::DrainedLooksAtBoth) => inputs || outputs,
            Some(Slip::OutputsOverlooked(state)) => {
                let mut others = self.output.resources.iter().flatten();
                others.any(|output| output.state.name() != state)
            }
            Some(Slip::OnlyQueuedOutputsCount) => self.output.any_queued(),
            Some(Slip::OutputsSeenBelow(slots)) => {
                self.output.resources[..slots].iter().any(Option::is_some)
            }
            Some(Slip::OutputsAskedAtDrain) => self.kept,
            _ => outputs,
        }
    }

    /// A finish with EOS was refused: only a slip does something about it.
    fn eos_though_refused(&mut self, slip: Option<Slip>, report: &Report, hit: Hit) {
        let early = hit.why == "EOS with an input still Queued";
        match slip {
            Some(Slip::RefusedEosEnds(why)) if why == hit.why => self.drain = None,
            Some(Slip::EarlyEosDequeues) if early => {
                if let Some(buffer) = self.buffer(slip, report) {
                    buffer.state = State::Dequeued;
                }
            }
            Some(Slip::EarlyEosRemembered) if early => self.kept = true,
            _ => {}
        }
    }

    /// A drained report was refused: only a slip changes the drain.
    fn drained_though_refused(&mut self, slip: Option<Slip>, hit: Hit) {
        if slip == Some(Slip::RefusedDrainedEnds(hit.why)) {
            self.drain = None;
        }
    }

    /// The queue that a queue type in a frame names, if it is one.
    fn named(&mut self, queue_type: u32) -> Option<&mut Queue> {
        QueueType::of(queue_type).map(|queue_type| self.queue(queue_type))
    }

    /// The buffer that a finish report names, if it is Queued.
    fn buffer(&mut self, slip: Option<Slip>, report: &Report) -> Option<&mut Resource> {
        let queue_type = match QueueType::of(report.queue_type)? {
            QueueType::Input if slip == Some(Slip::InputReadAsOutput) => QueueType::Output,
            right => right,
        };
        let named = self.queue(queue_type).find(report.resource);
        named.filter(|resource| resource.is_queued())
    }

    /// Answers "the buffer and then the drain", this one if the finish carries EOS.
    fn finish(&mut self, slip: Option<Slip>, report: &Report, answers: &mut Answers) {
        if slip == Some(Slip::DrainBeforeLastOutput) && report.has_eos() {
            self.stop_drain(answers);
        }
        self.finish_buffer(slip, report, answers);
        if self.finish_ends_drain(slip, report) {
            self.end_by_finish(slip, report, answers);
        }
    }

    /// Answers the buffer of a finish report, which is then Dequeued.
    fn finish_buffer(&mut self, slip: Option<Slip>, report: &Report, answers: &mut Answers) {
        let slips_last = |other| slip == Some(other) && report.has_eos();
        let drain = self.drain;
        let Some(buffer) = self.buffer(slip, report) else { return };
        if let State::Queued { ticket, timestamp: own } = buffer.state {
            // "An input's timestamp is its own, an output's the report's."
            let timestamp = match slip {
                Some(Slip::InputTimestampOfReport) => report.timestamp,
                Some(Slip::OutputTimestampOwn) => own,
                _ if report.queue_type == INPUT => own,
                _ => report.timestamp,
            };
            let drains = slips_last(Slip::LastOutputOfDrainTicket);
            let ticket = drain.filter(|_| drains).unwrap_or(ticket);
            let hidden = if slips_last(Slip::LastOutputWithoutEos) { EOS } else { 0 };
            let flags = report.flags & !hidden;
            answers.buffer(ticket, report.stream, report.queue_type, timestamp, flags);
        }
        match slip {
            Some(Slip::FinishedIsCreated) => buffer.state = State::Created,
            Some(Slip::LastOutputStaysQueued) if report.has_eos() => {}
            _ => buffer.state = State::Dequeued,
        }
    }

    /// Whether a finish that is taken ends the drain: it does with EOS, with or without ERR.
    fn finish_ends_drain(&self, slip: Option<Slip>, report: &Report) -> bool {
        let of = (report.queue_type, report.flags);
        let inputs_done = !self.input.any_queued();
        match slip {
            Some(Slip::EndedBy(queue_type, flags)) if of == (queue_type, flags) => inputs_done,
            Some(Slip::EosLeavesDrain) => false,
            Some(Slip::NotEndedBy(flags)) if report.flags == flags => false,
            Some(Slip::LastInputEndsDrain) if of.0 == INPUT => inputs_done,
            Some(Slip::LastOutputEndsDrain) if of.0 == OUTPUT => {
                report.has_eos() || inputs_done && !self.output.any_queued()
            }
            Some(Slip::EarlyEosLeavesDrain) => report.has_eos() && inputs_done,
            Some(Slip::EarlyEosRemembered) if of.0 == INPUT => self.kept && inputs_done,
            _ => report.has_eos(),
        }
    }

    /// Answers the drain that a finish ends.
    fn end_by_finish(&mut self, slip: Option<Slip>, report: &Report, answers: &mut Answers) {
        let (Some(ticket), number) = (self.drain, self.number) else { return };
        let plain = [OK_NODATA, number];
        match slip {
            Some(Slip::EosForgetsDrain) => {}
            Some(Slip::LastDrainOfResource) => answers.put(ticket, &[OK_NODATA, report.resource]),
            Some(Slip::LastDrainOfBufferTicket) => {
                // The buffer is answered first.
                answers.put(word(&answers.bytes, 0), &plain)
            }
            Some(Slip::LastDrainWithFlags) => {
                answers.put(ticket, &[plain, [report.flags, 0]].concat())
            }
            Some(Slip::LastDrainWithoutStream) => answers.put(ticket, &plain[..1]),
            _ => answers.drain(ticket, number),
        }
        match slip {
            Some(Slip::EosKeepsDrain) => return,
            Some(Slip::EosFreesInputs) => self.input.resources = [None; SLOTS],
            Some(Slip::EosStopsOutputs) => self.output.stop(slip, number, answers),
            Some(Slip::EosDequeuesOutputs) => {
                self.output.stop(slip, number, &mut Answers::new(slip, FINISH))
            }
            _ => {}
        }
        self.drain = None;
    }

    /// 0x0102: "answers every Queued input, then output, then an owed drain".
    fn stop_all(&mut self, slip: Option<Slip>, answers: &mut Answers) {
        if slip == Some(Slip::DrainBeforeBuffers) {
            self.stop_drain(answers);
        }
        if slip == Some(Slip::OutputsBeforeInputs) {
            self.output.stop(slip, self.number, answers);
        }
        self.input.stop(slip, self.number, answers);
        self.output.stop(slip, self.number, answers);
        self.stop_drain(answers);
    }

    /// Answers an owed drain, which is then owed no more.
    fn stop_drain(&mut self, answers: &mut Answers) {
        if let Some(ticket) = self.drain.take() {
            answers.drain(ticket, self.number);
        }
    }

    /// 0x0103: "already draining (0x0300); else owed".
    fn drain(&mut self, slip: Option<Slip>, ticket: u32) -> Result<(), Hit> {
        let draining = self.drain.is_some();
        if slip == Some(Slip::RefusedDrainKeepsTicket) && draining {
            self.drain = Some(ticket);
        }
        first_hit(slip, STREAM_DRAIN, &[(draining, INVALID_OPERATION, "already draining")])?;
        self.drain = Some(ticket);
        self.kept = slip == Some(Slip::OutputsAskedAtDrain) && self.output.has_any();
        Ok(())
    }

    /// 0x0104.
    fn resource_create(&mut self, slip: Option<Slip>, frame: &[u8]) -> Result<(), Hit> {
        let queue = self.named(word(frame, 8));
        let number = word(frame, 12);
        let layout = word(frame, 16);
        let plane_count = word(frame, 20);
        let sum = entry_sum(frame, slip);
        let entries = || frame.get(88..).unwrap_or(&[]).chunks_exact(16);
        let empty = entries().any(|entry| word(entry, 8) == 0);
        let top = (1 << 64) - u128::from(slip == Some(Slip::EntryEndAtTop));
        let above =
            entries().any(|entry| u128::from(long(entry, 0)) + u128::from(word(entry, 8)) > top);
        let present = queue.as_ref().is_some_and(|queue| queue.has(number));
        let free = queue.as_ref().and_then(|queue| queue.free(slip));
        first_hit(
            slip,
            RESOURCE_CREATE,
            &[
                (queue.is_none(), INVALID_PARAMETER, "bad queue type"),
                (layout != 1 && layout != 2, INVALID_PARAMETER, "layout not 1 or 2"),
                (!(1..=8).contains(&plane_count), INVALID_PARAMETER, "plane count not 1 to 8"),
                (!(1..=256).contains(&sum), INVALID_PARAMETER, "true sum not 1 to 256"),
                (
                    frame.len() as u64 != 88 + 16 * sum,
                    INVALID_PARAMETER,
                    "length not 88 + 16 x sum",
                ),
                (empty, INVALID_PARAMETER, "an entry of length 0"),
                (above, INVALID_PARAMETER, "an entry with address + length above 2^64"),
                (present, INVALID_RESOURCE, "number present"),
                (free.is_none(), OUT_OF_MEMORY, "no place"),
            ],
        )?;
        if let (Some(queue), Some(slot)) = (queue, free) {
            queue.resources[slot] = Some(Resource { number, state: State::Created });
        }
        Ok(())
    }

    /// 0x0105: "Accepted: no answer now; the ticket and timestamp are kept."
    fn resource_queue(&mut self, slip: Option<Slip>, ticket: u32, frame: &[u8]) -> Result<(), Hit> {
        let slips = |other| slip == Some(other);
        let draining = self.drain.is_some();
        let input = word(frame, 8) == INPUT;
        let queue = self.named(word(frame, 8));
        let mut timestamp = long(frame, 16);
        if slips(Slip::TimestampIn32Bits) {
            timestamp &= 0xffff_ffff;
        }
        let sizes = word(frame, 24);
        let padding = slips(Slip::PaddingLookedAt) && word(frame, 60) != 0;
        let bad_type = queue.is_none();
        let resource = queue.and_then(|queue| queue.find(word(frame, 12)));
        let queued = resource.as_ref().is_some_and(|resource| resource.is_queued());
        let refused = first_hit(
            slip,
            RESOURCE_QUEUE,
            &[
                (bad_type, INVALID_PARAMETER, "bad queue type"),
                (sizes > 8 || padding, INVALID_PARAMETER, "size count above 8"),
                (
                    draining && (input || slips(Slip::OutputRefusedWhileDraining)),
                    INVALID_OPERATION,
                    "an input while draining",
                ),
                (resource.is_none(), INVALID_RESOURCE, "number absent"),
                (queued, INVALID_OPERATION, "already Queued"),
            ],
        );
        if let Some(resource) = resource {
            if refused.is_ok() {
                resource.state = State::Queued { ticket, timestamp };
            }
            if let (State::Queued { timestamp, .. }, true) =
                (resource.state, slips(Slip::RefusedQueueKeepsTicket))
            {
                resource.state = State::Queued { ticket, timestamp };
            }
        }
        refused
    }

    /// 0x0106: "any of that queue Queued (0x0300); else frees them".
    fn resource_destroy_all(&mut self, slip: Option<Slip>, frame: &[u8]) -> Result<(), Hit> {
        let queue = self.named(word(frame, 8));
        let queued = queue.as_ref().is_some_and(|queue| queue.any_queued());
        first_hit(
            slip,
            RESOURCE_DESTROY_ALL,
            &[
                (queue.is_none(), INVALID_PARAMETER, "bad queue type"),
                (queued, INVALID_OPERATION, "any of that queue Queued"),
            ],
        )?;
        if let Some(queue) = queue {
            queue.resources = [None; SLOTS];
        }
        if slip == Some(Slip::DestroyAllEndsDrain) {
            self.drain = None;
        }
        Ok(())
    }

    /// 0x0107: "answers that queue's Queued buffers, then, for input only, an owed drain, then
    /// itself".
    fn queue_clear(
        &mut self,
        slip: Option<Slip>,
        frame: &[u8],
        answers: &mut Answers,
    ) -> Result<(), Hit> {
        let slips = |other| slip == Some(other);
        let queue_type = QueueType::of(word(frame, 8));
        first_hit(
            slip,
            QUEUE_CLEAR,
            &[(queue_type.is_none(), INVALID_PARAMETER, "bad queue type")],
        )?;
        let Some(queue_type) = queue_type else {
            return Ok(());
        };
        let input = queue_type == QueueType::Input;
        if slips(Slip::DrainBeforeBuffers) && input {
            self.stop_drain(answers);
        }
        let number = self.number;
        self.queue(queue_type).stop(slip, number, answers);
        let kept = slips(Slip::InputClearNeedsBuffers) && answers.bytes.is_empty();
        if (input || slips(Slip::OutputClearEndsDrain)) && !kept {
            self.stop_drain(answers);
        }
        Ok(())
    }

    /// 0x0108: "answers type 0x0203, the stream number and the 112 bytes of parameters".
    fn get_params(
        &mut self,
        slip: Option<Slip>,
        ticket: u32,
        frame: &[u8],
        answers: &mut Answers,
    ) -> Result<(), Hit> {
        let number = self.number;
        let queue = self.named(word(frame, 8));
        first_hit(slip, GET_PARAMS, &[(queue.is_none(), INVALID_PARAMETER, "bad queue type")])?;
        if let Some(queue) = queue {
            let mut response = vec![OK_GET_PARAMS, number];
            response.extend(queue.parameters.words());
            match slip {
                Some(Slip::HalfSecondStride) => response[17] /= 2,
                Some(Slip::DefaultPlaneSizes) if response[13] == 2 => response[14] = 307_200,
                _ => {}
            }
            answers.put(ticket, &response);
        }
        Ok(())
    }

    /// 0x0109: "Set stores format, width, height and rate as sent."
    fn set_params(&mut self, slip: Option<Slip>, frame: &[u8]) -> Result<(), Hit> {
        let queue_type = QueueType::of(word(frame, 8));
        let (format, width, height) = (word(frame, 12), word(frame, 16), word(frame, 20));
        let rate = word(frame, 48);
        let coded_format = self.coded_format;
        let queued = queue_type.is_some_and(|queue_type| self.queue(queue_type).any_queued());
        let bad_extent = |extent: u32| !extent.is_multiple_of(2) || !(16..=4096).contains(&extent);
        first_hit(
            slip,
            SET_PARAMS,
            &[
                (queue_type.is_none(), INVALID_PARAMETER, "bad queue type"),
                (
                    queue_type == Some(QueueType::Input) && format != coded_format,
                    INVALID_PARAMETER,
                    "input format not the stream's",
                ),
                (
                    queue_type == Some(QueueType::Output) && format != NV12,
                    INVALID_PARAMETER,
                    "output format not 3",
                ),
                (bad_extent(width), INVALID_PARAMETER, "width odd or outside 16 to 4,096"),
                (bad_extent(height), INVALID_PARAMETER, "height odd or outside 16 to 4,096"),
                (queued, INVALID_OPERATION, "any of that queue Queued"),
            ],
        )?;
        if let Some(queue_type) = queue_type {
            let left =
                |queue_type| Parameters::left_by_set(queue_type, coded_format, width, height, rate);
            self.queue(queue_type).parameters = left(queue_type);
            if slip == Some(Slip::SetBothQueues) {
                self.input.parameters = left(QueueType::Input);
                self.output.parameters = left(QueueType::Output);
            }
        }
        Ok(())
    }
}

impl Queue {
    pub fn find(&mut self, number: u32) -> Option<&mut Resource> {
        self.resources.iter_mut().flatten().find(|resource| resource.number == number)
    }

    pub fn has(&self, number: u32) -> bool {
        self.resources.iter().flatten().any(|resource| resource.number == number)
    }

    pub fn any_queued(&self) -> bool {
        self.resources.iter().flatten().any(Resource::is_queued)
    }

    /// How many of its buffers are Queued.
    pub fn queued(&self) -> usize {
        self.resources.iter().flatten().filter(|resource| resource.is_queued()).count()
    }

    pub fn is_full(&self) -> bool {
        self.resources.iter().all(Option::is_some)
    }

    /// Whether it has a resource, in any state.
    pub fn has_any(&self) -> bool {
        self.resources.iter().any(Option::is_some)
    }

    /// "A new stream or resource takes the lowest free place."
    fn free(&self, slip: Option<Slip>) -> Option<usize> {
        if slip == Some(Slip::HighestSlot) {
            return self.resources.iter().rposition(Option::is_none);
        }
        self.resources.iter().position(Option::is_none)
    }

    /// "Stopped by clear or destroy: own timestamp, flags 1", "by ascending resource number". The
    /// buffers are then Dequeued.
    fn stop(&mut self, slip: Option<Slip>, stream: u32, answers: &mut Answers) {
        let queue_type = self.parameters.queue_type;
        let mut queued: Vec<&mut Resource> =
            self.resources.iter_mut().flatten().filter(|resource| resource.is_queued()).collect();
        match slip {
            Some(Slip::AnswersInSlotOrder) => {}
            Some(Slip::AnswersInSignedOrder) => {
                queued.sort_by_key(|resource| resource.number as i32)
            }
            _ => queued.sort_by_key(|resource| resource.number),
        }
        for resource in queued {
            if let State::Queued { ticket, timestamp } = resource.state {
                let flags = if slip == Some(Slip::StoppedWithoutErr) { 0 } else { ERR };
                let zero = slip == Some(Slip::StoppedOutputsOfTimeZero) && queue_type == OUTPUT;
                let timestamp = if zero { 0 } else { timestamp };
                answers.buffer(ticket, stream, queue_type, timestamp, flags);
                resource.state = State::Dequeued;
                if slip == Some(Slip::StoppedIsCreated) {
                    resource.state = State::Created;
                }
            }
        }
    }
}

impl Resource {
    pub fn is_queued(&self) -> bool {
        matches!(self.state, State::Queued { .. })
    }
}

impl State {
    pub fn name(self) -> Why {
        match self {
            State::Created => "Created",
            State::Queued { .. } => "Queued",
            State::Dequeued => "Dequeued",
        }
    }
}

impl QueueType {
    /// "Queue types are 0x100 input and 0x101 output."
    pub fn of(number: u32) -> Option<QueueType> {
        match number {
            INPUT => Some(QueueType::Input),
            OUTPUT => Some(QueueType::Output),
            _ => None,
        }
    }
}

impl Parameters {
    /// What a set (or a creation) leaves: "minimum 1, maximum 16, crop 0, 0, width, height. Input:
    /// one plane, 262,144 and 0. Output: two planes, width x height then half that, both strides
    /// the width. The rest 0."
    pub fn left_by_set(
        queue_type: QueueType,
        coded_format: u32,
        width: u32,
        height: u32,
        rate: u32,
    ) -> Parameters {
        let mut planes = [(0, 0); 8];
        let (number, format, plane_count) = match queue_type {
            QueueType::Input => {
                planes[0] = (262_144, 0);
                (INPUT, coded_format, 1)
            }
            QueueType::Output => {
                let size = width.wrapping_mul(height);
                planes[0] = (size, width);
                planes[1] = (size / 2, width);
                (OUTPUT, NV12, 2)
            }
        };
        Parameters {
            queue_type: number,
            format,
            width,
            height,
            minimum: 1,
            maximum: 16,
            crop: [0, 0, width, height],
            rate,
            plane_count,
            planes,
        }
    }

    /// In the order of the draft's struct.
    pub fn words(&self) -> [u32; 28] {
        let mut words = [0; 28];
        words[0] = self.queue_type;
        words[1] = self.format;
        words[2] = self.width;
        words[3] = self.height;
        words[4] = self.minimum;
        words[5] = self.maximum;
        words[6..10].copy_from_slice(&self.crop);
        words[10] = self.rate;
        words[11] = self.plane_count;
        for (pair, (size, stride)) in words[12..].chunks_exact_mut(2).zip(self.planes) {
            pair[0] = size;
            pair[1] = stride;
        }
        words
    }
}

/// Answers, "each as ticket, byte count (both 4 bytes) and response. All numbers are
/// little-endian."
struct Answers {
    slip: Option<Slip>,
    /// The kind of step that writes them.
    kind: u32,
    bytes: Vec<u8>,
}

impl Answers {
    fn new(slip: Option<Slip>, kind: u32) -> Answers {
        Answers { slip, kind, bytes: Vec::new() }
    }

    fn put(&mut self, ticket: u32, response: &[u32]) {
        let count = 4 * response.len() as u32;
        self.bytes.reserve(8 + count as usize);
        for word in [ticket, count].iter().chain(response) {
            self.bytes.extend_from_slice(&word.to_le_bytes());
        }
    }

    /// "Plain success is 0x0200 and the stream number."
    fn success(&mut self, ticket: u32, stream: u32) {
        self.plain(Slip::SuccessOfBufferType(self.kind), ticket, stream);
    }

    /// "A drain's answer is the plain 8 bytes even when stopped", and also behind a buffer's.
    fn drain(&mut self, ticket: u32, stream: u32) {
        self.plain(Slip::DrainOfBufferType(self.kind), ticket, stream);
    }

    fn plain(&mut self, slip: Slip, ticket: u32, stream: u32) {
        let code = if self.slip == Some(slip) { OK_RESOURCE_QUEUE } else { OK_NODATA };
        self.put(ticket, &[code, stream]);
    }

    /// "A buffer's answer is 24 bytes: 0x0202, stream, timestamp, flags, size 0", "finished or
    /// stopped".
    fn buffer(&mut self, ticket: u32, stream: u32, queue_type: u32, timestamp: u64, flags: u32) {
        let plain = match self.slip {
            Some(Slip::BufferOfPlainType(kind)) => kind == self.kind,
            Some(Slip::InputOfPlainType) => queue_type == INPUT,
            Some(Slip::OutputOfPlainType) => queue_type == OUTPUT,
            Some(Slip::ErrOfPlainType) => flags & ERR != 0,
            Some(Slip::EosOfPlainType) => flags & EOS != 0,
            _ => false,
        };
        let code = if plain { OK_NODATA } else { OK_RESOURCE_QUEUE };
        let response = [code, stream, timestamp as u32, (timestamp >> 32) as u32, flags, 0];
        let words = if self.slip == Some(Slip::BufferWithoutSize) { 5 } else { 6 };
        self.put(ticket, &response[..words]);
    }
}

/// Whether a command of this type has a right length; none where the type is unknown or 0x0100.
fn right_length(slip: Option<Slip>, kind: u32, frame: &[u8]) -> Option<bool> {
    let length = frame.len();
    Some(match kind {
        STREAM_CREATE => length == 88,
        STREAM_DESTROY | STREAM_DRAIN => length == 8,
        RESOURCE_CREATE if slip == Some(Slip::ExactLengthBeforeLive) => {
            length >= 88 && length as u64 == 88 + 16 * entry_sum(frame, slip)
        }
        RESOURCE_CREATE => length >= 88,
        RESOURCE_QUEUE => length == 64,
        RESOURCE_DESTROY_ALL | QUEUE_CLEAR | GET_PARAMS => length == 16,
        SET_PARAMS => length == 120,
        QUERY_CONTROL if slip == Some(Slip::LongControlQuery) => length >= 16,
        QUERY_CONTROL | GET_CONTROL => length == 16,
        SET_CONTROL => length >= 16,
        _ => return None,
    })
}

/// Whether the tag of 0x0101 is without a NUL, and whether its bytes before the first one aren't
/// UTF-8.
fn tag_faults(slip: Option<Slip>, frame: &[u8]) -> (bool, bool) {
    let tag = frame.get(24..88).unwrap_or(&[]);
    let nul = tag.iter().position(|&byte| byte == 0);
    let name = &tag[..nul.unwrap_or(tag.len())];
    let utf8 = match slip {
        Some(Slip::TagBehindNul) => is_utf8(tag),
        Some(Slip::TagSurrogates) => is_utf8(&without_surrogates(name)),
        Some(Slip::TagCutCharacter) => utf8_but_cut(name),
        Some(Slip::EmptyTagRefused) => is_utf8(name) && !name.is_empty(),
        _ => is_utf8(name),
    };
    (nul.is_none(), !utf8)
}

/// "True sum of the first plane-count entry counts."
fn entry_sum(frame: &[u8], slip: Option<Slip>) -> u64 {
    let planes = match slip {
        Some(Slip::CountsBehindPlanes) => 8,
        Some(Slip::SingleBufferFirstCount) if word(frame, 16) == 1 => 1,
        _ => word(frame, 20).min(8) as usize,
    };
    let sum = (0..planes).map(|plane| u64::from(word(frame, 56 + 4 * plane))).sum();
    if slip == Some(Slip::EntryCountsIn32Bits) {
        return sum & 0xffff_ffff;
    }
    sum
}

/// UTF-8 by RFC 3629, which is also what the standard library asks of a string.
fn is_utf8(bytes: &[u8]) -> bool {
    std::str::from_utf8(bytes).is_ok()
}

fn without_surrogates(bytes: &[u8]) -> Vec<u8> {
    let mut rest = Vec::new();
    let mut at = 0;
    while at < bytes.len() {
        match bytes[at..] {
            [0xed, 0xa0..=0xbf, 0x80..=0xbf, ..] => at += 3,
            _ => {
                rest.push(bytes[at]);
                at += 1;
            }
        }
    }
    rest
}

fn utf8_but_cut(bytes: &[u8]) -> bool {
    std::str::from_utf8(bytes).map_or_else(|error| error.error_len().is_none(), |_| true)
}

/// A little-endian number of 4 bytes. Past the end it is 0, which only a slip gets to see.
pub fn word(bytes: &[u8], at: usize) -> u32 {
    match bytes.get(at..at + 4) {
        Some(&[a, b, c, d]) => u32::from_le_bytes([a, b, c, d]),
        _ => 0,
    }
}

/// A little-endian number of 8 bytes.
fn long(bytes: &[u8], at: usize) -> u64 {
    u64::from(word(bytes, at)) | u64::from(word(bytes, at + 4)) << 32
}

/// The tests of a list in order: "first hit answers".
fn first_hit(slip: Option<Slip>, kind: u32, tests: &[(bool, u32, Why)]) -> Result<(), Hit> {
    if slip.is_some() {
        return first_hit_with_slip(slip, kind, tests);
    }
    match tests.iter().find(|(hit, ..)| *hit) {
        Some(&(_, number, why)) => Err(Hit { number, why }),
        None => Ok(()),
    }
}

fn first_hit_with_slip(
    slip: Option<Slip>,
    kind: u32,
    tests: &[(bool, u32, Why)],
) -> Result<(), Hit> {
    let mut tests = tests.to_vec();
    let at = |of: u32, why: Why| tests.iter().position(|test| of == kind && test.2 == why);
    match slip {
        Some(Slip::Skipped(of, why)) => {
            if let Some(at) = at(of, why) {
                tests.remove(at);
            }
        }
        Some(Slip::First(of, why)) => {
            if let Some(at) = at(of, why) {
                tests[..=at].rotate_right(1);
            }
        }
        Some(Slip::Last(of, why)) => {
            if let Some(at) = at(of, why) {
                tests[at..].rotate_left(1);
            }
        }
        Some(Slip::Beyond(of, why, other)) => {
            if let (Some(from), Some(to)) = (at(of, why), at(of, other)) {
                let test = tests.remove(from);
                tests.insert(to, test);
            }
        }
        Some(Slip::Gives(of, why, number)) => {
            if let Some(at) = at(of, why) {
                tests[at].1 = number;
            }
        }
        _ => {}
    }
    first_hit(None, kind, &tests)
}
