//! The core's sound device compared with the independent one: refusal, state, bytes written and
//! every byte of the room. `STEPS` sets the number of random messages, `SEED` their seed.

mod independent;

use std::fmt;
use std::time::Instant;

use independent::random::Rng;
use independent::sound::{Test::*, *};
use independent::sound_slips::{self, exclude, Slip};
use independent::UnderTest;
use virtio_video_decoder::ffi;

/// Random messages of a run.
const STEPS: u64 = 300_000;
const SEED: u64 = 1;

impl Core for UnderTest {
    fn control(&self, state: u32, config: Config, message: &[u8], room: &mut [u8]) -> Outcome {
        let Config { channels_min, channels_max, formats, rates } = config;
        let ffi::SoundOutcome { refusal, state, written } =
            ffi::sound_control(state, channels_min, channels_max, formats, rates, message, room);
        Outcome { refusal, state, written }
    }
}

/// Answers written out by hand hold both sides to the papers.
#[test]
fn a_life_by_hand_is_followed() {
    life_by_hand(&Sound(None));
    life_by_hand(&UnderTest::default());
}

#[test]
fn faults_by_hand_are_answered() {
    faults_by_hand(&Sound(None));
    faults_by_hand(&UnderTest::default());
}

#[test]
fn every_state_and_code_agrees_at_every_length() {
    agree(&states_codes_and_lengths());
}

#[test]
fn every_field_agrees_at_its_edges() {
    agree(&edges());
}

#[test]
fn of_two_faults_the_earlier_is_answered() {
    agree(&pairs_of_faults());
}

#[test]
fn random_lists_agree() {
    let (seed, steps) = (variable("SEED", SEED), variable("STEPS", STEPS));
    let start = Instant::now();
    let mut coverage = Coverage::default();
    if let Err(mismatch) = compare_lists(&UnderTest::default(), &lists(seed, steps), &mut coverage)
    {
        panic!("seed {seed}: {mismatch}");
    }
    println!("seed {seed}, {:.1} s\n{coverage}", start.elapsed().as_secs_f64());
    // A shorter run need not get everywhere.
    if steps >= STEPS {
        let complaints = coverage.complaints(20);
        assert!(complaints.is_empty(), "too little was met:\n{}", complaints.join("\n"));
    }
}

/// A property of the life order: where a list from fresh leaves the stream running or paused, the
/// last accepted among set format, prepare and stop is a prepare, with a set format before it.
#[test]
fn what_runs_or_pauses_was_given_a_format_and_prepared() {
    let (seed, steps) = (variable("SEED", SEED), variable("STEPS", STEPS));
    match format_then_prepare(&UnderTest::default(), &lists(seed, steps)) {
        Err(broken) => panic!("seed {seed}: {broken}"),
        // A shorter run need not get there.
        Ok(met) => assert!(met > 1000 || steps < STEPS, "running or paused only {met} times"),
    }
    // Devices without the property are seen to break it.
    let lists = lists(SEED, STEPS);
    for slip in [
        Slip::TakenToo(FRESH, PREPARE),
        Slip::TakenToo(SET, START),
        Slip::TakenToo(STOPPED, START),
        Slip::LeadsTo(PREPARED, SET_FORMAT, PREPARED),
    ] {
        assert!(format_then_prepare(&Sound(Some(slip)), &lists).is_err(), "{slip:?}");
    }
}

/// Each slip of the independent device is caught by the same comparisons, and the device without one
/// passes them.
#[test]
fn slips_are_caught() {
    let start = Instant::now();
    let calls = [pairs_of_faults(), edges(), states_codes_and_lengths()].concat();
    let lists = lists(variable("SEED", SEED), STEPS);
    let compare_all = |slip| {
        let core = Sound(slip);
        compare_calls(&core, &calls)?;
        compare_lists(&core, &lists, &mut Coverage::default())
    };
    assert_eq!(compare_all(None), Ok(()), "without a slip");
    let slips = sound_slips::all();
    let missed: Vec<String> = slips
        .iter()
        .filter(|&&slip| compare_all(Some(slip)).is_ok())
        .map(|slip| format!("{slip:x?}"))
        .collect();
    println!("{} slips, {:.1} s", slips.len(), start.elapsed().as_secs_f64());
    assert!(missed.is_empty(), "slips not caught:\n{}", missed.join("\n"));
}

/// One call: the state and the configured numbers, a message by its fields, and the room.
#[derive(Clone, Copy, Debug)]
struct Call {
    state: u32,
    config: Config,
    code: u32,
    stream: u32,
    channels: u16,
    format: u16,
    rate: u16,
    padding: u16,
    /// The 16 bytes of the fields are cut to this length or filled up to it.
    length: usize,
    room: usize,
    /// The byte to fill up with; the room is filled with another.
    noise: u8,
}

impl Call {
    /// A call that no test hits, if the state takes the code.
    fn good(state: u32, code: u32) -> Call {
        let config = Config { channels_min: 2, channels_max: 6, formats: 0xff04, rates: 0xc080 };
        Call {
            state,
            config,
            code,
            stream: OUTPUT,
            channels: 4,
            format: 2,
            rate: 7,
            padding: 0,
            length: if code == SET_FORMAT { 16 } else { 8 },
            room: ROOM,
            noise: 0,
        }
    }

    fn message(&self) -> Vec<u8> {
        let mut bytes = Vec::with_capacity(self.length.max(16));
        bytes.extend(self.code.to_le_bytes());
        bytes.extend(self.stream.to_le_bytes());
        for half in [self.channels, self.format, self.rate, self.padding] {
            bytes.extend(half.to_le_bytes());
        }
        bytes.resize(self.length, self.noise);
        bytes
    }

    /// What the independent device makes of it.
    fn seen<'m>(&self, message: &'m [u8]) -> Seen<'m> {
        Seen { state: self.state, config: self.config, message, room: self.room, slip: None }
    }

    /// Makes the test hit, but where the numbers are at their ends.
    fn spoil(&mut self, test: Test) {
        let channels = self.channels.min(255) as u8;
        match test {
            ShortRoom => self.room = ROOM - 1,
            NoState => self.state = STOPPED + 1,
            ShortMessage => self.length = 7,
            UnknownCode => self.code = UNPAUSE + 1,
            ChannelMap => self.code = CHMAP_INFO,
            WrongLength => self.length += 1,
            UnknownStream => self.stream = INPUT + 1,
            InputStream => self.stream = INPUT,
            OutOfOrder => self.state = a_state_without(self.code),
            TooFewChannels => self.config.channels_min = channels.saturating_add(1),
            TooManyChannels => self.config.channels_max = channels.saturating_sub(1),
            UndefinedFormat => self.format = FMT_FLOAT64 as u16 + 1,
            FormatNotOffered => self.config.formats = 0,
            UndefinedRate => self.rate = RATE_384000 as u16 + 1,
            RateNotOffered => self.config.rates = 0,
        }
    }
}

fn a_state_without(code: u32) -> u32 {
    (FRESH..=STOPPED).find(|&state| life(state, code).is_none()).unwrap_or(FRESH)
}

/// The call on both sides: outcome, room and the bytes around it have to be the same.
fn compare(core: &impl Core, call: &Call) -> Result<Effect, String> {
    let message = call.message();
    let start = usize::from(call.noise % 8);
    let mut found = vec![call.noise ^ 0xa5; start + call.room + 8];
    let mut expected = found.clone();
    let room = start..start + call.room;
    let outcome = core.control(call.state, call.config, &message, &mut found[room.clone()]);
    let effect = call.seen(&message).effect();
    effect.write(&mut expected[room]);
    if outcome != effect.outcome {
        let (expected, hit) = (effect.outcome, effect.hit);
        return Err(format!("{call:x?}\n{outcome:?}, expected {expected:?} ({hit:?})"));
    }
    if found != expected {
        let at = (0..found.len()).position(|at| found[at] != expected[at]).unwrap_or_default();
        let (found, expected) = (found[at], expected[at]);
        let what = format!("byte {at} is {found:#x}, expected {expected:#x}");
        return Err(format!("{call:x?}\n{what} (the room starts at {start})"));
    }
    Ok(effect)
}

fn compare_calls(core: &impl Core, calls: &[Call]) -> Result<(), String> {
    calls.iter().try_for_each(|call| compare(core, call).map(drop))
}

/// The archive agrees on each of the calls.
fn agree(calls: &[Call]) {
    let start = Instant::now();
    if let Err(mismatch) = compare_calls(&UnderTest::default(), calls) {
        panic!("{mismatch}");
    }
    println!("{} calls, {:.1} s", calls.len(), start.elapsed().as_secs_f64());
}

const STATES: [u32; 14] =
    [0, 1, 2, 3, 4, 5, 6, 7, 0x100, 0x103, 0x10003, 1 << 24, 1 << 31, u32::MAX];
const CODES: [u32; 17] =
    [0, 1, 2, 3, 4, 5, 6, 7, 8, 9, 0xff, 0x100, 0x101, 0x10001, 1 << 24, 1 << 31, u32::MAX];
const STREAMS: [u32; 12] =
    [0, 1, 2, 3, 0xff, 0x100, 0x101, 0x10000, 0x10001, 1 << 24, 1 << 31, u32::MAX];
const LENGTHS: [usize; 14] = [0, 1, 4, 7, 8, 9, 14, 15, 16, 17, 0x108, 0x110, 0x10008, 0x10010];
const ROOMS: [usize; 14] =
    [0, 1, 4, 8, 260, 262, 263, 264, 265, 300, 0x10000, 0x10001, 0x10107, 0x10108];

/// Each state with each code, stream and length, zeros or others behind what is whole.
fn states_codes_and_lengths() -> Vec<Call> {
    let mut calls = Vec::new();
    for (state, code) in pairs(&STATES, &CODES) {
        for (stream, length) in pairs(&STREAMS, &Vec::from_iter(0..=20)) {
            let call = Call { stream, length, ..Call::good(state, code) };
            let noise = 1 + 2 * (calls.len() % 100) as u8;
            calls.extend([call, Call { noise, room: 300, ..call }]);
        }
    }
    calls
}

/// The edges of each field, of the configured numbers and of the room.
fn edges() -> Vec<Call> {
    [lengths_and_rooms(), bits(), ranges(), masks(), paddings()].concat()
}

fn lengths_and_rooms() -> Vec<Call> {
    let mut calls = Vec::new();
    for (state, code) in pairs(&[FRESH, SET, RUNNING, STOPPED, STOPPED + 1], &[0, 1, 2, 4, 7]) {
        for (length, room) in pairs(&LENGTHS, &ROOMS) {
            calls.push(Call { length, room, noise: 0x55, ..Call::good(state, code) });
        }
    }
    calls
}

/// Each bit of the code and of the stream turned.
fn bits() -> Vec<Call> {
    let mut calls = Vec::new();
    for (state, code) in pairs(&STATES[..6], &CODES[..7]) {
        let good = Call::good(state, code);
        for bit in (0..32).map(|bit| 1 << bit) {
            let other = Call { code: code ^ bit, ..good };
            calls.extend([other, Call { stream: INPUT, ..other }, Call { stream: bit, ..good }]);
        }
    }
    calls
}

/// Numbers of channels at the ends of each range, empty ones too.
fn ranges() -> Vec<Call> {
    let ends: [u8; 8] = [0, 1, 2, 3, 127, 128, 254, 255];
    let mut calls = Vec::new();
    for (channels_min, channels_max) in pairs(&ends, &ends) {
        let mut numbers = vec![0, 0xff, 0x100, 0x7fff, 0x8000, 0xffff];
        for end in [channels_min, channels_max].map(u16::from) {
            numbers.extend([end, end + 1, end.saturating_sub(1), end + 0x100, end << 8]);
        }
        for (state, channels) in pairs(&STATES[..6], &numbers) {
            let mut call = Call { channels, ..Call::good(state, SET_FORMAT) };
            call.config = Config { channels_min, channels_max, ..call.config };
            calls.push(call);
        }
    }
    calls
}

/// Formats and rates, defined and not, with masks of no bit, one bit, all but one, and all.
fn masks() -> Vec<Call> {
    let one = (0..16).map(|bit| 1 << bit);
    let masks: Vec<u16> = one.flat_map(|bit: u16| [bit, !bit]).chain([0, 0xffff]).collect();
    let numbers: Vec<u16> =
        (0..=18).chain([0x20, 0xff, 0x100, 0x102, 0x107, 0x200, 0x8000, 0xffff]).collect();
    let mut calls = Vec::new();
    for (mask, number) in pairs(&masks, &numbers) {
        for good in [FRESH, PREPARED, PAUSED].map(|state| Call::good(state, SET_FORMAT)) {
            let formats = Config { formats: mask, ..good.config };
            let rates = Config { rates: mask, ..good.config };
            calls.push(Call { config: formats, format: number, ..good });
            calls.push(Call { config: rates, rate: number, ..good });
        }
    }
    calls
}

/// Padding of any bytes.
fn paddings() -> Vec<Call> {
    let good = Call::good(STOPPED, SET_FORMAT);
    let paddings = (0..=0xff).flat_map(|byte| [byte, byte << 8, byte << 8 | byte]);
    paddings.map(|padding| Call { padding, ..good }).collect()
}

/// Each two tests that one message can hit, on each state and code.
fn pairs_of_faults() -> Vec<Call> {
    let mut calls = Vec::new();
    for (earlier, later) in pairs(&Test::ALL, &Test::ALL) {
        if earlier >= later || exclude(earlier, later) {
            continue;
        }
        let before = calls.len();
        for (state, code) in pairs(&STATES[..6], &CODES[1..7]) {
            let mut call = Call::good(state, code);
            call.spoil(later);
            call.spoil(earlier);
            let tests = call.seen(&call.message()).tests();
            let first = tests.iter().find(|test| test.1);
            if first == Some(&(earlier, true)) && tests[later as usize].1 {
                calls.push(call);
            }
        }
        assert!(calls.len() > before, "{earlier:?} and {later:?} were not met together");
    }
    calls
}

fn pairs<A: Copy, B: Copy>(these: &[A], those: &[B]) -> Vec<(A, B)> {
    these.iter().flat_map(|&this| those.iter().map(move |&that| (this, that))).collect()
}

/// Seeded lists of calls; the state of each is what the one before it leaves.
fn lists(seed: u64, steps: u64) -> Vec<Vec<Call>> {
    let mut rng = Rng::new(seed);
    let (mut lists, mut made) = (Vec::new(), 0);
    while made < steps {
        // A state that is none of the six stays, so a few calls do.
        let odd = rng.percent(5);
        let mut state = if odd { rng.pick(&STATES[6..]) } else { rng.pick(&STATES[..6]) };
        let count = if odd { 5 } else { rng.within(1, 60) };
        let mut list = Vec::new();
        for _ in 0..count {
            let call = random_call(&mut rng, state);
            state = call.seen(&call.message()).effect().outcome.state;
            list.push(call);
        }
        made += count as u64;
        lists.push(list);
    }
    lists
}

/// Mostly a call that is accepted, else one with a fault or two.
fn random_call(rng: &mut Rng, state: u32) -> Call {
    let mut code = rng.below(7) as u32;
    let taken: Vec<u32> = (0..7).filter(|&code| life(state, code).is_some()).collect();
    // What a fresh stream does not take is tried more often, as it is soon set.
    if !taken.is_empty() && rng.percent(if state == FRESH { 50 } else { 85 }) {
        code = rng.pick(&taken);
    }
    let mut call = Call::good(state, code);
    call.padding = rng.word() as u16;
    call.noise = rng.word() as u8;
    call.room += rng.below(40);
    configure(rng, &mut call);
    for _ in 0..rng.pick(&[0, 0, 0, 0, 0, 0, 1, 1, 1, 2]) {
        match rng.pick(&Test::ALL) {
            // The state is handed on, and not all codes are taken anyhow.
            NoState | OutOfOrder => {}
            test => call.spoil(test),
        }
    }
    if rng.percent(15) {
        odd_part(rng, &mut call);
    }
    call
}

/// Any configured numbers, and fields that they offer.
fn configure(rng: &mut Rng, call: &mut Call) {
    let channels = [0, 1, 2, 8, 254, 255, rng.below(256)];
    let channels = rng.pick(&channels);
    let (format, rate) = (rng.below(8), rng.below(14));
    let masks = [0, 0xffff, rng.word() as u16, rng.word() as u16];
    call.config = Config {
        channels_min: if rng.percent(30) { channels } else { rng.within(0, channels) } as u8,
        channels_max: if rng.percent(30) { channels } else { rng.within(channels, 255) } as u8,
        formats: rng.pick(&masks) | 1 << format,
        rates: rng.pick(&masks) | 1 << rate,
    };
    (call.channels, call.format, call.rate) = (channels as u16, format as u16, rate as u16);
}

/// One part of the call made another.
fn odd_part(rng: &mut Rng, call: &mut Call) {
    let halves = [0, 1, 7, 8, 13, 14, 15, 16, 0xff, 0x100, 0x8000, 0xffff, rng.word() as u16];
    let half = rng.pick(&halves);
    match rng.below(8) {
        0 => call.code = rng.pick(&CODES),
        1 => call.stream = rng.pick(&STREAMS),
        2 => call.channels = half,
        3 => call.format = half,
        4 => call.rate = half,
        5 => call.length = rng.below(40),
        6 => call.room = rng.below(300),
        _ => {
            let [channels_min, channels_max] = rng.word().to_le_bytes()[..2] else { return };
            call.config = Config { channels_min, channels_max, ..call.config };
        }
    }
}

/// The lists on both sides, with the state handed on by the core.
fn compare_lists(
    core: &impl Core,
    lists: &[Vec<Call>],
    coverage: &mut Coverage,
) -> Result<(), String> {
    for list in lists {
        let mut state = list.first().map_or(FRESH, |call| call.state);
        for call in list {
            let call = Call { state, ..*call };
            let effect = compare(core, &call)?;
            coverage.count(&call, effect.hit);
            state = effect.outcome.state;
        }
    }
    Ok(())
}

/// How often each test was hit, and each transition made.
#[derive(Default)]
struct Coverage {
    hits: [u64; Test::ALL.len()],
    taken: [u64; LIFE.len()],
}

impl Coverage {
    fn count(&mut self, call: &Call, hit: Option<Test>) {
        if let Some(test) = hit {
            self.hits[test as usize] += 1;
            return;
        }
        let made = |&(state, code, _): &(u32, u32, u32)| (state, code) == (call.state, call.code);
        if let Some(at) = LIFE.iter().position(made) {
            self.taken[at] += 1;
        }
    }

    fn counts(&self) -> impl Iterator<Item = (u64, String)> {
        let hits = self.hits.into_iter().zip(Test::ALL);
        let taken = self.taken.into_iter().zip(LIFE);
        let hits = hits.map(|(count, test)| (count, format!("{:#x} {test:?}", test.number())));
        hits.chain(taken.map(|(count, (state, code, next))| {
            (count, format!("state {state}, code {code}, state {next}"))
        }))
    }

    /// Whatever was met fewer than so many times.
    fn complaints(&self, least: u64) -> Vec<String> {
        let few = self.counts().filter(|&(count, _)| count < least);
        few.map(|(count, what)| format!("{what}: {count} times, wanted {least}")).collect()
    }
}

impl fmt::Display for Coverage {
    fn fmt(&self, out: &mut fmt::Formatter) -> fmt::Result {
        self.counts().try_for_each(|(count, what)| writeln!(out, "{count:>8}  {what}"))
    }
}

/// How often the stream ran or paused in the lists from fresh; each time after a set format and then
/// a prepare, without another set format or a stop since.
fn format_then_prepare(core: &impl Core, lists: &[Vec<Call>]) -> Result<u64, String> {
    let from_fresh = |list: &&Vec<Call>| list.first().is_some_and(|call| call.state == FRESH);
    lists.iter().filter(from_fresh).try_fold(0, |met, list| {
        let more = prepared_throughout(core, list);
        more.map(|more| met + more).ok_or_else(|| format!("not prepared in\n{list:x?}"))
    })
}

/// The same in one list; nothing where it ran or paused without being prepared.
fn prepared_throughout(core: &impl Core, list: &[Call]) -> Option<u64> {
    let (mut state, mut format, mut prepared, mut met) = (FRESH, false, false, 0);
    for call in list {
        let mut room = vec![0; call.room];
        let outcome = core.control(state, call.config, &call.message(), &mut room);
        state = outcome.state;
        let taken = outcome.refusal == 0 && room.starts_with(&OK.to_le_bytes());
        match call.code {
            SET_FORMAT if taken => (format, prepared) = (true, false),
            PREPARE if taken => prepared = format,
            STOP if taken => prepared = false,
            _ => {}
        }
        if state == RUNNING || state == PAUSED {
            met += prepared.then_some(1)?;
        }
    }
    Some(met)
}

/// One or two channels, format 2 and rate 7; also the bits of a format and a rate without meaning.
const BY_HAND: Config = Config { channels_min: 1, channels_max: 2, formats: 0x0104, rates: 0x4080 };
const SET_BY_HAND: [u8; 16] = [1, 0, 0, 0, 0, 0, 0, 0, 2, 0, 2, 0, 7, 0, 0xaa, 0xbb];

/// Sends a message; gives the status, the state after it and the bytes written.
fn sent(core: &impl Core, state: u32, message: &[u8]) -> (u32, u32, u32) {
    let mut room = [0xee; 265];
    let Outcome { refusal, state, written } = core.control(state, BY_HAND, message, &mut room);
    assert_eq!(refusal, 0);
    let (answer, rest) = room.split_at(written as usize);
    assert!(answer[4..].iter().all(|&byte| byte == 0) && rest.iter().all(|&byte| byte == 0xee));
    (u32::from_le_bytes([answer[0], answer[1], answer[2], answer[3]]), state, written)
}

fn life_by_hand(core: &impl Core) {
    let mut state = FRESH;
    for (code, status, next) in [
        (2, 0x8001, FRESH),
        (1, 0x8000, SET),
        (1, 0x8000, SET),
        (3, 0x8001, SET),
        (2, 0x8000, PREPARED),
        (1, 0x8000, SET),
        (2, 0x8000, PREPARED),
        (4, 0x8001, PREPARED),
        (3, 0x8000, RUNNING),
        (1, 0x8001, RUNNING),
        (5, 0x8000, PAUSED),
        (5, 0x8001, PAUSED),
        (6, 0x8000, RUNNING),
        (4, 0x8000, STOPPED),
        (3, 0x8001, STOPPED),
        (2, 0x8000, PREPARED),
        (3, 0x8000, RUNNING),
        (5, 0x8000, PAUSED),
        (4, 0x8000, STOPPED),
        (1, 0x8000, SET),
    ] {
        let plain = [code, 0, 0, 0, 0, 0, 0, 0];
        let message = if code == 1 { &SET_BY_HAND[..] } else { &plain };
        assert_eq!(sent(core, state, message), (status, next, 4), "code {code}, state {state}");
        state = next;
    }
}

fn faults_by_hand(core: &impl Core) {
    // Streams 2 and 1; 0, 3 and 258 channels; formats and rates not offered, and not defined.
    for (at, byte, status) in [
        (4, 2, 0x8001),
        (4, 1, 0x8002),
        (8, 0, 0x8001),
        (8, 3, 0x8001),
        (9, 1, 0x8001),
        (10, 3, 0x8002),
        (10, 8, 0x8002),
        (12, 6, 0x8002),
        (12, 14, 0x8002),
    ] {
        let mut message = SET_BY_HAND;
        message[at] = byte;
        assert_eq!(sent(core, FRESH, &message), (status, FRESH, 4), "{message:?}");
    }
    assert_eq!(sent(core, FRESH, &SET_BY_HAND[..15]), (0x8001, FRESH, 4));
    assert_eq!(sent(core, SET, &[2, 0, 0, 0, 0, 0, 0, 0, 0]), (0x8001, SET, 4));
    assert_eq!(sent(core, SET, &[7, 0, 0, 0, 0, 0, 0, 0]), (0x8001, SET, 4));
    // Code 0 in 8 bytes or more, of any stream, and in fewer.
    assert_eq!(sent(core, SET, &[0; 8]), (0x8002, SET, 264));
    assert_eq!(sent(core, SET, &[0, 0, 0, 0, 9, 0, 0, 0, 1]), (0x8002, SET, 264));
    assert_eq!(sent(core, SET, &[0; 7]), (0x8001, SET, 4));
    assert_eq!(sent(core, SET, &[]), (0x8001, SET, 4));
    for (refusal, state, bytes) in [(3, SET, 263), (3, 6, 263), (3, u32::MAX, 0), (2, 6, 264)] {
        let mut room = vec![0xee; bytes];
        let outcome = core.control(state, BY_HAND, &SET_BY_HAND, &mut room);
        assert_eq!(outcome, Outcome { refusal, state, written: 0 });
        assert!(room.iter().all(|&byte| byte == 0xee));
    }
}

fn variable(name: &str, default: u64) -> u64 {
    match std::env::var(name) {
        Ok(text) => text.parse().unwrap_or_else(|_| panic!("{name} is not a number: {text}")),
        Err(_) => default,
    }
}
