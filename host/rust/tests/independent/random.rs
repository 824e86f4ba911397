//! Seeded random steps, tables and rooms. The generator looks at the independent device's records
//! to aim at what is there, so that runs get to full tables, many Queued buffers, drains and
//! clears, many spent numbers, and to both sides of each edge.

use super::device::*;
use super::frames::{self, put, put_long};
use super::layout::{
    self, BLOCK, DRAIN_AT, INPUT_AT, MARKS_AT, OUTPUT_AT, SLOT, SLOTS_AT, SPENT_AT, SPENT_END,
    TAIL_AT, UNUSED_AT, WORDS,
};

/// SplitMix64: one number of state, every seed good.
#[derive(Clone, Debug)]
pub struct Rng(u64);

impl Rng {
    pub fn new(seed: u64) -> Rng {
        Rng(seed)
    }

    pub fn long(&mut self) -> u64 {
        self.0 = self.0.wrapping_add(0x9e37_79b9_7f4a_7c15);
        let mut mixed = self.0;
        mixed = (mixed ^ mixed >> 30).wrapping_mul(0xbf58_476d_1ce4_e5b9);
        mixed = (mixed ^ mixed >> 27).wrapping_mul(0x94d0_49bb_1331_11eb);
        mixed ^ mixed >> 31
    }

    pub fn word(&mut self) -> u32 {
        (self.long() >> 32) as u32
    }

    /// 0 to `bound` - 1.
    pub fn below(&mut self, bound: usize) -> usize {
        ((u128::from(self.long()) * bound as u128) >> 64) as usize
    }

    pub fn within(&mut self, from: usize, to: usize) -> usize {
        from + self.below(to - from + 1)
    }

    pub fn percent(&mut self, chance: usize) -> bool {
        self.below(100) < chance
    }

    pub fn pick<T: Copy>(&mut self, from: &[T]) -> T {
        from[self.below(from.len())]
    }

    pub fn fill(&mut self, bytes: &mut [u8]) {
        for chunk in bytes.chunks_mut(8) {
            let length = chunk.len();
            chunk.copy_from_slice(&self.long().to_le_bytes()[..length]);
        }
    }

    pub fn shuffle<T>(&mut self, items: &mut [T]) {
        for last in (1..items.len()).rev() {
            items.swap(last, self.below(last + 1));
        }
    }
}

/// Stream numbers on both sides of a spent word's ends, and some that are also something else.
const STREAMS: [u32; 16] = [0, 1, 2, 3, 5, 7, 30, 31, 32, 33, 0x100, 0x101, 511, 512, 1022, 1023];
/// Numbers that no stream can have, some of which have a low half or last bits that one can have.
const HIGH_STREAMS: [u32; 16] = [
    1024,
    1024,
    1024,
    1025,
    2047,
    2048,
    4096,
    0x0000_ffff,
    0x0001_0000,
    0x0001_0005,
    0x0001_03ff,
    0x7fff_ffff,
    0x8000_0000,
    0x8000_03ff,
    0xffff_fc00,
    0xffff_ffff,
];
/// Few numbers, so that they meet again; on both sides of the sign.
const RESOURCES: [u32; 24] = [
    0,
    1,
    2,
    3,
    4,
    5,
    6,
    7,
    8,
    9,
    10,
    15,
    16,
    17,
    0x100,
    0x101,
    0x200,
    0x1000,
    0x7fff_fffe,
    0x7fff_ffff,
    0x8000_0000,
    0x8000_0001,
    0xffff_fffe,
    0xffff_ffff,
];
/// What a word of a frame or a table may be damaged to.
pub const ODD_WORDS: [u32; 32] = [
    0,
    1,
    2,
    3,
    4,
    5,
    7,
    8,
    9,
    14,
    15,
    16,
    17,
    18,
    0xff,
    0x100,
    0x101,
    0x102,
    1023,
    1024,
    0xfff,
    0x1000,
    0x1005,
    0x1006,
    4094,
    4095,
    4097,
    4098,
    0x7fff_ffff,
    0x8000_0000,
    0xffff_fffe,
    0xffff_ffff,
];
const EXTENTS: [u32; 16] =
    [0, 2, 14, 15, 16, 17, 18, 480, 640, 4094, 4095, 4096, 4097, 4098, 0x8000_0010, 0xffff_fffe];
const BAD_QUEUE_TYPES: [u32; 10] =
    [0, 1, 0xff, 0x102, 0x103, 0x200, 0x0001_0100, 0x0100_0101, 0x8000_0100, 0xffff_ffff];
const BAD_FORMATS: [u32; 9] =
    [0, 3, 0x0fff, 0x1006, 0x1007, 0x1100, 0x0001_1000, 0x8000_1000, 0xffff_ffff];
const BAD_MEMORY_TYPES: [u32; 4] = [1, 2, 0x100, 0x8000_0000];
const UNKNOWN_TYPES: [u32; 16] = [
    0x0100,
    0x0100,
    0x00ff,
    0x010d,
    0x010e,
    0,
    1,
    0x0200,
    0x0203,
    0x0300,
    0x0304,
    0x0001_0102,
    0x0101_0105,
    0x8000_0103,
    0x0201_0000,
    0xffff_ffff,
];

/// A width or height with the names of its edges.
const EXTENT_EDGES: [(u32, &str, &str); 9] = [
    (0, "0 wide", "0 high"),
    (14, "14 wide", "14 high"),
    (15, "15 wide", "15 high"),
    (16, "16 wide", "16 high"),
    (4095, "4,095 wide", "4,095 high"),
    (4096, "4,096 wide", "4,096 high"),
    (4097, "4,097 wide", "4,097 high"),
    (4098, "4,098 wide", "4,098 high"),
    (0x8000_0010, "2^31 + 16 wide", "2^31 + 16 high"),
];

/// Word 0 of a queue in a block with the names of its edges.
const HEAD_EDGES: [(usize, &str, &str); 2] = [
    (INPUT_AT, "word 0 of an input queue 1", "word 0 of an input queue above 1"),
    (OUTPUT_AT, "word 0 of an output queue 1", "word 0 of an output queue above 1"),
];

/// The drain's word and its ticket with the names of their edges, first those of a good word.
const DRAIN_WORD_EDGES: [(u32, u32, &str); 12] = [
    (0, 0, "drain's word 0, its ticket 0"),
    (0, 1, "drain's word 0, its ticket not 0"),
    (1, 0, "drain's word 1, its ticket 0"),
    (1, u32::MAX, "drain's word 1, its ticket not 0"),
    (2, 0, "drain's word 2, its ticket 0"),
    (2, 9, "drain's word 2, its ticket not 0"),
    (3, 0, "drain's word above 2"),
    (3, 9, "drain's word above 2"),
    (0x0001_0001, 9, "drain's word above 2"),
    (0x8000_0000, 0, "drain's word above 2"),
    (0x8000_0001, 9, "drain's word above 2"),
    (u32::MAX, 9, "drain's word above 2"),
];

/// Bytes that are UTF-8 by RFC 3629: the first and last character of each length and beside the
/// surrogates, and odd ones.
const GOOD_TEXT: [&[u8]; 14] = [
    b"\x01",
    b"\x7f",
    b"\xc2\x80",
    b"\xdf\xbf",
    b"\xe0\xa0\x80",
    b"\xed\x9f\xbf",
    b"\xee\x80\x80",
    b"\xef\xbb\xbf",
    b"\xef\xbf\xbe",
    b"\xef\xbf\xbf",
    b"\xf0\x90\x80\x80",
    b"\xf3\xb0\x80\x80",
    b"\xf4\x8f\xbf\xbf",
    b"\xe4\xb8\xad",
];

/// Bytes that are not, each with its name among the edges.
pub const BAD_TEXT: [(&str, &[u8]); 22] = [
    ("tag: 80 alone", b"\x80"),
    ("tag: bf alone", b"\xbf"),
    ("tag: c0 80", b"\xc0\x80"),
    ("tag: c1 bf", b"\xc1\xbf"),
    ("tag: c2 41", b"\xc2A"),
    ("tag: c2 c0", b"\xc2\xc0"),
    ("tag: e0 80 80", b"\xe0\x80\x80"),
    ("tag: e0 9f bf", b"\xe0\x9f\xbf"),
    ("tag: e1 80 41", b"\xe1\x80A"),
    ("tag: e1 41 80", b"\xe1A\x80"),
    ("tag: ed a0 80", b"\xed\xa0\x80"),
    ("tag: ed bf bf", b"\xed\xbf\xbf"),
    ("tag: ee 80 c0", b"\xee\x80\xc0"),
    ("tag: f0 80 80 80", b"\xf0\x80\x80\x80"),
    ("tag: f0 8f bf bf", b"\xf0\x8f\xbf\xbf"),
    ("tag: f1 80 80 41", b"\xf1\x80\x80A"),
    ("tag: f1 80 c0 80", b"\xf1\x80\xc0\x80"),
    ("tag: f4 90 80 80", b"\xf4\x90\x80\x80"),
    ("tag: f5 80 80 80", b"\xf5\x80\x80\x80"),
    ("tag: f8 88 80 80 80", b"\xf8\x88\x80\x80\x80"),
    ("tag: fe", b"\xfe"),
    ("tag: ff", b"\xff"),
];

#[derive(Clone, Copy, PartialEq, Eq)]
enum Kind {
    Create,
    Destroy,
    Drain,
    Resource,
    Queue,
    DestroyAll,
    Clear,
    Get,
    Set,
    Control,
    Unknown,
    Finish,
    Drained,
}

const KINDS: [Kind; 13] = [
    Kind::Create,
    Kind::Destroy,
    Kind::Drain,
    Kind::Resource,
    Kind::Queue,
    Kind::DestroyAll,
    Kind::Clear,
    Kind::Get,
    Kind::Set,
    Kind::Control,
    Kind::Unknown,
    Kind::Finish,
    Kind::Drained,
];

/// How often each kind of step comes, by mood: filling, working, stopping, anything.
const MOODS: [[usize; 13]; 4] = [
    [14, 1, 2, 38, 36, 1, 1, 1, 3, 1, 1, 1, 1],
    [3, 1, 10, 6, 32, 2, 3, 3, 4, 1, 1, 27, 8],
    [6, 8, 12, 14, 28, 9, 14, 2, 4, 1, 1, 6, 4],
    [8, 6, 8, 8, 8, 8, 8, 8, 8, 8, 8, 8, 8],
];

/// A generator of steps, with what it has set itself to do.
pub struct Generator {
    pub rng: Rng,
    /// The edge that the last step was made for, if any.
    pub edge: Option<&'static str>,
    mood: usize,
    left: usize,
    /// Steps to come, the next one last.
    plan: Vec<Act>,
    /// Numbers to create again, since the table was made fresh after they were spent.
    forgotten: Vec<u32>,
}

impl Generator {
    pub fn new(seed: u64) -> Generator {
        let rng = Rng::new(seed);
        Generator { rng, edge: None, mood: 0, left: 0, plan: Vec::new(), forgotten: Vec::new() }
    }

    /// Forgets what was planned, since the table is another one or is made fresh. These numbers were
    /// spent before.
    pub fn start_anew(&mut self, forgotten: &Spent) {
        self.plan.clear();
        self.left = 0;
        self.forgotten = forgotten.numbers().collect();
    }

    /// Whether the next step is a part of something longer.
    pub fn has_plan(&self) -> bool {
        !self.plan.is_empty()
    }

    /// The next step for a device with these records.
    pub fn act(&mut self, device: &Device) -> Act {
        self.edge = None;
        if let Some(act) = self.plan.pop() {
            return act;
        }
        if self.left == 0 {
            self.mood = self.rng.below(MOODS.len());
            self.left = self.rng.within(10, 100);
            match self.rng.below(100) {
                0..20 => self.plan_peak(device),
                20..26 => self.plan_spending(device),
                26..34 => self.plan_late(device),
                34..74 => self.plan_drain(device),
                _ => {}
            }
        }
        self.left -= 1;
        let weights = &MOODS[self.mood];
        let mut at = self.rng.below(weights.iter().sum());
        let mut kind = 0;
        while at >= weights[kind] {
            at -= weights[kind];
            kind += 1;
        }
        match KINDS[kind] {
            Kind::Finish => self.finish(device),
            Kind::Drained => self.drained(device),
            kind => {
                let mut frame = self.frame(kind, device);
                self.damage(&mut frame);
                self.told(frame)
            }
        }
    }

    fn ticket(&mut self) -> u32 {
        if self.rng.percent(60) {
            self.rng.word()
        } else {
            self.rng.pick(&[0, 1, 2, 0x8000_0000, 0xffff_ffff])
        }
    }

    pub fn timestamp(&mut self) -> u64 {
        match self.rng.below(6) {
            0 => 0,
            1 => u64::MAX,
            2 => 1 << self.rng.below(64),
            3 => u64::from(self.rng.word()),
            _ => self.rng.long(),
        }
    }

    /// Fills bytes that the device ignores: half the time with anything.
    fn noise(&mut self, bytes: &mut [u8]) {
        if self.rng.percent(50) {
            self.rng.fill(bytes);
        }
    }

    /// A live stream, mostly.
    fn stream(&mut self, device: &Device) -> u32 {
        if self.rng.percent(92) {
            if let Some(stream) = self.live(device) {
                return stream.number;
            }
        }
        self.not_live(device)
    }

    /// A number that no live stream has, half the time that of a destroyed stream, if there is one.
    fn not_live(&mut self, device: &Device) -> u32 {
        match self.rng.below(4) {
            0 => self.high(device),
            1 => self.unspent(device),
            _ => self.destroyed(device),
        }
    }

    /// The number of a destroyed stream, if there is one.
    fn destroyed(&mut self, device: &Device) -> u32 {
        let destroyed: Vec<u32> =
            device.spent.numbers().filter(|&number| device.destroyed(number)).collect();
        if destroyed.is_empty() {
            return self.unspent(device);
        }
        self.rng.pick(&destroyed)
    }

    /// A number that is not spent; once all are, one above 1,023.
    fn unspent(&mut self, device: &Device) -> u32 {
        for _ in 0..8 {
            let number = match self.rng.below(4) {
                0 => self.rng.pick(&STREAMS),
                1 => self.live(device).map_or(1023, |stream| stream.number ^ 1),
                2 if !self.forgotten.is_empty() => self.rng.pick(&self.forgotten),
                _ => self.rng.below(NUMBERS) as u32,
            };
            if !device.spent.has(number) {
                return number;
            }
        }
        let rest = all_unspent(device);
        if rest.is_empty() {
            return self.high(device);
        }
        self.rng.pick(&rest)
    }

    /// A number above 1,023, at times one with the last bits of a live or destroyed stream's.
    fn high(&mut self, device: &Device) -> u32 {
        let above = self.rng.pick(&[1024, 1024, 2048, 0x0001_0000, 0x8000_0000]);
        match self.rng.below(5) {
            0 => above + self.live(device).map_or(0, |stream| stream.number),
            1 => above + device.spent.numbers().next().unwrap_or(0),
            2 => above + self.rng.below(NUMBERS) as u32,
            _ => self.rng.pick(&HIGH_STREAMS),
        }
    }

    fn live<'d>(&mut self, device: &'d Device) -> Option<&'d Stream> {
        let count = device.streams().count();
        if count == 0 {
            return None;
        }
        let chosen = self.rng.below(count);
        device.streams().nth(chosen)
    }

    fn queue_type(&mut self) -> u32 {
        if self.rng.percent(96) {
            self.rng.pick(&[INPUT, OUTPUT])
        } else {
            self.rng.pick(&BAD_QUEUE_TYPES)
        }
    }

    fn frame(&mut self, kind: Kind, device: &Device) -> Vec<u8> {
        match kind {
            Kind::Create => self.stream_create(device),
            Kind::Destroy => frames::frame(STREAM_DESTROY, self.stream(device), 8),
            Kind::Drain => frames::frame(STREAM_DRAIN, self.stream(device), 8),
            Kind::Resource => self.resource_create(device),
            Kind::Queue => self.resource_queue(device),
            Kind::DestroyAll => self.on_queue(RESOURCE_DESTROY_ALL, device),
            Kind::Clear => self.on_queue(QUEUE_CLEAR, device),
            Kind::Get => self.on_queue(GET_PARAMS, device),
            Kind::Set => self.set_params(device),
            Kind::Control => {
                let kind = self.rng.pick(&[QUERY_CONTROL, GET_CONTROL, SET_CONTROL]);
                let length =
                    self.rng.pick(&[16, 16, 16, 16, 16, 15, 15, 17, 17, 24, 24, 32, 8, 70_000]);
                let mut frame = frames::frame(kind, self.stream(device), length);
                self.noise(&mut frame[8..]);
                frame
            }
            _ => {
                let kind = self.rng.pick(&UNKNOWN_TYPES);
                let length = self.rng.pick(&[8, 8, 16, 24, 64, 88, 120]);
                let mut frame = frames::frame(kind, self.stream(device), length);
                self.noise(&mut frame[8..]);
                frame
            }
        }
    }

    fn stream_create(&mut self, device: &Device) -> Vec<u8> {
        let number = match self.rng.below(100) {
            0..60 => self.unspent(device),
            60..72 => self.live(device).map_or(1, |stream| stream.number),
            72..86 => self.destroyed(device),
            _ => self.high(device),
        };
        if self.rng.percent(20) {
            self.plan_again(device, number);
        }
        // Two faults at once tell the order of their tests.
        let faulty = device.spent.has(number) || number as usize >= NUMBERS;
        if self.rng.percent(if faulty { 65 } else { 35 }) {
            return self.with_one_fault(number);
        }
        let mut format = self.coded_format();
        if self.rng.percent(6) {
            format = self.rng.pick(&BAD_FORMATS);
        }
        let tag = self.tag();
        let mut frame = frames::stream_create(number, format, &tag);
        self.noise(&mut frame[20..24]);
        if self.rng.percent(3) {
            let at = self.rng.pick(&[8, 12]);
            put(&mut frame, at, self.rng.pick(&BAD_MEMORY_TYPES));
        }
        frame
    }

    /// A creation that is good but for one fault, if any, and for its number.
    fn with_one_fault(&mut self, number: u32) -> Vec<u8> {
        let mut frame = frames::stream_create(number, self.coded_format(), b"one");
        match self.rng.below(9) {
            0 => frame.push(0),
            1 => put(&mut frame, 8, self.rng.pick(&BAD_MEMORY_TYPES)),
            2 => put(&mut frame, 12, self.rng.pick(&BAD_MEMORY_TYPES)),
            3 => put(&mut frame, 16, self.rng.pick(&BAD_FORMATS)),
            4 => frame[24..].fill(b'n'),
            5 => frame[24] = 0xff,
            _ => {}
        }
        frame
    }

    /// After this creation, which may be refused, a good one of the same number and then one more;
    /// where no place is free, a stream is destroyed first.
    fn plan_again(&mut self, device: &Device, number: u32) {
        let mut frames = Vec::from_iter(self.freeing(device));
        for _ in 0..2 {
            frames.push(frames::stream_create(number, self.coded_format(), b"again"));
        }
        self.plan_frames(frames);
    }

    /// The destruction of a stream, if no place is free.
    fn freeing(&mut self, device: &Device) -> Option<Vec<u8>> {
        let full = device.places.iter().all(Option::is_some);
        let stream = self.live(device).filter(|_| full)?;
        Some(frames::frame(STREAM_DESTROY, stream.number, 8))
    }

    fn coded_format(&mut self) -> u32 {
        0x1000 + self.rng.below(6) as u32
    }

    /// A tag of 64 bytes, good more often than not.
    fn tag(&mut self) -> [u8; 64] {
        let mut tag = [0; 64];
        match self.rng.below(14) {
            0 => {
                self.edge = Some("tag empty");
                self.noise(&mut tag[1..]);
            }
            1 => {
                self.edge = Some("tag of 63 letters and a NUL");
                self.letters(&mut tag[..63]);
            }
            2 => {
                self.edge = Some("tag of 64 letters");
                self.letters(&mut tag);
            }
            3 => {
                self.edge = Some("tag with bad bytes behind its NUL");
                let end = self.rng.below(60);
                self.letters(&mut tag[..end]);
                self.rng.fill(&mut tag[end + 1..]);
                tag[63] = 0xff;
            }
            4 => {
                // A character whose end is cut by the NUL, which may be the tag's last byte.
                self.edge = Some("tag with a character cut by its NUL");
                let cut = self.rng.pick(&[
                    &b"\xc3"[..],
                    b"\xe4\xb8",
                    b"\xe4",
                    b"\xf0\x9f\x98",
                    b"\xf0\x9f",
                    b"\xf0",
                ]);
                let end = if self.rng.percent(40) { 63 - cut.len() } else { self.rng.below(60) };
                self.letters(&mut tag[..end]);
                tag[end..end + cut.len()].copy_from_slice(cut);
                if self.rng.percent(50) {
                    tag[end + cut.len() + 1..].fill(0x80);
                }
            }
            5..=8 => {
                let (edge, bad) = self.rng.pick(&BAD_TEXT);
                self.edge = Some(edge);
                let at = self.rng.below(63 - bad.len());
                self.letters(&mut tag[..at]);
                tag[at..at + bad.len()].copy_from_slice(bad);
                if self.rng.percent(50) {
                    self.letters(&mut tag[at + bad.len()..63]);
                }
            }
            9 => {
                // Anything with a NUL somewhere.
                let at = self.rng.below(64);
                self.rng.fill(&mut tag);
                tag[at] = 0;
            }
            10 | 11 => {
                self.edge = Some("tag with characters of each length");
                let mut at = 0;
                loop {
                    let text = self.rng.pick(&GOOD_TEXT);
                    if at + text.len() > 63 || self.rng.percent(4) {
                        break;
                    }
                    tag[at..at + text.len()].copy_from_slice(text);
                    at += text.len();
                }
                self.noise(&mut tag[at + 1..]);
            }
            _ => {
                let end = self.rng.below(64);
                self.letters(&mut tag[..end]);
            }
        }
        tag
    }

    fn letters(&mut self, bytes: &mut [u8]) {
        for byte in bytes {
            *byte = b'a' + self.rng.below(26) as u8;
        }
    }

    fn resource_create(&mut self, device: &Device) -> Vec<u8> {
        if self.rng.percent(2) {
            let (edge, length) = self.rng.pick(&[
                ("0x0104 of 87 bytes on a dead stream", 87),
                ("0x0104 of 88 bytes on a dead stream", 88),
                ("0x0104 of 89 bytes on a dead stream", 89),
            ]);
            self.edge = Some(edge);
            return frames::frame(RESOURCE_CREATE, self.not_live(device), length);
        }
        let number = self.stream(device);
        let queue_type = self.queue_type();
        let live = device.stream(number);
        let resource = match live {
            Some(stream) if self.rng.percent(85) => self.absent_resource(queue(stream, queue_type)),
            Some(stream) => self.present_resource(queue(stream, queue_type)),
            None => self.rng.pick(&RESOURCES),
        };
        let (counts, present) = self.entry_counts();
        let mut entries: Vec<(u64, u32)> = (0..present)
            .map(|_| {
                let length = if self.rng.percent(90) { 0x1000 } else { self.rng.word().max(1) };
                (self.rng.long() >> 1, length)
            })
            .collect();
        self.edge_entry(&mut entries);
        let mut frame = frames::resource_create(number, queue_type, resource, &counts, &entries);
        put(&mut frame, 16, if self.rng.percent(50) { 1 } else { 2 });
        if self.rng.percent(3) {
            let layout = self.rng.pick(&[0, 3, 4, 0x0001_0001, 0x8000_0002]);
            put(&mut frame, 16, layout);
        }
        self.noise(&mut frame[24..56]);
        let used = counts.len().min(8);
        self.noise(&mut frame[56 + 4 * used..88]);
        if self.rng.percent(30) {
            for entry in frame[88..].chunks_exact_mut(16) {
                self.rng.fill(&mut entry[12..]);
            }
        }
        frame
    }

    /// Entry counts of the planes and the number of entries that the frame gets.
    fn entry_counts(&mut self) -> (Vec<u32>, usize) {
        let planes = self.rng.within(1, 8);
        match self.rng.below(60) {
            0 => self.edge_counts("entry sum 256", planes, 256, 256),
            1 => self.edge_counts("entry sum 257", planes, 257, 257),
            2 => self.edge_counts("entry sum 0", planes, 0, 0),
            3 => {
                let planes = planes.max(2);
                self.edge_counts("entry sum 2^32 + 1", planes, (1 << 32) + 1, 1)
            }
            4 => {
                let planes = planes.max(2);
                let more = self.rng.within(0, 256);
                self.edge_counts(
                    "entry sum 2^32 to 2^32 + 256",
                    planes,
                    (1 << 32) + more as u64,
                    more,
                )
            }
            5 => self.edge_counts("eight planes", 8, 8, 8),
            6 => {
                // The first eight counts are right, the plane count is not.
                let planes = self.rng.within(9, 12);
                self.edge = Some("nine planes");
                (vec![1; planes], 8)
            }
            7 => {
                self.edge = Some("no plane");
                (Vec::new(), self.rng.below(2))
            }
            8 => {
                let sum = self.rng.within(1, 256);
                let present = self.rng.pick(&[sum - 1, sum + 1]);
                self.edge_counts("one entry more or less", planes, sum as u64, present)
            }
            9 => {
                let sum = self.rng.within(1, 256);
                self.edge_counts("entry sum 1 to 256", planes, sum as u64, sum)
            }
            _ => {
                let sum = self.rng.within(1, 4);
                self.spread(planes, sum as u64, sum)
            }
        }
    }

    fn edge_counts(
        &mut self,
        edge: &'static str,
        planes: usize,
        sum: u64,
        present: usize,
    ) -> (Vec<u32>, usize) {
        self.edge = Some(edge);
        self.spread(planes, sum, present)
    }

    /// Counts that add up to the sum, at random, some of them 0.
    fn spread(&mut self, planes: usize, sum: u64, present: usize) -> (Vec<u32>, usize) {
        let mut counts = vec![0; planes];
        let mut left = sum;
        while left > 0 {
            let plane = self.rng.below(planes);
            let most = left.min(u64::from(u32::MAX - counts[plane]));
            let part =
                if self.rng.percent(50) { most } else { most.min(1 + self.rng.below(100) as u64) };
            counts[plane] += part as u32;
            left -= part;
        }
        (counts, present)
    }

    /// Makes one entry end at 2^64, or one past it, or be empty.
    fn edge_entry(&mut self, entries: &mut [(u64, u32)]) {
        if entries.is_empty() || self.rng.percent(85) {
            return;
        }
        let at = self.rng.below(entries.len());
        let long = self.rng.word().max(2);
        let length = self.rng.pick(&[2, 0x1000, u32::MAX, long]);
        let top = 0u64.wrapping_sub(u64::from(length));
        let edge = match self.rng.below(5) {
            0 | 1 => {
                entries[at] = (top, length);
                "entry ending at 2^64"
            }
            2 => {
                entries[at] = (top + 1, length);
                "entry ending one past 2^64"
            }
            3 => {
                entries[at] = (u64::MAX, 1);
                "last byte of memory"
            }
            _ => {
                entries[at].1 = 0;
                "entry of length 0"
            }
        };
        self.edge = self.edge.is_none().then_some(edge);
    }

    fn absent_resource(&mut self, queue: &Queue) -> u32 {
        for _ in 0..20 {
            let number = self.rng.pick(&RESOURCES);
            if !queue.has(number) {
                return number;
            }
        }
        self.rng.word()
    }

    fn present_resource(&mut self, queue: &Queue) -> u32 {
        let numbers: Vec<u32> =
            queue.resources.iter().flatten().map(|resource| resource.number).collect();
        if numbers.is_empty() {
            return self.rng.pick(&RESOURCES);
        }
        self.rng.pick(&numbers)
    }

    fn resource_queue(&mut self, device: &Device) -> Vec<u8> {
        let number = self.stream(device);
        let queue_type = self.queue_type();
        let live = device.stream(number);
        let resource = match live {
            Some(stream) if self.rng.percent(92) => {
                self.resource_to_queue(queue(stream, queue_type))
            }
            _ => self.rng.pick(&RESOURCES),
        };
        let sizes = match self.rng.below(20) {
            0 | 1 => {
                self.edge = Some("size count 8");
                8
            }
            2 => {
                self.edge = Some("size count 9");
                9
            }
            3 => self.rng.pick(&[10, 0x100, 0x8000_0000, 0xffff_ffff]),
            _ => self.rng.below(8) as u32,
        };
        let timestamp = self.timestamp();
        let mut frame = frames::resource_queue(number, queue_type, resource, timestamp, sizes);
        self.noise(&mut frame[28..]);
        frame
    }

    /// One that is not Queued, mostly.
    fn resource_to_queue(&mut self, queue: &Queue) -> u32 {
        let idle: Vec<u32> = queue
            .resources
            .iter()
            .flatten()
            .filter(|resource| !resource.is_queued())
            .map(|resource| resource.number)
            .collect();
        if idle.is_empty() || self.rng.percent(15) {
            return self.present_resource(queue);
        }
        self.rng.pick(&idle)
    }

    fn on_queue(&mut self, kind: u32, device: &Device) -> Vec<u8> {
        let number = self.stream(device);
        let queue_type = self.queue_type();
        let live = device.stream(number);
        if let (QUEUE_CLEAR, Some(stream), Some(_)) = (kind, live, QueueType::of(queue_type)) {
            if !queue(stream, queue_type).any_queued() {
                self.edge = Some(match stream.drain {
                    None => "clear of an empty queue, no drain owed",
                    Some(_) => "clear of an empty queue, drain owed",
                });
            }
        }
        let mut frame = frames::on_queue(kind, number, queue_type);
        self.noise(&mut frame[12..]);
        frame
    }

    fn set_params(&mut self, device: &Device) -> Vec<u8> {
        let number = self.stream(device);
        let queue_type = self.queue_type();
        let live = device.stream(number);
        let coded = live.map_or(0x1000, |stream| stream.coded_format);
        let mut format = if queue_type == INPUT { coded } else { NV12 };
        if self.rng.percent(10) {
            format = self.rng.pick(&[0, 1, 2, 3, 4, coded, 0x0fff, 0x1000, 0x1001, 0x1005, 0x1006]);
        }
        let (mut width, mut height) = (self.extent(), self.extent());
        let rate = if self.rng.percent(50) { 30 } else { self.rng.word() };
        if self.rng.percent(35) {
            let (extent, wide, high) = self.rng.pick(&EXTENT_EDGES);
            if self.rng.percent(50) {
                width = extent;
                self.edge = Some(wide);
            } else {
                height = extent;
                self.edge = Some(high);
            }
        } else if self.rng.percent(10) {
            width = self.rng.pick(&EXTENTS);
            height = self.rng.pick(&EXTENTS);
        }
        let mut frame = frames::set_params(number, queue_type, format, width, height, rate);
        self.noise(&mut frame[24..48]);
        self.noise(&mut frame[52..]);
        frame
    }

    /// A good width or height.
    fn extent(&mut self) -> u32 {
        16 + 2 * self.rng.below(2041) as u32
    }

    fn finish(&mut self, device: &Device) -> Act {
        let draining: Vec<&Stream> =
            device.streams().filter(|stream| stream.drain.is_some()).collect();
        let stream = if !draining.is_empty() && self.rng.percent(50) {
            Some(self.rng.pick(&draining))
        } else {
            self.live(device)
        };
        let mut queue_type = self.queue_type();
        let (mut number, mut resource) = (self.not_live(device), self.rng.pick(&RESOURCES));
        if let Some(stream) = stream {
            if self.rng.percent(94) {
                number = stream.number;
                let queued: Vec<(u32, u32)> = [(INPUT, &stream.input), (OUTPUT, &stream.output)]
                    .into_iter()
                    .flat_map(|(of, queue)| {
                        queue.resources.iter().flatten().map(move |resource| (of, resource))
                    })
                    .filter(|(_, resource)| resource.is_queued())
                    .map(|(of, resource)| (of, resource.number))
                    .collect();
                if !queued.is_empty() && self.rng.percent(85) {
                    (queue_type, resource) = self.rng.pick(&queued);
                    if self.rng.percent(6) {
                        queue_type = INPUT + OUTPUT - queue_type;
                    }
                } else {
                    resource = self.present_resource(queue(stream, queue_type));
                }
            }
        }
        let flags = self.rng.pick(&[
            0,
            0,
            0,
            0,
            0,
            0,
            1,
            1,
            1,
            2,
            2,
            2,
            3,
            3,
            4,
            5,
            6,
            8,
            0x8000_0000,
            0x8000_0001,
            0xffff_ffff,
        ]);
        let timestamp = self.timestamp();
        Act::Finish(Report { stream: number, queue_type, resource, flags, timestamp })
    }

    /// A drained report: often for a stream whose drain it answers, or for one whose drain is owed
    /// and which is not that far.
    fn drained(&mut self, device: &Device) -> Act {
        let ready = self.rng.percent(60);
        let draining: Vec<u32> = device
            .streams()
            .filter(|stream| stream.drain.is_some() && stream.can_be_drained() == ready)
            .map(|stream| stream.number)
            .collect();
        let stream = if !draining.is_empty() && self.rng.percent(75) {
            self.rng.pick(&draining)
        } else {
            self.stream(device)
        };
        Act::Drained { stream }
    }

    /// Now and then a frame gets another length, flipped bits or an odd word.
    fn damage(&mut self, frame: &mut Vec<u8>) {
        let length = frame.len();
        match self.rng.below(100) {
            0..=2 => {
                let shorter = self.rng.pick(&[1, 1, 2, 4, 8, 16, 72]);
                frame.truncate(length.saturating_sub(shorter));
            }
            3..=5 => {
                let longer = self.rng.pick(&[1, 1, 2, 4, 8, 16, 72]);
                frame.resize(length + longer, 0);
                self.noise(&mut frame[length..]);
            }
            6 => frame.truncate(self.rng.below(length + 1)),
            7 => {
                let few = self.rng.within(0, 9);
                frame.resize(few, 0);
            }
            8..=10 => {
                for _ in 0..self.rng.within(1, 3) {
                    let bit = self.rng.below(8 * length.min(200));
                    frame[bit / 8] ^= 1 << (bit % 8);
                }
            }
            11..=13 => {
                let at = 4 * self.rng.below(length.min(200) / 4);
                let odd = self.rng.pick(&ODD_WORDS);
                if at + 4 <= length {
                    put(frame, at, odd);
                }
            }
            14 => {
                let length = self.rng.within(0, 200);
                frame.resize(length, 0);
                self.rng.fill(frame);
            }
            15 => {
                // The first entry, damaged at its edges.
                if length >= 104 {
                    let odd =
                        self.rng.pick(&[0, u64::MAX, u64::MAX - 0xfff, u64::MAX - 0x1000, 1 << 63]);
                    put_long(frame, 88, odd);
                }
            }
            _ => return,
        }
        self.edge = None;
    }

    /// Fills one stream to sixteen Queued inputs and outputs and a drain, then ends it one way or
    /// another.
    fn plan_peak(&mut self, device: &Device) {
        let mut plan = Vec::new();
        let mut add =
            |rng: &mut Rng, frame: Vec<u8>| plan.push(Act::Command { ticket: rng.word(), frame });
        let live = self.live(device).cloned();
        let stream = live.unwrap_or_else(|| {
            let number = self.unspent(device);
            add(&mut self.rng, frames::stream_create(number, 0x1002, b"peak"));
            Stream::new(number, 0x1002)
        });
        let number = stream.number;
        let mut ends = Vec::new();
        for (queue_type, queue) in [(INPUT, &stream.input), (OUTPUT, &stream.output)] {
            // Stops what is Queued, and for the input a drain.
            add(&mut self.rng, frames::on_queue(QUEUE_CLEAR, number, queue_type));
            let mut numbers: Vec<u32> =
                queue.resources.iter().flatten().map(|resource| resource.number).collect();
            let mut pool = RESOURCES;
            self.rng.shuffle(&mut pool);
            for resource in pool {
                if numbers.len() < SLOTS && !numbers.contains(&resource) {
                    numbers.push(resource);
                    add(
                        &mut self.rng,
                        frames::resource_create(number, queue_type, resource, &[1], &[(0, 1)]),
                    );
                }
            }
            // The seventeenth.
            if self.rng.percent(30) {
                add(
                    &mut self.rng,
                    frames::resource_create(number, queue_type, 0x5555_5555, &[1], &[(0, 1)]),
                );
            }
            self.rng.shuffle(&mut numbers);
            for resource in numbers {
                let timestamp = self.timestamp();
                add(
                    &mut self.rng,
                    frames::resource_queue(number, queue_type, resource, timestamp, 1),
                );
                ends.push((queue_type, resource));
            }
        }
        add(&mut self.rng, frames::frame(STREAM_DRAIN, number, 8));
        match self.rng.below(6) {
            0 | 1 => add(&mut self.rng, frames::frame(STREAM_DESTROY, number, 8)),
            2 => add(&mut self.rng, frames::on_queue(QUEUE_CLEAR, number, INPUT)),
            3 => add(&mut self.rng, frames::on_queue(QUEUE_CLEAR, number, OUTPUT)),
            4 => {
                self.rng.shuffle(&mut ends);
                // With the inputs first, EOS comes while many outputs are Queued.
                if self.rng.percent(50) {
                    ends.sort_by_key(|&(queue_type, _)| queue_type);
                }
                for (queue_type, resource) in ends {
                    let flags = if queue_type == OUTPUT { self.rng.below(4) as u32 } else { 0 };
                    let timestamp = self.timestamp();
                    plan.push(Act::Finish(Report {
                        stream: number,
                        queue_type,
                        resource,
                        flags,
                        timestamp,
                    }));
                }
                plan.push(Act::Drained { stream: number });
            }
            _ => {}
        }
        plan.reverse();
        self.plan = plan;
    }

    /// Spends many numbers, one after another, and once in a while all of them; the last few streams
    /// stay, often as many as there are places.
    fn plan_spending(&mut self, device: &Device) {
        let mut numbers = all_unspent(device);
        if self.rng.percent(50) {
            self.rng.shuffle(&mut numbers);
        }
        if self.rng.percent(98) {
            numbers.truncate(self.rng.within(5, 50));
        }
        let mut frames = Vec::from_iter(self.freeing(device));
        let stay = self.rng.below(2 * PLACES);
        for (left, &number) in (0..numbers.len()).rev().zip(&numbers) {
            frames.push(frames::stream_create(number, self.coded_format(), b""));
            if left >= stay {
                frames.push(frames::frame(STREAM_DESTROY, number, 8));
            }
        }
        self.plan_frames(frames);
    }

    /// A stream is destroyed with a buffer Queued and a drain owed, its number is asked for again,
    /// and a stream of another number takes the place with the same buffer. Then come a command and
    /// reports for the old one.
    fn plan_late(&mut self, device: &Device) {
        let old = self.unspent(device);
        let new = all_unspent(device).into_iter().rev().find(|&new| new != old).unwrap_or(0);
        let (queue_type, resource) = (self.queue_type(), self.rng.pick(&RESOURCES));
        let mut frames = Vec::from_iter(self.freeing(device));
        for number in [old, new] {
            frames.extend([
                frames::stream_create(number, 0x1001, b"late"),
                frames::resource_create(number, queue_type, resource, &[1], &[(0, 1)]),
                frames::resource_queue(number, queue_type, resource, 5, 1),
                frames::frame(STREAM_DRAIN, number, 8),
            ]);
            if number == old {
                frames.push(frames::frame(STREAM_DESTROY, old, 8));
                frames.push(frames::stream_create(old, 0x1001, b"late"));
            }
        }
        let kind = self.rng.pick(&[STREAM_DESTROY, STREAM_DRAIN]);
        frames.push(frames::frame(kind, old, 8));
        self.plan_frames(frames);
        let report = |stream, flags| {
            Act::Finish(Report { stream, queue_type, resource, flags, timestamp: 6 })
        };
        let late = report(old, self.rng.below(4) as u32);
        // Once its own buffer is finished and gone, the new stream can be drained.
        let free = self.told(frames::on_queue(RESOURCE_DESTROY_ALL, new, queue_type));
        let drained = Act::Drained { stream: old };
        self.plan.splice(0..0, [drained, free, report(new, 0), late]);
    }

    /// A stream loses its resources and gets a few others, in any state, and is drained twice. Before
    /// and amid its drains come EOS, too early and once too often, drained reports, and all else that
    /// may touch them.
    fn plan_drain(&mut self, device: &Device) {
        let live = self.live(device).map(|stream| stream.number);
        let number = live.unwrap_or_else(|| self.unspent(device));
        let mut acts = Vec::new();
        if live.is_none() {
            acts.push(self.told(frames::stream_create(number, 0x1003, b"drain")));
        }
        for kind in [QUEUE_CLEAR, RESOURCE_DESTROY_ALL] {
            for queue_type in [INPUT, OUTPUT] {
                acts.push(self.told(frames::on_queue(kind, number, queue_type)));
            }
        }
        if self.rng.percent(10) {
            acts.extend(self.input_in_last_slot(number));
        }
        for queue_type in [INPUT, OUTPUT] {
            for resource in 0..self.rng.below(3) as u32 {
                acts.extend(self.resource_in_any_state(number, queue_type, resource));
            }
        }
        if self.rng.percent(20) {
            acts.extend(self.queued_and_last(number));
        }
        for _ in 0..2 {
            acts.extend(self.drain_and_reports(number));
        }
        acts.reverse();
        self.plan = acts;
    }

    /// Fills the inputs of a stream that has none, and queues the last one.
    fn input_in_last_slot(&mut self, stream: u32) -> Vec<Act> {
        let numbers = 100..100 + SLOTS as u32;
        let queue = frames::resource_queue(stream, INPUT, numbers.end - 1, self.timestamp(), 1);
        let create = |number| frames::resource_create(stream, INPUT, number, &[1], &[(0, 1)]);
        numbers.map(create).chain([queue]).map(|frame| self.told(frame)).collect()
    }

    /// A drain of a stream of few resources, and what may end it.
    fn drain_and_reports(&mut self, stream: u32) -> Vec<Act> {
        let mut acts = vec![self.told(frames::frame(STREAM_DRAIN, stream, 8))];
        if self.rng.percent(50) {
            acts.extend(self.queued_and_last(stream));
        }
        for _ in 0..self.rng.below(8) {
            acts.push(self.amid_drain(stream));
        }
        if self.rng.percent(40) {
            acts.extend([0, 1].map(|resource| {
                let flags = self.rng.below(2) as u32;
                Act::Finish(Report { stream, queue_type: INPUT, resource, flags, timestamp: 4 })
            }));
            acts.extend(self.queued_and_last(stream));
        }
        if self.rng.percent(35) {
            acts.extend(self.other_outputs(stream));
        }
        acts.push(Act::Drained { stream });
        acts
    }

    /// Queues an output and finishes it with EOS.
    fn queued_and_last(&mut self, stream: u32) -> [Act; 2] {
        let (resource, timestamp) = (self.rng.below(2) as u32, self.timestamp());
        let flags = self.rng.pick(&[EOS, ERR + EOS]);
        [
            self.told(frames::resource_queue(stream, OUTPUT, resource, timestamp, 1)),
            Act::Finish(Report { stream, queue_type: OUTPUT, resource, flags, timestamp }),
        ]
    }

    /// Destroys all outputs, Queued ones too, and creates another or none.
    fn other_outputs(&mut self, stream: u32) -> Vec<Act> {
        let mut acts = vec![
            self.told(frames::on_queue(QUEUE_CLEAR, stream, OUTPUT)),
            self.told(frames::on_queue(RESOURCE_DESTROY_ALL, stream, OUTPUT)),
            self.told(frames::resource_create(stream, OUTPUT, 0, &[1], &[(0, 1)])),
        ];
        acts.truncate(self.rng.within(2, 3));
        acts
    }

    /// Creates a resource, then queues it, then finishes it, or less of this.
    fn resource_in_any_state(&mut self, stream: u32, queue_type: u32, resource: u32) -> Vec<Act> {
        let timestamp = self.timestamp();
        let mut acts = vec![
            self.told(frames::resource_create(stream, queue_type, resource, &[1], &[(0, 1)])),
            self.told(frames::resource_queue(stream, queue_type, resource, timestamp, 1)),
            Act::Finish(Report { stream, queue_type, resource, flags: 0, timestamp }),
        ];
        acts.truncate(self.rng.within(1, 3));
        acts
    }

    /// A step that may come while the drain of a stream of few resources is owed.
    fn amid_drain(&mut self, stream: u32) -> Act {
        let resource = self.rng.below(2) as u32;
        let either = self.rng.pick(&[INPUT, OUTPUT]);
        let timestamp = self.timestamp();
        let frame = match self.rng.below(20) {
            0..8 => {
                let queue_type = self.rng.pick(&[INPUT, OUTPUT, OUTPUT, OUTPUT]);
                let flags = self.rng.pick(&[0, 0, 1, 2, 2, 2, 3, 3, 6]);
                return Act::Finish(Report { stream, queue_type, resource, flags, timestamp });
            }
            8..11 => return Act::Drained { stream },
            11..14 => frames::resource_queue(stream, OUTPUT, resource, timestamp, 1),
            14 => frames::resource_queue(stream, INPUT, resource, timestamp, 1),
            15 => frames::resource_create(stream, either, resource, &[1], &[(0, 1)]),
            16 => frames::on_queue(RESOURCE_DESTROY_ALL, stream, either),
            17 => frames::on_queue(QUEUE_CLEAR, stream, either),
            18 => frames::set_params(stream, OUTPUT, NV12, 64, 64, 0),
            _ => frames::frame(STREAM_DRAIN, stream, 8),
        };
        self.told(frame)
    }

    /// A command with a ticket of its own.
    fn told(&mut self, frame: Vec<u8>) -> Act {
        Act::Command { ticket: self.ticket(), frame }
    }

    /// Plans commands, the first of which comes next.
    fn plan_frames(&mut self, frames: Vec<Vec<u8>>) {
        for frame in frames.into_iter().rev() {
            let act = self.told(frame);
            self.plan.push(act);
        }
    }

    /// Records of a table to lend: any that are valid, with holes and numbers in no order.
    pub fn lent(&mut self) -> Device {
        if self.rng.percent(12) {
            return full(Some);
        }
        let mut device = Device::default();
        let streams = self.rng.pick(&[10, 40, 70, 100]);
        let resources = self.rng.pick(&[0, 10, 50, 90, 100]);
        let queued = self.rng.pick(&[0, 30, 60, 100]);
        let spent = self.rng.pick(&[0, 0, 0, 1, 1, 10, 10, 50, 90, 99, 100]);
        device.spent.extend(numbers().filter(|_| self.rng.percent(spent)));
        let chosen = self.distinct(&STREAMS, NUMBERS);
        for (place, number) in device.places.iter_mut().zip(chosen) {
            if self.rng.percent(streams) {
                device.spent.add(number);
                let coded_format = self.coded_format();
                let mut stream = Stream::new(number, coded_format);
                stream.drain = self.rng.percent(50).then(|| self.ticket());
                for queue_type in [QueueType::Input, QueueType::Output] {
                    *stream.queue(queue_type) =
                        self.lent_queue(queue_type, coded_format, resources, queued);
                }
                if self.rng.percent(20) {
                    self.output_in_last_slot(&mut stream, queued);
                }
                *place = Some(stream);
            }
        }
        device
    }

    /// Leaves a stream one output, in the last slot, and a drain that waits for nothing else.
    fn output_in_last_slot(&mut self, stream: &mut Stream, queued: usize) {
        stream.drain = Some(self.ticket());
        for input in stream.input.resources.iter_mut().flatten() {
            input.state = self.lent_state(0);
        }
        let (number, state) = (self.rng.pick(&RESOURCES), self.lent_state(queued));
        stream.output.resources = [None; SLOTS];
        stream.output.resources[SLOTS - 1] = Some(Resource { number, state });
    }

    /// The state of a resource, Queued with this chance.
    fn lent_state(&mut self, queued: usize) -> State {
        if self.rng.percent(queued) {
            State::Queued { ticket: self.ticket(), timestamp: self.timestamp() }
        } else {
            self.rng.pick(&[State::Created, State::Dequeued])
        }
    }

    fn lent_queue(
        &mut self,
        queue_type: QueueType,
        coded_format: u32,
        resources: usize,
        queued: usize,
    ) -> Queue {
        let (width, height) = (self.extent(), self.extent());
        let rate = self.rng.word();
        let numbers = self.distinct(&RESOURCES, 1 << 32);
        let mut queue = Queue {
            parameters: Parameters::left_by_set(queue_type, coded_format, width, height, rate),
            resources: [None; SLOTS],
        };
        for (slot, number) in queue.resources.iter_mut().zip(numbers) {
            if self.rng.percent(resources) {
                *slot = Some(Resource { number, state: self.lent_state(queued) });
            }
        }
        queue
    }

    /// Distinct numbers below a bound in any order, mostly from the pool.
    fn distinct(&mut self, pool: &[u32], bound: usize) -> Vec<u32> {
        let mut numbers = pool.to_vec();
        for _ in 0..self.rng.below(8) {
            let number = self.rng.below(bound) as u32;
            if !numbers.contains(&number) {
                numbers.push(number);
            }
        }
        self.rng.shuffle(&mut numbers);
        numbers
    }

    /// A table of these records with some words behind the first 4,160, at times.
    pub fn table(&mut self, device: &Device) -> Vec<u32> {
        let mut table = self.garbage_table(true);
        layout::write(device, &mut table[..WORDS]);
        table
    }

    /// Words of any values; under 4,160 of them only where `enough` is false.
    pub fn garbage_table(&mut self, enough: bool) -> Vec<u32> {
        let length = match self.rng.below(6) {
            _ if !enough => self.short_length(),
            0 => WORDS + 1,
            1 => WORDS + 512,
            2 => self.rng.within(WORDS, WORDS + 600),
            _ => WORDS,
        };
        (0..length).map(|_| self.rng.word()).collect()
    }

    /// So many words are not enough for a table.
    pub fn short_length(&mut self) -> usize {
        let edge = self.rng.pick(&[SPENT_AT - 1, SPENT_AT, WORDS - 1]);
        let other = self.rng.pick(&[0, 1, 512, SPENT_END, MARKS_AT, UNUSED_AT]);
        let any = self.rng.below(WORDS);
        self.rng.pick(&[edge, edge, edge, other, any])
    }

    /// Changes a table; it may still be valid then. Gives the edge, if it is one.
    pub fn spoil(&mut self, table: &mut [u32]) -> Option<&'static str> {
        if self.rng.percent(45) {
            return self.spoil_behind(table);
        }
        let edge = self.spoil_word(table);
        // Mostly the figures of pending answers follow, so that nothing else is wrong.
        if self.rng.percent(85) {
            layout::settle(table);
        }
        edge
    }

    /// Changes a word of the blocks or of the spent numbers, with what belongs to it.
    fn spoil_word(&mut self, table: &mut [u32]) -> Option<&'static str> {
        let block = BLOCK * self.rng.below(PLACES);
        let queue = block + self.rng.pick(&[INPUT_AT, OUTPUT_AT]);
        let slot = |rng: &mut Rng| queue + SLOTS_AT + SLOT * rng.below(SLOTS);
        let odd = self.rng.pick(&ODD_WORDS);
        match self.rng.below(18) {
            0 => table[self.rng.below(SPENT_END)] = odd,
            1 => table[self.rng.below(SPENT_END)] ^= 1 << self.rng.below(32),
            2 => table[block + self.rng.below(INPUT_AT)] = odd,
            3 => table[queue + self.rng.below(SLOTS_AT)] = odd,
            4 => table[slot(&mut self.rng) + self.rng.below(SLOT)] = odd,
            5 => {
                let from = slot(&mut self.rng) + 1;
                table[slot(&mut self.rng) + 1] = table[from];
            }
            6 => table[BLOCK * self.rng.below(PLACES) + 1] = table[block + 1],
            7 => table[block + self.rng.within(TAIL_AT, BLOCK - 1)] = odd,
            8 => table[self.rng.within(SPENT_AT, SPENT_END - 1)] = self.rng.word(),
            9 | 10 => return self.spoil_number(table),
            11 | 12 => return self.spoil_head(table),
            _ => return self.spoil_drain(table),
        }
        None
    }

    /// Makes the number of a live stream one that is not spent: its bit is dropped, or it becomes a
    /// number above 1,023. Or it becomes any other.
    fn spoil_number(&mut self, table: &mut [u32]) -> Option<&'static str> {
        let block = self.live_block(table)?;
        let number = table[block + 1];
        let (changed, edge) = match self.rng.below(6) {
            0 | 1 => {
                let (at, bit) = Spent::bit_of(number);
                table[SPENT_AT + at] &= !(1 << bit);
                (number, "live number not spent")
            }
            2 => (1024, "live number 1,024"),
            3 => (number + 1024, "live number 1,024 above a spent one"),
            4 => (number + (1 << 31), "live number of 2^31 or more"),
            _ => {
                table[block + 1] = self.rng.below(NUMBERS) as u32;
                return None;
            }
        };
        table[block + 1] = changed;
        Some(edge)
    }

    /// Where the block of a live stream starts, if there is one.
    fn live_block(&mut self, table: &[u32]) -> Option<usize> {
        let blocks = (0..SPENT_AT).step_by(BLOCK);
        let live: Vec<usize> = blocks.filter(|&block| table[block] == 1).collect();
        (!live.is_empty()).then(|| self.rng.pick(&live))
    }

    /// Changes word 0 of a queue of a live stream, if there is one.
    fn spoil_head(&mut self, table: &mut [u32]) -> Option<&'static str> {
        let block = self.live_block(table)?;
        let (head, one, above) = self.rng.pick(&HEAD_EDGES);
        if self.rng.percent(50) {
            table[block + head] = 1;
            return Some(one);
        }
        table[block + head] = self.rng.pick(&[2, 3, 0x100, 0x0001_0000, 0x8000_0000, 0xffff_ffff]);
        Some(above)
    }

    /// Changes the drain of a live stream, if there is one: its word and its ticket.
    fn spoil_drain(&mut self, table: &mut [u32]) -> Option<&'static str> {
        let block = self.live_block(table)?;
        let (good, bad) = DRAIN_WORD_EDGES.split_at(4);
        let edges = if self.rng.percent(60) { good } else { bad };
        let (word, ticket, edge) = self.rng.pick(edges);
        table[block + DRAIN_AT] = word;
        table[block + DRAIN_AT + 1] = ticket;
        Some(edge)
    }

    /// The length of an answer room: mostly enough.
    pub fn room(&mut self, short: bool) -> usize {
        if short {
            self.rng.pick(&[ROOM - 1, ROOM - 1, 0, 1, 16, 128, 1024])
        } else {
            self.rng.pick(&[ROOM, ROOM, ROOM, ROOM + 1, 2000])
        }
    }
}

/// Records with every place taken and every resource Queued, and these drains by stream number.
pub fn full(drain: impl Fn(u32) -> Option<u32>) -> Device {
    let mut full = Device::default();
    for (number, place) in numbers().rev().zip(&mut full.places) {
        full.spent.add(number);
        let mut stream = Stream::new(number, 0x1003);
        stream.drain = drain(number);
        for queue in [&mut stream.input, &mut stream.output] {
            for (number, slot) in queue.resources.iter_mut().enumerate() {
                let state = State::Queued { ticket: 8, timestamp: u64::MAX };
                *slot = Some(Resource { number: number as u32, state });
            }
        }
        *place = Some(stream);
    }
    full
}

/// The numbers that are not spent, in ascending order.
fn all_unspent(device: &Device) -> Vec<u32> {
    numbers().filter(|&number| !device.spent.has(number)).collect()
}

/// The queue that a number names; any number but the input's is taken for the output here.
pub fn queue(stream: &Stream, queue_type: u32) -> &Queue {
    if queue_type == INPUT {
        &stream.input
    } else {
        &stream.output
    }
}
