//! The edges and examples of document 01, as 02 amends it, with the answers that they give, written
//! out by hand. They hold the independent device to the papers, and the system under test too.

mod independent;

use independent::device::*;
use independent::frames::*;
use independent::layout::{BLOCK, INPUT_AT, OUTPUT_AT, SPENT_AT, WORDS};
use independent::on_words::{Core, OnWords, Outcome};
use independent::pending::Pending;
use independent::UnderTest;

const MPEG2: u32 = 0x1000;
const H264: u32 = 0x1002;

/// A host with one table.
struct Host<C> {
    core: C,
    table: Vec<u32>,
}

/// Answers as (ticket, words of the response), or the refusal.
type Answered = Result<Vec<(u32, Vec<u32>)>, u32>;

impl<C: Core + Default> Host<C> {
    fn new() -> Host<C> {
        let core = C::default();
        let mut table = vec![0x5a5a_5a5a; WORDS + 1];
        assert_eq!(core.fresh(&mut table), 0);
        assert!(table[..WORDS].iter().all(|&word| word == 0));
        assert_eq!(table[WORDS], 0x5a5a_5a5a);
        Host { core, table }
    }

    /// A host with stream 7 live.
    fn with_stream() -> Host<C> {
        let mut host = Host::new();
        assert_eq!(host.command(1, &stream_create(7, H264, b"seven")), ok(1, 7));
        host
    }

    fn step(&mut self, act: &Act) -> Answered {
        let mut room = [0xee; ROOM];
        let outcome = self.core.step(&mut self.table, act, &mut room);
        answered(outcome, &room)
    }

    fn command(&mut self, ticket: u32, frame: &[u8]) -> Answered {
        self.step(&Act::Command { ticket, frame: frame.to_vec() })
    }

    fn finish(
        &mut self,
        stream: u32,
        queue_type: u32,
        resource: u32,
        flags: u32,
        timestamp: u64,
    ) -> Answered {
        self.step(&Act::Finish(Report { stream, queue_type, resource, flags, timestamp }))
    }

    fn drained(&mut self, stream: u32) -> Answered {
        self.step(&Act::Drained { stream })
    }

    /// Creates a resource of stream 7.
    fn resource(&mut self, queue_type: u32, resource: u32) {
        let frame = resource_create(7, queue_type, resource, &[1], &[(0, 1)]);
        assert_eq!(self.command(1, &frame), ok(1, 7));
    }

    /// Queues a resource of stream 7.
    fn queue(&mut self, ticket: u32, queue_type: u32, resource: u32, timestamp: u64) {
        let frame = resource_queue(7, queue_type, resource, timestamp, 1);
        assert_eq!(self.command(ticket, &frame), Ok(vec![]));
    }

    fn drain(&mut self, ticket: u32) {
        assert_eq!(self.command(ticket, &frame(STREAM_DRAIN, 7, 8)), Ok(vec![]));
    }

    /// Queues an output of stream 7 and finishes it with these flags: EOS ends the drain of this
    /// ticket, and other flags leave it pending.
    fn finish_output(&mut self, resource: u32, flags: u32, drain: u32) {
        self.queue(20, OUTPUT, resource, 5);
        let (answers, left) = match flags {
            0 | 1 => (Ok(vec![buffer(20, 7, 6, flags)]), [1, drain]),
            _ => (last(20, 6, flags, drain), [0, 0]),
        };
        assert_eq!(self.finish(7, OUTPUT, resource, flags, 6), answers);
        assert_eq!(self.drain_words(), left);
    }

    /// A finish of stream 7 is refused so, and changes nothing.
    fn not_finished(&mut self, queue_type: u32, resource: u32, flags: u32, refusal: u32) {
        let before = self.table.clone();
        assert_eq!(self.finish(7, queue_type, resource, flags, 6), Err(refusal));
        assert_eq!(self.table, before);
    }

    /// A drained report of stream 7 is refused, and changes nothing.
    fn not_drained(&mut self) {
        let before = self.table.clone();
        assert_eq!(self.drained(7), Err(5));
        assert_eq!(self.table, before);
    }

    /// Frees all resources of a queue of stream 7, none of which is Queued.
    fn destroy_all(&mut self, queue_type: u32) {
        let free = on_queue(RESOURCE_DESTROY_ALL, 7, queue_type);
        assert_eq!(self.command(1, &free), ok(1, 7));
    }

    /// Clears a queue of stream 7 that has no Queued buffer, which answers the drain of this ticket.
    fn clear(&mut self, queue_type: u32, drain: Option<u32>) {
        let answers = drain.into_iter().chain([3]).map(|ticket| (ticket, vec![0x0200, 7]));
        let clear = on_queue(QUEUE_CLEAR, 7, queue_type);
        assert_eq!(self.command(3, &clear), Ok(answers.collect()));
    }

    /// The drain's word and its ticket, of stream 7 in the first place.
    fn drain_words(&self) -> [u32; 2] {
        [self.table[3], self.table[4]]
    }

    /// Creates streams, which is to succeed.
    fn create(&mut self, numbers: impl IntoIterator<Item = u32>) {
        for number in numbers {
            assert_eq!(self.command(1, &stream_create(number, MPEG2, b"")), ok(1, number));
        }
    }

    /// Destroys a stream that has nothing to answer.
    fn destroy(&mut self, number: u32) {
        assert_eq!(self.command(1, &frame(STREAM_DESTROY, number, 8)), ok(1, number));
    }

    /// The words behind the blocks: those of the spent numbers, the figures of pending answers from the
    /// 33rd on, and those without use.
    fn behind(&self) -> &[u32] {
        &self.table[4096..4160]
    }

    /// Puts into the table that so many answers are pending, all to the stream in the first place.
    fn put_pending(&mut self, figure: u32) {
        self.table[4129] = figure;
        self.table[4138] = figure;
    }

    /// Puts another number into the record of the stream in the first place, with its mark.
    fn put_number(&mut self, number: u32) {
        self.table[1] = number;
        self.table[4130] = number.wrapping_add(1);
    }

    /// What is said of all pending answers, as refusal, figure and words read. The table stays.
    fn in_all(&self) -> [u32; 3] {
        let before = self.table.clone();
        let said = numbers_of(self.core.pending_in_all(&self.table));
        assert_eq!(self.table, before);
        said
    }

    /// The same of those to a stream.
    fn of_stream(&self, stream: u32) -> [u32; 3] {
        let before = self.table.clone();
        let said = numbers_of(self.core.pending_of_stream(&self.table, stream));
        assert_eq!(self.table, before);
        said
    }

    /// So many answers are pending in all, and so many to stream 7 in the first place.
    fn owes(&self, total: u32, figure: u32) {
        assert_eq!(self.in_all(), [0, total, 1]);
        assert_eq!(self.of_stream(7), [0, figure, 2]);
        assert_eq!([self.table[4129], self.table[4130], self.table[4138]], [total, 8, figure]);
    }

    /// Nothing is pending to these numbers, which are those of no stream.
    fn unknown(&self, numbers: &[u32]) {
        for &number in numbers {
            assert_eq!(self.of_stream(number), [0, 0, 8], "{number}");
        }
    }

    /// Creates resources of any stream, so many in a queue, and queues them.
    fn fill(&mut self, stream: u32, queue_type: u32, count: u32) {
        for number in 0..count {
            let import = resource_create(stream, queue_type, number, &[1], &[(0, 1)]);
            assert_eq!(self.command(1, &import), ok(1, stream));
            let queue = resource_queue(stream, queue_type, number, 5, 0);
            assert_eq!(self.command(number, &queue), Ok(vec![]));
        }
    }

    /// The step is refused with 2 and changes nothing while word 0 of a queue of stream 7, in the
    /// first place, is not zero.
    fn not_taken_with_heads(&mut self, act: &Act) {
        for head in [INPUT_AT, OUTPUT_AT] {
            for value in [1, 2, u32::MAX] {
                self.table[head] = value;
                let before = self.table.clone();
                assert_eq!(self.step(act), Err(2));
                assert_eq!(self.table, before);
            }
            self.table[head] = 0;
        }
    }

    /// One step of each kind is refused with 2 and changes nothing.
    fn invalid(&mut self) {
        let before = self.table.clone();
        assert_eq!(self.command(1, &frame(QUERY_CONTROL, 7, 16)), Err(2));
        assert_eq!(self.finish(7, INPUT, 1, 0, 0), Err(2));
        assert_eq!(self.drained(7), Err(2));
        assert_eq!(self.table, before);
    }

    /// One step of each kind is tested further, on a device without stream 7 or with nothing of it
    /// pending.
    fn valid(&mut self) {
        let before = self.table.clone();
        assert!(self.command(1, &frame(QUERY_CONTROL, 7, 16)).is_ok());
        assert_eq!(self.finish(7, INPUT, 1, 0, 0), Err(5));
        assert_eq!(self.drained(7), Err(5));
        assert_eq!(self.table, before);
    }

    /// Every step of stream 7, which is destroyed, comes late: it is answered so, and changes nothing.
    fn late(&mut self) {
        let before = self.table.clone();
        for queue_type in [INPUT, OUTPUT] {
            for (flags, refusal) in [(0, 5), (1, 5), (2, 5), (3, 5), (4, 6), (u32::MAX, 6)] {
                assert_eq!(self.finish(7, queue_type, 1, flags, 9), Err(refusal));
            }
        }
        assert_eq!(self.drained(7), Err(5));
        for command in [
            frame(STREAM_DESTROY, 7, 8),
            frame(STREAM_DRAIN, 7, 8),
            resource_create(7, INPUT, 1, &[1], &[(0, 1)]),
            resource_queue(7, INPUT, 1, 0, 0),
            on_queue(RESOURCE_DESTROY_ALL, 7, INPUT),
            on_queue(QUEUE_CLEAR, 7, OUTPUT),
            on_queue(GET_PARAMS, 7, OUTPUT),
            set_params(7, OUTPUT, 3, 64, 64, 0),
            frame(QUERY_CONTROL, 7, 16),
            frame(GET_CONTROL, 7, 16),
            frame(SET_CONTROL, 7, 16),
            stream_create(7, H264, b"seven"),
        ] {
            assert_eq!(self.command(2, &command), error(2, 0x0302, 7));
        }
        assert_eq!(self.table, before);
    }
}

/// Creations of a number with one fault each, of length, memory types, format and tag.
fn bad_creations(number: u32) -> Vec<Vec<u8>> {
    let good = stream_create(number, MPEG2, b"");
    let with = |at, word| {
        let mut other = good.clone();
        put(&mut other, at, word);
        other
    };
    vec![
        good[..8].to_vec(),
        good[..87].to_vec(),
        [&good[..], &[0]].concat(),
        with(8, 1),
        with(12, 1),
        with(16, 0x0fff),
        with(16, 0x1006),
        stream_create(number, MPEG2, &[b'x'; 64]),
        stream_create(number, MPEG2, b"\xc3"),
    ]
}

fn answered(outcome: Outcome, room: &[u8]) -> Answered {
    let (written, rest) = room.split_at(outcome.written as usize);
    assert!(rest.iter().all(|&byte| byte == 0xee));
    if outcome.refusal != 0 {
        assert_eq!(outcome.written, 0);
        return Err(outcome.refusal);
    }
    let words: Vec<u32> = written
        .chunks(4)
        .map(|bytes| u32::from_le_bytes(bytes.try_into().expect("whole words")))
        .collect();
    let mut answers = Vec::new();
    let mut rest = &words[..];
    while let [ticket, count, more @ ..] = rest {
        let (response, more) = more.split_at(*count as usize / 4);
        answers.push((*ticket, response.to_vec()));
        rest = more;
    }
    Ok(answers)
}

fn numbers_of(said: Pending) -> [u32; 3] {
    [said.refusal, said.pending, said.words_read]
}

fn ok(ticket: u32, stream: u32) -> Answered {
    Ok(vec![(ticket, vec![0x0200, stream])])
}

fn error(ticket: u32, code: u32, stream: u32) -> Answered {
    Ok(vec![(ticket, vec![code, stream])])
}

/// The 112 bytes of parameters, the rest of them zero.
fn parameters(ticket: u32, stream: u32, first: &[u32]) -> Answered {
    let mut response = vec![0x0203, stream];
    response.extend_from_slice(first);
    response.resize(30, 0);
    Ok(vec![(ticket, response)])
}

/// The drain's ticket in each of the first four places, or 0.
fn drains_of_each(table: &[u32]) -> [u32; 4] {
    [0, 1, 2, 3].map(|place| table[BLOCK * place + 3] * table[BLOCK * place + 4])
}

/// The stream number in a frame.
fn stream_of(frame: &[u8]) -> u32 {
    u32::from_le_bytes(frame[4..8].try_into().expect("a header"))
}

fn buffer(ticket: u32, stream: u32, timestamp: u64, flags: u32) -> (u32, Vec<u32>) {
    (ticket, vec![0x0202, stream, timestamp as u32, (timestamp >> 32) as u32, flags, 0])
}

/// The answers to a finish of an output of stream 7 with EOS: the buffer's, then the drain's.
fn last(ticket: u32, timestamp: u64, flags: u32, drain: u32) -> Answered {
    Ok(vec![buffer(ticket, 7, timestamp, flags), (drain, vec![0x0200, 7])])
}

/// Makes a test of a case for the independent device and for the system under test.
macro_rules! cases {
    ($($(#[$text:meta])* fn $name:ident($host:ident: $start:ident) $body:block)*) => {$(
        $(#[$text])*
        #[test]
        fn $name() {
            fn case<C: Core + Default>() {
                #[allow(unused_mut)]
                let mut $host = Host::<C>::$start();
                $body
            }
            case::<OnWords>();
            case::<UnderTest>();
        }
    )*};
}

cases! {
    /// The three lines of the log, but the empty one.
    fn example_of_the_log(host: new) {
        let frame = [3, 1, 0, 0, 7, 0, 0, 0];
        assert_eq!(host.command(5, &frame), error(5, 0x0302, 7));
        assert_eq!(host.drained(7), Err(5));
    }

    fn command_of_7_bytes_and_8(host: with_stream) {
        assert_eq!(host.command(5, &[3, 1, 0, 0, 7, 0, 0]), Err(4));
        assert_eq!(host.command(5, &[]), Err(4));
        assert_eq!(host.command(5, &[3, 1, 0, 0, 7, 0, 0, 0]), Ok(vec![]));
    }

    fn type_then_length_then_live(host: with_stream) {
        assert_eq!(host.command(2, &frame(0x0100, 7, 8)), error(2, 0x0300, 7));
        assert_eq!(host.command(2, &frame(0x010d, 9, 9)), error(2, 0x0300, 9));
        assert_eq!(host.command(2, &frame(0x0001_0102, 7, 8)), error(2, 0x0300, 7));
        assert_eq!(host.command(2, &frame(STREAM_DRAIN, 9, 9)), error(2, 0x0304, 9));
        assert_eq!(host.command(2, &frame(STREAM_DRAIN, 9, 8)), error(2, 0x0302, 9));
        assert_eq!(host.command(2, &frame(RESOURCE_CREATE, 9, 87)), error(2, 0x0304, 9));
        assert_eq!(host.command(2, &frame(RESOURCE_CREATE, 9, 89)), error(2, 0x0302, 9));
        assert_eq!(host.command(2, &stream_create(7, 0, &[0xff; 64])), error(2, 0x0302, 7));
    }

    /// Each command one byte short, one byte long, and of its length.
    fn length_of_each_command(host: with_stream) {
        host.resource(INPUT, 1);
        let output = [0x101, 3, 640, 480, 1, 16, 0, 0, 640, 480, 0, 2, 307_200, 640, 153_600, 640];
        let entries = [(0, 1); 2];
        for (good, answer) in [
            (stream_create(2, MPEG2, b""), ok(3, 2)),
            (frame(STREAM_DESTROY, 2, 8), ok(3, 2)),
            (frame(STREAM_DRAIN, 7, 8), Ok(vec![])),
            (resource_create(7, OUTPUT, 1, &[1], &entries[..1]), ok(3, 7)),
            (resource_create(7, OUTPUT, 2, &[2], &entries), ok(3, 7)),
            (resource_queue(7, OUTPUT, 1, 0, 0), Ok(vec![])),
            (on_queue(RESOURCE_DESTROY_ALL, 7, INPUT), ok(3, 7)),
            (on_queue(QUEUE_CLEAR, 7, OUTPUT), Ok(vec![buffer(3, 7, 0, 1), (3, vec![0x0200, 7])])),
            (on_queue(GET_PARAMS, 7, OUTPUT), parameters(3, 7, &output)),
            (set_params(7, OUTPUT, 3, 640, 480, 0), ok(3, 7)),
            (frame(QUERY_CONTROL, 7, 16), error(3, 0x0305, 7)),
            (frame(GET_CONTROL, 7, 16), error(3, 0x0305, 7)),
        ] {
            let wrong = error(3, 0x0304, stream_of(&good));
            let short = &good[..good.len() - 1];
            let refused = if short.len() < 8 { Err(4) } else { wrong.clone() };
            assert_eq!(host.command(3, short), refused);
            assert_eq!(host.command(3, &[&good[..], &[0]].concat()), wrong);
            assert_eq!(host.command(3, &good), answer);
        }
        for (length, code) in [(15, 0x0304), (16, 0x0305), (17, 0x0305)] {
            assert_eq!(host.command(3, &frame(SET_CONTROL, 7, length)), error(3, code, 7));
        }
    }

    /// A good frame is bad where the highest byte of a field is another.
    fn fields_are_read_whole(host: with_stream) {
        host.resource(INPUT, 9);
        let create = stream_create(1, MPEG2, b"");
        let resource = resource_create(7, INPUT, 1, &[1], &[(0, 1)]);
        let queue = resource_queue(7, INPUT, 9, 0, 8);
        let set = set_params(7, OUTPUT, 3, 16, 16, 0);
        for (good, fields, answer) in [
            (
                create,
                &[(0, 0x0300), (4, 0x0302), (8, 0x0304), (12, 0x0304), (16, 0x0304)][..],
                ok(3, 1),
            ),
            (resource, &[(4, 0x0302), (8, 0x0304), (16, 0x0304), (20, 0x0304), (56, 0x0304)], ok(3, 7)),
            (queue, &[(4, 0x0302), (8, 0x0304), (12, 0x0303), (24, 0x0304)], Ok(vec![])),
            (set, &[(4, 0x0302), (8, 0x0304), (12, 0x0304), (16, 0x0304), (20, 0x0304)], ok(3, 7)),
        ] {
            for &(at, code) in fields {
                let mut other = good.clone();
                other[at + 3] = 1;
                assert_eq!(host.command(3, &other), error(3, code, stream_of(&other)));
            }
            assert_eq!(host.command(3, &good), answer);
        }
    }

    /// Padding, plane offsets, counts behind the planes, sizes, and what a set derives may be anything.
    fn fields_not_looked_at(host: new) {
        let output = [0x101, 3, 18, 4094, 1, 16, 0, 0, 18, 4094, 5, 2, 73_692, 18, 36_846, 18];
        for (good, ignored, answer) in [
            (stream_create(7, H264, b""), &[20..24, 25..88][..], ok(3, 7)),
            (resource_create(7, INPUT, 1, &[1], &[(0, 1)]), &[24..56, 60..88, 100..104], ok(3, 7)),
            (resource_queue(7, INPUT, 1, 0, 0), &[28..64], Ok(vec![])),
            (on_queue(RESOURCE_DESTROY_ALL, 7, OUTPUT), &[12..16], ok(3, 7)),
            (on_queue(QUEUE_CLEAR, 7, OUTPUT), &[12..16], ok(3, 7)),
            (set_params(7, OUTPUT, 3, 18, 4094, 5), &[24..48, 52..120], ok(3, 7)),
            (on_queue(GET_PARAMS, 7, OUTPUT), &[12..16], parameters(3, 7, &output)),
        ] {
            let mut filled = good;
            for part in ignored {
                filled[part.clone()].fill(0xff);
            }
            assert_eq!(host.command(3, &filled), answer);
        }
    }

    /// 0 is a stream, a resource, a ticket and a timestamp like any other.
    fn zero_is_a_number(host: new) {
        assert_eq!(host.command(0, &stream_create(0, MPEG2, b"")), ok(0, 0));
        assert_eq!(host.command(0, &resource_create(0, INPUT, 0, &[1], &[(0, 1)])), ok(0, 0));
        let queue = resource_queue(0, INPUT, 0, 0, 0);
        assert_eq!(host.command(0, &queue), Ok(vec![]));
        assert_eq!(host.command(1, &queue), error(1, 0x0300, 0));
        assert_eq!(host.command(0, &frame(STREAM_DRAIN, 0, 8)), Ok(vec![]));
        assert_eq!(host.command(1, &frame(STREAM_DRAIN, 0, 8)), error(1, 0x0300, 0));
        assert_eq!(host.finish(0, INPUT, 0, 0, 9), Ok(vec![buffer(0, 0, 0, 0)]));
        assert_eq!(host.drained(0), ok(0, 0));
        assert_eq!(host.drained(0), Err(5));
    }

    fn ninth_stream(host: with_stream) {
        for number in 0..7 {
            assert_eq!(host.command(9, &stream_create(number, MPEG2, b"")), ok(9, number));
        }
        assert_eq!(host.command(9, &stream_create(8, MPEG2, b"")), error(9, 0x0301, 8));
        assert_eq!(host.command(9, &stream_create(8, 0x1006, b"")), error(9, 0x0304, 8));
        assert_eq!(host.command(9, &stream_create(6, 0x1006, b"")), error(9, 0x0302, 6));
        // A freed place is taken again: stream 2 stood behind 7, 0 and 1.
        assert_eq!(host.command(9, &frame(STREAM_DESTROY, 2, 8)), ok(9, 2));
        assert_eq!(host.command(9, &stream_create(8, MPEG2, b"")), ok(9, 8));
        assert_eq!(host.table[3 * BLOCK + 1], 8);
    }

    fn seventeenth_input(host: with_stream) {
        for number in 0..16 {
            host.resource(INPUT, number);
        }
        let seventeenth = resource_create(7, INPUT, 16, &[1], &[(0, 1)]);
        assert_eq!(host.command(3, &seventeenth), error(3, 0x0301, 7));
        let present = resource_create(7, INPUT, 15, &[1], &[(0, 1)]);
        assert_eq!(host.command(3, &present), error(3, 0x0303, 7));
        host.resource(OUTPUT, 16);
        assert_eq!(host.command(3, &on_queue(RESOURCE_DESTROY_ALL, 7, INPUT)), ok(3, 7));
        assert_eq!(host.command(3, &seventeenth), ok(3, 7));
    }

    fn size_count_8_and_9(host: with_stream) {
        host.resource(INPUT, 5);
        assert_eq!(host.command(3, &resource_queue(7, INPUT, 5, 0, 9)), error(3, 0x0304, 7));
        assert_eq!(host.command(3, &resource_queue(7, INPUT, 5, 0, 8)), Ok(vec![]));
    }

    fn entry_sum_256_and_257(host: with_stream) {
        let entries = [(0x1000, 0x1000); 257];
        let create = |number, counts: &[u32], count| {
            resource_create(7, OUTPUT, number, counts, &entries[..count])
        };
        assert_eq!(host.command(3, &create(1, &[200, 56], 256)), ok(3, 7));
        assert_eq!(host.command(3, &create(2, &[200, 57], 257)), error(3, 0x0304, 7));
        assert_eq!(host.command(3, &create(2, &[0, 0], 0)), error(3, 0x0304, 7));
        assert_eq!(host.command(3, &create(2, &[0, 1], 1)), ok(3, 7));
        assert_eq!(host.command(3, &create(3, &[0xffff_ffff, 2], 1)), error(3, 0x0304, 7));
        assert_eq!(host.command(3, &create(3, &[1, 1], 1)), error(3, 0x0304, 7));
        // A layout of one buffer adds all its planes too.
        let mut single = create(3, &[1, 1], 2);
        put(&mut single, 16, 1);
        assert_eq!(host.command(3, &single), ok(3, 7));
    }

    /// The count of the last plane is added, that of the next one is not.
    fn entry_counts_by_plane(host: with_stream) {
        for planes in 1..=8 {
            let mut counts = vec![0; planes];
            if planes < 8 {
                let mut behind = resource_create(7, INPUT, 9, &counts, &[(0, 1)]);
                put(&mut behind, 56 + 4 * planes, 1);
                assert_eq!(host.command(3, &behind), error(3, 0x0304, 7));
            }
            counts[planes - 1] = 1;
            let last = resource_create(7, INPUT, planes as u32, &counts, &[(0, 1)]);
            assert_eq!(host.command(3, &last), ok(3, 7));
        }
    }

    fn entry_ending_at_2_to_64_and_one_past(host: with_stream) {
        let create = |number, address, length| {
            resource_create(7, INPUT, number, &[1], &[(address, length)])
        };
        assert_eq!(host.command(3, &create(1, u64::MAX - 0xfff, 0x1000)), ok(3, 7));
        assert_eq!(host.command(3, &create(2, u64::MAX - 0xffe, 0x1000)), error(3, 0x0304, 7));
        assert_eq!(host.command(3, &create(2, u64::MAX, 1)), ok(3, 7));
        assert_eq!(host.command(3, &create(3, 0, 0)), error(3, 0x0304, 7));
        // The last of many entries is looked at too.
        let mut entries = [(0, 1); 256];
        entries[255] = (u64::MAX, 2);
        let last = resource_create(7, INPUT, 3, &[256], &entries);
        assert_eq!(host.command(3, &last), error(3, 0x0304, 7));
    }

    fn defaults(host: with_stream) {
        let input = [0x100, H264, 640, 480, 1, 16, 0, 0, 640, 480, 0, 1, 262_144, 0];
        let output = [0x101, 3, 640, 480, 1, 16, 0, 0, 640, 480, 0, 2, 307_200, 640, 153_600, 640];
        assert_eq!(host.command(3, &on_queue(GET_PARAMS, 7, INPUT)), parameters(3, 7, &input));
        assert_eq!(host.command(3, &on_queue(GET_PARAMS, 7, OUTPUT)), parameters(3, 7, &output));
        assert_eq!(host.command(3, &on_queue(GET_PARAMS, 7, 0x102)), error(3, 0x0304, 7));
    }

    fn set_4096_and_4098_wide(host: with_stream) {
        let set = |format, width, height| set_params(7, OUTPUT, format, width, height, 25);
        assert_eq!(host.command(3, &set(3, 4098, 16)), error(3, 0x0304, 7));
        assert_eq!(host.command(3, &set(3, 4096, 15)), error(3, 0x0304, 7));
        assert_eq!(host.command(3, &set(3, 4096, 14)), error(3, 0x0304, 7));
        assert_eq!(host.command(3, &set(H264, 4096, 16)), error(3, 0x0304, 7));
        assert_eq!(host.command(3, &set(3, 4096, 16)), ok(3, 7));
        let output = [0x101, 3, 4096, 16, 1, 16, 0, 0, 4096, 16, 25, 2, 65_536, 4096, 32_768, 4096];
        assert_eq!(host.command(3, &on_queue(GET_PARAMS, 7, OUTPUT)), parameters(3, 7, &output));
        assert_eq!(host.command(3, &set_params(7, INPUT, MPEG2, 64, 64, 0)), error(3, 0x0304, 7));
        host.resource(INPUT, 1);
        host.queue(4, INPUT, 1, 0);
        assert_eq!(host.command(3, &set_params(7, INPUT, H264, 64, 64, 0)), error(3, 0x0300, 7));
        assert_eq!(host.command(3, &set(3, 64, 64)), ok(3, 7));
    }

    fn formats_and_extents_of_a_set(host: with_stream) {
        for (queue_type, format, others) in
            [(INPUT, H264, [3, 0x0fff, MPEG2, 0x1003]), (OUTPUT, 3, [2, 4, MPEG2, H264])]
        {
            let mut set = |format, width, height| {
                host.command(3, &set_params(7, queue_type, format, width, height, 0))
            };
            for other in others {
                assert_eq!(set(other, 640, 480), error(3, 0x0304, 7));
            }
            for bad in [0, 14, 15, 17, 4095, 4097, 4098] {
                assert_eq!(set(format, bad, 480), error(3, 0x0304, 7));
                assert_eq!(set(format, 640, bad), error(3, 0x0304, 7));
            }
            for good in [16, 18, 4094, 4096] {
                assert_eq!(set(format, good, 480), ok(3, 7));
                assert_eq!(set(format, 640, good), ok(3, 7));
            }
        }
    }

    fn tag_of_63_letters_and_of_64(host: with_stream) {
        assert_eq!(host.command(3, &stream_create(1, MPEG2, &[b'x'; 63])), ok(3, 1));
        assert_eq!(host.command(3, &stream_create(2, MPEG2, &[b'x'; 64])), error(3, 0x0304, 2));
        assert_eq!(host.command(3, &stream_create(2, MPEG2, b"")), ok(3, 2));
        assert_eq!(host.command(3, &stream_create(3, MPEG2, b"\xc3")), error(3, 0x0304, 3));
        assert_eq!(host.command(3, &stream_create(3, MPEG2, b"\xc3\xa9\0\xff")), ok(3, 3));
        assert_eq!(host.command(3, &stream_create(4, MPEG2, b"\xed\xa0\x80")), error(3, 0x0304, 4));
        let above = stream_create(4, MPEG2, b"\xf4\x90\x80\x80");
        assert_eq!(host.command(3, &above), error(3, 0x0304, 4));
        assert_eq!(host.command(3, &stream_create(4, MPEG2, b"\xf4\x8f\xbf\xbf")), ok(3, 4));
    }

    fn clear_of_an_empty_queue(host: with_stream) {
        assert_eq!(host.command(3, &on_queue(QUEUE_CLEAR, 7, INPUT)), ok(3, 7));
        host.drain(8);
        assert_eq!(host.command(3, &on_queue(QUEUE_CLEAR, 7, OUTPUT)), ok(3, 7));
        let both = Ok(vec![(8, vec![0x0200, 7]), (4, vec![0x0200, 7])]);
        assert_eq!(host.command(4, &on_queue(QUEUE_CLEAR, 7, INPUT)), both);
        assert_eq!(host.drained(7), Err(5));
    }

    fn one_resource_number_on_both_queues(host: with_stream) {
        host.resource(INPUT, 5);
        assert_eq!(host.finish(7, INPUT, 5, 0, 0), Err(5));
        host.resource(OUTPUT, 5);
        host.queue(0x11, INPUT, 5, 0x0123_4567_89ab_cdef);
        assert_eq!(host.finish(7, OUTPUT, 5, 0, 0), Err(5));
        host.queue(0x22, OUTPUT, 5, 2);
        // An output's timestamp is the report's, an input's its own.
        assert_eq!(host.finish(7, OUTPUT, 5, 1, 99), Ok(vec![buffer(0x22, 7, 99, 1)]));
        assert_eq!(host.finish(7, OUTPUT, 5, 1, 99), Err(5));
        let own = buffer(0x11, 7, 0x0123_4567_89ab_cdef, 0);
        assert_eq!(host.finish(7, INPUT, 5, 0, 99), Ok(vec![own]));
    }

    fn queue_while_draining(host: with_stream) {
        host.resource(INPUT, 1);
        host.resource(INPUT, 2);
        host.resource(OUTPUT, 1);
        host.queue(10, INPUT, 1, 0);
        host.drain(11);
        assert_eq!(host.command(12, &frame(STREAM_DRAIN, 7, 8)), error(12, 0x0300, 7));
        assert_eq!(host.command(13, &resource_queue(7, INPUT, 2, 0, 0)), error(13, 0x0300, 7));
        assert_eq!(host.command(13, &resource_queue(7, INPUT, 3, 0, 0)), error(13, 0x0300, 7));
        assert_eq!(host.command(13, &resource_queue(7, OUTPUT, 3, 0, 0)), error(13, 0x0303, 7));
        host.queue(14, OUTPUT, 1, 0);
        assert_eq!(host.drained(7), Err(5));
        assert_eq!(host.finish(7, INPUT, 1, 0, 1), Ok(vec![buffer(10, 7, 0, 0)]));
        assert_eq!(host.drained(7), Err(5));
        assert_eq!(host.finish(7, OUTPUT, 1, 2, 1), last(14, 1, 2, 11));
        assert_eq!(host.drained(7), Err(5));
    }

    /// A drained report is refused while there is an output, in each of its states, also where the
    /// drain was accepted with none, and where the outputs were cleared or others took their place;
    /// once there is none, it is taken.
    fn drained_with_outputs(host: with_stream) {
        host.drain(10);
        assert_eq!(host.drain_words(), [1, 10]);
        assert_eq!(host.drained(7), ok(10, 7));
        assert_eq!(host.drain_words(), [0, 0]);
        host.drain(11);
        host.resource(OUTPUT, 1);
        host.not_drained();
        host.queue(12, OUTPUT, 1, 5);
        host.not_drained();
        assert_eq!(host.finish(7, OUTPUT, 1, 0, 6), Ok(vec![buffer(12, 7, 6, 0)]));
        host.not_drained();
        host.queue(13, OUTPUT, 1, 5);
        let stopped = vec![buffer(13, 7, 5, 1), (14, vec![0x0200, 7])];
        assert_eq!(host.command(14, &on_queue(QUEUE_CLEAR, 7, OUTPUT)), Ok(stopped));
        host.not_drained();
        host.clear(OUTPUT, None);
        host.not_drained();
        host.destroy_all(OUTPUT);
        assert_eq!(host.drain_words(), [1, 11]);
        host.resource(OUTPUT, 2);
        host.not_drained();
        host.destroy_all(OUTPUT);
        assert_eq!(host.drained(7), ok(11, 7));
        host.not_drained();
    }

    /// An output in any one place stops a drained report, in each state; outputs that were there when
    /// the drain was accepted do not.
    fn drained_by_place_of_the_output(host: with_stream) {
        host.resource(OUTPUT, 3);
        host.drain(10);
        host.destroy_all(OUTPUT);
        for slot in 0..16 {
            let at = OUTPUT_AT + 4 + 5 * slot;
            for state in 1..=3 {
                host.table[at] = state;
                host.table[at + 1] = 3;
                host.put_pending(if state == 2 { 2 } else { 1 });
                host.not_drained();
            }
            host.table[at..at + 2].fill(0);
            host.put_pending(1);
        }
        assert_eq!(host.drained(7), ok(10, 7));
    }

    /// Inputs are no outputs: unless one is Queued, they do not stop a drained report.
    fn drained_with_inputs_alone(host: with_stream) {
        host.resource(INPUT, 1);
        host.drain(10);
        assert_eq!(host.drained(7), ok(10, 7));
        host.queue(11, INPUT, 1, 5);
        host.drain(12);
        host.not_drained();
        assert_eq!(host.finish(7, INPUT, 1, 1, 0), Ok(vec![buffer(11, 7, 5, 1)]));
        assert_eq!(host.drain_words(), [1, 12]);
        assert_eq!(host.drained(7), ok(12, 7));
        // And outputs are enough without an input.
        host.destroy_all(INPUT);
        host.resource(OUTPUT, 1);
        host.drain(13);
        host.not_drained();
    }

    /// A finish with EOS answers its buffer and then the drain: 48 bytes. The room behind them stays,
    /// and of the table nothing changes but the buffer's words, the drain's and the figures.
    fn bytes_and_words_of_the_last_output(host: with_stream) {
        for queue_type in [INPUT, OUTPUT] {
            for number in [4, 5] {
                host.resource(queue_type, number);
            }
        }
        for flags in [2, 3] {
            host.queue(0x0b0b_0b0b, OUTPUT, 4, u64::MAX);
            if flags == 2 {
                host.queue(0x0c0c_0c0c, OUTPUT, 5, u64::MAX);
            }
            host.drain(0x0d0d_0d0d);
            let mut table = host.table.clone();
            table[3..5].fill(0);
            table[OUTPUT_AT + 4..][..5].copy_from_slice(&[3, 4, 0, 0, 0]);
            // Of three pending answers that to the other output is left.
            for at in [4129, 4138] {
                assert_eq!(std::mem::replace(&mut table[at], 1), 3);
            }
            let timestamp = 0x0123_4567_89ab_cdef;
            let report = Report { stream: 7, queue_type: OUTPUT, resource: 4, flags, timestamp };
            let mut room = [0xee; ROOM + 8];
            let outcome = host.core.finish(&mut host.table, &report, &mut room);
            assert_eq!(outcome, Outcome { refusal: 0, written: 48 });
            let buffer = [0x0b0b_0b0b, 24, 0x0202, 7, 0x89ab_cdef, 0x0123_4567, flags, 0];
            let written = [&buffer[..], &[0x0d0d_0d0d, 8, 0x0200, 7]].concat();
            let bytes: Vec<u8> = written.into_iter().flat_map(u32::to_le_bytes).collect();
            assert_eq!(room[..48], bytes);
            assert_eq!(room[48..], [0xee; ROOM - 40]);
            assert_eq!(host.table, table);
        }
    }

    /// EOS, with ERR or without, ends a drain; no other finish does.
    fn flags_that_end_a_drain(host: with_stream) {
        host.resource(INPUT, 1);
        host.resource(OUTPUT, 1);
        for flags in [2, 3] {
            host.queue(9, INPUT, 1, 5);
            host.drain(10);
            for plain in [0, 1] {
                host.finish_output(1, plain, 10);
            }
            assert_eq!(host.finish(7, INPUT, 1, 0, 6), Ok(vec![buffer(9, 7, 5, 0)]));
            host.not_drained();
            for plain in [0, 1] {
                host.finish_output(1, plain, 10);
            }
            host.not_drained();
            host.finish_output(1, flags, 10);
            host.not_drained();
        }
    }

    /// With an input still Queued, EOS is refused with 5, with ERR or without, and is then as if it had
    /// not come: its buffer can be finished without it, and the last input ends no drain.
    fn eos_with_an_input_queued(host: with_stream) {
        for number in [1, 2] {
            host.resource(INPUT, number);
            host.resource(OUTPUT, number);
            host.queue(10 + number, INPUT, number, 5);
            host.queue(20 + number, OUTPUT, number, 5);
        }
        host.drain(10);
        for input in [2, 1] {
            for output in [1, 2] {
                host.not_finished(OUTPUT, output, 2, 5);
                host.not_finished(OUTPUT, output, 3, 5);
            }
            host.not_drained();
            let answer = Ok(vec![buffer(10 + input, 7, 5, 0)]);
            assert_eq!(host.finish(7, INPUT, input, 0, 6), answer);
            assert_eq!(host.drain_words(), [1, 10]);
        }
        assert_eq!(host.finish(7, OUTPUT, 2, 1, 6), Ok(vec![buffer(22, 7, 6, 1)]));
        assert_eq!(host.drain_words(), [1, 10]);
        assert_eq!(host.finish(7, OUTPUT, 1, 3, 6), last(21, 6, 3, 10));
    }

    /// An input in any one place stops EOS while it is Queued, and in no other state.
    fn eos_by_place_of_the_input(host: with_stream) {
        host.resource(OUTPUT, 3);
        host.queue(9, OUTPUT, 3, 5);
        host.drain(10);
        let before = host.table.clone();
        for slot in 0..16 {
            let at = INPUT_AT + 4 + 5 * slot;
            for state in 1..=3 {
                host.table[at] = state;
                host.table[at + 1] = 3;
                if state == 2 {
                    host.put_pending(3);
                    host.not_finished(OUTPUT, 3, 2, 5);
                } else {
                    assert_eq!(host.finish(7, OUTPUT, 3, 2, 6), last(9, 6, 2, 10));
                }
                host.table.clone_from(&before);
            }
        }
    }

    /// Flags above 3 (6), then no buffer now Queued (5), then EOS on an input or with no drain pending
    /// (6), then EOS with an input still Queued (5); before all of them the room (3).
    fn order_of_the_tests_of_a_finish(host: with_stream) {
        for number in [1, 2] {
            host.resource(INPUT, number);
            host.resource(OUTPUT, number);
        }
        host.queue(8, INPUT, 1, 5);
        host.queue(9, OUTPUT, 1, 5);
        for early in [6, 5] {
            for flags in [2, 3] {
                for (queue_type, resource) in [(INPUT, 2), (INPUT, 3), (OUTPUT, 2), (0x102, 1)] {
                    host.not_finished(queue_type, resource, flags, 5);
                    host.not_finished(queue_type, resource, flags + 4, 6);
                }
                host.not_finished(INPUT, 1, flags, 6);
                host.not_finished(OUTPUT, 1, flags, early);
                for queue_type in [INPUT, OUTPUT] {
                    host.not_finished(queue_type, 1, flags + 4, 6);
                    host.not_finished(queue_type, 1, flags | 1 << 31, 6);
                }
            }
            if early == 6 {
                host.drain(10);
            }
        }
        assert_eq!(host.finish(7, INPUT, 1, 0, 6), Ok(vec![buffer(8, 7, 5, 0)]));
        host.not_finished(OUTPUT, 2, 2, 5);
        host.not_finished(OUTPUT, 1, 6, 6);
        let before = host.table.clone();
        let eos = Report { stream: 7, queue_type: OUTPUT, resource: 1, flags: 2, timestamp: 0 };
        let outcome = host.core.finish(&mut host.table, &eos, &mut [0; ROOM - 1]);
        assert_eq!(outcome, Outcome { refusal: 3, written: 0 });
        assert_eq!(host.table, before);
        assert_eq!(host.finish(7, OUTPUT, 1, 2, 6), last(9, 6, 2, 10));
    }

    /// After EOS no drain is pending: one more EOS is refused with 6, inputs are taken again, nothing
    /// answers the drain a second time, and the next drain has an EOS of its own.
    fn after_the_last_output(host: with_stream) {
        host.resource(INPUT, 1);
        for output in [1, 2] {
            host.resource(OUTPUT, output);
        }
        for flags in [2, 3] {
            host.queue(9, OUTPUT, 2, 5);
            host.drain(10);
            let input = resource_queue(7, INPUT, 1, 5, 0);
            assert_eq!(host.command(3, &input), error(3, 0x0300, 7));
            host.finish_output(1, flags, 10);
            for queued in [false, true] {
                host.not_drained();
                for second in [2, 3] {
                    host.not_finished(OUTPUT, 2, second, 6);
                    host.not_finished(OUTPUT, 1, second, 5);
                }
                if !queued {
                    host.queue(11, INPUT, 1, 5);
                }
            }
            let stopped = vec![buffer(11, 7, 5, 1), (3, vec![0x0200, 7])];
            assert_eq!(host.command(3, &on_queue(QUEUE_CLEAR, 7, INPUT)), Ok(stopped));
            host.drain(12);
            assert_eq!(host.finish(7, OUTPUT, 2, flags, 6), last(9, 6, flags, 12));
            host.clear(INPUT, None);
            host.clear(OUTPUT, None);
        }
        host.destroy(7);
    }

    /// A drain with outputs of which none is Queued waits for the guest: each report is refused, until
    /// an output is queued, which may then carry EOS.
    fn drain_without_a_queued_output(host: with_stream) {
        for number in [1, 2] {
            host.resource(OUTPUT, number);
        }
        for output in [1, 2] {
            // First both are Created, then one is Dequeued.
            host.drain(10);
            for number in [1, 2] {
                for flags in [0, 1, 2, 3] {
                    host.not_finished(OUTPUT, number, flags, 5);
                }
            }
            host.not_drained();
            host.finish_output(output, 2, 10);
        }
        // Now both are Dequeued.
        host.drain(11);
        host.not_drained();
        host.finish_output(1, 0, 11);
        host.not_drained();
        host.finish_output(1, 3, 11);
    }

    /// A drain is kept by all that does not answer it: a clear of the outputs, one more drain, reports
    /// that are refused, and what is done to resources and parameters.
    fn what_keeps_a_drain(host: with_stream) {
        host.resource(INPUT, 1);
        host.resource(OUTPUT, 1);
        host.drain(10);
        host.finish_output(1, 0, 10);
        host.queue(11, OUTPUT, 1, 5);
        let stopped = vec![buffer(11, 7, 5, 1), (3, vec![0x0200, 7])];
        for (command, answer) in [
            (on_queue(QUEUE_CLEAR, 7, OUTPUT), Ok(stopped)),
            (on_queue(QUEUE_CLEAR, 7, OUTPUT), ok(3, 7)),
            (frame(STREAM_DRAIN, 7, 8), error(3, 0x0300, 7)),
            (resource_queue(7, INPUT, 1, 0, 0), error(3, 0x0300, 7)),
            (resource_create(7, INPUT, 2, &[1], &[(0, 1)]), ok(3, 7)),
            (resource_create(7, OUTPUT, 2, &[1], &[(0, 1)]), ok(3, 7)),
            (set_params(7, INPUT, H264, 64, 64, 0), ok(3, 7)),
            (set_params(7, OUTPUT, 3, 64, 64, 0), ok(3, 7)),
            (on_queue(RESOURCE_DESTROY_ALL, 7, INPUT), ok(3, 7)),
            (on_queue(RESOURCE_DESTROY_ALL, 7, OUTPUT), ok(3, 7)),
            (resource_create(7, OUTPUT, 1, &[1], &[(0, 1)]), ok(3, 7)),
            (frame(QUERY_CONTROL, 7, 16), error(3, 0x0305, 7)),
            (stream_create(7, H264, b""), error(3, 0x0302, 7)),
        ] {
            assert_eq!(host.command(3, &command), answer);
            assert_eq!(host.drain_words(), [1, 10]);
        }
        host.not_drained();
        host.not_finished(OUTPUT, 1, 2, 5);
        host.finish_output(1, 2, 10);
    }

    /// What answers a drain: EOS, a drained report with no outputs, a clear of the inputs, and the
    /// destruction. Each answers it once, and another drain may follow.
    fn what_ends_a_drain(host: with_stream) {
        host.resource(OUTPUT, 1);
        for ticket in [10, 20] {
            host.drain(ticket);
            host.finish_output(1, 2, ticket);
            host.drain(ticket + 1);
            host.clear(INPUT, Some(ticket + 1));
            assert_eq!(host.drain_words(), [0, 0]);
            host.clear(INPUT, None);
            host.drain(ticket + 2);
            host.destroy_all(OUTPUT);
            assert_eq!(host.drained(7), ok(ticket + 2, 7));
            host.not_drained();
            host.resource(OUTPUT, 1);
        }
        host.drain(30);
        let plain = vec![0x0200, 7];
        let destroyed = Ok(vec![(30, plain.clone()), (3, plain)]);
        assert_eq!(host.command(3, &frame(STREAM_DESTROY, 7, 8)), destroyed);
        assert!(host.table[..4096].iter().all(|&word| word == 0));
    }

    /// A drain is ended alone, each way that there is: those of other streams stay, wherever they
    /// stand, and neither their inputs nor their outputs stop it.
    fn drains_of_other_streams(host: new) {
        host.create([8]);
        assert_eq!(host.command(1, &stream_create(7, H264, b"")), ok(1, 7));
        host.create([9, 10]);
        for stream in [8, 9, 10] {
            for queue_type in [INPUT, OUTPUT] {
                let import = resource_create(stream, queue_type, 1, &[1], &[(0, 1)]);
                assert_eq!(host.command(1, &import), ok(1, stream));
                let queue = resource_queue(stream, queue_type, 1, 5, 0);
                assert_eq!(host.command(30, &queue), Ok(vec![]));
            }
            assert_eq!(host.command(40 + stream, &frame(STREAM_DRAIN, stream, 8)), Ok(vec![]));
        }
        let plain = vec![0x0200, 7];
        let ended = Ok(vec![(22, plain.clone()), (3, plain)]);
        for end in [FINISH, DRAINED, QUEUE_CLEAR, STREAM_DESTROY] {
            host.drain(22);
            assert_eq!(drains_of_each(&host.table), [48, 22, 49, 50]);
            match end {
                FINISH => {
                    host.resource(OUTPUT, 1);
                    host.queue(21, OUTPUT, 1, 5);
                    assert_eq!(host.finish(7, OUTPUT, 1, 2, 6), last(21, 6, 2, 22));
                    host.destroy_all(OUTPUT);
                }
                DRAINED => assert_eq!(host.drained(7), ok(22, 7)),
                QUEUE_CLEAR => host.clear(INPUT, Some(22)),
                _ => assert_eq!(host.command(3, &frame(STREAM_DESTROY, 7, 8)), ended),
            }
            assert_eq!(drains_of_each(&host.table), [48, 0, 49, 50]);
        }
        assert_eq!(host.finish(9, INPUT, 1, 0, 6), Ok(vec![buffer(30, 9, 5, 0)]));
        let both = Ok(vec![buffer(30, 9, 6, 3), (49, vec![0x0200, 9])]);
        assert_eq!(host.finish(9, OUTPUT, 1, 3, 6), both);
        assert_eq!(drains_of_each(&host.table), [48, 0, 0, 50]);
    }

    /// The drain's word is 0 or 1; its ticket is 0 where the word is 0, and any where it is 1.
    fn drain_words_of_a_table(host: with_stream) {
        for ticket in [0, 1, u32::MAX] {
            host.table[4] = ticket;
            host.put_pending(1);
            for word in [2, 3, 4, 0x0001_0001, 0x8000_0000, 0x8000_0001, u32::MAX] {
                host.table[3] = word;
                host.invalid();
            }
            host.table[3] = 1;
            assert_eq!(host.drained(7), ok(ticket, 7));
            assert_eq!(host.drain_words(), [0, 0]);
            // Not pending.
            host.table[4] = ticket;
            if ticket == 0 {
                host.valid();
            } else {
                host.invalid();
            }
        }
        // Nor is there a drain in a vacant place.
        host.table[4] = 0;
        for word in [1, 2] {
            host.table[BLOCK + 3] = word;
            host.invalid();
        }
    }

    fn refused_queueing_keeps_the_first_ticket(host: with_stream) {
        host.resource(OUTPUT, 1);
        host.queue(0xaa, OUTPUT, 1, 6);
        assert_eq!(host.command(0xbb, &resource_queue(7, OUTPUT, 1, 7, 0)), error(0xbb, 0x0300, 7));
        let stopped = Ok(vec![buffer(0xaa, 7, 6, 1), (0xcc, vec![0x0200, 7])]);
        assert_eq!(host.command(0xcc, &on_queue(QUEUE_CLEAR, 7, OUTPUT)), stopped);
    }

    /// Word 0 of a queue has no use: where it is not zero, each kind of step is refused and changes
    /// nothing; where it is zero again, the step is served.
    fn word_0_of_a_queue(host: with_stream) {
        host.resource(INPUT, 1);
        host.resource(OUTPUT, 1);
        let command = |frame| Act::Command { ticket: 3, frame };
        let report = |queue_type, flags| {
            Act::Finish(Report { stream: 7, queue_type, resource: 1, flags, timestamp: 8 })
        };
        let input = [0x100, H264, 16, 16, 1, 16, 0, 0, 16, 16, 0, 1, 262_144, 0];
        for (act, answer) in [
            (command(resource_queue(7, INPUT, 1, 5, 0)), Ok(vec![])),
            (command(resource_queue(7, OUTPUT, 1, 6, 0)), Ok(vec![])),
            (command(frame(STREAM_DRAIN, 7, 8)), Ok(vec![])),
            (report(INPUT, 0), Ok(vec![buffer(3, 7, 5, 0)])),
            (report(OUTPUT, 2), last(3, 8, 2, 3)),
            (command(on_queue(QUEUE_CLEAR, 7, INPUT)), ok(3, 7)),
            (command(on_queue(QUEUE_CLEAR, 7, OUTPUT)), ok(3, 7)),
            (command(resource_create(7, INPUT, 2, &[1], &[(0, 1)])), ok(3, 7)),
            (command(on_queue(RESOURCE_DESTROY_ALL, 7, OUTPUT)), ok(3, 7)),
            (command(frame(STREAM_DRAIN, 7, 8)), Ok(vec![])),
            (Act::Drained { stream: 7 }, ok(3, 7)),
            (command(set_params(7, INPUT, H264, 16, 16, 0)), ok(3, 7)),
            (command(on_queue(GET_PARAMS, 7, INPUT)), parameters(3, 7, &input)),
            (command(frame(QUERY_CONTROL, 7, 16)), error(3, 0x0305, 7)),
            (command(frame(GET_CONTROL, 7, 16)), error(3, 0x0305, 7)),
            (command(frame(SET_CONTROL, 7, 16)), error(3, 0x0305, 7)),
            (command(frame(0x0100, 7, 16)), error(3, 0x0300, 7)),
            (command(vec![3, 1, 0, 0, 7, 0, 0]), Err(4)),
            (command(stream_create(2, MPEG2, b"")), ok(3, 2)),
            (command(frame(STREAM_DESTROY, 7, 8)), ok(3, 7)),
        ] {
            host.not_taken_with_heads(&act);
            assert_eq!(host.step(&act), answer);
        }
    }

    /// A clear, with a Queued buffer or none, leaves word 0 of both queues zero, and its queue
    /// takes a queueing at once.
    fn queueing_after_a_clear(host: with_stream) {
        for queue_type in [INPUT, OUTPUT] {
            host.resource(queue_type, 1);
            for stopped in [vec![], vec![buffer(4, 7, 5, 1)]] {
                let answers = [stopped, vec![(3, vec![0x0200, 7])]].concat();
                assert_eq!(host.command(3, &on_queue(QUEUE_CLEAR, 7, queue_type)), Ok(answers));
                assert_eq!([host.table[INPUT_AT], host.table[OUTPUT_AT]], [0, 0]);
                host.queue(4, queue_type, 1, 5);
            }
            assert_eq!(host.finish(7, queue_type, 1, 0, 5), Ok(vec![buffer(4, 7, 5, 0)]));
        }
    }

    fn flags_of_a_finish(host: with_stream) {
        host.resource(INPUT, 1);
        host.resource(OUTPUT, 1);
        host.queue(1, INPUT, 1, 0);
        host.queue(2, OUTPUT, 1, 0);
        assert_eq!(host.finish(9, OUTPUT, 1, 4, 0), Err(6));
        assert_eq!(host.finish(9, OUTPUT, 1, 3, 0), Err(5));
        assert_eq!(host.finish(7, 0x102, 1, 0, 0), Err(5));
        assert_eq!(host.finish(7, INPUT, 2, 2, 0), Err(5));
        assert_eq!(host.finish(7, OUTPUT, 1, 2, 0), Err(6));
        host.drain(3);
        assert_eq!(host.finish(7, INPUT, 1, 2, 0), Err(6));
        assert_eq!(host.finish(7, INPUT, 1, 1, 5), Ok(vec![buffer(1, 7, 0, 1)]));
        assert_eq!(host.finish(7, OUTPUT, 1, 3, 5), last(2, 5, 3, 3));
    }

    /// A buffer is answered with 0x0202, finished or stopped; a drain, ended by a report or stopped,
    /// with 0x0200, and so is plain success.
    fn types_of_answers(host: with_stream) {
        host.resource(INPUT, 1);
        host.resource(OUTPUT, 1);
        host.queue(10, INPUT, 1, 5);
        host.queue(11, OUTPUT, 1, 6);
        host.drain(12);
        let input = vec![0x0202, 7, 5, 0, 1, 0];
        assert_eq!(host.finish(7, INPUT, 1, 1, 8), Ok(vec![(10, input)]));
        let output = vec![0x0202, 7, 8, 0, 2, 0];
        let ended = vec![(11, output), (12, vec![0x0200, 7])];
        assert_eq!(host.finish(7, OUTPUT, 1, 2, 8), Ok(ended));

        host.queue(13, INPUT, 1, 5);
        host.queue(14, OUTPUT, 1, 6);
        host.drain(15);
        let (input, output) = (vec![0x0202, 7, 5, 0, 1, 0], vec![0x0202, 7, 6, 0, 1, 0]);
        let plain = vec![0x0200, 7];
        let cleared = vec![(13, input.clone()), (15, plain.clone()), (16, plain.clone())];
        assert_eq!(host.command(16, &on_queue(QUEUE_CLEAR, 7, INPUT)), Ok(cleared));
        let cleared = vec![(14, output.clone()), (17, plain.clone())];
        assert_eq!(host.command(17, &on_queue(QUEUE_CLEAR, 7, OUTPUT)), Ok(cleared));

        host.queue(18, INPUT, 1, 5);
        host.queue(19, OUTPUT, 1, 6);
        host.drain(20);
        let destroyed = vec![(18, input), (19, output), (20, plain.clone()), (21, plain)];
        assert_eq!(host.command(21, &frame(STREAM_DESTROY, 7, 8)), Ok(destroyed));
    }

    /// Inputs, outputs, the drain and the command itself: 1,056 bytes.
    fn destroy_with_all_queued(host: with_stream) {
        let mut expected = Vec::new();
        for (queue_type, ticket) in [(INPUT, 100), (OUTPUT, 200)] {
            // From the highest number down, so that places and numbers go opposite ways.
            for number in (0..16).rev() {
                host.resource(queue_type, number << 28);
                host.queue(ticket + number, queue_type, number << 28, 1000 + u64::from(number));
            }
            for number in 0..16 {
                expected.push(buffer(ticket + number, 7, 1000 + u64::from(number), 1));
            }
        }
        host.drain(300);
        expected.push((300, vec![0x0200, 7]));
        expected.push((301, vec![0x0200, 7]));
        assert_eq!(host.command(301, &frame(STREAM_DESTROY, 7, 8)), Ok(expected));
        // Nothing is left of it but that its number is spent.
        assert_eq!(host.table[SPENT_AT], 1 << 7);
        host.table[SPENT_AT] = 0;
        assert!(host.table[..WORDS].iter().all(|&word| word == 0));
    }

    fn destroy_all_and_controls(host: with_stream) {
        host.resource(INPUT, 1);
        host.queue(1, INPUT, 1, 0);
        assert_eq!(host.command(2, &on_queue(RESOURCE_DESTROY_ALL, 7, INPUT)), error(2, 0x0300, 7));
        assert_eq!(host.command(2, &on_queue(RESOURCE_DESTROY_ALL, 7, OUTPUT)), ok(2, 7));
        assert_eq!(host.finish(7, INPUT, 1, 0, 0), Ok(vec![buffer(1, 7, 0, 0)]));
        assert_eq!(host.command(2, &on_queue(RESOURCE_DESTROY_ALL, 7, INPUT)), ok(2, 7));
        assert_eq!(host.command(2, &resource_queue(7, INPUT, 1, 0, 0)), error(2, 0x0303, 7));
        assert_eq!(host.command(2, &frame(QUERY_CONTROL, 7, 16)), error(2, 0x0305, 7));
        assert_eq!(host.command(2, &frame(QUERY_CONTROL, 7, 24)), error(2, 0x0304, 7));
        assert_eq!(host.command(2, &frame(SET_CONTROL, 7, 24)), error(2, 0x0305, 7));
        assert_eq!(host.command(2, &frame(SET_CONTROL, 8, 24)), error(2, 0x0302, 8));
    }

    /// Streams have the numbers 0 to 1,023. One above is refused, and is no stream to other steps.
    fn numbers_1023_and_1024(host: new) {
        for number in [1024, 1025, 2047, 0x0001_0001, 0x8000_0000, u32::MAX] {
            let create = stream_create(number, MPEG2, b"");
            assert_eq!(host.command(2, &create), error(2, 0x0302, number));
            let drain = frame(STREAM_DRAIN, number, 8);
            assert_eq!(host.command(2, &drain), error(2, 0x0302, number));
            assert_eq!(host.finish(number, INPUT, 1, 0, 0), Err(5));
            assert_eq!(host.drained(number), Err(5));
            assert!(host.table[..WORDS].iter().all(|&word| word == 0));
        }
        for number in [1023, 1022, 1, 0] {
            host.create([number]);
            assert_eq!(host.command(2, &frame(STREAM_DRAIN, number, 8)), Ok(vec![]));
            assert_eq!(host.drained(number), ok(2, number));
        }
    }

    /// A number is for one stream: it is refused while that lives, and for good once it is gone.
    fn created_again(host: with_stream) {
        let again = stream_create(7, H264, b"seven");
        assert_eq!(host.command(2, &again), error(2, 0x0302, 7));
        host.destroy(7);
        for other in [8, 9] {
            let before = host.table.clone();
            assert_eq!(host.command(2, &again), error(2, 0x0302, 7));
            assert_eq!(host.table, before);
            host.create([other]);
        }
    }

    /// Each number once, and no ninth place is asked for: its creation sets bit n % 32 of word
    /// 4,096 + n / 32 and no other, and marks its place by n + 1 while it lives. Then no creation is left,
    /// until the table is made fresh.
    fn every_number_once(host: new) {
        let mut spent = [0; 64];
        for number in 0..1024 {
            host.create([number]);
            spent[number as usize / 32] |= 1 << (number % 32);
            spent[34] = number + 1;
            assert_eq!(host.behind(), spent);
            host.destroy(number);
            spent[34] = 0;
            assert_eq!(host.behind(), spent);
        }
        assert!(host.table[..4096].iter().all(|&word| word == 0));
        for number in (0..1026).chain([u32::MAX]) {
            let create = stream_create(number, MPEG2, b"");
            assert_eq!(host.command(2, &create), error(2, 0x0302, number));
        }
        assert_eq!(host.core.fresh(&mut host.table), 0);
        host.create(1016..1024);
    }

    /// A spent number, live or not, and one above 1,023: after the length, before the fields and
    /// before the places.
    fn order_of_a_creation(host: with_stream) {
        host.create([8]);
        host.destroy(8);
        for full in [false, true] {
            if full {
                host.create(0..7);
                assert_eq!(host.command(2, &stream_create(9, MPEG2, b"")), error(2, 0x0301, 9));
            }
            let before = host.table.clone();
            for number in [7, 8, 1024, u32::MAX] {
                let mut creations = bad_creations(number);
                creations.push(stream_create(number, H264, b""));
                for create in &creations {
                    let code = if create.len() == 88 { 0x0302 } else { 0x0304 };
                    assert_eq!(host.command(2, create), error(2, code, number));
                }
            }
            assert_eq!(host.table, before);
        }
    }

    /// A creation that fails spends nothing: the same number then succeeds, which spends it.
    fn refused_creations(host: new) {
        for (number, bad) in (0..).zip(bad_creations(0)) {
            let mut bad = bad;
            put(&mut bad, 4, number);
            let before = host.table.clone();
            assert_eq!(host.command(2, &bad), error(2, 0x0304, number));
            assert_eq!(host.table, before);
            host.create([number]);
            host.destroy(number);
            let create = stream_create(number, MPEG2, b"");
            assert_eq!(host.command(2, &create), error(2, 0x0302, number));
        }
        // No room for the answer: a refusal.
        let create = stream_create(20, MPEG2, b"");
        let before = host.table.clone();
        assert_eq!(host.core.command(&mut host.table, 2, &create, &mut [0; ROOM - 1]).refusal, 3);
        assert_eq!(host.table, before);
        host.create(20..28);
        // No place, however often it is tried.
        for number in [30, 1023, 30] {
            let before = host.table.clone();
            let create = stream_create(number, MPEG2, b"");
            assert_eq!(host.command(2, &create), error(2, 0x0301, number));
            assert_eq!(host.table, before);
        }
        for (freed, number) in [(20, 30), (27, 1023)] {
            host.destroy(freed);
            host.create([number]);
            for spent in [freed, number] {
                let create = stream_create(spent, MPEG2, b"");
                assert_eq!(host.command(2, &create), error(2, 0x0302, spent));
            }
        }
    }

    /// What comes late for a destroyed stream meets no stream, now and after all that follows.
    fn late_for_a_destroyed_stream(host: with_stream) {
        for queue_type in [INPUT, OUTPUT] {
            host.resource(queue_type, 1);
            host.queue(10, queue_type, 1, 5);
        }
        host.drain(11);
        let plain = vec![0x0200, 7];
        let stopped =
            vec![buffer(10, 7, 5, 1), buffer(10, 7, 5, 1), (11, plain.clone()), (12, plain)];
        assert_eq!(host.command(12, &frame(STREAM_DESTROY, 7, 8)), Ok(stopped));
        host.late();
        // Another stream stands where it stood, with buffers of the same numbers and a drain.
        host.create([8]);
        for queue_type in [INPUT, OUTPUT] {
            let import = resource_create(8, queue_type, 1, &[1], &[(0, 1)]);
            assert_eq!(host.command(2, &import), ok(2, 8));
            let queue = resource_queue(8, queue_type, 1, 6, 0);
            assert_eq!(host.command(13, &queue), Ok(vec![]));
        }
        assert_eq!(host.command(14, &frame(STREAM_DRAIN, 8, 8)), Ok(vec![]));
        host.late();
        assert_eq!(host.finish(8, INPUT, 1, 0, 9), Ok(vec![buffer(13, 8, 6, 0)]));
        host.late();
        let both = Ok(vec![buffer(13, 8, 9, 2), (14, vec![0x0200, 8])]);
        assert_eq!(host.finish(8, OUTPUT, 1, 2, 9), both);
        host.late();
    }

    /// Making the table fresh forgets every spent number; nothing else does.
    fn fresh_forgets(host: with_stream) {
        host.create([1023]);
        host.destroy(7);
        for number in [7, 1023] {
            let create = stream_create(number, MPEG2, b"");
            assert_eq!(host.command(2, &create), error(2, 0x0302, number));
        }
        // Too short a table is not made fresh.
        assert_eq!(host.core.fresh(&mut host.table[..4159]), 1);
        let create = stream_create(7, MPEG2, b"");
        assert_eq!(host.command(2, &create), error(2, 0x0302, 7));
        assert_eq!(host.core.fresh(&mut host.table), 0);
        assert_eq!(host.behind(), [0; 64]);
        host.create([7, 1023]);
    }

    /// Resource numbers are another matter: one that is not there now may be used again.
    fn resource_numbers_come_back(host: with_stream) {
        for queue_type in [INPUT, OUTPUT] {
            for number in [5, u32::MAX] {
                for _ in 0..3 {
                    host.resource(queue_type, number);
                    let again = resource_create(7, queue_type, number, &[1], &[(0, 1)]);
                    assert_eq!(host.command(2, &again), error(2, 0x0303, 7));
                    let free = on_queue(RESOURCE_DESTROY_ALL, 7, queue_type);
                    assert_eq!(host.command(2, &free), ok(2, 7));
                }
            }
        }
    }

    /// A live number that is not spent makes the table invalid.
    fn live_and_not_spent(host: new) {
        let numbers = [7, 0, 31, 32, 500, 992, 1022, 1023];
        host.create(numbers);
        for number in numbers {
            let (at, bit) = (4096 + number as usize / 32, 1 << (number % 32));
            host.valid();
            host.table[at] ^= bit;
            host.invalid();
            host.table[at] ^= bit;
        }
        // Another number in place of that of the first stream: good where it is spent.
        host.put_number(8);
        host.invalid();
        host.table[4096] |= 1 << 8;
        host.valid();
        host.table[4096] &= !(1 << 7);
        host.valid();
    }

    /// A live number above 1,023 makes the table invalid, whatever is spent.
    fn live_above_1023(host: with_stream) {
        for spent in [0x0000_0080, u32::MAX] {
            for word in &mut host.table[4096..4128] {
                *word = spent;
            }
            for number in [1024, 1024 + 7, 2047, 0x0001_0007, 0x8000_0007, u32::MAX] {
                host.put_number(number);
                host.invalid();
            }
            host.put_number(7);
            host.valid();
        }
        host.put_number(1023);
        host.valid();
    }

    /// A spent number need not be live; any are good.
    fn spent_and_not_live(host: new) {
        host.table[4096..4128].fill(u32::MAX);
        host.valid();
        for number in [0, 7, 31, 32, 1023, 1024] {
            let create = stream_create(number, MPEG2, b"");
            assert_eq!(host.command(2, &create), error(2, 0x0302, number));
            let drain = frame(STREAM_DRAIN, number, 8);
            assert_eq!(host.command(2, &drain), error(2, 0x0302, number));
        }
        // All but 500, which is the one that can be created.
        host.table[4111] ^= 1 << 20;
        host.valid();
        for number in [499, 501] {
            let create = stream_create(number, MPEG2, b"");
            assert_eq!(host.command(2, &create), error(2, 0x0302, number));
        }
        host.create([500]);
        assert_eq!(host.behind()[..32], [u32::MAX; 32]);
        let mut behind = [0; 32];
        behind[2] = 501;
        assert_eq!(host.behind()[32..], behind);
    }

    /// Words 4,128 and 4,146 to 4,159 have no use: where one is not zero, the table is invalid.
    fn words_behind_the_spent_numbers(host: with_stream) {
        for at in [4128].into_iter().chain(4146..4160) {
            for value in [1, 1 << 7, 1 << 31, u32::MAX] {
                host.table[at] = value;
                host.invalid();
            }
            host.table[at] = 0;
            host.valid();
        }
        // The next word is no part of the table.
        for value in [0, 1, u32::MAX] {
            host.table[4160] = value;
            host.valid();
        }
    }

    /// A table of 4,159 words is refused by each call, one of 4,160 is not, and words behind are
    /// neither read nor written.
    fn table_of_4159_words_and_of_4160(host: with_stream) {
        host.resource(INPUT, 1);
        host.queue(2, INPUT, 1, 5);
        host.table.resize(4160 + 64, u32::MAX);
        let behind = host.table[4160..].to_vec();
        let short = [0, 1, 4095, 4096, 4128, 4159];
        let command = |frame| Act::Command { ticket: 3, frame };
        let report = Report { stream: 7, queue_type: INPUT, resource: 1, flags: 0, timestamp: 0 };
        for (act, answer) in [
            (command(frame(STREAM_DRAIN, 7, 8)), Ok(vec![])),
            (Act::Finish(report), Ok(vec![buffer(2, 7, 5, 0)])),
            (Act::Drained { stream: 7 }, ok(3, 7)),
            (command(stream_create(1023, MPEG2, b"")), ok(3, 1023)),
            (command(frame(STREAM_DESTROY, 7, 8)), ok(3, 7)),
        ] {
            let before = host.table.clone();
            let mut exact = host.table[..4160].to_vec();
            let mut room = [0xee; ROOM];
            for words in short {
                let outcome = host.core.step(&mut host.table[..words], &act, &mut room);
                assert_eq!(answered(outcome, &room), Err(1));
                assert_eq!(host.table, before);
            }
            let outcome = host.core.step(&mut exact, &act, &mut room);
            assert_eq!(answered(outcome, &room), answer);
            assert_eq!(host.step(&act), answer);
            assert_eq!(host.table[..4160], exact);
            assert_eq!(host.table[4160..], behind);
        }
        let before = host.table.clone();
        for words in short {
            assert_eq!(host.core.fresh(&mut host.table[..words]), 1);
            assert_eq!(host.table, before);
        }
        for words in [4160, 4160 + 64] {
            host.table[..4160].fill(0x5a5a_5a5a);
            assert_eq!(host.core.fresh(&mut host.table[..words]), 0);
            assert!(host.table[..4160].iter().all(|&word| word == 0));
            assert_eq!(host.table[4160..], behind);
        }
    }

    /// Each queueing and each drain that is accepted is pending until it is answered; steps that are
    /// not taken change nothing.
    fn pending_answers_of_a_stream(host: with_stream) {
        host.owes(0, 0);
        for (number, figure) in [(1, 1), (2, 3)] {
            host.resource(INPUT, number);
            host.resource(OUTPUT, number);
            host.owes(figure - 1, figure - 1);
            host.queue(10, INPUT, number, 5);
            host.owes(figure, figure);
            host.queue(20, OUTPUT, number, 5);
            host.owes(figure + 1, figure + 1);
        }
        host.drain(30);
        host.owes(5, 5);
        for command in [
            frame(STREAM_DRAIN, 7, 8),
            resource_queue(7, INPUT, 1, 5, 0),
            resource_queue(7, OUTPUT, 1, 5, 0),
            resource_queue(7, OUTPUT, 3, 5, 0),
            on_queue(RESOURCE_DESTROY_ALL, 7, INPUT),
            stream_create(7, MPEG2, b""),
        ] {
            assert!(host.command(3, &command).is_ok());
            host.owes(5, 5);
        }
        host.not_drained();
        host.not_finished(OUTPUT, 1, 2, 5);
        host.not_finished(INPUT, 3, 0, 5);
        let mut room = [0; ROOM - 1];
        let clear = on_queue(QUEUE_CLEAR, 7, INPUT);
        assert_eq!(host.core.command(&mut host.table, 3, &clear, &mut room).refusal, 3);
        host.owes(5, 5);
    }

    /// A finish answers one, and with EOS two; a drained report one.
    fn what_reports_leave_pending(host: with_stream) {
        host.fill(7, INPUT, 3);
        host.fill(7, OUTPUT, 3);
        host.drain(30);
        host.owes(7, 7);
        for (queue_type, resource, flags, left) in
            [(INPUT, 0, 0, 6), (OUTPUT, 1, 1, 5), (INPUT, 1, 1, 4), (INPUT, 2, 0, 3), (OUTPUT, 0, 2, 1)]
        {
            assert!(host.finish(7, queue_type, resource, flags, 6).is_ok());
            host.owes(left, left);
        }
        host.drain(31);
        assert_eq!(host.finish(7, OUTPUT, 2, 3, 6), last(2, 6, 3, 31));
        host.owes(0, 0);
        host.destroy_all(OUTPUT);
        host.drain(32);
        host.owes(1, 1);
        assert_eq!(host.drained(7), ok(32, 7));
        host.owes(0, 0);
    }

    /// A clear answers all of its queue, and for input the drain; a destruction all that is left, and the
    /// stream is then unknown.
    fn what_stops_leave_pending(host: with_stream) {
        host.fill(7, INPUT, 3);
        host.fill(7, OUTPUT, 2);
        host.drain(30);
        host.owes(6, 6);
        for (queue_type, left) in [(OUTPUT, 4), (OUTPUT, 4), (INPUT, 0), (INPUT, 0)] {
            assert!(host.command(3, &on_queue(QUEUE_CLEAR, 7, queue_type)).is_ok());
            host.owes(left, left);
        }
        host.queue(20, OUTPUT, 1, 5);
        host.drain(31);
        host.clear(INPUT, Some(31));
        host.owes(1, 1);
        host.queue(10, INPUT, 1, 5);
        host.drain(32);
        host.owes(3, 3);
        assert!(host.command(3, &frame(STREAM_DESTROY, 7, 8)).is_ok());
        assert_eq!(host.in_all(), [0, 0, 1]);
        host.unknown(&[7]);
        assert_eq!(host.behind()[32..], [0; 32]);
    }

    /// A stream in place k takes k + 2 words, vacant places before it included; an unknown one 8. A
    /// new stream is looked for in the lowest place that was vacant.
    fn words_read_by_place(host: new) {
        let numbers = [7, 0, 1023, 5, 31, 32, 9, 1];
        host.create(numbers);
        for gone in [None, Some(0), Some(3), Some(7)] {
            if let Some(place) = gone {
                host.destroy(numbers[place]);
                host.unknown(&[numbers[place]]);
            }
            for (words, number) in (2..).zip(numbers) {
                if host.table[BLOCK * (words as usize - 2)] == 1 {
                    assert_eq!(host.of_stream(number), [0, 0, words]);
                }
            }
        }
        for (number, words) in [(100, 2), (101, 5), (102, 9)] {
            host.unknown(&[number]);
            host.create([number]);
            assert_eq!(host.command(1, &frame(STREAM_DRAIN, number, 8)), Ok(vec![]));
            assert_eq!(host.of_stream(number), [0, 1, words]);
        }
        assert_eq!(host.in_all(), [0, 3, 1]);
        let behind = [101, 1, 1024, 102, 32, 33, 10, 103, 1, 0, 0, 1, 0, 0, 0, 1];
        assert_eq!(host.table[4130..4146], behind);
    }

    /// A number of no live stream is owed nothing: one never used, one destroyed, one that none can
    /// have. 2^32 - 1 is not found where a place is vacant.
    fn unknown_streams(host: new) {
        let never = [0, 1, 6, 8, 9, 1022, 1023, 1024, 1025, 1 << 31, u32::MAX - 1, u32::MAX];
        host.unknown(&never);
        host.unknown(&[7]);
        for numbers in [7..8, 100..107] {
            host.create(numbers);
            host.unknown(&never);
        }
        host.fill(7, INPUT, 2);
        host.unknown(&never);
        host.owes(2, 2);
        assert!(host.command(3, &frame(STREAM_DESTROY, 7, 8)).is_ok());
        host.unknown(&never);
        host.unknown(&[7]);
    }

    /// Eight streams with 16 inputs and 16 outputs Queued and a drain: 33 each, 264 in all.
    fn all_that_can_be_pending(host: new) {
        host.create(1016..1024);
        for (place, number) in (1016..1024).enumerate() {
            host.fill(number, INPUT, 16);
            host.fill(number, OUTPUT, 16);
            assert_eq!(host.of_stream(number), [0, 32, place as u32 + 2]);
            assert_eq!(host.command(1, &frame(STREAM_DRAIN, number, 8)), Ok(vec![]));
            assert_eq!(host.of_stream(number), [0, 33, place as u32 + 2]);
            assert_eq!(host.in_all(), [0, 33 * (place as u32 + 1), 1]);
        }
        assert_eq!(host.in_all(), [0, 264, 1]);
        assert_eq!(host.table[4138..4146], [33; 8]);
        host.unknown(&[1015, 1024, u32::MAX]);
        assert_eq!(host.finish(1023, OUTPUT, 15, 0, 6), Ok(vec![buffer(15, 1023, 6, 0)]));
        assert_eq!([host.in_all(), host.of_stream(1023)], [[0, 263, 1], [0, 32, 9]]);
        assert!(host.command(3, &frame(STREAM_DESTROY, 1016, 8)).is_ok());
        assert_eq!(host.in_all(), [0, 230, 1]);
        assert_eq!(host.table[4130..4132], [0, 1018]);
        host.unknown(&[1016, u32::MAX]);
    }

    /// The figures of other streams stay, whatever is done to one, and each keeps its own.
    fn pending_answers_of_other_streams(host: with_stream) {
        host.create([8, 9]);
        host.fill(8, INPUT, 2);
        host.fill(9, OUTPUT, 3);
        let others = |host: &Host<C>| [host.of_stream(8), host.of_stream(9)];
        let kept = [[0, 2, 3], [0, 3, 4]];
        assert_eq!(others(&host), kept);
        host.fill(7, INPUT, 1);
        host.fill(7, OUTPUT, 1);
        host.drain(30);
        host.owes(8, 3);
        assert_eq!(others(&host), kept);
        assert!(host.finish(7, INPUT, 0, 0, 6).is_ok());
        host.owes(7, 2);
        assert!(host.finish(7, OUTPUT, 0, 2, 6).is_ok());
        host.owes(5, 0);
        assert_eq!(others(&host), kept);
        host.destroy(7);
        assert_eq!(host.in_all(), [0, 5, 1]);
        assert_eq!(others(&host), kept);
    }

    /// A word of the figures that does not follow from the blocks makes the table invalid: the total,
    /// and of places live and vacant the mark and the figure.
    fn figures_of_a_table(host: with_stream) {
        host.create([0, 8, 9]);
        host.destroy(0);
        host.fill(8, INPUT, 2);
        host.fill(9, OUTPUT, 16);
        host.valid();
        let kept: Vec<u32> = host.table[4129..4146].to_vec();
        assert_eq!(kept, [18, 8, 0, 9, 10, 0, 0, 0, 0, 0, 0, 2, 16, 0, 0, 0, 0]);
        for (at, word) in (4129..).zip(kept) {
            let (less, more) = (word.wrapping_sub(1), word + 1);
            let others = [0, 1, 2, 7, 8, 9, 16, 18, 33, 256 + word, 1024 + word, u32::MAX];
            for value in others.into_iter().chain([less, more]).filter(|&value| value != word) {
                host.table[at] = value;
                host.invalid();
            }
            host.table[at] = word;
        }
        host.valid();
    }

    /// Figures that fit each other and not the blocks make it invalid too.
    fn figures_that_fit_each_other(host: with_stream) {
        host.create([8, 9]);
        host.fill(8, INPUT, 2);
        host.fill(9, OUTPUT, 3);
        let right = host.table.clone();
        for (changed, words) in [
            ("another total, and a figure", &[(4129, 6), (4139, 3)][..]),
            ("figures of the same sum", &[(4139, 1), (4140, 4)]),
            ("figures turned", &[(4139, 3), (4140, 2)]),
            ("marks turned", &[(4131, 10), (4132, 9)]),
            ("places turned", &[(4131, 10), (4132, 9), (4139, 3), (4140, 2)]),
            ("a figure in a vacant place", &[(4140, 0), (4141, 3)]),
            ("a place moved", &[(4132, 0), (4133, 10), (4140, 0), (4141, 3)]),
            ("a destroyed place", &[(4129, 2), (4132, 0), (4140, 0)]),
            ("no figures", &[(4129, 0), (4130, 0), (4131, 0), (4132, 0), (4139, 0), (4140, 0)]),
        ] {
            for &(at, value) in words {
                host.table[at] = value;
            }
            assert_ne!(host.table, right, "{changed}");
            host.invalid();
            host.table.clone_from(&right);
        }
        host.valid();
    }

    /// Other records with the figures that follow from them are valid; with the old ones they are not.
    fn figures_follow_the_blocks(host: with_stream) {
        let (input, output) = (INPUT_AT + 4 + 5 * 15, OUTPUT_AT + 4);
        for (at, values) in [(3, [1, 0]), (input, [2, 3]), (output, [2, 1])] {
            for (value, figure) in values.into_iter().zip([1, 0]) {
                host.table[at] = value;
                host.invalid();
                host.put_pending(figure);
                assert_eq!(host.of_stream(7), [0, figure, 2]);
                assert!(host.command(1, &frame(QUERY_CONTROL, 7, 16)).is_ok());
            }
        }
        host.table[1] = 6;
        host.table[4096] |= 1 << 6;
        host.invalid();
        host.put_number(6);
        host.valid();
        host.unknown(&[7]);
        assert_eq!(host.of_stream(6), [0, 0, 2]);
    }

    /// A question is served whatever the table is: it gives what the words hold. Of several places
    /// with its mark the first counts, and the blocks are not looked at.
    fn questions_on_an_invalid_table(host: with_stream) {
        host.table[..4096].fill(0x5a5a_5a5a);
        host.table[4129] = u32::MAX;
        host.invalid();
        assert_eq!(host.in_all(), [0, u32::MAX, 1]);
        assert_eq!(host.of_stream(7), [0, 0, 2]);
        host.unknown(&[0x5a5a_5a5a]);
        let marks = [0, 8, 0, 1025, 8, u32::MAX, 1025, 0x5a5a_5a5b];
        host.table[4130..4138].copy_from_slice(&marks);
        host.table[4138..4146].copy_from_slice(&[1000, 1001, 1002, 1003, 1004, 1005, 1006, u32::MAX]);
        for (number, figure, words) in [
            (7, 1001, 3),
            (1024, 1003, 5),
            (u32::MAX - 1, 1005, 7),
            (0x5a5a_5a5a, u32::MAX, 9),
        ] {
            assert_eq!(host.of_stream(number), [0, figure, words]);
        }
        host.unknown(&[0, 6, 8, 1023, 1025, u32::MAX - 2, u32::MAX]);
        host.table[4130..4138].fill(0);
        host.unknown(&[0, 7, u32::MAX]);
        host.table[4130..4138].fill(u32::MAX);
        host.unknown(&[0, 7, u32::MAX]);
        assert_eq!(host.of_stream(u32::MAX - 1), [0, 1000, 2]);
    }

    /// A table of 4,159 words is refused with 1, whatever is in it; one of 4,160 or more is not.
    fn questions_by_length(host: with_stream) {
        host.drain(30);
        host.table.resize(4160 + 600, 8);
        for words in [0, 1, 4095, 4096, 4129, 4130, 4131, 4138, 4139, 4146, 4159] {
            let table = &host.table[..words];
            assert_eq!(numbers_of(host.core.pending_in_all(table)), [1, 0, 0]);
            for number in [7, 8, u32::MAX] {
                assert_eq!(numbers_of(host.core.pending_of_stream(table, number)), [1, 0, 0]);
            }
        }
        for words in [4160, 4161, 4160 + 512, 4160 + 600] {
            let table = &host.table[..words];
            assert_eq!(numbers_of(host.core.pending_in_all(table)), [0, 1, 1]);
            assert_eq!(numbers_of(host.core.pending_of_stream(table, 7)), [0, 1, 2]);
            assert_eq!(numbers_of(host.core.pending_of_stream(table, 8)), [0, 0, 8]);
        }
    }

    /// Making the table fresh leaves nothing pending, unless it is too short.
    fn fresh_leaves_nothing_pending(host: with_stream) {
        host.fill(7, INPUT, 2);
        host.drain(30);
        assert_eq!(host.core.fresh(&mut host.table[..4159]), 1);
        host.owes(3, 3);
        host.table[4128..4160].fill(u32::MAX);
        assert_eq!(host.core.fresh(&mut host.table), 0);
        assert_eq!(host.behind(), [0; 64]);
        assert_eq!(host.in_all(), [0, 0, 1]);
        host.unknown(&[7, u32::MAX - 1, u32::MAX]);
        host.create([7]);
        host.owes(0, 0);
    }

    /// "Tested 1, 3, 2, then 4".
    fn order_of_refusals(host: with_stream) {
        let mut room = [0; ROOM];
        let short = [0; 7];
        let refusal =
            |table: &mut [u32], room: &mut [u8]| host.core.command(table, 1, &short, room).refusal;
        let table = &mut host.table;
        assert_eq!(refusal(table, &mut room), 4);
        table[5] = 1;
        assert_eq!(refusal(table, &mut room), 2);
        assert_eq!(refusal(table, &mut room[..ROOM - 1]), 3);
        assert_eq!(refusal(&mut table[..WORDS - 1], &mut room[..ROOM - 1]), 1);
        // A room is asked for also where little or nothing would be written.
        table[5] = 0;
        let report = Report { stream: 7, queue_type: INPUT, resource: 1, flags: 4, timestamp: 0 };
        assert_eq!(host.core.finish(table, &report, &mut room[..ROOM - 1]).refusal, 3);
        assert_eq!(host.core.drained(table, 7, &mut []).refusal, 3);
        table[5] = 1;
        assert_eq!(host.core.fresh(&mut table[..WORDS - 1]), 1);
        assert_eq!(table[5], 1);
    }
}
