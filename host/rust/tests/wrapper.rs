//! The wrapper: what it hands to the archive, and what it makes of the result.

#[allow(dead_code)]
#[path = "../examples/guest/mod.rs"]
mod guest;

use std::collections::HashSet;
use virtio_video_decoder::log::{self, AnswerLine, Fault, Frame, Line, Verdict};
use virtio_video_decoder::QueueType::{Input, Output};
use virtio_video_decoder::{ffi, wire, Decoder, Finish, Pending, Refusal, Response};

/// Where the figures of pending answers stand: the total, and for each place its mark, which is the
/// number of its stream and 1, and its figure.
const TOTAL: usize = 4129;
const MARKS: usize = 4130;
const FIGURES: usize = 4138;

/// A device with stream 7, inputs 1 and 2 and output 1.
fn ready() -> Decoder {
    let mut decoder = Decoder::new();
    let commands = [
        guest::create(7, wire::FORMAT_VP9, "caf\u{e9}"),
        guest::import(7, Input, 2, 1),
        guest::import(7, Input, 1, 256),
        guest::import(7, Output, 1, 3),
    ];
    for command in &commands {
        assert_eq!(tell(&mut decoder, command), [done(0)]);
    }
    decoder
}

/// Tickets and responses of a command with ticket 0.
fn tell(decoder: &mut Decoder, frame: &[u8]) -> Vec<(u32, Response)> {
    read(decoder.command(0, frame).unwrap())
}

fn read(answers: virtio_video_decoder::Answers<'_>) -> Vec<(u32, Response)> {
    answers.map(|a| (a.ticket, Response::from_bytes(a.response).unwrap())).collect()
}

fn done(ticket: u32) -> (u32, Response) {
    (ticket, Response::Done { stream: 7 })
}

fn buffer(ticket: u32, timestamp: u64, flags: u32) -> (u32, Response) {
    let stream = 7;
    let response = Response::Buffer { stream, timestamp, flags };
    (ticket, response)
}

fn error(code: u32) -> (u32, Response) {
    (0, Response::Error { stream: 7, code })
}

fn finish(queue: virtio_video_decoder::QueueType, resource: u32, flags: u32) -> Finish {
    Finish { stream: 7, queue, resource, flags, timestamp: u64::MAX }
}

#[test]
fn a_new_device_has_a_table_of_zeros() {
    assert_eq!(Decoder::new().table(), &[0; wire::TABLE_WORDS]);
    assert_eq!(Decoder::default().table(), Decoder::new().table());
}

#[test]
fn answers_carry_tickets_in_order() {
    let mut decoder = ready();
    let big = 0x1234_5678_9abc_def0;
    for (ticket, resource, timestamp) in [(u32::MAX, 2, big), (5, 1, 9)] {
        let frame = guest::queue(7, Input, resource, timestamp);
        let answers = decoder.command(ticket, &frame).unwrap();
        assert!(answers.as_bytes().is_empty());
        assert_eq!(answers.count(), 0);
    }
    decoder.command(8, &guest::drain(7)).unwrap();
    let mut answers = decoder.command(9, &guest::clear(7, Input)).unwrap();
    assert_eq!(answers.as_bytes().len(), 32 + 32 + 16 + 16);
    assert_eq!(
        read(answers.clone()),
        [buffer(5, 9, 1), buffer(u32::MAX, big, 1), done(8), done(9)]
    );
    assert_eq!(answers.by_ref().count(), 4);
    assert_eq!(answers.next(), None);
    assert_eq!(answers.as_bytes(), []);
}

#[test]
fn a_finish_passes_every_field() {
    let mut decoder = ready();
    decoder.command(3, &guest::queue(7, Input, 1, 40)).unwrap();
    decoder.command(4, &guest::queue(7, Output, 1, 41)).unwrap();
    let input = read(decoder.finish(finish(Input, 1, 1)).unwrap());
    assert_eq!(input, [buffer(3, 40, 1)]);
    let output = read(decoder.finish(finish(Output, 1, 0)).unwrap());
    assert_eq!(output, [buffer(4, u64::MAX, 0)]);
}

#[test]
fn a_drain_is_answered_with_the_last_output() {
    let mut decoder = ready();
    for flags in [wire::BUFFER_FLAG_EOS, wire::BUFFER_FLAG_EOS | wire::BUFFER_FLAG_ERR] {
        let last = finish(Output, 1, flags);
        decoder.command(3, &guest::queue(7, Input, 2, 40)).unwrap();
        decoder.command(4, &guest::queue(7, Output, 1, 0)).unwrap();
        assert_eq!(decoder.finish(last).unwrap_err(), Refusal::BadFlags);
        assert_eq!(decoder.command(5, &guest::drain(7)).unwrap().count(), 0);
        // Not before the last input.
        assert_eq!(decoder.finish(last).unwrap_err(), Refusal::UnexpectedReport);
        decoder.finish(finish(Input, 2, 0)).unwrap();
        assert_eq!(decoder.drained(7).unwrap_err(), Refusal::UnexpectedReport);
        let answers = decoder.finish(last).unwrap();
        assert_eq!(answers.as_bytes().len(), 32 + 16);
        assert_eq!(read(answers), [buffer(4, u64::MAX, flags), done(5)]);
        // And not a second time.
        assert_eq!(decoder.drained(7).unwrap_err(), Refusal::UnexpectedReport);
        assert_eq!(tell(&mut decoder, &guest::clear(7, Input)), [done(0)]);
        decoder.command(6, &guest::queue(7, Output, 1, 0)).unwrap();
        assert_eq!(decoder.finish(last).unwrap_err(), Refusal::BadFlags);
        decoder.finish(finish(Output, 1, 0)).unwrap();
    }
}

#[test]
fn a_drain_without_outputs_is_answered_when_drained() {
    let mut decoder = ready();
    decoder.command(3, &guest::drain(7)).unwrap();
    assert_eq!(decoder.drained(7).unwrap_err(), Refusal::UnexpectedReport);
    assert_eq!(tell(&mut decoder, &guest::destroy_all(7, Output)), [done(0)]);
    assert_eq!(read(decoder.drained(7).unwrap()), [done(3)]);
    assert_eq!(decoder.drained(7).unwrap_err(), Refusal::UnexpectedReport);
}

#[test]
fn parameters_are_read() {
    let mut decoder = ready();
    let size = (4096, 16);
    let set = guest::set_params(7, Output, wire::FORMAT_NV12, size);
    assert_eq!(tell(&mut decoder, &set), [done(0)]);
    for (queue, format, (width, height)) in
        [(Input, wire::FORMAT_VP9, (640, 480)), (Output, wire::FORMAT_NV12, size)]
    {
        let answers = tell(&mut decoder, &guest::get_params(7, queue));
        let [(0, Response::Params { stream: 7, params })] = answers[..] else {
            panic!("{answers:?}");
        };
        assert_eq!(params.queue_type, queue.number());
        assert_eq!(params.format, format);
        assert_eq!((params.width, params.height), (width, height));
        assert_eq!(params.rate, 0);
    }
}

#[test]
fn guest_errors_are_answers() {
    let mut decoder = ready();
    let before = *decoder.table();
    let again = guest::create(7, wire::FORMAT_VP9, "");
    for (frame, code) in [
        (again, wire::RESP_ERR_INVALID_STREAM_ID),
        (guest::import(7, Input, 1, 1), wire::RESP_ERR_INVALID_RESOURCE_ID),
        (guest::queue(7, Output, 2, 0), wire::RESP_ERR_INVALID_RESOURCE_ID),
        (guest::import(7, Input, 3, 257), wire::RESP_ERR_INVALID_PARAMETER),
        (guest::drain(7)[..8].repeat(2), wire::RESP_ERR_INVALID_PARAMETER),
        (vec![0, 1, 0, 0, 7, 0, 0, 0], wire::RESP_ERR_INVALID_OPERATION),
    ] {
        assert_eq!(tell(&mut decoder, &frame), [error(code)]);
        assert_eq!(decoder.table(), &before);
    }
}

#[test]
fn refusals_leave_the_table() {
    let mut decoder = ready();
    decoder.command(3, &guest::queue(7, Input, 1, 40)).unwrap();
    let before = *decoder.table();
    for length in 0..8 {
        let refusal = decoder.command(1, &guest::drain(7)[..length]).unwrap_err();
        assert_eq!(refusal, Refusal::ShortCommand);
    }
    for (report, refusal) in [
        (finish(Input, 1, 4), Refusal::BadFlags),
        (finish(Input, 1, wire::BUFFER_FLAG_EOS), Refusal::BadFlags),
        (finish(Input, 2, 0), Refusal::UnexpectedReport),
        (finish(Output, 1, 0), Refusal::UnexpectedReport),
    ] {
        assert_eq!(decoder.finish(report).unwrap_err(), refusal);
    }
    assert_eq!(decoder.drained(7).unwrap_err(), Refusal::UnexpectedReport);
    assert_eq!(decoder.table(), &before);
}

#[test]
fn words_are_the_device() {
    let mut decoder = ready();
    decoder.command(3, &guest::queue(7, Input, 1, 40)).unwrap();
    let mut second = Decoder::from_words(decoder.table());
    let mut third = decoder.clone();
    let report = finish(Input, 1, 0);
    let answer = read(decoder.finish(report).unwrap());
    assert_eq!(read(second.finish(report).unwrap()), answer);
    assert_eq!(read(third.finish(report).unwrap()), answer);
    assert_eq!(second.table(), decoder.table());
    decoder.reset();
    assert_eq!(decoder.table(), Decoder::new().table());
    assert_ne!(third.table(), decoder.table());
}

#[test]
fn numbers_are_spent_until_a_reset() {
    let mut decoder = ready();
    let create = guest::create(7, wire::FORMAT_VP9, "");
    let spent = [error(wire::RESP_ERR_INVALID_STREAM_ID)];
    assert_eq!(tell(&mut decoder, &create), spent);
    decoder.command(3, &guest::queue(7, Input, 1, 40)).unwrap();
    decoder.command(4, &guest::drain(7)).unwrap();
    let stopped = [buffer(3, 40, 1), done(4), done(0)];
    assert_eq!(tell(&mut decoder, &guest::destroy(7)), stopped);
    // A saved device has its spent numbers too.
    for decoder in [&mut Decoder::from_words(decoder.table()), &mut decoder] {
        assert_eq!(tell(decoder, &create), spent);
        let late = decoder.finish(finish(Input, 1, 0)).unwrap_err();
        assert_eq!(late, Refusal::UnexpectedReport);
        assert_eq!(decoder.finish(finish(Input, 1, 4)).unwrap_err(), Refusal::BadFlags);
        assert_eq!(decoder.drained(7).unwrap_err(), Refusal::UnexpectedReport);
        decoder.reset();
        assert_eq!(tell(decoder, &create), [done(0)]);
    }
}

#[test]
fn words_of_no_device_are_refused() {
    for (word, value) in [
        // Words without use, a drain's word above 1, and a ticket with no drain.
        (511, 1),
        (wire::TABLE_WORDS - 1, 1),
        (3, 2),
        (4, 1),
        // The number of the live stream, which is no longer spent.
        (4096, 0),
        // Figures of pending answers that do not match: the total, a mark, a figure.
        (TOTAL, 1),
        (MARKS, 0),
        (MARKS + 1, 9),
        (FIGURES, 1),
    ] {
        let mut words = *ready().table();
        assert_ne!(words[word], value);
        words[word] = value;
        let mut decoder = Decoder::from_words(&words);
        let refused = [
            decoder.command(1, &guest::drain(7)).unwrap_err(),
            decoder.finish(finish(Input, 1, 0)).unwrap_err(),
            decoder.drained(7).unwrap_err(),
        ];
        assert_eq!(refused, [Refusal::InvalidTable; 3]);
        assert_eq!(decoder.table(), &words);
        decoder.reset();
        assert_eq!(tell(&mut decoder, &guest::drain(7)), [error(0x0302)]);
    }
}

fn pending(pending: u32, words_read: u32) -> Pending {
    Pending { pending, words_read }
}

/// What is pending after each step, in all and to stream 7, which is alone and has the first place.
#[test]
fn pending_answers_are_counted() {
    let command = |command| Frame::Command { ticket: 0, command };
    let finish = |queue: virtio_video_decoder::QueueType, resource, flags| {
        let (stream, queue_type, timestamp) = (7, queue.number(), 0);
        Frame::Finish { stream, queue_type, resource, flags, timestamp }
    };
    let last = finish(Output, 1, wire::BUFFER_FLAG_EOS);
    let mut decoder = ready();
    assert_eq!(decoder.pending_of_stream(7), pending(0, 2));
    for (step, count) in [
        (command(guest::queue(7, Input, 1, 40)), 1),
        (command(guest::queue(7, Input, 1, 40)), 1), // an error
        (command(guest::queue(7, Input, 2, 41)), 2),
        (command(guest::queue(7, Output, 1, 0)), 3),
        (command(guest::drain(7)), 4),
        (command(guest::drain(7)), 4), // an error
        (finish(Input, 2, 0), 3),
        (last.clone(), 3), // refused
        (finish(Input, 1, 1), 2),
        (last.clone(), 0), // two answers
        (last, 0),         // refused
        (command(guest::queue(7, Output, 1, 0)), 1),
        (command(guest::drain(7)), 2),
        (command(guest::clear(7, Output)), 1),
        (command(guest::destroy_all(7, Output)), 1),
        (Frame::Drained { stream: 7 }, 0),
        (command(guest::queue(7, Input, 2, 42)), 1),
        (command(guest::drain(7)), 2),
        (command(guest::clear(7, Input)), 0),
        (command(guest::queue(7, Input, 1, 43)), 1),
    ] {
        step.replay(&mut decoder);
        let before = *decoder.table();
        assert_eq!(decoder.pending_in_all(), pending(count, 1), "{step:?}");
        assert_eq!(decoder.pending_of_stream(7), pending(count, 2), "{step:?}");
        assert_eq!(decoder.table(), &before);
    }
    tell(&mut decoder, &guest::destroy(7));
    assert_eq!(decoder.pending_in_all(), pending(0, 1));
    assert_eq!(decoder.pending_of_stream(7), pending(0, 8));
}

#[test]
fn streams_are_looked_for_in_order() {
    let mut decoder = Decoder::new();
    let none = pending(0, 8);
    for stream in [0, 7, 1023, 1024, u32::MAX] {
        assert_eq!(decoder.pending_of_stream(stream), none);
    }
    // Each place has one answer more than the one before.
    let numbers = [0, 1023, 5, 1, 900, 31, 32, 7];
    for (stream, count) in numbers.into_iter().zip(1..) {
        decoder.command(0, &guest::create(stream, wire::FORMAT_VP8, "")).unwrap();
        assert_eq!(decoder.pending_of_stream(stream), pending(0, count + 1));
        for resource in 0..count {
            decoder.command(0, &guest::import(stream, Output, resource, 1)).unwrap();
            decoder.command(0, &guest::queue(stream, Output, resource, 1)).unwrap();
        }
    }
    for (stream, count) in numbers.into_iter().zip(1..) {
        assert_eq!(decoder.pending_of_stream(stream), pending(count, count + 1));
    }
    assert_eq!(decoder.pending_in_all(), pending(36, 1));
    assert_eq!(decoder.pending_of_stream(u32::MAX), none);

    // A vacant place is looked at too, and is no stream's. The next one takes it.
    decoder.command(0, &guest::destroy(5)).unwrap();
    assert_eq!(decoder.pending_in_all(), pending(33, 1));
    for stream in [5, u32::MAX] {
        assert_eq!(decoder.pending_of_stream(stream), none);
    }
    assert_eq!(decoder.pending_of_stream(7), pending(8, 9));
    decoder.command(0, &guest::create(6, wire::FORMAT_VP8, "")).unwrap();
    decoder.command(0, &guest::drain(6)).unwrap();
    assert_eq!(decoder.pending_of_stream(6), pending(1, 4));
    decoder.reset();
    assert_eq!(decoder.pending_in_all(), pending(0, 1));
    assert_eq!(decoder.pending_of_stream(7), none);
}

/// A question tests nothing but the length. It gives what the words hold, that of the first mark.
#[test]
fn any_words_are_asked() {
    let mut words = [0xaaaa_aaaa; wire::TABLE_WORDS + 1];
    words[TOTAL] = u32::MAX;
    words[MARKS..FIGURES].copy_from_slice(&[0, 8, 0, 8, 9, 1, 1024, u32::MAX]);
    for (figure, at) in words[FIGURES..FIGURES + 8].iter_mut().zip(100..) {
        *figure = at;
    }
    let before = words;
    let said = |refusal, (pending, words_read)| ffi::Pending { refusal, pending, words_read };
    assert_eq!(ffi::pending_in_all(&words), said(0, (u32::MAX, 1)));
    for (stream, expected) in [
        (7, (101, 3)),
        (8, (104, 6)),
        (0, (105, 7)),
        (1023, (106, 8)),
        (u32::MAX - 1, (107, 9)),
        (1, (0, 8)),
        (u32::MAX, (0, 8)),
    ] {
        assert_eq!(ffi::pending_of_stream(&words, stream), said(0, expected), "{stream}");
        let full = &words[..wire::TABLE_WORDS];
        assert_eq!(ffi::pending_of_stream(full, stream), said(0, expected), "{stream}");
        for short in [&words[..wire::TABLE_WORDS - 1], &[]] {
            assert_eq!(ffi::pending_of_stream(short, stream), said(1, (0, 0)));
            assert_eq!(ffi::pending_in_all(short), said(1, (0, 0)));
        }
    }
    assert_eq!(words, before);
    // A device of such words has these figures, though its steps are refused.
    let decoder = Decoder::from_words(words[..wire::TABLE_WORDS].try_into().unwrap());
    assert_eq!(decoder.pending_in_all(), pending(u32::MAX, 1));
    assert_eq!(decoder.pending_of_stream(7), pending(101, 3));
}

#[test]
fn slices_of_any_length_are_lent() {
    let outcome = |refusal| ffi::Outcome { refusal, written: 0 };
    let mut table = vec![0; wire::TABLE_WORDS + 1];
    let mut room = vec![0xaa; wire::ANSWER_ROOM + 1];
    table[wire::TABLE_WORDS] = 77;
    let frame = guest::create(7, wire::FORMAT_MPEG2, "");

    assert_eq!(wire::TABLE_WORDS, 4160);
    assert_eq!(ffi::fresh(&mut []), 1);
    assert_eq!(ffi::fresh(&mut table[1..wire::TABLE_WORDS]), 1);
    assert_eq!(ffi::command(&mut [], 1, &[], &mut []), outcome(1));
    assert_eq!(ffi::drained(&mut table, 7, &mut []), outcome(3));
    let short = &mut room[..wire::ANSWER_ROOM - 1];
    assert_eq!(ffi::command(&mut table, 1, &frame, short), outcome(3));
    assert_eq!(ffi::command(&mut table, 1, &[], &mut room), outcome(4));
    assert_eq!(room, vec![0xaa; wire::ANSWER_ROOM + 1]);
    // A queue type that `QueueType` does not have.
    assert_eq!(ffi::finish(&mut table, 7, 0x102, 1, 0, 0, &mut room), outcome(5));

    let created = ffi::command(&mut table, 1, &frame, &mut room);
    assert_eq!((created.refusal, created.written), (0, 16));
    assert_eq!(room[..16], [1, 0, 0, 0, 8, 0, 0, 0, 0, 2, 0, 0, 7, 0, 0, 0]);
    assert!(room[16..].iter().all(|&byte| byte == 0xaa));
    assert_eq!(table[wire::TABLE_WORDS], 77);
}

#[test]
fn the_room_holds_the_longest_step() {
    let mut decoder = Decoder::new();
    tell(&mut decoder, &guest::create(7, wire::FORMAT_HEVC, ""));
    for queue in [Input, Output] {
        for resource in (0..16).rev() {
            tell(&mut decoder, &guest::import(7, queue, resource, 1));
            tell(&mut decoder, &guest::queue(7, queue, resource, resource.into()));
        }
    }
    decoder.command(4, &guest::drain(7)).unwrap();
    assert_eq!(decoder.pending_of_stream(7), pending(33, 2));
    let answers = decoder.command(5, &guest::destroy(7)).unwrap();
    assert_eq!(answers.as_bytes().len(), wire::ANSWER_ROOM);
    let buffers = || (0..16).map(|n| buffer(0, n, 1));
    let expected: Vec<_> = buffers().chain(buffers()).chain([done(4), done(5)]).collect();
    assert_eq!(read(answers), expected);
    // Nothing is left but that number 7 is spent.
    let mut words = *Decoder::new().table();
    words[4096] = 1 << 7;
    assert_eq!(decoder.table(), &words);
}

#[test]
fn refusals_have_numbers_and_texts() {
    let numbers: Vec<u32> = Refusal::ALL.iter().map(|r| r.number()).collect();
    assert_eq!(numbers, [1, 2, 3, 4, 5, 6]);
    let texts: HashSet<String> = Refusal::ALL.iter().map(Refusal::to_string).collect();
    assert_eq!(texts.len(), 6);
    for refusal in Refusal::ALL {
        assert_eq!(Refusal::from_number(refusal.number()), Some(refusal));
        let error: Box<dyn std::error::Error> = refusal.into();
        assert!(error.to_string().ends_with(&format!("(refusal {})", refusal.number())));
    }
    assert_eq!(Refusal::from_number(0), None);
    assert_eq!(Refusal::from_number(7), None);
}

#[test]
fn other_bytes_are_no_response() {
    for length in [0, 7, 9, 16, 24, 120, 121] {
        assert_eq!(Response::from_bytes(&vec![0; length]), None);
    }
    assert_eq!(Response::from_bytes(&[0, 2, 0, 0, 7, 0, 0, 0, 0]), None);
    assert_eq!(Response::from_bytes(&[2, 2, 0, 0, 7, 0, 0, 0]), None);
    // Of a buffer's length, but of another type.
    for kind in [wire::RESP_OK_NODATA, wire::RESP_OK_GET_PARAMS, wire::RESP_ERR_OUT_OF_MEMORY] {
        let bytes = [&kind.to_le_bytes()[..], &[0; 20]].concat();
        assert_eq!(Response::from_bytes(&bytes), None);
    }
    assert_eq!(Response::from_bytes(&[3, 2, 0, 0, 7, 0, 0, 0]), None);
    assert_eq!(Response::from_bytes(&[6, 3, 0, 0, 7, 0, 0, 0]), None);
}

/// A drain of stream 7, which is not there, and its answer.
const DRAIN: &str = "00050000000301000007000000\n";
const NO_STREAM: &str = "80050000000203000007000000\n";

fn wrong(line: u64, fault: Fault) -> Verdict {
    Verdict::Wrong { line, fault }
}

#[test]
fn logs_are_checked() {
    for (log, verdict, written) in [
        (String::new(), Verdict::Accepted, "accepted"),
        (format!("{DRAIN}{NO_STREAM}"), Verdict::Accepted, "accepted"),
        (format!("{DRAIN}{DRAIN}"), wrong(2, Fault::Missing), "line 2: missing"),
        (DRAIN.to_owned(), wrong(2, Fault::Missing), "line 2: missing"),
        (NO_STREAM.to_owned(), wrong(1, Fault::Extra), "line 1: extra"),
        (format!("{DRAIN}ff05\n"), wrong(2, Fault::Different), "line 2: different"),
        (format!("{DRAIN}\n{NO_STREAM}"), wrong(2, Fault::Refused), "line 2: refused 7"),
        (format!("{DRAIN}{NO_STREAM}0"), wrong(3, Fault::Refused), "line 3: refused 7"),
    ] {
        assert_eq!(log::check(log.as_bytes()), verdict, "{log}");
        assert_eq!(verdict.to_string(), written);
        let upper = log.to_uppercase();
        assert_eq!(log::check(upper.as_bytes()), verdict, "{upper}");
    }
}

#[test]
fn verdicts_cross_as_numbers() {
    assert_eq!(ffi::check_log(&[]), ffi::Verdict { line: 0, verdict: 0 });
    assert_eq!(ffi::check_log(DRAIN.as_bytes()), ffi::Verdict { line: 2, verdict: 1 });
    assert_eq!(ffi::check_log(b"\n"), ffi::Verdict { line: 1, verdict: 7 });
    assert_eq!(std::mem::size_of::<ffi::Verdict>(), 16);
    assert_eq!(Fault::ALL.map(Fault::number), [1, 2, 3, 7]);
    for fault in Fault::ALL {
        assert_eq!(Fault::from_number(fault.number()), Some(fault));
    }
    assert_eq!(Fault::from_number(0), None);
}

/// The questions of an example are answered as the log program answers them. With the answers in
/// between they are accepted, and without one of them not.
#[test]
fn the_examples_are_replayed_and_checked() {
    let read = |file: &str| {
        let path = format!("{}/../../examples/{file}", env!("CARGO_MANIFEST_DIR"));
        std::fs::read_to_string(&path).expect(&path)
    };
    let (mut answers, mut mixed) = (String::new(), String::new());
    let mut decoder = Decoder::new();
    for line in read("exchange.log").lines() {
        let Line::Question(frame) = Line::read(line.as_bytes()) else { panic!("{line}") };
        mixed += &format!("{line}\n");
        for answer in frame.replay(&mut decoder) {
            answers += &format!("{answer}\n");
            mixed += &format!("{answer}\n");
        }
    }
    assert_eq!(answers, read("exchange.out"));
    assert_eq!(mixed, read("exchange.checked"));
    for name in ["exchange", "rival"] {
        let verdict = log::check(read(&format!("{name}.checked")).as_bytes());
        assert_eq!(format!("{verdict}\n"), read(&format!("{name}.verdict")));
    }
}

#[test]
fn lines_are_told_apart() {
    let command = |ticket, command: &[u8]| {
        Line::Question(Frame::Command { ticket, command: command.to_vec() })
    };
    let finish =
        Frame::Finish { stream: 7, queue_type: 2, resource: 3, flags: 4, timestamp: 1 << 63 };
    let response = |response: &[u8]| {
        Line::Answer(Some(AnswerLine::Response { ticket: 9, response: response.to_vec() }))
    };
    let longest = "0".repeat(log::MAX_LINE);
    for (line, is) in [
        ("0005000000", command(5, &[])),
        ("00ABcdef01ff", command(0x01ef_cdab, &[255])),
        (&longest, command(0, &[0; wire::MAX_CMD_LENGTH])),
        ("01070000000200000003000000040000000000000000000080", Line::Question(finish)),
        ("0207000000", Line::Question(Frame::Drained { stream: 7 })),
        ("8009000000", response(&[])),
        ("800900000001", response(&[1])),
        ("80", Line::Answer(None)),
        ("800900000", Line::Answer(None)),
        ("fF07", Line::Answer(Some(AnswerLine::Refusal(7)))),
        ("Ff0700", Line::Answer(None)),
        ("", Line::Neither),
        ("0", Line::Neither),
        ("8", Line::Neither),
        ("00050000", Line::Neither),
        ("000500000", Line::Neither),
        ("0107000000020000000300000004000000000000000000008", Line::Neither),
        ("010700000002000000030000000400000000000000000000", Line::Neither),
        ("020700000000", Line::Neither),
        ("0207000000\r", Line::Neither),
        ("0305000000", Line::Neither),
    ] {
        assert_eq!(Line::read(line.as_bytes()), is, "{line}");
    }
    assert_eq!(log::MAX_LINE, 8378);
    for long in [longest + "00", "80".repeat(log::MAX_LINE / 2) + "0"] {
        assert_eq!(Line::read(long.as_bytes()), Line::Neither);
    }
}

#[test]
fn frames_of_any_numbers_are_replayed() {
    let mut decoder = ready();
    decoder.command(3, &guest::queue(7, Input, 1, 40)).unwrap();
    let refused = |number| [AnswerLine::Refusal(number)];
    let report = |queue_type, flags| Frame::Finish {
        stream: 7,
        queue_type,
        resource: 1,
        flags,
        timestamp: 0,
    };
    assert_eq!(Frame::Command { ticket: 1, command: vec![0; 7] }.replay(&mut decoder), refused(4));
    assert_eq!(Frame::Drained { stream: 7 }.replay(&mut decoder), refused(5));
    assert_eq!(report(0x102, 0).replay(&mut decoder), refused(5));
    assert_eq!(report(0x102, 4).replay(&mut decoder), refused(6));
    let answers = report(wire::QUEUE_TYPE_INPUT, 1).replay(&mut decoder);
    let written = "8003000000020200000700000028000000000000000100000000000000";
    assert_eq!(answers.iter().map(AnswerLine::to_string).collect::<Vec<_>>(), [written]);
    assert_eq!(report(0x102, 0).stream(), Some(7));
    assert_eq!(Frame::Command { ticket: 1, command: vec![7; 7] }.stream(), None);
    assert_eq!(Frame::Command { ticket: 1, command: guest::drain(9) }.stream(), Some(9));
}

#[test]
fn devices_may_cross_threads() {
    fn check<T: Send + Sync>(_: &T) {}
    let mut decoder = ready();
    check(&decoder);
    decoder.command(3, &guest::drain(7)).unwrap();
    // Any number of threads may ask at the same time.
    std::thread::scope(|scope| {
        let ask = || (decoder.pending_in_all(), decoder.pending_of_stream(7));
        for asked in [scope.spawn(ask), scope.spawn(ask)] {
            assert_eq!(asked.join().unwrap(), (pending(1, 1), pending(1, 2)));
        }
    });
    let handle = std::thread::spawn(move || tell(&mut decoder, &guest::destroy(7)));
    assert_eq!(handle.join().unwrap(), [done(3), done(0)]);
}
