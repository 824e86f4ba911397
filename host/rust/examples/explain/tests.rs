//! What is said of logs, and that nothing in a log can do harm.

#[allow(dead_code)]
#[path = "../guest/mod.rs"]
mod guest;

use crate::account::explain;
use crate::commands;
use virtio_video_decoder::log::{self, Line, Verdict};
use virtio_video_decoder::QueueType::{Input, Output};
use virtio_video_decoder::{wire, Decoder};

const QUESTIONS: &[u8] = include_bytes!("../../../../examples/exchange.log");
const ANSWERED: &[u8] = include_bytes!("../../../../examples/exchange.checked");
const RIVAL: &[u8] = include_bytes!("../../../../examples/rival.checked");

fn explained(log: &[u8]) -> String {
    let mut out = Vec::new();
    explain(log, &mut out).expect("a vector takes everything");
    String::from_utf8(out).expect("words")
}

/// The line of that number, and what is said below it until the next line of the log.
fn said_of(log: &[u8], number: usize) -> Vec<String> {
    let text = explained(log);
    let numbered = |line: &&str| line.split_whitespace().next() == Some(&number.to_string());
    let from = text.lines().skip_while(|line| !numbered(line));
    let (first, below) = (from.clone().take(1), from.skip(1));
    let below = below.take_while(|line| line.starts_with("        "));
    first.chain(below).map(|line| line.trim().to_owned()).collect()
}

/// A log of commands, whose tickets are their lines.
fn log_of(commands: &[Vec<u8>]) -> String {
    let ticketed = commands.iter().zip(1_u32..);
    ticketed.map(|(command, ticket)| line(&[&[0], &ticket.to_le_bytes(), command])).collect()
}

fn finish(stream: u32, queue_type: u32, resource: u32, flags: u32) -> String {
    let words = [stream, queue_type, resource, flags, 500, 0].map(u32::to_le_bytes);
    line(&[&[1], &words.concat()])
}

fn line(parts: &[&[u8]]) -> String {
    let digits = parts.concat().into_iter().map(|byte| format!("{byte:02x}"));
    digits.chain(["\n".to_owned()]).collect()
}

#[test]
fn questions_alone_show_the_answers_of_the_core() {
    let text = explained(QUESTIONS);
    assert!(text.contains("The log has no answers, so there was nothing to check.\n"));
    assert!(text.ends_with("At the end nothing is pending.\n"));
    assert_eq!(text.matches("core: ").count(), log::lines(ANSWERED).count() - 29);
    assert_eq!(
        said_of(QUESTIONS, 21),
        [
            "21  report: finish, stream 7: output 1, timestamp 1033, EOS",
            "core: to ticket 17, output 1 of line 17: buffer, stream 7, timestamp 1033, EOS",
            "core: to ticket 15, drain of line 15: done, stream 7",
            "stream 7: nothing pending",
        ]
    );
}

#[test]
fn a_right_log_is_accepted() {
    let text = explained(ANSWERED);
    assert!(text.contains("\nThe checker says: accepted\n"));
    assert!(!text.contains("^^^") && !text.contains("core: "));
    for number in 1..=log::lines(ANSWERED).count() {
        assert!(!said_of(ANSWERED, number).is_empty(), "{number}");
    }
}

#[test]
fn the_rivals_fault_is_marked() {
    assert_eq!(
        said_of(RIVAL, 38),
        [
            "38  command, ticket 22: RESOURCE_QUEUE, stream 7: input 2, timestamp 2033, sizes 0",
            "^^^ missing: before this the core answers 800f0000000002000007000000",
            "to ticket 15, drain of line 26: done, stream 7",
            "stream 7: pending input 2 (ticket 22, line 38), drain (ticket 15, line 26)",
        ]
    );
    let text = explained(RIVAL);
    assert!(text.ends_with("At the end:\n    stream 7: pending drain (ticket 15, line 26)\n"));
    assert_eq!(text.matches("^^^").count(), 1);
    assert!(text.contains("\nThe checker says: line 38: missing\nIt stops there:"));
    assert!(text.contains("\n    53      to ticket 29: error 0x0302, stream 7: no such stream\n"));
}

#[test]
fn each_fault_is_marked_at_its_line() {
    let drain = "00050000000301000007000000\n";
    let answer = "80050000000203000007000000\n";
    for (log, line, mark) in [
        (format!("{drain}{drain}{answer}"), 2, "missing: before this the core answers"),
        (format!("{drain}{answer}{drain}"), 4, "missing: before this the core answers"),
        (format!("{answer}{drain}"), 1, "extra: no answer is due here"),
        (format!("{drain}{answer}{answer}"), 3, "extra: no answer is due here"),
        (format!("{drain}ff05\n{drain}"), 2, "different: the core answers 8005"),
        (format!("{drain}80 what?\n"), 2, "different: the core answers 8005"),
        (format!("{drain}what?\n{answer}"), 2, "refused 7: no line of a log"),
        (format!("{drain}{answer}\n"), 3, "refused 7: no line of a log"),
    ] {
        let said = said_of(log.as_bytes(), line);
        assert!(said[1].starts_with(&format!("^^^ {mark}")), "{log}: {said:?}");
        assert_eq!(explained(log.as_bytes()).matches("^^^").count(), 1, "{log}");
    }
}

#[test]
fn what_is_pending_is_followed() {
    let commands = [
        guest::create(7, wire::FORMAT_VP9, ""),
        guest::import(7, Input, 1, 1),
        guest::import(7, Output, 9, 1),
        guest::import(7, Output, 2, 1),
        guest::create(8, wire::FORMAT_VP8, ""),
        guest::drain(8),
        guest::queue(7, Output, 9, 0),
        guest::queue(7, Output, 2, 0),
        guest::queue(7, Input, 1, 0),
        guest::drain(7),
        guest::clear(7, Output),
        guest::queue(7, Output, 9, 0),
    ];
    let reports = finish(7, wire::QUEUE_TYPE_INPUT, 1, 0)
        + &finish(7, wire::QUEUE_TYPE_OUTPUT, 9, wire::BUFFER_FLAG_EOS);
    let log = log_of(&commands) + &reports;
    let after = |number| said_of(log.as_bytes(), number).pop().unwrap();
    assert_eq!(after(5), "stream 8: nothing pending");
    assert_eq!(after(6), "stream 8: pending drain (ticket 6, line 6)");
    let [input, drain] = ["input 1 (ticket 9, line 9)", "drain (ticket 10, line 10)"];
    let outputs = "output 2 (ticket 8, line 8), output 9 (ticket 7, line 7)";
    assert_eq!(after(10), format!("stream 7: pending {input}, {outputs}, {drain}"));
    assert_eq!(after(11), format!("stream 7: pending {input}, {drain}"));
    let again = "output 9 (ticket 12, line 12)";
    assert_eq!(after(13), format!("stream 7: pending {again}, {drain}"));
    assert_eq!(after(14), "stream 7: nothing pending");
    let end = "At the end:\n    stream 8: pending drain (ticket 6, line 6)\n";
    assert!(explained(log.as_bytes()).ends_with(end));
}

/// With the answers of the core behind each question.
fn answered(questions: &str) -> String {
    let mut decoder = Decoder::new();
    let mut log = String::new();
    for line in questions.lines() {
        let Line::Question(frame) = Line::read(line.as_bytes()) else { continue };
        log += &format!("{line}\n");
        frame.replay(&mut decoder).iter().for_each(|answer| log += &format!("{answer}\n"));
    }
    log
}

/// Two queueings with one ticket: the answer goes to the one that the report names, which is the later.
#[test]
fn tickets_may_repeat() {
    let ready = [
        guest::create(7, wire::FORMAT_VP9, ""),
        guest::import(7, Input, 1, 1),
        guest::import(7, Input, 2, 1),
    ];
    let queue = |resource| line(&[&[0, 9, 9, 9, 9], &guest::queue(7, Input, resource, 3)]);
    let report = finish(7, wire::QUEUE_TYPE_INPUT, 2, 0);
    let log = answered(&(log_of(&ready) + &queue(1) + &queue(2) + &report));
    let said = said_of(log.as_bytes(), 10);
    assert_eq!(
        said[0],
        "10      to ticket 151587081, input 2 of line 8: buffer, stream 7, timestamp 3"
    );
    assert_eq!(said[1], "stream 7: pending input 1 (ticket 151587081, line 7)");
}

/// What the log does not answer stays pending, and an answer that comes late ends that.
#[test]
fn the_answers_of_the_log_count() {
    let drain = "to ticket 15, drain of line 26: done, stream 7";
    let text = String::from_utf8(RIVAL.to_vec()).unwrap() + "800F0000000002000007000000\nff05\n";
    assert_eq!(said_of(text.as_bytes(), 54)[0], format!("54      {drain}"));
    assert!(explained(text.as_bytes()).ends_with("At the end nothing is pending.\n"));

    let get = guest::get_params(7, Input);
    let [first, second] = [1, 2].map(|ticket| line(&[&[0, ticket, 0, 0, 0], &get]));
    let text = format!("{first}{second}ff05\n");
    let said = said_of(text.as_bytes(), 2);
    assert_eq!(said[2], "to ticket 1: error 0x0302, stream 7: no such stream");
    assert_eq!(said_of(text.as_bytes(), 3)[1], "stream 7: pending GET_PARAMS (ticket 1, line 1)");
}

#[test]
fn many_commands_may_wait() {
    let text = line(&[&[0; 5], &guest::drain(7)]).repeat(20_000) + "ff05";
    let text = explained(text.as_bytes());
    assert!(text.ends_with(", drain (ticket 0, line 33), 19966 more\n"));
}

#[test]
fn commands_are_told_with_their_fields() {
    let h264 = wire::FORMAT_H264;
    for (command, words) in [
        (
            guest::create(7, h264, "caf\u{e9}\n"),
            "STREAM_CREATE, stream 7: H264, guest pages, tag \"caf\u{e9}\\n\"",
        ),
        (
            guest::create(7, 9, &"a".repeat(64)),
            &format!(
                "STREAM_CREATE, stream 7: format 0x9, guest pages, tag without a NUL \"{}\"",
                "a".repeat(64)
            ),
        ),
        (guest::destroy(u32::MAX), "STREAM_DESTROY, stream 4294967295"),
        (
            guest::import(7, Output, 3, 6),
            "RESOURCE_CREATE, stream 7: output 3, SINGLE_BUFFER, 1 plane (offsets 0, entries 6): \
             4096 bytes at 0x10000, 4096 bytes at 0x11000, 4096 bytes at 0x12000, \
             4096 bytes at 0x13000, 2 more",
        ),
        (guest::clear(7, Input), "QUEUE_CLEAR, stream 7: input"),
        (
            guest::set_params(7, Output, 3, (1280, 720)),
            "SET_PARAMS, stream 7: output, NV12, 1280 by 720, rate 0",
        ),
        (guest::drain(7).repeat(2), "STREAM_DRAIN, stream 7, 16 bytes in place of 8"),
        (vec![9; 10], "unknown type 0x9090909, stream 151587081, then 2 bytes: 0909"),
        (vec![3, 1], "2 bytes, no whole header 0301"),
        (vec![], "0 bytes, no whole header"),
    ] {
        assert_eq!(commands::in_words(&command), words);
    }
}

#[test]
fn answers_of_other_devices_are_told() {
    let drain = "00050000000301000007000000\n";
    for (answer, words) in [
        ("8009000000000200000700000001", "to ticket 9: type 0x0200 in 9 bytes, which the core"),
        ("8009000000", "to ticket 9: no whole response, 0 bytes"),
        ("80090000", "an answer that cannot be read: 80090000"),
        ("80 \u{7}", "an answer that cannot be read: 80 \\x07"),
        ("ff01", "refused, 1: the table has fewer than 4160 words"),
        ("FF07", "refused, 7: the line is no frame"),
        ("ff63", "refused, 99: no refusal has that number"),
        ("ff06", "refused, 6: no refusal of such a step"),
        ("ff0505", "an answer that cannot be read: ff0505"),
        ("80050000000503000007000000", "to ticket 5: error 0x0305, stream 7: no control"),
    ] {
        let said = said_of(format!("{drain}{answer}\n").as_bytes(), 2);
        assert!(said[0].contains(words), "{said:?}");
        assert!(said[1].starts_with("^^^ different"), "{said:?}");
    }
}

/// Every type at many lengths, on a device that has something to act on.
fn odd_commands() -> Vec<Vec<u8>> {
    let ready = [guest::create(7, wire::FORMAT_VP9, ""), guest::import(7, Output, 0x0909_0909, 1)];
    let kinds = (0x00ff_u32..=0x010d).chain([0, 0x0200, u32::MAX]);
    let of_kind = |kind: u32| {
        (0..=140).chain([4183, 4184, 4185]).map(move |length| {
            let mut command = vec![9; length];
            let head = [kind.to_le_bytes(), 7_u32.to_le_bytes(), 0x101_u32.to_le_bytes()].concat();
            let there = length.min(12);
            command[..there].copy_from_slice(&head[..there]);
            command
        })
    };
    ready.into_iter().chain(kinds.flat_map(of_kind)).collect()
}

#[test]
fn every_type_and_length_is_told() {
    let log = log_of(&odd_commands());
    let text = explained(log.as_bytes());
    let numbered = text.lines().filter(|line| !line.starts_with("        ")).count();
    // And an empty line and two more at the end.
    assert_eq!(numbered, log.lines().count() + 3);
    for line in text.lines() {
        assert!(line.len() < 500 && line.is_ascii(), "{line}");
        assert!(!line.bytes().any(|byte| byte.is_ascii_control()), "{line}");
    }
}

#[test]
fn any_bytes_are_told() {
    let mut state = 7_u64;
    let mut random = || {
        state = state.wrapping_mul(6364136223846793005).wrapping_add(1442695040888963407);
        (state >> 33) as usize
    };
    let alphabet = b"\n\n0123456789abcdefFF88800\r\0\xff z";
    for round in 0..300 {
        let length = random() % 2000;
        let mut log: Vec<u8> =
            (0..length)
                .map(|_| {
                    if round % 3 == 0 {
                        random() as u8
                    } else {
                        alphabet[random() % alphabet.len()]
                    }
                })
                .collect();
        if round % 2 == 0 {
            // A right log, with some bytes changed.
            log = ANSWERED.to_vec();
            for _ in 0..random() % 4 {
                let at = random() % log.len();
                log[at] = alphabet[random() % alphabet.len()];
            }
        }
        let text = explained(&log);
        let marks = text.matches("^^^").count();
        let wrong = text.contains("The checker says: line ");
        assert_eq!(marks, usize::from(wrong), "{}", log.escape_ascii());
        assert!(!text.contains("the core answers \n"), "{}", log.escape_ascii());
        assert!(text.chars().all(|c| c == '\n' || !c.is_control()), "{text}");
    }
    explained(&b"0".repeat(100_000));
    explained(&[&b"80".repeat(100_000)[..], b"\nff05"].concat());
}

/// What the replay calls due is what the checker asks for.
#[test]
fn the_replay_agrees_with_the_checker() {
    let log = answered(&log_of(&odd_commands()));
    assert_eq!(log::check(log.as_bytes()), Verdict::Accepted);
}
