//! Time and instructions per step, beside the independent device on the same input, and per question
//! for pending answers.
//!
//!     cargo run --release --example bench
//!
//! Both test the table's validity in every step, do the step on the words of the table and write
//! the answers. A run repeats a round of steps that leaves the table as it found it, but for the
//! numbers that creations spend, which are given back after each round. Times are the best of
//! several runs. Instructions are counted by `perf stat`, or where that is not to be had by
//! `valgrind --tool=callgrind`: the program runs itself under it with so many rounds and with twice
//! as many, and takes the difference. `docs/HOST.md` has figures.

#[allow(dead_code)]
mod guest;
#[allow(unused_imports)]
#[path = "../tests/independent/mod.rs"]
mod independent;

use independent::device::{Act, Report};
use independent::layout::SPENT_AT;
use independent::on_words::step_on_words;
use std::env;
use std::hint::black_box;
use std::process::Command;
use std::time::Instant;
use virtio_video_decoder::QueueType::{Input, Output};
use virtio_video_decoder::{ffi, wire, QueueType};

type Table = [u32; wire::TABLE_WORDS];

/// A device to start from, and steps that lead back to it, but for spent numbers.
struct Case {
    name: &'static str,
    table: Box<Table>,
    round: Vec<Act>,
}

fn command(frame: Vec<u8>) -> Act {
    Act::Command { ticket: 1, frame }
}

fn finish(stream: u32, queue: QueueType, resource: u32) -> Act {
    finish_with(0, stream, queue, resource)
}

fn finish_with(flags: u32, stream: u32, queue: QueueType, resource: u32) -> Act {
    Act::Finish(Report { stream, queue_type: queue.number(), resource, flags, timestamp: 1 })
}

/// Streams 0 and on, each with so many resources in either queue, Queued or not.
fn device(streams: u32, resources: u32, queued: bool) -> Box<Table> {
    let mut table = Box::new([0; wire::TABLE_WORDS]);
    for stream in 0..streams {
        let create = guest::create(stream, wire::FORMAT_H264, "a tag of some length");
        by_core(&mut table, &command(create));
        for queue in [Input, Output] {
            for resource in 0..resources {
                by_core(&mut table, &command(guest::import(stream, queue, resource, 1)));
                by_core(&mut table, &command(guest::queue(stream, queue, resource, 1)));
                if !queued {
                    by_core(&mut table, &finish(stream, queue, resource));
                }
            }
        }
    }
    table
}

/// Rounds of steps on small and on full devices.
fn cases() -> Vec<Case> {
    let small = || device(1, 4, false);
    let full = || device(8, 16, true);
    let queue_all = (0..16).map(|n| command(guest::queue(0, Input, n, 1)));
    vec![
        Case {
            name: "unknown command, empty device",
            table: device(0, 0, false),
            round: vec![command(vec![0xff; 8])],
        },
        Case {
            name: "get parameters, 1 stream",
            table: small(),
            round: vec![command(guest::get_params(0, Output))],
        },
        Case {
            name: "queue and finish, 1 stream",
            table: small(),
            round: vec![
                command(guest::queue(0, Input, 3, 1)),
                command(guest::queue(0, Output, 3, 1)),
                finish(0, Input, 3),
                finish(0, Output, 3),
            ],
        },
        Case {
            name: "finish and queue, full device",
            table: full(),
            round: vec![
                finish(7, Input, 15),
                command(guest::queue(7, Input, 15, 1)),
                finish(7, Output, 15),
                command(guest::queue(7, Output, 15, 1)),
            ],
        },
        Case {
            name: "drain, queue and EOS, 1 stream",
            table: small(),
            round: vec![
                command(guest::drain(0)),
                command(guest::queue(0, Output, 3, 1)),
                finish_with(wire::BUFFER_FLAG_EOS, 0, Output, 3),
            ],
        },
        Case {
            name: "create and destroy, 1 other stream",
            table: small(),
            round: vec![
                command(guest::create(9, wire::FORMAT_VP9, &"x".repeat(63))),
                command(guest::destroy(9)),
            ],
        },
        Case {
            name: "import 256 entries, destroy all",
            table: device(1, 0, false),
            round: vec![
                command(guest::import(0, Output, 1, 256)),
                command(guest::destroy_all(0, Output)),
            ],
        },
        Case {
            name: "queue 16 buffers and clear",
            table: device(1, 16, false),
            round: queue_all.chain([command(guest::clear(0, Input))]).collect(),
        },
        Case {
            name: "error on a full device",
            table: full(),
            round: vec![command(guest::create(9, wire::FORMAT_VP9, ""))],
        },
    ]
}

/// A stream to ask for, or none to ask in all, on a full device with a stream of its own number in each
/// place.
struct Question {
    name: &'static str,
    stream: Option<u32>,
}

const QUESTIONS: [Question; 4] = [
    Question { name: "in all", stream: None },
    Question { name: "stream in the first place", stream: Some(0) },
    Question { name: "stream in the last place", stream: Some(7) },
    Question { name: "stream that is not there", stream: Some(8) },
];

/// One step by the archive; gives the bytes written.
fn by_core(table: &mut Table, act: &Act) -> u32 {
    let mut room = [0; wire::ANSWER_ROOM];
    let outcome = match act {
        Act::Command { ticket, frame } => ffi::command(table, *ticket, frame, &mut room),
        Act::Finish(r) => {
            ffi::finish(table, r.stream, r.queue_type, r.resource, r.flags, r.timestamp, &mut room)
        }
        Act::Drained { stream } => ffi::drained(table, *stream, &mut room),
    };
    assert_eq!(outcome.refusal, 0);
    black_box(&room);
    outcome.written
}

/// One step by the independent device.
fn by_independent(table: &mut Table, act: &Act) -> u32 {
    let mut room = [0; wire::ANSWER_ROOM];
    let outcome = step_on_words(table, act, &mut room);
    assert_eq!(outcome.refusal, 0);
    black_box(&room);
    outcome.written
}

/// Whose steps.
#[derive(Clone, Copy)]
enum Who {
    Core,
    Independent,
}

fn rounds(case: &Case, who: Who, count: u32) {
    let step = match who {
        Who::Core => by_core,
        Who::Independent => by_independent,
    };
    let mut table = case.table.clone();
    let spent = SPENT_AT..SPENT_AT + wire::STREAM_NUMBERS / 32;
    for _ in 0..count {
        for act in &case.round {
            black_box(step(&mut table, act));
        }
        // Else the next round's creations would fail.
        table[spent.clone()].copy_from_slice(&case.table[spent.clone()]);
    }
    assert!(table == case.table, "{}: not a round", case.name);
}

/// Asks so many times; gives the words read each time.
fn ask(question: &Question, table: &Table, count: u32) -> u32 {
    let mut words_read = 0;
    for _ in 0..count {
        let said = match black_box(question.stream) {
            None => ffi::pending_in_all(black_box(table)),
            Some(stream) => ffi::pending_of_stream(black_box(table), stream),
        };
        words_read = black_box(said).words_read;
    }
    words_read
}

/// Nanoseconds of one round of a run of so many: the best of seven runs of some milliseconds.
fn best(run: impl Fn(u32)) -> f64 {
    let once = |count| {
        let start = Instant::now();
        run(count);
        start.elapsed().as_secs_f64()
    };
    let count = (0.02 / once(50) * 50.0) as u32 + 1;
    let best = (0..7).map(|_| once(count)).fold(f64::INFINITY, f64::min);
    best * 1e9 / f64::from(count)
}

/// Nanoseconds of one step.
fn time(case: &Case, who: Who) -> f64 {
    best(|count| rounds(case, who, count)) / case.round.len() as f64
}

/// What counts the instructions of a run of this program.
#[derive(Clone, Copy, Debug)]
enum Counter {
    Perf,
    Callgrind,
}

/// Instructions of this program with these words, from the counter's own report.
fn counted(counter: Counter, words: &[String]) -> Option<f64> {
    let program = env::current_exe().ok()?;
    let mut command = match counter {
        Counter::Perf => {
            let mut perf = Command::new("perf");
            perf.args(["stat", "-x,", "-e", "instructions:u", "--"]);
            perf
        }
        Counter::Callgrind => {
            let mut valgrind = Command::new("valgrind");
            valgrind.args(["--tool=callgrind", "--callgrind-out-file=/dev/null"]);
            valgrind
        }
    };
    let output = command.arg(program).args(words).output().ok()?;
    let report = String::from_utf8_lossy(&output.stderr).into_owned();
    let number = match counter {
        Counter::Perf => {
            report.lines().find(|line| line.contains("instructions"))?.split(',').next()?.to_owned()
        }
        Counter::Callgrind => {
            report.lines().find_map(|line| line.split("Collected : ").nth(1))?.to_owned()
        }
    };
    number.trim().parse().ok().filter(|_| output.status.success())
}

/// Instructions of one round, by a run of so many and one of twice as many.
fn instructions(counter: Counter, what: &str, index: usize, count: u32) -> Option<f64> {
    let run = |count: u32| {
        counted(counter, &["run".into(), index.to_string(), what.into(), count.to_string()])
    };
    Some((run(2 * count)? - run(count)?) / f64::from(count))
}

/// The run that another run of this program counts.
fn run(index: &str, what: &str, count: &str) {
    let index: usize = index.parse().expect("the number of a case or question");
    let count = count.parse().expect("a count");
    match what {
        "core" => rounds(&cases()[index], Who::Core, count),
        "independent" => rounds(&cases()[index], Who::Independent, count),
        "question" => _ = ask(&QUESTIONS[index], &device(8, 16, true), count),
        other => panic!("{other}"),
    }
}

fn compare_steps(counter: Option<Counter>) {
    println!("{:<36}|{:^29}|{:^29}", "", "nanoseconds per step", "instructions per step");
    println!(
        "{:<36}|{:>9}{:>13}{:>7}|{:>9}{:>13}{:>7}",
        "steps", "core", "independent", "ratio", "core", "independent", "ratio"
    );
    for (index, case) in cases().iter().enumerate() {
        let times = [Who::Core, Who::Independent].map(|who| time(case, who));
        print!(
            "{:<36}|{:>9.0}{:>13.0}{:>7.2}|",
            case.name,
            times[0],
            times[1],
            times[0] / times[1]
        );
        let counts = counter.and_then(|counter| {
            let of = |who| Some(instructions(counter, who, index, 200)? / case.round.len() as f64);
            Some((of("core")?, of("independent")?))
        });
        match counts {
            Some((core, other)) => println!("{core:>9.0}{other:>13.0}{:>7.2}", core / other),
            None => println!("{:>9}{:>13}{:>7}", "-", "-", "-"),
        }
    }
    println!("A ratio is that of the core to the independent device; under 1 the core does less.");
}

fn measure_questions(counter: Option<Counter>) {
    let table = device(8, 16, true);
    println!();
    println!("{:<36}|{:>13}{:>14}{:>12}", "questions", "nanoseconds", "instructions", "words read");
    for (index, question) in QUESTIONS.iter().enumerate() {
        let time = best(|count| _ = ask(question, &table, count));
        let words_read = ask(question, &table, 1);
        print!("{:<36}|{time:>13.1}", question.name);
        match counter.and_then(|counter| instructions(counter, "question", index, 100_000)) {
            Some(count) => println!("{count:>14.0}{words_read:>12}"),
            None => println!("{:>14}{words_read:>12}", "-"),
        }
    }
}

fn main() {
    let words: Vec<String> = env::args().skip(1).collect();
    if let [first, index, what, count] = &words[..] {
        assert_eq!(first, "run");
        return run(index, what, count);
    }
    let idle: Vec<String> = vec!["run".into(), "0".into(), "core".into(), "1".into()];
    let counter = [Counter::Perf, Counter::Callgrind]
        .into_iter()
        .find(|&counter| counted(counter, &idle).is_some());
    match counter {
        Some(counter) => println!("Instructions counted by {counter:?}."),
        None => println!("Neither perf nor valgrind counts instructions here: times only."),
    }
    compare_steps(counter);
    measure_questions(counter);
}
