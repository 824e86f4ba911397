//! The log program `video_log` compared with the independent one: the example logs, and seeded
//! random logs of good lines, damaged ones, garbage and over-long ones, fed whole, byte by byte and
//! in odd pieces. `VIDEO_LOG` names the program, `LOG_LINES` sets the number of random lines and
//! `SEED` the first seed.
//!
//! Cargo runs it only when it is named (`cargo test --test log`), since the program has to be
//! there.

#[allow(unused_imports)]
mod independent;

use std::collections::BTreeMap;
use std::fs;
use std::path::{Path, PathBuf};
use std::time::Instant;

use independent::by_hand;
use independent::coverage::{rare, Coverage};
use independent::device::*;
use independent::frames;
use independent::log::{self, answers, answers_of, line_of, Log, Reader};
use independent::log_slips::{WrongReader, LOG_SLIPS};
use independent::program::{
    self, cut, examples, root, run_with_failed_read, run_with_failed_write, text, variable, Run,
};
use independent::random::{Generator, Rng};
use independent::random_lines::{generator_act, over_long, random_line, SORTS};
use independent::slips;

/// Random lines of a run, and of one seed in it.
const LINES: u64 = 100_000;
const LINES_OF_A_SEED: u64 = 10_000;
const SEED: u64 = 1;
/// Lines of a log that is fed byte by byte.
const LINES_BY_BYTES: u64 = 150;

/// The program under test.
fn program() -> PathBuf {
    program::program("VIDEO_LOG", "video_log")
}

/// Document 01's example and what it says of lines, by hand.
#[test]
fn the_independent_log_by_hand() {
    let cases: [(&[u8], &str); 22] = [
        (b"00050000000301000007000000\n0207000000\n\n", "80050000000203000007000000\nff05\nff07\n"),
        (b"", ""),
        (b"\n", "ff07\n"),
        (b"\n\n", "ff07\nff07\n"),
        (b"0207000000", "ff05\n"),
        (b"0207000000\n", "ff05\n"),
        (b"0207000000\n0", "ff05\nff07\n"),
        (b"0207000000\r\n", "ff07\n"),
        (b"0207000000 \n", "ff07\n"),
        (b"02070000000\n", "ff07\n"),
        (b"020700000000\n", "ff07\n"),
        (b"02070000\n", "ff07\n"),
        (b"00aBcDeF01\n", "ff04\n"),
        (b"00aBcDeF\n", "ff07\n"),
        (b"00aBcDeF0103010000070000", "ff04\n"),
        (b"00aBcDeF010301000007000000", "80abcdef010203000007000000\n"),
        (b"03\n", "ff07\n"),
        (b"ff07\n", "ff07\n"),
        (b"80050000000203000007000000\n", "ff07\n"),
        (b"01070000000001000001000000000000000000000000000000\n", "ff05\n"),
        (b"01070000000001000001000000040000000000000000000000\n", "ff06\n"),
        (b"010700000000010000010000000400000000000000000000\n", "ff07\n"),
    ];
    for (input, output) in cases {
        assert_eq!(text(&answers(input)), output, "{}", text(input));
    }
    // A drain is taken in silence, and a last line of 4,189 bytes counts.
    let create = Act::Command { ticket: 1, frame: frames::stream_create(7, 0x1000, b"") };
    let control = |length| Act::Command { ticket: 2, frame: frames::frame(SET_CONTROL, 7, length) };
    let drain = Act::Command { ticket: 3, frame: frames::frame(STREAM_DRAIN, 7, 8) };
    let acts = [create, drain, Act::Drained { stream: 7 }, control(4185), control(4184)];
    let input = acts.map(|act| line_of(&act)).join(&10);
    let output = "80010000000002000007000000\n\
                  80030000000002000007000000\n\
                  ff07\n\
                  80020000000503000007000000\n";
    assert_eq!(text(&answers(&input)), output);
}

/// Stream 7 is created, and each step is answered so.
fn check<const STEPS: usize>(cases: [(Act, String); STEPS]) {
    let mut log = Log::default();
    for (act, written) in [(by_hand::create(), by_hand::done(1))].into_iter().chain(cases) {
        assert_eq!(text(&log.line(&line_of(&act))), written, "{act:x?}");
    }
}

/// EOS answers the buffer and then the drain, once a drain is pending and no input is Queued.
#[test]
fn the_last_picture_by_hand() {
    use by_hand::*;
    check([
        (import(INPUT), done(2)),
        (import(OUTPUT), done(2)),
        (queue(INPUT), String::new()),
        (queue(OUTPUT), String::new()),
        (finish(OUTPUT, 2), refused(6)),
        (drain(5), String::new()),
        (finish(OUTPUT, 2), refused(5)),
        (finish(OUTPUT, 6), refused(6)),
        (finish(INPUT, 2), refused(6)),
        (finish(INPUT, 0), input(0)),
        (finish(INPUT, 2), refused(5)),
        (finish(OUTPUT, 1), output(1)),
        (finish(OUTPUT, 2), refused(5)),
        (queue(OUTPUT), String::new()),
        (finish(OUTPUT, 3), output(3) + &done(5)),
        (queue(OUTPUT), String::new()),
        (finish(OUTPUT, 2), refused(6)),
        (drain(6), String::new()),
        (finish(OUTPUT, 2), output(2) + &done(6)),
    ]);
}

/// A drained report is for streams without outputs.
#[test]
fn drained_reports_by_hand() {
    use by_hand::*;
    check([
        (drained(), refused(5)),
        (drain(5), String::new()),
        (drained(), done(5)),
        (drained(), refused(5)),
        (import(INPUT), done(2)),
        (queue(INPUT), String::new()),
        (drain(6), String::new()),
        (drained(), refused(5)),
        (finish(INPUT, 0), input(0)),
        (import(OUTPUT), done(2)),
        (drained(), refused(5)),
        (queue(OUTPUT), String::new()),
        (drained(), refused(5)),
        (finish(OUTPUT, 0), output(0)),
        (drained(), refused(5)),
        (told(7, frames::on_queue(RESOURCE_DESTROY_ALL, 7, OUTPUT)), done(7)),
        (drained(), done(6)),
    ]);
}

#[test]
fn examples_agree_with_the_independent_log() {
    for (name, input, output) in examples() {
        assert_eq!(text(&answers(&input)), text(&output), "examples/{name}.log");
    }
}

#[test]
fn examples_agree_with_the_program() {
    let program = program();
    let mut rng = Rng::new(variable("SEED", SEED));
    for (name, input, output) in examples() {
        let start = Instant::now();
        let ways = [
            ("whole", vec![&input[..]]),
            ("odd pieces", cut(&mut rng, &input)),
            ("bytes", input.chunks(1).collect()),
        ];
        for (way, pieces) in ways {
            if let Err(what) = compare(&program, &pieces, &input, &output) {
                panic!("examples/{name}.log, {way}: {what}");
            }
        }
        println!("{name}: {} bytes, {:.1} s", input.len(), start.elapsed().as_secs_f64());
    }
}

#[test]
fn random_logs_agree() {
    let program = program();
    let (seed, lines) = (variable("SEED", SEED), variable("LOG_LINES", LINES));
    let start = Instant::now();
    let mut met = Met::default();
    let (mut done, mut size) = (0, 0);
    for seed in seed.. {
        if done >= lines {
            break;
        }
        let now = LINES_OF_A_SEED.min(lines - done);
        println!("seed {seed}, {now} lines");
        size += compare_seed(&program, seed, now, &mut met);
        done += now;
    }
    println!("{done} lines, {size} bytes, {:.1} s", start.elapsed().as_secs_f64());
    println!("{:#?}", met.sorts);
    met.coverage.of_log().iter().for_each(|(count, what)| println!("{count:>8}  {what}"));
    // A shorter run need not get everywhere.
    if lines >= LINES {
        let complaints = met.complaints();
        assert!(complaints.is_empty(), "too little was met:\n{}", complaints.join("\n"));
    }
}

/// Runs the program on a seed's log, whole and in odd pieces, and on a short one byte by byte. Gives
/// the bytes of the log.
fn compare_seed(program: &Path, seed: u64, lines: u64, met: &mut Met) -> usize {
    let (input, output) = random_log(seed, lines, met);
    let short = random_log(seed, LINES_BY_BYTES, &mut Met::default());
    let ways = [
        ("whole", vec![&input[..]], &input, &output),
        ("odd pieces", cut(&mut Rng::new(seed), &input), &input, &output),
        ("bytes", short.0.chunks(1).collect(), &short.0, &short.1),
    ];
    for (way, pieces, input, output) in ways {
        if let Err(what) = compare(program, &pieces, input, output) {
            panic!("seed {seed}, {way}: {what}\nagain with SEED={seed} LOG_LINES={lines}");
        }
    }
    input.len()
}

/// "Any length of input with fixed memory": a line of many bytes, and many lines.
#[test]
fn memory_does_not_grow() {
    let mut run = Run::start(&program());
    let block = |line: &[u8]| line.repeat((1 << 16) / line.len());
    let lines = block(b"00050000000301000007000000\n0207000000\n\n");
    let long = block(b"00");
    let mut peaks = Vec::new();
    for round in 0..3 {
        let blocks = if round == 0 { 2 } else { 128 };
        for block in [&lines, &long] {
            for _ in 0..blocks {
                run.write(block).expect("the program reads on");
            }
            run.write(b"\n").expect("the program reads on");
            run.wait_for_sleep();
        }
        peaks.push(run.peak_memory());
    }
    println!("peak memory in KiB: {peaks:?}");
    run.end().expect("the program ends well");
    assert!(peaks[2] <= peaks[0] + 256, "memory grows with the input: {peaks:?} KiB");
}

/// A read that fails is no end of the log: the lines that ended before it are answered, the half line is
/// not, and standard error says so.
#[test]
fn a_failed_read_is_no_end() {
    for (sent, answered) in [
        ("", ""),
        ("0207000000", ""),
        ("0207000000\n", "ff05\n"),
        ("\n0207000000\n020", "ff07\nff05\n"),
    ] {
        let run = run_with_failed_read(&program(), sent);
        assert_eq!(text(&run.stdout), answered, "{sent:?}");
        assert_eq!(text(&run.stderr), "video_log: the log cannot be read to its end\n", "{sent:?}");
        assert!(run.status.success(), "{sent:?}: {}", run.status);
    }
}

/// A write that fails ends the program, while the input is still open, and standard error says so.
#[test]
fn a_failed_write_ends_the_program() {
    for (sent, open) in [("\n", true), ("\n", false), ("0", false)] {
        let (said, status) = run_with_failed_write(&program(), sent, open);
        assert_eq!(said, "video_log: the answers cannot be written\n", "{sent:?}, {open}");
        assert!(status.success(), "{sent:?}, {open}: {status}");
    }
}

/// Each slip of the log program is caught by these logs, and the program without one passes.
#[test]
fn slips_are_caught() {
    let seed = variable("SEED", SEED);
    let logs = [examples(), random_logs(seed)].concat();
    let differs = |slip| {
        let log = logs.iter().find(|(_, input, output)| {
            let pieces = cut(&mut Rng::new(seed), input);
            WrongReader::answers(slip, &pieces) != *output
        });
        log.map(|(name, ..)| name)
    };
    assert_eq!(differs(None), None, "without a slip");
    let mut missed = Vec::new();
    for &slip in LOG_SLIPS {
        match differs(Some(slip)) {
            Some(name) => println!("{slip:?}: {name}"),
            None => missed.push(slip),
        }
    }
    assert!(missed.is_empty(), "slips not caught: {missed:?}");
}

/// The independent log read in pieces is the one read whole.
#[test]
fn pieces_do_not_matter() {
    for seed in 1..=20 {
        let (input, output) = random_log(seed, 500, &mut Met::default());
        let mut reader = Reader::default();
        let mut written = Vec::new();
        for piece in cut(&mut Rng::new(seed), &input) {
            written.extend(reader.read(piece));
        }
        written.extend(reader.end());
        assert!(written == output, "seed {seed}");
    }
}

/// The example logs tell each slip of the device apart that a log shows.
#[test]
fn examples_tell_slips_apart() {
    let missed = not_told_apart(&examples());
    assert!(missed.is_empty(), "no example tells of:\n{}", missed.join("\n"));
}

/// The random logs tell each of them apart.
#[test]
fn random_logs_tell_slips_apart() {
    let missed = not_told_apart(&random_logs(variable("SEED", SEED)));
    assert!(missed.is_empty(), "no random log tells of:\n{}", missed.join("\n"));
}

/// The slips of the device that a log shows and none of these does.
fn not_told_apart(logs: &[(String, Vec<u8>, Vec<u8>)]) -> Vec<String> {
    let mut missed = Vec::new();
    for slip in slips::all().into_iter().filter(|slip| slip.shown_by_logs()) {
        let device = Device { slip: Some(slip), ..Device::default() };
        let differs = |input: &[u8], output: &[u8]| answers_of(device.clone(), input) != output;
        match logs.iter().find(|(_, input, output)| differs(input, output)) {
            Some((name, ..)) => println!("{slip:x?}: {name}"),
            None => missed.push(format!("{slip:x?}")),
        }
    }
    missed
}

/// The exchange in docs/LOG.md has the bytes of the example, with blanks and with runs of zeros
/// counted.
#[test]
fn the_document_shows_the_exchange() {
    let document = fs::read_to_string(root().join("docs/LOG.md")).expect("docs/LOG.md");
    let (mut input, mut output) = (String::new(), String::new());
    for line in document.lines() {
        let (to, fields) = match line.trim_start_matches(|c: char| c.is_ascii_digit() || c == ' ') {
            shown if shown.starts_with("> ") => (&mut input, &shown[2..]),
            shown if shown.starts_with("< ") => (&mut output, &shown[2..]),
            _ => continue,
        };
        for field in fields.replace(" zeros)", "").split(' ') {
            match field.strip_prefix('(') {
                Some(count) => to.push_str(&"00".repeat(count.parse().expect("a count"))),
                None => to.push_str(field),
            }
        }
        to.push('\n');
    }
    let examples = examples();
    let (_, asked, answered) = examples.iter().find(|(name, ..)| name == "exchange").expect("it");
    assert_eq!(input, text(asked));
    assert_eq!(output, text(answered));
}

/// Runs the program on the pieces; it has to end well and write just this.
fn compare(program: &Path, pieces: &[&[u8]], input: &[u8], output: &[u8]) -> Result<(), String> {
    let (written, fed) = program::run(program, pieces)?;
    fed?;
    match written.iter().zip(output).position(|(written, expected)| written != expected) {
        None if written.len() == output.len() => Ok(()),
        at => {
            Err(difference(at.unwrap_or(written.len().min(output.len())), &written, input, output))
        }
    }
}

/// The first output line that differs, and the input line that it answers.
fn difference(at: usize, written: &[u8], input: &[u8], output: &[u8]) -> String {
    let line = output[..at].iter().filter(|&&byte| byte == 10).count();
    let shown = |bytes: &[u8]| {
        let line = bytes.split(|&byte| byte == 10).nth(line).unwrap_or(b"");
        line[..line.len().min(300)].escape_ascii().to_string()
    };
    let (found, expected) = (shown(written), shown(output));
    let mut log = Log::default();
    let mut answered = 0;
    let asks = log::lines(input).into_iter().position(|asks| {
        answered += log.line(asks).iter().filter(|&&byte| byte == 10).count();
        answered > line
    });
    let asked = asks.map_or(String::from("none"), |asks| {
        let line = log::lines(input)[asks];
        format!("{}: {}", asks + 1, line[..line.len().min(300)].escape_ascii())
    });
    format!(
        "{} bytes written, {} expected; they part in output line {}\n  \
         written {found}\n expected {expected}\nto input line {asked}",
        written.len(),
        output.len(),
        line + 1
    )
}

/// What random logs have met: the sorts of their lines, and what the lines did that are frames.
#[derive(Default)]
struct Met {
    sorts: BTreeMap<&'static str, u64>,
    coverage: Coverage,
}

impl Met {
    fn count(&mut self, sort: &'static str, line: &[u8], device: &Device) {
        *self.sorts.entry(sort).or_default() += 1;
        if let Some(act) = log::frame(line) {
            let done = device.clone().step(&act, ROOM);
            self.coverage.count(&act, &done, None);
            self.coverage.count_before(device, &act, &done);
        }
    }

    /// Whatever was met too rarely.
    fn complaints(&self) -> Vec<String> {
        let of_sorts =
            SORTS.map(|sort| (self.sorts.get(sort).copied().unwrap_or(0), sort.to_string()));
        let mut complaints = rare(of_sorts.to_vec(), 20);
        // In one log a number is created only once.
        complaints.extend(rare(self.coverage.of_log(), 5));
        complaints
    }
}

/// Some random logs with their names and answers.
fn random_logs(seed: u64) -> Vec<(String, Vec<u8>, Vec<u8>)> {
    let log = |seed| {
        let (input, output) = random_log(seed, 5_000, &mut Met::default());
        (format!("seed {seed}"), input, output)
    };
    (seed..seed + 6).map(log).collect()
}

/// A random log and its answers, by seed. The generator aims at what the steps before have left. Of
/// three seeds, one's log ends without byte 10 and one's in an over-long line without it.
fn random_log(seed: u64, lines: u64, met: &mut Met) -> (Vec<u8>, Vec<u8>) {
    let mut generator = Generator::new(seed);
    let mut log = Log::default();
    met.coverage.start_table(Spent::default());
    let (mut input, mut output) = (Vec::new(), Vec::new());
    for _ in 0..lines {
        let (sort, line) = random_line(&mut generator, &log.device);
        met.count(sort, &line, &log.device);
        output.extend(log.line(&line));
        input.extend(line);
        input.push(10);
    }
    let last = match seed % 3 {
        0 => line_of(&generator_act(&mut generator, &log.device)),
        1 => over_long(&mut generator, &log.device).1,
        _ => Vec::new(),
    };
    if !last.is_empty() {
        output.extend(log.line(&last));
        input.extend(last);
    }
    assert!(answers(&input) == output, "seed {seed}: the log is not the sum of its lines");
    (input, output)
}
