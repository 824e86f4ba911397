//! The checker of other makers' logs, in the archive and as the program `log_check`, compared with the
//! independent one: on logs with our answers put in between, and on logs of which lines were dropped,
//! put in, doubled, changed, swapped and cut, by hand, from the examples and seeded random. The
//! program is fed whole, byte by byte and in odd pieces. `LOG_CHECK` names the program, `LOGS` sets the
//! number of random logs and `SEED` the first seed.
//!
//! Cargo runs it only when it is named (`cargo test --test checker`), since the program has to be
//! there.

#[allow(unused_imports)]
mod independent;

use std::collections::BTreeMap;
use std::path::{Path, PathBuf};
use std::time::Instant;

use independent::by_hand;
use independent::checker::{answers, check, check_by, sort, Fault, Sort, Verdict};
use independent::checker_slips::{self, CheckSlip, NO_PREFIXES};
use independent::coverage::rare;
use independent::device::*;
use independent::frames;
use independent::log::{frame, line_of, lines, Log, MOST_DIGITS};
use independent::program::{
    self, checked_examples, cut, examples, run_with_failed_read, run_with_failed_write, text,
    variable,
};
use independent::random::{Generator, Rng};
use independent::random_lines::{both_cases, damaged, generator_act, random_line};
use independent::slips;
use virtio_video_decoder::ffi;

/// Random logs of a run.
const LOGS: u64 = 5_000;
const SEED: u64 = 1;
/// The archive gets all logs, the program one of so many of those that are made in great number.
const CASES_TO_A_RUN: usize = 53;
/// A log of fewer bytes is also fed byte by byte.
const FEW_BYTES: usize = 400;

/// The lines of a log, each without its byte 10.
type Lines = Vec<Vec<u8>>;

/// A log and its name.
type Case = (String, Vec<u8>);

/// The program under test.
fn program() -> PathBuf {
    program::program("LOG_CHECK", "log_check")
}

/// Compares the archive's verdict, by its numbers. The log is lent as a part of something longer, of
/// which nothing else counts.
fn compare_archive(log: &[u8], verdict: Verdict) -> Result<(), String> {
    let longer = [b"ff05\n", log, b"ff05\n"].concat();
    let ffi::Verdict { line, verdict: number } = ffi::check_log(&longer[5..5 + log.len()]);
    if (line, number) == verdict.numbers() {
        return Ok(());
    }
    Err(format!("the archive gives line {line}, verdict {number}; expected: {verdict}"))
}

/// Runs the program on the pieces; it has to end well and to write just the verdict. It need not read
/// behind the first wrong line.
fn compare_program(program: &Path, pieces: &[&[u8]], verdict: Verdict) -> Result<(), String> {
    let (written, fed) = program::run(program, pieces)?;
    if verdict == Verdict::Accepted {
        fed?;
    }
    if text(&written) == format!("{verdict}\n") {
        return Ok(());
    }
    Err(format!("the program writes {:?}; expected: {verdict}", text(&written)))
}

fn agree_with_archive(cases: &[Case]) {
    for (name, log) in cases {
        let verdict = check(log);
        if let Err(what) = compare_archive(log, verdict) {
            panic!("{name}: {what}\n{}", excerpt(log, verdict));
        }
    }
}

/// Each log goes in whole and in odd pieces, a short one also byte by byte.
fn agree_with_program<'c>(cases: impl IntoIterator<Item = &'c Case>) {
    let start = Instant::now();
    let program = program();
    let mut rng = Rng::new(variable("SEED", SEED));
    let mut runs = 0;
    for (name, log) in cases {
        let verdict = check(log);
        let mut ways = vec![("whole", vec![&log[..]]), ("odd pieces", cut(&mut rng, log))];
        if log.len() < FEW_BYTES {
            ways.push(("bytes", log.chunks(1).collect()));
        }
        for (way, pieces) in ways {
            runs += 1;
            if let Err(what) = compare_program(&program, &pieces, verdict) {
                panic!("{name}, {way}: {what}\n{}", excerpt(log, verdict));
            }
        }
    }
    println!("{runs} runs of the program, {:.1} s", start.elapsed().as_secs_f64());
}

/// The lines up to the one that is to be named, as far as one wants to read them.
fn excerpt(log: &[u8], verdict: Verdict) -> String {
    let lines = lines(log);
    let named = verdict.numbers().0 as usize;
    let shown = |(at, line): (usize, &&[u8])| {
        format!("{:>6} {}\n", at + 1, line[..line.len().min(200)].escape_ascii())
    };
    let first = named.saturating_sub(10);
    lines.iter().enumerate().take(named + 1).skip(first).map(shown).collect()
}

/// Each verdict is the one that is written beside it.
#[test]
fn the_independent_checker_by_hand() {
    let cases = verdicts_by_hand();
    for (words, log, verdict) in &cases {
        assert_eq!(check(log).to_string(), *verdict, "{words}");
    }
    println!("{} logs by hand", cases.len());
}

#[test]
fn examples_have_their_verdicts() {
    for (name, log, verdict) in checked_examples() {
        assert_eq!(format!("{}\n", check(&log)), text(&verdict), "examples/{name}.checked");
    }
}

/// The numbers of the archive's interface.
#[test]
fn verdicts_have_their_numbers() {
    for (words, numbers) in [
        ("drained ff05", (0, 0)),
        ("drained ff05 drained", (4, 1)),
        ("drained ff05 ff05", (3, 2)),
        ("drained ff06", (2, 3)),
        ("drained ff05 drained empty", (4, 7)),
    ] {
        assert_eq!(check(&log_of(words)).numbers(), numbers, "{words}");
    }
}

#[test]
fn cases_agree_with_the_archive() {
    let cases = cases();
    let met = Met::of(&cases);
    agree_with_archive(&cases);
    println!("{} cases\n{met}", cases.len());
    met.assert_all(10);
}

#[test]
fn cases_agree_with_the_program() {
    agree_with_program(&[hand_cases(), from_examples(), other_ends(), long_ones()].concat());
    let more = [edited(), cut_anywhere(), changed_anywhere()].concat();
    agree_with_program(more.iter().step_by(CASES_TO_A_RUN));
}

#[test]
fn random_logs_agree() {
    let start = Instant::now();
    let (seed, count) = (variable("SEED", SEED), variable("LOGS", LOGS));
    let logs = random_logs(seed, count);
    let met = Met::of(&logs);
    agree_with_archive(&logs);
    agree_with_program(logs.iter().step_by(CASES_TO_A_RUN));
    println!("{count} logs from seed {seed}, {:.1} s\n{met}", start.elapsed().as_secs_f64());
    // A shorter run need not get everywhere.
    if count >= LOGS {
        met.assert_all(20);
    }
}

/// "Any log our own program wrote for questions that are all frames, with the questions put in
/// between, has to be accepted", in either case.
#[test]
fn own_logs_are_accepted() {
    let seed = variable("SEED", SEED);
    let mut rng = Rng::new(seed);
    let mut logs = own_examples();
    for seed in seed..seed + 300 {
        logs.push((format!("seed {seed}"), own_random(&mut Generator::new(seed))));
    }
    for (name, lines) in logs {
        let log = joined(&lines);
        for log in [both_cases(&mut rng, log.clone()), log] {
            for log in [&log[..], log.strip_suffix(b"\n").unwrap_or(b"")] {
                assert_eq!(check(log), Verdict::Accepted, "{name}");
                assert_eq!(compare_archive(log, Verdict::Accepted), Ok(()), "{name}");
            }
        }
    }
}

/// Each slip of the checker is caught by these logs, and the checker without one passes.
#[test]
fn slips_are_caught() {
    let start = Instant::now();
    let seed = variable("SEED", SEED);
    let mut rng = Rng::new(seed);
    let logs = [cases(), random_logs(seed, LOGS)].concat();
    let logs: Vec<(&Case, Vec<&[u8]>, Verdict)> =
        logs.iter().map(|case| (case, cut(&mut rng, &case.1), check(&case.1))).collect();
    let caught = |slip| {
        let differs = |pieces: &[&[u8]], verdict| checker_slips::check(slip, pieces) != verdict;
        let found = logs.iter().find(|(_, pieces, verdict)| differs(pieces, *verdict));
        found.map(|((name, _), ..)| name)
    };
    assert_eq!(caught(None), None, "without a slip");
    let slips = checker_slips::all();
    let missed: Vec<&CheckSlip> =
        slips.iter().filter(|&&slip| caught(Some(slip)).is_none()).collect();
    println!("{} slips, {:.1} s", slips.len(), start.elapsed().as_secs_f64());
    assert!(missed.is_empty(), "slips not caught: {missed:#?}");
}

/// A checker whose device has a slip that a log shows does not accept all of our own logs.
#[test]
fn slips_of_the_device_are_caught() {
    let logs: Vec<Vec<u8>> = own_examples().iter().map(|(_, lines)| joined(lines)).collect();
    let accepts = |slip| {
        let device = Device { slip, ..Device::default() };
        logs.iter().all(|log| check_by(device.clone(), log) == Verdict::Accepted)
    };
    assert!(accepts(None), "without a slip");
    let shown = slips::all().into_iter().filter(|slip| slip.shown_by_logs());
    let missed: Vec<_> = shown.filter(|&slip| accepts(Some(slip))).collect();
    assert!(missed.is_empty(), "slips not caught: {missed:#x?}");
}

/// A read that fails is no end of the log: there is no verdict, and standard error says so, but where
/// a wrong line stood before.
#[test]
fn a_failed_read_is_no_end() {
    let failed = "log_check: the log cannot be read to its end\n";
    for (sent, written, said) in [
        ("", "", failed),
        ("0207000000", "", failed),
        ("0207000000\n", "", failed),
        ("0207000000\nff0", "", failed),
        ("0207000000\nff05\n", "", failed),
        ("0207000000\nff05\nff05", "", failed),
        ("ff05\n", "line 1: extra\n", ""),
        ("0207000000\nff06\n", "line 2: different\n", ""),
        ("0207000000\n0207000000\n020", "line 2: missing\n", ""),
        ("0207000000\nff05\n\n0207000000\n", "line 3: refused 7\n", ""),
    ] {
        let run = run_with_failed_read(&program(), sent);
        assert_eq!(text(&run.stdout), written, "{sent:?}");
        assert_eq!(text(&run.stderr), said, "{sent:?}");
        assert!(run.status.success(), "{sent:?}: {}", run.status);
    }
}

/// Where the verdict cannot be written, standard error says so.
#[test]
fn a_failed_write_is_told() {
    for sent in ["", "0207000000\nff05\n", "0207000000", "ff05\n", "\n0207000000\n"] {
        let (said, status) = run_with_failed_write(&program(), sent, false);
        assert_eq!(said, "log_check: the verdict cannot be written\n", "{sent:?}");
        assert!(status.success(), "{sent:?}: {status}");
    }
}

/// How often each verdict was met, by where the named line stands.
struct Met(BTreeMap<String, u64>);

/// All that has to be met. Line 1 can neither be missing nor different, so line 2 is first there.
const KINDS: [&str; 16] = [
    "accepted, empty",
    "accepted, ended",
    "accepted, without byte 10",
    "missing, first",
    "missing, middle",
    "missing, last line",
    "missing, end",
    "extra, first",
    "extra, middle",
    "extra, last line",
    "different, first",
    "different, middle",
    "different, last line",
    "refused 7, first",
    "refused 7, middle",
    "refused 7, last line",
];

impl Met {
    fn of(cases: &[Case]) -> Met {
        let mut met = BTreeMap::new();
        for (_, log) in cases {
            *met.entry(Met::kind(log)).or_default() += 1;
        }
        Met(met)
    }

    fn kind(log: &[u8]) -> String {
        let verdict = check(log);
        let Verdict::Wrong(line, fault) = verdict else {
            let end = match log.last() {
                None => "empty",
                Some(10) => "ended",
                Some(_) => "without byte 10",
            };
            return format!("{verdict}, {end}");
        };
        let first = if matches!(fault, Fault::Missing | Fault::Different) { 2 } else { 1 };
        let count = lines(log).len();
        let place = match line {
            _ if line > count => "end",
            _ if line == first => "first",
            _ if line == count => "last line",
            _ => "middle",
        };
        let verdict = verdict.to_string();
        format!("{}, {place}", verdict.split_once(": ").expect("a named line").1)
    }

    /// Each kind was met so often at least, and no other one.
    fn assert_all(&self, least: u64) {
        let count = |kind: &str| self.0.get(kind).copied().unwrap_or(0);
        // There is but one empty log.
        let counts = KINDS[1..].iter().map(|&kind| (count(kind), kind.to_string())).collect();
        let complaints = rare(counts, least);
        assert!(complaints.is_empty(), "too little was met:\n{}", complaints.join("\n"));
        assert!(count(KINDS[0]) > 0, "no empty log was met");
        assert_eq!(self.0.len(), KINDS.len(), "other kinds were met: {:?}", self.0.keys());
    }
}

impl std::fmt::Display for Met {
    fn fmt(&self, f: &mut std::fmt::Formatter) -> std::fmt::Result {
        self.0.iter().try_for_each(|(kind, count)| writeln!(f, "{count:>8}  {kind}"))
    }
}

/// The log of these words, one for each line. With `open` behind them, the last line has no byte 10.
fn log_of(words: &str) -> Vec<u8> {
    let (words, open) = match words.strip_suffix(" open") {
        Some(words) => (words, true),
        None => (words, false),
    };
    let lines = words.split(' ').filter(|word| !word.is_empty()).map(line_of_word).collect();
    let mut log = joined(&lines);
    if open {
        log.pop();
    }
    log
}

/// The line that a word stands for. Other words stand for themselves, with `_` for a blank, and
/// `80*20` is filled up with zeros to 20 characters.
fn line_of_word(word: &str) -> Vec<u8> {
    match word {
        "empty" => Vec::new(),
        // Over-long, with an answer behind as many bytes as a line may have.
        "tail" => [&[b'0'; MOST_DIGITS], &b"ff05"[..]].concat(),
        "ASK" | "TOLD" => line_of_word(&word.to_lowercase()).to_ascii_uppercase(),
        "Ask" => "009aBcDeF80301000007000000".into(),
        "Told" => "809AbCdEf80203000007000000".into(),
        _ => match (question(word), answer(word), word.split_once('*')) {
            (Some(act), ..) => line_of(&act),
            (_, Some(written), _) => written.trim_end().into(),
            (.., Some((start, length))) => {
                format!("{start:0<0$}", length.parse().expect("a length")).into()
            }
            _ => word.replace('_', " ").into(),
        },
    }
}

fn question(word: &str) -> Option<Act> {
    use by_hand::*;
    Some(match word {
        // Answered with `told`, and under ticket 5 with `not-live`. Where the stream is there, it is
        // drained, and the answer `ended` comes later.
        "ask" => drain(0xf8de_bc9a),
        "drain" => drain(5),
        "longest" => told(5, frames::frame(SET_CONTROL, 7, MOST_DIGITS / 2 - 5)),
        // Refused with 5, unless the stream is being drained; with 4; with 6.
        "drained" => drained(),
        "short" => told(5, Vec::new()),
        "flags" => finish(INPUT, 4),
        "create" => create(),
        "import" => import(INPUT),
        // Answered with `stopped` when the stream is destroyed.
        "queue" => queue(INPUT),
        "destroy" => told(6, frames::frame(STREAM_DESTROY, 7, 8)),
        _ => return None,
    })
}

fn answer(word: &str) -> Option<String> {
    use by_hand::*;
    Some(match word {
        "told" => "809abcdef80203000007000000".to_string(),
        "not-live" => "80050000000203000007000000".to_string(),
        "created" => done(1),
        "imported" => done(2),
        "stopped" => input(1),
        "ended" => done(5),
        "destroyed" => done(6),
        _ => return None,
    })
}

/// A stream's life: two steps without answers, and a step with three.
const LIFE: &str = "create created import imported queue drain destroy stopped ended destroyed";

const ACCEPTED: &[&str] = &[
    "",
    "drain not-live",
    "drain not-live open",
    "ask told",
    "ASK told",
    "ask TOLD",
    "Ask told",
    "ask Told",
    "ASK TOLD open",
    "drained ff05",
    "drained FF05",
    "drained Ff05",
    "drained fF05 open",
    "drained ff05 drained FF05 drained ff05",
    "short ff04",
    "flags ff06",
    "longest not-live",
    "create created",
    "create created drain",
    "create created drain open",
    "create created drain drained ended",
    "create created drained ff05 drain drained ended",
    "create created drain drained ended drained ff05",
    "create created drain destroy ended destroyed",
    "create created drain destroy ended destroyed drain not-live",
    "create created import imported queue drain drained ff05",
    LIFE,
];

/// Where a question or the end stands in an answer's stead.
const MISSING: &[(usize, &str)] = &[
    (2, "drain"),
    (2, "drain open"),
    (2, "drained"),
    (2, "short"),
    (2, "flags open"),
    (2, "longest"),
    (2, "drain longest"),
    (2, "drain longest not-live"),
    (2, "drain ASK"),
    (2, "drain ASK told"),
    (2, "drain drain"),
    (2, "drain drain open"),
    (2, "drain drain not-live"),
    (2, "drain drained ff05"),
    (2, "drained drain not-live"),
    (2, "drain drain not-live not-live"),
    (2, "drain drained empty"),
    (2, "create drain drained ended"),
    (4, "drain not-live drained"),
    (4, "drain not-live drained open"),
    (4, "drain not-live drain drained ff05"),
    (5, "create created drain destroy"),
    (5, "create created drain destroy drain not-live"),
    (6, "create created drain destroy ended"),
    (6, "create created drain destroy ended open"),
    (6, "create created drain destroy ended drain"),
    (6, "create created drain destroy ended drain not-live open"),
    (6, "create created drain destroy ended ASK open"),
    (8, "create created import imported queue drain destroy"),
    (9, "create created import imported queue drain destroy stopped"),
    (10, "create created import imported queue drain destroy stopped ended"),
    (10, "create created import imported queue drain destroy stopped ended drained ff05"),
];

/// Where no answer is due.
const EXTRA: &[(usize, &str)] = &[
    (1, "80"),
    (1, "80 open"),
    (1, "ff"),
    (1, "FF"),
    (1, "fF open"),
    (1, "ff05"),
    (1, "ff07"),
    (1, "not-live"),
    (1, "TOLD"),
    (1, "not-live drain"),
    (1, "not-live drain not-live"),
    (1, "ff05 drained"),
    (1, "ff05 empty"),
    (1, "80_"),
    (1, "80zz"),
    (1, "80zz drained ff05"),
    (1, "ff\r"),
    (1, "ff0"),
    (1, "ff0 drained ff05"),
    (1, "80*8378"),
    (1, "80*8378 drained ff05"),
    (1, "ff*8378 open"),
    (1, "FF*8377"),
    (3, "drain not-live not-live"),
    (3, "drain not-live not-live open"),
    (3, "drain not-live ff05 drained"),
    (3, "drain not-live 80*8378"),
    (3, "drained ff05 ff05"),
    (3, "drained ff05 FF05 drained ff05"),
    (3, "drained ff05 80"),
    (3, "drained ff05 80 empty"),
    (4, "create created drain ended"),
    (4, "create created drain ended drained"),
    (4, "create created drain ended drained ended"),
    (4, "create created drain ff00 drained ended"),
    (4, "create created drain 80 drained ended"),
    (4, "create created drain ff open"),
    (7, "create created drain destroy ended destroyed destroyed"),
    (7, "create created drain destroy ended destroyed ended open"),
    (11, "create created import imported queue drain destroy stopped ended destroyed ff05"),
];

/// Where an answer stands with other bytes.
const DIFFERENT: &[(usize, &str)] = &[
    (2, "drain 80"),
    (2, "drain 80 open"),
    (2, "drain 80 not-live"),
    (2, "drain ff"),
    (2, "drain ff05"),
    (2, "drain told"),
    (2, "drain ended drained"),
    (2, "drain 80*8378"),
    (2, "drain 80*8378 not-live"),
    (2, "drain 80*8377"),
    (2, "drain FF*8378 open"),
    (2, "drained ff06"),
    (2, "drained FF06"),
    (2, "drained FF06 drained ff05"),
    (2, "drained ff"),
    (2, "drained ff0"),
    (2, "drained ff0 drained ff05"),
    (2, "drained ff5"),
    (2, "drained ff050"),
    (2, "drained ff0500"),
    (2, "drained ff005"),
    (2, "drained ff05_"),
    (2, "drained ff05\t"),
    (2, "drained ff05\r"),
    (2, "drained ff05\0"),
    (2, "drained ff05\x000"),
    (2, "drained ff\x005"),
    (2, "drained ff_05"),
    (2, "drained ff_5"),
    (2, "drained ffg5"),
    (2, "drained ffg5 drained ff05"),
    (2, "drained ffx5"),
    (2, "drained ffX5"),
    (2, "drained ff?5"),
    (2, "drained ff.5"),
    (2, "drained ffp5"),
    (2, "drained ff\x105"),
    (2, "drained 8005"),
    (2, "drained 80 empty"),
    (2, "short ff05"),
    (2, "flags ff05"),
    (2, "ask 80@abcdef80203000007000000"),
    (2, "ask 80`abcdef80203000007000000"),
    (2, "ask 809abcdef80203000007000000_"),
    (2, "ask 809abcdef8020300000700000"),
    (2, "ask 809abcdef8020300000700000g"),
    (2, "ask 809abcdef80203000007000001"),
    (2, "ask 809abcdef902030000070000000"),
    (2, "ask 809abcdef90203000007000000"),
    (4, "drained ff05 drained ff06 drained"),
    (4, "drained ff05 create not-live"),
    (5, "create created drain destroy destroyed ended"),
    (5, "create created drain destroy destroyed"),
    (5, "create created drain destroy ff05 destroyed"),
    (6, "create created drain destroy ended ended"),
    (6, "create created drain destroy ended ff open"),
    (6, "create created drain destroy ended 80 empty"),
    (6, "create created drain destroy ended 80*8378"),
    (8, "create created import imported queue drain destroy ended stopped destroyed"),
    (9, "create created import imported queue drain destroy stopped destroyed ended"),
    (10, "create created import imported queue drain destroy stopped ended stopped"),
];

/// Neither a frame nor an answer, or over-long.
const REFUSED: &[(usize, &str)] = &[
    (1, "empty"),
    (1, "empty empty"),
    (1, "empty drained ff05"),
    (1, "0"),
    (1, "0 open"),
    (1, "03"),
    (1, "hello"),
    (1, "HELLO ff07"),
    (1, "0207000000_ ff05"),
    (1, "0207000000\t ff05"),
    (1, "0207000000\r ff05"),
    (1, "0207000000\0 ff05"),
    (1, "_0207000000 ff05"),
    (1, "020_7000000 ff05"),
    (1, "02070000 ff05"),
    (1, "020700000000 ff05"),
    (1, "00*8379"),
    (1, "00*8379 open"),
    (1, "00*8380"),
    (1, "80*8379"),
    (1, "80*8380 open"),
    (1, "ff*8379"),
    (1, "Ff*8379"),
    (1, "FF*20000"),
    (1, "tail"),
    (1, "hello drained ff05"),
    (2, "drain empty"),
    (2, "drain empty 80"),
    (2, "drain empty not-live"),
    (2, "drain 03 not-live"),
    (2, "drain HELLO"),
    (2, "drain 00*8379"),
    (2, "drain 80*8379 not-live"),
    (2, "drained empty ff05"),
    (2, "drained 0 open"),
    (2, "drained _ff05"),
    (2, "drained ff05*8379"),
    (2, "drained ff*8379 ff05"),
    (2, "drained FF*8379 open"),
    (2, "drained tail"),
    (3, "drain not-live empty"),
    (3, "drain not-live empty drained"),
    (3, "drain not-live 80*8379"),
    (3, "drain not-live 0 open"),
    (3, "drained ff05 empty"),
    (3, "drained ff05 HELLO drained ff05"),
    (3, "drained ff05 ff*8379 open"),
    (3, "drained ff05 tail"),
    (4, "create created drain empty"),
    (4, "create created drain empty drained ended"),
    (4, "create created drain 00*8380 drained ended"),
    (4, "create created drain Ff*8379 open"),
    (6, "create created drain destroy ended empty destroyed"),
    (6, "create created drain destroy ended 0 open"),
    (6, "create created drain destroy ended 80*8379"),
    (7, "create created drain destroy ended destroyed empty"),
];

/// The words of a log, the log, and the line that the program writes for it.
fn verdicts_by_hand() -> Vec<(String, Vec<u8>, String)> {
    let case = |words: &str, verdict: String| (words.to_string(), log_of(words), verdict);
    let mut cases: Vec<_> =
        ACCEPTED.iter().map(|words| case(words, "accepted".to_string())).collect();
    for (faulty, fault) in
        [(MISSING, "missing"), (EXTRA, "extra"), (DIFFERENT, "different"), (REFUSED, "refused 7")]
    {
        let named = |&(line, words)| case(words, format!("line {line}: {fault}"));
        cases.extend(faulty.iter().map(named));
    }
    for prefix in NO_PREFIXES {
        let word = prefix.replace(' ', "_");
        for (line, words) in [
            (1, word.clone()),
            (1, format!("{word}15")),
            (2, format!("drained {word} ff05")),
            (3, format!("drained ff05 {word}15 open")),
        ] {
            cases.push(case(&words, format!("line {line}: refused 7")));
        }
    }
    cases
}

/// Every case but the random logs.
fn cases() -> Vec<Case> {
    let small = [cut_anywhere(), changed_anywhere()].concat();
    [hand_cases(), from_examples(), other_ends(), edited(), small, long_ones()].concat()
}

fn hand_cases() -> Vec<Case> {
    verdicts_by_hand().into_iter().map(|(words, log, _)| (words, log)).collect()
}

/// The examples with their answers, whatever their lines are; with frames only; in upper case; without
/// the last byte 10; and questions and answers alone. Also the examples for the checker.
fn from_examples() -> Vec<Case> {
    let checked = checked_examples().into_iter();
    let mut cases: Vec<Case> =
        checked.map(|(name, log, _)| (format!("{name}.checked"), log)).collect();
    for (name, input, output) in examples() {
        cases.push((format!("{name} with all lines"), joined(&answered(lines(&input)))));
        cases.push((format!("{name} without answers"), input));
        cases.push((format!("{name} without questions"), output));
    }
    for (name, lines) in own_examples() {
        let log = joined(&lines);
        cases.push((format!("{name} in upper case"), log.to_ascii_uppercase()));
        cases.push((format!("{name} without its last byte"), log[..log.len() - 1].to_vec()));
        cases.push((name, log));
    }
    cases
}

/// The first answer of each length in each example, with another end.
fn other_ends() -> Vec<Case> {
    let mut cases = Vec::new();
    for (name, lines) in own_examples() {
        for length in [4, 26, 58, 250] {
            let answer = |line: &Vec<u8>| line.len() == length && sort(line) == Sort::Answer;
            let Some(at) = lines.iter().position(answer) else { continue };
            let (start, last) = lines[at].split_at(length - 1);
            let other = if last == b"0" { b"1" } else { b"0" };
            for end in [&b""[..], other, &[last, b"0"].concat()] {
                let mut lines = lines.clone();
                lines[at] = [start, end].concat();
                cases.push((format!("{name}, line {}: another end", at + 1), joined(&lines)));
            }
        }
    }
    cases
}

/// The frames of each example, with their answers.
fn own_examples() -> Vec<(String, Lines)> {
    let own = |(name, input, _): (String, Vec<u8>, _)| {
        let questions = lines(&input).into_iter().filter(|line| frame(line).is_some());
        (name, answered(questions))
    };
    examples().into_iter().map(own).collect()
}

/// Questions with our answers put in between.
fn answered<'q>(questions: impl IntoIterator<Item = &'q [u8]>) -> Lines {
    let mut definition = Log::default();
    let mut lines = Lines::new();
    for question in questions {
        lines.push(question.to_vec());
        lines.extend(answers(&mut definition, question));
    }
    lines
}

/// The log of these lines, with byte 10 behind each.
fn joined(lines: &Lines) -> Vec<u8> {
    lines.iter().flat_map(|line| [line, &b"\n"[..]].concat()).collect()
}

/// A log of all lengths of answers but the longest, with every digit from a to f.
fn small() -> Vec<u8> {
    log_of(&format!("ask told drained ff05 {LIFE}"))
}

fn cut_anywhere() -> Vec<Case> {
    let log = small();
    (0..log.len()).map(|end| (format!("cut to {end} bytes"), log[..end].to_vec())).collect()
}

/// Each byte of a log changed to each that is near a digit, a line's end or the byte itself.
fn changed_anywhere() -> Vec<Case> {
    let log = small();
    let mut cases = Vec::new();
    for (at, &byte) in log.iter().enumerate() {
        let near = [0x80, 0x40, 0x20, 0x10, 1].map(|bit| byte ^ bit);
        let others = [&near[..], b"\0\n\x0c\r\x1a /0:@AFG`afg\xff"].concat();
        for other in others.into_iter().filter(|&other| other != byte) {
            let mut log = log.clone();
            log[at] = other;
            cases.push((format!("byte {at} changed to {other:#04x}"), log));
        }
    }
    cases
}

/// More lines and longer ones than 16 bits count.
fn long_ones() -> Vec<Case> {
    let many = "0207000000\nff05\n".repeat(40_000);
    let long = "80".repeat(40_000);
    [
        ("many lines", many.clone()),
        ("many lines, one missing", many.clone() + "0207000000\n"),
        ("many lines, one extra", many.clone() + "ff05"),
        ("many lines, one refused", many + &long),
        ("a long line", long.clone() + "\n0207000000\nff05\n"),
        ("a long line for an answer", format!("0207000000\n{long}\nff05\n")),
    ]
    .map(|(name, log)| (name.to_string(), log.into_bytes()))
    .to_vec()
}

/// Something done to the lines of a log, of which there is at least one, at one of them.
type Edit = fn(&mut Generator, &mut Lines, usize);

const EDITS: [(&str, Edit); 21] = [
    ("a line dropped", |_, lines, at| drop(lines.remove(at))),
    ("a line doubled", |_, lines, at| lines.insert(at, lines[at].clone())),
    ("two lines swapped", |_, lines, at| {
        let next = (at + 1) % lines.len();
        lines.swap(at, next);
    }),
    ("a line moved", |generator, lines, at| {
        let line = lines.remove(at);
        lines.insert(generator.rng.below(lines.len() + 1), line);
    }),
    ("a line of the log put in", |generator, lines, at| {
        lines.insert(at, lines[generator.rng.below(lines.len())].clone());
    }),
    ("any line put in", |generator, lines, at| {
        lines.insert(at, random_line(generator, &Device::default()).1);
    }),
    ("an answer put in", |generator, lines, at| lines.insert(at, any_answer(&mut generator.rng))),
    ("an answer put in behind", |generator, lines, at| {
        lines.insert(at + 1, any_answer(&mut generator.rng));
    }),
    ("an empty line put in", |_, lines, at| lines.insert(at, Vec::new())),
    ("the log ended", |_, lines, at| lines.truncate(at + 1)),
    ("the log ended by a question", |_, lines, at| {
        lines.truncate(at + 1);
        lines.push(line_of_word("drained"));
    }),
    ("two lines joined", |_, lines, at| {
        let line = lines.remove(at);
        if let Some(next) = lines.get_mut(at) {
            next.splice(..0, line);
        }
    }),
    ("a line in two", |generator, lines, at| {
        let line = &mut lines[at];
        line.insert(generator.rng.below(line.len() + 1), 10);
    }),
    ("another digit", |generator, lines, at| other_digit(&mut generator.rng, &mut lines[at])),
    ("another digit in an answer", |generator, lines, at| {
        let answer = answer_near(lines, at);
        other_digit(&mut generator.rng, &mut lines[answer]);
    }),
    ("a line damaged", |generator, lines, at| damage(&mut generator.rng, &mut lines[at])),
    ("an answer damaged", |generator, lines, at| {
        let answer = answer_near(lines, at);
        damage(&mut generator.rng, &mut lines[answer]);
    }),
    ("other cases", |generator, lines, at| {
        lines[at] = both_cases(&mut generator.rng, lines[at].clone());
    }),
    ("another beginning", |generator, lines, at| {
        let beginnings = ["80", "ff", "FF", "fF", "00", "01", "02", "7g", "8", "f", "90", ""];
        let end = lines[at].len().min(2);
        lines[at].splice(..end, generator.rng.pick(&beginnings).bytes());
    }),
    ("filled up to the most", |generator, lines, at| {
        lines[at].resize(MOST_DIGITS, generator.rng.pick(b"0fg"));
    }),
    ("over-long", |generator, lines, at| {
        let more = generator.rng.pick(&[1, 1, 2, 100, MOST_DIGITS]);
        lines[at].resize(MOST_DIGITS + more, generator.rng.pick(b"0fg"));
    }),
];

/// An answer, good or not.
fn any_answer(rng: &mut Rng) -> Vec<u8> {
    if rng.percent(30) {
        let mut more = vec![0; rng.below(40)];
        rng.fill(&mut more);
        return [&b"80"[..], &more].concat().into_iter().filter(|&byte| byte != 10).collect();
    }
    let words = ["not-live", "ended", "ff04", "FF05", "ff06", "80", "ff", "80zz", "80*8378"];
    line_of_word(rng.pick(&words))
}

/// The first answer from a line on, or else that line.
fn answer_near(lines: &Lines, at: usize) -> usize {
    (at..lines.len()).find(|&near| sort(&lines[near]) == Sort::Answer).unwrap_or(at)
}

fn other_digit(rng: &mut Rng, line: &mut [u8]) {
    if !line.is_empty() {
        let at = rng.below(line.len());
        let digits = b"0123456789abcdef".iter().filter(|digit| **digit != line[at]);
        line[at] = rng.pick(&digits.copied().collect::<Vec<u8>>());
    }
}

fn damage(rng: &mut Rng, line: &mut Vec<u8>) {
    if line.len() >= 2 {
        *line = damaged(rng, std::mem::take(line)).1;
    }
}

/// Each edit at the first line, in the middle, at the last line and anywhere, of each example.
fn edited() -> Vec<Case> {
    let mut generator = Generator::new(SEED);
    let mut cases = Vec::new();
    for (name, lines) in own_examples() {
        let count = lines.len();
        for (what, edit) in EDITS {
            let any = [(); 3].map(|()| generator.rng.below(count));
            for at in [&[0, count / 2, count - 1], &any[..]].concat() {
                let mut lines = lines.clone();
                edit(&mut generator, &mut lines, at);
                cases.push((format!("{name}, line {}: {what}", at + 1), joined(&lines)));
            }
        }
    }
    cases
}

fn random_logs(seed: u64, count: u64) -> Vec<Case> {
    (seed..seed + count).map(|seed| (format!("seed {seed}"), random_log(seed))).collect()
}

/// A log of our own by seed, in which mostly some lines are edited, or else garbage.
fn random_log(seed: u64) -> Vec<u8> {
    let mut generator = Generator::new(seed);
    let mut lines = own_random(&mut generator);
    for _ in 0..generator.rng.pick(&[0, 1, 1, 1, 1, 1, 2, 3]) {
        if !lines.is_empty() {
            let (_, edit) = generator.rng.pick(&EDITS);
            let at = generator.rng.below(lines.len());
            edit(&mut generator, &mut lines, at);
        }
    }
    let rng = &mut generator.rng;
    let mut log = joined(&lines);
    if rng.percent(20) {
        log = both_cases(rng, log);
    }
    match rng.below(20) {
        0..4 => drop(log.pop()),
        4 => log.truncate(rng.below(log.len() + 1)),
        5 => log = garbage(rng),
        6 if !log.is_empty() => {
            let at = rng.below(log.len());
            rng.fill(&mut log[at..at + 1]);
        }
        _ => {}
    }
    log
}

/// Random questions, all of them frames, and their answers.
fn own_random(generator: &mut Generator) -> Lines {
    let steps = generator.rng.pick(&[1, 1, 2, 2, 3, 4, 6, 10, 20, 60]);
    let mut definition = Log::default();
    let mut lines = Lines::new();
    for _ in 0..steps {
        let question = line_of(&generator_act(generator, &definition.device));
        if frame(&question).is_some() {
            let answers = answers(&mut definition, &question);
            lines.push(question);
            lines.extend(answers);
        }
    }
    lines
}

/// Lines that could be something, and bytes that are nothing.
fn garbage(rng: &mut Rng) -> Vec<u8> {
    let mut log = Vec::new();
    for _ in 0..rng.below(20) {
        let words = ["0207000000", "ff05", "FF05", "80", "ff", "8", "f", "0", "\n", "\r", " "];
        log.extend(rng.pick(&words).bytes());
        if rng.percent(60) {
            log.push(10);
        }
        if rng.percent(10) {
            log.push(rng.below(256) as u8);
        }
    }
    log
}
