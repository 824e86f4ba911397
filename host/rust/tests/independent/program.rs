//! Running a program under test on logs: where it is, its input in pieces, a time limit, and reads
//! and writes that fail. Also the example logs that such programs are run on.

use std::io::{Read, Write};
use std::os::fd::OwnedFd;
use std::os::unix::net::UnixStream;
use std::path::{Path, PathBuf};
use std::process::{Child, ChildStdin, Command, ExitStatus, Output, Stdio};
use std::thread;
use std::time::{Duration, Instant};
use std::{env, fs};

use super::log::MOST_DIGITS;
use super::random::Rng;

/// No run takes so long.
const LIMIT: Duration = Duration::from_secs(300);

pub fn root() -> PathBuf {
    Path::new(env!("CARGO_MANIFEST_DIR")).join("../..")
}

/// The program of this name, or the one that the variable names. That it is missing is a failure.
pub fn program(variable: &str, name: &str) -> PathBuf {
    let path = match env::var_os(variable) {
        Some(path) => PathBuf::from(path),
        None => root().join("target/bin").join(name),
    };
    assert!(
        path.is_file(),
        "{} is not there: run `rt check {name}` in the root of the repository, \
         or set {variable} to the program's path",
        path.display()
    );
    path
}

/// The example logs with what they are to be answered with.
pub fn examples() -> Vec<(String, Vec<u8>, Vec<u8>)> {
    let examples = files("log", "out");
    let names: Vec<&str> = examples.iter().map(|(name, ..)| &name[..]).collect();
    let expected =
        ["edges", "exchange", "lines", "most", "orders", "rearranged", "streams", "three_lines"];
    assert_eq!(names, expected, "the logs in examples/");
    examples
}

/// The examples of logs to be checked, with their verdicts.
pub fn checked_examples() -> Vec<(String, Vec<u8>, Vec<u8>)> {
    let examples = files("checked", "verdict");
    assert!(!examples.is_empty(), "no checked logs in examples/");
    examples
}

/// The examples that have a file of each kind, by name.
fn files(kind: &str, beside: &str) -> Vec<(String, Vec<u8>, Vec<u8>)> {
    let mut examples = Vec::new();
    for entry in fs::read_dir(root().join("examples")).expect("examples/") {
        let path = entry.expect("a file of examples/").path();
        if path.extension().is_some_and(|extension| extension == kind) {
            let name = path.file_stem().expect("a name").to_string_lossy().into_owned();
            let read = |path: &Path| {
                fs::read(path).unwrap_or_else(|error| panic!("{error}: {}", path.display()))
            };
            examples.push((name, read(&path), read(&path.with_extension(beside))));
        }
    }
    examples.sort();
    examples
}

/// Runs the program on the pieces, each with a read of its own. Gives what it wrote, where it ended
/// well, and whether it took all pieces.
pub fn run(program: &Path, pieces: &[&[u8]]) -> Result<(Vec<u8>, Result<(), String>), String> {
    let mut run = Run::start(program);
    let mut fed = Ok(());
    for piece in pieces {
        fed = run.write(piece);
        if fed.is_err() {
            break;
        }
        if pieces.len() > 1 {
            run.wait_for_sleep();
        }
    }
    Ok((run.end()?, fed))
}

/// A run in which the read behind these bytes fails. A socket whose other side closes with bytes
/// unread fails so, once what was sent before has been read.
pub fn run_with_failed_read(program: &Path, sent: &str) -> Output {
    let (ours, theirs) = UnixStream::pair().expect("a pair of sockets");
    (&theirs).write_all(b"unread").expect("the socket takes it");
    (&ours).write_all(sent.as_bytes()).expect("the socket takes it");
    drop(ours);
    let run = Command::new(program).stdin(Stdio::from(OwnedFd::from(theirs))).output();
    run.expect("the program runs")
}

/// A run in which every write to standard output fails, and its input is still open or not. Gives
/// what is in standard error, and the status.
pub fn run_with_failed_write(program: &Path, sent: &str, open: bool) -> (String, ExitStatus) {
    let full = fs::OpenOptions::new().write(true).open("/dev/full").expect("/dev/full");
    let mut child = Command::new(program)
        .stdin(Stdio::piped())
        .stdout(full)
        .stderr(Stdio::piped())
        .spawn()
        .expect("the program runs");
    let mut input = child.stdin.take().expect("a pipe");
    input.write_all(sent.as_bytes()).expect("the program reads");
    let input = open.then_some(input);
    let errors = read_all(child.stderr.take().expect("a pipe"));
    let status = wait(child).expect("the program ends");
    drop(input);
    (text(&errors.join().expect("standard error")), status)
}

/// A run of the program, its input open.
pub struct Run {
    pid: u32,
    input: ChildStdin,
    output: thread::JoinHandle<Vec<u8>>,
    errors: thread::JoinHandle<Vec<u8>>,
    status: thread::JoinHandle<Option<ExitStatus>>,
}

impl Run {
    pub fn start(program: &Path) -> Run {
        let mut child = Command::new(program)
            .stdin(Stdio::piped())
            .stdout(Stdio::piped())
            .stderr(Stdio::piped())
            .spawn()
            .unwrap_or_else(|error| panic!("{error}: {}", program.display()));
        let input = child.stdin.take().expect("a pipe");
        let output = read_all(child.stdout.take().expect("a pipe"));
        let errors = read_all(child.stderr.take().expect("a pipe"));
        Run { pid: child.id(), input, output, errors, status: thread::spawn(move || wait(child)) }
    }

    pub fn write(&mut self, piece: &[u8]) -> Result<(), String> {
        self.input.write_all(piece).map_err(|error| format!("the program reads no more: {error}"))
    }

    /// Waits until the program has taken in what was written and asks for more, so that the next
    /// piece comes with a read of its own. A write wakes the program before it returns.
    pub fn wait_for_sleep(&self) {
        while let Ok(stat) = fs::read_to_string(format!("/proc/{}/stat", self.pid)) {
            // The state stands behind the name, which is in parentheses.
            let state = stat.rsplit_once(") ").and_then(|(_, rest)| rest.chars().next());
            if matches!(state, Some('S' | 'Z') | None) {
                break;
            }
            thread::yield_now();
        }
    }

    /// In KiB.
    pub fn peak_memory(&self) -> u64 {
        let status = fs::read_to_string(format!("/proc/{}/status", self.pid)).expect("/proc");
        let peak = status.lines().find_map(|line| line.strip_prefix("VmHWM:")).expect("a peak");
        peak.trim().trim_end_matches(" kB").parse().expect("a number")
    }

    /// Ends the input. The program has to end with status 0 and nothing in standard error.
    pub fn end(self) -> Result<Vec<u8>, String> {
        drop(self.input);
        let status = self.status.join().expect("a status");
        let (output, errors) =
            (self.output.join().expect("output"), self.errors.join().expect("errors"));
        match status {
            None => Err(format!("the program did not end in {} s", LIMIT.as_secs())),
            Some(status) if !status.success() => {
                Err(format!("the program ended with {status}: {}", text(&errors)))
            }
            Some(_) if !errors.is_empty() => Err(format!("in standard error: {}", text(&errors))),
            Some(_) => Ok(output),
        }
    }
}

fn read_all(mut from: impl Read + Send + 'static) -> thread::JoinHandle<Vec<u8>> {
    thread::spawn(move || {
        let mut bytes = Vec::new();
        from.read_to_end(&mut bytes).expect("a pipe that can be read");
        bytes
    })
}

/// The status of the program, which is stopped if it takes too long.
fn wait(mut child: Child) -> Option<ExitStatus> {
    let end = Instant::now() + LIMIT;
    loop {
        if let Some(status) = child.try_wait().expect("a child") {
            return Some(status);
        }
        if Instant::now() > end {
            child.kill().expect("a child");
            child.wait().expect("a child");
            return None;
        }
        thread::sleep(Duration::from_millis(1));
    }
}

/// The input in odd pieces, of sizes about those of a line and of a buffer.
pub fn cut<'i>(rng: &mut Rng, mut input: &'i [u8]) -> Vec<&'i [u8]> {
    let mut pieces = Vec::new();
    while !input.is_empty() {
        let most = rng.pick(&[3, 60, 600, 600, 5000, 20_000]);
        let size = match rng.below(12) {
            0 => rng.pick(&[4095, 4096, 4097, MOST_DIGITS - 1, MOST_DIGITS, MOST_DIGITS + 1]),
            1 | 2 => {
                // Beside the end of a line.
                let line = input.iter().position(|&byte| byte == 10).unwrap_or(0);
                line + rng.below(3)
            }
            _ => rng.within(1, most),
        };
        let (piece, rest) = input.split_at(size.clamp(1, input.len()));
        pieces.push(piece);
        input = rest;
    }
    pieces
}

pub fn text(bytes: &[u8]) -> String {
    String::from_utf8_lossy(bytes).into_owned()
}

/// The number that a variable of the environment sets.
pub fn variable(name: &str, default: u64) -> u64 {
    match env::var(name) {
        Ok(text) => text.parse().unwrap_or_else(|_| panic!("{name} is not a number: {text}")),
        Err(_) => default,
    }
}
