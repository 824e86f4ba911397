//! A log in words: each line, what is pending after each step, and what the log checker says of it.
//!
//!     cargo run --example explain -- some.log
//!     cargo run --example explain < some.log
//!
//! The log holds questions alone, or questions and answers. Where it has no answers, those of the core
//! are shown.

mod account;
mod answers;
mod commands;
mod pending;
#[cfg(test)]
mod tests;
mod text;

use std::io::{self, BufWriter, Read, Write};
use std::process::ExitCode;
use std::{env, fs};

fn main() -> ExitCode {
    let mut arguments = env::args_os().skip(1);
    let (file, more) = (arguments.next(), arguments.next());
    if more.is_some() {
        return fail("usage: explain [FILE]");
    }
    let log = match &file {
        Some(path) => fs::read(path),
        None => {
            let mut log = Vec::new();
            io::stdin().read_to_end(&mut log).map(|_| log)
        }
    };
    let log = match log {
        Ok(log) => log,
        Err(error) => {
            let name = file.unwrap_or("standard input".into());
            return fail(&format!("explain: {}: {error}", name.display()));
        }
    };
    let mut out = BufWriter::new(io::stdout().lock());
    match account::explain(&log, &mut out).and_then(|()| out.flush()) {
        // A reader that has seen enough is no failure.
        Err(error) if error.kind() != io::ErrorKind::BrokenPipe => {
            fail(&format!("explain: {error}"))
        }
        _ => ExitCode::SUCCESS,
    }
}

fn fail(message: &str) -> ExitCode {
    // Where standard error is closed too, nothing is left to tell.
    let _ = writeln!(io::stderr(), "{message}");
    ExitCode::FAILURE
}
