//! The independent log program: standard input to standard output, as `video_log`, to work out what
//! a log is to be answered with.
//!
//!     cargo run --example independent_log < some.log

#[allow(unused_imports)]
#[path = "../tests/independent/mod.rs"]
mod independent;

use independent::log::Reader;
use std::io::{self, Read, Write};

fn main() -> io::Result<()> {
    let (mut input, mut output) = (io::stdin().lock(), io::stdout().lock());
    let mut reader = Reader::default();
    let mut buffer = [0; 4096];
    loop {
        let count = input.read(&mut buffer)?;
        if count == 0 {
            break;
        }
        output.write_all(&reader.read(&buffer[..count]))?;
    }
    output.write_all(&reader.end())?;
    output.flush()
}
