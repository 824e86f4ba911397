//! Random lines of a log, each with the sort of line that it is: good frames in either case, damaged
//! ones, garbage and over-long ones.

use super::device::*;
use super::frames;
use super::log::{digits, line_of, MOST_DIGITS};
use super::random::{Generator, Rng};

/// Sorts of random lines.
pub const SORTS: [&str; 26] = [
    "a digit changed to no digit",
    "a digit dropped",
    "a digit put in",
    "a frame a byte longer",
    "a frame a byte shorter",
    "a frame cut",
    "a frame with more behind",
    "a good frame in both cases",
    "a good frame in lower case",
    "a good frame in upper case",
    "another first byte",
    "any bytes",
    "any characters",
    "any digits",
    "blanks",
    "carriage return",
    "command of 0 to 8 bytes",
    "command of 4,188 to 4,190 bytes",
    "empty",
    "high bit",
    "over-long, digits",
    "over-long, a frame in front",
    "over-long, a frame at the end",
    "over-long, any bytes",
    "prefix",
    "two frames",
];

/// A step, with its command not much longer than a log can hold.
pub fn generator_act(generator: &mut Generator, device: &Device) -> Act {
    let mut act = generator.act(device);
    if let Act::Command { frame, .. } = &mut act {
        frame.truncate(5000);
    }
    act
}

/// One line without byte 10.
pub fn random_line(generator: &mut Generator, device: &Device) -> (&'static str, Vec<u8>) {
    let act = generator_act(generator, device);
    let good = line_of(&act);
    let planned = generator.has_plan();
    let rng = &mut generator.rng;
    // Little would come of a plan with every third line damaged.
    let kinds = if planned && rng.percent(60) { 700 } else { 1000 };
    let (sort, mut line) = match rng.below(kinds) {
        0..700 => match rng.below(3) {
            0 => ("a good frame in lower case", good),
            1 => ("a good frame in upper case", good.to_ascii_uppercase()),
            _ => ("a good frame in both cases", both_cases(rng, good)),
        },
        700..900 => {
            let (sort, line) = damaged(rng, good);
            (sort, if rng.percent(30) { both_cases(rng, line) } else { line })
        }
        900..910 => ("two frames", [&good[..], &good].concat()),
        910..930 => {
            let mut frame = vec![0; 5 + rng.below(9)];
            rng.fill(&mut frame[1..]);
            ("command of 0 to 8 bytes", digits(&frame))
        }
        930..940 => {
            let length = rng.pick(&[4188, 4188, 4189, 4189, 4189, 4190]);
            let kind = rng.pick(&[SET_CONTROL, RESOURCE_CREATE, RESOURCE_QUEUE]);
            let number = device.streams().next().map_or(1, |stream| stream.number);
            let frame = frames::frame(kind, number, length - 5);
            (
                "command of 4,188 to 4,190 bytes",
                line_of(&Act::Command { ticket: rng.word(), frame }),
            )
        }
        940..955 => ("empty", Vec::new()),
        955..970 => {
            let mut bytes = vec![0; rng.below(40)];
            rng.fill(&mut bytes);
            ("any digits", digits(&bytes))
        }
        970..980 => {
            let length = rng.below(60);
            ("any characters", (0..length).map(|_| rng.within(0x20, 0x7e) as u8).collect())
        }
        980..990 => {
            let mut bytes = vec![0; rng.below(200)];
            rng.fill(&mut bytes);
            ("any bytes", bytes)
        }
        _ => over_long(generator, device),
    };
    line.iter_mut().filter(|byte| **byte == 10).for_each(|byte| *byte = 11);
    (sort, line)
}

/// A line of more than 8,378 bytes.
pub fn over_long(generator: &mut Generator, device: &Device) -> (&'static str, Vec<u8>) {
    let frame = line_of(&generator_act(generator, device));
    let rng = &mut generator.rng;
    let more = rng.pick(&[1, 1, 2, 2, 3, 100, 4096, MOST_DIGITS, 20_000, 70_000]);
    let length = MOST_DIGITS + more;
    match rng.below(4) {
        0 => {
            let mut bytes = vec![0; length.div_ceil(2)];
            rng.fill(&mut bytes);
            bytes[0] = rng.pick(&[0, 1, 2]);
            let mut line = digits(&bytes);
            line.truncate(length);
            ("over-long, digits", line)
        }
        1 => {
            // A command that would fill the line, and more behind it.
            let number = device.streams().next().map_or(1, |stream| stream.number);
            let longest = frames::frame(SET_CONTROL, number, MOST_DIGITS / 2 - 5);
            let mut line = line_of(&Act::Command { ticket: rng.word(), frame: longest });
            line.resize(length, b'0');
            ("over-long, a frame in front", line)
        }
        2 => {
            // Behind as many bytes as a buffer may have.
            let ahead =
                rng.pick(&[MOST_DIGITS, MOST_DIGITS + 1, MOST_DIGITS + 2, 8192, 16384, 65536]);
            let digit = rng.pick(b"0fg ");
            (
                "over-long, a frame at the end",
                [&vec![digit; ahead.max(length - frame.len().min(length))][..], &frame].concat(),
            )
        }
        _ => {
            let mut line = vec![0; length];
            rng.fill(&mut line);
            line.iter_mut().filter(|byte| **byte == 10).for_each(|byte| *byte = 0);
            ("over-long, any bytes", line)
        }
    }
}

/// A good line with something wrong, or with another frame for it.
pub fn damaged(rng: &mut Rng, mut line: Vec<u8>) -> (&'static str, Vec<u8>) {
    let at = rng.below(line.len());
    match rng.below(12) {
        0 => {
            line[at] = rng.pick(b"/:@G`g\0\t\r +-xzZ\x0b\x7f");
            ("a digit changed to no digit", line)
        }
        1 => {
            line.remove(if rng.percent(50) { line.len() - 1 } else { at });
            ("a digit dropped", line)
        }
        2 => {
            line.insert(
                if rng.percent(50) { line.len() } else { at },
                rng.pick(b"0123456789abcdefABCDEF"),
            );
            ("a digit put in", line)
        }
        3 => {
            line.extend(rng.pick(&[b"00", b"00", b"01", b"ff"]));
            ("a frame a byte longer", line)
        }
        4 => {
            line.truncate(line.len() - 2);
            ("a frame a byte shorter", line)
        }
        5 => {
            line.truncate(2 * rng.below(line.len() / 2 + 1));
            ("a frame cut", line)
        }
        6 => {
            let mut more = vec![0; rng.within(1, 30)];
            rng.fill(&mut more);
            line.extend(digits(&more));
            ("a frame with more behind", line)
        }
        7 => {
            let first =
                rng.pick(&[1, 2, 3, 4, 0x10, 0x20, 0x30, 0x7f, 0x80, 0x80, 0x81, 0xfe, 0xff, 0xff]);
            line[..2].copy_from_slice(&digits(&[first]));
            ("another first byte", line)
        }
        8 => {
            let blank = rng.pick(b"  \t\0");
            let at = rng.pick(&[0, at, line.len(), line.len()]);
            line.insert(at, blank);
            if rng.percent(30) {
                line.insert(at, blank);
            }
            ("blanks", line)
        }
        9 => {
            let at = rng.pick(&[0, at, line.len(), line.len(), line.len()]);
            line.insert(at, b'\r');
            ("carriage return", line)
        }
        10 => {
            line[at] |= 0x80;
            ("high bit", line)
        }
        _ => {
            let prefix = rng.pick(&[&b"0x"[..], b"0X", b"\\x", b"#", b"\xef\xbb\xbf", b"-", b"+"]);
            ("prefix", [prefix, &line].concat())
        }
    }
}

pub fn both_cases(rng: &mut Rng, mut line: Vec<u8>) -> Vec<u8> {
    line.iter_mut()
        .filter(|_| rng.percent(50))
        .for_each(|character| character.make_ascii_uppercase());
    line
}
