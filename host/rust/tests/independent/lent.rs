//! What is lent to a step, and where two such differ.

use std::fmt;

use super::random::Generator;

/// An answer room amid other bytes, at any address.
#[derive(Clone, Debug, PartialEq)]
pub struct Room {
    pub bytes: Vec<u8>,
    pub start: usize,
    end: usize,
}

impl Room {
    pub fn new(generator: &mut Generator, short: bool) -> Room {
        let length = generator.room(short);
        let start = generator.rng.below(8);
        let mut bytes = vec![0; start + length + 8];
        // One of 256 patterns, which is cheap, shows a changed byte as well as noise would.
        bytes.fill(generator.rng.word() as u8);
        Room { end: start + length, bytes, start }
    }

    pub fn lent(&mut self) -> &mut [u8] {
        &mut self.bytes[self.start..self.end]
    }
}

/// The first place where two slices of one length differ.
pub fn difference<T: PartialEq + fmt::LowerHex>(
    what: &str,
    found: &[T],
    expected: &[T],
) -> Option<String> {
    assert_eq!(found.len(), expected.len());
    let at = found.iter().zip(expected).position(|(found, expected)| found != expected)?;
    Some(format!("{what} {at} is {:#x}, expected {:#x}", found[at], expected[at]))
}
