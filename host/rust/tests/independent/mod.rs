//! Independent implementations of the decoder, of its log, of the checker of logs and of the sound
//! device, to compare the core with, and what the comparisons share.
//!
//! They were written from documents 01 and 02, docs/LAYOUT.md and, for the sound device, 001, without
//! a look at the core's definitions or code, and are to stay so.

// Several programs share these modules, and none uses all of them.
#![allow(dead_code)]

pub mod archive;
pub mod asked;
pub mod by_hand;
pub mod checker;
pub mod checker_slips;
pub mod coverage;
pub mod device;
pub mod drains;
pub mod frames;
pub mod layout;
pub mod lent;
pub mod log;
pub mod log_slips;
pub mod on_words;
pub mod order_slips;
pub mod pending;
pub mod pending_slips;
pub mod program;
pub mod random;
pub mod random_figures;
pub mod random_lines;
pub mod slips;
pub mod sound;
pub mod sound_slips;

/// The system under test.
pub use archive::Archive as UnderTest;
