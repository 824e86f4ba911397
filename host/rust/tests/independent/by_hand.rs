//! Steps of stream 7 with its buffers 1, and what is written for them, for the cases written by hand.
//! Tickets and timestamps differ, so that an answer shows whose it carries.

use super::device::*;
use super::frames;

pub fn told(ticket: u32, frame: Vec<u8>) -> Act {
    Act::Command { ticket, frame }
}

pub fn create() -> Act {
    told(1, frames::stream_create(7, 0x1000, b""))
}

pub fn import(queue_type: u32) -> Act {
    told(2, frames::resource_create(7, queue_type, 1, &[1], &[(0, 1)]))
}

/// An input is queued under ticket 3, an output under 4.
pub fn queue(queue_type: u32) -> Act {
    let ticket = if queue_type == INPUT { 3 } else { 4 };
    told(ticket, frames::resource_queue(7, queue_type, 1, 8, 0))
}

pub fn drain(ticket: u32) -> Act {
    told(ticket, frames::frame(STREAM_DRAIN, 7, 8))
}

pub fn finish(queue_type: u32, flags: u32) -> Act {
    Act::Finish(Report { stream: 7, queue_type, resource: 1, flags, timestamp: 9 })
}

pub fn drained() -> Act {
    Act::Drained { stream: 7 }
}

pub fn done(ticket: u32) -> String {
    format!("80{ticket:02x}0000000002000007000000\n")
}

/// An input that is finished, with its own timestamp.
pub fn input(flags: u32) -> String {
    format!("8003000000020200000700000008000000000000000{flags}00000000000000\n")
}

/// An output that is finished, with the report's timestamp.
pub fn output(flags: u32) -> String {
    format!("8004000000020200000700000009000000000000000{flags}00000000000000\n")
}

pub fn refused(number: u32) -> String {
    format!("ff0{number}\n")
}
