//! The archive as a core, through the package's own declarations.

use super::device::Report;
use super::on_words::{Core, Outcome};
use super::pending::Pending;
use virtio_video_decoder::ffi;

/// The archive under test.
#[derive(Clone, Copy, Debug, Default)]
pub struct Archive(());

impl From<ffi::Outcome> for Outcome {
    fn from(outcome: ffi::Outcome) -> Self {
        Outcome { refusal: outcome.refusal, written: outcome.written }
    }
}

impl From<ffi::Pending> for Pending {
    fn from(said: ffi::Pending) -> Self {
        let ffi::Pending { refusal, pending, words_read } = said;
        Pending { refusal, pending, words_read }
    }
}

impl Core for Archive {
    fn fresh(&self, table: &mut [u32]) -> u32 {
        ffi::fresh(table)
    }

    fn command(&self, table: &mut [u32], ticket: u32, frame: &[u8], answers: &mut [u8]) -> Outcome {
        ffi::command(table, ticket, frame, answers).into()
    }

    fn finish(&self, table: &mut [u32], report: &Report, answers: &mut [u8]) -> Outcome {
        let Report { stream, queue_type, resource, flags, timestamp } = *report;
        ffi::finish(table, stream, queue_type, resource, flags, timestamp, answers).into()
    }

    fn drained(&self, table: &mut [u32], stream: u32, answers: &mut [u8]) -> Outcome {
        ffi::drained(table, stream, answers).into()
    }

    fn pending_in_all(&self, table: &[u32]) -> Pending {
        ffi::pending_in_all(table).into()
    }

    fn pending_of_stream(&self, table: &[u32], stream: u32) -> Pending {
        ffi::pending_of_stream(table, stream).into()
    }
}
