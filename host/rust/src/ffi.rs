//! The eight functions of the two archives, over lent slices: four of the decoder, two that ask what is
//! pending there, one that checks a log, and one of the sound device.
//!
//! This is the only module with `unsafe`, and it holds nothing else: a Rust slice is what the
//! functions ask of a pointer and its count (true length, alignment, nobody else at it). They take
//! any contents and any lengths, so each is a safe function. A [`Decoder`](crate::Decoder), the module
//! [`log`](crate::log) and a [`PcmOutput`](crate::sound::PcmOutput) are the easier way to call them;
//! these are for a host that keeps table, state and room in memory of its own.

#![allow(unsafe_code)]

/// The result of a step.
#[repr(C)]
#[derive(Clone, Copy, Debug, PartialEq, Eq)]
pub struct Outcome {
    /// 0, or the number of a [`Refusal`](crate::Refusal); then nothing was changed.
    pub refusal: u32,
    /// Bytes of answers at the start of the room; 0 with a refusal.
    pub written: u32,
}

/// What is said of pending answers.
#[repr(C)]
#[derive(Clone, Copy, Debug, PartialEq, Eq)]
pub struct Pending {
    /// 0, or 1 for a short table.
    pub refusal: u32,
    /// How many answers are pending; 0 with a refusal.
    pub pending: u32,
    /// How many words of the table were read; 0 with a refusal.
    pub words_read: u32,
}

/// What is said of a log.
#[repr(C)]
#[derive(Clone, Copy, Debug, PartialEq, Eq)]
pub struct Verdict {
    /// The line that is named, counted from 1, the end being one past the last; 0 where the log is
    /// accepted.
    pub line: u64,
    /// 0 for accepted, or the number of a [`Fault`](crate::log::Fault).
    pub verdict: u32,
}

/// The result of a message to the sound device.
#[repr(C)]
#[derive(Clone, Copy, Debug, PartialEq, Eq)]
pub struct SoundOutcome {
    /// 0, or 3 for a room under 264 bytes, or else 2 for a state above 5; then nothing was written.
    pub refusal: u32,
    /// The state for the next message; with a refusal, and after a message that failed, as given.
    pub state: u32,
    /// Bytes of the answer at the start of the room, 4 or 264; 0 with a refusal.
    pub written: u32,
}

extern "C" {
    fn virtio_video_fresh(table: *mut u32, words: usize) -> u32;

    fn virtio_video_command(
        table: *mut u32,
        words: usize,
        ticket: u32,
        frame: *const u8,
        frame_len: usize,
        answers: *mut u8,
        answers_len: usize,
    ) -> Outcome;

    fn virtio_video_finish(
        table: *mut u32,
        words: usize,
        stream: u32,
        queue_type: u32,
        resource: u32,
        flags: u32,
        timestamp: u64,
        answers: *mut u8,
        answers_len: usize,
    ) -> Outcome;

    fn virtio_video_drained(
        table: *mut u32,
        words: usize,
        stream: u32,
        answers: *mut u8,
        answers_len: usize,
    ) -> Outcome;

    fn virtio_video_pending_in_all(table: *const u32, words: usize) -> Pending;

    fn virtio_video_pending_of_stream(table: *const u32, words: usize, stream: u32) -> Pending;

    fn virtio_video_check_log(log: *const u8, log_len: usize) -> Verdict;

    fn virtio_snd_control(
        state: u32,
        channels_min: u8,
        channels_max: u8,
        formats: u16,
        rates: u16,
        message: *const u8,
        message_len: usize,
        answer: *mut u8,
        answer_len: usize,
    ) -> SoundOutcome;
}

/// Makes the table that of a device without streams, on which no number is spent; gives 0, or 1 for a
/// short table.
pub fn fresh(table: &mut [u32]) -> u32 {
    // SAFETY: pointer and length are those of one slice that is lent for the call.
    unsafe { virtio_video_fresh(table.as_mut_ptr(), table.len()) }
}

/// A command of the guest.
pub fn command(table: &mut [u32], ticket: u32, frame: &[u8], answers: &mut [u8]) -> Outcome {
    // SAFETY: each pointer and length are those of one slice that is lent for the call. The two
    // that are written are exclusive, so that no two of the three overlap.
    unsafe {
        virtio_video_command(
            table.as_mut_ptr(),
            table.len(),
            ticket,
            frame.as_ptr(),
            frame.len(),
            answers.as_mut_ptr(),
            answers.len(),
        )
    }
}

/// A report that a buffer is finished, and with EOS its stream's drain too. The numbers may be any.
pub fn finish(
    table: &mut [u32],
    stream: u32,
    queue_type: u32,
    resource: u32,
    flags: u32,
    timestamp: u64,
    answers: &mut [u8],
) -> Outcome {
    // SAFETY: as in `command`.
    unsafe {
        virtio_video_finish(
            table.as_mut_ptr(),
            table.len(),
            stream,
            queue_type,
            resource,
            flags,
            timestamp,
            answers.as_mut_ptr(),
            answers.len(),
        )
    }
}

/// A report that a stream without outputs is drained.
pub fn drained(table: &mut [u32], stream: u32, answers: &mut [u8]) -> Outcome {
    // SAFETY: as in `command`.
    unsafe {
        virtio_video_drained(
            table.as_mut_ptr(),
            table.len(),
            stream,
            answers.as_mut_ptr(),
            answers.len(),
        )
    }
}

/// How many answers are pending in all. The words may be any, and the validity of the table is not
/// tested.
pub fn pending_in_all(table: &[u32]) -> Pending {
    // SAFETY: pointer and length are those of one slice that is lent for the call, and only read.
    unsafe { virtio_video_pending_in_all(table.as_ptr(), table.len()) }
}

/// How many answers are pending to a stream, any number. Otherwise as [`pending_in_all`].
pub fn pending_of_stream(table: &[u32], stream: u32) -> Pending {
    // SAFETY: as in `pending_in_all`.
    unsafe { virtio_video_pending_of_stream(table.as_ptr(), table.len(), stream) }
}

/// Checks a log that holds questions and answers, on a device of its own.
pub fn check_log(log: &[u8]) -> Verdict {
    // SAFETY: pointer and length are those of one slice that is lent for the call.
    unsafe { virtio_video_check_log(log.as_ptr(), log.len()) }
}

/// A message of the guest to the sound device. The numbers may be any.
pub fn sound_control(
    state: u32,
    channels_min: u8,
    channels_max: u8,
    formats: u16,
    rates: u16,
    message: &[u8],
    answer: &mut [u8],
) -> SoundOutcome {
    // SAFETY: each pointer and length are those of one slice that is lent for the call. The one
    // that is written is exclusive, so that the two do not overlap.
    unsafe {
        virtio_snd_control(
            state,
            channels_min,
            channels_max,
            formats,
            rates,
            message.as_ptr(),
            message.len(),
            answer.as_mut_ptr(),
            answer.len(),
        )
    }
}
