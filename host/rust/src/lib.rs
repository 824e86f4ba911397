//! The command core of a virtio-video decoder (device 31, version 0), for a host in Rust.
//!
//! A host hands a [`Decoder`] the commands that its guest sends and the reports of its decoding back
//! end, and passes the answers on to the guest. It may ask at any time how many answers are pending. The
//! core behind it is an archive whose functions are proved against their definition; this package lends
//! it memory, and reads what it answers. It has no dependencies.
//!
//! The module [`log`] is about logs of such commands, reports and answers, and checks those of other
//! makers' devices. Beside the decoder stands a small virtio sound device, output only, from an archive of
//! its own: the module [`sound`].
//!
//! ```
//! use virtio_video_decoder::{wire, Decoder, Finish, QueueType, Refusal};
//!
//! // The guest's side: frames as they come out of the command queue.
//! fn frame(words: &[u32], length: usize) -> Vec<u8> {
//!     let mut bytes: Vec<u8> = words.iter().flat_map(|word| word.to_le_bytes()).collect();
//!     bytes.resize(length, 0);
//!     bytes
//! }
//! let create = frame(&[wire::CMD_STREAM_CREATE, 7, 0, 0, wire::FORMAT_H264], 88);
//! let mut import = frame(&[wire::CMD_RESOURCE_CREATE, 7, wire::QUEUE_TYPE_INPUT, 5, 1, 1], 88);
//! import[56] = 1; // one entry for the first plane
//! import.extend(frame(&[0x8000, 0, 4096], 16));
//! let queue = frame(&[wire::CMD_RESOURCE_QUEUE, 7, wire::QUEUE_TYPE_INPUT, 5, 1000], 64);
//!
//! let mut decoder = Decoder::new();
//! for (ticket, command) in [(1, &create), (2, &import)] {
//!     let answer = decoder.command(ticket, command)?.next().unwrap();
//!     assert_eq!(answer.ticket, ticket);
//!     assert_eq!(answer.response, [0, 2, 0, 0, 7, 0, 0, 0]);
//! }
//!
//! // A queueing is answered when the back end is done with the buffer.
//! assert_eq!(decoder.command(3, &queue)?.count(), 0);
//! let done = Finish { stream: 7, queue: QueueType::Input, resource: 5, flags: 0, timestamp: 0 };
//! let answer = decoder.finish(done)?.next().unwrap();
//! assert_eq!(answer.ticket, 3);
//! assert_eq!(answer.response.len(), 24);
//!
//! // It is not Queued any more, so a second report is refused, and nothing changes.
//! assert_eq!(decoder.finish(done).unwrap_err(), Refusal::UnexpectedReport);
//! # Ok::<(), Refusal>(())
//! ```

#![deny(unsafe_code)]
#![warn(missing_docs)]

mod answer;
pub mod ffi;
pub mod log;
mod refusal;
pub mod sound;
pub mod wire;

pub use answer::{Answer, Answers, Params, Response};
pub use refusal::Refusal;

use std::fmt;
use wire::{ANSWER_ROOM, TABLE_WORDS};

/// Which of a stream's two queues.
#[derive(Clone, Copy, Debug, PartialEq, Eq, Hash)]
#[repr(u32)]
pub enum QueueType {
    /// Coded data, from the guest.
    Input = wire::QUEUE_TYPE_INPUT,
    /// Pictures, to the guest.
    Output = wire::QUEUE_TYPE_OUTPUT,
}

impl QueueType {
    /// The number on the wire.
    pub const fn number(self) -> u32 {
        self as u32
    }
}

/// A report of the back end: it is done with a Queued buffer.
#[derive(Clone, Copy, Debug, PartialEq, Eq)]
pub struct Finish {
    /// The stream's number.
    pub stream: u32,
    /// The queue that the buffer is of.
    pub queue: QueueType,
    /// The resource's number.
    pub resource: u32,
    /// [`wire::BUFFER_FLAG_ERR`], and on the last output of a drain [`wire::BUFFER_FLAG_EOS`], alone
    /// or with it, which ends the drain.
    pub flags: u32,
    /// For an output: that of the input which it was decoded from. Not used for an input.
    pub timestamp: u64,
}

/// How many answers are pending, in all or to one stream: one for each buffer that is Queued, and one
/// for each drain that is pending.
#[derive(Clone, Copy, Debug, PartialEq, Eq)]
pub struct Pending {
    /// The figure.
    pub pending: u32,
    /// How many words of the table were read for it, at most 9.
    pub words_read: u32,
}

impl Pending {
    /// What a question said of a table of full length.
    fn new(said: ffi::Pending) -> Self {
        debug_assert_eq!(said.refusal, 0, "the table has its full length");
        Pending { pending: said.pending, words_read: said.words_read }
    }
}

/// A device: its table of 4,160 words, and a room for the answers of one step.
///
/// The table is all that a device is. A copy of it ([`table`](Decoder::table)) is a saved device, and
/// [`from_words`](Decoder::from_words) is that device again. A clone is a second device.
#[derive(Clone)]
pub struct Decoder {
    table: Box<[u32; TABLE_WORDS]>,
    room: Box<[u8; ANSWER_ROOM]>,
}

impl Decoder {
    /// A device without streams, on which no stream number is spent.
    pub fn new() -> Self {
        let mut decoder = Self::from_words(&[0; TABLE_WORDS]);
        decoder.reset();
        decoder
    }

    /// The device that these words stand for, which are those of an earlier [`table`](Decoder::table).
    ///
    /// Any words are taken. If they stand for no device, each step is refused with
    /// [`Refusal::InvalidTable`], and the figures of pending answers are what the words hold.
    ///
    /// ```
    /// use virtio_video_decoder::{Decoder, Refusal};
    ///
    /// let saved = *Decoder::new().table();
    /// let mut restored = Decoder::from_words(&saved);
    /// assert_eq!(restored.drained(7).unwrap_err(), Refusal::UnexpectedReport);
    ///
    /// let mut damaged = saved;
    /// damaged[5] = 1; // a word without use
    /// let mut decoder = Decoder::from_words(&damaged);
    /// assert_eq!(decoder.drained(7).unwrap_err(), Refusal::InvalidTable);
    /// ```
    pub fn from_words(words: &[u32; TABLE_WORDS]) -> Self {
        Decoder { table: Box::new(*words), room: Box::new([0; ANSWER_ROOM]) }
    }

    /// The words of the device. Their layout is in `docs/LAYOUT.md`.
    pub fn table(&self) -> &[u32; TABLE_WORDS] {
        &self.table
    }

    /// Makes this a device without streams, as at a reset of the virtio device. What is still pending
    /// is not answered.
    ///
    /// It also gives the spent stream numbers back, which nothing else does: a number whose creation
    /// succeeded is for no second stream, also once its own is destroyed.
    ///
    /// ```
    /// use virtio_video_decoder::{wire, Decoder, Refusal};
    ///
    /// let mut create = [0; 88];
    /// create[..2].copy_from_slice(&[0x01, 0x01]);
    /// create[4] = 7;
    /// create[16..18].copy_from_slice(&[0x02, 0x10]); // H.264
    /// let destroy = [0x02, 0x01, 0, 0, 7, 0, 0, 0];
    /// let done = wire::RESP_OK_NODATA.to_le_bytes();
    /// let invalid_stream = wire::RESP_ERR_INVALID_STREAM_ID.to_le_bytes();
    ///
    /// let mut decoder = Decoder::new();
    /// for (frame, code) in [(&create[..], done), (&destroy, done), (&create, invalid_stream)] {
    ///     assert_eq!(decoder.command(1, frame)?.next().unwrap().response[..4], code);
    /// }
    /// decoder.reset();
    /// assert_eq!(decoder.command(1, &create)?.next().unwrap().response[..4], done);
    /// # Ok::<(), Refusal>(())
    /// ```
    pub fn reset(&mut self) {
        let refusal = ffi::fresh(self.table.as_mut_slice());
        debug_assert_eq!(refusal, 0, "the table has its full length");
    }

    /// A command of the guest, any bytes.
    ///
    /// The ticket is the host's own number for the command, and comes back with its answer: at once,
    /// or with a later step for a queueing or a drain that is accepted. Tickets may repeat.
    ///
    /// # Errors
    ///
    /// [`Refusal::ShortCommand`] for fewer than 8 bytes, and [`Refusal::InvalidTable`]. A command that
    /// fails is no refusal: its answer tells the guest.
    pub fn command(&mut self, ticket: u32, frame: &[u8]) -> Result<Answers<'_>, Refusal> {
        let outcome =
            ffi::command(self.table.as_mut_slice(), ticket, frame, self.room.as_mut_slice());
        self.answers(outcome)
    }

    /// The back end is done with a Queued buffer, whose queueing is now answered.
    ///
    /// With [`wire::BUFFER_FLAG_EOS`] it is the last output of the pending drain, and ends it: there
    /// are two answers, to the queueing and then to the drain. Other outputs that are Queued stay so.
    ///
    /// # Errors
    ///
    /// [`Refusal::InvalidTable`], and of the report itself, tested in this order:
    ///
    /// 1. [`Refusal::BadFlags`] for flags above 3;
    /// 2. [`Refusal::UnexpectedReport`] where that buffer is not Queued now;
    /// 3. [`Refusal::BadFlags`] for EOS on an input, or with no drain pending;
    /// 4. [`Refusal::UnexpectedReport`] for EOS while an input is Queued: report the inputs first.
    ///
    /// ```
    /// use virtio_video_decoder::{wire, Decoder, Finish, QueueType, Refusal};
    ///
    /// # fn frame(words: &[u32], length: usize) -> Vec<u8> {
    /// #     let mut bytes: Vec<u8> = words.iter().flat_map(|word| word.to_le_bytes()).collect();
    /// #     bytes.resize(length, 0);
    /// #     bytes
    /// # }
    /// # let create = frame(&[wire::CMD_STREAM_CREATE, 7, 0, 0, wire::FORMAT_H264], 88);
    /// # let import = |queue: QueueType| {
    /// #     let mut import = frame(&[wire::CMD_RESOURCE_CREATE, 7, queue.number(), 5, 1, 1], 88);
    /// #     import[56] = 1;
    /// #     import.extend(frame(&[0x8000, 0, 4096], 16));
    /// #     import
    /// # };
    /// # let queue = |queue: QueueType| frame(&[wire::CMD_RESOURCE_QUEUE, 7, queue.number(), 5], 64);
    /// # let drain = frame(&[wire::CMD_STREAM_DRAIN, 7], 8);
    /// let mut decoder = Decoder::new();
    /// decoder.command(1, &create)?;
    /// decoder.command(2, &import(QueueType::Input))?;
    /// decoder.command(3, &import(QueueType::Output))?;
    /// decoder.command(4, &queue(QueueType::Input))?;
    /// decoder.command(5, &queue(QueueType::Output))?;
    /// decoder.command(6, &drain)?;
    ///
    /// // The last picture comes after the last input.
    /// let input =
    ///     Finish { stream: 7, queue: QueueType::Input, resource: 5, flags: 0, timestamp: 0 };
    /// let last = Finish {
    ///     queue: QueueType::Output,
    ///     flags: wire::BUFFER_FLAG_EOS,
    ///     timestamp: 1000,
    ///     ..input
    /// };
    /// assert_eq!(decoder.finish(last).unwrap_err(), Refusal::UnexpectedReport);
    /// assert_eq!(decoder.finish(input)?.next().unwrap().ticket, 4);
    ///
    /// // It answers its own queueing, and then the drain.
    /// let tickets: Vec<u32> = decoder.finish(last)?.map(|answer| answer.ticket).collect();
    /// assert_eq!(tickets, [5, 6]);
    ///
    /// // So no drain is pending.
    /// decoder.command(7, &queue(QueueType::Output))?;
    /// assert_eq!(decoder.finish(last).unwrap_err(), Refusal::BadFlags);
    /// # Ok::<(), Refusal>(())
    /// ```
    pub fn finish(&mut self, report: Finish) -> Result<Answers<'_>, Refusal> {
        let outcome = ffi::finish(
            self.table.as_mut_slice(),
            report.stream,
            report.queue.number(),
            report.resource,
            report.flags,
            report.timestamp,
            self.room.as_mut_slice(),
        );
        self.answers(outcome)
    }

    /// The back end has drained a stream without output resources, whose drain is now answered.
    ///
    /// By then no input is Queued. A stream that has outputs, in whatever state, ends its drain with
    /// the last one: by a [`finish`](Decoder::finish) with [`wire::BUFFER_FLAG_EOS`]. Where none of
    /// them is Queued, the drain waits until the guest queues one.
    ///
    /// # Errors
    ///
    /// [`Refusal::InvalidTable`], and [`Refusal::UnexpectedReport`] where there is no such stream, no
    /// drain is pending, an input is Queued or the stream has outputs.
    ///
    /// ```
    /// use virtio_video_decoder::{wire, Decoder, Refusal};
    ///
    /// # fn frame(words: &[u32], length: usize) -> Vec<u8> {
    /// #     let mut bytes: Vec<u8> = words.iter().flat_map(|word| word.to_le_bytes()).collect();
    /// #     bytes.resize(length, 0);
    /// #     bytes
    /// # }
    /// let create = frame(&[wire::CMD_STREAM_CREATE, 7, 0, 0, wire::FORMAT_H264], 88);
    /// let drain = frame(&[wire::CMD_STREAM_DRAIN, 7], 8);
    /// let mut import = frame(&[wire::CMD_RESOURCE_CREATE, 7, wire::QUEUE_TYPE_OUTPUT, 5, 1, 1], 88);
    /// import[56] = 1; // one entry for the first plane
    /// import.extend(frame(&[0x8000, 0, 4096], 16));
    ///
    /// // Without outputs there is no last one that could end the drain.
    /// let mut decoder = Decoder::new();
    /// decoder.command(1, &create)?;
    /// assert_eq!(decoder.command(2, &drain)?.count(), 0);
    /// assert_eq!(decoder.drained(7)?.next().unwrap().ticket, 2);
    ///
    /// // With one, it has to, also where the guest has not queued it yet.
    /// decoder.command(3, &import)?;
    /// decoder.command(4, &drain)?;
    /// assert_eq!(decoder.drained(7).unwrap_err(), Refusal::UnexpectedReport);
    /// # Ok::<(), Refusal>(())
    /// ```
    pub fn drained(&mut self, stream: u32) -> Result<Answers<'_>, Refusal> {
        let outcome = ffi::drained(self.table.as_mut_slice(), stream, self.room.as_mut_slice());
        self.answers(outcome)
    }

    /// How many answers are pending in all. One word of the table is read.
    ///
    /// ```
    /// use virtio_video_decoder::{wire, Decoder, Pending, Refusal};
    ///
    /// # fn frame(words: &[u32], length: usize) -> Vec<u8> {
    /// #     let mut bytes: Vec<u8> = words.iter().flat_map(|word| word.to_le_bytes()).collect();
    /// #     bytes.resize(length, 0);
    /// #     bytes
    /// # }
    /// let create = |stream| frame(&[wire::CMD_STREAM_CREATE, stream, 0, 0, wire::FORMAT_H264], 88);
    /// let drain = |stream| frame(&[wire::CMD_STREAM_DRAIN, stream], 8);
    /// let mut decoder = Decoder::new();
    /// for stream in [7, 9] {
    ///     decoder.command(stream, &create(stream))?;
    ///     decoder.command(stream, &drain(stream))?;
    /// }
    /// assert_eq!(decoder.pending_in_all(), Pending { pending: 2, words_read: 1 });
    /// decoder.drained(7)?;
    /// assert_eq!(decoder.pending_in_all().pending, 1);
    ///
    /// // The places of streams are looked at in order, and stream 9 has the second.
    /// assert_eq!(decoder.pending_of_stream(7), Pending { pending: 0, words_read: 2 });
    /// assert_eq!(decoder.pending_of_stream(9), Pending { pending: 1, words_read: 3 });
    /// assert_eq!(decoder.pending_of_stream(8), Pending { pending: 0, words_read: 8 });
    /// # Ok::<(), Refusal>(())
    /// ```
    pub fn pending_in_all(&self) -> Pending {
        Pending::new(ffi::pending_in_all(self.table.as_slice()))
    }

    /// How many answers are pending to a stream, any number; none where it is not there.
    ///
    /// Of the eight places of streams one word each is read, in order, until the stream is found, and
    /// then its figure; 8 words where it is not there. [`pending_in_all`](Decoder::pending_in_all) has
    /// an example.
    pub fn pending_of_stream(&self, stream: u32) -> Pending {
        Pending::new(ffi::pending_of_stream(self.table.as_slice(), stream))
    }

    /// What a step wrote into the room, or why it was refused.
    fn answers(&self, outcome: ffi::Outcome) -> Result<Answers<'_>, Refusal> {
        match outcome.refusal {
            0 => Ok(Answers::new(&self.room[..outcome.written as usize])),
            number => Err(Refusal::from_number(number).unwrap_or_else(|| {
                panic!("refusal {number} is not known: archive and package do not match")
            })),
        }
    }
}

impl Default for Decoder {
    fn default() -> Self {
        Self::new()
    }
}

impl fmt::Debug for Decoder {
    fn fmt(&self, f: &mut fmt::Formatter<'_>) -> fmt::Result {
        f.debug_struct("Decoder").finish_non_exhaustive()
    }
}
