use crate::wire;
use std::iter::FusedIterator;

/// One answer: a response for the guest, and the command that it goes to.
#[derive(Clone, Copy, Debug, PartialEq, Eq)]
pub struct Answer<'a> {
    /// The ticket that the host gave with the command that is answered.
    pub ticket: u32,
    /// The bytes for the guest, as they are: 8, 24 or 120.
    pub response: &'a [u8],
}

/// A response, taken apart. A host need not do so: it passes the bytes on.
#[derive(Clone, Copy, Debug, PartialEq, Eq)]
pub enum Response {
    /// Plain success, and the answer to a drain, also where it was stopped.
    Done {
        /// The stream.
        stream: u32,
    },
    /// A buffer comes back to the guest.
    Buffer {
        /// The stream.
        stream: u32,
        /// Of an input its own; of an output the report's, or where it was stopped its own.
        timestamp: u64,
        /// [`wire::BUFFER_FLAG_ERR`] and [`wire::BUFFER_FLAG_EOS`].
        flags: u32,
    },
    /// The parameters of a queue.
    Params {
        /// The stream.
        stream: u32,
        /// Those that a guest can set; the others follow from them.
        params: Params,
    },
    /// The command failed, and the device is as it was.
    Error {
        /// The stream number as it was sent.
        stream: u32,
        /// One of the `wire::RESP_ERR_` numbers.
        code: u32,
    },
}

impl Response {
    /// What the bytes of an [`Answer`]'s response say; nothing if they are no response of the core.
    ///
    /// ```
    /// use virtio_video_decoder::{wire, Decoder, Response};
    ///
    /// let mut decoder = Decoder::new();
    /// let destroy = [0x02, 0x01, 0, 0, 7, 0, 0, 0];
    /// let answer = decoder.command(1, &destroy)?.next().unwrap();
    /// assert_eq!(
    ///     Response::from_bytes(answer.response),
    ///     Some(Response::Error { stream: 7, code: wire::RESP_ERR_INVALID_STREAM_ID })
    /// );
    /// # Ok::<(), virtio_video_decoder::Refusal>(())
    /// ```
    pub fn from_bytes(bytes: &[u8]) -> Option<Response> {
        if bytes.len() < 8 {
            return None;
        }
        let word = |at| word(bytes, at);
        let stream = word(4);
        match (word(0), bytes.len()) {
            (wire::RESP_OK_NODATA, 8) => Some(Response::Done { stream }),
            (wire::RESP_OK_RESOURCE_QUEUE, 24) => Some(Response::Buffer {
                stream,
                timestamp: u64::from(word(8)) | u64::from(word(12)) << 32,
                flags: word(16),
            }),
            (wire::RESP_OK_GET_PARAMS, 120) => Some(Response::Params {
                stream,
                params: Params {
                    queue_type: word(8),
                    format: word(12),
                    width: word(16),
                    height: word(20),
                    rate: word(48),
                },
            }),
            (code @ wire::RESP_ERR_INVALID_OPERATION..=wire::RESP_ERR_UNSUPPORTED_CONTROL, 8) => {
                Some(Response::Error { stream, code })
            }
            _ => None,
        }
    }
}

/// Parameters of a queue, as far as a guest sets them.
#[derive(Clone, Copy, Debug, PartialEq, Eq)]
pub struct Params {
    /// [`wire::QUEUE_TYPE_INPUT`] or [`wire::QUEUE_TYPE_OUTPUT`].
    pub queue_type: u32,
    /// The stream's coded format, or of an output [`wire::FORMAT_NV12`].
    pub format: u32,
    /// Width of a frame in pixels.
    pub width: u32,
    /// Height of a frame in pixels.
    pub height: u32,
    /// Frame rate, as it was set.
    pub rate: u32,
}

/// The answers of one step, in the order in which they go to the guest.
///
/// There may be none: an accepted queueing or drain is answered by a later step. A finish with EOS has
/// two, the buffer's and then the drain's; a clear or a destruction may have more.
#[derive(Clone, Debug)]
pub struct Answers<'a> {
    rest: &'a [u8],
}

impl<'a> Answers<'a> {
    pub(crate) fn new(written: &'a [u8]) -> Self {
        Answers { rest: written }
    }

    /// The answers not yet taken, as the core wrote them: ticket, length, response, and the next.
    pub fn as_bytes(&self) -> &'a [u8] {
        self.rest
    }
}

impl<'a> Iterator for Answers<'a> {
    type Item = Answer<'a>;

    fn next(&mut self) -> Option<Answer<'a>> {
        if self.rest.is_empty() {
            return None;
        }
        let (head, behind) = self.rest.split_at(8);
        let (response, rest) = behind.split_at(word(head, 4) as usize);
        self.rest = rest;
        Some(Answer { ticket: word(head, 0), response })
    }
}

impl FusedIterator for Answers<'_> {}

/// The little-endian number at `at`.
pub(crate) fn word(bytes: &[u8], at: usize) -> u32 {
    u32::from_le_bytes(bytes[at..at + 4].try_into().expect("four bytes"))
}
