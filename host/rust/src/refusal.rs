use std::error::Error;
use std::fmt;

/// Why a step was refused. The table is then as it was, and there are no answers.
///
/// A refusal speaks to the host, never to the guest: only [`ShortCommand`](Refusal::ShortCommand)
/// is the guest's doing. What to do about each is in `docs/HOST.md`.
///
/// ```
/// use virtio_video_decoder::{Decoder, Refusal};
///
/// let refusal = Decoder::new().drained(7).unwrap_err();
/// assert_eq!(refusal, Refusal::UnexpectedReport);
/// assert_eq!(refusal.number(), 5);
/// assert_eq!(
///     refusal.to_string(),
///     "no such buffer is queued, no such drain is pending, an input is still queued, \
///      or the stream has outputs (refusal 5)"
/// );
/// ```
#[derive(Clone, Copy, Debug, PartialEq, Eq, Hash)]
#[repr(u32)]
pub enum Refusal {
    /// The table has fewer than 4,160 words. A [`Decoder`](crate::Decoder) never has.
    ShortTable = 1,
    /// The words of the table do not stand for a device: they were changed or come from elsewhere.
    InvalidTable = 2,
    /// The answer room has fewer than 1,056 bytes. A [`Decoder`](crate::Decoder)'s never has.
    ShortRoom = 3,
    /// The command is shorter than its header of 8 bytes.
    ShortCommand = 4,
    /// A finish report names no buffer that is Queued now, or has EOS while an input is still Queued;
    /// or a drained report names no stream with a drain pending, one that still has an input Queued,
    /// or one that has output resources, in whatever state.
    UnexpectedReport = 5,
    /// Flags other than ERR and EOS; or EOS on an input, or with no drain pending.
    BadFlags = 6,
}

impl Refusal {
    /// Every refusal, by rising number.
    pub const ALL: [Refusal; 6] = [
        Refusal::ShortTable,
        Refusal::InvalidTable,
        Refusal::ShortRoom,
        Refusal::ShortCommand,
        Refusal::UnexpectedReport,
        Refusal::BadFlags,
    ];

    /// The number of the refusal, 1 to 6.
    pub const fn number(self) -> u32 {
        self as u32
    }

    /// The refusal of that number, if there is one.
    pub fn from_number(number: u32) -> Option<Refusal> {
        Self::ALL.into_iter().find(|r| r.number() == number)
    }
}

impl fmt::Display for Refusal {
    fn fmt(&self, f: &mut fmt::Formatter<'_>) -> fmt::Result {
        let text = match self {
            Refusal::ShortTable => "the table has fewer than 4160 words",
            Refusal::InvalidTable => "the words of the table do not stand for a device",
            Refusal::ShortRoom => "the answer room has fewer than 1056 bytes",
            Refusal::ShortCommand => "the command has no whole header",
            Refusal::UnexpectedReport => {
                "no such buffer is queued, no such drain is pending, an input is still queued, \
                 or the stream has outputs"
            }
            Refusal::BadFlags => {
                "flags other than ERR and EOS, or EOS on an input or with no drain pending"
            }
        };
        write!(f, "{text} (refusal {})", self.number())
    }
}

impl Error for Refusal {}
