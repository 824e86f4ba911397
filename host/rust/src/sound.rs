//! A virtio sound device (device 25) of one PCM stream, output only.
//!
//! A host hands a [`PcmOutput`] the messages that its guest puts into the control queue, and passes
//! each answer on to the guest. The function behind it is proved, as the decoder's are, and moves no
//! sound: what it says is which requests the PCM stream takes, and where that leaves the stream.
//!
//! ```
//! use virtio_video_decoder::sound::{wire, PcmOutput, State, Status, StreamConfig};
//!
//! let mut output = PcmOutput::new(StreamConfig {
//!     channels_min: 1,
//!     channels_max: 2,
//!     formats: 1 << wire::PCM_FMT_S16,
//!     rates: 1 << wire::PCM_RATE_44100 | 1 << wire::PCM_RATE_48000,
//! });
//!
//! // The guest's side: messages as they come out of the control queue.
//! let set_format = [1, 0, 0, 0, 0, 0, 0, 0, 2, 0, 2, 0, 7, 0, 0, 0]; // 2 channels, S16, 48000
//! let [prepare, start] = [[2, 0, 0, 0, 0, 0, 0, 0], [3, 0, 0, 0, 0, 0, 0, 0]];
//!
//! assert_eq!(output.control(&set_format), [0x00, 0x80, 0, 0]);
//! assert_eq!(Status::of(output.control(&prepare)), Some(Status::Ok));
//! assert_eq!(output.state(), State::Prepared);
//!
//! // A message that fails is answered too, and changes nothing.
//! assert_eq!(Status::of(output.control(&prepare)), Some(Status::BadMsg));
//! assert_eq!(output.state(), State::Prepared);
//!
//! assert_eq!(Status::of(output.control(&start)), Some(Status::Ok));
//! assert_eq!(output.state(), State::Running);
//! ```

pub mod wire;

use crate::ffi;
use std::fmt;
use wire::ANSWER_ROOM;

/// What the PCM stream can do: `pcm.output` of the configuration space, which a guest reads there.
#[derive(Clone, Copy, Debug, PartialEq, Eq, Hash)]
pub struct StreamConfig {
    /// Fewest channels.
    pub channels_min: u8,
    /// Most channels.
    pub channels_max: u8,
    /// Sample formats, a bit `1 << wire::PCM_FMT_..` for each. Bits above are not to be set; they
    /// offer nothing.
    pub formats: u16,
    /// Frame rates, a bit `1 << wire::PCM_RATE_..` for each. Bits above are not to be set; they
    /// offer nothing.
    pub rates: u16,
}

/// Where a PCM stream is in its life.
#[derive(Clone, Copy, Debug, PartialEq, Eq, Hash)]
#[repr(u32)]
pub enum State {
    /// Takes a set format.
    Fresh = 0,
    /// Has a format. Takes another, and a prepare.
    Set = 1,
    /// Takes a set format and a start.
    Prepared = 2,
    /// Takes a stop and a pause.
    Running = 3,
    /// Takes a stop and an unpause.
    Paused = 4,
    /// Takes a set format and a prepare.
    Stopped = 5,
}

impl State {
    /// Every state, by rising number.
    pub const ALL: [State; 6] =
        [State::Fresh, State::Set, State::Prepared, State::Running, State::Paused, State::Stopped];

    /// The number of the state, 0 to 5.
    pub const fn number(self) -> u32 {
        self as u32
    }

    /// The state of that number, if there is one.
    pub fn from_number(number: u32) -> Option<State> {
        Self::ALL.into_iter().find(|s| s.number() == number)
    }
}

/// What an answer says. A host need not look: it passes the bytes on.
#[derive(Clone, Copy, Debug, PartialEq, Eq, Hash)]
#[repr(u32)]
pub enum Status {
    /// Done.
    Ok = wire::S_OK,
    /// Malformed, out of order, or a number of channels that is out of range.
    BadMsg = wire::S_BAD_MSG,
    /// A channel map, an input stream, or a format or rate that is not offered.
    NotSupp = wire::S_NOT_SUPP,
}

impl Status {
    /// Every status that is given, by rising number.
    pub const ALL: [Status; 3] = [Status::Ok, Status::BadMsg, Status::NotSupp];

    /// The number on the wire.
    pub const fn number(self) -> u32 {
        self as u32
    }

    /// The status of that number, if there is one.
    pub fn from_number(number: u32) -> Option<Status> {
        Self::ALL.into_iter().find(|s| s.number() == number)
    }

    /// The status at the start of an answer; nothing if these bytes do not begin with one.
    pub fn of(answer: &[u8]) -> Option<Status> {
        let status = answer.get(..4)?.try_into().expect("four bytes");
        Self::from_number(u32::from_le_bytes(status))
    }
}

/// A device: its configuration, its state, and a room for one answer.
///
/// The [`state`](PcmOutput::state) is all that a device keeps. Its number is a saved device, and
/// [`from_state`](PcmOutput::from_state) is that device again. A clone is a second device.
#[derive(Clone)]
pub struct PcmOutput {
    config: StreamConfig,
    state: State,
    room: [u8; ANSWER_ROOM],
}

impl PcmOutput {
    /// A device whose PCM stream is fresh.
    pub fn new(config: StreamConfig) -> Self {
        Self::from_state(config, State::Fresh)
    }

    /// The device of an earlier [`state`](PcmOutput::state).
    ///
    /// ```
    /// use virtio_video_decoder::sound::{wire, PcmOutput, State, Status, StreamConfig};
    ///
    /// # let (formats, rates) = (1 << wire::PCM_FMT_S16, 1 << wire::PCM_RATE_48000);
    /// # let config = StreamConfig { channels_min: 1, channels_max: 2, formats, rates };
    /// let saved = PcmOutput::from_state(config, State::Running).state().number();
    ///
    /// let state = State::from_number(saved).expect("a saved state");
    /// let mut restored = PcmOutput::from_state(config, state);
    /// let pause = [5, 0, 0, 0, 0, 0, 0, 0];
    /// assert_eq!(Status::of(restored.control(&pause)), Some(Status::Ok));
    /// assert_eq!(restored.state(), State::Paused);
    /// ```
    pub fn from_state(config: StreamConfig, state: State) -> Self {
        PcmOutput { config, state, room: [0; ANSWER_ROOM] }
    }

    /// Where the PCM stream is in its life.
    pub fn state(&self) -> State {
        self.state
    }

    /// Makes the PCM stream fresh, as at a reset of the virtio device.
    pub fn reset(&mut self) {
        self.state = State::Fresh;
    }

    /// A message of the guest, any bytes, and the answer's bytes for it: 4, or the 264 of a channel
    /// map's.
    ///
    /// There is always an answer, since room and state are good. One other than [`Status::Ok`] has
    /// changed nothing. The format that is set is not kept: a host takes it from the message.
    pub fn control(&mut self, message: &[u8]) -> &[u8] {
        let StreamConfig { channels_min, channels_max, formats, rates } = self.config;
        let outcome = ffi::sound_control(
            self.state.number(),
            channels_min,
            channels_max,
            formats,
            rates,
            message,
            &mut self.room,
        );
        // An answer must not go missing in silence.
        assert_eq!(outcome.refusal, 0, "refused: archive and package do not match");
        self.state = State::from_number(outcome.state).unwrap_or_else(|| {
            panic!("state {} is not known: archive and package do not match", outcome.state)
        });
        &self.room[..outcome.written as usize]
    }
}

impl fmt::Debug for PcmOutput {
    fn fmt(&self, f: &mut fmt::Formatter<'_>) -> fmt::Result {
        f.debug_struct("PcmOutput").field("state", &self.state).finish_non_exhaustive()
    }
}
