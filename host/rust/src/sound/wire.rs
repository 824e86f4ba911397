//! Numbers of the virtio sound draft, under its names without the prefix `VIRTIO_SND_`.
//!
//! The layouts of the messages and answers are in `include/virtio_sound_output.h`.

/// Device number of a sound device.
pub const ID_SOUND: u32 = 25;

/// Feature bit: output PCM stream. Offered.
pub const F_PCM_OUTPUT: u32 = 0;
/// Feature bit: input PCM stream. Not offered.
pub const F_PCM_INPUT: u32 = 1;

/// Sample format: 8 bits, signed.
pub const PCM_FMT_S8: u32 = 0;
/// Sample format: 8 bits, unsigned.
pub const PCM_FMT_U8: u32 = 1;
/// Sample format: 16 bits, signed.
pub const PCM_FMT_S16: u32 = 2;
/// Sample format: 16 bits, unsigned.
pub const PCM_FMT_U16: u32 = 3;
/// Sample format: 32 bits, signed.
pub const PCM_FMT_S32: u32 = 4;
/// Sample format: 32 bits, unsigned.
pub const PCM_FMT_U32: u32 = 5;
/// Sample format: floating point.
pub const PCM_FMT_FLOAT: u32 = 6;
/// Sample format: floating point of 64 bits.
pub const PCM_FMT_FLOAT64: u32 = 7;

/// Frame rate: 5,512 Hz.
pub const PCM_RATE_5512: u32 = 0;
/// Frame rate: 8,000 Hz.
pub const PCM_RATE_8000: u32 = 1;
/// Frame rate: 11,025 Hz.
pub const PCM_RATE_11025: u32 = 2;
/// Frame rate: 16,000 Hz.
pub const PCM_RATE_16000: u32 = 3;
/// Frame rate: 22,050 Hz.
pub const PCM_RATE_22050: u32 = 4;
/// Frame rate: 32,000 Hz.
pub const PCM_RATE_32000: u32 = 5;
/// Frame rate: 44,100 Hz.
pub const PCM_RATE_44100: u32 = 6;
/// Frame rate: 48,000 Hz.
pub const PCM_RATE_48000: u32 = 7;
/// Frame rate: 64,000 Hz.
pub const PCM_RATE_64000: u32 = 8;
/// Frame rate: 88,200 Hz.
pub const PCM_RATE_88200: u32 = 9;
/// Frame rate: 96,000 Hz.
pub const PCM_RATE_96000: u32 = 10;
/// Frame rate: 176,400 Hz.
pub const PCM_RATE_176400: u32 = 11;
/// Frame rate: 192,000 Hz.
pub const PCM_RATE_192000: u32 = 12;
/// Frame rate: 384,000 Hz.
pub const PCM_RATE_384000: u32 = 13;

/// Request of 8 bytes or more, answered with [`S_NOT_SUPP`] in 264.
pub const R_PCM_CHMAP_INFO: u32 = 0;
/// Request of 16 bytes.
pub const R_PCM_SET_FORMAT: u32 = 1;
/// Request of 8 bytes.
pub const R_PCM_PREPARE: u32 = 2;
/// Request of 8 bytes.
pub const R_PCM_START: u32 = 3;
/// Request of 8 bytes.
pub const R_PCM_STOP: u32 = 4;
/// Request of 8 bytes.
pub const R_PCM_PAUSE: u32 = 5;
/// Request of 8 bytes.
pub const R_PCM_UNPAUSE: u32 = 6;

/// Success.
pub const S_OK: u32 = 0x8000;
/// Error: malformed, out of order, or a number of channels that is out of range.
pub const S_BAD_MSG: u32 = 0x8001;
/// Error: a channel map, an input stream, or a format or rate that is not offered.
pub const S_NOT_SUPP: u32 = 0x8002;
/// Error of input or output, which the device does not do: it never gives this one.
pub const S_IO_ERR: u32 = 0x8003;

/// Type of the PCM stream from the guest.
pub const PCM_T_OUTPUT: u32 = 0;
/// Type of the PCM stream to the guest, answered with [`S_NOT_SUPP`].
pub const PCM_T_INPUT: u32 = 1;

/// Length of the array of positions in a channel map.
pub const PCM_CH_MAX: usize = 256;

/// Bytes of room that a message asks for, which is the most that its answer has.
pub const ANSWER_ROOM: usize = 264;
