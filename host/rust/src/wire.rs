//! Numbers of the virtio-video draft, under its names without the prefix `VIRTIO_VIDEO_`.
//!
//! The layouts of the commands and responses are in `include/virtio_video_decoder.h`.

/// Device number of a decoder.
pub const ID_VIDEO_DECODER: u32 = 31;

/// Feature bit: guest pages can be used for video buffers. Offered.
pub const F_RESOURCE_GUEST_PAGES: u32 = 0;
/// Feature bit: memory of video buffers need not be contiguous. Offered.
pub const F_RESOURCE_NON_CONTIG: u32 = 1;

/// Command, answered with [`RESP_ERR_INVALID_OPERATION`].
pub const CMD_QUERY_CAPABILITY: u32 = 0x0100;
/// Command of 88 bytes. Its success spends the stream's number, which is below [`STREAM_NUMBERS`].
pub const CMD_STREAM_CREATE: u32 = 0x0101;
/// Command of 8 bytes.
pub const CMD_STREAM_DESTROY: u32 = 0x0102;
/// Command of 8 bytes, answered behind the last output, which has [`BUFFER_FLAG_EOS`]; in a stream
/// without outputs once the back end has drained it.
pub const CMD_STREAM_DRAIN: u32 = 0x0103;
/// Command of 88 bytes and 16 for each memory entry.
pub const CMD_RESOURCE_CREATE: u32 = 0x0104;
/// Command of 64 bytes, answered once the back end is done with the buffer.
pub const CMD_RESOURCE_QUEUE: u32 = 0x0105;
/// Command of 16 bytes.
pub const CMD_RESOURCE_DESTROY_ALL: u32 = 0x0106;
/// Command of 16 bytes.
pub const CMD_QUEUE_CLEAR: u32 = 0x0107;
/// Command of 16 bytes, answered with 120.
pub const CMD_GET_PARAMS: u32 = 0x0108;
/// Command of 120 bytes.
pub const CMD_SET_PARAMS: u32 = 0x0109;
/// Command of 16 bytes, answered with [`RESP_ERR_UNSUPPORTED_CONTROL`].
pub const CMD_QUERY_CONTROL: u32 = 0x010A;
/// Command of 16 bytes, answered with [`RESP_ERR_UNSUPPORTED_CONTROL`].
pub const CMD_GET_CONTROL: u32 = 0x010B;
/// Command of 16 bytes or more, answered with [`RESP_ERR_UNSUPPORTED_CONTROL`].
pub const CMD_SET_CONTROL: u32 = 0x010C;

/// Success, also of a drain, 8 bytes.
pub const RESP_OK_NODATA: u32 = 0x0200;
/// Answer to a buffer, finished or stopped, 24 bytes.
pub const RESP_OK_RESOURCE_QUEUE: u32 = 0x0202;
/// Success of [`CMD_GET_PARAMS`], 120 bytes.
pub const RESP_OK_GET_PARAMS: u32 = 0x0203;
/// Error: not now, or no such command.
pub const RESP_ERR_INVALID_OPERATION: u32 = 0x0300;
/// Error: no place for another stream or resource.
pub const RESP_ERR_OUT_OF_MEMORY: u32 = 0x0301;
/// Error: no such stream; or for a creation a number that is spent, or not below
/// [`STREAM_NUMBERS`].
pub const RESP_ERR_INVALID_STREAM_ID: u32 = 0x0302;
/// Error: no such resource, or for a creation one that is there.
pub const RESP_ERR_INVALID_RESOURCE_ID: u32 = 0x0303;
/// Error: a bad length or field.
pub const RESP_ERR_INVALID_PARAMETER: u32 = 0x0304;
/// Error: the answer to every control.
pub const RESP_ERR_UNSUPPORTED_CONTROL: u32 = 0x0305;

/// Queue of coded data from the guest.
pub const QUEUE_TYPE_INPUT: u32 = 0x100;
/// Queue of pictures to the guest.
pub const QUEUE_TYPE_OUTPUT: u32 = 0x101;

/// Memory type of a stream's buffers: guest pages.
pub const MEM_TYPE_GUEST_PAGES: u32 = 0;

/// Planes one after another in one buffer.
pub const PLANES_LAYOUT_SINGLE_BUFFER: u32 = 1;
/// Each plane in a buffer of its own.
pub const PLANES_LAYOUT_PER_PLANE: u32 = 2;

/// Raw format, that of every output queue: Y/CbCr 4:2:0.
pub const FORMAT_NV12: u32 = 3;
/// Coded format: MPEG-2 Part 2.
pub const FORMAT_MPEG2: u32 = 0x1000;
/// Coded format: MPEG-4 Part 2.
pub const FORMAT_MPEG4: u32 = 0x1001;
/// Coded format: H.264.
pub const FORMAT_H264: u32 = 0x1002;
/// Coded format: HEVC.
pub const FORMAT_HEVC: u32 = 0x1003;
/// Coded format: VP8.
pub const FORMAT_VP8: u32 = 0x1004;
/// Coded format: VP9.
pub const FORMAT_VP9: u32 = 0x1005;

/// Buffer flag: decoding failed, or was stopped by a clear or the stream's destruction.
pub const BUFFER_FLAG_ERR: u32 = 0x0001;
/// Buffer flag: the last output of a drain, which ends with it.
pub const BUFFER_FLAG_EOS: u32 = 0x0002;

/// Streams of a device at a time.
pub const MAX_STREAMS: usize = 8;
/// Numbers that a stream can have, from 0 on. Each is for one stream: no other gets it until the
/// table is made fresh.
pub const STREAM_NUMBERS: usize = 1024;
/// Resources in each of the two queues of a stream.
pub const MAX_RESOURCES: usize = 16;
/// Memory entries of a resource.
pub const MAX_ENTRIES: usize = 256;
/// Length of the arrays of planes in commands and parameters.
pub const MAX_PLANES: usize = 8;
/// Bytes of the longest response, for `max_resp_length` in the configuration space.
pub const MAX_RESP_LENGTH: usize = 120;
/// Bytes of the longest command that can succeed.
pub const MAX_CMD_LENGTH: usize = 4184;

/// Words of a device table.
pub const TABLE_WORDS: usize = 4160;
/// Bytes of room that a step asks for, which is the most that one writes.
pub const ANSWER_ROOM: usize = 1056;
