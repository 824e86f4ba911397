/*
 * The command core of a virtio-video decoder (device 31, version 0): what a host calls, and
 * the draft's numbers and structs that its commands and answers are made of.
 *
 * Names, numbers and layouts are those of the virtio-video draft; docs/FIELDS.md lists them
 * field by field, and where the core does otherwise. Link with libdecoder.a (docs/HOST.md).
 */
#ifndef VIRTIO_VIDEO_DECODER_H
#define VIRTIO_VIDEO_DECODER_H

#include <stddef.h>
#include <stdint.h>

#ifdef __cplusplus
extern "C" {
#endif

/* --------------------------------------------------------------------------
 * DEVICE
 */

#define VIRTIO_ID_VIDEO_DECODER		31

/* Value of version in the configuration space */
#define VIRTIO_VIDEO_VERSION		0

/* Feature bits */

/* Guest pages can be used for video buffers */
#define VIRTIO_VIDEO_F_RESOURCE_GUEST_PAGES	0
/* The device can use non-contiguous memory for video buffers */
#define VIRTIO_VIDEO_F_RESOURCE_NON_CONTIG	1

/*
 * Numbers on the wire. They are little-endian, as are the machines that the core is built
 * for, so that there a field is the number itself. A frame and an answer may stand anywhere
 * in memory: copy a struct out of the bytes or into them, do not cast a pointer.
 */
typedef uint32_t virtio_video_le32;
typedef uint64_t virtio_video_le64;

struct virtio_video_config {
	/* VIRTIO_VIDEO_VERSION */
	virtio_video_le32 version;
	/* longest answer to VIRTIO_VIDEO_CMD_QUERY_CAPABILITY, in bytes */
	virtio_video_le32 max_caps_length;
	/* longest answer to any other command: VIRTIO_VIDEO_MAX_RESP_LENGTH, or more */
	virtio_video_le32 max_resp_length;
};

/* --------------------------------------------------------------------------
 * COMMANDS AND RESPONSES
 */

enum virtio_video_cmd_type {
	/* Commands */
	VIRTIO_VIDEO_CMD_QUERY_CAPABILITY = 0x0100,	/* answered ERR_INVALID_OPERATION */
	VIRTIO_VIDEO_CMD_STREAM_CREATE = 0x0101,
	VIRTIO_VIDEO_CMD_STREAM_DESTROY = 0x0102,
	VIRTIO_VIDEO_CMD_STREAM_DRAIN = 0x0103,
	VIRTIO_VIDEO_CMD_RESOURCE_CREATE = 0x0104,
	VIRTIO_VIDEO_CMD_RESOURCE_QUEUE = 0x0105,
	VIRTIO_VIDEO_CMD_RESOURCE_DESTROY_ALL = 0x0106,
	VIRTIO_VIDEO_CMD_QUEUE_CLEAR = 0x0107,
	VIRTIO_VIDEO_CMD_GET_PARAMS = 0x0108,
	VIRTIO_VIDEO_CMD_SET_PARAMS = 0x0109,
	VIRTIO_VIDEO_CMD_QUERY_CONTROL = 0x010A,	/* these three are answered */
	VIRTIO_VIDEO_CMD_GET_CONTROL = 0x010B,		/* ERR_UNSUPPORTED_CONTROL */
	VIRTIO_VIDEO_CMD_SET_CONTROL = 0x010C,

	/* Responses: success */
	VIRTIO_VIDEO_RESP_OK_NODATA = 0x0200,		/* a header alone, also of a drain */
	VIRTIO_VIDEO_RESP_OK_QUERY_CAPABILITY = 0x0201,	/* not given */
	VIRTIO_VIDEO_RESP_OK_RESOURCE_QUEUE = 0x0202,	/* a buffer's, finished or stopped */
	VIRTIO_VIDEO_RESP_OK_GET_PARAMS = 0x0203,
	VIRTIO_VIDEO_RESP_OK_QUERY_CONTROL = 0x0204,	/* not given */
	VIRTIO_VIDEO_RESP_OK_GET_CONTROL = 0x0205,	/* not given */

	/* Responses: errors, a header alone */
	VIRTIO_VIDEO_RESP_ERR_INVALID_OPERATION = 0x0300,
	VIRTIO_VIDEO_RESP_ERR_OUT_OF_MEMORY = 0x0301,
	/* no such stream; for a creation: a number that is spent, or above 1,023 */
	VIRTIO_VIDEO_RESP_ERR_INVALID_STREAM_ID = 0x0302,
	VIRTIO_VIDEO_RESP_ERR_INVALID_RESOURCE_ID = 0x0303,
	VIRTIO_VIDEO_RESP_ERR_INVALID_PARAMETER = 0x0304,
	VIRTIO_VIDEO_RESP_ERR_UNSUPPORTED_CONTROL = 0x0305,
};

/* Every command and every response begins with this header. */
struct virtio_video_cmd_hdr {
	/* one of VIRTIO_VIDEO_CMD_* or VIRTIO_VIDEO_RESP_* */
	virtio_video_le32 type;
	/* the stream; a response carries the number that was sent */
	virtio_video_le32 stream_id;
};

enum virtio_video_queue_type {
	VIRTIO_VIDEO_QUEUE_TYPE_INPUT = 0x100,	/* coded data, from the guest */
	VIRTIO_VIDEO_QUEUE_TYPE_OUTPUT = 0x101,	/* pictures, to the guest */
};

enum virtio_video_format {
	/* Raw formats; an output queue has NV12 */
	VIRTIO_VIDEO_FORMAT_ARGB8888 = 1,
	VIRTIO_VIDEO_FORMAT_BGRA8888 = 2,
	VIRTIO_VIDEO_FORMAT_NV12 = 3,		/* 12 Y/CbCr 4:2:0 */
	VIRTIO_VIDEO_FORMAT_YUV420 = 4,		/* 12 YUV 4:2:0 */
	VIRTIO_VIDEO_FORMAT_YVU420 = 5,		/* 12 YVU 4:2:0 */

	/* Coded formats; an input queue has that of its stream */
	VIRTIO_VIDEO_FORMAT_MPEG2 = 0x1000,	/* MPEG-2 Part 2 */
	VIRTIO_VIDEO_FORMAT_MPEG4 = 0x1001,	/* MPEG-4 Part 2 */
	VIRTIO_VIDEO_FORMAT_H264 = 0x1002,	/* H.264 */
	VIRTIO_VIDEO_FORMAT_HEVC = 0x1003,	/* HEVC aka H.265 */
	VIRTIO_VIDEO_FORMAT_VP8 = 0x1004,	/* VP8 */
	VIRTIO_VIDEO_FORMAT_VP9 = 0x1005,	/* VP9 */
};

/* --------------------------------------------------------------------------
 * STREAMS
 */

enum virtio_video_mem_type {
	VIRTIO_VIDEO_MEM_TYPE_GUEST_PAGES = 0,	/* no other is taken */
};

/*
 * VIRTIO_VIDEO_CMD_STREAM_CREATE, answered by a header. The stream's number is below
 * VIRTIO_VIDEO_STREAM_NUMBERS. Success spends it: until the table is made fresh no other
 * stream gets that number, also when this one is destroyed. A creation that fails spends
 * nothing.
 */
struct virtio_video_stream_create {
	struct virtio_video_cmd_hdr hdr;
	/* both VIRTIO_VIDEO_MEM_TYPE_GUEST_PAGES */
	virtio_video_le32 in_mem_type;
	virtio_video_le32 out_mem_type;
	/* one of the coded VIRTIO_VIDEO_FORMAT_* */
	virtio_video_le32 coded_format;
	uint8_t padding[4];
	/* UTF-8 with a NUL at the end; may be empty */
	uint8_t tag[64];
};

/* VIRTIO_VIDEO_CMD_STREAM_DESTROY and VIRTIO_VIDEO_CMD_STREAM_DRAIN are a header alone. */

/* --------------------------------------------------------------------------
 * RESOURCES
 */

#define VIRTIO_VIDEO_MAX_PLANES		8

enum virtio_video_planes_layout_flag {
	VIRTIO_VIDEO_PLANES_LAYOUT_SINGLE_BUFFER = 1,
	VIRTIO_VIDEO_PLANES_LAYOUT_PER_PLANE = 2,
};

/* VIRTIO_VIDEO_CMD_RESOURCE_CREATE, answered by a header */
struct virtio_video_resource_create {
	struct virtio_video_cmd_hdr hdr;
	/* one of VIRTIO_VIDEO_QUEUE_TYPE_* */
	virtio_video_le32 queue_type;
	virtio_video_le32 resource_id;
	/* one of VIRTIO_VIDEO_PLANES_LAYOUT_* */
	virtio_video_le32 planes_layout;
	/* 1 to VIRTIO_VIDEO_MAX_PLANES */
	virtio_video_le32 num_planes;
	virtio_video_le32 plane_offsets[VIRTIO_VIDEO_MAX_PLANES];
	/* the first num_planes of these add up to 1 to VIRTIO_VIDEO_MAX_ENTRIES */
	virtio_video_le32 num_entries[VIRTIO_VIDEO_MAX_PLANES];
	/* followed by so many struct virtio_video_mem_entry */
};

struct virtio_video_mem_entry {
	virtio_video_le64 addr;
	/* not 0; the entry ends at 2^64 at most */
	virtio_video_le32 length;
	uint8_t padding[4];
};

/* VIRTIO_VIDEO_CMD_RESOURCE_DESTROY_ALL, answered by a header */
struct virtio_video_resource_destroy_all {
	struct virtio_video_cmd_hdr hdr;
	/* one of VIRTIO_VIDEO_QUEUE_TYPE_* */
	virtio_video_le32 queue_type;
	uint8_t padding[4];
};

/* --------------------------------------------------------------------------
 * BUFFERS
 */

/*
 * VIRTIO_VIDEO_CMD_RESOURCE_QUEUE. Once accepted it is answered by a later step, by a
 * struct virtio_video_resource_queue_resp.
 */
struct virtio_video_resource_queue {
	struct virtio_video_cmd_hdr hdr;
	/* one of VIRTIO_VIDEO_QUEUE_TYPE_* */
	virtio_video_le32 queue_type;
	virtio_video_le32 resource_id;
	virtio_video_le64 timestamp;
	/* at most VIRTIO_VIDEO_MAX_PLANES */
	virtio_video_le32 num_data_sizes;
	virtio_video_le32 data_sizes[VIRTIO_VIDEO_MAX_PLANES];
	uint8_t padding[4];
};

enum virtio_video_buffer_flag {
	VIRTIO_VIDEO_BUFFER_FLAG_ERR = 0x0001,	/* failed, or stopped */
	VIRTIO_VIDEO_BUFFER_FLAG_EOS = 0x0002,	/* last output of a drain, which ends with it */
};

/* A buffer's answer; its type is VIRTIO_VIDEO_RESP_OK_RESOURCE_QUEUE */
struct virtio_video_resource_queue_resp {
	struct virtio_video_cmd_hdr hdr;
	/* of an input its own; of an output the report's, or where it was stopped its own */
	virtio_video_le64 timestamp;
	/* VIRTIO_VIDEO_BUFFER_FLAG_*; where it was stopped, ERR alone */
	virtio_video_le32 flags;
	/* encoded size: 0 */
	virtio_video_le32 size;
};

/* VIRTIO_VIDEO_CMD_QUEUE_CLEAR, answered by a header after the answers of what it stops */
struct virtio_video_resource_queue_clear {
	struct virtio_video_cmd_hdr hdr;
	/* one of VIRTIO_VIDEO_QUEUE_TYPE_* */
	virtio_video_le32 queue_type;
	uint8_t padding[4];
};

/* --------------------------------------------------------------------------
 * PARAMETERS
 */

struct virtio_video_plane_format {
	virtio_video_le32 plane_size;
	virtio_video_le32 stride;
};

struct virtio_video_crop {
	virtio_video_le32 left;
	virtio_video_le32 top;
	virtio_video_le32 width;
	virtio_video_le32 height;
};

struct virtio_video_params {
	/* one of VIRTIO_VIDEO_QUEUE_TYPE_* */
	virtio_video_le32 queue_type;
	/* input: the stream's coded format; output: VIRTIO_VIDEO_FORMAT_NV12 */
	virtio_video_le32 format;
	/* both even, 16 to 4,096 */
	virtio_video_le32 frame_width;
	virtio_video_le32 frame_height;
	virtio_video_le32 min_buffers;
	virtio_video_le32 max_buffers;
	struct virtio_video_crop crop;
	virtio_video_le32 frame_rate;
	virtio_video_le32 num_planes;
	struct virtio_video_plane_format plane_formats[VIRTIO_VIDEO_MAX_PLANES];
};

/* VIRTIO_VIDEO_CMD_GET_PARAMS */
struct virtio_video_get_params {
	struct virtio_video_cmd_hdr hdr;
	/* one of VIRTIO_VIDEO_QUEUE_TYPE_* */
	virtio_video_le32 queue_type;
	uint8_t padding[4];
};

/* its answer, of type VIRTIO_VIDEO_RESP_OK_GET_PARAMS */
struct virtio_video_get_params_resp {
	struct virtio_video_cmd_hdr hdr;
	struct virtio_video_params params;
};

/* VIRTIO_VIDEO_CMD_SET_PARAMS, answered by a header; queue type, format, size, rate are read */
struct virtio_video_set_params {
	struct virtio_video_cmd_hdr hdr;
	struct virtio_video_params params;
};

/* --------------------------------------------------------------------------
 * CONTROLS
 */

/* Of the header, a control and padding, 16 bytes; none of them is supported */
enum virtio_video_control_type {
	VIRTIO_VIDEO_CONTROL_BITRATE = 1,
	VIRTIO_VIDEO_CONTROL_PROFILE = 2,
	VIRTIO_VIDEO_CONTROL_LEVEL = 3,
};

/* --------------------------------------------------------------------------
 * THE CORE
 */

/* Limits of a device */
#define VIRTIO_VIDEO_MAX_STREAMS	8	/* live at a time */
#define VIRTIO_VIDEO_STREAM_NUMBERS	1024	/* 0 to 1,023, each for one stream */
#define VIRTIO_VIDEO_MAX_RESOURCES	16	/* in each queue of a stream */
#define VIRTIO_VIDEO_MAX_ENTRIES	256	/* of a resource */

/* Words of a device table, 4 bytes each */
#define VIRTIO_VIDEO_TABLE_WORDS	4160

/*
 * Bytes of room that a step asks for, which is the most that one writes: 32 answers to
 * buffers, one to a drain and one to the command itself.
 */
#define VIRTIO_VIDEO_ANSWER_ROOM	1056

/* Longest response, that of GET_PARAMS: for max_resp_length in the configuration space */
#define VIRTIO_VIDEO_MAX_RESP_LENGTH	120

/* Longest command that can succeed: a resource of VIRTIO_VIDEO_MAX_ENTRIES entries */
#define VIRTIO_VIDEO_MAX_CMD_LENGTH	4184

/* Why a step or a question was refused. Then nothing was written, and the table is as it was. */
enum virtio_video_refusal {
	VIRTIO_VIDEO_REFUSAL_NONE = 0,
	/* the table has fewer than VIRTIO_VIDEO_TABLE_WORDS words */
	VIRTIO_VIDEO_REFUSAL_SHORT_TABLE = 1,
	/* the words of the table do not stand for a device */
	VIRTIO_VIDEO_REFUSAL_INVALID_TABLE = 2,
	/* the room has fewer than VIRTIO_VIDEO_ANSWER_ROOM bytes */
	VIRTIO_VIDEO_REFUSAL_SHORT_ROOM = 3,
	/* the command has no whole header */
	VIRTIO_VIDEO_REFUSAL_SHORT_COMMAND = 4,
	/*
	 * finish: that buffer is not Queued now, or it has EOS while an input is still Queued.
	 * drained: no such stream, no drain is pending, an input is still Queued, or the stream
	 * has output resources, in whatever state
	 */
	VIRTIO_VIDEO_REFUSAL_UNEXPECTED_REPORT = 5,
	/* flags other than ERR and EOS; EOS on an input, or with no drain pending */
	VIRTIO_VIDEO_REFUSAL_BAD_FLAGS = 6,
};

/* The result of a step */
struct virtio_video_outcome {
	/* one of VIRTIO_VIDEO_REFUSAL_* */
	uint32_t refusal;
	/* bytes of answers at the start of the room; may be 0; 0 with a refusal */
	uint32_t written;
};

/*
 * What stands before each response in the room. Answers follow each other without a gap,
 * in the order in which they go to the guest.
 */
struct virtio_video_answer {
	/* the ticket of the command that is answered */
	virtio_video_le32 ticket;
	/* bytes of the response that follows: 8, 24 or 120 */
	virtio_video_le32 length;
};

/* The result of a question for pending answers */
struct virtio_video_pending {
	/* VIRTIO_VIDEO_REFUSAL_NONE or VIRTIO_VIDEO_REFUSAL_SHORT_TABLE */
	uint32_t refusal;
	/* how many answers are pending; 0 with a refusal */
	uint32_t pending;
	/* how many words of the table were read, at most 9; 0 with a refusal */
	uint32_t words_read;
};

/* What is said of a log with its answers: that it is right, or what is wrong with a line */
enum virtio_video_verdict_number {
	VIRTIO_VIDEO_VERDICT_ACCEPTED = 0,
	/* an answer is due, and a question or the end of the log stands in its place */
	VIRTIO_VIDEO_VERDICT_MISSING = 1,
	/* an answer stands where none is due */
	VIRTIO_VIDEO_VERDICT_EXTRA = 2,
	/* an answer stands where one is due, and has other bytes */
	VIRTIO_VIDEO_VERDICT_DIFFERENT = 3,
	/* the line is neither a frame nor an answer, or over-long: the refusal 7 of a log */
	VIRTIO_VIDEO_VERDICT_REFUSED = 7,
};

/* The result of a check */
struct virtio_video_verdict {
	/* the first wrong line, from 1, the end being one past the last; 0 where accepted */
	uint64_t line;
	/* one of VIRTIO_VIDEO_VERDICT_* */
	uint32_t verdict;
};

/*
 * What is lent to a call, until it returns:
 *
 * table, words: the device. The first VIRTIO_VIDEO_TABLE_WORDS words are read and written, by a
 *	question only read; those behind them never. Aligned to 4 bytes. Between the calls it is
 *	the caller's to copy, save and restore. The core keeps nothing anywhere else.
 * frame, frame_len: the bytes of one command as the guest sent them. Only read. Any bytes
 *	and any length are safe. Copy them out of the guest's memory first: they must not
 *	change during the call.
 * answers, answers_len: where answers go, from its start. What lies behind the bytes
 *	written is left as it was.
 * log, log_len: the bytes of a log. Only read. Any bytes and any length are safe.
 *
 * A count is in elements, words or bytes, and has to be true. A pointer whose count is 0
 * may be null. The pieces of one call must not overlap, and nobody else may touch them
 * during the call, but for reading what the call only reads. So calls on different tables may
 * run at the same time, questions on one table too, and checks of logs beside any other call.
 */

/*
 * Makes the table that of a device without streams, on which no number is spent. Gives 0 or
 * REFUSAL_SHORT_TABLE.
 */
uint32_t virtio_video_fresh(uint32_t *table, size_t words);

/*
 * A command of the guest. The ticket is the caller's own number for it, any number, and
 * comes back with the command's answer: now, or for an accepted RESOURCE_QUEUE or
 * STREAM_DRAIN with a later step.
 */
struct virtio_video_outcome
virtio_video_command(uint32_t *table, size_t words, uint32_t ticket,
		     const uint8_t *frame, size_t frame_len,
		     uint8_t *answers, size_t answers_len);

/*
 * The back end is done with a Queued buffer. flags are VIRTIO_VIDEO_BUFFER_FLAG_ERR and
 * VIRTIO_VIDEO_BUFFER_FLAG_EOS; timestamp goes into the answer of an output.
 *
 * EOS, alone or with ERR, says that this is the last output of the pending drain, and ends
 * it: the buffer is answered and then the STREAM_DRAIN, 48 bytes in all. Without EOS it is
 * the buffer alone, 32 bytes. Other outputs that are Queued stay so.
 *
 * The report itself is refused, tested in this order, for flags above 3 (BAD_FLAGS); a buffer
 * that is not Queued now (UNEXPECTED_REPORT); EOS on an input, or with no drain pending
 * (BAD_FLAGS); EOS while an input is Queued (UNEXPECTED_REPORT), so report the inputs first.
 */
struct virtio_video_outcome
virtio_video_finish(uint32_t *table, size_t words, uint32_t stream,
		    uint32_t queue_type, uint32_t resource, uint32_t flags,
		    uint64_t timestamp, uint8_t *answers, size_t answers_len);

/*
 * The back end has drained a stream without output resources: its STREAM_DRAIN is answered, 16
 * bytes. A stream that has outputs, in whatever state, ends its drain with the last one, by a
 * finish with EOS; where none of them is Queued, the drain waits until the guest queues one. There
 * this report is refused with UNEXPECTED_REPORT, as it is for no such stream, with no drain
 * pending, and while an input is Queued.
 */
struct virtio_video_outcome
virtio_video_drained(uint32_t *table, size_t words, uint32_t stream,
		     uint8_t *answers, size_t answers_len);

/*
 * How many answers are pending in all: one for each buffer that is Queued, and one for each drain
 * that is pending. Reads one word of the table.
 *
 * A question changes nothing, and makes no test but for SHORT_TABLE. Of a table that is not valid
 * the figure is what its words hold.
 */
struct virtio_video_pending
virtio_video_pending_in_all(const uint32_t *table, size_t words);

/*
 * The same of one stream, 0 where it is not there. Of the eight places of streams one word each is
 * read, in order, until the stream is found, and then its figure: 2 to 9 words in all. 8 words are
 * read where it is not there.
 */
struct virtio_video_pending
virtio_video_pending_of_stream(const uint32_t *table, size_t words, uint32_t stream);

/*
 * Checks a log, such as another maker's device wrote: questions and answers, one a line in
 * hexadecimal, each answer behind its question (docs/LOG.md). The questions are run on a device
 * of its own, fresh at the start. A log is accepted where every line is a frame or an answer and
 * behind each frame stand the answers that the core gives, in order and whatever the case of
 * their digits; so is an empty one. The verdict is that of the first wrong line.
 */
struct virtio_video_verdict
virtio_video_check_log(const uint8_t *log, size_t log_len);

#ifdef __cplusplus
} /* extern "C" */
#endif

/*
 * No struct above has gaps, so that its size is the sum of its fields; but virtio_video_verdict
 * has 4 bytes behind them.
 */
#if defined(__cplusplus) && __cplusplus >= 201103L
#define VIRTIO_VIDEO_SIZE(type, bytes) \
	static_assert(sizeof(struct type) == (bytes), "size of " #type)
#elif defined(__STDC_VERSION__) && __STDC_VERSION__ >= 201112L
#define VIRTIO_VIDEO_SIZE(type, bytes) \
	_Static_assert(sizeof(struct type) == (bytes), "size of " #type)
#endif
#ifdef VIRTIO_VIDEO_SIZE
VIRTIO_VIDEO_SIZE(virtio_video_config, 12);
VIRTIO_VIDEO_SIZE(virtio_video_cmd_hdr, 8);
VIRTIO_VIDEO_SIZE(virtio_video_stream_create, 88);
VIRTIO_VIDEO_SIZE(virtio_video_resource_create, 88);
VIRTIO_VIDEO_SIZE(virtio_video_mem_entry, 16);
VIRTIO_VIDEO_SIZE(virtio_video_resource_destroy_all, 16);
VIRTIO_VIDEO_SIZE(virtio_video_resource_queue, 64);
VIRTIO_VIDEO_SIZE(virtio_video_resource_queue_resp, 24);
VIRTIO_VIDEO_SIZE(virtio_video_resource_queue_clear, 16);
VIRTIO_VIDEO_SIZE(virtio_video_plane_format, 8);
VIRTIO_VIDEO_SIZE(virtio_video_crop, 16);
VIRTIO_VIDEO_SIZE(virtio_video_params, 112);
VIRTIO_VIDEO_SIZE(virtio_video_get_params, 16);
VIRTIO_VIDEO_SIZE(virtio_video_get_params_resp, 120);
VIRTIO_VIDEO_SIZE(virtio_video_set_params, 120);
VIRTIO_VIDEO_SIZE(virtio_video_outcome, 8);
VIRTIO_VIDEO_SIZE(virtio_video_answer, 8);
VIRTIO_VIDEO_SIZE(virtio_video_pending, 12);
VIRTIO_VIDEO_SIZE(virtio_video_verdict, 16);
#undef VIRTIO_VIDEO_SIZE
#endif

#endif /* VIRTIO_VIDEO_DECODER_H */
