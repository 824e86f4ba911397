/*
 * A small host: it makes a decoder, plays a guest and a back end to it, prints what the guest
 * gets, and asks how many answers are pending; it has logs checked; then it plays to a sound
 * device. Each step's result and bytes, each figure and each verdict are compared with those
 * worked out by hand from the drafts and the scope; the exit status is 1 where any of them
 * differs.
 */
#include <stdio.h>
#include <stdlib.h>
#include <string.h>

#include "virtio_sound_output.h"
#include "virtio_video_decoder.h"

#define STREAM	7
#define INPUT	VIRTIO_VIDEO_QUEUE_TYPE_INPUT
#define OUTPUT	VIRTIO_VIDEO_QUEUE_TYPE_OUTPUT

/* Where the first stream's drain stands: 1 if one is pending, else 0. Its ticket follows. */
#define DRAIN	3

/* The words of the spent numbers begin here: number n is bit n % 32 of word SPENT + n / 32 */
#define SPENT	4096

/*
 * The figures of pending answers: the total, and for each place its mark, which is the number of
 * its stream and 1 or 0 where it is vacant, and its figure
 */
#define TOTAL	4129
#define MARKS	4130
#define FIGURES	4138

/* What stands in the room where the core has not written */
#define UNTOUCHED 0xa5

static uint32_t table[VIRTIO_VIDEO_TABLE_WORDS];
static uint8_t room[VIRTIO_VIDEO_ANSWER_ROOM];
static int failed;

static void wrong(const char *what)
{
	printf("    WRONG: %s\n", what);
	failed = 1;
}

static const char *type_name(uint32_t type)
{
	switch (type) {
	case VIRTIO_VIDEO_RESP_OK_NODATA:
		return "OK_NODATA";
	case VIRTIO_VIDEO_RESP_OK_RESOURCE_QUEUE:
		return "OK_RESOURCE_QUEUE";
	case VIRTIO_VIDEO_RESP_OK_GET_PARAMS:
		return "OK_GET_PARAMS";
	case VIRTIO_VIDEO_RESP_ERR_INVALID_OPERATION:
		return "ERR_INVALID_OPERATION";
	case VIRTIO_VIDEO_RESP_ERR_OUT_OF_MEMORY:
		return "ERR_OUT_OF_MEMORY";
	case VIRTIO_VIDEO_RESP_ERR_INVALID_STREAM_ID:
		return "ERR_INVALID_STREAM_ID";
	case VIRTIO_VIDEO_RESP_ERR_INVALID_RESOURCE_ID:
		return "ERR_INVALID_RESOURCE_ID";
	case VIRTIO_VIDEO_RESP_ERR_INVALID_PARAMETER:
		return "ERR_INVALID_PARAMETER";
	case VIRTIO_VIDEO_RESP_ERR_UNSUPPORTED_CONTROL:
		return "ERR_UNSUPPORTED_CONTROL";
	default:
		return "?";
	}
}

static size_t length_of(uint32_t type)
{
	switch (type) {
	case VIRTIO_VIDEO_RESP_OK_RESOURCE_QUEUE:
		return sizeof(struct virtio_video_resource_queue_resp);
	case VIRTIO_VIDEO_RESP_OK_GET_PARAMS:
		return sizeof(struct virtio_video_get_params_resp);
	default:
		return sizeof(struct virtio_video_cmd_hdr);
	}
}

static void show_response(const uint8_t *bytes, size_t length)
{
	struct virtio_video_cmd_hdr hdr;
	struct virtio_video_resource_queue_resp buffer;
	struct virtio_video_get_params_resp get;

	memcpy(&hdr, bytes, sizeof(hdr));
	if (length != length_of(hdr.type)) {
		printf("\n");
		wrong("a response of another length than its type has");
		return;
	}
	printf("%s, stream %u", type_name(hdr.type), (unsigned)hdr.stream_id);
	if (hdr.type == VIRTIO_VIDEO_RESP_OK_RESOURCE_QUEUE) {
		memcpy(&buffer, bytes, sizeof(buffer));
		printf(", timestamp %llu%s%s", (unsigned long long)buffer.timestamp,
		       buffer.flags & VIRTIO_VIDEO_BUFFER_FLAG_ERR ? ", ERR" : "",
		       buffer.flags & VIRTIO_VIDEO_BUFFER_FLAG_EOS ? ", EOS" : "");
	} else if (hdr.type == VIRTIO_VIDEO_RESP_OK_GET_PARAMS) {
		memcpy(&get, bytes, sizeof(get));
		printf(", format 0x%x, %u by %u, %u planes", (unsigned)get.params.format,
		       (unsigned)get.params.frame_width, (unsigned)get.params.frame_height,
		       (unsigned)get.params.num_planes);
	}
	printf("\n");
}

/* Goes through the answers of a step, as a host does to pass them on. */
static void show_answers(uint32_t written)
{
	struct virtio_video_answer answer;
	size_t at = 0;

	if (written == 0)
		printf("    no answer yet\n");
	while (at < written) {
		if (written - at < sizeof(answer)) {
			wrong("half an answer");
			return;
		}
		memcpy(&answer, room + at, sizeof(answer));
		at += sizeof(answer);
		if (answer.length < sizeof(struct virtio_video_cmd_hdr) ||
		    answer.length > written - at) {
			wrong("a response that does not fit");
			return;
		}
		printf("    to ticket %u: ", (unsigned)answer.ticket);
		show_response(room + at, answer.length);
		at += answer.length;
	}
}

static int digit(char c)
{
	return c <= '9' ? c - '0' : c - 'a' + 10;
}

/*
 * Compares how many bytes were written, and the room from its first byte to its last, with
 * what is expected: the answers in hexadecimal with blanks between.
 */
static void expect_bytes(uint32_t written, const char *hex)
{
	uint8_t bytes[sizeof(room)];
	uint32_t count = 0;

	memset(bytes, UNTOUCHED, sizeof(bytes));
	while (*hex) {
		if (*hex == ' ') {
			hex++;
			continue;
		}
		bytes[count++] = (uint8_t)(digit(hex[0]) << 4 | digit(hex[1]));
		hex += 2;
	}

	if (written != count)
		wrong("the number of bytes");
	if (memcmp(room, bytes, sizeof(room)) != 0)
		wrong("the bytes");
	memset(room, UNTOUCHED, sizeof(room));
}

/* Compares a step's result and answers with what is expected. */
static void expect(struct virtio_video_outcome outcome, uint32_t refusal, const char *hex)
{
	if (outcome.refusal)
		printf("    refused with %u\n", (unsigned)outcome.refusal);
	else if (outcome.written <= sizeof(room))
		show_answers(outcome.written);
	if (outcome.refusal != refusal)
		wrong("the result");
	expect_bytes(outcome.written, hex);
}

/* A command of the guest: what it is, its bytes, and what is to come of it */
static void command(uint32_t ticket, const char *what, const void *frame, size_t length,
		    uint32_t refusal, const char *hex)
{
	uint8_t *copy = NULL;

	/* out of the guest's memory, which the guest may change at any time */
	if (length) {
		copy = malloc(length);
		if (!copy)
			abort();
		memcpy(copy, frame, length);
	}
	printf("guest, ticket %u: %s\n", (unsigned)ticket, what);
	expect(virtio_video_command(table, VIRTIO_VIDEO_TABLE_WORDS, ticket, copy, length, room,
				    sizeof(room)),
	       refusal, hex);
	free(copy);
}

static void finish(const char *what, uint32_t queue_type, uint32_t resource, uint32_t flags,
		   uint64_t timestamp, uint32_t refusal, const char *hex)
{
	printf("back end: %s\n", what);
	expect(virtio_video_finish(table, VIRTIO_VIDEO_TABLE_WORDS, STREAM, queue_type, resource,
				   flags, timestamp, room, sizeof(room)),
	       refusal, hex);
}

static void drained(const char *what, uint32_t refusal, const char *hex)
{
	printf("back end: %s\n", what);
	expect(virtio_video_drained(table, VIRTIO_VIDEO_TABLE_WORDS, STREAM, room, sizeof(room)),
	       refusal, hex);
}

/* Compares the drain in the table with what is expected. */
static void expect_drain(uint32_t pending, uint32_t ticket)
{
	if (table[DRAIN] != pending || table[DRAIN + 1] != ticket)
		wrong("the drain in the table");
}

/* Compares what is said of pending answers with what is expected. */
static void expect_said(struct virtio_video_pending said, uint32_t refusal, uint32_t pending,
			uint32_t words_read)
{
	if (said.refusal)
		printf("    refused with %u\n", (unsigned)said.refusal);
	else
		printf("    pending: %u; words read: %u\n", (unsigned)said.pending,
		       (unsigned)said.words_read);
	if (said.refusal != refusal)
		wrong("the result");
	if (said.pending != pending)
		wrong("the number of pending answers");
	if (said.words_read != words_read)
		wrong("the number of words read");
}

static void ask_in_all(uint32_t pending)
{
	printf("host: asks what is pending in all\n");
	expect_said(virtio_video_pending_in_all(table, VIRTIO_VIDEO_TABLE_WORDS), 0, pending, 1);
}

static void ask_of(uint32_t stream, uint32_t pending, uint32_t words_read)
{
	printf("host: asks what is pending to stream %u\n", (unsigned)stream);
	expect_said(virtio_video_pending_of_stream(table, VIRTIO_VIDEO_TABLE_WORDS, stream), 0,
		    pending, words_read);
}

/* Of the stream that the session is about, which is alone and so in the first place */
static void ask(uint32_t pending)
{
	ask_in_all(pending);
	ask_of(STREAM, pending, 2);
}

/* Where there is no stream */
static void ask_of_none(void)
{
	ask_in_all(0);
	ask_of(STREAM, 0, 8);
	/* no stream has this number, and a vacant place is not taken for it */
	ask_of(UINT32_MAX, 0, 8);
}

/* The guest's commands */

static struct virtio_video_cmd_hdr header(uint32_t type)
{
	struct virtio_video_cmd_hdr hdr = { type, STREAM };

	return hdr;
}

static void create_stream(uint32_t ticket, const char *what, uint32_t stream, const char *tag,
			  const char *hex)
{
	struct virtio_video_stream_create c;

	memset(&c, 0, sizeof(c));
	c.hdr.type = VIRTIO_VIDEO_CMD_STREAM_CREATE;
	c.hdr.stream_id = stream;
	c.in_mem_type = VIRTIO_VIDEO_MEM_TYPE_GUEST_PAGES;
	c.out_mem_type = VIRTIO_VIDEO_MEM_TYPE_GUEST_PAGES;
	c.coded_format = VIRTIO_VIDEO_FORMAT_H264;
	memcpy(c.tag, tag, strlen(tag));
	command(ticket, what, &c, sizeof(c), 0, hex);
}

static void create(uint32_t ticket, const char *what, const char *tag, const char *hex)
{
	create_stream(ticket, what, STREAM, tag, hex);
}

/* A resource of two planes, the first in one page and the second in another */
static void import(uint32_t ticket, const char *what, uint32_t queue_type, uint32_t resource,
		   const char *hex)
{
	struct {
		struct virtio_video_resource_create head;
		struct virtio_video_mem_entry entries[2];
	} c;

	memset(&c, 0, sizeof(c));
	c.head.hdr = header(VIRTIO_VIDEO_CMD_RESOURCE_CREATE);
	c.head.queue_type = queue_type;
	c.head.resource_id = resource;
	c.head.planes_layout = VIRTIO_VIDEO_PLANES_LAYOUT_PER_PLANE;
	c.head.num_planes = 2;
	c.head.num_entries[0] = 1;
	c.head.num_entries[1] = 1;
	c.entries[0].addr = 0x40000000;
	c.entries[0].length = 4096;
	/* ends with the last byte that there is */
	c.entries[1].addr = UINT64_MAX - 4095;
	c.entries[1].length = 4096;
	command(ticket, what, &c, sizeof(c), 0, hex);
}

static void queue(uint32_t ticket, const char *what, uint32_t queue_type, uint32_t resource,
		  uint64_t timestamp, const char *hex)
{
	struct virtio_video_resource_queue c;

	memset(&c, 0, sizeof(c));
	c.hdr = header(VIRTIO_VIDEO_CMD_RESOURCE_QUEUE);
	c.queue_type = queue_type;
	c.resource_id = resource;
	c.timestamp = timestamp;
	c.num_data_sizes = 1;
	c.data_sizes[0] = 4096;
	command(ticket, what, &c, sizeof(c), 0, hex);
}

/* A command of a header alone */
static void plain(uint32_t ticket, const char *what, uint32_t type, const char *hex)
{
	struct virtio_video_cmd_hdr c = header(type);

	command(ticket, what, &c, sizeof(c), 0, hex);
}

/* A command of a header and a queue type: they all have the layout of a clear */
static void of_queue(uint32_t ticket, const char *what, uint32_t type, uint32_t queue_type,
		     const char *hex)
{
	struct virtio_video_resource_queue_clear c;

	memset(&c, 0, sizeof(c));
	c.hdr = header(type);
	c.queue_type = queue_type;
	command(ticket, what, &c, sizeof(c), 0, hex);
}

static void set_output(uint32_t ticket, uint32_t width, uint32_t height, uint32_t rate,
		       const char *hex)
{
	struct virtio_video_set_params c;

	memset(&c, 0, sizeof(c));
	c.hdr = header(VIRTIO_VIDEO_CMD_SET_PARAMS);
	c.params.queue_type = OUTPUT;
	c.params.format = VIRTIO_VIDEO_FORMAT_NV12;
	c.params.frame_width = width;
	c.params.frame_height = height;
	c.params.frame_rate = rate;
	command(ticket, "set the output's size and rate", &c, sizeof(c), 0, hex);
}

static void setting_up(void)
{
	create(1, "create a stream with a tag that is not UTF-8", "\xff",
	       "01000000 08000000 04030000 07000000");
	create(2, "create a stream", "lobby", "02000000 08000000 00020000 07000000");
	create(3, "create it again", "", "03000000 08000000 02030000 07000000");
	/* 1280 by 720 at 30 */
	set_output(4, 1280, 720, 30, "04000000 08000000 00020000 07000000");
	set_output(5, 1281, 720, 30, "05000000 08000000 04030000 07000000");
	/* crop 0, 0, 1280, 720; planes of 921,600 and 460,800 bytes */
	of_queue(6, "get the output's parameters", VIRTIO_VIDEO_CMD_GET_PARAMS, OUTPUT,
		 "06000000 78000000 03020000 07000000"
		 "01010000 03000000 00050000 d0020000 01000000 10000000"
		 "00000000 00000000 00050000 d0020000 1e000000 02000000"
		 "00100e00 00050000 00080700 00050000 00000000 00000000"
		 "00000000 00000000 00000000 00000000 00000000 00000000"
		 "00000000 00000000 00000000 00000000");
	/* 640 by 480, one plane of 262,144 bytes */
	of_queue(7, "get the input's parameters", VIRTIO_VIDEO_CMD_GET_PARAMS, INPUT,
		 "07000000 78000000 03020000 07000000"
		 "00010000 02100000 80020000 e0010000 01000000 10000000"
		 "00000000 00000000 80020000 e0010000 00000000 01000000"
		 "00000400 00000000 00000000 00000000 00000000 00000000"
		 "00000000 00000000 00000000 00000000 00000000 00000000"
		 "00000000 00000000 00000000 00000000");
	import(8, "import input 5", INPUT, 5, "08000000 08000000 00020000 07000000");
	import(9, "import input 6", INPUT, 6, "09000000 08000000 00020000 07000000");
	/* a number of its own queue */
	import(10, "import output 5", OUTPUT, 5, "0a000000 08000000 00020000 07000000");
	import(11, "import output 5 again", OUTPUT, 5, "0b000000 08000000 03030000 07000000");
	ask(0);
}

static void decoding(void)
{
	queue(12, "queue input 5", INPUT, 5, 1000, "");
	ask(1);
	queue(13, "queue output 5", OUTPUT, 5, 0, "");
	queue(14, "queue input 5 again", INPUT, 5, 1, "0e000000 08000000 00030000 07000000");
	queue(15, "queue output 6, which is not there", OUTPUT, 6, 0,
	      "0f000000 08000000 03030000 07000000");
	ask(2);
	/* an input keeps its own timestamp, an output gets the report's */
	finish("input 5 is done", INPUT, 5, 0, 77, 0,
	       "0c000000 18000000 02020000 07000000 e803000000000000 00000000 00000000");
	finish("input 5 is done, told twice", INPUT, 5, 0, 77,
	       VIRTIO_VIDEO_REFUSAL_UNEXPECTED_REPORT, "");
	finish("output 5 is done, with a flag that there is not", OUTPUT, 5, 4, 1000,
	       VIRTIO_VIDEO_REFUSAL_BAD_FLAGS, "");
	finish("output 5 is done, EOS without a drain", OUTPUT, 5, VIRTIO_VIDEO_BUFFER_FLAG_EOS,
	       1000, VIRTIO_VIDEO_REFUSAL_BAD_FLAGS, "");
	ask(1);
	finish("output 5 is done", OUTPUT, 5, 0, 1000, 0,
	       "0d000000 18000000 02020000 07000000 e803000000000000 00000000 00000000");
	ask(0);
}

static void draining(void)
{
	queue(16, "queue input 6", INPUT, 6, UINT64_C(0x100000002), "");
	plain(17, "drain", VIRTIO_VIDEO_CMD_STREAM_DRAIN, "");
	ask(2);
	plain(18, "drain again", VIRTIO_VIDEO_CMD_STREAM_DRAIN,
	      "12000000 08000000 00030000 07000000");
	queue(19, "queue input 5 while draining", INPUT, 5, 1,
	      "13000000 08000000 00030000 07000000");
	queue(20, "queue output 5 while draining", OUTPUT, 5, 0, "");
	/* the last picture comes after the last input */
	finish("output 5 is done, the last one, with input 6 Queued", OUTPUT, 5,
	       VIRTIO_VIDEO_BUFFER_FLAG_EOS, UINT64_C(0x100000002),
	       VIRTIO_VIDEO_REFUSAL_UNEXPECTED_REPORT, "");
	/* 6 comes before 5 */
	finish("input 6 is done, the last one", INPUT, 6, VIRTIO_VIDEO_BUFFER_FLAG_EOS, 0,
	       VIRTIO_VIDEO_REFUSAL_BAD_FLAGS, "");
	finish("input 6 is done, and failed", INPUT, 6, VIRTIO_VIDEO_BUFFER_FLAG_ERR, 0, 0,
	       "10000000 18000000 02020000 07000000 0200000001000000 01000000 00000000");
	/* there is an output, so the drain ends with the last one */
	drained("the stream is drained, without a last output",
		VIRTIO_VIDEO_REFUSAL_UNEXPECTED_REPORT, "");
	expect_drain(1, 17);
	ask(2);
	/* one report: it answers the buffer and then the drain */
	finish("output 5 is done, the last one", OUTPUT, 5, VIRTIO_VIDEO_BUFFER_FLAG_EOS,
	       UINT64_C(0x100000002), 0,
	       "14000000 18000000 02020000 07000000 0200000001000000 02000000 00000000"
	       "11000000 08000000 00020000 07000000");
	expect_drain(0, 0);
	ask(0);
	queue(21, "queue output 5 again", OUTPUT, 5, 80, "");
	finish("output 5 is done, EOS with the drain answered", OUTPUT, 5,
	       VIRTIO_VIDEO_BUFFER_FLAG_EOS, 0, VIRTIO_VIDEO_REFUSAL_BAD_FLAGS, "");
	/* output 5 stays Queued, for what is decoded next */
}

static void stopping(void)
{
	queue(22, "queue input 6", INPUT, 6, 60, "");
	queue(23, "queue input 5", INPUT, 5, 50, "");
	of_queue(24, "destroy all inputs", VIRTIO_VIDEO_CMD_RESOURCE_DESTROY_ALL, INPUT,
		 "18000000 08000000 00030000 07000000");
	plain(25, "drain", VIRTIO_VIDEO_CMD_STREAM_DRAIN, "");
	ask(4);
	/* the drain goes on */
	of_queue(26, "clear the output queue", VIRTIO_VIDEO_CMD_QUEUE_CLEAR, OUTPUT,
		 "15000000 18000000 02020000 07000000 5000000000000000 01000000 00000000"
		 "1a000000 08000000 00020000 07000000");
	ask(3);
	/* 5 before 6, then the drain, then itself */
	of_queue(27, "clear the input queue", VIRTIO_VIDEO_CMD_QUEUE_CLEAR, INPUT,
		 "17000000 18000000 02020000 07000000 3200000000000000 01000000 00000000"
		 "16000000 18000000 02020000 07000000 3c00000000000000 01000000 00000000"
		 "19000000 08000000 00020000 07000000"
		 "1b000000 08000000 00020000 07000000");
	ask(0);
	of_queue(28, "destroy all inputs", VIRTIO_VIDEO_CMD_RESOURCE_DESTROY_ALL, INPUT,
		 "1c000000 08000000 00020000 07000000");
	of_queue(29, "query a control", VIRTIO_VIDEO_CMD_QUERY_CONTROL,
		 VIRTIO_VIDEO_CONTROL_PROFILE, "1d000000 08000000 05030000 07000000");
	plain(30, "query capability", VIRTIO_VIDEO_CMD_QUERY_CAPABILITY,
	      "1e000000 08000000 00030000 07000000");
	queue(31, "queue output 5", OUTPUT, 5, 90, "");
	plain(32, "drain", VIRTIO_VIDEO_CMD_STREAM_DRAIN, "");
	ask(2);
	plain(33, "destroy the stream", VIRTIO_VIDEO_CMD_STREAM_DESTROY,
	      "1f000000 18000000 02020000 07000000 5a00000000000000 01000000 00000000"
	      "20000000 08000000 00020000 07000000"
	      "21000000 08000000 00020000 07000000");
	ask_of_none();
	plain(34, "destroy the stream again", VIRTIO_VIDEO_CMD_STREAM_DESTROY,
	      "22000000 08000000 02030000 07000000");
}

/* What comes of a number once its stream is gone: no other stream gets it. */
static void spent_numbers(void)
{
	create(35, "create the stream again", "lobby", "23000000 08000000 02030000 07000000");
	create(36, "create it with a tag that is not UTF-8", "\xff",
	       "24000000 08000000 02030000 07000000");
	/* so nothing that comes late can meet another stream */
	finish("output 5 is done, too late", OUTPUT, 5, 0, 90,
	       VIRTIO_VIDEO_REFUSAL_UNEXPECTED_REPORT, "");
	drained("the stream is drained, too late", VIRTIO_VIDEO_REFUSAL_UNEXPECTED_REPORT, "");
	create_stream(37, "create stream 1,024", VIRTIO_VIDEO_STREAM_NUMBERS, "",
		      "25000000 08000000 02030000 00040000");
	create_stream(38, "create stream 1,023", VIRTIO_VIDEO_STREAM_NUMBERS - 1, "",
		      "26000000 08000000 00020000 ff030000");
	create_stream(39, "create it again", VIRTIO_VIDEO_STREAM_NUMBERS - 1, "",
		      "27000000 08000000 02030000 ff030000");
	ask_of(VIRTIO_VIDEO_STREAM_NUMBERS - 1, 0, 2);
	if (table[SPENT] != UINT32_C(0x80) || table[SPENT + 31] != UINT32_C(0x80000000))
		wrong("the spent numbers in the table");

	printf("host: makes the table fresh, as at a reset of the device\n");
	if (virtio_video_fresh(table, VIRTIO_VIDEO_TABLE_WORDS) != VIRTIO_VIDEO_REFUSAL_NONE)
		wrong("a table not made fresh");
	ask_of(VIRTIO_VIDEO_STREAM_NUMBERS - 1, 0, 8);
	create(40, "create stream 7", "lobby", "28000000 08000000 00020000 07000000");
}

/*
 * Without outputs there is no last one, and the back end reports that the stream is drained. With
 * one, the drain ends with the last, also where that failed.
 */
static void other_drains(void)
{
	plain(41, "drain", VIRTIO_VIDEO_CMD_STREAM_DRAIN, "");
	ask(1);
	drained("the stream is drained", 0, "29000000 08000000 00020000 07000000");
	expect_drain(0, 0);
	ask(0);
	drained("the stream is drained, told twice", VIRTIO_VIDEO_REFUSAL_UNEXPECTED_REPORT, "");
	plain(42, "drain", VIRTIO_VIDEO_CMD_STREAM_DRAIN, "");
	import(43, "import output 5", OUTPUT, 5, "2b000000 08000000 00020000 07000000");
	drained("the stream is drained, with an output that was never queued",
		VIRTIO_VIDEO_REFUSAL_UNEXPECTED_REPORT, "");
	queue(44, "queue output 5", OUTPUT, 5, 0, "");
	expect_drain(1, 42);
	finish("output 5 is done, the last one, and failed", OUTPUT, 5,
	       VIRTIO_VIDEO_BUFFER_FLAG_ERR | VIRTIO_VIDEO_BUFFER_FLAG_EOS, 100, 0,
	       "2c000000 18000000 02020000 07000000 6400000000000000 03000000 00000000"
	       "2a000000 08000000 00020000 07000000");
	expect_drain(0, 0);
	plain(45, "destroy the stream", VIRTIO_VIDEO_CMD_STREAM_DESTROY,
	      "2d000000 08000000 00020000 07000000");
}

/* The host's own slips, and a guest that sends half a header */
static void refusals(void)
{
	struct virtio_video_cmd_hdr c = header(VIRTIO_VIDEO_CMD_STREAM_DRAIN);
	const uint8_t *frame = (const uint8_t *)&c;

	command(46, "a command of 7 bytes", &c, 7, VIRTIO_VIDEO_REFUSAL_SHORT_COMMAND, "");
	command(47, "a command of no bytes", NULL, 0, VIRTIO_VIDEO_REFUSAL_SHORT_COMMAND, "");
	printf("host: lends nothing\n");
	expect(virtio_video_command(NULL, 0, 48, NULL, 0, NULL, 0),
	       VIRTIO_VIDEO_REFUSAL_SHORT_TABLE, "");
	printf("host: lends a short table\n");
	expect(virtio_video_command(table, VIRTIO_VIDEO_TABLE_WORDS - 1, 49, frame, sizeof(c),
				    room, sizeof(room)),
	       VIRTIO_VIDEO_REFUSAL_SHORT_TABLE, "");
	printf("host: lends a short room\n");
	expect(virtio_video_command(table, VIRTIO_VIDEO_TABLE_WORDS, 50, frame, sizeof(c), room,
				    sizeof(room) - 1),
	       VIRTIO_VIDEO_REFUSAL_SHORT_ROOM, "");
	printf("host: lends a table with a word changed\n");
	table[VIRTIO_VIDEO_TABLE_WORDS - 1] = 1;
	expect(virtio_video_command(table, VIRTIO_VIDEO_TABLE_WORDS, 51, frame, sizeof(c), room,
				    sizeof(room)),
	       VIRTIO_VIDEO_REFUSAL_INVALID_TABLE, "");
	table[VIRTIO_VIDEO_TABLE_WORDS - 1] = 0;
}

/* What is pending to two streams, in a short table, and in one that every step refuses */
static void asking(void)
{
	static uint32_t saved[VIRTIO_VIDEO_TABLE_WORDS];
	struct virtio_video_cmd_hdr c = { VIRTIO_VIDEO_CMD_STREAM_DRAIN, 9 };

	memcpy(saved, table, sizeof(table));
	create_stream(52, "create stream 8", 8, "", "34000000 08000000 00020000 08000000");
	create_stream(53, "create stream 9", 9, "", "35000000 08000000 00020000 09000000");
	command(54, "drain stream 9", &c, sizeof(c), 0, "");
	ask_in_all(1);
	ask_of(8, 0, 2);
	ask_of(9, 1, 3);
	ask_of(STREAM, 0, 8);

	printf("host: asks what is pending in a short table, and in none\n");
	expect_said(virtio_video_pending_in_all(table, VIRTIO_VIDEO_TABLE_WORDS - 1),
		    VIRTIO_VIDEO_REFUSAL_SHORT_TABLE, 0, 0);
	expect_said(virtio_video_pending_of_stream(table, VIRTIO_VIDEO_TABLE_WORDS - 1, 9),
		    VIRTIO_VIDEO_REFUSAL_SHORT_TABLE, 0, 0);
	expect_said(virtio_video_pending_in_all(NULL, 0), VIRTIO_VIDEO_REFUSAL_SHORT_TABLE, 0, 0);
	expect_said(virtio_video_pending_of_stream(NULL, 0, 9), VIRTIO_VIDEO_REFUSAL_SHORT_TABLE,
		    0, 0);

	printf("host: changes figures in the table\n");
	table[TOTAL] = 70;
	table[MARKS + 6] = 9 + 1;
	table[MARKS + 7] = STREAM + 1;
	table[FIGURES + 7] = 77;
	command(55, "drain stream 9", &c, sizeof(c), VIRTIO_VIDEO_REFUSAL_INVALID_TABLE, "");
	ask_in_all(70);
	/* of two marks of a stream the first counts */
	ask_of(9, 1, 3);
	ask_of(STREAM, 77, 9);

	printf("host: restores the table that it saved\n");
	memcpy(table, saved, sizeof(table));
	ask_of_none();
}

/* Logs with their answers */

static const char *verdict_name(uint32_t verdict)
{
	switch (verdict) {
	case VIRTIO_VIDEO_VERDICT_ACCEPTED:
		return "accepted";
	case VIRTIO_VIDEO_VERDICT_MISSING:
		return "missing";
	case VIRTIO_VIDEO_VERDICT_EXTRA:
		return "extra";
	case VIRTIO_VIDEO_VERDICT_DIFFERENT:
		return "different";
	case VIRTIO_VIDEO_VERDICT_REFUSED:
		return "refused";
	default:
		return "?";
	}
}

/* A log, and what is to be said of it */
static void check_log(const char *what, const char *text, uint32_t verdict, uint64_t line)
{
	struct virtio_video_verdict said;
	const uint8_t *log = (const uint8_t *)text;
	size_t length = strlen(text);

	printf("log: %s\n", what);
	/* where there are no bytes, no pointer is asked for */
	said = virtio_video_check_log(length ? log : NULL, length);
	if (said.line)
		printf("    line %llu: ", (unsigned long long)said.line);
	else
		printf("    ");
	printf("%s\n", verdict_name(said.verdict));
	if (said.verdict != verdict || said.line != line)
		wrong("the verdict");
}

/* A drain of a stream that is not there, with ticket 5, and its answer */
#define ASKS	"00050000000301000007000000\n"
#define ERROR	"80050000000203000007000000\n"

/* A report that this stream is drained, and its refusal */
#define REPORTS	"0207000000\n"
#define REFUSAL	"ff05\n"

static void checking(void)
{
	check_log("no lines", "", VIRTIO_VIDEO_VERDICT_ACCEPTED, 0);
	check_log("two questions, each with its answer", ASKS ERROR REPORTS "FF05",
		  VIRTIO_VIDEO_VERDICT_ACCEPTED, 0);
	check_log("a question in place of an answer", ASKS REPORTS REFUSAL,
		  VIRTIO_VIDEO_VERDICT_MISSING, 2);
	check_log("the end in place of an answer", ASKS ERROR REPORTS,
		  VIRTIO_VIDEO_VERDICT_MISSING, 4);
	check_log("an answer too many", ASKS ERROR REFUSAL REPORTS REFUSAL,
		  VIRTIO_VIDEO_VERDICT_EXTRA, 3);
	check_log("an answer to something else", ASKS REFUSAL, VIRTIO_VIDEO_VERDICT_DIFFERENT, 2);
	check_log("a line that is no line of a log", ASKS ERROR "\n" REPORTS,
		  VIRTIO_VIDEO_VERDICT_REFUSED, 3);
}

/* The sound device */

/* 1 or 2 channels of 16 bits, at 44,100 or 48,000 */
static const struct virtio_pcm_stream_config pcm_output = {
	1, 2, 1 << VIRTIO_SND_PCM_FMT_S16,
	1 << VIRTIO_SND_PCM_RATE_44100 | 1 << VIRTIO_SND_PCM_RATE_48000, 0
};

/* Where its PCM stream is: all that there is of it */
static uint32_t pcm_state = VIRTIO_SND_PCM_STATE_FRESH;

/* A message of the guest with so many bytes of room, and what is to come of it */
static void control(const char *what, const void *message, size_t length, size_t lent,
		    uint32_t refusal, uint32_t state, const char *hex)
{
	struct virtio_snd_outcome outcome;
	virtio_snd_le32 status;

	printf("guest, sound: %s\n", what);
	outcome = virtio_snd_control(pcm_state, pcm_output.channels_min, pcm_output.channels_max,
				     pcm_output.formats, pcm_output.rates, message, length, room,
				     lent);
	memcpy(&status, room, sizeof(status));
	if (outcome.refusal)
		printf("    refused with %u\n", (unsigned)outcome.refusal);
	else
		printf("    status 0x%x, %u bytes; state %u\n", (unsigned)status,
		       (unsigned)outcome.written, (unsigned)outcome.state);
	if (outcome.refusal != refusal)
		wrong("the result");
	if (outcome.state != state)
		wrong("the state");
	expect_bytes(outcome.written, hex);
	pcm_state = outcome.state;
}

/* A message of a header alone, with all the room */
static void plain_control(const char *what, uint32_t code, uint32_t state, const char *hex)
{
	struct virtio_snd_pcm_hdr m = { code, VIRTIO_SND_PCM_T_OUTPUT };

	control(what, &m, sizeof(m), sizeof(room), 0, state, hex);
}

/* 13 words: five times this is what follows the status of a channel map */
#define ZEROS_52 \
	"00000000 00000000 00000000 00000000 00000000 00000000 00000000" \
	"00000000 00000000 00000000 00000000 00000000 00000000"

static void playing(void)
{
	struct virtio_snd_pcm_set_format m = {
		{ VIRTIO_SND_R_PCM_SET_FORMAT, VIRTIO_SND_PCM_T_OUTPUT },
		2, VIRTIO_SND_PCM_FMT_S16, VIRTIO_SND_PCM_RATE_48000, 0
	};

	plain_control("start, too early", VIRTIO_SND_R_PCM_START, 0, "01800000");
	control("set the format", &m, sizeof(m), sizeof(room), 0, 1, "00800000");
	plain_control("prepare", VIRTIO_SND_R_PCM_PREPARE, 2, "00800000");
	plain_control("start", VIRTIO_SND_R_PCM_START, 3, "00800000");
	plain_control("pause", VIRTIO_SND_R_PCM_PAUSE, 4, "00800000");
	plain_control("unpause", VIRTIO_SND_R_PCM_UNPAUSE, 3, "00800000");
	plain_control("query the channel map", VIRTIO_SND_R_PCM_CHMAP_INFO, 3,
		      "02800000" ZEROS_52 ZEROS_52 ZEROS_52 ZEROS_52 ZEROS_52);
	plain_control("stop", VIRTIO_SND_R_PCM_STOP, 5, "00800000");
	m.rate = VIRTIO_SND_PCM_RATE_96000;
	control("set a rate that is not offered", &m, sizeof(m), sizeof(room), 0, 5, "02800000");
	control("send nothing", NULL, 0, VIRTIO_SND_ANSWER_ROOM, 0, 5, "01800000");
	control("set the format, into a short room", &m, sizeof(m), VIRTIO_SND_ANSWER_ROOM - 1,
		VIRTIO_SND_REFUSAL_SHORT_ROOM, 5, "");
	pcm_state = VIRTIO_SND_PCM_STATE_STOPPED + 1;
	control("set the format, in no state", &m, sizeof(m), sizeof(room),
		VIRTIO_SND_REFUSAL_INVALID_STATE, 6, "");
}

int main(void)
{
	static const uint32_t empty[VIRTIO_VIDEO_TABLE_WORDS];

	memset(table, 0xff, sizeof(table));
	memset(room, UNTOUCHED, sizeof(room));
	if (virtio_video_fresh(table, VIRTIO_VIDEO_TABLE_WORDS - 1) !=
	    VIRTIO_VIDEO_REFUSAL_SHORT_TABLE)
		wrong("a short table made fresh");
	if (virtio_video_fresh(table, VIRTIO_VIDEO_TABLE_WORDS) != VIRTIO_VIDEO_REFUSAL_NONE)
		wrong("a table not made fresh");
	ask_of_none();

	setting_up();
	decoding();
	draining();
	stopping();
	spent_numbers();
	other_drains();
	refusals();
	asking();
	checking();
	playing();

	/* nothing is left of the streams but that number 7 is spent */
	table[SPENT] -= UINT32_C(1) << STREAM;
	if (memcmp(table, empty, sizeof(table)) != 0)
		wrong("the table at the end");
	printf(failed ? "Some step went wrong.\n" : "Every step went as expected.\n");
	return failed;
}
