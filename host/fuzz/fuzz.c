/*
 * A fuzz entry for libFuzzer and AFL++: raw bytes as table, frame, room and log, and runs of
 * steps that lead to deep tables and long logs. docs/HOST.md says how it is built and run.
 *
 * The archive is not instrumented, so the sanitizers do not see its loads and stores.
 * Instead each piece lent to it ends where a page begins that must not be touched, and
 * what lies before and behind the bytes that it may write is compared. Each step is held to
 * rules that hold whatever the input is; a breach ends the run by abort().
 */
#include <stdio.h>
#include <stdlib.h>
#include <string.h>
#include <sys/mman.h>
#include <unistd.h>

#include "virtio_video_decoder.h"

#define WORDS	VIRTIO_VIDEO_TABLE_WORDS
#define ROOM	VIRTIO_VIDEO_ANSWER_ROOM
#define NUMBERS	VIRTIO_VIDEO_STREAM_NUMBERS

/* Places of streams, and the words of each: the first is 1 where it is live, then its number */
#define PLACES	VIRTIO_VIDEO_MAX_STREAMS
#define BLOCK	512

/* The words of the spent numbers begin here: number n is bit n % 32 of word SPENT + n / 32 */
#define SPENT	4096

/*
 * The figures of pending answers: the total, and for each place its mark, which is the number of
 * its stream and 1 or 0 where it is vacant, and its figure
 */
#define TOTAL	4129
#define MARKS	4130
#define FIGURES	4138

/* Longest pieces that are lent */
#define MOST_WORDS	(WORDS + 64)
#define MOST_ROOM	(ROOM + 64)
#define MOST_FRAME	8192
#define MOST_LOG	65536

#define CHECK(condition) \
	do { \
		if (!(condition)) { \
			fprintf(stderr, "line %d: not so: %s\n", __LINE__, #condition); \
			abort(); \
		} \
	} while (0)

int LLVMFuzzerTestOneInput(const uint8_t *data, size_t size);

/* --------------------------------------------------------------------------
 * The input, read from its start; behind its end come zeros
 */

static const uint8_t *input;
static size_t left;

static uint8_t byte(void)
{
	if (!left)
		return 0;
	left--;
	return *input++;
}

static uint32_t half(void)
{
	uint32_t low = byte();

	return low | (uint32_t)byte() << 8;
}

static void fill(void *to, size_t count)
{
	size_t have = count < left ? count : left;

	if (have)
		memcpy(to, input, have);
	memset((uint8_t *)to + have, 0, count - have);
	input += have;
	left -= have;
}

/* Mostly the edge itself; else one below, one above, or any number up to most */
static size_t length_near(size_t edge, size_t most)
{
	switch (byte()) {
	case 1:
		return edge - 1;
	case 2:
		return edge + 1;
	case 3:
		return half() % (most + 1);
	default:
		return edge;
	}
}

/* --------------------------------------------------------------------------
 * Memory that is lent
 */

struct lent {
	uint8_t *end;		/* the page from here on must not be touched */
	size_t most;
};

static struct lent table_area, frame_area, room_area, log_area;

static void reserve(struct lent *area, size_t most)
{
	size_t page = (size_t)sysconf(_SC_PAGESIZE);
	size_t size = (most + 64 + page - 1) / page * page;
	uint8_t *start = mmap(NULL, size + 2 * page, PROT_NONE, MAP_PRIVATE | MAP_ANONYMOUS, -1, 0);

	CHECK(start != MAP_FAILED);
	CHECK(mprotect(start + page, size, PROT_READ | PROT_WRITE) == 0);
	area->end = start + page + size;
	area->most = most;
}

/* The last so many bytes of an area, and a mark before them */
static uint8_t *lend(const struct lent *area, size_t bytes)
{
	CHECK(bytes <= area->most);
	memset(area->end - bytes - 64, 0x5a, 64);
	return area->end - bytes;
}

static void untouched_before(const uint8_t *start)
{
	size_t i;

	for (i = 1; i <= 64; i++)
		CHECK(start[-(ptrdiff_t)i] == 0x5a);
}

#ifdef __clang__
/* The core has no counters of its own, so the outcomes of steps and logs lead the fuzzer. */
__attribute__((section("__libfuzzer_extra_counters")))
#endif
static uint8_t seen[4096 + 256];

/* --------------------------------------------------------------------------
 * Logs
 */

/* Has a log checked, and holds what is said of it to the rules. */
static struct virtio_video_verdict check(const uint8_t *bytes, size_t length)
{
	struct virtio_video_verdict said;
	uint8_t *log = lend(&log_area, length);

	if (length)
		memcpy(log, bytes, length);
	said = virtio_video_check_log(length ? log : NULL, length);
	untouched_before(log);
	if (length)
		CHECK(memcmp(log, bytes, length) == 0);
	CHECK(said.verdict <= VIRTIO_VIDEO_VERDICT_DIFFERENT ||
	      said.verdict == VIRTIO_VIDEO_VERDICT_REFUSED);
	CHECK((said.line == 0) == (said.verdict == VIRTIO_VIDEO_VERDICT_ACCEPTED));
	CHECK(said.line <= length + 1);
	/* a log that is right up to a later line is worth keeping */
	seen[4096 + said.verdict * 32 + (said.line < 31 ? said.line : 31)] = 1;
	return said;
}

/* A log that is made line by line */
static uint8_t record[MOST_LOG];
static size_t record_len;

static void put_digits(const void *bytes, size_t count)
{
	static const char digits[] = "0123456789abcdef";
	const uint8_t *from = bytes;
	size_t i;

	for (i = 0; i < count; i++) {
		record[record_len++] = (uint8_t)digits[from[i] >> 4];
		record[record_len++] = (uint8_t)digits[from[i] & 15];
	}
}

/* The input as a log, and its bytes as digits, of which many more make frames. */
static void check_input(const uint8_t *data, size_t size)
{
	size_t i;

	check(data, size < MOST_LOG ? size : MOST_LOG);
	record_len = 0;
	for (i = 0; i < size && record_len + 2 <= MOST_LOG; i++) {
		if (data[i] == '\n')
			record[record_len++] = '\n';
		else
			put_digits(data + i, 1);
	}
	check(record, record_len);
}

/*
 * The steps since the table was last made fresh, with their answers, as long as they are such as a
 * log can have and there is room for them
 */
static int recording;
static uint64_t record_lines, last_answer;
static size_t last_answer_end;

static void begin_record(int possible)
{
	recording = possible;
	record_len = 0;
	record_lines = 0;
	last_answer = 0;
}

static void end_line(int is_answer)
{
	record_lines++;
	if (is_answer) {
		last_answer = record_lines;
		last_answer_end = record_len;
	}
	record[record_len++] = '\n';
}

/* A log of what the core itself answered is accepted, and with one digit changed it is not. */
static void check_record(void)
{
	struct virtio_video_verdict said = check(record, record_len);
	uint8_t *digit;

	CHECK(said.verdict == VIRTIO_VIDEO_VERDICT_ACCEPTED);
	if (!last_answer)
		return;
	digit = record + last_answer_end - 1;
	*digit = *digit == '7' ? 'f' : '7';
	said = check(record, record_len);
	CHECK(said.verdict == VIRTIO_VIDEO_VERDICT_DIFFERENT && said.line == last_answer);
}

/* --------------------------------------------------------------------------
 * One step, held to the rules
 */

enum kind { COMMAND, FINISH, DRAINED };

struct step {
	enum kind kind;
	uint32_t ticket;
	const uint8_t *frame;
	size_t frame_len;
	uint32_t stream, queue_type, resource, flags;
	uint64_t timestamp;
};

static uint32_t *table;
static size_t words;
static uint8_t *room;
static size_t room_len;

static struct virtio_video_outcome call(const struct step *s)
{
	switch (s->kind) {
	case COMMAND:
		return virtio_video_command(table, words, s->ticket, s->frame, s->frame_len, room,
					    room_len);
	case FINISH:
		return virtio_video_finish(table, words, s->stream, s->queue_type, s->resource,
					   s->flags, s->timestamp, room, room_len);
	default:
		return virtio_video_drained(table, words, s->stream, room, room_len);
	}
}

/* Whether the table is valid: a command of no bytes tells, and changes nothing. */
static int valid(void)
{
	static uint8_t spare[ROOM];
	uint32_t refusal =
		virtio_video_command(table, words, 0, NULL, 0, spare, sizeof(spare)).refusal;

	CHECK(refusal == VIRTIO_VIDEO_REFUSAL_INVALID_TABLE ||
	      refusal == VIRTIO_VIDEO_REFUSAL_SHORT_COMMAND);
	return refusal == VIRTIO_VIDEO_REFUSAL_SHORT_COMMAND;
}

/* Goes through the answers; gives their number, and whether one of them is an error. */
static unsigned answers(uint32_t written, int *error)
{
	struct virtio_video_answer answer;
	struct virtio_video_cmd_hdr hdr;
	unsigned count = 0;
	size_t at = 0;

	*error = 0;
	while (at < written) {
		CHECK(written - at >= sizeof(answer) + sizeof(hdr));
		memcpy(&answer, room + at, sizeof(answer));
		memcpy(&hdr, room + at + sizeof(answer), sizeof(hdr));
		at += sizeof(answer);
		CHECK(answer.length <= written - at);
		switch (hdr.type) {
		case VIRTIO_VIDEO_RESP_OK_NODATA:
			CHECK(answer.length == 8);
			break;
		case VIRTIO_VIDEO_RESP_OK_RESOURCE_QUEUE:
			CHECK(answer.length == 24);
			break;
		case VIRTIO_VIDEO_RESP_OK_GET_PARAMS:
			CHECK(answer.length == 120);
			break;
		default:
			CHECK(hdr.type >= VIRTIO_VIDEO_RESP_ERR_INVALID_OPERATION);
			CHECK(hdr.type <= VIRTIO_VIDEO_RESP_ERR_UNSUPPORTED_CONTROL);
			CHECK(answer.length == 8);
			*error = 1;
		}
		at += answer.length;
		count++;
	}
	return count;
}

static void record_question(const struct step *s)
{
	static const uint8_t kinds[] = { 0, 1, 2 };

	put_digits(&kinds[s->kind], 1);
	if (s->kind == COMMAND) {
		put_digits(&s->ticket, 4);
		put_digits(s->frame, s->frame_len);
	} else {
		put_digits(&s->stream, 4);
	}
	if (s->kind == FINISH) {
		put_digits(&s->queue_type, 4);
		put_digits(&s->resource, 4);
		put_digits(&s->flags, 4);
		put_digits(&s->timestamp, 8);
	}
	end_line(0);
}

static void record_answers(struct virtio_video_outcome outcome)
{
	static const uint8_t kind = 0x80;
	uint8_t refusal[2] = { 0xff, (uint8_t)outcome.refusal };
	struct virtio_video_answer answer;
	size_t at;

	if (outcome.refusal) {
		put_digits(refusal, 2);
		end_line(1);
	}
	for (at = 0; at < outcome.written; at += sizeof(answer) + answer.length) {
		memcpy(&answer, room + at, sizeof(answer));
		put_digits(&kind, 1);
		put_digits(&answer.ticket, 4);
		put_digits(room + at + sizeof(answer), answer.length);
		end_line(1);
	}
}

static void record_step(const struct step *s, struct virtio_video_outcome outcome)
{
	/* a command that is too long for a line changed nothing */
	if (s->kind == COMMAND && s->frame_len > VIRTIO_VIDEO_MAX_CMD_LENGTH)
		return;
	/* 25 bytes of a frame besides its command, and no more of answers than of room */
	if (words < WORDS || room_len < ROOM ||
	    record_len + 2 * (25 + s->frame_len + ROOM) > MOST_LOG)
		recording = 0;
	if (recording) {
		record_question(s);
		record_answers(outcome);
	}
}

/*
 * A creation that succeeds spends its number, which was not spent before. Nothing else changes
 * a word behind the streams but for the figures of pending answers.
 */
static void check_spent(const struct step *s, const uint32_t *before, int accepted)
{
	uint32_t behind[WORDS - SPENT], type, number;

	memcpy(behind, before + SPENT, sizeof(behind));
	memcpy(behind + TOTAL - SPENT, table + TOTAL, (1 + 2 * PLACES) * 4);
	if (s->kind == COMMAND && accepted) {
		memcpy(&type, s->frame, 4);
		memcpy(&number, s->frame + 4, 4);
		if (type == VIRTIO_VIDEO_CMD_STREAM_CREATE) {
			CHECK(number < NUMBERS);
			CHECK((behind[number / 32] >> number % 32 & 1) == 0);
			behind[number / 32] |= UINT32_C(1) << number % 32;
		}
	}
	CHECK(memcmp(table + SPENT, behind, sizeof(behind)) == 0);
}

/* A short table is refused, and no other. */
static void check_said(struct virtio_video_pending said)
{
	if (words >= WORDS)
		CHECK(said.refusal == VIRTIO_VIDEO_REFUSAL_NONE);
	else
		CHECK(said.refusal == VIRTIO_VIDEO_REFUSAL_SHORT_TABLE && said.pending == 0 &&
		      said.words_read == 0);
}

/* What is pending in all: whatever the words are, what the total's word holds */
static uint32_t pending_in_all(void)
{
	struct virtio_video_pending said = virtio_video_pending_in_all(table, words);

	check_said(said);
	if (words >= WORDS)
		CHECK(said.pending == table[TOTAL] && said.words_read == 1);
	return said.pending;
}

/* What is pending to a stream: what the figure behind its first mark holds */
static uint32_t pending_of(uint32_t stream)
{
	struct virtio_video_pending said = virtio_video_pending_of_stream(table, words, stream);
	uint32_t place = 0;

	check_said(said);
	if (words < WORDS)
		return 0;
	while (place < PLACES && (!table[MARKS + place] || table[MARKS + place] - 1 != stream))
		place++;
	if (place < PLACES)
		CHECK(said.pending == table[FIGURES + place] && said.words_read == place + 2);
	else
		CHECK(said.pending == 0 && said.words_read == PLACES);
	return said.pending;
}

/* Asks for a number that no stream has, and for those that the marks stand for. */
static void ask_around(void)
{
	uint32_t place;

	pending_of(UINT32_MAX);
	for (place = 0; place < PLACES && words >= WORDS; place++)
		pending_of(table[MARKS + place] - 1);
}

/* What is pending to the live streams of a valid table, whose marks are right */
static uint32_t pending_of_each(void)
{
	uint32_t place, live, number, sum = 0;

	for (place = 0; place < PLACES; place++) {
		live = table[place * BLOCK];
		number = table[place * BLOCK + 1];
		CHECK(table[MARKS + place] == (live ? number + 1 : 0));
		if (live)
			sum += pending_of(number);
	}
	return sum;
}

/* The stream of a step, 0 for a command without a whole header */
static uint32_t stream_of(const struct step *s)
{
	uint32_t stream = s->stream;

	if (s->kind == COMMAND && s->frame_len >= sizeof(struct virtio_video_cmd_hdr))
		memcpy(&stream, s->frame + 4, 4);
	return stream;
}

/*
 * What a step that is not refused makes of a number of pending answers, by the answers that it
 * wrote: with none it is a queueing or a drain that is accepted; else each was pending but for a
 * command's own.
 */
static uint32_t pending_after(const struct step *s, uint32_t pending, unsigned count)
{
	return count ? pending + (s->kind == COMMAND) - count : pending + 1;
}

/* Which refusals may come, and that a step leaves a valid table valid and no other */
static void check_refusal(const struct step *s, uint32_t refusal, int was_valid)
{
	CHECK((refusal == VIRTIO_VIDEO_REFUSAL_SHORT_TABLE) == (words < WORDS));
	if (words >= WORDS) {
		CHECK((refusal == VIRTIO_VIDEO_REFUSAL_SHORT_ROOM) == (room_len < ROOM));
		if (room_len >= ROOM)
			CHECK((refusal == VIRTIO_VIDEO_REFUSAL_INVALID_TABLE) == !was_valid);
		CHECK(valid() == was_valid);
	}
	if (refusal > VIRTIO_VIDEO_REFUSAL_SHORT_ROOM) {
		if (s->kind == COMMAND)
			CHECK(refusal == VIRTIO_VIDEO_REFUSAL_SHORT_COMMAND);
		else
			CHECK(refusal == VIRTIO_VIDEO_REFUSAL_UNEXPECTED_REPORT ||
			      (s->kind == FINISH && refusal == VIRTIO_VIDEO_REFUSAL_BAD_FLAGS));
	}
	if (s->kind == COMMAND && refusal == VIRTIO_VIDEO_REFUSAL_NONE)
		CHECK(s->frame_len >= sizeof(struct virtio_video_cmd_hdr));
}

static void step(const struct step *s)
{
	static uint32_t table_before[MOST_WORDS];
	static uint8_t room_before[MOST_ROOM];
	struct virtio_video_outcome outcome;
	int was_valid, error = 0;
	unsigned count = 0;
	uint32_t first = 0, what, came, in_all, of_stream;

	was_valid = words >= WORDS && valid();
	memcpy(table_before, table, words * 4);
	memcpy(room_before, room, room_len);
	in_all = pending_in_all();
	of_stream = pending_of(stream_of(s));
	ask_around();
	CHECK(memcmp(table, table_before, words * 4) == 0);

	outcome = call(s);

	untouched_before((const uint8_t *)table);
	untouched_before(room);
	check_refusal(s, outcome.refusal, was_valid);
	if (outcome.refusal == VIRTIO_VIDEO_REFUSAL_NONE) {
		CHECK(outcome.written <= ROOM);
		count = answers(outcome.written, &error);
		/* a report answers one buffer or drain, and with EOS one of each */
		if (s->kind != COMMAND)
			CHECK(!error && count == (s->flags & VIRTIO_VIDEO_BUFFER_FLAG_EOS ? 2u : 1u));
		if (error)
			CHECK(count == 1);
		if (count)
			memcpy(&first, room + 8, 4);
		CHECK(pending_in_all() == pending_after(s, in_all, count));
		CHECK(pending_in_all() == pending_of_each());
		CHECK(pending_of(stream_of(s)) == pending_after(s, of_stream, count));
	} else {
		CHECK(outcome.written == 0);
	}
	CHECK(memcmp(room + outcome.written, room_before + outcome.written,
		     room_len - outcome.written) == 0);
	if (outcome.refusal || error)
		CHECK(memcmp(table, table_before, words * 4) == 0);
	else
		CHECK(memcmp(table + WORDS, table_before + WORDS, (words - WORDS) * 4) == 0);
	if (words >= WORDS)
		check_spent(s, table_before, !outcome.refusal && !error);
	record_step(s, outcome);

	/* what kind of step, its refusal or first response, and how many answers */
	what = s->kind * 16 + (s->kind == COMMAND && s->frame_len ? s->frame[0] & 15 : 0);
	came = outcome.refusal ? outcome.refusal : (first >> 4 & 0x30) | (first & 7) | 8;
	seen[what * 64 + (came & 63)] |= (uint8_t)(1u << (count < 7 ? count : 7));
}

/* --------------------------------------------------------------------------
 * Steps out of the input
 */

/*
 * Steps are for the 16 stream numbers from this one on, so that many of them meet the same
 * stream. It moves on: else every number would soon be spent.
 */
static uint32_t first_number;

static uint32_t stream_number(uint32_t bits)
{
	return first_number + (bits & 15);
}

static void put32(uint8_t *frame, size_t at, uint32_t value)
{
	memcpy(frame + at, &value, sizeof(value));
}

/* A good command of this type, numbers from the input; gives its length. */
static size_t shape(uint8_t *frame, uint32_t type)
{
	static const size_t lengths[16] = { 16, 88, 8, 8, 88, 64, 16, 16, 16, 120, 16, 16, 16, 8, 8, 8 };
	size_t length = lengths[type & 15];
	uint32_t numbers = byte(), sizes, entries, i;
	uint32_t queue_type = VIRTIO_VIDEO_QUEUE_TYPE_INPUT + (numbers >> 7);

	memset(frame, 0, MOST_FRAME);
	put32(frame, 0, type);
	put32(frame, 4, stream_number(numbers));
	if (length > 8)
		put32(frame, 8, queue_type);
	switch (type) {
	case VIRTIO_VIDEO_CMD_STREAM_CREATE:
		put32(frame, 8, VIRTIO_VIDEO_MEM_TYPE_GUEST_PAGES);
		put32(frame, 16, VIRTIO_VIDEO_FORMAT_MPEG2 + (numbers >> 4) % 6);
		sizes = byte();
		if (sizes & 0x80)
			fill(frame + 24, sizes & 63);
		else
			memset(frame + 24, 'a', sizes & 63);
		break;
	case VIRTIO_VIDEO_CMD_RESOURCE_CREATE:
		put32(frame, 12, byte() & 31);
		sizes = byte();
		put32(frame, 16, 1 + (sizes & 1));
		put32(frame, 20, 1 + (sizes >> 1 & 7));
		entries = (sizes & 0x80) ? 256 : 1 + (sizes >> 4 & 7);
		put32(frame, 56, entries);
		for (i = 0; i < entries; i++)
			put32(frame, length + 16 * i + 8, 1 + i);
		length += 16 * entries;
		break;
	case VIRTIO_VIDEO_CMD_RESOURCE_QUEUE:
		put32(frame, 12, byte() & 31);
		fill(frame + 16, 8);
		put32(frame, 24, byte() & 7);
		break;
	case VIRTIO_VIDEO_CMD_SET_PARAMS:
		sizes = half();
		put32(frame, 12, numbers >> 7 ? VIRTIO_VIDEO_FORMAT_NV12
					      : VIRTIO_VIDEO_FORMAT_MPEG2 + (numbers >> 4 & 7));
		put32(frame, 16, 2 * (8 + sizes % 2041));
		put32(frame, 20, 2 * (8 + sizes / 16 % 2041));
		put32(frame, 48, byte());
		break;
	default:
		break;
	}
	/* and now and then bytes of it changed */
	if (numbers & 0x40 && numbers & 0x20)
		for (i = byte() & 3; i > 0; i--)
			frame[half() % (length + 1)] = byte();
	return length;
}

static void command(uint32_t ticket, const uint8_t *bytes, size_t length)
{
	struct step s;
	uint8_t *frame = lend(&frame_area, length);

	memset(&s, 0, sizeof(s));
	s.kind = COMMAND;
	s.ticket = ticket;
	s.frame = length ? frame : NULL;
	s.frame_len = length;
	memcpy(frame, bytes, length);
	step(&s);
	CHECK(memcmp(frame, bytes, length) == 0);
	untouched_before(frame);
}

/* So many creations, imports or queueings in a row, which lead to full tables */
static void burst(uint8_t *frame, uint8_t op)
{
	static const uint32_t types[4] = {
		VIRTIO_VIDEO_CMD_STREAM_CREATE, VIRTIO_VIDEO_CMD_RESOURCE_CREATE,
		VIRTIO_VIDEO_CMD_RESOURCE_QUEUE, VIRTIO_VIDEO_CMD_RESOURCE_QUEUE,
	};
	uint32_t type = types[op & 3], count = byte() & 31, i;
	size_t length = shape(frame, type);

	for (i = 0; i < count; i++) {
		if (type == VIRTIO_VIDEO_CMD_STREAM_CREATE)
			put32(frame, 4, first_number + i);
		else
			put32(frame, 12, i);
		command(i, frame, length);
	}
}

/* What ends a drain: an output of a stream is queued, the drain comes, and the output is its last */
static void ending(uint8_t *frame)
{
	static const uint32_t types[4] = {
		VIRTIO_VIDEO_CMD_STREAM_CREATE, VIRTIO_VIDEO_CMD_RESOURCE_CREATE,
		VIRTIO_VIDEO_CMD_RESOURCE_QUEUE, VIRTIO_VIDEO_CMD_STREAM_DRAIN,
	};
	struct step s;
	size_t length;
	uint32_t i;

	memset(&s, 0, sizeof(s));
	s.kind = FINISH;
	s.stream = stream_number(byte());
	s.queue_type = VIRTIO_VIDEO_QUEUE_TYPE_OUTPUT;
	s.flags = VIRTIO_VIDEO_BUFFER_FLAG_EOS;
	for (i = 0; i < 4; i++) {
		length = shape(frame, types[i]);
		put32(frame, 4, s.stream);
		if (types[i] != VIRTIO_VIDEO_CMD_STREAM_CREATE) {
			put32(frame, 8, s.queue_type);
			put32(frame, 12, s.resource);
		}
		command(i, frame, length);
	}
	step(&s);
}

/* Makes the table that of a device without streams, or leaves it alone if it is short. */
static void make_fresh(void)
{
	size_t i;

	if (words < WORDS) {
		CHECK(virtio_video_fresh(table, words) == VIRTIO_VIDEO_REFUSAL_SHORT_TABLE);
		return;
	}
	CHECK(virtio_video_fresh(table, words) == VIRTIO_VIDEO_REFUSAL_NONE);
	for (i = 0; i < WORDS; i++)
		CHECK(table[i] == 0);
	CHECK(valid());
	untouched_before((const uint8_t *)table);
	begin_record(1);
}

static void one_step(void)
{
	static uint8_t frame[MOST_FRAME];
	struct step s;
	size_t length;
	uint32_t ticket;
	uint8_t op = byte();

	memset(&s, 0, sizeof(s));
	switch (op & 7) {
	case 0:
		/* raw bytes */
		length = op & 8 ? half() % (MOST_FRAME + 1) : byte();
		fill(frame, length);
		command(op, frame, length);
		break;
	case 1:
		/* one value of 256, so that a run has time to spend numbers before */
		if (op == 0xf9) {
			make_fresh();
			break;
		}
		if (op & 0x80) {
			/* the last of them reach beyond the numbers that there are */
			first_number = half() % (NUMBERS + 1);
			break;
		}
		s.kind = DRAINED;
		s.stream = stream_number(byte());
		step(&s);
		break;
	case 2:
	case 3:
		s.kind = FINISH;
		s.stream = stream_number(byte());
		s.queue_type = VIRTIO_VIDEO_QUEUE_TYPE_INPUT + (op >> 3 & 1);
		if (op & 0x80)
			s.queue_type = half();
		s.resource = byte() & 31;
		s.flags = op & 0x40 ? byte() : op >> 4 & 3;
		fill(&s.timestamp, sizeof(s.timestamp));
		step(&s);
		break;
	case 4:
		if (op & 0x80)
			ending(frame);
		else
			burst(frame, op >> 3);
		break;
	default:
		ticket = half() * 0x10001;
		length = shape(frame, 0x0100 + (op >> 3 & 15));
		if (op & 0x80)
			length = length - 1 + byte() % 3;
		command(ticket, frame, length);
		break;
	}
}

static void lend_room(void)
{
	room_len = length_near(ROOM, MOST_ROOM);
	room = lend(&room_area, room_len);
	memset(room, byte(), room_len);
}

/*
 * Changes two words: any, or of the figures of pending answers. There the first becomes the same
 * as another one, so that a stream may be marked twice.
 */
static void change_words(int figures)
{
	size_t first = figures && words >= WORDS ? TOTAL : 0;
	size_t count = first ? 1 + 2 * PLACES : words;
	size_t at = first + half() % count;

	table[at] = first ? table[first + byte() % count] : byte();
	table[first + half() % count] ^= 1u << (byte() & 31);
}

/* An input that fills more of the table than others is worth keeping. */
static void note_fullness(void)
{
	size_t i, full = 0;

	for (i = 0; i < words && i < WORDS; i++)
		full += table[i] != 0;
	seen[3072 + full / 4 % 1024] = 1;
}

int LLVMFuzzerTestOneInput(const uint8_t *data, size_t size)
{
	uint8_t mode;

	if (!table_area.end) {
		reserve(&table_area, MOST_WORDS * 4);
		reserve(&frame_area, MOST_FRAME);
		reserve(&room_area, MOST_ROOM);
		reserve(&log_area, MOST_LOG);
	}
	check_input(data, size);
	begin_record(0);
	input = data;
	left = size;
	first_number = 0;
	mode = byte();
	words = length_near(WORDS, MOST_WORDS);
	table = (uint32_t *)(void *)lend(&table_area, words * 4);
	lend_room();

	if (mode & 1) {
		/* raw words, then one step after another until the bytes run out */
		fill(table, words * 4);
		do
			one_step();
		while (left);
		check_record();
		return 0;
	}

	/* a device made by steps; at the end, if the mode says so, words are changed */
	memset(table, 0x5a, words * 4);
	make_fresh();
	while (left > 8)
		one_step();
	check_record();
	note_fullness();
	if (mode & 2 && words) {
		change_words(mode & 4);
		lend_room();
		one_step();
	}
	return 0;
}

#ifdef STANDALONE
/* Runs the files that are named, or else standard input, once each. */
static void run(FILE *file)
{
	static uint8_t bytes[1 << 20];
	size_t size = fread(bytes, 1, sizeof(bytes), file);

	LLVMFuzzerTestOneInput(bytes, size);
}

int main(int argc, char **argv)
{
	int i;

	if (argc < 2)
		run(stdin);
	for (i = 1; i < argc; i++) {
		FILE *file = fopen(argv[i], "rb");

		if (!file) {
			perror(argv[i]);
			return 2;
		}
		run(file);
		fclose(file);
	}
	return 0;
}
#endif
