/*
 * A virtio sound device (device 25) of one PCM stream, output only: what a host calls for a
 * message of the control queue, and the draft's numbers and structs that messages and answers
 * are made of.
 *
 * Names, numbers and layouts are those of the virtio sound draft. The later standard has others
 * under some of the same names: do not include <linux/virtio_snd.h> in the same file.
 * docs/FIELDS.md lists them field by field, and where the device does otherwise. Link with
 * libsound.a (docs/HOST.md).
 */
#ifndef VIRTIO_SOUND_OUTPUT_H
#define VIRTIO_SOUND_OUTPUT_H

#include <stddef.h>
#include <stdint.h>

#ifdef __cplusplus
extern "C" {
#endif

/* --------------------------------------------------------------------------
 * DEVICE
 */

#define VIRTIO_ID_SOUND			25

/* Feature bits */

/* Output PCM stream support */
#define VIRTIO_SND_F_PCM_OUTPUT		0
/* Input PCM stream support: there is none, so it is not to be offered */
#define VIRTIO_SND_F_PCM_INPUT		1

/*
 * Numbers on the wire. They are little-endian, as are the machines that the device is built
 * for, so that there a field is the number itself. A message and an answer may stand anywhere
 * in memory: copy a struct out of the bytes or into them, do not cast a pointer.
 */
typedef uint16_t virtio_snd_le16;
typedef uint32_t virtio_snd_le32;

/* PCM sample formats; those above the last are never supported */
enum {
	VIRTIO_SND_PCM_FMT_S8 = 0,
	VIRTIO_SND_PCM_FMT_U8 = 1,
	VIRTIO_SND_PCM_FMT_S16 = 2,
	VIRTIO_SND_PCM_FMT_U16 = 3,
	VIRTIO_SND_PCM_FMT_S32 = 4,
	VIRTIO_SND_PCM_FMT_U32 = 5,
	VIRTIO_SND_PCM_FMT_FLOAT = 6,
	VIRTIO_SND_PCM_FMT_FLOAT64 = 7,
};

/* PCM frame rates; those above the last are never supported */
enum {
	VIRTIO_SND_PCM_RATE_5512 = 0,
	VIRTIO_SND_PCM_RATE_8000 = 1,
	VIRTIO_SND_PCM_RATE_11025 = 2,
	VIRTIO_SND_PCM_RATE_16000 = 3,
	VIRTIO_SND_PCM_RATE_22050 = 4,
	VIRTIO_SND_PCM_RATE_32000 = 5,
	VIRTIO_SND_PCM_RATE_44100 = 6,
	VIRTIO_SND_PCM_RATE_48000 = 7,
	VIRTIO_SND_PCM_RATE_64000 = 8,
	VIRTIO_SND_PCM_RATE_88200 = 9,
	VIRTIO_SND_PCM_RATE_96000 = 10,
	VIRTIO_SND_PCM_RATE_176400 = 11,
	VIRTIO_SND_PCM_RATE_192000 = 12,
	VIRTIO_SND_PCM_RATE_384000 = 13,
};

/* A PCM stream configuration */
struct virtio_pcm_stream_config {
	uint8_t channels_min;
	uint8_t channels_max;
	/* 1 << VIRTIO_SND_PCM_FMT_* */
	virtio_snd_le16 formats;
	/* 1 << VIRTIO_SND_PCM_RATE_* */
	virtio_snd_le16 rates;
	/* 0 */
	uint16_t padding;
};

struct virtio_pcm_config {
	struct virtio_pcm_stream_config output;
	/* not valid, as VIRTIO_SND_F_PCM_INPUT is not offered */
	struct virtio_pcm_stream_config input;
};

/* The configuration space. It is the host's; a call is told the four numbers of pcm.output. */
struct virtio_snd_config {
	struct virtio_pcm_config pcm;
};

/* --------------------------------------------------------------------------
 * CONTROL MESSAGES
 */

enum {
	/* PCM control request types */
	VIRTIO_SND_R_PCM_CHMAP_INFO = 0,	/* answered NOT_SUPP */
	VIRTIO_SND_R_PCM_SET_FORMAT = 1,
	VIRTIO_SND_R_PCM_PREPARE = 2,
	VIRTIO_SND_R_PCM_START = 3,
	VIRTIO_SND_R_PCM_STOP = 4,
	VIRTIO_SND_R_PCM_PAUSE = 5,
	VIRTIO_SND_R_PCM_UNPAUSE = 6,

	/* Status codes */
	VIRTIO_SND_S_OK = 0x8000,
	/* malformed, out of order, or a number of channels that is out of range */
	VIRTIO_SND_S_BAD_MSG = 0x8001,
	/* a channel map, an input stream, or a format or rate that is not offered */
	VIRTIO_SND_S_NOT_SUPP = 0x8002,
	/* an I/O error: not given by the function below, which does no I/O */
	VIRTIO_SND_S_IO_ERR = 0x8003,
};

/* PCM stream types */
enum {
	VIRTIO_SND_PCM_T_OUTPUT = 0,
	VIRTIO_SND_PCM_T_INPUT = 1,		/* answered NOT_SUPP */
};

/*
 * Every message begins with this header, and all but SET_FORMAT and CHMAP_INFO are no longer
 * than it. The answer is the status, a virtio_snd_le32.
 */
struct virtio_snd_pcm_hdr {
	/* one of VIRTIO_SND_R_PCM_* */
	virtio_snd_le32 code;
	/* one of VIRTIO_SND_PCM_T_* */
	virtio_snd_le32 stream;
};

/* VIRTIO_SND_R_PCM_SET_FORMAT */
struct virtio_snd_pcm_set_format {
	struct virtio_snd_pcm_hdr hdr;
	/* channels_min to channels_max */
	virtio_snd_le16 channels;
	/* one of VIRTIO_SND_PCM_FMT_*, with its bit in formats */
	virtio_snd_le16 format;
	/* one of VIRTIO_SND_PCM_RATE_*, with its bit in rates */
	virtio_snd_le16 rate;
	uint16_t padding;
};

#define VIRTIO_SND_PCM_CH_MAX		256

/*
 * The answer to VIRTIO_SND_R_PCM_CHMAP_INFO. No channel map is ever given, so that the draft's
 * channel positions are not listed here.
 */
struct virtio_snd_pcm_chmap_info {
	/* VIRTIO_SND_S_NOT_SUPP */
	virtio_snd_le32 status;
	/* 0 */
	virtio_snd_le32 npositions;
	/* all 0 */
	uint8_t positions[VIRTIO_SND_PCM_CH_MAX];
};

/* --------------------------------------------------------------------------
 * THE CALL
 */

/* Bytes of room that a call asks for, which is the most that one writes: CHMAP_INFO's answer */
#define VIRTIO_SND_ANSWER_ROOM		264

/*
 * Where the PCM stream is in its life, with the requests that are taken there. CHMAP_INFO is
 * answered in any state.
 */
enum virtio_snd_pcm_state {
	VIRTIO_SND_PCM_STATE_FRESH = 0,		/* SET_FORMAT */
	VIRTIO_SND_PCM_STATE_SET = 1,		/* SET_FORMAT, PREPARE */
	VIRTIO_SND_PCM_STATE_PREPARED = 2,	/* SET_FORMAT, START */
	VIRTIO_SND_PCM_STATE_RUNNING = 3,	/* STOP, PAUSE */
	VIRTIO_SND_PCM_STATE_PAUSED = 4,	/* STOP, UNPAUSE */
	VIRTIO_SND_PCM_STATE_STOPPED = 5,	/* SET_FORMAT, PREPARE */
};

/* Why a call was refused. Then nothing was written, and the state comes back as it was given. */
enum virtio_snd_refusal {
	VIRTIO_SND_REFUSAL_NONE = 0,
	/* the state is none of VIRTIO_SND_PCM_STATE_* */
	VIRTIO_SND_REFUSAL_INVALID_STATE = 2,
	/* the room has fewer than VIRTIO_SND_ANSWER_ROOM bytes; tested first */
	VIRTIO_SND_REFUSAL_SHORT_ROOM = 3,
};

/* The result of a call */
struct virtio_snd_outcome {
	/* one of VIRTIO_SND_REFUSAL_* */
	uint32_t refusal;
	/* for the next call; as it was given after a message that failed, and with a refusal */
	uint32_t state;
	/* bytes of the answer at the start of the room: 4 or 264; 0 with a refusal */
	uint32_t written;
};

/*
 * A message of the guest. It is answered at once: by its status alone, 4 bytes, or a CHMAP_INFO
 * of 8 bytes or more by a whole struct virtio_snd_pcm_chmap_info, 264 bytes. Nothing stands
 * before the status. A message that fails is no refusal, and changes nothing.
 *
 * state: where the PCM stream is, one of VIRTIO_SND_PCM_STATE_*. It goes in and comes back by
 *	value, and is all that the device is: between the calls the caller keeps it, and may save
 *	and restore it. The format that is set is not in it.
 * channels_min, channels_max, formats, rates: those of pcm.output in the configuration space.
 *
 * What is lent to the call, until it returns:
 *
 * message, message_len: the bytes of one message as the guest sent them. Only read. Any bytes
 *	and any length are safe. Copy them out of the guest's memory first: they must not change
 *	during the call.
 * answer, answer_len: where the answer goes, from its start. What lies behind the bytes written
 *	is left as it was.
 *
 * A count is in bytes, and has to be true. A pointer whose count is 0 may be null. The two
 * pieces must not overlap, and nobody else may touch them during the call. Calls may run at the
 * same time.
 */
struct virtio_snd_outcome
virtio_snd_control(uint32_t state, uint8_t channels_min, uint8_t channels_max,
		   uint16_t formats, uint16_t rates,
		   const uint8_t *message, size_t message_len,
		   uint8_t *answer, size_t answer_len);

#ifdef __cplusplus
} /* extern "C" */
#endif

/* No struct above has gaps, so that its size is the sum of its fields. */
#if defined(__cplusplus) && __cplusplus >= 201103L
#define VIRTIO_SND_SIZE(type, bytes) \
	static_assert(sizeof(struct type) == (bytes), "size of " #type)
#elif defined(__STDC_VERSION__) && __STDC_VERSION__ >= 201112L
#define VIRTIO_SND_SIZE(type, bytes) \
	_Static_assert(sizeof(struct type) == (bytes), "size of " #type)
#endif
#ifdef VIRTIO_SND_SIZE
VIRTIO_SND_SIZE(virtio_pcm_stream_config, 8);
VIRTIO_SND_SIZE(virtio_pcm_config, 16);
VIRTIO_SND_SIZE(virtio_snd_config, 16);
VIRTIO_SND_SIZE(virtio_snd_pcm_hdr, 8);
VIRTIO_SND_SIZE(virtio_snd_pcm_set_format, 16);
VIRTIO_SND_SIZE(virtio_snd_pcm_chmap_info, 264);
VIRTIO_SND_SIZE(virtio_snd_outcome, 12);
#undef VIRTIO_SND_SIZE
#endif

#endif /* VIRTIO_SOUND_OUTPUT_H */
