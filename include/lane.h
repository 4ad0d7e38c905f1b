/* The lane engine, for hosts in C (C99 and later) and C++: link liblane.a.
 *
 * Slices. Every argument is a slice: a pointer to its first byte, and its length in bytes. A slice may
 * have any length and any content; an empty one may be (NULL, 0). Numbers in slices are little-endian.
 * A slice lent for writing (state, report, out, the journal of a scan) shares no byte with another slice of the
 * call: all that the engine promises rests on that. No alignment is asked. The engine has no heap, no static data
 * and no locks, so calls over different buffers may run at once. Of the C library the archive needs memset
 * only; the functions of this header need memcpy and strlen too.
 *
 * Stack. A call takes at most LANE_STACK_BYTES, and no length or content of a slice makes it more; what memset
 * takes comes on top. It is measured on x86-64: a test fills a stack with one byte value, runs calls over 64
 * blocks on it and looks how deep it was changed.
 *
 * Answers. A call answers one number. Accepted, it is a value below 2^32; refused, it is
 * number * 2^32 + place. The number, LANE_REFUSED_.., says which check failed, the place at which slot of
 * the table, position of the chain or event of a journal (all from 1) it failed; 0 names none. A value or a
 * place above 2^32 - 1, which only a journal of 48 GiB and more can have, is given as 2^32 - 1. The functions
 * after the entry points take an answer apart. Checks run in the order of their numbers, but the chain's blocks
 * are checked in order, each through 7 to 10 before the next; the first check that fails is given. A
 * refused call has written nothing.
 *
 * Buffers. The functions at the end read and write them, so that no host needs an offset. What the blocks make
 * of them is in docs/RULES.md of the repository.
 */

#ifndef LANE_H
#define LANE_H

#include <stddef.h>
#include <stdint.h>
#include <string.h>

/* Counts the changes after which a host must be compiled anew: another layout or length of a buffer, other
 * arguments of a function, another meaning of a number or an answer. What is only added doesn't count: a
 * function, a refusal, a kind. The archive doesn't hold it: a host that links a prebuilt one is compiled with
 * the header shipped beside it, and `#if LANE_ABI != 2` in its source then tells of a change. */
#define LANE_ABI 2

/* The most stack that a call takes, rounded up. */
#define LANE_STACK_BYTES 2048

/* Lengths in bytes. */
#define LANE_HEADER_BYTES 4  /* header of a table */
#define LANE_SLOT_BYTES 16   /* slot of a table */
#define LANE_TAG_BYTES 8     /* tag of a slot */
#define LANE_RECORD_BYTES 40 /* state record, one a block */
#define LANE_ENTRY_BYTES 64  /* frame entry, one a block */
#define LANE_PIECE_BYTES 8   /* piece of a frame entry */
#define LANE_REPORT_BYTES 16 /* report entry, one a block */
#define LANE_EVENT_BYTES 12  /* journal event, at most two a block and scan */

/* The greatest number of slots, and so of blocks; and of the pieces of a frame entry. */
#define LANE_MAX_BLOCKS 64
#define LANE_MAX_PIECES 4

/* Layouts: the offset of each field, and beside it its width in bytes and its meaning. Bytes without a
 * name are zero. Times and clocks are in microseconds; a clock wraps from 2^32 - 1 to 0. From one reading to
 * the next counts their difference modulo 2^32, and nothing where that is 2^31 or more: the reading is out of
 * step, and the last reading stays. The time limit counts so from the clock at the call. So readings a little
 * early do no harm; but a gap of 2^31 to 2^32 - 1 microseconds (35:47 to 71:34 minutes) between two readings
 * of a job counts as none, and whole turns of the clock are never seen: elapsed is no wall clock. */

/* The header of a table, its first bytes. Slots follow, numbered from 1. */
enum {
    LANE_AT_HEADER_VERSION = 0, /* 1  the version, 1 */
    LANE_AT_HEADER_SLOTS = 1,   /* 1  the slot count N, 1 to 64 */
    LANE_AT_HEADER_HEAD = 2     /* 1  the first slot of the chain, 0 for a table of no blocks */
};

/* A slot of a table, at LANE_HEADER_BYTES + LANE_SLOT_BYTES * (slot - 1). The k-th block of the chain has
 * position k. A slot off the chain is all zero. A wire reads a flag as it stands when the block is called:
 * of an earlier block this scan's, of a later one or the block itself the last scan's. */
enum {
    LANE_AT_SLOT_KIND = 0,       /* 1  LANE_KIND_.. */
    LANE_AT_SLOT_NEXT = 1,       /* 1  the next slot of the chain, 0 at its end */
    LANE_AT_SLOT_START_WIRE = 2, /* 1  the slot whose flag is the start input, 0 for the frame's bit */
    LANE_AT_SLOT_START_CODE = 3, /* 1  LANE_WIRE_.., 0 where there is no wire */
    LANE_AT_SLOT_ABORT_WIRE = 4, /* 1  the same of the abort input; 0 on kinds without A */
    LANE_AT_SLOT_ABORT_CODE = 5, /* 1  LANE_WIRE_.., 0 where there is no wire */
    LANE_AT_SLOT_TAG = 8         /* 8  one or more of A-Z, 0-9 and, except first, underscore; then spaces */
};

/* A state record, at LANE_RECORD_BYTES * (position - 1). lane_fresh makes it, lane_scan changes it, and
 * nobody else does. */
enum {
    LANE_AT_RECORD_STEP = 0,        /* 1  LANE_STEP_.. */
    LANE_AT_RECORD_FLAGS = 1,       /* 1  LANE_FLAG_.., one outside Dormant */
    LANE_AT_RECORD_REQUEST = 2,     /* 1  the reset request, 0 or 1 */
    LANE_AT_RECORD_CODE = 8,        /* 2  the error code, nonzero with the error flag */
    LANE_AT_RECORD_TIME_LIMIT = 12, /* 4  the time limit taken at the start, 0 for none */
    LANE_AT_RECORD_TIME_OUT = 16,   /* 4  the time-out taken at the start, 0 for none */
    LANE_AT_RECORD_READING = 20,    /* 4  the last clock reading */
    LANE_AT_RECORD_ELAPSED = 24,    /* 8  the time counted from the start on, at most 2^32 */
    LANE_AT_RECORD_JOB = 32         /* 8  the job taken at the start */
};

/* A frame entry, at LANE_ENTRY_BYTES * (position - 1). The pieces are the job's work in this call, one reply
 * each, in order; with none the reply is working. Kinds without TI use one at most. Piece i, from 0, begins at
 * LANE_AT_ENTRY_PIECES + LANE_PIECE_BYTES * i; pieces past the count are zero. A block stays in Aborting or
 * Resetting while the reply of that action is working. */
enum {
    LANE_AT_ENTRY_INPUTS = 0,      /* 1  LANE_INPUT_.. */
    LANE_AT_ENTRY_COUNT = 1,       /* 1  the piece count, 0 to 4 */
    LANE_AT_ENTRY_ABORT_REPLY = 2, /* 1  LANE_REPLY_.. of the abort action */
    LANE_AT_ENTRY_RESET_REPLY = 3, /* 1  LANE_REPLY_.. of the reset action, never an error */
    LANE_AT_ENTRY_ABORT_CODE = 4,  /* 2  2 to 65535 with an error as abort reply, else 0 */
    LANE_AT_ENTRY_TIME_LIMIT = 12, /* 4  the time limit of a call, 0 for none */
    LANE_AT_ENTRY_TIME_OUT = 16,   /* 4  the time-out of a job, 0 for none */
    LANE_AT_ENTRY_CLOCK = 20,      /* 4  the clock at the call */
    LANE_AT_ENTRY_PIECES = 24,     /*    the pieces */
    LANE_AT_ENTRY_JOB = 56         /* 8  the job, any number */
};

/* A piece of a frame entry. */
enum {
    LANE_AT_PIECE_REPLY = 0, /* 1  LANE_REPLY_.. of the piece */
    LANE_AT_PIECE_CODE = 2,  /* 2  2 to 65535 with an error as reply, else 0 */
    LANE_AT_PIECE_CLOCK = 4  /* 4  the clock after the piece */
};

/* A report entry, at LANE_REPORT_BYTES * (position - 1): the block as its call leaves it. */
enum {
    LANE_AT_REPORT_FLAGS = 0,  /* 1  LANE_FLAG_.. */
    LANE_AT_REPORT_PIECES = 1, /* 1  the pieces that the call used */
    LANE_AT_REPORT_PASSES = 2, /* 1  the passes of the call, the stopping one included */
    LANE_AT_REPORT_STEP = 3,   /* 1  LANE_STEP_.. */
    LANE_AT_REPORT_CODE = 4,   /* 2  the error code, nonzero with the error flag */
    LANE_AT_REPORT_JOB = 8     /* 8  the job */
};

/* A journal event. Those of one scan stand one after the other, in the order of the calls; the journals of
 * several scans are joined in the order of the scans. */
enum {
    LANE_AT_EVENT_KIND = 0,     /* 1  LANE_EVENT_.. */
    LANE_AT_EVENT_POSITION = 1, /* 1  the block's position, from 1 */
    LANE_AT_EVENT_CODE = 2,     /* 2  the error code of a failed job, else 0 */
    LANE_AT_EVENT_JOB = 4       /* 8  the job */
};

/* Kinds of blocks, by their PLCopen names: ETrig edge, LCon level; A abort input, TI time limit, TO
 * time-out, C continuous. */
enum {
    LANE_KIND_ETRIG = 1,
    LANE_KIND_ETRIG_TI = 2,
    LANE_KIND_ETRIG_TO = 3,
    LANE_KIND_ETRIG_TI_TO = 4,
    LANE_KIND_ETRIG_A = 5,
    LANE_KIND_ETRIG_A_TI = 6,
    LANE_KIND_ETRIG_A_TO = 7,
    LANE_KIND_ETRIG_A_TI_TO = 8,
    LANE_KIND_LCON = 9,
    LANE_KIND_LCON_TI = 10,
    LANE_KIND_LCON_TO = 11,
    LANE_KIND_LCON_TI_TO = 12,
    LANE_KIND_LCON_C = 13,
    LANE_KIND_LCON_TI_C = 14
};

/* The code of a wire: the number of the flag it reads, and INVERTED added if the input is its opposite. */
enum {
    LANE_WIRE_BUSY = 0,
    LANE_WIRE_DONE = 1,
    LANE_WIRE_ERROR = 2,
    LANE_WIRE_ABORTED = 3,
    LANE_WIRE_INVERTED = 0x80
};

/* Steps of a block. */
enum {
    LANE_STEP_DORMANT = 0,
    LANE_STEP_EXECUTING = 1,
    LANE_STEP_DONE = 2,
    LANE_STEP_ERROR = 3,
    LANE_STEP_ABORTING = 4,
    LANE_STEP_ABORTED = 5,
    LANE_STEP_RESETTING = 6
};

/* Flags of a block, as bits. */
enum {
    LANE_FLAG_BUSY = 1,
    LANE_FLAG_DONE = 2,
    LANE_FLAG_ERROR = 4,
    LANE_FLAG_ABORTED = 8
};

/* Inputs of a frame entry, as bits: start is Execute of an edge block, Enable of a level block; kinds
 * without A ignore abort. */
enum {
    LANE_INPUT_START = 1,
    LANE_INPUT_ABORT = 2
};

/* Replies of an action. */
enum {
    LANE_REPLY_WORKING = 0,
    LANE_REPLY_COMPLETE = 1,
    LANE_REPLY_ERROR = 2
};

/* Kinds of journal events. A start and one of the others take turns for each block. */
enum {
    LANE_EVENT_START = 1,
    LANE_EVENT_DONE = 2,
    LANE_EVENT_FAILED = 3,
    LANE_EVENT_ABORTED = 4,
    LANE_EVENT_WITHDRAWN = 5
};

/* Refusals: the number of the check that failed, and beside it what its place is, where it names one. */
enum {
    LANE_REFUSED_HEADER_LENGTH = 1,
    LANE_REFUSED_HEADER_VERSION = 2,
    LANE_REFUSED_HEADER_SLOTS = 3,
    LANE_REFUSED_TABLE_LENGTH = 4,
    LANE_REFUSED_CHAIN_ABOVE = 5,    /* the slot whose next is above the slot count, 0 if the head is */
    LANE_REFUSED_CHAIN_REPEATED = 6, /* the slot whose next was already met */
    LANE_REFUSED_KIND = 7,           /* the slot */
    LANE_REFUSED_TAG_FORM = 8,       /* the slot */
    LANE_REFUSED_TAG_REPEATED = 9,   /* the slot of the later block */
    LANE_REFUSED_WIRE = 10,          /* the slot */
    LANE_REFUSED_SPARE = 11,         /* the lowest such slot */
    LANE_REFUSED_STATE_LENGTH = 20,
    LANE_REFUSED_STATE_UNSOUND = 21, /* the first such position */
    LANE_REFUSED_FRAME_LENGTH = 30,
    LANE_REFUSED_FRAME_FORM = 31,    /* the first such position */
    LANE_REFUSED_REPORT_LENGTH = 40,
    LANE_REFUSED_JOURNAL_LENGTH = 41,
    LANE_REFUSED_LOOKUP_FORM = 50,
    LANE_REFUSED_LOOKUP_ABSENT = 51,
    LANE_REFUSED_TIDY_LENGTH = 60,
    LANE_REFUSED_EVENTS_LENGTH = 70,
    LANE_REFUSED_EVENT = 71          /* the first such event */
};

/* What the place of a refusal is. A later header may have more of them. */
enum lane_place {
    LANE_PLACE_NONE = 0,     /* none is named */
    LANE_PLACE_SLOT = 1,     /* a slot of the table, from 1 */
    LANE_PLACE_POSITION = 2, /* a position of the chain, from 1 */
    LANE_PLACE_EVENT = 3     /* an event of a journal, from 1; 2^32 - 1 for every later one too */
};

/* The error code of a job that was not over within its time-out. Other codes are those of the replies. */
#define LANE_CODE_TIME_OUT 1

#ifdef __cplusplus
extern "C" {
#endif

/* Checks a table: the number of its blocks. Refusals 1 to 11. Only reads. */
uint64_t lane_check(const uint8_t *image, size_t image_len);

/* Makes the state of a table fresh, whatever it holds, one record a block: the number of blocks. Refusals 1 to
 * 11, 20. */
uint64_t lane_fresh(const uint8_t *image, size_t image_len, uint8_t *state, size_t state_len);

/* Runs one scan: calls each block once, in chain order, with its frame entry. Leaves the new records in
 * the state, one entry a block in the report, and the events at the front of the journal, of which the
 * bytes after the last event stay as they were; answers the number of events. State, frame and report have
 * exactly one part a block, the journal room for two events a block or more. Refusals 1 to 11 and 20 to 41. */
uint64_t lane_scan(const uint8_t *image, size_t image_len, uint8_t *state, size_t state_len,
                   const uint8_t *frame, size_t frame_len, uint8_t *report, size_t report_len,
                   uint8_t *journal, size_t journal_len);

/* The position, from 1, of the block with this tag in the table's chain. Refusals 1 to 11, 50, 51.
 * Only reads. The engine's entry point show hands back a part of the table and so is not exported:
 * lane_get_slot(image, lane_slot_at(image, position)) is what it shows, with the position that an accepted
 * lane_find answered. */
uint64_t lane_find(const uint8_t *image, size_t image_len, const uint8_t *tag, size_t tag_len);

/* Writes a table anew, tidy: its blocks in chain order in slots 1, 2, 3 and on, head 1, the wires renumbered and
 * their codes kept, no spare slots; of a table of no blocks, one zero slot and head 0. Answers the number of
 * blocks. The lent buffer has lane_tidy_bytes(blocks) bytes; lane_check answers the same number of blocks. Over
 * the tidy table lane_fresh, lane_scan, lane_find and lane_check_journal do the same as over the one that was
 * given, with the same states, frames and journals: a host may put it in that one's place between two scans. The
 * blocks have other slots, so lane_slot_at and lane_get_slot give something else. Refusals 1 to 11, 60. */
uint64_t lane_tidy(const uint8_t *image, size_t image_len, uint8_t *out, size_t out_len);

/* Checks a journal against a table, such as one from another maker's box: the number of its events, 0 if it is
 * empty. Good is an event with a kind of LANE_EVENT_.. and a position of the table, in its block's turn: a start
 * where no job is open, a finish where one is, with its start's job in all eight bytes. Aborted stands only on
 * kinds with A, withdrawn only on level blocks, done not on continuous ones. The code of a failed job is nonzero,
 * and LANE_CODE_TIME_OUT only on kinds with TO; every other code is 0. At the end jobs may be open. What a list of
 * scans from a fresh state writes, joined in order, is accepted; and of a table without wires each accepted
 * journal is what some such list writes. Refusals 1 to 11, 70, 71. Only reads. */
uint64_t lane_check_journal(const uint8_t *image, size_t image_len, const uint8_t *journal, size_t journal_len);

/* Whether the call was accepted: 1 or 0. */
static inline int lane_is_accepted(uint64_t answer) { return answer >> 32 == 0; }

/* The value of an accepted call, 0 if it was refused. */
static inline uint32_t lane_value(uint64_t answer) { return lane_is_accepted(answer) ? (uint32_t)answer : 0; }

/* The number of the check that refused the call, 0 if it was accepted. */
static inline uint32_t lane_refusal_number(uint64_t answer) { return (uint32_t)(answer >> 32); }

/* The place of a refusal, 0 if it names none or the call was accepted. */
static inline uint32_t lane_refusal_place(uint64_t answer)
{
    return lane_is_accepted(answer) ? 0 : (uint32_t)answer;
}

/* What the place of a refusal is: it goes by the number of the check. */
static inline enum lane_place lane_refusal_place_kind(uint64_t answer)
{
    if (lane_refusal_place(answer) == 0)
        return LANE_PLACE_NONE;
    switch (lane_refusal_number(answer)) {
    case LANE_REFUSED_CHAIN_ABOVE:
    case LANE_REFUSED_CHAIN_REPEATED:
    case LANE_REFUSED_KIND:
    case LANE_REFUSED_TAG_FORM:
    case LANE_REFUSED_TAG_REPEATED:
    case LANE_REFUSED_WIRE:
    case LANE_REFUSED_SPARE: return LANE_PLACE_SLOT;
    case LANE_REFUSED_STATE_UNSOUND:
    case LANE_REFUSED_FRAME_FORM: return LANE_PLACE_POSITION;
    case LANE_REFUSED_EVENT: return LANE_PLACE_EVENT;
    default: return LANE_PLACE_NONE;
    }
}

/* What a place is, in a word; "" where none is named. */
static inline const char *lane_place_text(enum lane_place place)
{
    switch (place) {
    case LANE_PLACE_SLOT: return "slot";
    case LANE_PLACE_POSITION: return "position";
    case LANE_PLACE_EVENT: return "event";
    default: return "";
    }
}

/* Why a call was refused, in words; "it" is the slot, the block or the event that the place names. */
static inline const char *lane_refusal_text(uint64_t answer)
{
    switch (lane_refusal_number(answer)) {
    case 0: return "the call was accepted";
    case LANE_REFUSED_HEADER_LENGTH: return "the table is shorter than its header of 4 bytes";
    case LANE_REFUSED_HEADER_VERSION:
        return "the table's version is not 1, or byte 3 of its header is not zero";
    case LANE_REFUSED_HEADER_SLOTS: return "the table's slot count is not 1 to 64";
    case LANE_REFUSED_TABLE_LENGTH: return "the table's length is not 4 bytes and 16 a slot";
    case LANE_REFUSED_CHAIN_ABOVE:
        return lane_refusal_place(answer) == 0 ? "the head of the chain is above the slot count"
                                               : "its next slot is above the slot count";
    case LANE_REFUSED_CHAIN_REPEATED: return "its next slot was already met on the chain";
    case LANE_REFUSED_KIND: return "its kind is not 1 to 14, or its bytes 6-7 are not zero";
    case LANE_REFUSED_TAG_FORM:
        return "its tag is not one or more of A-Z, 0-9 and, except first, underscore, then spaces to "
               "eight bytes";
    case LANE_REFUSED_TAG_REPEATED: return "an earlier block of the chain has this tag";
    case LANE_REFUSED_WIRE:
        return "a wire of it comes from a slot off the chain, has a code out of form, or is an abort "
               "wire on a kind without one";
    case LANE_REFUSED_SPARE: return "it is off the chain and not all zero";
    case LANE_REFUSED_STATE_LENGTH: return "the state's length is not 40 bytes a block";
    case LANE_REFUSED_STATE_UNSOUND: return "its state record is unsound";
    case LANE_REFUSED_FRAME_LENGTH: return "the frame's length is not 64 bytes a block";
    case LANE_REFUSED_FRAME_FORM: return "its frame entry is out of form";
    case LANE_REFUSED_REPORT_LENGTH: return "the report's length is not 16 bytes a block";
    case LANE_REFUSED_JOURNAL_LENGTH: return "the journal is shorter than 24 bytes a block";
    case LANE_REFUSED_LOOKUP_FORM:
        return "the tag to find is not one or more of A-Z, 0-9 and, except first, underscore, then spaces to "
               "eight bytes";
    case LANE_REFUSED_LOOKUP_ABSENT: return "no block of the table has this tag";
    case LANE_REFUSED_TIDY_LENGTH:
        return "the lent table's length is not 4 bytes and 16 a block, or 20 of no blocks";
    case LANE_REFUSED_EVENTS_LENGTH: return "the journal's length is not a multiple of an event's 12 bytes";
    case LANE_REFUSED_EVENT:
        return "its kind is not 1 to 5, its position is not in the table, it is a start where a job is open or "
               "a finish where none is, its job is not its start's, its block's kind has no such finish, or its "
               "code is out of form";
    default: return "no check has this number";
    }
}

/* Readers and writers of the buffers. Each takes the buffer, and which of its parts is meant: a slot, a
 * position or the number of an event, all from 1 and within the buffer. A writer writes the whole part, the
 * bytes without a name as zero. The fields are those of the layouts above. */

struct lane_slot {
    uint8_t kind;
    uint8_t next;
    uint8_t start_wire;
    uint8_t start_code;
    uint8_t abort_wire;
    uint8_t abort_code;
    uint8_t tag[LANE_TAG_BYTES];
};

struct lane_record {
    uint8_t step;
    uint8_t flags;
    uint8_t request;
    uint16_t code;
    uint64_t job;
    uint32_t time_limit;
    uint32_t time_out;
    uint32_t reading;
    uint64_t elapsed;
};

struct lane_piece {
    uint8_t reply;
    uint16_t code;
    uint32_t clock;
};

struct lane_entry {
    uint8_t inputs;
    uint8_t count;
    uint8_t abort_reply;
    uint8_t reset_reply;
    uint16_t abort_code;
    uint64_t job;
    uint32_t time_limit;
    uint32_t time_out;
    uint32_t clock;
    struct lane_piece pieces[LANE_MAX_PIECES];
};

struct lane_report {
    uint8_t flags;
    uint8_t pieces;
    uint8_t passes;
    uint8_t step;
    uint16_t code;
    uint64_t job;
};

struct lane_event {
    uint8_t kind;
    uint8_t position;
    uint16_t code;
    uint64_t job;
};

/* Numbers in bytes, for the functions below. */
static inline uint16_t lane_get16(const uint8_t *from)
{
    return (uint16_t)(from[0] | (uint16_t)from[1] << 8);
}

static inline uint32_t lane_get32(const uint8_t *from)
{
    return lane_get16(from) | (uint32_t)lane_get16(from + 2) << 16;
}

static inline uint64_t lane_get64(const uint8_t *from)
{
    return lane_get32(from) | (uint64_t)lane_get32(from + 4) << 32;
}

static inline void lane_put16(uint8_t *to, uint16_t value)
{
    to[0] = (uint8_t)(value & 0xff);
    to[1] = (uint8_t)(value >> 8);
}

static inline void lane_put32(uint8_t *to, uint32_t value)
{
    lane_put16(to, (uint16_t)(value & 0xffff));
    lane_put16(to + 2, (uint16_t)(value >> 16));
}

static inline void lane_put64(uint8_t *to, uint64_t value)
{
    lane_put32(to, (uint32_t)(value & 0xffffffff));
    lane_put32(to + 4, (uint32_t)(value >> 32));
}

/* Writes a name as a tag, eight bytes: the name, then spaces. Answers 1, or 0 if the name is longer than that;
 * the tag is then all spaces, which the engine refuses, and never the front of the name. Whether the characters
 * are those of a tag only the engine says, by refusals 8 and 50. */
static inline int lane_put_tag(uint8_t *tag, const char *name)
{
    size_t length = strlen(name);
    memset(tag, ' ', LANE_TAG_BYTES);
    if (length > LANE_TAG_BYTES)
        return 0;
    memcpy(tag, name, length);
    return 1;
}

/* Writes the name of a tag, without its spaces, and a zero byte after it: at most LANE_TAG_BYTES + 1 bytes. */
static inline void lane_get_tag(char *name, const uint8_t *tag)
{
    size_t length = 0;
    for (; length < LANE_TAG_BYTES && tag[length] != ' '; length++)
        name[length] = (char)tag[length];
    name[length] = 0;
}

/* The offset of a slot, from 1, in a table. */
static inline size_t lane_slot_offset(uint32_t slot)
{
    return LANE_HEADER_BYTES + (size_t)LANE_SLOT_BYTES * (slot - 1);
}

/* The length of a table of so many blocks without spare slots, as lane_tidy writes it. */
static inline size_t lane_tidy_bytes(uint32_t blocks)
{
    return LANE_HEADER_BYTES + (size_t)LANE_SLOT_BYTES * (blocks == 0 ? 1 : blocks);
}

/* The length of a journal of so many events. */
static inline size_t lane_journal_bytes(uint32_t events) { return (size_t)LANE_EVENT_BYTES * events; }

/* The slot of the block at a position of a table that lane_check accepted, 0 if the chain has no such
 * position. Positions count along the chain, which may jump about among the slots: a position is no slot. */
static inline uint32_t lane_slot_at(const uint8_t *image, uint32_t position)
{
    uint32_t slot = image[LANE_AT_HEADER_HEAD];
    if (position == 0 || position > LANE_MAX_BLOCKS)
        return 0;
    for (; position > 1 && slot != 0; position--)
        slot = image[lane_slot_offset(slot) + LANE_AT_SLOT_NEXT];
    return slot;
}

/* Writes the header of a table. */
static inline void lane_put_header(uint8_t *image, uint8_t slots, uint8_t head)
{
    memset(image, 0, LANE_HEADER_BYTES);
    image[LANE_AT_HEADER_VERSION] = 1;
    image[LANE_AT_HEADER_SLOTS] = slots;
    image[LANE_AT_HEADER_HEAD] = head;
}

/* Reads a slot; of slot 0, which is none, nothing is read and all is zero. */
static inline struct lane_slot lane_get_slot(const uint8_t *image, uint32_t slot)
{
    const uint8_t *from = image;
    struct lane_slot got;
    memset(&got, 0, sizeof got);
    if (slot == 0)
        return got;
    from += lane_slot_offset(slot);
    got.kind = from[LANE_AT_SLOT_KIND];
    got.next = from[LANE_AT_SLOT_NEXT];
    got.start_wire = from[LANE_AT_SLOT_START_WIRE];
    got.start_code = from[LANE_AT_SLOT_START_CODE];
    got.abort_wire = from[LANE_AT_SLOT_ABORT_WIRE];
    got.abort_code = from[LANE_AT_SLOT_ABORT_CODE];
    memcpy(got.tag, from + LANE_AT_SLOT_TAG, LANE_TAG_BYTES);
    return got;
}

/* Writes a slot; to slot 0, which is none, nothing. */
static inline void lane_put_slot(uint8_t *image, uint32_t slot, const struct lane_slot *put)
{
    uint8_t *to = image;
    if (slot == 0)
        return;
    to += lane_slot_offset(slot);
    memset(to, 0, LANE_SLOT_BYTES);
    to[LANE_AT_SLOT_KIND] = put->kind;
    to[LANE_AT_SLOT_NEXT] = put->next;
    to[LANE_AT_SLOT_START_WIRE] = put->start_wire;
    to[LANE_AT_SLOT_START_CODE] = put->start_code;
    to[LANE_AT_SLOT_ABORT_WIRE] = put->abort_wire;
    to[LANE_AT_SLOT_ABORT_CODE] = put->abort_code;
    memcpy(to + LANE_AT_SLOT_TAG, put->tag, LANE_TAG_BYTES);
}

static inline struct lane_record lane_get_record(const uint8_t *state, uint32_t position)
{
    const uint8_t *from = state + (size_t)LANE_RECORD_BYTES * (position - 1);
    struct lane_record got;
    got.step = from[LANE_AT_RECORD_STEP];
    got.flags = from[LANE_AT_RECORD_FLAGS];
    got.request = from[LANE_AT_RECORD_REQUEST];
    got.code = lane_get16(from + LANE_AT_RECORD_CODE);
    got.job = lane_get64(from + LANE_AT_RECORD_JOB);
    got.time_limit = lane_get32(from + LANE_AT_RECORD_TIME_LIMIT);
    got.time_out = lane_get32(from + LANE_AT_RECORD_TIME_OUT);
    got.reading = lane_get32(from + LANE_AT_RECORD_READING);
    got.elapsed = lane_get64(from + LANE_AT_RECORD_ELAPSED);
    return got;
}

/* Between scans only lane_fresh and lane_scan write a state; this is for states made elsewhere. */
static inline void lane_put_record(uint8_t *state, uint32_t position, const struct lane_record *put)
{
    uint8_t *to = state + (size_t)LANE_RECORD_BYTES * (position - 1);
    memset(to, 0, LANE_RECORD_BYTES);
    to[LANE_AT_RECORD_STEP] = put->step;
    to[LANE_AT_RECORD_FLAGS] = put->flags;
    to[LANE_AT_RECORD_REQUEST] = put->request;
    lane_put16(to + LANE_AT_RECORD_CODE, put->code);
    lane_put64(to + LANE_AT_RECORD_JOB, put->job);
    lane_put32(to + LANE_AT_RECORD_TIME_LIMIT, put->time_limit);
    lane_put32(to + LANE_AT_RECORD_TIME_OUT, put->time_out);
    lane_put32(to + LANE_AT_RECORD_READING, put->reading);
    lane_put64(to + LANE_AT_RECORD_ELAPSED, put->elapsed);
}

/* Reads all four pieces; those past the count are zero. */
static inline struct lane_entry lane_get_entry(const uint8_t *frame, uint32_t position)
{
    const uint8_t *from = frame + (size_t)LANE_ENTRY_BYTES * (position - 1);
    const uint8_t *piece = from + LANE_AT_ENTRY_PIECES;
    struct lane_entry got;
    got.inputs = from[LANE_AT_ENTRY_INPUTS];
    got.count = from[LANE_AT_ENTRY_COUNT];
    got.abort_reply = from[LANE_AT_ENTRY_ABORT_REPLY];
    got.reset_reply = from[LANE_AT_ENTRY_RESET_REPLY];
    got.abort_code = lane_get16(from + LANE_AT_ENTRY_ABORT_CODE);
    got.job = lane_get64(from + LANE_AT_ENTRY_JOB);
    got.time_limit = lane_get32(from + LANE_AT_ENTRY_TIME_LIMIT);
    got.time_out = lane_get32(from + LANE_AT_ENTRY_TIME_OUT);
    got.clock = lane_get32(from + LANE_AT_ENTRY_CLOCK);
    for (int i = 0; i < LANE_MAX_PIECES; i++, piece += LANE_PIECE_BYTES) {
        got.pieces[i].reply = piece[LANE_AT_PIECE_REPLY];
        got.pieces[i].code = lane_get16(piece + LANE_AT_PIECE_CODE);
        got.pieces[i].clock = lane_get32(piece + LANE_AT_PIECE_CLOCK);
    }
    return got;
}

/* Writes as many pieces as the count says, and zeros after them. */
static inline void lane_put_entry(uint8_t *frame, uint32_t position, const struct lane_entry *put)
{
    uint8_t *to = frame + (size_t)LANE_ENTRY_BYTES * (position - 1);
    uint8_t *piece = to + LANE_AT_ENTRY_PIECES;
    memset(to, 0, LANE_ENTRY_BYTES);
    to[LANE_AT_ENTRY_INPUTS] = put->inputs;
    to[LANE_AT_ENTRY_COUNT] = put->count;
    to[LANE_AT_ENTRY_ABORT_REPLY] = put->abort_reply;
    to[LANE_AT_ENTRY_RESET_REPLY] = put->reset_reply;
    lane_put16(to + LANE_AT_ENTRY_ABORT_CODE, put->abort_code);
    lane_put64(to + LANE_AT_ENTRY_JOB, put->job);
    lane_put32(to + LANE_AT_ENTRY_TIME_LIMIT, put->time_limit);
    lane_put32(to + LANE_AT_ENTRY_TIME_OUT, put->time_out);
    lane_put32(to + LANE_AT_ENTRY_CLOCK, put->clock);
    for (int i = 0; i < LANE_MAX_PIECES && i < put->count; i++, piece += LANE_PIECE_BYTES) {
        piece[LANE_AT_PIECE_REPLY] = put->pieces[i].reply;
        lane_put16(piece + LANE_AT_PIECE_CODE, put->pieces[i].code);
        lane_put32(piece + LANE_AT_PIECE_CLOCK, put->pieces[i].clock);
    }
}

static inline struct lane_report lane_get_report(const uint8_t *report, uint32_t position)
{
    const uint8_t *from = report + (size_t)LANE_REPORT_BYTES * (position - 1);
    struct lane_report got;
    got.flags = from[LANE_AT_REPORT_FLAGS];
    got.pieces = from[LANE_AT_REPORT_PIECES];
    got.passes = from[LANE_AT_REPORT_PASSES];
    got.step = from[LANE_AT_REPORT_STEP];
    got.code = lane_get16(from + LANE_AT_REPORT_CODE);
    got.job = lane_get64(from + LANE_AT_REPORT_JOB);
    return got;
}

static inline void lane_put_report(uint8_t *report, uint32_t position, const struct lane_report *put)
{
    uint8_t *to = report + (size_t)LANE_REPORT_BYTES * (position - 1);
    memset(to, 0, LANE_REPORT_BYTES);
    to[LANE_AT_REPORT_FLAGS] = put->flags;
    to[LANE_AT_REPORT_PIECES] = put->pieces;
    to[LANE_AT_REPORT_PASSES] = put->passes;
    to[LANE_AT_REPORT_STEP] = put->step;
    lane_put16(to + LANE_AT_REPORT_CODE, put->code);
    lane_put64(to + LANE_AT_REPORT_JOB, put->job);
}

/* The number counts the events of a journal from 1, up to what its scan or its check answered. */
static inline struct lane_event lane_get_event(const uint8_t *journal, uint32_t number)
{
    const uint8_t *from = journal + (size_t)LANE_EVENT_BYTES * (number - 1);
    struct lane_event got;
    got.kind = from[LANE_AT_EVENT_KIND];
    got.position = from[LANE_AT_EVENT_POSITION];
    got.code = lane_get16(from + LANE_AT_EVENT_CODE);
    got.job = lane_get64(from + LANE_AT_EVENT_JOB);
    return got;
}

static inline void lane_put_event(uint8_t *journal, uint32_t number, const struct lane_event *put)
{
    uint8_t *to = journal + (size_t)LANE_EVENT_BYTES * (number - 1);
    to[LANE_AT_EVENT_KIND] = put->kind;
    to[LANE_AT_EVENT_POSITION] = put->position;
    lane_put16(to + LANE_AT_EVENT_CODE, put->code);
    lane_put64(to + LANE_AT_EVENT_JOB, put->job);
}

#ifdef __cplusplus
}
#endif

#endif
