/* Measures the stack that the calls of the engine take: fills a stack with one byte value, runs a call on it and
 * looks how deep it was changed. Prints the deepest of all calls over 64 blocks that start, work and finish, and of
 * the check of the journal that all scans wrote. */

#define _GNU_SOURCE
#include "lane.h"

#include <stdio.h>
#include <stdlib.h>
#include <ucontext.h>

enum { BLOCKS = LANE_MAX_BLOCKS, SCANS = 500, FILL = 0xa5 };

static uint8_t image[LANE_HEADER_BYTES + LANE_SLOT_BYTES * BLOCKS], out[sizeof image];
static uint8_t state[LANE_RECORD_BYTES * BLOCKS], frame[LANE_ENTRY_BYTES * BLOCKS];
static uint8_t report[LANE_REPORT_BYTES * BLOCKS], journal[2 * LANE_EVENT_BYTES * BLOCKS];
static uint8_t joined[SCANS * sizeof journal]; /* the journals of all scans */
static uint32_t events;                        /* how many they are */

static uint8_t stack[1 << 16];
static uint8_t *top; /* the frame of the function that makes the call */
static uint64_t answer;
static ucontext_t outside, inside;

static void check(void)
{
    top = __builtin_frame_address(0);
    answer = lane_check(image, sizeof image);
}

static void find(void)
{
    top = __builtin_frame_address(0);
    answer = lane_find(image, sizeof image, image + lane_slot_offset(BLOCKS) + LANE_AT_SLOT_TAG, LANE_TAG_BYTES);
}

static void tidy(void)
{
    top = __builtin_frame_address(0);
    answer = lane_tidy(image, sizeof image, out, sizeof out);
}

static void fresh(void)
{
    top = __builtin_frame_address(0);
    answer = lane_fresh(image, sizeof image, state, sizeof state);
}

static void scan(void)
{
    top = __builtin_frame_address(0);
    answer = lane_scan(image, sizeof image, state, sizeof state, frame, sizeof frame, report, sizeof report,
                       journal, sizeof journal);
}

static void check_journal(void)
{
    top = __builtin_frame_address(0);
    answer = lane_check_journal(image, sizeof image, joined, lane_journal_bytes(events));
}

/* How deep a call goes below its caller's frame, or the depth before if that is more. */
static size_t deeper(void (*call)(void), size_t depth)
{
    size_t untouched = 0;
    memset(stack, FILL, sizeof stack);
    getcontext(&inside);
    inside.uc_stack.ss_sp = stack;
    inside.uc_stack.ss_size = sizeof stack;
    inside.uc_link = &outside;
    makecontext(&inside, call, 0);
    swapcontext(&outside, &inside);
    if (!lane_is_accepted(answer))
        exit(EXIT_FAILURE);
    while (stack[untouched] == FILL)
        untouched++;
    size_t found = (size_t)(top - (stack + untouched));
    return found > depth ? found : depth;
}

/* Blocks of all kinds in turn, every third with a wire. */
static void write_table(void)
{
    lane_put_header(image, BLOCKS, 1);
    for (uint32_t i = 1; i <= BLOCKS; i++) {
        struct lane_slot slot = {.kind = (uint8_t)(1 + i % LANE_KIND_LCON_TI_C)};
        char tag[LANE_TAG_BYTES + 1];
        snprintf(tag, sizeof tag, "LANE%-4u", (unsigned)i % 100);
        memcpy(slot.tag, tag, LANE_TAG_BYTES);
        slot.next = (uint8_t)(i < BLOCKS ? i + 1 : 0);
        slot.start_wire = (uint8_t)(i % 3 == 0 ? i - 1 : 0);
        lane_put_slot(image, i, &slot);
    }
}

static uint32_t any(uint32_t bound) { return (uint32_t)rand() % bound; }

static void write_frame(uint32_t clock)
{
    for (uint32_t i = 1; i <= BLOCKS; i++) {
        struct lane_entry entry = {.inputs = (uint8_t)any(4), .count = (uint8_t)any(5)};
        entry.abort_reply = (uint8_t)any(2);
        entry.reset_reply = (uint8_t)any(2);
        entry.time_limit = any(50);
        entry.time_out = any(100);
        entry.clock = clock;
        for (uint32_t piece = 0; piece < entry.count; piece++) {
            entry.pieces[piece].reply = (uint8_t)any(3);
            entry.pieces[piece].code = entry.pieces[piece].reply == LANE_REPLY_ERROR ? 2 : 0;
            entry.pieces[piece].clock = clock + piece;
        }
        lane_put_entry(frame, i, &entry);
    }
}

int main(void)
{
    write_table();
    size_t depth = deeper(tidy, deeper(find, deeper(check, deeper(fresh, 0))));
    for (uint32_t i = 0; i < SCANS; i++) {
        write_frame(10 * i);
        depth = deeper(scan, depth);
        memcpy(joined + lane_journal_bytes(events), journal, lane_journal_bytes(lane_value(answer)));
        events += lane_value(answer);
    }
    depth = deeper(check_journal, depth);
    printf("%lu\n", (unsigned long)depth);
    return EXIT_SUCCESS;
}
