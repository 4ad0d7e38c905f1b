/* Calls of one kind, for callgrind to count the instructions of: `host/bench/count.sh` builds this and runs it.
 *
 *     calls LOAD BLOCKS CALLS
 *
 * makes one call of the load over so many blocks, which also brings the blocks to where the load has them, and then
 * so many more. What CALLS more calls take is so the difference of two runs. A call that is refused, that leaves a
 * block elsewhere than the load says, or that tidies the table to another, ends the program with status 1.
 *
 * The table is the one of `cargo run --release -p bench` without wires: kinds 1 to 12 in turn, tags LANE1 and on,
 * slots in the order of the chain. `mixed` alone has all 14 kinds in turn, from 8 on. */

#include "lane.h"

#include <stdio.h>
#include <stdlib.h>
#include <string.h>

/* The events of the journal that is checked. */
enum { EVENTS = 1000 };

static uint8_t image[LANE_HEADER_BYTES + LANE_SLOT_BYTES * LANE_MAX_BLOCKS];
static uint8_t state[LANE_RECORD_BYTES * LANE_MAX_BLOCKS];
static uint8_t frame[LANE_ENTRY_BYTES * LANE_MAX_BLOCKS];
static uint8_t report[LANE_REPORT_BYTES * LANE_MAX_BLOCKS];
static uint8_t journal[2 * LANE_EVENT_BYTES * LANE_MAX_BLOCKS];
static uint8_t events[LANE_EVENT_BYTES * EVENTS];
static uint8_t last_tag[LANE_TAG_BYTES];
static uint8_t anew[LANE_HEADER_BYTES + LANE_SLOT_BYTES * LANE_MAX_BLOCKS];
static uint32_t blocks;

static void fail(const char *why)
{
    fprintf(stderr, "calls: %s\n", why);
    exit(1);
}

static void accept(uint64_t answer)
{
    if (!lane_is_accepted(answer))
        fail(lane_refusal_text(answer));
}

/* The table, with the kinds 1 to `kinds` in turn from `first` on. */
static void make_table(uint32_t first, uint32_t kinds)
{
    lane_put_header(image, (uint8_t)blocks, 1);
    for (uint32_t slot = 1; slot <= blocks; slot++) {
        struct lane_slot put = {0};
        char name[16];
        put.kind = (uint8_t)((first - 1 + slot - 1) % kinds + 1);
        put.next = (uint8_t)(slot == blocks ? 0 : slot + 1);
        snprintf(name, sizeof name, "LANE%u", (unsigned)slot);
        lane_put_tag(put.tag, name);
        lane_put_slot(image, slot, &put);
        memcpy(last_tag, put.tag, sizeof last_tag);
    }
    accept(lane_fresh(image, lane_tidy_bytes(blocks), state, LANE_RECORD_BYTES * blocks));
}

/* The frame that gives every block the same entry. */
static void make_frame(const struct lane_entry *entry)
{
    for (uint32_t position = 1; position <= blocks; position++)
        lane_put_entry(frame, position, entry);
}

/* Start is false; a reset completes. */
static void idle_frame(void)
{
    struct lane_entry entry = {0};
    entry.reset_reply = LANE_REPLY_COMPLETE;
    make_frame(&entry);
}

/* Start is true, with one piece of this reply. */
static void start_frame(uint8_t reply)
{
    struct lane_entry entry = {0};
    entry.inputs = LANE_INPUT_START;
    entry.count = 1;
    entry.reset_reply = LANE_REPLY_COMPLETE;
    entry.job = (UINT64_C(1) << 40) + 7;
    entry.time_limit = 50;
    entry.time_out = 1000;
    entry.clock = 100;
    entry.pieces[0].reply = reply;
    entry.pieces[0].clock = 100;
    make_frame(&entry);
}

/* The next number of a fixed row, below the bound. */
static uint32_t below(uint32_t bound)
{
    static uint64_t row = 1;
    row = row * UINT64_C(6364136223846793005) + UINT64_C(1442695040888963407);
    return (uint32_t)(row >> 33) % bound;
}

/* Working, complete or error: the first three times of six, the last once. */
static uint8_t any_reply(void)
{
    static const uint8_t replies[6] = {LANE_REPLY_WORKING,  LANE_REPLY_WORKING,  LANE_REPLY_WORKING,
                                       LANE_REPLY_COMPLETE, LANE_REPLY_COMPLETE, LANE_REPLY_ERROR};
    return replies[below(6)];
}

/* Any entries in form, a millisecond after those of the call before: start three times of four, abort once of
 * four, up to four pieces, limits that some jobs pass. */
static void mixed_frame(uint32_t call)
{
    for (uint32_t position = 1; position <= blocks; position++) {
        struct lane_entry entry = {0};
        entry.inputs = (uint8_t)((below(4) != 0 ? LANE_INPUT_START : 0) | (below(4) == 0 ? LANE_INPUT_ABORT : 0));
        entry.count = (uint8_t)below(LANE_MAX_PIECES + 1);
        entry.abort_reply = any_reply();
        entry.abort_code = (uint16_t)(entry.abort_reply == LANE_REPLY_ERROR ? 2 + below(1000) : 0);
        entry.reset_reply = below(3) == 0 ? LANE_REPLY_WORKING : LANE_REPLY_COMPLETE;
        entry.job = (UINT64_C(1) << 40) + below(1000);
        entry.time_limit = 100 * below(4);
        entry.time_out = 1500 * below(3);
        entry.clock = 1000 * call + below(100);
        for (uint32_t i = 0; i < entry.count; i++) {
            entry.pieces[i].reply = any_reply();
            entry.pieces[i].code = (uint16_t)(entry.pieces[i].reply == LANE_REPLY_ERROR ? 2 + below(1000) : 0);
            entry.pieces[i].clock = entry.clock + 100 * (i + 1);
        }
        lane_put_entry(frame, position, &entry);
    }
}

/* All blocks start in turn, then all finish in turn, and so on. Every third job fails. */
static void make_events(void)
{
    for (uint32_t i = 0; i < EVENTS; i++) {
        struct lane_event event = {0};
        uint32_t job = i / (2 * blocks) * blocks + i % blocks;
        event.kind = i / blocks % 2 == 0 ? LANE_EVENT_START : job % 3 == 0 ? LANE_EVENT_FAILED : LANE_EVENT_DONE;
        event.position = (uint8_t)(i % blocks + 1);
        event.code = event.kind == LANE_EVENT_FAILED ? 2 : 0;
        event.job = (UINT64_C(1) << 40) + job;
        lane_put_event(events, i + 1, &event);
    }
}

static uint64_t scan(void)
{
    return lane_scan(image, lane_tidy_bytes(blocks), state, LANE_RECORD_BYTES * blocks, frame,
                     LANE_ENTRY_BYTES * blocks, report, LANE_REPORT_BYTES * blocks, journal,
                     lane_journal_bytes(2 * blocks));
}

/* A scan that leaves every block in this step. */
static void scan_to(uint8_t step)
{
    accept(scan());
    for (uint32_t position = 1; position <= blocks; position++)
        if (lane_get_record(state, position).step != step)
            fail("a block is not where the load has it");
}

/* One call of the load; the first has number 0. */
static void call(const char *load, uint32_t number)
{
    size_t bytes = lane_tidy_bytes(blocks);
    if (strcmp(load, "check") == 0) {
        accept(lane_check(image, bytes));
    } else if (strcmp(load, "find") == 0) {
        accept(lane_find(image, bytes, last_tag, sizeof last_tag));
    } else if (strcmp(load, "tidy") == 0) {
        accept(lane_tidy(image, bytes, anew, bytes));
        if (memcmp(anew, image, bytes) != 0)
            fail("a table that was tidy became another");
    } else if (strcmp(load, "journal") == 0) {
        accept(lane_check_journal(image, bytes, events, sizeof events));
    } else if (strcmp(load, "idle") == 0) {
        idle_frame();
        scan_to(LANE_STEP_DORMANT);
    } else if (strcmp(load, "working") == 0) {
        start_frame(LANE_REPLY_WORKING);
        scan_to(LANE_STEP_EXECUTING);
    } else if (strcmp(load, "turning") == 0 && number % 2 == 0) {
        start_frame(LANE_REPLY_COMPLETE);
        scan_to(LANE_STEP_DONE);
    } else if (strcmp(load, "turning") == 0) {
        idle_frame();
        scan_to(LANE_STEP_DORMANT);
    } else if (strcmp(load, "mixed") == 0) {
        mixed_frame(number);
        accept(scan());
    } else {
        fail("no load has this name");
    }
}

int main(int argc, char **argv)
{
    if (argc != 4)
        fail("calls LOAD BLOCKS CALLS");
    long given = strtol(argv[2], NULL, 10), calls = strtol(argv[3], NULL, 10);
    if (given < 1 || given > LANE_MAX_BLOCKS || calls < 0 || calls > 1000000)
        fail("1 to 64 blocks, and 0 to 1000000 calls");
    blocks = (uint32_t)given;
    if (strcmp(argv[1], "mixed") == 0)
        make_table(LANE_KIND_ETRIG_A_TI_TO, LANE_KIND_LCON_TI_C);
    else
        make_table(LANE_KIND_ETRIG, LANE_KIND_LCON_TI_TO);
    make_events();
    for (uint32_t number = 0; number <= (uint32_t)calls; number++)
        call(argv[1], number);
    return 0;
}
