/* A host box of a small gate: five lanes, eight scans and one that is turned back. It prints its story first. Every
 * scan runs over the table as it was edited and over the same table tidied: both give the same. At the end the
 * journal of all scans is checked as one from another maker's box would be.
 *
 * Build at the root of the repository, after `.ci/archive`:
 *     gcc -std=c99 -Wall -Wextra -Iinclude examples/gate_host.c target/staticlib/liblane.a -o target/gate_host
 *
 * Given a file's name, it also leaves the table and the journal there, as the program `totals` reads them:
 *     target/gate_host target/shift && crates/totals/out/totals <target/shift
 */

#include "lane.h"

#if LANE_ABI != 2
#error "this host is written for LANE_ABI 2"
#endif

#include <stdio.h>
#include <stdlib.h>
#include <string.h>

enum { LANES = 5, SLOTS = 6, SCANS = 8 };

/* Short names for the story below. */
enum {
    START = LANE_INPUT_START,
    ABORT = LANE_INPUT_ABORT,
    WORKING = LANE_REPLY_WORKING,
    COMPLETE = LANE_REPLY_COMPLETE
};

/* Microseconds. */
#define FIRST_CLOCK 4294917296u
#define PERIOD 20000u
#define PIECE 5000u

/* Two trucks that LANE0 serves one after the other: appointment numbers that agree in their low four bytes. */
#define TRUCK 7001u
#define NEXT_TRUCK ((UINT64_C(1) << 40) + TRUCK)

static const char *const step_names[] = {
    [LANE_STEP_DORMANT] = "Dormant",     [LANE_STEP_EXECUTING] = "Executing",
    [LANE_STEP_DONE] = "Done",           [LANE_STEP_ERROR] = "Error",
    [LANE_STEP_ABORTING] = "Aborting",   [LANE_STEP_ABORTED] = "Aborted",
    [LANE_STEP_RESETTING] = "Resetting",
};
static const char *const reply_names[] = {
    [LANE_REPLY_WORKING] = "working",
    [LANE_REPLY_COMPLETE] = "complete",
    [LANE_REPLY_ERROR] = "error",
};
static const char *const event_names[] = {
    [LANE_EVENT_START] = "start",         [LANE_EVENT_DONE] = "done",
    [LANE_EVENT_FAILED] = "failed",       [LANE_EVENT_ABORTED] = "aborted",
    [LANE_EVENT_WITHDRAWN] = "withdrawn",
};

/* One block of the table. */
struct block {
    uint8_t slot;
    uint8_t kind;
    uint8_t next;
    uint8_t start_slot; /* 0: Execute or Enable comes from the frame */
    uint8_t start_code;
    const char *name;
};

/* In chain order; slot 3 is spare. */
static const struct block blocks[LANES] = {
    {2, LANE_KIND_ETRIG, 5, 0, 0, "LANE0"},
    {5, LANE_KIND_ETRIG_TO, 1, 2, LANE_WIRE_DONE, "LANEO"},
    {1, LANE_KIND_ETRIG_A_TO, 6, 0, 0, "LANE1"},
    {6, LANE_KIND_ETRIG_A, 4, 0, 0, "LANEI"},
    {4, LANE_KIND_LCON, 0, 6, LANE_WIRE_BUSY, "OUT_1"},
};

/* What one lane is given in one scan. */
struct entry {
    uint8_t inputs;
    uint8_t pieces; /* 0 or 1 */
    uint8_t reply;
    uint8_t abort_reply;
    uint8_t reset_reply;
    uint64_t truck;
    uint32_t time_out;
    int aborts; /* whether the reply is one to an abort */
};

/* An entry with one piece, and one in which nothing replied; the reset is complete at once. */
#define REPLIES(inputs, reply, truck, time_out) {inputs, 1, reply, WORKING, COMPLETE, truck, time_out, 0}
#define SILENT(inputs, truck, time_out) {inputs, 0, WORKING, WORKING, COMPLETE, truck, time_out, 0}
#define ABORTS(inputs, abort_reply, truck) {inputs, 0, WORKING, abort_reply, COMPLETE, truck, 0, 1}

static const struct entry story[SCANS][LANES] = {
    /*   LANE0                            LANEO                              LANE1
         LANEI                            OUT_1                                                    */
    {REPLIES(START, WORKING, TRUCK, 0), SILENT(0, TRUCK, 30000), SILENT(START, 7101, 90000),
     REPLIES(START, WORKING, 7201, 0), REPLIES(0, WORKING, 7201, 0)},
    /* Execute of LANE0 drops. */
    {REPLIES(0, WORKING, 0, 0), SILENT(0, TRUCK, 30000), SILENT(START, 7101, 90000),
     REPLIES(START, WORKING, 7201, 0), REPLIES(0, WORKING, 7201, 0)},
    {REPLIES(0, COMPLETE, 0, 0), REPLIES(0, WORKING, TRUCK, 30000), SILENT(START, 7101, 90000),
     REPLIES(START, WORKING, 7201, 0), REPLIES(0, WORKING, 7201, 0)},
    /* LANEI is aborted, but its devices need until the next scan. */
    {REPLIES(START, WORKING, NEXT_TRUCK, 0), REPLIES(0, WORKING, TRUCK, 30000),
     REPLIES(START, COMPLETE, 7101, 90000), ABORTS(START | ABORT, WORKING, 7201),
     REPLIES(0, WORKING, 7201, 0)},
    {REPLIES(START, WORKING, NEXT_TRUCK, 0), REPLIES(0, COMPLETE, TRUCK, 30000), SILENT(START, 7101, 90000),
     ABORTS(START | ABORT, COMPLETE, 7201), ABORTS(0, COMPLETE, 7201)},
    {REPLIES(START, COMPLETE, NEXT_TRUCK, 0), SILENT(0, NEXT_TRUCK, 30000), SILENT(0, 0, 90000),
     SILENT(START, 7201, 0), SILENT(0, 0, 0)},
    {SILENT(0, 0, 0), REPLIES(0, COMPLETE, NEXT_TRUCK, 30000), SILENT(0, 0, 90000), SILENT(0, 0, 0),
     SILENT(0, 0, 0)},
    {SILENT(0, 0, 0), SILENT(0, 0, 30000), SILENT(0, 0, 90000), SILENT(0, 0, 0), SILENT(0, 0, 0)},
};

/* All buffers of the box. */
struct box {
    uint8_t image[LANE_HEADER_BYTES + LANE_SLOT_BYTES * SLOTS];
    uint8_t tidy[LANE_HEADER_BYTES + LANE_SLOT_BYTES * LANES]; /* the same table, tidied */
    uint8_t state[LANE_RECORD_BYTES * LANES];
    uint8_t before[LANE_RECORD_BYTES * LANES]; /* the state before the scan, for the print */
    uint8_t frame[LANE_ENTRY_BYTES * LANES];
    uint8_t report[LANE_REPORT_BYTES * LANES];
    uint8_t journal[2 * LANE_EVENT_BYTES * LANES];
};

/* An event and the scan that wrote it. */
struct logged {
    int scan;
    struct lane_event event;
};

/* Says which check refused a call, where, and why. */
static void print_refusal(FILE *to, const char *call, uint64_t answer)
{
    enum lane_place kind = lane_refusal_place_kind(answer);
    fprintf(to, "%s: refused %u", call, (unsigned)lane_refusal_number(answer));
    if (kind != LANE_PLACE_NONE)
        fprintf(to, " at %s %u", lane_place_text(kind), (unsigned)lane_refusal_place(answer));
    fprintf(to, ": %s\n", lane_refusal_text(answer));
}

/* The value of an answer; ends the program if the call was refused. */
static uint32_t accepted(const char *call, uint64_t answer)
{
    if (!lane_is_accepted(answer)) {
        print_refusal(stderr, call, answer);
        exit(EXIT_FAILURE);
    }
    return lane_value(answer);
}

/* Ends the program unless something holds. */
static void expect(int holds, const char *what)
{
    if (!holds) {
        fprintf(stderr, "not as expected: %s\n", what);
        exit(EXIT_FAILURE);
    }
}

static void write_table(uint8_t *image)
{
    lane_put_header(image, SLOTS, blocks[0].slot);
    for (int i = 0; i < LANES; i++) {
        const struct block *block = &blocks[i];
        struct lane_slot slot = {.kind = block->kind, .next = block->next};
        slot.start_wire = block->start_slot;
        slot.start_code = block->start_code;
        expect(lane_put_tag(slot.tag, block->name), "a name of at most eight characters");
        lane_put_slot(image, block->slot, &slot);
    }
}

static void write_entry(uint8_t *frame, uint32_t position, const struct entry *entry, uint32_t clock)
{
    struct lane_entry to = {
        .inputs = entry->inputs,
        .count = entry->pieces,
        .abort_reply = entry->abort_reply,
        .reset_reply = entry->reset_reply,
        .job = entry->truck,
        .time_out = entry->time_out,
        .clock = clock,
        .pieces = {{.reply = entry->reply, .clock = clock + PIECE}},
    };
    lane_put_entry(frame, position, &to);
}

static void print_story(void)
{
    printf("What happens. The job of a block is the appointment number of a truck.\n"
           "LANE0  Execute drops while truck %u is read; the job goes on. The number of the\n"
           "       next truck, %llu, has the same low four bytes: two trucks.\n"
           "LANEO  starts when LANE0 is done (a wire); its reply comes after the time-out.\n"
           "LANE1  nothing replies for three scans, then a reply within the time-out.\n"
           "LANEI  is aborted, and its devices need until the next scan for that.\n"
           "OUT_1  is enabled while LANEI is busy (a wire): the abort withdraws its job.\n\n",
           TRUCK, (unsigned long long)NEXT_TRUCK);
}

static void print_legend(void)
{
    printf("\nS, A: the start and the abort input as the call read it, from the frame or\n"
           "  from a wire; - the block has no abort input.\n"
           "reply: what its devices answered; aborting and aborted: to an abort or,\n"
           "  for OUT_1, to the withdrawal of its job; - nothing.\n"
           "BDEA: the flags busy, done, error, aborted.\n"
           "pass: passes of the call, the stopping one included; used: replies taken.\n"
           "elapsed/time-out: microseconds counted from the job's start to its last reading\n"
           "  (an ended or aborting job reads none), and those allowed, if any.\n"
           "code: why a job failed; %d is elapsed past the time-out, even if complete.\n"
           "clock: in microseconds; it wraps from 4294967295 to 0 before scan 4.\n\n"
           "lane   S A  reply     step       BDEA  pass  used  elapsed/time-out  code         truck\n",
           LANE_CODE_TIME_OUT);
}

/* The position of the block in a slot, 0 if the slot is not on the chain. */
static uint32_t position_of(const uint8_t *image, uint32_t slot)
{
    for (uint32_t position = 1; slot != 0 && position <= LANE_MAX_BLOCKS; position++)
        if (lane_slot_at(image, position) == slot)
            return position;
    return 0;
}

/* An input as the call of a block read it: the frame's bit, or the flag that its wire reads. That is a flag of
 * this scan if the block is an earlier one, else of the scan before. */
static int input_read(const struct box *box, uint32_t position, int bit, uint8_t wire, uint8_t code)
{
    if (wire == 0)
        return (lane_get_entry(box->frame, position).inputs & bit) != 0;
    uint32_t from = position_of(box->image, wire);
    expect(from != 0, "an accepted table has wires from its chain only");
    uint8_t flags = from < position ? lane_get_report(box->report, from).flags
                                    : lane_get_record(box->before, from).flags;
    int flag = (flags >> (code % LANE_WIRE_INVERTED)) & 1;
    return code < LANE_WIRE_INVERTED ? flag : !flag;
}

static int has_abort(uint8_t kind) { return LANE_KIND_ETRIG_A <= kind && kind <= LANE_KIND_ETRIG_A_TI_TO; }

/* The inputs of a block's call and the reply that it was given. */
static void print_causes(const struct box *box, uint32_t position, const struct entry *entry)
{
    struct lane_slot slot = lane_get_slot(box->image, lane_slot_at(box->image, position));
    int start = input_read(box, position, LANE_INPUT_START, slot.start_wire, slot.start_code);
    int abort = input_read(box, position, LANE_INPUT_ABORT, slot.abort_wire, slot.abort_code);
    const char *reply = entry->pieces != 0 ? reply_names[entry->reply] : "-";
    if (entry->aborts)
        reply = entry->abort_reply == COMPLETE ? "aborted" : "aborting";
    char name[LANE_TAG_BYTES + 1];
    lane_get_tag(name, slot.tag);
    printf("%-5s  %d %c  %-8s  ", name, start, has_abort(slot.kind) ? '0' + abort : '-', reply);
}

/* What the call of a block left. */
static void print_effects(const struct box *box, uint32_t position)
{
    struct lane_report lane = lane_get_report(box->report, position);
    struct lane_record record = lane_get_record(box->state, position);
    char time[32] = "-";
    if (record.time_out != 0)
        snprintf(time, sizeof time, "%llu/%lu", (unsigned long long)record.elapsed,
                 (unsigned long)record.time_out);
    else if (record.step != LANE_STEP_DORMANT)
        snprintf(time, sizeof time, "%llu/-", (unsigned long long)record.elapsed);
    printf("%-9s  %c%c%c%c  %4u  %4u  %16s  %4u %13llu\n", step_names[lane.step],
           lane.flags & LANE_FLAG_BUSY ? 'B' : '.', lane.flags & LANE_FLAG_DONE ? 'D' : '.',
           lane.flags & LANE_FLAG_ERROR ? 'E' : '.', lane.flags & LANE_FLAG_ABORTED ? 'A' : '.',
           (unsigned)lane.passes, (unsigned)lane.pieces, time, (unsigned)lane.code,
           (unsigned long long)lane.job);
}

static void print_journal(const struct logged *log, uint32_t events)
{
    printf("\nJournal\nscan  lane     event       code         truck\n");
    for (uint32_t i = 0; i < events; i++) {
        const struct lane_event *event = &log[i].event;
        printf("%4d  %-8s %-9s %6u %13llu\n", log[i].scan, blocks[event->position - 1].name,
               event_names[event->kind], (unsigned)event->code, (unsigned long long)event->job);
    }
}

/* Runs a scan over the box's buffers and a table. */
static uint64_t run_scan_over(struct box *box, const uint8_t *image, size_t image_len)
{
    return lane_scan(image, image_len, box->state, sizeof box->state, box->frame, sizeof box->frame,
                     box->report, sizeof box->report, box->journal, sizeof box->journal);
}

/* Runs a scan over the box's table; over the tidy one it gives the same. */
static uint64_t run_scan(struct box *box)
{
    struct box other = *box;
    uint64_t answer = run_scan_over(box, box->image, sizeof box->image);
    expect(run_scan_over(&other, other.tidy, sizeof other.tidy) == answer, "the answer over the tidy table");
    expect(memcmp(&other, box, sizeof other) == 0, "the buffers over the tidy table");
    return answer;
}

/* Finds the block with a name. */
static uint64_t find(const struct box *box, const char *name)
{
    uint8_t tag[LANE_TAG_BYTES];
    lane_put_tag(tag, name);
    return lane_find(box->image, sizeof box->image, tag, sizeof tag);
}

/* A name that no block has is refused, and so is one that is no tag. */
static void find_none(const struct box *box, const char *name, uint32_t number)
{
    uint64_t answer = find(box, name);
    expect(lane_refusal_number(answer) == number, "the refusal of a name that is not found");
    print_refusal(stdout, name, answer);
}

/* Every lane is found at its place in the chain, however much its tag looks like another. */
static void find_lanes(const struct box *box)
{
    for (uint32_t i = 0; i < LANES; i++) {
        uint64_t answer = find(box, blocks[i].name);
        printf("%-8s is at position %u\n", blocks[i].name, (unsigned)accepted("lane_find", answer));
        expect(lane_value(answer) == i + 1, "position of a tag");
        expect(lane_slot_at(box->image, i + 1) == blocks[i].slot, "slot of a position");
    }
    find_none(box, "LANE2", LANE_REFUSED_LOOKUP_ABSENT);
    find_none(box, "LANE_1", LANE_REFUSED_LOOKUP_ABSENT);
    find_none(box, "_LANE1", LANE_REFUSED_LOOKUP_FORM);
}

/* A lane's slot in a table, and the slot that its start wire names. */
static void print_slot(const uint8_t *image, uint32_t position)
{
    uint32_t slot = lane_slot_at(image, position);
    uint8_t wire = lane_get_slot(image, slot).start_wire;
    printf("  %4u ", (unsigned)slot);
    if (wire != 0)
        printf("%4u", (unsigned)wire);
    else
        printf("   -");
}

/* Tidies the table: the lanes stand in slots 1 to 5 in chain order, and their wires name those. */
static void tidy_table(struct box *box)
{
    uint64_t answer = lane_tidy(box->image, sizeof box->image, box->tidy, sizeof box->tidy - 1);
    expect(lane_refusal_number(answer) == LANE_REFUSED_TIDY_LENGTH, "a table one byte short");
    answer = lane_tidy(box->image, sizeof box->image, box->tidy, sizeof box->tidy);
    expect(lane_tidy_bytes(accepted("lane_tidy", answer)) == sizeof box->tidy, "the length of a tidy table");
    printf("\nThe table has %d slots for %d lanes, and its chain jumps about; tidied it has %d slots.\n"
           "Every scan below runs over both, and gives the same.\n"
           "          as given     tidied\n"
           "lane     slot wire  slot wire\n",
           SLOTS, LANES, LANES);
    for (uint32_t position = 1; position <= LANES; position++) {
        printf("%-5s  ", blocks[position - 1].name);
        print_slot(box->image, position);
        print_slot(box->tidy, position);
        printf("\n");
    }
}

/* A frame with one entry out of form is turned back, and nothing is written. */
static void run_bad_scan(struct box *box)
{
    struct box before;
    struct lane_entry lane1 = lane_get_entry(box->frame, 3);
    lane1.reset_reply = LANE_REPLY_ERROR; /* a reset never replies with an error */
    lane_put_entry(box->frame, 3, &lane1);
    before = *box;
    uint64_t answer = run_scan(box);
    expect(lane_refusal_number(answer) == LANE_REFUSED_FRAME_FORM &&
               lane_refusal_place_kind(answer) == LANE_PLACE_POSITION && lane_refusal_place(answer) == 3,
           "the entry at position 3 is refused");
    expect(memcmp(&before, box, sizeof before) == 0, "a refused scan writes nothing");
    printf("\nA ninth scan, with a wrong reply for the reset of LANE1, writes nothing:\n");
    print_refusal(stdout, "scan", answer);
}

/* Runs one scan of the story and prints it: the events that it wrote, added to the log. */
static uint32_t run_story(struct box *box, int scan, struct logged *log)
{
    uint32_t clock = FIRST_CLOCK + PERIOD * (uint32_t)(scan - 1);
    for (uint32_t i = 0; i < LANES; i++)
        write_entry(box->frame, i + 1, &story[scan - 1][i], clock);
    memcpy(box->before, box->state, sizeof box->state);
    uint32_t events = accepted("lane_scan", run_scan(box));
    printf("scan %d, clock %lu\n", scan, (unsigned long)clock);
    for (uint32_t i = 0; i < LANES; i++) {
        print_causes(box, i + 1, &story[scan - 1][i]);
        print_effects(box, i + 1);
    }
    for (uint32_t i = 0; i < events; i++) {
        log[i].scan = scan;
        log[i].event = lane_get_event(box->journal, i + 1);
    }
    return events;
}

/* Checks a journal against the table; against the tidy one the answer is the same. */
static uint64_t check_journal(const struct box *box, const uint8_t *journal, size_t journal_len)
{
    uint64_t answer = lane_check_journal(box->image, sizeof box->image, journal, journal_len);
    expect(lane_check_journal(box->tidy, sizeof box->tidy, journal, journal_len) == answer,
           "the answer about a journal over the tidy table");
    return answer;
}

/* The number of the first event that ends a job of a truck, that of the last event if none does. */
static uint32_t finish_of(const uint8_t *journal, uint32_t events, uint64_t truck)
{
    for (uint32_t number = 1; number < events; number++) {
        struct lane_event event = lane_get_event(journal, number);
        if (event.kind != LANE_EVENT_START && event.job == truck)
            return number;
    }
    return events;
}

/* A job that ends with another truck is refused, though the two numbers have the same low four bytes. */
static void check_wrong_truck(const struct box *box, uint8_t *journal, uint32_t events)
{
    uint32_t number = finish_of(journal, events, NEXT_TRUCK);
    const struct lane_event event = lane_get_event(journal, number);
    struct lane_event wrong = event;
    wrong.job = TRUCK;
    lane_put_event(journal, number, &wrong);
    uint64_t answer = check_journal(box, journal, lane_journal_bytes(events));
    lane_put_event(journal, number, &event);
    expect(lane_refusal_number(answer) == LANE_REFUSED_EVENT &&
               lane_refusal_place_kind(answer) == LANE_PLACE_EVENT && lane_refusal_place(answer) == number,
           "the event with the wrong truck is refused");
    printf("With truck %u at the end of a job of %llu, which has the same low four bytes:\n", TRUCK,
           (unsigned long long)NEXT_TRUCK);
    print_refusal(stdout, "journal", answer);
}

/* The journal of all scans, as bytes, is accepted; cut short by a byte it is not. */
static void check_journals(const struct box *box, uint8_t *journal, uint32_t events)
{
    uint64_t answer = check_journal(box, journal, lane_journal_bytes(events));
    expect(accepted("lane_check_journal", answer) == events, "the number of all events");
    printf("\nThe journal, handed over as bytes and checked against the table: %u events.\n", (unsigned)events);

    answer = check_journal(box, journal, lane_journal_bytes(events) - 1);
    expect(lane_refusal_number(answer) == LANE_REFUSED_EVENTS_LENGTH, "a journal one byte short");
    printf("Without its last byte:\n");
    print_refusal(stdout, "journal", answer);
    check_wrong_truck(box, journal, events);
}

/* Leaves the table and then the journal in a file, for `totals`. */
static void hand_over(const char *name, const struct box *box, const uint8_t *journal, size_t journal_len)
{
    FILE *file = fopen(name, "wb");
    int whole = file != NULL && fwrite(box->image, sizeof box->image, 1, file) == 1 &&
                fwrite(journal, 1, journal_len, file) == journal_len;
    if (file == NULL || fclose(file) != 0 || !whole) {
        fprintf(stderr, "%s: the table and the journal could not be written\n", name);
        exit(EXIT_FAILURE);
    }
}

int main(int argc, char **argv)
{
    static struct box box;
    static struct logged log[2 * LANES * SCANS];
    static uint8_t journal[2 * LANE_EVENT_BYTES * LANES * SCANS]; /* of all scans, as bytes */
    uint32_t events = 0;

    print_story();
    write_table(box.image);
    expect(accepted("lane_check", lane_check(box.image, sizeof box.image)) == LANES, "five blocks");
    expect(lane_refusal_number(lane_check(NULL, 0)) == LANE_REFUSED_HEADER_LENGTH, "an empty table");
    find_lanes(&box);
    tidy_table(&box);
    accepted("lane_fresh", lane_fresh(box.image, sizeof box.image, box.state, sizeof box.state));

    print_legend();
    for (int scan = 1; scan <= SCANS; scan++)
        events += run_story(&box, scan, log + events);
    print_journal(log, events);
    run_bad_scan(&box);
    for (uint32_t i = 0; i < events; i++)
        lane_put_event(journal, i + 1, &log[i].event);
    check_journals(&box, journal, events);
    if (argc > 1)
        hand_over(argv[1], &box, journal, lane_journal_bytes(events));
    return EXIT_SUCCESS;
}
