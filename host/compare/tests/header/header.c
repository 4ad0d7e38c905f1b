/* Shows what include/lane.h says, for the test beside it, which compares it with the binding. First every
 * constant, by names.inc; then, for each line of input, what the header's functions make of it:
 *   answer NUMBER PLACE                          the functions that take an answer apart
 *   chain HEX                                    the slots at positions 0 to 65 of an image
 *   tag NAME                                     whether the name fits, and its tag
 *   tidy BLOCKS                                  the length of the tidy table of so many blocks
 *   journal EVENTS                               the length of a journal of so many events
 *   slot|record|entry|report|event HEX           the fields of a part, and the bytes put back
 */

#include "lane.h"

#include <inttypes.h>
#include <stdio.h>
#include <stdlib.h>

enum { LONGEST = LANE_HEADER_BYTES + LANE_SLOT_BYTES * LANE_MAX_BLOCKS, FILL = 0xee };

/* The parts are read and written as the second of three. */
static uint8_t from[LONGEST], to[LONGEST];

static void print_constants(void)
{
#define X(name) printf("%s %lld\n", #name, (long long)name);
#include "names.inc"
#undef X
}

static void fail(const char *what)
{
    fprintf(stderr, "%s\n", what);
    exit(EXIT_FAILURE);
}

/* The bytes that a word stands for, to a place: how many. */
static size_t parse(const char *hex, uint8_t *at)
{
    size_t count = 0;
    unsigned byte;
    for (; sscanf(hex, "%2x", &byte) == 1; hex += 2)
        at[count++] = (uint8_t)byte;
    return count;
}

/* Prints the part that was put, which must have left its neighbours alone. */
static void print_put(size_t at, size_t length)
{
    for (size_t i = 0; i < LONGEST; i++) {
        if (i >= at && i < at + length)
            printf("%02x", (unsigned)to[i]);
        else if (to[i] != FILL)
            fail("a neighbour was written");
    }
    printf("\n");
}

static void show_answer(const char *rest)
{
    uint64_t number = 0, place = 0;
    if (sscanf(rest, "%" SCNu64 " %" SCNu64, &number, &place) != 2)
        fail("answer NUMBER PLACE");
    uint64_t answer = number << 32 | place;
    printf("%d %" PRIu32 " %" PRIu32 " %" PRIu32 " [%s] %s\n", lane_is_accepted(answer), lane_value(answer),
           lane_refusal_number(answer), lane_refusal_place(answer),
           lane_place_text(lane_refusal_place_kind(answer)), lane_refusal_text(answer));
}

static void show_chain(const char *hex)
{
    parse(hex, from);
    for (uint32_t position = 0; position <= LANE_MAX_BLOCKS + 1; position++)
        printf("%" PRIu32 " ", lane_slot_at(from, position));
    printf("\n");
}

static void show_tag(const char *rest)
{
    static char name[LONGEST];
    snprintf(name, sizeof name, "%.*s", (int)strcspn(rest, "\n"), rest);
    printf("%d ", lane_put_tag(to + LANE_TAG_BYTES, name));
    lane_get_tag(name, to + LANE_TAG_BYTES);
    printf("[%s] ", name);
    print_put(LANE_TAG_BYTES, LANE_TAG_BYTES);
}

static void show_tidy(const char *rest)
{
    uint32_t blocks = 0;
    if (sscanf(rest, "%" SCNu32, &blocks) != 1)
        fail("tidy BLOCKS");
    printf("%lu\n", (unsigned long)lane_tidy_bytes(blocks));
}

static void show_journal(const char *rest)
{
    uint32_t events = 0;
    if (sscanf(rest, "%" SCNu32, &events) != 1)
        fail("journal EVENTS");
    printf("%lu\n", (unsigned long)lane_journal_bytes(events));
}

static void show_slot(const char *hex)
{
    parse(hex, from + LANE_HEADER_BYTES + LANE_SLOT_BYTES);
    struct lane_slot slot = lane_get_slot(from, 2);
    printf("%d %d %d %d %d %d %.8s ", slot.kind, slot.next, slot.start_wire, slot.start_code,
           slot.abort_wire, slot.abort_code, (const char *)slot.tag);
    lane_put_slot(to, 2, &slot);
    lane_put_slot(to, 0, &slot);
    if (lane_get_slot(from, 0).kind != 0 || lane_get_slot(from, 0).tag[0] != 0)
        fail("slot 0 was read");
    print_put(LANE_HEADER_BYTES + LANE_SLOT_BYTES, LANE_SLOT_BYTES);
}

static void show_record(const char *hex)
{
    parse(hex, from + LANE_RECORD_BYTES);
    struct lane_record record = lane_get_record(from, 2);
    printf("%d %d %d %" PRIu64 " %d %" PRIu32 " %" PRIu32 " %" PRIu32 " %" PRIu64 " ", record.step,
           record.flags, record.request, record.job, record.code, record.time_limit, record.time_out,
           record.reading, record.elapsed);
    lane_put_record(to, 2, &record);
    print_put(LANE_RECORD_BYTES, LANE_RECORD_BYTES);
}

static void show_entry(const char *hex)
{
    parse(hex, from + LANE_ENTRY_BYTES);
    struct lane_entry entry = lane_get_entry(from, 2);
    printf("%d %d %d %d %d %" PRIu64 " %" PRIu32 " %" PRIu32 " %" PRIu32 " ", entry.inputs, entry.count,
           entry.abort_reply, entry.reset_reply, entry.abort_code, entry.job, entry.time_limit,
           entry.time_out, entry.clock);
    for (int i = 0; i < LANE_MAX_PIECES; i++) {
        struct lane_piece *piece = &entry.pieces[i];
        printf("%d %d %" PRIu32 " ", piece->reply, piece->code, piece->clock);
        if (i >= entry.count) /* a piece past the count isn't put */
            piece->clock = 1;
    }
    lane_put_entry(to, 2, &entry);
    print_put(LANE_ENTRY_BYTES, LANE_ENTRY_BYTES);
}

static void show_report(const char *hex)
{
    parse(hex, from + LANE_REPORT_BYTES);
    struct lane_report report = lane_get_report(from, 2);
    printf("%d %d %d %d %d %" PRIu64 " ", report.flags, report.pieces, report.passes, report.step,
           report.code, report.job);
    lane_put_report(to, 2, &report);
    print_put(LANE_REPORT_BYTES, LANE_REPORT_BYTES);
}

static void show_event(const char *hex)
{
    parse(hex, from + LANE_EVENT_BYTES);
    struct lane_event event = lane_get_event(from, 2);
    printf("%d %d %d %" PRIu64 " ", event.kind, event.position, event.code, event.job);
    lane_put_event(to, 2, &event);
    print_put(LANE_EVENT_BYTES, LANE_EVENT_BYTES);
}

int main(void)
{
    static const struct {
        const char *name;
        void (*show)(const char *rest);
    } shows[] = {{"answer", show_answer}, {"chain", show_chain},     {"tag", show_tag},
                 {"tidy", show_tidy},     {"journal", show_journal}, {"slot", show_slot},
                 {"record", show_record}, {"entry", show_entry},     {"report", show_report},
                 {"event", show_event}};
    static char line[2 * LONGEST + 16];
    print_constants();
    printf("\n");
    while (fgets(line, sizeof line, stdin) != NULL) {
        char *rest = strchr(line, ' ');
        if (rest == NULL)
            fail("a line has two words");
        *rest++ = '\0';
        memset(to, FILL, sizeof to);
        for (size_t i = 0; i < sizeof shows / sizeof shows[0]; i++) {
            if (strcmp(line, shows[i].name) == 0)
                shows[i].show(rest);
        }
    }
    return EXIT_SUCCESS;
}
