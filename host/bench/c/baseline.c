/* The rules of the engine in plain C, as a host's author would write them: a yardstick for times, and
 * nothing else. Signatures and answers are those of lane.h. */

#include <stddef.h>
#include <stdint.h>
#include <string.h>

uint64_t baseline_check(const uint8_t *image, size_t image_len);
uint64_t baseline_find(const uint8_t *image, size_t image_len, const uint8_t *tag, size_t tag_len);
uint64_t baseline_tidy(const uint8_t *image, size_t image_len, uint8_t *out, size_t out_len);
uint64_t baseline_check_journal(const uint8_t *image, size_t image_len, const uint8_t *journal,
                                size_t journal_len);
uint64_t baseline_fresh(const uint8_t *image, size_t image_len, uint8_t *state, size_t state_len);
uint64_t baseline_scan(const uint8_t *image, size_t image_len, uint8_t *state, size_t state_len,
                       const uint8_t *frame, size_t frame_len, uint8_t *report, size_t report_len,
                       uint8_t *journal, size_t journal_len);

enum { BUSY = 1, DONE = 2, ERROR = 4, ABORTED = 8 };
enum { S_DORMANT, S_EXECUTING, S_DONE, S_ERROR, S_ABORTING, S_ABORTED, S_RESETTING };

/* Bytes of a state record, a frame entry, a report entry and an event, and where the job is in each. */
enum { RECORD = 40, ENTRY = 64, REPORT = 16, EVENT = 12 };
enum { RECORD_JOB = 32, ENTRY_JOB = 56, REPORT_JOB = 8, EVENT_JOB = 4 };

#define HELD 4294967296u
#define OUT_OF_STEP 2147483648u

struct table {
    const uint8_t *image;
    unsigned count;
    uint8_t order[64];
    uint8_t position[65];
};

struct record {
    uint8_t step, flags, request;
    uint16_t code;
    uint32_t limit, time_out, last;
    uint64_t elapsed, job;
};

static int edge(unsigned kind) { return kind <= 8; }
static int has_abort(unsigned kind) { return kind >= 5 && kind <= 8; }
static int has_limit(unsigned kind) { return kind % 2 == 0; }
static int has_time_out(unsigned kind)
{
    return kind == 3 || kind == 4 || kind == 7 || kind == 8 || kind == 11 || kind == 12;
}
static int continuous(unsigned kind) { return kind >= 13; }

static uint16_t get16(const uint8_t *p) { return (uint16_t)(p[0] | p[1] << 8); }
static uint32_t get32(const uint8_t *p) { return get16(p) | (uint32_t)get16(p + 2) << 16; }
static uint64_t get64(const uint8_t *p) { return get32(p) | (uint64_t)get32(p + 4) << 32; }
static void put16(uint8_t *p, uint16_t v)
{
    p[0] = (uint8_t)v;
    p[1] = (uint8_t)(v >> 8);
}
static void put32(uint8_t *p, uint32_t v)
{
    put16(p, (uint16_t)v);
    put16(p + 2, (uint16_t)(v >> 16));
}
static void put64(uint8_t *p, uint64_t v)
{
    put32(p, (uint32_t)v);
    put32(p + 4, (uint32_t)(v >> 32));
}

static uint64_t refuse(unsigned number, unsigned place) { return (uint64_t)number << 32 | place; }

static const uint8_t *slot_at(const struct table *t, unsigned slot) { return t->image + 4 + 16 * (slot - 1); }

static int is_tag_char(unsigned place, uint8_t b)
{
    return (b >= 'A' && b <= 'Z') || (b >= '0' && b <= '9') || (b == '_' && place > 0);
}

static int is_tag(const uint8_t *tag)
{
    unsigned n = 0;
    while (n < 8 && is_tag_char(n, tag[n]))
        n++;
    if (n == 0)
        return 0;
    while (n < 8 && tag[n] == ' ')
        n++;
    return n == 8;
}

static int is_wire(const struct table *t, const uint8_t *wire)
{
    if (wire[0] == 0)
        return wire[1] == 0;
    return wire[0] <= t->image[1] && t->position[wire[0]] != 0 && (wire[1] & 0x7c) == 0;
}

static uint64_t check_block(const struct table *t, unsigned index)
{
    unsigned slot = t->order[index];
    const uint8_t *s = slot_at(t, slot);
    if (s[0] < 1 || s[0] > 14 || s[6] != 0 || s[7] != 0)
        return refuse(7, slot);
    if (!is_tag(s + 8))
        return refuse(8, slot);
    for (unsigned i = 0; i < index; i++)
        if (memcmp(slot_at(t, t->order[i]) + 8, s + 8, 8) == 0)
            return refuse(9, slot);
    if (!is_wire(t, s + 2) || !is_wire(t, s + 4) || (!has_abort(s[0]) && s[4] != 0))
        return refuse(10, slot);
    return 0;
}

/* Fills in the table; 0, or the refusal. */
static uint64_t read_table(struct table *t, const uint8_t *image, size_t len)
{
    static const uint8_t zeros[16];
    if (len < 4)
        return refuse(1, 0);
    if (image[0] != 1 || image[3] != 0)
        return refuse(2, 0);
    unsigned n = image[1];
    if (n < 1 || n > 64)
        return refuse(3, 0);
    if (len != 4 + 16 * (size_t)n)
        return refuse(4, 0);
    t->image = image;
    t->count = 0;
    memset(t->position, 0, sizeof t->position);
    unsigned holder = 0;
    for (unsigned next = image[2]; next != 0; next = slot_at(t, next)[1]) {
        if (next > n)
            return refuse(5, holder);
        if (t->position[next] != 0)
            return refuse(6, holder);
        t->order[t->count++] = (uint8_t)next;
        t->position[next] = (uint8_t)t->count;
        holder = next;
    }
    for (unsigned i = 0; i < t->count; i++) {
        uint64_t refused = check_block(t, i);
        if (refused)
            return refused;
    }
    for (unsigned slot = 1; slot <= n; slot++)
        if (t->position[slot] == 0 && memcmp(slot_at(t, slot), zeros, 16) != 0)
            return refuse(11, slot);
    return 0;
}

uint64_t baseline_check(const uint8_t *image, size_t image_len)
{
    struct table t;
    uint64_t refused = read_table(&t, image, image_len);
    return refused ? refused : t.count;
}

uint64_t baseline_find(const uint8_t *image, size_t image_len, const uint8_t *tag, size_t tag_len)
{
    struct table t;
    uint64_t refused = read_table(&t, image, image_len);
    if (refused)
        return refused;
    if (tag_len != 8 || !is_tag(tag))
        return refuse(50, 0);
    for (unsigned i = 0; i < t.count; i++)
        if (memcmp(slot_at(&t, t.order[i]) + 8, tag, 8) == 0)
            return i + 1;
    return refuse(51, 0);
}

uint64_t baseline_tidy(const uint8_t *image, size_t image_len, uint8_t *out, size_t out_len)
{
    struct table t;
    uint64_t refused = read_table(&t, image, image_len);
    if (refused)
        return refused;
    unsigned slots = t.count != 0 ? t.count : 1;
    if (out_len != 4 + 16 * (size_t)slots)
        return refuse(60, 0);
    memset(out, 0, 4 + 16);
    out[0] = 1;
    out[1] = (uint8_t)slots;
    out[2] = t.count != 0;
    for (unsigned i = 0; i < t.count; i++) {
        uint8_t *to = out + 4 + 16 * i;
        memcpy(to, slot_at(&t, t.order[i]), 16);
        to[1] = (uint8_t)(i + 1 < t.count ? i + 2 : 0);
        to[2] = t.position[to[2]];
        to[4] = t.position[to[4]];
    }
    return t.count;
}

/* Whether a block of a kind can write an event with a code. */
static int is_event(unsigned kind, unsigned event, unsigned code)
{
    switch (event) {
    case 1:
        return code == 0;
    case 2:
        return code == 0 && !continuous(kind);
    case 3:
        return code != 0 && (code != 1 || has_time_out(kind));
    case 4:
        return code == 0 && has_abort(kind);
    case 5:
        return code == 0 && !edge(kind);
    default:
        return 0;
    }
}

/* A number of events as an answer holds it. */
static uint32_t saturate(size_t n) { return n < UINT32_MAX ? (uint32_t)n : UINT32_MAX; }

uint64_t baseline_check_journal(const uint8_t *image, size_t image_len, const uint8_t *journal,
                                size_t journal_len)
{
    struct table t;
    uint8_t is_open[64] = {0};
    uint64_t jobs[64];
    uint64_t refused = read_table(&t, image, image_len);
    if (refused)
        return refused;
    if (journal_len % EVENT != 0)
        return refuse(70, 0);
    size_t events = journal_len / EVENT;
    for (size_t i = 0; i < events; i++) {
        const uint8_t *e = journal + EVENT * i;
        unsigned block = e[1] - 1u;
        if (block >= t.count || !is_event(slot_at(&t, t.order[block])[0], e[0], get16(e + 2)))
            return refuse(71, saturate(i + 1));
        uint64_t job = get64(e + EVENT_JOB);
        int start = e[0] == 1;
        if (start == is_open[block] || (!start && job != jobs[block]))
            return refuse(71, saturate(i + 1));
        is_open[block] = (uint8_t)start;
        jobs[block] = job;
    }
    return saturate(events);
}

uint64_t baseline_fresh(const uint8_t *image, size_t image_len, uint8_t *state, size_t state_len)
{
    struct table t;
    uint64_t refused = read_table(&t, image, image_len);
    if (refused)
        return refused;
    if (state_len != RECORD * (size_t)t.count)
        return refuse(20, 0);
    if (state_len != 0)
        memset(state, 0, state_len);
    return t.count;
}

static void load(struct record *r, const uint8_t *p)
{
    r->step = p[0];
    r->flags = p[1];
    r->request = p[2];
    r->job = get64(p + RECORD_JOB);
    r->code = get16(p + 8);
    r->limit = get32(p + 12);
    r->time_out = get32(p + 16);
    r->last = get32(p + 20);
    r->elapsed = get64(p + 24);
}

static void store(const struct record *r, uint8_t *p)
{
    memset(p, 0, RECORD);
    p[0] = r->step;
    p[1] = r->flags;
    p[2] = r->request;
    put64(p + RECORD_JOB, r->job);
    put16(p + 8, r->code);
    put32(p + 12, r->limit);
    put32(p + 16, r->time_out);
    put32(p + 20, r->last);
    put64(p + 24, r->elapsed);
}

static int is_sound(const uint8_t *p, unsigned kind)
{
    static const uint8_t zeros[RECORD];
    struct record r;
    load(&r, p);
    if (r.step == S_DORMANT)
        return memcmp(p, zeros, RECORD) == 0;
    if (p[3] != 0 || get32(p + 4) != 0 || p[10] != 0 || p[11] != 0 || r.request > 1 || r.elapsed > HELD)
        return 0;
    switch (r.step) {
    case S_EXECUTING:
        if (r.flags != BUSY)
            return 0;
        break;
    case S_DONE:
        if (r.flags != DONE)
            return 0;
        break;
    case S_ERROR:
        if (r.flags != ERROR)
            return 0;
        break;
    case S_ABORTING:
        if (r.flags != BUSY || kind < 5)
            return 0;
        break;
    case S_ABORTED:
        if (r.flags != ABORTED)
            return 0;
        break;
    case S_RESETTING:
        if (r.flags != DONE && r.flags != ERROR && r.flags != ABORTED && (r.flags != BUSY || edge(kind)))
            return 0;
        break;
    default:
        return 0;
    }
    if ((r.flags == DONE && continuous(kind)) || (r.flags == ABORTED && !has_abort(kind)))
        return 0;
    if ((r.code != 0) != (r.flags == ERROR) || (r.code == 1 && !has_time_out(kind)))
        return 0;
    if (r.request && (r.flags == BUSY || (r.flags == DONE && !edge(kind))))
        return 0;
    if (r.limit != 0 && !(edge(kind) && has_limit(kind)))
        return 0;
    return r.time_out == 0 || (edge(kind) && has_time_out(kind));
}

static int is_reply(unsigned reply, unsigned code) { return reply == 2 ? code >= 2 : reply < 2 && code == 0; }

static int is_entry(const uint8_t *e)
{
    static const uint8_t zeros[32];
    unsigned n = e[1];
    if (e[0] > 3 || n > 4 || !is_reply(e[2], get16(e + 4)) || e[3] > 1 || e[6] != 0 || e[7] != 0 ||
        get32(e + 8) != 0)
        return 0;
    for (unsigned i = 0; i < n; i++) {
        const uint8_t *piece = e + 24 + 8 * i;
        if (piece[1] != 0 || !is_reply(piece[0], get16(piece + 2)))
            return 0;
    }
    return memcmp(e + 24 + 8 * n, zeros, 32 - 8 * n) == 0;
}

static uint64_t check_buffers(const struct table *t, const uint8_t *state, size_t state_len,
                              const uint8_t *frame, size_t frame_len, size_t report_len,
                              size_t journal_len)
{
    if (state_len != RECORD * (size_t)t->count)
        return refuse(20, 0);
    for (unsigned i = 0; i < t->count; i++)
        if (!is_sound(state + RECORD * i, slot_at(t, t->order[i])[0]))
            return refuse(21, i + 1);
    if (frame_len != ENTRY * (size_t)t->count)
        return refuse(30, 0);
    for (unsigned i = 0; i < t->count; i++)
        if (!is_entry(frame + ENTRY * i))
            return refuse(31, i + 1);
    if (report_len != REPORT * (size_t)t->count)
        return refuse(40, 0);
    if (journal_len < 2 * EVENT * (size_t)t->count)
        return refuse(41, 0);
    return 0;
}

/* One call under way. */
struct call {
    unsigned kind, position;
    int start, abort;
    const uint8_t *entry;
    struct record *r;
    uint8_t used;
    uint8_t *events;
    unsigned count;
};

static void event(struct call *c, uint8_t kind, uint16_t code)
{
    uint8_t *p = c->events + EVENT * c->count++;
    p[0] = kind;
    p[1] = (uint8_t)c->position;
    put16(p + 2, code);
    put64(p + EVENT_JOB, c->r->job);
}

/* The time counted from one reading to another: none to one out of step. */
static uint32_t counted(uint32_t from, uint32_t to)
{
    uint32_t time = to - from;
    return time < OUT_OF_STEP ? time : 0;
}

static void tick(struct record *r, uint32_t reading)
{
    uint32_t time = reading - r->last;
    if (time >= OUT_OF_STEP)
        return;
    r->elapsed += time;
    if (r->elapsed > HELD)
        r->elapsed = HELD;
    r->last = reading;
}

static int executing(struct call *c)
{
    struct record *r = c->r;
    if (edge(c->kind) ? has_abort(c->kind) && c->abort : !c->start) {
        r->step = S_ABORTING;
        return 1;
    }
    uint32_t clock = get32(c->entry + 20);
    uint32_t limit = edge(c->kind) ? r->limit : get32(c->entry + 12);
    uint32_t time_out = edge(c->kind) ? r->time_out : get32(c->entry + 16);
    if (!has_time_out(c->kind))
        time_out = 0;
    unsigned reply = 0, code = 0;
    tick(r, clock);
    for (unsigned i = 0; i < c->entry[1]; i++) {
        const uint8_t *piece = c->entry + 24 + 8 * i;
        uint32_t after = get32(piece + 4);
        reply = piece[0];
        code = get16(piece + 2);
        tick(r, after);
        c->used++;
        if (!has_limit(c->kind) || reply != 0 || (limit != 0 && counted(clock, after) > limit) ||
            (time_out != 0 && r->elapsed > time_out))
            break;
    }
    if (reply == 2) {
        r->code = (uint16_t)code;
        r->step = S_ERROR;
        return 1;
    }
    if (time_out != 0 && r->elapsed > time_out) {
        r->code = 1;
        r->step = S_ERROR;
        return 1;
    }
    if (reply == 1 && !continuous(c->kind)) {
        r->step = S_DONE;
        return 1;
    }
    return 0;
}

static int finished(struct call *c, uint8_t own, uint8_t finish)
{
    struct record *r = c->r;
    int shown = (r->flags & own) != 0;
    if (shown && (!c->start || r->request)) {
        r->step = S_RESETTING;
        return 1;
    }
    r->flags = own;
    r->request = (uint8_t)(!c->start && !(own == DONE && !edge(c->kind)));
    if (!shown)
        event(c, finish, own == ERROR ? r->code : 0);
    return 0;
}

static int pass(struct call *c)
{
    struct record *r = c->r;
    int again;
    switch (r->step) {
    case S_DORMANT:
        if (!c->start)
            return 0;
        r->job = get64(c->entry + ENTRY_JOB);
        if (edge(c->kind) && has_limit(c->kind))
            r->limit = get32(c->entry + 12);
        if (edge(c->kind) && has_time_out(c->kind))
            r->time_out = get32(c->entry + 16);
        r->last = get32(c->entry + 20);
        r->elapsed = 0;
        r->flags = BUSY;
        event(c, 1, 0);
        r->step = S_EXECUTING;
        return 1;
    case S_EXECUTING:
        return executing(c);
    case S_DONE:
        return finished(c, DONE, 2);
    case S_ERROR:
        return finished(c, ERROR, 3);
    case S_ABORTED:
        return finished(c, ABORTED, 4);
    case S_ABORTING:
        if (c->entry[2] == 2) {
            r->code = get16(c->entry + 4);
            r->step = S_ERROR;
            return 1;
        }
        if (c->entry[2] == 0)
            return 0;
        if (edge(c->kind)) {
            r->step = S_ABORTED;
            return 1;
        }
        event(c, 5, 0);
        r->step = S_RESETTING;
        return 1;
    default:
        if (c->entry[3] == 0)
            return 0;
        again = r->request;
        memset(r, 0, sizeof *r);
        return again;
    }
}

static int input(const struct table *t, const uint8_t *wire, const uint8_t *state, int bit)
{
    if (wire[0] == 0)
        return bit;
    uint8_t flags = state[RECORD * (t->position[wire[0]] - 1) + 1];
    return (flags >> (wire[1] & 3) & 1) != wire[1] >> 7;
}

uint64_t baseline_scan(const uint8_t *image, size_t image_len, uint8_t *state, size_t state_len,
                       const uint8_t *frame, size_t frame_len, uint8_t *report, size_t report_len,
                       uint8_t *journal, size_t journal_len)
{
    struct table t;
    uint64_t refused = read_table(&t, image, image_len);
    if (!refused)
        refused = check_buffers(&t, state, state_len, frame, frame_len, report_len, journal_len);
    if (refused)
        return refused;
    unsigned events = 0;
    for (unsigned i = 0; i < t.count; i++) {
        const uint8_t *slot = slot_at(&t, t.order[i]), *entry = frame + ENTRY * i;
        struct record r;
        struct call c = {slot[0], i + 1, 0, 0, entry, &r, 0, journal + EVENT * events, 0};
        c.start = input(&t, slot + 2, state, entry[0] & 1);
        c.abort = input(&t, slot + 4, state, entry[0] >> 1 & 1);
        load(&r, state + RECORD * i);
        uint8_t passes = 1;
        while (pass(&c))
            passes++;
        store(&r, state + RECORD * i);
        uint8_t *out = report + REPORT * i;
        out[0] = r.flags;
        out[1] = c.used;
        out[2] = passes;
        out[3] = r.step;
        put16(out + 4, r.code);
        put16(out + 6, 0);
        put64(out + REPORT_JOB, r.job);
        events += c.count;
    }
    return events;
}
