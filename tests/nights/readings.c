/* Readings carried (document 02, request 7), by the archive (include/gauge.h) and by the model (tests/models/model_readings.c): after each call each
 * number, the length and every byte must be the same in both; and a reading that was written must be read back.
 *
 *   readings [plain] [CALLS [SEED]]     plain: no table; without numbers, the calls of the gate
 *
 * AUTHORITYs have any of their fields, with ignored bits set and of any size, and a payload that is a reading, a damaged one, or nothing like it; or
 * they are what a call before has written, or other messages; and they are damaged by byte, bit, cut and growth. Readings have the edges of depth,
 * fault and litres. Slices end or begin at a page that may not be touched. At the end a table tells what was reached: what is possible and was
 * reached too seldom fails (tests/nights/reached.h), and so does what is not possible and was reached.
 *
 * With ALONE the model stands in for the archive too: so the sanitizers see it on a machine that can't link the archive. */
#define _DEFAULT_SOURCE
#include "calling.h"
#include "draft.h"
#include "fence.h"
#include "model_read.h"
#include "model_readings.h"
#include "reached.h"
#include <signal.h>
#include <stdio.h>
#include <stdlib.h>
#include <string.h>
#include <unistd.h>

#define MOST ((size_t)GAUGE_DATAGRAM_MOST)
#define GATE 100000ul /* calls */
#define COUNT(a) (sizeof(a) / sizeof *(a))

struct reading {
    uint32_t kind, measure, litres_in, litres_out;
};

struct call {
    enum call_kind kind;
    uint8_t major, filled;
    bool front; /* slices begin where a page that may not be touched ends; otherwise they end where one begins */
    struct reading reading;
    uint8_t datagram[2048];
    size_t len, room;
};

struct result {
    int64_t numbers[6];
};

static struct call now_run;
static unsigned long calls_run;
static uint64_t seed;
static bool running; /* for the handler */

/* What is lent, one set for the archive and one for the model. */

enum { ARCHIVE, MODEL, SIDES };
static struct fence datagrams[SIDES], outputs[SIDES];
static struct lent lent[SIDES];

static void lend(int side, const struct call *c)
{
    struct lent *l = &lent[side];
    memset(l, 0, sizeof *l);
    l->datagram = as_room(fenced(&datagrams[side], c->front, c->len), c->len);
    memcpy(l->datagram.at, c->datagram, c->len);
    l->output = as_room(fenced(&outputs[side], c->front, c->room), c->room);
    memset(l->output.at, c->filled, c->room);
    l->major = c->major;
    l->kind = c->reading.kind;
    l->measure = c->reading.measure;
    l->litres_in = c->reading.litres_in;
    l->litres_out = c->reading.litres_out;
}

static struct result by_model(enum call_kind kind, const struct lent *l)
{
    struct result result = {{0}};
    if (kind == CARRY) {
        struct model_carry a = model_carry(l);
        struct result carry = {{a.number, a.length, a.reading, 0, 0, 0}};
        return carry;
    }
    if (kind == CARRIED) {
        struct model_reading a = model_carried(l);
        struct result carried = {{a.number, a.reading, a.kind, a.measure, a.litres_in, a.litres_out}};
        return carried;
    }
    result.numbers[0] = model_balance(l);
    return result;
}

#ifdef ALONE
#define by_archive by_model
#else
static struct result by_archive(enum call_kind kind, const struct lent *l)
{
    struct result result = {{0}};
    if (kind == CARRY) {
        struct gauge_carry_answer a = call_carry(gauge_carry, l);
        struct result carry = {{a.number, a.length, a.reading, 0, 0, 0}};
        return carry;
    }
    if (kind == CARRIED) {
        struct gauge_reading a = call_carried(gauge_carried, l);
        struct result carried = {{a.number, a.reading, a.kind, a.measure, a.litres_in, a.litres_out}};
        return carried;
    }
    result.numbers[0] = call_balance(gauge_balance, l);
    return result;
}
#endif

/* Runs a call on both sides. NULL, or what is different. */
static const char *run(const struct call *c, struct result *answer)
{
    static char what[120];
    lend(ARCHIVE, c);
    lend(MODEL, c);
    running = true;
    struct result a = by_archive(c->kind, &lent[ARCHIVE]), b = by_model(c->kind, &lent[MODEL]);
    running = false;
    *answer = a;
    for (int i = 0; i < 6; i++)
        if (a.numbers[i] != b.numbers[i]) {
            snprintf(what, sizeof what, "answer %d is %lld by the archive, %lld by the model", i, (long long)a.numbers[i], (long long)b.numbers[i]);
            return what;
        }
    const uint8_t *ours = lent[ARCHIVE].output.at, *other = lent[MODEL].output.at;
    for (size_t i = 0; i < c->room; i++)
        if (ours[i] != other[i]) {
            snprintf(what, sizeof what, "output byte %zu is %02x by the archive, %02x by the model", i, ours[i], other[i]);
            return what;
        }
    if (memcmp(lent[ARCHIVE].datagram.at, c->datagram, c->len) != 0)
        return "the datagram has changed";
    if (!margin_whole(&outputs[ARCHIVE], c->front, c->room) || !margin_whole(&outputs[MODEL], c->front, c->room))
        return "written outside of the output";
    return NULL;
}

/* "Readings written read back the same": what a call has written, taken by the next one. */
static const char *read_back(const struct call *c, const uint8_t *bytes, size_t len)
{
    static struct call back;
    struct result a;
    struct reading r = c->reading;
    back.kind = CARRIED;
    back.major = c->major;
    back.front = c->front;
    back.len = len;
    memcpy(back.datagram, bytes, len);
    const char *what = run(&back, &a);
    if (what != NULL)
        return what;
    const int64_t wanted[] = {0, 0, r.kind, r.measure, r.litres_in, r.litres_out};
    return memcmp(a.numbers, wanted, sizeof wanted) == 0 ? NULL : "what was written reads back as another reading";
}

static void show_call(const struct call *c)
{
    printf("%s major=%u kind=%u measure=%08X in=%u out=%u room=%zu datagram=", call_names[c->kind], c->major, c->reading.kind, c->reading.measure,
           c->reading.litres_in, c->reading.litres_out, c->room);
    for (size_t i = 0; i < c->len; i++)
        printf("%02X", c->datagram[i]);
    printf("\n");
}

static void stopped(int signal_number)
{
    if (running) {
        printf("readings: signal %d in call %lu, seed %llu: outside of what was lent\n", signal_number, calls_run, (unsigned long long)seed);
        show_call(&now_run);
        fflush(stdout);
    }
    _exit(1);
}

/* Readings. The edges of a depth, by their bits: allowed, then refused. */

static const struct {
    uint32_t bits;
    const char *name;
} depths[] = {
    {0x00000000, "0"}, {0x80000000, "-0"}, {0x00000001, "smallest"}, {0x00800000, "smallest normal"}, {0x419FFFFF, "next below 20"},
    {0x41A00000, "20"}, {0x41A00001, "next above 20"}, {0x80000001, "smallest below 0"}, {0xC1A00000, "-20"}, {0x7F7FFFFF, "greatest"},
    {0x7F800000, "infinity"}, {0xFF800000, "-infinity"}, {0x7FC00000, "not a number"}, {0xFFC00000, "-not a number"}, {0x7F800001, "signalling"},
    {0xFFFFFFFF, "all bits"}};
#define DEPTHS_GOOD 6
static const uint32_t faults[] = {0, 1, 255, 256, 65535, 65536, 65537, UINT32_MAX};
static const uint32_t litres[] = {0, 1, 0x7FFFFFFF, 0x80000000, UINT32_MAX - 1, UINT32_MAX};
static const uint32_t unknown[] = {0, 3, 255, 256, 0x0101, 0x0200, 65535, 65536, 65537, 65538, UINT32_MAX};

static uint32_t some_litres(void)
{
    return percent(60) ? litres[under(COUNT(litres))] : (uint32_t)chance();
}

static uint32_t some_depth(void)
{
    uint32_t way = under(10);
    return way < 4 ? depths[under(COUNT(depths))].bits : way < 9 ? under(0x41A00000) : (uint32_t)chance();
}

static uint32_t some_fault(void)
{
    return percent(40) ? faults[under(COUNT(faults))] : under(65536);
}

static struct reading some_reading(void)
{
    struct reading r = {1, 0, 0, 0};
    uint32_t way = under(20);
    r.litres_in = some_litres();
    r.litres_out = some_litres();
    if (way < 10) {
        r.measure = some_depth();
    } else if (way < 18) {
        r.kind = 2;
        r.measure = some_fault();
    } else {
        r.kind = percent(80) ? unknown[under(COUNT(unknown))] : (uint32_t)chance();
        r.measure = percent(50) ? some_depth() : some_fault();
    }
    return r;
}

/* Payloads. */

static uint8_t payload[256];

static size_t little(size_t at, uint32_t value, size_t n)
{
    for (size_t i = 0; i < n; i++)
        payload[at + i] = (uint8_t)(value >> 8 * i);
    return at + n;
}

/* A reading packed as the document has it, whether it is allowed or not; one of an unknown kind has any bytes. */
static size_t packed(struct reading r)
{
    size_t n = 4;
    little(2, r.kind, 2);
    if (r.kind == 1 || r.kind == 2) {
        n = little(n, r.measure, r.kind == 1 ? 4 : 2);
        n = little(n, r.litres_in, 4);
        n = little(n, r.litres_out, 4);
    } else {
        n += under(20);
        fill(payload + 4, n - 4);
    }
    little(0, (uint32_t)(n - 2), 2);
    return n;
}

/* One damage to a packed reading: its bytes, its length, or both of its lengths. */
static size_t spoiled(size_t n)
{
    size_t other;
    switch (under(6)) {
    case 0: set_byte(payload, n); return n;
    case 1: flip_bit(payload, 4); return n;
    case 2: return under(n + 1);
    case 3: return under(5);
    case 4:
        fill(payload + n, 4);
        return n + 1 + under(4);
    default:
        other = 2 + under(18);
        fill(payload + n, 20);
        little(0, (uint32_t)(other - 2), 2);
        return other;
    }
}

static size_t some_payload(void)
{
    if (percent(12)) {
        size_t n = percent(30) ? 0 : percent(80) ? under(30) : under(sizeof payload);
        fill(payload, n);
        return n;
    }
    size_t n = packed(some_reading());
    return percent(25) ? spoiled(n) : n;
}

/* A call. */

/* The greatest datagram before and after a reading is put in, which has 20 bytes with number, length and padding. */
static size_t some_whole(void)
{
    return percent(60) ? 0 : percent(50) ? MOST - 20 + under(7) - 3 : percent(50) ? MOST + under(5) - 2 : 60 + under(MOST);
}

static void draft_datagram(void)
{
    uint8_t key[GAUGE_KEY_LEN];
    uint32_t way = under(100);
    if (way < 20) {
        draft_message(key);
        if (percent(30))
            damage_head();
        return;
    }
    size_t n = some_payload(), whole = some_whole();
    draft_authority_with(percent(30) ? NULL : payload, n, whole);
    while (percent(15))
        damage_draft();
}

/* What the last accepted carry wrote. */
static uint8_t written[MOST];
static size_t written_len;

/* Room for the output: enough, any, or just what is needed, or one byte less or more; what is needed is found by a try of the model. */
static size_t some_room(struct call *c)
{
    uint32_t way = under(10);
    c->room = 2048;
    if (way < 5)
        return MOST + under(3) * 100;
    if (way < 7)
        return under(MOST + 20);
    if (way == 7)
        return under(3);
    lend(MODEL, c);
    size_t need = (size_t)by_model(c->kind, &lent[MODEL]).numbers[1];
    return need == 0 ? under(64) : need + under(3) - 1;
}

static void make_call(struct call *c)
{
    uint32_t way = under(100);
    if (calls_run % 100 == 0)
        begin_gauge(1);
    c->kind = way < 60 ? CARRY : way < 96 ? CARRIED : BALANCE;
    c->filled = any();
    c->front = percent(30);
    c->reading = some_reading();
    c->major = percent(4) ? any() : own_major;
    if (written_len > 0 && percent(10)) {
        c->major = written[5];
        c->len = written_len;
        memcpy(c->datagram, written, written_len);
    } else {
        draft_datagram();
        c->len = draft.n;
        memcpy(c->datagram, draft.b, draft.n);
    }
    c->room = c->kind == CARRY ? some_room(c) : 0;
}

/* What was reached. */

static struct times numbers_reached[CALLS][MESSAGES], readings_reached[CALLS];
static unsigned long depths_reached[COUNT(depths)];

enum { PUT_IN, REPLACED, EMPTY_REPLACED, LONGER_REPLACED, CHAIN, KEYTOKEN, CLASSIFIER, ENTRY_KEPT, CPA, EVERY_FIELD, FLAGS, PADDING, WHOLE_MOST,
       OVER_MOST, JUST_ROOM, BYTE_SHORT, NO_ROOM, FAULT_LEAST, FAULT_MOST, FAULT_OVER, READING_BEFORE_ROOM, NUMBER_BEFORE_READING, NONE_CARRIED,
       A_DEPTH, A_FAULT, EMPTY, THREE, FRONT_LENGTH, KIND_LENGTH, KIND_BEHIND_LENGTH, SURPLUS, DEFICIT, EVEN, MOST_IN, MOST_OUT, DONE };
static const char *const done_names[] = {
    "payload put in", "payload replaced", "empty payload replaced", "longer payload replaced", "with a chain", "with a keytoken", "with a classifier",
    "with a route entry", "with a CPA", "with every field", "ignored flags cleared", "ignored padding cleared", "result of 1,232 bytes",
    "result over 1,232 bytes", "room just enough", "room a byte short", "room 0", "fault 0", "fault 65535", "fault 65536 refused",
    "bad reading, no room", "bad datagram and reading", "carries none", "carries a depth", "carries a fault", "payload empty", "payload of 3 bytes",
    "length not what follows", "length not its kind's", "unknown kind, other length", "balance above 0", "balance below 0", "balance 0",
    "balance 4294967295", "balance -4294967295"};
static unsigned long done[DONE];

static bool reading_bad(struct reading r)
{
    return (r.kind != 1 && r.kind != 2) || (r.kind == 2 && r.measure > 65535);
}

static void count_accepted(const struct call *c, const struct message *m, size_t length)
{
    done[m->payload.at == 0 ? PUT_IN : m->payload.len == 0 ? EMPTY_REPLACED : m->payload.len > 16 ? LONGER_REPLACED : REPLACED]++;
    done[CHAIN] += m->chain.at != 0;
    done[KEYTOKEN] += m->keytoken.at != 0;
    done[CLASSIFIER] += m->classifier.at != 0;
    done[ENTRY_KEPT] += m->entry.at != 0;
    done[CPA] += m->cpa.at != 0;
    done[EVERY_FIELD] += m->chain.at != 0 && m->keytoken.at != 0 && m->classifier.at != 0 && m->payload.at != 0 && m->entry.at != 0 && m->cpa.at != 0;
    done[FLAGS] += (m->flags & ~0x0209u) != 0;
    done[PADDING] += c->datagram[GAUGE_RECORD_COUNT] != 0 || c->datagram[35] != 0;
    done[WHOLE_MOST] += length == MOST;
    done[JUST_ROOM] += length == c->room;
    done[FAULT_LEAST] += c->reading.kind == 2 && c->reading.measure == 0;
    done[FAULT_MOST] += c->reading.kind == 2 && c->reading.measure == 65535;
}

/* How long the result is, where the output has room for it. */
static size_t needed(const struct call *c, const struct message *m)
{
    size_t old = m->payload.at == 0 ? 0 : (4 + m->payload.len + 3) / 4 * 4;
    return c->len - old + 20;
}

static void count_carry(const struct call *c, const struct message *m, const int64_t *a)
{
    if (a[0] == 0 && a[2] == 0)
        count_accepted(c, m, (size_t)a[1]);
    if (a[0] == 0)
        count_number(&readings_reached[CARRY], (uint64_t)a[2]);
    if (a[0] == GAUGE_ROOM) {
        done[OVER_MOST] += c->room > MOST;
        done[BYTE_SHORT] += c->room == needed(c, m) - 1 && c->room < MOST;
        done[NO_ROOM] += c->room == 0;
    }
    if (a[0] == 0 && c->reading.kind == 1)
        for (size_t i = 0; i < COUNT(depths); i++)
            depths_reached[i] += depths[i].bits == c->reading.measure && (a[2] == 0) == (i < DEPTHS_GOOD);
    done[FAULT_OVER] += a[2] == 1 && c->reading.measure == 65536;
    done[READING_BEFORE_ROOM] += a[2] != 0 && c->room < needed(c, m);
    done[NUMBER_BEFORE_READING] += a[0] != 0 && a[0] != GAUGE_ROOM && reading_bad(c->reading);
}

static void count_carried(const struct call *c, const struct message *m, const int64_t *a)
{
    const uint8_t *p = c->datagram + m->payload.at;
    size_t n = m->payload.len;
    if (a[0] != 0)
        return;
    if (m->payload.at == 0) {
        done[NONE_CARRIED]++;
        return;
    }
    count_number(&readings_reached[CARRIED], (uint64_t)a[1]);
    done[A_DEPTH] += a[2] == 1;
    done[A_FAULT] += a[2] == 2;
    done[EMPTY] += n == 0;
    done[THREE] += n == 3;
    if (n < 4)
        return;
    bool front = (p[0] | (size_t)p[1] << 8) == n - 2, known = (p[2] == 1 || p[2] == 2) && p[3] == 0;
    done[FRONT_LENGTH] += !front && known;
    done[KIND_LENGTH] += front && known && a[1] == 1;
    done[KIND_BEHIND_LENGTH] += !front && !known;
}

static void count_balance(int64_t balance)
{
    done[balance > 0 ? SURPLUS : balance < 0 ? DEFICIT : EVEN]++;
    done[MOST_IN] += balance == INT64_C(4294967295);
    done[MOST_OUT] += balance == -INT64_C(4294967295);
}

static void count(const struct call *c, const struct result *r)
{
    struct bytes d = {c->datagram, c->len};
    struct message m = read_message(c->major, d);
    if (c->kind == BALANCE) {
        count_balance(r->numbers[0]);
        return;
    }
    lend(MODEL, c); /* anew: reading back has lent another */
    count_number(&numbers_reached[c->kind][message_of(&lent[MODEL])], (uint64_t)r->numbers[0]);
    if (c->kind == CARRY)
        count_carry(c, &m, r->numbers);
    else
        count_carried(c, &m, r->numbers);
}

/* The numbers that a message may get: of what is no AUTHORITY those of reading it, and 5 where it reads well. */
static uint32_t possible(int kind, int message)
{
    switch (message) {
    case NONE: return BIT(GAUGE_LENGTH);
    case UNKNOWN: return UNKNOWN_TYPE;
    case FLOOD: return ALL;
    case ENTRY: case REVOKE: return BIT(GAUGE_TYPE);
    case AUTHORITY: return BIT(GAUGE_OK) | ALL | BIT(GAUGE_NOT_TAKEN) | (kind == CARRY ? BIT(GAUGE_ROOM) : 0);
    default: return ALL | BIT(GAUGE_TYPE);
    }
}

static int show_reached(void)
{
    const uint32_t of_readings = BIT(GAUGE_READING_OK) | BIT(GAUGE_READING_LENGTH) | BIT(GAUGE_READING_KIND) | BIT(GAUGE_READING_OUTSIDE);
    int faults_found = 0;
    char name[40];
    show_numbers("reached, by number");
    for (int k = CARRY; k <= CARRIED; k++)
        for (int m = 0; m < MESSAGES; m++)
            faults_found += show_row(call_names[k], messages[m], &numbers_reached[k][m], possible(k, m));
    for (int k = CARRY; k <= CARRIED; k++)
        faults_found += show_row(call_names[k], "the reading's", &readings_reached[k], of_readings);
    for (int i = 0; i < DONE; i++)
        faults_found += show_times(done_names[i], done[i], i % 4 == 3 || i == DONE - 1);
    for (size_t i = 0; i < COUNT(depths); i++) {
        snprintf(name, sizeof name, "%s %s", depths[i].name, i < DEPTHS_GOOD ? "taken" : "refused");
        faults_found += show_times(name, depths_reached[i], i % 4 == 3);
    }
    return faults_found;
}

/* The next call, drawn and run on both sides, and read back where it carried a reading; NULL, or what is different. */
static const char *next_call(struct call *c)
{
    struct result r;
    make_call(c);
    calls_run++;
    const char *what = run(c, &r);
    if (what == NULL && c->kind == CARRY && r.numbers[1] != 0) {
        written_len = (size_t)r.numbers[1];
        memcpy(written, lent[ARCHIVE].output.at, written_len);
        what = read_back(c, written, written_len);
    }
    if (what == NULL)
        count(c, &r);
    return what;
}

static int differ(const struct call *c, const char *what, bool plain)
{
    printf("readings: %s in call %lu, seed %llu: %s\n", call_names[c->kind], calls_run, (unsigned long long)seed, what);
    if (!plain)
        show_call(c);
    return 1;
}

int main(int argc, char **argv)
{
    bool plain = argc > 1 && strcmp(argv[1], "plain") == 0;
    argv += plain;
    argc -= plain;
    unsigned long wanted = argc > 1 ? strtoul(argv[1], NULL, 10) : GATE;
    chance_state = seed = argc > 2 ? strtoull(argv[2], NULL, 10) : 1;
    set_least(wanted, GATE);
    for (int side = 0; side < SIDES; side++) {
        datagrams[side] = fence_of(sizeof now_run.datagram);
        outputs[side] = fence_of(sizeof now_run.datagram);
    }
    signal(SIGSEGV, stopped);
    signal(SIGBUS, stopped);
    while (calls_run < wanted) {
        const char *what = next_call(&now_run);
        if (what != NULL)
            return differ(&now_run, what, plain);
    }
    int marked = plain ? 0 : show_reached();
    if (marked != 0) {
        printf("readings: %d marked '!': possible and reached too seldom, or not possible and reached\n", marked);
        return 1;
    }
    printf("readings: %lu calls, seed %llu: the same\n", calls_run, (unsigned long long)seed);
    return 0;
}
