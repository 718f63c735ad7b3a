/* Random nights, run through the archive (include/gauge.h) and through the model (tests/models/model.c): after each call the number, the counts and
 * every byte of cache, firsts, waiting table and output must be the same in both.
 *
 *   compare [plain] [CALLS [SEED]]     plain: a difference is told in one line, and not made shorter; without numbers, the nights of the gate
 *
 * A night is one gauge: one to four own keys, a cache of C records, and calls one after the other on the memory that the calls before have left.
 * Datagrams lean on that memory (IDs that wait, keys held, the own keys) and are damaged by byte, bit, cut and growth; the memory itself is damaged
 * for one call in every field, or is of the time before request 13, which only the conversion takes; each slice is lent with wrong lengths, and ends
 * or begins at a page that may not be touched. At the end a table tells how often each number was reached by each call and message: one that is
 * possible and was reached too seldom fails (tests/nights/reached.h), and so does one that is not possible and was reached.
 *
 * With ALONE the model stands in for the archive too: so the sanitizers see it on a machine that can't link the archive. */
#define _DEFAULT_SOURCE
#include "calling.h"
#include "compare.h"
#include "fence.h"
#include "model.h"
#include "reached.h"
#include <signal.h>
#include <stdio.h>
#include <stdlib.h>
#include <string.h>
#include <unistd.h>

#define GATE 250000ul /* calls */
#define ARENA (24u << 20)

struct result {
    uint32_t numbers[12];
};

static struct call night[NIGHT];
static size_t night_len;
static struct memory start;
static uint8_t arena[ARENA];
static size_t arena_used;
static unsigned long calls_run, nights_run;
static uint64_t seed;
static const struct call *running; /* for the handler */
static struct memory *running_on;

struct room kept(const uint8_t *bytes, size_t len)
{
    struct room r = as_room(arena + arena_used, len);
    if (len > 0)
        memcpy(r.at, bytes, len);
    arena_used += len + 1;
    return r;
}

/* What is lent, one set for the archive and one for the model. */

enum { ARCHIVE, MODEL, SIDES };
static struct fence fences[SIDES][SLICES];
static struct lent lent[SIDES];

static struct result three_numbers(uint32_t number, uint32_t first, uint32_t second)
{
    struct result r = {{number, first, second}};
    return r;
}

static struct result by_model(enum call_kind kind, const struct lent *l)
{
    struct model_answer a = {0, 0, 0};
    if (kind == LOOK) {
        struct model_look s = model_look(l);
        struct result r = {{s.number, s.type, s.id, s.acked, s.cpa.at, s.cpa.len, s.nonce.at, s.nonce.len, s.entry.at, s.entry.len, s.target.at,
                            s.target.len}};
        return r;
    }
    if (kind == RECEIVE)
        a = model_receive(l);
    else if (kind == SEND)
        a = model_send(l);
    else if (kind == TICK)
        a = model_tick(l);
    else if (kind == NEIGHBOURS)
        a = model_neighbours(l);
    else if (kind == CLOSEST)
        a = model_closest(l);
    else if (kind == SEARCH)
        a = model_search(l);
    else if (kind == CONVERT)
        a = model_convert(l);
    else
        a = model_changes(l);
    return three_numbers(a.number, a.first, a.second);
}

#ifdef ALONE
#define by_archive by_model
#else
static struct result by_archive(enum call_kind kind, const struct lent *l)
{
    struct gauge_answer a;
    if (kind == LOOK) {
        struct gauge_look_answer s = call_look(gauge_look, l);
        struct result r = {{s.number, s.kind, s.id, s.acked, s.cpa_at, s.cpa_len, s.nonce_at, s.nonce_len, s.entry_at, s.entry_len, s.target_at,
                            s.target_len}};
        return r;
    }
    if (kind == RECEIVE)
        a = call_receive(gauge_receive, l);
    else if (kind == SEND)
        a = call_send(gauge_send, l);
    else if (kind == TICK)
        a = call_tick(gauge_tick, l);
    else if (kind == NEIGHBOURS)
        a = call_neighbours(gauge_neighbours, l);
    else if (kind == CLOSEST)
        a = call_closest(gauge_closest, l);
    else if (kind == SEARCH)
        a = call_search(gauge_search, l);
    else if (kind == CONVERT)
        a = call_convert(gauge_convert, l);
    else
        a = call_changes(gauge_changes, l);
    return three_numbers(a.number, a.first, a.second);
}
#endif

/* What a call is to be lent: its own, and the present memory where it has none. */
static struct lent wanted_by(const struct call *c, struct memory *m)
{
    struct lent l = c->lent;
    lend_memory(&l, m);
    return l;
}

/* All slices are laid out, those that the call is not lent too: they have to stay as they are. */
static void lend_all(int side, const struct call *c, struct memory *m)
{
    struct lent from = wanted_by(c, m);
    lent[side] = from;
    for (int i = 0; i < SLICES; i++) {
        struct room *bytes = slice_in(&from, i), *to = slice_in(&lent[side], i);
        to->at = fenced(&fences[side][i], c->front, to->len);
        if (slices[i].use == TO_FILL)
            memset(to->at, c->filled, to->len);
        else if (to->len > 0)
            memcpy(to->at, bytes->at, to->len);
    }
    running = c;
    running_on = m;
}

size_t needed(struct call *c)
{
    c->lent.output.len = c->kind == CHANGES ? GAUGE_CHANGES_LEN(GAUGE_CACHE_MOST) : GAUGE_OUTPUT_LEN;
    lend_all(MODEL, c, &now);
    struct result r = by_model(c->kind, &lent[MODEL]);
    running = NULL;
    return c->kind == CHANGES ? r.numbers[2] : r.numbers[1] + r.numbers[2];
}

static char difference[80];

/* What is different in a slice after a call, or NULL: what was lent for writing must be the same on both sides, and the rest as it was. */
static const char *differs_in(int i, const struct call *c, struct memory *m)
{
    struct lent from = wanted_by(c, m);
    struct room as_lent = *slice_in(&from, i);
    const uint8_t *ours = slice_in(&lent[ARCHIVE], i)->at, *other = slices[i].use == TO_READ ? as_lent.at : slice_in(&lent[MODEL], i)->at;
    if (as_lent.len > 0 && memcmp(ours, other, as_lent.len) != 0) {
        size_t k = 0;
        while (ours[k] == other[k])
            k++;
        snprintf(difference, sizeof difference, "%s byte %zu is %02x by the archive, %02x by the model", slices[i].name, k, ours[k], other[k]);
        return difference;
    }
    for (int side = 0; side < SIDES; side++)
        if (!margin_whole(&fences[side][i], c->front, as_lent.len)) {
            snprintf(difference, sizeof difference, "written outside of %s", slices[i].name);
            return difference;
        }
    return NULL;
}

/* Was the call lent the night's own keys? */
static bool same_keys(const struct call *c)
{
    bool same = c->lent.own.len == own_len;
    for (size_t i = 0; same && i < own_len; i += GAUGE_RECORD_LEN)
        same = memcmp(c->lent.own.at + i, own + i, GAUGE_KEY_LEN) == 0;
    return same;
}

/* Is a slice kept with what a call was lent? The firsts are with the cache, to which they belong, where they are not lent too. */
static bool is_kept(int i, enum call_kind kind)
{
    return is_lent(i == LENT_firsts ? LENT_cache : i, kind);
}

/* The memory that an accepted call was lent stays as it left it; what was damaged for a refused one is as before, and so is all after a call with
 * other own keys. A look and a comparison are lent none. */
static void keep(const struct call *c, struct memory *m)
{
    struct lent left = lent[ARCHIVE];
    if (c->kind == LOOK || c->kind == CHANGES || !same_keys(c))
        return;
    for (int i = 0; i < SLICES; i++)
        if (!is_kept(i, c->kind))
            slice_in(&left, i)->at = NULL;
    keep_memory(m, &left);
}

/* Document 02, request 10: "changing the first cache by that list .. gives the second". One entry after the other, each at the place of its key; one
 * that is gone or held with another record must be there, and one that is new must not. On the way there may be twice as many as either cache has. */
static bool leads_to(struct room before, const uint8_t *list, size_t entries, struct room after)
{
    static uint8_t rows[2 * MEMORY_ROOM];
    size_t end = 0;
    memset(rows, 0, sizeof rows);
    memcpy(rows, before.at, before.len);
    while (end < before.len && rows[end + GAUGE_RECORD_COUNT] != 0)
        end += GAUGE_RECORD_LEN;
    for (; entries > 0; entries--, list += GAUGE_CHANGE_LEN) {
        const uint8_t *record = list + 1;
        size_t at = 0;
        while (at < end && memcmp(rows + at, record, GAUGE_KEY_LEN) < 0)
            at += GAUGE_RECORD_LEN;
        uint8_t *row = rows + at, *next = row + GAUGE_RECORD_LEN;
        bool there = at < end && memcmp(row, record, GAUGE_KEY_LEN) == 0;
        if (there == (list[0] == GAUGE_CHANGE_NEW))
            return false;
        if (list[0] == GAUGE_CHANGE_GONE)
            memmove(row, next, end - at);
        else if (list[0] == GAUGE_CHANGE_NEW)
            memmove(next, row, end - at);
        if (list[0] != GAUGE_CHANGE_GONE)
            memcpy(row, record, GAUGE_RECORD_LEN);
        end += list[0] == GAUGE_CHANGE_NEW ? GAUGE_RECORD_LEN : 0;
        end -= list[0] == GAUGE_CHANGE_GONE ? GAUGE_RECORD_LEN : 0;
    }
    return end <= after.len && memcmp(rows, after.at, after.len) == 0;
}

/* Runs a call on both sides. NULL, or what is different. */
static const char *run(const struct call *c, struct memory *m, struct result *answer)
{
    lend_all(ARCHIVE, c, m);
    lend_all(MODEL, c, m);
    struct result a = by_archive(c->kind, &lent[ARCHIVE]), b = by_model(c->kind, &lent[MODEL]);
    running = NULL;
    *answer = a;
    for (int i = 0; i < 12; i++)
        if (a.numbers[i] != b.numbers[i]) {
            snprintf(difference, sizeof difference, "answer %d is %u by the archive, %u by the model", i, a.numbers[i], b.numbers[i]);
            return difference;
        }
    for (int i = 0; i < SLICES; i++) {
        const char *what = differs_in(i, c, m);
        if (what != NULL)
            return what;
    }
    if (c->sound && c->kind != LOOK && a.numbers[0] == GAUGE_MEMORY)
        return "memory that calls have left is not in form";
    if (c->kind == CHANGES && a.numbers[0] == 0 && !leads_to(c->lent.before, lent[ARCHIVE].output.at, a.numbers[1], c->lent.after))
        return "the first cache changed by the list is not the second";
    if (a.numbers[0] == 0)
        keep(c, m);
    return NULL;
}

/* Telling a difference. */

/* Two digits to a byte, Z and four digits for so many zero bytes, - for none. */
static void show(const char *name, const uint8_t *p, size_t n)
{
    printf(" %s=%s", name, n == 0 ? "-" : "");
    for (size_t i = 0; i < n;) {
        size_t zeros = 0;
        while (i + zeros < n && p[i + zeros] == 0)
            zeros++;
        if (zeros >= 4) {
            printf("Z%04zX", zeros);
            i += zeros;
        } else {
            printf("%02X", p[i++]);
        }
    }
}

static void show_slices(struct lent l, enum call_kind kind)
{
    for (int i = 0; i < SLICES; i++)
        if (slice_in(&l, i)->at != NULL && slices[i].use != TO_FILL && is_lent(i, kind))
            show(slices[i].name, slice_in(&l, i)->at, slice_in(&l, i)->len);
}

static void show_call(const struct call *c)
{
    printf("%s major=%u minor=%u id=%u verdict=%u", call_names[c->kind], c->lent.major, c->lent.minor, c->lent.id, c->lent.verdict);
    show_slices(c->lent, c->kind);
    printf(" room=%zu filled=%02X\n", c->lent.output.len, c->filled);
}

/* A receive is lent all memory there is. */
static void show_memory(struct memory *m)
{
    struct lent l;
    memset(&l, 0, sizeof l);
    lend_memory(&l, m);
    printf("memory");
    show_slices(l, RECEIVE);
    printf("\n");
}

/* Runs the night's calls that are marked; gives how many were run when a difference came, or 0. */
static size_t differs(const bool *left, size_t n, const char **what)
{
    static struct memory m;
    struct result r;
    m = start;
    for (size_t i = 0; i < n; i++)
        if (left[i]) {
            *what = run(&night[i], &m, &r);
            if (*what != NULL)
                return i + 1;
        }
    return 0;
}

/* Leaves out runs of calls, halves first, as long as a difference remains. */
static void tell_shortest(void)
{
    static bool left[NIGHT], tried[NIGHT];
    const char *what = "nothing", *other;
    size_t n = night_len;
    for (size_t i = 0; i < n; i++)
        left[i] = true;
    for (size_t width = n; width > 0; width /= 2)
        for (size_t from = 0; from < n; from += width) {
            memcpy(tried, left, sizeof tried);
            for (size_t i = from; i < from + width && i < n; i++)
                tried[i] = false;
            size_t at = differs(tried, n, &other);
            if (at != 0) {
                memcpy(left, tried, sizeof left);
                n = at;
            }
        }
    differs(left, n, &what);
    printf("compare: shortest: %s\n", what);
    show_memory(&start);
    for (size_t i = 0; i < n; i++)
        if (left[i])
            show_call(&night[i]);
}

static void stopped(int signal_number)
{
    if (running != NULL) {
        printf("compare: signal %d in call %lu, night %lu, seed %llu: outside of what was lent\n", signal_number, calls_run, nights_run,
               (unsigned long long)seed);
        show_memory(running_on);
        show_call(running);
        fflush(stdout);
    }
    _exit(1);
}

/* The next call of the night, drawn and run on both sides; NULL, or what is different. */
static const char *next_call(void)
{
    static struct memory before;
    struct call *c = &night[night_len++];
    struct result r;
    make_call(c);
    calls_run++;
    copy_memory(&before, &now);
    const char *what = run(c, &now, &r);
    if (what == NULL)
        count_call(c, r.numbers, lent[ARCHIVE].output.at, &before);
    return what;
}

static int differ(const char *what, bool plain)
{
    const char *kind = call_names[night[night_len - 1].kind];
    printf("compare: %s in call %lu, night %lu, seed %llu: %s\n", kind, calls_run, nights_run, (unsigned long long)seed, what);
    if (!plain)
        tell_shortest();
    return 1;
}

int main(int argc, char **argv)
{
    bool plain = argc > 1 && strcmp(argv[1], "plain") == 0;
    argv += plain;
    argc -= plain;
    unsigned long wanted = argc > 1 ? strtoul(argv[1], NULL, 10) : GATE;
    chance_state = seed = argc > 2 ? strtoull(argv[2], NULL, 10) : 1;
    size_t length = 0;
    set_least(wanted, GATE);
    for (int i = 0; i < SIDES * SLICES; i++)
        fences[i / SLICES][i % SLICES] = fence_of(slices[i % SLICES].use == TO_FILL ? OUTPUT_ROOM : MEMORY_ROOM);
    signal(SIGSEGV, stopped);
    signal(SIGBUS, stopped);
    while (calls_run < wanted) {
        if (night_len == length || arena_used > ARENA - 200000) {
            length = begin_night();
            start = now;
            night_len = arena_used = 0;
            nights_run++;
        }
        const char *what = next_call();
        if (what != NULL)
            return differ(what, plain);
    }
    int faults = plain ? 0 : show_reached();
    if (faults != 0) {
        printf("compare: %d marked '!': possible and reached too seldom, or not possible and reached\n", faults);
        return 1;
    }
    printf("compare: %lu calls in %lu nights, seed %llu: the same\n", calls_run, nights_run, (unsigned long long)seed);
    return 0;
}
