/* The hill: 61 ponds, their gauges in one process, and a radio between them that loses one datagram in ten and brings the others in no order. One
 * gauge stands for two ponds, all others for one.
 *
 *     make hill
 *
 * Each gauge knows where one other is, and no more. Its radio program (all of them are this one) floods the gauge's own record to that other for some
 * seconds; and from the start, each second, it floods its own record, of two each in its turn, or one that it holds to gauges that it holds. When
 * every neighbour list is the true one, three things happen: a gauge falls silent, another is revoked, and the address of a third, which has fallen
 * silent too, is given to a new gauge. Before that is known everywhere, the office asks on from gauge to gauge: without a path, which leads it round a
 * circle, and with one.
 *
 * Each AUTHORITY carries a reading of the pond that sends it: gauge_carry puts it in, and gauge_carried tells it where the AUTHORITY is accepted. Readings
 * are made up here. Pond n is n / 4 metres deep, or has fault 700 + n where n ends with 5; 40 n litres came in, and 35 n went out, or 80 n where n leaves
 * 5 when divided by 8. The run ends with what the last reading of each pond says.
 *
 * The gauge reads all datagrams, by gauge_look too, and gauge_host.h writes those for which it has no call, the first FLOOD, the revocation and the
 * LOOKUP: no byte of one is laid out here.
 *
 * The calls of each gauge are recorded (gauge_trace.h), but of the one that stands for two ponds: pond n's in target/hill/pond-n.trace, from when it begins,
 * and beside it in pond-n.hours when each was made and whose datagram it was. `make hill` makes that folder. Pond 34's night is target/hill.trace and
 * target/hill.hours too, with its answers in target/hill.answers; the ponds' names, for bin/shown, are in target/hill.names; the last reading of each pond
 * on the hill, for bin/ponds, in target/hill.readings, and the names in the same order in target/hill.readings.names.
 *
 * The hours are made up, as there is no clock here. The hill begins at 22:00 of 1 November 2026, UTC. In each second behind that all gauges tick and flood
 * first, and then every fourth datagram that the radio is done with moves the clock on by a millisecond, up to 999. Everybody is at port 5000 of his
 * address, the office too, whose number is 0.
 *
 * That gauge's cache is saved when every list is the true one for the first time, and at the end: target/hill.before.cache and
 * target/hill.after.cache, for bin/changes, with its own record in target/hill.own. gauge_changes tells what changed between them.
 *
 * What a CPA is made of is no matter of the gauge. Here it is one byte, which tells for which of its gauge's ponds it is, 0 for the first, and a
 * revoke CPA is the key; both are believed. Real ones are signed, and hold the nonce of the INQUIRE. Random numbers here come in the same order at
 * each run, so that each run is the same. */
#include "gauge_host.h"
#include "gauge_trace.h"
#include <stdarg.h>
#include <stdbool.h>
#include <stdio.h>
#include <stdlib.h>
#include <string.h>

#define MAJOR GAUGE_DRT_MAJOR
#define MINOR GAUGE_DRT_MINOR
#define PONDS 61
#define NEW 62      /* the gauge that gets another's address */
#define RECORDED 34 /* the gauge whose night stands in target/hill.trace too */
#define SECOND 44   /* this pond has no gauge of its own: .. */
#define FIRST_OF 13 /* .. that of this one stands for both, and is not recorded: a trace has one own record. It has ten places and more for each. */
#define FIRST 10    /* seconds in which a gauge floods its record to the one that it knows */
#define FLOODS 2    /* to gauges held, each second */
#define SENT 32     /* datagrams kept until they are answered: 16 at most wait, and some are not yet forgotten */
#define AIR 4096    /* datagrams under way */
#define LATE 20     /* so many are still under way when a second is over */
#define SIDE 5      /* neighbours on either side */
#define APART 4     /* a pond's key begins with so many times its number: so the ponds stand all round the ring, and pond 1 comes after the last */
#define HOUR 3600
#define ON 12       /* so many are asked at most, one after the other */
#define PORT 5000
#define BEGINS 1793570400000 /* 2026-11-01 22:00 UTC, in milliseconds since 1970 */
#define EACH 4      /* so many datagrams move the clock on by a millisecond */

/* A datagram with the addresses that it goes from and to. An address is FE80:: and a number, and that number stands for it here. */
struct datagram {
    unsigned from, to;
    size_t len;
    uint8_t bytes[GAUGE_DATAGRAM_MOST];
};

/* What a gauge is lent, and what its radio program keeps beside it. */
struct pond {
    bool on;                 /* it works */
    bool listed;             /* it belongs into its neighbours' lists, working or not: it was neither revoked nor replaced */
    unsigned address, known; /* its own address, and the one that it knows from the start */
    struct gauge_lent lent;  /* all that the calls are lent, .. */
    uint8_t cache[GAUGE_CACHE_LEN(GAUGE_TRACE_HELD)]; /* .. with this cache */
    unsigned age;            /* seconds that it works */
    struct {
        uint32_t id;
        struct datagram what;
    } sent[SENT];                   /* those with `len` 0 are free */
    uint8_t revoked[GAUGE_KEY_LEN]; /* the last key that it was told is revoked */
    bool recorded;                  /* .. in this trace */
    struct gauge_trace trace;
};

static struct pond ponds[NEW + 1]; /* by number, from 1 */
static unsigned at[NEW + 1];       /* which pond has an address; address 0 is the office's */
static struct datagram air[AIR];
static size_t under_way;
static unsigned long seconds, datagrams, lost;
static unsigned long done; /* datagrams that the radio is done with in this second */
static unsigned told;      /* how often an ACK with N has taken a key out */
static unsigned closest;   /* the pond that the last answer to the office named, 0 for none, .. */
static unsigned closest_at; /* .. and the address that it named with it */
static struct gauge_reading last[NEW + 1]; /* the last reading that came from a pond; its kind is 0 where none came */
static unsigned long readings;             /* how many came */
/* CPAs as they are lent, each behind its length: of the first pond of a gauge alone, as a trace wants it, or of both. */
static const uint8_t cpas[] = {1, 0, 0, 1, 0, 1};
static uint8_t saved[GAUGE_CACHE_LEN(GAUGE_TRACE_HELD)]; /* the recorded gauge's cache, when every list was the true one for the first time */
#define OFFICE (&ponds[0]) /* it asks, and has no gauge */

static void stop(const char *format, ...)
{
    va_list list;
    va_start(list, format);
    vprintf(format, list);
    va_end(list);
    exit(1);
}

static unsigned number_of(const struct pond *p)
{
    return (unsigned)(p - ponds);
}

/* Below n, by a generator of 64 bits (xorshift). */
static uint32_t dice(uint32_t n)
{
    static uint64_t state = 61;
    state ^= state << 13;
    state ^= state >> 7;
    state ^= state << 17;
    return (uint32_t)(state >> 32) % n;
}

static void random_bytes(uint8_t *bytes, size_t len)
{
    for (size_t i = 0; i < len; i++)
        bytes[i] = (uint8_t)dice(256);
}

static FILE *opened(const char *path)
{
    FILE *f = fopen(path, "wb");
    if (f == NULL)
        stop("%s can't be written\n", path);
    return f;
}

static void closed(FILE *f, const char *path)
{
    if (ferror(f) != 0 || fclose(f) != 0)
        stop("%s could not be written\n", path);
}

/* Where everybody is, and when. */

static void set_address(unsigned address, uint8_t *bytes)
{
    memset(bytes, 0, GAUGE_ADDRESS_LEN);
    bytes[0] = 0xFE;
    bytes[1] = 0x80;
    bytes[GAUGE_ADDRESS_LEN - 1] = (uint8_t)address;
}

static void set_endpoint(unsigned address, uint8_t *endpoint)
{
    endpoint[0] = PORT >> 8;
    endpoint[1] = PORT & 255;
    set_address(address, endpoint + 2);
}

static uint64_t hour(void)
{
    unsigned long within = done / EACH;
    return BEGINS + 1000 * (uint64_t)seconds + (within < 999 ? within : 999);
}

/* A gauge's night. */

static const char *night_path(unsigned number, const char *ending)
{
    static char path[64];
    snprintf(path, sizeof path, "target/hill/pond-%u.%s", number, ending);
    return path;
}

static void begin_night(struct pond *p)
{
    unsigned n = number_of(p);
    FILE *calls = opened(night_path(n, "trace")), *hours = opened(night_path(n, "hours"));
    FILE *answers = n == RECORDED ? opened("target/hill.answers") : NULL;
    p->trace = gauge_trace_begin(calls, answers, hours, MAJOR, MINOR, p->lent.own, hour());
    p->recorded = true;
}

static void end_night(struct pond *p)
{
    unsigned n = number_of(p);
    if (p->trace.failed)
        stop("pond %u's night could not be written\n", n);
    closed(p->trace.calls, night_path(n, "trace"));
    closed(p->trace.hours, night_path(n, "hours"));
    if (p->trace.answers != NULL)
        closed(p->trace.answers, "target/hill.answers");
}

static void copy(const char *from, const char *to)
{
    FILE *in = fopen(from, "rb"), *out = opened(to);
    if (in == NULL)
        stop("%s can't be read\n", from);
    for (int c; (c = getc(in)) != EOF;)
        putc(c, out);
    closed(in, from);
    closed(out, to);
}

/* The radio. */

static void send(const struct pond *from, unsigned to, const uint8_t *bytes, size_t len)
{
    datagrams++;
    if (under_way == AIR)
        stop("the air is full\n");
    struct datagram *d = &air[under_way++];
    d->from = from->address;
    d->to = to;
    d->len = len;
    memcpy(d->bytes, bytes, len);
}

/* The last byte of an address tells it here. */
static unsigned address_at(const uint8_t *addresses)
{
    return addresses[GAUGE_ADDRESS_LEN - 1];
}

/* What is sent and must be answered is kept with its ID, for the ticks. */
static void send_and_keep(struct pond *p, unsigned to, const uint8_t *bytes, size_t len)
{
    for (size_t i = 0; i < SENT; i++) {
        struct datagram *d = &p->sent[i].what;
        if (d->len == 0) {
            p->sent[i].id = gauge_look(MAJOR, bytes, len).id;
            d->to = to;
            d->len = len;
            memcpy(d->bytes, bytes, len);
            send(p, to, bytes, len);
            return;
        }
    }
    stop("pond %u keeps too much\n", number_of(p));
}

static void forget(struct pond *p, uint32_t id)
{
    for (size_t i = 0; i < SENT; i++)
        if (p->sent[i].id == id)
            p->sent[i].what.len = 0;
}

/* What the gauge has no call for: three messages that gauge_host.h writes. The first is our own record to a gauge that is not held. */

static void send_first_flood(struct pond *p, unsigned to)
{
    uint8_t flood[GAUGE_SEND_LEN];
    send(p, to, flood, gauge_first_flood(&p->lent, flood));
}

static void send_revocation(struct pond *p, unsigned to, const uint8_t *key)
{
    uint8_t revocation[GAUGE_DATAGRAM_MOST];
    send(p, to, revocation, gauge_revocation(&p->lent, key, GAUGE_KEY_LEN, revocation));
}

/* The path are the endpoints of those that were asked already. Our own record goes with it, where we have one. */
static void send_lookup(struct pond *p, unsigned to, const uint8_t *target, const uint8_t *path, size_t path_len)
{
    uint8_t lookup[GAUGE_LOOKUP_MOST];
    send(p, to, lookup, gauge_lookup_along(&p->lent, target, path, path_len, lookup));
}

static const uint8_t *record(const struct pond *p, size_t i)
{
    return gauge_lent_record(&p->lent, i);
}

static uint32_t held(const struct pond *p)
{
    return gauge_lent_held(&p->lent);
}

/* The gauge that stands for a pond. */
static const struct pond *gauge_of(const struct pond *p)
{
    return p == &ponds[SECOND] ? &ponds[FIRST_OF] : p;
}

/* The neighbour list of a pond, asked for by its key. */
static struct gauge_answer neighbours(const struct pond *p, uint8_t *keys)
{
    const struct gauge_lent *l = &gauge_of(p)->lent;
    struct gauge_answer a = gauge_neighbours(l->own, l->own_len, l->cache, l->cache_len, p->lent.own + GAUGE_RECORD_KEY, GAUGE_KEY_LEN, keys,
                                             GAUGE_LIST_LEN);
    if (a.number != GAUGE_OK)
        stop("pond %u: gauge_neighbours gave %u\n", number_of(p), a.number);
    return a;
}

/* A revocation goes to all gauges that are held, once. */
static void pass_on(struct pond *p, const uint8_t *key)
{
    if (memcmp(p->revoked, key, GAUGE_KEY_LEN) == 0)
        return;
    memcpy(p->revoked, key, GAUGE_KEY_LEN);
    for (uint32_t i = 0; i < held(p); i++)
        send_revocation(p, address_at(record(p, i) + GAUGE_RECORD_ADDRESSES), key);
}

/* Readings. */

static struct gauge_reading reading_of(unsigned number)
{
    struct gauge_reading r = {GAUGE_OK, GAUGE_READING_OK, GAUGE_READING_DEPTH, 0, 40 * number, 35 * number};
    float metres = (float)number / 4;
    memcpy(&r.measure, &metres, sizeof metres);
    if (number % 10 == 5) {
        r.kind = GAUGE_READING_FAULT;
        r.measure = 700 + number;
    }
    if (number % 8 == 5)
        r.litres_out = 80 * number;
    return r;
}

/* The pond that an AUTHORITY of a gauge is for: where its CPA says so the second, else the first. */
static unsigned pond_told(unsigned number, const uint8_t *bytes, size_t len)
{
    struct gauge_look_answer seen = gauge_look(MAJOR, bytes, len);
    return number == FIRST_OF && seen.cpa_len > 0 && bytes[seen.cpa_at] == 1 ? SECOND : number;
}

/* An AUTHORITY of the gauge goes out with the pond's reading. */
static void send_authority(const struct pond *p, unsigned to, const uint8_t *bytes, size_t len)
{
    uint8_t output[GAUGE_DATAGRAM_MOST];
    struct gauge_reading r = reading_of(pond_told(number_of(p), bytes, len));
    struct gauge_carry_answer c = gauge_lent_carry(&p->lent, bytes, len, &r, output, sizeof output);
    if (c.number != GAUGE_OK || c.reading != GAUGE_READING_OK)
        stop("pond %u: gauge_carry gave %u and %u\n", number_of(p), c.number, c.reading);
    send(p, to, output, c.length);
}

/* An AUTHORITY that is believed has come: its reading must be the one that was sent. */
static void take_reading(const struct datagram *d)
{
    unsigned number = pond_told(at[d->from], d->bytes, d->len);
    struct gauge_reading came = gauge_carried(MAJOR, d->bytes, d->len), sent = reading_of(number);
    if (memcmp(&came, &sent, sizeof came) != 0)
        stop("pond %u's reading came as another one\n", number);
    last[number] = came;
    readings++;
}

/* A datagram arrives. */

/* The verdict on its CPA, and the key that it is good for: of an AUTHORITY that of the sender's pond, of a revocation the one in it. */
static uint32_t judge(const struct datagram *d, const struct gauge_look_answer *seen, uint8_t *key)
{
    memset(key, 0, GAUGE_KEY_LEN);
    if (seen->kind == GAUGE_AUTHORITY && seen->cpa_len == 1 && d->bytes[seen->cpa_at] <= 1)
        memcpy(key, ponds[pond_told(at[d->from], d->bytes, d->len)].lent.own + GAUGE_RECORD_KEY, GAUGE_KEY_LEN);
    else if (seen->kind == GAUGE_FLOOD && seen->cpa_len == GAUGE_KEY_LEN)
        memcpy(key, d->bytes + seen->cpa_at, GAUGE_KEY_LEN);
    else
        return 0;
    return GAUGE_GOOD;
}

/* ACK and AUTHORITY go to the sender; an INQUIRE goes to the gauge that the FLOOD or LOOKUP told of, and is kept. */
static void send_answer(struct pond *p, const struct datagram *d, const struct gauge_look_answer *seen, const uint8_t *bytes, size_t len)
{
    uint32_t kind = len == 0 ? 0 : gauge_look(MAJOR, bytes, len).kind;
    if (kind == GAUGE_INQUIRE)
        send_and_keep(p, address_at(d->bytes + seen->entry_at + GAUGE_ENTRY_ADDRESSES), bytes, len);
    else if (kind == GAUGE_AUTHORITY)
        send_authority(p, d->from, bytes, len);
    else if (kind == GAUGE_ACK)
        send(p, d->from, bytes, len);
}

/* The gauge has accepted a datagram: what was answered by it is forgotten, its reading taken, and a revocation passed on. */
static void accepted(struct pond *p, const struct datagram *d, const struct gauge_look_answer *seen, const uint8_t *key, uint32_t held_before)
{
    if (seen->kind == GAUGE_ACK || seen->kind == GAUGE_AUTHORITY)
        forget(p, seen->acked);
    if (seen->kind == GAUGE_AUTHORITY)
        take_reading(d);
    if (seen->kind == GAUGE_ACK && held(p) < held_before)
        told++;
    if (seen->kind == GAUGE_FLOOD && seen->entry_len == 0)
        pass_on(p, key);
}

static void arrives(struct pond *p, const struct datagram *d)
{
    struct gauge_lent *l = &p->lent;
    uint8_t key[GAUGE_KEY_LEN];
    struct gauge_look_answer seen = gauge_lent_look(l, d->bytes, d->len);
    uint32_t verdict = judge(d, &seen, key), held_before = held(p), id = l->id;
    random_bytes(l->nonce, sizeof l->nonce);
    gauge_lent_verdict(l, verdict, key);
    struct gauge_answer a = gauge_lent_receive(l, d->bytes, d->len);
    if (p->recorded) {
        uint8_t sender[GAUGE_ENDPOINT_LEN];
        set_endpoint(d->from, sender);
        gauge_trace_at(&p->trace, hour(), sender);
        gauge_trace_receive(&p->trace, a, id, l->nonce, verdict, key, d->bytes, d->len);
    }
    switch (a.number) {
    case GAUGE_OK:
        accepted(p, d, &seen, key, held_before);
        send_answer(p, d, &seen, l->output, a.first);
        send_answer(p, d, &seen, l->output + a.first, a.second);
        break;
    case GAUGE_STRAY:    /* an answer for the second time, or too late; or to a LOOKUP, for which nothing waits */
    case GAUGE_OWN_KEY:  /* somebody tells one of our two ponds of the other */
    case GAUGE_NOT_OURS: /* somebody inquires about the gauge that had our address */
    case GAUGE_FULL:     /* too much waits: the sender will try again */
        break;
    default: stop("pond %u: gauge_receive gave %u, %s\n", number_of(p), a.number, gauge_number_text(a.number));
    }
}

/* The office has no gauge. What it gets is the answer to its LOOKUP, whose route entry is the closest record; its key tells the pond. */
static void arrives_at_office(const struct datagram *d)
{
    struct gauge_look_answer seen = gauge_look(MAJOR, d->bytes, d->len);
    if (seen.number != GAUGE_OK || seen.kind != GAUGE_AUTHORITY || seen.entry_len == 0)
        stop("the office gets something else than it asked for\n");
    closest = d->bytes[seen.entry_at + GAUGE_ENTRY_KEY] / APART;
    closest_at = address_at(d->bytes + seen.entry_at + GAUGE_ENTRY_ADDRESSES);
    take_reading(d);
}

/* What is under way arrives in no order, up to so many that are left, and some of it not at all. The answers to it go the same way. */
static void radio(size_t left)
{
    while (under_way > left) {
        size_t i = dice((uint32_t)under_way);
        struct datagram d = air[i];
        air[i] = air[--under_way];
        done++;
        struct pond *p = &ponds[at[d.to]];
        if (dice(10) == 0)
            lost++;
        else if (p == OFFICE)
            arrives_at_office(&d);
        else if (p->on)
            arrives(p, &d);
    }
}

/* What a radio program does each second. */

/* What the tick lists is sent again; what is kept and not listed is forgotten. */
static void tick(struct pond *p)
{
    struct gauge_answer a = gauge_lent_tick(&p->lent);
    if (p->recorded) {
        gauge_trace_at(&p->trace, hour(), NULL);
        gauge_trace_tick(&p->trace, a);
    }
    if (a.number != GAUGE_OK)
        stop("pond %u: gauge_tick gave %u\n", number_of(p), a.number);
    for (size_t i = 0; i < SENT; i++) {
        struct datagram *d = &p->sent[i].what;
        if (!gauge_tick_lists(p->lent.output, a.first, p->sent[i].id))
            d->len = 0;
        if (d->len > 0)
            send(p, d->to, d->bytes, d->len);
    }
}

/* Our own record; of two each in its turn. */
static const uint8_t *own_record(const struct pond *p)
{
    return p->lent.own + GAUGE_CACHE_LEN(p->lent.id % (p->lent.own_len / GAUGE_RECORD_LEN));
}

/* A record goes to a gauge that we hold: one that we hold with a key near to that gauge's, round the ring, or else our own. */
static void flood(struct pond *p)
{
    uint32_t n = held(p), to = dice(n), near = (to + dice(2 * SIDE + 1) + SIDE * (n - 1)) % n; /* SIDE less, modulo n */
    const uint8_t *neighbour = record(p, to), *what = near == to ? own_record(p) : record(p, near);
    uint32_t id = p->lent.id;
    struct gauge_answer a = gauge_lent_send(&p->lent, neighbour + GAUGE_RECORD_KEY, what + GAUGE_RECORD_KEY);
    if (p->recorded) {
        uint8_t receiver[GAUGE_ENDPOINT_LEN];
        gauge_endpoint(neighbour, receiver);
        gauge_trace_at(&p->trace, hour(), receiver);
        gauge_trace_send(&p->trace, a, id, neighbour + GAUGE_RECORD_KEY, what + GAUGE_RECORD_KEY);
    }
    if (a.number == GAUGE_OK)
        send_and_keep(p, address_at(neighbour + GAUGE_RECORD_ADDRESSES), p->lent.output, a.first);
    else if (a.number != GAUGE_FULL) /* too much waits: later */
        stop("pond %u: gauge_send gave %u\n", number_of(p), a.number);
}

static void second(void)
{
    seconds++;
    done = 0;
    for (struct pond *p = ponds + 1; p <= ponds + NEW; p++) {
        if (!p->on)
            continue;
        tick(p);
        if (p->age++ < FIRST)
            send_first_flood(p, p->known);
        for (int i = 0; held(p) > 0 && i < FLOODS; i++)
            flood(p);
    }
    radio(LATE);
}

/* What a keeper looks at. */

/* The next pond that belongs into lists, down the ring or up: below pond 1 is the last, and above the last pond 1. */
static const struct pond *next(const struct pond *p, int step)
{
    do {
        p += step;
        if (p == ponds)
            p = ponds + NEW;
        else if (p > ponds + NEW)
            p = ponds + 1;
    } while (!p->listed);
    return p;
}

/* Whether the list of a pond is the true one: the five next ponds on either side, nearest first. */
static bool is_right(const struct pond *p)
{
    uint8_t keys[GAUGE_LIST_LEN], truth[GAUGE_LIST_LEN];
    const struct pond *down = p, *up = p;
    for (size_t i = 0; i < SIDE; i++) {
        down = next(down, -1);
        up = next(up, 1);
        memcpy(truth + GAUGE_KEY_LEN * i, down->lent.own + GAUGE_RECORD_KEY, GAUGE_KEY_LEN);
        memcpy(truth + GAUGE_KEY_LEN * (SIDE + i), up->lent.own + GAUGE_RECORD_KEY, GAUGE_KEY_LEN);
    }
    struct gauge_answer a = neighbours(p, keys);
    return a.first == SIDE && a.second == SIDE && memcmp(keys, truth, sizeof truth) == 0;
}

/* How many ponds have a gauge that works, and how many of them the true list. */
static unsigned working(void)
{
    unsigned n = 0;
    for (const struct pond *p = ponds + 1; p <= ponds + NEW; p++)
        n += gauge_of(p)->on;
    return n;
}

static unsigned right(void)
{
    unsigned n = 0;
    for (const struct pond *p = ponds + 1; p <= ponds + NEW; p++)
        n += gauge_of(p)->on && is_right(p);
    return n;
}

static void until_right(void)
{
    unsigned long seconds_before = seconds, datagrams_before = datagrams, lost_before = lost;
    while (right() < working()) {
        if (seconds - seconds_before == HOUR)
            stop("an hour later only %u lists of %u are right\n", right(), working());
        second();
    }
    printf("  all %u lists are right: it took %lu s and %lu datagrams, of which %lu were lost\n", working(), seconds - seconds_before,
           datagrams - datagrams_before, lost - lost_before);
}

/* A minute in which no list changes. */
static void minute(void)
{
    for (int i = 0; i < 60; i++)
        second();
    if (right() < working())
        stop("only %u lists of %u are right\n", right(), working());
}

static void tell(unsigned number, const char *what)
{
    unsigned n = 0;
    printf("  pond %u: %s", number, what);
    for (const struct pond *p = ponds + 1; p <= ponds + NEW; p++) {
        uint8_t keys[GAUGE_LIST_LEN];
        uint32_t listed = 0;
        if (gauge_of(p)->on) {
            struct gauge_answer a = neighbours(p, keys);
            listed = a.first + a.second;
        }
        for (uint32_t i = 0; i < listed; i++)
            if (memcmp(keys + GAUGE_KEY_LEN * i, ponds[number].lent.own + GAUGE_RECORD_KEY, GAUGE_KEY_LEN) == 0)
                printf("%s %u", n++ == 0 ? " listed by ponds" : "", number_of(p));
    }
    printf("%s\n", n == 0 ? " listed by none" : "");
}

/* The office asks a pond, until an answer comes, which key is closest to a target. */
static void ask(unsigned whom, const uint8_t *target)
{
    for (closest = 0; closest == 0; second())
        send_lookup(OFFICE, ponds[whom].address, target, target, 0);
    printf("  pond %u says: pond %u\n", whom, closest);
}

/* The pond at the address that a pond names. While it is asked, nothing arrives but what is under way and the answers to it. */
static unsigned named_by(unsigned whom, const uint8_t *target, const uint8_t *path, size_t path_len)
{
    int tries = HOUR;
    for (closest = 0; closest == 0; radio(0)) {
        if (tries-- == 0)
            stop("pond %u does not answer\n", whom);
        send_lookup(OFFICE, ponds[whom].address, target, path, path_len);
    }
    return at[closest_at];
}

/* The office asks a pond, then the one that it names, and so on until one names itself. Gives how often one was asked again. With the path of those
 * that were asked nobody is: they are not named. */
static unsigned ask_on(unsigned whom, const uint8_t *target, bool with_path)
{
    uint8_t path[ON * GAUGE_ENDPOINT_LEN];
    bool asked[NEW + 1] = {false};
    unsigned now = 0, again = 0;
    printf("  it asks ponds");
    for (size_t n = 0; n < ON && whom != now; n++) {
        now = whom;
        printf(" %u", now);
        again += asked[now];
        asked[now] = true;
        whom = named_by(now, target, path, with_path ? n * GAUGE_ENDPOINT_LEN : 0);
        gauge_endpoint(ponds[now].lent.own, path + n * GAUGE_ENDPOINT_LEN);
    }
    printf("%s\n", whom == now ? ", which names itself" : " and so on");
    return again;
}

static bool holds(unsigned number, const uint8_t *key)
{
    const struct gauge_lent *l = &ponds[number].lent;
    return gauge_lent_find(l, key) < gauge_lent_held(l);
}

/* Pond 33's record names an address where another gauge is now. Whoever still holds it sends the office there, and that gauge sends it back. */
static void round_circle(void)
{
    const uint8_t *target = ponds[33].lent.own + GAUGE_RECORD_KEY;
    unsigned first = 1;
    while (held(&ponds[NEW]) == 0)
        second();
    while (!holds(first, target))
        first++;
    printf("The office asks on for pond 33's key, and does not say whom it has asked:\n");
    if (ask_on(first, target, false) == 0)
        stop("nobody was asked again\n");
    printf("The same with the path of those that it has asked:\n");
    if (ask_on(first, target, true) > 0)
        stop("somebody was asked again\n");
}

/* A gauge asks one that does not hold it; its own record stands in the LOOKUP, and is inquired about. */
static void introduce(unsigned number, unsigned to)
{
    const uint8_t *key = ponds[number].lent.own + GAUGE_RECORD_KEY;
    if (holds(to, key))
        stop("pond %u holds pond %u already\n", to, number);
    for (int tries = HOUR; !holds(to, key); radio(0)) {
        if (tries-- == 0)
            stop("pond %u does not hold pond %u\n", to, number);
        send_lookup(&ponds[number], ponds[to].address, key, key, 0);
    }
    printf("  pond %u has inquired, and holds pond %u\n", to, number);
}

/* What changed in the cache that was saved, up to now. A key's first byte tells its pond. */
static void tell_changes(void)
{
    static uint8_t list[GAUGE_CHANGES_LEN(GAUGE_TRACE_HELD)];
    const struct pond *p = &ponds[RECORDED];
    struct gauge_answer a = gauge_lent_changes(&p->lent, saved, sizeof saved, p->cache, sizeof p->cache, list, sizeof list);
    if (a.number != GAUGE_OK)
        stop("pond %d: gauge_changes gave %u\n", RECORDED, a.number);
    printf("What changed since every list was right for the first time, of what pond %d's gauge holds:\n ", RECORDED);
    for (uint32_t i = 0; i < a.first; i++)
        printf("%s pond %u %s", i > 0 ? "," : "", gauge_change_record(list, i)[GAUGE_RECORD_KEY] / APART,
               gauge_change_text(gauge_change_kind(list, i)));
    printf("\n");
}

/* What the readings say of the ponds that are on the hill: how deep, which have a fault, which lose water. */

static float depth_in(const struct gauge_reading *r)
{
    float metres;
    memcpy(&metres, &r->measure, sizeof metres);
    return metres;
}

static void tell_depths(void)
{
    unsigned deepest = 0;
    float most = 0;
    printf("  no depth, but a fault:");
    for (unsigned n = 1; n <= NEW; n++) {
        const struct gauge_reading *r = &last[n];
        if (ponds[n].listed && r->kind == GAUGE_READING_FAULT)
            printf(" pond %u (%u)", n, r->measure);
        if (ponds[n].listed && r->kind == GAUGE_READING_DEPTH && depth_in(r) > most) {
            deepest = n;
            most = depth_in(r);
        }
    }
    printf("\n  deepest: pond %u, %.2f m\n", deepest, (double)most);
}

static void tell_balance(void)
{
    int64_t sum = 0;
    printf("  litres in minus litres out, where it is a deficit:");
    for (unsigned n = 1; n <= NEW; n++) {
        int64_t balance = ponds[n].listed ? gauge_balance(last[n].litres_in, last[n].litres_out) : 0;
        sum += balance;
        if (balance < 0)
            printf(" pond %u (%lld)", n, (long long)balance);
    }
    printf("\n  litres in minus litres out, all ponds together: %lld\n", (long long)sum);
}

static void tell_readings(void)
{
    unsigned of = 0;
    for (unsigned n = 1; n <= NEW; n++)
        of += ponds[n].listed && last[n].kind != 0;
    printf("%lu readings came with the AUTHORITYs, each as it was sent. The last ones of the %u ponds:\n", readings, of);
    tell_depths();
    tell_balance();
}

/* A pond's own record, and with it nothing in memory. The first byte of its key tells its number, the rest is random. */
static void set_own(unsigned number, unsigned address)
{
    struct pond *p = &ponds[number];
    uint8_t key[GAUGE_KEY_LEN] = {(uint8_t)(APART * number)}, place[GAUGE_ADDRESS_LEN];
    random_bytes(key + 1, sizeof key - 1);
    set_address(address, place);
    p->listed = true;
    p->address = address;
    gauge_lent_begin(&p->lent, p->cache, sizeof p->cache, cpas, sizeof cpas / 2);
    gauge_lent_own(&p->lent, key, PORT, place, 1);
}

static void begin(unsigned number, unsigned address, unsigned known)
{
    struct pond *p = &ponds[number];
    set_own(number, address);
    p->on = true;
    p->known = known;
    p->lent.id = 1000000 * number;
    at[address] = number;
    if (number != FIRST_OF)
        begin_night(p);
}

/* One gauge stands for a second pond too, at the same address: it has two own records, and lends two CPAs. */
static void begin_second(void)
{
    struct gauge_lent *l = &ponds[FIRST_OF].lent;
    set_own(SECOND, ponds[FIRST_OF].address);
    const uint8_t *own = ponds[SECOND].lent.own;
    if (gauge_lent_pond(l, own + GAUGE_RECORD_KEY, PORT, own + GAUGE_RECORD_ADDRESSES) != 2)
        stop("pond %d's gauge stands for no second pond\n", FIRST_OF);
    l->cpas_len = sizeof cpas;
}

static void hill(void)
{
    printf("%d ponds and %d gauges, each of which knows where one other is; pond %d's stands for pond %d too. The radio loses one datagram in ten, and "
           "brings the others in no order.\n", PONDS, PONDS - 1, FIRST_OF, SECOND);
    until_right();
    tell(1, "after the last one round the ring,");
    tell(FIRST_OF, "the first of its gauge,");
    tell(SECOND, "the second of that gauge,");
    memcpy(saved, ponds[RECORDED].cache, sizeof saved);

    printf("Pond 7's gauge falls silent. A minute later:\n");
    ponds[7].on = false;
    minute();
    tell(7, "silent, still");

    printf("Pond 20's gauge is revoked, and taken away.\n");
    pass_on(&ponds[20], ponds[20].lent.own + GAUGE_RECORD_KEY);
    ponds[20].on = ponds[20].listed = false;
    until_right();
    tell(20, "revoked,");

    printf("Pond 33's gauge falls silent. A minute later:\n");
    ponds[33].on = false;
    minute();
    tell(33, "silent, still");

    printf("Its address is given to pond %d's gauge, which is new. Whoever floods to pond 33 now gets an ACK with N: no such key here.\n", NEW);
    ponds[33].listed = false;
    begin(NEW, 33, 32);
    round_circle();
    printf("Pond %d's gauge asks pond 10, which does not hold it, with its own record in the LOOKUP.\n", NEW);
    introduce(NEW, 10);
    printf("Some time later:\n");
    until_right();
    printf("  %u gauges were told so, and took it out\n", told);
    tell(33, "replaced,");
    tell(NEW, "new,");
    tell(7, "silent, still");

    printf("The office asks for the gauge next to where pond 33's was.\n");
    ask(34, (const uint8_t[GAUGE_KEY_LEN]){APART * 33}); /* pond 32's key is less than 4 steps of the first byte away, pond 34's more */
    printf("The office asks for the gauge next to the key that begins with FF and is zero behind it.\n");
    ask(60, (const uint8_t[GAUGE_KEY_LEN]){0xFF}); /* pond 1's key is less than 6 steps away, across the end, and the last pond's more */
    printf("The office asks pond %d's gauge for the keys of both its ponds.\n", FIRST_OF);
    ask(FIRST_OF, ponds[FIRST_OF].lent.own + GAUGE_RECORD_KEY);
    ask(FIRST_OF, ponds[SECOND].lent.own + GAUGE_RECORD_KEY);
    tell_changes();
    tell_readings();
}

static void write_name(FILE *f, unsigned number)
{
    for (size_t i = 0; i < GAUGE_KEY_LEN; i++)
        fprintf(f, "%02x", ponds[number].lent.own[i]);
    fprintf(f, " pond %u\n", number);
}

/* The names by which bin/shown tells the ponds: a line each, key and name. */
static void write_names(void)
{
    FILE *f = opened("target/hill.names");
    for (unsigned n = 1; n <= NEW; n++)
        write_name(f, n);
    closed(f, "target/hill.names");
}

static void write_bytes(const char *path, const uint8_t *bytes, size_t len)
{
    FILE *f = opened(path);
    fwrite(bytes, 1, len, f);
    closed(f, path);
}

static void write_caches(void)
{
    write_bytes("target/hill.own", ponds[RECORDED].lent.own, ponds[RECORDED].lent.own_len);
    write_bytes("target/hill.before.cache", saved, sizeof saved);
    write_bytes("target/hill.after.cache", ponds[RECORDED].cache, sizeof saved);
}

/* The last reading of each pond that is on the hill, packed as bin/ponds takes them, and in the same order their names. */
static void write_readings(void)
{
    FILE *f = opened("target/hill.readings"), *of = opened("target/hill.readings.names");
    for (unsigned n = 1; n <= NEW; n++) {
        uint8_t packed[GAUGE_READING_MOST];
        if (!ponds[n].listed || last[n].kind == 0)
            continue;
        fwrite(packed, 1, gauge_reading_pack(&last[n], packed), f);
        write_name(of, n);
    }
    closed(f, "target/hill.readings");
    closed(of, "target/hill.readings.names");
}

/* The nights are whole; the one that stands in two places is copied. */
static void write_nights(void)
{
    unsigned nights = 0;
    unsigned long calls = 0;
    for (struct pond *p = ponds + 1; p <= ponds + NEW; p++) {
        if (!p->recorded)
            continue;
        end_night(p);
        nights++;
        calls += p->trace.count;
    }
    copy(night_path(RECORDED, "trace"), "target/hill.trace");
    copy(night_path(RECORDED, "hours"), "target/hill.hours");
    printf("target/hill has the nights of %u gauges, %lu calls, and their hours.\n", nights, calls);
    printf("target/hill.trace has the %lu calls that pond %d's gauge took.\n", ponds[RECORDED].trace.count, RECORDED);
}

int main(void)
{
    gauge_lent_begin(&OFFICE->lent, OFFICE->cache, sizeof OFFICE->cache, cpas, sizeof cpas / 2);
    OFFICE->lent.id = 0;
    for (unsigned n = 1; n <= PONDS; n++) {
        unsigned known = n == 1 ? 2 : 1 + dice(n - 1);
        if (n == SECOND)
            begin_second();
        else
            begin(n, n, known == SECOND ? FIRST_OF : known);
    }
    hill();
    write_nights();
    write_names();
    write_caches();
    write_readings();
    return 0;
}
