/* The auditor's two questions once more: what the nights of some gauges have of one pond, from the traces and the hours beside them.
 *
 *   model_asked KEY NIGHT..    KEY has 64 hexadecimal digits; beside NIGHT, whose name ends with .trace, its hours may stand, with the ending .hours
 *
 * It writes the facts that `bin/asked --plain` must write (tools/asked.py has their form), and shares nothing with it: the calls are made by the model
 * (tests/models/model_night.h), and what a call did is seen in the memory that it left. */
#include "model_names.h"
#include "model_night.h"
#include "model_read.h"
#include "model_readings.h"
#include <inttypes.h>
#include <stdio.h>
#include <stdlib.h>
#include <string.h>

enum { SOLICIT = 1, ADVERTISE = 2, REQUEST = 3, FLOOD = 4, INQUIRE = 7, AUTHORITY = 8, ACK = 9, LOOKUP = 11 };
enum { TO_FLOOD = 1, TO_INQUIRE = 2 }; /* kinds of places that wait */
enum { ROW_LEN = 40, MOST_RECORDS = 64 };

/* Which endpoint belongs to which key, as far as a night says so; which endpoints are in the facts; and what was answered and proved. */
struct belonging {
    uint8_t endpoint[ENDPOINT_LEN], key[KEY_LEN];
};
struct exchange {
    unsigned night;
    uint32_t record, inquiry, authority;
};
static struct belonging *belongings;
static uint8_t (*endpoints)[ENDPOINT_LEN];
static struct exchange *answers, *proofs;
static size_t belonging_count, endpoint_count, answer_count, proof_count;

/* An INQUIRE that was sent, about whomever. */
struct inquiry {
    uint32_t id, record, type, message;
    bool about_pond;
};

/* A night while it is read: what the memory was before the call, and what the facts need of earlier ones. */
struct reading {
    const uint8_t *pond;
    unsigned number;
    struct bytes hours;
    size_t rows; /* the good ones, up to the first that is not good */
    bool odd;    /* one is not good: in part, or its last bytes are not zero */
    bool opened;
    uint8_t cache[MOST_RECORDS * RECORD_LEN], waiting[WAITING_LEN];
    struct lent before;
    uint64_t from, to; /* the first and the last hour that is known */
    uint32_t bad, calls, accepted, seconds, compared, differing, first_differing, heard, unheard, first_heard, last_heard;
    struct inquiry *inquiries;
    size_t inquiry_count;
};

/* One call: what it was, and the memory that it left. */
struct seen {
    struct reading *r;
    const struct model_seen *s;
    const struct lent *l;
    struct message m;
    const uint8_t *row; /* NULL where there is none */
};

static void *more(void *list, size_t count, size_t size)
{
    void *longer = realloc(list, (count + 1) * size);
    if (longer == NULL) {
        fprintf(stderr, "model_asked: no memory\n");
        exit(2);
    }
    return longer;
}

static bool zero(const uint8_t *p, size_t n)
{
    while (n > 0)
        if (p[--n] != 0)
            return false;
    return true;
}

static bool same(const uint8_t *a, const uint8_t *b)
{
    return memcmp(a, b, KEY_LEN) == 0;
}

static uint64_t little(const uint8_t *p, size_t n)
{
    uint64_t value = 0;
    while (n > 0)
        value = value << 8 | p[--n];
    return value;
}

static void put_hex(const uint8_t *p, size_t n)
{
    putchar(' ');
    for (size_t i = 0; i < n; i++)
        printf("%02x", p[i]);
}

/* Endpoints. */

static void belongs(const uint8_t *endpoint, const uint8_t *key)
{
    for (size_t i = 0; i < belonging_count; i++)
        if (memcmp(belongings[i].endpoint, endpoint, ENDPOINT_LEN) == 0 && same(belongings[i].key, key))
            return;
    belongings = more(belongings, belonging_count, sizeof *belongings);
    memcpy(belongings[belonging_count].endpoint, endpoint, ENDPOINT_LEN);
    memcpy(belongings[belonging_count++].key, key, KEY_LEN);
}

static void record_belongs(const uint8_t *record)
{
    uint8_t endpoint[ENDPOINT_LEN];
    memcpy(endpoint, record + PORT, 2);
    memcpy(endpoint + 2, record + ADDRESSES, ADDRESS_LEN);
    belongs(endpoint, record);
}

static const uint8_t *row_endpoint(const uint8_t *row)
{
    return row == NULL || zero(row + 8, ENDPOINT_LEN) ? NULL : row + 8;
}

static void mention(const uint8_t *endpoint)
{
    for (size_t i = 0; i < endpoint_count; i++)
        if (memcmp(endpoints[i], endpoint, ENDPOINT_LEN) == 0)
            return;
    endpoints = more(endpoints, endpoint_count, sizeof *endpoints);
    memcpy(endpoints[endpoint_count++], endpoint, ENDPOINT_LEN);
}

/* Memory. */

static size_t held(const struct lent *l)
{
    size_t n = 0;
    while (n < l->cache.len / RECORD_LEN && l->cache.at[RECORD_LEN * n + COUNT] != 0)
        n++;
    return n;
}

static bool holds(const struct lent *l, const uint8_t *key)
{
    for (size_t i = 0; i < held(l); i++)
        if (same(l->cache.at + RECORD_LEN * i, key))
            return true;
    return false;
}

static const uint8_t *place(const struct lent *l, size_t i)
{
    return l->waiting.at + PLACE_LEN * i;
}

static uint32_t place_id(const uint8_t *p)
{
    return (uint32_t)little(p, 4);
}

/* The place with this ID and kind for this key, or NULL. */
static const uint8_t *waits(const struct lent *l, uint32_t id, unsigned kind, const uint8_t *key)
{
    for (size_t i = 0; i < PLACES; i++)
        if (place(l, i)[4] == kind && place_id(place(l, i)) == id && same(place(l, i) + 8, key))
            return place(l, i);
    return NULL;
}

/* Writes how many are held, and where the pond stands in the list of the night's gauge. */
static void put_standing(const struct reading *r, const struct lent *l)
{
    static uint8_t list[LIST_LEN], output[OUTPUT_LEN];
    struct lent asked = *l;
    asked.key = as_room(l->own.at, KEY_LEN);
    asked.output = as_room(output, sizeof output);
    struct model_answer a = model_neighbours(&asked);
    memcpy(list, output, sizeof list);
    printf(" %zu", held(l));
    if (same(r->pond, l->own.at)) {
        printf(" own 0");
        return;
    }
    for (uint32_t i = 0; i < a.first + a.second; i++)
        if (same(list + KEY_LEN * i, r->pond)) {
            printf(i < a.first ? " below %" PRIu32 : " above %" PRIu32, i < a.first ? i + 1 : i - a.first + 1);
            return;
        }
    printf(" none 0");
}

/* Facts. Each begins with its word and the moment: record, second, milliseconds, endpoint. */

/* The hour of a row in milliseconds, 0 where it is not known: behind the year 9999 there is none. */
static uint64_t hour_of(const uint8_t *row)
{
    uint64_t hour = row == NULL ? 0 : little(row, 8);
    return hour < UINT64_C(253402300800000) ? hour : 0;
}

static void put_fact(const struct seen *c, const char *word)
{
    uint64_t hour = hour_of(c->row);
    const uint8_t *endpoint = row_endpoint(c->row);
    printf("%s %" PRIu32 " %" PRIu32, word, c->s->number, c->r->seconds);
    if (hour == 0)
        printf(" -");
    else
        printf(" %" PRIu64, hour);
    if (endpoint == NULL) {
        printf(" -");
        return;
    }
    put_hex(endpoint, ENDPOINT_LEN);
    mention(endpoint);
}

static const char *type_name(uint32_t type)
{
    return type == FLOOD ? "FLOOD" : type == LOOKUP ? "LOOKUP" : "?";
}

/* An INQUIRE opens a place that was not there before. Of whomever it is about, it is kept. */
static void tell_inquiry(const struct seen *c)
{
    struct reading *r = c->r;
    const uint8_t *key = c->l->datagram.at + c->m.entry.at;
    if (c->m.entry.at == 0)
        return;
    for (size_t i = 0; i < PLACES; i++) {
        const uint8_t *p = place(c->l, i);
        if (p[4] != TO_INQUIRE || !same(p + 8, key) || waits(&r->before, place_id(p), TO_INQUIRE, key) != NULL)
            continue;
        r->inquiries = more(r->inquiries, r->inquiry_count, sizeof *r->inquiries);
        r->inquiries[r->inquiry_count++] = (struct inquiry){place_id(p), c->s->number, c->m.type, c->m.id, same(key, r->pond)};
        if (!same(key, r->pond))
            continue;
        put_fact(c, "inquired");
        printf(" %" PRIu32 " %s %" PRIu32 "\n", place_id(p), type_name(c->m.type), c->m.id);
    }
}

/* The last INQUIRE with this ID, or NULL. */
static const struct inquiry *inquiry_of(const struct reading *r, uint32_t id)
{
    for (size_t i = r->inquiry_count; i > 0; i--)
        if (r->inquiries[i - 1].id == id)
            return &r->inquiries[i - 1];
    return NULL;
}

static void put_reading(const struct lent *l)
{
    struct model_reading m = model_carried(l);
    if (m.reading != 0)
        printf(" refused %" PRIu32 "\n", m.reading);
    else if (m.kind == 0)
        printf(" -\n");
    else
        printf(" %s %" PRIu32 " %" PRIu32 " %" PRIu32 "\n", m.kind == 1 ? "depth" : "fault", m.measure, m.litres_in, m.litres_out);
}

static void keep_exchange(struct exchange **list, size_t *count, const struct seen *c, uint32_t inquiry, uint32_t authority)
{
    *list = more(*list, *count, sizeof **list);
    (*list)[(*count)++] = (struct exchange){c->r->number, c->s->number, inquiry, authority};
}

/* Whether the pond left the cache with this call, which is then told. */
static bool tell_left(const struct seen *c, const char *why)
{
    if (!holds(&c->r->before, c->r->pond) || holds(c->l, c->r->pond))
        return false;
    put_fact(c, "left");
    printf(" %zu %s", held(c->l), why);
    return true;
}

static void tell_authority(const struct seen *c)
{
    struct reading *r = c->r;
    const struct inquiry *q = inquiry_of(r, c->m.acked);
    bool taken = c->s->answer.number == 0;
    if (q != NULL && q->about_pond && !taken) {
        put_fact(c, "refused");
        printf(" %" PRIu32 " %" PRIu32 " %" PRIu32 "\n", c->s->answer.number, c->m.id, c->m.acked);
    }
    if (!taken)
        return;
    if (row_endpoint(c->row) != NULL)
        belongs(row_endpoint(c->row), c->l->key.at);
    if (q->about_pond) {
        put_fact(c, "answered");
        printf(" %" PRIu32 " %" PRIu32 " %" PRIu32 " %s %" PRIu32 " %s", c->m.id, q->id, q->record, type_name(q->type), q->message,
               holds(&r->before, r->pond) ? "kept" : holds(c->l, r->pond) ? "joined" : "dropped");
        put_standing(r, c->l);
        put_reading(c->l);
        keep_exchange(&answers, &answer_count, c, q->id, c->m.id);
    } else if (tell_left(c, "dropped")) {
        put_hex(c->l->key.at, KEY_LEN);
        putchar('\n');
    }
}

static void tell_revocation(const struct seen *c)
{
    if (c->m.entry.at != 0 || c->l->verdict != 1 || !same(c->l->key.at, c->r->pond))
        return;
    put_fact(c, "revoked");
    printf(" %" PRIu32 " %" PRIu32 "\n", c->m.id, c->s->answer.number);
    if (c->s->answer.number != 0)
        return;
    for (size_t i = 0; i < PLACES; i++)
        if (place(&c->r->before, i)[4] == TO_INQUIRE && same(place(&c->r->before, i) + 8, c->r->pond)) {
            put_fact(c, "freed");
            printf(" %" PRIu32 "\n", place_id(place(&c->r->before, i)));
        }
    if (tell_left(c, "revoked"))
        putchar('\n');
}

static void tell_ack(const struct seen *c)
{
    if (c->s->answer.number != 0 || waits(&c->r->before, c->m.acked, TO_FLOOD, c->r->pond) == NULL)
        return;
    put_fact(c, "acked");
    printf(" %" PRIu32 "\n", c->m.acked);
    if (tell_left(c, "denied"))
        printf(" %" PRIu32 "\n", c->m.acked);
}

/* Why a record is named (document 02, request 5): all candidates by how far they are from the target, and of two equally far the one reached by going
 * down first. */

struct candidate {
    const uint8_t *record;
    uint8_t apart[KEY_LEN];
    bool up;
};

static void subtract(const uint8_t *a, const uint8_t *b, uint8_t *result)
{
    unsigned carry = 1;
    for (size_t i = KEY_LEN; i > 0; i--) {
        carry += a[i - 1] + 255u - b[i - 1];
        result[i - 1] = (uint8_t)carry;
        carry >>= 8;
    }
}

static struct candidate candidate(const uint8_t *record, const uint8_t *target)
{
    struct candidate c = {record, {0}, false};
    uint8_t up[KEY_LEN];
    subtract(record, target, up);
    subtract(target, record, c.apart);
    if (memcmp(up, c.apart, KEY_LEN) < 0) {
        memcpy(c.apart, up, KEY_LEN);
        c.up = true;
    }
    return c;
}

static int by_nearness(const void *one, const void *other)
{
    const struct candidate *a = one, *b = other;
    int order = memcmp(a->apart, b->apart, KEY_LEN);
    return order != 0 ? order : a->up - b->up;
}

static bool passed(const uint8_t *record, const uint8_t *path, size_t len)
{
    for (size_t i = 0; i < len; i += ENDPOINT_LEN)
        if (memcmp(path + i, record + PORT, 2) == 0 && memcmp(path + i + 2, record + ADDRESSES, ADDRESS_LEN) == 0)
            return true;
    return false;
}

static size_t ranked(const struct seen *c, const uint8_t *target, struct candidate *list)
{
    size_t n = 0;
    list[n++] = candidate(c->l->own.at, target);
    for (size_t i = 0; i < held(c->l); i++)
        if (!passed(c->l->cache.at + RECORD_LEN * i, c->l->datagram.at + c->m.path.at, c->m.path.len))
            list[n++] = candidate(c->l->cache.at + RECORD_LEN * i, target);
    qsort(list, n, sizeof *list, by_nearness);
    return n;
}

static void put_reason(const struct candidate *list, size_t n)
{
    put_hex(list[0].apart, KEY_LEN);
    if (n == 1)
        printf(" only");
    else if (zero(list[0].apart, KEY_LEN))
        printf(" target");
    else {
        printf(memcmp(list[0].apart, list[1].apart, KEY_LEN) == 0 ? " tied" : " nearest");
        put_hex(list[1].record, KEY_LEN);
        put_hex(list[1].apart, KEY_LEN);
    }
    putchar('\n');
}

static void tell_lookup(const struct seen *c)
{
    struct candidate list[MOST_RECORDS + 1];
    const uint8_t *target = c->l->datagram.at + c->m.target.at, *pond = c->r->pond, *output = c->l->output.at;
    if (c->s->answer.number != 0)
        return;
    size_t n = ranked(c, target, list);
    struct message reply = read_message(c->l->major, (struct bytes){output, c->s->answer.first});
    if (reply.entry.at == 0 || !same(output + reply.entry.at, list[0].record)) {
        fprintf(stderr, "model_asked: record %" PRIu32 " names another record than the first of all\n", c->s->number);
        exit(1);
    }
    record_belongs(list[0].record);
    if (same(list[0].record, pond)) {
        put_fact(c, "named");
        printf(" %" PRIu32, c->m.id);
        put_hex(target, KEY_LEN);
        put_standing(c->r, c->l);
        put_reason(list, n);
    } else if (same(target, pond)) {
        put_fact(c, "sought");
        printf(" %" PRIu32, c->m.id);
        put_hex(list[0].record, KEY_LEN);
        put_reason(list, n);
    }
}

static void tell_inquire(const struct seen *c)
{
    if (c->s->answer.number != 0 || !same(c->l->own.at, c->r->pond))
        return;
    struct message reply = read_message(c->l->major, (struct bytes){c->l->output.at, c->s->answer.first});
    put_fact(c, "proved");
    printf(" %" PRIu32 " %" PRIu32 "\n", c->m.id, reply.id);
    keep_exchange(&proofs, &proof_count, c, c->m.id, reply.id);
}

static void count_heard(const struct seen *c)
{
    struct reading *r = c->r;
    if (c->m.entry.at == 0 || !same(c->l->datagram.at + c->m.entry.at, r->pond))
        return;
    r->heard += c->s->answer.number == 0;
    r->unheard += c->s->answer.number != 0;
    r->last_heard = c->s->number;
    if (r->first_heard == 0)
        r->first_heard = c->s->number;
}

static void tell_receive(struct seen *c)
{
    c->m = read_message(c->l->major, read_only(c->l->datagram));
    if (c->m.number != 0)
        return;
    count_heard(c);
    switch (c->m.type) {
    case FLOOD: tell_revocation(c); break;
    case INQUIRE: tell_inquire(c); break;
    case AUTHORITY: tell_authority(c); break;
    case ACK: tell_ack(c); break;
    case LOOKUP: tell_lookup(c); break;
    default: break;
    }
    if (c->s->answer.number == 0 && (c->m.type == FLOOD || c->m.type == LOOKUP))
        tell_inquiry(c);
}

static void tell_send(const struct seen *c)
{
    if (c->s->answer.number != 0)
        return;
    if (row_endpoint(c->row) != NULL)
        belongs(row_endpoint(c->row), c->l->neighbour.at);
    if (!same(c->l->neighbour.at, c->r->pond))
        return;
    put_fact(c, "flooded");
    printf(" %" PRIu32 "\n", c->l->id);
}

/* Of each place of the pond that waited: is it still there? */
static void tell_tick(const struct seen *c)
{
    const struct lent *before = &c->r->before;
    for (int gone = 0; gone < 2; gone++)
        for (size_t i = 0; i < PLACES; i++) {
            const uint8_t *p = place(before, i);
            bool inquiry = p[4] == TO_INQUIRE, there = waits(c->l, place_id(p), p[4], p + 8) != NULL;
            if (p[4] == 0 || !same(p + 8, c->r->pond) || there == (gone == 1) || (there && !inquiry))
                continue;
            put_fact(c, there ? "again" : "gaveup");
            printf(" %" PRIu32 " %s\n", place_id(p), inquiry ? "INQUIRE" : "FLOOD");
        }
}

/* The row of the second file: is the answer made again the one that was given? */
static void compare_row(const struct seen *c)
{
    struct reading *r = c->r;
    const struct model_answer *a = &c->s->answer;
    if (c->row == NULL)
        return;
    uint64_t hour = hour_of(c->row);
    r->from = r->from == 0 ? hour : r->from;
    r->to = hour == 0 ? r->to : hour;
    r->compared++;
    if (little(c->row + 26, 4) == a->number && little(c->row + 30, 4) == a->first && little(c->row + 34, 4) == a->second)
        return;
    if (r->differing++ == 0)
        r->first_differing = c->s->number;
}

static void remember(struct reading *r, const struct lent *l)
{
    memcpy(r->cache, l->cache.at, sizeof r->cache);
    memcpy(r->waiting, l->waiting.at, sizeof r->waiting);
    r->before = *l;
    r->before.cache.at = r->cache;
    r->before.waiting.at = r->waiting;
}

static void open_night(struct reading *r, const struct lent *l)
{
    r->opened = true;
    printf("own");
    put_hex(l->own.at, KEY_LEN);
    putchar('\n');
    record_belongs(l->own.at);
}

static void watch(void *to, const struct model_seen *s)
{
    struct reading *r = to;
    struct seen c = {r, s, s->lent, {0}, NULL};
    if (s->number < r->rows)
        c.row = r->hours.at + ROW_LEN * s->number;
    if (s->kind == 0) {
        r->bad = s->answer.number;
        return;
    }
    if (s->kind == 4) {
        open_night(r, s->lent);
    } else {
        r->calls++;
        r->accepted += s->answer.number == 0;
        r->seconds += s->kind == 3 && s->answer.number == 0;
        compare_row(&c);
    }
    if (s->kind == 1)
        tell_receive(&c);
    else if (s->kind == 2)
        tell_send(&c);
    else if (s->kind == 3 && s->answer.number == 0)
        tell_tick(&c);
    remember(r, s->lent);
}

/* What a night ends with. */
static void tell_end(const struct reading *r)
{
    const struct lent *l = &r->before;
    const char *end = !r->opened ? "unopened" : r->bad != 0 ? "middle" : r->calls > 0 && r->accepted == 0 ? "refused" : "whole";
    if (r->first_heard != 0)
        printf("heard %" PRIu32 " %" PRIu32 " %" PRIu32 " %" PRIu32 "\n", r->heard, r->unheard, r->first_heard, r->last_heard);
    for (size_t i = 0; r->opened && i < PLACES; i++)
        if (place(l, i)[4] != 0 && same(place(l, i) + 8, r->pond))
            printf("waiting %" PRIu32 " %s\n", place_id(place(l, i)), place(l, i)[4] == TO_INQUIRE ? "INQUIRE" : "FLOOD");
    if (r->opened) {
        printf("ends %s", same(l->own.at, r->pond) ? "own" : holds(l, r->pond) ? "held" : "not");
        put_standing(r, l);
        putchar('\n');
    }
    if (r->rows == 0 && !r->odd)
        printf("rows none\n");
    else if (r->from == 0)
        printf("rows %" PRIu32 " %" PRIu32 " %" PRIu32 " - -\n", r->compared, r->differing, r->first_differing);
    else
        printf("rows %" PRIu32 " %" PRIu32 " %" PRIu32 " %" PRIu64 " %" PRIu64 "\n", r->compared, r->differing, r->first_differing, r->from, r->to);
    if (r->odd || (r->rows > 0 && r->rows != (size_t)r->opened + r->calls + (r->bad != 0)))
        printf("unfit %zu\n", r->rows);
    printf("ended %s %" PRIu32 " %" PRIu32 "\n", end, r->calls, r->seconds);
}

/* A whole file; at NULL where there is none. */
static struct bytes file(const char *path)
{
    struct bytes b = {NULL, 0};
    FILE *f = fopen(path, "rb");
    if (f == NULL)
        return b;
    fseek(f, 0, SEEK_END);
    long length = ftell(f);
    rewind(f);
    uint8_t *at = more(NULL, (size_t)length, 1);
    b.len = fread(at, 1, (size_t)length, f);
    b.at = at;
    fclose(f);
    return b;
}

static struct bytes hours_beside(const char *path)
{
    size_t n = strlen(path);
    char *name = more(NULL, n + 1, 1);
    struct bytes none = {NULL, 0};
    strcpy(name, path);
    if (n > 6 && strcmp(name + n - 6, ".trace") == 0) {
        strcpy(name + n - 6, ".hours");
        none = file(name);
    }
    free(name);
    return none;
}

static void count_rows(struct reading *r)
{
    const uint8_t *row = r->hours.at;
    size_t left = r->hours.len;
    for (; left >= ROW_LEN && row[38] == 0 && row[39] == 0; left -= ROW_LEN, row += ROW_LEN)
        r->rows++;
    r->odd = left > 0;
}

static void tell_night(const uint8_t *pond, unsigned number, const char *path)
{
    static struct reading r;
    memset(&r, 0, sizeof r);
    struct bytes trace = file(path);
    if (trace.at == NULL) {
        fprintf(stderr, "model_asked: no such file: %s\n", path);
        exit(2);
    }
    r.pond = pond;
    r.number = number;
    r.hours = hours_beside(path);
    count_rows(&r);
    r.bad = trace.len == 0 ? 17 : 0;
    printf("night %u %s\n", number, path);
    model_watch(trace, watch, &r);
    tell_end(&r);
    free(r.inquiries);
    free((void *)(uintptr_t)trace.at);
    free((void *)(uintptr_t)r.hours.at);
}

/* What the nights say together. */

static int by_bytes(const void *a, const void *b)
{
    return memcmp(a, b, ENDPOINT_LEN);
}

static int by_both(const void *a, const void *b)
{
    return memcmp(a, b, ENDPOINT_LEN + KEY_LEN);
}

static void tell_endpoints(void)
{
    if (endpoint_count > 0)
        qsort(endpoints, endpoint_count, sizeof *endpoints, by_bytes);
    if (belonging_count > 0)
        qsort(belongings, belonging_count, sizeof *belongings, by_both);
    for (size_t i = 0; i < endpoint_count; i++) {
        printf("at");
        put_hex(endpoints[i], ENDPOINT_LEN);
        for (size_t j = 0; j < belonging_count; j++)
            if (memcmp(belongings[j].endpoint, endpoints[i], ENDPOINT_LEN) == 0)
                put_hex(belongings[j].key, KEY_LEN);
        putchar('\n');
    }
}

/* Each answer, and where the pond's own night has it sent; 0 and 0 where none has. */
static void tell_proofs(void)
{
    for (size_t i = 0; i < answer_count; i++) {
        struct exchange found = {0, 0, 0, 0};
        for (size_t j = proof_count; j > 0; j--)
            if (proofs[j - 1].inquiry == answers[i].inquiry && proofs[j - 1].authority == answers[i].authority)
                found = proofs[j - 1];
        printf("proof %u %" PRIu32 " %u %" PRIu32 "\n", answers[i].night, answers[i].record, found.night, found.record);
    }
}

static bool read_key(const char *digits, uint8_t *key)
{
    for (size_t i = 0; i < KEY_LEN; i++) {
        unsigned byte;
        if (strlen(digits) != 2 * KEY_LEN || sscanf(digits + 2 * i, "%2x", &byte) != 1)
            return false;
        key[i] = (uint8_t)byte;
    }
    return true;
}

int main(int count, char **words)
{
    uint8_t pond[KEY_LEN];
    if (count < 3 || !read_key(words[1], pond)) {
        fprintf(stderr, "model_asked KEY NIGHT..\n");
        return 2;
    }
    printf("pond");
    put_hex(pond, KEY_LEN);
    putchar('\n');
    for (int i = 2; i < count; i++)
        tell_night(pond, (unsigned)(i - 1), words[i]);
    tell_endpoints();
    tell_proofs();
    return 0;
}
