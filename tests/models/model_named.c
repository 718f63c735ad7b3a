/* The record that is named for a LOOKUP, and why (tests/models/model_named.h). */
#include "model_named.h"
#include "model_names.h"
#include "model_read.h"
#include <stdio.h>
#include <stdlib.h>
#include <string.h>

/* A candidate: how far it is from the target by the shorter way round, and whether that leads up. */
struct candidate {
    const uint8_t *record;
    uint8_t far[KEY_LEN];
    bool up;
};
struct candidates {
    struct candidate list[OWN_MOST + CACHE_MOST / RECORD_LEN];
    size_t n;
};

/* How far it is from one key up to another, round the ring. */
static void way_up(const uint8_t *from, const uint8_t *to, uint8_t *far)
{
    unsigned carry = 1;
    for (size_t i = KEY_LEN; i-- > 0;) {
        unsigned digit = to[i] + (255u - from[i]) + carry;
        far[i] = (uint8_t)(digit & 0xFF);
        carry = digit >> 8;
    }
}

static void add(struct candidates *all, const uint8_t *target, const uint8_t *record)
{
    uint8_t up[KEY_LEN], down[KEY_LEN];
    struct candidate *c = &all->list[all->n++];
    way_up(target, record, up);
    way_up(record, target, down);
    c->record = record;
    c->up = memcmp(up, down, KEY_LEN) < 0;
    memcpy(c->far, c->up ? up : down, KEY_LEN);
}

/* 02, Wish 2: a record whose "port and one of its addresses" stand in an endpoint; it has one address (Wish 13). */
static bool passed_by(const uint8_t *record, struct bytes path)
{
    uint8_t endpoint[ENDPOINT_LEN];
    memcpy(endpoint, record + PORT, 2);
    memcpy(endpoint + 2, record + ADDRESSES, ADDRESS_LEN);
    for (size_t i = 0; i < path.len; i += ENDPOINT_LEN)
        if (memcmp(path.at + i, endpoint, ENDPOINT_LEN) == 0)
            return true;
    return false;
}

/* "The closest record must skip any held record" on the path; "The own record is never skipped". A place with no address is not used. */
static void gather(struct candidates *all, const struct lent *l, const uint8_t *target, struct bytes path)
{
    all->n = 0;
    for (size_t i = 0; i < l->own.len; i += RECORD_LEN)
        add(all, target, l->own.at + i);
    for (size_t i = 0; i < l->cache.len && l->cache.at[i + COUNT] != 0; i += RECORD_LEN)
        if (!passed_by(l->cache.at + i, path))
            add(all, target, l->cache.at + i);
}

/* The nearer first; "at equal distance take the key reached by going down from the target" (Wish 4). */
static int before(const void *a, const void *b)
{
    const struct candidate *x = a, *y = b;
    int far = memcmp(x->far, y->far, KEY_LEN);
    return far != 0 ? far : x->up - y->up;
}

/* "The first that holds: the only candidate; it has the target key; another candidate is equally near (that key shown) and the tie rule chose;
 * strictly nearest, with the next nearest key". */
static enum model_reason reason_of(const struct candidates *all, const uint8_t *target)
{
    const struct candidate *first = &all->list[0], *next = &all->list[1];
    if (all->n == 1)
        return ONLY;
    if (memcmp(first->record, target, KEY_LEN) == 0)
        return TARGET;
    return memcmp(first->far, next->far, KEY_LEN) == 0 ? TIED : NEAREST;
}

static struct model_named refused(uint32_t number)
{
    struct model_named none = {number, ONLY, NULL, NULL};
    return none;
}

/* Own records and a cache in form: asked of the call for the closest record, which is lent nothing else here that could be wrong. */
static bool formed(const struct lent *l)
{
    static uint8_t target[KEY_LEN];
    struct lent asked = *l;
    asked.path = as_room(target, 0);
    asked.target = as_room(target, KEY_LEN);
    return model_closest(&asked).number == 0;
}

/* 1 for lent memory, 2 to 6 for the datagram, 7 for a message of another type. */
struct model_named model_named(const struct lent *l)
{
    struct candidates all;
    if (!formed(l))
        return refused(MEMORY);
    struct message m = read_message(l->major, read_only(l->datagram));
    if (m.number != 0)
        return refused(m.number);
    if (m.type != 0x0B)
        return refused(NOT_TAKEN);
    const uint8_t *target = l->datagram.at + m.target.at;
    struct bytes path = {l->datagram.at + m.path.at, m.path.len};
    gather(&all, l, target, path);
    qsort(all.list, all.n, sizeof all.list[0], before);
    struct model_named told = {0, reason_of(&all, target), all.list[0].record, NULL};
    if (told.reason == TIED || told.reason == NEAREST)
        told.other = all.list[1].record;
    return told;
}

/* The program's input and its two lines. */

static size_t two(const uint8_t *p)
{
    return p[0] + 256u * p[1];
}

/* Wish 1 of the first record: "16 for a record cut short or of wrong length, 17 for an unknown kind or a kind 4 missing"; an empty trace is 17. */
static uint32_t fault(struct room input)
{
    static const size_t most = 65535, bodies[5][2] = {{0, 65535}, {53, 65535}, {68, 68}, {0, 0}, {102, 102}};
    if (input.len == 0)
        return 17;
    if (input.len < 4 || two(input.at) < 2 || two(input.at) > input.len - 2)
        return 16;
    size_t kind = two(input.at + 2), body = two(input.at) - 2, row = kind <= 4 ? kind : 0;
    if (body < bodies[row][0] || body > (row == 0 ? most : bodies[row][1]))
        return 16;
    return kind == 4 ? 0 : 17;
}

/* A good first record has 106 bytes: length, kind, versions, own record. Behind it "cache length 2 (little-endian), cache, then the LOOKUP to the
 * end"; 16 "also for a cache cut short". */
static struct model_named named_by(struct room input)
{
    struct lent l;
    memset(&l, 0, sizeof l);
    if (fault(input) != 0)
        return refused(fault(input));
    struct room rest = as_room(input.at + 106, input.len - 106);
    if (rest.len < 2 || two(rest.at) > rest.len - 2)
        return refused(16);
    l.major = input.at[4];
    l.own = as_room(input.at + 6, RECORD_LEN);
    l.cache = as_room(rest.at + 2, two(rest.at));
    l.datagram = as_room(l.cache.at + l.cache.len, rest.len - 2 - l.cache.len);
    return model_named(&l);
}

static char *put_hex(char *text, const uint8_t *at, size_t len)
{
    for (size_t i = 0; i < len; i++)
        text += sprintf(text, "%02x", at[i]);
    return text;
}

void model_why(struct room input, char *text)
{
    static const char *const words[] = {"only", "target", "tied ", "nearest "};
    struct model_named told = named_by(input);
    if (told.number != 0) {
        sprintf(text, "%u\n", (unsigned)told.number);
        return;
    }
    const uint8_t *r = told.record;
    text += sprintf(text, "record ");
    text = put_hex(text, r, KEY_LEN);
    text += sprintf(text, " %u ", 256u * r[PORT] + r[PORT + 1]);
    text = put_hex(text, r + ADDRESSES, ADDRESS_LEN);
    text += sprintf(text, "\n%s", words[told.reason]);
    if (told.other != NULL)
        text = put_hex(text, told.other, KEY_LEN);
    sprintf(text, "\n");
}
