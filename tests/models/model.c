/* The gauge once more (tests/models/model.h), to be held against the archive: written from documents 000, 01 and 02 without a look into the crates.
 * It is meant to be read beside the documents and is slow: a call works on a copy of all that is lent, and the copy is put back when nothing
 * refuses. */
#include "model.h"
#include "model_names.h"
#include "model_read.h"
#include <stdlib.h>
#include <string.h>

/* Numbers and keys. A key's order as a number is the order of its bytes. */

static unsigned two(const uint8_t *p)
{
    return (unsigned)(p[0] << 8 | p[1]);
}

static uint32_t four(const uint8_t *p)
{
    return (uint32_t)p[0] << 24 | (uint32_t)p[1] << 16 | (uint32_t)p[2] << 8 | (uint32_t)p[3];
}

static uint32_t four_little(const uint8_t *p)
{
    return (uint32_t)p[3] << 24 | (uint32_t)p[2] << 16 | (uint32_t)p[1] << 8 | (uint32_t)p[0];
}

static bool zero(const uint8_t *p, size_t n)
{
    for (size_t i = 0; i < n; i++)
        if (p[i] != 0)
            return false;
    return true;
}

static int order(const uint8_t *a, const uint8_t *b)
{
    return memcmp(a, b, KEY_LEN);
}

/* Keys go round (document 02, Wish 4). One key less another, modulo 2^256: byte by byte from the last, and what the first one borrows is let go. */
static void minus(const uint8_t *a, const uint8_t *b, uint8_t *result)
{
    int borrow = 0;
    for (int i = KEY_LEN - 1; i >= 0; i--) {
        int digit = a[i] - b[i] - borrow;
        borrow = digit < 0;
        result[i] = (uint8_t)(digit + 256 * borrow);
    }
}

/* "A key is above ours if (key - own) modulo 2^256 is from 1 to 2^255, else below": 2^255 is 80 and zeros. */
static bool above(const uint8_t *own, const uint8_t *key)
{
    uint8_t up[KEY_LEN];
    minus(key, own, up);
    return !zero(up, KEY_LEN) && (up[0] < 0x80 || (up[0] == 0x80 && zero(up + 1, KEY_LEN - 1)));
}

/* "Nearness on a side counts along that side." */
static void nearness(const uint8_t *own, const uint8_t *key, uint8_t *result)
{
    if (above(own, key))
        minus(key, own, result);
    else
        minus(own, key, result);
}

/* "Closeness to a target is the shorter way round"; whether that goes down from the target. */
static bool closeness(const uint8_t *target, const uint8_t *key, uint8_t *result)
{
    uint8_t up[KEY_LEN], down[KEY_LEN];
    minus(key, target, up);
    minus(target, key, down);
    bool goes_down = order(down, up) <= 0;
    memcpy(result, goes_down ? down : up, KEY_LEN);
    return goes_down;
}

/* Reading (document 000 section 2.2, document 01 "Datagram layout"). A place that goes on from field to field; once bad, always bad. */

struct place {
    const uint8_t *d;
    size_t len, at;
    bool bad;
};

static void must(struct place *p, bool good)
{
    if (!good)
        p->bad = true;
}

/* Whether a field's number is found here. */
static bool here(const struct place *p, unsigned number)
{
    return !p->bad && p->len - p->at >= 2 && two(p->d + p->at) == number;
}

static void skip(struct place *p, size_t n)
{
    must(p, p->len - p->at >= n);
    if (!p->bad)
        p->at += n;
}

static void padding(struct place *p)
{
    skip(p, (4 - p->at % 4) % 4);
}

/* A field with any contents. A field is never at 0, where the header is. */
static struct span field(struct place *p, unsigned number)
{
    struct span s = {0, 0};
    must(p, here(p, number) && p->len - p->at >= 4);
    if (p->bad)
        return s;
    size_t length = two(p->d + p->at + 2);
    must(p, length >= 4 && length <= p->len - p->at);
    if (p->bad)
        return s;
    s.at = (uint32_t)(p->at + 4);
    s.len = (uint32_t)(length - 4);
    p->at += length;
    return s;
}

static struct span field_of(struct place *p, unsigned number, size_t contents)
{
    struct span s = field(p, number);
    must(p, s.len == contents);
    return s;
}

/* Two bytes of a field's contents, 0 once bad. */
static unsigned in(const struct place *p, struct span s, size_t offset)
{
    return p->bad ? 0 : two(p->d + s.at + offset);
}

static struct span optional(struct place *p, unsigned number)
{
    struct span none = {0, 0};
    return here(p, number) ? field(p, number) : none;
}

static struct span optional_padded(struct place *p, unsigned number)
{
    struct span s = optional(p, number);
    if (s.at != 0)
        padding(p);
    return s;
}

/* Credential, signature and key identifier, as they stand at the end of three messages. */
static void signatures(struct place *p)
{
    optional(p, 0x0080);
    optional(p, 0x00A5);
    optional(p, 0x00A6);
}

/* ROUTE_ENTRY: key 32, major, minor, port 2, flags, address count, addresses. */
static struct span route_entry(struct place *p)
{
    struct span s = field(p, 0x009A);
    must(p, s.len >= 38);
    if (!p->bad) {
        unsigned count = p->d[s.at + 37];
        must(p, count >= 1 && count <= 4 && s.len == 38 + 16 * count);
    }
    padding(p);
    return s;
}

static struct span optional_entry(struct place *p)
{
    struct span none = {0, 0};
    return here(p, 0x009A) ? route_entry(p) : none;
}

/* FIELD_ARRAY: count, array length, element's number, element's size, elements. */
static struct span array(struct place *p, unsigned number, unsigned element, unsigned size, unsigned least, unsigned most)
{
    struct span s = field(p, number);
    must(p, s.len >= 8);
    unsigned count = in(p, s, 0);
    must(p, count >= least && count <= most);
    must(p, s.len == 8 + count * size && in(p, s, 2) == 8 + count * size && in(p, s, 4) == element && in(p, s, 6) == size);
    return s;
}

static void keys(struct place *p)
{
    array(p, 0x0060, 0x0030, 0x20, 0, 0x7FFF);
}

/* Port and address of each, one behind the other. */
static struct span endpoints(struct place *p)
{
    struct span s = array(p, 0x009E, 0x009D, 0x12, 1, 22), list = {s.at + 8, s.len - 8}, none = {0, 0};
    return p->bad ? none : list;
}

static void solicit(struct place *p, struct message *m)
{
    m->entry = optional_entry(p);
    m->nonce = field_of(p, 0x0092, 20);
}

static void acked(struct place *p, struct message *m)
{
    struct span s = field_of(p, 0x0018, 4);
    if (!p->bad)
        m->acked = four(p->d + s.at);
}

static void advertise(struct place *p, struct message *m)
{
    acked(p, m);
    keys(p);
    m->nonce = field_of(p, 0x0092, 20);
}

static void request(struct place *p, struct message *m)
{
    if (here(p, 0x0040)) {
        field_of(p, 0x0040, 2);
        skip(p, 2);
    }
    if (here(p, 0x0098)) {
        struct span s = field_of(p, 0x0098, 4);
        must(p, in(p, s, 0) == p->len - p->at && in(p, s, 2) == 0);
    }
    m->nonce = field_of(p, 0x0093, 16);
    keys(p);
    signatures(p);
}

static void flood(struct place *p, struct message *m)
{
    struct span s = field_of(p, 0x0043, 3);
    m->d = in(p, s, 0) & 1;
    skip(p, 1);
    m->validate = field_of(p, 0x0039, KEY_LEN);
    optional_padded(p, 0x009F);
    if (here(p, 0x009C)) {
        m->cpa = field(p, 0x009C);
        padding(p);
    }
    m->entry = optional_entry(p);
    must(p, (m->cpa.at != 0) != (m->entry.at != 0));
    if (here(p, 0x009E))
        endpoints(p);
}

static void inquire(struct place *p, struct message *m)
{
    field_of(p, 0x0040, 2);
    skip(p, 2);
    m->validate = field_of(p, 0x0039, KEY_LEN);
    if (here(p, 0x0093))
        m->nonce = field_of(p, 0x0093, 16);
    signatures(p);
}

static void authority(struct place *p, struct message *m)
{
    acked(p, m);
    struct span s = field_of(p, 0x0098, 4);
    unsigned size = in(p, s, 0), offset = in(p, s, 2);
    must(p, size <= 0x91E4 && offset % 1188 == 0);
    if (!p->bad && (offset != 0 || size != p->len - p->at)) {
        m->number = NOT_TAKEN;
        return;
    }
    m->flags = in(p, field_of(p, 0x0040, 2), 0);
    skip(p, 2);
    m->chain = optional_padded(p, 0x0080);
    m->keytoken = optional_padded(p, 0x009F);
    if (here(p, 0x0085)) {
        m->classifier = array(p, 0x0085, 0x0084, 2, 0, 0x7FFF);
        padding(p);
    }
    m->payload = optional_padded(p, 0x005A);
    m->entry = optional_entry(p);
    if (here(p, 0x009B))
        m->cpa = field(p, 0x009B);
}

static void ack(struct place *p, struct message *m)
{
    acked(p, m);
    if (here(p, 0x0040)) {
        struct span s = field_of(p, 0x0040, 2);
        m->n = in(p, s, 0) & 1;
    }
}

static void lookup(struct place *p, struct message *m)
{
    struct span s = field_of(p, 0x0045, 8);
    unsigned criteria = in(p, s, 4) >> 8, reason = in(p, s, 4) & 0xFF;
    must(p, criteria == 0 || criteria == 1 || criteria == 2 || criteria == 4 || criteria == 8);
    must(p, reason <= 3);
    m->target = field_of(p, 0x0038, KEY_LEN);
    m->validate = field_of(p, 0x0039, KEY_LEN);
    m->entry = optional_entry(p);
    m->path = endpoints(p);
    signatures(p);
}

struct message read_message(uint8_t major, struct bytes datagram)
{
    struct message m, refused;
    memset(&m, 0, sizeof m);
    memset(&refused, 0, sizeof refused);
    const uint8_t *d = datagram.at;
    if (datagram.len < DATAGRAM_LEAST || datagram.len > DATAGRAM_MOST)
        refused.number = LENGTH;
    else if (memcmp(d, "\x00\x10\x00\x0C\x51", 5) != 0)
        refused.number = HEADER;
    else if (d[5] != major)
        refused.number = MAJOR;
    else if (!(d[7] >= 1 && d[7] <= 4) && !(d[7] >= 7 && d[7] <= 9) && d[7] != 0x0B)
        refused.number = TYPE;
    if (refused.number != 0)
        return refused;
    m.type = d[7];
    m.id = four(d + 8);
    struct place p = {d, datagram.len, 12, false};
    switch (m.type) {
    case 0x01: solicit(&p, &m); break;
    case 0x02: advertise(&p, &m); break;
    case 0x03: request(&p, &m); break;
    case 0x04: flood(&p, &m); break;
    case 0x07: inquire(&p, &m); break;
    case 0x08: authority(&p, &m); break;
    case 0x09: ack(&p, &m); break;
    default: lookup(&p, &m); break;
    }
    if (m.number == NOT_TAKEN) {
        refused.number = NOT_TAKEN;
        return refused;
    }
    if (p.bad || p.at != p.len) {
        refused.number = FIELD;
        return refused;
    }
    return m;
}

struct model_look model_look(const struct lent *l)
{
    struct message m = read_message(l->major, read_only(l->datagram));
    struct model_look seen = {m.number, m.type, m.id, m.acked, m.cpa, m.nonce, m.entry, m.target};
    return seen;
}

/* Lent memory (document 01 "Lent memory"). A record has at most so many addresses: one, by document 02, Wish 13; up to four in memory of the time
 * before it, which the conversion alone is lent. */

enum form { ONE_ADDRESS = 1, OLD = 4 };

static bool record_form(const uint8_t *r, enum form most)
{
    unsigned count = r[COUNT];
    return count >= 1 && count <= most && r[35] == 0 && zero(r + ADDRESSES + ADDRESS_LEN * count, ADDRESS_LEN * (4 - count));
}

/* "The own record becomes one to four, keys strictly increasing" (document 02, Wish 11). */
static bool own_form(struct room own, enum form most)
{
    if (own.len % RECORD_LEN != 0 || own.len < RECORD_LEN || own.len > OWN_MOST * RECORD_LEN)
        return false;
    for (size_t i = 0; i < own.len; i += RECORD_LEN)
        if (!record_form(own.at + i, most) || (i > 0 && order(own.at + i - RECORD_LEN, own.at + i) >= 0))
            return false;
    return true;
}

/* The own record with this key, or NULL. */
static const uint8_t *own_with(struct room own, const uint8_t *key)
{
    for (size_t i = 0; i < own.len; i += RECORD_LEN)
        if (order(own.at + i, key) == 0)
            return own.at + i;
    return NULL;
}

/* "The host lends one for each": of the own records in order, each with its length before it, in two bytes, the least significant first. Where the
 * CPA of the own record with this number begins, from 0; at the number of all of them, where the last one ends. NULL where one is out of form. */
static const uint8_t *cpa_at(struct room cpas, size_t number)
{
    const uint8_t *p = cpas.at, *end = cpas.at + cpas.len;
    for (; number > 0; number--) {
        if (end - p < 2)
            return NULL;
        size_t length = p[0] + 256u * p[1];
        if (length < 1 || length > CPA_MOST || (size_t)(end - p) - 2 < length)
            return NULL;
        p += 2 + length;
    }
    return p;
}

static bool cpas_form(struct room own, struct room cpas)
{
    return cpa_at(cpas, own.len / RECORD_LEN) == cpas.at + cpas.len;
}

/* "C is at least ten times their number; no cache key or inquiry is an own key." */
static bool cache_form(struct room own, struct room cache, enum form most)
{
    if (cache.len % RECORD_LEN != 0 || cache.len < 10 * own.len || cache.len > CACHE_MOST)
        return false;
    for (size_t i = 0; i < cache.len; i += RECORD_LEN) {
        const uint8_t *r = cache.at + i;
        if (zero(r, RECORD_LEN))
            return zero(r, cache.len - i);
        if (!record_form(r, most) || own_with(own, r) != NULL)
            return false;
        if (i > 0 && order(r - RECORD_LEN, r) >= 0)
            return false;
    }
    return true;
}

/* Document 02, Wish 12: "256 counts: how many held keys begin with each byte", in two bytes each, the least significant first; "counted afresh". */
static void count_firsts(const uint8_t *cache, size_t len, uint8_t *firsts)
{
    size_t counts[256] = {0};
    for (const uint8_t *r = cache; r < cache + len; r += RECORD_LEN)
        if (r[COUNT] != 0)
            counts[r[0]]++;
    for (size_t byte = 0; byte < 256; byte++) {
        firsts[2 * byte] = (uint8_t)(counts[byte] % 256);
        firsts[2 * byte + 1] = (uint8_t)(counts[byte] / 256);
    }
}

/* "Counts lent that disagree with the cache are refused with 1." */
static bool firsts_form(struct room cache, struct room firsts)
{
    uint8_t afresh[FIRSTS_LEN];
    count_firsts(cache.at, cache.len, afresh);
    return firsts.len == FIRSTS_LEN && memcmp(firsts.at, afresh, FIRSTS_LEN) == 0;
}

static bool inquiry_form(struct room own, const uint8_t *table, const uint8_t *p, enum form most)
{
    if (!record_form(p + 40, most) || order(p + 8, p + 40) != 0 || own_with(own, p + 8) != NULL)
        return false;
    for (const uint8_t *before = table; before < p; before += PLACE_LEN)
        if (before[4] == 2 && order(before + 8, p + 8) == 0)
            return false;
    return true;
}

static bool waiting_form(struct room own, struct room waiting, enum form most)
{
    if (waiting.len != WAITING_LEN)
        return false;
    for (size_t i = 0; i < WAITING_LEN; i += PLACE_LEN) {
        const uint8_t *p = waiting.at + i;
        if (zero(p, PLACE_LEN))
            return zero(p, WAITING_LEN - i);
        if (p[5] > 2 || p[6] != 0 || p[7] != 0)
            return false;
        if (p[4] == 1 ? !zero(p + 40, RECORD_LEN) : p[4] == 2 ? !inquiry_form(own, waiting.at, p, most) : true)
            return false;
        if (i > 0 && four_little(p - PLACE_LEN) >= four_little(p))
            return false;
    }
    return true;
}

/* The copy that a call works on. What was lent for reading stays outside of it. */

struct work {
    const struct lent *lent;
    uint8_t cache[CACHE_MOST], waiting[WAITING_LEN], out[OUTPUT_LEN];
    size_t most, held, waits, written;
    uint32_t lengths[2];
    int sent;
};

static void begin(struct work *w, const struct lent *l)
{
    memset(w, 0, sizeof *w);
    w->lent = l;
}

static void copy_cache(struct work *w)
{
    memcpy(w->cache, w->lent->cache.at, w->lent->cache.len);
    w->most = w->lent->cache.len / RECORD_LEN;
    while (w->held < w->most && w->cache[RECORD_LEN * w->held + COUNT] != 0)
        w->held++;
}

static void copy_waiting(struct work *w)
{
    memcpy(w->waiting, w->lent->waiting.at, WAITING_LEN);
    while (w->waits < PLACES && w->waiting[PLACE_LEN * w->waits + 4] != 0)
        w->waits++;
}

static uint8_t *record_at(struct work *w, size_t i)
{
    return w->cache + RECORD_LEN * i;
}

static uint8_t *place_at(struct work *w, size_t i)
{
    return w->waiting + PLACE_LEN * i;
}

/* The held record with this key, or NULL. */
static uint8_t *held(struct work *w, const uint8_t *key)
{
    for (size_t i = 0; i < w->held; i++)
        if (order(record_at(w, i), key) == 0)
            return record_at(w, i);
    return NULL;
}

static void take_out(struct work *w, size_t i)
{
    memmove(record_at(w, i), record_at(w, i + 1), RECORD_LEN * (w->held - i - 1));
    w->held--;
    memset(record_at(w, w->held), 0, RECORD_LEN);
}

static void remove_key(struct work *w, const uint8_t *key)
{
    uint8_t *r = held(w, key);
    if (r != NULL)
        take_out(w, (size_t)(r - w->cache) / RECORD_LEN);
}

/* The neighbour list of one of our keys, by the places of its keys among so many records: a side's, nearest first. Each is the nearest of those
 * farther out than the one before. Gives how many, up to five. */
static uint32_t list_side(const uint8_t *ours, const uint8_t *records, size_t n, bool side, size_t *places)
{
    uint8_t last[KEY_LEN] = {0}, far[KEY_LEN], least[KEY_LEN];
    uint32_t listed = 0;
    for (; listed < 5; listed++) {
        bool any = false;
        for (size_t i = 0; i < n; i++) {
            const uint8_t *key = records + RECORD_LEN * i;
            nearness(ours, key, far);
            if (above(ours, key) != side || order(far, last) <= 0 || (any && order(far, least) >= 0))
                continue;
            any = true;
            places[listed] = i;
            memcpy(least, far, KEY_LEN);
        }
        if (!any)
            break;
        memcpy(last, least, KEY_LEN);
    }
    return listed;
}

/* Which of so many records stand in a neighbour list, of any of our keys. */
static void mark_listed(struct room own, const uint8_t *records, size_t n, bool *listed)
{
    size_t places[5];
    for (size_t i = 0; i < own.len; i += RECORD_LEN)
        for (int side = 0; side < 2; side++)
            for (uint32_t left = list_side(own.at + i, records, n, side, places); left > 0; left--)
                listed[places[left - 1]] = true;
}

/* "Of the keys in no neighbour list, drop the one farthest round the ring from the first own key, the lower on a tie": its place. The records are in
 * the order of their keys, so that the first of two equally far is the lower. */
static size_t dropped(struct room own, const uint8_t *records, size_t n)
{
    bool listed[257] = {false};
    uint8_t far[KEY_LEN], most[KEY_LEN] = {0};
    size_t place = 0;
    mark_listed(own, records, n, listed);
    for (size_t i = 0; i < n; i++) {
        closeness(own.at, records + RECORD_LEN * i, far);
        if (!listed[i] && order(far, most) > 0) {
            place = i;
            memcpy(most, far, KEY_LEN);
        }
    }
    return place;
}

/* One more than there is room for may stand in a list of its own until one is dropped. */
static void learn(struct work *w, const uint8_t *record)
{
    uint8_t list[257][RECORD_LEN];
    uint8_t *same = held(w, record);
    if (same != NULL) {
        memcpy(same, record, RECORD_LEN);
        return;
    }
    size_t n = 0;
    for (size_t i = 0; i < w->held && order(record_at(w, i), record) < 0; i++)
        memcpy(list[n++], record_at(w, i), RECORD_LEN);
    memcpy(list[n++], record, RECORD_LEN);
    for (size_t i = n - 1; i < w->held; i++)
        memcpy(list[n++], record_at(w, i), RECORD_LEN);
    if (n > w->most) {
        size_t gone = dropped(w->lent->own, list[0], n);
        n--;
        memmove(list[gone], list[gone + 1], RECORD_LEN * (n - gone));
    }
    memcpy(w->cache, list, RECORD_LEN * n);
    w->held = n;
}

/* Document 02, Wish 2: do the record's port and one of its addresses stand on the path, in one endpoint? Only the addresses that it has count. */
static bool on_path(const uint8_t *record, struct bytes path)
{
    bool found = false;
    for (const uint8_t *e = path.at; !found && e < path.at + path.len; e += ENDPOINT_LEN)
        for (const uint8_t *a = record + ADDRESSES; !found && a < record + ADDRESSES + ADDRESS_LEN * record[COUNT]; a += ADDRESS_LEN)
            found = memcmp(e, record + PORT, 2) == 0 && memcmp(e + 2, a, ADDRESS_LEN) == 0;
    return found;
}

/* Of the record that is the closest so far, NULL for none, and another: the one to take. */
static const uint8_t *closer(const uint8_t *target, const uint8_t *best, const uint8_t *other)
{
    uint8_t far[KEY_LEN], least[KEY_LEN];
    if (best == NULL)
        return other;
    bool best_down = closeness(target, best, least), down = closeness(target, other, far);
    return order(far, least) < 0 || (order(far, least) == 0 && down && !best_down) ? other : best;
}

/* "The own record is never skipped", and "every own record is a candidate". */
static const uint8_t *closest(struct work *w, struct bytes path, const uint8_t *target)
{
    struct room own = w->lent->own;
    const uint8_t *best = NULL;
    for (size_t i = 0; i < own.len; i += RECORD_LEN)
        best = closer(target, best, own.at + i);
    for (size_t i = 0; i < w->held; i++)
        if (!on_path(record_at(w, i), path))
            best = closer(target, best, record_at(w, i));
    return best;
}

/* Document 02, Wish 8, "the steps of halving as defined on the key list": of n keys "the one at n/2 rounded down, from 0, three-way". How many of
 * them are compared with a key. */
static uint32_t halvings(uint8_t (*list)[KEY_LEN], size_t n, const uint8_t *key)
{
    size_t middle = n / 2;
    if (n == 0)
        return 0;
    int way = order(key, list[middle]);
    if (way == 0)
        return 1;
    return 1 + (way < 0 ? halvings(list, middle, key) : halvings(list + middle + 1, n - middle - 1, key));
}

/* The key list is that of all records held. */
static uint32_t compared(struct work *w, const uint8_t *key)
{
    uint8_t list[256][KEY_LEN];
    for (size_t i = 0; i < w->held; i++)
        memcpy(list[i], record_at(w, i), KEY_LEN);
    return halvings(list, w->held, key);
}

/* The place with this ID, of any kind; the inquiry for this key; or NULL. */
static uint8_t *place_of_id(struct work *w, uint32_t id)
{
    for (size_t i = 0; i < w->waits; i++)
        if (four_little(place_at(w, i)) == id)
            return place_at(w, i);
    return NULL;
}

static uint8_t *inquiry_for(struct work *w, const uint8_t *key)
{
    for (size_t i = 0; i < w->waits; i++)
        if (place_at(w, i)[4] == 2 && order(place_at(w, i) + 8, key) == 0)
            return place_at(w, i);
    return NULL;
}

static void free_place(struct work *w, uint8_t *p)
{
    memmove(p, p + PLACE_LEN, (size_t)(place_at(w, w->waits) - p) - PLACE_LEN);
    w->waits--;
    memset(place_at(w, w->waits), 0, PLACE_LEN);
}

/* Opens a place; gives 13 or 14 where it can't. A flood has no record. */
static uint32_t open_place(struct work *w, uint32_t id, uint8_t kind, const uint8_t *key, const uint8_t *record)
{
    if (place_of_id(w, id) != NULL)
        return ID_WAITING;
    if (w->waits == PLACES)
        return FULL;
    size_t i = 0;
    while (i < w->waits && four_little(place_at(w, i)) < id)
        i++;
    uint8_t *p = place_at(w, i);
    memmove(p + PLACE_LEN, p, PLACE_LEN * (w->waits - i));
    memset(p, 0, PLACE_LEN);
    for (int b = 0; b < 4; b++)
        p[b] = (uint8_t)(id >> 8 * b);
    p[4] = kind;
    p[5] = 2;
    memcpy(p + 8, key, KEY_LEN);
    if (record != NULL)
        memcpy(p + 40, record, RECORD_LEN);
    w->waits++;
    return 0;
}

/* Writing: appended to the copy of the output, which has room for two datagrams. */

static void put(struct work *w, const void *bytes, size_t n)
{
    memcpy(w->out + w->written, bytes, n);
    w->written += n;
    w->lengths[w->sent - 1] += (uint32_t)n;
}

static void put1(struct work *w, unsigned value)
{
    uint8_t byte = (uint8_t)value;
    put(w, &byte, 1);
}

static void put2(struct work *w, size_t value)
{
    put1(w, (unsigned)(value >> 8));
    put1(w, (unsigned)value);
}

static void put4(struct work *w, uint32_t value)
{
    put2(w, value >> 16);
    put2(w, value);
}

static void put_field(struct work *w, unsigned number, const void *contents, size_t n)
{
    put2(w, number);
    put2(w, 4 + n);
    put(w, contents, n);
}

static void put_header(struct work *w, unsigned type, uint32_t id)
{
    w->sent++;
    put4(w, 0x0010000C);
    put1(w, 0x51);
    put1(w, w->lent->major);
    put1(w, w->lent->minor);
    put1(w, type);
    put4(w, id);
}

static void put_acked(struct work *w, uint32_t id)
{
    put4(w, 0x00180008);
    put4(w, id);
}

/* A field of two bytes of flags and two of padding. */
static void put_flags(struct work *w, unsigned flags)
{
    put4(w, 0x00400006);
    put2(w, flags);
    put2(w, 0);
}

static void put_entry(struct work *w, const uint8_t *record)
{
    unsigned count = record[COUNT];
    put2(w, 0x009A);
    put2(w, 42 + 16 * count);
    put(w, record, KEY_LEN);
    put1(w, w->lent->major);
    put1(w, w->lent->minor);
    put(w, record + PORT, 2);
    put1(w, 0);
    put1(w, count);
    put(w, record + ADDRESSES, ADDRESS_LEN * count);
    put2(w, 0);
}

static void send_ack(struct work *w, uint32_t id, uint32_t to, bool n)
{
    put_header(w, 0x09, id);
    put_acked(w, to);
    if (n) {
        put4(w, 0x00400006);
        put2(w, 1);
    }
}

static void send_inquire(struct work *w, uint32_t id, const uint8_t *key, const uint8_t *nonce)
{
    put_header(w, 0x07, id);
    put_flags(w, 0x0010);
    put_field(w, 0x0039, key, KEY_LEN);
    put_field(w, 0x0093, nonce, NONCE_LEN);
}

static void send_authority(struct work *w, uint32_t id, uint32_t to, size_t size)
{
    put_header(w, 0x08, id);
    put_acked(w, to);
    put4(w, 0x00980008);
    put2(w, size);
    put2(w, 0);
    put_flags(w, 0);
}

/* What each message does: the number, with what it changes left in the copy. 15 is tested behind them, as the last in order. */

/* "N is clear where the validate key is any of ours." */
static void acknowledge(struct work *w, const struct message *m)
{
    const uint8_t *d = w->lent->datagram.at;
    if (!m->d)
        send_ack(w, w->lent->id, m->id, own_with(w->lent->own, d + m->validate.at) == NULL);
}

/* The record that a message's route entry has. Its versions and flags are no part of it; of two to four addresses "the first" is "kept" (document 02,
 * Wish 13). */
static void entry_record(const struct work *w, const struct message *m, uint8_t *record)
{
    const uint8_t *entry = w->lent->datagram.at + m->entry.at;
    memset(record, 0, RECORD_LEN);
    memcpy(record, entry, KEY_LEN);
    memcpy(record + PORT, entry + 34, 2);
    record[COUNT] = 1;
    memcpy(record + ADDRESSES, entry + 38, ADDRESS_LEN);
}

/* "If the very same record is held, or an inquiry for its key is waiting, no more. Otherwise an INQUIRE for its key follows and its place opens." */
static uint32_t ask_about(struct work *w, const uint8_t *record, uint32_t id)
{
    const uint8_t *known = held(w, record);
    if (known != NULL && memcmp(known, record, RECORD_LEN) == 0)
        return 0;
    if (inquiry_for(w, record) != NULL)
        return 0;
    send_inquire(w, id, record, w->lent->nonce.at);
    return open_place(w, id, 2, record, record);
}

static uint32_t take_entry(struct work *w, const struct message *m)
{
    uint32_t given = w->lent->id;
    uint8_t record[RECORD_LEN];
    entry_record(w, m, record);
    if (own_with(w->lent->own, record) != NULL)
        return OWN_KEY;
    acknowledge(w, m);
    return ask_about(w, record, given + 1);
}

static uint32_t take_revocation(struct work *w, const struct message *m)
{
    uint32_t verdict = w->lent->verdict;
    const uint8_t *key = w->lent->key.at;
    if (verdict != 1)
        return UNTRUSTED;
    if (own_with(w->lent->own, key) != NULL)
        return OWN_KEY;
    remove_key(w, key);
    uint8_t *inquiry = inquiry_for(w, key);
    if (inquiry != NULL)
        free_place(w, inquiry);
    acknowledge(w, m);
    return 0;
}

static uint32_t take_authority(struct work *w, const struct message *m)
{
    uint32_t verdict = w->lent->verdict;
    const uint8_t *key = w->lent->key.at;
    uint8_t *p = place_of_id(w, m->acked);
    if (p == NULL || p[4] != 2)
        return STRAY;
    if (m->cpa.at == 0 || verdict != 1)
        return UNTRUSTED;
    if (order(p + 8, key) != 0)
        return OTHER_KEY;
    learn(w, p + 40);
    free_place(w, p);
    return 0;
}

static uint32_t take_ack(struct work *w, const struct message *m)
{
    uint8_t *p = place_of_id(w, m->acked);
    if (p == NULL || p[4] != 1)
        return STRAY;
    if (m->n)
        remove_key(w, p + 8);
    free_place(w, p);
    return 0;
}

/* "INQUIRE says which CPA": that of the own record with the validate key. */
static uint32_t answer_inquire(struct work *w, const struct message *m)
{
    struct room own = w->lent->own;
    const uint8_t *ours = own_with(own, w->lent->datagram.at + m->validate.at);
    if (ours == NULL)
        return NOT_OURS;
    const uint8_t *cpa = cpa_at(w->lent->cpas, (size_t)(ours - own.at) / RECORD_LEN);
    size_t length = cpa[0] + 256u * cpa[1];
    send_authority(w, w->lent->id, m->id, 12 + length);
    put_field(w, 0x009B, cpa + 2, length);
    return 0;
}

/* Document 02, Wish 2: a LOOKUP's route entry "is inquired about as in a FLOOD, with the ID one more than the reply's; our own key there is passed
 * over". The reply stands before the INQUIRE. */
static uint32_t answer_lookup(struct work *w, const struct message *m)
{
    const uint8_t *d = w->lent->datagram.at;
    uint32_t reply = w->lent->id;
    uint8_t record[RECORD_LEN];
    struct bytes path = {d + m->path.at, m->path.len};
    const uint8_t *shown = closest(w, path, d + m->target.at);
    send_authority(w, reply, m->id, 52 + 16 * (size_t)shown[COUNT]);
    put_entry(w, shown);
    if (m->entry.at == 0 || own_with(w->lent->own, d + m->entry.at) != NULL)
        return 0;
    entry_record(w, m, record);
    return ask_about(w, record, reply + 1);
}

static uint32_t take(struct work *w, const struct message *m)
{
    switch (m->type) {
    case 0x04: return m->entry.at != 0 ? take_entry(w, m) : take_revocation(w, m);
    case 0x07: return answer_inquire(w, m);
    case 0x08: return take_authority(w, m);
    case 0x09: return take_ack(w, m);
    case 0x0B: return answer_lookup(w, m);
    default: return NOT_TAKEN;
    }
}

/* The calls. Each tests in the order in which document 01 has its numbers, and stops at the first that applies. */

static struct model_answer refuse(uint32_t number)
{
    struct model_answer a = {number, 0, 0};
    return a;
}

/* Behind all other numbers: "output needs more bytes than lent". */
static uint32_t room_for(const struct work *w, uint32_t number)
{
    return number == 0 && w->written > w->lent->output.len ? ROOM : number;
}

struct model_answer model_receive(const struct lent *l)
{
    if (!own_form(l->own, ONE_ADDRESS) || !cpas_form(l->own, l->cpas) || l->nonce.len != NONCE_LEN || l->key.len != KEY_LEN)
        return refuse(MEMORY);
    if (!cache_form(l->own, l->cache, ONE_ADDRESS) || !waiting_form(l->own, l->waiting, ONE_ADDRESS))
        return refuse(MEMORY);
    if (!firsts_form(l->cache, l->firsts))
        return refuse(MEMORY);
    struct message m = read_message(l->major, read_only(l->datagram));
    if (m.number != 0)
        return refuse(m.number);
    struct work w;
    begin(&w, l);
    copy_cache(&w);
    copy_waiting(&w);
    uint32_t number = room_for(&w, take(&w, &m));
    if (number != 0)
        return refuse(number);
    memcpy(l->cache.at, w.cache, l->cache.len);
    count_firsts(w.cache, l->cache.len, l->firsts.at);
    memcpy(l->waiting.at, w.waiting, WAITING_LEN);
    memcpy(l->output.at, w.out, w.written);
    struct model_answer a = {0, w.lengths[0], w.lengths[1]};
    return a;
}

struct model_answer model_send(const struct lent *l)
{
    if (!own_form(l->own, ONE_ADDRESS) || l->neighbour.len != KEY_LEN || l->key.len != KEY_LEN)
        return refuse(MEMORY);
    if (!cache_form(l->own, l->cache, ONE_ADDRESS) || !waiting_form(l->own, l->waiting, ONE_ADDRESS))
        return refuse(MEMORY);
    struct work w;
    begin(&w, l);
    copy_cache(&w);
    copy_waiting(&w);
    const uint8_t *neighbour = l->neighbour.at, *record = own_with(l->own, l->key.at);
    if (record == NULL)
        record = held(&w, l->key.at);
    if (held(&w, neighbour) == NULL || record == NULL)
        return refuse(NOT_OURS);
    uint32_t number = open_place(&w, l->id, 1, neighbour, NULL);
    put_header(&w, 0x04, l->id);
    put4(&w, 0x00430007);
    put4(&w, 0);
    put_field(&w, 0x0039, neighbour, KEY_LEN);
    put_entry(&w, record);
    number = room_for(&w, number);
    if (number != 0)
        return refuse(number);
    memcpy(l->waiting.at, w.waiting, WAITING_LEN);
    memcpy(l->output.at, w.out, w.written);
    struct model_answer a = {0, w.lengths[0], 0};
    return a;
}

struct model_answer model_tick(const struct lent *l)
{
    if (!own_form(l->own, ONE_ADDRESS) || !waiting_form(l->own, l->waiting, ONE_ADDRESS))
        return refuse(MEMORY);
    if (l->output.len < TICK_LEN)
        return refuse(ROOM);
    struct work w;
    begin(&w, l);
    copy_waiting(&w);
    struct model_answer a = {0, 0, 0};
    size_t i = 0;
    while (i < w.waits) {
        uint8_t *p = place_at(&w, i);
        if (p[5] == 0) {
            free_place(&w, p);
        } else {
            p[5]--;
            memcpy(l->output.at + 4 * a.first, p, 4);
            a.first++;
            i++;
        }
    }
    memcpy(l->waiting.at, w.waiting, WAITING_LEN);
    return a;
}

/* "Each has a neighbour list, asked for by its key (12 if not ours)." */
struct model_answer model_neighbours(const struct lent *l)
{
    if (!own_form(l->own, ONE_ADDRESS) || !cache_form(l->own, l->cache, ONE_ADDRESS) || l->key.len != KEY_LEN)
        return refuse(MEMORY);
    if (own_with(l->own, l->key.at) == NULL)
        return refuse(NOT_OURS);
    if (l->output.len < LIST_LEN)
        return refuse(ROOM);
    struct work w;
    size_t places[10];
    begin(&w, l);
    copy_cache(&w);
    struct model_answer a = {0, 0, 0};
    a.first = list_side(l->key.at, w.cache, w.held, false, places);
    a.second = list_side(l->key.at, w.cache, w.held, true, places + a.first);
    for (size_t i = 0; i < a.first + a.second; i++)
        memcpy(l->output.at + KEY_LEN * i, record_at(&w, places[i]), KEY_LEN);
    return a;
}

/* Document 02, Wish 2: "Whoever asks for the closest record now hands in the path: endpoints as on the wire, none allowed, 1 if not whole ones."
 * `first` tells the record: 0 to 3 our own, 4 and more those of the cache, in their order; `second`, by Wish 8, the keys compared for the target. */
struct model_answer model_closest(const struct lent *l)
{
    if (!own_form(l->own, ONE_ADDRESS) || l->path.len % ENDPOINT_LEN != 0 || l->target.len != KEY_LEN)
        return refuse(MEMORY);
    if (!cache_form(l->own, l->cache, ONE_ADDRESS))
        return refuse(MEMORY);
    struct work w;
    begin(&w, l);
    copy_cache(&w);
    const uint8_t *shown = closest(&w, read_only(l->path), l->target.at), *ours = own_with(l->own, shown);
    struct model_answer a = {0, 0, 0};
    a.first = (uint32_t)((size_t)(ours != NULL ? ours - l->own.at : shown - w.cache) / RECORD_LEN) + (ours != NULL ? 0 : 4);
    a.second = compared(&w, l->target.at);
    return a;
}

/* Wish 8: "Return, beside each search, the number of keys compared". `first` tells the record: 0 for none, 1 and more those of the cache in their
 * order. */
struct model_answer model_search(const struct lent *l)
{
    if (!own_form(l->own, ONE_ADDRESS) || l->key.len != KEY_LEN || !cache_form(l->own, l->cache, ONE_ADDRESS))
        return refuse(MEMORY);
    struct work w;
    begin(&w, l);
    copy_cache(&w);
    const uint8_t *there = held(&w, l->key.at);
    struct model_answer a = {0, 0, compared(&w, l->key.at)};
    if (there != NULL)
        a.first = 1 + (uint32_t)((size_t)(there - w.cache) / RECORD_LEN);
    return a;
}

/* Document 02, Wish 13: "the count 1 and the other addresses zero". */
static void convert_record(uint8_t *r)
{
    r[COUNT] = 1;
    memset(r + ADDRESSES + ADDRESS_LEN, 0, 3 * ADDRESS_LEN);
}

/* "A conversion turns an old cache and waiting table into the new form .. keys and order the same", with 1 for memory "not in the old". The own
 * records are lent for reading; a flood's record is all zero, and no record to convert. */
struct model_answer model_convert(const struct lent *l)
{
    struct model_answer a = {0, 0, 0};
    if (!own_form(l->own, OLD) || !cache_form(l->own, l->cache, OLD) || !waiting_form(l->own, l->waiting, OLD))
        return refuse(MEMORY);
    for (size_t i = 0; i < l->cache.len && l->cache.at[i + COUNT] != 0; i += RECORD_LEN)
        convert_record(l->cache.at + i);
    for (size_t i = 0; i < WAITING_LEN; i += PLACE_LEN)
        if (l->waiting.at[i + 4] == 2)
            convert_record(l->waiting.at + i + 40);
    return a;
}

/* Document 02, Wish 10: "each key gone, new, or held with another record". All keys of both caches are put into one list and sorted, and each is
 * looked for in either cache. */

static int by_key(const void *a, const void *b)
{
    return order(*(const uint8_t *const *)a, *(const uint8_t *const *)b);
}

static int with_key(const void *key, const void *record)
{
    return order(key, record);
}

static size_t used_in(struct room cache)
{
    size_t n = 0;
    while (n < cache.len / RECORD_LEN && cache.at[RECORD_LEN * n + COUNT] != 0)
        n++;
    return n;
}

static size_t add_keys(struct room cache, const uint8_t **list, size_t n)
{
    for (size_t i = 0; i < used_in(cache); i++)
        list[n++] = cache.at + RECORD_LEN * i;
    return n;
}

/* The keys of both, each once, in order; gives how many. */
static size_t all_keys(struct room before, struct room after, const uint8_t **list)
{
    size_t all = add_keys(after, list, add_keys(before, list, 0)), n = 0;
    qsort(list, all, sizeof *list, by_key);
    for (size_t i = 0; i < all; i++)
        if (n == 0 || order(list[n - 1], list[i]) != 0)
            list[n++] = list[i];
    return n;
}

/* The entry of a key: its kind, 1 gone, 2 new, 3 held with another record, and "the last two with the second cache's record"; of one gone the key and
 * zeros. Whether it is one to list. */
static bool change_of(struct room before, struct room after, const uint8_t *key, uint8_t *entry)
{
    const uint8_t *was = bsearch(key, before.at, used_in(before), RECORD_LEN, with_key);
    const uint8_t *is = bsearch(key, after.at, used_in(after), RECORD_LEN, with_key);
    memset(entry, 0, CHANGE_LEN);
    entry[0] = is == NULL ? 1 : was == NULL ? 2 : 3;
    memcpy(entry + 1, is == NULL ? key : is, is == NULL ? KEY_LEN : RECORD_LEN);
    return was == NULL || is == NULL || memcmp(was, is, RECORD_LEN) != 0;
}

/* "Refusals: 1 for either cache malformed or unequal C, 15 if the list doesn't fit." */
struct model_answer model_changes(const struct lent *l)
{
    static uint8_t list[CHANGES_MOST + 1][CHANGE_LEN];
    const uint8_t *keys_of_both[CHANGES_MOST];
    uint32_t entries = 0;
    if (!own_form(l->own, ONE_ADDRESS) || l->before.len != l->after.len)
        return refuse(MEMORY);
    if (!cache_form(l->own, l->before, ONE_ADDRESS) || !cache_form(l->own, l->after, ONE_ADDRESS))
        return refuse(MEMORY);
    size_t n = all_keys(l->before, l->after, keys_of_both);
    for (size_t i = 0; i < n; i++)
        entries += change_of(l->before, l->after, keys_of_both[i], list[entries]);
    if (l->output.len < CHANGE_LEN * entries)
        return refuse(ROOM);
    memcpy(l->output.at, list, CHANGE_LEN * entries);
    struct model_answer a = {0, entries, CHANGE_LEN * entries};
    return a;
}
