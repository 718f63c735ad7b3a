/* The nine calls in plain C, written for speed: what the archive is measured against. It makes every test of document 01, with document 02's ring,
 * path, one address, count of keys compared, several own records and counts by first byte, and gives the same numbers and bytes; nothing is written
 * before the last refusal is decided. Numbers are loaded whole and swapped, keys compared by words up to the first that differ, runs of bytes moved by
 * the C library. For x86-64: words are read least significant byte first.
 *
 *   PLAIN    begins the names of the calls
 *   HALVE    keys are searched by halving. Without it one record is looked at after the other up to the key's place, but in the two calls that tell
 *            how many keys halving compares. */
#include "plain.h"
#include <stdbool.h>
#include <string.h>

#ifndef PLAIN
#define PLAIN plain
#endif
#define JOINED(a, b) a##_##b
#define JOIN(a, b) JOINED(a, b)
#define CALL(name) JOIN(PLAIN, name)
#define NOT_IN_FORM SIZE_MAX

/* The signatures are the header's, under each name. */
#define DECLARED(name) PLAIN_CALLS(name)
DECLARED(PLAIN);

/* Numbers as they are loaded. */

static inline uint16_t two(const uint8_t *p)
{
    uint16_t n;
    memcpy(&n, p, 2);
    return __builtin_bswap16(n);
}

static inline uint32_t four(const uint8_t *p)
{
    uint32_t n;
    memcpy(&n, p, 4);
    return __builtin_bswap32(n);
}

static inline uint32_t id_at(const uint8_t *p)
{
    uint32_t n;
    memcpy(&n, p, 4);
    return n;
}

static inline uint64_t word(const uint8_t *p)
{
    uint64_t n;
    memcpy(&n, p, 8);
    return n;
}

static inline uint64_t big(const uint8_t *p)
{
    return __builtin_bswap64(word(p));
}

/* Are the last three words of two keys the same? Most keys differ in the first. */
static inline bool same_rest(const uint8_t *a, const uint8_t *b)
{
    return ((word(a + 8) ^ word(b + 8)) | (word(a + 16) ^ word(b + 16)) | (word(a + 24) ^ word(b + 24))) == 0;
}

static inline bool same_key(const uint8_t *a, const uint8_t *b)
{
    return word(a) == word(b) && same_rest(a, b);
}

/* The order of two keys whose first words are x and y. */
static inline bool less(uint64_t x, const uint8_t *a, uint64_t y, const uint8_t *b)
{
    for (int i = 8; x == y && i < 32; i += 8) {
        x = big(a + i);
        y = big(b + i);
    }
    return x < y;
}

static bool all_zero(const uint8_t *p, size_t n)
{
    uint64_t any = 0;
    for (; n >= 32; p += 32, n -= 32)
        any |= word(p) | word(p + 8) | word(p + 16) | word(p + 24);
    for (; n >= 8; p += 8, n -= 8)
        any |= word(p);
    for (; n > 0; p++, n--)
        any |= *p;
    return any == 0;
}

/* Form. */

/* One address: the count 1, a zero byte, and 48 of them behind the address. */
static inline bool record_formed(const uint8_t *r)
{
    uint64_t rest = word(r + 52) | word(r + 60) | word(r + 68) | word(r + 76) | word(r + 84) | word(r + 92);
    return two(r + 34) == 0x0100 && rest == 0;
}

/* One to four, as before request 13. */
static inline bool old_formed(const uint8_t *r)
{
    uint64_t rest = r[35];
    switch (r[34]) {
    case 1: rest |= word(r + 52) | word(r + 60); /* fall through */
    case 2: rest |= word(r + 68) | word(r + 76); /* fall through */
    case 3: rest |= word(r + 84) | word(r + 92); /* fall through */
    case 4: return rest == 0;
    default: return false;
    }
}

/* `old` is known where each is called, and the other form's test is not in the code. */
static inline bool formed(const uint8_t *r, bool old)
{
    return old ? old_formed(r) : record_formed(r);
}

/* Our own records, one to four. Most gauges have one: it is looked at first, and what is done for the others is in functions of its own. */
struct own {
    const uint8_t *at, *end;
};

static inline bool is_one(struct own own)
{
    return __builtin_expect(own.end - own.at == 100, 1);
}

__attribute__((noinline)) static bool later_rows(struct own own, bool old)
{
    size_t len = (size_t)(own.end - own.at);
    if (len % 100 != 0 || len - 100 > 300)
        return false;
    for (const uint8_t *r = own.at + 100; r < own.end; r += 100)
        if (!formed(r, old) || !less(big(r - 100), r - 100, big(r), r))
            return false;
    return true;
}

static inline bool own_rows(struct own own, bool old)
{
    return (is_one(own) || later_rows(own, old)) && formed(own.at, old);
}

static bool own_formed(struct own own)
{
    return own_rows(own, false);
}

__attribute__((noinline)) static const uint8_t *later_with(struct own own, const uint8_t *key)
{
    for (const uint8_t *r = own.at + 100; r < own.end; r += 100)
        if (same_key(r, key))
            return r;
    return NULL;
}

/* The own record with this key; or NULL. */
static inline const uint8_t *own_with(struct own own, const uint8_t *key)
{
    return same_key(own.at, key) ? own.at : is_one(own) ? NULL : later_with(own, key);
}

#ifdef HALVE
/* Our own keys are looked for behind the walk over the records: a search is short. */
static bool find(const uint8_t *cache, size_t held, const uint8_t *key, size_t *at);

static bool own_held(struct own own, const uint8_t *cache, size_t held)
{
    size_t at;
    const uint8_t *r = own.at;
    do
        if (find(cache, held, r, &at))
            return true;
    while ((r += 100) < own.end);
    return false;
}
#define MEETS_OWN(top, r) false
#define OWN_HELD(held) own_held(own, cache, held)
#else
/* Our own keys are compared on the way, as both go up. Is a record whose first word is not below that of the next own key that key? Else the own key
 * that is next from here on. */
__attribute__((noinline)) static bool meets_own(struct own *next, uint64_t *ours, uint64_t top, const uint8_t *r)
{
    while (next->at < next->end && less(big(next->at), next->at, top, r))
        next->at += 100;
    *ours = next->at < next->end ? big(next->at) : UINT64_MAX;
    return next->at < next->end && same_key(next->at, r);
}
#define MEETS_OWN(top, r) (top >= ours && meets_own(&next, &ours, top, r))
#define OWN_HELD(held) false
#endif

/* How many records are held. The first word of the key before is carried along. */
static inline size_t cache_rows(struct own own, const uint8_t *cache, size_t len, bool old)
{
    if (len < 10 * (size_t)(own.end - own.at) || len > 25600 || len % 100 != 0)
        return NOT_IN_FORM;
    const uint8_t *r = cache, *end = cache + len;
    uint64_t before = 0;
#ifndef HALVE
    struct own next = own;
    uint64_t ours = big(own.at);
#endif
    for (; r < end && formed(r, old); r += 100) {
        uint64_t top = big(r);
        if (top <= before && r != cache && !less(before, r - 100, top, r))
            return NOT_IN_FORM;
        if (MEETS_OWN(top, r))
            return NOT_IN_FORM;
        before = top;
    }
    size_t held = (size_t)(r - cache) / 100;
    return all_zero(r, (size_t)(end - r)) && !OWN_HELD(held) ? held : NOT_IN_FORM;
}

static size_t cache_form(struct own own, const uint8_t *cache, size_t len)
{
    return cache_rows(own, cache, len, false);
}

/* Are the firsts those of so many records? Numbers of 16 bits, as they are loaded. */
static bool firsts_formed(const uint8_t *cache, size_t held, const uint8_t *firsts, size_t len)
{
    uint16_t counts[256] = {0};
    for (const uint8_t *r = cache, *end = cache + 100 * held; r < end; r += 100)
        counts[*r]++;
    return len == sizeof counts && memcmp(firsts, counts, sizeof counts) == 0;
}

/* So many CPAs, each behind its length, and nothing more. */
static inline bool cpas_formed(struct own own, const uint8_t *cpas, size_t len)
{
    for (const uint8_t *r = own.at; r < own.end; r += 100) {
        uint16_t one;
        if (len < 2)
            return false;
        memcpy(&one, cpas, 2);
        if (one - 1u > 1023 || len - 2 < one)
            return false;
        cpas += 2 + one;
        len -= 2 + (size_t)one;
    }
    return len == 0;
}

static inline bool inquiry_formed(struct own own, const uint8_t *waiting, const uint8_t *p, bool old)
{
    if (!formed(p + 40, old) || !same_key(p + 8, p + 40) || own_with(own, p + 8) != NULL)
        return false;
    for (const uint8_t *q = waiting; q < p; q += 140)
        if (word(q + 8) == word(p + 8) && q[4] == 2 && same_rest(q + 8, p + 8))
            return false;
    return true;
}

/* How many places are used. The first eight bytes of a place are one word: ID, kind, tries and two that are zero. */
static inline size_t waiting_rows(struct own own, const uint8_t *waiting, size_t len, bool old)
{
    if (len != 2240)
        return NOT_IN_FORM;
    const uint8_t *p = waiting, *end = waiting + 2240;
    uint64_t least = 0;
    for (; p < end && p[4] != 0; p += 140) {
        uint64_t head = word(p), id = head & 0xFFFFFFFF;
        if (head >> 40 > 2 || id < least)
            return NOT_IN_FORM;
        if (p[4] == 2 ? !inquiry_formed(own, waiting, p, old) : p[4] != 1 || !all_zero(p + 40, 100))
            return NOT_IN_FORM;
        least = id + 1;
    }
    return all_zero(p, (size_t)(end - p)) ? (size_t)(p - waiting) / 140 : NOT_IN_FORM;
}

static size_t waiting_form(struct own own, const uint8_t *waiting, size_t len)
{
    return waiting_rows(own, waiting, len, false);
}

/* Reading. A field of known length is told by its first four bytes at once. */

struct message {
    struct gauge_look_answer seen;
    uint32_t validate_at, path_at, path_len;
    bool d, n;
};

struct place {
    const uint8_t *d;
    uint32_t len, at;
};

static inline bool here(const struct place *p, unsigned number)
{
    return p->len - p->at >= 2 && two(p->d + p->at) == number;
}

static inline bool skip(struct place *p, uint32_t n)
{
    if (p->len - p->at < n)
        return false;
    p->at += n;
    return true;
}

static inline bool padding(struct place *p)
{
    return skip(p, -p->at & 3);
}

/* A field with so many bytes of contents; `head` is its number and its length. */
static inline bool fixed(struct place *p, uint32_t head, uint32_t *at)
{
    uint32_t len = head & 0xFFFF;
    if (p->len - p->at < len || four(p->d + p->at) != head)
        return false;
    *at = p->at + 4;
    p->at += len;
    return true;
}

static inline bool field(struct place *p, unsigned number, uint32_t *at, uint32_t *contents)
{
    if (p->len - p->at < 4 || two(p->d + p->at) != number)
        return false;
    uint32_t len = two(p->d + p->at + 2);
    if (len < 4 || len > p->len - p->at)
        return false;
    *at = p->at + 4;
    *contents = len - 4;
    p->at += len;
    return true;
}

static inline bool optional(struct place *p, unsigned number)
{
    uint32_t at, len;
    return !here(p, number) || field(p, number, &at, &len);
}

static inline bool optional_padded(struct place *p, unsigned number)
{
    uint32_t at, len;
    return !here(p, number) || (field(p, number, &at, &len) && padding(p));
}

static bool signatures(struct place *p)
{
    return optional(p, 0x0080) && optional(p, 0x00A5) && optional(p, 0x00A6);
}

static bool optional_entry(struct place *p, struct gauge_look_answer *m)
{
    if (!here(p, 0x009A))
        return true;
    if (!field(p, 0x009A, &m->entry_at, &m->entry_len) || m->entry_len < 38)
        return false;
    uint32_t count = p->d[m->entry_at + 37];
    return count >= 1 && count <= 4 && m->entry_len == 38 + 16 * count && padding(p);
}

/* The elements, in so many bytes. */
static bool elements(struct place *p, unsigned number, uint32_t element, uint32_t size, uint32_t least, uint32_t most, uint32_t *at, uint32_t *len)
{
    if (!field(p, number, at, len) || *len < 8)
        return false;
    const uint8_t *head = p->d + *at;
    uint32_t count = two(head), whole = *len;
    *at += 8;
    *len -= 8;
    return count >= least && count <= most && *len == count * size && two(head + 2) == whole && four(head + 4) == (element << 16 | size);
}

static bool array(struct place *p, unsigned number, uint32_t element, uint32_t size, uint32_t least, uint32_t most)
{
    uint32_t at, len;
    return elements(p, number, element, size, least, most, &at, &len);
}

static bool keys(struct place *p)
{
    return array(p, 0x0060, 0x0030, 0x20, 0, 0x7FFF);
}

static bool endpoints(struct place *p)
{
    return array(p, 0x009E, 0x009D, 0x12, 1, 22);
}

static inline bool acked(struct place *p, struct gauge_look_answer *m)
{
    uint32_t at;
    if (!fixed(p, 0x00180008, &at))
        return false;
    m->acked = four(p->d + at);
    return true;
}

static inline bool nonce(struct place *p, struct gauge_look_answer *m, uint32_t head)
{
    m->nonce_len = (head & 0xFFFF) - 4;
    return fixed(p, head, &m->nonce_at);
}

static bool solicit(struct place *p, struct gauge_look_answer *m)
{
    return optional_entry(p, m) && nonce(p, m, 0x00920018);
}

static bool advertise(struct place *p, struct gauge_look_answer *m)
{
    return acked(p, m) && keys(p) && nonce(p, m, 0x00920018);
}

static bool request(struct place *p, struct gauge_look_answer *m)
{
    uint32_t at;
    if (here(p, 0x0040) && !(fixed(p, 0x00400006, &at) && skip(p, 2)))
        return false;
    if (here(p, 0x0098) && !(fixed(p, 0x00980008, &at) && two(p->d + at) == p->len - p->at && two(p->d + at + 2) == 0))
        return false;
    return nonce(p, m, 0x00930014) && keys(p) && signatures(p);
}

static bool flood(struct place *p, struct message *m)
{
    uint32_t at;
    if (!fixed(p, 0x00430007, &at) || !skip(p, 1) || !fixed(p, 0x00390024, &m->validate_at) || !optional_padded(p, 0x009F))
        return false;
    m->d = p->d[at + 1] & 1;
    if (here(p, 0x009C) && !(field(p, 0x009C, &m->seen.cpa_at, &m->seen.cpa_len) && padding(p)))
        return false;
    if (!optional_entry(p, &m->seen) || (m->seen.cpa_at != 0) == (m->seen.entry_at != 0))
        return false;
    return !here(p, 0x009E) || endpoints(p);
}

static bool inquire(struct place *p, struct message *m)
{
    uint32_t at;
    if (!fixed(p, 0x00400006, &at) || !skip(p, 2) || !fixed(p, 0x00390024, &m->validate_at))
        return false;
    if (here(p, 0x0093) && !nonce(p, &m->seen, 0x00930014))
        return false;
    return signatures(p);
}

/* An AUTHORITY gives 7 where it is not its whole buffer, and 6 where a field is bad. */
static uint32_t authority(struct place *p, struct gauge_look_answer *m)
{
    uint32_t at;
    if (!acked(p, m) || !fixed(p, 0x00980008, &at))
        return 6;
    uint32_t size = two(p->d + at), offset = two(p->d + at + 2);
    if (size > 0x91E4 || offset % 1188 != 0)
        return 6;
    if (offset != 0 || size != p->len - p->at)
        return 7;
    if (!fixed(p, 0x00400006, &at) || !skip(p, 2) || !optional_padded(p, 0x0080) || !optional_padded(p, 0x009F))
        return 6;
    if (here(p, 0x0085) && !(array(p, 0x0085, 0x0084, 2, 0, 0x7FFF) && padding(p)))
        return 6;
    if (!optional_padded(p, 0x005A) || !optional_entry(p, m))
        return 6;
    return here(p, 0x009B) && !field(p, 0x009B, &m->cpa_at, &m->cpa_len) ? 6 : 0;
}

static bool ack(struct place *p, struct message *m)
{
    uint32_t at;
    if (!acked(p, &m->seen))
        return false;
    if (!here(p, 0x0040))
        return true;
    if (!fixed(p, 0x00400006, &at))
        return false;
    m->n = p->d[at + 1] & 1;
    return true;
}

static bool lookup(struct place *p, struct message *m)
{
    uint32_t at;
    if (!fixed(p, 0x0045000C, &at))
        return false;
    unsigned criteria = p->d[at + 4], reason = p->d[at + 5];
    if (criteria > 8 || (criteria & (criteria - 1)) != 0 || reason > 3)
        return false;
    m->seen.target_len = 32;
    return fixed(p, 0x00380024, &m->seen.target_at) && fixed(p, 0x00390024, &m->validate_at) && optional_entry(p, &m->seen)
           && elements(p, 0x009E, 0x009D, 0x12, 1, 22, &m->path_at, &m->path_len) && signatures(p);
}

static uint32_t fields(struct place *p, struct message *m)
{
    switch (m->seen.kind) {
    case GAUGE_SOLICIT: return solicit(p, &m->seen) ? 0 : 6;
    case GAUGE_ADVERTISE: return advertise(p, &m->seen) ? 0 : 6;
    case GAUGE_REQUEST: return request(p, &m->seen) ? 0 : 6;
    case GAUGE_FLOOD: return flood(p, m) ? 0 : 6;
    case GAUGE_INQUIRE: return inquire(p, m) ? 0 : 6;
    case GAUGE_AUTHORITY: return authority(p, &m->seen);
    case GAUGE_ACK: return ack(p, m) ? 0 : 6;
    case GAUGE_LOOKUP: return lookup(p, m) ? 0 : 6;
    default: return 5;
    }
}

/* The number. What else stands in the message is of use only with 0. */
static uint32_t read_message(uint8_t major, const uint8_t *d, size_t len, struct message *m)
{
    if (len < 12 || len > 1232)
        return 2;
    if (four(d) != 0x0010000C || d[4] != 0x51)
        return 3;
    if (d[5] != major)
        return 4;
    memset(m, 0, sizeof *m);
    m->seen.kind = d[7];
    m->seen.id = four(d + 8);
    struct place p = {d, (uint32_t)len, 12};
    uint32_t number = fields(&p, m);
    return number == 0 && p.at != p.len ? 6 : number;
}

/* Searching. */

#ifdef HALVE
/* How many keys are below this one. */
static size_t below(const uint8_t *cache, size_t held, const uint8_t *key)
{
    uint64_t top = big(key);
    size_t low = 0;
    while (low < held) {
        size_t middle = (low + held) / 2;
        const uint8_t *r = cache + 100 * middle;
        if (less(big(r), r, top, key))
            low = middle + 1;
        else
            held = middle;
    }
    return low;
}
#else
static size_t below(const uint8_t *cache, size_t held, const uint8_t *key)
{
    uint64_t top = big(key);
    const uint8_t *r = cache, *end = cache + 100 * held;
    while (r < end && less(big(r), r, top, key))
        r += 100;
    return (size_t)(r - cache) / 100;
}
#endif

/* Whether the key is held, and then where; otherwise where it would stand. */
static bool find(const uint8_t *cache, size_t held, const uint8_t *key, size_t *at)
{
    *at = below(cache, held, key);
    return *at < held && same_key(cache + 100 * *at, key);
}

/* By halving either way: whether the key is held, and where; otherwise where it would stand; and how many keys were compared. */
struct sought {
    bool held;
    size_t at, compared;
};

static struct sought seek(const uint8_t *cache, size_t held, const uint8_t *key)
{
    uint64_t top = big(key);
    struct sought s = {false, 0, 0};
    size_t high = held;
    while (s.at < high) {
        size_t middle = (s.at + high) / 2;
        const uint8_t *r = cache + 100 * middle;
        uint64_t first = big(r);
        s.compared++;
        if (first == top && same_rest(r, key)) {
            s.held = true;
            s.at = middle;
            break;
        }
        if (less(first, r, top, key))
            s.at = middle + 1;
        else
            high = middle;
    }
    return s;
}

struct key {
    uint64_t a, b, c, d;
};

static inline struct key key_at(const uint8_t *p)
{
    struct key k = {big(p), big(p + 8), big(p + 16), big(p + 24)};
    return k;
}

static inline bool key_less(const struct key *x, const struct key *y)
{
    if (x->a != y->a)
        return x->a < y->a;
    if (x->b != y->b)
        return x->b < y->b;
    if (x->c != y->c)
        return x->c < y->c;
    return x->d < y->d;
}

/* x - y, modulo 2^256. */
static inline struct key minus(const struct key *x, const struct key *y)
{
    struct key r;
    uint64_t borrow = x->d < y->d, part;
    r.d = x->d - y->d;
    part = x->c - y->c;
    r.c = part - borrow;
    borrow = (x->c < y->c) | (part < borrow);
    part = x->b - y->b;
    r.b = part - borrow;
    borrow = (x->b < y->b) | (part < borrow);
    r.a = x->a - y->a - borrow;
    return r;
}

/* How far a key is from the target, the shorter way round; whether that goes up. */
static inline bool apart(const struct key *target, const struct key *k, struct key *far)
{
    *far = minus(target, k);
    if (far->a >> 63 == 0)
        return false;
    *far = minus(k, target);
    return true;
}

/* A record by its place: our own from 0, those held from 4. */
struct nearest {
    size_t place;
    struct key far;
    bool up;
};

static inline void try_record(struct nearest *best, const struct key *target, size_t place, const uint8_t *r)
{
    struct key k = key_at(r), far;
    bool up = apart(target, &k, &far);
    if (key_less(&far, &best->far) || (best->up && !up && !key_less(&best->far, &far))) {
        best->place = place;
        best->far = far;
        best->up = up;
    }
}

/* A path: endpoints of 18 bytes, a port and an address each. */
struct path {
    const uint8_t *at;
    size_t len;
};

/* Do a record's port and its address stand together on the path? Most endpoints have another port or another first word. */
static bool on_path(const struct path *path, const uint8_t *r)
{
    const uint8_t *end = path->at + path->len;
    uint64_t a = word(r + 36), b = word(r + 44);
    uint16_t port, other;
    memcpy(&port, r + 32, 2);
    for (const uint8_t *e = path->at; e < end; e += 18) {
        memcpy(&other, e, 2);
        if (other == port && word(e + 2) == a && word(e + 10) == b)
            return true;
    }
    return false;
}

/* Keys go round: of those held only the two next to the target's place can be the closest, and where those are on the path the next ones that are
 * not. */
static size_t closest(struct own own, const uint8_t *cache, size_t held, const struct path *path, const uint8_t *target, size_t at)
{
    struct key goal = key_at(target), ours = key_at(own.at);
    struct nearest best = {0, {0, 0, 0, 0}, false};
    best.up = apart(&goal, &ours, &best.far);
    for (const uint8_t *r = own.at + 100; r < own.end; r += 100)
        try_record(&best, &goal, (size_t)(r - own.at) / 100, r);
    size_t down = at, up = at, left = held;
    while (left > 0 && (up = up < held ? up + 1 : 1, on_path(path, cache + 100 * (up - 1))))
        left--;
    if (left == 0)
        return best.place;
    while (down = down > 0 ? down - 1 : held - 1, on_path(path, cache + 100 * down))
        continue;
    try_record(&best, &goal, 4 + down, cache + 100 * down);
    try_record(&best, &goal, 4 + up - 1, cache + 100 * (up - 1));
    return best.place;
}

/* Where the keys above one of ours begin in the cache, and how many there are: up to the key just opposite, which is above too, round the end of the
 * cache. */
struct sides {
    size_t from, above;
};

static struct sides sides_of(const uint8_t *ours, const uint8_t *cache, size_t held)
{
    uint8_t opposite[32];
    size_t end;
    memcpy(opposite, ours, 32);
    opposite[0] ^= 0x80;
    struct sides s = {below(cache, held, ours), 0};
    end = below(cache, held, opposite);
    if (end < held && same_key(cache + 100 * end, opposite))
        end++;
    s.above = ours[0] < 0x80 ? end - s.from : held - s.from + end;
    return s;
}

static bool is_above(const uint8_t *ours, const uint8_t *key)
{
    struct key k = key_at(key), o = key_at(ours), up = minus(&k, &o);
    return up.a >> 63 == 0 || (up.a == (uint64_t)1 << 63 && (up.b | up.c | up.d) == 0);
}

static inline size_t least(size_t a, size_t b)
{
    return a < b ? a : b;
}

/* The records of a full cache and one more, which would stand at a place: all by their places, in the order of their keys. */
struct more {
    const uint8_t *cache, *record;
    size_t at, all;
};

static inline const uint8_t *one_of(const struct more *m, size_t i)
{
    return i == m->at ? m->record : m->cache + 100 * (i - (i > m->at));
}

static inline size_t place_down(const struct more *m, size_t i)
{
    return i > 0 ? i - 1 : m->all - 1;
}

static struct sides sides_among(const struct more *m, const uint8_t *ours)
{
    struct sides s = sides_of(ours, m->cache, m->all - 1);
    s.from += less(big(m->record), m->record, big(ours), ours);
    s.above += is_above(ours, m->record);
    return s;
}

/* Of two places the one whose key is farther from our first; of two equally far the lower. */
static size_t farther(const struct more *m, const uint8_t *first, size_t i, size_t k)
{
    struct key ours = key_at(first), a = key_at(one_of(m, i)), b = key_at(one_of(m, k)), a_far, b_far;
    apart(&ours, &a, &a_far);
    apart(&ours, &b, &b_far);
    if (key_less(&a_far, &b_far))
        return k;
    return key_less(&b_far, &a_far) ? i : least(i, k);
}

/* A neighbour list by places: so many from the first on, round the end. */
struct run {
    size_t first, many;
};

static struct run list_among(const struct more *m, struct sides s)
{
    size_t under = least(m->all - s.above, 5);
    struct run list = {s.from < under ? s.from + m->all - under : s.from - under, under + least(s.above, 5)};
    return list;
}

static inline bool listed(const struct run *lists, size_t many, size_t all, size_t i)
{
    for (size_t k = 0; k < many; k++) {
        size_t steps = i < lists[k].first ? i + all - lists[k].first : i - lists[k].first;
        if (steps < lists[k].many)
            return true;
    }
    return false;
}

/* Which goes where there are several own keys: from the place opposite of the first outwards, the first on either way that is in no list; of these
 * two the farther. */
static size_t dropped_of_lists(struct own own, const struct more *m, struct sides first, size_t opposite)
{
    struct run lists[4] = {list_among(m, first)};
    size_t many = 1, up = opposite, down = place_down(m, opposite);
    for (const uint8_t *r = own.at + 100; r < own.end; r += 100)
        lists[many++] = list_among(m, sides_among(m, r));
    while (listed(lists, many, m->all, up))
        up = up + 1 < m->all ? up + 1 : 0;
    while (listed(lists, many, m->all, down))
        down = place_down(m, down);
    return farther(m, own.at, up, down);
}

/* Which goes: of those in no list the farthest from our first key. With one own key the two farthest out are on either side of the place opposite,
 * and one of them is in the list only where its side has no more than five. */
static size_t dropped(struct own own, const struct more *m)
{
    struct sides s = sides_among(m, own.at);
    size_t end = s.from + s.above, opposite = end < m->all ? end : end - m->all;
    if (!is_one(own))
        return dropped_of_lists(own, m, s, opposite);
    if (m->all - s.above <= 5)
        return place_down(m, opposite);
    return s.above <= 5 ? opposite : farther(m, own.at, opposite, place_down(m, opposite));
}

/* The place before which an ID would stand; whether it waits. */
static bool find_id(const uint8_t *waiting, size_t used, uint32_t id, size_t *at)
{
    const uint8_t *p = waiting, *end = waiting + 140 * used;
    while (p < end && id_at(p) < id)
        p += 140;
    *at = (size_t)(p - waiting) / 140;
    return p < end && id_at(p) == id;
}

/* The inquiry for a key; `used` where there is none. */
static size_t find_inquiry(const uint8_t *waiting, size_t used, const uint8_t *key)
{
    size_t i = 0;
    while (i < used && !(waiting[140 * i + 4] == 2 && same_key(waiting + 140 * i + 8, key)))
        i++;
    return i;
}

/* Changing memory. */

static void take_out(uint8_t *rows, size_t width, size_t used, size_t at)
{
    uint8_t *p = rows + width * at;
    memmove(p, p + width, width * (used - at - 1));
    memset(rows + width * (used - 1), 0, width);
}

/* The count of the keys that begin as this one. */
static inline void count(uint8_t *firsts, const uint8_t *key, int more)
{
    uint16_t n;
    memcpy(&n, firsts + 2 * key[0], 2);
    n = (uint16_t)(n + more);
    memcpy(firsts + 2 * key[0], &n, 2);
}

static void remove_key(uint8_t *cache, size_t held, uint8_t *firsts, const uint8_t *key)
{
    size_t at;
    if (!find(cache, held, key, &at))
        return;
    take_out(cache, 100, held, at);
    count(firsts, key, -1);
}

static void learn(struct own own, uint8_t *cache, size_t len, size_t held, uint8_t *firsts, const uint8_t *record)
{
    size_t at;
    uint8_t *to;
    if (find(cache, held, record, &at)) {
        memcpy(cache + 100 * at, record, 100);
        return;
    }
    to = cache + 100 * at;
    if (100 * held < len) {
        memmove(to + 100, to, 100 * (held - at));
        memcpy(to, record, 100);
        count(firsts, record, 1);
        return;
    }
    struct more m = {cache, record, at, held + 1};
    size_t gone = dropped(own, &m);
    if (gone == at)
        return;
    count(firsts, record, 1);
    count(firsts, one_of(&m, gone), -1);
    if (gone < at) {
        memmove(cache + 100 * gone, cache + 100 * gone + 100, 100 * (at - gone - 1));
        memcpy(to - 100, record, 100);
        return;
    }
    memmove(to + 100, to, 100 * (gone - 1 - at));
    memcpy(to, record, 100);
}

static uint8_t *open_place(uint8_t *waiting, size_t used, size_t at, uint32_t id, uint8_t kind, const uint8_t *key)
{
    uint8_t *p = waiting + 140 * at;
    memmove(p + 140, p, 140 * (used - at));
    memcpy(p, &id, 4);
    p[4] = kind;
    p[5] = 2;
    p[6] = p[7] = 0;
    memcpy(p + 8, key, 32);
    return p;
}

/* Writing. */

static inline uint8_t *put2(uint8_t *o, uint32_t n)
{
    uint16_t swapped = __builtin_bswap16((uint16_t)n);
    memcpy(o, &swapped, 2);
    return o + 2;
}

static inline uint8_t *put4(uint8_t *o, uint32_t n)
{
    n = __builtin_bswap32(n);
    memcpy(o, &n, 4);
    return o + 4;
}

static inline uint8_t *put(uint8_t *o, const uint8_t *from, size_t n)
{
    memcpy(o, from, n);
    return o + n;
}

struct header {
    uint8_t major, minor;
    uint32_t id;
};

static inline uint8_t *put_header(uint8_t *o, struct header h, uint32_t type)
{
    o = put4(o, 0x0010000C);
    o = put4(o, 0x51000000 | (uint32_t)h.major << 16 | (uint32_t)h.minor << 8 | type);
    return put4(o, h.id);
}

static inline uint8_t *put_acked(uint8_t *o, uint32_t id)
{
    return put4(put4(o, 0x00180008), id);
}

static void put_ack(uint8_t *o, struct header h, uint32_t to, bool n)
{
    o = put_acked(put_header(o, h, GAUGE_ACK), to);
    if (n)
        put2(put4(o, 0x00400006), 1);
}

static void put_inquire(uint8_t *o, struct header h, const uint8_t *key, const uint8_t *nonce_bytes)
{
    o = put_header(o, h, GAUGE_INQUIRE);
    o = put4(put4(o, 0x00400006), 0x00100000);
    o = put(put4(o, 0x00390024), key, 32);
    put(put4(o, 0x00930014), nonce_bytes, 16);
}

static uint8_t *put_authority(uint8_t *o, struct header h, uint32_t to, uint32_t size)
{
    o = put_acked(put_header(o, h, GAUGE_AUTHORITY), to);
    o = put4(put4(o, 0x00980008), size << 16);
    return put4(put4(o, 0x00400006), 0);
}

static void put_entry(uint8_t *o, struct header h, const uint8_t *record)
{
    o = put4(o, 0x009A003A);
    o = put(o, record, 32);
    *o++ = h.major;
    *o++ = h.minor;
    o = put(o, record + 32, 2);
    o = put2(o, 1);
    o = put(o, record + 36, 16);
    put2(o, 0);
}

/* The calls. */

static inline struct gauge_answer answer(uint32_t number, size_t first, size_t second)
{
    struct gauge_answer a = {number, (uint32_t)first, (uint32_t)second};
    return a;
}

/* What a receive hands on, once its memory is in form and its message read. */
struct receive {
    struct own own;
    const uint8_t *cpas, *nonce, *key, *d;
    uint8_t *cache, *firsts, *waiting, *output;
    size_t cache_len, room, held, used;
    struct header h;
    uint32_t verdict;
};

static size_t ack_room(const struct receive *r, const struct message *m, bool *n)
{
    *n = own_with(r->own, r->d + m->validate_at) == NULL;
    return m->d ? 0 : *n ? 26 : 20;
}

/* Is the very record of an entry held, as far as it is kept: with its first address? */
static bool entry_held(const struct receive *r, const uint8_t *entry)
{
    size_t at;
    if (!find(r->cache, r->held, entry, &at))
        return false;
    const uint8_t *held = r->cache + 100 * at;
    return memcmp(held + 32, entry + 34, 2) == 0 && memcmp(held + 36, entry + 38, 16) == 0;
}

static void put_record(uint8_t *record, const uint8_t *entry)
{
    memcpy(record, entry, 32);
    memcpy(record + 32, entry + 34, 2);
    record[34] = 1;
    record[35] = 0;
    memcpy(record + 36, entry + 38, 16);
    memset(record + 52, 0, 48);
}

/* An INQUIRE about an entry behind `first` bytes: the number where it is refused; whether it opens a place, and where. */
static inline uint32_t plan_asking(const struct receive *r, const uint8_t *entry, size_t first, bool *opens, size_t *at)
{
    *opens = !entry_held(r, entry) && find_inquiry(r->waiting, r->used, entry) == r->used;
    if (*opens && find_id(r->waiting, r->used, r->h.id + 1, at))
        return 13;
    if (*opens && r->used == 16)
        return 14;
    return first + (*opens ? 76 : 0) > r->room ? 15 : 0;
}

static inline void ask(const struct receive *r, const uint8_t *entry, size_t first, size_t at)
{
    struct header next = {r->h.major, r->h.minor, r->h.id + 1};
    put_inquire(r->output + first, next, entry, r->nonce);
    put_record(open_place(r->waiting, r->used, at, next.id, 2, entry) + 40, entry);
}

static struct gauge_answer take_entry(const struct receive *r, const struct message *m)
{
    const uint8_t *entry = r->d + m->seen.entry_at;
    if (own_with(r->own, entry) != NULL)
        return answer(11, 0, 0);
    bool n, opens;
    size_t at = 0, first = ack_room(r, m, &n);
    uint32_t number = plan_asking(r, entry, first, &opens, &at);
    if (number != 0)
        return answer(number, 0, 0);
    if (first != 0)
        put_ack(r->output, r->h, m->seen.id, n);
    if (opens)
        ask(r, entry, first, at);
    size_t second = opens ? 76 : 0;
    return first != 0 ? answer(0, first, second) : answer(0, second, 0);
}

static struct gauge_answer take_revocation(const struct receive *r, const struct message *m)
{
    if (r->verdict != 1)
        return answer(9, 0, 0);
    if (own_with(r->own, r->key) != NULL)
        return answer(11, 0, 0);
    bool n;
    size_t first = ack_room(r, m, &n), at = find_inquiry(r->waiting, r->used, r->key);
    if (first > r->room)
        return answer(15, 0, 0);
    remove_key(r->cache, r->held, r->firsts, r->key);
    if (at < r->used)
        take_out(r->waiting, 140, r->used, at);
    if (first != 0)
        put_ack(r->output, r->h, m->seen.id, n);
    return answer(0, first, 0);
}

static struct gauge_answer take_authority(const struct receive *r, const struct message *m)
{
    size_t at;
    if (!find_id(r->waiting, r->used, m->seen.acked, &at) || r->waiting[140 * at + 4] != 2)
        return answer(8, 0, 0);
    if (m->seen.cpa_at == 0 || r->verdict != 1)
        return answer(9, 0, 0);
    if (!same_key(r->waiting + 140 * at + 8, r->key))
        return answer(10, 0, 0);
    learn(r->own, r->cache, r->cache_len, r->held, r->firsts, r->waiting + 140 * at + 40);
    take_out(r->waiting, 140, r->used, at);
    return answer(0, 0, 0);
}

static struct gauge_answer take_ack(const struct receive *r, const struct message *m)
{
    size_t at;
    if (!find_id(r->waiting, r->used, m->seen.acked, &at) || r->waiting[140 * at + 4] != 1)
        return answer(8, 0, 0);
    if (m->n)
        remove_key(r->cache, r->held, r->firsts, r->waiting + 140 * at + 8);
    take_out(r->waiting, 140, r->used, at);
    return answer(0, 0, 0);
}

static struct gauge_answer answer_inquire(const struct receive *r, const struct message *m)
{
    const uint8_t *ours = own_with(r->own, r->d + m->validate_at), *cpa = r->cpas;
    uint16_t len;
    if (ours == NULL)
        return answer(12, 0, 0);
    memcpy(&len, cpa, 2);
    for (const uint8_t *before = r->own.at; before < ours; before += 100) {
        cpa += 2 + len;
        memcpy(&len, cpa, 2);
    }
    if (40 + (size_t)len > r->room)
        return answer(15, 0, 0);
    uint8_t *o = put_authority(r->output, r->h, m->seen.id, 12u + len);
    put(put4(o, 0x009B0004u + len), cpa + 2, len);
    return answer(0, 40 + (size_t)len, 0);
}

static struct gauge_answer answer_lookup(const struct receive *r, const struct message *m)
{
    struct path path = {r->d + m->path_at, m->path_len};
    const uint8_t *target = r->d + m->seen.target_at, *entry = r->d + m->seen.entry_at;
    size_t shown = closest(r->own, r->cache, r->held, &path, target, below(r->cache, r->held, target));
    const uint8_t *record = shown < 4 ? r->own.at + 100 * shown : r->cache + 100 * (shown - 4);
    uint32_t size = 68, first = 28 + size, number = first > r->room ? 15 : 0;
    bool opens = false;
    size_t at = 0;
    if (m->seen.entry_at != 0 && own_with(r->own, entry) == NULL)
        number = plan_asking(r, entry, first, &opens, &at);
    if (number != 0)
        return answer(number, 0, 0);
    put_entry(put_authority(r->output, r->h, m->seen.id, size), r->h, record);
    if (opens)
        ask(r, entry, first, at);
    return answer(0, first, opens ? 76 : 0);
}

struct gauge_answer CALL(receive)(const uint8_t *own, size_t own_len, const uint8_t *cpas, size_t cpas_len, uint8_t *cache, size_t cache_len,
                                  uint8_t *firsts, size_t firsts_len, uint8_t *waiting, size_t waiting_len, uint8_t major, uint8_t minor,
                                  uint32_t id, const uint8_t *nonce_bytes, size_t nonce_len, uint32_t verdict, const uint8_t *key, size_t key_len,
                                  const uint8_t *datagram, size_t datagram_len, uint8_t *output, size_t output_len)
{
    struct own ours = {own, own + own_len};
    if (!own_formed(ours) || !cpas_formed(ours, cpas, cpas_len) || nonce_len != 16 || key_len != 32)
        return answer(1, 0, 0);
    size_t held = cache_form(ours, cache, cache_len), used = waiting_form(ours, waiting, waiting_len);
    if (held == NOT_IN_FORM || used == NOT_IN_FORM || !firsts_formed(cache, held, firsts, firsts_len))
        return answer(1, 0, 0);
    struct message m;
    uint32_t number = read_message(major, datagram, datagram_len, &m);
    if (number != 0)
        return answer(number, 0, 0);
    struct header h = {major, minor, id};
    struct receive r = {ours, cpas, nonce_bytes, key, datagram, cache, firsts, waiting, output, cache_len, output_len, held, used, h, verdict};
    switch (m.seen.kind) {
    case GAUGE_FLOOD: return m.seen.entry_at != 0 ? take_entry(&r, &m) : take_revocation(&r, &m);
    case GAUGE_INQUIRE: return answer_inquire(&r, &m);
    case GAUGE_AUTHORITY: return take_authority(&r, &m);
    case GAUGE_ACK: return take_ack(&r, &m);
    case GAUGE_LOOKUP: return answer_lookup(&r, &m);
    default: return answer(7, 0, 0);
    }
}

struct gauge_answer CALL(send)(const uint8_t *own, size_t own_len, const uint8_t *cache, size_t cache_len, uint8_t *waiting, size_t waiting_len,
                               uint8_t major, uint8_t minor, uint32_t id, const uint8_t *neighbour, size_t neighbour_len, const uint8_t *key,
                               size_t key_len, uint8_t *output, size_t output_len)
{
    struct own ours = {own, own + own_len};
    if (!own_formed(ours) || neighbour_len != 32 || key_len != 32)
        return answer(1, 0, 0);
    size_t held = cache_form(ours, cache, cache_len), used = waiting_form(ours, waiting, waiting_len), at;
    if (held == NOT_IN_FORM || used == NOT_IN_FORM)
        return answer(1, 0, 0);
    if (!find(cache, held, neighbour, &at))
        return answer(12, 0, 0);
    const uint8_t *record = own_with(ours, key);
    if (record == NULL) {
        if (!find(cache, held, key, &at))
            return answer(12, 0, 0);
        record = cache + 100 * at;
    }
    if (find_id(waiting, used, id, &at))
        return answer(13, 0, 0);
    if (used == 16)
        return answer(14, 0, 0);
    if (output_len < 116)
        return answer(15, 0, 0);
    struct header h = {major, minor, id};
    uint8_t *o = put_header(output, h, GAUGE_FLOOD);
    o = put4(put4(o, 0x00430007), 0);
    o = put(put4(o, 0x00390024), neighbour, 32);
    put_entry(o, h, record);
    memset(open_place(waiting, used, at, id, 1, neighbour) + 40, 0, 100);
    return answer(0, 116, 0);
}

struct gauge_answer CALL(tick)(const uint8_t *own, size_t own_len, uint8_t *waiting, size_t waiting_len, uint8_t *output, size_t output_len)
{
    struct own ours = {own, own + own_len};
    if (!own_formed(ours))
        return answer(1, 0, 0);
    size_t used = waiting_form(ours, waiting, waiting_len), left = 0;
    if (used == NOT_IN_FORM)
        return answer(1, 0, 0);
    if (output_len < 64)
        return answer(15, 0, 0);
    uint8_t *to = waiting, *end = waiting + 140 * used;
    for (uint8_t *p = waiting; p < end; p += 140) {
        if (p[5] == 0)
            continue;
        if (to != p)
            memcpy(to, p, 140);
        to[5]--;
        memcpy(output + 4 * left++, to, 4);
        to += 140;
    }
    memset(to, 0, (size_t)(end - to));
    return answer(0, left, 0);
}

/* How many records are held, where own records and cache are in form and what is handed in beside them is as long as it should be. */
static size_t lent_form(struct own ours, const uint8_t *cache, size_t cache_len, bool handed)
{
    return own_formed(ours) && handed ? cache_form(ours, cache, cache_len) : NOT_IN_FORM;
}

struct gauge_answer CALL(neighbours)(const uint8_t *own, size_t own_len, const uint8_t *cache, size_t cache_len, const uint8_t *key, size_t key_len,
                                     uint8_t *output, size_t output_len)
{
    struct own ours = {own, own + own_len};
    size_t held = lent_form(ours, cache, cache_len, key_len == 32);
    if (held == NOT_IN_FORM)
        return answer(1, 0, 0);
    if (own_with(ours, key) == NULL)
        return answer(12, 0, 0);
    if (output_len < 320)
        return answer(15, 0, 0);
    struct sides s = sides_of(key, cache, held);
    size_t first = least(held - s.above, 5), second = least(s.above, 5), i, at;
    for (i = 0, at = s.from; i < first; i++) {
        at = at > 0 ? at - 1 : held - 1;
        output = put(output, cache + 100 * at, 32);
    }
    for (i = 0, at = s.from; i < second; i++, at++) {
        at = at < held ? at : 0;
        output = put(output, cache + 100 * at, 32);
    }
    return answer(0, first, second);
}

struct gauge_answer CALL(closest)(const uint8_t *own, size_t own_len, const uint8_t *cache, size_t cache_len, const uint8_t *path, size_t path_len,
                                  const uint8_t *target, size_t target_len)
{
    struct own ours = {own, own + own_len};
    size_t held = lent_form(ours, cache, cache_len, path_len % 18 == 0 && target_len == 32);
    if (held == NOT_IN_FORM)
        return answer(1, 0, 0);
    struct path points = {path, path_len};
    struct sought s = seek(cache, held, target);
    return answer(0, closest(ours, cache, held, &points, target, s.at), s.compared);
}

struct gauge_answer CALL(search)(const uint8_t *own, size_t own_len, const uint8_t *cache, size_t cache_len, const uint8_t *key, size_t key_len)
{
    struct own ours = {own, own + own_len};
    size_t held = lent_form(ours, cache, cache_len, key_len == 32);
    if (held == NOT_IN_FORM)
        return answer(1, 0, 0);
    struct sought s = seek(cache, held, key);
    return answer(0, s.held ? s.at + 1 : 0, s.compared);
}

static void cut(uint8_t *record)
{
    record[34] = 1;
    memset(record + 52, 0, 48);
}

struct gauge_answer CALL(convert)(const uint8_t *own, size_t own_len, uint8_t *cache, size_t cache_len, uint8_t *waiting, size_t waiting_len)
{
    struct own ours = {own, own + own_len};
    if (!own_rows(ours, true))
        return answer(1, 0, 0);
    size_t held = cache_rows(ours, cache, cache_len, true), used = waiting_rows(ours, waiting, waiting_len, true);
    if (held == NOT_IN_FORM || used == NOT_IN_FORM)
        return answer(1, 0, 0);
    for (uint8_t *r = cache; r < cache + 100 * held; r += 100)
        cut(r);
    for (uint8_t *p = waiting; p < waiting + 140 * used; p += 140)
        if (p[4] == 2)
            cut(p + 40);
    return answer(0, 0, 0);
}

/* Two records in form that have one key: is the rest the same, port and address? */
static inline bool same_told(const uint8_t *a, const uint8_t *b)
{
    return ((word(a + 32) ^ word(b + 32)) | (word(a + 40) ^ word(b + 40)) | (word(a + 44) ^ word(b + 44))) == 0;
}

/* What changed, by one walk along both: of each entry its kind and the place of its record, in the first cache where it is gone, else in the second. */
struct changed {
    uint8_t kind;
    uint16_t at;
};

static size_t merged(const uint8_t *before, size_t was, const uint8_t *after, size_t is, struct changed *list)
{
    const uint8_t *a = before, *a_end = before + 100 * was, *b = after, *b_end = after + 100 * is;
    struct changed *to = list;
    while (a < a_end && b < b_end) {
        uint64_t x = big(a), y = big(b);
        if (x == y && same_rest(a, b)) {
            if (!same_told(a, b))
                *to++ = (struct changed){GAUGE_CHANGE_OTHER, (uint16_t)((size_t)(b - after) / 100)};
            a += 100;
            b += 100;
        } else if (less(x, a, y, b)) {
            *to++ = (struct changed){GAUGE_CHANGE_GONE, (uint16_t)((size_t)(a - before) / 100)};
            a += 100;
        } else {
            *to++ = (struct changed){GAUGE_CHANGE_NEW, (uint16_t)((size_t)(b - after) / 100)};
            b += 100;
        }
    }
    for (; a < a_end; a += 100)
        *to++ = (struct changed){GAUGE_CHANGE_GONE, (uint16_t)((size_t)(a - before) / 100)};
    for (; b < b_end; b += 100)
        *to++ = (struct changed){GAUGE_CHANGE_NEW, (uint16_t)((size_t)(b - after) / 100)};
    return (size_t)(to - list);
}

struct gauge_answer CALL(changes)(const uint8_t *own, size_t own_len, const uint8_t *before, size_t before_len, const uint8_t *after,
                                  size_t after_len, uint8_t *output, size_t output_len)
{
    struct changed list[512];
    struct own ours = {own, own + own_len};
    size_t was = lent_form(ours, before, before_len, before_len == after_len), is;
    if (was == NOT_IN_FORM || (is = cache_form(ours, after, after_len)) == NOT_IN_FORM)
        return answer(1, 0, 0);
    size_t entries = merged(before, was, after, is, list);
    if (output_len < 101 * entries)
        return answer(15, 0, 0);
    for (const struct changed *c = list; c < list + entries; c++, output += 101) {
        output[0] = c->kind;
        if (c->kind == GAUGE_CHANGE_GONE) {
            memcpy(output + 1, before + 100 * c->at, 32);
            memset(output + 33, 0, 68);
        } else {
            memcpy(output + 1, after + 100 * c->at, 100);
        }
    }
    return answer(0, entries, 101 * entries);
}

struct gauge_look_answer CALL(look)(uint8_t major, const uint8_t *datagram, size_t datagram_len)
{
    struct message m;
    uint32_t number = read_message(major, datagram, datagram_len, &m);
    if (number != 0) {
        struct gauge_look_answer refused = {number, 0, 0, 0, 0, 0, 0, 0, 0, 0, 0, 0};
        return refused;
    }
    return m.seen;
}
