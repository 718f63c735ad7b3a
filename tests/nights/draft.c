/* Messages of a random night (tests/nights/draft.h). A draft is put together field by field as document 000 has them, and then perhaps damaged. */
#include "draft.h"
#include <string.h>

/* Chance: a fixed seed gives the same nights on every machine. */

uint64_t chance_state;

uint64_t chance(void)
{
    uint64_t z = chance_state += 0x9E3779B97F4A7C15u;
    z = (z ^ z >> 30) * 0xBF58476D1CE4E5B9u;
    z = (z ^ z >> 27) * 0x94D049BB133111EBu;
    return z ^ z >> 31;
}

uint32_t under(size_t n)
{
    return (uint32_t)(chance() % n);
}

bool percent(unsigned n)
{
    return under(100) < n;
}

uint8_t any(void)
{
    return (uint8_t)chance();
}

void fill(uint8_t *p, size_t n)
{
    uint64_t z = 0;
    for (size_t i = 0; i < n; i++, z >>= 8) {
        if (i % 8 == 0)
            z = chance();
        p[i] = (uint8_t)z;
    }
}

void set_byte(uint8_t *p, size_t n)
{
    size_t at = under(n);
    p[at] = any();
}

void flip_bit(uint8_t *p, size_t n)
{
    size_t at = under(n);
    p[at] ^= (uint8_t)(1 << under(8));
}

/* The night's gauge, and keys that are worth a try. */

uint8_t own[GAUGE_OWN_MOST * GAUGE_RECORD_LEN];
size_t own_len;
struct memory now;
uint8_t own_major, own_minor;
unsigned ticks, answers;

void begin_memory(size_t records)
{
#define BEGIN(name, use, usual, calls) now.name##_len = usual;
    memset(&now, 0, sizeof now);
    LENT_MEMORIES(BEGIN)
    now.cache_len = GAUGE_CACHE_LEN(records);
}

const uint8_t *some_own(void)
{
    return own + GAUGE_RECORD_LEN * under(own_len / GAUGE_RECORD_LEN);
}

bool is_own(const uint8_t *key)
{
    bool ours = false;
    for (size_t i = 0; i < own_len; i += GAUGE_RECORD_LEN)
        ours = ours || memcmp(own + i, key, GAUGE_KEY_LEN) == 0;
    return ours;
}

/* First bytes that keys of this night begin with, so many of them; none of their own where there are none. */
static uint8_t begin_with[3];
static size_t beginnings;

bool all_alike(void)
{
    return beginnings == 1;
}

void fill_key(uint8_t *key)
{
    fill(key, GAUGE_KEY_LEN);
    if (beginnings > 0)
        key[0] = begin_with[under(beginnings)];
}

static bool is_largest(void)
{
    return now.cache_len == GAUGE_CACHE_LEN(GAUGE_CACHE_MOST);
}

/* One alone more often where the cache is of the largest, so that 256 keys may begin alike; mostly that of our own. */
static void some_beginnings(void)
{
    beginnings = is_largest() && percent(70) ? 1 : percent(25) ? 1 + under(3) : 0;
    fill(begin_with, sizeof begin_with);
    if (percent(80))
        begin_with[0] = own[0];
}

void count_firsts(const uint8_t *cache, size_t cache_len, uint8_t *firsts)
{
    memset(firsts, 0, GAUGE_FIRSTS_LEN);
    for (size_t i = 0; i + GAUGE_RECORD_LEN <= cache_len; i += GAUGE_RECORD_LEN)
        if (cache[i + GAUGE_RECORD_COUNT] != 0 && ++firsts[2 * cache[i]] == 0)
            firsts[2 * cache[i] + 1]++;
}

static size_t own_cpa; /* how long one mostly is in this night */

size_t some_cpas(uint8_t *cpas)
{
    size_t len = 0;
    for (size_t i = 0; i < own_len; i += GAUGE_RECORD_LEN) {
        size_t n = percent(90) ? own_cpa : percent(30) ? GAUGE_CPA_MOST : percent(30) ? 1 : 1 + under(GAUGE_CPA_MOST);
        cpas[len] = (uint8_t)(n & 255);
        cpas[len + 1] = (uint8_t)(n >> 8);
        fill(cpas + len + 2, n);
        len += GAUGE_CPAS_LEN(n);
    }
    return len;
}

struct lent lend_gauge(void)
{
    static uint8_t zeros[GAUGE_CPA_MOST], cpas[] = {1, 0, 0, 1, 0, 0, 1, 0, 0, 1, 0, 0};
    struct lent l;
    memset(&l, 0, sizeof l);
    for (int i = 0; i < SLICES; i++)
        if (slices[i].use == TO_READ)
            *slice_in(&l, i) = as_room(zeros, slices[i].usual);
    l.own = as_room(own, own_len);
    l.cpas = as_room(cpas, GAUGE_CPAS_LEN(1) * (own_len / GAUGE_RECORD_LEN));
    l.major = own_major;
    l.minor = own_minor;
    return l;
}

static void lend_one(struct room *r, uint8_t *at, size_t len)
{
    if (r->at == NULL)
        *r = as_room(at, len);
}

static void keep_one(struct room r, uint8_t *at, size_t *len)
{
    if (r.at == NULL)
        return;
    memcpy(at, r.at, r.len);
    *len = r.len;
}

void lend_memory(struct lent *l, struct memory *m)
{
#define LEND(name, use, usual, calls) lend_one(&l->name, m->name, m->name##_len);
    LENT_MEMORIES(LEND)
}

void keep_memory(struct memory *m, const struct lent *l)
{
#define KEEP(name, use, usual, calls) keep_one(l->name, m->name, &m->name##_len);
    LENT_MEMORIES(KEEP)
}

void copy_memory(struct memory *to, struct memory *from)
{
    struct lent l;
    memset(&l, 0, sizeof l);
    lend_memory(&l, from);
    keep_memory(to, &l);
}
static uint8_t pool[32][GAUGE_KEY_LEN];
static uint32_t next_id;

/* Endpoints that gauges of a night share: so often of 100 a record has its port, and an address is that, of one of them. */
static uint8_t points[4][GAUGE_ENDPOINT_LEN];
static size_t shared;
static unsigned sharing;

size_t held(void)
{
    size_t n = 0;
    while (GAUGE_RECORD_LEN * n < now.cache_len && now.cache[GAUGE_RECORD_LEN * n + GAUGE_RECORD_COUNT] != 0)
        n++;
    return n;
}

size_t waits(void)
{
    size_t n = 0;
    while (GAUGE_PLACE_LEN * n < now.waiting_len && now.waiting[GAUGE_PLACE_LEN * n + 4] != 0)
        n++;
    return n;
}

static void shift(uint8_t *key, int by)
{
    for (int i = 31; i >= 0 && by != 0; i--) {
        int sum = key[i] + by;
        key[i] = (uint8_t)(sum & 0xFF);
        by = (sum - (sum & 0xFF)) / 256;
    }
}

static int little(void)
{
    return (int)under(9) - 4;
}

/* A key at an edge: 0, 2^32, 2^64, 2^255, 2^256, give or take a little. */
static void edge_key(uint8_t *key)
{
    static const uint8_t set[] = {0, 27, 23, 32};
    uint32_t which = under(5);
    memset(key, 0, GAUGE_KEY_LEN);
    if (which == 4)
        key[0] = 0x80;
    else if (which > 0 && set[which] < 32)
        key[set[which]] = 1;
    shift(key, little());
}

/* A key near to the point just opposite of one of our own. */
static void opposite_key(uint8_t *key)
{
    memcpy(key, some_own(), GAUGE_KEY_LEN);
    key[0] ^= 0x80;
    shift(key, little());
}

/* As far from our first key as another, on its other side: of two such keys that may be dropped one is the lower. */
static void other_side(const uint8_t *key, uint8_t *other)
{
    int sum = 0;
    for (int i = 31; i >= 0; i--) {
        sum += 2 * own[i] - key[i];
        other[i] = (uint8_t)(sum & 0xFF);
        sum = (sum - other[i]) / 256;
    }
}

void some_key(uint8_t *key)
{
    size_t h = held(), w = waits();
    memcpy(key, some_own(), GAUGE_KEY_LEN);
    switch (under(14)) {
    case 0: break;
    case 1: shift(key, little()); break;
    case 12: opposite_key(key); break;
    case 13:
        if (h > 0)
            other_side(now.cache + GAUGE_RECORD_LEN * under(h), key);
        break;
    case 2: edge_key(key); break;
    case 3: set_byte(key, GAUGE_KEY_LEN); break;
    case 4: flip_bit(key, GAUGE_KEY_LEN); break;
    case 5: fill_key(key); break;
    case 6: case 7:
        if (h > 0)
            memcpy(key, now.cache + GAUGE_RECORD_LEN * under(h), GAUGE_KEY_LEN);
        break;
    case 8:
        if (h > 0)
            memcpy(key, now.cache + GAUGE_RECORD_LEN * under(h), GAUGE_KEY_LEN);
        shift(key, little());
        break;
    case 9:
        if (w > 0)
            memcpy(key, now.waiting + GAUGE_PLACE_LEN * under(w) + 8, GAUGE_KEY_LEN);
        break;
    default: memcpy(key, pool[under(32)], GAUGE_KEY_LEN); break;
    }
}

/* Half the sum of two keys that are held or our own: a tie, where the sum is even. It lies between them on the line; the other way round the ring,
 * across its end, the point just opposite does, and is taken where the two are the first key and the last, or are far apart, or now and then. */
static void middle_key(uint8_t *key)
{
    size_t h = held();
    size_t at = h > 0 ? under(h) : 0;
    const uint8_t *ours = some_own(), *other = some_own();
    const uint8_t *a = h > 0 && !(ours != other && percent(30)) ? now.cache + GAUGE_RECORD_LEN * at : other;
    const uint8_t *b = a != other && h > at + 1 && percent(60) ? a + GAUGE_RECORD_LEN : ours;
    bool ends = h > 1 && percent(30);
    if (ends) {
        a = now.cache;
        b = now.cache + GAUGE_RECORD_LEN * (h - 1);
    }
    bool across = ends || (a[0] < b[0] ? b[0] - a[0] : a[0] - b[0]) > 127 || percent(10);
    unsigned carry = 0, rest = 0;
    for (int i = 31; i >= 0; i--) {
        carry += (unsigned)a[i] + b[i];
        key[i] = (uint8_t)carry;
        carry >>= 8;
    }
    rest = carry;
    for (int i = 0; i < 32; i++) {
        rest = rest << 8 | key[i];
        key[i] = (uint8_t)(rest >> 1);
        rest &= 1;
    }
    if (across)
        key[0] ^= 0x80;
}

/* Points that differ in port or address alone, and one whose address is zero, as a place without an address is. */
static void begin_points(void)
{
    for (size_t i = 0; i < 4; i++)
        fill(points[i], GAUGE_ENDPOINT_LEN);
    memcpy(points[1], points[0], 2);
    memcpy(points[2] + 2, points[0] + 2, GAUGE_ADDRESS_LEN);
    memset(points[3] + 2, 0, GAUGE_ADDRESS_LEN);
    if (percent(30))
        memset(points[3], 0, 2);
    shared = percent(45) ? 1 : 2 + under(3);
    sharing = percent(35) ? 0 : percent(40) ? 30 : 97;
}

static void some_address(uint8_t *address)
{
    fill(address, GAUGE_ADDRESS_LEN);
    for (size_t i = 0; i < GAUGE_ADDRESS_LEN; i++)
        if (address[i] < 80)
            address[i] = 0;
    if (percent(sharing))
        memcpy(address, points[under(shared)] + 2, GAUGE_ADDRESS_LEN);
}

void some_rest(uint8_t *record)
{
    memset(record + GAUGE_RECORD_PORT, 0, GAUGE_RECORD_LEN - GAUGE_RECORD_PORT);
    record[GAUGE_RECORD_PORT] = percent(20) ? 0 : any();
    record[33] = any();
    record[GAUGE_RECORD_COUNT] = 1;
    if (percent(sharing))
        memcpy(record + GAUGE_RECORD_PORT, points[under(shared)], 2);
    some_address(record + GAUGE_RECORD_ADDRESSES);
}

void more_addresses(uint8_t *record)
{
    unsigned count = 1 + under(4);
    record[GAUGE_RECORD_COUNT] = (uint8_t)count;
    for (unsigned i = 1; i < count; i++) {
        uint8_t *address = record + GAUGE_RECORD_ADDRESSES + GAUGE_ADDRESS_LEN * i;
        uint32_t way = under(8);
        some_address(address);
        if (way == 0) /* one that is used and zero, or stands twice */
            memset(address, 0, GAUGE_ADDRESS_LEN);
        else if (way == 1)
            memcpy(address, record + GAUGE_RECORD_ADDRESSES, GAUGE_ADDRESS_LEN);
    }
}

uint32_t some_id(void)
{
    size_t w = waits();
    const uint8_t *p = now.waiting + GAUGE_PLACE_LEN * (w > 0 ? under(w) : 0);
    uint32_t id = (uint32_t)p[0] | (uint32_t)p[1] << 8 | (uint32_t)p[2] << 16 | (uint32_t)p[3] << 24;
    switch (under(10)) {
    case 0: return id;
    case 1: return id - 1;
    case 2: return under(3);
    case 3: return UINT32_MAX - under(3);
    case 4: return (uint32_t)chance();
    default: return next_id += 1 + under(3);
    }
}

/* An ID that waits, of a kind; or another. */
static uint32_t waiting_id(unsigned kind, unsigned often)
{
    size_t w = waits(), from = w > 0 ? under(w) : 0;
    for (size_t i = 0; i < w && percent(often); i++) {
        const uint8_t *p = now.waiting + GAUGE_PLACE_LEN * ((from + i) % w);
        if (p[4] == kind)
            return (uint32_t)p[0] | (uint32_t)p[1] << 8 | (uint32_t)p[2] << 16 | (uint32_t)p[3] << 24;
    }
    return some_id();
}

/* One own key more, in its place among those there are: near to one of them, on a side of an end, just opposite of one, or anywhere. */
static void add_own(void)
{
    uint8_t key[GAUGE_KEY_LEN];
    size_t at = 0;
    do {
        uint32_t way = under(10);
        memcpy(key, some_own(), GAUGE_KEY_LEN);
        if (way < 5)
            shift(key, (int)under(41) - 20);
        else if (way < 7)
            edge_key(key);
        else if (way < 9)
            opposite_key(key);
        else
            fill(key, GAUGE_KEY_LEN);
    } while (is_own(key));
    while (at < own_len && memcmp(own + at, key, GAUGE_KEY_LEN) < 0)
        at += GAUGE_RECORD_LEN;
    memmove(own + at + GAUGE_RECORD_LEN, own + at, own_len - at);
    memcpy(own + at, key, GAUGE_KEY_LEN);
    some_rest(own + at);
    own_len += GAUGE_RECORD_LEN;
}

/* A gauge for a night. */
void begin_gauge(size_t ponds)
{
    own_len = GAUGE_RECORD_LEN;
    fill(own, GAUGE_KEY_LEN);
    if (percent(60))
        edge_key(own);
    begin_points();
    some_rest(own);
    while (own_len < GAUGE_RECORD_LEN * ponds)
        add_own();
    some_beginnings();
    for (size_t i = 0; i < 32; i++) {
        memcpy(pool[i], some_own(), GAUGE_KEY_LEN);
        if (percent(60))
            shift(pool[i], (int)under(41) - 20);
        else if (percent(40))
            fill_key(pool[i]);
        else if (percent(50))
            opposite_key(pool[i]);
        else
            edge_key(pool[i]);
        if (i % 2 == 1 && percent(40))
            other_side(pool[i - 1], pool[i]);
        if (all_alike() && is_largest() && percent(80))
            pool[i][0] = begin_with[0];
    }
    own_major = percent(70) ? 6 : any();
    own_minor = percent(70) ? 101 : any();
    own_cpa = percent(80) ? 1 + under(60) : 1 + under(GAUGE_CPA_MOST);
    ticks = under(4) * 2;
    answers = percent(70) ? 95 : 25;
    next_id = percent(40) ? UINT32_MAX - under(20) : (uint32_t)chance();
}

/* Datagrams. A draft remembers where its fields begin. */

struct draft draft;

static void add(const void *bytes, size_t n)
{
    if (draft.n + n > sizeof draft.b)
        return;
    memcpy(draft.b + draft.n, bytes, n);
    draft.n += n;
}

static void add1(unsigned value)
{
    uint8_t b = (uint8_t)value;
    add(&b, 1);
}

static void add2(size_t value)
{
    add1((unsigned)(value >> 8));
    add1((unsigned)value);
}

static void add4(uint32_t value)
{
    add2(value >> 16);
    add2(value);
}

static void set2(size_t at, size_t value)
{
    draft.b[at] = (uint8_t)(value >> 8);
    draft.b[at + 1] = (uint8_t)value;
}

static void add_any(size_t n)
{
    if (draft.n + n > sizeof draft.b)
        return;
    fill(draft.b + draft.n, n);
    draft.n += n;
}

static void add_field(unsigned number, size_t contents)
{
    if (draft.marked < 64)
        draft.marks[draft.marked++] = draft.n;
    add2(number);
    add2(4 + contents);
}

static void add_key(unsigned number, const uint8_t *key)
{
    add_field(number, GAUGE_KEY_LEN);
    add(key, GAUGE_KEY_LEN);
}

/* Ignored bytes: zero, or any. */
static void add_ignored(size_t n)
{
    bool zeros = percent(50);
    for (size_t i = 0; i < n; i++)
        add1(zeros ? 0 : any());
}

/* A byte whose last bit is set so often of 100; now and then with other bits, which are ignored. */
static void add_last_bit(unsigned often)
{
    unsigned ignored = percent(30) ? any() & 0xFEu : 0;
    add1(percent(often) ? ignored | 1 : ignored);
}

static void add_padding(void)
{
    add_ignored((4 - draft.n % 4) % 4);
}

/* Contents of any length; now and then up to the greatest datagram and a little over it. */
static void add_opaque(unsigned number)
{
    size_t n = percent(40) ? under(5) : under(60);
    if (percent(4) && draft.n < 1200)
        n = GAUGE_DATAGRAM_MOST - draft.n - 4 + under(6) - 3;
    add_field(number, n);
    if (n == 0 && percent(4)) /* a length that does not count number and length */
        draft.b[draft.n - 1] = (uint8_t)under(4);
    add_any(n);
}

static void add_entry(const uint8_t *record)
{
    unsigned count = percent(1) ? under(2) * 5 : record[GAUGE_RECORD_COUNT];
    uint8_t addresses[80] = {0};
    memcpy(addresses, record + GAUGE_RECORD_ADDRESSES, 64);
    add_field(0x9A, 38 + 16 * count);
    add(record, GAUGE_KEY_LEN);
    add_any(2);
    add(record + GAUGE_RECORD_PORT, 2);
    add1(percent(50) ? 0 : any());
    add1(count);
    add(addresses, 16 * count);
    add_padding();
}

static void add_some_entry(void)
{
    uint8_t record[GAUGE_RECORD_LEN];
    some_key(record);
    some_rest(record);
    more_addresses(record);
    add_entry(record);
}

static void add_array(unsigned number, unsigned element, unsigned size, size_t count)
{
    /* now and then a count whose length is the same in two bytes */
    size_t wrap = percent(2) ? (size == 32 ? 0x800 * (1u + under(15)) : 0x8000) : 0;
    add_field(number, 8 + size * count);
    add2(count + wrap);
    add2(8 + size * count);
    add2(element);
    add2(size);
    add_any(size * count);
}

static void add_endpoints(void)
{
    size_t n = 1 + under(3);
    if (percent(15))
        n = 21 + under(3);
    if (percent(3))
        n = 0;
    add_array(0x9E, 0x9D, 18, n);
}

/* A record that is held and near to a target: mostly one of the two beside it, round the end of the cache; now and then any, or one of our own. */
static const uint8_t *some_near(const uint8_t *target)
{
    size_t h = held(), at = 0, steps = percent(80) ? under(2) : under(7);
    if (h == 0 || percent(4))
        return some_own();
    while (at < h && memcmp(now.cache + GAUGE_RECORD_LEN * at, target, GAUGE_KEY_LEN) < 0)
        at++;
    at = percent(50) ? at + steps : at + 8 * h - 1 - steps; /* up from the target, or down */
    if (percent(12))
        at = under(h);
    return now.cache + GAUGE_RECORD_LEN * (at % h);
}

/* An endpoint for a path: of such a record; and every other time wrong in one thing. */
static void some_endpoint(const uint8_t *target, uint8_t *point)
{
    const uint8_t *r = some_near(target), *other = some_near(target);
    memcpy(point, r + GAUGE_RECORD_PORT, 2);
    memcpy(point + 2, r + GAUGE_RECORD_ADDRESSES, GAUGE_ADDRESS_LEN);
    switch (under(16)) {
    case 0: point[1] = (uint8_t)(point[1] + 1); break; /* the port off by one */
    case 1: point[1] = (uint8_t)(point[1] - 1); break;
    case 2: flip_bit(point, 2); break;
    case 3: flip_bit(point + 2, GAUGE_ADDRESS_LEN); break;
    case 4: memcpy(point, other + GAUGE_RECORD_PORT, 2); break; /* another's port, or another's address */
    case 5: memcpy(point + 2, other + GAUGE_RECORD_ADDRESSES, GAUGE_ADDRESS_LEN); break;
    case 6: memset(point + 2, 0, GAUGE_ADDRESS_LEN); break; /* the address of a place that has none */
    case 7:
        if (percent(50))
            fill(point, GAUGE_ENDPOINT_LEN);
        else
            memset(point, 0, GAUGE_ENDPOINT_LEN);
        break;
    default: break;
    }
}

/* The endpoints of a LOOKUP's path: those of an array, as far as the draft has room for them. */
static void add_path(const uint8_t *target)
{
    size_t before = draft.n + 12;
    add_endpoints();
    for (size_t at = before; at + GAUGE_ENDPOINT_LEN <= draft.n; at += GAUGE_ENDPOINT_LEN)
        some_endpoint(target, draft.b + at);
}

static void add_keys(void)
{
    add_array(0x60, 0x30, 32, percent(20) ? under(37) : under(4));
}

static void add_signatures(void)
{
    if (percent(15))
        add_opaque(0x80);
    if (percent(15))
        add_opaque(0xA5);
    if (percent(15))
        add_opaque(0xA6);
}

static void add_header(unsigned type)
{
    draft.n = draft.marked = 0;
    add4(0x0010000C);
    add1(0x51);
    add1(own_major);
    add1(any());
    add1(type);
    add4(some_id());
}

static void add_acked(uint32_t id)
{
    add_field(0x18, 4);
    add4(id);
}

static void draft_solicit(void)
{
    add_header(1);
    if (percent(50))
        add_some_entry();
    add_field(0x92, 20);
    add_any(20);
}

static void draft_advertise(void)
{
    add_header(2);
    add_acked(some_id());
    add_keys();
    add_field(0x92, 20);
    add_any(20);
}

static void draft_request(void)
{
    size_t split = 0;
    add_header(3);
    if (percent(40)) {
        add_field(0x40, 2);
        add_ignored(4);
    }
    if (percent(40)) {
        split = draft.n;
        add_field(0x98, 4);
        add4(0);
    }
    add_field(0x93, 16);
    add_any(16);
    add_keys();
    add_signatures();
    if (split != 0)
        set2(split + 4, draft.n - split - 8 + (percent(5) ? under(3) - 1 : 0));
    if (split != 0 && percent(5))
        set2(split + 6, percent(50) ? 1188 : under(3));
}

/* Of a record that is held, another that is like it in all but one thing: a bit of the port or of the address; the address behind another one. */
static void change_record(uint8_t *record)
{
    uint8_t *first = record + GAUGE_RECORD_ADDRESSES;
    unsigned place = 1 + under(3);
    switch (under(4)) {
    case 0: flip_bit(record + GAUGE_RECORD_PORT, 2); break;
    case 1: flip_bit(first + GAUGE_ADDRESS_LEN - 1, 1); break;
    case 2: flip_bit(first, GAUGE_ADDRESS_LEN); break;
    default:
        more_addresses(record);
        memcpy(first + GAUGE_ADDRESS_LEN * place, first, GAUGE_ADDRESS_LEN);
        some_address(first);
        if (record[GAUGE_RECORD_COUNT] <= place)
            record[GAUGE_RECORD_COUNT] = (uint8_t)(place + 1);
        break;
    }
}

/* What a route entry tells: the very same record, with others behind its address too; the same key with another; a key that is asked about, our own,
 * or another. Its addresses may be one to four. */
static void draft_flood_record(uint8_t *record)
{
    size_t h = held();
    some_key(record);
    some_rest(record);
    uint32_t way = under(10);
    if (way < 3 && h > 0)
        memcpy(record, now.cache + GAUGE_RECORD_LEN * under(h), way < 2 ? GAUGE_RECORD_LEN : GAUGE_KEY_LEN);
    else if (way < 8)
        memcpy(record, pool[under(32)], GAUGE_KEY_LEN);
    if (way == 0 && h > 0 && percent(60))
        change_record(record);
    else if (percent(60))
        more_addresses(record);
}

static void draft_flood_of(const uint8_t *key, const uint8_t *record, bool revoke)
{
    add_header(4);
    add_field(0x43, 3);
    add1(percent(50) ? 0 : any());
    add_last_bit(35);
    add_ignored(2);
    add_key(0x39, percent(50) ? some_own() : key);
    if (percent(8)) {
        add_opaque(0x9F);
        add_padding();
    }
    if (revoke || percent(1)) {
        add_opaque(0x9C);
        add_padding();
    }
    if (!revoke || percent(2))
        add_entry(record);
    if (percent(12))
        add_endpoints();
}

static void draft_flood(bool revoke)
{
    uint8_t key[GAUGE_KEY_LEN], record[GAUGE_RECORD_LEN];
    some_key(key);
    draft_flood_record(record);
    draft_flood_of(key, record, revoke);
}

static void draft_inquire(void)
{
    uint8_t key[GAUGE_KEY_LEN];
    some_key(key);
    add_header(7);
    add_field(0x40, 2);
    add_ignored(4);
    add_key(0x39, percent(75) ? some_own() : key);
    if (percent(65)) {
        add_field(0x93, 16);
        add_any(16);
    }
    add_signatures();
}

/* All before the buffer's optional fields; gives the place of the split controls. */
static size_t begin_authority(uint32_t to)
{
    add_header(8);
    add_acked(to);
    size_t split = draft.n;
    add_field(0x98, 4);
    add4(0);
    add_field(0x40, 2);
    add_ignored(4);
    return split;
}

/* Size and offset, now and then of a part or out of bounds. */
static void end_authority(size_t split)
{
    set2(split + 4, draft.n - split - 8);
    switch (under(60)) {
    case 0: set2(split + 4, draft.n - split - 8 + under(3) - 1); break;
    case 1: set2(split + 4, 0x91E3 + under(3)); break;
    case 2: set2(split + 6, 1188 * (1 + under(3))); break;
    case 3: set2(split + 6, 1187 + under(3)); break;
    default: break;
    }
}

static void draft_authority(uint32_t to)
{
    size_t split = begin_authority(to);
    if (percent(15)) {
        add_opaque(0x80);
        add_padding();
    }
    if (percent(8)) {
        add_opaque(0x9F);
        add_padding();
    }
    if (percent(15)) {
        add_array(0x85, 0x84, 2, under(6));
        add_padding();
    }
    if (percent(15)) {
        add_opaque(0x5A);
        add_padding();
    }
    if (percent(20))
        add_some_entry();
    if (percent(93))
        add_opaque(0x9B);
    end_authority(split);
}

void draft_authority_with(const uint8_t *payload, size_t len, size_t whole)
{
    size_t split = begin_authority(some_id());
    if (percent(30)) {
        add_opaque(0x80);
        add_padding();
    }
    if (percent(30)) {
        add_opaque(0x9F);
        add_padding();
    }
    if (percent(30)) {
        add_array(0x85, 0x84, 2, under(9));
        add_padding();
    }
    if (payload != NULL) {
        add_field(0x5A, len);
        add(payload, len);
        add_padding();
    }
    if (percent(40))
        add_some_entry();
    if (whole >= draft.n + 4) {
        size_t rest = whole - draft.n - 4;
        add_field(0x9B, rest);
        add_any(rest);
    } else if (percent(60)) {
        add_opaque(0x9B);
    }
    end_authority(split);
}

static void draft_ack(void)
{
    add_header(9);
    add_acked(waiting_id(1, 90));
    if (percent(55)) {
        add_field(0x40, 2);
        add1(percent(50) ? 0 : any());
        add_last_bit(60);
    }
}

/* A target: any key, the middle of two, or near to the last that is held. */
static void draft_target(uint8_t *target)
{
    size_t h = held();
    uint32_t way = under(20);
    if (way < 7 && h > 0) {
        memcpy(target, now.cache + GAUGE_RECORD_LEN * (h - 1), GAUGE_KEY_LEN);
        shift(target, little());
    } else if (way < 13) {
        some_key(target);
    } else {
        middle_key(target);
    }
}

static void draft_lookup(void)
{
    static const uint8_t criteria[] = {0, 1, 2, 4, 8};
    uint8_t target[GAUGE_KEY_LEN], validate[GAUGE_KEY_LEN], record[GAUGE_RECORD_LEN];
    some_key(validate);
    draft_target(target);
    add_header(11);
    add_field(0x45, 8);
    add_ignored(4);
    add1(percent(97) ? criteria[under(5)] : under(20));
    add1(percent(97) ? under(4) : under(8));
    add_ignored(2);
    add_key(0x38, target);
    add_key(0x39, validate);
    if (percent(65)) {
        draft_flood_record(record);
        if (percent(10))
            memcpy(record, some_own(), GAUGE_KEY_LEN);
        add_entry(record);
    }
    add_path(target);
    add_signatures();
}

size_t draft_closest(uint8_t *path, uint8_t *target)
{
    size_t n = percent(10) ? 0 : percent(10) ? under(PATH_POINTS + 1) : 1 + under(4);
    draft_target(target);
    if (held() == GAUGE_CACHE_MOST && percent(15)) /* the most keys are compared for the first */
        memcpy(target, now.cache, GAUGE_KEY_LEN);
    for (size_t i = 0; i < n; i++)
        some_endpoint(target, path + GAUGE_ENDPOINT_LEN * i);
    return GAUGE_ENDPOINT_LEN * n;
}

/* Of the keys held the last, the middle one, any, or the first, for which the most are compared; and every other time one beside it. */
void draft_search(uint8_t *key)
{
    size_t h = held(), at = 0;
    uint32_t way = under(16);
    if (h == 0 || way < 4) {
        some_key(key);
        return;
    }
    at = way < 9 ? h - 1 : way < 10 ? h / 2 : way < 12 ? under(h) : 0;
    memcpy(key, now.cache + GAUGE_RECORD_LEN * at, GAUGE_KEY_LEN);
    switch (under(4)) {
    case 0: shift(key, little()); break;
    case 1: flip_bit(key + GAUGE_KEY_LEN / 2, GAUGE_KEY_LEN / 2); break;
    default: break;
    }
}

/* One damage: a byte, a bit, a cut, growth, or a field's number or length. */
void damage_draft(void)
{
    static const uint8_t numbers[] = {0x18, 0x38, 0x39, 0x40, 0x5A, 0x60, 0x80, 0x85, 0x92, 0x93, 0x98, 0x9A, 0x9B, 0x9C, 0x9E, 0x9F, 0xA0, 0xA1,
                                      0xA2, 0xA3, 0xA4, 0xA5, 0xA6};
    static const uint8_t edges[] = {1, 11, 12, 13};
    size_t mark = draft.marked > 0 ? draft.marks[under(draft.marked)] : 0;
    size_t n = draft.n > 0 ? draft.n : 1, edge, grown;
    switch (under(14)) {
    case 0: set_byte(draft.b, n); break;
    case 1: flip_bit(draft.b, n); break;
    case 2: draft.n = under(n + 1); break;
    case 3: draft.n = mark; break;
    case 4: add_any(1 + under(8)); break;
    case 5: add_ignored(1 + under(4)); break;
    case 6: draft.b[mark + 1] = numbers[under(sizeof numbers)]; break;
    case 7: draft.b[mark + 3] = (uint8_t)(draft.b[mark + 3] + under(9) - 4); break;
    case 8: draft.b[mark + 2] = any(); break;
    case 9: set_byte(draft.b + mark + 4, 8); break;
    case 10: set_byte(draft.b, 8); break;
    case 11: draft.b[7] = (uint8_t)under(14); break;
    case 12:
        edge = edges[under(4)];
        draft.n = n > edge ? edge : n;
        break;
    default:
        grown = 1230 + under(6);
        if (n < grown)
            add_any(grown - n);
        break;
    }
    /* an AUTHORITY is often whole again, so that its buffer is looked at */
    if (draft.n >= 28 && draft.b[7] == 8 && percent(60))
        set2(24, draft.n - 28);
}

void damage_head(void)
{
    switch (under(3)) {
    case 0: draft.n = percent(50) ? 8 + under(4) : GAUGE_DATAGRAM_MOST + 1; break;
    case 1: flip_bit(draft.b, 5); break;
    default: draft.b[5] = any(); break;
    }
}

void draft_message(uint8_t *key)
{
    uint32_t to = waiting_id(2, 92);
    some_key(key);
    switch (under(22)) {
    case 0: draft_solicit(); break;
    case 1: draft_advertise(); break;
    case 2: draft_request(); break;
    case 3: case 4: case 5: case 6: case 7: draft_flood(false); break;
    case 8: case 9: draft_flood(true); break;
    case 10: draft_inquire(); break;
    case 11: case 12: case 13: case 14: case 15:
        if (percent(answers))
            draft_authority(to);
        else
            draft_flood(false);
        break;
    case 16: case 17:
        if (percent(answers))
            draft_ack();
        else
            draft_inquire();
        break;
    default: draft_lookup(); break;
    }
    for (size_t i = 0; i < waits(); i++) {
        const uint8_t *p = now.waiting + GAUGE_PLACE_LEN * i;
        uint32_t id = (uint32_t)p[0] | (uint32_t)p[1] << 8 | (uint32_t)p[2] << 16 | (uint32_t)p[3] << 24;
        if (draft.b[7] == 8 && id == to && percent(92))
            memcpy(key, p + 8, GAUGE_KEY_LEN);
        else if (draft.b[7] == 4 && p[4] == 2 && percent(5))
            memcpy(key, p + 8, GAUGE_KEY_LEN);
    }
    while (percent(28))
        damage_draft();
    if (percent(2))
        add_header(12 + under(244));
}

void draft_news(uint8_t *key)
{
    uint8_t record[GAUGE_RECORD_LEN];
    if (percent(25))
        memcpy(record, pool[under(32)], GAUGE_KEY_LEN);
    else
        fill_key(record);
    some_rest(record);
    more_addresses(record);
    memcpy(key, record, GAUGE_KEY_LEN);
    draft_flood_of(key, record, false);
}

void draft_learning(uint8_t *key)
{
    for (size_t i = 0; i < waits(); i++) {
        const uint8_t *p = now.waiting + GAUGE_PLACE_LEN * i;
        if (p[4] == 2) {
            memcpy(key, p + 8, GAUGE_KEY_LEN);
            draft_authority((uint32_t)p[0] | (uint32_t)p[1] << 8 | (uint32_t)p[2] << 16 | (uint32_t)p[3] << 24);
            return;
        }
    }
    draft_news(key);
}

void draft_inquire_of(size_t n)
{
    add_header(7);
    add_field(0x40, 2);
    add_ignored(4);
    add_key(0x39, some_own());
    size_t rest = n - draft.n - 4;
    add_field(0xA6, rest);
    add_any(rest);
}

void draft_send(uint8_t *neighbour, uint8_t *key)
{
    size_t h = held();
    some_key(neighbour);
    some_key(key);
    if (h > 0 && percent(75))
        memcpy(neighbour, now.cache + GAUGE_RECORD_LEN * under(h), GAUGE_KEY_LEN);
    if (percent(35))
        memcpy(key, some_own(), GAUGE_KEY_LEN);
    else if (h > 0 && percent(70))
        memcpy(key, now.cache + GAUGE_RECORD_LEN * under(h), GAUGE_KEY_LEN);
}
