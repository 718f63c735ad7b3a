/* The scenes of bench/scene.h. Keys, addresses and the rest are at random from a fixed seed. The own key lies in the middle of the keys held, that of
 * a second pond, where there is one, at three quarters; and half of the places wait: floods and inquiries in turn. */
#include "scene.h"
#include <stdbool.h>
#include <string.h>

#define FIRST_ID 1000u /* of the waiting places, which have every tenth */

static uint64_t state;

static uint64_t chance(void)
{
    uint64_t z = state += 0x9E3779B97F4A7C15u;
    z = (z ^ z >> 30) * 0xBF58476D1CE4E5B9u;
    z = (z ^ z >> 27) * 0x94D049BB133111EBu;
    return z ^ z >> 31;
}

static void fill(uint8_t *p, size_t n)
{
    uint64_t z = 0;
    for (size_t i = 0; i < n; i++, z >>= 8) {
        if (i % 8 == 0)
            z = chance();
        p[i] = (uint8_t)z;
    }
}

/* Memory. */

/* Port and addresses behind a key, count of them: one in memory, and up to four where a route entry is made of it. */
static void fill_rest(uint8_t *record, size_t count)
{
    memset(record + GAUGE_RECORD_PORT, 0, GAUGE_RECORD_LEN - GAUGE_RECORD_PORT);
    fill(record + GAUGE_RECORD_PORT, 2);
    record[GAUGE_RECORD_COUNT] = (uint8_t)count;
    fill(record + GAUGE_RECORD_ADDRESSES, GAUGE_ADDRESS_LEN * count);
}

static uint64_t first_word(const uint8_t *key)
{
    uint64_t n = 0;
    for (int i = 0; i < 8; i++)
        n = n << 8 | key[i];
    return n;
}

/* A key at random that begins with this word. */
static void fill_key(uint8_t *key, uint64_t first)
{
    fill(key, GAUGE_KEY_LEN);
    for (int i = 0; i < 8; i++)
        key[i] = (uint8_t)(first >> (56 - 8 * i));
}

/* A key between record i and the one before it. */
static void key_between(const struct scene *s, size_t i, uint8_t *key)
{
    uint64_t low = first_word(s->cache + GAUGE_RECORD_LEN * i - GAUGE_RECORD_LEN), high = first_word(s->cache + GAUGE_RECORD_LEN * i);
    fill_key(key, low + (high - low) / 2);
}

/* One own record more, with its CPA. */
static void add_own(struct scene *s, const uint8_t *key)
{
    uint8_t *own = s->own + s->own_len, *cpa = s->cpas + s->cpas_len;
    if (key != NULL)
        memcpy(own, key, GAUGE_KEY_LEN);
    fill_rest(own, 1);
    cpa[0] = SCENE_CPA & 255;
    cpa[1] = SCENE_CPA >> 8;
    fill(cpa + 2, SCENE_CPA);
    s->own_len += GAUGE_RECORD_LEN;
    s->cpas_len += GAUGE_CPAS_LEN(SCENE_CPA);
}

/* C keys, of which each lies anywhere in its C-th part of all; or keys that differ in their last byte alone. */
static void set_cache(struct scene *s, size_t c, bool alike)
{
    uint64_t width = UINT64_MAX / c;
    s->cache_len = GAUGE_CACHE_LEN(c);
    s->held = c;
    for (size_t i = 0; i < c; i++) {
        uint8_t *r = s->cache + GAUGE_RECORD_LEN * i;
        fill_key(r, width * i + chance() % width);
        if (alike) {
            memset(r, 7, GAUGE_KEY_LEN);
            r[GAUGE_KEY_LEN - 1] = (uint8_t)i;
        }
        fill_rest(r, 1);
    }
    if (alike)
        memset(s->own, 7, GAUGE_KEY_LEN - 2);
    else
        key_between(s, c / 2, s->own);
    add_own(s, NULL);
}

/* A second pond, where the cache is large enough for two. */
static void add_pond(struct scene *s)
{
    uint8_t key[GAUGE_KEY_LEN];
    if (s->cache_len < SCENE_OWN * GAUGE_CACHE_LEN(GAUGE_CACHE_LEAST))
        return;
    key_between(s, 3 * s->held / 4, key);
    add_own(s, key);
}

/* Floods to records held, and inquiries about keys that are not. */
static void set_waiting(struct scene *s)
{
    for (size_t i = 0; i < SCENE_PLACES; i++) {
        uint8_t *p = s->waiting + GAUGE_PLACE_LEN * i;
        uint32_t id = FIRST_ID + 10 * (uint32_t)i;
        memcpy(p, &id, 4);
        p[4] = (uint8_t)(1 + i % 2);
        p[5] = (uint8_t)(i % 3);
        if (p[4] == 1) {
            memcpy(p + 8, s->cache + GAUGE_RECORD_LEN * i, GAUGE_KEY_LEN);
        } else {
            fill(p + 8, GAUGE_KEY_LEN);
            memcpy(p + 40, p + 8, GAUGE_KEY_LEN);
            fill_rest(p + 40, 1);
        }
    }
}

/* The place of an inquiry waits for a key between record i and the one before it. */
static void ask_between(struct scene *s, size_t place, size_t i)
{
    uint8_t *p = s->waiting + GAUGE_PLACE_LEN * place;
    key_between(s, i, p + 8);
    memcpy(p + 40, p + 8, GAUGE_KEY_LEN);
    memcpy(s->key, p + 8, GAUGE_KEY_LEN);
}

/* Datagrams, written as documents 000 and 01 have them. */

static void add(struct scene *s, const void *bytes, size_t n)
{
    memcpy(s->datagram + s->datagram_len, bytes, n);
    s->datagram_len += n;
}

static void add4(struct scene *s, uint32_t n)
{
    uint8_t b[4] = {(uint8_t)(n >> 24), (uint8_t)(n >> 16), (uint8_t)(n >> 8), (uint8_t)n};
    add(s, b, 4);
}

static void pad(struct scene *s)
{
    while (s->datagram_len % 4 != 0)
        add(s, "", 1);
}

static void add_header(struct scene *s, enum gauge_kind kind)
{
    add4(s, 0x0010000C);
    add4(s, 0x51000000 | SCENE_MAJOR << 16 | SCENE_MINOR << 8 | (uint32_t)kind);
    add4(s, 0xD8859CF5);
}

static void add_opaque(struct scene *s, uint32_t number, size_t n)
{
    uint8_t bytes[SCENE_CPA];
    fill(bytes, n);
    add4(s, number << 16 | (uint32_t)(4 + n));
    add(s, bytes, n);
}

static void add_entry(struct scene *s, const uint8_t *record)
{
    size_t count = record[GAUGE_RECORD_COUNT];
    uint8_t counts[2] = {0, (uint8_t)count}, versions[2] = {SCENE_MAJOR, SCENE_MINOR};
    add4(s, 0x009A0000 | (uint32_t)(42 + 16 * count));
    add(s, record, GAUGE_KEY_LEN);
    add(s, versions, 2);
    add(s, record + GAUGE_RECORD_PORT, 2);
    add(s, counts, 2);
    add(s, record + GAUGE_RECORD_ADDRESSES, 16 * count);
    pad(s);
}

static void begin_flood(struct scene *s)
{
    add_header(s, GAUGE_FLOOD);
    add4(s, 0x00430007);
    add4(s, 0);
    add4(s, 0x00390024);
    add(s, s->own, GAUGE_KEY_LEN);
}

static void flood_of(struct scene *s, const uint8_t *record)
{
    begin_flood(s);
    add_entry(s, record);
}

static void flood_new(struct scene *s)
{
    uint8_t record[GAUGE_RECORD_LEN];
    key_between(s, s->held / 4, record);
    fill_rest(record, 2);
    flood_of(s, record);
}

static void flood_held(struct scene *s)
{
    flood_of(s, s->cache + GAUGE_RECORD_LEN * (s->held / 2));
}

static void revocation(struct scene *s)
{
    begin_flood(s);
    add_opaque(s, 0x009C, 120);
    memcpy(s->key, s->cache + GAUGE_RECORD_LEN * (s->held / 3), GAUGE_KEY_LEN);
}

static void inquire(struct scene *s)
{
    add_header(s, GAUGE_INQUIRE);
    add4(s, 0x00400006);
    add4(s, 0x00100000);
    add4(s, 0x00390024);
    add(s, s->own, GAUGE_KEY_LEN);
    add_opaque(s, 0x0093, GAUGE_NONCE_LEN);
}

static void authority(struct scene *s)
{
    add_header(s, GAUGE_AUTHORITY);
    add4(s, 0x00180008);
    add4(s, FIRST_ID + 50);
    add4(s, 0x00980008);
    add4(s, (12 + SCENE_CPA) << 16);
    add4(s, 0x00400006);
    add4(s, 0);
    add_opaque(s, 0x009B, SCENE_CPA);
    ask_between(s, 5, s->held / 4);
}

static void authority_room(struct scene *s)
{
    authority(s);
    s->held--;
    memset(s->cache + GAUGE_RECORD_LEN * s->held, 0, GAUGE_RECORD_LEN);
}

static void ack(struct scene *s)
{
    add_header(s, GAUGE_ACK);
    add4(s, 0x00180008);
    add4(s, FIRST_ID + 40);
}

static void ack_n(struct scene *s)
{
    ack(s);
    add4(s, 0x00400006);
    add(s, "\0\1", 2);
}

/* A LOOKUP with the scene's target and path, and perhaps with a route entry. */
static void add_lookup(struct scene *s, const uint8_t *record)
{
    add_header(s, GAUGE_LOOKUP);
    add4(s, 0x0045000C);
    add4(s, 0);
    add4(s, 0);
    add4(s, 0x00380024);
    add(s, s->target, GAUGE_KEY_LEN);
    add4(s, 0x00390024);
    add(s, s->own, GAUGE_KEY_LEN);
    if (record != NULL)
        add_entry(s, record);
    add4(s, 0x009E0000 | (12 + sizeof s->path));
    add4(s, SCENE_POINTS << 16 | (8 + sizeof s->path));
    add4(s, 0x009D0012);
    add(s, s->path, sizeof s->path);
}

/* Endpoint i of the path is that of a record. */
static void set_point(struct scene *s, size_t i, const uint8_t *record)
{
    uint8_t *point = s->path + GAUGE_ENDPOINT_LEN * i;
    memcpy(point, record + GAUGE_RECORD_PORT, 2);
    memcpy(point + 2, record + GAUGE_RECORD_ADDRESSES, GAUGE_ADDRESS_LEN);
}

/* The target lies one above the key of record i, which is then the closest. No endpoint of the path is known. */
static const uint8_t *set_target(struct scene *s, size_t i)
{
    const uint8_t *record = s->cache + GAUGE_RECORD_LEN * i;
    memcpy(s->target, record, GAUGE_KEY_LEN);
    for (int k = GAUGE_KEY_LEN - 1; ++s->target[k] == 0; k--)
        continue;
    fill(s->path, sizeof s->path);
    return record;
}

static void lookup(struct scene *s)
{
    set_target(s, s->held / 3);
    add_lookup(s, NULL);
}

/* The same where keys share 31 bytes: the target is held. */
static void lookup_alike(struct scene *s)
{
    const uint8_t *record = set_target(s, s->held / 3);
    memcpy(s->target, record, GAUGE_KEY_LEN);
    add_lookup(s, NULL);
}

/* With a route entry that is new. */
static void lookup_entry(struct scene *s)
{
    uint8_t record[GAUGE_RECORD_LEN];
    key_between(s, s->held / 4, record);
    fill_rest(record, 2);
    set_target(s, s->held / 3);
    add_lookup(s, record);
}

static bool key_less(const uint8_t *x, const uint8_t *y)
{
    return memcmp(x, y, GAUGE_KEY_LEN) < 0;
}

/* x - y; x is not less. */
static void minus(const uint8_t *x, const uint8_t *y, uint8_t *d)
{
    int borrow = 0;
    for (int i = GAUGE_KEY_LEN - 1; i >= 0; i--) {
        int digit = x[i] - y[i] - borrow;
        borrow = digit < 0;
        d[i] = (uint8_t)(digit + 256 * borrow);
    }
}

/* The records on either side of the target are on the path: the nearer of the next two is the closest. The own key lies farther off. */
static const uint8_t *pass_over(struct scene *s)
{
    const uint8_t *below = set_target(s, s->held / 5), *next[2] = {below - GAUGE_RECORD_LEN, below + 2 * GAUGE_RECORD_LEN};
    uint8_t down[GAUGE_KEY_LEN], up[GAUGE_KEY_LEN];
    set_point(s, 0, below);
    set_point(s, 1, below + GAUGE_RECORD_LEN);
    minus(s->target, next[0], down);
    minus(next[1], s->target, up);
    return key_less(up, down) ? next[1] : next[0];
}

static void lookup_past(struct scene *s)
{
    pass_over(s);
    add_lookup(s, NULL);
}

/* How many of so many records' keys halving compares with a key (document 02, request 8). */
static uint32_t halvings(const uint8_t *records, size_t n, const uint8_t *key)
{
    const uint8_t *middle = records + GAUGE_RECORD_LEN * (n / 2);
    if (n == 0)
        return 0;
    if (key_less(key, middle))
        return 1 + halvings(records, n / 2, key);
    return key_less(middle, key) ? 1 + halvings(middle + GAUGE_RECORD_LEN, n - n / 2 - 1, key) : 1;
}

static void want_place(struct scene *s, const uint8_t *record)
{
    s->wanted.first = GAUGE_CLOSEST_HELD + (uint32_t)((size_t)(record - s->cache) / GAUGE_RECORD_LEN);
    s->wanted.second = halvings(s->cache, s->held, s->target);
}

static void closest(struct scene *s)
{
    want_place(s, set_target(s, s->held / 3));
}

static void closest_past(struct scene *s)
{
    want_place(s, pass_over(s));
}

static void search(struct scene *s)
{
    memcpy(s->key, s->cache + GAUGE_RECORD_LEN * (s->held / 3), GAUGE_KEY_LEN);
    s->wanted.first = (uint32_t)(s->held / 3) + 1;
    s->wanted.second = halvings(s->cache, s->held, s->key);
}

static void search_between(struct scene *s)
{
    key_between(s, s->held / 3, s->key);
    s->wanted.second = halvings(s->cache, s->held, s->key);
}

static void send_flood(struct scene *s)
{
    const uint8_t *record = s->cache + GAUGE_RECORD_LEN * (s->held / 2);
    memcpy(s->neighbour, s->cache + GAUGE_RECORD_LEN * (s->held / 3), GAUGE_KEY_LEN);
    memcpy(s->key, record, GAUGE_KEY_LEN);
}

/* A place without tries is gone, the others are listed. */
static void tick(struct scene *s)
{
    for (size_t i = 0; i < SCENE_PLACES; i++)
        s->wanted.first += s->waiting[GAUGE_PLACE_LEN * i + 5] != 0;
}

static void neighbours(struct scene *s)
{
    memcpy(s->key, s->own, GAUGE_KEY_LEN);
}

/* With two ponds: a record learned into a full cache; the list of the second. */
static void authority_ponds(struct scene *s)
{
    authority(s);
    add_pond(s);
}

static void neighbours_ponds(struct scene *s)
{
    add_pond(s);
    memcpy(s->key, s->own + s->own_len - GAUGE_RECORD_LEN, GAUGE_KEY_LEN);
}

static void take_record(uint8_t *cache, size_t held, size_t i)
{
    memmove(cache + GAUGE_RECORD_LEN * i, cache + GAUGE_RECORD_LEN * (i + 1), GAUGE_RECORD_LEN * (held - i - 1));
    memset(cache + GAUGE_RECORD_LEN * (held - 1), 0, GAUGE_RECORD_LEN);
}

/* Two saved caches, both the scene's but for three keys: one is gone, one is new, one has another port. */
static void changes(struct scene *s)
{
    memcpy(s->before, s->cache, s->cache_len);
    memcpy(s->after, s->cache, s->cache_len);
    s->after[GAUGE_RECORD_LEN * (3 * s->held / 4) + GAUGE_RECORD_PORT] ^= 1;
    take_record(s->after, s->held, s->held / 4);
    take_record(s->before, s->held, s->held / 2);
}

static void own_unfit(struct scene *s)
{
    lookup(s);
    s->own[GAUGE_RECORD_COUNT] = 5;
}

static void bad_header(struct scene *s)
{
    lookup(s);
    s->datagram[4] = 0x52;
}

static void no_room(struct scene *s)
{
    flood_new(s);
    s->room = 95;
}

struct kind {
    const char *name;
    enum call_kind call;
    bool alike;
    void (*set)(struct scene *);
    struct gauge_answer wanted; /* `first` of a tick, and both of a closest and of a search, go by the memory */
};

static const struct kind kinds[] = {
    {"FLOOD, new record: ACK and INQUIRE", RECEIVE, false, flood_new, {0, 20, 76}},
    {"FLOOD, record held: ACK", RECEIVE, false, flood_held, {0, 20, 0}},
    {"FLOOD, key revoked: ACK", RECEIVE, false, revocation, {0, 20, 0}},
    {"INQUIRE: AUTHORITY with CPA", RECEIVE, false, inquire, {0, 40 + SCENE_CPA, 0}},
    {"AUTHORITY: record joins", RECEIVE, false, authority_room, {0, 0, 0}},
    {"AUTHORITY: joins, another dropped", RECEIVE, false, authority, {0, 0, 0}},
    {"AUTHORITY, two ponds: one dropped", RECEIVE, false, authority_ponds, {0, 0, 0}},
    {"ACK: place freed", RECEIVE, false, ack, {0, 0, 0}},
    {"ACK with N: key removed", RECEIVE, false, ack_n, {0, 0, 0}},
    {"LOOKUP: AUTHORITY with closest", RECEIVE, false, lookup, {0, 96, 0}},
    {"the same, keys share 31 bytes", RECEIVE, true, lookup_alike, {0, 96, 0}},
    {"LOOKUP, two next on its path", RECEIVE, false, lookup_past, {0, 96, 0}},
    {"LOOKUP, new entry: INQUIRE too", RECEIVE, false, lookup_entry, {0, 96, 76}},
    {"send a FLOOD", SEND, false, send_flood, {0, 116, 0}},
    {"tick", TICK, false, tick, {0, 0, 0}},
    {"neighbours", NEIGHBOURS, false, neighbours, {0, 5, 5}},
    {"neighbours, two ponds: of the second", NEIGHBOURS, false, neighbours_ponds, {0, 5, 5}},
    {"closest", CLOSEST, false, closest, {0, 0, 0}},
    {"closest, two next on the path", CLOSEST, false, closest_past, {0, 0, 0}},
    {"search, key held", SEARCH, false, search, {0, 0, 0}},
    {"search, key between two", SEARCH, false, search_between, {0, 0, 0}},
    {"changes: gone, new, other, one each", CHANGES, false, changes, {0, 3, 3 * GAUGE_CHANGE_LEN}},
    {"look at a LOOKUP", LOOK, false, lookup, {0, GAUGE_LOOKUP, 0}},
    {"look at a FLOOD", LOOK, false, flood_new, {0, GAUGE_FLOOD, 0}},
    {"refused 1: own record", RECEIVE, false, own_unfit, {GAUGE_MEMORY, 0, 0}},
    {"refused 3: header", RECEIVE, false, bad_header, {GAUGE_HEADER, 0, 0}},
    {"refused 15: no room for INQUIRE", RECEIVE, false, no_room, {GAUGE_ROOM, 0, 0}},
};

static void count_firsts(struct scene *s)
{
    for (size_t i = 0; i < s->held; i++) {
        uint8_t *count = s->firsts + 2 * s->cache[GAUGE_RECORD_LEN * i];
        count[1] = (uint8_t)(count[1] + (++count[0] == 0));
    }
}

/* What is lent, when all of it is laid out. */
static void lend(struct scene *s)
{
    static uint8_t zeros[SLICES][GAUGE_CACHE_LEN(GAUGE_CACHE_MOST)]; /* as long as any */
    struct lent *l = &s->lent;
    for (int i = 0; i < SLICES; i++)
        *slice_in(l, i) = as_room(zeros[i], slices[i].usual);
    l->own = as_room(s->own, s->own_len);
    l->cpas = as_room(s->cpas, s->cpas_len);
    l->cache = as_room(s->cache, s->cache_len);
    count_firsts(s);
    l->firsts = as_room(s->firsts, sizeof s->firsts);
    l->waiting = as_room(s->waiting, sizeof s->waiting);
    l->nonce = as_room(s->nonce, sizeof s->nonce);
    l->neighbour = as_room(s->neighbour, sizeof s->neighbour);
    l->key = as_room(s->key, sizeof s->key);
    l->path = as_room(s->path, sizeof s->path);
    l->target = as_room(s->target, sizeof s->target);
    l->before = as_room(s->before, s->cache_len);
    l->after = as_room(s->after, s->cache_len);
    l->datagram = as_room(s->datagram, s->datagram_len);
    l->output.len = s->room;
    l->major = SCENE_MAJOR;
    l->minor = SCENE_MINOR;
    l->id = s->id;
    l->verdict = GAUGE_GOOD;
}

const size_t scenes = sizeof kinds / sizeof *kinds;

void set_scene(struct scene *s, size_t i, size_t c)
{
    const struct kind *k = &kinds[i];
    memset(s, 0, sizeof *s);
    state = 2026 + c;
    s->name = k->name;
    s->call = k->call;
    s->wanted = k->wanted;
    s->room = GAUGE_OUTPUT_LEN;
    s->id = 70000;
    fill(s->nonce, sizeof s->nonce);
    set_cache(s, c, k->alike);
    set_waiting(s);
    k->set(s);
    lend(s);
}
