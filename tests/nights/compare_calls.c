/* How a random night's calls are drawn (tests/nights/compare.h): its beginning, each call, and the damage to the memory that it is lent. */
#include "compare.h"
#include <string.h>

/* A cache of so many records or more begins full in most nights, as calls alone would not fill it, and the night ends before it is empty. */
#define GREAT 255u
#define MOST_CACHE (GAUGE_RECORD_LEN * GAUGE_CACHE_MOST)

/* Memory damaged, for one call. */

static uint8_t spoiled[MEMORY_ROOM];

/* Fields of a record in the cache and of a place that waits: the first and last byte of each. */
static const uint8_t cache_fields[] = {0, 31, 32, 33, 34, 35, 36, 51, 52, 67, 68, 83, 84, 99};
static const uint8_t waiting_fields[] = {0, 3, 4, 4, 5, 5, 5, 6, 7, 8, 39, 40, 71, 72, 74, 75, 76, 91, 92, 107, 108, 123, 124, 139};

/* Memory of rows, of which the first are used. A row's key stands at `key_at`, and in an inquiry's record once more, at `again_at`; how many
 * addresses its record has, at `count_at`. */
struct rows {
    size_t len, width, used, key_at, again_at, count_at;
};

/* A byte, a bit or a field, anywhere or in a row that is used or just behind. */
static void spoil_byte(const struct rows *r, uint8_t *row)
{
    size_t field;
    switch (under(8)) {
    case 0: set_byte(spoiled, r->len); break;
    case 1: set_byte(row, r->width); break;
    case 2: flip_bit(row, r->width); break;
    case 3: /* the first byte of what is free, or the last of all */
        field = r->width * r->used < r->len && percent(50) ? r->width * r->used : r->len - 1;
        spoiled[field] = (uint8_t)(1 + under(255));
        break;
    case 4: row[r->count_at] = (uint8_t)under(6); break;
    default:
        field = r->width == GAUGE_RECORD_LEN ? cache_fields[under(sizeof cache_fields)] : waiting_fields[under(sizeof waiting_fields)];
        row[field] = (uint8_t)under(6);
        break;
    }
}

/* A row exchanged with the next, or twice, or cleared, or with a key of ours, or with the key and record of another. */
static void spoil_row(const struct rows *r, uint8_t *row)
{
    uint8_t other[GAUGE_PLACE_LEN];
    const uint8_t *ours = some_own();
    bool last = (size_t)(row - spoiled) + r->width == r->len;
    size_t from = r->width * under(r->width * (r->used + 1) < r->len ? r->used + 1 : r->len / r->width);
    switch (under(5)) {
    case 0:
        if (!last) {
            memcpy(other, row, r->width);
            memcpy(row, row + r->width, r->width);
            memcpy(row + r->width, other, r->width);
        }
        break;
    case 1:
        if (!last)
            memcpy(row + r->width, row, r->width);
        break;
    case 2: memset(row, 0, r->width); break;
    case 3:
        memcpy(row + r->key_at, ours, GAUGE_KEY_LEN);
        if (r->again_at != 0 && row[4] == 2)
            memcpy(row + r->again_at, ours, GAUGE_KEY_LEN);
        break;
    default: memmove(row + r->key_at, spoiled + from + r->key_at, r->width - r->key_at); break; /* its ID and kind kept */
    }
}

/* Another length, with the bytes as they are and zeros behind. */
static size_t spoil_length(const struct rows *r)
{
    const size_t least = GAUGE_CACHE_LEAST * own_len;
    const size_t lengths[] = {0, least - 100, least - 1, least, least + 1, least + 100, MOST_CACHE, MOST_CACHE + 1, MOST_CACHE + 100};
    size_t rows = r->len / r->width;
    switch (under(3)) {
    case 0: return r->width == GAUGE_RECORD_LEN ? lengths[under(sizeof lengths / sizeof *lengths)] : r->len - r->width * under(rows);
    case 1: return under(2) ? r->len - 1 - under(r->len) : r->len + 1 + under(r->width);
    default: return r->len + r->width * under((sizeof spoiled - r->len) / r->width);
    }
}

/* The memory changed in one thing, by chance. */
static struct room spoil(const uint8_t *bytes, const struct rows *r)
{
    size_t rows = r->len / r->width, len = r->len;
    uint8_t *row = spoiled + r->width * under(r->used + 2 < rows ? r->used + 2 : rows);
    uint32_t way = under(15);
    memset(spoiled, 0, sizeof spoiled);
    memcpy(spoiled, bytes, r->len);
    if (way < 7)
        spoil_byte(r, row);
    else if (way < 12)
        spoil_row(r, row);
    else
        len = spoil_length(r);
    return kept(spoiled, len);
}

/* The counts by first byte of the cache that a call is lent, which then is refused for the cache alone, if at all. */
static void lend_counts(struct call *c)
{
    uint8_t firsts[GAUGE_FIRSTS_LEN];
    count_firsts(c->lent.cache.at, c->lent.cache.len, firsts);
    c->lent.firsts = kept(firsts, sizeof firsts);
}

static size_t wrong_length(size_t right)
{
    switch (under(5)) {
    case 0: return right - 1;
    case 1: return right + 1;
    case 2: return 0;
    case 3: return under(2 * right);
    default: return right + 1 + under(64);
    }
}

/* Memory of the time when a record had up to four addresses (document 02, request 13): the present one, and behind the address of some records, or of
 * all, others. */

static uint8_t aged[MEMORY_ROOM];

static unsigned some_aged(void)
{
    return percent(15) ? 0 : percent(50) ? 40 : 100;
}

static struct room aged_cache(void)
{
    unsigned often = some_aged();
    memcpy(aged, now.cache, now.cache_len);
    for (size_t i = 0; i < held(); i++)
        if (percent(often))
            more_addresses(aged + GAUGE_RECORD_LEN * i);
    return kept(aged, now.cache_len);
}

static struct room aged_waiting(void)
{
    unsigned often = some_aged();
    memcpy(aged, now.waiting, now.waiting_len);
    for (size_t i = 0; i < waits(); i++)
        if (aged[GAUGE_PLACE_LEN * i + 4] == 2 && percent(often))
            more_addresses(aged + GAUGE_PLACE_LEN * i + 40);
    return kept(aged, now.waiting_len);
}

static struct room aged_own(void)
{
    memcpy(aged, own, own_len);
    for (size_t i = 0; i < own_len; i += GAUGE_RECORD_LEN)
        if (percent(60))
            more_addresses(aged + i);
    return kept(aged, own_len);
}

/* Own records that are not as they were: a byte or a length; two exchanged, or the same twice; one more than there are, in its place or behind them;
 * one less. */
static void spoil_own(struct call *c)
{
    static const uint8_t fields[] = {34, 35, 52, 68, 84, 99, 0, 31};
    uint8_t b[8 * GAUGE_RECORD_LEN] = {0}, *last = b + own_len - GAUGE_RECORD_LEN;
    size_t len = own_len, from = GAUGE_RECORD_LEN * under(own_len / GAUGE_RECORD_LEN);
    memcpy(b, c->lent.own.at, own_len);
    switch (own_len == sizeof own && percent(25) ? 0 : under(own_len > GAUGE_RECORD_LEN ? 8 : 5)) {
    case 0:
        memcpy(b + own_len, b + from, GAUGE_RECORD_LEN); /* behind them, and perhaps in order; then there may be five, or too few held */
        if (percent(70))
            memset(b + own_len, 0xFF, GAUGE_KEY_LEN - 1);
        len += GAUGE_RECORD_LEN;
        c->hurt = own_len < sizeof own && now.cache_len < GAUGE_CACHE_LEAST * len && c->kind != RECEIVE ? HURT_NUMBER : UNHURT;
        break;
    case 1: len = wrong_length(own_len); break;
    case 5:
        memcpy(b, last, GAUGE_RECORD_LEN);
        memcpy(last, c->lent.own.at, GAUGE_RECORD_LEN);
        c->hurt = HURT_ORDER;
        break;
    case 6:
        memcpy(last, last - GAUGE_RECORD_LEN, GAUGE_KEY_LEN);
        c->hurt = HURT_ORDER;
        break;
    case 7: len -= GAUGE_RECORD_LEN; break;
    default: {
        size_t at = percent(50) ? fields[under(sizeof fields)] : under(GAUGE_RECORD_LEN);
        b[from + at] = (uint8_t)under(6);
    }
    }
    c->lent.own = kept(b, len);
}

/* CPAs out of form: none, one of a length that is too great or 0, cut short, with bytes behind, or one more or less than there are own records. */
static void spoil_cpas(struct call *c)
{
    static uint8_t b[CPAS_MOST + 2 * GAUGE_CPAS_LEN(GAUGE_CPA_MOST)];
    size_t len = c->lent.cpas.len, at = 0, which = under(own_len / GAUGE_RECORD_LEN);
    memset(b, 0, sizeof b);
    memcpy(b, c->lent.cpas.at, len);
    for (size_t i = 0; i < which; i++)
        at += GAUGE_CPAS_LEN(b[at] + 256u * b[at + 1]);
    size_t whole = GAUGE_CPAS_LEN(b[at] + 256u * b[at + 1]);
    c->hurt = HURT_CPAS;
    switch (under(8)) {
    case 0: len = 0; break;
    case 1: len -= 1 + under(2); break;
    case 2: len += 1 + under(3); break;
    case 3: /* an empty one */
        memmove(b + at + 2, b + at + whole, len - at - whole);
        len -= whole - 2;
        b[at] = b[at + 1] = 0;
        break;
    case 4: /* over 1,024, and so many bytes, with the others behind */
        memmove(b + at + GAUGE_CPAS_LEN(GAUGE_CPA_MOST + 1), b + at + whole, len - at - whole);
        len += GAUGE_CPAS_LEN(GAUGE_CPA_MOST + 1) - whole;
        b[at] = 1;
        b[at + 1] = 4;
        break;
    case 5: len = at; break; /* the ones before it */
    case 6:
        b[len] = 1;
        len += GAUGE_CPAS_LEN(1); /* one more */
        break;
    default: /* its length the other way round, or one more or less */
        if (percent(50)) {
            uint8_t first = b[at];
            b[at] = b[at + 1];
            b[at + 1] = first;
        } else {
            b[at] = (uint8_t)(b[at] + 1 + 254 * under(2));
        }
        c->hurt = UNHURT;
        break;
    }
    c->lent.cpas = kept(b, len);
}

/* A first byte, mostly one with which a key begins that is held. */
static size_t some_first(void)
{
    size_t h = held();
    return h > 0 && percent(70) ? now.cache[GAUGE_RECORD_LEN * under(h)] : any();
}

/* Firsts that are not the cache's: one number more or less by one or by 256, or any; one taken from another, or the two exchanged; a number's bytes
 * exchanged; none at all; another length. */
static void spoil_firsts(struct call *c)
{
    uint8_t b[2 * GAUGE_FIRSTS_LEN] = {0}, was[GAUGE_FIRSTS_LEN];
    size_t len = GAUGE_FIRSTS_LEN, at = 2 * some_first(), other = 2 * some_first();
    memcpy(b, now.firsts, len);
    memcpy(was, b, len);
    switch (under(9)) {
    case 0: b[at]++; break;
    case 1: b[at]--; break;
    case 2: b[at + 1] ^= 1; break;
    case 3: set_byte(b, len); break;
    case 4: /* where a key that begins so is held, and the other number can be one more */
        if (b[at] > 0 && b[other] < 255) {
            b[at]--;
            b[other]++;
        }
        break;
    case 5:
        memcpy(b + at, was + other, 2);
        memcpy(b + other, was + at, 2);
        break;
    case 6:
        b[at] = was[at + 1];
        b[at + 1] = was[at];
        break;
    case 7: memset(b, 0, len); break;
    default:
        len = percent(60) ? wrong_length(len) : len - 2 * under(4);
        c->hurt = len != GAUGE_FIRSTS_LEN ? HURT_FIRSTS : UNHURT;
        break;
    }
    size_t numbers = 0;
    int sum = 0;
    for (size_t i = 0; i < GAUGE_FIRSTS_LEN; i += 2) {
        numbers += memcmp(b + i, was + i, 2) != 0;
        sum += b[i] + 256 * b[i + 1] - was[i] - 256 * was[i + 1];
    }
    if (numbers > 0)
        c->hurt = sum == 0 ? HURT_SUM : numbers == 1 ? HURT_COUNT : UNHURT;
    c->lent.firsts = kept(b, len);
}

/* Two caches, each made of the present one by edits. */

/* Where a key stands among so many records, or would. */
static size_t place_in(const uint8_t *cache, size_t used, const uint8_t *key)
{
    size_t i = 0;
    while (i < used && memcmp(cache + GAUGE_RECORD_LEN * i, key, GAUGE_KEY_LEN) < 0)
        i++;
    return i;
}

static size_t used_in(const uint8_t *cache, size_t len)
{
    size_t n = 0;
    while (GAUGE_RECORD_LEN * n < len && cache[GAUGE_RECORD_LEN * n + GAUGE_RECORD_COUNT] != 0)
        n++;
    return n;
}

/* One record more, where there is room and its key is neither ours nor held; so often of 100 it leans on the memory. Gives how many there are. */
static size_t add_record(uint8_t *cache, size_t len, size_t used, unsigned leaning)
{
    uint8_t record[GAUGE_RECORD_LEN];
    if (percent(leaning))
        some_key(record);
    else
        fill_key(record);
    some_rest(record);
    size_t i = place_in(cache, used, record);
    uint8_t *row = cache + GAUGE_RECORD_LEN * i;
    if (GAUGE_RECORD_LEN * used == len || is_own(record) || (i < used && memcmp(row, record, GAUGE_KEY_LEN) == 0))
        return used;
    memmove(row + GAUGE_RECORD_LEN, row, GAUGE_RECORD_LEN * (used - i));
    memcpy(row, record, GAUGE_RECORD_LEN);
    return used + 1;
}

static size_t take_record(uint8_t *cache, size_t used, size_t i)
{
    memmove(cache + GAUGE_RECORD_LEN * i, cache + GAUGE_RECORD_LEN * (i + 1), GAUGE_RECORD_LEN * (used - i - 1));
    memset(cache + GAUGE_RECORD_LEN * (used - 1), 0, GAUGE_RECORD_LEN);
    return used - 1;
}

/* The port, the address, or all behind the key. */
static void change_rest(uint8_t *record)
{
    switch (under(4)) {
    case 0: flip_bit(record + GAUGE_RECORD_PORT, 2); break;
    case 1: flip_bit(record + GAUGE_RECORD_ADDRESSES, GAUGE_ADDRESS_LEN); break;
    case 2: flip_bit(record + GAUGE_RECORD_ADDRESSES + GAUGE_ADDRESS_LEN - 1, 1); break;
    default: some_rest(record); break;
    }
}

/* The first record, the last, or any. */
static size_t some_place(size_t used)
{
    return percent(20) ? 0 : percent(25) ? used - 1 : under(used);
}

static void edit_cache(uint8_t *cache, size_t len)
{
    size_t used = used_in(cache, len);
    uint32_t way = under(20);
    for (uint32_t edits = way < 3 ? 0 : way < 18 ? 1 + under(5) : 30; edits > 0; edits--)
        switch (used > 0 ? under(4) : 0) {
        case 0: case 1: used = add_record(cache, len, used, 60); break;
        case 2: used = take_record(cache, used, some_place(used)); break;
        default: change_rest(cache + GAUGE_RECORD_LEN * some_place(used)); break;
        }
}

/* None at all, or all others: with as many as there is room for, now and then. */
static void replace_cache(uint8_t *cache, size_t len)
{
    size_t used = 0;
    unsigned leaning = percent(40) ? 40 : 0;
    memset(cache, 0, len);
    if (percent(30))
        return;
    for (size_t tries = 0; tries < 2 * len / GAUGE_RECORD_LEN; tries++)
        used = add_record(cache, len, used, leaning);
}

static struct room edited(void)
{
    static uint8_t cache[MEMORY_ROOM];
    memset(cache, 0, sizeof cache);
    memcpy(cache, now.cache, now.cache_len);
    if (percent(12))
        replace_cache(cache, now.cache_len);
    else
        edit_cache(cache, now.cache_len);
    return kept(cache, now.cache_len);
}

static void draw_pair(struct call *c)
{
    c->lent.before = edited();
    c->lent.after = percent(8) ? c->lent.before : percent(40) ? kept(now.cache, now.cache_len) : edited();
    if (percent(50)) {
        struct room first = c->lent.before;
        c->lent.before = c->lent.after;
        c->lent.after = first;
    }
}

/* One of the two spoiled, or both longer or shorter, or one alone. */
static void spoil_pair(struct call *c)
{
    bool first = percent(50);
    struct room *one = first ? &c->lent.before : &c->lent.after;
    struct rows r = {one->len, GAUGE_RECORD_LEN, used_in(one->at, one->len), 0, 0, GAUGE_RECORD_COUNT};
    if (percent(70)) {
        size_t len = one->len;
        *one = spoil(one->at, &r);
        c->pair = one->len != len ? UNLIKE : first ? BEFORE_HURT : AFTER_HURT;
        return;
    }
    memset(spoiled, 0, sizeof spoiled);
    memcpy(spoiled, one->at, one->len);
    *one = kept(spoiled, one->len + GAUGE_RECORD_LEN);
    c->pair = UNLIKE;
}

/* All that a conversion is lent; to another call one of them, which is then refused if it is what it seems. */
static void age_call(struct call *c)
{
    uint32_t which = under(3);
    c->aged = true;
    if (c->kind == CONVERT || which == 0)
        c->lent.cache = aged_cache();
    if (c->kind == CONVERT || which == 1)
        c->lent.waiting = aged_waiting();
    if (c->kind == CONVERT || which == 2)
        c->lent.own = aged_own();
}

static const uint8_t *lent_or(struct room lent, const uint8_t *present)
{
    return lent.at != NULL ? lent.at : present;
}

static void damage_call(struct call *c)
{
    static uint8_t b[4096];
    struct room *small;
    struct rows records = {now.cache_len, GAUGE_RECORD_LEN, held(), 0, 0, GAUGE_RECORD_COUNT};
    struct rows places = {now.waiting_len, GAUGE_PLACE_LEN, waits(), 8, 40, 40 + GAUGE_RECORD_COUNT};
    memset(b, 0, sizeof b);
    c->sound = false;
    if (c->kind == RECEIVE && percent(25)) {
        spoil_firsts(c);
        return;
    }
    if (c->kind == CHANGES) {
        if (percent(75))
            spoil_pair(c);
        else
            spoil_own(c);
        return;
    }
    switch (under(c->kind == CONVERT ? 8 : 12)) {
    case 0: case 1: case 2:
        c->lent.cache = spoil(lent_or(c->lent.cache, now.cache), &records);
        lend_counts(c);
        break;
    case 3: case 4: case 5: c->lent.waiting = spoil(lent_or(c->lent.waiting, now.waiting), &places); break;
    case 6: case 7: spoil_own(c); break;
    case 8: spoil_cpas(c); break;
    case 9: case 10: age_call(c); break;
    default:
        small = c->kind == CLOSEST ? &c->lent.target : !percent(50) ? &c->lent.key : c->kind == SEND ? &c->lent.neighbour : &c->lent.nonce;
        if (c->kind == CLOSEST && percent(60))
            small = &c->lent.path;
        if (c->kind == SEARCH)
            small = &c->lent.key;
        memcpy(b, small->at, small->len);
        *small = kept(b, wrong_length(small->len > 0 ? small->len : GAUGE_ENDPOINT_LEN));
    }
}

/* A call. */

/* Room for the output: enough, any, or just what is needed, or one byte less; what is needed is found by a try of the model. */
static size_t some_room(struct call *c)
{
    static const uint16_t edges[] = {0, 1, 19, 20, GAUGE_TICK_LEN - 1, GAUGE_TICK_LEN, GAUGE_TICK_LEN + 1, 96, GAUGE_LIST_LEN - 1, GAUGE_LIST_LEN,
                                     GAUGE_LIST_LEN + 1};
    uint32_t way = under(20);
    if (way < 13)
        return c->kind == CHANGES ? GAUGE_CHANGES_LEN(now.cache_len / GAUGE_RECORD_LEN) : GAUGE_OUTPUT_LEN;
    if (way < 15)
        return under(400);
    if (way < 17 || (c->kind != RECEIVE && c->kind != SEND && c->kind != CHANGES))
        return edges[under(sizeof edges / sizeof *edges)];
    size_t need = needed(c);
    if (need == 0 || way == 17)
        return need;
    return way == 18 || percent(50) ? need - 1 : under(need);
}

/* How often each call is drawn, of 100: up to the number beside it, from that of the one before. */
static enum call_kind some_kind(void)
{
    const struct {
        uint32_t below;
        enum call_kind kind;
    } kinds[] = {{64, RECEIVE}, {72, SEND},   {72 + ticks, TICK}, {80, NEIGHBOURS}, {84, CLOSEST},
                 {88, SEARCH},  {91, CONVERT}, {94, CHANGES},      {100, LOOK}};
    uint32_t way = under(100);
    size_t i = 0;
    while (way >= kinds[i].below)
        i++;
    return kinds[i].kind;
}

void make_call(struct call *c)
{
    static uint8_t b[CPAS_MOST];
    uint8_t key[GAUGE_KEY_LEN];
    memset(c, 0, sizeof *c);
    c->kind = some_kind();
    c->lent = lend_gauge();
    c->lent.major = percent(3) ? any() : own_major;
    c->filled = any();
    c->front = percent(30);
    c->sound = true;
    c->lent.id = some_id();
    c->lent.verdict = percent(90) ? 1 : percent(50) ? under(4) : percent(50) ? 257 : (uint32_t)chance();
    if (percent(10))
        some_rest(own + GAUGE_RECORD_LEN * under(own_len / GAUGE_RECORD_LEN));
    c->lent.own = kept(own, own_len);
    size_t cpas_len = some_cpas(b);
    c->lent.cpas = kept(b, cpas_len);
    fill(b, GAUGE_NONCE_LEN);
    c->lent.nonce = kept(b, GAUGE_NONCE_LEN);
    draft_message(key);
    if (c->kind == LOOK && percent(20))
        damage_head();
    c->lent.key = kept(key, GAUGE_KEY_LEN);
    c->lent.datagram = kept(draft.b, draft.n);
    if (c->kind == SEND) {
        draft_send(b, key);
        c->lent.neighbour = kept(b, GAUGE_KEY_LEN);
        c->lent.key = kept(key, GAUGE_KEY_LEN);
    }
    if (c->kind == NEIGHBOURS && percent(80))
        c->lent.key = kept(some_own(), GAUGE_KEY_LEN);
    if (c->kind == CLOSEST) {
        size_t len = draft_closest(b, key);
        c->lent.path = kept(b, len);
        c->lent.target = kept(key, GAUGE_KEY_LEN);
    }
    if (c->kind == SEARCH) {
        draft_search(key);
        c->lent.key = kept(key, GAUGE_KEY_LEN);
    }
    if (c->kind == CONVERT)
        age_call(c);
    if (c->kind == CHANGES)
        draw_pair(c);
    if (percent(c->kind == CONVERT ? 45 : c->kind == CHANGES ? 15 : 6))
        damage_call(c);
    c->lent.output.len = some_room(c);
}

/* A night's beginning: all zero, or memory in form that is full to some degree. */

static void begin_cache(size_t most)
{
    bool brim = most >= GREAT && percent(80);
    size_t wanted = brim || percent(50) ? most : under(most + 1);
    if (brim && all_alike() && percent(60)) /* one more is learned, and the count of its first byte passes 255 */
        wanted--;
    for (size_t tries = 0; tries < 4 * most && held() < wanted; tries++) {
        uint8_t record[GAUGE_RECORD_LEN];
        some_key(record);
        if (percent(30) || (brim && (tries > most || all_alike())))
            fill_key(record);
        some_rest(record);
        uint8_t *row = now.cache, *end = now.cache + now.cache_len;
        while (row < end && row[GAUGE_RECORD_COUNT] != 0 && memcmp(row, record, GAUGE_KEY_LEN) < 0)
            row += GAUGE_RECORD_LEN;
        if (is_own(record) || (row[GAUGE_RECORD_COUNT] != 0 && memcmp(row, record, GAUGE_KEY_LEN) == 0))
            continue;
        memmove(row + GAUGE_RECORD_LEN, row, GAUGE_RECORD_LEN * held() - (size_t)(row - now.cache));
        memcpy(row, record, GAUGE_RECORD_LEN);
    }
    count_firsts(now.cache, now.cache_len, now.firsts);
}

static void begin_waiting(void)
{
    size_t wanted = percent(50) ? GAUGE_PLACES : under(GAUGE_PLACES + 1);
    uint32_t id = percent(30) ? under(3) : under(1u << 28);
    bool lively = percent(30); /* no place has its last try behind it: a tick lists them all */
    for (size_t n = 0; n < wanted; n++) {
        uint8_t *p = now.waiting + GAUGE_PLACE_LEN * n, place[GAUGE_PLACE_LEN] = {0};
        bool inquiry = percent(60);
        some_key(place + 8);
        for (size_t i = 0; i < n; i++)
            if (now.waiting[GAUGE_PLACE_LEN * i + 4] == 2 && memcmp(now.waiting + GAUGE_PLACE_LEN * i + 8, place + 8, GAUGE_KEY_LEN) == 0)
                inquiry = false;
        if (is_own(place + 8))
            inquiry = false;
        for (int k = 0; k < 4; k++)
            place[k] = (uint8_t)(id >> 8 * k);
        place[4] = inquiry ? 2 : 1;
        place[5] = (uint8_t)(lively ? 1 + under(2) : under(3));
        if (inquiry) {
            memcpy(place + 40, place + 8, GAUGE_KEY_LEN);
            some_rest(place + 40);
        }
        memcpy(p, place, GAUGE_PLACE_LEN);
        id += 1 + (percent(40) ? 0 : under(1u << 27));
    }
}

/* One own record in half of the nights, and often as few records in the cache as their number allows. */
size_t begin_night(void)
{
    static const uint16_t sizes[] = {20, 31, 64};
    size_t ponds = percent(50) ? 1 : 2 + under(GAUGE_OWN_MOST - 1), least = GAUGE_CACHE_LEAST * ponds;
    size_t most = percent(25) ? GREAT + under(2) : percent(10) ? sizes[under(3)] : least + under(8);
    if (most < least)
        most = least;
    begin_memory(most);
    begin_gauge(ponds);
    if (most >= GREAT || percent(50))
        begin_cache(most);
    if (percent(60))
        begin_waiting();
    return 20 + under(most < GREAT ? NIGHT - 20 : all_alike() ? 160 : 60);
}
