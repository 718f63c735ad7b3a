/* include/gauge_host.h: what each function over the struct does is what the plain call does with the same bytes, made beside it by tests/c/calling.h;
 * the rest is held to what its comment says. The messages are written out, for tests/c/host_messages.py to hold them to the model. */
#include "gauge_host.h"
#include "calling.h"
#include <stdio.h>

#define HELD 10

static unsigned tests, failed;

static void check(int holds, const char *what, unsigned line)
{
    tests++;
    if (!holds) {
        failed++;
        printf("host.c:%u: not so: %s\n", line, what);
    }
}
#define CHECK(c) check(c, #c, __LINE__)

/* A gauge twice: by the struct of the header, and by memory that the plain calls are lent. */
struct gauge {
    struct gauge_lent lent;
    uint8_t cache[GAUGE_CACHE_LEN(HELD)], cpa[GAUGE_KEY_LEN], cpas[GAUGE_CPAS_LEN(GAUGE_KEY_LEN)];
    uint8_t plain_cache[GAUGE_CACHE_LEN(HELD)], plain_firsts[GAUGE_FIRSTS_LEN], plain_waiting[GAUGE_WAITING_LEN], plain_output[GAUGE_OUTPUT_LEN];
};

static struct gauge gauges[3]; /* by number, from 1 */

static void begin(uint8_t number)
{
    struct gauge *g = &gauges[number];
    uint8_t address[GAUGE_ADDRESS_LEN] = {0xFE, 0x80};
    memset(g, 0xA5, sizeof *g); /* what was there before does not matter */
    memset(g->cpa, number, sizeof g->cpa);
    memset(g->plain_cache, 0, sizeof g->plain_cache);
    memset(g->plain_firsts, 0, sizeof g->plain_firsts);
    memset(g->plain_waiting, 0, sizeof g->plain_waiting);
    address[GAUGE_ADDRESS_LEN - 1] = number;
    gauge_lent_begin(&g->lent, g->cache, sizeof g->cache, g->cpas, gauge_cpas_put(g->cpas, 0, g->cpa, sizeof g->cpa));
    gauge_lent_own(&g->lent, g->cpa, 5000, address, 1);
    memcpy(g->plain_output, g->lent.output, sizeof g->plain_output);
}

/* What the plain calls are lent of it. */
static struct lent plain(struct gauge *g, const uint8_t *datagram, size_t len)
{
    struct lent l = {0};
    l.own = as_room(g->lent.own, GAUGE_RECORD_LEN);
    l.cpas = as_room(g->cpas, sizeof g->cpas);
    l.cache = as_room(g->plain_cache, sizeof g->plain_cache);
    l.firsts = as_room(g->plain_firsts, sizeof g->plain_firsts);
    l.waiting = as_room(g->plain_waiting, sizeof g->plain_waiting);
    l.nonce = as_room(g->lent.nonce, GAUGE_NONCE_LEN);
    l.key = as_room(g->lent.key, GAUGE_KEY_LEN);
    l.output = as_room(g->plain_output, sizeof g->plain_output);
    l.datagram = as_room((uint8_t *)(size_t)datagram, len);
    l.major = 6;
    l.minor = 101;
    l.id = g->lent.id;
    l.verdict = g->lent.verdict;
    return l;
}

static void same(const struct gauge *g, struct gauge_answer a, struct gauge_answer b)
{
    CHECK(a.number == b.number && a.first == b.first && a.second == b.second);
    CHECK(memcmp(g->cache, g->plain_cache, sizeof g->cache) == 0);
    CHECK(memcmp(g->lent.firsts, g->plain_firsts, sizeof g->plain_firsts) == 0);
    CHECK(memcmp(g->lent.waiting, g->plain_waiting, sizeof g->plain_waiting) == 0);
    CHECK(memcmp(g->lent.output, g->plain_output, sizeof g->plain_output) == 0);
}

static struct gauge_answer receive(struct gauge *g, const uint8_t *datagram, size_t len)
{
    struct lent l = plain(g, datagram, len);
    uint32_t id = g->lent.id;
    struct gauge_answer b = call_receive(gauge_receive, &l), a = gauge_lent_receive(&g->lent, datagram, len);
    same(g, a, b);
    CHECK(g->lent.id == id + 2 && g->lent.verdict == 0 && g->lent.key[0] == 0 && g->lent.key[GAUGE_KEY_LEN - 1] == 0);
    return a;
}

static struct gauge_answer send_record(struct gauge *g, const uint8_t *neighbour, const uint8_t *key)
{
    struct lent l = plain(g, key, 0);
    uint32_t id = g->lent.id;
    l.neighbour = as_room((uint8_t *)(size_t)neighbour, GAUGE_KEY_LEN);
    l.key = as_room((uint8_t *)(size_t)key, GAUGE_KEY_LEN);
    struct gauge_answer b = call_send(gauge_send, &l), a = gauge_lent_send(&g->lent, neighbour, key);
    same(g, a, b);
    CHECK(g->lent.id == id + 1);
    return a;
}

static struct gauge_answer tick(struct gauge *g)
{
    struct lent l = plain(g, g->cpa, 0);
    struct gauge_answer b = call_tick(gauge_tick, &l), a = gauge_lent_tick(&g->lent);
    same(g, a, b);
    return a;
}

static struct gauge_answer list(struct gauge *g)
{
    struct lent l = plain(g, g->cpa, 0);
    l.key = l.own;
    l.key.len = GAUGE_KEY_LEN;
    struct gauge_answer b = call_neighbours(gauge_neighbours, &l), a = gauge_lent_neighbours(&g->lent, g->lent.own);
    same(g, a, b);
    return a;
}

/* The closest record, and that it is the one told. */
static const uint8_t *closest(struct gauge *g, uint8_t *path, size_t path_len, uint8_t *target)
{
    struct lent l = plain(g, g->cpa, 0);
    l.path = as_room(path, path_len);
    l.target = as_room(target, GAUGE_KEY_LEN);
    struct gauge_answer b = call_closest(gauge_closest, &l), a = gauge_lent_closest(&g->lent, path, path_len, target);
    same(g, a, b);
    CHECK(a.number == GAUGE_OK && a.second == (gauge_lent_held(&g->lent) > 0)); /* one key at most is held */
    const uint8_t *told = gauge_lent_told(&g->lent, a.first);
    CHECK(told == (a.first == 0 ? g->lent.own : gauge_lent_record(&g->lent, a.first - GAUGE_CLOSEST_HELD)));
    return told;
}

static struct gauge_answer search(struct gauge *g, uint8_t *key)
{
    struct lent l = plain(g, g->cpa, 0);
    l.key = as_room(key, GAUGE_KEY_LEN);
    struct gauge_answer b = call_search(gauge_search, &l), a = gauge_lent_search(&g->lent, key);
    same(g, a, b);
    return a;
}

/* A datagram from one to the other, and every answer to it; an AUTHORITY goes on with a reading, and comes with it. */
static void delivered(uint8_t to, const uint8_t *bytes, size_t len)
{
    struct gauge *g = &gauges[to];
    struct gauge_reading r = {0, 0, GAUGE_READING_FAULT, 700 + to, 3, 4}, came;
    struct gauge_look_answer seen = gauge_lent_look(&g->lent, bytes, len), by_call = gauge_look(6, bytes, len);
    uint8_t sent[GAUGE_OUTPUT_LEN], carried[GAUGE_DATAGRAM_MOST];
    CHECK(memcmp(&seen, &by_call, sizeof seen) == 0);
    if (seen.cpa_len == GAUGE_KEY_LEN)
        gauge_lent_verdict(&g->lent, GAUGE_GOOD, bytes + seen.cpa_at);
    struct gauge_answer a = receive(g, bytes, len);
    CHECK(a.number == GAUGE_OK);
    memcpy(sent, g->lent.output, sizeof sent);
    for (int i = 0; i < 2; i++) {
        const uint8_t *next = i == 0 ? sent : sent + a.first;
        size_t n = i == 0 ? a.first : a.second;
        if (n > 0 && gauge_look(6, next, n).kind == GAUGE_AUTHORITY) {
            struct gauge_carry_answer c = gauge_lent_carry(&g->lent, next, n, &r, carried, sizeof carried);
            CHECK(c.number == GAUGE_OK && c.reading == GAUGE_READING_OK && c.length == n + GAUGE_CARRY_LEN);
            came = gauge_lent_carried(&g->lent, carried, c.length);
            CHECK(memcmp(&came, &r, sizeof r) == 0 && gauge_lent_balance(&came) == -1);
            delivered((uint8_t)(3 - to), carried, c.length);
        } else if (n > 0) {
            delivered((uint8_t)(3 - to), next, n);
        }
    }
}

static void find_each_other(void)
{
    uint8_t flood[GAUGE_SEND_LEN];
    struct gauge *one = &gauges[1], *two = &gauges[2];
    begin(1);
    begin(2);
    CHECK(one->lent.major == 6 && one->lent.minor == 101 && gauge_lent_held(&one->lent) == 0);
    delivered(2, flood, gauge_first_flood(&one->lent, flood));
    CHECK(gauge_firsts_at(two->lent.firsts, 1) == 1 && gauge_firsts_at(two->lent.firsts, 2) == 0 && gauge_firsts_at(one->lent.firsts, 1) == 0);
    CHECK(gauge_lent_held(&two->lent) == 1 && gauge_lent_find(&two->lent, one->cpa) == 0 && gauge_lent_find(&two->lent, two->cpa) == 1);
    CHECK(memcmp(gauge_lent_record(&two->lent, 0), one->lent.own, GAUGE_RECORD_LEN) == 0);
    uint32_t id = two->lent.id;
    struct gauge_answer a = send_record(two, one->cpa, two->cpa);
    memcpy(flood, two->lent.output, a.first);
    CHECK(tick(two).first == 1 && gauge_tick_id(two->lent.output, 0) == id);
    CHECK(gauge_tick_lists(two->lent.output, 1, id) && !gauge_tick_lists(two->lent.output, 1, id + 1) && !gauge_tick_lists(two->lent.output, 0, id));
    delivered(1, flood, a.first);
    CHECK(list(one).second == 1 && list(two).first == 1);
    CHECK(tick(two).first == 0);
    uint8_t path[GAUGE_ENDPOINT_LEN];
    gauge_endpoint(one->lent.own, path);
    CHECK(path[0] == 5000 >> 8 && path[1] == (5000 & 255) && path[2] == 0xFE && path[GAUGE_ENDPOINT_LEN - 1] == 1);
    CHECK(closest(two, path, 0, one->cpa) == gauge_lent_record(&two->lent, 0));
    CHECK(closest(two, path, sizeof path, one->cpa) == two->lent.own && closest(two, path, 0, two->cpa) == two->lent.own);
    CHECK(closest(one, path, sizeof path, one->cpa) == one->lent.own);
    CHECK(gauge_lent_closest(&two->lent, path, 17, one->cpa).number == GAUGE_MEMORY);
    a = search(two, one->cpa);
    CHECK(a.number == GAUGE_OK && a.first == 1 && a.second == 1);
    a = search(two, two->cpa);
    CHECK(a.number == GAUGE_OK && a.first == 0 && a.second == 1);
    a = send_record(two, two->cpa, two->cpa);
    CHECK(a.number == GAUGE_NOT_OURS);
    CHECK(receive(two, flood, 11).number == GAUGE_LENGTH);
    uint8_t revocation[GAUGE_DATAGRAM_MOST];
    delivered(2, revocation, gauge_revocation(&one->lent, one->cpa, sizeof one->cpa, revocation));
    CHECK(gauge_lent_held(&two->lent) == 0 && gauge_firsts_at(two->lent.firsts, 1) == 0 && gauge_firsts_at(one->lent.firsts, 2) == 1);
}

/* Each part out of form, by itself and with those behind it; nothing changes by asking. */
static void parts(void)
{
    struct gauge_lent *l = &gauges[1].lent;
    begin(1);
    CHECK(gauge_lent_not_in_form(l) == GAUGE_PART_NONE);
    l->firsts[GAUGE_FIRSTS_LEN - 1] = 1;
    CHECK(gauge_lent_not_in_form(l) == GAUGE_PART_FIRSTS && l->firsts[GAUGE_FIRSTS_LEN - 1] == 1);
    l->waiting[4] = 3;
    CHECK(gauge_lent_not_in_form(l) == GAUGE_PART_WAITING && l->waiting[4] == 3);
    gauges[1].cache[GAUGE_RECORD_COUNT] = 5;
    CHECK(gauge_lent_not_in_form(l) == GAUGE_PART_CACHE);
    l->cpas_len--;
    CHECK(gauge_lent_not_in_form(l) == GAUGE_PART_CPA);
    l->cpas_len = 0;
    CHECK(gauge_lent_not_in_form(l) == GAUGE_PART_CPA);
    l->own[GAUGE_RECORD_COUNT] = 0;
    CHECK(gauge_lent_not_in_form(l) == GAUGE_PART_OWN);
    CHECK(gauge_lent_receive(l, l->own, 0).number == GAUGE_MEMORY);
    uint8_t own[GAUGE_RECORD_LEN] = {0}, cpas[3] = {1}, cache[GAUGE_CACHE_LEN(HELD)] = {0}, firsts[GAUGE_FIRSTS_LEN] = {0};
    uint8_t waiting[GAUGE_WAITING_LEN] = {0};
    own[GAUGE_RECORD_COUNT] = 1;
    CHECK(gauge_not_in_form(own, sizeof own, cpas, 3, cache, sizeof cache, firsts, sizeof firsts, waiting, sizeof waiting) == GAUGE_PART_NONE);
    CHECK(gauge_not_in_form(own, 99, cpas, 3, cache, sizeof cache, firsts, sizeof firsts, waiting, sizeof waiting) == GAUGE_PART_OWN);
    CHECK(gauge_not_in_form(own, sizeof own, cpas, 2, cache, sizeof cache, firsts, sizeof firsts, waiting, sizeof waiting) == GAUGE_PART_CPA);
    CHECK(gauge_not_in_form(own, sizeof own, cpas, 3, cache, 900, firsts, sizeof firsts, waiting, sizeof waiting) == GAUGE_PART_CACHE);
    CHECK(gauge_not_in_form(own, sizeof own, cpas, 3, cache, sizeof cache, firsts, sizeof firsts, waiting, 2239) == GAUGE_PART_WAITING);
    CHECK(gauge_not_in_form(own, sizeof own, cpas, 3, cache, sizeof cache, firsts, 511, waiting, sizeof waiting) == GAUGE_PART_FIRSTS);
}

/* The firsts of a cache counted afresh, up to 256 keys with one first byte; and that the gauge takes them with it. */
static void counted(void)
{
    static uint8_t cache[GAUGE_CACHE_LEN(GAUGE_CACHE_MOST)], cpas[3] = {1};
    struct gauge_lent *l = &gauges[1].lent;
    uint8_t key[GAUGE_KEY_LEN] = {0}, address[GAUGE_ADDRESS_LEN] = {0xFE, 0x80};
    gauge_lent_begin(l, cache, sizeof cache, cpas, sizeof cpas);
    key[0] = 0x80;
    gauge_lent_own(l, key, 5000, address, 1);
    for (size_t held = 0; held <= GAUGE_CACHE_MOST; held++) {
        memset(l->firsts, 0xA5, sizeof l->firsts);
        gauge_firsts_count(cache, sizeof cache, l->firsts);
        CHECK(l->firsts[0] == (held & 255) && l->firsts[1] == held >> 8 && gauge_firsts_at(l->firsts, 0) == held);
        CHECK(gauge_firsts_at(l->firsts, 0x80) == 0 && gauge_firsts_at(l->firsts, 255) == 0 && gauge_lent_not_in_form(l) == GAUGE_PART_NONE);
        l->firsts[0] ^= 1;
        CHECK(gauge_lent_not_in_form(l) == GAUGE_PART_FIRSTS);
        key[0] = 0;
        key[GAUGE_KEY_LEN - 1] = (uint8_t)held;
        if (held < GAUGE_CACHE_MOST)
            gauge_record_put(cache + GAUGE_CACHE_LEN(held), key, 5000, address, 1);
    }
    cache[GAUGE_CACHE_LEN(GAUGE_CACHE_MOST - 1)] = 0xFF;
    gauge_firsts_count(cache, sizeof cache, l->firsts);
    CHECK(gauge_firsts_at(l->firsts, 0) == 255 && gauge_firsts_at(l->firsts, 255) == 1 && gauge_lent_not_in_form(l) == GAUGE_PART_NONE);
}

/* CPAs one behind the other, in form and out of it; the gauge takes those in form, and no other. */
static void several_cpas(void)
{
    static uint8_t cpas[4 * GAUGE_CPAS_LEN(GAUGE_CPA_MOST) + 1], cpa[GAUGE_CPA_MOST + 1];
    CHECK(gauge_cpas_put(cpas, 0, cpa, 1) == 3 && cpas[0] == 1 && cpas[1] == 0 && gauge_cpas_in_form(cpas, 3, 1));
    size_t len = 0;
    for (size_t ponds = 1; ponds <= 4; ponds++) {
        size_t before = len;
        len = gauge_cpas_put(cpas, len, cpa, GAUGE_CPA_MOST);
        CHECK(len == before + 1026 && cpas[before] == 0 && cpas[before + 1] == 4 && gauge_cpas_in_form(cpas, len, ponds));
        CHECK(!gauge_cpas_in_form(cpas, len + 1, ponds) && !gauge_cpas_in_form(cpas, len - 1, ponds));
        CHECK(!gauge_cpas_in_form(cpas, len, ponds - 1) && !gauge_cpas_in_form(cpas, len, ponds + 1));
    }
    CHECK(!gauge_cpas_in_form(cpas, gauge_cpas_put(cpas, 0, cpa, GAUGE_CPA_MOST + 1), 1));
    CHECK(!gauge_cpas_in_form(cpas, gauge_cpas_put(cpas, 0, cpa, 0), 1));
    CHECK(!gauge_cpas_in_form(cpas, gauge_cpas_put(cpas, gauge_cpas_put(cpas, 0, cpa, 5), cpa, 0), 2));
}

/* One gauge for several ponds: each has its CPA, its list and its place among the own records. */
static void ponds(void)
{
    static uint8_t cache[GAUGE_CACHE_LEN(GAUGE_OWN_MOST * HELD)], cpas[GAUGE_OWN_MOST * GAUGE_CPAS_LEN(2)];
    struct gauge_lent *l = &gauges[1].lent;
    uint8_t key[GAUGE_KEY_LEN] = {0}, address[GAUGE_ADDRESS_LEN] = {0xFE, 0x80}, cpa[2] = {0xC0, 0};
    size_t len = 0;
    for (cpa[1] = 1; cpa[1] <= GAUGE_OWN_MOST; cpa[1]++)
        len = gauge_cpas_put(cpas, len, cpa, sizeof cpa);
    gauge_lent_begin(l, cache, sizeof cache, cpas, 0);
    for (uint8_t n = 1; n <= GAUGE_OWN_MOST + 1; n++) {
        key[0] = (uint8_t)(32 * n);
        address[GAUGE_ADDRESS_LEN - 1] = n;
        if (n == 1)
            gauge_lent_own(l, key, 5000, address, 1);
        else
            CHECK(gauge_lent_pond(l, key, 5000, address) == (n <= GAUGE_OWN_MOST ? n : GAUGE_OWN_MOST));
        size_t there = n <= GAUGE_OWN_MOST ? n : GAUGE_OWN_MOST;
        l->cpas_len = there * GAUGE_CPAS_LEN(2);
        CHECK(l->own_len == there * GAUGE_RECORD_LEN && gauge_lent_not_in_form(l) == GAUGE_PART_NONE);
        l->cache_len = GAUGE_CACHE_LEN(HELD * there - 1);
        CHECK(gauge_lent_not_in_form(l) == GAUGE_PART_CACHE);
        l->cache_len = sizeof cache;
    }
    CHECK(len == sizeof cpas);
    key[0] = 65; /* held, above the second own key and below the third */
    gauge_record_put(cache, key, 5001, address, 1);
    CHECK(gauge_lent_neighbours(l, key).number == GAUGE_NOT_OURS);
    for (uint32_t i = 0; i < GAUGE_OWN_MOST; i++) {
        const uint8_t *ours = l->own + GAUGE_CACHE_LEN(i);
        struct gauge_answer a = gauge_lent_neighbours(l, ours);
        CHECK(a.number == GAUGE_OK && a.first == (i > 1) && a.second == (i <= 1) && l->output[0] == 65);
        a = gauge_lent_closest(l, key, 0, ours);
        CHECK(a.number == GAUGE_OK && a.first == i && gauge_lent_told(l, a.first) == ours);
        CHECK(gauge_lent_send(l, key, ours).number == GAUGE_OK && memcmp(l->output + 60, ours, GAUGE_KEY_LEN) == 0);
    }
    CHECK(gauge_lent_told(l, gauge_lent_closest(l, key, 0, key).first) == cache);
    gauge_lent_own(l, key, 5000, address, 1); /* an own key that is held */
    l->cpas_len = GAUGE_CPAS_LEN(2);
    CHECK(l->own_len == GAUGE_RECORD_LEN && gauge_lent_not_in_form(l) == GAUGE_PART_CACHE);
}

/* What changed between a saved cache and the present one, as the plain call tells it; each entry by the header. */
static void changed(void)
{
    static uint8_t saved[GAUGE_CACHE_LEN(HELD)], list[GAUGE_CHANGES_LEN(HELD)], plain_list[GAUGE_CHANGES_LEN(HELD)];
    struct gauge *g = &gauges[1];
    uint8_t key[GAUGE_KEY_LEN] = {0}, address[GAUGE_ADDRESS_LEN] = {0xFE, 0x80};
    begin(1);
    for (uint8_t i = 0; i < 3; i++) {
        key[0] = (uint8_t)(10 + i);
        gauge_record_put(saved + GAUGE_CACHE_LEN(i), key, 5000, address, 1);
        key[0]++;
        gauge_record_put(g->cache + GAUGE_CACHE_LEN(i), key, (uint16_t)(5000 + i % 2), address, 1);
    }
    struct lent l = plain(g, g->cpa, 0);
    l.before = as_room(saved, sizeof saved);
    l.after = as_room(g->cache, sizeof g->cache);
    l.output = as_room(plain_list, sizeof plain_list);
    struct gauge_answer b = call_changes(gauge_changes, &l);
    struct gauge_answer a = gauge_lent_changes(&g->lent, saved, sizeof saved, g->cache, sizeof g->cache, list, sizeof list);
    CHECK(a.number == GAUGE_OK && a.first == 3 && a.second == 3 * GAUGE_CHANGE_LEN);
    CHECK(b.number == a.number && b.first == a.first && b.second == a.second && memcmp(list, plain_list, sizeof list) == 0);
    const uint32_t kinds[] = {GAUGE_CHANGE_GONE, GAUGE_CHANGE_OTHER, GAUGE_CHANGE_NEW};
    const uint8_t keys[] = {10, 12, 13};
    for (size_t i = 0; i < 3; i++) {
        CHECK(gauge_change_kind(list, i) == kinds[i] && gauge_change_record(list, i)[GAUGE_RECORD_KEY] == keys[i]);
        CHECK(i == 0 || memcmp(gauge_change_record(list, i), g->cache + GAUGE_CACHE_LEN(i), GAUGE_RECORD_LEN) == 0);
    }
    CHECK(strcmp(gauge_change_text(1), "gone") == 0 && strcmp(gauge_change_text(2), "new") == 0);
    CHECK(strcmp(gauge_change_text(3), gauge_change_text(2)) != 0 && strcmp(gauge_change_text(0), gauge_change_text(4)) == 0);
    CHECK(gauge_lent_changes(&g->lent, saved, sizeof saved, g->cache, sizeof g->cache, list, 302).number == GAUGE_ROOM);
    CHECK(gauge_lent_changes(&g->lent, saved, sizeof saved - 100, g->cache, sizeof g->cache, list, sizeof list).number == GAUGE_MEMORY);
}

/* Memory of a version before 1.3: the own record is cut by the header, the rest by the call. An own record has the first of the addresses given. */
static void converted(void)
{
    struct gauge *g = &gauges[1];
    uint8_t addresses[4 * GAUGE_ADDRESS_LEN], one[GAUGE_RECORD_LEN], *r = g->cache;
    begin(1);
    for (size_t i = 0; i < sizeof addresses; i++)
        addresses[i] = (uint8_t)(i + 1);
    for (uint8_t count = 1; count <= 5; count++) {
        gauge_lent_own(&g->lent, g->cpa, 5000, addresses, count);
        CHECK(gauge_lent_not_in_form(&g->lent) == GAUGE_PART_NONE && g->lent.own[GAUGE_RECORD_COUNT] == 1);
        CHECK(memcmp(g->lent.own + GAUGE_RECORD_ADDRESSES, addresses, GAUGE_ADDRESS_LEN) == 0);
    }
    memcpy(one, g->lent.own, sizeof one);
    memcpy(r, one, sizeof one);
    r[0] = 9; /* another key */
    gauge_firsts_count(g->cache, sizeof g->cache, g->lent.firsts);
    gauge_firsts_count(g->cache, sizeof g->cache, g->plain_firsts);
    r[GAUGE_RECORD_COUNT] = g->lent.own[GAUGE_RECORD_COUNT] = 4;
    memcpy(r + GAUGE_RECORD_ADDRESSES, addresses, sizeof addresses);
    memcpy(g->lent.own + GAUGE_RECORD_ADDRESSES, addresses, sizeof addresses);
    memcpy(g->plain_cache, g->cache, sizeof g->cache);
    CHECK(gauge_lent_not_in_form(&g->lent) == GAUGE_PART_OWN);
    struct lent l = plain(g, g->cpa, 0);
    struct gauge_answer b = call_convert(gauge_convert, &l), a = gauge_lent_convert(&g->lent);
    same(g, a, b);
    CHECK(a.number == GAUGE_OK && gauge_lent_not_in_form(&g->lent) == GAUGE_PART_OWN);
    gauge_record_cut(g->lent.own);
    CHECK(memcmp(g->lent.own, one, sizeof one) == 0 && gauge_lent_not_in_form(&g->lent) == GAUGE_PART_NONE);
    one[0] = 9;
    CHECK(memcmp(r, one, sizeof one) == 0 && gauge_lent_held(&g->lent) == 1);
    r[GAUGE_RECORD_COUNT] = 5;
    CHECK(gauge_lent_convert(&g->lent).number == GAUGE_MEMORY && r[GAUGE_RECORD_COUNT] == 5);
}

/* A text for each number, no two the same; another for what is none. Which are the sender's: gauge.h says it of 2 to 12. */
static void texts(void)
{
    for (uint32_t n = 0; n <= 17; n++)
        for (uint32_t m = 0; m < n; m++)
            CHECK((strcmp(gauge_number_text(n), gauge_number_text(m)) == 0) == (n == 17 && m == 16));
    for (uint32_t n = 0; n <= 16; n++)
        CHECK(gauge_number_is_senders(n) == (n >= 2 && n <= 12));
    CHECK(strcmp(gauge_kind_text(GAUGE_FLOOD), "FLOOD") == 0 && strcmp(gauge_kind_text(GAUGE_LOOKUP), "LOOKUP") == 0);
    CHECK(strcmp(gauge_kind_text(5), gauge_kind_text(0)) == 0 && strcmp(gauge_kind_text(GAUGE_ACK), gauge_kind_text(0)) != 0);
    CHECK(strcmp(gauge_reading_text(3), gauge_reading_text(4)) != 0 && strcmp(gauge_reading_text(1), gauge_reading_text(2)) != 0);
    CHECK(strcmp(gauge_part_text(GAUGE_PART_CACHE), "the cache") == 0 && strcmp(gauge_part_text(GAUGE_PART_WAITING), "the waiting table") == 0);
    CHECK(strcmp(GAUGE_VERSION, "1.8") == 0 && GAUGE_VERSION_NUMBER == 108);
}

static void hex(const uint8_t *bytes, size_t len)
{
    for (size_t i = 0; i < len; i++)
        printf("%02x", bytes[i]);
}

/* The messages and the packed readings, a line each: what it is, of what, and its bytes. */
static void told(const char *what, const struct gauge_lent *l, uint32_t id, const uint8_t *of, size_t of_len, const uint8_t *bytes, size_t len)
{
    printf("message %s %lu ", what, (unsigned long)id);
    hex(l->own, l->own_len);
    printf(" ");
    hex(of, of_len);
    printf("- ");
    hex(bytes, len);
    printf("\n");
}

static void messages(void)
{
    struct gauge_lent *l = &gauges[1].lent;
    uint8_t bytes[GAUGE_DATAGRAM_MOST + 1], target[1200], addresses[4 * GAUGE_ADDRESS_LEN];
    begin(1);
    for (size_t i = 0; i < sizeof target; i++)
        target[i] = (uint8_t)(i * 7 + 1);
    for (size_t i = 0; i < sizeof addresses; i++)
        addresses[i] = (uint8_t)(i + 64);
    bytes[GAUGE_DATAGRAM_MOST] = 0x5A;
    for (uint8_t count = 1; count <= 4; count++) {
        l->id = 0xFFFFFFFD + count;
        gauge_lent_own(l, target, 0x1234, addresses, count);
        uint32_t id = l->id;
        told("first_flood", l, id, target, 0, bytes, gauge_first_flood(l, bytes));
        CHECK(l->id == id + 1);
        id = l->id;
        told("lookup", l, id, target, GAUGE_KEY_LEN, bytes, gauge_lookup(l, target, bytes));
    }
    /* of a LOOKUP that goes on: the target, and the endpoints of those that were asked */
    const size_t asked[] = {0, 1, 2, 21};
    for (uint8_t count = 0; count <= 4; count++)
        for (size_t i = 0; i < 4; i++) {
            size_t len = GAUGE_ENDPOINT_LEN * asked[i];
            gauge_lent_own(l, target, 0x1234, addresses, count);
            uint32_t id = l->id;
            told("lookup_along", l, id, target, GAUGE_KEY_LEN + len, bytes, gauge_lookup_along(l, target, target + GAUGE_KEY_LEN, len, bytes));
            CHECK(l->id == id + 1);
        }
    CHECK(gauge_lookup_along(l, target, target, 17, bytes) == 0 && gauge_lookup_along(l, target, target, 22 * GAUGE_ENDPOINT_LEN, bytes) == 0);
    CHECK(gauge_lookup_along(l, target, target, 21 * GAUGE_ENDPOINT_LEN, bytes) == GAUGE_LOOKUP_MOST);
    const size_t lengths[] = {0, 1, 2, 3, 4, 32, 1171, 1172};
    for (size_t i = 0; i < sizeof lengths / sizeof *lengths; i++) {
        uint32_t id = l->id;
        told("revocation", l, id, target, lengths[i], bytes, gauge_revocation(l, target, lengths[i], bytes));
    }
    CHECK(gauge_revocation(l, target, 1173, bytes) == 0 && bytes[GAUGE_DATAGRAM_MOST] == 0x5A);
    const struct gauge_reading readings[] = {{0, 0, 1, 0x3FA00000, 3, 4}, {0, 0, 2, 65535, 0xFFFFFFFF, 0x01020304}, {0, 0, 3, 1, 2, 3}};
    for (size_t i = 0; i < 3; i++) {
        const struct gauge_reading *r = &readings[i];
        printf("reading %lu %lu %lu %lu ", (unsigned long)r->kind, (unsigned long)r->measure, (unsigned long)r->litres_in,
               (unsigned long)r->litres_out);
        hex(bytes, gauge_reading_pack(r, bytes));
        printf("-\n");
    }
}

int main(void)
{
    find_each_other();
    parts();
    counted();
    changed();
    several_cpas();
    ponds();
    converted();
    texts();
    messages();
    printf("%u things hold, %u do not\n", tests - failed, failed);
    return failed > 0;
}
