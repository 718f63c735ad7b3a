/* For a host of the gauge in C99 or C++: the calls of gauge.h over one struct, the messages that a host writes itself,
 * texts for numbers, and recipes. This file is all of it; link what gauge.h says. Nothing here allots memory or keeps
 * anything beside the struct, and whoever wants the plain calls uses those, also between these.
 *
 * A host owns the sockets, the clock, the memory and the verdicts. What it does all day, as functions to copy; they are
 * compiled by our tests. `radio_send` is your own, and `random_bytes`, and where you keep what was sent:
 *
 *     #include "gauge_host.h"
 *     #include <stdio.h>
 *     void radio_send(const uint8_t *address, const uint8_t *bytes, size_t len);
 *     void random_bytes(uint8_t *bytes, size_t len);
 *     void keep(uint32_t id, const uint8_t *address, const uint8_t *bytes, size_t len);
 *     void forget_all_but(const struct gauge_lent *l, uint32_t ids);
 *
 * Beginning. All memory is empty, and nobody is known. The CPA is yours to make: a real one is signed, and holds the
 * nonce of the INQUIRE that it answers. It is lent with its length before it.
 *
 *     static uint8_t cache[GAUGE_CACHE_LEN(64)], cpa[1], cpas[GAUGE_CPAS_LEN(sizeof cpa)];
 *     void begin(struct gauge_lent *l, const uint8_t *key, const uint8_t *address)
 *     {
 *         gauge_lent_begin(l, cache, sizeof cache, cpas, gauge_cpas_put(cpas, 0, cpa, sizeof cpa));
 *         gauge_lent_own(l, key, 5000, address, 1);
 *         random_bytes((uint8_t *)&l->id, sizeof l->id);
 *     }
 *
 * One gauge for two ponds, the keys rising and the CPAs in their order; the cache has ten records or more for each. Ask
 * for the list of each by its key (gauge_lent_neighbours). Whoever changes its ponds begins anew: cache, firsts and
 * waiting table are then empty.
 *
 *     static uint8_t both[2 * GAUGE_CPAS_LEN(sizeof cpa)];
 *     void begin_two(struct gauge_lent *l, const uint8_t *key, const uint8_t *above, const uint8_t *address)
 *     {
 *         size_t len = gauge_cpas_put(both, gauge_cpas_put(both, 0, cpa, sizeof cpa), cpa, sizeof cpa);
 *         gauge_lent_begin(l, cache, sizeof cache, both, len);
 *         gauge_lent_own(l, key, 5000, address, 1);
 *         gauge_lent_pond(l, above, 5000, address);
 *         random_bytes((uint8_t *)&l->id, sizeof l->id);
 *     }
 *
 * The first FLOOD, to a seed: a gauge of which only the address is known. It asks for no ACK, so nothing waits and
 * nothing is repeated by a tick: send it each second until somebody is held.
 *
 *     void call_seed(struct gauge_lent *l, const uint8_t *address)
 *     {
 *         uint8_t flood[GAUGE_SEND_LEN];
 *         radio_send(address, flood, gauge_first_flood(l, flood));
 *     }
 *
 * A datagram has come. The radio's buffer is copied first: a radio that fills it by itself (DMA) could change between
 * the look, on which the verdict rests, and the receive. Then look, judge, receive, send. `from` is where it came from.
 *
 *     void arrives(struct gauge_lent *l, const uint8_t *from, const uint8_t *buffer, size_t len)
 *     {
 *         uint8_t datagram[GAUGE_DATAGRAM_MOST], answer_to[GAUGE_ADDRESS_LEN], told_of[GAUGE_ADDRESS_LEN];
 *         if (len > sizeof datagram)
 *             return;
 *         memcpy(datagram, buffer, len);
 *         struct gauge_look_answer seen = gauge_lent_look(l, datagram, len);
 *         if (seen.number != GAUGE_OK)
 *             return;
 *         memcpy(answer_to, from, sizeof answer_to);
 *         memcpy(told_of, from, sizeof told_of);
 *         if (seen.entry_len > 0)
 *             memcpy(told_of, datagram + seen.entry_at + GAUGE_ENTRY_ADDRESSES, sizeof told_of);
 *         if (seen.cpa_len >= GAUGE_KEY_LEN)
 *             gauge_lent_verdict(l, GAUGE_GOOD, datagram + seen.cpa_at);
 *         random_bytes(l->nonce, sizeof l->nonce);
 *         struct gauge_answer a = gauge_lent_receive(l, datagram, len);
 *         if (a.number == GAUGE_MEMORY)
 *             printf("not in form: %s\n", gauge_part_text(gauge_lent_not_in_form(l)));
 *         for (size_t i = 0; i < 2; i++) {
 *             const uint8_t *bytes = i == 0 ? l->output : l->output + a.first;
 *             size_t n = i == 0 ? a.first : a.second;
 *             struct gauge_look_answer out = gauge_lent_look(l, bytes, n);
 *             if (out.kind == GAUGE_INQUIRE)
 *                 keep(out.id, told_of, bytes, n);
 *             if (n > 0)
 *                 radio_send(out.kind == GAUGE_INQUIRE ? told_of : answer_to, bytes, n);
 *         }
 *     }
 *
 * (The verdict there believes everybody, and takes the CPA's first bytes for the key: judge the CPA instead.)
 *
 * Each second: a tick, then FLOODs. What is listed is sent again, what was kept and is not listed is forgotten. When to
 * flood what to whom: each second, to one or two of the gauges held, our own record (of several each in its turn) or
 * one that is held with a key near to that gauge's; and at once to all gauges held when our own address has changed. So
 * each gauge hears of its neighbours, and nothing is sent to all. GAUGE_FULL is no fault: too much waits, and the next
 * second will do.
 *
 *     void each_second(struct gauge_lent *l, uint32_t which, uint32_t what)
 *     {
 *         struct gauge_answer t = gauge_lent_tick(l);
 *         if (t.number == GAUGE_OK)
 *             forget_all_but(l, t.first);
 *         uint32_t n = gauge_lent_held(l);
 *         if (n == 0)
 *             return;
 *         const uint8_t *to = gauge_lent_record(l, which % n);
 *         const uint8_t *record = what % n == which % n ? l->own : gauge_lent_record(l, what % n);
 *         uint32_t id = l->id;
 *         struct gauge_answer a = gauge_lent_send(l, to + GAUGE_RECORD_KEY, record + GAUGE_RECORD_KEY);
 *         if (a.number == GAUGE_OK) {
 *             keep(id, to + GAUGE_RECORD_ADDRESSES, l->output, a.first);
 *             radio_send(to + GAUGE_RECORD_ADDRESSES, l->output, a.first);
 *         }
 *     }
 *
 * Asking which gauge is closest to a key, with a LOOKUP; its answer is an AUTHORITY with a route entry, which
 * gauge_lent_look tells (gauge_receive gives GAUGE_STRAY for it, as nothing waits for it). Where that names another
 * gauge than the one that was asked, ask that one, and so on until one names itself: each time with the endpoints of
 * those that were asked already, so that nobody is named twice and the LOOKUP goes round no circle. Telling that a key
 * is revoked, with the CPA that says so, to all gauges held:
 *
 *     void ask(struct gauge_lent *l, const uint8_t *address, const uint8_t *target)
 *     {
 *         uint8_t lookup[GAUGE_LOOKUP_LEN];
 *         radio_send(address, lookup, gauge_lookup(l, target, lookup));
 *     }
 *     void ask_on(struct gauge_lent *l, const uint8_t *address, const uint8_t *target, const uint8_t *asked, size_t n)
 *     {
 *         uint8_t lookup[GAUGE_LOOKUP_MOST];
 *         radio_send(address, lookup, gauge_lookup_along(l, target, asked, n, lookup));
 *     }
 *     void revoke(struct gauge_lent *l, const uint8_t *revoke_cpa, size_t len)
 *     {
 *         uint8_t flood[GAUGE_DATAGRAM_MOST];
 *         size_t n = gauge_revocation(l, revoke_cpa, len, flood);
 *         for (uint32_t i = 0; n > 0 && i < gauge_lent_held(l); i++)
 *             radio_send(gauge_lent_record(l, i) + GAUGE_RECORD_ADDRESSES, flood, n);
 *     }
 *
 * Saving and restoring. The cache is worth it, the waiting table is not: who waits is gone. Nor are the firsts, which
 * are counted afresh. Begin as above with the same own keys, read the cache, and convert it: one that a version before
 * 1.3 saved, with up to four addresses in a record, is then in the form of today, and one that was so already stays as
 * it is. Where that is refused the file was damaged, and the cache begins empty. Then count, so that firsts and cache
 * belong together. What then holds is the statement Demand3From (docs/STATEMENTS.md,
 * crates/signed/specs/From.antt): from any cache in form and an empty waiting table, the neighbour list after any calls
 * is the one that the keys kept and those learned and removed since make, as if all had come in one night.
 *
 *     int save(const struct gauge_lent *l, FILE *f)
 *     {
 *         return fwrite(l->cache, 1, l->cache_len, f) == l->cache_len;
 *     }
 *     int restore(struct gauge_lent *l, FILE *f)
 *     {
 *         int whole = fread(l->cache, 1, l->cache_len, f) == l->cache_len;
 *         if (!whole || gauge_lent_convert(l).number != GAUGE_OK)
 *             memset(l->cache, 0, l->cache_len);
 *         gauge_firsts_count(l->cache, l->cache_len, l->firsts);
 *         return whole;
 *     }
 *
 * What changed overnight: the cache as it is, held against one that was saved before. bin/changes says the same of two
 * saved files in words.
 *
 *     void overnight(const struct gauge_lent *l, const uint8_t *saved)
 *     {
 *         static uint8_t list[GAUGE_CHANGES_LEN(64)];
 *         size_t n = l->cache_len;
 *         struct gauge_answer a = gauge_lent_changes(l, saved, n, l->cache, n, list, sizeof list);
 *         for (uint32_t i = 0; a.number == GAUGE_OK && i < a.first; i++)
 *             printf("%02x..: %s\n", gauge_change_record(list, i)[GAUGE_RECORD_KEY],
 *                    gauge_change_text(gauge_change_kind(list, i)));
 *     }
 *
 * An own record that was kept as 100 bytes by a version before 1.3 is cut to its first address by gauge_record_cut.
 * Take all gauges of a valley to 1.3 at once (gauge_convert). */
#ifndef GAUGE_HOST_H
#define GAUGE_HOST_H

#include "gauge.h"
#include <string.h>

#define GAUGE_LOOKUP_LEN 126      /* what gauge_lookup writes */
#define GAUGE_PATH_MOST 22        /* endpoints on a LOOKUP's path */
#define GAUGE_LOOKUP_MOST 564     /* the longest that gauge_lookup_along writes */
#define GAUGE_READING_MOST 16     /* a packed reading: 14 bytes for a fault, 16 for a depth */

/* All that is lent to the calls of one gauge. What has one length is in it, and the own records; the cache and the
 * CPAs, whose lengths are yours to choose, are yours too, and are in use as long as the struct is. */
struct gauge_lent {
    uint8_t own[GAUGE_OWN_MOST * GAUGE_RECORD_LEN];
    size_t own_len;                   /* GAUGE_RECORD_LEN for each own record */
    uint8_t firsts[GAUGE_FIRSTS_LEN]; /* of the keys in the cache; who puts another there counts afresh */
    uint8_t waiting[GAUGE_WAITING_LEN];
    uint8_t output[GAUGE_OUTPUT_LEN]; /* what the last call wrote */
    uint8_t nonce[GAUGE_NONCE_LEN];   /* random, and another before each receive: it goes into an INQUIRE */
    uint8_t key[GAUGE_KEY_LEN];       /* with the verdict: the key that the next datagram's CPA is good for, .. */
    uint8_t major, minor;             /* our versions: GAUGE_DRT_MAJOR and GAUGE_DRT_MINOR */
    uint32_t verdict;                 /* .. and GAUGE_GOOD. A receive clears both: each datagram has its own. */
    uint32_t id;                      /* the next message ID: a receive takes two, a send and a message here one */
    uint8_t *cache;
    size_t cache_len;
    const uint8_t *cpas;
    size_t cpas_len;
};

/* A CPA as it is lent, its length before it, put behind so many bytes of others, of which `cpas` has the room: 0 of
 * them, and GAUGE_CPAS_LEN(len) bytes, for one own record alone. Gives how many bytes there are now. */
static inline size_t gauge_cpas_put(uint8_t *cpas, size_t behind, const uint8_t *cpa, size_t len)
{
    cpas[behind] = GAUGE_TO(uint8_t, len & 255);
    cpas[behind + 1] = GAUGE_TO(uint8_t, len >> 8 & 255);
    memcpy(cpas + behind + 2, cpa, len);
    return behind + GAUGE_CPAS_LEN(len);
}

/* All empty, the cache and the firsts with it; versions and the first ID, 1. The own record is still to be set. */
static inline void gauge_lent_begin(struct gauge_lent *l, uint8_t *cache, size_t cache_len, const uint8_t *cpas,
                                    size_t cpas_len)
{
    memset(l, 0, sizeof *l);
    memset(cache, 0, cache_len);
    l->major = GAUGE_DRT_MAJOR;
    l->minor = GAUGE_DRT_MINOR;
    l->id = 1;
    l->cache = cache;
    l->cache_len = cache_len;
    l->cpas = cpas;
    l->cpas_len = cpas_len;
}

/* A record of 100 bytes: key, port, and an address of 16 bytes; without an address, where count is 0, it is none in
 * form. */
static inline void gauge_record_put(uint8_t *record, const uint8_t *key, uint16_t port, const uint8_t *address,
                                    uint8_t count)
{
    memset(record, 0, GAUGE_RECORD_LEN);
    memcpy(record + GAUGE_RECORD_KEY, key, GAUGE_KEY_LEN);
    record[GAUGE_RECORD_PORT] = GAUGE_TO(uint8_t, port >> 8);
    record[GAUGE_RECORD_PORT + 1] = GAUGE_TO(uint8_t, port & 255);
    record[GAUGE_RECORD_COUNT] = count;
    memcpy(record + GAUGE_RECORD_ADDRESSES, address, GAUGE_TO(size_t, count) * GAUGE_ADDRESS_LEN);
}

/* The own record: key, port, and an address of 16 bytes. More than one may be handed in, one behind the other, as
 * before 1.3: the first is kept; none, with count 0, is no record in form. Its key stays as long as the memory is in
 * use; port and address may be set again. It is then the only one. */
static inline void gauge_lent_own(struct gauge_lent *l, const uint8_t *key, uint16_t port, const uint8_t *addresses,
                                  uint8_t count)
{
    memset(l->own, 0, sizeof l->own);
    gauge_record_put(l->own, key, port, addresses, count > 1 ? 1 : count);
    l->own_len = GAUGE_RECORD_LEN;
}

/* One pond more: an own record behind those there are, whose keys are lower, as long as there are fewer than
 * GAUGE_OWN_MOST. Gives how many there are now. */
static inline size_t gauge_lent_pond(struct gauge_lent *l, const uint8_t *key, uint16_t port, const uint8_t *address)
{
    if (l->own_len + GAUGE_RECORD_LEN <= sizeof l->own) {
        gauge_record_put(l->own + l->own_len, key, port, address, 1);
        l->own_len += GAUGE_RECORD_LEN;
    }
    return l->own_len / GAUGE_RECORD_LEN;
}

/* A record of a version before 1.3 keeps the first of its addresses, as gauge_convert does it in cache and waiting
 * table: for an own record that was kept as it was. */
static inline void gauge_record_cut(uint8_t *record)
{
    size_t kept = GAUGE_RECORD_ADDRESSES + GAUGE_ADDRESS_LEN;
    record[GAUGE_RECORD_COUNT] = 1;
    memset(record + kept, 0, GAUGE_RECORD_LEN - kept);
}

/* Your verdict on the CPA of the next datagram, and the key that it is good for. Without it a receive has none. */
static inline void gauge_lent_verdict(struct gauge_lent *l, uint32_t verdict, const uint8_t *key)
{
    l->verdict = verdict;
    memcpy(l->key, key, GAUGE_KEY_LEN);
}

/* The calls: each is the call of gauge.h with the same name and what the struct has. What is written is in `output`.
 * Where `datagram` is lent it may not lie in the struct. */

static inline struct gauge_answer gauge_lent_receive(struct gauge_lent *l, const uint8_t *datagram,
                                                     size_t datagram_len)
{
    struct gauge_answer a =
        gauge_receive(l->own, l->own_len, l->cpas, l->cpas_len, l->cache, l->cache_len, l->firsts, sizeof l->firsts,
                      l->waiting, sizeof l->waiting, l->major, l->minor, l->id, l->nonce, sizeof l->nonce, l->verdict,
                      l->key, sizeof l->key, datagram, datagram_len, l->output, sizeof l->output);
    l->id += 2;
    l->verdict = 0;
    memset(l->key, 0, sizeof l->key);
    return a;
}

static inline struct gauge_answer gauge_lent_send(struct gauge_lent *l, const uint8_t *neighbour, const uint8_t *key)
{
    struct gauge_answer a =
        gauge_send(l->own, l->own_len, l->cache, l->cache_len, l->waiting, sizeof l->waiting, l->major, l->minor,
                   l->id, neighbour, GAUGE_KEY_LEN, key, GAUGE_KEY_LEN, l->output, sizeof l->output);
    l->id += 1;
    return a;
}

static inline struct gauge_answer gauge_lent_tick(struct gauge_lent *l)
{
    return gauge_tick(l->own, l->own_len, l->waiting, sizeof l->waiting, l->output, sizeof l->output);
}

/* The list of one of our keys; of the first, or the only one: l->own + GAUGE_RECORD_KEY. */
static inline struct gauge_answer gauge_lent_neighbours(struct gauge_lent *l, const uint8_t *key)
{
    return gauge_neighbours(l->own, l->own_len, l->cache, l->cache_len, key, GAUGE_KEY_LEN, l->output,
                            sizeof l->output);
}

/* Which record is closest to a target, past those on the path, of so many bytes; and that record, by `first`. */
static inline struct gauge_answer gauge_lent_closest(const struct gauge_lent *l, const uint8_t *path, size_t path_len,
                                                     const uint8_t *target)
{
    return gauge_closest(l->own, l->own_len, l->cache, l->cache_len, path, path_len, target, GAUGE_KEY_LEN);
}

static inline const uint8_t *gauge_lent_told(const struct gauge_lent *l, uint32_t first)
{
    return first < GAUGE_CLOSEST_HELD ? l->own + GAUGE_CACHE_LEN(first)
                                      : l->cache + GAUGE_CACHE_LEN(first - GAUGE_CLOSEST_HELD);
}

/* Whether a key is held, where, and how many keys are compared to find that. */
static inline struct gauge_answer gauge_lent_search(const struct gauge_lent *l, const uint8_t *key)
{
    return gauge_search(l->own, l->own_len, l->cache, l->cache_len, key, GAUGE_KEY_LEN);
}

static inline struct gauge_answer gauge_lent_convert(struct gauge_lent *l)
{
    return gauge_convert(l->own, l->own_len, l->cache, l->cache_len, l->waiting, sizeof l->waiting);
}

/* Two caches of the same own records, of which one may be the struct's; an output of yours. */
static inline struct gauge_answer gauge_lent_changes(const struct gauge_lent *l, const uint8_t *before,
                                                     size_t before_len, const uint8_t *after, size_t after_len,
                                                     uint8_t *output, size_t output_len)
{
    return gauge_changes(l->own, l->own_len, before, before_len, after, after_len, output, output_len);
}

static inline struct gauge_look_answer gauge_lent_look(const struct gauge_lent *l, const uint8_t *datagram,
                                                       size_t datagram_len)
{
    return gauge_look(l->major, datagram, datagram_len);
}

/* The AUTHORITY may stand in `output` of the struct; what carries the reading is written to an output of yours. */
static inline struct gauge_carry_answer gauge_lent_carry(const struct gauge_lent *l, const uint8_t *authority,
                                                         size_t authority_len, const struct gauge_reading *reading,
                                                         uint8_t *output, size_t output_len)
{
    return gauge_carry(l->major, authority, authority_len, reading->kind, reading->measure, reading->litres_in,
                       reading->litres_out, output, output_len);
}

static inline struct gauge_reading gauge_lent_carried(const struct gauge_lent *l, const uint8_t *datagram,
                                                      size_t datagram_len)
{
    return gauge_carried(l->major, datagram, datagram_len);
}

static inline int64_t gauge_lent_balance(const struct gauge_reading *reading)
{
    return gauge_balance(reading->litres_in, reading->litres_out);
}

/* Behind a tick: the i-th ID that it listed, i below `first`; and whether an ID is among those. */
static inline uint32_t gauge_tick_id(const uint8_t *output, size_t i)
{
    const uint8_t *at = output + 4 * i;
    return at[0] | GAUGE_TO(uint32_t, at[1]) << 8 | GAUGE_TO(uint32_t, at[2]) << 16 | GAUGE_TO(uint32_t, at[3]) << 24;
}

static inline int gauge_tick_lists(const uint8_t *output, uint32_t first, uint32_t id)
{
    for (size_t i = 0; i < first; i++)
        if (gauge_tick_id(output, i) == id)
            return 1;
    return 0;
}

/* Behind gauge_changes: the kind of the i-th entry that it listed, i below `first`; and its record, of which the key
 * alone is told where it is gone. */
static inline uint32_t gauge_change_kind(const uint8_t *output, size_t i)
{
    return output[GAUGE_CHANGE_LEN * i];
}

static inline const uint8_t *gauge_change_record(const uint8_t *output, size_t i)
{
    return output + GAUGE_CHANGE_LEN * i + 1;
}

/* The records held: the i-th (100 bytes, in the order of keys), how many, and which one a key has, which is as many as
 * there are where it is not held. A call may move them: look them up again behind each. */
static inline const uint8_t *gauge_lent_record(const struct gauge_lent *l, size_t i)
{
    return l->cache + GAUGE_RECORD_LEN * i;
}

static inline uint32_t gauge_lent_held(const struct gauge_lent *l)
{
    uint32_t n = 0;
    while (n < l->cache_len / GAUGE_RECORD_LEN && gauge_lent_record(l, n)[GAUGE_RECORD_COUNT] != 0)
        n++;
    return n;
}

static inline uint32_t gauge_lent_find(const struct gauge_lent *l, const uint8_t *key)
{
    uint32_t n = gauge_lent_held(l), i = 0;
    while (i < n && memcmp(gauge_lent_record(l, i) + GAUGE_RECORD_KEY, key, GAUGE_KEY_LEN) != 0)
        i++;
    return i;
}

/* The firsts: how many keys held begin with a byte, and all of them counted afresh of a cache in form, for one that was
 * saved without them, by a version before 1.7 too. */
static inline uint32_t gauge_firsts_at(const uint8_t *firsts, uint8_t first)
{
    return firsts[2 * first] + GAUGE_TO(uint32_t, firsts[2 * first + 1]) * 256;
}

static inline void gauge_firsts_count(const uint8_t *cache, size_t cache_len, uint8_t *firsts)
{
    memset(firsts, 0, GAUGE_FIRSTS_LEN);
    for (const uint8_t *r = cache; r < cache + cache_len && r[GAUGE_RECORD_COUNT] != 0; r += GAUGE_RECORD_LEN) {
        uint32_t count = gauge_firsts_at(firsts, r[GAUGE_RECORD_KEY]) + 1;
        firsts[2 * r[GAUGE_RECORD_KEY]] = GAUGE_TO(uint8_t, count & 255);
        firsts[2 * r[GAUGE_RECORD_KEY] + 1] = GAUGE_TO(uint8_t, count >> 8);
    }
}

/* What a number says, a few words without a full stop. */
static inline const char *gauge_number_text(uint32_t number)
{
    switch (number) {
    case GAUGE_OK: return "accepted";
    case GAUGE_MEMORY: return "what was lent is not in form";
    case GAUGE_LENGTH: return "datagram shorter than 12 or longer than 1232 bytes";
    case GAUGE_HEADER: return "no message of a gauge: it begins otherwise";
    case GAUGE_MAJOR: return "of another major version";
    case GAUGE_TYPE: return "of an unknown type";
    case GAUGE_FIELD: return "a field malformed, misplaced or missing, or bytes left over";
    case GAUGE_NOT_TAKEN: return "not taken: SOLICIT, ADVERTISE, REQUEST or an AUTHORITY in part";
    case GAUGE_STRAY: return "late or stray: nothing waits for it";
    case GAUGE_UNTRUSTED: return "not trusted: no CPA, or none that is good";
    case GAUGE_OTHER_KEY: return "not trusted: the CPA is good for another key";
    case GAUGE_OWN_KEY: return "it names a key of ours";
    case GAUGE_NOT_OURS: return "a key that is not ours, or not held";
    case GAUGE_ID_WAITING: return "the message ID is waiting already";
    case GAUGE_FULL: return "no place is free: 16 wait";
    case GAUGE_ROOM: return "the output has too little room";
    default: return "no number of this version";
    }
}

/* Whose a number of gauge_receive or gauge_look is: the sender's (drop the datagram and go on) or our own. */
static inline int gauge_number_is_senders(uint32_t number)
{
    return number >= GAUGE_LENGTH && number <= GAUGE_NOT_OURS;
}

static inline const char *gauge_kind_text(uint32_t kind)
{
    switch (kind) {
    case GAUGE_SOLICIT: return "SOLICIT";
    case GAUGE_ADVERTISE: return "ADVERTISE";
    case GAUGE_REQUEST: return "REQUEST";
    case GAUGE_FLOOD: return "FLOOD";
    case GAUGE_INQUIRE: return "INQUIRE";
    case GAUGE_AUTHORITY: return "AUTHORITY";
    case GAUGE_ACK: return "ACK";
    case GAUGE_LOOKUP: return "LOOKUP";
    default: return "no message";
    }
}

static inline const char *gauge_change_text(uint32_t kind)
{
    switch (kind) {
    case GAUGE_CHANGE_GONE: return "gone";
    case GAUGE_CHANGE_NEW: return "new";
    case GAUGE_CHANGE_OTHER: return "another port or address";
    default: return "no change";
    }
}

static inline const char *gauge_reading_text(uint32_t reading)
{
    switch (reading) {
    case GAUGE_READING_OK: return "taken";
    case GAUGE_READING_LENGTH: return "of wrong length";
    case GAUGE_READING_KIND: return "of an unknown kind";
    case GAUGE_READING_OUTSIDE: return "its depth is not from 0 to 20 metres";
    default: return "no number of this version";
    }
}

/* GAUGE_MEMORY: which of the lent things is not in form? Each but the CPAs is tried by a call that refuses it before
 * anything else and, as it is lent no output, or no datagram, changes nothing. The first that is not in form is told;
 * CPAs, cache and waiting table are held against the own records, so with own records that are not in form nothing is
 * said of them; and firsts against the cache. */
enum gauge_part {
    GAUGE_PART_NONE = 0,
    GAUGE_PART_OWN = 1,
    GAUGE_PART_CPA = 2,
    GAUGE_PART_CACHE = 3,
    GAUGE_PART_WAITING = 4,
    GAUGE_PART_FIRSTS = 5
};

/* Are these the CPAs of so many own records, and nothing behind them? */
static inline int gauge_cpas_in_form(const uint8_t *cpas, size_t cpas_len, size_t ponds)
{
    for (; ponds > 0 && cpas_len >= GAUGE_CPAS_LEN(GAUGE_CPA_LEAST); ponds--) {
        size_t len = cpas[0] + GAUGE_TO(size_t, cpas[1]) * 256;
        if (len < GAUGE_CPA_LEAST || len > GAUGE_CPA_MOST || GAUGE_CPAS_LEN(len) > cpas_len)
            return 0;
        cpas += GAUGE_CPAS_LEN(len);
        cpas_len -= GAUGE_CPAS_LEN(len);
    }
    return ponds == 0 && cpas_len == 0;
}

static inline enum gauge_part gauge_not_in_form(const uint8_t *own, size_t own_len, const uint8_t *cpas,
                                                size_t cpas_len, uint8_t *cache, size_t cache_len, uint8_t *firsts,
                                                size_t firsts_len, uint8_t *waiting, size_t waiting_len)
{
    uint8_t none[1] = {0}, zeros[GAUGE_KEY_LEN] = {0}, empty[GAUGE_WAITING_LEN];
    memset(empty, 0, sizeof empty);
    if (gauge_tick(own, own_len, empty, sizeof empty, none, 0).number == GAUGE_MEMORY)
        return GAUGE_PART_OWN;
    if (!gauge_cpas_in_form(cpas, cpas_len, own_len / GAUGE_RECORD_LEN))
        return GAUGE_PART_CPA;
    if (gauge_neighbours(own, own_len, cache, cache_len, own, GAUGE_KEY_LEN, none, 0).number == GAUGE_MEMORY)
        return GAUGE_PART_CACHE;
    if (gauge_tick(own, own_len, waiting, waiting_len, none, 0).number == GAUGE_MEMORY)
        return GAUGE_PART_WAITING;
    if (gauge_receive(own, own_len, cpas, cpas_len, cache, cache_len, firsts, firsts_len, waiting, waiting_len, 0, 0,
                      0, zeros, GAUGE_NONCE_LEN, 0, zeros, GAUGE_KEY_LEN, zeros, 0, none, 0).number == GAUGE_MEMORY)
        return GAUGE_PART_FIRSTS;
    return GAUGE_PART_NONE;
}

static inline enum gauge_part gauge_lent_not_in_form(struct gauge_lent *l)
{
    return gauge_not_in_form(l->own, l->own_len, l->cpas, l->cpas_len, l->cache, l->cache_len, l->firsts,
                             sizeof l->firsts, l->waiting, sizeof l->waiting);
}

static inline const char *gauge_part_text(uint32_t part)
{
    switch (part) {
    case GAUGE_PART_NONE: return "all is in form";
    case GAUGE_PART_OWN: return "the own records";
    case GAUGE_PART_CPA: return "the CPAs";
    case GAUGE_PART_CACHE: return "the cache";
    case GAUGE_PART_WAITING: return "the waiting table";
    case GAUGE_PART_FIRSTS: return "the firsts";
    default: return "no part";
    }
}

/* Messages that a host writes itself, as the gauge has no call for them. Each takes one message ID, asks for no ACK
 * and opens no place, and gives the length of what it wrote. A field is its number, its length with these four bytes,
 * and its contents (document 000, 2.2). */

struct gauge_writer {
    uint8_t *to;
    size_t len;
};

static inline void gauge_put(struct gauge_writer *w, const uint8_t *bytes, size_t len)
{
    memcpy(w->to + w->len, bytes, len);
    w->len += len;
}

static inline void gauge_put_number(struct gauge_writer *w, uint32_t number, size_t len)
{
    for (size_t i = len; i > 0; i--)
        w->to[w->len++] = GAUGE_TO(uint8_t, number >> (8 * (i - 1)) & 255);
}

static inline void gauge_put_zeros(struct gauge_writer *w, size_t len)
{
    memset(w->to + w->len, 0, len);
    w->len += len;
}

static inline void gauge_put_field(struct gauge_writer *w, uint32_t number, size_t contents)
{
    gauge_put_number(w, number, 2);
    gauge_put_number(w, GAUGE_TO(uint32_t, 4 + contents), 2);
}

static inline void gauge_put_padding(struct gauge_writer *w)
{
    while (w->len % 4 != 0)
        w->to[w->len++] = 0;
}

static inline struct gauge_writer gauge_put_header(struct gauge_lent *l, uint32_t kind, uint8_t *output)
{
    struct gauge_writer w;
    w.to = output;
    w.len = 0;
    gauge_put_number(&w, 0x0010000CU, 4);
    gauge_put_number(&w, 0x51, 1);
    gauge_put_number(&w, l->major, 1);
    gauge_put_number(&w, l->minor, 1);
    gauge_put_number(&w, kind, 1);
    gauge_put_number(&w, l->id, 4);
    l->id += 1;
    return w;
}

/* A FLOOD up to what it tells: controls with D, so that no ACK comes, and no key to validate. */
static inline struct gauge_writer gauge_put_flood(struct gauge_lent *l, uint8_t *output)
{
    struct gauge_writer w = gauge_put_header(l, GAUGE_FLOOD, output);
    gauge_put_field(&w, 0x0043, 3);
    gauge_put_number(&w, 0x0001, 2);
    gauge_put_zeros(&w, 2);
    gauge_put_field(&w, 0x0039, GAUGE_KEY_LEN);
    gauge_put_zeros(&w, GAUGE_KEY_LEN);
    return w;
}

/* Our own record as a route entry, with its one address: of several the first. */
static inline void gauge_put_entry(struct gauge_writer *w, const struct gauge_lent *l)
{
    gauge_put_field(w, 0x009A, GAUGE_ENTRY_ADDRESSES + GAUGE_ADDRESS_LEN);
    gauge_put(w, l->own + GAUGE_RECORD_KEY, GAUGE_KEY_LEN);
    gauge_put_number(w, l->major, 1);
    gauge_put_number(w, l->minor, 1);
    gauge_put(w, l->own + GAUGE_RECORD_PORT, 2);
    gauge_put_number(w, 0, 1);
    gauge_put_number(w, 1, 1);
    gauge_put(w, l->own + GAUGE_RECORD_ADDRESSES, GAUGE_ADDRESS_LEN);
    gauge_put_padding(w);
}

/* The first FLOOD of our own record, of several the first, to a gauge that is not held, for which gauge_send would give
 * GAUGE_NOT_OURS. The own record is in form; output: GAUGE_SEND_LEN bytes. */
static inline size_t gauge_first_flood(struct gauge_lent *l, uint8_t *output)
{
    struct gauge_writer w = gauge_put_flood(l, output);
    gauge_put_entry(&w, l);
    return w.len;
}

/* A FLOOD that revokes the key which this CPA is good for. Output: GAUGE_DATAGRAM_MOST bytes. 0, and nothing written,
 * for a CPA that no datagram has room for (over 1,172 bytes). */
static inline size_t gauge_revocation(struct gauge_lent *l, const uint8_t *revoke_cpa, size_t len, uint8_t *output)
{
    struct gauge_writer w;
    if (len > GAUGE_DATAGRAM_MOST - 60)
        return 0;
    w = gauge_put_flood(l, output);
    gauge_put_field(&w, 0x009C, len);
    gauge_put(&w, revoke_cpa, len);
    gauge_put_padding(&w);
    return w.len;
}

/* A LOOKUP up to its route entry: no flag, the target, and no key to validate. */
static inline struct gauge_writer gauge_put_lookup(struct gauge_lent *l, const uint8_t *target, uint8_t *output)
{
    struct gauge_writer w = gauge_put_header(l, GAUGE_LOOKUP, output);
    gauge_put_field(&w, 0x0045, 8);
    gauge_put_zeros(&w, 8);
    gauge_put_field(&w, 0x0038, GAUGE_KEY_LEN);
    gauge_put(&w, target, GAUGE_KEY_LEN);
    gauge_put_field(&w, 0x0039, GAUGE_KEY_LEN);
    gauge_put_zeros(&w, GAUGE_KEY_LEN);
    return w;
}

/* A path: our own endpoint, and behind it so many bytes of others. */
static inline void gauge_put_path(struct gauge_writer *w, const struct gauge_lent *l, const uint8_t *path, size_t len)
{
    size_t all = GAUGE_ENDPOINT_LEN + len;
    gauge_put_field(w, 0x009E, 8 + all);
    gauge_put_number(w, GAUGE_TO(uint32_t, all / GAUGE_ENDPOINT_LEN), 2);
    gauge_put_number(w, GAUGE_TO(uint32_t, 8 + all), 2);
    gauge_put_number(w, 0x009D, 2);
    gauge_put_number(w, GAUGE_ENDPOINT_LEN, 2);
    gauge_put(w, l->own + GAUGE_RECORD_PORT, 2);
    gauge_put(w, l->own + GAUGE_RECORD_ADDRESSES, GAUGE_ADDRESS_LEN);
    gauge_put(w, path, len);
}

/* A LOOKUP for the gauge closest to a target; the path has our own endpoint. Output: GAUGE_LOOKUP_LEN bytes. */
static inline size_t gauge_lookup(struct gauge_lent *l, const uint8_t *target, uint8_t *output)
{
    struct gauge_writer w = gauge_put_lookup(l, target, output);
    gauge_put_path(&w, l, target, 0);
    return w.len;
}

/* A LOOKUP that goes on to another gauge: behind our own endpoint the path has those of the gauges that were asked
 * already (gauge_endpoint), GAUGE_PATH_MOST - 1 of them at most; and our own record is its route entry, where it has an
 * address, so that whoever is asked can learn of us. Output: GAUGE_LOOKUP_MOST bytes. 0, and nothing written, for
 * endpoints that are not whole or too many: whoever is lost for so long begins anew. */
static inline size_t gauge_lookup_along(struct gauge_lent *l, const uint8_t *target, const uint8_t *path,
                                        size_t path_len, uint8_t *output)
{
    struct gauge_writer w;
    if (path_len % GAUGE_ENDPOINT_LEN != 0 || path_len > GAUGE_ENDPOINT_LEN * (GAUGE_PATH_MOST - 1))
        return 0;
    w = gauge_put_lookup(l, target, output);
    if (l->own[GAUGE_RECORD_COUNT] != 0)
        gauge_put_entry(&w, l);
    gauge_put_path(&w, l, path, path_len);
    return w.len;
}

/* The endpoint of a record, its port and its address, for a path: GAUGE_ENDPOINT_LEN bytes. */
static inline void gauge_endpoint(const uint8_t *record, uint8_t *endpoint)
{
    memcpy(endpoint, record + GAUGE_RECORD_PORT, 2);
    memcpy(endpoint + 2, record + GAUGE_RECORD_ADDRESSES, GAUGE_ADDRESS_LEN);
}

/* A reading as it is packed in an AUTHORITY, and in a file for the program `ponds` (docs/MEMORY.md): its bytes, least
 * significant first, into GAUGE_READING_MOST bytes; how many they are, or 0 for an unknown kind. */
static inline size_t gauge_reading_pack(const struct gauge_reading *reading, uint8_t *output)
{
    size_t measure = reading->kind == GAUGE_READING_DEPTH ? 4 : 2, at = 0;
    const uint32_t numbers[5] = {GAUGE_TO(uint32_t, 2 + measure + 8), reading->kind, reading->measure,
                                 reading->litres_in, reading->litres_out};
    const size_t lengths[5] = {2, 2, measure, 4, 4};
    if (reading->kind != GAUGE_READING_DEPTH && reading->kind != GAUGE_READING_FAULT)
        return 0;
    for (size_t i = 0; i < 5; i++)
        for (size_t j = 0; j < lengths[i]; j++)
            output[at++] = GAUGE_TO(uint8_t, numbers[i] >> (8 * j) & 255);
    return at;
}

#endif
