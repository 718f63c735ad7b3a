/* Two ponds find each other: a short radio program that makes every call of the gauge by itself and looks at every answer. A shorter one,
 * with the struct of gauge_host.h, is first.c; of that header only the text of numbers, the first FLOOD and the tick's IDs are used here.
 *
 *     make two_ponds
 *
 * Pond 12 is new, and knows only where pond 40 is. Both gauges live in this one process, and the radio is a function call; it loses one datagram, so
 * that a tick has something to repeat. What a CPA is made of is no matter of the gauge. Here it is the key and the nonce of the INQUIRE, which
 * anybody could write: a real one is signed. */
#include "gauge_host.h"
#include <stdio.h>
#include <stdlib.h>
#include <string.h>

#define MAJOR GAUGE_DRT_MAJOR
#define MINOR GAUGE_DRT_MINOR
#define HELD 10 /* records in a cache */
#define CPA_LEN (GAUGE_KEY_LEN + GAUGE_NONCE_LEN)

/* All that one gauge is lent, and what its radio program keeps beside it. */
struct pond {
    unsigned name;
    struct pond *other; /* whom its radio reaches */
    uint8_t own[GAUGE_RECORD_LEN];
    uint8_t cache[GAUGE_CACHE_LEN(HELD)];
    uint8_t firsts[GAUGE_FIRSTS_LEN]; /* of the keys in the cache */
    uint8_t waiting[GAUGE_WAITING_LEN];
    uint8_t nonce[GAUGE_NONCE_LEN]; /* a real one is random, and another for each INQUIRE */
    uint32_t id;
    uint8_t sent[GAUGE_SEND_LEN]; /* the FLOOD that waits for its ACK. INQUIREs are kept alike; here each is answered at once. */
    uint32_t sent_len, sent_id;
};

/* A number that is our own fault ends the program. */
static void wrong(const struct pond *p, const char *call, uint32_t number)
{
    printf("pond %u: %s gave %u, %s\n", p->name, call, number, gauge_number_text(number));
    exit(1);
}

/* One that is the sender's is told, and the program goes on: what was sent is dropped, and nothing has changed. */
static void refused(const struct pond *p, const char *call, uint32_t number)
{
    if (!gauge_number_is_senders(number))
        wrong(p, call, number);
    printf("  pond %u drops a datagram: %u, %s\n", p->name, number, gauge_number_text(number));
}

/* Its key is its name; one address, FE80:: and its name; port 5000. */
static struct pond new_pond(unsigned name)
{
    struct pond p;
    memset(&p, 0, sizeof p); /* an empty cache and its firsts, and nothing waits */
    p.name = name;
    p.id = 1000 * name;
    p.own[GAUGE_RECORD_KEY + GAUGE_KEY_LEN - 1] = (uint8_t)name;
    p.own[GAUGE_RECORD_PORT] = 5000 >> 8;
    p.own[GAUGE_RECORD_PORT + 1] = 5000 & 255;
    p.own[GAUGE_RECORD_COUNT] = 1;
    p.own[GAUGE_RECORD_ADDRESSES] = 0xFE;
    p.own[GAUGE_RECORD_ADDRESSES + 1] = 0x80;
    p.own[GAUGE_RECORD_ADDRESSES + GAUGE_ADDRESS_LEN - 1] = (uint8_t)name;
    memset(p.nonce, (int)name, sizeof p.nonce);
    return p;
}

static const char *kind_name(uint32_t kind)
{
    switch (kind) {
    case GAUGE_FLOOD: return "a FLOOD";
    case GAUGE_INQUIRE: return "an INQUIRE";
    case GAUGE_AUTHORITY: return "an AUTHORITY";
    case GAUGE_ACK: return "an ACK";
    default: return "another message";
    }
}

/* What we have to say of the CPA in a datagram: it is good for the key in it, if it holds the nonce that we sent. */
static uint32_t judged(const struct pond *p, const struct gauge_look_answer *seen, const uint8_t *datagram, uint8_t *key)
{
    memset(key, 0, GAUGE_KEY_LEN);
    if (seen->cpa_len != CPA_LEN || memcmp(datagram + seen->cpa_at + GAUGE_KEY_LEN, p->nonce, GAUGE_NONCE_LEN) != 0)
        return 0;
    memcpy(key, datagram + seen->cpa_at, GAUGE_KEY_LEN);
    return GAUGE_GOOD;
}

/* A datagram has reached a pond. What its gauge writes in answer is sent at once. */
static void arrives(struct pond *p, const uint8_t *datagram, size_t len)
{
    uint8_t output[GAUGE_OUTPUT_LEN], cpas[GAUGE_CPAS_LEN(CPA_LEN)] = {CPA_LEN}, *cpa = cpas + 2, key[GAUGE_KEY_LEN];
    struct gauge_look_answer seen = gauge_look(MAJOR, datagram, len);
    if (seen.number != GAUGE_OK) {
        refused(p, "gauge_look", seen.number);
        return;
    }

    /* Our own CPA, behind its length, holds the nonce of the one who asks. */
    memcpy(cpa, p->own + GAUGE_RECORD_KEY, GAUGE_KEY_LEN);
    if (seen.kind == GAUGE_INQUIRE && seen.nonce_len == GAUGE_NONCE_LEN)
        memcpy(cpa + GAUGE_KEY_LEN, datagram + seen.nonce_at, GAUGE_NONCE_LEN);

    uint32_t verdict = judged(p, &seen, datagram, key);
    struct gauge_answer a = gauge_receive(p->own, sizeof p->own, cpas, sizeof cpas, p->cache, sizeof p->cache, p->firsts, sizeof p->firsts,
                                          p->waiting, sizeof p->waiting, MAJOR, MINOR, p->id, p->nonce, sizeof p->nonce, verdict, key, sizeof key,
                                          datagram, len, output, sizeof output);
    p->id += 2; /* a receive may use up two */
    if (a.number != GAUGE_OK) {
        refused(p, "gauge_receive", a.number);
        return;
    }
    if (seen.kind == GAUGE_ACK && seen.acked == p->sent_id)
        p->sent_len = 0;

    printf("  pond %u gets %s", p->name, kind_name(seen.kind));
    if (a.first > 0)
        printf(", sends %s", kind_name(gauge_look(MAJOR, output, a.first).kind));
    if (a.second > 0)
        printf(" and %s", kind_name(gauge_look(MAJOR, output + a.first, a.second).kind));
    printf("\n");
    if (a.first > 0)
        arrives(p->other, output, a.first);
    if (a.second > 0)
        arrives(p->other, output + a.first, a.second);
}

/* The first FLOOD to a gauge that is not held yet, which gauge_send would refuse: our own record, with D set, so that no ACK comes. */
static size_t first_flood(struct pond *p, uint8_t *out)
{
    struct gauge_lent l;
    uint8_t none[1] = {0};
    gauge_lent_begin(&l, none, sizeof none, none, sizeof none); /* no memory is needed for it */
    memcpy(l.own, p->own, sizeof p->own);
    l.id = p->id++;
    return gauge_first_flood(&l, out);
}

/* Our own record goes to a neighbour that we hold. The FLOOD is kept until its ACK comes. */
static void floods(struct pond *p, const uint8_t *neighbour)
{
    struct gauge_answer a = gauge_send(p->own, sizeof p->own, p->cache, sizeof p->cache, p->waiting, sizeof p->waiting, MAJOR, MINOR, p->id,
                                       neighbour, GAUGE_KEY_LEN, p->own + GAUGE_RECORD_KEY, GAUGE_KEY_LEN, p->sent, sizeof p->sent);
    if (a.number != GAUGE_OK)
        wrong(p, "gauge_send", a.number);
    p->sent_len = a.first;
    p->sent_id = p->id++;
}

/* A second passes. What is listed is sent again, and what was kept and is not listed is forgotten. */
static void second(struct pond *p)
{
    uint8_t ids[GAUGE_TICK_LEN];
    struct gauge_answer a = gauge_tick(p->own, sizeof p->own, p->waiting, sizeof p->waiting, ids, sizeof ids);
    if (a.number != GAUGE_OK)
        wrong(p, "gauge_tick", a.number);
    printf("a second passes: pond %u waits for %u\n", p->name, a.first);
    if (!gauge_tick_lists(ids, a.first, p->sent_id))
        p->sent_len = 0;
    if (p->sent_len > 0)
        arrives(p->other, p->sent, p->sent_len);
}

static void neighbours(struct pond *p)
{
    uint8_t keys[GAUGE_LIST_LEN];
    struct gauge_answer a = gauge_neighbours(p->own, sizeof p->own, p->cache, sizeof p->cache, p->own + GAUGE_RECORD_KEY, GAUGE_KEY_LEN, keys,
                                             sizeof keys);
    if (a.number != GAUGE_OK)
        wrong(p, "gauge_neighbours", a.number);
    printf("pond %u has %u below and %u above:", p->name, a.first, a.second);
    for (uint32_t i = 0; i < a.first + a.second; i++)
        printf(" pond %u", keys[GAUGE_KEY_LEN * i + GAUGE_KEY_LEN - 1]);
    printf("\n");
}

int main(void)
{
    struct pond twelve = new_pond(12), forty = new_pond(40);
    uint8_t first[GAUGE_SEND_LEN];
    twelve.other = &forty;
    forty.other = &twelve;

    printf("pond 12 floods its record, which somebody else's message and a damaged copy come before\n");
    size_t len = first_flood(&twelve, first);
    arrives(&forty, (const uint8_t *)"somebody else's", 15);
    arrives(&forty, first, len - 1);
    arrives(&forty, first, len);
    neighbours(&twelve);
    neighbours(&forty);

    printf("pond 40 floods its record to pond 12, and the radio loses it\n");
    floods(&forty, twelve.own + GAUGE_RECORD_KEY);
    second(&forty);
    second(&forty);
    neighbours(&twelve);
    neighbours(&forty);
    return 0;
}
