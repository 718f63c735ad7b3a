/* What is measured: for each kind of call the memory and the datagram that it is made with, and what it must answer by document 01. */
#ifndef SCENE_H
#define SCENE_H

#include "gauge.h"
#include "lent.h"

#define SCENE_MAJOR 6
#define SCENE_MINOR 101
#define SCENE_CPA 256  /* bytes of a CPA, our own or in an AUTHORITY */
#define SCENE_OWN 2    /* own records at most */
#define SCENE_PLACES 8 /* places that wait */
#define SCENE_POINTS 2 /* endpoints of a path */

struct scene {
    const char *name;
    enum call_kind call;
    struct lent lent; /* what it is made with: the bytes below, and all zero what is not among them */
    uint8_t own[SCENE_OWN * GAUGE_RECORD_LEN], cpas[SCENE_OWN * GAUGE_CPAS_LEN(SCENE_CPA)];
    uint8_t nonce[GAUGE_NONCE_LEN], key[GAUGE_KEY_LEN], neighbour[GAUGE_KEY_LEN];
    uint8_t cache[GAUGE_CACHE_LEN(GAUGE_CACHE_MOST)], firsts[GAUGE_FIRSTS_LEN], waiting[GAUGE_WAITING_LEN], datagram[GAUGE_DATAGRAM_MOST];
    uint8_t path[SCENE_POINTS * GAUGE_ENDPOINT_LEN], target[GAUGE_KEY_LEN];
    uint8_t before[GAUGE_CACHE_LEN(GAUGE_CACHE_MOST)], after[GAUGE_CACHE_LEN(GAUGE_CACHE_MOST)]; /* two saved caches */
    size_t own_len, cpas_len, cache_len, held, datagram_len, room;
    uint32_t id;
    struct gauge_answer wanted; /* of a look: the number and the kind */
};

extern const size_t scenes;

/* Scene number i with a cache of c records, the same in every run. */
void set_scene(struct scene *s, size_t i, size_t c);

#endif
