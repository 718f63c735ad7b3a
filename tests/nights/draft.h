/* Messages of a random night, drafted by chance so that they lean on what the gauge has in memory: IDs that wait, keys held, our own keys. Used by
 * tests/nights/compare.c, tests/nights/nights.c and tests/nights/readings.c. The same seed gives the same nights on every machine. */
#ifndef DRAFT_H
#define DRAFT_H

#include "gauge.h"
#include "lent.h"

#define MEMORY_ROOM (8u * 4096u)
#define OUTPUT_ROOM (14u * 4096u) /* for the longest list of changes */

/* Each draw is a statement of its own, or stands behind ?, && or ||: where C leaves an order open, compilers take different ones. */
extern uint64_t chance_state; /* set to the seed */
uint64_t chance(void);
uint32_t under(size_t n);  /* 0 to n - 1 */
bool percent(unsigned n); /* true n times of 100 */
uint8_t any(void);
void fill(uint8_t *p, size_t n);
void fill_key(uint8_t *key); /* any key; in some nights with one of few first bytes, so that many of them begin alike */
void set_byte(uint8_t *p, size_t n); /* one of n bytes, to any */
void flip_bit(uint8_t *p, size_t n); /* one bit of n bytes */

/* The night's gauge. Whoever makes the calls keeps `now` as the last one left it. */
#define MEMORY(name, use, usual, calls) \
    uint8_t name[MEMORY_ROOM];          \
    size_t name##_len;
struct memory {
    LENT_MEMORIES(MEMORY)
};
#undef MEMORY
extern struct memory now;
extern uint8_t own[GAUGE_OWN_MOST * GAUGE_RECORD_LEN];
extern size_t own_len; /* of so many bytes: GAUGE_RECORD_LEN for each own record */
extern uint8_t own_major, own_minor;
extern unsigned ticks, answers; /* how often in this night, of 100 */

void begin_gauge(size_t ponds);    /* all but `now`, anew, with so many own records */
void begin_memory(size_t records); /* `now`, all zero, with a cache of so many records */
bool all_alike(void);              /* do the keys of this night that are drawn anywhere begin with one byte? */

/* The counts of a cache, in form or not, by first byte, into GAUGE_FIRSTS_LEN bytes. */
void count_firsts(const uint8_t *cache, size_t cache_len, uint8_t *firsts);

const uint8_t *some_own(void);        /* one of the own records */
bool is_own(const uint8_t *key);
size_t some_cpas(uint8_t *cpas);      /* CPAs in form, of any length; gives how many bytes, CPAS_MOST at most */
#define CPAS_MOST (GAUGE_OWN_MOST * GAUGE_CPAS_LEN(GAUGE_CPA_MOST))

/* What is lent, as far as the gauge has it by itself: the own records, CPAs of one zero byte, the versions, and all zero what else is to be read.
 * Memory that has no place yet is then that of `m`; and what was lent, where it has a place, is kept there. */
struct lent lend_gauge(void);
void lend_memory(struct lent *l, struct memory *m);
void keep_memory(struct memory *m, const struct lent *l);
void copy_memory(struct memory *to, struct memory *from);

size_t held(void);      /* records in the cache */
size_t waits(void);     /* places in use */

void some_key(uint8_t *key);
void some_rest(uint8_t *record); /* all but the key, with one address */
void more_addresses(uint8_t *record); /* one to four of them, the first as it is: what a route entry has, and a record had before request 13 */
uint32_t some_id(void);

/* A datagram; where its fields begin is remembered for damage. */
struct draft {
    uint8_t b[2048];
    size_t n, marks[64], marked;
};
extern struct draft draft;

void draft_message(uint8_t *key);  /* and the key that the host names with its verdict */
void draft_news(uint8_t *key);     /* a FLOOD of some gauge's record, and its key */
void draft_learning(uint8_t *key); /* an AUTHORITY for an inquiry that waits; where none does, such a FLOOD */
void draft_inquire_of(size_t n);   /* an INQUIRE for our key, n bytes long, good but for that; n from 60 to 2048 */
void draft_send(uint8_t *neighbour, uint8_t *key);

/* What gauge_closest is handed: a target, and the bytes of a path of up to PATH_POINTS endpoints, which lean on the records held near to it. */
#define PATH_POINTS 30
size_t draft_closest(uint8_t *path, uint8_t *target); /* gives the path's length */

/* A key to search for: held, in a gap beside one that is, our own or any. */
void draft_search(uint8_t *key);

/* An AUTHORITY with this payload, or none where it is NULL, and its other fields by chance. It is `whole` bytes long where its CPA can make it so,
 * and of any length where `whole` is 0. */
void draft_authority_with(const uint8_t *payload, size_t len, size_t whole);
void damage_draft(void); /* in one place */
void damage_head(void);  /* so that it gives 2, 3 or 4, which damage anywhere seldom does */

#endif
