/* The calls of a random night (tests/nights/compare.c): what is handed to a call, how calls are drawn, and what was reached by them. */
#ifndef COMPARE_H
#define COMPARE_H

#include "draft.h"

#define KINDS (LOOK + 1) /* those after it have their nights in tests/nights/readings.c */

/* What was spoiled for a call, of which nothing else may be wrong: of several own records their order, their number so that C is below ten times it,
 * or the CPAs; of the firsts one number, two of them so that their sum is right, or their length. */
enum hurt { UNHURT, HURT_ORDER, HURT_NUMBER, HURT_CPAS, HURT_COUNT, HURT_SUM, HURT_FIRSTS, HURTS };

struct call {
    enum call_kind kind;
    enum hurt hurt;
    uint8_t filled;
    bool front; /* slices begin where a page that may not be touched ends; otherwise they end where one begins */
    bool sound; /* nothing that is tested for form was damaged */
    bool aged;  /* what it is lent may be of the time before request 13 */
    enum { BOTH_WELL, BEFORE_HURT, AFTER_HURT, UNLIKE } pair; /* of two caches: what was spoiled of them, or that they are of unequal length */
    struct lent lent; /* memory without a place means: the present one */
};

/* compare.c: bytes that are kept until the night ends; and how many bytes of output a receive or a send needs, by a try of the model. */
struct room kept(const uint8_t *bytes, size_t len);
size_t needed(struct call *c);

/* compare_calls.c: a night's beginning, in `now`, and how many calls it has at most; and the next call. */
#define NIGHT 400
size_t begin_night(void);
void make_call(struct call *c);

/* compare_done.c: counts a call's numbers and, where it was accepted, what it did: by what it wrote, and by `now` and the memory before it. */
void count_call(const struct call *c, const uint32_t *answer, const uint8_t *output, const struct memory *before);
int show_reached(void); /* the tables; gives how much is marked in them */

#endif
