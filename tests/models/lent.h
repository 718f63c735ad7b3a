/* All that is lent to a call, in one struct: the models take it whole, and tests/c/calling.c takes it apart for the archive. A request that lends one
 * slice more adds a line to the list below. Nothing here is from include/gauge.h, as the models share nothing with it. */
#ifndef LENT_H
#define LENT_H

#include <stdbool.h>
#include <stddef.h>
#include <stdint.h>

enum call_kind { RECEIVE, SEND, TICK, NEIGHBOURS, CLOSEST, SEARCH, CONVERT, CHANGES, LOOK, CARRY, CARRIED, BALANCE, CALLS };
extern const char *const call_names[CALLS];

/* A number that a call gives is below this. Document 01 has 0 to 15, document 02 16 and 17 for a trace and 18 to 25 for its later requests. */
#define NUMBERS 26

/* What a slice is lent for: to be read; as memory that a host keeps from call to call; as the output. All but the first may be written. */
enum use { TO_READ, TO_KEEP, TO_FILL };

/* The slices: the name, its use, how many bytes it has where nothing else is said (by document 01; so many zeros are in form, but for an own record
 * and the CPAs), and the calls that are lent it. Memory that a host keeps stands in a list of its own, of which tests/nights/draft.h makes a night's memory too. */
#define IN(call) (1u << (call))
#define LENT_MEMORIES(slice) \
    slice(cache, TO_KEEP, 1000, IN(RECEIVE) | IN(SEND) | IN(NEIGHBOURS) | IN(CLOSEST) | IN(SEARCH) | IN(CONVERT)) \
    slice(firsts, TO_KEEP, 512, IN(RECEIVE)) \
    slice(waiting, TO_KEEP, 2240, IN(RECEIVE) | IN(SEND) | IN(TICK) | IN(CONVERT))
#define LENT_SLICES(slice) \
    slice(own, TO_READ, 100, IN(RECEIVE) | IN(SEND) | IN(TICK) | IN(NEIGHBOURS) | IN(CLOSEST) | IN(SEARCH) | IN(CONVERT) | IN(CHANGES)) \
    slice(cpas, TO_READ, 3, IN(RECEIVE)) \
    LENT_MEMORIES(slice) \
    slice(nonce, TO_READ, 16, IN(RECEIVE)) \
    slice(neighbour, TO_READ, 32, IN(SEND)) \
    slice(key, TO_READ, 32, IN(RECEIVE) | IN(SEND) | IN(NEIGHBOURS) | IN(SEARCH)) \
    slice(path, TO_READ, 0, IN(CLOSEST)) \
    slice(target, TO_READ, 32, IN(CLOSEST)) \
    slice(before, TO_READ, 1000, IN(CHANGES)) \
    slice(after, TO_READ, 1000, IN(CHANGES)) \
    slice(datagram, TO_READ, 0, IN(RECEIVE) | IN(LOOK) | IN(CARRY) | IN(CARRIED)) \
    slice(output, TO_FILL, 2464, IN(RECEIVE) | IN(SEND) | IN(TICK) | IN(NEIGHBOURS) | IN(CHANGES) | IN(CARRY))

/* Lent for reading; lent for writing too. In the struct all are of the second kind, so that a test can lay them out and go over them. */
struct bytes {
    const uint8_t *at;
    size_t len;
};
struct room {
    uint8_t *at;
    size_t len;
};

#define LENT_MEMBER(name, use, usual, calls) struct room name;
struct lent {
    LENT_SLICES(LENT_MEMBER)
    uint8_t major, minor;
    uint32_t id, verdict;
    uint32_t kind, measure, litres_in, litres_out; /* of a reading */
};

/* The slices by number, for what is done with each of them. */
#define LENT_NUMBER(name, use, usual, calls) LENT_##name,
enum { LENT_SLICES(LENT_NUMBER) SLICES };
struct slice {
    const char *name;
    size_t at; /* its place in the struct */
    enum use use;
    size_t usual; /* its length */
    unsigned calls;
};
extern const struct slice slices[SLICES];

struct room *slice_in(struct lent *l, int i);
bool is_lent(int i, enum call_kind call);

struct bytes read_only(struct room r);
struct room as_room(uint8_t *at, size_t len);

#endif
