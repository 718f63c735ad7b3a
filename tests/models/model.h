/* The gauge once more, in plain C, from the documents alone: what tests/nights/compare.c holds the archive against. It shares no code and no constant
 * with anything else, include/gauge.h neither, but for the struct of all that is lent (tests/models/lent.h), of which a call uses what is its own. */
#ifndef MODEL_H
#define MODEL_H

#include "lent.h"

struct model_answer {
    uint32_t number, first, second;
};

/* Place and length of a field's contents in a datagram; 0 and 0 for one that is not there. */
struct span {
    uint32_t at, len;
};

struct model_look {
    uint32_t number, type, id, acked;
    struct span cpa, nonce, entry, target;
};

struct model_answer model_receive(const struct lent *l);
struct model_answer model_send(const struct lent *l);
struct model_answer model_tick(const struct lent *l);
struct model_answer model_neighbours(const struct lent *l);
struct model_answer model_closest(const struct lent *l);
struct model_answer model_search(const struct lent *l);
struct model_answer model_convert(const struct lent *l);
struct model_answer model_changes(const struct lent *l);
struct model_look model_look(const struct lent *l);

#endif
