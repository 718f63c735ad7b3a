/* Why a record is named for a LOOKUP, once more in plain C from document 02's Wish 5: all candidates are sorted by how far from the target they are and
 * in which direction, and the reason is told by the first two. Reading and the form of memory are the model's (tests/models/model.c). */
#ifndef MODEL_NAMED_H
#define MODEL_NAMED_H

#include "model.h"

enum model_reason { ONLY, TARGET, TIED, NEAREST };

/* The number of a refusal, or 0 with the record that is named, the reason, and the record whose key goes with the last two, else NULL. */
struct model_named {
    uint32_t number;
    enum model_reason reason;
    const uint8_t *record, *other;
};

/* Own records, cache, major version and datagram are lent. */
struct model_named model_named(const struct lent *l);

/* What the program `why` writes of its standard input, as a text that ends with 0, in so many bytes at most. */
#define WHY_TEXT 256
void model_why(struct room input, char *text);

#endif
