/* What the model has of a datagram that was read (tests/models/model.c), for its own calls and for those of tests/models/model_readings.c. */
#ifndef MODEL_READ_H
#define MODEL_READ_H

#include "model.h"
#include <stdbool.h>

/* What a call wants to know of a message. A field that is there has a place, as none is at 0. Where `number` is not 0, all else is 0. */
struct message {
    uint32_t number, type, id, acked;
    bool d, n;
    struct span validate, cpa, nonce, entry, target, path; /* of a path the endpoints alone */
    unsigned flags; /* this and the next four: of an AUTHORITY's buffer */
    struct span chain, keytoken, classifier, payload;
};

struct message read_message(uint8_t major, struct bytes datagram);

#endif
