/* Readings carried (document 02, request 7) once more, in plain C, from the documents alone: what tests/nights/readings.c holds the archive
 * against. */
#ifndef MODEL_READINGS_H
#define MODEL_READINGS_H

#include "model.h"

struct model_carry {
    uint32_t number, length, reading;
};

struct model_reading {
    uint32_t number, reading, kind, measure, litres_in, litres_out;
};

struct model_carry model_carry(const struct lent *l); /* the AUTHORITY is the datagram */
struct model_reading model_carried(const struct lent *l);
int64_t model_balance(const struct lent *l);

#endif
