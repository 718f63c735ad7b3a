/* The nine calls of include/gauge.h in plain C (bench/plain.c), under a name for each way in which they are compiled. The arguments are the same. */
#ifndef PLAIN_H
#define PLAIN_H

#include "gauge.h"

#define PLAIN_CALLS(name)                          \
    __typeof__(gauge_receive) name##_receive;       \
    __typeof__(gauge_send) name##_send;             \
    __typeof__(gauge_tick) name##_tick;             \
    __typeof__(gauge_neighbours) name##_neighbours; \
    __typeof__(gauge_closest) name##_closest;       \
    __typeof__(gauge_search) name##_search;         \
    __typeof__(gauge_convert) name##_convert;       \
    __typeof__(gauge_changes) name##_changes;       \
    __typeof__(gauge_look) name##_look

#endif
