/* Functions that do nothing (bench/empty.c). */
#ifndef EMPTY_H
#define EMPTY_H

#include "gauge.h"

struct gauge_answer empty_answer(void);
struct gauge_look_answer empty_look(void);

#endif
