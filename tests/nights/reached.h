/* What random nights reached: which numbers each message may get of a call, and a table of how often it got them. A message is told by its type, and
 * a FLOOD that reads well by what it carries. */
#ifndef REACHED_H
#define REACHED_H

#include "gauge.h"
#include "model.h"

enum { NONE, UNKNOWN, SOLICIT, ADVERTISE, REQUEST, FLOOD, ENTRY, REVOKE, INQUIRE, AUTHORITY, ACK, LOOKUP, MESSAGES };
extern const char *const messages[];

#define BIT(n) (1u << (n))
/* What any datagram of a known type may give. */
#define ALL (BIT(GAUGE_LENGTH) | BIT(GAUGE_HEADER) | BIT(GAUGE_MAJOR) | BIT(GAUGE_FIELD))
#define UNKNOWN_TYPE (BIT(GAUGE_LENGTH) | BIT(GAUGE_HEADER) | BIT(GAUGE_MAJOR) | BIT(GAUGE_TYPE))
extern const uint32_t received[MESSAGES]; /* a bit for each number that a receive may give for the message */

int message_of(const struct lent *l); /* of its datagram */

/* What is possible has to be reached LEAST times in a run as long as the gate's, and once in a shorter one. Less is marked '!' in the tables, and so
 * is what was reached and is not possible. */
#define LEAST 20
void set_least(unsigned long made, unsigned long by_gate);
bool too_seldom(unsigned long times);

/* How often each number was given, and all above them, which no call may give. */
struct times {
    unsigned long of[NUMBERS], above;
};
void count_number(struct times *t, uint64_t number);

/* The table's head, a row of it, and something else that must be reached. They give how much was marked. The head has the numbers that a receive may
 * give; what was given beside them is told at the end of its row. */
void show_numbers(const char *title);
int show_row(const char *kind, const char *message, const struct times *t, uint32_t possible);
int show_times(const char *name, unsigned long times, bool last);

#endif
