/* What was reached (tests/nights/reached.h). */
#include "reached.h"
#include <stdio.h>

const char *const messages[] = {"cut before type", "unknown type", "SOLICIT", "ADVERTISE", "REQUEST", "FLOOD unread", "FLOOD entry",
                                "FLOOD revoke", "INQUIRE", "AUTHORITY", "ACK", "LOOKUP"};
#define LENT (BIT(GAUGE_OK) | BIT(GAUGE_MEMORY)) /* what any message may give that is taken at all */
const uint32_t received[MESSAGES] = {
    [NONE] = BIT(GAUGE_MEMORY) | BIT(GAUGE_LENGTH),
    [UNKNOWN] = BIT(GAUGE_MEMORY) | UNKNOWN_TYPE,
    [SOLICIT] = BIT(GAUGE_MEMORY) | ALL | BIT(GAUGE_NOT_TAKEN),
    [ADVERTISE] = BIT(GAUGE_MEMORY) | ALL | BIT(GAUGE_NOT_TAKEN),
    [REQUEST] = BIT(GAUGE_MEMORY) | ALL | BIT(GAUGE_NOT_TAKEN),
    [FLOOD] = BIT(GAUGE_MEMORY) | ALL,
    [ENTRY] = LENT | BIT(GAUGE_OWN_KEY) | BIT(GAUGE_ID_WAITING) | BIT(GAUGE_FULL) | BIT(GAUGE_ROOM),
    [REVOKE] = LENT | BIT(GAUGE_UNTRUSTED) | BIT(GAUGE_OWN_KEY) | BIT(GAUGE_ROOM),
    [INQUIRE] = LENT | ALL | BIT(GAUGE_NOT_OURS) | BIT(GAUGE_ROOM),
    [AUTHORITY] = LENT | ALL | BIT(GAUGE_NOT_TAKEN) | BIT(GAUGE_STRAY) | BIT(GAUGE_UNTRUSTED) | BIT(GAUGE_OTHER_KEY),
    [ACK] = LENT | ALL | BIT(GAUGE_STRAY),
    [LOOKUP] = LENT | ALL | BIT(GAUGE_ID_WAITING) | BIT(GAUGE_FULL) | BIT(GAUGE_ROOM)};

int message_of(const struct lent *l)
{
    static const uint8_t types[] = {UNKNOWN, SOLICIT, ADVERTISE, REQUEST, FLOOD, UNKNOWN, UNKNOWN, INQUIRE, AUTHORITY, ACK, UNKNOWN, LOOKUP};
    if (l->datagram.len < 8)
        return NONE;
    uint8_t type = l->datagram.at[7];
    int m = type < sizeof types ? types[type] : UNKNOWN;
    if (m == FLOOD) {
        struct model_look seen = model_look(l);
        if (seen.number == 0)
            m = seen.entry.at != 0 ? ENTRY : REVOKE;
    }
    return m;
}

static unsigned long least = 1;

void set_least(unsigned long made, unsigned long by_gate)
{
    least = made < by_gate ? 1 : LEAST;
}

bool too_seldom(unsigned long times)
{
    return times < least;
}

void count_number(struct times *t, uint64_t number)
{
    if (number < NUMBERS)
        t->of[number]++;
    else
        t->above++;
}

/* The numbers that have a column. */
static uint32_t columns(void)
{
    uint32_t all = 0;
    for (int m = 0; m < MESSAGES; m++)
        all |= received[m];
    return all;
}

void show_numbers(const char *title)
{
    printf("%-28s", title);
    for (int n = 0; n < NUMBERS; n++)
        if (columns() >> n & 1)
            printf("%8d", n);
    printf("\n");
}

/* What has no column: a number that was given, or should have been. Gives how much was marked. */
static int show_beside(const struct times *t, uint32_t possible)
{
    int faults = 0;
    for (int n = 0; n < NUMBERS; n++) {
        bool can = possible >> n & 1;
        if ((columns() >> n & 1) || (!can && t->of[n] == 0))
            continue;
        bool fault = !can || too_seldom(t->of[n]);
        printf("  %d: %lu%s", n, t->of[n], fault ? "!" : "");
        faults += fault;
    }
    if (t->above != 0)
        printf("  above: %lu!", t->above);
    return faults + (t->above != 0);
}

int show_row(const char *kind, const char *message, const struct times *t, uint32_t possible)
{
    int faults = 0;
    printf("%-11s%-17s", kind, message);
    for (int n = 0; n < NUMBERS; n++) {
        bool can = possible >> n & 1;
        if (!(columns() >> n & 1))
            continue;
        if (can || t->of[n] != 0)
            printf("%8lu", t->of[n]);
        else
            printf("%8s", ".");
        if (can ? too_seldom(t->of[n]) : t->of[n] != 0) {
            faults++;
            printf("!");
        }
    }
    faults += show_beside(t, possible);
    printf("\n");
    return faults;
}

int show_times(const char *name, unsigned long times, bool last)
{
    printf("%-28s%8lu%s%s", name, times, too_seldom(times) ? "!" : " ", last ? "\n" : "  ");
    return too_seldom(times);
}
