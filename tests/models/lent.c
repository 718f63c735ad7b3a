/* What is lent to a call (tests/models/lent.h), slice by slice. */
#include "lent.h"

const char *const call_names[CALLS] = {"receive", "send", "tick", "neighbours", "closest", "search",
                                        "convert", "changes", "look", "carry", "carried", "balance"};

#define LENT_ROW(name, use, usual, calls) {#name, offsetof(struct lent, name), use, usual, calls},
const struct slice slices[SLICES] = {LENT_SLICES(LENT_ROW)};

struct room *slice_in(struct lent *l, int i)
{
    return (struct room *)(void *)((unsigned char *)l + slices[i].at);
}

bool is_lent(int i, enum call_kind call)
{
    return (slices[i].calls & IN(call)) != 0;
}

struct bytes read_only(struct room r)
{
    struct bytes b = {r.at, r.len};
    return b;
}

struct room as_room(uint8_t *at, size_t len)
{
    struct room r = {at, len};
    return r;
}
