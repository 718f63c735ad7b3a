/* What random nights reached (tests/nights/compare.h), by number, and what accepted calls did. */
#include "compare.h"
#include "reached.h"
#include <stdio.h>
#include <string.h>

/* What was reached. */

#define READ (BIT(GAUGE_OK) | ALL)
static const uint32_t looked[MESSAGES] = {
    [NONE] = BIT(GAUGE_LENGTH), [UNKNOWN] = UNKNOWN_TYPE, [SOLICIT] = READ, [ADVERTISE] = READ, [REQUEST] = READ, [FLOOD] = ALL,
    [ENTRY] = BIT(GAUGE_OK), [REVOKE] = BIT(GAUGE_OK), [INQUIRE] = READ, [AUTHORITY] = READ | BIT(GAUGE_NOT_TAKEN), [ACK] = READ, [LOOKUP] = READ};
#define SENDS (BIT(GAUGE_OK) | BIT(GAUGE_MEMORY) | BIT(GAUGE_NOT_OURS) | BIT(GAUGE_ID_WAITING) | BIT(GAUGE_FULL) | BIT(GAUGE_ROOM))
static struct times reached[KINDS][MESSAGES];

static int message_in(const struct call *c)
{
    return c->kind == RECEIVE || c->kind == LOOK ? message_of(&c->lent) : NONE;
}

static uint32_t possible(int kind, int message)
{
    if (kind == RECEIVE)
        return received[message];
    if (kind == LOOK)
        return looked[message];
    if (message != NONE)
        return 0;
    if (kind == SEND)
        return SENDS;
    uint32_t always = BIT(GAUGE_OK) | BIT(GAUGE_MEMORY);
    if (kind == CLOSEST || kind == SEARCH || kind == CONVERT)
        return always;
    return kind == TICK || kind == CHANGES ? always | BIT(GAUGE_ROOM) : always | BIT(GAUGE_NOT_OURS) | BIT(GAUGE_ROOM);
}

/* What an accepted call did, by what it left and wrote. */
enum { JOINED, REPLACED, OTHER_DROPPED, SELF_DROPPED, BOTH, ACK_ONLY, INQUIRE_ONLY, QUIET, N_SET, WRAPPED, REVOKED, UNASKED, REVOKED_NOT, N_REMOVED,
       N_CLEAR, SHOWN_OWN, SHOWN_HELD, EXPIRED, SIXTEEN, FIVES, BETWEEN, LIST_END, LIST_OPPOSITE, SHOWN_END, TIE, TIE_END, FULL_255, FULL_256,
       SHOWN_256, ASKED, ASKED_WRAPPED, ENTRY_SAME, ENTRY_WAITS, ENTRY_OWN, PASSED, PASSED_MANY, PASSED_FOR_OWN, NEAREST_OWN, NEAREST_HELD,
       NEAREST_BARE, NEAREST_256, MORE_SAME, MORE_SAME_LOOKUP, MORE_ASKED, MORE_ASKED_LOOKUP, MOVED, MOVED_LOOKUP, OLD_REFUSED,
       CONVERTED, CONVERTED_SOME, CONVERTED_NONE, CONVERTED_INQUIRY, CONVERTED_FLOOD, CONVERTED_OWN, CONVERTED_256, NOT_CONVERTED,
       SOUGHT_HELD, SOUGHT_GAP, SOUGHT_OWN, SOUGHT_EMPTY, SOUGHT_BELOW, SOUGHT_ABOVE, SOUGHT_AT_ONCE, SOUGHT_LAST, SOUGHT_256, SOUGHT_NINE,
       NEAREST_NONE, NEAREST_NINE,
       OWN_TWO, OWN_THREE, OWN_FOUR, LATER_CPA, LATER_N, LATER_FLOODED, LATER_REVOKED, LATER_ENTRY, LATER_SENT, LATER_LIST, LATER_SHOWN,
       LATER_NEAREST, LIST_SHARED, DROPPED_NEARER, DROPPED_TIE, DROPPED_LEAST, ORDER_REFUSED, NUMBER_REFUSED, CPAS_REFUSED, COUNT_REFUSED,
       SUM_REFUSED, FIRSTS_REFUSED, COUNTED_UP, COUNTED_DOWN, COUNTED_BOTH, COUNTED_SAME, COUNTED_256, COUNTED_255, ALL_EQUAL, ALL_KINDS, ONE_GONE,
       ONE_NEW, ONE_OTHER, FROM_EMPTY, TO_EMPTY, LISTED_FIRST, LISTED_LAST, LISTED_500, LISTED_256, LISTED_WHOLLY, BEFORE_REFUSED, AFTER_REFUSED,
       UNLIKE_REFUSED, DONE };
static const char *const done_names[] = {
    "learned: joined", "learned: replaced", "learned: another dropped", "learned: newcomer dropped", "FLOOD: ACK and INQUIRE", "FLOOD: ACK alone",
    "FLOOD: INQUIRE alone", "FLOOD: nothing sent", "ACK sent with N", "INQUIRE with ID 0", "revoked: key removed", "revoked: inquiry freed",
    "revoked: nothing there", "ACK: N removed the key", "ACK: nothing removed", "LOOKUP: own record shown", "LOOKUP: held record shown",
    "tick: a place freed", "tick: sixteen listed", "list: five and five", "learned: dropped between", "list: across the end",
    "list: key just opposite", "LOOKUP: across the end", "LOOKUP: tie", "LOOKUP: tie, larger number", "learned: into a full 255",
    "learned: into a full 256", "LOOKUP: 256th record shown", "LOOKUP: entry inquired about", "LOOKUP: INQUIRE with ID 0",
    "LOOKUP: entry held already", "LOOKUP: entry's key waits", "LOOKUP: entry has our key", "path: closest passed over", "path: ten passed over",
    "path: all nearer passed over", "closest: own", "closest: held", "closest: no path", "closest: 256th record",
    "FLOOD: held, more behind it", "LOOKUP: held, more behind it", "FLOOD: two to four, asked", "LOOKUP: two to four, asked",
    "FLOOD: address moved, asked", "LOOKUP: address moved, asked", "old memory refused", "convert: all records old",
    "convert: some records old", "convert: nothing to turn", "convert: old inquiry", "convert: flood beside one", "convert: own record old",
    "convert: 256 records", "convert: refused when old", "search: held", "search: between two", "search: our own key", "search: none held",
    "search: below all", "search: above all", "search: held, found at once", "search: held, found last", "search: 256th record",
    "search: held, nine compared", "closest: none compared", "closest: nine compared",
    "two own records", "three own records", "four own records", "INQUIRE: a later CPA", "ACK sent, a later key", "FLOOD: a later own key",
    "revoked: a later own key", "LOOKUP: entry, later own key", "send: a later own record", "list: of a later own key", "LOOKUP: later own record",
    "closest: later own record", "list: a key in two of ours", "learned: farthest is listed", "learned: tie of the farthest",
    "learned: into ten for each", "own records out of order", "C below ten for each", "CPAs out of form", "firsts: one number wrong",
    "firsts: the sum alone right", "firsts: of another length", "firsts: one up", "firsts: one down", "firsts: one up, another down",
    "firsts: dropped one alike", "firsts: from 255 to 256", "firsts: from 256 to 255", "changes: none", "changes: of all three kinds",
    "changes: one gone", "changes: one new", "changes: one with another", "changes: from an empty cache", "changes: to an empty cache",
    "changes: the first record", "changes: the 256th record", "changes: 500 and more", "changes: caches of 256", "changes: no room left over",
    "changes: first out of form", "changes: second out of form", "changes: of unequal length"};
static unsigned long done[DONE];

static size_t rows_used(const uint8_t *p, size_t len, size_t width, size_t mark)
{
    size_t n = 0;
    while (width * n < len && p[width * n + mark] != 0)
        n++;
    return n;
}

/* Does a list go across the end of the ring: a key below that is a larger number than our own, or one above that is smaller? */
static bool across_end(const uint8_t *own_key, const uint8_t *keys, size_t below, size_t above)
{
    for (size_t i = 0; i < below + above; i++)
        if ((memcmp(keys + GAUGE_KEY_LEN * i, own_key, GAUGE_KEY_LEN) > 0) == (i < below))
            return true;
    return false;
}

static bool has_opposite(const uint8_t *own_key, const uint8_t *keys, size_t n)
{
    for (size_t i = 0; i < n; i++)
        if (keys[GAUGE_KEY_LEN * i] == (own_key[0] ^ 0x80) && memcmp(keys + GAUGE_KEY_LEN * i + 1, own_key + 1, GAUGE_KEY_LEN - 1) == 0)
            return true;
    return false;
}

/* Is the key that was dropped for a newcomer neither the first nor the last number of all? */
static bool dropped_between(const struct memory *before, size_t was, const uint8_t *newcomer)
{
    const uint8_t *first = before->cache, *last = before->cache + GAUGE_RECORD_LEN * (was - 1);
    bool first_stays = memcmp(now.cache, first, GAUGE_KEY_LEN) == 0 || memcmp(newcomer, first, GAUGE_KEY_LEN) < 0;
    bool last_stays = memcmp(now.cache + GAUGE_RECORD_LEN * (was - 1), last, GAUGE_KEY_LEN) == 0 || memcmp(newcomer, last, GAUGE_KEY_LEN) > 0;
    return first_stays && last_stays;
}

/* Which of the own records that a call was lent has this key, from 0; as many as there are where none has. */
static size_t own_place(const struct call *c, const uint8_t *key)
{
    size_t i = 0;
    while (GAUGE_RECORD_LEN * i < c->lent.own.len && memcmp(c->lent.own.at + GAUGE_RECORD_LEN * i, key, GAUGE_KEY_LEN) != 0)
        i++;
    return i;
}

static bool is_lent_own(const struct call *c, const uint8_t *key)
{
    return GAUGE_RECORD_LEN * own_place(c, key) < c->lent.own.len;
}

/* Is it the key of an own record, and not of the first? */
static bool is_later(const struct call *c, const uint8_t *key)
{
    return is_lent_own(c, key) && own_place(c, key) > 0;
}

/* As far from a point as a key, on its other side. */
static void other_side(const uint8_t *point, const uint8_t *key, uint8_t *other)
{
    int sum = 0;
    for (int i = 31; i >= 0; i--) {
        sum += 2 * point[i] - key[i];
        other[i] = (uint8_t)(sum & 0xFF);
        sum = (sum - other[i]) / 256;
    }
}

/* A LOOKUP's answer: whose record is shown; is its key nearer across the end; does a key as far from the target on its other side stand in the cache,
 * or is one of ours? */
static void count_shown(const struct call *c, const uint8_t *target, const uint8_t *shown, const struct memory *before, size_t was)
{
    uint8_t other[GAUGE_KEY_LEN];
    other_side(target, shown, other);
    bool tie = is_lent_own(c, other);
    for (size_t i = 0; i < was; i++)
        tie = tie || memcmp(other, before->cache + GAUGE_RECORD_LEN * i, GAUGE_KEY_LEN) == 0;
    tie = tie && memcmp(other, shown, GAUGE_KEY_LEN) != 0;
    done[is_lent_own(c, shown) ? SHOWN_OWN : SHOWN_HELD]++;
    done[LATER_SHOWN] += is_later(c, shown);
    done[SHOWN_256] += was == GAUGE_CACHE_MOST && memcmp(shown, before->cache + GAUGE_RECORD_LEN * (GAUGE_CACHE_MOST - 1), GAUGE_KEY_LEN) == 0;
    done[SHOWN_END] += (target[0] < shown[0] ? shown[0] - target[0] : target[0] - shown[0]) > 128;
    done[TIE] += tie;
    done[TIE_END] += tie && memcmp(shown, other, GAUGE_KEY_LEN) > 0;
}

/* The record closest to a target, as gauge_closest tells it, if there were no path. */
static uint32_t without_path(const struct call *c, const struct memory *before, uint8_t *target)
{
    static struct memory m;
    struct lent l = c->lent;
    m = *before;
    l.cache = as_room(m.cache, m.cache_len);
    l.path.len = 0;
    l.target = as_room(target, GAUGE_KEY_LEN);
    return model_closest(&l).first;
}

/* Which record is shown in place of the closest, `first`, that the path passes over: our own, or one so many places from it round the cache. */
static void count_passed(uint32_t first, uint32_t shown, size_t was)
{
    size_t steps = shown > first ? shown - first : first - shown;
    bool own_shown = shown < GAUGE_CLOSEST_HELD, own_first = first < GAUGE_CLOSEST_HELD;
    done[PASSED] += shown != first;
    done[PASSED_MANY] += !own_shown && !own_first && steps >= 10 && was - steps >= 10;
    done[PASSED_FOR_OWN] += own_shown && !own_first;
}

static uint32_t place_of(const uint8_t *key, const struct call *c, const struct memory *before)
{
    uint32_t at = 0;
    if (is_lent_own(c, key))
        return (uint32_t)own_place(c, key);
    while (memcmp(before->cache + GAUGE_RECORD_LEN * at, key, GAUGE_KEY_LEN) != 0)
        at++;
    return GAUGE_CLOSEST_HELD + at;
}

/* What became of a LOOKUP's route entry. */
static void count_asked(const struct call *c, const uint32_t *answer, const struct memory *before)
{
    uint32_t at = model_look(&c->lent).entry.at;
    const uint8_t *key = c->lent.datagram.at + at;
    bool waited = false;
    if (at == 0)
        return;
    for (const uint8_t *p = before->waiting; p < before->waiting + before->waiting_len; p += GAUGE_PLACE_LEN)
        waited = waited || (p[4] == 2 && memcmp(p + 8, key, GAUGE_KEY_LEN) == 0);
    done[answer[2] != 0 ? ASKED : is_lent_own(c, key) ? ENTRY_OWN : waited ? ENTRY_WAITS : ENTRY_SAME]++;
    done[LATER_ENTRY] += is_later(c, key);
    done[ASKED_WRAPPED] += answer[2] != 0 && c->lent.id == UINT32_MAX;
}

/* What became of a route entry by its addresses: held already, whatever stands behind the first; inquired about; with the one held behind another. */
static void count_addresses(const struct call *c, int message, const uint32_t *answer, const struct memory *before, size_t was)
{
    int by = message == LOOKUP; /* of a FLOOD, and behind it of a LOOKUP */
    const uint8_t *entry = c->lent.datagram.at + model_look(&c->lent).entry.at, *r = before->cache, *end = r + GAUGE_RECORD_LEN * was;
    bool asked = answer[1] == 76 || answer[2] == 76, moved = false;
    if ((message != ENTRY && message != LOOKUP) || model_look(&c->lent).entry.at == 0 || entry[GAUGE_ENTRY_COUNT] < 2)
        return;
    while (r < end && memcmp(r, entry, GAUGE_KEY_LEN) != 0)
        r += GAUGE_RECORD_LEN;
    done[MORE_ASKED + by] += asked;
    if (r == end || memcmp(r + GAUGE_RECORD_PORT, entry + GAUGE_ENTRY_PORT, 2) != 0)
        return;
    for (unsigned i = 1; i < entry[GAUGE_ENTRY_COUNT]; i++)
        moved = moved || memcmp(r + GAUGE_RECORD_ADDRESSES, entry + GAUGE_ENTRY_ADDRESSES + GAUGE_ADDRESS_LEN * i, GAUGE_ADDRESS_LEN) == 0;
    done[MORE_SAME + by] += !asked && memcmp(r + GAUGE_RECORD_ADDRESSES, entry + GAUGE_ENTRY_ADDRESSES, GAUGE_ADDRESS_LEN) == 0;
    done[MOVED + by] += asked && moved;
}

/* How many records of a memory, of those that are used, have more than one address. */
static size_t old_in(struct room memory, size_t width, size_t count_at)
{
    size_t n = 0;
    for (size_t i = 0; i + width <= memory.len; i += width)
        n += memory.at[i + count_at] > 1;
    return n;
}

static bool has_old(const struct call *c, const struct memory *before)
{
    struct lent l = c->lent;
    static struct memory m;
    m = *before;
    lend_memory(&l, &m);
    return (is_lent(LENT_cache, c->kind) && old_in(l.cache, GAUGE_RECORD_LEN, GAUGE_RECORD_COUNT) > 0)
           || (is_lent(LENT_waiting, c->kind) && old_in(l.waiting, GAUGE_PLACE_LEN, 40 + GAUGE_RECORD_COUNT) > 0)
           || old_in(l.own, GAUGE_RECORD_LEN, GAUGE_RECORD_COUNT) > 0;
}

/* A conversion, by what it was lent. */
static void count_converted(const struct call *c)
{
    size_t records = rows_used(c->lent.cache.at, c->lent.cache.len, GAUGE_RECORD_LEN, GAUGE_RECORD_COUNT);
    size_t old = old_in(c->lent.cache, GAUGE_RECORD_LEN, GAUGE_RECORD_COUNT);
    size_t inquiries = old_in(c->lent.waiting, GAUGE_PLACE_LEN, 40 + GAUGE_RECORD_COUNT);
    bool flood = false;
    for (size_t i = 0; i < c->lent.waiting.len; i += GAUGE_PLACE_LEN)
        flood = flood || c->lent.waiting.at[i + 4] == 1;
    done[CONVERTED] += old > 0 && old == records;
    done[CONVERTED_SOME] += old > 0 && old < records;
    done[CONVERTED_NONE] += old == 0 && inquiries == 0 && records > 0;
    done[CONVERTED_INQUIRY] += inquiries > 0;
    done[CONVERTED_FLOOD] += inquiries > 0 && flood;
    done[CONVERTED_OWN] += old_in(c->lent.own, GAUGE_RECORD_LEN, GAUGE_RECORD_COUNT) > 0;
    done[CONVERTED_256] += records == GAUGE_CACHE_MOST && old > 0;
}

static uint32_t digits(size_t n)
{
    return n == 0 ? 0 : 1 + digits(n / 2);
}

/* A search among so many keys: for which key, and how soon it was found. */
static void count_sought(const struct call *c, const uint32_t *answer, const struct memory *before, size_t was)
{
    const uint8_t *key = c->lent.key.at, *last = before->cache + GAUGE_RECORD_LEN * (was > 0 ? was - 1 : 0);
    done[SOUGHT_OWN] += is_lent_own(c, key);
    if (answer[1] != 0) {
        done[SOUGHT_HELD]++;
        done[SOUGHT_AT_ONCE] += answer[2] == 1 && was > 1;
        done[SOUGHT_LAST] += answer[2] == digits(was) && was > 1;
        done[SOUGHT_256] += answer[1] == GAUGE_CACHE_MOST;
        done[SOUGHT_NINE] += answer[2] == GAUGE_COMPARED_MOST;
        return;
    }
    bool below = memcmp(key, before->cache, GAUGE_KEY_LEN) < 0, above = memcmp(key, last, GAUGE_KEY_LEN) > 0;
    done[was == 0 ? SOUGHT_EMPTY : below ? SOUGHT_BELOW : above ? SOUGHT_ABOVE : SOUGHT_GAP]++;
}

static bool in_cache(const uint8_t *key, const uint8_t *cache, size_t records)
{
    for (size_t i = 0; i < records; i++)
        if (memcmp(cache + GAUGE_RECORD_LEN * i, key, GAUGE_KEY_LEN) == 0)
            return true;
    return false;
}

static void minus(const uint8_t *a, const uint8_t *b, uint8_t *result)
{
    int borrow = 0;
    for (int i = 31; i >= 0; i--) {
        int digit = a[i] - b[i] - borrow;
        borrow = digit < 0;
        result[i] = (uint8_t)(digit + 256 * borrow);
    }
}

/* How far a key is from our first, the shorter way round. */
static void from_first(const struct call *c, const uint8_t *key, uint8_t *far)
{
    uint8_t up[GAUGE_KEY_LEN], down[GAUGE_KEY_LEN];
    minus(key, c->lent.own.at, up);
    minus(c->lent.own.at, key, down);
    memcpy(far, memcmp(up, down, GAUGE_KEY_LEN) < 0 ? up : down, GAUGE_KEY_LEN);
}

/* Does a key stand in a neighbour list, of any of our keys or of all but one (NULL for none)? By the model, on the memory of now. */
static bool is_listed(const struct call *c, const uint8_t *but, const uint8_t *key)
{
    static struct memory m;
    uint8_t output[GAUGE_LIST_LEN];
    struct lent l = c->lent;
    bool listed = false;
    copy_memory(&m, &now);
    l.cache = as_room(m.cache, m.cache_len);
    l.output = as_room(output, sizeof output);
    for (size_t i = 0; i < c->lent.own.len; i += GAUGE_RECORD_LEN) {
        l.key = as_room(c->lent.own.at + i, GAUGE_KEY_LEN);
        struct model_answer a = model_neighbours(&l);
        bool other = but == NULL || memcmp(c->lent.own.at + i, but, GAUGE_KEY_LEN) != 0;
        for (size_t k = 0; other && k < a.first + a.second; k++)
            listed = listed || memcmp(key, output + GAUGE_KEY_LEN * k, GAUGE_KEY_LEN) == 0;
    }
    return listed;
}

/* A key was dropped for a newcomer: does one stay that is farther from our first, as it stands in a list; one that is as far and stands in none? */
static void count_dropped(const struct call *c, const uint8_t *newcomer, const struct memory *before, size_t was)
{
    const uint8_t *gone = newcomer;
    uint8_t far[GAUGE_KEY_LEN], other[GAUGE_KEY_LEN];
    bool nearer = false;
    for (size_t i = 0; i < was; i++)
        if (!in_cache(before->cache + GAUGE_RECORD_LEN * i, now.cache, was))
            gone = before->cache + GAUGE_RECORD_LEN * i;
    from_first(c, gone, far);
    for (size_t i = 0; i < was; i++) {
        from_first(c, now.cache + GAUGE_RECORD_LEN * i, other);
        nearer = nearer || memcmp(other, far, GAUGE_KEY_LEN) > 0;
    }
    other_side(c->lent.own.at, gone, other);
    done[DROPPED_NEARER] += nearer;
    done[DROPPED_TIE] += memcmp(other, gone, GAUGE_KEY_LEN) != 0 && in_cache(other, now.cache, was) && !is_listed(c, NULL, other);
    done[DROPPED_LEAST] += before->cache_len == GAUGE_CACHE_LEAST * c->lent.own.len;
}

static unsigned first_at(const struct memory *m, size_t byte)
{
    return m->firsts[2 * byte] + 256u * m->firsts[2 * byte + 1];
}

/* Which counts by first byte have changed, and how. */
static void count_counts(const struct memory *before)
{
    bool up = false, down = false;
    for (size_t byte = 0; byte < 256; byte++) {
        unsigned was = first_at(before, byte), is = first_at(&now, byte);
        up = up || is > was;
        down = down || is < was;
        done[COUNTED_256] += was == 255 && is == 256;
        done[COUNTED_255] += was == 256 && is == 255;
    }
    if (up || down)
        done[up && down ? COUNTED_BOTH : up ? COUNTED_UP : COUNTED_DOWN]++;
}

static void count_learned(const struct call *c, const struct memory *before, size_t was)
{
    const uint8_t *key = c->lent.key.at;
    bool same = memcmp(before->cache, now.cache, now.cache_len) == 0, there = false;
    size_t most = before->cache_len / GAUGE_RECORD_LEN;
    for (size_t i = 0; i < was; i++)
        there = there || memcmp(before->cache + GAUGE_RECORD_LEN * i, key, GAUGE_KEY_LEN) == 0;
    done[there ? REPLACED : held() > was ? JOINED : same ? SELF_DROPPED : OTHER_DROPPED]++;
    done[FULL_255] += !there && was == most && most == GAUGE_CACHE_MOST - 1;
    done[FULL_256] += !there && was == most && most == GAUGE_CACHE_MOST;
    done[BETWEEN] += !there && held() == was && !same && dropped_between(before, was, key);
    done[COUNTED_SAME] += !there && held() == was && !same && memcmp(before->firsts, now.firsts, now.firsts_len) == 0;
    if (!there && held() == was)
        count_dropped(c, key, before, was);
}

/* A neighbour list of one of several: is its first key in that of another too? */
static bool is_shared(const struct call *c, const uint8_t *keys, size_t n)
{
    return n > 0 && is_listed(c, c->lent.key.at, keys);
}

/* A FLOOD with a route entry: an ACK has 20 or 26 bytes, an INQUIRE 76. */
static void count_entry(const struct call *c, const uint32_t *answer)
{
    bool acked = answer[1] == 20 || answer[1] == 26, asked = answer[1] == 76 || answer[2] == 76;
    done[acked && asked ? BOTH : acked ? ACK_ONLY : asked ? INQUIRE_ONLY : QUIET]++;
    done[WRAPPED] += asked && c->lent.id == UINT32_MAX;
}

static bool same_key(const uint8_t *entry, const uint8_t *record)
{
    return memcmp(entry + 1, record, GAUGE_KEY_LEN) == 0;
}

/* Two caches compared: which kinds of change there were, and where. */
static void count_changed(const struct call *c, const uint32_t *answer, const uint8_t *list)
{
    size_t of[4] = {0}, entries = answer[1], most = c->lent.before.len / GAUGE_RECORD_LEN;
    size_t was = rows_used(c->lent.before.at, c->lent.before.len, GAUGE_RECORD_LEN, GAUGE_RECORD_COUNT);
    size_t is = rows_used(c->lent.after.at, c->lent.after.len, GAUGE_RECORD_LEN, GAUGE_RECORD_COUNT);
    const uint8_t *last = list + GAUGE_CHANGE_LEN * (entries > 0 ? entries - 1 : 0);
    size_t end = GAUGE_CACHE_LEN(most - 1);
    for (size_t i = 0; i < entries; i++)
        of[list[GAUGE_CHANGE_LEN * i] % 4]++;
    done[ALL_EQUAL] += entries == 0 && was > 0;
    done[ALL_KINDS] += of[GAUGE_CHANGE_GONE] > 0 && of[GAUGE_CHANGE_NEW] > 0 && of[GAUGE_CHANGE_OTHER] > 0;
    if (entries == 1)
        done[ONE_GONE + list[0] - GAUGE_CHANGE_GONE]++;
    done[FROM_EMPTY] += was == 0 && is > 0;
    done[TO_EMPTY] += was > 0 && is == 0;
    done[LISTED_500] += entries >= 500;
    done[LISTED_WHOLLY] += entries > 0 && c->lent.output.len == answer[2];
    if (was == 0 || is == 0 || entries == 0)
        return;
    done[LISTED_FIRST] += same_key(list, c->lent.before.at) || same_key(list, c->lent.after.at);
    if (most == GAUGE_CACHE_MOST && was == most && is == most) {
        done[LISTED_256]++;
        done[LISTED_LAST] += same_key(last, c->lent.before.at + end) || same_key(last, c->lent.after.at + end);
    }
}

static void count_done(const struct call *c, int message, const uint32_t *answer, const uint8_t *out, const struct memory *before)
{
    size_t was = rows_used(before->cache, before->cache_len, GAUGE_RECORD_LEN, GAUGE_RECORD_COUNT), is = held();
    size_t waited = rows_used(before->waiting, before->waiting_len, GAUGE_PLACE_LEN, 4), wait = waits();
    if (c->kind == TICK) {
        done[EXPIRED] += wait < waited;
        done[SIXTEEN] += answer[1] == GAUGE_PLACES;
    }
    if (c->kind == NEIGHBOURS) {
        done[FIVES] += answer[1] == 5 && answer[2] == 5;
        done[LIST_END] += across_end(c->lent.key.at, out, answer[1], answer[2]);
        done[LIST_OPPOSITE] += has_opposite(c->lent.key.at, out, answer[1] + answer[2]);
        done[LATER_LIST] += is_later(c, c->lent.key.at);
        done[LIST_SHARED] += is_shared(c, out, answer[1] + answer[2]);
    }
    done[LATER_SENT] += c->kind == SEND && is_later(c, c->lent.key.at);
    if (c->kind == CLOSEST) {
        done[answer[1] < GAUGE_CLOSEST_HELD ? NEAREST_OWN : NEAREST_HELD]++;
        done[LATER_NEAREST] += answer[1] > 0 && answer[1] < GAUGE_CLOSEST_HELD;
        done[NEAREST_BARE] += c->lent.path.len == 0;
        done[NEAREST_256] += answer[1] == GAUGE_CLOSEST_HELD + GAUGE_CACHE_MOST - 1;
        count_passed(without_path(c, before, c->lent.target.at), answer[1], was);
        done[NEAREST_NONE] += answer[2] == 0;
        done[NEAREST_NINE] += answer[2] == GAUGE_COMPARED_MOST;
    }
    if (c->kind == SEARCH)
        count_sought(c, answer, before, was);
    if (c->kind != RECEIVE)
        return;
    count_counts(before);
    for (size_t n = 2; n <= GAUGE_OWN_MOST; n++)
        done[OWN_TWO + n - 2] += c->lent.own.len == GAUGE_RECORD_LEN * n;
    done[N_SET] += (message == ENTRY || message == REVOKE) && answer[1] == 26;
    done[LATER_N] += (message == ENTRY || message == REVOKE) && answer[1] == 20 && is_later(c, c->lent.datagram.at + 24);
    done[LATER_CPA] += message == INQUIRE && is_later(c, c->lent.datagram.at + 24);
    if (message == AUTHORITY)
        count_learned(c, before, was);
    if (message == ENTRY)
        count_entry(c, answer);
    if (message == REVOKE) {
        done[REVOKED] += is < was;
        done[UNASKED] += wait < waited;
        done[REVOKED_NOT] += is == was && wait == waited;
    }
    if (message == ACK)
        done[is < was ? N_REMOVED : N_CLEAR]++;
    if (message == LOOKUP) {
        uint8_t *target = c->lent.datagram.at + 28;
        count_shown(c, target, out + 40, before, was);
        count_passed(without_path(c, before, target), place_of(out + 40, c, before), was);
        count_asked(c, answer, before);
    }
}

/* What was refused for several own records: a later one's key, or what was spoiled of them or of the firsts. */
static void count_refused(const struct call *c, int message, uint32_t number)
{
    done[LATER_FLOODED] += number == GAUGE_OWN_KEY && message == ENTRY && is_later(c, c->lent.datagram.at + model_look(&c->lent).entry.at);
    done[LATER_REVOKED] += number == GAUGE_OWN_KEY && message == REVOKE && is_later(c, c->lent.key.at);
    if (number == GAUGE_MEMORY && c->hurt != UNHURT)
        done[ORDER_REFUSED + (int)c->hurt - HURT_ORDER]++;
    if (number == GAUGE_MEMORY && c->pair != BOTH_WELL)
        done[BEFORE_REFUSED + (int)c->pair - BEFORE_HURT]++;
}

/* Was the call lent the present memory, and none that was damaged for it? */
static bool on_present(const struct call *c)
{
    struct lent l = c->lent;
    for (int i = 0; i < SLICES; i++)
        if (slices[i].use == TO_KEEP && slice_in(&l, i)->at != NULL)
            return false;
    return true;
}

void count_call(const struct call *c, const uint32_t *answer, const uint8_t *output, const struct memory *before)
{
    int message = message_in(c);
    count_number(&reached[c->kind][message], answer[0]);
    count_refused(c, message, answer[0]);
    if (answer[0] == GAUGE_MEMORY && c->aged && has_old(c, before))
        done[c->kind == CONVERT ? NOT_CONVERTED : OLD_REFUSED]++;
    if (answer[0] == 0 && c->kind == CONVERT)
        count_converted(c);
    if (answer[0] == 0 && c->kind == CHANGES)
        count_changed(c, answer, output);
    if (answer[0] == 0 && c->kind == RECEIVE && on_present(c))
        count_addresses(c, message, answer, before, rows_used(before->cache, before->cache_len, GAUGE_RECORD_LEN, GAUGE_RECORD_COUNT));
    if (answer[0] == 0 && on_present(c))
        count_done(c, message, answer, output, before);
}

int show_reached(void)
{
    int faults = 0;
    show_numbers("reached, by number");
    for (int k = 0; k < KINDS; k++)
        for (int m = 0; m < MESSAGES; m++)
            if (possible(k, m) != 0)
                faults += show_row(call_names[k], k == RECEIVE || k == LOOK ? messages[m] : "", &reached[k][m], possible(k, m));
    for (int i = 0; i < DONE; i++)
        faults += show_times(done_names[i], done[i], i % 4 == 3 || i == DONE - 1);
    return faults;
}
