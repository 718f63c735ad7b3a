/* Random nights as traces (document 02, request 1), each with the lines that its replay must write.
 *
 *   nights [COUNT [SEED [FOLDER]]]     without numbers, the nights of the gate; FOLDER gets N.trace and N.wanted for each night, N from 1
 *   nights replay FILE                 the lines that the model's replay gives for a trace
 *
 * A night is one gauge that begins with nothing in memory. Each call is made by the model as its record is written, so that the datagrams after it
 * lean on what it left. Every fifth night is bad: its last record, or what should be its first, is one of the ways below, each in its turn. The lines
 * are those that the model's replay (tests/models/model_night.c) gives for the bytes of the trace; they must be the numbers that the calls gave when
 * they were made, and for a bad record the number that stands in its row below. At the end tables tell what was reached: what is possible and was
 * reached too seldom fails (tests/nights/reached.h), a bad record if it was not reached at all, and so does what is not possible and was reached. */
#include "draft.h"
#include "model.h"
#include "model_night.h"
#include "reached.h"
#include <stdio.h>
#include <stdlib.h>
#include <string.h>

#define TRACE (4u << 20)
#define LINES 2000u
#define FULL 64u
#define GATE 1200ul /* nights */

/* The trace as it is written, and the lines that it must give. */

struct line {
    uint32_t number, answer;
};

static uint8_t trace[TRACE];
static size_t trace_len;
static struct line wanted[LINES];
static size_t lines;

static void put(const uint8_t *bytes, size_t n)
{
    if (n > TRACE - trace_len) {
        fprintf(stderr, "nights: a night too long to write\n");
        exit(2);
    }
    if (n > 0)
        memcpy(trace + trace_len, bytes, n);
    trace_len += n;
}

/* A number in so many bytes, the least significant first. */
static void put_number(uint32_t number, size_t width)
{
    for (size_t i = 0; i < width; i++, number >>= 8) {
        uint8_t byte = (uint8_t)(number & 0xFF);
        put(&byte, 1);
    }
}

static void put_head(unsigned kind, size_t body)
{
    put_number((uint32_t)body + 2, 2);
    put_number(kind, 2);
}

static void want(uint32_t number, uint32_t answer)
{
    if (lines == LINES) {
        fprintf(stderr, "nights: a night with too many lines\n");
        exit(2);
    }
    wanted[lines].number = number;
    wanted[lines++].answer = answer;
}

/* What was reached. */

static struct times reached[TICK + 1][MESSAGES];

enum { EMPTY_NIGHT, LONG_NIGHT, SHAPELESS, FULL_CACHE, DROPPED, SIXTEEN, ID_LAST, ID_ORDER, SIZE_0, SIZE_1232, SIZE_1233, SIZE_65480, FOLLOWED,
       AT_ONCE, OLD_OWN, DONE };
static const char *const done_names[] = {
    "nights without a call", "nights of 400 calls or more", "nights with an own record out of form", "calls with 64 held", "one dropped of 65",
    "calls with sixteen waiting", "ID 4294967295", "ID accepted that is another backwards", "datagram of 0 bytes", "datagram of 1,232 bytes accepted",
    "datagram of 1,233 bytes", "datagram of 65,480 bytes", "nights with records behind a bad one", "nights bad just behind kind 4",
    "nights with an own record of two to four addresses"};
static unsigned long done[DONE];

static void count_call(int kind, int message, uint32_t answer, uint32_t id)
{
    count_number(&reached[kind][message], answer);
    done[FULL_CACHE] += held() == FULL;
    done[SIXTEEN] += waits() == GAUGE_PLACES;
    if (kind != TICK) {
        done[ID_LAST] += id == UINT32_MAX;
        done[ID_ORDER] += answer == 0 && id >> 24 != (id & 0xFF);
    }
}

static void count_size(size_t len, uint32_t answer)
{
    done[SIZE_0] += len == 0 && answer == GAUGE_LENGTH;
    done[SIZE_1232] += len == GAUGE_DATAGRAM_MOST && answer == 0;
    done[SIZE_1233] += len == GAUGE_DATAGRAM_MOST + 1 && answer == GAUGE_LENGTH;
    done[SIZE_65480] += len == 65480 && answer == GAUGE_LENGTH;
}

/* The calls, recorded and made. C is 64, the output has 2,464 bytes, the own CPA is one zero byte. */

static uint8_t output[GAUGE_OUTPUT_LEN];

static struct bytes part(const uint8_t *at, size_t len)
{
    struct bytes b = {at, len};
    return b;
}

/* What the night's gauge lends to each call. */
static struct lent lend(uint32_t id)
{
    struct lent l = lend_gauge();
    lend_memory(&l, &now);
    l.output = as_room(output, sizeof output);
    l.id = id;
    return l;
}

static bool is_held(const uint8_t *key)
{
    for (size_t i = 0; i < held(); i++)
        if (memcmp(now.cache + GAUGE_RECORD_LEN * i, key, GAUGE_KEY_LEN) == 0)
            return true;
    return false;
}

/* The key that was dropped last in this night. Only a call about it can tell a cache of one record more. */
static uint8_t dropped[GAUGE_KEY_LEN];
static bool any_dropped;

static void find_dropped(const uint8_t *before, const uint8_t *newcomer)
{
    memcpy(dropped, newcomer, GAUGE_KEY_LEN);
    for (size_t i = 0; i < FULL; i++)
        if (!is_held(before + GAUGE_RECORD_LEN * i))
            memcpy(dropped, before + GAUGE_RECORD_LEN * i, GAUGE_KEY_LEN);
    any_dropped = true;
    done[DROPPED]++;
}

static void receive(uint32_t id, uint8_t verdict, uint8_t *key, uint8_t *nonce, struct room datagram)
{
    struct lent l = lend(id);
    uint8_t before[GAUGE_RECORD_LEN * FULL];
    bool full = held() == FULL, new = !is_held(key);
    memcpy(before, now.cache, sizeof before);
    put_head(1, 53 + datagram.len);
    put_number(id, 4);
    put(&verdict, 1);
    put(key, GAUGE_KEY_LEN);
    put(nonce, GAUGE_NONCE_LEN);
    put(datagram.at, datagram.len);
    l.verdict = verdict;
    l.key = as_room(key, GAUGE_KEY_LEN);
    l.nonce = as_room(nonce, GAUGE_NONCE_LEN);
    l.datagram = datagram;
    uint32_t answer = model_receive(&l).number;
    int message = message_of(&l);
    want((uint32_t)lines + 1, answer);
    count_call(RECEIVE, message, answer, id);
    count_size(datagram.len, answer);
    if (message == AUTHORITY && answer == 0 && full && new)
        find_dropped(before, key);
}

static void send(uint32_t id, uint8_t *neighbour, uint8_t *key)
{
    struct lent l = lend(id);
    put_head(2, 68);
    put_number(id, 4);
    put(neighbour, GAUGE_KEY_LEN);
    put(key, GAUGE_KEY_LEN);
    l.neighbour = as_room(neighbour, GAUGE_KEY_LEN);
    l.key = as_room(key, GAUGE_KEY_LEN);
    uint32_t answer = model_send(&l).number;
    want((uint32_t)lines + 1, answer);
    count_call(SEND, NONE, answer, id);
}

static void tick(void)
{
    struct lent l = lend(0);
    put_head(3, 0);
    uint32_t answer = model_tick(&l).number;
    want((uint32_t)lines + 1, answer);
    count_call(TICK, NONE, answer, 0);
}

/* Now and then a datagram at a limit of its length, or of the greatest that a record can carry. */
static struct room some_datagram(uint8_t *key)
{
    static const uint32_t sizes[] = {0, GAUGE_DATAGRAM_MOST, GAUGE_DATAGRAM_MOST + 1, 65480};
    static uint8_t longest[65480];
    draft_message(key);
    if (percent(9))
        damage_head();
    if (!percent(2))
        return as_room(draft.b, draft.n);
    size_t n = sizes[under(4)];
    draft_inquire_of(n == GAUGE_DATAGRAM_MOST ? n : GAUGE_DATAGRAM_MOST + 1);
    if (n <= draft.n)
        return as_room(draft.b, n);
    memcpy(longest, draft.b, draft.n);
    fill(longest + draft.n, n - draft.n);
    return as_room(longest, n);
}

static void some_call(void)
{
    uint8_t key[GAUGE_KEY_LEN], other[GAUGE_KEY_LEN];
    uint32_t way = under(100), id = some_id();
    if (way < ticks) {
        tick();
    } else if (way < ticks + 14) {
        draft_send(other, key);
        if (any_dropped && percent(30))
            memcpy(percent(50) ? other : key, dropped, GAUGE_KEY_LEN);
        send(id, other, key);
    } else {
        struct room datagram = some_datagram(key);
        fill(other, GAUGE_NONCE_LEN);
        receive(id, percent(88) ? 1 : any(), key, other, datagram);
    }
}

/* Calls until the cache is full and some keys were dropped, which chance alone would hardly reach. */
static void fill_cache(void)
{
    uint8_t key[GAUGE_KEY_LEN], nonce[GAUGE_NONCE_LEN];
    int more = 30;
    for (int i = 0; i < 400 && more > 0; i++) {
        more -= held() == FULL;
        uint32_t id = some_id();
        draft_learning(key);
        fill(nonce, GAUGE_NONCE_LEN);
        receive(id, 1, key, nonce, as_room(draft.b, draft.n));
    }
}

/* Calls until sixteen wait, which answers and ticks would seldom let happen. */
static void fill_waiting(void)
{
    uint8_t key[GAUGE_KEY_LEN], nonce[GAUGE_NONCE_LEN];
    for (int i = 0; i < 60 && waits() < GAUGE_PLACES; i++) {
        uint32_t id = some_id();
        draft_news(key);
        fill(nonce, GAUGE_NONCE_LEN);
        receive(id, 1, key, nonce, as_room(draft.b, draft.n));
    }
}

/* Ways in which a record is bad: its kind and length as written, how many bytes there are of it (length and kind counted), and where: in place of the
 * first record, later, or both. 0 for the length of an unknown kind: any. */

enum { FIRST = 1, LATER = 2, BOTH = 3 };
static const struct way {
    const char *name;
    uint32_t number;
    unsigned where, kind;
    size_t length, there;
} ways[] = {
    {"one byte left", 16, BOTH, 3, 2, 1},
    {"cut behind its length", 16, BOTH, 3, 2, 2},
    {"cut in its kind", 16, BOTH, 3, 2, 3},
    {"kind 1 cut behind its kind", 16, BOTH, 1, 155, 4},
    {"kind 1 cut before its datagram", 16, BOTH, 1, 155, 57},
    {"kind 1 cut by a byte", 16, BOTH, 1, 155, 156},
    {"kind 1 of the greatest length, cut by a byte", 16, BOTH, 1, 65535, 65536},
    {"kind 2 cut behind its kind", 16, BOTH, 2, 70, 4},
    {"kind 2 cut by a byte", 16, BOTH, 2, 70, 71},
    {"kind 4 cut behind its kind", 16, BOTH, 4, 104, 4},
    {"kind 4 cut by a byte", 16, BOTH, 4, 104, 105},
    {"an unknown kind cut by a byte", 16, BOTH, 5, 10, 11},
    {"length 0", 16, BOTH, 3, 0, 2},
    {"length 1", 16, BOTH, 3, 1, 3},
    {"kind 1 without body", 16, BOTH, 1, 2, 4},
    {"kind 1 a byte short", 16, BOTH, 1, 54, 56},
    {"kind 2 without body", 16, BOTH, 2, 2, 4},
    {"kind 2 a byte short", 16, BOTH, 2, 69, 71},
    {"kind 2 a byte long", 16, BOTH, 2, 71, 73},
    {"kind 3 with a byte", 16, BOTH, 3, 3, 5},
    {"kind 3 with a body of kind 2", 16, BOTH, 3, 70, 72},
    {"kind 4 without body", 16, BOTH, 4, 2, 4},
    {"kind 4 a byte short", 16, BOTH, 4, 103, 105},
    {"kind 4 a byte long", 16, BOTH, 4, 105, 107},
    {"kind 0", 17, BOTH, 0, 0, 0},
    {"kind 5", 17, BOTH, 5, 0, 0},
    {"kind 255", 17, BOTH, 255, 0, 0},
    {"kind 256", 17, BOTH, 256, 0, 0},
    {"kind 259 without body", 17, BOTH, 259, 2, 4},
    {"kind 260 with a body of kind 4", 17, BOTH, 260, 104, 106},
    {"kind 65535", 17, BOTH, 65535, 0, 0},
    {"kind 1 first", 17, FIRST, 1, 155, 157},
    {"kind 1 first, without a datagram", 17, FIRST, 1, 55, 57},
    {"kind 2 first", 17, FIRST, 2, 70, 72},
    {"kind 3 first", 17, FIRST, 3, 2, 4},
    {"an empty trace", 17, FIRST, 3, 2, 0},
    {"kind 4 repeated", 17, LATER, 4, 104, 106},
};
#define WAYS (sizeof ways / sizeof *ways)
static unsigned long badly[WAYS][2]; /* how often, first and later */

static void put_first(void)
{
    put_head(4, 102);
    put(&own_major, 1);
    put(&own_minor, 1);
    put(own, GAUGE_RECORD_LEN);
}

/* The bytes of a bad record. The body of a kind 4 is a good one as far as it goes: versions and a record. */
static void put_bad(const struct way *w)
{
    static const uint16_t lengths[] = {2, 3, 55, 70, 104, 65535};
    static uint8_t b[65537];
    size_t length = w->length, there = w->there;
    if (w->number == 17 && length == 0) {
        length = percent(70) ? lengths[under(6)] : 2 + under(65534);
        there = length + 2;
    }
    fill(b, there);
    uint8_t head[4] = {(uint8_t)(length & 0xFF), (uint8_t)(length >> 8), (uint8_t)(w->kind & 0xFF), (uint8_t)(w->kind >> 8)};
    memcpy(b, head, 4);
    if (w->kind % 256 == 4 && there > 6) {
        size_t n = there - 6 < 100 ? there - 6 : 100;
        b[4] = own_major;
        b[5] = own_minor;
        memcpy(b + 6, own, n);
    }
    put(b, there);
}

/* Good records behind a bad one, of which the replay must not say anything. None where bytes would make a cut record whole. */
static void put_behind(const struct way *w)
{
    bool cut = w->length >= 2 && w->there < w->length + 2;
    if (cut || !percent(60))
        return;
    if (percent(50))
        put_first();
    for (uint32_t i = 0; i <= under(3); i++)
        put_head(3, 0);
    done[FOLLOWED]++;
}

/* The ways in turn, each in place of the first record and later, as its row allows. */
static const struct way *next_way(bool *first)
{
    static size_t turn;
    for (;;) {
        const struct way *w = &ways[turn / 2 % WAYS];
        *first = turn++ % 2 == 0;
        if (w->where & (*first ? FIRST : LATER))
            return w;
    }
}

static void end_badly(const struct way *w, bool first)
{
    put_bad(w);
    want(first ? 0 : (uint32_t)lines + 1, w->number);
    put_behind(w);
    badly[w - ways][!first]++;
    done[AT_ONCE] += !first && lines == 1;
}

/* An own record out of form is taken, and each call then answers 1. */
static void spoil_own(void)
{
    switch (under(9)) {
    case 0: own[GAUGE_RECORD_COUNT] = 0; break;
    case 1: own[GAUGE_RECORD_COUNT] = (uint8_t)(5 + under(251)); break;
    case 2: own[35] = (uint8_t)(1 + under(255)); break;
    case 3:
        own[GAUGE_RECORD_COUNT] = (uint8_t)(1 + under(3));
        own[99] = (uint8_t)(1 + under(255));
        break;
    case 4: memset(own, 0, GAUGE_RECORD_LEN); break;
    default: /* two to four addresses, of the time before request 13 */
        while (own[GAUGE_RECORD_COUNT] == 1)
            more_addresses(own);
        done[OLD_OWN]++;
        break;
    }
    done[SHAPELESS]++;
}

static size_t some_length(void)
{
    if (percent(4))
        return 400;
    return percent(5) ? 0 : under(61);
}

static void make_night(unsigned long i)
{
    bool bad = i % 5 == 0, first = false;
    const struct way *w = bad ? next_way(&first) : NULL;
    begin_memory(FULL);
    trace_len = lines = 0;
    any_dropped = false;
    begin_gauge(1); /* "a trace still has one own record" */
    if (percent(12))
        spoil_own();
    if (!first) {
        put_first();
        if (percent(6))
            fill_cache();
        if (percent(6))
            fill_waiting();
        size_t calls = bad && percent(20) ? 0 : some_length();
        for (size_t c = 0; c < calls; c++)
            some_call();
        done[EMPTY_NIGHT] += !bad && lines == 0;
        done[LONG_NIGHT] += lines >= 400;
    }
    if (bad)
        end_badly(w, first);
}

/* The model's replay of the trace, held against the lines that are wanted, and written. */

struct held_against {
    FILE *file;
    size_t seen;
    unsigned long night;
    bool differs;
};

static void differ(struct held_against *h, const char *by_replay)
{
    if (!h->differs)
        printf("nights: night %lu: line %zu is %s by the replay", h->night, h->seen + 1, by_replay);
    if (!h->differs && h->seen < lines)
        printf(", '%u %u' by the calls\n", wanted[h->seen].number, wanted[h->seen].answer);
    else if (!h->differs)
        printf(", none by the calls\n");
    h->differs = true;
}

static void take_line(void *to, uint32_t number, uint32_t answer)
{
    struct held_against *h = to;
    char text[32];
    snprintf(text, sizeof text, "'%u %u'", number, answer);
    if (h->seen >= lines || wanted[h->seen].number != number || wanted[h->seen].answer != answer)
        differ(h, text);
    if (h->file != NULL)
        fprintf(h->file, "%u %u\n", number, answer);
    h->seen++;
}

static FILE *opened(const char *folder, unsigned long night, const char *ending)
{
    char path[4096];
    snprintf(path, sizeof path, "%s/%lu.%s", folder, night, ending);
    FILE *f = fopen(path, "wb");
    if (f == NULL) {
        fprintf(stderr, "nights: can't write %s\n", path);
        exit(2);
    }
    return f;
}

static void closed(FILE *f)
{
    if (ferror(f) || fclose(f) != 0) {
        fprintf(stderr, "nights: not all could be written\n");
        exit(2);
    }
}

static bool same_by_replay(unsigned long night, const char *folder)
{
    struct held_against h = {NULL, 0, night, false};
    if (folder != NULL) {
        FILE *f = opened(folder, night, "trace");
        fwrite(trace, 1, trace_len, f);
        closed(f);
        h.file = opened(folder, night, "wanted");
    }
    model_replay(part(trace, trace_len), take_line, &h);
    if (h.seen < lines)
        differ(&h, "missing");
    if (h.file != NULL)
        closed(h.file);
    return !h.differs;
}

static int show_marked(const char *name, unsigned long times, bool possible)
{
    printf("%10lu%s", times, possible == (times != 0) ? " " : "!");
    printf("%s", name);
    return possible != (times != 0);
}

static int show_all(void)
{
    int faults = 0;
    const uint32_t sends = BIT(GAUGE_OK) | BIT(GAUGE_MEMORY) | BIT(GAUGE_NOT_OURS) | BIT(GAUGE_ID_WAITING) | BIT(GAUGE_FULL);
    show_numbers("reached, by number");
    for (int m = 0; m < MESSAGES; m++) /* the output has room for all that is sent */
        faults += show_row("receive", messages[m], &reached[RECEIVE][m], received[m] & ~BIT(GAUGE_ROOM));
    faults += show_row("send", "", &reached[SEND][NONE], sends);
    faults += show_row("tick", "", &reached[TICK][NONE], BIT(GAUGE_OK) | BIT(GAUGE_MEMORY));
    printf("%-46s gives     first      later\n", "bad records");
    for (size_t i = 0; i < WAYS; i++) {
        printf("%-46s    %u", ways[i].name, ways[i].number);
        faults += show_marked("", badly[i][0], ways[i].where & FIRST);
        faults += show_marked("\n", badly[i][1], ways[i].where & LATER);
    }
    for (int i = 0; i < DONE; i++) {
        faults += show_marked(done_names[i], done[i], true);
        printf("\n");
    }
    return faults;
}

static void print_line(void *to, uint32_t number, uint32_t answer)
{
    fprintf(to, "%u %u\n", number, answer);
}

static int replay_file(const char *path)
{
    FILE *f = fopen(path, "rb");
    if (f == NULL) {
        fprintf(stderr, "nights: can't read %s\n", path);
        return 2;
    }
    trace_len = fread(trace, 1, TRACE, f);
    if (ferror(f) || fgetc(f) != EOF) {
        fprintf(stderr, "nights: %s is too long, or could not be read\n", path);
        return 2;
    }
    fclose(f);
    model_replay(part(trace, trace_len), print_line, stdout);
    return 0;
}

int main(int argc, char **argv)
{
    if (argc == 3 && strcmp(argv[1], "replay") == 0)
        return replay_file(argv[2]);
    unsigned long count = argc > 1 ? strtoul(argv[1], NULL, 10) : GATE, all = 0;
    uint64_t seed = argc > 2 ? strtoull(argv[2], NULL, 10) : 1;
    const char *folder = argc > 3 ? argv[3] : NULL;
    set_least(count, GATE);
    chance_state = seed;
    for (unsigned long i = 1; i <= count; i++) {
        make_night(i);
        if (!same_by_replay(i, folder))
            return 1;
        all += lines;
    }
    int faults = show_all();
    if (faults != 0) {
        printf("nights: %d marked '!': possible and reached too seldom, or not possible and reached\n", faults);
        return 1;
    }
    printf("nights: %lu nights, %lu lines, seed %llu\n", count, all, (unsigned long long)seed);
    return 0;
}
