/* The vectors of the calls, run from C through include/gauge.h and the archive: what is wrong in the header's order of arguments, in how a slice or
 * an answer crosses to C, or in the machine code, shows here. The lines of the calls are read from standard input (tests/vectors/vectors.py makes
 * them), and each is written again with its answer; the other lines are passed over.
 *
 * Each slice that is lent ends where a page begins that may not be touched, and has bytes of its own before it: what is read or written past its
 * end stops the program, what is written before it is found. What is lent for reading is compared too. */
#define _DEFAULT_SOURCE
#include "calling.h"
#include <stdio.h>
#include <stdlib.h>
#include <string.h>
#include <sys/mman.h>

#define PAGE 4096u
#define LINE 140000
#define BEFORE 64
#define FILLED 0xEE /* the output before each call */
#define GUARD 0xA5

/* What is lent; of each slice where the page begins that may not be touched, and a copy of it as it was lent. */
static struct lent lent;
static uint8_t *ends[SLICES], *was[SLICES];
static char line[LINE];
static uint8_t room[LINE];

static void fail(const char *what)
{
    fprintf(stderr, "calls: %s at: %.60s\n", what, line);
    exit(1);
}

static void make(int i, size_t pages)
{
    uint8_t *map = mmap(NULL, (pages + 1) * PAGE, PROT_READ | PROT_WRITE, MAP_PRIVATE | MAP_ANONYMOUS, -1, 0);
    was[i] = malloc(pages * PAGE);
    if (map == MAP_FAILED || was[i] == NULL || mprotect(map + pages * PAGE, PAGE, PROT_NONE) != 0)
        fail("no memory");
    ends[i] = map + pages * PAGE;
    *slice_in(&lent, i) = as_room(ends[i], 0);
    memset(map, GUARD, pages * PAGE);
}

static void set(int i, const uint8_t *bytes, size_t len)
{
    struct room *s = slice_in(&lent, i);
    *s = as_room(ends[i] - len, len);
    memmove(s->at, bytes, len);
    memset(s->at - BEFORE, GUARD, BEFORE);
}

/* Whether a slice is as it was lent; the bytes before it must be. */
static bool is_same(int i)
{
    const struct room *s = slice_in(&lent, i);
    for (size_t k = 1; k <= BEFORE; k++)
        if (s->at[-(ptrdiff_t)k] != GUARD)
            fail("written before what was lent,");
    return memcmp(was[i], s->at, s->len) == 0;
}

static void all_read_same(void)
{
    for (int i = 0; i < SLICES; i++)
        if (slices[i].use == TO_READ && !is_same(i))
            fail("written to what was lent for reading,");
}

/* The operands of a line, one space before each. */

static const char *operand(unsigned n)
{
    const char *at = line;
    for (; n > 0 && at != NULL; n--) {
        at = strchr(at, ' ');
        if (at != NULL)
            at++;
    }
    if (at == NULL)
        fail("an operand is missing");
    return at;
}

static unsigned digit(char c)
{
    if (c >= '0' && c <= '9')
        return (unsigned)(c - '0');
    if (c < 'A' || c > 'F')
        fail("no digit");
    return (unsigned)(c - 'A' + 10);
}

static uint32_t number(unsigned n)
{
    uint32_t value = 0;
    for (const char *at = operand(n); *at != ' ' && *at != '\0'; at++)
        value = value << 4 | digit(*at);
    return value;
}

/* Two digits to a byte; Z and four digits for so many zero bytes; - for none. */
static size_t bytes(unsigned n)
{
    size_t len = 0;
    const char *at = operand(n);
    while (*at != ' ' && *at != '\0' && *at != '-') {
        if (*at == 'Z') {
            size_t zeros = digit(at[1]) << 12 | digit(at[2]) << 8 | digit(at[3]) << 4 | digit(at[4]);
            memset(room + len, 0, zeros);
            len += zeros;
            at += 5;
        } else {
            room[len++] = (uint8_t)(digit(at[0]) << 4 | digit(at[1]));
            at += 2;
        }
    }
    return len;
}

static void lend(int i, unsigned n)
{
    size_t len = bytes(n);
    set(i, room, len);
}

/* Lines that lay out the memory, and lines that show it. */

static void begin(void)
{
    memset(room, 0, sizeof room);
    for (int i = 0; i < SLICES; i++)
        if (slices[i].use == TO_KEEP)
            set(i, room, i == LENT_cache ? GAUGE_CACHE_LEN(number(2)) : slices[i].usual);
    lend(LENT_own, 1);
    lend(LENT_cpas, 3);
    lent.major = (uint8_t)number(4);
    lent.minor = (uint8_t)number(5);
}

static void show_key(const uint8_t *k)
{
    size_t i = 0;
    while (i < GAUGE_KEY_LEN - 1 && k[i] == 0)
        i++;
    printf("%x", k[i]);
    for (i++; i < GAUGE_KEY_LEN; i++)
        printf("%02x", k[i]);
}

static void held(void)
{
    size_t i = 0;
    for (; i + GAUGE_RECORD_LEN <= lent.cache.len && lent.cache.at[i + GAUGE_RECORD_COUNT] != 0; i += GAUGE_RECORD_LEN) {
        if (i > 0)
            printf(",");
        show_key(lent.cache.at + i);
    }
    printf("%s", i == 0 ? "-" : "");
}

/* How many keys held begin with each byte, as byte:number; those that are 0 are left out. */
static void firsts(void)
{
    const char *between = "";
    for (size_t i = 0; i + 2 <= lent.firsts.len; i += 2) {
        unsigned count = lent.firsts.at[i] + 256u * lent.firsts.at[i + 1];
        if (count == 0)
            continue;
        printf("%s%zx:%u", between, i / 2, count);
        between = ",";
    }
    printf("%s", *between == '\0' ? "-" : "");
}

static void waits(void)
{
    size_t i = 0;
    for (; i + GAUGE_PLACE_LEN <= lent.waiting.len && lent.waiting.at[i + 4] != 0; i += GAUGE_PLACE_LEN) {
        const uint8_t *p = lent.waiting.at + i;
        uint32_t id = p[0] | (uint32_t)p[1] << 8 | (uint32_t)p[2] << 16 | (uint32_t)p[3] << 24;
        printf("%s%u:%u:%u:", i > 0 ? "," : "", id, p[4], p[5]);
        show_key(p + 8);
    }
    printf("%s", i == 0 ? "-" : "");
}

/* Calls. */

static void fresh_output(unsigned n)
{
    size_t len = number(n);
    memset(room, FILLED, len);
    set(LENT_output, room, len);
}

static void before_call(void)
{
    for (int i = 0; i < SLICES; i++)
        memcpy(was[i], slice_in(&lent, i)->at, slice_in(&lent, i)->len);
}

/* The answer, the bytes written, what has changed in the memory, of which a call that is lent none has nothing to say. */
static void say_call(struct gauge_answer a, size_t used, bool memory)
{
    struct room output = lent.output;
    all_read_same();
    if (used > output.len)
        fail("more told than there is room for,");
    is_same(LENT_output);
    printf("%u %u %u ", a.number, a.first, a.second);
    for (size_t i = 0; i < used; i++)
        printf("%02x", output.at[i]);
    printf("%s", used == 0 ? "-" : "");
    for (int i = 0; i < SLICES; i++)
        if (memory && slices[i].use == TO_KEEP)
            printf(" %s", is_same(i) ? "same" : "changed");
    printf(" %s", memcmp(output.at + used, was[LENT_output] + used, output.len - used) == 0 ? "clean" : "dirty");
}

static void after_call(struct gauge_answer a, size_t used)
{
    say_call(a, used, true);
}

static void receive(void)
{
    lend(LENT_nonce, 2);
    lend(LENT_key, 4);
    lend(LENT_datagram, 5);
    fresh_output(6);
    lent.id = number(1);
    lent.verdict = number(3);
    before_call();
    struct gauge_answer a = call_receive(gauge_receive, &lent);
    after_call(a, (size_t)a.first + a.second);
}

static void send(void)
{
    lend(LENT_neighbour, 2);
    lend(LENT_key, 3);
    fresh_output(4);
    lent.id = number(1);
    before_call();
    struct gauge_answer a = call_send(gauge_send, &lent);
    after_call(a, (size_t)a.first + a.second);
}

static void tick(void)
{
    fresh_output(1);
    before_call();
    struct gauge_answer a = call_tick(gauge_tick, &lent);
    after_call(a, 4 * (size_t)a.first);
}

static void list(void)
{
    lend(LENT_key, 1);
    fresh_output(2);
    before_call();
    struct gauge_answer a = call_neighbours(gauge_neighbours, &lent);
    after_call(a, GAUGE_KEY_LEN * ((size_t)a.first + a.second));
}

/* The cache is lent for reading here; a call that is lent no output has none to write to. */
static void nearest(void)
{
    lend(LENT_path, 1);
    lend(LENT_target, 2);
    set(LENT_output, room, 0);
    before_call();
    struct gauge_answer a = call_closest(gauge_closest, &lent);
    after_call(a, 0);
}

/* Here too. */
static void find(void)
{
    lend(LENT_key, 1);
    set(LENT_output, room, 0);
    before_call();
    struct gauge_answer a = call_search(gauge_search, &lent);
    after_call(a, 0);
}

/* The memory is turned where it stands. */
static void convert(void)
{
    set(LENT_output, room, 0);
    before_call();
    struct gauge_answer a = call_convert(gauge_convert, &lent);
    after_call(a, 0);
}

/* Two caches, and own records that are not the gauge's, which has them again behind it. */
static void changes(void)
{
    static uint8_t ours[PAGE];
    size_t len = lent.own.len;
    memcpy(ours, lent.own.at, len);
    lend(LENT_own, 1);
    lend(LENT_before, 2);
    lend(LENT_after, 3);
    fresh_output(4);
    before_call();
    struct gauge_answer a = call_changes(gauge_changes, &lent);
    say_call(a, a.second, false);
    set(LENT_own, ours, len);
}

/* A look has its own major version, and leaves the gauge's as it is. */
static void look(void)
{
    struct lent looked;
    lend(LENT_datagram, 2);
    before_call();
    looked = lent;
    looked.major = (uint8_t)number(1);
    struct gauge_look_answer l = call_look(gauge_look, &looked);
    all_read_same();
    printf("%u %u %u %u %u %u %u %u %u %u %u %u", l.number, l.kind, l.id, l.acked, l.cpa_at, l.cpa_len, l.nonce_at, l.nonce_len, l.entry_at,
           l.entry_len, l.target_at, l.target_len);
}

static void set_cache(void)
{
    lend(LENT_cache, 1);
}

static void set_firsts(void)
{
    lend(LENT_firsts, 1);
}

static void set_waiting(void)
{
    lend(LENT_waiting, 1);
}

static const struct {
    const char *name;
    void (*run)(void);
    bool sets; /* answers ok */
} lines[] = {{"gauge", begin, true},     {"set-cache", set_cache, true}, {"set-firsts", set_firsts, true}, {"set-waiting", set_waiting, true},
             {"receive", receive, false}, {"send", send, false},          {"tick", tick, false},            {"list", list, false},
             {"nearest", nearest, false}, {"find", find, false},          {"convert", convert, false},      {"changes", changes, false},
             {"look", look, false},       {"held", held, false},          {"firsts", firsts, false},        {"waits", waits, false}};

int main(void)
{
    for (int i = 0; i < SLICES; i++)
        make(i, i == LENT_output ? 14 : i == LENT_cache || i == LENT_before || i == LENT_after ? 8 : 3);
    while (fgets(line, LINE, stdin) != NULL) {
        line[strcspn(line, "\n")] = '\0';
        for (size_t i = 0; i < sizeof lines / sizeof *lines; i++) {
            size_t len = strlen(lines[i].name);
            if (strncmp(line, lines[i].name, len) != 0 || (line[len] != ' ' && line[len] != '\0'))
                continue;
            printf("%s = ", line);
            lines[i].run();
            printf("%s\n", lines[i].sets ? "ok" : "");
        }
    }
    return 0;
}
