/* The calls of the archive and of plain C (bench/plain.c) on the same memory, in one process.
 *
 *   bench          by the clock: rounds in which each takes its turn, and the median of the ratios
 *   bench once     each call once, between two calls of `mark`, and a line that names it: for bench/instructions
 *
 * First each scene is made by all of them: a number, count or byte that differs, or an answer that document 01 does not give, ends the run with
 * status 1. Memory is put back before each call, and outside of what is measured. What a call of an empty function costs is taken off. */
#define _POSIX_C_SOURCE 199309L
#include "calling.h"
#include "empty.h"
#include "plain.h"
#include "scene.h"
#include <math.h>
#include <stdbool.h>
#include <stdio.h>
#include <stdlib.h>
#include <string.h>
#include <time.h>

#define ROUNDS 1501
#define SHORTEST 10 /* nanoseconds: for less the clock's ticks are too wide, and no ratio is told */

PLAIN_CALLS(gcc);
PLAIN_CALLS(gcc_halves);
PLAIN_CALLS(clang);
PLAIN_CALLS(clang_halves);

/* Those who make the calls: the archive is the first, the empty functions are the last. */

struct side {
    const char *name;
    bool halves;
    receive_call *receive;
    send_call *send;
    tick_call *tick;
    neighbours_call *neighbours;
    closest_call *closest;
    search_call *search;
    changes_call *changes;
    look_call *look;
};

/* A function under the signature of another (bench/empty.c). */
#define AS(type, function) ((type *)(void (*)(void))(function))
#define SIDE(name, halves) \
    {#name, halves, name##_receive, name##_send, name##_tick, name##_neighbours, name##_closest, name##_search, name##_changes, name##_look}
static const struct side sides[] = {
    SIDE(gauge, false),
    SIDE(gcc, false),
    SIDE(gcc_halves, true),
#ifdef CLANG
    SIDE(clang, false),
    SIDE(clang_halves, true),
#endif
    {"empty", false, AS(receive_call, empty_answer), AS(send_call, empty_answer), AS(tick_call, empty_answer), AS(neighbours_call, empty_answer),
     AS(closest_call, empty_answer), AS(search_call, empty_answer), AS(changes_call, empty_answer), AS(look_call, empty_look)},
};
#define SIDES (sizeof sides / sizeof *sides)
#define EMPTY (SIDES - 1)

/* What a call leaves: its answer, and what it may write. The same bytes are lent to all sides. */
struct left {
    uint32_t answer[12];
    uint8_t bytes[SLICES][GAUGE_CACHE_LEN(GAUGE_CACHE_MOST)]; /* as long as any */
};

static struct scene scene;
static struct lent lent;
static struct left left;
static uint64_t began, ended;

__attribute__((noinline)) void mark(void)
{
    __asm__ volatile("");
}

static inline uint64_t ticks(void)
{
    __builtin_ia32_lfence();
    uint64_t n = __builtin_ia32_rdtsc();
    __builtin_ia32_lfence();
    return n;
}

static inline void begin(void)
{
    mark();
    began = ticks();
}

static inline void end(void)
{
    ended = ticks();
    mark();
}

static void put_back(void)
{
    lent = scene.lent;
    for (int i = 0; i < SLICES; i++) {
        struct room *to = slice_in(&lent, i);
        if (slices[i].use == TO_READ)
            continue;
        memcpy(left.bytes[i], to->at, to->len);
        to->at = left.bytes[i];
    }
    memset(lent.output.at, 0xA5, GAUGE_OUTPUT_LEN);
}

static struct gauge_answer answered(const struct side *by)
{
    struct gauge_answer a = {0, 0, 0};
    switch (scene.call) {
    case RECEIVE:
        begin();
        a = call_receive(by->receive, &lent);
        end();
        break;
    case SEND:
        begin();
        a = call_send(by->send, &lent);
        end();
        break;
    case TICK:
        begin();
        a = call_tick(by->tick, &lent);
        end();
        break;
    case NEIGHBOURS:
        begin();
        a = call_neighbours(by->neighbours, &lent);
        end();
        break;
    case CLOSEST:
        begin();
        a = call_closest(by->closest, &lent);
        end();
        break;
    case SEARCH:
        begin();
        a = call_search(by->search, &lent);
        end();
        break;
    default:
        begin();
        a = call_changes(by->changes, &lent);
        end();
        break;
    }
    return a;
}

/* Makes the call, and puts its answer into what is left. */
static void make(const struct side *by)
{
    put_back();
    memset(left.answer, 0, sizeof left.answer);
    if (scene.call == LOOK) {
        begin();
        struct gauge_look_answer l = call_look(by->look, &lent);
        end();
        memcpy(left.answer, &l, sizeof l);
    } else {
        struct gauge_answer a = answered(by);
        memcpy(left.answer, &a, sizeof a);
    }
}

/* How many bytes of a slice are looked at after a call: of the output those behind its room too, of what is only read none. */
static size_t looked_at(int i)
{
    return slices[i].use == TO_READ ? 0 : slices[i].use == TO_FILL ? GAUGE_OUTPUT_LEN : slice_in(&lent, i)->len;
}

static bool same_left(const struct left *a, const struct left *b)
{
    for (int i = 0; i < SLICES; i++)
        if (memcmp(a->bytes[i], b->bytes[i], looked_at(i)) != 0)
            return false;
    return memcmp(a->answer, b->answer, sizeof a->answer) == 0;
}

static void copy_left(struct left *to)
{
    for (int i = 0; i < SLICES; i++)
        memcpy(to->bytes[i], left.bytes[i], looked_at(i));
    memcpy(to->answer, left.answer, sizeof to->answer);
}

/* All sides leave the same, and document 01's answer. */
static void agree(size_t c)
{
    static struct left first;
    for (size_t i = 0; i < EMPTY; i++) {
        make(&sides[i]);
        if (i == 0)
            copy_left(&first);
        if (!same_left(&first, &left)) {
            printf("bench: %s, C %zu: %s differs from the archive\n", scene.name, c, sides[i].name);
            exit(1);
        }
    }
    size_t told = scene.call == LOOK ? 2 : 3;
    if (memcmp(first.answer, &scene.wanted, told * sizeof(uint32_t)) != 0) {
        printf("bench: %s, C %zu: answers %u, %u, %u, and not %u, %u, %u\n", scene.name, c, first.answer[0], first.answer[1], first.answer[2],
               scene.wanted.number, scene.wanted.first, scene.wanted.second);
        exit(1);
    }
}

static void once(size_t c)
{
    for (size_t i = 0; i < SIDES; i++) {
        make(&sides[i]);
        printf("%zu;%s;%s\n", c, scene.name, sides[i].name);
    }
}

/* By the clock. */

static int by_size(const void *a, const void *b)
{
    double x = *(const double *)a, y = *(const double *)b;
    return (x > y) - (x < y);
}

static double median(double *v, size_t n)
{
    qsort(v, n, sizeof *v, by_size);
    return v[n / 2];
}

/* Ticks of the processor's clock in a nanosecond, found by waiting for a while. */
static double ticks_per_ns(void)
{
    struct timespec from, to;
    uint64_t start = ticks();
    clock_gettime(CLOCK_MONOTONIC, &from);
    do
        clock_gettime(CLOCK_MONOTONIC, &to);
    while ((to.tv_sec - from.tv_sec) * 1000000000 + to.tv_nsec - from.tv_nsec < 50000000);
    return (double)(ticks() - start) / (double)((to.tv_sec - from.tv_sec) * 1000000000 + to.tv_nsec - from.tv_nsec);
}

struct measured {
    double ns, same, halves; /* of the archive; its ratio to the best plain C, and to the best that halves; NAN for none */
};

static struct measured measure(double per_ns)
{
    static double took[SIDES][ROUNDS], ratio[ROUNDS];
    struct measured m = {0, 0, 0};
    for (size_t round = 0; round < ROUNDS; round++)
        for (size_t turn = 0; turn < SIDES; turn++) {
            size_t i = round % 2 == 0 ? turn : SIDES - 1 - turn;
            make(&sides[i]);
            took[i][round] = (double)(ended - began);
        }
    double call = median(took[EMPTY], ROUNDS);
    for (size_t i = 1; i < EMPTY; i++) {
        for (size_t round = 0; round < ROUNDS; round++) {
            double other = took[i][round] - call;
            ratio[round] = (took[0][round] - call) / (other < 1 ? 1 : other);
        }
        double *best = sides[i].halves ? &m.halves : &m.same, r = median(ratio, ROUNDS);
        if (r > *best)
            *best = r;
        if (median(took[i], ROUNDS) - call < SHORTEST * per_ns)
            *best = NAN;
    }
    m.ns = (median(took[0], ROUNDS) - call) / per_ns;
    return m;
}

static void show(double ratio)
{
    if (isnan(ratio))
        printf("%7s", "-");
    else
        printf("%7.2f", ratio);
}

int main(int argc, char **argv)
{
    static const size_t sizes[] = {10, 64, 256};
    bool by_clock = !(argc > 1 && strcmp(argv[1], "once") == 0);
    double per_ns = by_clock ? ticks_per_ns() : 1;
    if (by_clock)
        printf("%-36s%21s%21s%21s\n%-36s%21s%21s%21s\n", "by the clock", "C 10         ", "C 64         ", "C 256        ", "", "ns  same halving",
               "ns  same halving", "ns  same halving");
    for (size_t i = 0; i < scenes; i++) {
        for (size_t k = 0; k < 3; k++) {
            set_scene(&scene, i, sizes[k]);
            agree(sizes[k]);
            if (!by_clock) {
                once(sizes[k]);
                continue;
            }
            struct measured m = measure(per_ns);
            if (k == 0)
                printf("%-36s", scene.name);
            printf("%7.0f", m.ns);
            show(m.same);
            show(m.halves);
            printf("%s", k == 2 ? "\n" : "");
            fflush(stdout);
        }
    }
    return 0;
}
