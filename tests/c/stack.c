/* How much stack the calls of a program take: linked with a test's own source by `ld --wrap` (tests/c/stack), each exported function of
 * include/gauge.h is called through one of these, which paints the stack below it, makes the call, and looks how far down the paint is gone. At the
 * end each function's most is written. */
#include "gauge.h"
#include <stdio.h>
#include <stdlib.h>

#define PAINTED 16384
#define PAINT 0x5C

enum { RECEIVE, SEND, TICK, NEIGHBOURS, CLOSEST, SEARCH, CONVERT, CHANGES, LOOK, CARRY, CARRIED, BALANCE, CALLS };
static const char *const names[CALLS] = {"receive", "send", "tick", "neighbours", "closest", "search",
                                         "convert", "changes", "look", "carry", "carried", "balance"};
static size_t most[CALLS];

__attribute__((destructor)) static void tell(void)
{
    for (int i = 0; i < CALLS; i++)
        fprintf(stderr, "stack gauge_%s %zu\n", names[i], most[i]);
}

/* Without a call between them, so that what is below is the call's alone. */
#define PAINTED_CALL(which, type, name, parameters, arguments)                                                                                     \
    __typeof__(name) __real_##name, __wrap_##name; /* so that parameters which are not the header's do not compile */                              \
    __attribute__((noinline)) type __wrap_##name parameters                                                                                        \
    {                                                                                                                                              \
        volatile uint8_t *top, *p;                                                                                                                 \
        __asm__ volatile("movq %%rsp, %0" : "=r"(top));                                                                                            \
        for (p = top - PAINTED; p < top; p++)                                                                                                      \
            *p = PAINT;                                                                                                                            \
        type a = __real_##name arguments;                                                                                                          \
        for (p = top - PAINTED; p < top && *p == PAINT; p++)                                                                                       \
            ;                                                                                                                                      \
        if ((size_t)(top - p) > most[which])                                                                                                       \
            most[which] = (size_t)(top - p);                                                                                                       \
        return a;                                                                                                                                  \
    }

PAINTED_CALL(RECEIVE, struct gauge_answer, gauge_receive,
             (const uint8_t *own, size_t own_len, const uint8_t *cpas, size_t cpas_len, uint8_t *cache, size_t cache_len,
              uint8_t *firsts, size_t firsts_len, uint8_t *waiting, size_t waiting_len,
              uint8_t major, uint8_t minor, uint32_t id, const uint8_t *nonce, size_t nonce_len, uint32_t verdict, const uint8_t *key, size_t key_len,
              const uint8_t *datagram, size_t datagram_len, uint8_t *output, size_t output_len),
             (own, own_len, cpas, cpas_len, cache, cache_len, firsts, firsts_len, waiting, waiting_len, major, minor, id, nonce, nonce_len, verdict,
              key, key_len, datagram, datagram_len, output, output_len))
PAINTED_CALL(SEND, struct gauge_answer, gauge_send,
             (const uint8_t *own, size_t own_len, const uint8_t *cache, size_t cache_len, uint8_t *waiting, size_t waiting_len,
              uint8_t major, uint8_t minor,
              uint32_t id, const uint8_t *neighbour, size_t neighbour_len, const uint8_t *key, size_t key_len, uint8_t *output, size_t output_len),
             (own, own_len, cache, cache_len, waiting, waiting_len, major, minor, id, neighbour, neighbour_len, key, key_len, output, output_len))
PAINTED_CALL(TICK, struct gauge_answer, gauge_tick,
             (const uint8_t *own, size_t own_len, uint8_t *waiting, size_t waiting_len, uint8_t *output, size_t output_len),
             (own, own_len, waiting, waiting_len, output, output_len))
PAINTED_CALL(NEIGHBOURS, struct gauge_answer, gauge_neighbours,
             (const uint8_t *own, size_t own_len, const uint8_t *cache, size_t cache_len, const uint8_t *key, size_t key_len, uint8_t *output,
              size_t output_len),
             (own, own_len, cache, cache_len, key, key_len, output, output_len))
PAINTED_CALL(CLOSEST, struct gauge_answer, gauge_closest,
             (const uint8_t *own, size_t own_len, const uint8_t *cache, size_t cache_len, const uint8_t *path, size_t path_len, const uint8_t *target,
              size_t target_len),
             (own, own_len, cache, cache_len, path, path_len, target, target_len))
PAINTED_CALL(SEARCH, struct gauge_answer, gauge_search,
             (const uint8_t *own, size_t own_len, const uint8_t *cache, size_t cache_len, const uint8_t *key, size_t key_len),
             (own, own_len, cache, cache_len, key, key_len))
PAINTED_CALL(CONVERT, struct gauge_answer, gauge_convert,
             (const uint8_t *own, size_t own_len, uint8_t *cache, size_t cache_len, uint8_t *waiting, size_t waiting_len),
             (own, own_len, cache, cache_len, waiting, waiting_len))
PAINTED_CALL(CHANGES, struct gauge_answer, gauge_changes,
             (const uint8_t *own, size_t own_len, const uint8_t *before, size_t before_len, const uint8_t *after, size_t after_len, uint8_t *output,
              size_t output_len),
             (own, own_len, before, before_len, after, after_len, output, output_len))
PAINTED_CALL(LOOK, struct gauge_look_answer, gauge_look, (uint8_t major, const uint8_t *datagram, size_t datagram_len), (major, datagram, datagram_len))
PAINTED_CALL(CARRY, struct gauge_carry_answer, gauge_carry,
             (uint8_t major, const uint8_t *authority, size_t authority_len, uint32_t kind, uint32_t measure, uint32_t litres_in, uint32_t litres_out,
              uint8_t *output, size_t output_len),
             (major, authority, authority_len, kind, measure, litres_in, litres_out, output, output_len))
PAINTED_CALL(CARRIED, struct gauge_reading, gauge_carried, (uint8_t major, const uint8_t *datagram, size_t datagram_len),
             (major, datagram, datagram_len))
PAINTED_CALL(BALANCE, int64_t, gauge_balance, (uint32_t litres_in, uint32_t litres_out), (litres_in, litres_out))
