/* The form of a cache and the record closest to a target at C 256, by the archive and by plain C that a good programmer would write (words and
 * memcmp). Each call stands between two marks, so that tests/c/counted can count the instructions that it executes. Both must give the same
 * answer. */
#include <stdbool.h>
#include <stdint.h>
#include <stdio.h>
#include <string.h>

size_t leaves_form(const uint8_t *own, size_t own_len, const uint8_t *cache, size_t cache_len);
uint64_t leaves_closest(const uint8_t *own, size_t own_len, const uint8_t *cache, size_t cache_len, const uint8_t *target, size_t target_len);

#define C 256

static uint8_t own[100], cache[100 * C], target[32];

__attribute__((noinline)) void mark(void)
{
    __asm__ volatile("");
}

static uint64_t word(const uint8_t *s)
{
    uint64_t n;
    memcpy(&n, s, 8);
    return __builtin_bswap64(n);
}

static bool all_zero(const uint8_t *s, size_t n)
{
    uint64_t any = 0, w;
    for (; n >= 8; s += 8, n -= 8) {
        memcpy(&w, s, 8);
        any |= w;
    }
    for (; n > 0; n--)
        any |= *s++;
    return any == 0;
}

static bool record_form(const uint8_t *r)
{
    return r[34] == 1 && r[35] == 0 && all_zero(r + 52, 48);
}

__attribute__((noinline)) static size_t plain_form(const uint8_t *o, const uint8_t *s, size_t len)
{
    if (len % 100 != 0 || len < 1000 || len > 25600)
        return 257;
    size_t n = len / 100, used = 0;
    while (used < n && record_form(s + 100 * used) && (used == 0 || memcmp(s + 100 * used - 100, s + 100 * used, 32) < 0)
           && memcmp(s + 100 * used, o, 32) != 0)
        used++;
    return all_zero(s + 100 * used, len - 100 * used) ? used : 257;
}

struct key {
    uint64_t w[4];
};

static struct key key_at(const uint8_t *s)
{
    struct key k = {{word(s), word(s + 8), word(s + 16), word(s + 24)}};
    return k;
}

static int order(const struct key *x, const struct key *y)
{
    for (int i = 0; i < 4; i++)
        if (x->w[i] != y->w[i])
            return x->w[i] < y->w[i] ? -1 : 1;
    return 0;
}

static struct key minus(const struct key *x, const struct key *y)
{
    struct key d;
    uint64_t borrow = 0;
    for (int i = 3; i >= 0; i--) {
        uint64_t part = x->w[i] - y->w[i];
        d.w[i] = part - borrow;
        borrow = (x->w[i] < y->w[i]) | (part < borrow);
    }
    return d;
}

/* The shorter way round, modulo 2^256 (document 02, Wish 4); whether it goes up from the first to the second. */
static bool apart(const struct key *x, const struct key *y, struct key *far)
{
    *far = minus(x, y);
    if (far->w[0] >> 63 == 0)
        return false;
    *far = minus(y, x);
    return true;
}

struct nearest {
    struct key key, far;
    bool up;
};

static void try_key(struct nearest *best, const struct key *goal, struct key k)
{
    struct key d;
    bool goes_up = apart(goal, &k, &d);
    int which = order(&d, &best->far);
    if (which < 0 || (which == 0 && best->up && !goes_up)) {
        best->key = k;
        best->far = d;
        best->up = goes_up;
    }
}

/* A walk to the target's place, by the first word where that decides; keys go round, so that only the two beside it can be the closest. */
__attribute__((noinline)) static uint64_t plain_closest(const uint8_t *o, const uint8_t *s, size_t used, const uint8_t *t)
{
    struct key goal = key_at(t);
    struct nearest best = {key_at(o), {{0, 0, 0, 0}}, false};
    size_t at = 0;
    best.up = apart(&goal, &best.key, &best.far);
    while (at < used && (word(s + 100 * at) < goal.w[0] || (word(s + 100 * at) == goal.w[0] && memcmp(s + 100 * at, t, 32) < 0)))
        at++;
    if (used > 0) {
        try_key(&best, &goal, key_at(s + 100 * (at > 0 ? at - 1 : used - 1)));
        try_key(&best, &goal, key_at(s + 100 * (at < used ? at : 0)));
    }
    return best.key.w[3];
}

static uint32_t state = 20260207u;

static uint8_t next(void)
{
    state = state * 1664525u + 1013904223u;
    return (uint8_t)(state >> 24);
}

/* Rising keys: at random behind their first byte, or the same but for their last. */
static void fill(bool alike)
{
    memset(cache, 0, sizeof cache);
    for (size_t i = 0; i < C; i++) {
        uint8_t *r = cache + 100 * i;
        for (size_t j = 0; j < 32; j++)
            r[j] = (uint8_t)(alike ? (j == 31 ? i : 7) : j == 0 ? i : next());
        r[34] = 1;
        for (size_t j = 36; j < 52; j++)
            r[j] = next();
    }
    memcpy(own, cache + 100 * (C / 2), 100);
    own[30] ^= 1;
    memcpy(target, cache + 100 * (C / 3), 32);
    target[31] ^= 3;
}

int main(void)
{
    for (int alike = 0; alike < 2; alike++) {
        size_t form, plain;
        uint64_t near, plainly;
        fill(alike);
        mark();
        form = leaves_form(own, 100, cache, sizeof cache);
        mark();
        plain = plain_form(own, cache, sizeof cache);
        mark();
        near = leaves_closest(own, 100, cache, sizeof cache, target, 32);
        mark();
        plainly = plain_closest(own, cache, C, target);
        mark();
        if (form != plain || form != C || near != plainly) {
            printf("counted: the archive says %zu and %llx, plain C %zu and %llx\n", form, (unsigned long long)near, plain,
                   (unsigned long long)plainly);
            return 1;
        }
    }
    return 0;
}
