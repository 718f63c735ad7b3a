/* The leaf functions, called from C in the archive that the compiler made of them, against plain C on many inputs.
 * What is proved is the source; this runs the machine code. The seed is fixed, so that a difference can be looked at again. */
#include <stdbool.h>
#include <stdint.h>
#include <stdio.h>
#include <stdlib.h>
#include <string.h>

uint64_t leaves_u64(const uint8_t *s, size_t len, size_t at);
bool leaves_equal(const uint8_t *a, size_t a_len, const uint8_t *b, size_t b_len);
bool leaves_zero(const uint8_t *s, size_t len);
uint8_t leaves_closer(const uint8_t *target, size_t t_len, const uint8_t *k, size_t k_len, const uint8_t *j, size_t j_len);

#define MOST 300
#define SEED 20260207u

static uint32_t state = SEED;

static uint32_t next(void)
{
    state ^= state << 13;
    state ^= state >> 17;
    state ^= state << 5;
    return state;
}

static void differ(const char *what, size_t n)
{
    printf("leaves: %s differs from plain C at %zu (seed %u)\n", what, n, SEED);
    exit(1);
}

static uint64_t plain_u64(const uint8_t *s, size_t len, size_t at)
{
    uint64_t n = 0;
    if (len < 8 || at > len - 8)
        return 0;
    for (size_t i = 0; i < 8; i++)
        n = n << 8 | s[at + i];
    return n;
}

static bool plain_zero(const uint8_t *s, size_t len)
{
    for (size_t i = 0; i < len; i++)
        if (s[i] != 0)
            return false;
    return true;
}

/* One key less another, modulo 2^256: byte by byte from the last. */
static void plain_minus(const uint8_t *x, const uint8_t *y, uint8_t *out)
{
    int borrow = 0;
    for (int i = 31; i >= 0; i--) {
        int d = x[i] - y[i] - borrow;
        borrow = d < 0;
        out[i] = (uint8_t)(d + 256 * borrow);
    }
}

/* The shorter way round (document 02, Wish 4); whether it goes down from the target. */
static bool plain_far(const uint8_t *target, const uint8_t *k, uint8_t *out)
{
    uint8_t up[32], down[32];
    plain_minus(k, target, up);
    plain_minus(target, k, down);
    bool goes_down = memcmp(down, up, 32) <= 0;
    memcpy(out, goes_down ? down : up, 32);
    return goes_down;
}

static uint8_t plain_closer(const uint8_t *target, const uint8_t *k, const uint8_t *j)
{
    uint8_t d[32], e[32];
    bool k_down = plain_far(target, k, d), j_down = plain_far(target, j, e);
    int order = memcmp(d, e, 32);
    return order < 0 || (order == 0 && k_down && !j_down);
}

/* Bytes of which few are not zero, so that what is equal or zero is met as often as what is not. */
static void fill(uint8_t *s, size_t len)
{
    memset(s, 0, len);
    for (uint32_t times = next() % 3; times > 0 && len > 0; times--)
        s[next() % len] = (uint8_t)next();
}

static void try_slices(void)
{
    uint8_t a[MOST], b[MOST];
    for (size_t turn = 0; turn < 60000; turn++) {
        size_t len = turn % MOST, other = next() % 8 ? len : next() % MOST;
        fill(a, len);
        if (next() % 2)
            fill(b, other);
        else
            memcpy(b, a, MOST);
        if (leaves_zero(a, len) != plain_zero(a, len))
            differ("the zero test", turn);
        if (leaves_equal(a, len, b, other) != (len == other && memcmp(a, b, len) == 0))
            differ("equality", turn);
        size_t at = next() % 16 ? next() % (MOST + 8) : SIZE_MAX - next() % 16;
        if (leaves_u64(a, len, at) != plain_u64(a, len, at))
            differ("the 64-bit read", turn);
    }
}

/* Keys of few digits that are not zero, near each other and near both ends, and just opposite of them, or with their bytes at random. */
static void key(uint8_t *k)
{
    memset(k, next() % 4 ? 0 : 255, 32);
    k[0] ^= (uint8_t)(next() % 4 ? 0 : 0x80);
    for (uint32_t times = next() % 40; times > 0; times -= times > 8 ? 5 : 1)
        k[next() % 32] = (uint8_t)(next() % 4 ? next() % 3 : next());
}

static void try_keys(void)
{
    uint8_t target[32], k[32], j[32];
    for (size_t turn = 0; turn < 60000; turn++) {
        key(target);
        key(k);
        key(j);
        if (next() % 4 == 0)
            memcpy(j, k, 32);
        if (next() % 4 == 0) { /* as far from the target on its other side */
            plain_minus(target, k, j);
            for (int i = 31, carry = 0; i >= 0; i--, carry >>= 8)
                j[i] = (uint8_t)(carry += target[i] + j[i]);
        }
        if (leaves_closer(target, 32, k, 32, j, 32) != plain_closer(target, k, j))
            differ("the closer of two keys", turn);
        size_t len = next() % 64;
        uint8_t wrong = len == 32 ? plain_closer(target, k, j) : 2;
        uint8_t room[64] = {0};
        memcpy(room, k, 32);
        if (len != 32 && leaves_closer(target, 32, room, len, j, 32) != wrong)
            differ("a key of another length", turn);
    }
}

int main(void)
{
    try_slices();
    try_keys();
    printf("leaves: 240000 calls of the archive as plain C has them\n");
    return 0;
}
