/* Depths under every setting of the processor (document 02: "Depth from 0 to 20 with both ends .. negative zero allowed; anything else .. is
 * refused"). A program that was compiled with -ffast-math has set the processor to take the smallest floats for 0, and one may have set it to stop at
 * a float that is not a number: the archive compares bits, so the same depths are taken and refused. First it is seen that the setting is on: by it
 * the greatest float below 0 is not below 0. */
#include "gauge.h"
#include <stdio.h>
#include <string.h>
#include <xmmintrin.h>

#define COUNT(a) (sizeof(a) / sizeof *(a))
#define FLUSH 0x8040u  /* results that are too small are 0, and so are operands */
#define MASKED 0x1F80u /* no float operation stops the program: as every program begins */

static const struct {
    unsigned bits;
    const char *name;
} settings[] = {{MASKED, "as it begins"}, {MASKED | FLUSH, "smallest floats are 0"}, {FLUSH, "smallest floats are 0, stops at faults"},
                {0, "stops at faults"}};

static const struct {
    uint32_t bits, number;
} depths[] = {{0x00000000, 0}, {0x80000000, 0}, {0x00000001, 0}, {0x007FFFFF, 0}, {0x00800000, 0}, {0x41A00000, 0}, {0x41A00001, 3}, {0x80000001, 3},
              {0x807FFFFF, 3}, {0x80800000, 3}, {0x7F800000, 3}, {0xFF800000, 3}, {0x7FC00000, 3}, {0x7F800001, 3}, {0xFF800001, 3}, {0xFFFFFFFF, 3}};

/* An AUTHORITY that is its whole buffer and has nothing in it but flags, all clear. */
static const uint8_t authority[] = {0x00, 0x10, 0x00, 0x0C, 0x51, 6, 101, 8, 0, 0, 0, 7,       /* header */
                                    0x00, 0x18, 0x00, 0x08, 0xD8, 0x85, 0x9C, 0xF5,            /* acked ID */
                                    0x00, 0x98, 0x00, 0x08, 0, 8, 0, 0,                        /* 8 bytes follow, from 0 */
                                    0x00, 0x40, 0x00, 0x06, 0, 0, 0, 0};

/* Is the greatest float below 0 below 0? */
static int is_below(void)
{
    uint32_t bits = 0x80000001;
    float least;
    memcpy(&least, &bits, sizeof least);
    volatile float x = least;
    return x < 0.0f;
}

/* One depth, put into the AUTHORITY and taken out again. NULL, or what is wrong. */
static const char *carry(uint32_t bits, uint32_t number)
{
    static uint8_t out[GAUGE_DATAGRAM_MOST];
    struct gauge_carry_answer a = gauge_carry(6, authority, sizeof authority, 1, bits, 3, 4, out, sizeof out);
    if (a.number != 0 || a.reading != number)
        return "it gave another number";
    if (number != 0)
        return a.length == 0 ? NULL : "something is said to be written";
    struct gauge_reading r = gauge_carried(6, out, a.length);
    return r.number == 0 && r.reading == 0 && r.kind == 1 && r.measure == bits ? NULL : "it was taken out as another reading";
}

int main(void)
{
    unsigned begun = _mm_getcsr();
    for (size_t s = 0; s < COUNT(settings); s++) {
        _mm_setcsr(MASKED | (settings[s].bits & FLUSH));
        if (is_below() == ((settings[s].bits & FLUSH) != 0)) {
            printf("settings: the processor is not set so: %s\n", settings[s].name);
            return 1;
        }
        for (size_t i = 0; i < COUNT(depths); i++) {
            _mm_setcsr(settings[s].bits);
            const char *what = carry(depths[i].bits, depths[i].number);
            _mm_setcsr(begun);
            if (what != NULL) {
                printf("settings: %s, depth %08X: %s\n", settings[s].name, (unsigned)depths[i].bits, what);
                return 1;
            }
        }
    }
    printf("settings: %zu depths are the same under %zu settings of the processor\n", COUNT(depths), COUNT(settings));
    return 0;
}
