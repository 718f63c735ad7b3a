/* Slices between two pages that may not be touched (tests/nights/fence.h). */
#define _DEFAULT_SOURCE
#include "fence.h"
#include <stdio.h>
#include <stdlib.h>
#include <string.h>
#include <sys/mman.h>

#define PAGE 4096u
#define FILLED 0xA5

struct fence fence_of(size_t most)
{
    size_t pages = (most + MARGIN + PAGE - 1) / PAGE;
    uint8_t *m = mmap(NULL, (pages + 2) * PAGE, PROT_READ | PROT_WRITE, MAP_PRIVATE | MAP_ANONYMOUS, -1, 0);
    if (m == MAP_FAILED || mprotect(m, PAGE, PROT_NONE) != 0 || mprotect(m + (pages + 1) * PAGE, PAGE, PROT_NONE) != 0) {
        fprintf(stderr, "fence: no memory\n");
        exit(2);
    }
    struct fence f = {m + PAGE, pages * PAGE};
    return f;
}

static uint8_t *place(const struct fence *f, bool front, size_t len)
{
    return front ? f->room : f->room + f->size - len;
}

static uint8_t *margin(const struct fence *f, bool front, size_t len)
{
    return front ? f->room + len : f->room + f->size - len - MARGIN;
}

uint8_t *fenced(const struct fence *f, bool front, size_t len)
{
    memset(margin(f, front, len), FILLED, MARGIN);
    return place(f, front, len);
}

bool margin_whole(const struct fence *f, bool front, size_t len)
{
    const uint8_t *p = margin(f, front, len);
    for (size_t i = 0; i < MARGIN; i++)
        if (p[i] != FILLED)
            return false;
    return true;
}
