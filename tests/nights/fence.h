/* Slices that end where a page begins that may not be touched, or begin where one ends: what reads or writes outside of what it was lent is stopped,
 * or changes the margin on the slice's other side. */
#ifndef FENCE_H
#define FENCE_H

#include <stdbool.h>
#include <stddef.h>
#include <stdint.h>

#define MARGIN 64u

struct fence {
    uint8_t *room; /* between the two pages */
    size_t size;
};

/* Room for slices of up to so many bytes and their margin, in whole pages. Ends the program where there is none. */
struct fence fence_of(size_t most);

/* The place of a slice: at the front of the room, or else at its end. Its margin is laid anew. */
uint8_t *fenced(const struct fence *f, bool front, size_t len);
bool margin_whole(const struct fence *f, bool front, size_t len);

#endif
