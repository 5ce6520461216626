/*
 * Memory to lend, with pages on both sides that must not be touched. A mapping is made once and used for many cases;
 * only the part lent changes.
 */
#ifndef FENCES_H
#define FENCES_H

#include <stddef.h>
#include <stdint.h>

struct fence {
    uint8_t *low, *high;         /* the pages that may be opened */
    uint8_t *open_low, *open_high; /* the pages that are open now */
    size_t reserve;              /* closed bytes below low */
    int read_only;
};

enum fence_side {
    FENCE_RIGHT, /* the lent bytes end where the right fence starts */
    FENCE_LEFT,  /* the lent bytes start where the left fence ends */
    FENCE_SIDES
};

/* Maps memory for so many bytes, between a closed page above and at least so many closed bytes below. */
void fence_make(struct fence *fence, size_t bytes, size_t reserve);

/* How many bytes fit. */
size_t fence_room(const struct fence *fence);

size_t fence_page(void);

/*
 * Lends bytes at a side. Pages that hold none of them are closed, so that bytes of whole pages touch both fences.
 * The memory may be written until fence_protect.
 */
void *fence_lend(struct fence *fence, size_t bytes, enum fence_side side);

/*
 * Lends bytes of which the first `closed` ones are not there: all of them lie on closed pages, and the others start
 * with a page. What is answered is where the closed ones start. The reserve has to hold them.
 */
void *fence_lend_closed(struct fence *fence, size_t closed, size_t open);

/* From here until the next lending the lent bytes may only be read. */
void fence_protect(struct fence *fence);

#endif
