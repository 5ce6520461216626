#define _GNU_SOURCE

#include "fences.h"

#include <stdio.h>
#include <stdlib.h>
#include <sys/mman.h>
#include <unistd.h>

size_t fence_page(void)
{
    static size_t page;

    if (page == 0)
        page = (size_t)sysconf(_SC_PAGESIZE);
    return page;
}

static size_t whole_pages(size_t bytes)
{
    size_t page = fence_page();

    return (bytes + page - 1) / page * page;
}

static void give_up(const char *call)
{
    perror(call);
    exit(3);
}

static void protect(uint8_t *low, uint8_t *high, int protection)
{
    if (low < high && mprotect(low, (size_t)(high - low), protection) != 0)
        give_up("mprotect");
}

void fence_make(struct fence *fence, size_t bytes, size_t reserve)
{
    size_t usable = whole_pages(bytes), below = whole_pages(reserve) + fence_page();
    int kind = MAP_PRIVATE | MAP_ANONYMOUS | MAP_NORESERVE;
    uint8_t *map = mmap(NULL, below + usable + fence_page(), PROT_NONE, kind, -1, 0);

    if (map == MAP_FAILED)
        give_up("mmap");
    fence->low = map + below;
    fence->high = fence->low + usable;
    fence->open_low = fence->open_high = fence->high;
    fence->reserve = below;
    fence->read_only = 0;
}

size_t fence_room(const struct fence *fence)
{
    return (size_t)(fence->high - fence->low);
}

/* Opens just these pages for reading and writing. Does nothing where they are the ones open now. */
static void open_pages(struct fence *fence, uint8_t *low, uint8_t *high)
{
    if (low == fence->open_low && high == fence->open_high && !fence->read_only)
        return;
    protect(fence->open_low, fence->open_high, PROT_NONE);
    protect(low, high, PROT_READ | PROT_WRITE);
    fence->open_low = low;
    fence->open_high = high;
    fence->read_only = 0;
}

void *fence_lend(struct fence *fence, size_t bytes, enum fence_side side)
{
    size_t pages = whole_pages(bytes);

    if (pages > fence_room(fence))
        give_up("fence_lend: too many bytes");
    if (side == FENCE_LEFT) {
        open_pages(fence, fence->low, fence->low + pages);
        return fence->low;
    }
    open_pages(fence, fence->high - pages, fence->high);
    return fence->high - bytes;
}

void *fence_lend_closed(struct fence *fence, size_t closed, size_t open)
{
    size_t pages = whole_pages(open);

    if (pages > fence_room(fence) || closed > fence->reserve)
        give_up("fence_lend_closed: too many bytes");
    open_pages(fence, fence->high - pages, fence->high);
    return fence->high - pages - closed;
}

void fence_protect(struct fence *fence)
{
    protect(fence->open_low, fence->open_high, PROT_READ);
    fence->read_only = 1;
}
