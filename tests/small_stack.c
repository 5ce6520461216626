#define _GNU_SOURCE
#include "small_stack.h"

#include "calls.h"

#include <stdint.h>
#include <sys/mman.h>
#include <ucontext.h>
#include <unistd.h>

void on_small_stack(size_t bytes, void (*call)(void))
{
    static ucontext_t outside, inside;
    size_t page = (size_t)sysconf(_SC_PAGESIZE);
    uint8_t *map = mmap(NULL, page + bytes, PROT_READ | PROT_WRITE, MAP_PRIVATE | MAP_ANONYMOUS, -1, 0);

    expect("a stack with a fence", map != MAP_FAILED && mprotect(map, page, PROT_NONE) == 0, 1);
    getcontext(&inside);
    inside.uc_stack.ss_sp = map + page;
    inside.uc_stack.ss_size = bytes;
    inside.uc_link = &outside;
    makecontext(&inside, call, 0);
    swapcontext(&outside, &inside);
    munmap(map, page + bytes);
}
