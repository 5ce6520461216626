/* Calls a function on a stack of so many bytes, whole pages, with a page beneath it that may not be touched. */
#ifndef SMALL_STACK_H
#define SMALL_STACK_H

#include <stddef.h>

void on_small_stack(size_t bytes, void (*call)(void));

#endif
