#include "trees.h"
#include "calls.h"

#include <string.h>

/* Trees are added children first, so that the text is read from its end. Equal trees may take several slots. */
uint32_t add_tree(uint32_t *slots, uint32_t *used, const char *text)
{
    uint32_t stack[64], depth = 0;

    for (size_t at = strlen(text); at > 0; at--) {
        uint32_t children = (uint32_t)(text[at - 1] - '0');
        uint32_t slot = *used;
        slots[2 * slot] = children > 0 ? stack[depth - 1] + 1 : 0;
        slots[2 * slot + 1] = children > 1 ? stack[depth - 2] + 1 : 0;
        if (children == 0)
            slot = 0; /* slot 0 is the only leaf */
        else
            (*used)++;
        depth = depth - children + 1;
        stack[depth - 1] = slot;
    }
    return stack[0];
}

static void tree_text(const uint32_t *slots, uint32_t slot, char *text, size_t room)
{
    uint32_t stack[64], depth = 0;

    stack[depth++] = slot;
    while (depth > 0 && room > 1) {
        uint32_t top = stack[--depth], first = slots[2 * top], second = slots[2 * top + 1];
        *text++ = (char)('0' + (first > 0) + (second > 0));
        room--;
        if (second > 0)
            stack[depth++] = second - 1;
        if (first > 0)
            stack[depth++] = first - 1;
    }
    *text = '\0';
}

void expect_tree(const uint32_t *slots, uint32_t slot, const char *wanted)
{
    char text[64];

    tree_text(slots, slot, text, sizeof text);
    expect("a tree of a known case", strcmp(text, wanted) == 0, 1);
}
