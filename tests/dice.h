/* A small seeded random number generator (splitmix64). Equal seeds give equal cases on every machine. */
#ifndef DICE_H
#define DICE_H

#include <stddef.h>
#include <stdint.h>

struct dice {
    uint64_t state;
};

static inline uint64_t dice_mix(uint64_t z)
{
    z = (z ^ z >> 30) * 0xbf58476d1ce4e5b9u;
    z = (z ^ z >> 27) * 0x94d049bb133111ebu;
    return z ^ z >> 31;
}

static inline uint64_t dice_next(struct dice *dice)
{
    dice->state += 0x9e3779b97f4a7c15u;
    return dice_mix(dice->state);
}

static inline uint32_t dice_word(struct dice *dice)
{
    return (uint32_t)(dice_next(dice) >> 32);
}

/* A number below the limit, which is at least 1. */
static inline uint32_t dice_below(struct dice *dice, uint32_t limit)
{
    return (uint32_t)(((dice_next(dice) >> 32) * limit) >> 32);
}

/* A number from the least to the most. */
static inline uint32_t dice_from(struct dice *dice, uint32_t least, uint32_t most)
{
    return least + dice_below(dice, most - least + 1);
}

/* True once in so many times. */
static inline int dice_once_in(struct dice *dice, uint32_t times)
{
    return dice_below(dice, times) == 0;
}

/* Each case has its own dice, made of the seed and the index alone. */
static inline struct dice dice_for_case(uint64_t seed, uint64_t index)
{
    struct dice dice = {dice_mix(seed + 0x9e3779b97f4a7c15u) ^ dice_mix(index * 0xd1342543de82ef95u + 1)};
    return dice;
}

static inline void dice_fill(struct dice *dice, void *memory, size_t bytes)
{
    unsigned char *at = memory;
    uint64_t bits = 0;

    for (size_t i = 0; i < bytes; i++) {
        if (i % 8 == 0)
            bits = dice_next(dice);
        at[i] = (unsigned char)(bits >> (8 * (i % 8)));
    }
}

#endif
