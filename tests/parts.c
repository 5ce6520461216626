#include "parts.h"
#include "arboricx.h"

#include <string.h>

enum { SOME_PARTS = 8 };

/* Both tables at one time; the two sides have the same words. */
struct copy {
    uint32_t words[MOST_WORDS], jobs[MOST_JOBS];
};

static struct copy before, whole;

static void keep(struct copy *copy, const struct start *start)
{
    memcpy(copy->words, start->words->words[ARCHIVE] + start->words->closed, open_bytes(start->words));
    memcpy(copy->jobs, start->jobs->words[ARCHIVE], open_bytes(start->jobs));
}

static void put_back(const struct copy *copy, const struct start *start)
{
    for (unsigned side = 0; side < SIDES; side++) {
        memcpy(start->words->words[side] + start->words->closed, copy->words, open_bytes(start->words));
        memcpy(start->jobs->words[side], copy->jobs, open_bytes(start->jobs));
    }
}

/* The answer and the tables are those of the one call with the sum. */
static void expect_whole(const struct start *start, const uint32_t answer[6], const uint32_t wanted[6])
{
    const uint32_t *words = start->words->words[ARCHIVE] + start->words->closed;
    const uint32_t *jobs = start->jobs->words[ARCHIVE];

    for (unsigned i = 0; i < ARBORICX_RUN_ANSWER; i++)
        expect("answer of fuel in parts", answer[i], wanted[i]);
    expect("words of fuel in parts", memcmp(words, whole.words, open_bytes(start->words)) == 0, 1);
    expect("jobs of fuel in parts", memcmp(jobs, whole.jobs, open_bytes(start->jobs)) == 0, 1);
}

static uint32_t begin(const struct start *start, uint32_t fuel, uint32_t answer[6])
{
    struct carry carry = start->carry;

    carry.run.fuel = fuel;
    if (start->onward)
        return both_carry_on(start->words, &carry, start->jobs, answer);
    return both_run(start->words, &carry.run, start->jobs, answer);
}

static uint32_t go_on(const struct start *start, uint32_t fuel, uint32_t answer[6])
{
    struct carry carry = {{start->carry.run.base, (int32_t)answer[ARBORICX_RUN_F], (int32_t)answer[ARBORICX_RUN_X],
                           answer[ARBORICX_RUN_USED], fuel},
                          answer[ARBORICX_RUN_JOBS],
                          answer[ARBORICX_RUN_STEPS]};

    return both_carry_on(start->words, &carry, start->jobs, answer);
}

/* The one call with the sum. A stop for want of slots or job places comes again at once, whatever the fuel. */
static void play_whole(const struct start *start, uint32_t wanted[6])
{
    uint32_t again[ARBORICX_RUN_ANSWER];

    keep(&before, start);
    uint32_t number = begin(start, start->carry.run.fuel, wanted);
    keep(&whole, start);
    if (number != ARBORICX_OUT_OF_SLOTS && number != ARBORICX_OUT_OF_JOBS)
        return;
    memcpy(again, wanted, sizeof again);
    go_on(start, UINT32_MAX - wanted[ARBORICX_RUN_STEPS], again);
    expect_whole(start, again, wanted);
}

/* The first part that does not stop for want of fuel is the last. */
static void play_parts(const struct start *start, const uint32_t *fuels, uint32_t parts, const uint32_t wanted[6])
{
    uint32_t answer[ARBORICX_RUN_ANSWER];

    put_back(&before, start);
    uint32_t number = begin(start, fuels[0], answer);
    for (uint32_t i = 1; i < parts && number == ARBORICX_OUT_OF_FUEL; i++)
        number = go_on(start, fuels[i], answer);
    expect_whole(start, answer, wanted);
}

void cut_everywhere(const struct start *start, uint32_t answer[6])
{
    uint32_t fuels[MOST_CUTS], fuel = start->carry.run.fuel;

    play_whole(start, answer);
    for (uint32_t first = 0; first <= fuel; first++) {
        fuels[0] = first;
        fuels[1] = fuel - first;
        play_parts(start, fuels, 2, answer);
    }
    for (uint32_t i = 0; i < fuel; i++)
        fuels[i] = 1;
    play_parts(start, fuels, fuel, answer);
}

void cut_somewhere(const struct start *start, struct dice *dice, uint32_t answer[6])
{
    uint32_t fuels[SOME_PARTS], parts = dice_from(dice, 2, SOME_PARTS);
    uint32_t fuel = start->carry.run.fuel, earlier = start->onward ? start->carry.steps : 0;

    play_whole(start, answer);
    uint32_t steps = answer[ARBORICX_RUN_USED] > 0 ? answer[ARBORICX_RUN_STEPS] - earlier : 0; /* used 0: refused */
    for (uint32_t i = 0; i + 1 < parts; i++) {
        fuels[i] = dice_once_in(dice, 4) ? 0 : dice_below(dice, steps / 2 + 1);
        steps -= fuels[i];
        fuel -= fuels[i];
    }
    fuels[parts - 1] = fuel;
    play_parts(start, fuels, parts, answer);
}
