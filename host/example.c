/* A first program: loads a bundle from standard input, and lets its first export make one move, with all numbers looked at. */
#include <inttypes.h>
#include <stdio.h>
#include <stdlib.h>

#include "arboricx.h"

enum { BASE = 0, SLOTS = 4096, WORDS = BASE + ARBORICX_SLOT_WORDS * SLOTS, JOBS = 256, JOB_TABLE = ARBORICX_JOB_WORDS * JOBS };
enum { FIRST = 0, LEAF = 0, ALLOWANCE = 1000, TURNS = 3 };

static uint8_t file[ARBORICX_MAX_FILE + 1]; /* one byte more than a bundle has, so that a longer file is refused */
static uint32_t words[WORDS], exports[ARBORICX_MAX_EXPORTS], jobs[JOB_TABLE];

static int say(const char *what, uint32_t number)
{
    printf("%s, %" PRIu32 ": %s\n", what, number, arboricx_number_text(number));
    return EXIT_FAILURE;
}

int main(void)
{
    uint32_t loaded[ARBORICX_LOAD_ANSWER], ran[ARBORICX_RUN_ANSWER];
    const size_t length = fread(file, sizeof *file, sizeof file, stdin);
    if (ferror(stdin)) return EXIT_FAILURE;
    uint32_t number = arboricx_load(file, length, words, WORDS, BASE, exports, ARBORICX_MAX_EXPORTS, loaded);
    if (number != ARBORICX_OK) return say("refused", number);
    printf("%" PRIu32 " nodes, %" PRIu32 " exports\n", loaded[ARBORICX_LOAD_NODES], loaded[ARBORICX_LOAD_EXPORTS]);

    /* The move: the first export applied to the leaf. Where the fuel is not enough, it thinks on in the next turn. */
    number = arboricx_run(words, WORDS, BASE, (int32_t)exports[FIRST], LEAF, loaded[ARBORICX_LOAD_NODES], ALLOWANCE, jobs,
                          JOB_TABLE, ran);
    for (int turns = TURNS - 1; number == ARBORICX_OUT_OF_FUEL && turns > 0; turns--)
        number = arboricx_carry_on(words, WORDS, BASE, (int32_t)ran[ARBORICX_RUN_F], (int32_t)ran[ARBORICX_RUN_X],
                                   ran[ARBORICX_RUN_USED], ran[ARBORICX_RUN_JOBS], ran[ARBORICX_RUN_STEPS], ALLOWANCE,
                                   jobs, JOB_TABLE, ran);
    if (number != ARBORICX_OK) return say("no move", number);
    printf("moved to slot %" PRIu32 " in %" PRIu32 " steps, %" PRIu32 " slots used\n", ran[ARBORICX_RUN_SLOT],
           ran[ARBORICX_RUN_STEPS], ran[ARBORICX_RUN_USED]);
    return EXIT_SUCCESS;
}
