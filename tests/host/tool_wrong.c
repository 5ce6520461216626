/*
 * The tool with one thing wrong. The environment's WRONG says which: 0 to 3, that number of a plain run's answer; word, the
 * last word after a plain run; load, run, carry_on or plain_run, a word before the base after that call; version, the
 * archive's number. Two are not wrong: with terminal standard error is taken for one, with terminals standard output too.
 */
#define _POSIX_C_SOURCE 200112L
#include <stdint.h>
#include <stdio.h>
#include <stdlib.h>
#include <string.h>
#include <unistd.h>

#include "arboricx.h"

enum { BEFORE_THE_BASE = 3 };

static int wrong_in(const char *what)
{
    const char *const wrong = getenv("WRONG");
    return wrong != NULL && strcmp(wrong, what) == 0;
}

static uint32_t spoil(const char *call, uint32_t *table, uint32_t number)
{
    if (wrong_in(call)) table[BEFORE_THE_BASE]++;
    return number;
}

static uint32_t spoil_plain(uint32_t *table, size_t len, uint32_t *answer, uint32_t number)
{
    static const char *const places[ARBORICX_PLAIN_ANSWER] = {"0", "1", "2", "3"};
    for (int i = 0; i < ARBORICX_PLAIN_ANSWER; i++) answer[i] += (uint32_t)wrong_in(places[i]);
    table[len - 1] += (uint32_t)wrong_in("word");
    return spoil("plain_run", table, number);
}

/* A macro is not expanded again inside itself: there it is the call. */
#define arboricx_load(file, file_len, words, ...) \
    spoil("load", words, arboricx_load(file, file_len, words, __VA_ARGS__))
#define arboricx_run(words, ...) spoil("run", words, arboricx_run(words, __VA_ARGS__))
#define arboricx_carry_on(words, ...) spoil("carry_on", words, arboricx_carry_on(words, __VA_ARGS__))
#define arboricx_plain_run(words, len, base, f, x, used, fuel, job_room, answer) \
    spoil_plain(words, len, answer, arboricx_plain_run(words, len, base, f, x, used, fuel, job_room, answer))
#define arboricx_version() (arboricx_version() + (uint32_t)wrong_in("version"))
#define isatty(descriptor) (wrong_in("terminals") || (wrong_in("terminal") && (descriptor) == STDERR_FILENO))
#include "../../host/arboricx.c"
