/*
 * The yardstick for arboricx_run and arboricx_carry_on: the same seven rules over the same tables in plain C, with no
 * check of the base, the slots or the tables, and no clearing of the job table at the start. A job that goes is zeroed,
 * so that both leave the same words.
 */
#ifndef PLAIN_RUN_H
#define PLAIN_RUN_H

#include <stddef.h>
#include <stdint.h>

#include "arboricx.h"

/* Answers as arboricx_run does where that one lets the run start, and leaves what it leaves if `jobs` was zero. */
uint32_t plain_run(uint32_t *words, uint64_t words_len, int32_t base,
                   int32_t f, int32_t x, uint32_t used, uint32_t fuel,
                   uint32_t *jobs, uint64_t jobs_len,
                   uint32_t answer[ARBORICX_RUN_ANSWER]);

/* Goes on as arboricx_carry_on does where that one is not refused. */
uint32_t plain_carry_on(uint32_t *words, uint64_t words_len, int32_t base,
                        int32_t f, int32_t x, uint32_t used, uint32_t waiting, uint32_t steps, uint32_t fuel,
                        uint32_t *jobs, uint64_t jobs_len,
                        uint32_t answer[ARBORICX_RUN_ANSWER]);

/* The test of the used slots by itself: 1 where they are sound, else 0. */
int plain_sound(const uint32_t *slots, uint32_t used);

/* The test of the waiting jobs by itself. */
int plain_jobs_sound(const uint32_t *jobs, uint64_t jobs_len, uint32_t waiting, uint32_t used);

#endif
