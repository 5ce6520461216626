/*
 * The calls of arboricx.h, written down as they are made, so that another build can make them again and be compared.
 * Each function here is that of the archive, with what goes in and what comes out written to a file, if one is open.
 *
 * For each call the file has, numbers with their lowest byte first:
 *
 *      the length of its name (1 byte), and the name without `arboricx_`
 *      how many arguments follow (1 byte), a pointer and its length being one of them; and each argument:
 *          'i', 4 bytes         a number
 *          'r', n, n bytes      bytes that are read, n of 4 bytes
 *          't', n, 4n bytes     a table of n words that may change, as it is before the call
 *          'a', n, n bytes      an answer, as it is before; no length is handed over with it
 *      for each table and each answer: all of it after the call
 *      the number returned (4 bytes); 0 where there is none
 */
#ifndef RECORD_H
#define RECORD_H

#include <stdint.h>

/* From here on calls are written to this file. */
void record_to(const char *path);

/* Writes what is still to be written. Gives up where something could not be. */
void record_end(void);

/* Whether all words of the next call's tables can be read. Where some are closed the call is made, and not written. */
void record_whole(int whole);

uint32_t recorded_check(const uint8_t *file, uint64_t file_len);

uint32_t recorded_load(const uint8_t *file, uint64_t file_len, uint32_t *words, uint64_t words_len, int32_t base,
                       uint32_t *exports, uint64_t exports_len, uint32_t *answer);

uint32_t recorded_run(uint32_t *words, uint64_t words_len, int32_t base, int32_t f, int32_t x, uint32_t used,
                      uint32_t fuel, uint32_t *jobs, uint64_t jobs_len, uint32_t *answer);

uint32_t recorded_carry_on(uint32_t *words, uint64_t words_len, int32_t base, int32_t f, int32_t x, uint32_t used,
                           uint32_t waiting, uint32_t steps, uint32_t fuel, uint32_t *jobs, uint64_t jobs_len,
                           uint32_t *answer);

uint32_t recorded_plain_run(uint32_t *words, uint64_t words_len, int32_t base, int32_t f, int32_t x, uint32_t used,
                            uint32_t fuel, uint32_t job_room, uint32_t *answer);

uint32_t recorded_export_index(const uint8_t *file, uint64_t file_len, const uint8_t *name, uint64_t name_len,
                               uint32_t *answer);

void recorded_export_name(const uint8_t *file, uint64_t file_len, uint32_t index, uint64_t *answer);

void recorded_sha256(const uint8_t *bytes, uint64_t bytes_len, uint8_t *digest);

#endif
