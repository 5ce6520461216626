/*
 * Each call made on both sides, on equal copies of lent memory between fences, with all that comes out compared.
 * The first difference is reported with what it takes to see it again, and ends the program.
 */
#ifndef CALLS_H
#define CALLS_H

#include "dice.h"

#include <stddef.h>
#include <stdint.h>

/* Whether memory of more than 4 GiB can be lent: not with 32 bits. With 0 their cases are played on 64 bits too. */
#ifndef VAST_MEMORY
#define VAST_MEMORY (SIZE_MAX > UINT32_MAX)
#endif

/* The largest base of a table. Its words before it take up addresses: with 32 bits only so many are to be had. */
enum { LARGEST_BASE = VAST_MEMORY ? INT32_MAX : 0x7fffff };

enum side { ARCHIVE, REFERENCE, SIDES };

/* Equal tables, one for each side. The first `closed` words lie on pages that must not be touched. */
struct lent {
    uint32_t *words[SIDES];
    size_t length, closed;
};

/* The words that are not closed, in bytes. */
static inline size_t open_bytes(const struct lent *lent)
{
    return (lent->length - lent->closed) * sizeof(uint32_t);
}

enum table { TABLE_WORDS, TABLE_EXPORTS, TABLE_JOBS, TABLE_OTHER_JOBS, TABLE_COPY, TABLES };

/* How long the tables of each kind may be, in words that are not closed. */
enum { MOST_WORDS = 140000, MOST_EXPORTS = 1024, MOST_JOBS = 200704 };

/* Makes the mappings and installs the handler that reports a touched fence. */
void calls_prepare(const char *program);

/* Says which case the following calls belong to. */
void calls_case(uint64_t seed, uint64_t index, int broken);

/* Lends the file of the following calls. Nobody can write it from here on. */
void lend_file(const uint8_t *bytes, size_t length, struct dice *dice);

/* The bytes of the file, as lent. */
const uint8_t *lent_file(void);

/* Lends a table for both sides, filled with equal random words. */
void lend_table(struct lent *lent, enum table table, size_t length, size_t closed, struct dice *dice);

uint32_t both_check(void);
uint32_t both_load(struct lent *words, int32_t base, struct lent *exports, uint32_t answer[3]);

/* The name may be some bytes of the lent file; else it is lent for itself. */
uint32_t both_index(const uint8_t *name, size_t name_len, uint32_t answer[2]);
void both_name(uint32_t index, uint64_t answer[2]);
void both_sha256(size_t start, size_t length);

struct run {
    int32_t base, f, x;
    uint32_t used, fuel;
};

/* Also makes the plain run on a copy of the words: the two engines have to come to the same. */
uint32_t both_run(struct lent *words, const struct run *run, struct lent *jobs, uint32_t answer[6]);

uint32_t both_plain_run(struct lent *words, const struct run *run, uint32_t job_room, uint32_t answer[4]);

/* Goes on with a stopped run: f, x, used, waiting and steps are the stop's. */
struct carry {
    struct run run;
    uint32_t waiting, steps;
};

uint32_t both_carry_on(struct lent *words, const struct carry *carry, struct lent *jobs, uint32_t answer[6]);

/* Reports what both sides agree on but ought not to answer. */
void expect(const char *what, uint64_t got, uint64_t wanted);

uint64_t calls_made(void);

/* Prints how often each number was answered. */
void print_numbers(void);

#endif
