/*
 * A second implementation of the calls of arboricx.h, written from the paper alone. The archive is compared with it,
 * and timed against it. Signatures and answers are those of arboricx.h.
 */
#ifndef REFERENCE_H
#define REFERENCE_H

#include <stddef.h>
#include <stdint.h>

uint32_t reference_check(const uint8_t *file, uint64_t file_len);

uint32_t reference_load(const uint8_t *file, uint64_t file_len, uint32_t *words, uint64_t words_len, int32_t base,
                        uint32_t *exports, uint64_t exports_len, uint32_t answer[3]);

uint32_t reference_run(uint32_t *words, uint64_t words_len, int32_t base, int32_t f, int32_t x, uint32_t used,
                       uint32_t fuel, uint32_t *jobs, uint64_t jobs_len, uint32_t answer[6]);

uint32_t reference_carry_on(uint32_t *words, uint64_t words_len, int32_t base, int32_t f, int32_t x, uint32_t used,
                            uint32_t waiting, uint32_t steps, uint32_t fuel, uint32_t *jobs, uint64_t jobs_len,
                            uint32_t answer[6]);

uint32_t reference_plain_run(uint32_t *words, uint64_t words_len, int32_t base, int32_t f, int32_t x, uint32_t used,
                             uint32_t fuel, uint32_t job_room, uint32_t answer[4]);

uint32_t reference_export_index(const uint8_t *file, uint64_t file_len, const uint8_t *name, uint64_t name_len,
                                uint32_t answer[2]);

void reference_export_name(const uint8_t *file, uint64_t file_len, uint32_t index, uint64_t answer[2]);

void reference_sha256(const uint8_t *bytes, uint64_t bytes_len, uint8_t digest[32]);

/*
 * Faults that can be switched on to see that the comparison finds them. They exist only where REFERENCE_FAULTS is
 * defined; elsewhere every test of them is the constant 0.
 */
enum reference_fault_place {
    FAULT_NONE,
    FAULT_STEP_TOO_MANY,      /* a run that is done answers one step too many */
    FAULT_NEGATIVE_BASE,      /* a negative base is taken for 0 */
    FAULT_NO_ZERO_BYTE,       /* the node hash lacks the zero byte after the domain */
    FAULT_OFFSET_WRAPS,       /* offset plus length wraps, in sections that are skipped */
    FAULT_TRUSTED_SLOT,       /* a second child may be the slot itself */
    FAULT_JOB_STAYS,          /* a job that goes is not zeroed */
    FAULT_NEW_SLOT,           /* the first word of a new slot is one too small */
    FAULT_EXPORT_ORDER,       /* export slots are written last export first */
    FAULT_EMPTY_NAME,         /* the empty name is not there */
    FAULT_OVERLONG,           /* two-byte forms of ASCII are taken for UTF-8 */
    FAULT_CHILDREN_FIRST,     /* children have to come first in the file */
    FAULT_SURROGATE,          /* surrogates are taken for UTF-8 */
    FAULT_JOB_REMAINDER,      /* words behind the last whole job are not zeroed */
    FAULT_PLACING_GOES_ON,    /* placing goes on behind the last placed record instead of at the earliest */
    FAULT_SLOTS_BEFORE_FUEL,  /* stop 32 is looked for before stop 31 */
    FAULT_NEGATIVE_SLOT,      /* a negative slot is taken for slot 0 */
    FAULT_CRITICAL_KNOWN,     /* a critical manifest or nodes section is refused */
    FAULT_EQUAL_NAMES,        /* names used twice are not noticed */
    FAULT_SHA_PADDING,        /* the digest of 56 bytes modulo 64 lacks a block */
    FAULT_BEFORE_BASE,        /* a run looks at the word before the base: a fence has to catch it */
    FAULT_BEHIND_FILE,        /* a check looks at the byte behind the file: a fence has to catch it */
    FAULT_JOBS_TRUSTED,       /* of the waiting jobs only the count is looked at */
    FAULT_THIRD_WORD,         /* the third word of a job may be any under tags 2 and 3 */
    FAULT_REMAINDER_UNSEEN,   /* words after the last whole job may be any */
    FAULT_SUM_WRAPS,          /* earlier steps plus fuel wraps */
    FAULT_SUM_FIRST,          /* 40 is looked for before the waiting jobs are */
    FAULT_JOBS_ZEROED,        /* a carry-on zeroes the jobs first */
    FAULT_STEPS_FROM_ZERO,    /* a carry-on counts its own steps only */
    FAULT_SECOND_FIRST,       /* plain: rule 4 applies b to x before a to x */
    FAULT_JOB_KEPT,           /* plain: a job that is carried out is still counted */
    FAULT_JOB_GONE_EARLY,     /* plain: while b is applied to x, the job of rule 4 is not counted */
    FAULT_STOP_PASSED,        /* plain: a stop within a to x does not keep rule 4 from b to x */
    FAULT_STEP_BEFORE_SLOT,   /* plain: a step is spent before stop 32 */
    FAULT_PLACE_BEFORE_FUEL,  /* plain: stop 33 is looked for before stop 31 */
    FAULT_STOP_SLOT,          /* plain: at a stop the slot is the f still to be applied */
    FAULT_DEEP_AT_LIMIT,      /* plain: 1,000 is refused */
    FAULT_DEEP_ABOVE_LIMIT,   /* plain: 1,001 is taken */
    FAULT_DEEP_ROOM,          /* plain: the job room may be any */
    FAULT_DEEP_FIRST,         /* plain: 49 is looked for before 24 */
    FAULT_DEEP_USED,          /* plain: with 49 the used count is answered */
    FAULT_END
};

#ifdef REFERENCE_FAULTS
extern int reference_fault;
#endif

static inline int reference_fault_at(enum reference_fault_place place)
{
#ifdef REFERENCE_FAULTS
    return reference_fault == (int)place;
#else
    (void)place;
    return 0;
#endif
}

#endif
