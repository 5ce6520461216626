/*
 * Arboricx bundles for C: check a bundle, lay its nodes out in a lent table of words, and play it with an
 * allowance of steps. Link with the libarboricx.a of your processor: x86-64, AArch64 or 32-bit ARM (armv7, hard
 * float). This one header serves all of them. host/example.c is a first program, host/arboricx.c a whole host.
 *
 * Every call takes any bytes, any numbers and any tables. It checks everything itself, it ends, and it answers bad
 * input with a number of the list below. It allocates nothing, keeps nothing between calls, and calls nothing but
 * memcpy and memset of the C library. What is said here of answers and tables is proved of the calls' source
 * (docs/GUARANTEES.md); the stack is measured, and that nothing else is called is tested.
 *
 * ---- Six words
 *
 *      lent         a table, a file or an answer is lent for the time of a call: the caller owns it before and after
 *      room         how many slots a word table has place for, or how many jobs a job table
 *      used count   how many slots hold a tree, from slot 0 on; the next node made takes the slot of that number
 *      fuel         the allowance: how many steps a call may take
 *      job          what waits to be done with a tree that is being worked out; a run that stops leaves its jobs in a table
 *      let start    not refused: a run that was let start is done (0) or stopped (31, 32, 33)
 *
 * ---- What C has to keep (docs/TRUST.md)
 *
 *  - A pointer and its length name memory that is there: `file`, `name` and `bytes` may be read, all else may be read and
 *    written, for as long as the call lasts, and nobody else writes it meanwhile.
 *  - No pointer is null, also where its length is 0 (malloc(0) may give one), and each is aligned as its type asks.
 *  - What a call may write does not overlap with anything else that the same call is lent.
 *  - The memory that a pointer and its length name has at most SIZE_MAX / 2 bytes, as any object in C. Lengths count
 *    elements: bytes of a file, words of a table. They have 64 bits on every processor, and a size_t fits; one that is
 *    longer than the memory is a breach of the first duty, and no call can find it out.
 *
 * ---- The life of a match
 *
 * 1. Load. arboricx_load checks the bundle, and lays its nodes out from word `base` on. Keep the node count, which is the
 *    first used count, and the slots of the exports. The file is needed no longer, but for names.
 *
 * 2. Sizes. A step makes at most one node and adds at most one job. So a move with fuel for k steps, on n used slots, never
 *    stops with 32 if there is room for n + k slots, that is in base + ARBORICX_SLOT_WORDS * (n + k) words, and never
 *    with 33 if there is room for k jobs, in ARBORICX_JOB_WORDS * k words; up to the limits of 65,535 slots and as many
 *    jobs. Most moves need far less, and 32 and 33 say where that is not enough. For several moves on one table, or turns
 *    of one move, add their fuel, or give slots back (5).
 *
 * 3. A move. arboricx_run applies slot f, the opponent, to slot x, what it is told: both are below the used count. Slot 0
 *    is always the leaf. To tell it another tree, write its slots yourself ("The lent tables"), from the used count on and
 *    children first, and hand in the count after them; or make it by runs: slot 0 on a makes the stem on a, and that on b
 *    the fork of a and b. A result is read by the same layout.
 *
 * 4. After it, by the number:
 *       0      done. The result is in the slot that was answered, and may be the f or x of a later run.
 *      31      the fuel is spent. Next turn, or next day, arboricx_carry_on goes on just there; or the move is given up.
 *      32, 33  no slot, or no place for a job, is left. Carry on with a longer table that begins with the same words, or
 *              give the move up. New words of a word table may hold anything; those of a job table have to be 0. The
 *              fuel that is left of the turn is what was handed in, less the steps that were taken with it.
 *      other   refused: nothing has changed, and the used count is the one from before. 40: the steps of the move would
 *              pass what a number holds. All others: a number handed in is wrong, or the used slots or the jobs are not
 *              sound; every call leaves them sound.
 *    To carry on is not to start anew: a run of the f and x that a stop answered works out that part alone, and forgets
 *    the jobs that wait for it.
 *
 * 5. Slots are given back by handing in an older used count: the slots from it on are free again, and nothing has to be
 *    cleared. No slot from it on may be named any more, as f, as x or in a job that waits. To give a move up, hand in the
 *    count from before it; with the node count of the load the table is as new. To keep a result and free the rest, copy
 *    its tree down first, each node after its children, with the words of its new slots.
 *
 * 6. Between moves keep the words from the base on, the used count, and the slots that are to be named again; of a move that
 *    thinks on also the job table and the six words of the answer. Nothing else is remembered anywhere. The words
 *    before the base are the receiver's.
 *
 * Threads: calls on different tables may be made at the same time, as no call has any memory but what it is lent and its
 * stack. They may share the file, which is only read. Two calls at once on one table are a breach of the first duty.
 *
 * ---- Stack
 *
 * A call needs at most ARBORICX_STACK bytes of stack, a run or a carry-on at most ARBORICX_RUN_STACK, and a plain run,
 * which is for testers, up to ARBORICX_PLAIN_STACK. That is so in a program that is linked with -Wl,-z,now, or statically.
 * With lazy binding the first call of memset and of memcpy in a process goes through the loader, on the stack of whoever
 * calls, where it saves the processor's registers. With glibc 2.36 on an x86-64 with AVX-512 the first load then takes
 * 14 KiB, still within ARBORICX_STACK, but the first run 3.4 KiB, which is more than ARBORICX_RUN_STACK.
 * On the stack of a thread there are also its own frames and what the C library keeps there: give it ARBORICX_THREAD_EXTRA
 * bytes beside what its calls need, which is enough for either way of binding; or PTHREAD_STACK_MIN where that is more, as
 * on AArch64.
 *
 * ---- The lent tables
 *
 * The table `words` belongs to the receiver up to word `base`, and to these calls from there on. No word before the
 * base is read or written. Slot i is words base + 2i and base + 2i + 1:
 *
 *      leaf                   0        0
 *      stem on slot a         a + 1    0
 *      fork of slots a, b     a + 1    b + 1
 *
 * The room is the smaller of ARBORICX_MAX_SLOTS and half the words from the base on, rounded down. A load needs a slot
 * for each node, so that 2 * ARBORICX_MAX_NODES words from the base on and ARBORICX_MAX_EXPORTS export words do for every
 * bundle; a run needs one more for each node that it makes.
 *
 * The used slots are sound when slot 0 is (0, 0) and in each later slot i the first word is 1 to i and the second 0 to i;
 * else they are damaged. A run of any kind is one by arboricx_run, arboricx_carry_on or arboricx_plain_run. An accepted
 * load leaves sound slots, and so does every run of any kind that was let start. These take any sound slots, whoever
 * wrote them. Slot 0 is then the leaf.
 *
 * The table `jobs` holds the jobs that wait when a run stops, three words to a job, oldest first:
 *
 *      1, b, x    then b to x
 *      2, v, 0    then the result to v
 *      3, w, 0    then w to the result
 *
 * Its room is a third of its words, rounded down, at most ARBORICX_MAX_JOBS. A run that is let start zeroes the whole
 * table first, however long it is, so that a table no longer than needed saves time. A carry-on takes the jobs as they
 * stand. They are sound when they are no more than the room, each tag is 1 to 3, every slot they name is used, the third
 * word is 0 under tags 2 and 3, and all words of the table above them are 0. A run or a carry-on that was let start
 * leaves sound jobs.
 *
 * ---- A move that hits its limit
 *
 * A run that stops with 31 has spent its fuel. arboricx_carry_on goes on with it: from the two tables as the stop left
 * them, with the f, x, used count, jobs and steps that it answered. However the fuel is cut into parts, in the same tables
 * and as long as each part but the last stops with 31, the tables and the answer are in the end those of one run with the
 * sum, up to 4,294,967,295.
 *
 * ---- The seven rules
 *
 * A run applies f to x by the triage calculus. Each rule used is one step:
 *
 *      1. f leaf                               makes stem x
 *      2. f stem a                             makes fork a x
 *      3. f fork(leaf, a)                      gives a
 *      4. f fork(stem a, b)                    applies a to x; then b to x waits
 *      5. f fork(fork(a, b), c), x leaf        gives a
 *      6. the same f, x stem u                 applies b to u
 *      7. the same f, x fork(u, v)             applies c to u; then the result to v waits
 *
 * A node made takes the next slot. A tree given or made meets the newest job, at no cost; with no job left the run is
 * done. Before each step: no fuel, stop 31; a node to be made and no slot left, 32; a job to be added and no place
 * left, 33.
 */
#ifndef ARBORICX_H
#define ARBORICX_H

#include <stdint.h>

#ifdef __cplusplus
extern "C" {
#endif

/*
 * ---- The version
 *
 * 10000 for 1.0.0: major, minor, patch, two digits each. The major number grows when a program has to change, the
 * minor one when something is added. CHANGELOG.md tells what changed. arboricx_version answers that of the archive.
 */
#define ARBORICX_VERSION 10000
#define ARBORICX_VERSION_TEXT "1.0.0"

/*
 * ---- The numbers
 *
 * 0 is success. A refusal answers the smallest number that applies, with every other number of the answer 0, and
 * changes no word of any table but `answer`. 31, 32 and 33 are no refusals: a run, of whatever kind, was let start, and
 * stopped.
 */
enum arboricx_number {
    ARBORICX_OK = 0,
    /* the file */
    ARBORICX_FILE_TOO_LONG = 1,      /* over 65,536 bytes */
    ARBORICX_FILE_TOO_SHORT = 2,     /* under 32 bytes */
    ARBORICX_OTHER_MAGIC = 3,        /* the magic differs */
    ARBORICX_OTHER_MAJOR = 4,        /* major is not 1 */
    ARBORICX_NO_DIRECTORY = 5,       /* section count outside 1 to 16, directory offset not 32, or past the end of file */
    ARBORICX_CRITICAL_SECTION = 6,   /* some entry of unknown type is critical */
    ARBORICX_CODED_SECTION = 7,      /* some entry has compression not 0 or digest algorithm not 1 */
    ARBORICX_SECTION_OUTSIDE = 8,    /* some entry's offset plus length passes the end of file */
    ARBORICX_SECTION_REPEATED = 9,   /* the manifest or the nodes occur more than once */
    ARBORICX_SECTION_MISSING = 10,   /* the manifest or the nodes are missing */
    ARBORICX_DIGEST_DIFFERS = 11,    /* the digest of the manifest or of the nodes differs */
    /* the manifest */
    ARBORICX_MANIFEST_SHAPE = 12,    /* it does not have the stated shape */
    ARBORICX_UNSUPPORTED = 13,       /* a fixed string or export abi differs, a capability is listed, or closure is 1 */
    ARBORICX_EXPORT_NAMES = 14,      /* an export name is empty, over 64 bytes, or used twice */
    /* the nodes */
    ARBORICX_NODES_SHAPE = 15,       /* they do not have the stated shape, or count outside 1 to 512 */
    ARBORICX_HASH_WRONG = 16,        /* a record's hash is wrong */
    ARBORICX_HASH_TWICE = 17,        /* two records carry the same hash */
    ARBORICX_CHILD_MISSING = 18,     /* a child has no record */
    ARBORICX_CIRCLE = 19,            /* a node is its own descendant */
    ARBORICX_HASH_UNRESOLVED = 20,   /* a root's or export's hash has no record */
    /* the tables and the slots */
    ARBORICX_NO_ROOM = 21,           /* base negative or past the end of the table; load: room below the node count;
                                        a run of any kind: used count 0 or above room */
    ARBORICX_EXPORTS_TOO_SHORT = 22, /* export table shorter than the export count */
    ARBORICX_NO_SLOT = 23,           /* a run of any kind: a slot is negative or not below the used count */
    ARBORICX_DAMAGED = 24,           /* a run of any kind: the used slots are damaged; carry-on: the jobs are not sound */
    ARBORICX_NO_EXPORT = 25,         /* no export of that name */
    /* stops of a run of any kind */
    ARBORICX_OUT_OF_FUEL = 31,       /* no fuel is left */
    ARBORICX_OUT_OF_SLOTS = 32,      /* the next step makes a node, and no slot is left */
    ARBORICX_OUT_OF_JOBS = 33,       /* the next step adds a job, and no place is left */
    /* refusals again */
    ARBORICX_TOO_MANY_STEPS = 40,    /* carry-on: the steps so far and the fuel are above 4,294,967,295 together */
    ARBORICX_TOO_DEEP = 49           /* plain run: fuel or job room above 1,000 */
};

/* A short text for each of them, in English. */
static inline const char *arboricx_number_text(uint32_t number)
{
    switch (number) {
    case ARBORICX_OK: return "no fault";
    case ARBORICX_FILE_TOO_LONG: return "the file is over 65,536 bytes";
    case ARBORICX_FILE_TOO_SHORT: return "the file is under 32 bytes";
    case ARBORICX_OTHER_MAGIC: return "the file does not begin with ARBORICX";
    case ARBORICX_OTHER_MAJOR: return "the major version of the file is not 1";
    case ARBORICX_NO_DIRECTORY: return "the section count or the place of the directory is wrong";
    case ARBORICX_CRITICAL_SECTION: return "a section of unknown type is critical";
    case ARBORICX_CODED_SECTION: return "a section is compressed, or its digest is not SHA-256";
    case ARBORICX_SECTION_OUTSIDE: return "a section passes the end of the file";
    case ARBORICX_SECTION_REPEATED: return "there are two manifests, or two nodes sections";
    case ARBORICX_SECTION_MISSING: return "the manifest or the nodes section is missing";
    case ARBORICX_DIGEST_DIFFERS: return "the digest of a section differs";
    case ARBORICX_MANIFEST_SHAPE: return "the manifest is not well formed";
    case ARBORICX_UNSUPPORTED: return "the manifest asks for something that is not supported";
    case ARBORICX_EXPORT_NAMES: return "an export name is empty, over 64 bytes, or used twice";
    case ARBORICX_NODES_SHAPE: return "the nodes section is not well formed, or does not have 1 to 512 nodes";
    case ARBORICX_HASH_WRONG: return "the hash of a node is wrong";
    case ARBORICX_HASH_TWICE: return "two nodes carry the same hash";
    case ARBORICX_CHILD_MISSING: return "a child of a node is missing";
    case ARBORICX_CIRCLE: return "a node is its own descendant";
    case ARBORICX_HASH_UNRESOLVED: return "the node of a root or of an export is missing";
    case ARBORICX_NO_ROOM: return "the word table has no room, or the base or the used count is wrong";
    case ARBORICX_EXPORTS_TOO_SHORT: return "the export table is too short";
    case ARBORICX_NO_SLOT: return "a slot is not a used one";
    case ARBORICX_DAMAGED: return "the used slots or the waiting jobs are damaged";
    case ARBORICX_NO_EXPORT: return "there is no export of that name";
    case ARBORICX_OUT_OF_FUEL: return "stopped: the fuel is spent";
    case ARBORICX_OUT_OF_SLOTS: return "stopped: no slot is left";
    case ARBORICX_OUT_OF_JOBS: return "stopped: no place for a job is left";
    case ARBORICX_TOO_MANY_STEPS: return "the steps would pass 4,294,967,295";
    case ARBORICX_TOO_DEEP: return "a plain run takes at most 1,000 steps and 1,000 jobs";
    default: return "not a number of these calls";
    }
}

/* ---- The sizes */

#define ARBORICX_MAX_FILE 65536  /* bytes of a file */
#define ARBORICX_MAX_NODES 512   /* nodes of a bundle, which has at least one */
#define ARBORICX_MAX_EXPORTS 32  /* exports of a bundle, which has at least one */
#define ARBORICX_MAX_NAME 64     /* bytes of an export's name */
#define ARBORICX_MAX_SLOTS 65535 /* slots that are used of a table, however long it is */
#define ARBORICX_MAX_JOBS 65535  /* jobs that may wait, however long the job table is */
#define ARBORICX_SLOT_WORDS 2    /* words of a slot */
#define ARBORICX_JOB_WORDS 3     /* words of a job */
#define ARBORICX_MAX_PLAIN 1000  /* fuel of a plain run, and its job room */

/* ---- Bytes of stack, as said above */

#define ARBORICX_STACK 16384        /* that a call needs at most, but for a plain run */
#define ARBORICX_RUN_STACK 1024     /* that a run or a carry-on needs at most */
#define ARBORICX_PLAIN_STACK 327680 /* that a plain run needs at most, some 304 for each step */
#define ARBORICX_THREAD_EXTRA 16384 /* that a thread should have beside what its calls need */

/* ---- The words of each answer. All of them are written at every call. */

enum { ARBORICX_LOAD_NUMBER, ARBORICX_LOAD_NODES, ARBORICX_LOAD_EXPORTS, ARBORICX_LOAD_ANSWER };
enum {
    ARBORICX_RUN_NUMBER,
    ARBORICX_RUN_SLOT, /* done: the slot of the result */
    ARBORICX_RUN_F = ARBORICX_RUN_SLOT, /* stopped: the f still to be applied */
    ARBORICX_RUN_X, /* stopped: the x that it is to be applied to; done: 0 */
    ARBORICX_RUN_STEPS, /* of a carry-on: in total */
    ARBORICX_RUN_USED,
    ARBORICX_RUN_JOBS, /* stopped: how many jobs wait; done: 0 */
    ARBORICX_RUN_ANSWER
};
enum {
    ARBORICX_PLAIN_NUMBER,
    ARBORICX_PLAIN_SLOT, /* done: the slot of the result; stopped: 0 */
    ARBORICX_PLAIN_STEPS,
    ARBORICX_PLAIN_USED,
    ARBORICX_PLAIN_ANSWER
};
enum { ARBORICX_INDEX_NUMBER, ARBORICX_INDEX, ARBORICX_INDEX_ANSWER };
enum { ARBORICX_NAME_START, ARBORICX_NAME_LENGTH, ARBORICX_NAME_ANSWER };
#define ARBORICX_DIGEST_BYTES 32

/*
 * ---- For the compiler, where it knows them: no pointer is null, a table is as long as its length says, and an answer
 * has all its words.
 */
#ifdef __has_attribute
#if __has_attribute(nonnull)
#define ARBORICX_NONNULL __attribute__((nonnull))
#endif
#if __has_attribute(access)
#define ARBORICX_READS(table, length) __attribute__((access(read_only, table, length)))
#define ARBORICX_CHANGES(table, length) __attribute__((access(read_write, table, length)))
#define ARBORICX_FILLS(table, length) __attribute__((access(write_only, table, length)))
#endif
#endif
#ifndef ARBORICX_NONNULL
#define ARBORICX_NONNULL
#endif
#ifndef ARBORICX_READS
#define ARBORICX_READS(table, length)
#define ARBORICX_CHANGES(table, length)
#define ARBORICX_FILLS(table, length)
#endif
#ifdef __cplusplus
#define ARBORICX_AT_LEAST(count) count
#else
#define ARBORICX_AT_LEAST(count) static count
#endif

/* ---- The calls */

/*
 * The version of the archive, ARBORICX_VERSION of its own header: a program can see that the two belong together.
 */
uint32_t arboricx_version(void);

/*
 * Checks a bundle by itself: 1 to 20, or 0 for a sound one. Changes nothing.
 */
uint32_t arboricx_check(const uint8_t *file, uint64_t file_len)
    ARBORICX_NONNULL ARBORICX_READS(1, 2);

/*
 * Loads a bundle: 1 to 22, or 0.
 *
 * 0: the leaf is in slot 0; then, again and again, the earliest record of the file that is not placed and whose
 * children all are has got the next slot. exports[i] is the slot of export i, in the manifest's order. The answer is 0,
 * the node count, which is the used count for the first run, and the export count. All other words of both tables
 * keep their contents.
 * Else: the answer is the number, 0, 0. No word of either table has changed.
 */
uint32_t arboricx_load(const uint8_t *file, uint64_t file_len,
                       uint32_t *words, uint64_t words_len, int32_t base,
                       uint32_t *exports, uint64_t exports_len,
                       uint32_t answer[ARBORICX_AT_LEAST(ARBORICX_LOAD_ANSWER)])
    ARBORICX_NONNULL ARBORICX_READS(1, 2) ARBORICX_FILLS(3, 4) ARBORICX_FILLS(6, 7);

/*
 * Applies slot f to slot x, with fuel for so many steps: 21, 23 or 24; 31, 32 or 33; or 0.
 *
 * `used` is the count that the last run of any kind not refused answered, or before any such call the load's node count;
 * an older one gives slots back, a larger one counts slots that you wrote. It is checked, as the used slots are: a table
 * that was damaged meanwhile is refused.
 * 0: done. The answer is 0, the slot of the result, 0, the steps taken, the used count now, 0.
 * 31, 32, 33: stopped. The answer is the number, the f and the x still to be applied, the steps taken, the used count
 * now, and how many jobs wait in the job table.
 * In both cases each node made has taken the next slot, all words of `jobs` above the jobs that wait are 0, and all
 * other words of `words` keep their contents. A run that is done with some fuel, slots and job places is done with more
 * of each, with the same result and steps.
 * 21, 23, 24: refused. The answer is the number and zeros. No word of either table has changed.
 *
 * Slots in the answer are used slots, at most 65,534. A result may be the f or the x of a later run. The f and x of a
 * stop are for arboricx_carry_on: a run of them would forget the jobs that wait.
 */
uint32_t arboricx_run(uint32_t *words, uint64_t words_len, int32_t base,
                      int32_t f, int32_t x, uint32_t used, uint32_t fuel,
                      uint32_t *jobs, uint64_t jobs_len,
                      uint32_t answer[ARBORICX_AT_LEAST(ARBORICX_RUN_ANSWER)])
    ARBORICX_NONNULL ARBORICX_CHANGES(1, 2) ARBORICX_FILLS(8, 9);

/*
 * Goes on with a run that stopped, with fuel for so many steps more: 21, 23, 24 or 40; 31, 32 or 33; or 0.
 *
 * Both tables are as the stop left them; f, x, used, `waiting` and `steps` are the five numbers that it answered:
 *
 *      arboricx_carry_on(words, words_len, base, (int32_t)a[ARBORICX_RUN_F], (int32_t)a[ARBORICX_RUN_X],
 *                        a[ARBORICX_RUN_USED], a[ARBORICX_RUN_JOBS], a[ARBORICX_RUN_STEPS], fuel, jobs, jobs_len, a);
 *
 * After 0 there is nothing to go on with: the numbers of such an answer would be taken as its slot applied to the leaf.
 * After other runs of any kind on the same words `used` is the count that the last of them answered, and the job table
 * is the one that the stop left. All of it is checked, whoever wrote it. What a stop leaves, by 31, 32 or 33, of a run or
 * of a carry-on, is refused with 40 at most. After 32 lend a longer word table, after 33 a longer job table, with the
 * same words, and zeros after the jobs.
 * 0, 31, 32, 33: the answer and both tables are as a run's, but that no job is zeroed first and that the steps are those
 * in total. With no fuel it answers 31 and what it was handed. A carry-on that is done with some fuel, slots and job
 * places is done with more of each, unless that is refused with 40.
 * 21, 23, 24, 40: refused. The answer is the number and zeros. No word of either table has changed.
 */
uint32_t arboricx_carry_on(uint32_t *words, uint64_t words_len, int32_t base,
                           int32_t f, int32_t x, uint32_t used, uint32_t waiting, uint32_t steps, uint32_t fuel,
                           uint32_t *jobs, uint64_t jobs_len,
                           uint32_t answer[ARBORICX_AT_LEAST(ARBORICX_RUN_ANSWER)])
    ARBORICX_NONNULL ARBORICX_CHANGES(1, 2) ARBORICX_CHANGES(10, 11);

/*
 * Applies slot f to slot x as arboricx_run does, on a second engine that reads like the seven rules, for a tester to
 * compare with: 21, 23, 24 or 49; 31, 32 or 33; or 0. The two engines share the tests of the used count, of the slots and
 * of the damage (21, 23, 24), and how slots are read and written.
 *
 * It is lent no job table. It counts how many jobs would wait, and stops with 33 before there would be more than
 * `job_room`. Each step may go a level deeper on the stack, up to ARBORICX_PLAIN_STACK bytes in all: hence fuel or job room
 * above ARBORICX_MAX_PLAIN is refused with 49.
 * 0: done. The answer is 0, the slot of the result, the steps taken, the used count now.
 * 31, 32, 33: stopped. The answer is the number, 0, the steps taken, the used count now. What is still to be applied is
 * not told: a plain run cannot be carried on. The nodes made stay: hand the used count on.
 * In both cases the number, the slot of a result, the steps, the used count and every word of `words` are those of
 * arboricx_run on the same table, with the same base, slots, used count and fuel, and a job table of that room.
 * 21, 23, 24, 49: refused. The answer is the number and zeros. No word of the table has changed.
 */
uint32_t arboricx_plain_run(uint32_t *words, uint64_t words_len, int32_t base,
                            int32_t f, int32_t x, uint32_t used, uint32_t fuel, uint32_t job_room,
                            uint32_t answer[ARBORICX_AT_LEAST(ARBORICX_PLAIN_ANSWER)])
    ARBORICX_NONNULL ARBORICX_CHANGES(1, 2);

/*
 * The index of the export with a name, which is any bytes; the empty name means the first export: 1 to 14, 25, or 0.
 *
 * 0: the answer is 0 and the index, which is also that of the export's slot in the table that a load writes.
 * Else: the answer is the number and 0. The nodes of the file are not looked at, so that 15 to 20 are not answered.
 */
uint32_t arboricx_export_index(const uint8_t *file, uint64_t file_len,
                               const uint8_t *name, uint64_t name_len,
                               uint32_t answer[ARBORICX_AT_LEAST(ARBORICX_INDEX_ANSWER)])
    ARBORICX_NONNULL ARBORICX_READS(1, 2) ARBORICX_READS(3, 4);

/*
 * The name of the export with an index: where it starts in the file, and how many bytes it has. It is valid UTF-8, may
 * have zero bytes in it, and has none after it. Start and length are 0 where one of 1 to 14 holds or there is no such
 * index; no name is empty, so that a length of 0 means just that.
 */
void arboricx_export_name(const uint8_t *file, uint64_t file_len, uint32_t index,
                          uint64_t answer[ARBORICX_AT_LEAST(ARBORICX_NAME_ANSWER)])
    ARBORICX_NONNULL ARBORICX_READS(1, 2);

/*
 * SHA-256 (FIPS 180-4) of some bytes, by which sections and nodes are named.
 */
void arboricx_sha256(const uint8_t *bytes, uint64_t bytes_len, uint8_t digest[ARBORICX_AT_LEAST(ARBORICX_DIGEST_BYTES)])
    ARBORICX_NONNULL ARBORICX_READS(1, 2);

#ifdef __cplusplus
}
#endif

#endif
