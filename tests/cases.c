#define _GNU_SOURCE

#include "cases.h"
#include "arboricx.h"
#include "bundles.h"
#include "calls.h"
#include "reference.h"
#include "trees.h"

#include <stdio.h>
#include <stdlib.h>
#include <string.h>
#include <sys/mman.h>

/* ---- The cases of the paper */

struct paper_case {
    const char *f, *x;
    uint32_t fuel, free_slots, job_places;
    uint32_t number, steps, made, waiting;
    const char *result, *result_x; /* done: the tree reached; stopped: the f and the x still to be applied */
};

static const struct paper_case paper_cases[] = {
    {"0", "0", 100, 1, 0, 0, 1, 1, 0, "10", ""},
    {"10", "0", 100, 1, 0, 0, 1, 1, 0, "200", ""},
    {"200", "0", 100, 0, 0, 0, 1, 0, 0, "0", ""},
    {"2100", "0", 100, 3, 1, 0, 4, 3, 0, "2010", ""},
    {"2100", "0", 4, 3, 1, 0, 4, 3, 0, "2010", ""},
    {"2100", "0", 100, 3, 0, 33, 0, 0, 0, "2100", "0"},
    {TREE_F, "0", 100, 0, 0, 0, 1, 0, 0, "0", ""},
    {TREE_F, "10", 100, 1, 0, 0, 2, 1, 0, "10", ""},
    {TREE_F, "200", 100, 2, 1, 0, 3, 2, 0, "200", ""},
    {TREE_F, "200", 100, 2, 0, 33, 0, 0, 0, TREE_F, "200"},
    {TREE_I, "0", 100, 2, 1, 0, 4, 2, 0, "0", ""},
    {TREE_D, TREE_D, 9, 4, 2, 31, 9, 4, 0, TREE_D, TREE_D},
    {TREE_D, TREE_D, 9, 100, 100, 31, 9, 4, 0, TREE_D, TREE_D},
    {TREE_D, TREE_D, 100, 3, 100, 32, 7, 3, 2, "0", TREE_D},
    {TREE_D, TREE_D, 100, 100, 1, 33, 1, 0, 1, TREE_I, TREE_D},
    {TREE_D, TREE_D, 0, 100, 100, 31, 0, 0, 0, TREE_D, TREE_D},
    {"0", "0", 0, 0, 0, 31, 0, 0, 0, "0", "0"}};

static void check_paper_case(const struct paper_case *paper)
{
    uint32_t slots[128] = {0}, used = 1, answer[ARBORICX_RUN_ANSWER];
    uint32_t f = add_tree(slots, &used, paper->f), x = add_tree(slots, &used, paper->x);
    struct run run = {3, (int32_t)f, (int32_t)x, used, paper->fuel};
    struct dice dice = {used};
    struct lent words, jobs;

    lend_table(&words, TABLE_WORDS, 3 + 2 * (size_t)(used + paper->free_slots), 3, &dice);
    lend_table(&jobs, TABLE_JOBS, 3 * (size_t)paper->job_places + 2, 0, &dice);
    for (unsigned side = 0; side < SIDES; side++)
        memcpy(words.words[side] + 3, slots, 2 * (size_t)used * sizeof slots[0]);
    expect("number of a paper's case", both_run(&words, &run, &jobs, answer), paper->number);
    expect("steps of a paper's case", answer[ARBORICX_RUN_STEPS], paper->steps);
    expect("slots of a paper's case", answer[ARBORICX_RUN_USED] - used, paper->made);
    expect("jobs of a paper's case", answer[ARBORICX_RUN_JOBS], paper->waiting);
    expect_tree(words.words[ARCHIVE] + 3, answer[ARBORICX_RUN_F], paper->result);
    if (paper->number != ARBORICX_OK)
        expect_tree(words.words[ARCHIVE] + 3, answer[ARBORICX_RUN_X], paper->result_x);
}

/* Slots and bases that are refused, on a table of one leaf and one free slot. */
static void check_refused_case(int32_t base, int32_t f, int32_t x, uint32_t used, uint32_t number)
{
    struct run run = {base, f, x, used, 1};
    struct dice dice = {1};
    struct lent words, jobs;
    uint32_t answer[ARBORICX_RUN_ANSWER];

    lend_table(&words, TABLE_WORDS, 4, 0, &dice);
    lend_table(&jobs, TABLE_JOBS, 3, 0, &dice);
    for (unsigned side = 0; side < SIDES; side++)
        memset(words.words[side], 0, 2 * sizeof(uint32_t));
    expect("number of a refused case", both_run(&words, &run, &jobs, answer), number);
}

void check_paper_cases(void)
{
    for (size_t i = 0; i < sizeof paper_cases / sizeof paper_cases[0]; i++)
        check_paper_case(&paper_cases[i]);
    check_refused_case(0, 0, 0, 1, ARBORICX_OK);
    check_refused_case(0, -1, 0, 1, ARBORICX_NO_SLOT);
    check_refused_case(0, 0, -1, 1, ARBORICX_NO_SLOT);
    check_refused_case(0, 1, 0, 1, ARBORICX_NO_SLOT);
    check_refused_case(0, 0, 1, 1, ARBORICX_NO_SLOT);
    check_refused_case(-1, 0, 0, 1, ARBORICX_NO_ROOM);
    check_refused_case(4, 0, 0, 1, ARBORICX_NO_ROOM);
    check_refused_case(5, 0, 0, 1, ARBORICX_NO_ROOM);
    check_refused_case(0, 0, 0, 0, ARBORICX_NO_ROOM);
    check_refused_case(0, 0, 0, 3, ARBORICX_NO_ROOM);
}

/* ---- Carry-ons */

enum { CARRY_BASE = 3, FREE_WORD = 0xF4EE };

/* f is to be applied to x, or at the end of a scene f is the result. */
struct stage {
    uint32_t f, x, used, waiting, jobs[6];
};

/* Slots of which the first 6 are used at the start, and where an application is after each step. */
struct scene {
    uint32_t slots[20];
    uint32_t steps;
    int done; /* by the last step */
    struct stage after[10];
};

/* I is in slot 3, D in slot 5. D to D makes fork(L, D) and stem D, and the same again. */
static const struct scene d_to_d = {
    {0, 0, 1, 0, 2, 0, 3, 1, 4, 0, 5, 4, 1, 6, 6, 0, 1, 6, 6, 0},
    9,
    0,
    {{5, 5, 6, 0, {0}},
     {3, 5, 6, 1, {1, 3, 5}},
     {1, 5, 6, 2, {1, 3, 5, 1, 0, 5}},
     {0, 5, 7, 2, {1, 3, 5, 3, 6, 0}}, /* the tree made has met the newest job, which waits on as another */
     {6, 7, 8, 1, {1, 3, 5}},
     {3, 5, 8, 1, {3, 5, 0}},
     {1, 5, 8, 2, {3, 5, 0, 1, 0, 5}},
     {0, 5, 9, 2, {3, 5, 0, 3, 8, 0}},
     {8, 9, 10, 1, {3, 5, 0}},
     {5, 5, 10, 0, {0}}}};

/* I to L makes fork(L, L) and stem L. */
static const struct scene i_to_l = {
    {0, 0, 1, 0, 2, 0, 3, 1, 4, 0, 5, 4, 1, 1, 1, 0},
    4,
    1,
    {{3, 0, 6, 0, {0}},
     {1, 0, 6, 1, {1, 0, 0}},
     {0, 0, 7, 1, {3, 6, 0}},
     {6, 7, 8, 0, {0}},
     {0, 0, 8, 0, {0}}}};

/* Tables for a scene: its slots up to the used ones, and some jobs. */
struct board {
    struct lent words, jobs;
};

static void lend_board(struct board *board, const struct scene *scene, uint32_t room, uint32_t used, size_t jobs_len)
{
    struct dice dice = {room + jobs_len};

    lend_table(&board->words, TABLE_WORDS, CARRY_BASE + 2 * (size_t)room, CARRY_BASE, &dice);
    lend_table(&board->jobs, TABLE_JOBS, jobs_len, 0, &dice);
    for (unsigned side = 0; side < SIDES; side++) {
        for (size_t i = 0; i < 2 * (size_t)room; i++)
            board->words.words[side][CARRY_BASE + i] = i < 2 * (size_t)used ? scene->slots[i] : FREE_WORD;
        memset(board->jobs.words[side], 0, jobs_len * sizeof(uint32_t));
    }
}

static void put_jobs(struct board *board, const uint32_t *jobs, size_t count)
{
    for (unsigned side = 0; side < SIDES; side++)
        memcpy(board->jobs.words[side], jobs, count * sizeof jobs[0]);
}

static void expect_answer(const uint32_t answer[6], const uint32_t wanted[6])
{
    for (unsigned i = 0; i < ARBORICX_RUN_ANSWER; i++)
        expect("answer of a carry-on", answer[i], wanted[i]);
}

static void expect_board(const struct board *board, const struct scene *scene, uint32_t used, const uint32_t jobs[6])
{
    const uint32_t *words = board->words.words[ARCHIVE] + CARRY_BASE;

    for (size_t i = 0; i < board->words.length - CARRY_BASE; i++)
        expect("word after a carry-on", words[i], i < 2 * (size_t)used ? scene->slots[i] : FREE_WORD);
    for (size_t i = 0; i < board->jobs.length; i++)
        expect("job word after a carry-on", board->jobs.words[ARCHIVE][i], i < 6 ? jobs[i] : 0);
}

/* A run in parts, or a carry-on after earlier steps. After each part the scene is at its stage. */
static void check_parts(const struct scene *scene, int onward, uint32_t earlier, const uint32_t *fuels, size_t parts)
{
    const struct stage *stage = &scene->after[0];
    struct board board;
    uint32_t answer[ARBORICX_RUN_ANSWER], steps = 0;

    lend_board(&board, scene, 10, stage->used, 8);
    for (size_t i = 0; i < parts; i++) {
        struct run run = {CARRY_BASE, (int32_t)stage->f, (int32_t)stage->x, stage->used, fuels[i]};
        struct carry carry = {run, stage->waiting, earlier + steps};
        steps = fuels[i] < scene->steps - steps ? steps + fuels[i] : scene->steps;
        stage = &scene->after[steps];
        if (i == 0 && !onward)
            both_run(&board.words, &run, &board.jobs, answer);
        else
            both_carry_on(&board.words, &carry, &board.jobs, answer);
        expect_answer(answer, (uint32_t[]){scene->done && steps == scene->steps ? ARBORICX_OK : ARBORICX_OUT_OF_FUEL,
                                           stage->f, stage->x, earlier + steps, stage->used, stage->waiting});
        expect_board(&board, scene, stage->used, stage->jobs);
    }
}

static void check_all_parts(void)
{
    static const uint32_t ones[] = {1, 1, 1, 1, 1, 1, 1, 1, 1};

    check_parts(&d_to_d, 0, 0, ones, 9);
    check_parts(&d_to_d, 0, 0, (const uint32_t[]){9}, 1);
    check_parts(&d_to_d, 0, 0, (const uint32_t[]){4, 0, 5}, 3);
    check_parts(&d_to_d, 0, 0, (const uint32_t[]){0, 9}, 2);
    check_parts(&d_to_d, 0, 0, (const uint32_t[]){3, 6}, 2);
    check_parts(&d_to_d, 1, 0, ones, 9);
    check_parts(&d_to_d, 1, 20, (const uint32_t[]){4, 0, 5}, 3);
    check_parts(&d_to_d, 1, 4294967286, (const uint32_t[]){7, 2, 0}, 3);
    check_parts(&i_to_l, 0, 0, ones, 4);
    check_parts(&i_to_l, 0, 0, (const uint32_t[]){2, 0, 1, 1}, 4);
    check_parts(&i_to_l, 0, 0, (const uint32_t[]){3, 100}, 2);
    check_parts(&i_to_l, 1, 0, (const uint32_t[]){4294967295}, 1);
    check_parts(&i_to_l, 1, 4294967291, ones, 4);
}

/* A carry-on from a stage of a scene, in tables of some room. What waits at the end is in the job table, then zeros. */
struct carry_case {
    const struct scene *scene;
    uint32_t stage, room;
    size_t jobs_len;
    uint32_t steps, fuel;
    uint32_t answer[6], jobs[6];
};

static const struct carry_case carry_cases[] = {
    /* the sum of earlier steps and fuel */
    {&d_to_d, 0, 10, 6, 4294967286, 9, {31, 5, 5, 4294967295, 10, 0}, {0}},
    {&d_to_d, 0, 10, 6, 4294967287, 9, {ARBORICX_TOO_MANY_STEPS}, {0}},
    {&d_to_d, 2, 10, 8, 4294967295, 0, {31, 1, 5, 4294967295, 6, 2}, {1, 3, 5, 1, 0, 5}},
    {&d_to_d, 2, 10, 8, 4294967295, 1, {ARBORICX_TOO_MANY_STEPS}, {1, 3, 5, 1, 0, 5}},
    {&d_to_d, 2, 10, 8, 4294967295, 4294967295, {ARBORICX_TOO_MANY_STEPS}, {1, 3, 5, 1, 0, 5}},
    {&i_to_l, 0, 8, 3, 0, 4294967295, {0, 0, 0, 4, 8, 0}, {0}},
    {&i_to_l, 0, 8, 3, 1, 4294967295, {ARBORICX_TOO_MANY_STEPS}, {0}},
    {&i_to_l, 2, 8, 3, 4294967293, 2, {0, 0, 0, 4294967295, 8, 0}, {0}},
    {&i_to_l, 2, 8, 3, 4294967294, 2, {ARBORICX_TOO_MANY_STEPS}, {3, 6, 0}},
    /* a step less than it takes, all, and one more */
    {&i_to_l, 2, 8, 3, 2, 1, {31, 6, 7, 3, 8, 0}, {0}},
    {&i_to_l, 2, 8, 3, 2, 2, {0, 0, 0, 4, 8, 0}, {0}},
    {&i_to_l, 2, 8, 3, 2, 3, {0, 0, 0, 4, 8, 0}, {0}},
    /* any number of earlier steps */
    {&i_to_l, 2, 8, 3, 0, 2, {0, 0, 0, 2, 8, 0}, {0}},
    {&d_to_d, 7, 10, 7, 1000, 2, {31, 5, 5, 1002, 10, 0}, {0}},
    /* after stop 32: the same room, no fuel, and one more slot */
    {&d_to_d, 7, 9, 6, 7, 93, {32, 0, 5, 7, 9, 2}, {3, 5, 0, 3, 8, 0}},
    {&d_to_d, 7, 9, 6, 7, 0, {31, 0, 5, 7, 9, 2}, {3, 5, 0, 3, 8, 0}},
    {&d_to_d, 7, 10, 6, 7, 2, {31, 5, 5, 9, 10, 0}, {0}},
    {&d_to_d, 7, 10, 6, 7, 93, {32, 1, 5, 11, 10, 2}, {1, 3, 5, 1, 0, 5}},
    /* after stop 33: the same room, no fuel, and one more place */
    {&d_to_d, 1, 10, 5, 1, 8, {33, 3, 5, 1, 6, 1}, {1, 3, 5}},
    {&d_to_d, 1, 10, 5, 1, 0, {31, 3, 5, 1, 6, 1}, {1, 3, 5}},
    {&d_to_d, 1, 10, 6, 1, 8, {31, 5, 5, 9, 10, 0}, {0}},
    /* no job table */
    {&i_to_l, 3, 8, 0, 3, 1, {0, 0, 0, 4, 8, 0}, {0}},
    {&i_to_l, 3, 8, 0, 3, 0, {31, 6, 7, 3, 8, 0}, {0}},
    {&i_to_l, 0, 8, 0, 0, 1, {33, 3, 0, 0, 6, 0}, {0}},
    {&i_to_l, 2, 8, 0, 2, 2, {ARBORICX_DAMAGED}, {0}}};

static void check_carry_case(const struct carry_case *known)
{
    const struct stage *stage = &known->scene->after[known->stage];
    struct run run = {CARRY_BASE, (int32_t)stage->f, (int32_t)stage->x, stage->used, known->fuel};
    struct carry carry = {run, stage->waiting, known->steps};
    struct board board;
    uint32_t answer[ARBORICX_RUN_ANSWER];

    lend_board(&board, known->scene, known->room, stage->used, known->jobs_len);
    put_jobs(&board, stage->jobs, known->jobs_len < 6 ? known->jobs_len : 6);
    both_carry_on(&board.words, &carry, &board.jobs, answer);
    expect_answer(answer, known->answer);
    uint32_t used = answer[ARBORICX_RUN_USED] > 0 ? answer[ARBORICX_RUN_USED] : stage->used;
    expect_board(&board, known->scene, used, known->jobs);
}

/* ---- Carry-ons that change no word: refused ones, and sound ones without fuel */

/* A job of each tag over 6 used slots, room for a fourth one, and two words after it. */
static const uint32_t three_jobs[] = {1, 5, 5, 2, 5, 0, 3, 5, 0, 0, 0, 0, 0, 0};
static const struct carry three_waiting = {{CARRY_BASE, 5, 5, 6, 0}, 3, 7};

enum { THREE_JOBS = sizeof three_jobs / sizeof three_jobs[0] };

/* The answer is the number and the numbers handed in, or zeros if it is a refusal. */
static void expect_still(struct board *board, const struct carry *carry, uint32_t number)
{
    static uint32_t words[64], jobs[MOST_JOBS];
    size_t words_bytes = (board->words.length - CARRY_BASE) * sizeof words[0];
    size_t jobs_bytes = board->jobs.length * sizeof jobs[0];
    const struct run *run = &carry->run;
    uint32_t answer[ARBORICX_RUN_ANSWER], wanted[ARBORICX_RUN_ANSWER] = {number};

    memcpy(words, board->words.words[ARCHIVE] + CARRY_BASE, words_bytes);
    memcpy(jobs, board->jobs.words[ARCHIVE], jobs_bytes);
    both_carry_on(&board->words, carry, &board->jobs, answer);
    if (number == ARBORICX_OUT_OF_FUEL)
        memcpy(wanted + 1, (uint32_t[]){(uint32_t)run->f, (uint32_t)run->x, carry->steps, run->used, carry->waiting},
               5 * sizeof wanted[0]);
    expect_answer(answer, wanted);
    expect("words stay", memcmp(words, board->words.words[ARCHIVE] + CARRY_BASE, words_bytes) == 0, 1);
    expect("jobs stay", memcmp(jobs, board->jobs.words[ARCHIVE], jobs_bytes) == 0, 1);
}

/* One job word is another. */
static const struct {
    uint32_t at, value, number;
} job_words[] = {
    /* tags */
    {0, 1, 31}, {0, 0, 24}, {0, 4, 24}, {0, 4294967295, 24},
    {3, 2, 31}, {3, 0, 24}, {3, 4, 24}, {3, 4294967295, 24}, {3, 1, 31}, {3, 3, 31},
    {6, 3, 31}, {6, 0, 24}, {6, 4, 24}, {6, 4294967295, 24}, {6, 1, 31}, {6, 2, 31},
    /* slots */
    {1, 0, 31}, {1, 5, 31}, {1, 6, 24}, {1, 4294967295, 24},
    {2, 0, 31}, {2, 5, 31}, {2, 6, 24}, {2, 4294967295, 24},
    {4, 0, 31}, {4, 5, 31}, {4, 6, 24}, {4, 4294967295, 24},
    {7, 0, 31}, {7, 5, 31}, {7, 6, 24}, {7, 4294967295, 24},
    /* third words under tags 2 and 3 */
    {5, 1, 24}, {5, 5, 24}, {8, 1, 24}, {8, 4294967295, 24}, {0, 2, 24}, {0, 3, 24},
    /* words above the jobs: of the fourth one, and after it */
    {9, 9, 24}, {10, 9, 24}, {11, 9, 24}, {12, 9, 24}, {13, 9, 24}};

/* So many words of the three jobs, and another count. */
static const struct {
    uint32_t jobs_len, waiting, number;
} job_counts[] = {
    {14, 3, 31}, {14, 2, 24}, {14, 0, 24}, {14, 4, 24}, {14, 5, 24}, {14, 1431655766, 24}, {14, 4294967295, 24},
    {11, 3, 31}, {11, 4, 24}, {9, 3, 31}, {9, 4, 24}, {9, 2, 24}, {9, 4294967295, 24},
    {8, 3, 24}, {8, 2, 24}, {6, 2, 31}, {6, 3, 24}, {3, 1, 31}, {3, 2, 24}, {3, 0, 24},
    {1, 0, 24}, {0, 0, 31}, {0, 1, 24}, {0, 4294967295, 24}};

/* Several reasons to refuse: the first in the order 21, 23, 24, 40 is answered. The tag is that of the oldest job. */
static const struct {
    int32_t base, f, x;
    uint32_t used, steps, fuel, tag, number;
} several[] = {
    {3, 5, 5, 6, 4294967295, 1, 1, 40},   {3, 5, 5, 6, 4294967295, 1, 4, 24},
    {3, -1, 5, 6, 7, 0, 4, 23},           {3, 5, 6, 6, 7, 0, 4, 23},
    {3, -1, 5, 6, 4294967295, 1, 1, 23},  {3, 5, 6, 6, 4294967295, 1, 4, 23},
    {3, 5, 5, 0, 7, 0, 1, 21},            {3, -1, 5, 0, 7, 0, 4, 21},
    {3, 0, 0, 0, 4294967295, 1, 4, 21},   {3, 5, 5, 9, 4294967295, 1, 4, 21},
    {-1, -1, 5, 6, 4294967295, 1, 4, 21}, {19, 5, 5, 6, 7, 0, 4, 21},
    {20, 5, 5, 6, 7, 0, 1, 21},           {3, 4, 4, 5, 7, 0, 1, 24}, /* a job names slot 5 */
    {3, 5, 5, 7, 7, 0, 1, 24},            {3, 5, 5, 7, 4294967295, 1, 1, 24}}; /* slot 6 is damaged */

static void put_job_word(struct board *board, size_t at, uint32_t value)
{
    for (unsigned side = 0; side < SIDES; side++)
        board->jobs.words[side][at] = value;
}

static void check_job_words(void)
{
    struct board board;

    lend_board(&board, &d_to_d, 8, 6, THREE_JOBS);
    for (size_t i = 0; i < sizeof job_words / sizeof job_words[0]; i++) {
        put_jobs(&board, three_jobs, THREE_JOBS);
        put_job_word(&board, job_words[i].at, job_words[i].value);
        expect_still(&board, &three_waiting, job_words[i].number);
    }
}

static void check_several(void)
{
    struct board board;
    struct carry carry = three_waiting;

    lend_board(&board, &d_to_d, 8, 6, THREE_JOBS);
    for (size_t i = 0; i < sizeof several / sizeof several[0]; i++) {
        carry.run = (struct run){several[i].base, several[i].f, several[i].x, several[i].used, several[i].fuel};
        carry.steps = several[i].steps;
        put_jobs(&board, three_jobs, THREE_JOBS);
        put_jobs(&board, &several[i].tag, 1);
        expect_still(&board, &carry, several[i].number);
    }
}

static void check_job_counts(void)
{
    struct board board;
    struct carry carry = three_waiting;

    for (size_t i = 0; i < sizeof job_counts / sizeof job_counts[0]; i++) {
        lend_board(&board, &d_to_d, 8, 6, job_counts[i].jobs_len);
        put_jobs(&board, three_jobs, job_counts[i].jobs_len);
        carry.waiting = job_counts[i].waiting;
        expect_still(&board, &carry, job_counts[i].number);
    }
}

/* A job table with words after the 65,535th job, which is the last that counts: a word that is not 0 near its end. */
static void check_last_words(void)
{
    const struct carry carry = {{CARRY_BASE, 5, 5, 6, 0}, 0, 7};
    struct board board;

    for (uint32_t at = 196602; at < 196608; at++) {
        lend_board(&board, &d_to_d, 8, 6, 196608);
        expect_still(&board, &carry, ARBORICX_OUT_OF_FUEL);
        put_job_word(&board, at, 9);
        expect_still(&board, &carry, ARBORICX_DAMAGED);
    }
}

/* The same table full of jobs, and with one more. */
static void check_longest_jobs(void)
{
    struct carry carry = {{CARRY_BASE, 5, 5, 6, 0}, 65535, 7};
    struct board board;

    lend_board(&board, &d_to_d, 8, 6, 196608);
    for (size_t at = 0; at < 3 * 65535; at += 3) {
        put_job_word(&board, at, 3);
        put_job_word(&board, at + 1, 5);
    }
    expect_still(&board, &carry, ARBORICX_OUT_OF_FUEL);
    put_job_word(&board, 3 * 65535, 3);
    expect_still(&board, &carry, ARBORICX_DAMAGED);
    carry.waiting = 65536;
    expect_still(&board, &carry, ARBORICX_DAMAGED);
}

void check_carry_cases(void)
{
    check_all_parts();
    for (size_t i = 0; i < sizeof carry_cases / sizeof carry_cases[0]; i++)
        check_carry_case(&carry_cases[i]);
    check_job_words();
    check_several();
    check_job_counts();
    check_last_words();
    check_longest_jobs();
}

/* ---- The published digests */

static void expect_digest(const uint8_t digest[32], const char *wanted)
{
    char text[65];

    for (size_t i = 0; i < 32; i++)
        snprintf(text + 2 * i, 3, "%02x", digest[i]);
    expect("a published digest", strcmp(text, wanted) == 0, 1);
}

static void check_digest(const uint8_t *bytes, size_t length, const char *wanted)
{
    uint8_t digest[32];

    arboricx_sha256(bytes, length, digest);
    expect_digest(digest, wanted);
    reference_sha256(bytes, length, digest);
    expect_digest(digest, wanted);
}

void check_published_digests(void)
{
    static const char *const examples[][2] = {
        {"", "e3b0c44298fc1c149afbf4c8996fb92427ae41e4649b934ca495991b7852b855"},
        {"abc", "ba7816bf8f01cfea414140de5dae2223b00361a396177a9cb410ff61f20015ad"},
        {"abcdbcdecdefdefgefghfghighijhijkijkljklmklmnlmnomnopnopq",
         "248d6a61d20638b8e5c026930c3e6039a33ce45964ff2167f6ecedd419db06c1"},
        {"abcdefghbcdefghicdefghijdefghijkefghijklfghijklmghijklmn"
         "hijklmnoijklmnopjklmnopqklmnopqrlmnopqrsmnopqrstnopqrstu",
         "cf5b16a778af8380036ce59e7b0492370b249b11e8f07a51afac45037afee9d1"}};
    static uint8_t million[1000000];

    for (size_t i = 0; i < sizeof examples / sizeof examples[0]; i++)
        check_digest((const uint8_t *)examples[i][0], strlen(examples[i][0]), examples[i][1]);
    memset(million, 'a', sizeof million);
    check_digest(million, sizeof million, "cdc76e5c9914fb9281a1c7e284d73e67f1809a48a497200e046d39ccc7112cd0");
}

/* ---- Lengths that 32 bits do not hold */

static void *map_vast(size_t length, int protection)
{
    void *map = mmap(NULL, length, protection, MAP_PRIVATE | MAP_ANONYMOUS | MAP_NORESERVE, -1, 0);

    if (map == MAP_FAILED) {
        perror("mmap of some gigabytes, of which only a few pages are touched");
        exit(3);
    }
    return map;
}

/* Pages that are only read are all the same page of zeros, so that this takes no memory. */
void check_gigabyte(void)
{
    size_t length = 0x41000000;
    void *zeros = map_vast(length, PROT_READ);

    check_digest(zeros, length, "461c19a93bd4344f9215f5ec64357090342bc66b15a148317d276e31cbc20b53");
    munmap(zeros, length);
}

/* A length that is a small one in its lower 32 bits. */
static uint64_t vast(uint64_t low)
{
    return ((uint64_t)1 << 32) + low;
}

static void check_vast_bytes(const struct bundle *bundle, uint8_t *map)
{
    const struct bundle_export *first = &bundle->exports[0];
    uint32_t answer[ARBORICX_INDEX_ANSWER];

    memcpy(map, bundle->bytes, bundle->length);
    expect("check of a vast file", arboricx_check(map, vast(bundle->length)), ARBORICX_FILE_TOO_LONG);
    expect("check of a vast file", reference_check(map, vast(bundle->length)), ARBORICX_FILE_TOO_LONG);
    memcpy(map, bundle->bytes + first->name_at, first->name_len);
    arboricx_export_index(bundle->bytes, bundle->length, map, vast(first->name_len), answer);
    expect("index of a vast name", answer[0], ARBORICX_NO_EXPORT);
    arboricx_export_index(bundle->bytes, bundle->length, map, vast(0), answer);
    expect("index of a vast name", answer[0], ARBORICX_NO_EXPORT);
    arboricx_export_index(bundle->bytes, bundle->length, map, first->name_len, answer);
    expect("index of its first bytes", answer[0], ARBORICX_OK);
}

/*
 * The same words come out as in tables that just fit. The job table of a run stays small, since all of it is zeroed; a
 * vast one is refused for its first word.
 */
static void check_vast_tables(const struct bundle *bundle, uint32_t *words, uint32_t *exports, int32_t base)
{
    uint32_t fitting[2 * 64], slots[ARBORICX_MAX_EXPORTS], jobs[9], loaded[3], vastly[3], ran[6], again[6];
    uint32_t plain[ARBORICX_PLAIN_ANSWER], vastly_plain[ARBORICX_PLAIN_ANSWER];
    size_t room = sizeof fitting / sizeof fitting[0];

    memset(fitting, 0, sizeof fitting);
    reference_load(bundle->bytes, bundle->length, fitting, room, 0, slots, bundle->export_count, loaded);
    arboricx_load(bundle->bytes, bundle->length, words, vast(1), base, exports, vast(0), vastly);
    expect("load in vast tables", memcmp(loaded, vastly, sizeof loaded) == 0 && loaded[0] == ARBORICX_OK, 1);
    expect("export slots in vast tables", memcmp(slots, exports, loaded[2] * sizeof slots[0]) == 0, 1);
    reference_run(fitting, room, 0, (int32_t)slots[0], (int32_t)slots[0], loaded[1], 20, jobs, 9, ran);
    arboricx_run(words, vast(1), base, (int32_t)slots[0], (int32_t)slots[0], vastly[1], 3, jobs, 9, again);
    if (again[ARBORICX_RUN_NUMBER] == ARBORICX_OUT_OF_FUEL)
        arboricx_carry_on(words, vast(1), base, (int32_t)again[ARBORICX_RUN_F], (int32_t)again[ARBORICX_RUN_X],
                          again[ARBORICX_RUN_USED], again[ARBORICX_RUN_JOBS], 3, 17, jobs, 9, again);
    expect("run in vast tables", memcmp(ran, again, sizeof ran) == 0, 1);
    reference_plain_run(fitting, room, 0, (int32_t)slots[0], (int32_t)slots[0], ran[ARBORICX_RUN_USED], 4, 3, plain);
    arboricx_plain_run(words, vast(1), base, (int32_t)slots[0], (int32_t)slots[0], again[ARBORICX_RUN_USED], 4, 3,
                       vastly_plain);
    expect("plain run in vast tables", memcmp(plain, vastly_plain, sizeof plain) == 0, 1);
    expect("words of vast tables", memcmp(fitting, words + base, sizeof fitting) == 0, 1);
    exports[0] = 9;
    arboricx_carry_on(words, vast(1), base, 0, 0, vastly[1], 0, 0, 20, exports, vast(0), again);
    expect("jobs in a vast table", again[ARBORICX_RUN_NUMBER], ARBORICX_DAMAGED);
    memset(words + base, 0, sizeof fitting);
}

void check_vast_lengths(void)
{
    static struct bundle bundle;
    size_t bytes = (size_t)vast(1024) * sizeof(uint32_t);
    uint32_t *words = map_vast(bytes, PROT_READ | PROT_WRITE), *exports = map_vast(bytes, PROT_READ | PROT_WRITE);
    struct dice dice = {1};

    for (uint32_t found = 0; found < 20;) {
        bundle_make(&bundle, &dice);
        if (!bundle.untouched || bundle.expected != 0 || bundle.node_count > 40)
            continue;
        found++;
        check_vast_tables(&bundle, words, exports, 0);
        check_vast_tables(&bundle, words, exports, 1);
        check_vast_tables(&bundle, words, exports, INT32_MAX);
        check_vast_bytes(&bundle, (uint8_t *)exports);
    }
    munmap(words, bytes);
    munmap(exports, bytes);
}
