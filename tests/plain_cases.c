/*
 * Plain runs whose answers are known. Each is made in a table with words before the base and a word after the room, and
 * is asked of the run too, beside which it is made once more.
 */
#include "arboricx.h"
#include "calls.h"
#include "cases.h"
#include "small_stack.h"
#include "trees.h"

#include <string.h>

enum { PLAIN_BASE = 5, OVER = 1001, NEW = 100000 };

/* The slots of the case at hand. */
static uint32_t slots[2 * (ARBORICX_MAX_SLOTS + 1)], used;

struct known {
    struct run run;
    uint32_t free_slots, job_room;
    uint32_t answer[ARBORICX_PLAIN_ANSWER];
    const char *result; /* the tree in the slot answered; NULL: not looked at */
};

/* ---- How a case is checked */

static void lend_slots(struct lent *words, uint32_t free_slots, size_t closed)
{
    struct dice dice = {used + free_slots};

    lend_table(words, TABLE_WORDS, PLAIN_BASE + 2 * (size_t)(used + free_slots) + 1, closed, &dice);
    for (unsigned side = 0; side < SIDES; side++)
        memcpy(words->words[side] + PLAIN_BASE, slots, 2 * (size_t)used * sizeof slots[0]);
}

/* All words but those of new slots are as before. */
static void expect_words(const struct lent *words, const uint32_t *before, uint32_t used_now)
{
    size_t made_from = PLAIN_BASE + 2 * (size_t)used, made_to = PLAIN_BASE + 2 * (size_t)used_now;

    for (size_t i = words->closed; i < words->length; i++)
        if (i < made_from || i >= made_to)
            expect("word that a plain run leaves alone", words->words[ARCHIVE][i], before[i]);
}

/* Words before the base are open, with anything in them, or closed. */
static void check_plain(const struct known *known, size_t closed)
{
    static uint32_t before[MOST_WORDS];
    uint32_t answer[ARBORICX_PLAIN_ANSWER];
    struct lent words;

    lend_slots(&words, known->free_slots, closed);
    memcpy(before + closed, words.words[ARCHIVE] + closed, open_bytes(&words));
    both_plain_run(&words, &known->run, known->job_room, answer);
    for (unsigned i = 0; i < ARBORICX_PLAIN_ANSWER; i++)
        expect("answer of a known plain run", answer[i], known->answer[i]);
    expect_words(&words, before, answer[ARBORICX_PLAIN_USED]);
    if (known->result != NULL)
        expect_tree(words.words[ARCHIVE] + PLAIN_BASE, answer[ARBORICX_PLAIN_SLOT], known->result);
}

/* A run does not know 49, and tells more at a stop; all else is the same. */
static void check_run(const struct known *known)
{
    uint32_t answer[ARBORICX_RUN_ANSWER], number = known->answer[ARBORICX_PLAIN_NUMBER];
    struct dice dice = {known->job_room};
    struct lent words, jobs;

    lend_slots(&words, known->free_slots, PLAIN_BASE);
    lend_table(&jobs, TABLE_JOBS, 3 * (size_t)known->job_room, 0, &dice);
    both_run(&words, &known->run, &jobs, answer);
    if (number == ARBORICX_TOO_DEEP)
        return;
    expect("number of the run", answer[ARBORICX_RUN_NUMBER], number);
    expect("steps of the run", answer[ARBORICX_RUN_STEPS], known->answer[ARBORICX_PLAIN_STEPS]);
    expect("used count of the run", answer[ARBORICX_RUN_USED], known->answer[ARBORICX_PLAIN_USED]);
}

static void check_known(const struct known *known)
{
    check_plain(known, 0);
    check_plain(known, PLAIN_BASE);
    if (known->job_room <= ARBORICX_MAX_JOBS)
        check_run(known);
}

/* What a case asks and what has to come out. NEW is the first slot made, NEW + 1 the second, and so on. */
struct trial {
    uint32_t fuel, free_slots, job_room;
    uint32_t number, slot, steps, made;
};

static void check_trial(uint32_t f, uint32_t x, const struct trial *trial, const char *result)
{
    uint32_t slot = trial->slot < NEW ? trial->slot : used + trial->slot - NEW;
    struct known known = {{PLAIN_BASE, (int32_t)f, (int32_t)x, used, trial->fuel},
                          trial->free_slots,
                          trial->job_room,
                          {trial->number, slot, trial->steps, used + trial->made},
                          result};

    if (trial->number == ARBORICX_TOO_DEEP)
        known.answer[ARBORICX_PLAIN_USED] = 0;
    check_known(&known);
}

/* ---- Trees written out */

struct text_case {
    const char *f, *x;
    struct trial trial;
    const char *result;
};

/* The marked cases of the paper: with all that they need, then with one less of each. */
static const struct text_case marked_cases[] = {
    {"0", "0", {1, 1, 0, 0, NEW, 1, 1}, "10"},
    {"0", "0", {0, 1, 0, 31, 0, 0, 0}, NULL},
    {"0", "0", {1, 0, 0, 32, 0, 0, 0}, NULL},
    {"10", "0", {1, 1, 0, 0, NEW, 1, 1}, "200"},
    {"10", "0", {0, 1, 0, 31, 0, 0, 0}, NULL},
    {"10", "0", {1, 0, 0, 32, 0, 0, 0}, NULL},
    {"200", "0", {1, 0, 0, 0, 0, 1, 0}, "0"},
    {"200", "0", {0, 0, 0, 31, 0, 0, 0}, NULL},
    {"2100", "0", {4, 3, 1, 0, NEW + 2, 4, 3}, "2010"},
    {"2100", "0", {3, 3, 1, 31, 0, 3, 2}, NULL},
    {"2100", "0", {4, 2, 1, 32, 0, 3, 2}, NULL},
    {"2100", "0", {4, 3, 0, 33, 0, 0, 0}, NULL},
    {TREE_F, "0", {1, 0, 0, 0, 0, 1, 0}, "0"},
    {TREE_F, "0", {0, 0, 0, 31, 0, 0, 0}, NULL},
    {TREE_F, "10", {2, 1, 0, 0, NEW, 2, 1}, "10"}, /* stem L was there, and is made anew */
    {TREE_F, "10", {1, 1, 0, 31, 0, 1, 0}, NULL},
    {TREE_F, "10", {2, 0, 0, 32, 0, 1, 0}, NULL},
    {TREE_F, "200", {3, 2, 1, 0, NEW + 1, 3, 2}, "200"},
    {TREE_F, "200", {2, 2, 1, 31, 0, 2, 1}, NULL},
    {TREE_F, "200", {3, 1, 1, 32, 0, 2, 1}, NULL},
    {TREE_F, "200", {3, 2, 0, 33, 0, 0, 0}, NULL},
    {TREE_I, "0", {4, 2, 1, 0, 0, 4, 2}, "0"},
    {TREE_I, "0", {3, 2, 1, 31, 0, 3, 2}, NULL},
    {TREE_I, "0", {4, 1, 1, 32, 0, 2, 1}, NULL},
    {TREE_I, "0", {4, 2, 0, 33, 0, 0, 0}, NULL},
    {TREE_D, TREE_D, {9, 4, 2, 31, 0, 9, 4}, NULL},
    {TREE_D, TREE_D, {8, 4, 2, 31, 0, 8, 4}, NULL},
    {TREE_D, TREE_D, {9, 3, 2, 32, 0, 7, 3}, NULL},
    {TREE_D, TREE_D, {9, 4, 1, 33, 0, 1, 0}, NULL},
    /* 3 free slots: fuel 100, just enough to see 32, one less; one slot less, one place less */
    {TREE_D, TREE_D, {100, 3, 2, 32, 0, 7, 3}, NULL},
    {TREE_D, TREE_D, {8, 3, 2, 32, 0, 7, 3}, NULL},
    {TREE_D, TREE_D, {7, 3, 2, 31, 0, 7, 3}, NULL},
    {TREE_D, TREE_D, {8, 2, 2, 32, 0, 6, 2}, NULL},
    {TREE_D, TREE_D, {8, 3, 1, 33, 0, 1, 0}, NULL},
    /* 1 job place: fuel 100, just enough to see 33, one less; one place less */
    {TREE_D, TREE_D, {100, 100, 1, 33, 0, 1, 0}, NULL},
    {TREE_D, TREE_D, {2, 0, 1, 33, 0, 1, 0}, NULL},
    {TREE_D, TREE_D, {1, 0, 1, 31, 0, 1, 0}, NULL},
    {TREE_D, TREE_D, {2, 0, 0, 33, 0, 0, 0}, NULL},
    {TREE_D, TREE_D, {0, 100, 100, 31, 0, 0, 0}, NULL}};

#define GIVES_4 "20" "2100" /* gives fork(stem L, L), which needs a place for a job */

static const struct text_case edge_cases[] = {
    /* no fuel is said first, whatever else is missing */
    {"0", "0", {0, 0, 0, 31, 0, 0, 0}, NULL},
    {"2100", "0", {0, 0, 0, 31, 0, 0, 0}, NULL},
    {TREE_F, "200", {0, 0, 0, 31, 0, 0, 0}, NULL},
    /* no job place, after one step: rule 6 comes to rule 4, and to rule 7 */
    {"220" "2100" "0", "10", {9, 9, 0, 33, 0, 1, 0}, NULL},
    {"220" "2100" "0", "10", {9, 9, 1, 0, NEW + 2, 5, 3}, "2010"},
    {"220" TREE_F "0", "1200", {9, 9, 0, 33, 0, 1, 0}, NULL},
    {"220" TREE_F "0", "1200", {9, 9, 1, 0, NEW + 1, 4, 2}, "200"},
    /* rule 4: a stop within a to x, between a to x and b to x, and within b to x */
    {"210" "200", "0", {9, 0, 1, 32, 0, 1, 0}, NULL},
    {"2100", "0", {1, 3, 1, 31, 0, 1, 0}, NULL},
    {"2100", "0", {2, 3, 1, 31, 0, 2, 1}, NULL},
    {"2100", "0", {4, 1, 1, 32, 0, 2, 1}, NULL},
    {"210" TREE_I, "0", {4, 9, 2, 31, 0, 4, 2}, NULL},
    {"210" TREE_I, "0", {9, 2, 2, 32, 0, 4, 2}, NULL},
    /* rule 7: a stop within c to u, before the result to v, and within it */
    {TREE_F, "2010", {9, 0, 1, 32, 0, 1, 0}, NULL},
    {TREE_F, "2010", {1, 2, 1, 31, 0, 1, 0}, NULL},
    {TREE_F, "2010", {2, 2, 1, 31, 0, 2, 1}, NULL},
    {TREE_F, "2010", {9, 1, 1, 32, 0, 2, 1}, NULL},
    {TREE_F, "2010", {3, 2, 1, 0, NEW + 1, 3, 2}, "2010"},
    /* the job still waits while b is applied to x, where a further one needs a second place */
    {"210" TREE_I, "0", {9, 9, 1, 33, 0, 2, 1}, NULL},
    {"210" TREE_I, "0", {7, 4, 2, 0, NEW + 3, 7, 4}, "200"},
    /* it has gone when the results meet, and its place is free again: rules 4 and 7 */
    {"21" GIVES_4 "0", "0", {7, 4, 1, 0, NEW + 3, 7, 4}, "210110"},
    {"21" GIVES_4 "0", "0", {7, 4, 0, 33, 0, 0, 0}, NULL},
    {"2200" GIVES_4, "200", {6, 3, 1, 0, NEW + 2, 6, 3}, "2010"},
    {"2200" GIVES_4, "200", {6, 3, 0, 33, 0, 0, 0}, NULL},
    /* a result that was there, by rules 3 and 5 */
    {"2010", "0", {1, 0, 0, 0, 1, 1, 0}, "10"},
    {"221000", "0", {1, 0, 0, 0, 1, 1, 0}, "10"},
    /* 9 steps and 4 slots again and again: 111 times, and one step more */
    {TREE_D, TREE_D, {999, 444, 2, 31, 0, 999, 444}, NULL},
    {TREE_D, TREE_D, {1000, 444, 2, 31, 0, 1000, 444}, NULL},
    {TREE_D, TREE_D, {1000, 1000, 1000, 31, 0, 1000, 444}, NULL},
    {TREE_D, TREE_D, {1000, 443, 2, 32, 0, 997, 443}, NULL},
    {TREE_D, TREE_D, {1000, 444, 1, 33, 0, 1, 0}, NULL},
    {TREE_D, TREE_D, {OVER, 444, 2, 49, 0, 0, 0}, NULL},
    {TREE_D, TREE_D, {1000, 444, OVER, 49, 0, 0, 0}, NULL}};

static void check_texts(const struct text_case *cases, size_t count)
{
    for (size_t i = 0; i < count; i++) {
        used = 1;
        slots[0] = slots[1] = 0;
        uint32_t f = add_tree(slots, &used, cases[i].f), x = add_tree(slots, &used, cases[i].x);
        check_trial(f, x, &cases[i].trial, cases[i].result);
    }
}

/* ---- Chains: applications within applications, as many as fuel 1,000 allows */

struct pair {
    uint32_t f, x;
};

static uint32_t add_slot(uint32_t first, uint32_t second)
{
    slots[2 * used] = first;
    slots[2 * used + 1] = second;
    return used++;
}

static uint32_t add_stem(uint32_t a)
{
    return add_slot(a + 1, 0);
}

static uint32_t add_fork(uint32_t a, uint32_t b)
{
    return add_slot(a + 1, b + 1);
}

/* Applied to anything so many times over it comes to the leaf, a step each. */
static uint32_t add_giver(uint32_t times)
{
    uint32_t tree = 0;

    for (uint32_t i = 0; i < times; i++)
        tree = add_fork(0, tree);
    return tree;
}

/* So many jobs "then the result to v" wait, and each takes one step: 2n + 1 in all. */
static struct pair chain_of_rule_7(uint32_t length)
{
    struct pair chain = {add_giver(length + 1), 0};
    uint32_t left = add_fork(0, 0);

    for (uint32_t i = 0; i < length; i++) {
        chain.f = add_fork(left, chain.f);
        chain.x = add_fork(chain.x, 0);
    }
    return chain;
}

/* So many jobs "then b to x" wait, and each takes two steps: 3n + 1 in all. */
static struct pair chain_of_rule_4(uint32_t length)
{
    struct pair chain = {add_giver(length + 1), 0};
    uint32_t b = add_fork(0, 0);

    for (uint32_t i = 0; i < length; i++)
        chain.f = add_fork(add_stem(chain.f), b);
    return chain;
}

/* So many jobs "then w to the result" wait, one more after two steps, and each takes one: 3n + 1 in all. */
static struct pair chain_of_second_4(uint32_t length)
{
    uint32_t w = add_fork(0, 0), stem = add_stem(add_fork(0, w));
    struct pair chain = {w, 0};

    for (uint32_t i = 0; i < length; i++)
        chain.f = add_fork(stem, chain.f);
    return chain;
}

/* No job waits. At the end the leaf is applied to itself: n + 1 steps. */
static struct pair chain_of_rule_6(uint32_t length)
{
    struct pair chain = {0, 0};

    for (uint32_t i = 0; i < length; i++) {
        chain.f = add_fork(add_fork(0, chain.f), 0);
        chain.x = add_stem(chain.x);
    }
    return chain;
}

static const struct {
    struct pair (*build)(uint32_t);
    uint32_t length;
    struct trial trial;
} chains[] = {
    /* done */
    {chain_of_rule_7, 499, {999, 0, 499, 0, 0, 999, 0}},
    {chain_of_rule_7, 499, {1000, 0, 1000, 0, 0, 999, 0}},
    {chain_of_rule_7, 499, {998, 0, 499, 31, 0, 998, 0}},
    {chain_of_rule_7, 499, {999, 0, 498, 33, 0, 498, 0}},
    {chain_of_rule_4, 333, {1000, 0, 333, 0, 0, 1000, 0}},
    {chain_of_rule_4, 333, {999, 0, 333, 31, 0, 999, 0}},
    {chain_of_rule_4, 333, {1000, 0, 332, 33, 0, 332, 0}},
    {chain_of_second_4, 333, {1000, 0, 333, 0, 0, 1000, 0}},
    {chain_of_second_4, 333, {999, 0, 333, 31, 0, 999, 0}},
    {chain_of_second_4, 333, {1000, 0, 332, 33, 0, 664, 0}},
    {chain_of_rule_6, 999, {1000, 1, 0, 0, NEW, 1000, 1}},
    {chain_of_rule_6, 999, {999, 1, 0, 31, 0, 999, 0}},
    {chain_of_rule_6, 999, {1000, 0, 0, 32, 0, 999, 0}},
    {chain_of_rule_6, 1000, {1000, 1, 0, 31, 0, 1000, 0}},
    /* the deepest; where fuel and places end together, 31 is said */
    {chain_of_rule_7, 999, {1000, 0, 999, 31, 0, 1000, 0}},
    {chain_of_rule_7, 999, {1000, 0, 998, 33, 0, 998, 0}},
    {chain_of_rule_7, 1000, {1000, 0, 1000, 31, 0, 1000, 0}},
    {chain_of_rule_7, 1000, {1000, 0, 999, 33, 0, 999, 0}},
    {chain_of_rule_7, 1000, {999, 0, 999, 31, 0, 999, 0}},
    {chain_of_rule_7, 1001, {1000, 0, 1000, 31, 0, 1000, 0}},
    {chain_of_rule_4, 999, {1000, 0, 999, 31, 0, 1000, 0}},
    {chain_of_rule_4, 999, {1000, 0, 998, 33, 0, 998, 0}},
    {chain_of_rule_4, 1000, {1000, 0, 1000, 31, 0, 1000, 0}},
    {chain_of_rule_4, 1000, {1000, 0, 999, 33, 0, 999, 0}},
    {chain_of_rule_4, 1000, {999, 0, 999, 31, 0, 999, 0}},
    {chain_of_rule_4, 1001, {1000, 0, 1000, 31, 0, 1000, 0}},
    {chain_of_second_4, 500, {1000, 0, 500, 31, 0, 1000, 0}},
    {chain_of_second_4, 500, {1000, 0, 499, 33, 0, 998, 0}},
    {chain_of_second_4, 500, {998, 0, 499, 31, 0, 998, 0}},
    /* one above */
    {chain_of_rule_7, 1001, {OVER, 0, 1000, 49, 0, 0, 0}},
    {chain_of_rule_7, 1001, {1000, 0, OVER, 49, 0, 0, 0}},
    {chain_of_rule_4, 1001, {OVER, 0, OVER, 49, 0, 0, 0}}};

static void check_chains(void)
{
    for (size_t i = 0; i < sizeof chains / sizeof chains[0]; i++) {
        used = 0;
        add_slot(0, 0);
        struct pair chain = chains[i].build(chains[i].length);
        check_trial(chain.f, chain.x, &chains[i].trial, NULL);
    }
}

/* ---- The deepest, on a stack of ARBORICX_PLAIN_STACK bytes: one that needs more touches the page beneath it */

static struct pair deepest;
static uint32_t deepest_answer[ARBORICX_PLAIN_ANSWER];

static void play_deepest(void)
{
    arboricx_plain_run(slots, 2 * (size_t)used, 0, (int32_t)deepest.f, (int32_t)deepest.x, used, ARBORICX_MAX_PLAIN,
                       ARBORICX_MAX_PLAIN, deepest_answer);
}

static void check_stack(void)
{
    static struct pair (*const builds[])(uint32_t) = {chain_of_rule_4, chain_of_rule_6, chain_of_rule_7};

    for (size_t i = 0; i < sizeof builds / sizeof builds[0]; i++) {
        used = 0;
        add_slot(0, 0);
        deepest = builds[i](ARBORICX_MAX_PLAIN);
        on_small_stack(ARBORICX_PLAIN_STACK, play_deepest);
        expect("number of the deepest plain run", deepest_answer[ARBORICX_PLAIN_NUMBER], ARBORICX_OUT_OF_FUEL);
        expect("steps of the deepest plain run", deepest_answer[ARBORICX_PLAIN_STEPS], ARBORICX_MAX_PLAIN);
    }
}

/* ---- Refusals: the leaf, stem L and a free slot, in a table of 12 words */

/* Several reasons may hold: the first in the order 21, 23, 24, 49 is answered. Damaged: slot 1 names itself. */
static const struct {
    int32_t base, f, x;
    uint32_t used, fuel, job_room, damaged, number;
} refused_cases[] = {
    /* fuel and job room at the limit, and each alone above it */
    {5, 0, 1, 2, 1000, 1000, 0, 0}, {5, 0, 1, 2, 1001, 1000, 0, 49}, {5, 0, 1, 2, 1000, 1001, 0, 49},
    {5, 0, 1, 2, 1001, 1001, 0, 49}, {5, 0, 1, 2, 1001, 0, 0, 49}, {5, 0, 1, 2, 1, 1001, 0, 49},
    {5, 0, 1, 2, 4294967295, 0, 0, 49}, {5, 0, 1, 2, 1, 4294967295, 0, 49}, {5, 0, 1, 2, 2147483648, 0, 0, 49},
    {5, 0, 1, 2, 1, 2147483648, 0, 49}, {5, 0, 1, 2, 65536, 0, 0, 49}, {5, 0, 1, 2, 1, 65536, 0, 49},
    {5, 0, 1, 2, 1, 65535, 0, 49},
    /* no fuel and no free slot would be a stop: a refusal is said before */
    {5, 0, 1, 2, 0, 1001, 0, 49}, {5, 0, 1, 3, 1001, 0, 1, 24}, {5, 0, 1, 2, 0, 1000, 1, 24},
    /* damaged slots */
    {5, 0, 1, 2, 1000, 1000, 1, 24}, {5, 0, 1, 2, 1001, 0, 1, 24}, {5, 0, 1, 2, 1, 1001, 1, 24},
    {5, 0, 1, 2, 1001, 1001, 1, 24}, {5, 0, 0, 1, 1, 0, 1, 0}, /* slot 1 is not used */
    /* slots outside */
    {5, -1, 1, 2, 1, 0, 0, 23}, {5, 0, -1, 2, 1, 0, 0, 23}, {5, 2, 1, 2, 1, 0, 0, 23}, {5, 0, 2, 2, 1, 0, 0, 23},
    {5, -1, 1, 2, 1001, 0, 0, 23}, {5, 0, -1, 2, 1, 1001, 0, 23}, {5, 2, 1, 2, 1001, 1001, 0, 23},
    {5, 0, 2, 2, 1001, 0, 1, 23}, {5, -2147483647 - 1, 1, 2, 1001, 0, 1, 23}, {5, 0, 2147483647, 2, 1, 1001, 1, 23},
    /* bases and used counts outside */
    {-1, 0, 1, 2, 1, 0, 0, 21}, {-1, 0, 1, 2, 1001, 0, 0, 21}, {-1, -1, 1, 2, 1, 1001, 1, 21},
    {-2147483647 - 1, 0, 1, 2, 1001, 1001, 1, 21}, {12, 0, 1, 2, 1001, 0, 0, 21}, {13, 0, 1, 2, 1, 1001, 0, 21},
    {9, 0, 1, 2, 1001, 0, 0, 21}, {2147483647, 0, 1, 2, 1001, 1001, 0, 21}, {5, 0, 1, 0, 1, 0, 0, 21},
    {5, 0, 1, 0, 1001, 0, 0, 21}, {5, 0, 1, 4, 1, 1001, 0, 21}, {5, -1, 1, 4294967295, 1001, 1001, 1, 21}};

/* What is let start is leaf to x: one step, one slot. */
static void check_refusals(void)
{
    for (size_t i = 0; i < sizeof refused_cases / sizeof refused_cases[0]; i++) {
        uint32_t number = refused_cases[i].number, count = refused_cases[i].used;
        struct known known = {.free_slots = 1, .job_room = refused_cases[i].job_room, .answer = {number}};
        known.run = (struct run){refused_cases[i].base, refused_cases[i].f, refused_cases[i].x, count,
                                 refused_cases[i].fuel};
        used = 0;
        add_slot(0, 0);
        add_slot(refused_cases[i].damaged ? 2 : 1, 0);
        if (number == ARBORICX_OK)
            memcpy(known.answer, (uint32_t[]){0, count, 1, count + 1}, sizeof known.answer);
        if (count == 1)
            used = 1; /* the words of slot 1 may change */
        check_known(&known);
    }
}

/* ---- The largest tables */

/* So many used slots in a table of 65,537: the room is 65,535. */
static void check_largest(uint32_t count, uint32_t f, const struct known *wanted)
{
    struct known known = *wanted;

    used = 0;
    add_slot(0, 0);
    while (used < count)
        add_slot(1, used == 2 ? 1 : 0); /* slot 2 is fork(L, L), all others are stem L */
    known.run = (struct run){PLAIN_BASE, (int32_t)f, (int32_t)count - 1, count, 1000};
    known.free_slots = 65537 - count;
    known.job_room = 1000;
    check_known(&known);
}

static void check_all_largest(void)
{
    check_largest(65534, 0, &(struct known){.answer = {0, 65534, 1, 65535}, .result = "110"});
    check_largest(65534, 1, &(struct known){.answer = {0, 65534, 1, 65535}, .result = "2010"});
    check_largest(65534, 2, &(struct known){.answer = {0, 0, 1, 65534}, .result = "0"});
    check_largest(65535, 0, &(struct known){.answer = {32, 0, 0, 65535}});
    check_largest(65535, 1, &(struct known){.answer = {32, 0, 0, 65535}});
    check_largest(65535, 2, &(struct known){.answer = {0, 0, 1, 65535}, .result = "0"});
    check_largest(65536, 0, &(struct known){.answer = {21}});
}

void check_plain_cases(void)
{
    check_texts(marked_cases, sizeof marked_cases / sizeof marked_cases[0]);
    check_texts(edge_cases, sizeof edge_cases / sizeof edge_cases[0]);
    check_chains();
    check_stack();
    check_refusals();
    check_all_largest();
}
