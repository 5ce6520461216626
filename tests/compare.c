/*
 * Holds the archive against the reference, on generated bundles, tables and runs of all kinds.
 *
 *     compare [--seed S] [--count N] [--first I] [--break K] [--zeros 1] [--record FILE]
 *
 * A case depends on the seed and its index alone: --seed S --first I --count 1 plays it again. --break K makes the
 * reference wrong in one way (reference.h lists them) and needs a build with REFERENCE_FAULTS; the comparison then has
 * to find a mismatch. --zeros 1 also hashes a gigabyte of zeros, whose length in bits needs more than 32 bits; that
 * takes some seconds. --record FILE writes down the archive's calls (record.h says how), but for those on tables with
 * closed pages or of vast lengths. Ends with 0 if all agree, 1 at a mismatch, 2 at memory touched that was not lent, 3
 * if it cannot be started.
 */
#include "bundles.h"
#include "calls.h"
#include "cases.h"
#include "dice.h"
#include "parts.h"
#include "plan.h"
#include "record.h"
#include "reference.h"

#include <inttypes.h>
#include <stdio.h>
#include <stdlib.h>
#include <string.h>

enum { PROBE_WORDS = 4096, PROBE_FUEL = 60000, KNOWN_SLOTS = 64, PLAYERS = 2, DONE = 0, NO_FUEL = 31, NO_PLACE = 33 };

/* ---- Names */

static void ask_name(const struct bundle *bundle, struct dice *dice, uint8_t *name, uint32_t *length)
{
    const struct bundle_export *item = &bundle->exports[dice_below(dice, bundle->export_count)];

    *length = item->name_at + item->name_len <= bundle->length ? item->name_len : 0;
    memcpy(name, bundle->bytes + item->name_at, *length);
    switch (dice_below(dice, 6)) {
    case 0: /* one byte differs */
        if (*length > 0)
            name[dice_below(dice, *length)] ^= (uint8_t)(1u << dice_below(dice, 8));
        break;
    case 1: /* one byte more */
        name[(*length)++] = (uint8_t)dice_below(dice, 256);
        break;
    case 2: /* one byte less */
        *length -= *length > 0;
        break;
    default:
        break;
    }
}

static void other_name(struct dice *dice, uint8_t *name, uint32_t *length)
{
    switch (dice_below(dice, 4)) {
    case 0:
        *length = 0;
        break;
    case 1:
        *length = bundle_bad_utf8(dice, name);
        break;
    case 2:
        *length = dice_once_in(dice, 2) ? dice_from(dice, 63, 66) : dice_from(dice, 1, 1500);
        bundle_text(dice, name, *length);
        break;
    default:
        *length = dice_below(dice, 70);
        dice_fill(dice, name, *length);
        break;
    }
}

static void play_index(const struct bundle *bundle, struct dice *dice)
{
    uint8_t name[2048];
    uint32_t length, answer[2];

    if (bundle->export_count > 0 && !dice_once_in(dice, 3))
        ask_name(bundle, dice, name, &length);
    else
        other_name(dice, name, &length);
    both_index(name, length, answer);
}

static void play_name(const struct bundle *bundle, struct dice *dice)
{
    static const uint32_t edges[] = {0, 1, 31, 32, 33, 255, 256, 65536, 0x7fffffff, 0x80000000, 0xffffffff};
    uint32_t index = dice_from(dice, 0, bundle->export_count);
    uint64_t answer[2];

    if (dice_once_in(dice, 3))
        index = edges[dice_below(dice, sizeof edges / sizeof edges[0])];
    both_name(index, answer);
    if (!bundle->untouched || bundle->expected != 0)
        return;
    const struct bundle_export *item = &bundle->exports[index < bundle->export_count ? index : 0];
    expect("start of the name", answer[0], index < bundle->export_count ? item->name_at : 0);
    expect("length of the name", answer[1], index < bundle->export_count ? item->name_len : 0);
}

/* Each export of a bundle made sound is found under its index. */
static void play_export(const struct bundle *bundle, struct dice *dice)
{
    uint32_t index = dice_below(dice, bundle->export_count), answer[2];
    const struct bundle_export *item = &bundle->exports[index];

    both_index((dice_once_in(dice, 2) ? lent_file() : bundle->bytes) + item->name_at, item->name_len, answer);
    expect("index of the export", answer[1], index);
}

static void play_sha256(const struct bundle *bundle, struct dice *dice)
{
    static const uint32_t edges[] = {0, 1, 55, 56, 57, 63, 64, 65, 119, 120, 121, 127, 128, 129, 184, 247, 248};
    uint32_t most = bundle->length < 5000 ? (uint32_t)bundle->length : 5000;
    uint32_t length = dice_from(dice, 0, most);

    if (dice_once_in(dice, 2))
        length = edges[dice_below(dice, sizeof edges / sizeof edges[0])];
    if (length > most)
        length = most;
    size_t start = bundle->length - length;
    both_sha256(dice_once_in(dice, 2) ? start : dice_below(dice, (uint32_t)start + 1), length);
}

/* ---- Loads */

struct place {
    size_t length, closed;
    int32_t base;
};

/* A base at the edges of a table of some length. */
static struct place edge_place(struct dice *dice, size_t length)
{
    int64_t end = (int64_t)length;
    int64_t bases[] = {INT32_MIN, INT32_MIN + 1, -65536, -3, -2, -1, 0, 1, 2, end - 1, end, end + 1, INT32_MAX};
    struct place place = {length, 0, (int32_t)bases[dice_below(dice, sizeof bases / sizeof bases[0])]};

    return place;
}

/* A table that holds so many slots from the base on, or almost, or some more. */
static struct place fitting_place(struct dice *dice, uint32_t slots)
{
    static const int32_t bases[] = {0,    0,    1,     2,                 3,                7,           100, 1023,
                                    1024, 1025, 65536, LARGEST_BASE / 16, LARGEST_BASE - 1, LARGEST_BASE};
    struct place place = {0, 0, bases[dice_below(dice, dice_once_in(dice, 3) ? 14 : 7)]};
    size_t open = 2 * (size_t)slots;

    switch (dice_below(dice, 6)) {
    case 0:
        open -= open > 0;
        break;
    case 1:
        break;
    case 2:
        open += 1;
        break;
    case 3: /* whole pages: both fences are at the words from the base on */
        open = (open + 1023) / 1024 * 1024;
        break;
    case 4:
        open += dice_once_in(dice, 200) ? 131070 : dice_below(dice, 40);
        break;
    default:
        open += dice_below(dice, 600);
        break;
    }
    place.length = (size_t)place.base + open;
    if (place.base > 2000 || (place.base > 0 && dice_once_in(dice, 2)))
        place.closed = (size_t)place.base;
    return place;
}

static struct place some_place(struct dice *dice, uint32_t slots)
{
    uint32_t lengths[] = {0, 1, 2, 3, 2 * slots, 2 * slots + 1, 2 * slots - 1, 64};

    if (dice_once_in(dice, 3))
        return edge_place(dice, lengths[dice_below(dice, sizeof lengths / sizeof lengths[0])]);
    return fitting_place(dice, slots);
}

static size_t some_exports_length(const struct bundle *bundle, struct dice *dice)
{
    size_t count = bundle->export_count;

    switch (dice_below(dice, 8)) {
    case 0:
        return 0;
    case 1:
        return count - (count > 0);
    case 2:
        return 1024;
    case 3:
        return count + dice_below(dice, 40);
    default:
        return count;
    }
}

static void play_load(const struct bundle *bundle, struct dice *dice)
{
    struct place place = some_place(dice, bundle->node_count > 0 ? bundle->node_count : 1);
    struct lent words, exports;
    uint32_t answer[3];

    lend_table(&words, TABLE_WORDS, place.length, place.closed, dice);
    lend_table(&exports, TABLE_EXPORTS, some_exports_length(bundle, dice), 0, dice);
    both_load(&words, place.base, &exports, answer);
}

/* ---- The table against the file, without the reference's load */

static uint8_t slot_hashes[512][PLAN_HASH];

/* The hash of each slot, computed from the words alone. Children lie in earlier slots. */
static void hash_slots(const uint32_t *slots, uint32_t count)
{
    for (uint32_t i = 0; i < count; i++) {
        uint8_t payload[1 + 2 * PLAN_HASH];
        uint32_t first = slots[2 * i], second = slots[2 * i + 1];
        uint32_t children = (first > 0 ? 1u : 0u) + (second > 0 ? 1u : 0u);
        expect("slots name earlier slots", first <= i && second <= i && (first > 0 || second == 0), 1);
        payload[0] = (uint8_t)children;
        if (children > 0)
            memcpy(payload + 1, slot_hashes[first - 1], PLAN_HASH);
        if (children > 1)
            memcpy(payload + 1 + PLAN_HASH, slot_hashes[second - 1], PLAN_HASH);
        node_hash(payload, 1 + (size_t)children * PLAN_HASH, slot_hashes[i]);
    }
}

static void check_export_slots(const struct bundle *bundle, const uint32_t *exports, uint32_t count)
{
    for (uint32_t i = 0; i < bundle->export_count; i++) {
        expect("export slots are used", exports[i] < count, 1);
        expect("export slots hold the tree of the hash",
               memcmp(slot_hashes[exports[i]], bundle->bytes + bundle->exports[i].hash_at, PLAN_HASH) == 0, 1);
    }
}

/* A record that comes earlier in the file than that of a slot is placed earlier, or waits for a child. */
static void check_placing(const struct bundle *bundle, const uint32_t *slots, uint32_t count)
{
    uint32_t slot_of[512];

    for (uint32_t i = 0; i < count; i++) {
        uint32_t slot = 0;
        while (slot < count && memcmp(slot_hashes[slot], bundle->bytes + bundle->record_at[i], PLAN_HASH) != 0)
            slot++;
        expect("each record has a slot", slot < count, 1);
        slot_of[i] = slot;
    }
    for (uint32_t i = 0; i < count; i++)
        for (uint32_t earlier = 0; earlier < i && slot_of[i] > 0; earlier++) {
            const uint32_t *words = slots + 2 * slot_of[earlier];
            int placed = slot_of[earlier] < slot_of[i];
            expect("the earliest record is placed", placed || words[0] > slot_of[i] || words[1] > slot_of[i], 1);
        }
}

/* ---- Lists of runs and carry-ons */

/* A job table, and the numbers of the run that stopped with the jobs in it. */
struct player {
    enum table table;
    struct lent jobs;
    int32_t f, x;
    uint32_t waiting, steps;
    uint32_t number; /* 0: no run has stopped */
};

struct story {
    struct lent words;
    int32_t base;
    uint32_t used, room;
    uint32_t known[KNOWN_SLOTS]; /* slots of exports and of results */
    uint32_t known_count;
    struct player players[PLAYERS];
};

static void know(struct story *story, struct dice *dice, uint32_t slot)
{
    uint32_t at = story->known_count < KNOWN_SLOTS ? story->known_count++ : dice_below(dice, KNOWN_SLOTS);

    story->known[at] = slot;
}

static void begin_story(struct story *story, struct place place)
{
    size_t room = (place.length - (size_t)place.base) / 2;

    story->base = place.base;
    story->room = room < 65535 ? (uint32_t)room : 65535;
    story->known_count = 0;
    story->players[0] = (struct player){.table = TABLE_JOBS};
    story->players[1] = (struct player){.table = TABLE_OTHER_JOBS};
}

static int32_t some_slot(const struct story *story, struct dice *dice)
{
    int64_t used = story->used;
    int64_t edges[] = {INT32_MIN, -65536, -3, -1, 0, used - 1, used, used + 1, 65534, 65535, 65536, INT32_MAX};
    uint32_t kind = dice_below(dice, 100);

    if (kind < 4)
        return (int32_t)edges[dice_below(dice, sizeof edges / sizeof edges[0])];
    if (kind < 75 && story->known_count > 0)
        return (int32_t)story->known[dice_below(dice, story->known_count)];
    if (kind < 85 && used > 6)
        return (int32_t)(used - 1 - dice_below(dice, 6));
    return (int32_t)dice_below(dice, story->used > 0 ? story->used : 1);
}

static uint32_t some_used(const struct story *story, struct dice *dice)
{
    uint32_t edges[] = {0,     1,          story->used - 1, story->used + 1, story->room, story->room + 1,
                        65536, 0x80000000, 0xffffffff};

    if (dice_once_in(dice, 12))
        return edges[dice_below(dice, sizeof edges / sizeof edges[0])];
    return story->used;
}

/*
 * Fuel without limit is given only where a trial of the reference ends by itself, so that each case ends soon. The
 * trial has its own copy of the words from the base on and of the jobs.
 */
static uint32_t fuel_without_limit(const struct story *story, const struct start *start, struct dice *dice)
{
    static uint32_t words[PROBE_WORDS], jobs[PROBE_WORDS];
    const struct run *run = &start->carry.run;
    size_t open = story->words.length - (size_t)story->base, jobs_len = start->jobs->length;
    uint32_t number, answer[6];

    if (open > PROBE_WORDS || jobs_len > PROBE_WORDS || run->base != story->base)
        return PROBE_FUEL;
    memcpy(words, story->words.words[REFERENCE] + story->base, open * sizeof words[0]);
    memcpy(jobs, start->jobs->words[REFERENCE], jobs_len * sizeof jobs[0]);
    if (start->onward)
        number = reference_carry_on(words, open, 0, run->f, run->x, run->used, start->carry.waiting, 0, PROBE_FUEL,
                                    jobs, jobs_len, answer);
    else
        number = reference_run(words, open, 0, run->f, run->x, run->used, PROBE_FUEL, jobs, jobs_len, answer);
    if (number == NO_FUEL)
        return PROBE_FUEL;
    return dice_once_in(dice, 2) ? UINT32_MAX : 0x80000000u + dice_below(dice, 0x7fffffff);
}

static uint32_t some_fuel(const struct story *story, const struct start *start, struct dice *dice)
{
    switch (dice_below(dice, 12)) {
    case 0:
        return 0;
    case 1:
        return 1;
    case 2:
    case 3:
    case 4:
        return dice_from(dice, 2, 12);
    case 5:
    case 6:
        return dice_from(dice, 2, 60);
    case 7:
        return dice_once_in(dice, 4) ? dice_from(dice, 999, 1002) : dice_from(dice, 100, 5000);
    case 8:
    case 9:
        return fuel_without_limit(story, start, dice);
    default:
        return dice_from(dice, 60, 400);
    }
}

static size_t some_jobs_length(struct dice *dice)
{
    switch (dice_below(dice, 12)) {
    case 0:
        return dice_below(dice, 6);
    case 1:
    case 2:
        return dice_below(dice, 14);
    case 3:
        return 1024;
    case 4: /* or 999 to 1,002 jobs: the limit of a plain run is among them */
        return dice_once_in(dice, 4) ? dice_from(dice, 2997, 3008) : dice_from(dice, 300, 3000);
    default:
        return dice_below(dice, 120);
    }
}

static uint32_t *word_at(const struct story *story, unsigned side, size_t word)
{
    return story->words.words[side] + story->base + word;
}

struct old_word {
    size_t at;
    uint32_t value;
};

static void set_word(struct story *story, size_t at, uint32_t value)
{
    for (unsigned side = 0; side < SIDES; side++)
        *word_at(story, side, at) = value;
}

/* One word of the used slots becomes another, on both sides. Often it is just outside of what is sound. */
static struct old_word damage_table(struct story *story, struct dice *dice)
{
    uint32_t slot = dice_below(dice, story->used);
    uint32_t values[] = {0, 1, slot - 1, slot, slot + 1, slot + 1, slot + 2, story->used, 0x80000000, 0xffffffff};
    struct old_word old = {2 * (size_t)slot + dice_below(dice, 2), 0};

    old.value = *word_at(story, ARCHIVE, old.at);
    set_word(story, old.at, values[dice_below(dice, sizeof values / sizeof values[0])]);
    return old;
}

static struct player *some_player(struct story *story, struct dice *dice)
{
    return &story->players[dice_below(dice, PLAYERS)];
}

/* A job table full of random words. */
static void lend_jobs(struct player *player, struct dice *dice, size_t length)
{
    lend_table(&player->jobs, player->table, length, 0, dice);
    player->number = DONE;
}

static int32_t some_base(const struct story *story, struct dice *dice)
{
    int32_t base = dice_once_in(dice, 60) ? edge_place(dice, story->words.length).base : story->base;

    /* closed words are not there from the base on */
    return base >= 0 && (size_t)base < story->words.closed ? story->base : base;
}

/* What a call leaves for the next ones; a refused one leaves all as it was. */
static void remember(struct story *story, struct player *player, const uint32_t answer[6], struct dice *dice)
{
    uint32_t number = answer[0];

    if (number != DONE && (number < NO_FUEL || number > NO_PLACE))
        return;
    story->used = answer[4];
    know(story, dice, answer[1]);
    player->number = number;
    if (number == DONE)
        return;
    know(story, dice, answer[2]);
    player->f = (int32_t)answer[1];
    player->x = (int32_t)answer[2];
    player->steps = answer[3];
    player->waiting = answer[5];
}

/* One run, which goes on with the table as the last call left it. Fuel 0 leaves the fuel to the dice. */
static void play_run(struct story *story, struct dice *dice, size_t jobs_len, uint32_t fuel)
{
    struct player *player = some_player(story, dice);
    struct run run = {some_base(story, dice), some_slot(story, dice), some_slot(story, dice), some_used(story, dice),
                      fuel};
    struct start start = {&story->words, &player->jobs, {run, 0, 0}, 0};
    uint32_t answer[6];

    if (player->number == DONE || !dice_once_in(dice, 6)) /* else the jobs of a stopped run are in the table */
        lend_jobs(player, dice, jobs_len);
    if (fuel == 0)
        start.carry.run.fuel = some_fuel(story, &start, dice);
    both_run(&story->words, &start.carry.run, &player->jobs, answer);
    remember(story, player, answer, dice);
}

/* ---- Carry-ons */

static void set_job_word(struct player *player, size_t at, uint32_t value)
{
    for (unsigned side = 0; side < SIDES; side++)
        player->jobs.words[side][at] = value;
}

static uint32_t job_room(const struct player *player)
{
    return player->jobs.length / 3 < 65535 ? (uint32_t)(player->jobs.length / 3) : 65535;
}

static void clear_above(struct player *player)
{
    size_t above = 3 * (size_t)player->waiting;

    for (unsigned side = 0; side < SIDES; side++)
        memset(player->jobs.words[side] + above, 0, (player->jobs.length - above) * sizeof(uint32_t));
}

/* A stop that never was: some jobs that are sound over the used slots. */
static void make_up_stop(struct story *story, struct player *player, struct dice *dice, size_t jobs_len)
{
    uint32_t slots = story->used > 0 ? story->used : 1;

    lend_jobs(player, dice, jobs_len);
    player->number = NO_FUEL;
    player->f = some_slot(story, dice);
    player->x = some_slot(story, dice);
    player->steps = dice_once_in(dice, 4) ? dice_word(dice) : dice_below(dice, 1000);
    player->waiting = dice_once_in(dice, 4) ? job_room(player) : dice_below(dice, job_room(player) + 1);
    for (size_t at = 0; at < 3 * (size_t)player->waiting; at += 3) {
        uint32_t tag = dice_from(dice, 1, 3);
        set_job_word(player, at, tag);
        set_job_word(player, at + 1, dice_below(dice, slots));
        set_job_word(player, at + 2, tag == 1 ? dice_below(dice, slots) : 0);
    }
    clear_above(player);
}

/* The jobs of a stop move to a table of another length, if they fit. */
static void move_jobs(struct player *player, struct dice *dice, size_t jobs_len)
{
    static uint32_t moved[MOST_JOBS];
    size_t words = 3 * (size_t)player->waiting;
    uint32_t number = player->number;

    if (words > jobs_len)
        return;
    memcpy(moved, player->jobs.words[ARCHIVE], words * sizeof moved[0]);
    lend_jobs(player, dice, jobs_len);
    player->number = number;
    for (unsigned side = 0; side < SIDES; side++)
        memcpy(player->jobs.words[side], moved, words * sizeof moved[0]);
    clear_above(player);
}

/* Where a word is changed: in the jobs, just above them, anywhere above them, or at the end of the table. */
static size_t some_job_word(const struct player *player, struct dice *dice)
{
    size_t length = player->jobs.length, above = 3 * (size_t)player->waiting;
    uint32_t kind = dice_below(dice, 8);

    if (above > 0 && (kind < 4 || above == length))
        return dice_once_in(dice, 2) ? above - 1 - dice_below(dice, 3) : dice_below(dice, (uint32_t)above);
    if (kind == 4)
        return length - 1;
    return kind == 5 ? above + dice_below(dice, (uint32_t)(length - above)) : above;
}

/* One word of the job table becomes another, on both sides. Often it is just outside of what is sound. */
static struct old_word damage_jobs(struct story *story, struct player *player, struct dice *dice)
{
    size_t at = some_job_word(player, dice);
    uint32_t tags[] = {0, 1, 2, 3, 4, 4, 5, 0x80000001, 0xffffffff};
    uint32_t slots[] = {0, 1, story->used - 1, story->used, story->used, story->used + 1, 0x80000000, 0xffffffff};
    struct old_word old = {at, player->jobs.words[ARCHIVE][at]};

    if (at >= 3 * (size_t)player->waiting)
        set_job_word(player, at, 1u << dice_below(dice, 32));
    else if (at % 3 == 0)
        set_job_word(player, at, tags[dice_below(dice, sizeof tags / sizeof tags[0])]);
    else
        set_job_word(player, at, slots[dice_below(dice, sizeof slots / sizeof slots[0])]);
    return old;
}

static uint32_t some_waiting(const struct player *player, struct dice *dice)
{
    uint32_t room = job_room(player);
    uint32_t edges[] = {0,          room,       room + 1,   player->waiting - 1, player->waiting + 1, 65535, 65536,
                        0x55555555, 0x55555556, 0x80000000, 0xffffffff};

    return dice_once_in(dice, 12) ? edges[dice_below(dice, sizeof edges / sizeof edges[0])] : player->waiting;
}

/* Steps as the stop said, or such that they and the fuel are at the limit. */
static uint32_t some_steps(const struct player *player, uint32_t fuel, struct dice *dice)
{
    switch (dice_below(dice, 12)) {
    case 0:
        return 0;
    case 1:
        return UINT32_MAX - fuel;
    case 2:
        return UINT32_MAX - fuel + 1;
    case 3:
        return UINT32_MAX;
    default:
        return player->steps;
    }
}

/* The numbers of the stop, with some fuel. */
static struct carry carry_of(const struct story *story, const struct player *player, uint32_t fuel)
{
    struct carry carry = {{story->base, player->f, player->x, story->used, fuel}, player->waiting, player->steps};

    return carry;
}

/* The numbers of the stop, but for some. */
static struct start some_carry(struct story *story, struct player *player, struct dice *dice, uint32_t fuel)
{
    struct start start = {&story->words, &player->jobs, carry_of(story, player, fuel), 1};

    start.carry.run.base = some_base(story, dice);
    start.carry.run.used = some_used(story, dice);
    start.carry.waiting = some_waiting(player, dice);
    if (dice_once_in(dice, 12))
        start.carry.run.f = some_slot(story, dice);
    if (dice_once_in(dice, 12))
        start.carry.run.x = some_slot(story, dice);
    if (fuel == 0)
        start.carry.run.fuel = some_fuel(story, &start, dice);
    start.carry.steps = some_steps(player, start.carry.run.fuel, dice);
    return start;
}

/* One carry-on, of a stop that was or of one made up. Fuel 0 leaves the fuel to the dice. */
static void play_carry(struct story *story, struct dice *dice, size_t jobs_len, uint32_t fuel)
{
    struct player *player = some_player(story, dice);
    struct old_word old = {0, 0};
    uint32_t answer[6];

    if (player->number == DONE || dice_once_in(dice, 4))
        make_up_stop(story, player, dice, jobs_len);
    else if (dice_once_in(dice, 4))
        move_jobs(player, dice, jobs_len);
    int damaged = player->jobs.length > 0 && dice_once_in(dice, 4);
    if (damaged)
        old = damage_jobs(story, player, dice);
    struct start start = some_carry(story, player, dice, fuel);
    both_carry_on(&story->words, &start.carry, &player->jobs, answer);
    remember(story, player, answer, dice);
    if (damaged && answer[4] == 0) /* refused: the jobs are still there */
        set_job_word(player, old.at, old.value);
}

/* Fuel in parts, of a run or of a carry-on. Much fuel is cut at some places only. */
static void play_cut(struct story *story, struct dice *dice, size_t jobs_len, uint32_t fuel)
{
    struct player *player = some_player(story, dice);
    struct start start = {.words = &story->words, .jobs = &player->jobs, .onward = dice_once_in(dice, 2)};
    uint32_t answer[6];

    if (start.onward) {
        if (player->number != NO_FUEL)
            make_up_stop(story, player, dice, jobs_len);
        start.carry = carry_of(story, player, fuel);
        if (start.carry.steps > UINT32_MAX - fuel || dice_once_in(dice, 8))
            start.carry.steps = UINT32_MAX - fuel; /* the most that are taken */
    } else {
        lend_jobs(player, dice, jobs_len);
        start.carry.run = (struct run){story->base, some_slot(story, dice), some_slot(story, dice), story->used, fuel};
    }
    if (fuel > MOST_CUTS)
        cut_somewhere(&start, dice, answer);
    else
        cut_everywhere(&start, answer);
    remember(story, player, answer, dice);
}

/* ---- Plain runs */

/* Fuel or a job room: few, up to the limit, or at an edge. */
static uint32_t some_allowance(struct dice *dice)
{
    static const uint32_t edges[] = {0,    1,    999,   1000,  1000,       1000,      1001,
                                     1001, 1002, 65535, 65536, 0x80000000, 0xffffffff};

    switch (dice_below(dice, 6)) {
    case 0:
        return edges[dice_below(dice, sizeof edges / sizeof edges[0])];
    case 1:
    case 2:
        return dice_from(dice, 12, 1000);
    default:
        return dice_below(dice, 12);
    }
}

/* One plain run on the table as the last call left it; the next call goes on with what it leaves. */
static void play_plain(struct story *story, struct dice *dice)
{
    struct run run = {some_base(story, dice), some_slot(story, dice), some_slot(story, dice), some_used(story, dice),
                      some_allowance(dice)};
    uint32_t answer[4];

    both_plain_run(&story->words, &run, some_allowance(dice), answer);
    if (answer[3] == 0) /* refused */
        return;
    story->used = answer[3];
    know(story, dice, answer[1]);
}

/* ---- Calls one after the other */

static void play_calls(struct story *story, struct dice *dice, uint32_t calls)
{
    for (uint32_t i = 0; i < calls; i++) {
        int damaged = story->used > 0 && dice_once_in(dice, 10);
        struct old_word old = {0, 0};
        uint32_t kind = dice_below(dice, 32);
        if (damaged)
            old = damage_table(story, dice);
        if (kind < 13)
            play_run(story, dice, some_jobs_length(dice), 0);
        else if (kind < 26)
            play_carry(story, dice, some_jobs_length(dice), 0);
        else if (kind < 30)
            play_plain(story, dice);
        else {
            uint32_t fuel = dice_from(dice, 1, 40); /* drawn first: the order of arguments is the compiler's */
            play_cut(story, dice, some_jobs_length(dice), fuel);
        }
        if (damaged && !dice_once_in(dice, 8))
            set_word(story, old.at, old.value);
    }
}

/* A load that is accepted if the bundle is, and calls on its table. */
static void play_loaded(const struct bundle *bundle, struct dice *dice)
{
    struct place place = fitting_place(dice, bundle->node_count + dice_below(dice, dice_once_in(dice, 3) ? 6 : 200));
    struct story story;
    struct lent exports;
    uint32_t answer[3];

    begin_story(&story, place);
    lend_table(&story.words, TABLE_WORDS, place.length, place.closed, dice);
    lend_table(&exports, TABLE_EXPORTS, bundle->export_count, 0, dice);
    if (both_load(&story.words, place.base, &exports, answer) != 0)
        return;
    story.used = answer[1];
    for (uint32_t i = 0; i < answer[2]; i++)
        know(&story, dice, exports.words[ARCHIVE][i]);
    if (bundle->untouched)
        expect("node count", answer[1], bundle->node_count);
    if (bundle->untouched && (bundle->node_count < 60 || dice_once_in(dice, 8))) {
        hash_slots(word_at(&story, ARCHIVE, 0), answer[1]);
        check_export_slots(bundle, exports.words[ARCHIVE], answer[1]);
        check_placing(bundle, word_at(&story, ARCHIVE, 0), answer[1]);
    }
    play_calls(&story, dice, dice_from(dice, 1, 16));
}

/* ---- Tables that no load has written */

/* Slots that are sound, whatever they mean. */
static void fill_sound(struct story *story, struct dice *dice)
{
    for (uint32_t i = 0; i < story->used; i++) {
        uint32_t first = i == 0 ? 0 : dice_from(dice, 1, i);
        uint32_t second = i == 0 || dice_once_in(dice, 4) ? 0 : dice_from(dice, 0, i);
        set_word(story, 2 * (size_t)i, first);
        set_word(story, 2 * (size_t)i + 1, second);
    }
}

static void play_made_table(struct dice *dice)
{
    uint32_t slots = dice_from(dice, 1, dice_once_in(dice, 4) ? 300 : 40);
    struct place place = fitting_place(dice, slots + dice_below(dice, dice_once_in(dice, 3) ? 4 : 60));
    struct story story;

    begin_story(&story, place);
    story.used = slots < story.room ? slots : story.room;
    lend_table(&story.words, TABLE_WORDS, place.length, place.closed, dice);
    if (!dice_once_in(dice, 20)) /* else the words stay random */
        fill_sound(&story, dice);
    if (story.used > 0 && dice_once_in(dice, 8))
        damage_table(&story, dice);
    play_calls(&story, dice, dice_from(dice, 1, 10));
}

/* ---- The largest tables */

static uint32_t add_slot(struct story *story, uint32_t first, uint32_t second)
{
    set_word(story, 2 * (size_t)story->used, first);
    set_word(story, 2 * (size_t)story->used + 1, second);
    return story->used++;
}

/* A tree that, applied to itself, comes back to this with so many more jobs waiting and four slots more. */
static uint32_t add_tower(struct story *story, uint32_t jobs)
{
    uint32_t leaf = add_slot(story, 0, 0);
    uint32_t stem_leaf = add_slot(story, leaf + 1, 0);
    uint32_t stem_stem = add_slot(story, stem_leaf + 1, 0);
    uint32_t identity = add_slot(story, stem_stem + 1, leaf + 1);
    uint32_t stem_identity = add_slot(story, identity + 1, 0);
    uint32_t tree = add_slot(story, stem_identity + 1, identity + 1);

    for (uint32_t i = 0; i < jobs; i++) {
        uint32_t stem = add_slot(story, tree + 1, 0);
        tree = add_slot(story, stem + 1, leaf + 1);
    }
    return tree;
}

/* Each tree a fork of the one before with itself: applied to itself, one job for each slot. */
static uint32_t add_doubled(struct story *story, uint32_t slots)
{
    uint32_t tree = add_slot(story, 0, 0);

    while (story->used < slots)
        tree = add_slot(story, tree + 1, tree + 1);
    return tree;
}

static void play_largest(struct dice *dice)
{
    struct place place = {0, 0, (int32_t)(dice_once_in(dice, 2) ? 0 : dice_below(dice, 3000))};
    struct story story;
    uint32_t jobs_len = dice_once_in(dice, 2) ? 196605 + dice_below(dice, 12) - 4 : dice_below(dice, 200000);

    place.length = (size_t)place.base + 131070 + dice_below(dice, 9) - 4;
    place.closed = dice_once_in(dice, 2) ? (size_t)place.base : 0;
    begin_story(&story, place);
    story.used = 0;
    lend_table(&story.words, TABLE_WORDS, place.length, place.closed, dice);
    if (dice_once_in(dice, 3))
        know(&story, dice, add_doubled(&story, story.room - dice_below(dice, 3)));
    else
        know(&story, dice, add_tower(&story, dice_below(dice, 60)));
    for (uint32_t i = 0; i < 8; i++) {
        uint32_t fuel = dice_once_in(dice, 2) ? dice_from(dice, 1, 60000) : 3000000;
        if (i % 4 == 0)
            play_run(&story, dice, jobs_len, fuel);
        else if (i % 4 == 1)
            play_carry(&story, dice, jobs_len, fuel);
        else if (i % 4 == 2)
            play_cut(&story, dice, jobs_len, fuel);
        else
            play_plain(&story, dice);
    }
}

/* ---- Cases */

static void play_case(struct dice *dice)
{
    static struct bundle bundle;

    bundle_make(&bundle, dice);
    int large = bundle.length > 12000;
    lend_file(bundle.bytes, bundle.length, dice);
    uint32_t number = both_check();
    if (bundle.expected != BUNDLE_UNKNOWN)
        expect("number expected by the generator", number, (uint64_t)bundle.expected);
    for (uint32_t i = dice_from(dice, 1, large ? 1 : 3); i > 0; i--)
        play_index(&bundle, dice);
    for (uint32_t i = dice_from(dice, 1, large ? 1 : 2); i > 0; i--)
        play_name(&bundle, dice);
    if (bundle.untouched && bundle.expected == 0)
        play_export(&bundle, dice);
    for (uint32_t i = dice_from(dice, 1, 3); i > 0; i--)
        play_sha256(&bundle, dice);
    for (uint32_t i = dice_from(dice, 1, large ? 2 : 4); i > 0; i--)
        play_load(&bundle, dice);
    for (uint32_t i = number == 0 ? dice_from(dice, 1, large ? 1 : 3) : 0; i > 0; i--)
        play_loaded(&bundle, dice);
    for (uint32_t i = dice_below(dice, 3); i > 0; i--)
        play_made_table(dice);
    if (dice_once_in(dice, 500))
        play_largest(dice);
}

/* ---- The program */

struct options {
    uint64_t seed, count, first;
    int broken, zeros;
};

static void usage(void)
{
    fprintf(stderr, "usage: compare [--seed S] [--count N] [--first I] [--break K] [--zeros 1] [--record FILE]\n");
    exit(3);
}

static void read_options(struct options *options, int count, char **arguments)
{
    for (int i = 1; i < count; i += 2) {
        char *end;
        if (i + 1 == count)
            usage();
        if (strcmp(arguments[i], "--record") == 0) {
            record_to(arguments[i + 1]);
            continue;
        }
        unsigned long long value = strtoull(arguments[i + 1], &end, 10);
        if (*arguments[i + 1] == '\0' || *end != '\0')
            usage();
        if (strcmp(arguments[i], "--seed") == 0)
            options->seed = value;
        else if (strcmp(arguments[i], "--count") == 0)
            options->count = value;
        else if (strcmp(arguments[i], "--first") == 0)
            options->first = value;
        else if (strcmp(arguments[i], "--break") == 0 && value > FAULT_NONE && value < FAULT_END)
            options->broken = (int)value;
        else if (strcmp(arguments[i], "--zeros") == 0)
            options->zeros = value != 0;
        else
            usage();
    }
}

static void break_reference(int broken)
{
#ifdef REFERENCE_FAULTS
    reference_fault = broken;
#else
    if (broken != FAULT_NONE) {
        fprintf(stderr, "compare: --break needs a build with REFERENCE_FAULTS\n");
        exit(3);
    }
#endif
}

int main(int count, char **arguments)
{
    struct options options = {.seed = 1, .count = 20000};

    read_options(&options, count, arguments);
    printf("seed %" PRIu64 "\n", options.seed);
    fflush(stdout);
    calls_prepare(arguments[0]);
    calls_case(options.seed, options.first, options.broken);
    check_published_digests();
    check_paper_cases();
    check_carry_cases();
    check_plain_cases();
    if (VAST_MEMORY)
        check_vast_lengths();
    if (options.zeros)
        check_gigabyte();
    break_reference(options.broken);
    for (uint64_t i = 0; i < options.count; i++) {
        struct dice dice = dice_for_case(options.seed, options.first + i);
        calls_case(options.seed, options.first + i, options.broken);
        play_case(&dice);
    }
    record_end();
    print_numbers();
    printf("%" PRIu64 " cases, %" PRIu64 " calls: all agree\n", options.count, calls_made());
    return 0;
}
