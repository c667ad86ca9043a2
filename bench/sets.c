#include "sets.h"

#include <stdio.h>
#include <stdlib.h>
#include <string.h>

#include "twin.h"

enum { RECORD = TAMPERMAUVE_RECORD_LENGTH, WORKERS = TAMPERMAUVE_WORKERS_LIMIT, STEPS = TAMPERMAUVE_STEPS_LIMIT };
enum { PLANS = TAMPERMAUVE_PLANS_LIMIT, LOCKS = TAMPERMAUVE_LOCK_LIMIT + 1 };

/* The ops, by short names. */
enum {
    SET_TO = TAMPERMAUVE_OP_SET,
    LOAD = TAMPERMAUVE_OP_LOAD,
    STORE = TAMPERMAUVE_OP_STORE,
    ADD = TAMPERMAUVE_OP_ADD,
    SUBTRACT = TAMPERMAUVE_OP_SUBTRACT,
    SKIP_ZERO = TAMPERMAUVE_OP_SKIP_ZERO,
    SKIP_NONZERO = TAMPERMAUVE_OP_SKIP_NONZERO,
    LOCK = TAMPERMAUVE_OP_LOCK,
    UNLOCK = TAMPERMAUVE_OP_UNLOCK,
    WAIT = TAMPERMAUVE_OP_WAIT,
    SIGNAL = TAMPERMAUVE_OP_SIGNAL,
    BROADCAST = TAMPERMAUVE_OP_BROADCAST,
    BARRIER = TAMPERMAUVE_OP_BARRIER,
    EXIT = TAMPERMAUVE_OP_EXIT,
    START = TAMPERMAUVE_OP_START
};

/* --- Writing plans ------------------------------------------------------ */

static struct set *all;
static unsigned made;
static int wanted;

static void *room(size_t len)
{
    void *bytes = malloc(len);
    if (bytes == NULL) {
        fprintf(stderr, "no memory\n");
        exit(2);
    }
    return bytes;
}

static void put(struct set_case *c, unsigned worker, unsigned op, unsigned reg,
                unsigned number)
{
    const uint8_t bytes[RECORD] = {TAMPERMAUVE_PLAN_MARK % 256,
                                   TAMPERMAUVE_PLAN_MARK / 256,
                                   (uint8_t)worker,
                                   (uint8_t)op,
                                   (uint8_t)reg,
                                   (uint8_t)(number & 255),
                                   (uint8_t)(number >> 8)};
    memcpy(c->file + c->file_len, bytes, RECORD);
    c->file_len += RECORD;
}

/* A new set with one case, its plan record and its barriers, all of a size. */
static struct set_case *new_case(struct set *s, unsigned workers, unsigned size)
{
    struct set_case *c = &s->cases[s->count++];
    c->file = room(SET_FILE);
    c->file_len = 0;
    c->turns = room(SET_TURNS);
    c->turns_len = 0;
    put(c, workers, 0, 0, 0);
    for (unsigned barrier = 0; size != 0 && barrier < 8; barrier++)
        put(c, 0, 1, barrier, size);
    return c;
}

static struct set *new_set(const char *name)
{
    struct set *s = &all[made++];
    s->name = name;
    s->check_only = 0;
    s->count = 0;
    s->files = NULL;
    s->files_len = 0;
    return s;
}

static struct set_case *set_of_one(const char *name, unsigned workers, unsigned size)
{
    return new_case(new_set(name), workers, size);
}

/* The same, and all workers sleep but the first. */
static struct set_case *set_of_sleepers(const char *name, unsigned size)
{
    struct set_case *c = set_of_one(name, WORKERS, size);
    for (unsigned worker = 1; worker < WORKERS; worker++)
        put(c, worker, TAMPERMAUVE_OP_SLEEP_RECORD, 0, 0);
    return c;
}

/* --- Writing turn lists ------------------------------------------------- */

static void turn(struct set_case *c, unsigned worker)
{
    c->turns[c->turns_len++] = (uint8_t)worker;
}

/* The same turn up to a length. */
static void turns_up_to(struct set_case *c, unsigned worker, size_t len)
{
    memset(c->turns + c->turns_len, (int)worker, len - c->turns_len);
    c->turns_len = len;
}

static size_t steps_of(const struct set_case *c)
{
    size_t steps = 0;
    for (size_t at = 0; at < c->file_len; at += RECORD)
        steps += c->file[at + TAMPERMAUVE_RECORD_OP] >= SET_TO;
    return steps;
}

/* The listing's turns: 2 * (steps + workers) cycles. */
static void cycles(struct set_case *c)
{
    unsigned workers = c->file[TAMPERMAUVE_RECORD_WORKER];
    size_t count = tampermauve_ending_cycles(steps_of(c), workers);
    for (size_t i = 0; i < count; i++)
        for (unsigned worker = 0; worker < workers; worker++)
            turn(c, worker);
}

/* So many turns of the case's list move. */
static unsigned moves_of(const struct set_case *c)
{
    static uint8_t memory[TAMPERMAUVE_MEMORY_LENGTH], log[TAMPERMAUVE_LOG_LENGTH];
    static uint8_t report[TAMPERMAUVE_REPORT_LENGTH], work[TAMPERMAUVE_WORK_LENGTH];
    memset(memory, 0, sizeof memory);
    if (twin_run(c->file, c->file_len, c->turns, c->turns_len, memory,
                 sizeof memory, log, sizeof log, report, sizeof report, work,
                 sizeof work) != 0) {
        fprintf(stderr, "a plan of the measurement is refused\n");
        exit(2);
    }
    return (unsigned)tampermauve_word(report, TAMPERMAUVE_REPORT_MOVES);
}

/* Turns to the end, each of which moves: the next worker that can. */
static void moving_turns(struct set_case *c)
{
    unsigned workers = c->file[TAMPERMAUVE_RECORD_WORKER], last = 0, passed = 0;
    if (wanted != ALL_SETS && wanted != (int)made - 1)
        return;
    while (passed < workers) {
        last = (last + 1) % workers;
        turn(c, last);
        if (moves_of(c) == c->turns_len) {
            passed = 0;
        } else {
            c->turns_len -= 1;
            passed += 1;
        }
    }
}

static uint64_t state = 2026;

static unsigned below(unsigned bound)
{
    state = state * 6364136223846793005u + 1442695040888963407u;
    return (unsigned)(state >> 33) % bound;
}

static void random_turns(struct set_case *c, size_t len)
{
    unsigned workers = c->file[TAMPERMAUVE_RECORD_WORKER];
    for (size_t i = 0; i < len; i++)
        turn(c, below(workers));
}

/* --- The sets ----------------------------------------------------------- */

static void passing_sets(void)
{
    struct set_case *c = set_of_one("pass at the fence", 2, 0);
    turns_up_to(c, 1, SET_TURNS);
    c = set_of_one("pass at the fence, 4096 turns", 2, 0);
    turns_up_to(c, 1, 4096);
    c = set_of_one("pass at the fence, longest file", WORKERS, 8);
    for (unsigned i = 0; i < WORKERS * STEPS; i++)
        put(c, i / STEPS, SET_TO, 0, i);
    turns_up_to(c, 7, SET_TURNS);
    c = set_of_one("pass without the token", 2, 0);
    turn(c, 0);
    turns_up_to(c, 1, SET_TURNS);
    c = set_of_one("pass behind the end", 2, 0);
    for (unsigned i = 0; i < 8; i++)
        turn(c, i % 2);
    turns_up_to(c, 1, SET_TURNS);
    c = set_of_one("pass, workers in turn", WORKERS, 0);
    for (unsigned i = 0; i < SET_TURNS; i++)
        turn(c, i % 7);
}

static void arithmetic_set(void)
{
    struct set_case *c = set_of_one("private arithmetic", WORKERS, 0);
    for (unsigned i = 0; i < WORKERS * STEPS; i++) {
        static const uint8_t ops[4] = {SET_TO, ADD, SUBTRACT, ADD};
        put(c, i / STEPS, ops[i % 4], i / 4 % 4, i % 4 ? i % 3 : i);
    }
    moving_turns(c);
}

static void skip_set(void)
{
    struct set_case *c = set_of_one("skips", WORKERS, 0);
    for (unsigned i = 0; i < WORKERS * STEPS; i++) {
        unsigned last = i % STEPS == STEPS - 1;
        put(c, i / STEPS, last ? SET_TO : i % 2 ? SKIP_ZERO : SKIP_NONZERO, 0, 1);
    }
    moving_turns(c);
}

static void page_sets(void)
{
    struct set_case *c = set_of_one("load and store, one page", WORKERS, 0);
    for (unsigned i = 0; i < WORKERS * STEPS; i++)
        put(c, i / STEPS, i % 2 ? STORE : LOAD, i % 4, i * 2 % 128);
    moving_turns(c);
    c = set_of_one("load and store, eight pages", WORKERS, 0);
    for (unsigned i = 0; i < WORKERS * STEPS; i++)
        put(c, i / STEPS, i % 2 ? STORE : LOAD, i % 4, i * 34 % 2047);
    moving_turns(c);
    c = set_of_one("load and store, page borders", WORKERS, 0);
    for (unsigned i = 0; i < WORKERS * STEPS; i++)
        put(c, i / STEPS, i % 2 ? STORE : LOAD, i % 4, 255 + 256 * (i % 7));
    moving_turns(c);
}

/* A value, a store of it into each page, and a signal that commits them. */
static void commit_set(void)
{
    struct set_case *c = set_of_one("commits of eight pages", WORKERS, 0);
    for (unsigned i = 0; i < WORKERS * 120; i++) {
        unsigned worker = i / 120, part = i % 10;
        if (part == 0)
            put(c, worker, SET_TO, 0, i);
        else if (part == 9)
            put(c, worker, SIGNAL, 0, worker);
        else
            put(c, worker, STORE, 0, (part - 1) * 256 + worker * 8);
    }
    moving_turns(c);
}

/* A value, a store of it into each 64 bytes of memory, and a signal that commits
 * them: each part of a page changes, and each commit moves the sum. */
static void sum_set(void)
{
    enum { APART = 64, STORES = TAMPERMAUVE_MEMORY_LENGTH / APART, PARTS = STORES + 2 };
    struct set_case *c = set_of_one("commits that move the sum", WORKERS, 0);
    for (unsigned i = 0; i < WORKERS * 3 * PARTS; i++) {
        unsigned worker = i / (3 * PARTS), part = i % PARTS;
        if (part == 0)
            put(c, worker, SET_TO, 0, (i + PARTS) * 75);
        else if (part == PARTS - 1)
            put(c, worker, SIGNAL, 0, worker);
        else
            put(c, worker, STORE, 0, (part - 1) * APART + worker * 8);
    }
    moving_turns(c);
}

static void section_sets(void)
{
    struct set_case *c = set_of_one("critical sections", WORKERS, 0);
    for (unsigned worker = 0; worker < WORKERS; worker++) {
        for (unsigned i = 0; i < STEPS / 6; i++) {
            put(c, worker, LOCK, 0, 0);
            put(c, worker, SET_TO, 1, 1);
            put(c, worker, LOAD, 0, 0);
            put(c, worker, ADD, 0, 1);
            put(c, worker, STORE, 0, 0);
            put(c, worker, UNLOCK, 0, 0);
        }
    }
    moving_turns(c);
    c = set_of_one("lock and unlock alone", WORKERS, 0);
    for (unsigned i = 0; i < WORKERS * STEPS; i++)
        put(c, i / STEPS, i % 2 ? UNLOCK : LOCK, 0, i / 2 % LOCKS);
    moving_turns(c);
}

/* Three locks, two steps, and the locks in an order that is not the one in which
 * they were taken, nor its reverse. Each part has other locks. */
static void nested_set(void)
{
    static const uint8_t part[8][3] = {{LOCK, 0, 3}, {LOCK, 0, 12}, {LOCK, 0, 7},
                                       {SET_TO, 1, 1}, {ADD, 0, 1}, {UNLOCK, 0, 12},
                                       {UNLOCK, 0, 3}, {UNLOCK, 0, 7}};
    struct set_case *c = set_of_one("nested locks by name", WORKERS, 0);
    for (unsigned i = 0; i < WORKERS * STEPS; i++) {
        const uint8_t *step = part[i % 8];
        unsigned number = step[0] < LOCK ? step[2] : (step[2] + i / 8) % LOCKS;
        put(c, i / STEPS, step[0], step[1], number);
    }
    moving_turns(c);
}

static void meeting_sets(void)
{
    struct set_case *c = set_of_one("signals and waits", WORKERS, 0);
    for (unsigned worker = 0; worker < WORKERS; worker++) {
        static const uint8_t ops[3] = {LOCK, WAIT, UNLOCK};
        for (unsigned i = 0; i < 126; i++)
            put(c, worker, worker < 4 ? ops[i % 3] : SIGNAL, 0, worker % 4);
    }
    moving_turns(c);
    c = set_of_one("barriers of all workers", WORKERS, 8);
    for (unsigned i = 0; i < WORKERS * STEPS; i++)
        put(c, i / STEPS, BARRIER, 0, i % 8);
    moving_turns(c);
}

/* Seven workers wait with a lock, and again once they are woken. The eighth has
 * none, so that it gives up the token and they wait before its next broadcast:
 * each one wakes all seven. */
static void broadcasts_set(void)
{
    struct set_case *c = set_of_one("broadcasts to seven", WORKERS, 0);
    for (unsigned worker = 0; worker < WORKERS - 1; worker++) {
        put(c, worker, LOCK, 0, 0);
        for (unsigned i = 0; i < STEPS - 2; i++)
            put(c, worker, WAIT, 0, 0);
        put(c, worker, UNLOCK, 0, 0);
    }
    for (unsigned i = 0; i < STEPS - 2; i++)
        put(c, WORKERS - 1, BROADCAST, 0, 0);
    moving_turns(c);
}

/* Of a worker's starts, the one of this number. The first worker's first seven
 * reach all sleepers; every other start finds its worker awake. */
static void put_start(struct set_case *c, unsigned worker, unsigned number)
{
    put(c, worker, START, 0, (worker + number + 1) % WORKERS);
}

static void starts_set(void)
{
    struct set_case *c = set_of_sleepers("starts alone", 0);
    for (unsigned i = 0; i < WORKERS * STEPS; i++)
        put_start(c, i / STEPS, i % STEPS);
    moving_turns(c);
}

/* A value, two stores of it, and a start that commits them. */
static void starts_and_stores_set(void)
{
    struct set_case *c = set_of_sleepers("starts between stores", 0);
    for (unsigned i = 0; i < WORKERS * STEPS; i++)
        if (i % 4 == 3)
            put_start(c, i / STEPS, i % STEPS / 4);
        else
            put(c, i / STEPS, i % 4 ? STORE : SET_TO, 0, i * 2 % 2047);
    moving_turns(c);
}

/* A start, and a signal that gives up the token. */
static void starts_and_signals_set(void)
{
    struct set_case *c = set_of_sleepers("starts and signals", 0);
    for (unsigned i = 0; i < WORKERS * STEPS; i++)
        if (i % 2)
            put(c, i / STEPS, SIGNAL, 0, i % 8);
        else
            put_start(c, i / STEPS, i % STEPS / 2);
    moving_turns(c);
}

/* The lock of a lock or unlock, by how many are held where no step is skipped: the
 * lowest that is free, or the highest that is not. */
static unsigned next_lock(unsigned op, unsigned *held)
{
    if (op == LOCK)
        return (*held)++ % LOCKS;
    *held -= *held != 0;
    return *held % LOCKS;
}

/* Any step; skips stay short and land within the worker's steps. */
static void random_step(struct set_case *c, unsigned worker, unsigned left,
                        unsigned *held)
{
    static const uint8_t ops[24] = {SET_TO, SET_TO, LOAD, LOAD, LOAD, STORE,
                                    STORE, STORE, STORE, ADD, ADD, SUBTRACT,
                                    SKIP_ZERO, SKIP_NONZERO, LOCK, LOCK, UNLOCK,
                                    UNLOCK, SIGNAL, SIGNAL, BROADCAST, BARRIER,
                                    WAIT, SET_TO};
    unsigned op = ops[below(24)];
    unsigned reg = op < LOCK ? below(4) : 0;
    unsigned number = below(8);
    if (op == LOAD || op == STORE)
        number = below(4) ? 250 + below(12) : below(2047);
    else if (op == ADD || op == SUBTRACT)
        number = below(4);
    else if (op == SKIP_ZERO || op == SKIP_NONZERO)
        number = 1 + below(4);
    else if (op == LOCK || op == UNLOCK)
        number = next_lock(op, held);
    if ((op == SKIP_ZERO || op == SKIP_NONZERO) && number > left)
        op = SET_TO;
    put(c, worker, op, reg, number);
}

static void random_set(void)
{
    struct set *s = new_set("random plans, random lists");
    while (s->count < SET_CASES) {
        unsigned workers = 1 + below(8), steps = 1 + below(40), held = 0;
        struct set_case *c = new_case(s, workers, 1 + below(workers));
        for (unsigned i = 0; i < workers * steps; i++) {
            held = i % steps == 0 ? 0 : held;
            random_step(c, i / steps, steps - 1 - i % steps, &held);
        }
        random_turns(c, 2 * workers * (workers * steps + workers));
    }
}

/* Eight workers with 128 steps of every kind that does not stop a worker. With
 * them a file is the longest that has no sleepers. */
static void mixed_steps(struct set_case *c)
{
    static const uint8_t part[8][3] = {{SET_TO, 1, 1}, {LOCK, 0, 3}, {LOAD, 0, 255},
                                       {ADD, 0, 1}, {STORE, 0, 255}, {UNLOCK, 0, 3},
                                       {SIGNAL, 0, 2}, {BARRIER, 0, 4}};
    for (unsigned i = 0; i < WORKERS * STEPS; i++)
        put(c, i / STEPS, part[i % 8][0], part[i % 8][1], part[i % 8][2]);
}

static void long_sets(void)
{
    struct set_case *c = set_of_one("longest file, listing cycles", WORKERS, 8);
    mixed_steps(c);
    cycles(c);
    c = set_of_one("longest file, 65535 random turns", WORKERS, 8);
    mixed_steps(c);
    random_turns(c, SET_TURNS);
    c = set_of_one("longest file, no turns", WORKERS, 8);
    mixed_steps(c);
    c = set_of_one("small file, no turns", 2, 0);
    put(c, 0, LOAD, 0, 2);
    put(c, 1, STORE, 0, 2);
}

/* Steps of both kinds, starts among them, behind all that may stand before. */
static void sleepers_check_set(void)
{
    static const uint8_t part[4][3] = {{START, 0, 7}, {SET_TO, 3, 1}, {START, 0, 0}, {LOCK, 0, 15}};
    struct set_case *c = set_of_sleepers("check, longest file with sleepers", 8);
    for (unsigned i = 0; i < WORKERS * STEPS; i++)
        put(c, i / STEPS, part[i % 4][0], part[i % 4][1], part[i % 4][2]);
    all[made - 1].check_only = 1;
}

static void check_sets(void)
{
    struct set_case *c = set_of_one("check, small file", 2, 0);
    for (unsigned worker = 0; worker < 2; worker++) {
        put(c, worker, LOAD, 0, 2);
        put(c, worker, SKIP_NONZERO, 0, 2);
        put(c, worker, SET_TO, 1, 1);
        put(c, worker, STORE, 1, 0);
    }
    c = set_of_one("check, longest file", WORKERS, 8);
    mixed_steps(c);
    all[made - 1].check_only = 1;
    all[made - 2].check_only = 1;
}

/* --- Many plans in one call ---------------------------------------------- */

/* Lays the files of a set's cases back to back, each with the turns that end it
 * in a call of its own. */
static void join(struct set *s)
{
    s->files = room(s->count * (size_t)SET_FILE);
    for (unsigned k = 0; k < s->count; k++) {
        struct set_case *c = &s->cases[k];
        cycles(c);
        memcpy(s->files + s->files_len, c->file, c->file_len);
        s->files_len += c->file_len;
        tampermauve_put_length(s->lengths, k, (uint32_t)c->file_len);
    }
}

/* Two to six workers, each with a few parts: some amounts of its own are added
 * up, the common one under a lock, and all meet before the next part. One number
 * is drawn in vain, so that the others are those of measurements before locks had
 * names. */
static void typical_plan(struct set *s)
{
    unsigned workers = 2 + below(5), parts = 1 + below(4);
    struct set_case *c = new_case(s, workers, workers);
    for (unsigned i = 0; i < workers * parts; i++) {
        unsigned worker = i / parts, own = 2 * below(1023), lock;
        put(c, worker, LOAD, 0, own);
        put(c, worker, SET_TO, 1, below(500));
        lock = below(4);
        below(4);
        put(c, worker, ADD, 0, 1);
        put(c, worker, SKIP_ZERO, 0, 1);
        put(c, worker, STORE, 0, own);
        put(c, worker, LOCK, 0, lock);
        put(c, worker, LOAD, 2, 0);
        put(c, worker, ADD, 2, 0);
        put(c, worker, STORE, 2, 0);
        put(c, worker, UNLOCK, 0, lock);
        put(c, worker, BARRIER, 0, i % parts);
    }
}

/* Case 1 of document 01. */
static void small_plan(struct set *s)
{
    struct set_case *c = new_case(s, 2, 0);
    for (unsigned worker = 0; worker < 2; worker++) {
        put(c, worker, LOAD, 0, worker == 0 ? 2 : 0);
        put(c, worker, SKIP_NONZERO, 0, 2);
        put(c, worker, SET_TO, 1, 1);
        put(c, worker, STORE, 1, worker == 0 ? 0 : 2);
    }
}

static void together_sets(void)
{
    struct set *typical = new_set("forty typical plans in one call");
    struct set *longest = new_set("forty longest files in one call");
    struct set *small = new_set("forty small plans in one call");
    for (unsigned k = 0; k < PLANS; k++) {
        typical_plan(typical);
        mixed_steps(new_case(longest, WORKERS, 8));
        small_plan(small);
    }
    join(typical);
    join(longest);
    join(small);
}

unsigned make_sets(struct set *sets, int only)
{
    all = sets;
    made = 0;
    wanted = only;
    passing_sets();
    arithmetic_set();
    skip_set();
    page_sets();
    commit_set();
    sum_set();
    section_sets();
    nested_set();
    meeting_sets();
    broadcasts_set();
    starts_set();
    starts_and_stores_set();
    starts_and_signals_set();
    random_set();
    long_sets();
    check_sets();
    sleepers_check_set();
    together_sets();
    return made;
}
