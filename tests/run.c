/* tampermauve_run on cases 1 to 10 of document 01, on plans with sleepers and starts, on plans with broadcasts, on plans with locks by
 * name, on a step of each op and from memories that differ in bytes nobody named, every byte of every buffer compared; on the sum that
 * each commit moves; and on the refusals of a run. What is expected is worked out by hand from document 01, "Rounds", "Turns", "Log and
 * report" and "Plans to check against", and from requests One to Three and Five to Seven of document 02. */
#include <stdio.h>
#include <stdlib.h>
#include <string.h>

#include "plan_file.h"

static unsigned checks = 0;
static unsigned failures = 0;

enum {
    MEMORY = TAMPERMAUVE_MEMORY_LENGTH,
    LOG = TAMPERMAUVE_LOG_LENGTH,
    REPORT = TAMPERMAUVE_REPORT_LENGTH,
    WORK = TAMPERMAUVE_WORK_LENGTH,
    TURNS = TAMPERMAUVE_TURNS_LIMIT + 1 /* one too many */
};

/* round, worker, op, number, outcome */
struct entry {
    unsigned round, worker, op, number, outcome;
};

struct expected {
    const char *name;
    uint8_t memory[6]; /* the first bytes; the rest is zero */
    unsigned end, moves, rounds, records;
    struct entry log[43];
    unsigned fates[TAMPERMAUVE_WORKERS_LIMIT]; /* of the plan's workers */
};

/* Four buffers, each alone on the heap, so that an access outside of one is seen. */
struct lent {
    uint8_t *memory, *log, *report, *work;
};

static uint8_t *fresh(size_t length, unsigned content) {
    uint8_t *bytes = malloc(length);
    if (bytes == NULL) {
        fprintf(stderr, "no memory\n");
        exit(2);
    }
    memset(bytes, (int)content, length);
    return bytes;
}

/* What log, report and work hold before a call does not matter, so it is something else each time. */
static struct lent lend(unsigned content) {
    struct lent l;
    l.memory = fresh(MEMORY, 0);
    l.log = fresh(LOG, content);
    l.report = fresh(REPORT, content + 1u);
    l.work = fresh(WORK, content + 2u);
    return l;
}

static void take_back(struct lent *l) {
    free(l->memory);
    free(l->log);
    free(l->report);
    free(l->work);
}

static void same(const char *name, const char *what, const uint8_t *got, const uint8_t *wanted, size_t length) {
    size_t i;
    checks++;
    for (i = 0; i < length; i++) {
        if (got[i] != wanted[i]) {
            printf("FAILED: %s: %s: byte %lu is %u, expected %u\n", name, what, (unsigned long)i, got[i], wanted[i]);
            failures++;
            return;
        }
    }
}

static void returns(const char *name, uint32_t got, uint32_t wanted) {
    checks++;
    if (got != wanted) {
        printf("FAILED: %s: returned %lu, expected %lu\n", name, (unsigned long)got, (unsigned long)wanted);
        failures++;
    }
}

/* Writes a four-byte number. */
static void write_four(uint8_t *at, uint32_t number) {
    plan_word(at, (unsigned)(number % 65536u));
    plan_word(at + 2, (unsigned)(number / 65536u));
}

/* The sum of the words at even addresses, worked out afresh. */
static uint32_t sum_afresh(const uint8_t *memory) {
    uint32_t sum = 0;
    unsigned address;
    for (address = 0; address < MEMORY; address += 2) {
        sum += tampermauve_word(memory, address);
    }
    return sum;
}

static void expect(const struct expected *e, const struct lent *l, unsigned workers, const uint8_t *memory) {
    uint8_t log[LOG] = {0}, report[REPORT] = {0};
    static const uint8_t work[WORK] = {0};
    unsigned k;
    for (k = 0; k < e->records; k++) {
        uint8_t *at = log + TAMPERMAUVE_ENTRY_LENGTH * k;
        plan_word(at + TAMPERMAUVE_ENTRY_MARK, TAMPERMAUVE_LOG_MARK);
        plan_word(at + TAMPERMAUVE_ENTRY_ROUND, e->log[k].round);
        at[TAMPERMAUVE_ENTRY_WORKER] = (uint8_t)e->log[k].worker;
        at[TAMPERMAUVE_ENTRY_OP] = (uint8_t)e->log[k].op;
        at[TAMPERMAUVE_ENTRY_NUMBER] = (uint8_t)e->log[k].number;
        at[TAMPERMAUVE_ENTRY_OUTCOME] = (uint8_t)e->log[k].outcome;
    }
    report[TAMPERMAUVE_REPORT_END] = (uint8_t)e->end;
    report[TAMPERMAUVE_REPORT_WORKERS] = (uint8_t)workers;
    plan_word(report + TAMPERMAUVE_REPORT_MOVES, e->moves);
    plan_word(report + TAMPERMAUVE_REPORT_ROUNDS, e->rounds);
    plan_word(report + TAMPERMAUVE_REPORT_RECORDS, e->records);
    memset(report + TAMPERMAUVE_REPORT_FATES, TAMPERMAUVE_FATE_NO_WORKER, TAMPERMAUVE_WORKERS_LIMIT);
    for (k = 0; k < workers; k++) {
        report[TAMPERMAUVE_REPORT_FATES + k] = (uint8_t)e->fates[k];
    }
    write_four(report + TAMPERMAUVE_REPORT_SUM, sum_afresh(memory));
    same(e->name, "memory", l->memory, memory, MEMORY);
    same(e->name, "log", l->log, log, LOG);
    same(e->name, "report", l->report, report, REPORT);
    same(e->name, "work", l->work, work, WORK);
}

/* The plan by a list of turns, from one memory to another. */
static void play_from(const struct expected *e, const struct plan_file *f, unsigned workers, const uint8_t *turns, size_t length,
                      const uint8_t *before, const uint8_t *after) {
    struct lent l = lend(17u + (unsigned)length);
    uint8_t *file = fresh(f->length, 0), *list = fresh(length + 1u, 0);
    memcpy(l.memory, before, MEMORY);
    memcpy(file, f->bytes, f->length);
    memcpy(list, turns, length);
    returns(e->name,
            tampermauve_run(file, f->length, list, length, l.memory, MEMORY, l.log, LOG, l.report, REPORT, l.work, WORK), 0);
    expect(e, &l, workers, after);
    same(e->name, "file", file, f->bytes, f->length);
    take_back(&l);
    free(file);
    free(list);
}

/* The same from a starting word at address 0. */
static void play(const struct expected *e, const struct plan_file *f, unsigned workers, const uint8_t *turns, size_t length,
                 unsigned start) {
    uint8_t before[MEMORY] = {0}, after[MEMORY] = {0};
    plan_word(before, start);
    memcpy(after, e->memory, sizeof e->memory);
    play_from(e, f, workers, turns, length, before, after);
}

/* Orders of turns: upwards, downwards, each cycle beginning with the next worker, upwards and downwards in turn, and each worker
 * three times in a row. In each of them every worker has a turn in any 3n turns. */
enum { UP, DOWN, NEXT_FIRST, TO_AND_FRO, THRICE, ORDERS };

static unsigned named(unsigned order, size_t at, unsigned workers) {
    unsigned place = (unsigned)(at % workers), cycle = (unsigned)(at / workers);
    switch (order) {
    case UP:
        return place;
    case DOWN:
        return workers - 1u - place;
    case NEXT_FIRST:
        return (place + cycle) % workers;
    case TO_AND_FRO:
        return cycle % 2u == 0 ? place : workers - 1u - place;
    }
    return (unsigned)(at / 3u % workers);
}

/* Turns that end the plan, in one of the orders, and how many. The listing program's are UP. */
static uint8_t *ordered(unsigned workers, unsigned steps, unsigned order, size_t *length) {
    size_t cycles = (order == THRICE ? 3u : 1u) * tampermauve_ending_cycles(steps, workers), i;
    uint8_t *turns;
    *length = cycles * workers;
    turns = fresh(*length, 0);
    for (i = 0; i < *length; i++) {
        turns[i] = (uint8_t)named(order, i, workers);
    }
    return turns;
}

static void play_order(const struct expected *e, const struct plan_file *f, unsigned workers, unsigned steps, unsigned order,
                       unsigned start) {
    size_t length;
    uint8_t *turns = ordered(workers, steps, order, &length);
    play(e, f, workers, turns, length, start);
    free(turns);
}

/* The same bytes in every order. */
static void ends(const struct expected *e, const struct plan_file *f, unsigned workers, unsigned steps, unsigned start) {
    unsigned order;
    for (order = 0; order < ORDERS; order++) {
        play_order(e, f, workers, steps, order, start);
    }
}

static void race(struct plan_file *f) {
    unsigned w;
    plan_begin(f, 2);
    for (w = 0; w < 2; w++) {
        plan_add(f, w, TAMPERMAUVE_OP_LOAD, 0, w == 0 ? 2 : 0);
        plan_add(f, w, TAMPERMAUVE_OP_SKIP_NONZERO, 0, 2);
        plan_add(f, w, TAMPERMAUVE_OP_SET, 1, 1);
        plan_add(f, w, TAMPERMAUVE_OP_STORE, 1, w == 0 ? 0 : 2);
    }
}

static void store_at(struct plan_file *f, unsigned worker, unsigned value, unsigned address) {
    plan_add(f, worker, TAMPERMAUVE_OP_SET, 0, value);
    plan_add(f, worker, TAMPERMAUVE_OP_STORE, 0, address);
}

static void store(struct plan_file *f, unsigned worker, unsigned value) {
    store_at(f, worker, value, 0);
}

static void copy_word(struct plan_file *f, unsigned worker, unsigned from, unsigned to) {
    plan_add(f, worker, TAMPERMAUVE_OP_LOAD, 0, from);
    plan_add(f, worker, TAMPERMAUVE_OP_STORE, 0, to);
}

static void add_one(struct plan_file *f, unsigned worker) {
    plan_add(f, worker, TAMPERMAUVE_OP_LOAD, 0, 0);
    plan_add(f, worker, TAMPERMAUVE_OP_SET, 1, 1);
    plan_add(f, worker, TAMPERMAUVE_OP_ADD, 0, 1);
    plan_add(f, worker, TAMPERMAUVE_OP_STORE, 0, 0);
}

static void memory_cases(struct plan_file *f) {
    static const struct expected case1 = {"case 1", {1, 0, 1, 0}, 1, 12, 1, 2, {{1, 0, 38, 0, 255}, {1, 1, 38, 0, 255}}, {1, 1}};
    static const struct expected case2 = {"case 2", {1, 1, 0, 0}, 1, 8, 1, 2, {{1, 0, 38, 0, 255}, {1, 1, 38, 0, 255}}, {1, 1}};
    static const struct expected case3 = {"case 3", {7, 0, 0, 0}, 1, 8, 1, 2, {{1, 0, 38, 0, 255}, {1, 1, 38, 0, 255}}, {1, 1}};
    static const struct expected case5 = {"case 5", {1, 0, 0, 0}, 1, 12, 1, 2, {{1, 0, 38, 0, 255}, {1, 1, 38, 0, 255}}, {1, 1}};
    static const uint8_t no_turns[1] = {0};
    static const struct expected case10 = {"case 10", {0, 0, 0, 0}, 0, 0, 0, 0, {{0, 0, 0, 0, 0}}, {0, 0}};
    race(f);
    ends(&case1, f, 2, 8, 0);
    play(&case10, f, 2, no_turns, 0, 0);
    plan_begin(f, 2);
    store(f, 0, 256);
    store(f, 1, 1);
    ends(&case2, f, 2, 4, 0);
    plan_begin(f, 2);
    store(f, 0, 7);
    store(f, 1, 5);
    ends(&case3, f, 2, 4, 5);
    plan_begin(f, 2);
    add_one(f, 0);
    add_one(f, 1);
    ends(&case5, f, 2, 8, 0);
}

static void token_cases(struct plan_file *f) {
    static const struct expected case4 = {"case 4", {2, 0, 0, 0}, 1, 18, 2, 6,
        {{1, 0, 32, 0, 1}, {1, 0, 33, 0, 0}, {1, 1, 32, 0, 1}, {1, 1, 33, 0, 0}, {2, 0, 38, 0, 255}, {2, 1, 38, 0, 255}}, {1, 1}};
    static const struct expected case6 = {"case 6", {0, 0, 0, 0}, 2, 3, 1, 2, {{1, 0, 32, 0, 1}, {1, 0, 34, 0, 255}}, {3, 255}};
    static const struct expected case7 = {"case 7", {0, 0, 0, 0}, 1, 4, 1, 1, {{1, 0, 33, 0, 254}}, {2, 255}};
    static const struct expected case8 = {"case 8", {0, 0, 0, 0}, 1, 8, 2, 4,
        {{1, 0, 37, 0, 0}, {1, 1, 37, 0, 2}, {2, 0, 38, 0, 255}, {2, 1, 38, 0, 255}}, {1, 1}};
    static const struct expected case9 = {"case 9", {0, 0, 0, 0}, 1, 12, 2, 8,
        {{1, 0, 32, 0, 1}, {1, 0, 34, 0, 255}, {1, 1, 32, 0, 1}, {1, 1, 35, 0, 0}, {1, 1, 33, 0, 0}, {1, 0, 33, 0, 0},
         {2, 1, 38, 0, 255}, {2, 0, 38, 0, 255}}, {1, 1}};
    unsigned w;
    plan_begin(f, 2);
    for (w = 0; w < 2; w++) {
        plan_sync(f, w, TAMPERMAUVE_OP_LOCK, 0);
        add_one(f, w);
        plan_sync(f, w, TAMPERMAUVE_OP_UNLOCK, 0);
    }
    ends(&case4, f, 2, 12, 0);
    plan_begin(f, 1);
    plan_sync(f, 0, TAMPERMAUVE_OP_LOCK, 0);
    plan_sync(f, 0, TAMPERMAUVE_OP_WAIT, 0);
    ends(&case6, f, 1, 2, 0);
    plan_begin(f, 1);
    store(f, 0, 9);
    plan_sync(f, 0, TAMPERMAUVE_OP_UNLOCK, 0);
    ends(&case7, f, 1, 3, 0);
    plan_begin(f, 2);
    plan_size(f, 0, 2);
    plan_sync(f, 0, TAMPERMAUVE_OP_BARRIER, 0);
    plan_sync(f, 1, TAMPERMAUVE_OP_BARRIER, 0);
    ends(&case8, f, 2, 2, 0);
    plan_begin(f, 2);
    for (w = 0; w < 2; w++) {
        plan_sync(f, w, TAMPERMAUVE_OP_LOCK, 0);
        plan_sync(f, w, w == 0 ? TAMPERMAUVE_OP_WAIT : TAMPERMAUVE_OP_SIGNAL, 0);
        plan_sync(f, w, TAMPERMAUVE_OP_UNLOCK, 0);
    }
    ends(&case9, f, 2, 6, 0);
}

/* Sleepers whom nobody starts. They are in no list, their steps never run, and a plan is finished beside them. */
static void sleeper_cases(struct plan_file *f) {
    static const struct expected nobody = {"nobody is started", {7}, 1, 4, 1, 1, {{1, 0, 38, 0, 255}}, {1, 5, 5}};
    static const struct expected seven = {"seven sleepers", {0}, 1, 2, 1, 1, {{1, 0, 38, 0, 255}}, {1, 5, 5, 5, 5, 5, 5, 5}};
    static const struct expected failed = {"the other one fails", {0}, 1, 2, 1, 1, {{1, 0, 33, 0, 254}}, {2, 5}};
    plan_begin(f, 3);
    plan_sleepers(f, 3);
    store_at(f, 0, 7, 0);
    store_at(f, 1, 8, 2);
    ends(&nobody, f, 3, 4, 0);
    plan_begin(f, 8);
    plan_sleepers(f, 8);
    ends(&seven, f, 8, 0, 0);
    plan_begin(f, 2);
    plan_sleep(f, 1);
    plan_sync(f, 0, TAMPERMAUVE_OP_UNLOCK, 0);
    ends(&failed, f, 2, 1, 0);
}

/* Beside one who waits a plan is stuck, whoever sleeps. Worker 0: arrival, end; worker 2: arrival, lock, wait. */
static void stuck_case(struct plan_file *f) {
    static const struct expected waits = {"one exits, one sleeps, one waits", {0}, 2, 5, 1, 3,
        {{1, 0, 38, 0, 255}, {1, 2, 32, 0, 1}, {1, 2, 34, 0, 255}}, {1, 5, 3}};
    plan_begin(f, 3);
    plan_sleep(f, 1);
    plan_sync(f, 2, TAMPERMAUVE_OP_LOCK, 0);
    plan_sync(f, 2, TAMPERMAUVE_OP_WAIT, 0);
    ends(&waits, f, 3, 2, 0);
}

/* Worker 0 starts worker 1, starts it once more, stores 5 at 0 and exits, all in one go: arrival, two starts, set, store, end. In
 * round 2 worker 1 copies the word: load, store, arrival, end. */
static void started_twice(struct plan_file *f) {
    plan_begin(f, 2);
    plan_sleep(f, 1);
    plan_sync(f, 0, TAMPERMAUVE_OP_START, 1);
    plan_sync(f, 0, TAMPERMAUVE_OP_START, 1);
    store_at(f, 0, 5, 0);
    copy_word(f, 1, 0, 2);
}

static void start_cases(struct plan_file *f) {
    static const struct expected twice = {"started twice", {5, 0, 5}, 1, 10, 2, 4,
        {{1, 0, 39, 1, 1}, {1, 0, 39, 1, 253}, {1, 0, 38, 0, 255}, {2, 1, 38, 0, 255}}, {1, 1}};
    /* arrival, start, end; arrival, start, end; set, store, arrival, end */
    static const struct expected chain = {"a started worker starts another", {9}, 1, 10, 3, 5,
        {{1, 0, 39, 1, 1}, {1, 0, 38, 0, 255}, {2, 1, 39, 2, 1}, {2, 1, 38, 0, 255}, {3, 2, 38, 0, 255}}, {1, 1, 1}};
    /* arrival, start, end; arrival, lock, wait */
    static const struct expected waits = {"a started worker waits", {0}, 2, 6, 2, 4,
        {{1, 0, 39, 1, 1}, {1, 0, 38, 0, 255}, {2, 1, 32, 0, 1}, {2, 1, 34, 0, 255}}, {1, 3}};
    started_twice(f);
    ends(&twice, f, 2, 6, 0);
    plan_begin(f, 3);
    plan_sleepers(f, 3);
    plan_sync(f, 0, TAMPERMAUVE_OP_START, 1);
    plan_sync(f, 1, TAMPERMAUVE_OP_START, 2);
    store_at(f, 2, 9, 0);
    ends(&chain, f, 3, 4, 0);
    plan_begin(f, 2);
    plan_sleep(f, 1);
    plan_sync(f, 0, TAMPERMAUVE_OP_START, 1);
    plan_sync(f, 1, TAMPERMAUVE_OP_LOCK, 0);
    plan_sync(f, 1, TAMPERMAUVE_OP_WAIT, 0);
    ends(&waits, f, 2, 3, 0);
}

/* Worker 0 starts 7, who starts 6, and so on down to 1: eight rounds, of an arrival, a start and an end each, but for the last. */
static void chain_case(struct plan_file *f) {
    static const struct expected chain = {"a chain of starts", {0}, 1, 23, 8, 15,
        {{1, 0, 39, 7, 1}, {1, 0, 38, 0, 255}, {2, 7, 39, 6, 1}, {2, 7, 38, 0, 255}, {3, 6, 39, 5, 1}, {3, 6, 38, 0, 255},
         {4, 5, 39, 4, 1}, {4, 5, 38, 0, 255}, {5, 4, 39, 3, 1}, {5, 4, 38, 0, 255}, {6, 3, 39, 2, 1}, {6, 3, 38, 0, 255},
         {7, 2, 39, 1, 1}, {7, 2, 38, 0, 255}, {8, 1, 38, 0, 255}}, {1, 1, 1, 1, 1, 1, 1, 1}};
    unsigned w;
    plan_begin(f, 8);
    plan_sleepers(f, 8);
    plan_sync(f, 0, TAMPERMAUVE_OP_START, 7);
    for (w = 2; w < 8; w++) {
        plan_sync(f, w, TAMPERMAUVE_OP_START, w - 1u);
    }
    ends(&chain, f, 8, 7, 0);
}

/* The plan that is started twice, under way. A turn of a sleeper passes. Once started its fate is going, and its turns pass until
 * round 2 begins, which is with the sixth move. */
static void going_cases(struct plan_file *f) {
    static const struct expected asleep = {"turns of a sleeper alone", {0}, 0, 0, 0, 0, {{0, 0, 0, 0, 0}}, {0, 5}};
    static const struct expected arrived = {"before the start", {0}, 0, 1, 0, 0, {{0, 0, 0, 0, 0}}, {0, 5}};
    static const struct expected started = {"right behind the start", {0}, 0, 2, 0, 1, {{1, 0, 39, 1, 1}}, {0, 0}};
    static const struct expected stored = {"before the end of round 1", {0}, 0, 5, 0, 2,
        {{1, 0, 39, 1, 1}, {1, 0, 39, 1, 253}}, {0, 0}};
    static const struct expected loaded = {"the first move of round 2", {5}, 0, 7, 1, 3,
        {{1, 0, 39, 1, 1}, {1, 0, 39, 1, 253}, {1, 0, 38, 0, 255}}, {1, 0}};
    static const uint8_t turns[9] = {1, 0, 1, 0, 1, 0, 0, 0, 1};
    static const uint8_t further[7] = {0, 0, 0, 0, 0, 0, 1};
    started_twice(f);
    play(&asleep, f, 2, turns, 1, 0);
    play(&arrived, f, 2, turns, 3, 0);
    play(&started, f, 2, turns, 5, 0);
    play(&stored, f, 2, turns, 9, 0);
    play(&loaded, f, 2, further, 7, 0);
}

/* In round 1 worker 0 fails, 1 exits, 2 waits on a condition and 3 at a barrier; then worker 4 starts each of them, itself and
 * worker 5, who is behind it in the list. None of them sleeps, so nobody joins a list, and round 1 is the last. Moves: six arrivals,
 * and 1, 1, 2, 1, 7 and 1 steps. */
static void awake_case(struct plan_file *f) {
    static const struct expected awake = {"starts of those who do not sleep", {0}, 2, 19, 1, 13,
        {{1, 0, 33, 0, 254}, {1, 1, 38, 0, 255}, {1, 2, 32, 0, 1}, {1, 2, 34, 0, 255}, {1, 3, 37, 0, 0}, {1, 4, 39, 0, 253},
         {1, 4, 39, 1, 253}, {1, 4, 39, 2, 253}, {1, 4, 39, 3, 253}, {1, 4, 39, 4, 253}, {1, 4, 39, 5, 253}, {1, 4, 38, 0, 255},
         {1, 5, 38, 0, 255}}, {2, 1, 3, 4, 1, 1}};
    unsigned w;
    plan_begin(f, 6);
    plan_size(f, 0, 2);
    plan_sync(f, 0, TAMPERMAUVE_OP_UNLOCK, 0);
    plan_sync(f, 2, TAMPERMAUVE_OP_LOCK, 0);
    plan_sync(f, 2, TAMPERMAUVE_OP_WAIT, 0);
    plan_sync(f, 3, TAMPERMAUVE_OP_BARRIER, 0);
    for (w = 0; w < 6; w++) {
        plan_sync(f, 4, TAMPERMAUVE_OP_START, w);
    }
    ends(&awake, f, 6, 10, 0);
}

/* A start leaves one who waits where it is: a signal still wakes it for this round, a full barrier frees it for the next. */
static void waiting_cases(struct plan_file *f) {
    /* two arrivals; lock, wait; start, lock, signal, unlock; the woken one's unlock; two arrivals, two ends */
    static const struct expected woken = {"started while it waits, then woken", {0}, 1, 13, 2, 9,
        {{1, 0, 32, 0, 1}, {1, 0, 34, 0, 255}, {1, 1, 39, 0, 253}, {1, 1, 32, 0, 1}, {1, 1, 35, 0, 0}, {1, 1, 33, 0, 0},
         {1, 0, 33, 0, 0}, {2, 1, 38, 0, 255}, {2, 0, 38, 0, 255}}, {1, 1}};
    /* two arrivals; barrier; start, barrier; two arrivals, two ends */
    static const struct expected freed = {"started at a barrier, then freed", {0}, 1, 9, 2, 5,
        {{1, 0, 37, 0, 0}, {1, 1, 39, 0, 253}, {1, 1, 37, 0, 2}, {2, 0, 38, 0, 255}, {2, 1, 38, 0, 255}}, {1, 1}};
    plan_begin(f, 2);
    plan_sync(f, 0, TAMPERMAUVE_OP_LOCK, 0);
    plan_sync(f, 0, TAMPERMAUVE_OP_WAIT, 0);
    plan_sync(f, 0, TAMPERMAUVE_OP_UNLOCK, 0);
    plan_sync(f, 1, TAMPERMAUVE_OP_START, 0);
    plan_sync(f, 1, TAMPERMAUVE_OP_LOCK, 0);
    plan_sync(f, 1, TAMPERMAUVE_OP_SIGNAL, 0);
    plan_sync(f, 1, TAMPERMAUVE_OP_UNLOCK, 0);
    ends(&woken, f, 2, 7, 0);
    plan_begin(f, 2);
    plan_size(f, 0, 2);
    plan_sync(f, 0, TAMPERMAUVE_OP_BARRIER, 0);
    plan_sync(f, 1, TAMPERMAUVE_OP_START, 0);
    plan_sync(f, 1, TAMPERMAUVE_OP_BARRIER, 0);
    ends(&freed, f, 2, 3, 0);
}

/* Worker 0 stores 3 at 0 before the fence, starts a worker, stores 4 at 2 and fails, which loses what no start has committed: set,
 * store, arrival, start, set, store, failure. Worker 1, where there is one, sleeps and has no steps. */
static void start_between_stores(struct plan_file *f, unsigned workers, unsigned started) {
    plan_begin(f, workers);
    plan_sleepers(f, workers);
    store_at(f, 0, 3, 0);
    plan_sync(f, 0, TAMPERMAUVE_OP_START, started);
    store_at(f, 0, 4, 2);
    plan_sync(f, 0, TAMPERMAUVE_OP_UNLOCK, 0);
}

/* A start commits whatever its outcome, and behind it a lock with count 0 commits again. */
static void commit_cases(struct plan_file *f) {
    static const struct expected itself = {"a start of itself commits", {3}, 1, 7, 1, 2,
        {{1, 0, 39, 0, 253}, {1, 0, 33, 0, 254}}, {2}};
    static const struct expected asleep = {"a start of a sleeper commits", {3}, 1, 9, 2, 3,
        {{1, 0, 39, 1, 1}, {1, 0, 33, 0, 254}, {2, 1, 38, 0, 255}}, {2, 1}};
    /* arrival, start, set, store, lock, which commits the 6, set, store, failure, which loses the 8; arrival, end */
    static const struct expected locks = {"a lock behind a start commits", {6}, 1, 10, 2, 4,
        {{1, 0, 39, 1, 1}, {1, 0, 32, 0, 1}, {1, 0, 38, 0, 254}, {2, 1, 38, 0, 255}}, {2, 1}};
    start_between_stores(f, 1, 0);
    ends(&itself, f, 1, 6, 0);
    start_between_stores(f, 2, 1);
    ends(&asleep, f, 2, 6, 0);
    plan_begin(f, 2);
    plan_sleep(f, 1);
    plan_sync(f, 0, TAMPERMAUVE_OP_START, 1);
    store_at(f, 0, 6, 0);
    plan_sync(f, 0, TAMPERMAUVE_OP_LOCK, 0);
    store_at(f, 0, 8, 2);
    plan_sync(f, 0, TAMPERMAUVE_OP_EXIT, 0);
    ends(&locks, f, 2, 7, 0);
}

/* Whose copies a start commits, and that it drops them. */
static void copies_cases(struct plan_file *f) {
    /* Worker 1 copies the page before the fence; worker 0 has committed 1 at 0 when worker 1 commits its 5 by a start and loads
     * from 0 again. set, store, arrival of both; end; start, load, store, end. */
    static const struct expected drops = {"a load behind a start", {1, 0, 5, 0, 1}, 1, 11, 1, 3,
        {{1, 0, 38, 0, 255}, {1, 1, 39, 0, 253}, {1, 1, 38, 0, 255}}, {1, 1}};
    /* The 6 that worker 1 has stored when it is started is its own still, and lost when it fails. Arrival of 0; set, store, arrival;
     * start, end; failure. */
    static const struct expected others = {"bytes of a worker that is started", {0}, 1, 7, 1, 3,
        {{1, 0, 39, 1, 253}, {1, 0, 38, 0, 255}, {1, 1, 33, 0, 254}}, {1, 2}};
    plan_begin(f, 2);
    store_at(f, 0, 1, 0);
    store_at(f, 1, 5, 2);
    plan_sync(f, 1, TAMPERMAUVE_OP_START, 0);
    copy_word(f, 1, 0, 4);
    ends(&drops, f, 2, 7, 0);
    plan_begin(f, 2);
    plan_sync(f, 0, TAMPERMAUVE_OP_START, 1);
    store_at(f, 1, 6, 2);
    plan_sync(f, 1, TAMPERMAUVE_OP_UNLOCK, 0);
    ends(&others, f, 2, 4, 0);
}

/* A start leaves the caller's registers, and a started worker has its own, zero at first: worker 0 stores its 7 at 0 and 2 behind the
 * start, worker 1 a zero at 0. set, arrival, start, two stores, end; store, arrival, end. */
static void registers_case(struct plan_file *f) {
    static const struct expected apart = {"registers at a start", {0, 0, 7}, 1, 9, 2, 3,
        {{1, 0, 39, 1, 1}, {1, 0, 38, 0, 255}, {2, 1, 38, 0, 255}}, {1, 1}};
    plan_begin(f, 2);
    plan_sleep(f, 1);
    plan_add(f, 0, TAMPERMAUVE_OP_SET, 0, 7);
    plan_sync(f, 0, TAMPERMAUVE_OP_START, 1);
    plan_add(f, 0, TAMPERMAUVE_OP_STORE, 0, 0);
    plan_add(f, 0, TAMPERMAUVE_OP_STORE, 0, 2);
    plan_add(f, 1, TAMPERMAUVE_OP_STORE, 0, 0);
    ends(&apart, f, 2, 5, 0);
}

/* A start with a lock held commits as well, and the lock stays. */
static void locked_cases(struct plan_file *f) {
    /* arrival, lock, set, store, start, unlock. Worker 1 joined the next list before worker 0 gave up the token: load, store,
     * arrival, and the arrival of 0; both ends. */
    static const struct expected unlocks = {"a start between lock and unlock", {1, 0, 1}, 1, 12, 2, 5,
        {{1, 0, 32, 3, 1}, {1, 0, 39, 1, 1}, {1, 0, 33, 3, 0}, {2, 1, 38, 0, 255}, {2, 0, 38, 0, 255}}, {1, 1}};
    /* arrival, lock, set, store, start, set, store, failure; arrival, end */
    static const struct expected fails = {"a start with a lock commits", {1}, 1, 10, 2, 4,
        {{1, 0, 32, 0, 1}, {1, 0, 39, 1, 1}, {1, 0, 38, 0, 254}, {2, 1, 38, 0, 255}}, {2, 1}};
    plan_begin(f, 2);
    plan_sleep(f, 1);
    plan_sync(f, 0, TAMPERMAUVE_OP_LOCK, 3);
    store_at(f, 0, 1, 0);
    plan_sync(f, 0, TAMPERMAUVE_OP_START, 1);
    plan_sync(f, 0, TAMPERMAUVE_OP_UNLOCK, 3);
    copy_word(f, 1, 0, 2);
    ends(&unlocks, f, 2, 7, 0);
    plan_begin(f, 2);
    plan_sleep(f, 1);
    plan_sync(f, 0, TAMPERMAUVE_OP_LOCK, 0);
    store_at(f, 0, 1, 0);
    plan_sync(f, 0, TAMPERMAUVE_OP_START, 1);
    store_at(f, 0, 2, 2);
    plan_sync(f, 0, TAMPERMAUVE_OP_EXIT, 0);
    ends(&fails, f, 2, 7, 0);
}

/* Worker 0 stores 1 at 0 before the fence; its start, with count 0, commits that and drops the copy. It runs on: loads the 1, doubles
 * it and stores 2 at 2, which copies the page again, and queues at the barrier, which commits. Worker 1 fills the barrier. The next
 * list is 2, who was started, 0, who was queued, 1. Worker 2 copies the 2 to 4. Moves: three and one to the fence, five and one with
 * the token; three, one and one to the fence, three ends. */
static void own_steps_case(struct plan_file *f) {
    static const struct expected meets = {"a start, own steps and a barrier", {1, 0, 2, 0, 2}, 1, 18, 2, 6,
        {{1, 0, 39, 2, 1}, {1, 0, 37, 0, 0}, {1, 1, 37, 0, 2}, {2, 2, 38, 0, 255}, {2, 0, 38, 0, 255}, {2, 1, 38, 0, 255}},
        {1, 1, 1}};
    plan_begin(f, 3);
    plan_size(f, 0, 2);
    plan_sleep(f, 2);
    store_at(f, 0, 1, 0);
    plan_sync(f, 0, TAMPERMAUVE_OP_START, 2);
    plan_add(f, 0, TAMPERMAUVE_OP_LOAD, 1, 0);
    plan_add(f, 0, TAMPERMAUVE_OP_ADD, 1, 1);
    plan_add(f, 0, TAMPERMAUVE_OP_STORE, 1, 2);
    plan_sync(f, 0, TAMPERMAUVE_OP_BARRIER, 0);
    plan_sync(f, 1, TAMPERMAUVE_OP_BARRIER, 0);
    copy_word(f, 2, 2, 4);
    ends(&meets, f, 3, 10, 0);
}

/* Worker 0 queues at the barrier. Worker 1 gives up the token by a signal: the next list is 1. Worker 2 starts 5, then 4, and fills
 * the barrier: 1 5 4 0 2. Worker 3 starts 4 in vain and gives up the token by its unlock: 1 5 4 0 2 3. So they end in round 2. Moves:
 * four arrivals, 1, 1, 3 and 3 steps; six arrivals, six ends. */
static void next_list_case(struct plan_file *f) {
    static const struct expected order = {"the order of the next list", {0}, 1, 24, 2, 14,
        {{1, 0, 37, 0, 0}, {1, 1, 35, 0, 255}, {1, 2, 39, 5, 1}, {1, 2, 39, 4, 1}, {1, 2, 37, 0, 2}, {1, 3, 39, 4, 253},
         {1, 3, 32, 0, 1}, {1, 3, 33, 0, 0}, {2, 1, 38, 0, 255}, {2, 5, 38, 0, 255}, {2, 4, 38, 0, 255}, {2, 0, 38, 0, 255},
         {2, 2, 38, 0, 255}, {2, 3, 38, 0, 255}}, {1, 1, 1, 1, 1, 1}};
    plan_begin(f, 6);
    plan_size(f, 0, 2);
    plan_sleep(f, 4);
    plan_sleep(f, 5);
    plan_sync(f, 0, TAMPERMAUVE_OP_BARRIER, 0);
    plan_sync(f, 1, TAMPERMAUVE_OP_SIGNAL, 0);
    plan_sync(f, 2, TAMPERMAUVE_OP_START, 5);
    plan_sync(f, 2, TAMPERMAUVE_OP_START, 4);
    plan_sync(f, 2, TAMPERMAUVE_OP_BARRIER, 0);
    plan_sync(f, 3, TAMPERMAUVE_OP_START, 4);
    plan_sync(f, 3, TAMPERMAUVE_OP_LOCK, 0);
    plan_sync(f, 3, TAMPERMAUVE_OP_UNLOCK, 0);
    ends(&order, f, 6, 8, 0);
}

/* Worker 0 waits, and worker 1 wakes it into this round's list and starts worker 2 into the next one. */
static void start_and_signal_case(struct plan_file *f) {
    /* two arrivals; lock, wait; lock, start, signal, unlock: the next list is 2 1; the woken one's unlock: 2 1 0; three arrivals,
     * three ends */
    static const struct expected both = {"a start and a signal", {0}, 1, 15, 2, 10,
        {{1, 0, 32, 0, 1}, {1, 0, 34, 0, 255}, {1, 1, 32, 0, 1}, {1, 1, 39, 2, 1}, {1, 1, 35, 0, 0}, {1, 1, 33, 0, 0},
         {1, 0, 33, 0, 0}, {2, 2, 38, 0, 255}, {2, 1, 38, 0, 255}, {2, 0, 38, 0, 255}}, {1, 1, 1}};
    plan_begin(f, 3);
    plan_sleep(f, 2);
    plan_sync(f, 0, TAMPERMAUVE_OP_LOCK, 0);
    plan_sync(f, 0, TAMPERMAUVE_OP_WAIT, 0);
    plan_sync(f, 0, TAMPERMAUVE_OP_UNLOCK, 0);
    plan_sync(f, 1, TAMPERMAUVE_OP_LOCK, 0);
    plan_sync(f, 1, TAMPERMAUVE_OP_START, 2);
    plan_sync(f, 1, TAMPERMAUVE_OP_SIGNAL, 0);
    plan_sync(f, 1, TAMPERMAUVE_OP_UNLOCK, 0);
    ends(&both, f, 3, 7, 0);
}

/* The same, and the woken worker starts worker 2, when worker 1 has given up the token. */
static void woken_starter_case(struct plan_file *f) {
    /* two arrivals; lock, wait; lock, signal, unlock: the next list is 1; the woken one's start and unlock: 1 2 0; three arrivals,
     * three ends */
    static const struct expected woken = {"a woken worker starts another", {0}, 1, 15, 2, 10,
        {{1, 0, 32, 0, 1}, {1, 0, 34, 0, 255}, {1, 1, 32, 0, 1}, {1, 1, 35, 0, 0}, {1, 1, 33, 0, 0}, {1, 0, 39, 2, 1},
         {1, 0, 33, 0, 0}, {2, 1, 38, 0, 255}, {2, 2, 38, 0, 255}, {2, 0, 38, 0, 255}}, {1, 1, 1}};
    plan_begin(f, 3);
    plan_sleep(f, 2);
    plan_sync(f, 0, TAMPERMAUVE_OP_LOCK, 0);
    plan_sync(f, 0, TAMPERMAUVE_OP_WAIT, 0);
    plan_sync(f, 0, TAMPERMAUVE_OP_START, 2);
    plan_sync(f, 0, TAMPERMAUVE_OP_UNLOCK, 0);
    plan_sync(f, 1, TAMPERMAUVE_OP_LOCK, 0);
    plan_sync(f, 1, TAMPERMAUVE_OP_SIGNAL, 0);
    plan_sync(f, 1, TAMPERMAUVE_OP_UNLOCK, 0);
    ends(&woken, f, 3, 7, 0);
}

/* Worker 0 starts all seven others, the last first, and gives up the token: a next list of eight. Moves: an arrival and nine steps;
 * eight arrivals, eight ends. */
static void full_list_case(struct plan_file *f) {
    static const struct expected eight = {"a next list of eight", {0}, 1, 26, 2, 17,
        {{1, 0, 39, 7, 1}, {1, 0, 39, 6, 1}, {1, 0, 39, 5, 1}, {1, 0, 39, 4, 1}, {1, 0, 39, 3, 1}, {1, 0, 39, 2, 1},
         {1, 0, 39, 1, 1}, {1, 0, 32, 0, 1}, {1, 0, 33, 0, 0}, {2, 7, 38, 0, 255}, {2, 6, 38, 0, 255}, {2, 5, 38, 0, 255},
         {2, 4, 38, 0, 255}, {2, 3, 38, 0, 255}, {2, 2, 38, 0, 255}, {2, 1, 38, 0, 255}, {2, 0, 38, 0, 255}},
        {1, 1, 1, 1, 1, 1, 1, 1}};
    unsigned started;
    plan_begin(f, 8);
    plan_sleepers(f, 8);
    for (started = 7; started > 0; started--) {
        plan_sync(f, 0, TAMPERMAUVE_OP_START, started);
    }
    plan_sync(f, 0, TAMPERMAUVE_OP_LOCK, 0);
    plan_sync(f, 0, TAMPERMAUVE_OP_UNLOCK, 0);
    ends(&eight, f, 8, 9, 0);
}

static void sleeping_cases(struct plan_file *f) {
    sleeper_cases(f);
    stuck_case(f);
    start_cases(f);
    chain_case(f);
    going_cases(f);
    awake_case(f);
    waiting_cases(f);
    commit_cases(f);
    copies_cases(f);
    registers_case(f);
    locked_cases(f);
    own_steps_case(f);
    next_list_case(f);
    start_and_signal_case(f);
    woken_starter_case(f);
    full_list_case(f);
}

/* A worker waits with a lock, and unlocks it once it is woken. */
static void wait_with_lock(struct plan_file *f, unsigned worker, unsigned condition) {
    plan_sync(f, worker, TAMPERMAUVE_OP_LOCK, 0);
    plan_sync(f, worker, TAMPERMAUVE_OP_WAIT, condition);
    plan_sync(f, worker, TAMPERMAUVE_OP_UNLOCK, 0);
}

/* The same; once woken the worker doubles the word at 0 and adds one more than its own number, so that the word tells in which
 * order the woken ran. Each does lock and wait, then the six steps behind its wait. */
static void wait_and_double(struct plan_file *f, unsigned worker, unsigned condition) {
    plan_sync(f, worker, TAMPERMAUVE_OP_LOCK, 0);
    plan_sync(f, worker, TAMPERMAUVE_OP_WAIT, condition);
    plan_add(f, worker, TAMPERMAUVE_OP_LOAD, 0, 0);
    plan_add(f, worker, TAMPERMAUVE_OP_ADD, 0, 0);
    plan_add(f, worker, TAMPERMAUVE_OP_SET, 1, worker + 1u);
    plan_add(f, worker, TAMPERMAUVE_OP_ADD, 0, 1);
    plan_add(f, worker, TAMPERMAUVE_OP_STORE, 0, 0);
    plan_sync(f, worker, TAMPERMAUVE_OP_UNLOCK, 0);
}

/* Workers 0, 4 and 5 give up the token of round 1 by a signal to nobody, so that worker 0 comes to condition 2 behind 1 and 2.
 * Worker 3 waits on condition 5. In round 2 worker 4 broadcasts on condition 2, with a lock or without, and 5 is at its end. */
static void three_and_one(struct plan_file *f, int locked) {
    plan_begin(f, 6);
    plan_sync(f, 0, TAMPERMAUVE_OP_SIGNAL, 7);
    wait_and_double(f, 0, 2);
    wait_and_double(f, 1, 2);
    wait_and_double(f, 2, 2);
    wait_and_double(f, 3, 5);
    plan_sync(f, 4, TAMPERMAUVE_OP_SIGNAL, 7);
    if (locked) {
        plan_sync(f, 4, TAMPERMAUVE_OP_LOCK, 0);
    }
    plan_sync(f, 4, TAMPERMAUVE_OP_BROADCAST, 2);
    if (locked) {
        plan_sync(f, 4, TAMPERMAUVE_OP_UNLOCK, 0);
    }
    plan_sync(f, 5, TAMPERMAUVE_OP_SIGNAL, 7);
}

/* The list of round 2 is 0 4 5, and with the broadcast 4 1 2 0 5: the word is 2, 2 x 2 + 3 = 7, 2 x 7 + 1 = 15. Worker 3 waits for
 * ever. Moves: six arrivals, a signal, three times lock and wait, two signals; three arrivals, lock and wait, worker 4's three steps
 * or one, three times six, the end of 5; four arrivals, four ends. */
static void reached_cases(struct plan_file *f) {
    static const struct expected with = {"a broadcast to three, with a lock", {15}, 2, 50, 3, 22,
        {{1, 0, 35, 7, 255}, {1, 1, 32, 0, 1}, {1, 1, 34, 2, 255}, {1, 2, 32, 0, 1}, {1, 2, 34, 2, 255}, {1, 3, 32, 0, 1},
         {1, 3, 34, 5, 255}, {1, 4, 35, 7, 255}, {1, 5, 35, 7, 255}, {2, 0, 32, 0, 1}, {2, 0, 34, 2, 255}, {2, 4, 32, 0, 1},
         {2, 4, 36, 2, 3}, {2, 4, 33, 0, 0}, {2, 1, 33, 0, 0}, {2, 2, 33, 0, 0}, {2, 0, 33, 0, 0}, {2, 5, 38, 0, 255},
         {3, 4, 38, 0, 255}, {3, 1, 38, 0, 255}, {3, 2, 38, 0, 255}, {3, 0, 38, 0, 255}}, {1, 1, 1, 3, 1, 1}};
    static const struct expected without = {"a broadcast to three, without a lock", {15}, 2, 48, 3, 20,
        {{1, 0, 35, 7, 255}, {1, 1, 32, 0, 1}, {1, 1, 34, 2, 255}, {1, 2, 32, 0, 1}, {1, 2, 34, 2, 255}, {1, 3, 32, 0, 1},
         {1, 3, 34, 5, 255}, {1, 4, 35, 7, 255}, {1, 5, 35, 7, 255}, {2, 0, 32, 0, 1}, {2, 0, 34, 2, 255}, {2, 4, 36, 2, 3},
         {2, 1, 33, 0, 0}, {2, 2, 33, 0, 0}, {2, 0, 33, 0, 0}, {2, 5, 38, 0, 255}, {3, 4, 38, 0, 255}, {3, 1, 38, 0, 255},
         {3, 2, 38, 0, 255}, {3, 0, 38, 0, 255}}, {1, 1, 1, 3, 1, 1}};
    three_and_one(f, 1);
    ends(&with, f, 6, 38, 0);
    three_and_one(f, 0);
    ends(&without, f, 6, 36, 0);
}

/* A broadcast that wakes nobody commits all the same: worker 0 stores 3 at 0 before it, stores 4 at 2 behind it and fails, which
 * loses the 4. With count 0 it gives up the token, so that worker 1 ends before it fails; with a lock it runs on. */
static void nobody_cases(struct plan_file *f) {
    /* set, store, arrival, and the arrival of 1; broadcast, end of 1; set, store, arrival, failure */
    static const struct expected without = {"a broadcast to nobody, without a lock", {3}, 1, 10, 2, 3,
        {{1, 0, 36, 1, 0}, {1, 1, 38, 0, 255}, {2, 0, 33, 0, 254}}, {2, 1}};
    /* two arrivals; lock, set, store, broadcast, set, store, failure; end of 1 */
    static const struct expected with = {"a broadcast to nobody, with a lock", {3}, 1, 10, 1, 4,
        {{1, 0, 32, 0, 1}, {1, 0, 36, 1, 0}, {1, 0, 38, 0, 254}, {1, 1, 38, 0, 255}}, {2, 1}};
    plan_begin(f, 2);
    store_at(f, 0, 3, 0);
    plan_sync(f, 0, TAMPERMAUVE_OP_BROADCAST, 1);
    store_at(f, 0, 4, 2);
    plan_sync(f, 0, TAMPERMAUVE_OP_UNLOCK, 0);
    ends(&without, f, 2, 6, 0);
    plan_begin(f, 2);
    plan_sync(f, 0, TAMPERMAUVE_OP_LOCK, 0);
    store_at(f, 0, 3, 0);
    plan_sync(f, 0, TAMPERMAUVE_OP_BROADCAST, 1);
    store_at(f, 0, 4, 2);
    plan_sync(f, 0, TAMPERMAUVE_OP_EXIT, 0);
    ends(&with, f, 2, 7, 0);
}

/* Worker 0 waits on condition 3, and the broadcasts on 2 and 4 do not reach it. Two arrivals; lock, wait; broadcast; arrival,
 * broadcast; arrival, end. */
static void elsewhere_case(struct plan_file *f) {
    static const struct expected beside = {"broadcasts on other conditions", {0}, 2, 9, 3, 5,
        {{1, 0, 32, 0, 1}, {1, 0, 34, 3, 255}, {1, 1, 36, 2, 0}, {2, 1, 36, 4, 0}, {3, 1, 38, 0, 255}}, {3, 1}};
    plan_begin(f, 2);
    wait_with_lock(f, 0, 3);
    plan_sync(f, 1, TAMPERMAUVE_OP_BROADCAST, 2);
    plan_sync(f, 1, TAMPERMAUVE_OP_BROADCAST, 4);
    ends(&beside, f, 2, 5, 0);
}

/* A broadcast to one commits the 9 that worker 1 has stored at 0, and the woken worker copies it to 2. Without a lock worker 1 copies
 * it from there in round 2: its own copy of the page is dropped. */
static void one_waiter_cases(struct plan_file *f) {
    /* arrival; set, store, arrival; lock, wait; broadcast, and the next list is 1; load, store, unlock: 1 0; load, store, arrival,
     * and the arrival of 0; two ends */
    static const struct expected without = {"a broadcast to one, without a lock", {9, 0, 9, 0, 9}, 1, 16, 2, 6,
        {{1, 0, 32, 0, 1}, {1, 0, 34, 0, 255}, {1, 1, 36, 0, 1}, {1, 0, 33, 0, 0}, {2, 1, 38, 0, 255}, {2, 0, 38, 0, 255}}, {1, 1}};
    /* two arrivals; lock, wait; lock, set, store, broadcast, set, store, failure, which loses the 8; load, store, unlock;
     * arrival, end */
    static const struct expected with = {"a broadcast to one, and a failure", {9, 0, 9}, 1, 16, 2, 7,
        {{1, 0, 32, 0, 1}, {1, 0, 34, 0, 255}, {1, 1, 32, 0, 1}, {1, 1, 36, 0, 1}, {1, 1, 38, 0, 254}, {1, 0, 33, 0, 0},
         {2, 0, 38, 0, 255}}, {1, 2}};
    int locked;
    for (locked = 0; locked < 2; locked++) {
        plan_begin(f, 2);
        plan_sync(f, 0, TAMPERMAUVE_OP_LOCK, 0);
        plan_sync(f, 0, TAMPERMAUVE_OP_WAIT, 0);
        copy_word(f, 0, 0, 2);
        plan_sync(f, 0, TAMPERMAUVE_OP_UNLOCK, 0);
        if (locked) {
            plan_sync(f, 1, TAMPERMAUVE_OP_LOCK, 0);
        }
        store_at(f, 1, 9, 0);
        plan_sync(f, 1, TAMPERMAUVE_OP_BROADCAST, 0);
        if (locked) {
            store_at(f, 1, 8, 4);
            plan_sync(f, 1, TAMPERMAUVE_OP_EXIT, 0);
        } else {
            copy_word(f, 1, 2, 4);
        }
        ends(locked ? &with : &without, f, 2, locked ? 12 : 10, 0);
    }
}

/* Worker 3, with a lock, wakes 0 by a signal: its list is 3 0 4. Then it wakes 1 and 2 by a broadcast: 3 1 2 0 4. The word is 2,
 * 7, 15. Moves: five arrivals, three times lock and wait, four steps, three times six, the end of 4; four arrivals, four ends. */
static void signal_first_case(struct plan_file *f) {
    static const struct expected behind = {"a signal, then a broadcast", {15}, 1, 42, 2, 18,
        {{1, 0, 32, 0, 1}, {1, 0, 34, 0, 255}, {1, 1, 32, 0, 1}, {1, 1, 34, 0, 255}, {1, 2, 32, 0, 1}, {1, 2, 34, 0, 255},
         {1, 3, 32, 0, 1}, {1, 3, 35, 0, 0}, {1, 3, 36, 0, 2}, {1, 3, 33, 0, 0}, {1, 1, 33, 0, 0}, {1, 2, 33, 0, 0},
         {1, 0, 33, 0, 0}, {1, 4, 38, 0, 255}, {2, 3, 38, 0, 255}, {2, 1, 38, 0, 255}, {2, 2, 38, 0, 255}, {2, 0, 38, 0, 255}},
        {1, 1, 1, 1, 1}};
    unsigned w;
    plan_begin(f, 5);
    for (w = 0; w < 3; w++) {
        wait_and_double(f, w, 0);
    }
    plan_sync(f, 3, TAMPERMAUVE_OP_LOCK, 0);
    plan_sync(f, 3, TAMPERMAUVE_OP_SIGNAL, 0);
    plan_sync(f, 3, TAMPERMAUVE_OP_BROADCAST, 0);
    plan_sync(f, 3, TAMPERMAUVE_OP_UNLOCK, 0);
    ends(&behind, f, 5, 28, 0);
}

/* Workers 0 and 1 wait on condition 0, worker 2 on 1. Worker 3, with a lock, wakes 0 and 1 by a broadcast: its list is 3 0 1 4.
 * Then 2 by a signal: 3 2 0 1 4; a signal on condition 0 finds nobody there any more. The word is 3, 2 x 3 + 1 = 7, 2 x 7 + 2 = 16.
 * Moves: five arrivals, three times lock and wait, five steps, three times six, the end of 4; four arrivals, four ends. */
static void broadcast_first_case(struct plan_file *f) {
    static const struct expected before = {"a broadcast, then a signal", {16}, 1, 43, 2, 19,
        {{1, 0, 32, 0, 1}, {1, 0, 34, 0, 255}, {1, 1, 32, 0, 1}, {1, 1, 34, 0, 255}, {1, 2, 32, 0, 1}, {1, 2, 34, 1, 255},
         {1, 3, 32, 0, 1}, {1, 3, 36, 0, 2}, {1, 3, 35, 1, 2}, {1, 3, 35, 0, 255}, {1, 3, 33, 0, 0}, {1, 2, 33, 0, 0},
         {1, 0, 33, 0, 0}, {1, 1, 33, 0, 0}, {1, 4, 38, 0, 255}, {2, 3, 38, 0, 255}, {2, 2, 38, 0, 255}, {2, 0, 38, 0, 255},
         {2, 1, 38, 0, 255}}, {1, 1, 1, 1, 1}};
    plan_begin(f, 5);
    wait_and_double(f, 0, 0);
    wait_and_double(f, 1, 0);
    wait_and_double(f, 2, 1);
    plan_sync(f, 3, TAMPERMAUVE_OP_LOCK, 0);
    plan_sync(f, 3, TAMPERMAUVE_OP_BROADCAST, 0);
    plan_sync(f, 3, TAMPERMAUVE_OP_SIGNAL, 1);
    plan_sync(f, 3, TAMPERMAUVE_OP_SIGNAL, 0);
    plan_sync(f, 3, TAMPERMAUVE_OP_UNLOCK, 0);
    ends(&before, f, 5, 29, 0);
}

/* Worker 4, with a lock, wakes 0 and 1 on condition 0: its list is 4 0 1. Then 2 and 3 on condition 1: 4 2 3 0 1; then nobody
 * there any more. The word is 3, 2 x 3 + 4 = 10, 2 x 10 + 1 = 21, 2 x 21 + 2 = 44. Moves: five arrivals, four times lock and
 * wait, five steps, four times six; five arrivals, five ends. */
static void two_broadcasts_case(struct plan_file *f) {
    static const struct expected two = {"a broadcast, then another", {44}, 1, 52, 2, 22,
        {{1, 0, 32, 0, 1}, {1, 0, 34, 0, 255}, {1, 1, 32, 0, 1}, {1, 1, 34, 0, 255}, {1, 2, 32, 0, 1}, {1, 2, 34, 1, 255},
         {1, 3, 32, 0, 1}, {1, 3, 34, 1, 255}, {1, 4, 32, 0, 1}, {1, 4, 36, 0, 2}, {1, 4, 36, 1, 2}, {1, 4, 36, 1, 0},
         {1, 4, 33, 0, 0}, {1, 2, 33, 0, 0}, {1, 3, 33, 0, 0}, {1, 0, 33, 0, 0}, {1, 1, 33, 0, 0}, {2, 4, 38, 0, 255},
         {2, 2, 38, 0, 255}, {2, 3, 38, 0, 255}, {2, 0, 38, 0, 255}, {2, 1, 38, 0, 255}}, {1, 1, 1, 1, 1}};
    unsigned w;
    plan_begin(f, 5);
    for (w = 0; w < 4; w++) {
        wait_and_double(f, w, w / 2u);
    }
    plan_sync(f, 4, TAMPERMAUVE_OP_LOCK, 0);
    plan_sync(f, 4, TAMPERMAUVE_OP_BROADCAST, 0);
    plan_sync(f, 4, TAMPERMAUVE_OP_BROADCAST, 1);
    plan_sync(f, 4, TAMPERMAUVE_OP_BROADCAST, 1);
    plan_sync(f, 4, TAMPERMAUVE_OP_UNLOCK, 0);
    ends(&two, f, 5, 37, 0);
}

/* Worker 2 broadcasts to 0 and 1 and waits on condition 1, from which 0 wakes it by a signal before 1 has run, to wait again
 * itself. So round 1, which began with three, has had nine in its list: 0 1 2, then 0 1, 2, 0, 2, 0. Worker 1 comes last, signals
 * to nobody and waits for ever. Moves: three arrivals, 18 steps; two arrivals, two ends. */
static void to_and_fro_case(struct plan_file *f) {
    static const struct expected nine = {"nine in the list of three", {0}, 2, 25, 2, 20,
        {{1, 0, 32, 0, 1}, {1, 0, 34, 0, 255}, {1, 1, 32, 0, 1}, {1, 1, 34, 0, 255}, {1, 2, 32, 0, 1}, {1, 2, 36, 0, 2},
         {1, 2, 34, 1, 255}, {1, 0, 35, 1, 2}, {1, 0, 34, 0, 255}, {1, 2, 36, 0, 1}, {1, 2, 34, 1, 255}, {1, 0, 35, 1, 2},
         {1, 0, 34, 0, 255}, {1, 2, 36, 0, 1}, {1, 2, 33, 0, 0}, {1, 0, 33, 0, 0}, {1, 1, 35, 1, 255}, {1, 1, 34, 0, 255},
         {2, 2, 38, 0, 255}, {2, 0, 38, 0, 255}}, {1, 3, 1}};
    plan_begin(f, 3);
    plan_sync(f, 0, TAMPERMAUVE_OP_LOCK, 0);
    plan_sync(f, 0, TAMPERMAUVE_OP_WAIT, 0);
    plan_sync(f, 0, TAMPERMAUVE_OP_SIGNAL, 1);
    plan_sync(f, 0, TAMPERMAUVE_OP_WAIT, 0);
    plan_sync(f, 0, TAMPERMAUVE_OP_SIGNAL, 1);
    plan_sync(f, 0, TAMPERMAUVE_OP_WAIT, 0);
    plan_sync(f, 0, TAMPERMAUVE_OP_UNLOCK, 0);
    plan_sync(f, 1, TAMPERMAUVE_OP_LOCK, 0);
    plan_sync(f, 1, TAMPERMAUVE_OP_WAIT, 0);
    plan_sync(f, 1, TAMPERMAUVE_OP_SIGNAL, 1);
    plan_sync(f, 1, TAMPERMAUVE_OP_WAIT, 0);
    plan_sync(f, 1, TAMPERMAUVE_OP_UNLOCK, 0);
    plan_sync(f, 2, TAMPERMAUVE_OP_LOCK, 0);
    plan_sync(f, 2, TAMPERMAUVE_OP_BROADCAST, 0);
    plan_sync(f, 2, TAMPERMAUVE_OP_WAIT, 1);
    plan_sync(f, 2, TAMPERMAUVE_OP_BROADCAST, 0);
    plan_sync(f, 2, TAMPERMAUVE_OP_WAIT, 1);
    plan_sync(f, 2, TAMPERMAUVE_OP_BROADCAST, 0);
    plan_sync(f, 2, TAMPERMAUVE_OP_UNLOCK, 0);
    ends(&nine, f, 3, 19, 0);
}

/* Worker 7, with a lock, wakes all the others: the word is 1, 4, 11, 26, 57, 120, 247. Moves: eight arrivals, seven times lock
 * and wait, three steps, seven times six; eight arrivals, eight ends. */
static void seven_case(struct plan_file *f) {
    static const struct expected seven = {"a broadcast to seven", {247}, 1, 83, 2, 32,
        {{1, 0, 32, 0, 1}, {1, 0, 34, 7, 255}, {1, 1, 32, 0, 1}, {1, 1, 34, 7, 255}, {1, 2, 32, 0, 1}, {1, 2, 34, 7, 255},
         {1, 3, 32, 0, 1}, {1, 3, 34, 7, 255}, {1, 4, 32, 0, 1}, {1, 4, 34, 7, 255}, {1, 5, 32, 0, 1}, {1, 5, 34, 7, 255},
         {1, 6, 32, 0, 1}, {1, 6, 34, 7, 255}, {1, 7, 32, 0, 1}, {1, 7, 36, 7, 7}, {1, 7, 33, 0, 0}, {1, 0, 33, 0, 0},
         {1, 1, 33, 0, 0}, {1, 2, 33, 0, 0}, {1, 3, 33, 0, 0}, {1, 4, 33, 0, 0}, {1, 5, 33, 0, 0}, {1, 6, 33, 0, 0},
         {2, 7, 38, 0, 255}, {2, 0, 38, 0, 255}, {2, 1, 38, 0, 255}, {2, 2, 38, 0, 255}, {2, 3, 38, 0, 255}, {2, 4, 38, 0, 255},
         {2, 5, 38, 0, 255}, {2, 6, 38, 0, 255}}, {1, 1, 1, 1, 1, 1, 1, 1}};
    unsigned w;
    plan_begin(f, 8);
    for (w = 0; w < 7; w++) {
        wait_and_double(f, w, 7);
    }
    plan_sync(f, 7, TAMPERMAUVE_OP_LOCK, 0);
    plan_sync(f, 7, TAMPERMAUVE_OP_BROADCAST, 7);
    plan_sync(f, 7, TAMPERMAUVE_OP_UNLOCK, 0);
    ends(&seven, f, 8, 59, 0);
}

/* Worker 6 wakes six, and worker 7 is behind it: its list is all eight, 6 0 1 2 3 4 5 7. The word is 1, 4, 11, 26, 57, 120. Moves:
 * eight arrivals, six times lock and wait, a broadcast, six times six, the end of 7; seven arrivals, seven ends. */
static void full_round_case(struct plan_file *f) {
    static const struct expected six = {"a broadcast to six before one more", {120}, 1, 72, 2, 27,
        {{1, 0, 32, 0, 1}, {1, 0, 34, 0, 255}, {1, 1, 32, 0, 1}, {1, 1, 34, 0, 255}, {1, 2, 32, 0, 1}, {1, 2, 34, 0, 255},
         {1, 3, 32, 0, 1}, {1, 3, 34, 0, 255}, {1, 4, 32, 0, 1}, {1, 4, 34, 0, 255}, {1, 5, 32, 0, 1}, {1, 5, 34, 0, 255},
         {1, 6, 36, 0, 6}, {1, 0, 33, 0, 0}, {1, 1, 33, 0, 0}, {1, 2, 33, 0, 0}, {1, 3, 33, 0, 0}, {1, 4, 33, 0, 0},
         {1, 5, 33, 0, 0}, {1, 7, 38, 0, 255}, {2, 6, 38, 0, 255}, {2, 0, 38, 0, 255}, {2, 1, 38, 0, 255}, {2, 2, 38, 0, 255},
         {2, 3, 38, 0, 255}, {2, 4, 38, 0, 255}, {2, 5, 38, 0, 255}}, {1, 1, 1, 1, 1, 1, 1, 1}};
    unsigned w;
    plan_begin(f, 8);
    for (w = 0; w < 6; w++) {
        wait_and_double(f, w, 0);
    }
    plan_sync(f, 6, TAMPERMAUVE_OP_BROADCAST, 0);
    ends(&six, f, 8, 49, 0);
}

/* Round 2 has 16 in its list: worker 0, the seven whom it wakes, itself, whom the last of them wakes when all others wait again,
 * and the seven once more. Moves: eight arrivals, a signal to nobody, seven times lock and wait; an arrival; lock, broadcast and
 * wait of 0, six waits, broadcast and wait of 7, broadcast and unlock of 0, seven unlocks; eight arrivals, eight ends. */
static void sixteen_case(struct plan_file *f) {
    static const struct expected twice = {"sixteen in the list of eight", {0}, 1, 60, 3, 43,
        {{1, 0, 35, 1, 255}, {1, 1, 32, 0, 1}, {1, 1, 34, 0, 255}, {1, 2, 32, 0, 1}, {1, 2, 34, 0, 255}, {1, 3, 32, 0, 1},
         {1, 3, 34, 0, 255}, {1, 4, 32, 0, 1}, {1, 4, 34, 0, 255}, {1, 5, 32, 0, 1}, {1, 5, 34, 0, 255}, {1, 6, 32, 0, 1},
         {1, 6, 34, 0, 255}, {1, 7, 32, 0, 1}, {1, 7, 34, 0, 255}, {2, 0, 32, 0, 1}, {2, 0, 36, 0, 7}, {2, 0, 34, 1, 255},
         {2, 1, 34, 0, 255}, {2, 2, 34, 0, 255}, {2, 3, 34, 0, 255}, {2, 4, 34, 0, 255}, {2, 5, 34, 0, 255}, {2, 6, 34, 0, 255},
         {2, 7, 36, 1, 1}, {2, 7, 34, 0, 255}, {2, 0, 36, 0, 7}, {2, 0, 33, 0, 0}, {2, 1, 33, 0, 0}, {2, 2, 33, 0, 0},
         {2, 3, 33, 0, 0}, {2, 4, 33, 0, 0}, {2, 5, 33, 0, 0}, {2, 6, 33, 0, 0}, {2, 7, 33, 0, 0}, {3, 0, 38, 0, 255},
         {3, 1, 38, 0, 255}, {3, 2, 38, 0, 255}, {3, 3, 38, 0, 255}, {3, 4, 38, 0, 255}, {3, 5, 38, 0, 255}, {3, 6, 38, 0, 255},
         {3, 7, 38, 0, 255}}, {1, 1, 1, 1, 1, 1, 1, 1}};
    unsigned w;
    plan_begin(f, 8);
    plan_sync(f, 0, TAMPERMAUVE_OP_SIGNAL, 1);
    plan_sync(f, 0, TAMPERMAUVE_OP_LOCK, 0);
    plan_sync(f, 0, TAMPERMAUVE_OP_BROADCAST, 0);
    plan_sync(f, 0, TAMPERMAUVE_OP_WAIT, 1);
    plan_sync(f, 0, TAMPERMAUVE_OP_BROADCAST, 0);
    plan_sync(f, 0, TAMPERMAUVE_OP_UNLOCK, 0);
    for (w = 1; w < 8; w++) {
        plan_sync(f, w, TAMPERMAUVE_OP_LOCK, 0);
        plan_sync(f, w, TAMPERMAUVE_OP_WAIT, 0);
        if (w == 7) {
            plan_sync(f, w, TAMPERMAUVE_OP_BROADCAST, 1);
        }
        plan_sync(f, w, TAMPERMAUVE_OP_WAIT, 0);
        plan_sync(f, w, TAMPERMAUVE_OP_UNLOCK, 0);
    }
    ends(&twice, f, 8, 35, 0);
}

/* A woken worker has its locks and its registers still: worker 0 waits with two locks, worker 1 with 5 in register 2. Arrival;
 * set, arrival; arrival; two locks, wait; lock, wait; broadcast; two unlocks; store, unlock; three arrivals, three ends. */
static void kept_case(struct plan_file *f) {
    static const struct expected kept = {"locks and registers over a broadcast", {5}, 1, 20, 2, 12,
        {{1, 0, 32, 3, 1}, {1, 0, 32, 4, 2}, {1, 0, 34, 0, 255}, {1, 1, 32, 0, 1}, {1, 1, 34, 0, 255}, {1, 2, 36, 0, 2},
         {1, 0, 33, 4, 1}, {1, 0, 33, 3, 0}, {1, 1, 33, 0, 0}, {2, 2, 38, 0, 255}, {2, 0, 38, 0, 255}, {2, 1, 38, 0, 255}},
        {1, 1, 1}};
    plan_begin(f, 3);
    plan_sync(f, 0, TAMPERMAUVE_OP_LOCK, 3);
    plan_sync(f, 0, TAMPERMAUVE_OP_LOCK, 4);
    plan_sync(f, 0, TAMPERMAUVE_OP_WAIT, 0);
    plan_sync(f, 0, TAMPERMAUVE_OP_UNLOCK, 4);
    plan_sync(f, 0, TAMPERMAUVE_OP_UNLOCK, 3);
    plan_add(f, 1, TAMPERMAUVE_OP_SET, 2, 5);
    plan_sync(f, 1, TAMPERMAUVE_OP_LOCK, 0);
    plan_sync(f, 1, TAMPERMAUVE_OP_WAIT, 0);
    plan_add(f, 1, TAMPERMAUVE_OP_STORE, 2, 0);
    plan_sync(f, 1, TAMPERMAUVE_OP_UNLOCK, 0);
    plan_sync(f, 2, TAMPERMAUVE_OP_BROADCAST, 0);
    ends(&kept, f, 3, 11, 0);
}

/* Worker 2 starts 3 into the next list and wakes 0 and 1 into this one. The next list is 3, 3 2, 3 2 0, 3 2 0 1. Moves: three
 * arrivals, twice lock and wait, start, broadcast, two unlocks; four arrivals, four ends. */
static void start_and_broadcast_case(struct plan_file *f) {
    static const struct expected both = {"a start and a broadcast", {0}, 1, 19, 2, 12,
        {{1, 0, 32, 0, 1}, {1, 0, 34, 0, 255}, {1, 1, 32, 0, 1}, {1, 1, 34, 0, 255}, {1, 2, 39, 3, 1}, {1, 2, 36, 0, 2},
         {1, 0, 33, 0, 0}, {1, 1, 33, 0, 0}, {2, 3, 38, 0, 255}, {2, 2, 38, 0, 255}, {2, 0, 38, 0, 255}, {2, 1, 38, 0, 255}},
        {1, 1, 1, 1}};
    plan_begin(f, 4);
    plan_sleep(f, 3);
    wait_with_lock(f, 0, 0);
    wait_with_lock(f, 1, 0);
    plan_sync(f, 2, TAMPERMAUVE_OP_START, 3);
    plan_sync(f, 2, TAMPERMAUVE_OP_BROADCAST, 0);
    ends(&both, f, 4, 8, 0);
}

/* A broadcast under way. Right behind it the woken are going, but their turns pass until worker 2 gives up the token, and those
 * of the second one until the first does. */
static void woken_turns_cases(struct plan_file *f) {
    static const struct expected waiting = {"before the broadcast", {0}, 0, 8, 0, 5,
        {{1, 0, 32, 0, 1}, {1, 0, 34, 0, 255}, {1, 1, 32, 0, 1}, {1, 1, 34, 0, 255}, {1, 2, 32, 0, 1}}, {3, 3, 0}};
    static const struct expected woken = {"right behind the broadcast", {0}, 0, 9, 0, 6,
        {{1, 0, 32, 0, 1}, {1, 0, 34, 0, 255}, {1, 1, 32, 0, 1}, {1, 1, 34, 0, 255}, {1, 2, 32, 0, 1}, {1, 2, 36, 0, 2}}, {0, 0, 0}};
    static const struct expected second = {"the second of the woken", {0}, 0, 10, 0, 7,
        {{1, 0, 32, 0, 1}, {1, 0, 34, 0, 255}, {1, 1, 32, 0, 1}, {1, 1, 34, 0, 255}, {1, 2, 32, 0, 1}, {1, 2, 36, 0, 2},
         {1, 2, 33, 0, 0}}, {0, 0, 0}};
    static const struct expected both = {"both of the woken", {0}, 0, 12, 1, 9,
        {{1, 0, 32, 0, 1}, {1, 0, 34, 0, 255}, {1, 1, 32, 0, 1}, {1, 1, 34, 0, 255}, {1, 2, 32, 0, 1}, {1, 2, 36, 0, 2},
         {1, 2, 33, 0, 0}, {1, 0, 33, 0, 0}, {1, 1, 33, 0, 0}}, {0, 0, 0}};
    static const uint8_t turns[15] = {0, 1, 2, 0, 0, 1, 1, 2, 2, 0, 1, 2, 1, 0, 1};
    plan_begin(f, 3);
    wait_with_lock(f, 0, 0);
    wait_with_lock(f, 1, 0);
    plan_sync(f, 2, TAMPERMAUVE_OP_LOCK, 0);
    plan_sync(f, 2, TAMPERMAUVE_OP_BROADCAST, 0);
    plan_sync(f, 2, TAMPERMAUVE_OP_UNLOCK, 0);
    play(&waiting, f, 3, turns, 8, 0);
    play(&woken, f, 3, turns, 11, 0);
    play(&second, f, 3, turns, 13, 0);
    play(&both, f, 3, turns, 15, 0);
}

static void broadcast_cases(struct plan_file *f) {
    reached_cases(f);
    nobody_cases(f);
    elsewhere_case(f);
    one_waiter_cases(f);
    signal_first_case(f);
    broadcast_first_case(f);
    two_broadcasts_case(f);
    to_and_fro_case(f);
    seven_case(f);
    full_round_case(f);
    sixteen_case(f);
    kept_case(f);
    start_and_broadcast_case(f);
    woken_turns_cases(f);
}

static void take(struct plan_file *f, unsigned worker, unsigned lock) {
    plan_sync(f, worker, TAMPERMAUVE_OP_LOCK, lock);
}

static void give_back(struct plan_file *f, unsigned worker, unsigned lock) {
    plan_sync(f, worker, TAMPERMAUVE_OP_UNLOCK, lock);
}

/* Worker 0 takes locks 3 and 12, stores 5 at 0 and gives both back; worker 1 has no steps. */
static void two_locks(struct plan_file *f, unsigned first, unsigned second) {
    plan_begin(f, 2);
    take(f, 0, 3);
    take(f, 0, 12);
    store(f, 0, 5);
    give_back(f, 0, first);
    give_back(f, 0, second);
}

/* Either may be given back first. Two arrivals; two locks, set, store, two unlocks; the end of 1; arrival, end. */
static void two_locks_cases(struct plan_file *f) {
    static const struct expected as_taken = {"two locks given back as they were taken", {5}, 1, 11, 2, 6,
        {{1, 0, 32, 3, 1}, {1, 0, 32, 12, 2}, {1, 0, 33, 3, 1}, {1, 0, 33, 12, 0}, {1, 1, 38, 0, 255}, {2, 0, 38, 0, 255}}, {1, 1}};
    static const struct expected reversed = {"two locks given back the other way round", {5}, 1, 11, 2, 6,
        {{1, 0, 32, 3, 1}, {1, 0, 32, 12, 2}, {1, 0, 33, 12, 1}, {1, 0, 33, 3, 0}, {1, 1, 38, 0, 255}, {2, 0, 38, 0, 255}}, {1, 1}};
    two_locks(f, 3, 12);
    ends(&as_taken, f, 2, 6, 0);
    two_locks(f, 12, 3);
    ends(&reversed, f, 2, 6, 0);
}

/* The same plans under way. The first unlock commits nothing and keeps the token, so that the turn of worker 1 passes behind it; the
 * second commits and gives the token up. */
static void inner_unlock_cases(struct plan_file *f) {
    static const struct expected inner = {"right behind an inner unlock", {0}, 0, 7, 0, 3,
        {{1, 0, 32, 3, 1}, {1, 0, 32, 12, 2}, {1, 0, 33, 3, 1}}, {0, 0}};
    static const struct expected outer = {"right behind the outer unlock", {5}, 0, 8, 0, 4,
        {{1, 0, 32, 3, 1}, {1, 0, 32, 12, 2}, {1, 0, 33, 3, 1}, {1, 0, 33, 12, 0}}, {0, 0}};
    static const struct expected inner_reversed = {"right behind an inner unlock of the second", {0}, 0, 7, 0, 3,
        {{1, 0, 32, 3, 1}, {1, 0, 32, 12, 2}, {1, 0, 33, 12, 1}}, {0, 0}};
    static const struct expected outer_reversed = {"right behind the outer unlock of the first", {5}, 0, 8, 0, 4,
        {{1, 0, 32, 3, 1}, {1, 0, 32, 12, 2}, {1, 0, 33, 12, 1}, {1, 0, 33, 3, 0}}, {0, 0}};
    static const uint8_t turns[9] = {0, 1, 0, 0, 0, 0, 0, 1, 0};
    two_locks(f, 3, 12);
    play(&inner, f, 2, turns, 8, 0);
    play(&outer, f, 2, turns, 9, 0);
    two_locks(f, 12, 3);
    play(&inner_reversed, f, 2, turns, 8, 0);
    play(&outer_reversed, f, 2, turns, 9, 0);
}

/* Worker 0 unlocks another lock than the one that it holds: it fails, the 5 is lost, and of the steps behind none is run. Two
 * arrivals; lock, set, store, failure; the end of 1. */
static void wrong_unlock_case(struct plan_file *f) {
    static const struct expected wrong = {"the wrong one unlocked", {0}, 1, 7, 1, 3,
        {{1, 0, 32, 3, 1}, {1, 0, 33, 4, 254}, {1, 1, 38, 0, 255}}, {2, 1}};
    plan_begin(f, 2);
    take(f, 0, 3);
    store(f, 0, 5);
    give_back(f, 0, 4);
    store_at(f, 0, 9, 2);
    give_back(f, 0, 3);
    ends(&wrong, f, 2, 7, 0);
}

/* Unlocks of a lock that is not held: neither of two; one that was given back, with another held and with none. */
static void unlock_failures(struct plan_file *f) {
    /* arrival, two locks, set, store, failure */
    static const struct expected neither = {"neither of two unlocked", {0}, 1, 6, 1, 3,
        {{1, 0, 32, 3, 1}, {1, 0, 32, 4, 2}, {1, 0, 33, 5, 254}}, {2}};
    /* arrival, two locks, unlock, set, store, failure */
    static const struct expected twice = {"one of two given back twice", {0}, 1, 7, 1, 4,
        {{1, 0, 32, 3, 1}, {1, 0, 32, 4, 2}, {1, 0, 33, 3, 1}, {1, 0, 33, 3, 254}}, {2}};
    /* arrival, lock, unlock; set, store, arrival, failure */
    static const struct expected none = {"a lock given back twice", {0}, 1, 7, 2, 3,
        {{1, 0, 32, 3, 1}, {1, 0, 33, 3, 0}, {2, 0, 33, 3, 254}}, {2}};
    plan_begin(f, 1);
    take(f, 0, 3);
    take(f, 0, 4);
    store(f, 0, 5);
    give_back(f, 0, 5);
    ends(&neither, f, 1, 5, 0);
    plan_begin(f, 1);
    take(f, 0, 3);
    take(f, 0, 4);
    give_back(f, 0, 3);
    store(f, 0, 5);
    give_back(f, 0, 3);
    ends(&twice, f, 1, 6, 0);
    plan_begin(f, 1);
    take(f, 0, 3);
    give_back(f, 0, 3);
    store(f, 0, 5);
    give_back(f, 0, 3);
    ends(&none, f, 1, 5, 0);
}

/* A lock that is held is locked again, at once or behind another. The first lock commits the 3, and the failure loses the 4. */
static void lock_failures(struct plan_file *f) {
    /* set, store, arrival, and the arrival of 1; lock, set, store, failure; the end of 1 */
    static const struct expected twice = {"one lock taken twice", {3}, 1, 9, 1, 3,
        {{1, 0, 32, 5, 1}, {1, 0, 32, 5, 254}, {1, 1, 38, 0, 255}}, {2, 1}};
    /* arrival, lock, set, store, lock, failure */
    static const struct expected behind = {"one lock taken twice, behind another", {0}, 1, 6, 1, 3,
        {{1, 0, 32, 5, 1}, {1, 0, 32, 6, 2}, {1, 0, 32, 5, 254}}, {2}};
    plan_begin(f, 2);
    store_at(f, 0, 3, 0);
    take(f, 0, 5);
    store_at(f, 0, 4, 2);
    take(f, 0, 5);
    give_back(f, 0, 5);
    give_back(f, 0, 5);
    ends(&twice, f, 2, 8, 0);
    plan_begin(f, 1);
    take(f, 0, 5);
    store(f, 0, 4);
    take(f, 0, 6);
    take(f, 0, 5);
    give_back(f, 0, 6);
    ends(&behind, f, 1, 6, 0);
}

/* What was given back can be taken again, in the next round and in the same one. */
static void taken_again_cases(struct plan_file *f) {
    /* arrival, lock, unlock; the same; arrival, end */
    static const struct expected later = {"a lock taken again in the next round", {0}, 1, 8, 3, 5,
        {{1, 0, 32, 5, 1}, {1, 0, 33, 5, 0}, {2, 0, 32, 5, 1}, {2, 0, 33, 5, 0}, {3, 0, 38, 0, 255}}, {1}};
    /* arrival, six steps; arrival, end */
    static const struct expected at_once = {"a lock taken again with another held", {0}, 1, 9, 2, 7,
        {{1, 0, 32, 5, 1}, {1, 0, 32, 6, 2}, {1, 0, 33, 5, 1}, {1, 0, 32, 5, 2}, {1, 0, 33, 6, 1}, {1, 0, 33, 5, 0},
         {2, 0, 38, 0, 255}}, {1}};
    plan_begin(f, 1);
    take(f, 0, 5);
    give_back(f, 0, 5);
    take(f, 0, 5);
    give_back(f, 0, 5);
    ends(&later, f, 1, 4, 0);
    plan_begin(f, 1);
    take(f, 0, 5);
    take(f, 0, 6);
    give_back(f, 0, 5);
    take(f, 0, 5);
    give_back(f, 0, 6);
    give_back(f, 0, 5);
    ends(&at_once, f, 1, 6, 0);
}

/* Worker 0 waits with locks 3 and 12 and gives both back once it is woken, the first one first. Meanwhile worker 1 has lock 3 as
 * well. Two arrivals; two locks, wait; lock, signal, unlock; two unlocks; two arrivals, two ends. */
static void wait_with_two_case(struct plan_file *f) {
    static const struct expected both = {"a wait with two locks, one of them taken meanwhile", {0}, 1, 14, 2, 10,
        {{1, 0, 32, 3, 1}, {1, 0, 32, 12, 2}, {1, 0, 34, 0, 255}, {1, 1, 32, 3, 1}, {1, 1, 35, 0, 0}, {1, 1, 33, 3, 0},
         {1, 0, 33, 3, 1}, {1, 0, 33, 12, 0}, {2, 1, 38, 0, 255}, {2, 0, 38, 0, 255}}, {1, 1}};
    plan_begin(f, 2);
    take(f, 0, 3);
    take(f, 0, 12);
    plan_sync(f, 0, TAMPERMAUVE_OP_WAIT, 0);
    give_back(f, 0, 3);
    give_back(f, 0, 12);
    take(f, 1, 3);
    plan_sync(f, 1, TAMPERMAUVE_OP_SIGNAL, 0);
    give_back(f, 1, 3);
    ends(&both, f, 2, 8, 0);
}

/* Worker 0 waits with locks 3 and 12; worker 1 wakes it with lock 15 held. */
static void wake_two(struct plan_file *f, unsigned op) {
    plan_begin(f, 2);
    take(f, 0, 3);
    take(f, 0, 12);
    plan_sync(f, 0, TAMPERMAUVE_OP_WAIT, 0);
    take(f, 0, 15);
    give_back(f, 0, 12);
    give_back(f, 0, 15);
    give_back(f, 0, 3);
    take(f, 1, 15);
    plan_sync(f, 1, op, 0);
    give_back(f, 1, 15);
}

/* The woken worker takes a third lock, which the other one had when it woke it. Two arrivals; two locks, wait; lock, signal or
 * broadcast, unlock; lock, three unlocks; two arrivals, two ends. */
static void third_lock_cases(struct plan_file *f) {
    static const struct expected signalled = {"a third lock behind a wait, by a signal", {0}, 1, 16, 2, 12,
        {{1, 0, 32, 3, 1}, {1, 0, 32, 12, 2}, {1, 0, 34, 0, 255}, {1, 1, 32, 15, 1}, {1, 1, 35, 0, 0}, {1, 1, 33, 15, 0},
         {1, 0, 32, 15, 3}, {1, 0, 33, 12, 2}, {1, 0, 33, 15, 1}, {1, 0, 33, 3, 0}, {2, 1, 38, 0, 255}, {2, 0, 38, 0, 255}}, {1, 1}};
    static const struct expected broadcast = {"a third lock behind a wait, by a broadcast", {0}, 1, 16, 2, 12,
        {{1, 0, 32, 3, 1}, {1, 0, 32, 12, 2}, {1, 0, 34, 0, 255}, {1, 1, 32, 15, 1}, {1, 1, 36, 0, 1}, {1, 1, 33, 15, 0},
         {1, 0, 32, 15, 3}, {1, 0, 33, 12, 2}, {1, 0, 33, 15, 1}, {1, 0, 33, 3, 0}, {2, 1, 38, 0, 255}, {2, 0, 38, 0, 255}}, {1, 1}};
    wake_two(f, TAMPERMAUVE_OP_SIGNAL);
    ends(&signalled, f, 2, 10, 0);
    wake_two(f, TAMPERMAUVE_OP_BROADCAST);
    ends(&broadcast, f, 2, 10, 0);
}

/* Behind its wait, worker 0 locks the second of the two once more: it has both still, and fails. Worker 1 has none, and gives up the
 * token by its signal. Two arrivals; two locks, wait; signal; failure; arrival, end. */
static void lock_behind_wait_case(struct plan_file *f) {
    static const struct expected again = {"a lock taken again behind a wait", {0}, 1, 9, 2, 6,
        {{1, 0, 32, 3, 1}, {1, 0, 32, 12, 2}, {1, 0, 34, 0, 255}, {1, 1, 35, 0, 0}, {1, 0, 32, 12, 254}, {2, 1, 38, 0, 255}}, {2, 1}};
    plan_begin(f, 2);
    take(f, 0, 3);
    take(f, 0, 12);
    plan_sync(f, 0, TAMPERMAUVE_OP_WAIT, 0);
    take(f, 0, 12);
    plan_sync(f, 1, TAMPERMAUVE_OP_SIGNAL, 0);
    ends(&again, f, 2, 5, 0);
}

/* What another one holds is not held by this one: worker 0 waits with lock 3, and worker 1 fails by unlocking it, with a lock of its
 * own and with none. Two arrivals; lock, wait; lock, failure, or the failure alone. */
static void others_lock_cases(struct plan_file *f) {
    static const struct expected with = {"another one's lock unlocked, with one of its own", {0}, 2, 6, 1, 4,
        {{1, 0, 32, 3, 1}, {1, 0, 34, 0, 255}, {1, 1, 32, 4, 1}, {1, 1, 33, 3, 254}}, {3, 2}};
    static const struct expected without = {"another one's lock unlocked, with none", {0}, 2, 5, 1, 3,
        {{1, 0, 32, 3, 1}, {1, 0, 34, 0, 255}, {1, 1, 33, 3, 254}}, {3, 2}};
    int locked;
    for (locked = 0; locked < 2; locked++) {
        plan_begin(f, 2);
        take(f, 0, 3);
        plan_sync(f, 0, TAMPERMAUVE_OP_WAIT, 0);
        if (locked) {
            take(f, 1, 4);
        }
        give_back(f, 1, 3);
        ends(locked ? &with : &without, f, 2, locked ? 4 : 3, 0);
    }
}

/* Worker 0 fails with lock 3 held, and worker 1 takes it. Two arrivals; lock, failure; lock, unlock; arrival, end. */
static void failed_holder_case(struct plan_file *f) {
    static const struct expected taken = {"the lock of one who failed", {0}, 1, 8, 2, 5,
        {{1, 0, 32, 3, 1}, {1, 0, 38, 0, 254}, {1, 1, 32, 3, 1}, {1, 1, 33, 3, 0}, {2, 1, 38, 0, 255}}, {2, 1}};
    plan_begin(f, 2);
    take(f, 0, 3);
    take(f, 1, 3);
    give_back(f, 1, 3);
    ends(&taken, f, 2, 3, 0);
}

/* A start leaves the caller's locks, and a started worker has none: its unlock of one that the caller had fails. Arrival, two locks,
 * start, two unlocks: the next list is 1 0; two arrivals, failure, end. */
static void start_with_two_case(struct plan_file *f) {
    static const struct expected apart = {"a start with two locks", {0}, 1, 10, 2, 7,
        {{1, 0, 32, 3, 1}, {1, 0, 32, 4, 2}, {1, 0, 39, 1, 1}, {1, 0, 33, 3, 1}, {1, 0, 33, 4, 0}, {2, 1, 33, 3, 254},
         {2, 0, 38, 0, 255}}, {1, 2}};
    plan_begin(f, 2);
    plan_sleep(f, 1);
    take(f, 0, 3);
    take(f, 0, 4);
    plan_sync(f, 0, TAMPERMAUVE_OP_START, 1);
    give_back(f, 0, 3);
    give_back(f, 0, 4);
    give_back(f, 1, 3);
    ends(&apart, f, 2, 6, 0);
}

/* Worker 0 takes locks 3 and 4, stores 5 at 0, gives back 3, and makes a step with 4 held; op 0 is the end. Barrier 0 is of one. */
static void one_of_two(struct plan_file *f, unsigned op) {
    plan_begin(f, 1);
    plan_size(f, 0, 1);
    take(f, 0, 3);
    take(f, 0, 4);
    store(f, 0, 5);
    give_back(f, 0, 3);
    if (op != 0) {
        plan_sync(f, 0, op, 0);
    }
}

/* With one of two locks still held, barrier, exit and the end fail and the 5 is lost; a wait commits it. Arrival, two locks, set,
 * store, unlock, the step. */
static void one_left_cases(struct plan_file *f) {
    static const struct expected barrier = {"a barrier with one of two locks held", {0}, 1, 7, 1, 4,
        {{1, 0, 32, 3, 1}, {1, 0, 32, 4, 2}, {1, 0, 33, 3, 1}, {1, 0, 37, 0, 254}}, {2}};
    static const struct expected exits = {"an exit with one of two locks held", {0}, 1, 7, 1, 4,
        {{1, 0, 32, 3, 1}, {1, 0, 32, 4, 2}, {1, 0, 33, 3, 1}, {1, 0, 38, 0, 254}}, {2}};
    static const struct expected waits = {"a wait with one of two locks held", {5}, 2, 7, 1, 4,
        {{1, 0, 32, 3, 1}, {1, 0, 32, 4, 2}, {1, 0, 33, 3, 1}, {1, 0, 34, 0, 255}}, {3}};
    one_of_two(f, TAMPERMAUVE_OP_BARRIER);
    ends(&barrier, f, 1, 7, 0);
    one_of_two(f, TAMPERMAUVE_OP_EXIT);
    ends(&exits, f, 1, 7, 0);
    one_of_two(f, 0);
    ends(&exits, f, 1, 6, 0);
    one_of_two(f, TAMPERMAUVE_OP_WAIT);
    ends(&waits, f, 1, 7, 0);
}

/* A signal and a broadcast with one of two locks still held commit and keep the token, so that worker 1 ends behind the last unlock.
 * Two arrivals; two locks, set, store, unlock, signal or broadcast, unlock; the end of 1; arrival, end. */
static void wake_with_one_left_cases(struct plan_file *f) {
    static const struct expected signal = {"a signal with one of two locks held", {5}, 1, 12, 2, 7,
        {{1, 0, 32, 3, 1}, {1, 0, 32, 4, 2}, {1, 0, 33, 3, 1}, {1, 0, 35, 0, 255}, {1, 0, 33, 4, 0}, {1, 1, 38, 0, 255},
         {2, 0, 38, 0, 255}}, {1, 1}};
    static const struct expected broadcast = {"a broadcast with one of two locks held", {5}, 1, 12, 2, 7,
        {{1, 0, 32, 3, 1}, {1, 0, 32, 4, 2}, {1, 0, 33, 3, 1}, {1, 0, 36, 0, 0}, {1, 0, 33, 4, 0}, {1, 1, 38, 0, 255},
         {2, 0, 38, 0, 255}}, {1, 1}};
    unsigned op;
    for (op = TAMPERMAUVE_OP_SIGNAL; op <= TAMPERMAUVE_OP_BROADCAST; op++) {
        plan_begin(f, 2);
        take(f, 0, 3);
        take(f, 0, 4);
        store(f, 0, 5);
        give_back(f, 0, 3);
        plan_sync(f, 0, op, 0);
        give_back(f, 0, 4);
        ends(op == TAMPERMAUVE_OP_SIGNAL ? &signal : &broadcast, f, 2, 7, 0);
    }
}

/* Orders of the 16 locks. */
static const uint8_t up[16] = {0, 1, 2, 3, 4, 5, 6, 7, 8, 9, 10, 11, 12, 13, 14, 15};
static const uint8_t down[16] = {15, 14, 13, 12, 11, 10, 9, 8, 7, 6, 5, 4, 3, 2, 1, 0};
static const uint8_t mixed[16] = {9, 0, 14, 5, 3, 12, 7, 15, 1, 10, 6, 2, 13, 8, 4, 11};

/* A step of worker 0 for each of the 16 locks. */
static void each_lock(struct plan_file *f, unsigned op, const uint8_t order[16]) {
    unsigned k;
    for (k = 0; k < 16; k++) {
        plan_sync(f, 0, op, order[k]);
    }
}

/* The log begins with the locks of all 16: outcomes 1 to 16. */
static void log_all_taken(struct expected *e, const uint8_t taken[16]) {
    unsigned k;
    for (k = 0; k < 16; k++) {
        struct entry lock = {1, 0, 32, taken[k], k + 1u};
        e->log[k] = lock;
    }
}

/* All are taken in one order and given back in another: outcomes 15 to 0. Arrival, 16 locks, set, store, 16 unlocks; arrival, end. */
static void all_locks(const char *name, struct plan_file *f, const uint8_t taken[16], const uint8_t given[16]) {
    struct expected all = {name, {5}, 1, 37, 2, 33, {{0, 0, 0, 0, 0}}, {1}};
    static const struct entry end = {2, 0, 38, 0, 255};
    unsigned k;
    plan_begin(f, 1);
    each_lock(f, TAMPERMAUVE_OP_LOCK, taken);
    store(f, 0, 5);
    each_lock(f, TAMPERMAUVE_OP_UNLOCK, given);
    log_all_taken(&all, taken);
    for (k = 0; k < 16; k++) {
        struct entry unlock = {1, 0, 33, given[k], 15u - k};
        all.log[16u + k] = unlock;
    }
    all.log[32] = end;
    ends(&all, f, 1, 34, 0);
}

/* With all 16 held, each of them fails if it is locked again. */
static void seventeenth_lock(struct plan_file *f, const uint8_t taken[16]) {
    struct expected again = {"a seventeenth lock", {0}, 1, 18, 1, 17, {{0, 0, 0, 0, 0}}, {2}};
    unsigned lock;
    log_all_taken(&again, taken);
    for (lock = 0; lock < 16; lock++) {
        struct entry failure = {1, 0, 32, lock, 254};
        plan_begin(f, 1);
        each_lock(f, TAMPERMAUVE_OP_LOCK, taken);
        take(f, 0, lock);
        again.log[16] = failure;
        play_order(&again, f, 1, 17, UP, 0);
    }
}

/* Worker 0 takes so many locks, stores 5 at 0 and makes a step; op 0 is the end. Barrier 0 is of one. */
static void some_locks(struct plan_file *f, unsigned count, unsigned op) {
    unsigned k;
    plan_begin(f, 1);
    plan_size(f, 0, 1);
    for (k = 0; k < count; k++) {
        take(f, 0, up[k]);
    }
    store(f, 0, 5);
    if (op != 0) {
        plan_sync(f, 0, op, 0);
    }
}

/* With any number of locks held, barrier, exit and the end fail and the 5 is lost. Arrival, the locks, set, store, failure. */
static void any_number_fails(struct plan_file *f, unsigned count) {
    static const unsigned ops[3] = {TAMPERMAUVE_OP_BARRIER, TAMPERMAUVE_OP_EXIT, 0};
    struct expected fails = {"a failure with so many locks", {0}, 1, count + 4u, 1, count + 1u, {{0, 0, 0, 0, 0}}, {2}};
    unsigned k;
    log_all_taken(&fails, up);
    for (k = 0; k < 3; k++) {
        struct entry failure = {1, 0, ops[k] == 0 ? 38 : ops[k], 0, 254};
        fails.log[count] = failure;
        some_locks(f, count, ops[k]);
        play_order(&fails, f, 1, count + (ops[k] == 0 ? 2u : 3u), UP, 0);
    }
}

/* Signal, broadcast and a start of itself commit the 5 and keep the token, and the end behind them fails. Arrival, the locks, set,
 * store, the step, failure. */
static void any_number_runs_on(struct plan_file *f, unsigned count) {
    static const struct entry steps[3] = {{1, 0, 35, 0, 255}, {1, 0, 36, 0, 0}, {1, 0, 39, 0, 253}};
    static const struct entry failure = {1, 0, 38, 0, 254};
    struct expected runs_on = {"a step with so many locks", {5}, 1, count + 5u, 1, count + 2u, {{0, 0, 0, 0, 0}}, {2}};
    unsigned k;
    log_all_taken(&runs_on, up);
    for (k = 0; k < 3; k++) {
        runs_on.log[count] = steps[k];
        runs_on.log[count + 1u] = failure;
        some_locks(f, count, steps[k].op);
        play_order(&runs_on, f, 1, count + 3u, UP, 0);
    }
}

/* So does a wait, and leaves: arrival, the locks, set, store, wait. */
static void any_number_waits(struct plan_file *f, unsigned count) {
    static const struct entry wait = {1, 0, 34, 0, 255};
    struct expected waits = {"a wait with so many locks", {5}, 2, count + 4u, 1, count + 1u, {{0, 0, 0, 0, 0}}, {3}};
    log_all_taken(&waits, up);
    waits.log[count] = wait;
    some_locks(f, count, TAMPERMAUVE_OP_WAIT);
    play_order(&waits, f, 1, count + 3u, UP, 0);
}

static void number_cases(struct plan_file *f) {
    unsigned count;
    for (count = 1; count <= 16; count++) {
        any_number_fails(f, count);
        any_number_runs_on(f, count);
        any_number_waits(f, count);
    }
}

/* Worker 0 waits with all 16, and gives them back once it is woken: outcomes 15 to 0. Two arrivals; 16 locks, wait; signal or
 * broadcast; 16 unlocks; two arrivals, two ends. */
static void wait_with_all(const char *name, struct plan_file *f, unsigned op, unsigned outcome) {
    struct expected all = {name, {0}, 1, 40, 2, 36, {{0, 0, 0, 0, 0}}, {1, 1}};
    struct entry wait = {1, 0, 34, 0, 255}, wake = {1, 1, op, 0, outcome}, first = {2, 1, 38, 0, 255}, second = {2, 0, 38, 0, 255};
    unsigned k;
    plan_begin(f, 2);
    each_lock(f, TAMPERMAUVE_OP_LOCK, up);
    plan_sync(f, 0, TAMPERMAUVE_OP_WAIT, 0);
    each_lock(f, TAMPERMAUVE_OP_UNLOCK, mixed);
    plan_sync(f, 1, op, 0);
    log_all_taken(&all, up);
    for (k = 0; k < 16; k++) {
        struct entry unlock = {1, 0, 33, mixed[k], 15u - k};
        all.log[18u + k] = unlock;
    }
    all.log[16] = wait;
    all.log[17] = wake;
    all.log[34] = first;
    all.log[35] = second;
    ends(&all, f, 2, 34, 0);
}

/* A step of worker 0 for each lock but one. */
static void each_other_lock(struct plan_file *f, unsigned op, unsigned lock) {
    unsigned k;
    for (k = 1; k < 16; k++) {
        plan_sync(f, 0, op, (lock + k) % 16u);
    }
}

/* Worker 0 takes a lock, stores 5 at 0, takes the 15 others and gives them back: outcomes 1, 2 to 16, 15 to 1. None of these commits
 * the 5, and the failed end loses it. Arrival, lock, set, store, 15 locks, 15 unlocks, failure. */
static void all_but_one(struct plan_file *f, unsigned kept) {
    static const struct entry failure = {1, 0, 38, 0, 254};
    struct expected one = {"all locks but one given back", {0}, 1, 35, 1, 32, {{1, 0, 32, 0, 1}}, {2}};
    unsigned k;
    plan_begin(f, 1);
    take(f, 0, kept);
    store(f, 0, 5);
    each_other_lock(f, TAMPERMAUVE_OP_LOCK, kept);
    each_other_lock(f, TAMPERMAUVE_OP_UNLOCK, kept);
    one.log[0].number = kept;
    for (k = 1; k < 16; k++) {
        struct entry lock = {1, 0, 32, (kept + k) % 16u, k + 1u}, unlock = {1, 0, 33, (kept + k) % 16u, 16u - k};
        one.log[k] = lock;
        one.log[15u + k] = unlock;
    }
    one.log[31] = failure;
    play_order(&one, f, 1, 33, UP, 0);
}

/* A lock is taken behind another one, given back, taken again, and held when the other one is given back: the end fails. The inner
 * locks and unlocks commit nothing. Arrival, lock, set, store, lock, unlock, lock, unlock, failure. */
static void inner_lock_case(struct plan_file *f, unsigned lock) {
    struct expected kept = {"each lock behind another", {0}, 1, 9, 1, 6, {{0, 0, 0, 0, 0}}, {2}};
    unsigned other = (lock + 1u) % 16u;
    struct entry log[6] = {{1, 0, 32, other, 1}, {1, 0, 32, lock, 2}, {1, 0, 33, lock, 1}, {1, 0, 32, lock, 2}, {1, 0, 33, other, 1},
                           {1, 0, 38, 0, 254}};
    memcpy(kept.log, log, sizeof log);
    plan_begin(f, 1);
    take(f, 0, other);
    store(f, 0, 5);
    take(f, 0, lock);
    give_back(f, 0, lock);
    take(f, 0, lock);
    give_back(f, 0, other);
    play_order(&kept, f, 1, 7, UP, 0);
}

static void all_locks_cases(struct plan_file *f) {
    unsigned lock;
    all_locks("all locks, in the same order", f, up, up);
    all_locks("all locks, in reverse", f, up, down);
    all_locks("all locks, from the last one down", f, down, up);
    all_locks("all locks, in no order", f, mixed, down);
    all_locks("all locks, in two orders", f, mixed, up);
    seventeenth_lock(f, up);
    seventeenth_lock(f, mixed);
    wait_with_all("a wait with all locks, and a signal", f, TAMPERMAUVE_OP_SIGNAL, 0);
    wait_with_all("a wait with all locks, and a broadcast", f, TAMPERMAUVE_OP_BROADCAST, 1);
    for (lock = 0; lock < 16; lock++) {
        all_but_one(f, lock);
        inner_lock_case(f, lock);
    }
}

/* One lock is taken and another unlocked, or the same: arrival, lock, failure; or arrival, lock, unlock, arrival, end. */
static void unlock_another(struct plan_file *f, unsigned taken, unsigned given) {
    struct expected same_one = {"each lock given back", {0}, 1, 5, 2, 3,
        {{1, 0, 32, 0, 1}, {1, 0, 33, 0, 0}, {2, 0, 38, 0, 255}}, {1}};
    struct expected another = {"each other lock unlocked", {0}, 1, 3, 1, 2, {{1, 0, 32, 0, 1}, {1, 0, 33, 0, 254}}, {2}};
    struct expected *e = taken == given ? &same_one : &another;
    e->log[0].number = taken;
    e->log[1].number = given;
    plan_begin(f, 1);
    take(f, 0, taken);
    give_back(f, 0, given);
    play_order(e, f, 1, 2, UP, 0);
}

/* One lock is taken and then another, or the same: arrival, two locks, two unlocks, arrival, end; or arrival, lock, failure. */
static void lock_another(struct plan_file *f, unsigned first, unsigned second) {
    struct expected same_one = {"each lock taken twice", {0}, 1, 3, 1, 2, {{1, 0, 32, 0, 1}, {1, 0, 32, 0, 254}}, {2}};
    struct expected another = {"each two locks", {0}, 1, 7, 2, 5,
        {{1, 0, 32, 0, 1}, {1, 0, 32, 0, 2}, {1, 0, 33, 0, 1}, {1, 0, 33, 0, 0}, {2, 0, 38, 0, 255}}, {1}};
    struct expected *e = first == second ? &same_one : &another;
    e->log[0].number = first;
    e->log[1].number = second;
    another.log[2].number = first;
    another.log[3].number = second;
    plan_begin(f, 1);
    take(f, 0, first);
    take(f, 0, second);
    give_back(f, 0, first);
    give_back(f, 0, second);
    play_order(e, f, 1, 4, UP, 0);
}

static void pair_cases(struct plan_file *f) {
    unsigned pair;
    for (pair = 0; pair < 16u * 16u; pair++) {
        unlock_another(f, pair / 16u, pair % 16u);
        lock_another(f, pair / 16u, pair % 16u);
    }
}

static void lock_cases(struct plan_file *f) {
    two_locks_cases(f);
    inner_unlock_cases(f);
    wrong_unlock_case(f);
    unlock_failures(f);
    lock_failures(f);
    taken_again_cases(f);
    wait_with_two_case(f);
    third_lock_cases(f);
    lock_behind_wait_case(f);
    others_lock_cases(f);
    failed_holder_case(f);
    start_with_two_case(f);
    one_left_cases(f);
    wake_with_one_left_cases(f);
    all_locks_cases(f);
    number_cases(f);
    pair_cases(f);
}

/* The sum by the first turns of a list, from a starting memory: it is the one that was worked out by hand, and that of the memory
 * which the run leaves. */
static void sums(const char *name, const struct plan_file *f, const uint8_t *start, const uint8_t *turns, size_t length,
                 uint32_t wanted) {
    struct lent l = lend(60u + (unsigned)length);
    uint8_t bytes[4];
    memcpy(l.memory, start, MEMORY);
    write_four(bytes, wanted);
    returns(name,
            tampermauve_run(f->bytes, f->length, turns, length, l.memory, MEMORY, l.log, LOG, l.report, REPORT, l.work, WORK), 0);
    same(name, "the sum's bytes", l.report + TAMPERMAUVE_REPORT_SUM, bytes, sizeof bytes);
    returns(name, tampermauve_sum(l.report), wanted);
    returns(name, sum_afresh(l.memory), wanted);
    take_back(&l);
}

/* The sum by each number of turns from one up to another. */
static void sums_from(const char *name, const struct plan_file *f, const uint8_t *start, const uint8_t *turns, size_t first,
                      size_t last, uint32_t wanted) {
    size_t length;
    for (length = first; length <= last; length++) {
        sums(name, f, start, turns, length, wanted);
    }
}

/* Turns of worker 0 alone. */
static const uint8_t alone[70] = {0};

/* Two workers go to the fence in three moves each, set, store and arrival, and then exit: worker 0 commits by turn 7 and worker 1 by
 * turn 8. */
static const uint8_t one_then_other[8] = {0, 0, 0, 1, 1, 1, 0, 1};

static void sums_of_two(const char *name, struct plan_file *f, const uint8_t *start, const unsigned stored[2],
                        const uint32_t wanted[3]) {
    plan_begin(f, 2);
    store(f, 0, stored[0]);
    store(f, 1, stored[1]);
    sums_from(name, f, start, one_then_other, 0, 6, wanted[0]);
    sums(name, f, start, one_then_other, 7, wanted[1]);
    sums(name, f, start, one_then_other, 8, wanted[2]);
}

/* Two workers store into the word at 0. A commit moves the sum by what it changes in shared memory, which may be another amount than
 * the copy differs from its twin by. */
static void one_word_sums(struct plan_file *f) {
    uint8_t start[MEMORY] = {0};
    /* 01 in the high byte, then 01 in the low one */
    static const unsigned merged[2] = {256, 1};
    static const uint32_t merged_sums[3] = {0, 256, 257};
    /* the second commit writes what is there */
    static const unsigned equal[2] = {7, 7};
    static const uint32_t equal_sums[3] = {0, 7, 7};
    /* the second commit writes another byte over the first one's: 4 - 9 */
    static const unsigned over[2] = {9, 4};
    static const uint32_t over_sums[3] = {0, 9, 4};
    /* from 05 05: 09 into the high byte, then 02 into the low one */
    static const unsigned from_five[2] = {0x0905, 0x0502};
    static const uint32_t from_five_sums[3] = {1285, 2309, 2306};
    /* from 05 05: all of it to 65,535, then the low byte back to zero, the high one being as in the twin */
    static const unsigned there_and_back[2] = {65535, 0x0500};
    static const uint32_t there_and_back_sums[3] = {1285, 65535, 65280};
    /* from 05 05: the second worker stores what was there before, and commits nothing */
    static const unsigned as_before[2] = {7, 1285};
    static const uint32_t as_before_sums[3] = {1285, 7, 7};
    sums_of_two("two bytes of a word", f, start, merged, merged_sums);
    sums_of_two("a byte that is there", f, start, equal, equal_sums);
    sums_of_two("a byte over another", f, start, over, over_sums);
    plan_word(start, 1285);
    sums_of_two("two bytes of a word that holds some", f, start, from_five, from_five_sums);
    sums_of_two("a word and its low byte", f, start, there_and_back, there_and_back_sums);
    sums_of_two("a word as it was before", f, start, as_before, as_before_sums);
}

/* One worker stores a word and exits: set, store, arrival, end. */
static void sum_of_store(const char *name, struct plan_file *f, const uint8_t *start, unsigned value, unsigned address,
                         uint32_t before, uint32_t after) {
    plan_begin(f, 1);
    store_at(f, 0, value, address);
    sums_from(name, f, start, alone, 0, 3, before);
    sums_from(name, f, start, alone, 4, 6, after);
}

/* 513 is 01 02. At an odd address the 01 is the high byte of one word and the 02 the low byte of the next: 256 + 2. 65,535 counts as
 * much wherever it is. */
static void address_sums(struct plan_file *f) {
    uint8_t start[MEMORY] = {0};
    sum_of_store("a store at 0", f, start, 513, 0, 0, 513);
    sum_of_store("a store at 1", f, start, 513, 1, 0, 258);
    sum_of_store("a store at 63, over a border of blocks", f, start, 513, 63, 0, 258);
    sum_of_store("a store at 254", f, start, 513, 254, 0, 513);
    sum_of_store("a store at 255, over a border of pages", f, start, 513, 255, 0, 258);
    sum_of_store("a store at 256", f, start, 513, 256, 0, 513);
    sum_of_store("a store at 511, over a border of pages", f, start, 513, 511, 0, 258);
    sum_of_store("a store at 1,791, over a border of pages", f, start, 513, 1791, 0, 258);
    sum_of_store("a store at 2,045", f, start, 513, 2045, 0, 258);
    sum_of_store("a store at 2,046", f, start, 513, 2046, 0, 513);
    sum_of_store("65,535 at 255", f, start, 65535, 255, 0, 65535);
    sum_of_store("65,535 at 2,046", f, start, 65535, 2046, 0, 65535);
    sum_of_store("the highest bit of a low byte", f, start, 128, 0, 0, 128);
    sum_of_store("the highest bit of a high byte", f, start, 32768, 0, 0, 32768);
}

/* One commit of two words: set, store, set, store, arrival, end. */
static void sum_of_stores(const char *name, struct plan_file *f, const unsigned value[2], const unsigned address[2], uint32_t after) {
    static const uint8_t start[MEMORY] = {0};
    plan_begin(f, 1);
    store_at(f, 0, value[0], address[0]);
    store_at(f, 0, value[1], address[1]);
    sums_from(name, f, start, alone, 0, 5, 0);
    sums(name, f, start, alone, 6, after);
}

static void two_word_sums(struct plan_file *f) {
    static const unsigned borders[2] = {255, 511}, beside[2] = {0, 8}, apart[2] = {0, 254}, over[2] = {0, 1};
    static const unsigned some[2] = {513, 65535}, equal[2] = {7, 7}, most[2] = {65535, 65535}, ones[2] = {257, 257};
    sum_of_stores("stores over two borders of pages", f, some, borders, 65793); /* 258 + 65,535 */
    sum_of_stores("the same word twice", f, equal, beside, 14);
    sum_of_stores("two words of a page", f, most, apart, 131070);
    sum_of_stores("a store over half of another", f, ones, over, 258); /* 01 01 01: 257 + 1 */
}

/* Both workers copy page 2. Worker 0 commits its first byte, and worker 1, whose copy has that as it was, its last one: 256 + 2, then
 * 6 x 256 + 5 more. Then the same of page 0, whose last byte worker 0 commits. */
static void beside_sums(struct plan_file *f) {
    static const uint8_t start[MEMORY] = {0};
    plan_begin(f, 2);
    store_at(f, 0, 513, 511);
    store_at(f, 1, 1286, 767);
    sums_from("a page that two have copied", f, start, one_then_other, 0, 6, 0);
    sums("a page that two have copied", f, start, one_then_other, 7, 258);
    sums("a page that two have copied", f, start, one_then_other, 8, 1799);
    plan_begin(f, 2);
    store_at(f, 0, 513, 255);
    store_at(f, 1, 7, 100);
    sums("the last byte of a page that two have copied", f, start, one_then_other, 7, 258);
    sums("the last byte of a page that two have copied", f, start, one_then_other, 8, 265);
}

/* The greatest sum is 1,024 x 65,535. */
static void greatest_sums(struct plan_file *f) {
    static const uint8_t bytes[4] = {0x00, 0xFC, 0xFF, 0x03};
    uint8_t start[MEMORY], report[REPORT] = {0};
    memset(start, 255, MEMORY);
    memcpy(report + TAMPERMAUVE_REPORT_SUM, bytes, sizeof bytes);
    returns("the greatest sum, read", tampermauve_sum(report), 67107840u);
    plan_begin(f, 1);
    sums("255 everywhere, no turns", f, start, alone, 0, 67107840u);
    sums("255 everywhere, and an end", f, start, alone, 2, 67107840u);
    /* - 65,535; - 255 x 256 - 255; - 256 */
    sum_of_store("255 everywhere but a zero at 0", f, start, 0, 0, 67107840u, 67042305u);
    sum_of_store("255 everywhere but a zero at 511", f, start, 0, 511, 67107840u, 67042305u);
    sum_of_store("255 everywhere but 254 at 2,047", f, start, 65279, 2046, 67107840u, 67107584u);
    memset(start, 0, 2);
    memset(start + 2046, 0, 2);
    plan_begin(f, 1);
    store_at(f, 0, 65535, 0);
    store_at(f, 0, 65535, 2046);
    sums_from("up to the greatest sum", f, start, alone, 0, 5, 66976770u); /* 1,022 x 65,535 */
    sums("up to the greatest sum", f, start, alone, 6, 67107840u);
}

/* Each of eight workers stores zero, which its registers hold at first, all over a page of 255 everywhere: 128 stores and the arrival
 * of each, then the ends. A commit of all bytes of a page moves the sum by 128 x 65,535. */
static void erased_sums(struct plan_file *f) {
    static const uint32_t wanted[9] = {67107840, 58719360, 50330880, 41942400, 33553920, 25165440, 16776960, 8388480, 0};
    uint8_t start[MEMORY], turns[8 * 130];
    unsigned k;
    memset(start, 255, MEMORY);
    plan_begin(f, 8);
    for (k = 0; k < MEMORY; k += 2) {
        plan_add(f, k / 256u, TAMPERMAUVE_OP_STORE, 0, k);
    }
    for (k = 0; k < sizeof turns; k++) {
        turns[k] = (uint8_t)(k % 8u);
    }
    for (k = 0; k <= 8; k++) {
        sums("all of memory", f, start, turns, 8u * 129u + k, wanted[k]);
    }
}

/* A sum that falls to nothing; one that stays although memory changed; bytes that are as they were when they are committed. */
static void falling_sums(struct plan_file *f) {
    uint8_t start[MEMORY] = {0};
    plan_word(start + 300, 65535);
    sum_of_store("down to nothing", f, start, 0, 300, 65535, 0);
    plan_word(start + 300, 20);
    plan_word(start, 10);
    plan_begin(f, 1);
    store_at(f, 0, 20, 0);
    store_at(f, 0, 10, 300);
    sums_from("two words exchanged", f, start, alone, 0, 6, 30);
    /* arrival, lock, set, store, start, which commits 10 more, set, store, unlock, which commits 10 less */
    plan_begin(f, 1);
    plan_sync(f, 0, TAMPERMAUVE_OP_LOCK, 0);
    store_at(f, 0, 20, 0);
    plan_sync(f, 0, TAMPERMAUVE_OP_START, 0);
    store_at(f, 0, 10, 300);
    plan_sync(f, 0, TAMPERMAUVE_OP_UNLOCK, 0);
    sums_from("up and down", f, start, alone, 0, 4, 30);
    sums_from("up and down", f, start, alone, 5, 7, 40);
    sums_from("up and down", f, start, alone, 8, 10, 30);
    plan_begin(f, 1);
    store_at(f, 0, 999, 0);
    store_at(f, 0, 10, 0);
    sums_from("stored and stored back", f, start, alone, 0, 6, 30);
}

/* Steps that commit, each alone behind a store, and steps that fail there. */
struct sync_case {
    const char *name;
    unsigned op, number; /* op 0: the end of the steps */
    int locked;
};

/* Worker 0 stores 1,258 over the 1,000 at 0, with a lock or without, and makes the step; worker 1 sleeps. Barrier 0 is of two, 1 of
 * one. Elsewhere there is 300 at 2,046. */
static void store_and_sync(struct plan_file *f, const struct sync_case *c) {
    plan_begin(f, 2);
    plan_size(f, 0, 2);
    plan_size(f, 1, 1);
    plan_sleep(f, 1);
    if (c->locked) {
        plan_sync(f, 0, TAMPERMAUVE_OP_LOCK, 0);
    }
    store(f, 0, 1258);
    if (c->op != 0) {
        plan_sync(f, 0, c->op, c->number);
    }
}

/* Without a lock: set, store, arrival; with one: arrival, lock, set, store. The next turn makes the step. */
static void committing_sums(struct plan_file *f, const uint8_t *start) {
    static const struct sync_case cases[] = {
        {"a lock moves the sum", TAMPERMAUVE_OP_LOCK, 0, 0},
        {"an unlock moves the sum", TAMPERMAUVE_OP_UNLOCK, 0, 1},
        {"a wait moves the sum", TAMPERMAUVE_OP_WAIT, 0, 1},
        {"a signal moves the sum", TAMPERMAUVE_OP_SIGNAL, 0, 0},
        {"a signal with a lock moves the sum", TAMPERMAUVE_OP_SIGNAL, 0, 1},
        {"a broadcast moves the sum", TAMPERMAUVE_OP_BROADCAST, 0, 0},
        {"a broadcast with a lock moves the sum", TAMPERMAUVE_OP_BROADCAST, 0, 1},
        {"a barrier that is not full moves the sum", TAMPERMAUVE_OP_BARRIER, 0, 0},
        {"a full barrier moves the sum", TAMPERMAUVE_OP_BARRIER, 1, 0},
        {"a start moves the sum", TAMPERMAUVE_OP_START, 1, 0},
        {"a start with a lock moves the sum", TAMPERMAUVE_OP_START, 1, 1},
        {"a start in vain moves the sum", TAMPERMAUVE_OP_START, 0, 0},
        {"a start in vain with a lock moves the sum", TAMPERMAUVE_OP_START, 0, 1},
        {"an exit moves the sum", TAMPERMAUVE_OP_EXIT, 0, 0},
        {"the end moves the sum", 0, 0, 0},
    };
    size_t k;
    for (k = 0; k < sizeof cases / sizeof *cases; k++) {
        const struct sync_case *c = &cases[k];
        size_t before = c->locked ? 4 : 3;
        store_and_sync(f, c);
        sums_from(c->name, f, start, alone, 0, before, 1300);
        sums_from(c->name, f, start, alone, before + 1u, before + 4u, 1558);
    }
}

/* What a failure loses was never in the sum. */
static void failing_sums(struct plan_file *f, const uint8_t *start) {
    static const struct sync_case cases[] = {
        {"the sum, and a failed unlock", TAMPERMAUVE_OP_UNLOCK, 0, 0}, {"the sum, and a failed wait", TAMPERMAUVE_OP_WAIT, 0, 0},
        {"the sum, and a failed barrier", TAMPERMAUVE_OP_BARRIER, 0, 1}, {"the sum, and a failed exit", TAMPERMAUVE_OP_EXIT, 0, 1},
        {"the sum, and a failed end", 0, 0, 1}, {"the sum, and a lock taken twice", TAMPERMAUVE_OP_LOCK, 0, 1},
        {"the sum, and the wrong one unlocked", TAMPERMAUVE_OP_UNLOCK, 1, 1},
    };
    size_t k;
    for (k = 0; k < sizeof cases / sizeof *cases; k++) {
        store_and_sync(f, &cases[k]);
        sums_from(cases[k].name, f, start, alone, 0, 8, 1300);
    }
}

/* A lock behind another and an unlock that leaves one held commit nothing, whichever it is: arrival, lock, set, store, lock, unlock;
 * the next unlock does. */
static void inner_lock_sums(struct plan_file *f, const uint8_t *start) {
    unsigned inner;
    for (inner = 0; inner < 2; inner++) {
        plan_begin(f, 1);
        take(f, 0, 0);
        store(f, 0, 1258);
        take(f, 0, 1);
        give_back(f, 0, inner);
        give_back(f, 0, 1u - inner);
        sums_from("the sum, and an inner lock", f, start, alone, 0, 6, 1300);
        sums_from("the sum, and an inner lock", f, start, alone, 7, 9, 1558);
    }
}

/* Worker 1 has stored 60,000 at 2 when worker 0's exit commits: that is not in the sum, and its own failure loses it. */
static void others_sums(struct plan_file *f, const uint8_t *start) {
    plan_begin(f, 2);
    store(f, 0, 1258);
    store_at(f, 1, 60000, 2);
    plan_sync(f, 1, TAMPERMAUVE_OP_UNLOCK, 0);
    sums_from("another worker's bytes", f, start, one_then_other, 0, 6, 1300);
    sums_from("another worker's bytes", f, start, one_then_other, 7, 8, 1558);
}

/* Worker 1 has stored 1,258 before the fence and commits it by a step that reaches worker 0. */
static void reaching_sums(struct plan_file *f, const uint8_t *start) {
    /* arrival; set, store, arrival; lock, wait; the signal or broadcast */
    static const uint8_t wakes[7] = {0, 1, 1, 1, 0, 0, 1};
    /* arrival; set, store, arrival; the barrier of both */
    static const uint8_t meets[6] = {0, 1, 1, 1, 0, 1};
    unsigned op;
    for (op = TAMPERMAUVE_OP_SIGNAL; op <= TAMPERMAUVE_OP_BROADCAST; op++) {
        plan_begin(f, 2);
        wait_with_lock(f, 0, 0);
        store(f, 1, 1258);
        plan_sync(f, 1, op, 0);
        sums_from("the sum, and a waiter", f, start, wakes, 0, 6, 1300);
        sums("the sum, and a waiter", f, start, wakes, 7, 1558);
    }
    plan_begin(f, 2);
    plan_size(f, 0, 2);
    plan_sync(f, 0, TAMPERMAUVE_OP_BARRIER, 0);
    store(f, 1, 1258);
    plan_sync(f, 1, TAMPERMAUVE_OP_BARRIER, 0);
    sums_from("the sum, and a barrier of two", f, start, meets, 0, 5, 1300);
    sums("the sum, and a barrier of two", f, start, meets, 6, 1558);
}

static void step_sums(struct plan_file *f) {
    uint8_t start[MEMORY] = {0};
    plan_word(start, 1000);
    plan_word(start + 2046, 300);
    committing_sums(f, start);
    failing_sums(f, start);
    inner_lock_sums(f, start);
    others_sums(f, start);
    reaching_sums(f, start);
}

/* A commit in each of twelve rounds: set, store, arrival, signal. The word at 0 is the round's number. */
static void round_sums(struct plan_file *f) {
    static const uint8_t start[MEMORY] = {0};
    unsigned round;
    plan_begin(f, 1);
    for (round = 1; round <= 12; round++) {
        store(f, 0, round);
        plan_sync(f, 0, TAMPERMAUVE_OP_SIGNAL, 0);
    }
    for (round = 0; round <= 12; round++) {
        sums_from("a commit in each round", f, start, alone, 4u * round, 4u * round + 3u, round);
    }
}

/* Worker w stores 100 x (w + 1) at 290 x w, each into another page, and exits. Three moves of each to the fence, then the ends. */
static void worker_sums(struct plan_file *f) {
    static const uint8_t start[MEMORY] = {0};
    static const uint32_t wanted[9] = {0, 100, 300, 600, 1000, 1500, 2100, 2800, 3600};
    uint8_t turns[32];
    unsigned k;
    plan_begin(f, 8);
    for (k = 0; k < 8; k++) {
        store_at(f, k, 100u * (k + 1u), 290u * k);
    }
    for (k = 0; k < 32; k++) {
        turns[k] = (uint8_t)(k % 8u);
    }
    for (k = 0; k <= 8; k++) {
        sums("a commit of each worker", f, start, turns, 24u + k, wanted[k]);
    }
}

/* A store into each 64 bytes of memory, the values rising by `value`: one commit moves the sum by 1 + 2 + .. + 32 = 528 times it. 64
 * steps, arrival, end. */
static void spread_sum(const char *name, struct plan_file *f, unsigned value, unsigned offset) {
    static const uint8_t start[MEMORY] = {0};
    unsigned k;
    plan_begin(f, 1);
    for (k = 0; k < MEMORY / 64; k++) {
        store_at(f, 0, (k + 1u) * value, 64u * k + offset);
    }
    sums(name, f, start, alone, 65, 0);
    sums(name, f, start, alone, 66, 528u * value);
}

static void spread_sums(struct plan_file *f) {
    spread_sum("the first byte of each 64", f, 1, 0);
    spread_sum("a byte in the middle of each 64", f, 1, 32);
    spread_sum("the last byte but one of each 64", f, 1, 62);
    spread_sum("the last byte of each 64", f, 256, 62);
}

/* What a report held before does not matter, and nothing is written behind it. */
static void report_bytes(struct plan_file *f) {
    static const uint8_t wanted[REPORT] = {1, 1, 4, 0, 1, 0, 1, 0, 1, 255, 255, 255, 255, 255, 255, 255, 0x39, 0x30, 0, 0};
    unsigned content;
    plan_begin(f, 1);
    store_at(f, 0, 12345, 1000);
    for (content = 0; content < 256; content += 85) {
        struct lent l = lend(0);
        uint8_t *room = fresh(REPORT + 12u, content), *rest = fresh(12, content);
        returns("a report in a greater buffer",
                tampermauve_run(f->bytes, f->length, alone, 9, l.memory, MEMORY, l.log, LOG, room, REPORT, l.work, WORK), 0);
        same("a report in a greater buffer", "report", room, wanted, REPORT);
        same("a report in a greater buffer", "the bytes behind", room + REPORT, rest, 12);
        take_back(&l);
        free(room);
        free(rest);
    }
}

static void sum_cases(struct plan_file *f) {
    one_word_sums(f);
    address_sums(f);
    two_word_sums(f);
    beside_sums(f);
    greatest_sums(f);
    erased_sums(f);
    falling_sums(f);
    step_sums(f);
    round_sums(f);
    worker_sums(f);
    spread_sums(f);
    report_bytes(f);
}

/* A step of each op of the table: whether it synchronises, and if it does, its outcome and worker 0's fate with lock 0 held. */
struct point {
    const char *name;
    unsigned op, reg, number;
    int synchronises;
    unsigned outcome, fate;
};

static const struct point points[15] = {
    {"a set", TAMPERMAUVE_OP_SET, 1, 9, 0, 0, 0},
    {"a load", TAMPERMAUVE_OP_LOAD, 0, 0, 0, 0, 0},
    {"a store", TAMPERMAUVE_OP_STORE, 0, 0, 0, 0, 0},
    {"an add", TAMPERMAUVE_OP_ADD, 0, 1, 0, 0, 0},
    {"a subtract", TAMPERMAUVE_OP_SUBTRACT, 0, 1, 0, 0, 0},
    {"a skip if zero", TAMPERMAUVE_OP_SKIP_ZERO, 0, 1, 0, 0, 0},
    {"a skip if not zero", TAMPERMAUVE_OP_SKIP_NONZERO, 0, 1, 0, 0, 0},
    {"a lock", TAMPERMAUVE_OP_LOCK, 0, 3, 1, 2, 0},
    {"an unlock", TAMPERMAUVE_OP_UNLOCK, 0, 0, 1, 0, 0},
    {"a wait", TAMPERMAUVE_OP_WAIT, 0, 2, 1, 255, 3},
    {"a signal", TAMPERMAUVE_OP_SIGNAL, 0, 2, 1, 255, 0},
    {"a broadcast", TAMPERMAUVE_OP_BROADCAST, 0, 2, 1, 0, 0},
    {"a barrier", TAMPERMAUVE_OP_BARRIER, 0, 1, 1, 254, 2},
    {"an exit", TAMPERMAUVE_OP_EXIT, 0, 0, 1, 254, 2},
    {"a start", TAMPERMAUVE_OP_START, 0, 1, 1, 253, 0},
};

/* Worker 0 makes the step, with lock 0 or without; worker 1 has no steps. Barrier 1 is of one. Behind a skip there must be something
 * to skip: an exit, and skipped or not worker 0 is then at what synchronises. */
static void point_plan(struct plan_file *f, const struct point *p, int locked) {
    plan_begin(f, 2);
    plan_size(f, 1, 1);
    if (locked) {
        take(f, 0, 0);
    }
    plan_add(f, 0, p->op, p->reg, p->number);
    if (p->op == TAMPERMAUVE_OP_SKIP_ZERO || p->op == TAMPERMAUVE_OP_SKIP_NONZERO) {
        plan_sync(f, 0, TAMPERMAUVE_OP_EXIT, 0);
    }
}

/* Turns of worker 0 alone, so that the fence is never full: nothing is logged, and the zero that is stored over the 261 at 0 is not
 * committed. A step that does not synchronise is a move, and the arrival at the end or the exit behind it another; one that does is met
 * by an arrival. All further turns pass. */
static void fence_points(struct plan_file *f, const struct point *p) {
    static const unsigned own[4] = {0, 1, 2, 2}, arrives[4] = {0, 1, 1, 1};
    size_t turns;
    point_plan(f, p, 0);
    for (turns = 0; turns <= 3; turns++) {
        struct expected e = {p->name, {5, 1}, 0, 0, 0, 0, {{0, 0, 0, 0, 0}}, {0, 0}};
        e.moves = p->synchronises ? arrives[turns] : own[turns];
        play(&e, f, 2, alone, turns, 261);
    }
}

/* Two arrivals, the lock, the step: with the token it needs no arrival, and it is logged if it synchronises. */
static void token_points(struct plan_file *f, const struct point *p) {
    static const uint8_t turns[4] = {0, 1, 0, 0};
    struct expected e = {p->name, {5, 1}, 0, 4, 0, p->synchronises ? 2 : 1,
        {{1, 0, 32, 0, 1}, {1, 0, p->op, p->number, p->outcome}}, {p->fate, 0}};
    point_plan(f, p, 1);
    play(&e, f, 2, turns, 4, 261);
}

static void point_cases(struct plan_file *f) {
    size_t k;
    for (k = 0; k < sizeof points / sizeof *points; k++) {
        fence_points(f, &points[k]);
        token_points(f, &points[k]);
    }
}

/* ---- bytes nobody named */

/* A byte that a load or a store covers: its address, what it holds at first, and what the run leaves there. */
struct covered {
    unsigned address, before, after;
};

enum { KINDS = 4 };

/* Something in every byte: zeros, 255s, and two kinds by which neighbours differ. */
static void fill_unnamed(uint8_t *memory, unsigned kind) {
    unsigned at;
    for (at = 0; at < MEMORY; at++) {
        memory[at] = (uint8_t)(kind == 0 ? 0 : kind == 1 ? 255 : 7u * at + at / 256u + kind);
    }
}

/* From each kind of bytes where nobody named any: what is left differs by these alone, each as it was. */
static void keep_unnamed(const struct expected *e, const struct plan_file *f, unsigned workers, const uint8_t *turns, size_t length,
                       const struct covered *bytes, unsigned count) {
    unsigned kind, k;
    for (kind = 0; kind < KINDS; kind++) {
        uint8_t before[MEMORY], after[MEMORY];
        fill_unnamed(before, kind);
        fill_unnamed(after, kind);
        for (k = 0; k < count; k++) {
            before[bytes[k].address] = (uint8_t)bytes[k].before;
            after[bytes[k].address] = (uint8_t)bytes[k].after;
        }
        play_from(e, f, workers, turns, length, before, after);
    }
}

/* The same in every order of turns, to the end. */
static void keep_in_every_order(const struct expected *e, const struct plan_file *f, unsigned workers, unsigned steps,
                                const struct covered *bytes, unsigned count) {
    unsigned order;
    for (order = 0; order < ORDERS; order++) {
        size_t length;
        uint8_t *turns = ordered(workers, steps, order, &length);
        keep_unnamed(e, f, workers, turns, length, bytes, count);
        free(turns);
    }
}

/* One word is stored: set, store, arrival, end. The bytes beside it stay, over a page border too. */
static void unnamed_beside_a_word(struct plan_file *f) {
    static const struct expected stored = {"a byte beside a word", {0}, 1, 4, 1, 1, {{1, 0, 38, 0, 255}}, {1}};
    static const unsigned addresses[] = {0, 3, 254, 255, 256, 511, 1022, 1791, 2045, 2046};
    size_t k;
    for (k = 0; k < sizeof addresses / sizeof *addresses; k++) {
        const struct covered bytes[2] = {{addresses[k], 6, 1}, {addresses[k] + 1u, 6, 2}};
        plan_begin(f, 1);
        store_at(f, 0, 0x0201, addresses[k]);
        keep_in_every_order(&stored, f, 1, 2, bytes, 2);
    }
}

/* Whole reports by hand: 0x0201 is stored at 3, between unnamed bytes of the same two words. 7 + 256 x 1 and 2 + 256 x 9 are 2569, 0x0A09;
 * with bytes that are one greater it is 257 more, as it was at first. */
static void unnamed_in_the_sum(struct plan_file *f) {
    static const uint8_t report[REPORT] = {1, 1, 4, 0, 1, 0, 1, 0, 1, 255, 255, 255, 255, 255, 255, 255, 0x09, 0x0A, 0, 0};
    unsigned more;
    plan_begin(f, 1);
    store_at(f, 0, 0x0201, 3);
    for (more = 0; more < 3; more++) {
        struct lent l = lend(60u + more);
        uint8_t wanted[REPORT], words[6] = {0, 0, (uint8_t)(7u + more), 1, 2, (uint8_t)(9u + more)};
        memcpy(wanted, report, REPORT);
        wanted[TAMPERMAUVE_REPORT_SUM] = (uint8_t)(0x09 + more);
        wanted[TAMPERMAUVE_REPORT_SUM + 1u] = (uint8_t)(0x0A + more);
        l.memory[2] = words[2];
        l.memory[5] = words[5];
        returns("unnamed bytes in the sum",
                tampermauve_run(f->bytes, f->length, alone, 4, l.memory, MEMORY, l.log, LOG, l.report, REPORT, l.work, WORK), 0);
        same("unnamed bytes in the sum", "memory", l.memory, words, sizeof words);
        same("unnamed bytes in the sum", "report", l.report, wanted, REPORT);
        take_back(&l);
    }
}

/* A store that is skipped, one behind an exit, a load behind a failure: they name their bytes, which stay. */
static void unnamed_beside_idle_steps(struct plan_file *f) {
    static const struct expected skipped = {"named by a skipped step", {0}, 1, 3, 1, 1, {{1, 0, 38, 0, 255}}, {1}};
    static const struct expected exited = {"named behind an exit", {0}, 1, 2, 1, 1, {{1, 0, 38, 0, 255}}, {1}};
    static const struct expected failed = {"named behind a failure", {0}, 1, 2, 1, 1, {{1, 0, 33, 4, 254}}, {2}};
    static const struct covered bytes[2] = {{20, 5, 5}, {21, 6, 6}};
    plan_begin(f, 1);
    plan_add(f, 0, TAMPERMAUVE_OP_SKIP_ZERO, 0, 1);
    plan_add(f, 0, TAMPERMAUVE_OP_STORE, 1, 20);
    keep_in_every_order(&skipped, f, 1, 2, bytes, 2);
    plan_begin(f, 1);
    plan_sync(f, 0, TAMPERMAUVE_OP_EXIT, 0);
    plan_add(f, 0, TAMPERMAUVE_OP_STORE, 1, 20);
    keep_in_every_order(&exited, f, 1, 2, bytes, 2);
    plan_begin(f, 1);
    plan_sync(f, 0, TAMPERMAUVE_OP_UNLOCK, 4);
    plan_add(f, 0, TAMPERMAUVE_OP_LOAD, 1, 20);
    keep_in_every_order(&failed, f, 1, 2, bytes, 2);
}

/* A sleeper whom nobody starts names the bytes at 50 and 51; only worker 0 runs: set, store, arrival, end. */
static void unnamed_beside_a_sleeper(struct plan_file *f) {
    static const struct expected asleep = {"named by a sleeper", {0}, 1, 4, 1, 1, {{1, 0, 38, 0, 255}}, {1, 5}};
    static const struct covered bytes[4] = {{40, 1, 7}, {41, 1, 0}, {50, 1, 1}, {51, 1, 1}};
    plan_begin(f, 2);
    plan_sleep(f, 1);
    store_at(f, 0, 7, 40);
    store_at(f, 1, 8, 50);
    keep_in_every_order(&asleep, f, 2, 4, bytes, 4);
}

/* Three workers copy one page and commit it one after the other: 0 and 1 a byte each of one word, 2 a word one byte further on. */
static void race_in_one_page(struct plan_file *f) {
    plan_begin(f, 3);
    store_at(f, 0, 0x0100, 300);
    store_at(f, 1, 1, 300);
    store_at(f, 2, 0x0909, 303);
}

static void unnamed_in_a_race(struct plan_file *f) {
    static const struct expected raced = {"unnamed bytes in a race", {0}, 1, 12, 1, 3,
        {{1, 0, 38, 0, 255}, {1, 1, 38, 0, 255}, {1, 2, 38, 0, 255}}, {1, 1, 1}};
    static const struct covered bytes[4] = {{300, 0, 1}, {301, 0, 1}, {303, 0, 9}, {304, 0, 9}};
    race_in_one_page(f);
    keep_in_every_order(&raced, f, 3, 6, bytes, 4);
}

/* The same race under way. All have arrived behind the ninth move; the tenth, the exit of 0, commits its one byte. Turns of 2 and 1
 * pass while 0 holds the token. */
static void unnamed_under_way(struct plan_file *f) {
    static const struct expected arrived = {"unnamed bytes before a commit", {0}, 0, 9, 0, 0, {{0, 0, 0, 0, 0}}, {0, 0, 0}};
    static const struct expected one = {"unnamed bytes behind a commit", {0}, 0, 10, 0, 1, {{1, 0, 38, 0, 255}}, {1, 0, 0}};
    static const struct covered none[4] = {{300, 0, 0}, {301, 0, 0}, {303, 0, 0}, {304, 0, 0}};
    static const struct covered high[4] = {{300, 0, 0}, {301, 0, 1}, {303, 0, 0}, {304, 0, 0}};
    static const uint8_t turns[12] = {0, 0, 1, 1, 2, 2, 0, 1, 2, 2, 1, 0};
    race_in_one_page(f);
    keep_unnamed(&arrived, f, 3, turns, 11, none, 4);
    keep_unnamed(&one, f, 3, turns, 12, high, 4);
}

/* Worker 0 fails at its unlock, and its bytes are lost; worker 1 commits beside them. */
static void unnamed_beside_lost_bytes(struct plan_file *f) {
    static const struct expected lost = {"bytes beside lost ones", {0}, 1, 8, 1, 2, {{1, 0, 33, 0, 254}, {1, 1, 38, 0, 255}}, {2, 1}};
    static const struct covered bytes[4] = {{600, 1, 1}, {601, 2, 2}, {604, 3, 7}, {605, 4, 0}};
    plan_begin(f, 2);
    store_at(f, 0, 0x0505, 600);
    plan_sync(f, 0, TAMPERMAUVE_OP_UNLOCK, 0);
    store_at(f, 1, 7, 604);
    keep_in_every_order(&lost, f, 2, 5, bytes, 4);
}

/* Worker 0 copies the word at 70 to 80 and waits for ever: load, store, arrival, lock, wait. */
static void unnamed_in_a_stuck_plan(struct plan_file *f) {
    static const struct expected waits = {"unnamed bytes in a stuck plan", {0}, 2, 5, 1, 2, {{1, 0, 32, 0, 1}, {1, 0, 34, 0, 255}}, {3}};
    static const struct covered bytes[4] = {{70, 9, 9}, {71, 8, 8}, {80, 1, 9}, {81, 2, 8}};
    plan_begin(f, 1);
    copy_word(f, 0, 70, 80);
    plan_sync(f, 0, TAMPERMAUVE_OP_LOCK, 0);
    plan_sync(f, 0, TAMPERMAUVE_OP_WAIT, 0);
    keep_in_every_order(&waits, f, 1, 4, bytes, 4);
}

/* The byte at 71 is named by the load at 70, and another one there is another run: with 256 in the register two steps are skipped. */
static void upper_byte_decides(struct plan_file *f) {
    static const struct expected zero = {"an upper byte of 0", {0}, 1, 6, 1, 1, {{1, 0, 38, 0, 255}}, {1}};
    static const struct expected one = {"an upper byte of 1", {0}, 1, 4, 1, 1, {{1, 0, 38, 0, 255}}, {1}};
    static const struct covered with_zero[4] = {{70, 0, 0}, {71, 0, 0}, {100, 3, 5}, {101, 3, 0}};
    static const struct covered with_one[4] = {{70, 0, 0}, {71, 1, 1}, {100, 3, 3}, {101, 3, 3}};
    plan_begin(f, 1);
    plan_add(f, 0, TAMPERMAUVE_OP_LOAD, 0, 70);
    plan_add(f, 0, TAMPERMAUVE_OP_SKIP_NONZERO, 0, 2);
    store_at(f, 0, 5, 100);
    keep_in_every_order(&zero, f, 1, 4, with_zero, 4);
    keep_in_every_order(&one, f, 1, 4, with_one, 4);
}

/* No load, no store: set, arrival, lock, unlock, arrival, end, and every byte stays. */
static void no_byte_named(struct plan_file *f) {
    static const struct expected none = {"no byte is named", {0}, 1, 6, 2, 3,
        {{1, 0, 32, 0, 1}, {1, 0, 33, 0, 0}, {2, 0, 38, 0, 255}}, {1}};
    plan_begin(f, 1);
    plan_fill(f, 0, 1);
    plan_sync(f, 0, TAMPERMAUVE_OP_LOCK, 0);
    plan_sync(f, 0, TAMPERMAUVE_OP_UNLOCK, 0);
    keep_in_every_order(&none, f, 1, 3, NULL, 0);
}

static void unnamed_cases(struct plan_file *f) {
    unnamed_beside_a_word(f);
    unnamed_in_the_sum(f);
    unnamed_beside_idle_steps(f);
    unnamed_beside_a_sleeper(f);
    unnamed_in_a_race(f);
    unnamed_under_way(f);
    unnamed_beside_lost_bytes(f);
    unnamed_in_a_stuck_plan(f);
    upper_byte_decides(f);
    no_byte_named(f);
}

/* A refused run from a memory, with buffers of the lengths told: no byte of them is changed. */
static void refused_from(const char *name, const struct plan_file *f, const uint8_t *turns, size_t turns_length, const size_t told[4],
                         uint32_t wanted, const uint8_t *memory) {
    struct lent l = lend(90);
    struct lent before = lend(90);
    memcpy(l.memory, memory, MEMORY);
    memcpy(before.memory, memory, MEMORY);
    returns(name,
            tampermauve_run(f->bytes, f->length, turns, turns_length, l.memory, told[0], l.log, told[1], l.report, told[2], l.work,
                            told[3]),
            wanted);
    same(name, "memory", l.memory, before.memory, MEMORY);
    same(name, "log", l.log, before.log, LOG);
    same(name, "report", l.report, before.report, REPORT);
    same(name, "work", l.work, before.work, WORK);
    take_back(&l);
    take_back(&before);
}

static void refused(const char *name, const struct plan_file *f, const uint8_t *turns, size_t turns_length, const size_t told[4],
                    uint32_t wanted) {
    uint8_t memory[MEMORY];
    memset(memory, 3, MEMORY);
    refused_from(name, f, turns, turns_length, told, wanted, memory);
}

/* 11 comes before 12, 12 before the file's refusals, and these before 13. */
static void refusals(struct plan_file *f) {
    static const size_t right[4] = {MEMORY, LOG, REPORT, WORK};
    uint8_t *turns = fresh(TURNS, 0);
    struct plan_file broken;
    unsigned k;
    race(f);
    race(&broken);
    plan_unmark(&broken, 3);
    for (k = 0; k < 4; k++) {
        size_t told[4] = {MEMORY, LOG, REPORT, WORK};
        told[k]--;
        refused("11, one byte less", &broken, turns, TURNS, told, 11);
        told[k] = 0;
        refused("11, no byte", f, turns, 4, told, 11);
    }
    refused("12 before the file", &broken, turns, TURNS, right, 12);
    turns[TAMPERMAUVE_TURNS_LIMIT - 1u] = 2;
    refused("the file before 13", &broken, turns, TAMPERMAUVE_TURNS_LIMIT, right, 2u + 256u * 3u);
    refused("13, the last turn", f, turns, TAMPERMAUVE_TURNS_LIMIT, right, 13);
    turns[0] = 255;
    refused("13, the first turn", f, turns, 1, right, 13);
    free(turns);
}

/* A report of another length is refused with 11, the 16 bytes that it had before it had a sum included. */
static void report_refusals(struct plan_file *f) {
    static const size_t lengths[] = {0, 15, 16, 19, 21};
    size_t k;
    race(f);
    for (k = 0; k < sizeof lengths / sizeof *lengths; k++) {
        struct lent l = lend(90), before = lend(90);
        uint8_t *report = fresh(lengths[k] + 1u, 91), *kept = fresh(lengths[k] + 1u, 91);
        returns("11, a report of another length",
                tampermauve_run(f->bytes, f->length, alone, 4, l.memory, MEMORY, l.log, LOG, report, lengths[k], l.work, WORK), 11);
        same("11, a report of another length", "memory", l.memory, before.memory, MEMORY);
        same("11, a report of another length", "log", l.log, before.log, LOG);
        same("11, a report of another length", "report", report, kept, lengths[k] + 1u);
        same("11, a report of another length", "work", l.work, before.work, WORK);
        take_back(&l);
        take_back(&before);
        free(report);
        free(kept);
    }
}

/* A sleep record of worker 0 is refused where the file is: behind 11 and 12, before 13. A turn that names a sleeper is none of 13. */
static void sleep_refusals(struct plan_file *f) {
    static const size_t right[4] = {MEMORY, LOG, REPORT, WORK}, wrong[4] = {MEMORY, LOG, REPORT, WORK - 1};
    static const uint8_t turns[2] = {1, 2};
    plan_begin(f, 2);
    plan_sleep(f, 0);
    refused("11 before 14", f, turns, 2, wrong, 11);
    refused("14 before 13", f, turns, 2, right, 14u + 256u);
    plan_begin(f, 2);
    plan_sleep(f, 1);
    refused("13 behind a sleeper's turn", f, turns, 2, right, 13);
}

/* Whatever unnamed bytes hold, the refusal is the same, and they stay. */
static void unnamed_refusals(struct plan_file *f) {
    static const size_t right[4] = {MEMORY, LOG, REPORT, WORK}, wrong[4] = {MEMORY, LOG, REPORT - 4, WORK};
    static const uint8_t turns[3] = {0, 1, 2};
    uint8_t memory[MEMORY];
    unsigned kind;
    for (kind = 0; kind < KINDS; kind++) {
        fill_unnamed(memory, kind);
        race(f);
        refused_from("11 from any memory", f, turns, 2, wrong, 11, memory);
        refused_from("13 from any memory", f, turns, 3, right, 13, memory);
        plan_unmark(f, 5);
        refused_from("2 from any memory", f, turns, 2, right, 2u + 256u * 5u, memory);
    }
}

static int names_a_step(unsigned op) {
    size_t k;
    for (k = 0; k < sizeof points / sizeof *points; k++) {
        if (points[k].op == op) {
            return 1;
        }
    }
    return 0;
}

/* A byte that names no op of the table is never run, whether it would synchronise or not. Behind a step, ops 0, 1 and 2 are records
 * out of their place. */
static void nameless_refusals(struct plan_file *f) {
    static const size_t right[4] = {MEMORY, LOG, REPORT, WORK};
    unsigned op;
    for (op = 0; op < 256; op++) {
        if (!names_a_step(op)) {
            unsigned wanted = op == 0 ? 3 : op == 1 ? 4 : op == 2 ? 14 : 6;
            plan_begin(f, 2);
            plan_fill(f, 0, 1);
            plan_add(f, 0, op, 0, 1);
            refused("a step whose op is none", f, alone, 3, right, wanted + 256u * 2u);
        }
    }
}

int main(void) {
    static struct plan_file f;
    memory_cases(&f);
    token_cases(&f);
    sleeping_cases(&f);
    broadcast_cases(&f);
    lock_cases(&f);
    sum_cases(&f);
    point_cases(&f);
    unnamed_cases(&f);
    refusals(&f);
    report_refusals(&f);
    sleep_refusals(&f);
    unnamed_refusals(&f);
    nameless_refusals(&f);
    printf("run: %u checks, %u failures\n", checks, failures);
    return failures == 0 ? 0 : 1;
}
