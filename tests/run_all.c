/* tampermauve_run_all: many plans in one call. Every byte of every buffer is compared, and each call is made twice: once with each
 * buffer alone on the heap, so that valgrind sees an access outside of it, and once with guard bytes around each buffer. What is
 * expected is worked out by hand from document 01 and from requests Four, Five and Seven of document 02; only where forty plans are held
 * against forty calls of tampermauve_run it is what these leave. */
#include <stdio.h>
#include <stdlib.h>
#include <string.h>

#include "plan_file.h"

static unsigned checks = 0;
static unsigned failures = 0;

enum {
    MEMORY = TAMPERMAUVE_MEMORY_LENGTH,
    LOG = TAMPERMAUVE_LOG_LENGTH,
    REPORT = TAMPERMAUVE_REPORT_LENGTH,
    WORK = TAMPERMAUVE_WORK_LENGTH,
    PLANS = TAMPERMAUVE_PLANS_LIMIT,
    ROOM = (PLANS + 1) * LOG + 1, /* the longest buffer of one plan too many, and a byte */
    GUARD = 32,
    GUARD_BYTE = 0x5C,
    LENT = 0xA5 /* what work holds before a call */
};

/* The buffers of a call, in its order. */
enum { FILES, LENGTHS, MEMORIES, LOGS, REPORTS, ANSWERS, WORKING, BUFFERS };

static const char *const names[BUFFERS] = {"files", "lengths", "memories", "logs", "reports", "answers", "work"};

/* A call: the count and the lengths that it is told, the bytes that it is handed and those that it must leave. */
struct batch {
    size_t count, told[BUFFERS], length[BUFFERS];
    uint8_t before[BUFFERS][ROOM], after[BUFFERS][ROOM];
};

static struct batch b;

/* round, worker, op, number, outcome */
struct entry {
    unsigned round, worker, op, number, outcome;
};

struct expected {
    unsigned word; /* at address 0 in the end; the rest of memory stays */
    unsigned end, workers, moves, rounds, records;
    struct entry log[8];
    unsigned fates[TAMPERMAUVE_WORKERS_LIMIT]; /* of the plan's workers */
};

static uint8_t *room(size_t length) {
    uint8_t *bytes = malloc(length == 0 ? 1 : length);
    if (bytes == NULL) {
        fprintf(stderr, "no memory\n");
        exit(2);
    }
    return bytes;
}

/* ---- one call */

static void same(const char *name, const char *what, const uint8_t *got, const uint8_t *wanted, size_t length) {
    size_t i;
    checks++;
    for (i = 0; i < length; i++) {
        if (got[i] != wanted[i]) {
            printf("FAILED: %s: %s: byte %lu is %u, expected %u\n", name, what, (unsigned long)i, got[i], wanted[i]);
            failures++;
            return;
        }
    }
}

static void returns(const char *name, uint32_t got, uint32_t wanted) {
    checks++;
    if (got != wanted) {
        printf("FAILED: %s: returned %lu, expected %lu\n", name, (unsigned long)got, (unsigned long)wanted);
        failures++;
    }
}

static uint32_t hand_in(uint8_t *const at[BUFFERS]) {
    const size_t *told = b.told;
    return tampermauve_run_all(b.count, at[FILES], told[FILES], at[LENGTHS], told[LENGTHS], at[MEMORIES], told[MEMORIES], at[LOGS],
                               told[LOGS], at[REPORTS], told[REPORTS], at[ANSWERS], told[ANSWERS], at[WORKING], told[WORKING]);
}

/* The call with so many guard bytes before and behind each buffer. */
static void call_guarded(const char *name, uint32_t wanted, size_t guard) {
    static uint8_t guards[GUARD];
    uint8_t *blocks[BUFFERS], *at[BUFFERS];
    unsigned k;
    memset(guards, GUARD_BYTE, sizeof guards);
    for (k = 0; k < BUFFERS; k++) {
        blocks[k] = room(b.length[k] + 2u * guard);
        at[k] = blocks[k] + guard;
        memset(blocks[k], GUARD_BYTE, b.length[k] + 2u * guard);
        memcpy(at[k], b.before[k], b.length[k]);
    }
    returns(name, hand_in(at), wanted);
    for (k = 0; k < BUFFERS; k++) {
        same(name, names[k], at[k], wanted == 0 ? b.after[k] : b.before[k], b.length[k]);
        same(name, "the bytes before a buffer", blocks[k], guards, guard);
        same(name, "the bytes behind a buffer", at[k] + b.length[k], guards, guard);
        free(blocks[k]);
    }
}

/* A refused call leaves all as it was. */
static void call(const char *name, uint32_t wanted) {
    call_guarded(name, wanted, 0);
    call_guarded(name, wanted, GUARD);
}

/* ---- what is handed in, and what must come of it */

static void begin(void) {
    b.count = 0;
    memset(b.told, 0, sizeof b.told);
    memset(b.length, 0, sizeof b.length);
    b.told[WORKING] = b.length[WORKING] = WORK;
    memset(b.before[WORKING], LENT, WORK);
    memset(b.after[WORKING], LENT, WORK);
}

/* The same bytes behind those of a buffer, before and after the call. */
static void append(unsigned buffer, const uint8_t *bytes, size_t length) {
    memcpy(b.before[buffer] + b.length[buffer], bytes, length);
    memcpy(b.after[buffer] + b.length[buffer], bytes, length);
    b.length[buffer] += length;
    b.told[buffer] = b.length[buffer];
}

static void append_filled(unsigned buffer, unsigned content, size_t length) {
    uint8_t *bytes = room(length);
    memset(bytes, (int)(content % 256u), length);
    append(buffer, bytes, length);
    free(bytes);
}

/* A plan more, with a word at address 0 of a memory that holds something everywhere; what log, report and answer hold before is
 * something else for each plan. All but the answer is to stay. */
static void add(const uint8_t *file, size_t length, unsigned start, unsigned refusal) {
    unsigned k = (unsigned)b.count;
    uint8_t number[TAMPERMAUVE_LENGTH_BYTES];
    append(FILES, file, length);
    tampermauve_put_length(number, 0, (uint32_t)length);
    append(LENGTHS, number, sizeof number);
    append_filled(MEMORIES, k + 3u, MEMORY);
    plan_word(b.before[MEMORIES] + k * MEMORY, start);
    plan_word(b.after[MEMORIES] + k * MEMORY, start);
    append_filled(LOGS, k + 100u, LOG);
    append_filled(REPORTS, k + 150u, REPORT);
    append_filled(ANSWERS, k + 200u, 1);
    b.after[ANSWERS][k] = (uint8_t)refusal;
    b.count++;
}

static void refused(const struct plan_file *f, unsigned refusal) {
    add(f->bytes, f->length, 999, refusal);
}

static void write_log(const struct expected *e, uint8_t *log) {
    unsigned k;
    memset(log, 0, LOG);
    for (k = 0; k < e->records; k++) {
        uint8_t *at = log + TAMPERMAUVE_ENTRY_LENGTH * k;
        plan_word(at + TAMPERMAUVE_ENTRY_MARK, TAMPERMAUVE_LOG_MARK);
        plan_word(at + TAMPERMAUVE_ENTRY_ROUND, e->log[k].round);
        at[TAMPERMAUVE_ENTRY_WORKER] = (uint8_t)e->log[k].worker;
        at[TAMPERMAUVE_ENTRY_OP] = (uint8_t)e->log[k].op;
        at[TAMPERMAUVE_ENTRY_NUMBER] = (uint8_t)e->log[k].number;
        at[TAMPERMAUVE_ENTRY_OUTCOME] = (uint8_t)e->log[k].outcome;
    }
}

static void write_report(const struct expected *e, const uint8_t *memory, uint8_t *report) {
    uint32_t sum = 0;
    unsigned k;
    for (k = 0; k < MEMORY; k += 2) {
        sum += tampermauve_word(memory, k);
    }
    report[TAMPERMAUVE_REPORT_END] = (uint8_t)e->end;
    report[TAMPERMAUVE_REPORT_WORKERS] = (uint8_t)e->workers;
    plan_word(report + TAMPERMAUVE_REPORT_MOVES, e->moves);
    plan_word(report + TAMPERMAUVE_REPORT_ROUNDS, e->rounds);
    plan_word(report + TAMPERMAUVE_REPORT_RECORDS, e->records);
    for (k = 0; k < TAMPERMAUVE_WORKERS_LIMIT; k++) {
        report[TAMPERMAUVE_REPORT_FATES + k] = (uint8_t)(k < e->workers ? e->fates[k] : TAMPERMAUVE_FATE_NO_WORKER);
    }
    plan_word(report + TAMPERMAUVE_REPORT_SUM, (unsigned)(sum % 65536u));
    plan_word(report + TAMPERMAUVE_REPORT_SUM + 2u, (unsigned)(sum / 65536u));
}

static void accepted(const struct plan_file *f, unsigned start, const struct expected *e) {
    size_t k = b.count;
    uint8_t *memory = b.after[MEMORIES] + k * MEMORY;
    add(f->bytes, f->length, start, 0);
    plan_word(memory, e->word);
    write_log(e, b.after[LOGS] + k * LOG);
    write_report(e, memory, b.after[REPORTS] + k * REPORT);
    memset(b.after[WORKING], 0, WORK);
}

/* ---- plans */

/* One worker adds 1 at 0: load, set, add, store, arrival, end. */
static void add_one(struct plan_file *f) {
    plan_begin(f, 1);
    plan_add(f, 0, TAMPERMAUVE_OP_LOAD, 0, 0);
    plan_add(f, 0, TAMPERMAUVE_OP_SET, 1, 1);
    plan_add(f, 0, TAMPERMAUVE_OP_ADD, 0, 1);
    plan_add(f, 0, TAMPERMAUVE_OP_STORE, 0, 0);
}

static struct expected added(unsigned word) {
    const struct expected e = {0, 1, 1, 6, 1, 1, {{1, 0, 38, 0, 255}}, {1}};
    struct expected wanted = e;
    wanted.word = word;
    return wanted;
}

/* One worker locks and waits: stuck. Arrival, lock, wait. */
static void waits(struct plan_file *f) {
    plan_begin(f, 1);
    plan_sync(f, 0, TAMPERMAUVE_OP_LOCK, 0);
    plan_sync(f, 0, TAMPERMAUVE_OP_WAIT, 0);
}

static const struct expected stuck = {999, 2, 1, 3, 1, 2, {{1, 0, 32, 0, 1}, {1, 0, 34, 0, 255}}, {3}};

/* A file for each refusal, at record 1 or behind it. */
static unsigned spoil(struct plan_file *f, unsigned which) {
    static const uint8_t refusals[] = {2, 3, 4, 5, 6, 7, 8, 9, 10, 14, 2};
    plan_begin(f, 2);
    plan_size(f, 0, 2);
    plan_fill(f, 0, 1);
    switch (refusals[which]) {
    case 2:
        plan_fill(f, 1, 3);
        plan_unmark(f, which == 0 ? 1 : 4);
        break;
    case 3:
        plan_add(f, 2, TAMPERMAUVE_OP_PLAN_RECORD, 0, 0);
        break;
    case 4:
        plan_size(f, 1, 2);
        break;
    case 5:
        plan_fill(f, 2, 1);
        break;
    case 6:
        plan_sync(f, 0, 255, 0);
        break;
    case 7:
        plan_add(f, 0, TAMPERMAUVE_OP_STORE, 0, 2047);
        break;
    case 8:
        plan_fill(f, 0, TAMPERMAUVE_STEPS_LIMIT);
        break;
    case 9:
        plan_sync(f, 1, TAMPERMAUVE_OP_BARRIER, 1);
        break;
    case 10:
        plan_add(f, 1, TAMPERMAUVE_OP_SKIP_ZERO, 0, 1);
        break;
    default:
        plan_sleep(f, 1);
    }
    return refusals[which];
}

enum { SPOILED = 11 };

/* ---- accepted plans */

/* All bytes by hand: one worker stores 12345, 0x3039, at 1000. Set, store, arrival, end. */
static void one_plan(struct plan_file *f) {
    static const uint8_t record[8] = {0x4D, 0x4C, 1, 0, 0, 38, 0, 255};
    static const uint8_t report[REPORT] = {1, 1, 4, 0, 1, 0, 1, 0, 1, 255, 255, 255, 255, 255, 255, 255, 0x39, 0x30, 0, 0};
    plan_begin(f, 1);
    plan_add(f, 0, TAMPERMAUVE_OP_SET, 0, 12345);
    plan_add(f, 0, TAMPERMAUVE_OP_STORE, 0, 1000);
    begin();
    add(f->bytes, f->length, 0, 0);
    memset(b.before[MEMORIES], 0, MEMORY);
    memset(b.after[MEMORIES], 0, MEMORY);
    b.after[MEMORIES][1000] = 0x39;
    b.after[MEMORIES][1001] = 0x30;
    memset(b.after[LOGS], 0, LOG);
    memcpy(b.after[LOGS], record, sizeof record);
    memcpy(b.after[REPORTS], report, sizeof report);
    memset(b.after[WORKING], 0, WORK);
    call("one plan", 0);
}

/* What logs, reports, answers and work hold before does not matter. */
static void old_contents(struct plan_file *f) {
    unsigned content, k;
    struct expected e = added(6);
    add_one(f);
    for (content = 0; content < 256; content += 51) {
        begin();
        accepted(f, 5, &e);
        accepted(f, 5, &e);
        for (k = LOGS; k < BUFFERS; k++) {
            memset(b.before[k], (int)content, b.length[k]);
        }
        call("old contents", 0);
    }
}

/* One file three times, each on its own memory. */
static void own_memories(struct plan_file *f) {
    static const unsigned starts[3] = {5, 300, 65535};
    unsigned k;
    add_one(f);
    begin();
    for (k = 0; k < 3; k++) {
        struct expected e = added((starts[k] + 1u) % 65536u);
        accepted(f, starts[k], &e);
    }
    call("each on its own memory", 0);
}

/* Case 4 of document 01: both lock, add 1 at 0, unlock. */
static void both_lock(struct plan_file *f) {
    unsigned w;
    plan_begin(f, 2);
    for (w = 0; w < 2; w++) {
        plan_sync(f, w, TAMPERMAUVE_OP_LOCK, 0);
        plan_add(f, w, TAMPERMAUVE_OP_LOAD, 0, 0);
        plan_add(f, w, TAMPERMAUVE_OP_SET, 1, 1);
        plan_add(f, w, TAMPERMAUVE_OP_ADD, 0, 1);
        plan_add(f, w, TAMPERMAUVE_OP_STORE, 0, 0);
        plan_sync(f, w, TAMPERMAUVE_OP_UNLOCK, 0);
    }
}

/* Case 9: worker 0 locks, waits and unlocks, worker 1 locks, wakes and unlocks; with a broadcast in place of the signal. */
static void woken(struct plan_file *f, unsigned op) {
    unsigned w;
    plan_begin(f, 2);
    for (w = 0; w < 2; w++) {
        plan_sync(f, w, TAMPERMAUVE_OP_LOCK, 0);
        plan_sync(f, w, w == 0 ? TAMPERMAUVE_OP_WAIT : op, 0);
        plan_sync(f, w, TAMPERMAUVE_OP_UNLOCK, 0);
    }
}

static void add_locks(struct plan_file *f) {
    static const struct expected locks = {1001, 1, 2, 18, 2, 6,
        {{1, 0, 32, 0, 1}, {1, 0, 33, 0, 0}, {1, 1, 32, 0, 1}, {1, 1, 33, 0, 0}, {2, 0, 38, 0, 255}, {2, 1, 38, 0, 255}}, {1, 1}};
    both_lock(f);
    accepted(f, 999, &locks);
}

static void add_woken(struct plan_file *f) {
    static const struct expected signalled = {999, 1, 2, 12, 2, 8,
        {{1, 0, 32, 0, 1}, {1, 0, 34, 0, 255}, {1, 1, 32, 0, 1}, {1, 1, 35, 0, 0}, {1, 1, 33, 0, 0}, {1, 0, 33, 0, 0},
         {2, 1, 38, 0, 255}, {2, 0, 38, 0, 255}}, {1, 1}};
    struct expected broadcast = signalled;
    broadcast.log[3].op = 36;
    broadcast.log[3].outcome = 1;
    woken(f, TAMPERMAUVE_OP_SIGNAL);
    accepted(f, 999, &signalled);
    woken(f, TAMPERMAUVE_OP_BROADCAST);
    accepted(f, 999, &broadcast);
}

/* A failure, and a wait that nobody ends. */
static void add_ends(struct plan_file *f) {
    static const struct expected fails = {999, 1, 1, 4, 1, 1, {{1, 0, 33, 0, 254}}, {2}};
    plan_begin(f, 1);
    plan_add(f, 0, TAMPERMAUVE_OP_SET, 0, 7);
    plan_add(f, 0, TAMPERMAUVE_OP_STORE, 0, 0);
    plan_sync(f, 0, TAMPERMAUVE_OP_UNLOCK, 0);
    accepted(f, 999, &fails);
    waits(f);
    accepted(f, 999, &stuck);
}

/* One worker takes a lock, stores 7 at 0 and makes another step, of a lock. */
static void lock_and_step(struct plan_file *f, unsigned op, unsigned lock) {
    plan_begin(f, 1);
    plan_sync(f, 0, TAMPERMAUVE_OP_LOCK, 3);
    plan_add(f, 0, TAMPERMAUVE_OP_SET, 0, 7);
    plan_add(f, 0, TAMPERMAUVE_OP_STORE, 0, 0);
    plan_sync(f, 0, op, lock);
}

/* The wrong one unlocked and one lock taken twice, which lose the 7: arrival, lock, set, store, failure. The lock stays with its
 * worker, and the plan behind has it free: arrival, lock, set, store, unlock; arrival, end. */
static void add_named_locks(struct plan_file *f) {
    static const struct expected wrong = {999, 1, 1, 5, 1, 2, {{1, 0, 32, 3, 1}, {1, 0, 33, 4, 254}}, {2}};
    static const struct expected twice = {999, 1, 1, 5, 1, 2, {{1, 0, 32, 3, 1}, {1, 0, 32, 3, 254}}, {2}};
    static const struct expected right = {7, 1, 1, 7, 2, 3, {{1, 0, 32, 3, 1}, {1, 0, 33, 3, 0}, {2, 0, 38, 0, 255}}, {1}};
    lock_and_step(f, TAMPERMAUVE_OP_UNLOCK, 4);
    accepted(f, 999, &wrong);
    lock_and_step(f, TAMPERMAUVE_OP_LOCK, 3);
    accepted(f, 999, &twice);
    lock_and_step(f, TAMPERMAUVE_OP_UNLOCK, 3);
    accepted(f, 999, &right);
}

/* Two locks given back as they were taken: arrival, four steps; arrival, end. */
static void add_two_locks(struct plan_file *f) {
    static const struct expected crosswise = {999, 1, 1, 7, 2, 5,
        {{1, 0, 32, 3, 1}, {1, 0, 32, 12, 2}, {1, 0, 33, 3, 1}, {1, 0, 33, 12, 0}, {2, 0, 38, 0, 255}}, {1}};
    plan_begin(f, 1);
    plan_sync(f, 0, TAMPERMAUVE_OP_LOCK, 3);
    plan_sync(f, 0, TAMPERMAUVE_OP_LOCK, 12);
    plan_sync(f, 0, TAMPERMAUVE_OP_UNLOCK, 3);
    plan_sync(f, 0, TAMPERMAUVE_OP_UNLOCK, 12);
    accepted(f, 999, &crosswise);
}

/* A barrier of two, with both and with one of them. */
static void add_barriers(struct plan_file *f) {
    static const struct expected met = {999, 1, 2, 8, 2, 4,
        {{1, 0, 37, 0, 0}, {1, 1, 37, 0, 2}, {2, 0, 38, 0, 255}, {2, 1, 38, 0, 255}}, {1, 1}};
    static const struct expected alone = {999, 2, 1, 2, 1, 1, {{1, 0, 37, 0, 0}}, {4}};
    plan_begin(f, 2);
    plan_size(f, 0, 2);
    plan_sync(f, 0, TAMPERMAUVE_OP_BARRIER, 0);
    plan_sync(f, 1, TAMPERMAUVE_OP_BARRIER, 0);
    accepted(f, 999, &met);
    plan_begin(f, 1);
    plan_size(f, 0, 2);
    plan_sync(f, 0, TAMPERMAUVE_OP_BARRIER, 0);
    accepted(f, 999, &alone);
}

/* Worker 0 starts worker 1: arrival, start, end; arrival, end. And a sleeper whom nobody starts. */
static void add_sleepers(struct plan_file *f) {
    static const struct expected started = {999, 1, 2, 5, 2, 3, {{1, 0, 39, 1, 1}, {1, 0, 38, 0, 255}, {2, 1, 38, 0, 255}}, {1, 1}};
    static const struct expected asleep = {999, 1, 2, 2, 1, 1, {{1, 0, 38, 0, 255}}, {1, 5}};
    plan_begin(f, 2);
    plan_sleep(f, 1);
    plan_sync(f, 0, TAMPERMAUVE_OP_START, 1);
    accepted(f, 999, &started);
    plan_begin(f, 2);
    plan_sleep(f, 1);
    accepted(f, 999, &asleep);
}

static void to_the_end(struct plan_file *f) {
    begin();
    add_locks(f);
    add_woken(f);
    add_ends(f);
    add_named_locks(f);
    add_two_locks(f);
    add_barriers(f);
    add_sleepers(f);
    call("each to its own end", 0);
}

/* Case 1: the race of two, from zero in both words. Its stores show in the second word too. */
static void race(struct plan_file *f) {
    static const struct expected raced = {1, 1, 2, 12, 1, 2, {{1, 0, 38, 0, 255}, {1, 1, 38, 0, 255}}, {1, 1}};
    unsigned w, k;
    plan_begin(f, 2);
    for (w = 0; w < 2; w++) {
        plan_add(f, w, TAMPERMAUVE_OP_LOAD, 0, w == 0 ? 2 : 0);
        plan_add(f, w, TAMPERMAUVE_OP_SKIP_NONZERO, 0, 2);
        plan_add(f, w, TAMPERMAUVE_OP_SET, 1, 1);
        plan_add(f, w, TAMPERMAUVE_OP_STORE, 1, w == 0 ? 0 : 2);
    }
    begin();
    for (k = 0; k < 2; k++) {
        accepted(f, 0, &raced);
        plan_word(b.before[MEMORIES] + k * MEMORY + 2u, 0);
        plan_word(b.after[MEMORIES] + k * MEMORY + 2u, 1);
        write_report(&raced, b.after[MEMORIES] + k * MEMORY, b.after[REPORTS] + k * REPORT);
    }
    call("the race, twice", 0);
}

/* Empty plans of one to eight workers: an arrival and an end each. */
static void counts_of_workers(struct plan_file *f) {
    unsigned n, w;
    begin();
    for (n = 1; n <= TAMPERMAUVE_WORKERS_LIMIT; n++) {
        struct expected e = {999, 1, 0, 0, 1, 0, {{0, 0, 0, 0, 0}}, {1, 1, 1, 1, 1, 1, 1, 1}};
        e.workers = n;
        e.moves = 2u * n;
        e.records = n;
        for (w = 0; w < n; w++) {
            const struct entry ended = {1, w, 38, 0, 255};
            e.log[w] = ended;
        }
        plan_begin(f, n);
        accepted(f, 999, &e);
    }
    call("one to eight workers", 0);
}

/* ---- refused plans */

/* Each refusal first, in the middle and last. The answer has no index, and the others are run as if it were not there. */
static void refused_among(struct plan_file *f) {
    static struct plan_file bad;
    unsigned which, place, k;
    struct expected e = added(300);
    add_one(f);
    for (which = 0; which < SPOILED; which++) {
        unsigned refusal = spoil(&bad, which);
        returns("a spoiled file", tampermauve_check(bad.bytes, bad.length) % 256u, refusal);
        returns("a spoiled file's index", tampermauve_check(bad.bytes, bad.length) > 255u, 1);
        for (place = 0; place < 3; place++) {
            begin();
            for (k = 0; k < 3; k++) {
                if (k == place) {
                    refused(&bad, refusal);
                } else {
                    accepted(f, 299, &e);
                }
            }
            call("a refused plan among others", 0);
        }
    }
}

/* Several refused ones, one behind the other, and one accepted between them. */
static void several_refused(struct plan_file *f) {
    static struct plan_file bad;
    unsigned which;
    struct expected e = added(1000);
    begin();
    for (which = 0; which < SPOILED; which++) {
        unsigned refusal = spoil(&bad, which);
        refused(&bad, refusal);
        if (which == 5) {
            add_one(f);
            accepted(f, 999, &e);
        }
    }
    call("many refused", 0);
}

/* Work is as it was lent where no plan is accepted. */
static void all_refused(void) {
    static struct plan_file bad;
    static const unsigned counts[] = {1, 2, 3, PLANS};
    unsigned k, which;
    for (k = 0; k < sizeof counts / sizeof *counts; k++) {
        begin();
        for (which = 0; which < counts[k]; which++) {
            unsigned refusal = spoil(&bad, which % SPOILED);
            refused(&bad, refusal);
        }
        call("all refused", 0);
    }
}

/* A length that no file may have is its plan's refusal, 1, and the next file begins behind so many bytes. */
static void lengths_of_files(struct plan_file *f) {
    static const unsigned lengths[] = {0, 1, 6, 8, 20, 7279, 7281, 7286, 7287, 7300};
    static uint8_t bytes[7300];
    unsigned k, place, at;
    struct expected e = added(8);
    add_one(f);
    memset(bytes, 0x4D, sizeof bytes);
    for (k = 0; k < sizeof lengths / sizeof *lengths; k++) {
        for (place = 0; place < 3; place++) {
            begin();
            for (at = 0; at < 3; at++) {
                if (at == place) {
                    add(bytes, lengths[k], 999, 1);
                } else {
                    accepted(f, 7, &e);
                }
            }
            call("a length that no file may have", 0);
        }
    }
}

/* Files without a byte: nothing is handed in but lengths of 0. */
static void empty_files(void) {
    static const uint8_t nothing[1] = {0};
    unsigned k;
    begin();
    for (k = 0; k < PLANS; k++) {
        add(nothing, 0, 999, 1);
    }
    call("no byte of a file", 0);
}

/* 7,280 bytes, between two small ones: one worker and 128 steps more for each of seven sleepers. 128 steps, arrival, end. */
static void longest_file(struct plan_file *f) {
    static struct plan_file small;
    static const struct expected longest = {999, 1, 8, 130, 1, 1, {{1, 0, 38, 0, 255}}, {1, 5, 5, 5, 5, 5, 5, 5}};
    unsigned k;
    plan_begin(f, TAMPERMAUVE_WORKERS_LIMIT);
    for (k = 0; k < TAMPERMAUVE_BARRIER_COUNT; k++) {
        plan_size(f, k, 1);
    }
    plan_sleepers(f, TAMPERMAUVE_WORKERS_LIMIT);
    for (k = 0; k < TAMPERMAUVE_WORKERS_LIMIT; k++) {
        plan_fill(f, k, TAMPERMAUVE_STEPS_LIMIT);
    }
    returns("the longest file", (uint32_t)f->length, 7280);
    waits(&small);
    begin();
    accepted(&small, 999, &stuck);
    accepted(f, 999, &longest);
    accepted(&small, 999, &stuck);
    call("the longest file between others", 0);
    plan_fill(f, 7, 1);
    begin();
    accepted(&small, 999, &stuck);
    refused(f, 1);
    accepted(&small, 999, &stuck);
    call("a record above the longest", 0);
}

/* ---- refused calls */

/* So many small plans, all accepted. */
static void small_plans(struct plan_file *f, unsigned count) {
    unsigned k;
    waits(f);
    begin();
    for (k = 0; k < count; k++) {
        accepted(f, 999, &stuck);
    }
}

/* A buffer gets so many bytes more or less, and the call is told so. */
static void resize(unsigned buffer, long by) {
    b.length[buffer] = (size_t)((long)b.length[buffer] + by);
    b.told[buffer] = b.length[buffer];
}

static void counts(struct plan_file *f) {
    small_plans(f, PLANS);
    call("40 plans", 0);
    small_plans(f, PLANS + 1);
    call("41 plans", 15);
    begin();
    call("no plan", 15);
    small_plans(f, 1);
    b.count = 0;
    call("count 0 with buffers for one", 15);
    small_plans(f, 2);
    b.count = 1;
    call("count 1 with buffers for two", 15);
    small_plans(f, 2);
    b.count = 3;
    call("count 3 with buffers for two", 15);
}

/* Counts that are one if their products wrap in size_t, or if they are cut to 32, 16 or 8 bits. The answers are told to be one or as
 * many; they are never so many. */
static void wrapping_counts(struct plan_file *f) {
    static const size_t wraps[] = {((size_t)1 << 62) + 1u, ((size_t)1 << 63) + 1u, ((size_t)1 << 32) + 1u, ((size_t)1 << 16) + 1u,
                                   257u, ((size_t)3 << 62) + 1u, ((size_t)1 << 60) + 1u, ((size_t)1 << 53) + 1u};
    size_t k;
    small_plans(f, 1);
    for (k = 0; k < sizeof wraps / sizeof *wraps; k++) {
        b.count = wraps[k];
        call("a count that is not one", 15);
        b.told[ANSWERS] = wraps[k];
        call("a count that is not one, and as many answers", 15);
        b.told[ANSWERS] = 1;
    }
    b.count = (size_t)-1;
    call("the greatest count", 15);
    b.told[WORKING] = 0;
    call("the greatest count, and no work", 11);
}

/* Each buffer one byte shorter, one longer, empty, and of one plan more or less. */
static void buffers(struct plan_file *f) {
    static const long units[] = {TAMPERMAUVE_LENGTH_BYTES, MEMORY, LOG, REPORT, 1};
    static const unsigned plans[] = {1, 2, PLANS};
    unsigned k, buffer;
    for (k = 0; k < 3; k++) {
        for (buffer = LENGTHS; buffer <= ANSWERS; buffer++) {
            const long unit = units[buffer - LENGTHS], changes[5] = {-1, 1, -unit, unit, -unit * (long)plans[k]};
            unsigned change;
            for (change = 0; change < 5; change++) {
                small_plans(f, plans[k]);
                resize(buffer, changes[change]);
                call("15, a buffer that is not the count times its unit", 15);
            }
        }
    }
}

/* A length that is right if it is cut to 16 or to 32 bits. Only what is told is so long. */
static void wide_buffers(struct plan_file *f) {
    static const unsigned bits[] = {16, 32};
    unsigned buffer, k;
    for (buffer = FILES; buffer < BUFFERS; buffer++) {
        for (k = 0; k < 2; k++) {
            small_plans(f, 2);
            b.told[buffer] += (size_t)1 << bits[k];
            call("a length that is right in its low bits", buffer == WORKING ? 11 : 15);
        }
    }
}

/* 11 comes first, for any length of work but its own. */
static void work_lengths(struct plan_file *f) {
    static const long changes[] = {-1, 1, -WORK, -16384, WORK};
    unsigned k;
    for (k = 0; k < sizeof changes / sizeof *changes; k++) {
        small_plans(f, 2);
        resize(WORKING, changes[k]);
        call("11", 11);
        b.count = 0;
        call("11 before 15, a count", 11);
        b.count = 2;
        resize(ANSWERS, 1);
        call("11 before 15, a buffer", 11);
        resize(ANSWERS, -1);
        resize(FILES, -1);
        call("11 before 15, lengths", 11);
    }
    plan_begin(f, 9);
    begin();
    refused(f, 3);
    resize(WORKING, -1);
    call("11 before a file", 11);
}

/* ---- lengths that do not add up */

static void set_length(unsigned plan, uint32_t length) {
    tampermauve_put_length(b.before[LENGTHS], plan, length);
    tampermauve_put_length(b.after[LENGTHS], plan, length);
}

/* Two plans of 21 bytes, and another sum. */
static void sums(struct plan_file *f) {
    static const uint32_t lengths[][2] = {{21, 20}, {21, 22}, {20, 21}, {22, 21}, {0, 21}, {21, 0}, {0, 0}, {42, 42}, {14, 21}, {21, 28},
        /* right modulo 2^32, 2^24, 2^16, 2^8 */
        {0x80000015, 0x80000015}, {0xFFFFFFFF, 43}, {43, 0xFFFFFFFF}, {0xFFFFFFEB, 63}, {0x01000015, 21}, {21, 0x01000015},
        {0x00010015, 21}, {21, 0x00010015}, {0x00000115, 21}, {21, 0x00000115}, {0xFFFFFFFF, 0xFFFFFFFF},
        /* the bytes the other way round */
        {0x15000000, 0x15000000}, {0x15000000, 21}, {0x00001500, 0x00001500}};
    size_t k;
    for (k = 0; k < sizeof lengths / sizeof *lengths; k++) {
        small_plans(f, 2);
        set_length(0, lengths[k][0]);
        set_length(1, lengths[k][1]);
        call("lengths that do not add up", 15);
    }
    for (k = 1; k <= 21; k += 10) {
        small_plans(f, 2);
        resize(FILES, (long)k);
        call("files longer than the lengths say", 15);
        small_plans(f, 2);
        resize(FILES, -(long)k);
        call("files shorter than the lengths say", 15);
    }
    small_plans(f, 2);
    resize(FILES, -42);
    call("no byte of the files", 15);
}

/* Forty lengths whose sum passes 2^32 by what the files have. */
static void sums_of_forty(struct plan_file *f) {
    unsigned k;
    small_plans(f, PLANS);
    for (k = 0; k < PLANS; k++) {
        set_length(k, k < 8 ? 21u + 0x20000000u : 21u);
    }
    call("forty lengths that add up modulo 2^32", 15);
    small_plans(f, PLANS);
    set_length(PLANS - 1, 22);
    call("forty lengths, the last one too great", 15);
    small_plans(f, PLANS);
    set_length(0, 20);
    call("forty lengths, the first one too small", 15);
}

/* Lengths that add up, but the first takes bytes of the second: the files are cut where the lengths say. */
static void shifted(struct plan_file *f) {
    small_plans(f, 2);
    memcpy(b.after, b.before, sizeof b.after);
    set_length(0, 22);
    set_length(1, 20);
    b.after[ANSWERS][0] = 1;
    b.after[ANSWERS][1] = 1;
    call("a byte too much and one too few", 0);
    /* 28 and 14: the first file is a plan with a second plan record behind it, the second one begins with its steps */
    set_length(0, 28);
    set_length(1, 14);
    b.after[ANSWERS][0] = 3;
    b.after[ANSWERS][1] = 3;
    call("a record too much and one too few", 0);
}

/* The sum may pass 2^32 if the files have as many bytes: each is refused by its length then, and none of its bytes is read. So many are
 * told, not lent. */
static void long_files(struct plan_file *f) {
    small_plans(f, 3);
    memcpy(b.after, b.before, sizeof b.after);
    set_length(0, 0x80000000);
    set_length(1, 0x80000000);
    set_length(2, 0xFFFFFFFF);
    b.told[FILES] = ((size_t)1 << 33) - 1u;
    memset(b.after[ANSWERS], 1, 3);
    call("files of more than 2^32 bytes", 0);
    b.told[FILES] += 1u;
    call("files of a byte more", 15);
}

/* ---- forty plans beside forty calls of tampermauve_run */

/* A plan of its own for each number, some of them refused. */
static void varied(struct plan_file *f, unsigned number) {
    unsigned n = 1u + number % TAMPERMAUVE_WORKERS_LIMIT, w, k;
    plan_begin(f, n);
    plan_size(f, 0, 1u + number % 3u);
    if (number % 5u == 4) {
        plan_sleepers(f, n);
        for (w = 1; w < n; w++) {
            plan_sync(f, 0, TAMPERMAUVE_OP_START, w);
        }
    }
    for (w = 0; w < n; w++) {
        for (k = 0; k < 1u + number % 4u; k++) {
            plan_add(f, w, TAMPERMAUVE_OP_LOAD, 0, 255u + 2u * number);
            plan_add(f, w, TAMPERMAUVE_OP_SET, 1, number + w + 1u);
            plan_add(f, w, k % 2u ? TAMPERMAUVE_OP_ADD : TAMPERMAUVE_OP_SUBTRACT, 0, 1);
            plan_add(f, w, TAMPERMAUVE_OP_STORE, 0, 255u + 2u * number + k);
            plan_sync(f, w, TAMPERMAUVE_OP_LOCK, k);
            plan_add(f, w, TAMPERMAUVE_OP_STORE, 1, 100u * w + 7u);
            plan_sync(f, w, number % 7u == 3 ? TAMPERMAUVE_OP_WAIT : TAMPERMAUVE_OP_BROADCAST, 0);
            plan_sync(f, w, TAMPERMAUVE_OP_UNLOCK, k);
            plan_sync(f, w, k % 2u ? TAMPERMAUVE_OP_SIGNAL : TAMPERMAUVE_OP_BARRIER, 0);
        }
    }
    if (number % 9u == 8) {
        plan_unmark(f, 1u + number % 6u);
    }
}

/* The turns of the listing program: 2 x (steps + n) cycles 0 .. n - 1. */
static size_t cycles(const struct plan_file *f, uint8_t *turns) {
    unsigned n = f->bytes[TAMPERMAUVE_RECORD_WORKER];
    size_t steps = 0, length = 0, at, cycle;
    for (at = 0; at < f->length; at += TAMPERMAUVE_RECORD_LENGTH) {
        steps += f->bytes[at + TAMPERMAUVE_RECORD_OP] >= TAMPERMAUVE_OP_SET;
    }
    for (cycle = 0; cycle < tampermauve_ending_cycles(steps, n); cycle++) {
        for (at = 0; at < n; at++) {
            turns[length++] = (uint8_t)at;
        }
    }
    return length;
}

/* A plan more, and what a call of tampermauve_run leaves of its part and of work. */
static void run_apart(const struct plan_file *f, unsigned start) {
    static uint8_t turns[TAMPERMAUVE_ENDING_TURNS];
    size_t k = b.count, length = cycles(f, turns);
    uint32_t returned;
    add(f->bytes, f->length, start, 0);
    returned = tampermauve_run(f->bytes, f->length, turns, length, b.after[MEMORIES] + k * MEMORY, MEMORY, b.after[LOGS] + k * LOG, LOG,
                               b.after[REPORTS] + k * REPORT, REPORT, b.after[WORKING], WORK);
    b.after[ANSWERS][k] = (uint8_t)tampermauve_refusal(returned);
}

static void forty(struct plan_file *f) {
    unsigned count, k;
    for (count = 1; count <= PLANS; count += count < 4 ? 1 : 12) {
        begin();
        for (k = 0; k < count; k++) {
            varied(f, count + k);
            run_apart(f, 37u * k);
        }
        call("as many calls of tampermauve_run", 0);
    }
}

/* ---- bytes nobody named */

/* Other bytes in each plan's memory but for the word at 0, the only one that these plans name; so the sum is another one. */
static void fill_unnamed(unsigned content) {
    size_t plan, at;
    for (plan = 0; plan < b.count; plan++) {
        uint8_t *before = b.before[MEMORIES] + plan * MEMORY, *after = b.after[MEMORIES] + plan * MEMORY;
        for (at = 2; at < MEMORY; at++) {
            before[at] = after[at] = (uint8_t)(content * (1u + at % 5u) + plan);
        }
    }
}

static void accept_again(unsigned plan, const struct expected *e) {
    write_report(e, b.after[MEMORIES] + plan * MEMORY, b.after[REPORTS] + plan * REPORT);
}

/* Plans that name the word at 0 or nothing, one of them refused, from memories that differ elsewhere: the same logs, answers and words. */
static void unnamed_bytes(struct plan_file *f) {
    static const struct expected lost = {999, 1, 1, 4, 1, 1, {{1, 0, 33, 0, 254}}, {2}};
    const struct expected one = added(300);
    unsigned content;
    for (content = 0; content < 256; content += 51) {
        begin();
        add_one(f);
        accepted(f, 299, &one);
        refused(f, spoil(f, 5));
        waits(f);
        accepted(f, 999, &stuck);
        plan_begin(f, 1);
        plan_add(f, 0, TAMPERMAUVE_OP_SET, 0, 7);
        plan_add(f, 0, TAMPERMAUVE_OP_STORE, 0, 0);
        plan_sync(f, 0, TAMPERMAUVE_OP_UNLOCK, 0);
        accepted(f, 999, &lost);
        fill_unnamed(content);
        accept_again(0, &one);
        accept_again(2, &stuck);
        accept_again(3, &lost);
        call("bytes nobody named", 0);
    }
}

/* ---- the header's help */

static void put_length(void) {
    static const uint8_t wanted[16] = {9, 9, 9, 9, 0x78, 0x56, 0x34, 0x12, 0x70, 0x1C, 0, 0, 9, 9, 9, 9};
    uint8_t got[16];
    memset(got, 9, sizeof got);
    tampermauve_put_length(got, 1, 0x12345678);
    tampermauve_put_length(got, 2, 7280);
    same("tampermauve_put_length", "lengths", got, wanted, sizeof got);
}

static void accepted_calls(struct plan_file *f) {
    one_plan(f);
    old_contents(f);
    own_memories(f);
    to_the_end(f);
    race(f);
    counts_of_workers(f);
    refused_among(f);
    several_refused(f);
    all_refused();
    lengths_of_files(f);
    empty_files();
    longest_file(f);
    unnamed_bytes(f);
}

static void refused_calls(struct plan_file *f) {
    counts(f);
    wrapping_counts(f);
    buffers(f);
    wide_buffers(f);
    work_lengths(f);
    sums(f);
    sums_of_forty(f);
    shifted(f);
    long_files(f);
}

int main(void) {
    static struct plan_file f;
    put_length();
    accepted_calls(&f);
    refused_calls(&f);
    forty(&f);
    printf("run_all: %u checks, %u failures\n", checks, failures);
    return failures == 0 ? 0 : 1;
}
