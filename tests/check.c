/* tampermauve_check on accepted and refused files of every number from 1 to 10, and of 14. The expected numbers are written from
 * document 01, "Plan file" and "Who can cause which refusal", as request One of document 02 amends them, and not from the code. */
#include <stdio.h>
#include <stdlib.h>
#include <string.h>

#include "plan_file.h"

static unsigned checks = 0;
static unsigned failures = 0;

/* Calls the check on bytes that stand alone on the heap, so that a read outside of them is seen by valgrind. */
static uint32_t call(const uint8_t *bytes, size_t length) {
    uint8_t *copy = malloc(length == 0 ? 1 : length);
    uint32_t returned;
    if (copy == NULL) {
        fprintf(stderr, "no memory\n");
        exit(2);
    }
    memcpy(copy, bytes, length);
    returned = tampermauve_check(copy, length);
    checks++;
    if (memcmp(copy, bytes, length) != 0) {
        printf("FAILED: a check changed the file\n");
        failures++;
    }
    free(copy);
    return returned;
}

static void expect_bytes(const char *what, const uint8_t *bytes, size_t length, unsigned refusal, unsigned index) {
    uint32_t returned = call(bytes, length);
    if (returned != (uint32_t)refusal + 256u * (uint32_t)index || tampermauve_refusal(returned) != refusal ||
        tampermauve_index(returned) != index) {
        printf("FAILED: %s: expected refusal %u at record %u, got refusal %lu at record %lu\n", what, refusal, index,
               (unsigned long)tampermauve_refusal(returned), (unsigned long)tampermauve_index(returned));
        failures++;
    }
}

static void refuses(const char *what, const struct plan_file *f, unsigned refusal, unsigned index) {
    expect_bytes(what, f->bytes, f->length, refusal, index);
}

static void accepts(const char *what, const struct plan_file *f) {
    refuses(what, f, 0, 0);
}

/* Case 1 of the paper. */
static void race(struct plan_file *f) {
    unsigned w;
    plan_begin(f, 2);
    for (w = 0; w < 2; w++) {
        plan_add(f, w, TAMPERMAUVE_OP_LOAD, 0, w == 0 ? 2 : 0);
        plan_add(f, w, TAMPERMAUVE_OP_SKIP_NONZERO, 0, 2);
        plan_add(f, w, TAMPERMAUVE_OP_SET, 1, 1);
        plan_add(f, w, TAMPERMAUVE_OP_STORE, 1, w == 0 ? 0 : 2);
    }
}

/* The plan record, eight barrier records, 128 steps for each of eight workers, and as many sleep records as a plan of n workers may
 * have. */
static void large(struct plan_file *f, unsigned n) {
    unsigned k;
    plan_begin(f, TAMPERMAUVE_WORKERS_LIMIT);
    for (k = 0; k < TAMPERMAUVE_BARRIER_COUNT; k++) {
        plan_size(f, k, k + 1);
    }
    plan_sleepers(f, n);
    for (k = 0; k < TAMPERMAUVE_WORKERS_LIMIT; k++) {
        plan_fill(f, k, TAMPERMAUVE_STEPS_LIMIT);
    }
}

/* With all seven sleep records: 1,040 records, the last at index 1,039. */
static void largest(struct plan_file *f) {
    large(f, TAMPERMAUVE_WORKERS_LIMIT);
}

static void accepted(void) {
    struct plan_file f;
    unsigned k;
    for (k = 1; k <= 8; k++) {
        plan_begin(&f, k);
        accepts("a plan record alone", &f);
    }
    race(&f);
    accepts("case 1", &f);
    plan_begin(&f, 3);
    plan_fill(&f, 1, 2);
    accepts("workers without steps", &f);
    plan_begin(&f, 1);
    for (k = 0; k < 8; k++) {
        plan_size(&f, k, 8);
    }
    plan_sync(&f, 0, TAMPERMAUVE_OP_BARRIER, 7);
    accepts("eight barriers, their sizes above n", &f);
    plan_begin(&f, 2);
    plan_size(&f, 2, 1);
    plan_size(&f, 5, 8);
    plan_sync(&f, 0, TAMPERMAUVE_OP_BARRIER, 5);
    plan_sync(&f, 1, TAMPERMAUVE_OP_BARRIER, 2);
    accepts("barriers 2 and 5 alone", &f);
    plan_begin(&f, 1);
    plan_size(&f, 3, 2);
    accepts("a size that no step uses", &f);
}

/* 1: "file length 0, not a multiple of 7, or above" 7,280 */
static void lengths(void) {
    struct plan_file f;
    size_t k;
    largest(&f);
    if (f.length != 7280) {
        printf("FAILED: the largest file has %lu bytes\n", (unsigned long)f.length);
        failures++;
    }
    accepts("7,280 bytes", &f);
    for (k = 0; k < f.length; k++) {
        if (k % 7 != 0) {
            expect_bytes("not a multiple of 7", f.bytes, k, 1, 0);
        }
    }
    expect_bytes("no bytes", f.bytes, 0, 1, 0);
    plan_add(&f, 7, TAMPERMAUVE_OP_EXIT, 0, 0);
    for (k = 7281; k <= 7287; k++) {
        expect_bytes("above 7,280 bytes", f.bytes, k, 1, 0);
    }
    plan_unmark(&f, 0);
    refuses("7,287 bytes without a mark", &f, 1, 0);
    race(&f);
    plan_unmark(&f, 0);
    expect_bytes("a length before a mark", f.bytes, f.length - 1, 1, 0);
}

/* The limit of the files without sleepers, 7,231, is none any more: each sleep record makes such a file seven bytes longer. */
static void lengths_of_sleepers(void) {
    struct plan_file f;
    unsigned n;
    for (n = 1; n <= TAMPERMAUVE_WORKERS_LIMIT; n++) {
        large(&f, n);
        checks++;
        if (f.length != 7231u + 7u * (n - 1u)) {
            printf("FAILED: %u sleepers make %lu bytes\n", n - 1u, (unsigned long)f.length);
            failures++;
        }
        accepts("up to seven sleep records beside all else that a file may hold", &f);
    }
}

/* 2: "mark" */
static void marks(void) {
    struct plan_file f;
    unsigned k;
    for (k = 0; k < 9; k++) {
        race(&f);
        f.bytes[TAMPERMAUVE_RECORD_LENGTH * k] = 0x4C;
        refuses("first byte of a mark", &f, 2, k);
        race(&f);
        f.bytes[TAMPERMAUVE_RECORD_LENGTH * k + 1] = 0x4C;
        refuses("second byte of a mark", &f, 2, k);
        race(&f);
        f.bytes[TAMPERMAUVE_RECORD_LENGTH * k] = 0x50;
        f.bytes[TAMPERMAUVE_RECORD_LENGTH * k + 1] = 0x4D;
        refuses("a mark's bytes exchanged", &f, 2, k);
    }
    largest(&f);
    plan_unmark(&f, 1039);
    refuses("the mark of record 1,039", &f, 2, 1039);
    plan_begin(&f, 9);
    plan_unmark(&f, 0);
    refuses("2 before 3 in the first record", &f, 2, 0);
    plan_begin(&f, 1);
    plan_unmark(&f, plan_add(&f, 0, TAMPERMAUVE_OP_PLAN_RECORD, 0, 0));
    refuses("2 before 3 later", &f, 2, 1);
    plan_begin(&f, 1);
    plan_unmark(&f, plan_size(&f, 9, 9));
    refuses("2 before 4", &f, 2, 1);
    plan_begin(&f, 1);
    plan_unmark(&f, plan_sync(&f, 7, 99, 0));
    refuses("2 before 6 and 5", &f, 2, 1);
    plan_begin(&f, 1);
    plan_sync(&f, 0, 99, 0);
    plan_unmark(&f, plan_sync(&f, 0, TAMPERMAUVE_OP_EXIT, 0));
    refuses("an earlier record's 6 before a later one's 2", &f, 6, 1);
    plan_begin(&f, 1);
    plan_unmark(&f, plan_sync(&f, 0, TAMPERMAUVE_OP_EXIT, 0));
    plan_sync(&f, 0, 99, 0);
    refuses("an earlier record's 2 before a later one's 6", &f, 2, 1);
}

/* 3: "first record isn't a plan record within its limits, or op 0 later" */
static void plans(void) {
    struct plan_file f;
    unsigned k;
    plan_begin(&f, 8);
    accepts("n 8", &f);
    plan_begin(&f, 9);
    refuses("n 9", &f, 3, 0);
    plan_begin(&f, 0);
    refuses("n 0", &f, 3, 0);
    plan_begin(&f, 255);
    refuses("n 255", &f, 3, 0);
    for (k = 4; k < 7; k++) {
        plan_begin(&f, 1);
        f.bytes[k] = 1;
        refuses("a plan record with a register or a number", &f, 3, 0);
    }
    for (k = 1; k < 256; k++) {
        f.length = 0;
        plan_add(&f, 1, k, 0, 0);
        refuses("a first record of another op", &f, 3, 0);
    }
    plan_begin(&f, 1);
    plan_add(&f, 1, TAMPERMAUVE_OP_PLAN_RECORD, 0, 0);
    refuses("a second plan record", &f, 3, 1);
    plan_begin(&f, 1);
    plan_size(&f, 0, 1);
    plan_add(&f, 1, TAMPERMAUVE_OP_PLAN_RECORD, 0, 0);
    refuses("a plan record behind a barrier record", &f, 3, 2);
    race(&f);
    k = plan_add(&f, 200, TAMPERMAUVE_OP_PLAN_RECORD, 200, 60000);
    refuses("op 0 behind the steps", &f, 3, k);
}

/* 4: "barrier record out of order, after a step, or with any field out of range" */
static void barriers(void) {
    struct plan_file f;
    unsigned k;
    plan_begin(&f, 1);
    plan_size(&f, 1, 1);
    plan_size(&f, 0, 1);
    refuses("barriers 1, 0", &f, 4, 2);
    plan_begin(&f, 1);
    plan_size(&f, 4, 1);
    plan_size(&f, 4, 1);
    refuses("a second record of a barrier", &f, 4, 2);
    plan_begin(&f, 1);
    plan_size(&f, 0, 1);
    plan_size(&f, 5, 1);
    plan_size(&f, 3, 1);
    refuses("barriers 0, 5, 3", &f, 4, 3);
    plan_begin(&f, 1);
    plan_size(&f, 0, 1);
    plan_size(&f, 7, 1);
    plan_size(&f, 0, 1);
    refuses("barriers 0, 7, 0", &f, 4, 3);
    plan_begin(&f, 1);
    plan_sync(&f, 0, TAMPERMAUVE_OP_EXIT, 0);
    plan_size(&f, 0, 1);
    refuses("a barrier record after a step", &f, 4, 2);
    plan_begin(&f, 1);
    plan_size(&f, 0, 1);
    plan_sync(&f, 0, TAMPERMAUVE_OP_EXIT, 0);
    plan_size(&f, 1, 1);
    refuses("an ascending barrier record after a step", &f, 4, 3);
    for (k = 1; k < 256; k++) {
        plan_begin(&f, 8);
        plan_add(&f, k, TAMPERMAUVE_OP_BARRIER_RECORD, 0, 1);
        refuses("the worker byte of a barrier record", &f, 4, 1);
    }
    for (k = 0; k < 256; k++) {
        plan_begin(&f, 1);
        plan_size(&f, k, 1);
        refuses("a barrier's number", &f, k < 8 ? 0 : 4, k < 8 ? 0 : 1);
    }
    for (k = 0; k < 300; k++) {
        plan_begin(&f, 1);
        plan_size(&f, 0, k);
        refuses("a barrier's size", &f, k >= 1 && k <= 8 ? 0 : 4, k >= 1 && k <= 8 ? 0 : 1);
    }
    plan_begin(&f, 1);
    plan_size(&f, 0, 65535);
    refuses("a barrier's size 65,535", &f, 4, 1);
}

/* 14: "a sleep record for worker 0 or one not below n", each worker byte in each plan */
static void sleeping_workers(void) {
    struct plan_file f;
    unsigned k;
    for (k = 0; k < 8u * 256u; k++) {
        unsigned n = 1u + k / 256u, worker = k % 256u;
        int sleeps = worker >= 1u && worker < n;
        plan_begin(&f, n);
        plan_sleep(&f, worker);
        refuses("the worker of a sleep record", &f, sleeps ? 0 : 14, sleeps ? 0 : 1);
    }
}

/* 14: "with other bytes not zero": register, low and high byte of the number */
static void sleeping_bytes(void) {
    struct plan_file f;
    unsigned k;
    for (k = 1; k < 256; k++) {
        plan_begin(&f, 8);
        plan_add(&f, 3, TAMPERMAUVE_OP_SLEEP_RECORD, k, 0);
        refuses("the register of a sleep record", &f, 14, 1);
        plan_begin(&f, 8);
        plan_add(&f, 3, TAMPERMAUVE_OP_SLEEP_RECORD, 0, k);
        refuses("the number of a sleep record", &f, 14, 1);
        plan_begin(&f, 8);
        plan_add(&f, 3, TAMPERMAUVE_OP_SLEEP_RECORD, 0, 256u * k);
        refuses("the high byte of a sleep record's number", &f, 14, 1);
    }
}

/* So many sleep records in a plan of eight workers. */
static void expect_sleepers(const char *what, const unsigned *workers, unsigned count, unsigned refusal, unsigned index) {
    struct plan_file f;
    unsigned k;
    plan_begin(&f, 8);
    for (k = 0; k < count; k++) {
        plan_sleep(&f, workers[k]);
    }
    refuses(what, &f, refusal, index);
}

/* 14: "out of order", a worker's second record included: "at most one per worker, ascending" */
static void sleeping_order(void) {
    static const unsigned all[8] = {1, 2, 3, 4, 5, 6, 7, 7}, some[3] = {1, 4, 7}, zero_first[2] = {0, 1}, zero_last[2] = {1, 0};
    static const unsigned falling[2] = {2, 1}, twice[2] = {3, 3}, back[3] = {1, 2, 1}, last_falls[3] = {1, 7, 6};
    static const unsigned eighth[8] = {1, 2, 3, 4, 5, 6, 7, 8}, eighth_zero[8] = {1, 2, 3, 4, 5, 6, 7, 0};
    expect_sleepers("seven sleepers", all, 7, 0, 0);
    expect_sleepers("sleepers 1, 4, 7", some, 3, 0, 0);
    expect_sleepers("sleepers 2, 1", falling, 2, 14, 2);
    expect_sleepers("a second record of sleeper 3", twice, 2, 14, 2);
    expect_sleepers("sleepers 1, 2, 1", back, 3, 14, 3);
    expect_sleepers("sleepers 1, 7, 6", last_falls, 3, 14, 3);
    expect_sleepers("a second record of sleeper 7", all, 8, 14, 8);
    expect_sleepers("an eighth sleeper, 8", eighth, 8, 14, 8);
    expect_sleepers("an eighth sleeper, 0", eighth_zero, 8, 14, 8);
    expect_sleepers("sleeper 0 before another", zero_first, 2, 14, 1);
    expect_sleepers("sleeper 0 behind another", zero_last, 2, 14, 2);
}

/* 14: "out of .. place", which is behind a step; "a barrier record behind a sleep record is 4" */
static void sleeping_place(void) {
    struct plan_file f;
    plan_begin(&f, 3);
    plan_size(&f, 2, 1);
    plan_size(&f, 5, 1);
    plan_sleep(&f, 1);
    plan_sleep(&f, 2);
    plan_fill(&f, 0, 1);
    plan_fill(&f, 2, 1);
    accepts("barrier records, sleep records, steps; sleeper 1 without any", &f);
    plan_sleep(&f, 2);
    refuses("a sleep record at the end of the steps", &f, 14, 7);
    plan_begin(&f, 3);
    plan_fill(&f, 0, 1);
    plan_sleep(&f, 1);
    refuses("a sleep record after a step", &f, 14, 2);
    plan_begin(&f, 3);
    plan_sleep(&f, 1);
    plan_fill(&f, 0, 1);
    plan_sleep(&f, 2);
    refuses("an ascending sleep record after a step", &f, 14, 3);
    plan_begin(&f, 3);
    plan_fill(&f, 2, 1);
    plan_sleep(&f, 1);
    refuses("a sleep record after the first step, which is not worker 0's", &f, 14, 2);
}

static void barriers_behind_sleepers(void) {
    struct plan_file f;
    plan_begin(&f, 3);
    plan_sleep(&f, 1);
    plan_size(&f, 0, 1);
    refuses("a barrier record behind a sleep record", &f, 4, 2);
    plan_sleep(&f, 2);
    refuses("a sleep record behind a barrier record that is refused", &f, 4, 2);
    plan_begin(&f, 3);
    plan_size(&f, 0, 1);
    plan_sleep(&f, 2);
    plan_size(&f, 1, 1);
    refuses("an ascending barrier record behind a sleep record", &f, 4, 3);
    plan_begin(&f, 3);
    plan_sleep(&f, 2);
    plan_fill(&f, 0, 1);
    plan_size(&f, 1, 1);
    refuses("a barrier record behind a sleep record and a step", &f, 4, 3);
    plan_begin(&f, 3);
    plan_sleep(&f, 0);
    plan_size(&f, 1, 1);
    refuses("a barrier record behind a sleep record that is refused", &f, 14, 1);
    plan_begin(&f, 3);
    plan_sleep(&f, 2);
    plan_add(&f, 3, TAMPERMAUVE_OP_PLAN_RECORD, 0, 0);
    refuses("a plan record behind a sleep record", &f, 3, 2);
}

/* 14 "is tested where 4 is": behind 2 and 3, before 6, 5, 8, 7 and 9. Behind the first record, a marked one with op 2 is refused
 * by 14 alone. */
static void sleeping_tests(void) {
    struct plan_file f;
    plan_begin(&f, 2);
    plan_unmark(&f, plan_sleep(&f, 0));
    refuses("2 before 14", &f, 2, 1);
    f.length = 0;
    plan_sleep(&f, 1);
    refuses("3 before 14 in the first record", &f, 3, 0);
    plan_begin(&f, 2);
    plan_add(&f, 200, TAMPERMAUVE_OP_SLEEP_RECORD, 200, 60000);
    refuses("14 before 5 and 7", &f, 14, 1);
    plan_begin(&f, 2);
    plan_fill(&f, 1, 128);
    plan_sleep(&f, 1);
    refuses("14 before 8", &f, 14, 129);
    plan_begin(&f, 2);
    plan_sync(&f, 1, 99, 0);
    plan_sleep(&f, 0);
    refuses("an earlier record's 6 before a later one's 14", &f, 6, 1);
    plan_begin(&f, 2);
    plan_sleep(&f, 0);
    plan_sync(&f, 1, 99, 0);
    refuses("an earlier record's 14 before a later one's 6", &f, 14, 1);
    plan_begin(&f, 2);
    plan_sleep(&f, 1);
    plan_sync(&f, 0, TAMPERMAUVE_OP_BARRIER, 0);
    plan_sleep(&f, 1);
    refuses("an earlier record's 9 before a later one's 14", &f, 9, 2);
    plan_begin(&f, 2);
    plan_add(&f, 0, TAMPERMAUVE_OP_SKIP_ZERO, 0, 127);
    plan_sleep(&f, 1);
    refuses("14 before 10", &f, 14, 2);
}

/* The first and the last record that can be 14, and the last sleep record, in the largest file. */
static void sleeping_indices(void) {
    struct plan_file f;
    largest(&f);
    f.bytes[TAMPERMAUVE_RECORD_LENGTH * 9u + TAMPERMAUVE_RECORD_WORKER] = 0;
    refuses("14 in record 9", &f, 14, 9);
    largest(&f);
    f.bytes[TAMPERMAUVE_RECORD_LENGTH * 15u + TAMPERMAUVE_RECORD_WORKER] = 8;
    refuses("14 in record 15", &f, 14, 15);
    largest(&f);
    f.bytes[TAMPERMAUVE_RECORD_LENGTH * 15u + TAMPERMAUVE_RECORD_WORKER] = 6;
    refuses("14 in record 15, a repeated sleeper", &f, 14, 15);
    largest(&f);
    f.length -= TAMPERMAUVE_RECORD_LENGTH;
    plan_sleep(&f, 7);
    refuses("14 in record 1,039", &f, 14, 1039);
}

/* the table: op, largest register, smallest and largest number; of a start in a plan of eight workers */
enum { ROWS = 15 };
static const unsigned table[ROWS][4] = {
    {16, 3, 0, 65535}, {17, 3, 0, 2046}, {18, 3, 0, 2046}, {19, 3, 0, 3}, {20, 3, 0, 3}, {21, 3, 1, 127}, {22, 3, 1, 127},
    {32, 0, 0, 15},    {33, 0, 0, 15},   {34, 0, 0, 7},    {35, 0, 0, 7}, {36, 0, 0, 7}, {37, 0, 0, 7},   {38, 0, 0, 0},
    {39, 0, 0, 7}};

static int known(unsigned op) {
    unsigned k;
    for (k = 0; k < ROWS; k++) {
        if (table[k][0] == op) {
            return 1;
        }
    }
    return 0;
}

/* A step behind the sizes of all barriers, with enough steps behind it for any skip. */
static void expect_operand(unsigned row, unsigned reg, unsigned number) {
    struct plan_file f;
    unsigned b;
    int in_range = reg <= table[row][1] && number >= table[row][2] && number <= table[row][3];
    plan_begin(&f, 8);
    for (b = 0; b < 8; b++) {
        plan_size(&f, b, 1);
    }
    plan_add(&f, 0, table[row][0], reg, number);
    plan_fill(&f, 0, 127);
    refuses("an operand", &f, in_range ? 0 : 7, in_range ? 0 : 9);
}

/* 6: "unknown op"; 7: "operand out of range" */
static void steps(void) {
    struct plan_file f;
    unsigned k, r, op;
    for (op = 3; op < 256; op++) {
        if (!known(op)) {
            plan_begin(&f, 1);
            plan_add(&f, 0, op, 0, 1);
            refuses("an unknown op", &f, 6, 1);
            plan_begin(&f, 1);
            plan_add(&f, 1, op, 200, 60000);
            refuses("6 before 5 and 7", &f, 6, 1);
        }
    }
    for (k = 0; k < ROWS; k++) {
        for (r = 0; r < 256; r++) {
            expect_operand(k, r, table[k][2]);
        }
        for (r = 0; r < 300; r++) {
            expect_operand(k, 0, r);
            expect_operand(k, 3, r);
        }
        expect_operand(k, 0, table[k][3]);
        if (table[k][3] < 65535) {
            expect_operand(k, 0, table[k][3] + 1);
        }
        expect_operand(k, 0, 65535);
        expect_operand(k, 0, 256 * table[k][2]);
    }
    plan_begin(&f, 1);
    plan_add(&f, 0, TAMPERMAUVE_OP_LOAD, 3, 2046);
    plan_add(&f, 0, TAMPERMAUVE_OP_STORE, 3, 2046);
    accepts("address 2,046", &f);
    plan_begin(&f, 1);
    plan_add(&f, 0, TAMPERMAUVE_OP_LOAD, 0, 2047);
    refuses("load at 2,047", &f, 7, 1);
    plan_begin(&f, 1);
    plan_add(&f, 0, TAMPERMAUVE_OP_STORE, 0, 2047);
    refuses("store at 2,047", &f, 7, 1);
}

/* Each byte as the op of a step behind another. What no step is named by is 6, but ops 0, 1 and 2 are records out of their place: 3
 * "op 0 later", 4 "after a step", 14 "out of .. place". */
static void ops_behind_a_step(void) {
    struct plan_file f;
    unsigned op;
    for (op = 0; op < 256; op++) {
        unsigned refusal = known(op) ? 0 : op == 0 ? 3 : op == 1 ? 4 : op == 2 ? 14 : 6;
        plan_begin(&f, 2);
        plan_size(&f, 0, 1);
        plan_fill(&f, 0, 1);
        plan_add(&f, 0, op, 0, op == TAMPERMAUVE_OP_SKIP_ZERO || op == TAMPERMAUVE_OP_SKIP_NONZERO);
        plan_fill(&f, 0, 1);
        refuses("an op behind a step", &f, refusal, refusal == 0 ? 0 : 3);
    }
}

/* Op 39 has "a worker below n as number"; any other number is 7 */
static void starts(void) {
    struct plan_file f;
    unsigned k;
    for (k = 0; k < 8u * 300u; k++) {
        unsigned n = 1u + k / 300u, started = k % 300u;
        plan_begin(&f, n);
        plan_sync(&f, n - 1u, TAMPERMAUVE_OP_START, started);
        refuses("a start of a worker", &f, started < n ? 0 : 7, started < n ? 0 : 1);
    }
}

/* .. and "register 0"; the high byte of its number is 0, as n is at most 8 */
static void start_bytes(void) {
    struct plan_file f;
    unsigned k;
    for (k = 0; k < 256; k++) {
        plan_begin(&f, 2);
        plan_sleep(&f, 1);
        plan_add(&f, 0, TAMPERMAUVE_OP_START, k, 1);
        refuses("the register of a start", &f, k == 0 ? 0 : 7, k == 0 ? 0 : 2);
        plan_begin(&f, 2);
        plan_sleep(&f, 1);
        plan_sync(&f, 0, TAMPERMAUVE_OP_START, 1u + 256u * k);
        refuses("the high byte of a start's number", &f, k == 0 ? 0 : 7, k == 0 ? 0 : 2);
    }
}

/* A start beside the other tests of a step. */
static void start_tests(void) {
    struct plan_file f;
    plan_begin(&f, 2);
    plan_sync(&f, 2, TAMPERMAUVE_OP_START, 2);
    refuses("5 before 7 of a start", &f, 5, 1);
    plan_begin(&f, 2);
    plan_fill(&f, 0, 127);
    plan_sync(&f, 0, TAMPERMAUVE_OP_START, 1);
    accepts("a start as the 128th step", &f);
    plan_sync(&f, 0, TAMPERMAUVE_OP_START, 2);
    refuses("8 before 7 of a start", &f, 8, 129);
    plan_begin(&f, 2);
    plan_add(&f, 0, TAMPERMAUVE_OP_SKIP_ZERO, 0, 127);
    plan_sync(&f, 0, TAMPERMAUVE_OP_START, 2);
    refuses("7 of a start before 10", &f, 7, 2);
    plan_begin(&f, 2);
    plan_sync(&f, 0, TAMPERMAUVE_OP_START, 2);
    plan_sync(&f, 0, TAMPERMAUVE_OP_BARRIER, 0);
    refuses("an earlier record's 7 of a start before a later one's 9", &f, 7, 1);
    plan_begin(&f, 2);
    plan_add(&f, 0, TAMPERMAUVE_OP_SKIP_ZERO, 0, 1);
    plan_sync(&f, 0, TAMPERMAUVE_OP_START, 0);
    plan_sync(&f, 1, TAMPERMAUVE_OP_START, 1);
    accepts("a skip over a start; starts of oneself, nobody being asleep", &f);
}

/* 5: "step's worker not below n, or falling"; 8: "a worker's 129th step"; 9: "barrier without a size" */
static void order(void) {
    struct plan_file f;
    unsigned k;
    for (k = 0; k < 256; k++) {
        plan_begin(&f, 3);
        plan_sync(&f, k, TAMPERMAUVE_OP_EXIT, 0);
        refuses("a step's worker, n being 3", &f, k < 3 ? 0 : 5, k < 3 ? 0 : 1);
    }
    plan_begin(&f, 8);
    plan_sync(&f, 8, TAMPERMAUVE_OP_EXIT, 0);
    refuses("worker 8 of 8", &f, 5, 1);
    plan_begin(&f, 3);
    plan_sync(&f, 0, TAMPERMAUVE_OP_EXIT, 0);
    plan_sync(&f, 2, TAMPERMAUVE_OP_EXIT, 0);
    plan_sync(&f, 1, TAMPERMAUVE_OP_EXIT, 0);
    refuses("workers 0, 2, 1", &f, 5, 3);
    plan_begin(&f, 3);
    plan_sync(&f, 1, TAMPERMAUVE_OP_EXIT, 0);
    plan_sync(&f, 0, TAMPERMAUVE_OP_EXIT, 0);
    refuses("workers 1, 0", &f, 5, 2);

    plan_begin(&f, 1);
    plan_fill(&f, 0, 128);
    accepts("128 steps", &f);
    plan_fill(&f, 0, 1);
    refuses("the 129th step", &f, 8, 129);
    plan_begin(&f, 3);
    plan_size(&f, 0, 1);
    plan_fill(&f, 0, 128);
    plan_fill(&f, 2, 128);
    accepts("128 steps of workers 0 and 2", &f);
    plan_fill(&f, 2, 1);
    refuses("the 129th step of worker 2", &f, 8, 258);
    plan_begin(&f, 2);
    plan_fill(&f, 0, 129);
    plan_fill(&f, 1, 1);
    refuses("the 129th step with steps behind it", &f, 8, 129);

    plan_begin(&f, 2);
    plan_fill(&f, 0, 128);
    plan_sync(&f, 1, TAMPERMAUVE_OP_EXIT, 0);
    plan_sync(&f, 0, TAMPERMAUVE_OP_EXIT, 0);
    refuses("5 before 8", &f, 5, 130);
    plan_begin(&f, 1);
    plan_add(&f, 1, TAMPERMAUVE_OP_LOAD, 9, 9999);
    refuses("5 before 7", &f, 5, 1);
    plan_begin(&f, 1);
    plan_fill(&f, 0, 128);
    plan_add(&f, 0, TAMPERMAUVE_OP_LOAD, 9, 9999);
    refuses("8 before 7", &f, 8, 129);
    plan_begin(&f, 1);
    plan_fill(&f, 0, 128);
    plan_sync(&f, 0, TAMPERMAUVE_OP_BARRIER, 0);
    refuses("8 before 9", &f, 8, 129);
    plan_begin(&f, 1);
    plan_fill(&f, 0, 128);
    plan_add(&f, 0, 99, 0, 0);
    refuses("6 before 8", &f, 6, 129);

    for (k = 0; k < 8; k++) {
        unsigned b;
        plan_begin(&f, 1);
        plan_sync(&f, 0, TAMPERMAUVE_OP_BARRIER, k);
        refuses("a barrier without any size", &f, 9, 1);
        plan_begin(&f, 1);
        for (b = 0; b < 8; b++) {
            if (b != k) {
                plan_size(&f, b, 1);
            }
        }
        plan_sync(&f, 0, TAMPERMAUVE_OP_BARRIER, k);
        refuses("a barrier without its size", &f, 9, 8);
    }
    plan_begin(&f, 1);
    plan_sync(&f, 0, TAMPERMAUVE_OP_BARRIER, 8);
    refuses("7 before 9: the number", &f, 7, 1);
    plan_begin(&f, 1);
    plan_add(&f, 0, TAMPERMAUVE_OP_BARRIER, 1, 0);
    refuses("7 before 9: the register", &f, 7, 1);
    plan_begin(&f, 1);
    plan_sync(&f, 1, TAMPERMAUVE_OP_BARRIER, 0);
    refuses("5 before 9", &f, 5, 1);
}

/* 10: "skip too far", "over all steps, the first such skip giving the index" */
static void skips(void) {
    struct plan_file f;
    unsigned op, k;
    for (op = TAMPERMAUVE_OP_SKIP_ZERO; op <= TAMPERMAUVE_OP_SKIP_NONZERO; op++) {
        for (k = 1; k <= 127; k++) {
            plan_begin(&f, 2);
            plan_size(&f, 0, 1);
            plan_add(&f, 0, op, 0, k);
            plan_fill(&f, 0, k);
            plan_fill(&f, 1, 128);
            accepts("a skip of the last step", &f);
            plan_begin(&f, 2);
            plan_size(&f, 0, 1);
            plan_add(&f, 0, op, 0, k);
            plan_fill(&f, 0, k - 1);
            plan_fill(&f, 1, 128);
            refuses("a skip of one more", &f, 10, 2);
        }
        plan_begin(&f, 1);
        plan_fill(&f, 0, 5);
        plan_add(&f, 0, op, 0, 1);
        refuses("a skip as the last step", &f, 10, 6);
        plan_begin(&f, 1);
        plan_fill(&f, 0, 5);
        plan_add(&f, 0, op, 0, 1);
        plan_fill(&f, 0, 1);
        accepts("a skip as the last step but one", &f);
        plan_begin(&f, 8);
        plan_fill(&f, 0, 3);
        plan_add(&f, 7, op, 0, 2);
        plan_fill(&f, 7, 1);
        refuses("a skip of the last worker", &f, 10, 4);
    }
    plan_begin(&f, 2);
    plan_add(&f, 0, TAMPERMAUVE_OP_SKIP_ZERO, 0, 1);
    plan_fill(&f, 0, 1);
    plan_add(&f, 0, TAMPERMAUVE_OP_SKIP_ZERO, 0, 2);
    plan_fill(&f, 0, 1);
    plan_add(&f, 1, TAMPERMAUVE_OP_SKIP_NONZERO, 0, 9);
    refuses("the first such skip", &f, 10, 3);

    /* 10 comes last, whatever record it stands in */
    plan_begin(&f, 1);
    plan_add(&f, 0, TAMPERMAUVE_OP_SKIP_ZERO, 0, 127);
    plan_unmark(&f, plan_sync(&f, 0, TAMPERMAUVE_OP_EXIT, 0));
    refuses("2 before 10", &f, 2, 2);
    plan_begin(&f, 1);
    plan_add(&f, 0, TAMPERMAUVE_OP_SKIP_ZERO, 0, 127);
    plan_add(&f, 0, TAMPERMAUVE_OP_PLAN_RECORD, 0, 0);
    refuses("3 before 10", &f, 3, 2);
    plan_begin(&f, 1);
    plan_add(&f, 0, TAMPERMAUVE_OP_SKIP_ZERO, 0, 127);
    plan_size(&f, 0, 1);
    refuses("4 before 10", &f, 4, 2);
    plan_begin(&f, 1);
    plan_add(&f, 0, TAMPERMAUVE_OP_SKIP_ZERO, 0, 127);
    plan_sync(&f, 0, 99, 0);
    refuses("6 before 10", &f, 6, 2);
    plan_begin(&f, 1);
    plan_add(&f, 0, TAMPERMAUVE_OP_SKIP_ZERO, 0, 127);
    plan_sync(&f, 1, TAMPERMAUVE_OP_EXIT, 0);
    refuses("5 before 10", &f, 5, 2);
    plan_begin(&f, 1);
    plan_add(&f, 0, TAMPERMAUVE_OP_SKIP_ZERO, 0, 128);
    refuses("7 before 10 in one record", &f, 7, 1);
    plan_begin(&f, 1);
    plan_add(&f, 0, TAMPERMAUVE_OP_SKIP_ZERO, 0, 127);
    plan_sync(&f, 0, TAMPERMAUVE_OP_EXIT, 1);
    refuses("7 before 10", &f, 7, 2);
    plan_begin(&f, 1);
    plan_fill(&f, 0, 127);
    plan_add(&f, 0, TAMPERMAUVE_OP_SKIP_ZERO, 0, 127);
    plan_fill(&f, 0, 1);
    refuses("8 before 10", &f, 8, 129);
    plan_begin(&f, 1);
    plan_add(&f, 0, TAMPERMAUVE_OP_SKIP_ZERO, 0, 127);
    plan_sync(&f, 0, TAMPERMAUVE_OP_BARRIER, 0);
    refuses("9 before 10", &f, 9, 2);
    largest(&f);
    f.length -= TAMPERMAUVE_RECORD_LENGTH;
    plan_add(&f, 7, TAMPERMAUVE_OP_SKIP_ZERO, 0, 1);
    refuses("10 in record 1,039", &f, 10, 1039);
}

/* The header's names have the paper's numbers. */
struct name {
    const char *name;
    uint32_t value, number;
};

#define NAME(name, number) {#name, TAMPERMAUVE_##name, number}

static const struct name table_of_names[] = {
    /* refusals */
    NAME(ACCEPTED, 0), NAME(BAD_LENGTH, 1), NAME(BAD_MARK, 2), NAME(BAD_PLAN, 3), NAME(BAD_BARRIER, 4), NAME(BAD_WORKER, 5),
    NAME(BAD_OP, 6), NAME(BAD_OPERAND, 7), NAME(TOO_MANY_STEPS, 8), NAME(NO_SIZE, 9), NAME(SKIP_TOO_FAR, 10),
    NAME(BAD_BUFFER, 11), NAME(TOO_MANY_TURNS, 12), NAME(BAD_TURN, 13), NAME(BAD_SLEEP, 14), NAME(BAD_BATCH, 15),
    /* lengths and limits */
    NAME(MEMORY_LENGTH, 2048), NAME(LOG_LENGTH, 8256), NAME(REPORT_LENGTH, 20), NAME(WORK_LENGTH, 32768),
    NAME(FILE_LIMIT, 7280), NAME(TURNS_LIMIT, 65535), NAME(RECORD_LENGTH, 7), NAME(ENTRY_LENGTH, 8), NAME(WORKERS_LIMIT, 8),
    NAME(STEPS_LIMIT, 128), NAME(REGISTER_COUNT, 4), NAME(BARRIER_COUNT, 8), NAME(SIZE_LIMIT, 8), NAME(ADDRESS_LIMIT, 2046),
    NAME(LOCK_LIMIT, 15), NAME(CONDITION_LIMIT, 7), NAME(SKIP_LIMIT, 127), NAME(ENDING_TURNS, 2 * (8 * 128 + 8) * 8),
    NAME(PLANS_LIMIT, 40), NAME(LENGTH_BYTES, 4),
    /* the file */
    NAME(RECORD_MARK, 0), NAME(RECORD_WORKER, 2), NAME(RECORD_OP, 3), NAME(RECORD_REGISTER, 4), NAME(RECORD_NUMBER, 5),
    NAME(PLAN_MARK, 0x4D + 256 * 0x50), NAME(OP_PLAN_RECORD, 0), NAME(OP_BARRIER_RECORD, 1), NAME(OP_SLEEP_RECORD, 2),
    NAME(OP_SET, 16), NAME(OP_LOAD, 17), NAME(OP_STORE, 18), NAME(OP_ADD, 19), NAME(OP_SUBTRACT, 20), NAME(OP_SKIP_ZERO, 21),
    NAME(OP_SKIP_NONZERO, 22), NAME(OP_LOCK, 32), NAME(OP_UNLOCK, 33), NAME(OP_WAIT, 34), NAME(OP_SIGNAL, 35),
    NAME(OP_BROADCAST, 36), NAME(OP_BARRIER, 37), NAME(OP_EXIT, 38), NAME(OP_START, 39),
    /* the report */
    NAME(REPORT_END, 0), NAME(REPORT_WORKERS, 1), NAME(REPORT_MOVES, 2), NAME(REPORT_ROUNDS, 4), NAME(REPORT_RECORDS, 6),
    NAME(REPORT_FATES, 8), NAME(REPORT_SUM, 16), NAME(SUM_LIMIT, 1024 * 65535), NAME(END_GOING, 0), NAME(END_FINISHED, 1),
    NAME(END_STUCK, 2), NAME(FATE_GOING, 0), NAME(FATE_EXITED, 1), NAME(FATE_FAILED, 2), NAME(FATE_ON_CONDITION, 3),
    NAME(FATE_AT_BARRIER, 4), NAME(FATE_ASLEEP, 5), NAME(FATE_NO_WORKER, 255),
    /* the log */
    NAME(ENTRY_MARK, 0), NAME(ENTRY_ROUND, 2), NAME(ENTRY_WORKER, 4), NAME(ENTRY_OP, 5), NAME(ENTRY_NUMBER, 6),
    NAME(ENTRY_OUTCOME, 7), NAME(LOG_MARK, 0x4D + 256 * 0x4C), NAME(OUTCOME_QUEUED, 0), NAME(OUTCOME_STARTED, 1),
    NAME(OUTCOME_AWAKE, 253), NAME(OUTCOME_FAILED, 254), NAME(OUTCOME_NONE, 255),
};

static void names(void) {
    size_t k;
    for (k = 0; k < sizeof table_of_names / sizeof *table_of_names; k++) {
        const struct name *n = &table_of_names[k];
        checks++;
        if (n->value != n->number) {
            printf("FAILED: TAMPERMAUVE_%s is %lu and not %lu\n", n->name, (unsigned long)n->value, (unsigned long)n->number);
            failures++;
        }
    }
}

static void sleepers(void) {
    sleeping_workers();
    sleeping_bytes();
    sleeping_order();
    sleeping_place();
    barriers_behind_sleepers();
    sleeping_tests();
    sleeping_indices();
}

int main(void) {
    names();
    accepted();
    lengths();
    lengths_of_sleepers();
    marks();
    plans();
    barriers();
    sleepers();
    steps();
    ops_behind_a_step();
    starts();
    start_bytes();
    start_tests();
    order();
    skips();
    if (failures > 0) {
        printf("check: %u of %u checks failed\n", failures, checks);
        return 1;
    }
    printf("check: %u checks passed\n", checks);
    return 0;
}
