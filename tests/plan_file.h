/* Plan files for tests: records are appended one by one. Nothing is checked here, so that a test can write any file. */
#ifndef PLAN_FILE_H
#define PLAN_FILE_H

#include <stddef.h>
#include <stdint.h>

#include "tampermauve.h"

/* Room for more records than a file may have. */
#define PLAN_FILE_ROOM (TAMPERMAUVE_RECORD_LENGTH * 1100u)

struct plan_file {
    uint8_t bytes[PLAN_FILE_ROOM];
    size_t length;
};

/* Writes a two-byte number. */
static inline void plan_word(uint8_t *at, unsigned number) {
    at[0] = (uint8_t)(number % 256u);
    at[1] = (uint8_t)(number / 256u);
}

/* Appends a record and returns its index. */
static inline unsigned plan_add(struct plan_file *f, unsigned worker, unsigned op, unsigned reg, unsigned number) {
    uint8_t *record = f->bytes + f->length;
    plan_word(record + TAMPERMAUVE_RECORD_MARK, TAMPERMAUVE_PLAN_MARK);
    record[TAMPERMAUVE_RECORD_WORKER] = (uint8_t)worker;
    record[TAMPERMAUVE_RECORD_OP] = (uint8_t)op;
    record[TAMPERMAUVE_RECORD_REGISTER] = (uint8_t)reg;
    plan_word(record + TAMPERMAUVE_RECORD_NUMBER, number);
    f->length += TAMPERMAUVE_RECORD_LENGTH;
    return (unsigned)(f->length / TAMPERMAUVE_RECORD_LENGTH - 1u);
}

/* Empties the file and writes the plan record of n workers. */
static inline void plan_begin(struct plan_file *f, unsigned n) {
    f->length = 0;
    plan_add(f, n, TAMPERMAUVE_OP_PLAN_RECORD, 0, 0);
}

/* The size of a barrier. */
static inline unsigned plan_size(struct plan_file *f, unsigned barrier, unsigned size) {
    return plan_add(f, 0, TAMPERMAUVE_OP_BARRIER_RECORD, barrier, size);
}

/* A worker that sleeps until it is started. */
static inline unsigned plan_sleep(struct plan_file *f, unsigned worker) {
    return plan_add(f, worker, TAMPERMAUVE_OP_SLEEP_RECORD, 0, 0);
}

/* All of n workers sleep but the first, who never may. */
static inline void plan_sleepers(struct plan_file *f, unsigned n) {
    unsigned worker;
    for (worker = 1; worker < n; worker++) {
        plan_sleep(f, worker);
    }
}

/* A step whose operand is its number alone. */
static inline unsigned plan_sync(struct plan_file *f, unsigned worker, unsigned op, unsigned number) {
    return plan_add(f, worker, op, 0, number);
}

/* So many steps of a worker that are in range wherever they stand. */
static inline void plan_fill(struct plan_file *f, unsigned worker, unsigned steps) {
    unsigned k;
    for (k = 0; k < steps; k++) {
        plan_add(f, worker, TAMPERMAUVE_OP_SET, k % TAMPERMAUVE_REGISTER_COUNT, k);
    }
}

/* Spoils the mark of a record. */
static inline void plan_unmark(struct plan_file *f, unsigned index) {
    f->bytes[TAMPERMAUVE_RECORD_LENGTH * index + TAMPERMAUVE_RECORD_MARK] = 0x4E;
}

#endif
