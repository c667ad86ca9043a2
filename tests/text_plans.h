/* Random plans, all of them accepted, and damaged ones. The same seed gives the same plans on every machine. The ranges are
 * those of document 01, "Plan file", and of request One of document 02. */
#ifndef TEXT_PLANS_H
#define TEXT_PLANS_H

#include <string.h>

#include "plan_file.h"

/* xorshift64*: enough to pick by. */
struct dice {
    uint64_t state;
};

static inline unsigned below(struct dice *d, unsigned limit) {
    d->state ^= d->state >> 12;
    d->state ^= d->state << 25;
    d->state ^= d->state >> 27;
    return (unsigned)((d->state * UINT64_C(2685821657736338717)) >> 33) % limit;
}

/* What the steps of a plan may name. */
struct frame {
    unsigned workers, sized[TAMPERMAUVE_BARRIER_COUNT], sizes;
};

static inline void random_front(struct dice *d, struct plan_file *f, struct frame *frame, bool full) {
    unsigned k;
    frame->workers = full ? TAMPERMAUVE_WORKERS_LIMIT : 1u + below(d, TAMPERMAUVE_WORKERS_LIMIT);
    frame->sizes = 0;
    plan_begin(f, frame->workers);
    for (k = 0; k < TAMPERMAUVE_BARRIER_COUNT; k++) {
        if (full || below(d, 3) == 0) {
            frame->sized[frame->sizes++] = k;
            plan_size(f, k, 1u + below(d, TAMPERMAUVE_SIZE_LIMIT));
        }
    }
    for (k = 1; k < frame->workers; k++) {
        if (full || below(d, 3) == 0) {
            plan_sleep(f, k);
        }
    }
}

/* A number of one of two kinds: anywhere in the range, or at its ends. */
static inline unsigned within(struct dice *d, unsigned least, unsigned most) {
    switch (below(d, 8)) {
    case 0:
        return least;
    case 1:
        return most;
    default:
        return least + below(d, most - least + 1u);
    }
}

/* A skip over some of the steps that are left behind it, often over all of them. */
static inline void random_skip(struct dice *d, struct plan_file *f, unsigned worker, unsigned left) {
    unsigned op = TAMPERMAUVE_OP_SKIP_ZERO + below(d, 2), reg = below(d, TAMPERMAUVE_REGISTER_COUNT);
    unsigned most = left < TAMPERMAUVE_SKIP_LIMIT ? left : TAMPERMAUVE_SKIP_LIMIT;
    plan_add(f, worker, op, reg, below(d, 4) == 0 ? most : within(d, 1, most < 9 ? most : below(d, 2) ? 9 : most));
}

/* A step of a worker by itself, but for skips. */
static inline void random_own(struct dice *d, struct plan_file *f, unsigned worker) {
    static const unsigned most[] = {TAMPERMAUVE_VALUE_LIMIT, TAMPERMAUVE_ADDRESS_LIMIT, TAMPERMAUVE_ADDRESS_LIMIT,
                                    TAMPERMAUVE_REGISTER_COUNT - 1u, TAMPERMAUVE_REGISTER_COUNT - 1u};
    unsigned which = below(d, 5);
    plan_add(f, worker, TAMPERMAUVE_OP_SET + which, below(d, TAMPERMAUVE_REGISTER_COUNT), within(d, 0, most[which]));
}

static inline void random_sync(struct dice *d, struct plan_file *f, unsigned worker, const struct frame *frame) {
    unsigned op = TAMPERMAUVE_OP_LOCK + below(d, 8), number = within(d, 0, TAMPERMAUVE_CONDITION_LIMIT);
    if (op == TAMPERMAUVE_OP_LOCK || op == TAMPERMAUVE_OP_UNLOCK) {
        number = within(d, 0, TAMPERMAUVE_LOCK_LIMIT);
    } else if (op == TAMPERMAUVE_OP_EXIT || (op == TAMPERMAUVE_OP_BARRIER && frame->sizes == 0)) {
        op = TAMPERMAUVE_OP_EXIT;
        number = 0;
    } else if (op == TAMPERMAUVE_OP_BARRIER) {
        number = frame->sized[below(d, frame->sizes)];
    } else if (op == TAMPERMAUVE_OP_START) {
        number = below(d, frame->workers);
    }
    plan_sync(f, worker, op, number);
}

static inline void random_block(struct dice *d, struct plan_file *f, unsigned worker, const struct frame *frame, unsigned steps) {
    unsigned left;
    for (left = steps; left > 0; left--) {
        unsigned kind = below(d, 5);
        if (kind < 2 && left > 1) {
            random_skip(d, f, worker, left - 1u);
        } else if (kind == 4) {
            random_sync(d, f, worker, frame);
        } else {
            random_own(d, f, worker);
        }
    }
}

/* A plan that is accepted; a full one has all records that a file may have. */
static inline void random_plan(struct dice *d, struct plan_file *f, bool full) {
    struct frame frame;
    unsigned worker, most = below(d, 4) == 0 ? TAMPERMAUVE_STEPS_LIMIT : 12;
    random_front(d, f, &frame, full);
    for (worker = 0; worker < frame.workers; worker++) {
        random_block(d, f, worker, &frame, full ? TAMPERMAUVE_STEPS_LIMIT : below(d, most + 1u));
    }
}

/* ---- Damage */

static inline uint8_t *random_record(struct dice *d, struct plan_file *f) {
    return f->bytes + TAMPERMAUVE_RECORD_LENGTH * below(d, (unsigned)(f->length / TAMPERMAUVE_RECORD_LENGTH));
}

static inline void swap_records(uint8_t *one, uint8_t *other) {
    uint8_t kept[TAMPERMAUVE_RECORD_LENGTH];
    memcpy(kept, one, sizeof kept);
    memmove(one, other, sizeof kept);
    memcpy(other, kept, sizeof kept);
}

/* The record stands there twice, or not at all. */
static inline void double_record(struct plan_file *f, uint8_t *record) {
    memmove(record + TAMPERMAUVE_RECORD_LENGTH, record, (size_t)(f->bytes + f->length - record));
    f->length += TAMPERMAUVE_RECORD_LENGTH;
}

static inline void drop_record(struct plan_file *f, uint8_t *record) {
    f->length -= TAMPERMAUVE_RECORD_LENGTH;
    memmove(record, record + TAMPERMAUVE_RECORD_LENGTH, (size_t)(f->bytes + f->length - record));
}

static inline void random_bytes(struct dice *d, struct plan_file *f) {
    size_t k;
    f->length = below(d, 200);
    for (k = 0; k < f->length; k++) {
        f->bytes[k] = (uint8_t)below(d, 256);
    }
}

/* A marked record of any op and any number, small ones more often. */
static inline void random_fields(struct dice *d, uint8_t *record) {
    static const uint8_t ops[] = {0, 1, 2, 16, 17, 18, 19, 20, 21, 22, 32, 33, 34, 35, 36, 37, 38, 39, 3, 15, 23, 31, 40, 255};
    record[TAMPERMAUVE_RECORD_WORKER] = (uint8_t)below(d, below(d, 4) == 0 ? 256 : 8);
    record[TAMPERMAUVE_RECORD_OP] = ops[below(d, (unsigned)sizeof ops)];
    record[TAMPERMAUVE_RECORD_REGISTER] = (uint8_t)below(d, below(d, 4) == 0 ? 256 : 4);
    plan_word(record + TAMPERMAUVE_RECORD_NUMBER, below(d, below(d, 3) == 0 ? 65536 : 4));
}

/* The last worker goes on until it has 129 steps, or the last step becomes a skip with nothing behind it. */
static inline void spoil_end(struct dice *d, struct plan_file *f) {
    uint8_t *last = f->bytes + f->length - TAMPERMAUVE_RECORD_LENGTH;
    unsigned worker = last[TAMPERMAUVE_RECORD_WORKER];
    if (last[TAMPERMAUVE_RECORD_OP] < TAMPERMAUVE_OP_SET) {
        return;
    }
    if (below(d, 2) == 0) {
        last[TAMPERMAUVE_RECORD_OP] = TAMPERMAUVE_OP_SKIP_NONZERO;
        plan_word(last + TAMPERMAUVE_RECORD_NUMBER, 1u + below(d, TAMPERMAUVE_SKIP_LIMIT));
    } else {
        while (f->length <= TAMPERMAUVE_FILE_LIMIT && below(d, 200) > 0) {
            plan_add(f, worker, TAMPERMAUVE_OP_SKIP_ZERO, 1, 1);
        }
    }
}

/* The sizes of all barriers are gone, so that a step of any has none. */
static inline void drop_sizes(struct plan_file *f) {
    while (f->length > 2u * TAMPERMAUVE_RECORD_LENGTH &&
           f->bytes[TAMPERMAUVE_RECORD_LENGTH + TAMPERMAUVE_RECORD_OP] == TAMPERMAUVE_OP_BARRIER_RECORD) {
        drop_record(f, f->bytes + TAMPERMAUVE_RECORD_LENGTH);
    }
}

static inline void damage(struct dice *d, struct plan_file *f) {
    uint8_t *record = random_record(d, f);
    switch (below(d, 10)) {
    case 0:
    case 1:
        record[below(d, TAMPERMAUVE_RECORD_LENGTH)] = (uint8_t)below(d, 256);
        break;
    case 2:
        f->length = below(d, (unsigned)f->length);
        break;
    case 3:
        double_record(f, record);
        break;
    case 4:
        drop_record(f, record);
        break;
    case 5:
        swap_records(record, random_record(d, f));
        break;
    case 6:
        random_bytes(d, f);
        break;
    case 7:
        random_fields(d, record);
        break;
    case 8:
        spoil_end(d, f);
        break;
    default:
        drop_sizes(f);
        break;
    }
}

#endif
