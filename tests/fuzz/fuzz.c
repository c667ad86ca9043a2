/* A fuzz target over check and run, and over run_all for inputs whose first
 * byte has the high digit D (see batch.c). The library, and the engine of
 * bench/twin.c as well, are held against the simulator: answers and every
 * byte of every buffer, guard bytes included; and each call is made again from
 * a memory that differs in all bytes that no load or store covers, and held
 * against the first (see pair.c). A difference ends in abort().
 *
 * Another input is: a byte of flags, a byte for the lent buffers, two bytes for
 * the length of the plan's part, the plan's part, the turns' part. Flags:
 *   1  the plan's part is the file itself; else steps are made from it, four
 *      bytes each, so that most files are accepted
 *   2  turns as they are; else reduced below the count of workers
 *   4  a starting memory of many values; else of zeros
 *   8  each turn eight times
 *  32  a starting memory of 255s, whatever flag 4 says
 * The byte for the buffers: 0 to 7 name a length that is one byte wrong, 8 to 11
 * one that is four bytes short, as a report without its sum is, others none. */
#include <stdint.h>
#include <stdio.h>
#include <stdlib.h>
#include <string.h>

#include "../../bench/twin.h"
#include "fuzz.h"

typedef uint32_t check_call(const uint8_t *, size_t);
typedef uint32_t run_call(const uint8_t *, size_t, const uint8_t *, size_t,
                          uint8_t *, size_t, uint8_t *, size_t, uint8_t *,
                          size_t, uint8_t *, size_t);

check_call reference_check;
run_call reference_run;

int LLVMFuzzerTestOneInput(const uint8_t *data, size_t size);

enum {
    MOST_TURNS = TAMPERMAUVE_TURNS_LIMIT + 1, /* one turn too many */
    BUFFERS = 6,
    SEVERAL_PLANS = 0xD0
};

/* Memory, log, report, work, file, turns, in this order everywhere. */
enum { FILE_AT = 4, TURNS_AT = 5 };
static const char *const NAMES[BUFFERS] = {"memory", "log",  "report",
                                           "work",   "file", "turns"};
static const size_t LENGTHS[4] = {TAMPERMAUVE_MEMORY_LENGTH, TAMPERMAUVE_LOG_LENGTH,
                                  TAMPERMAUVE_REPORT_LENGTH, TAMPERMAUVE_WORK_LENGTH};

struct call {
    struct buffer buffers[BUFFERS];
};

static struct call given, left_by_reference, left_by_engine, given_second, left_of_second;

uint8_t *start(struct buffer *b)
{
    return b->bytes + GUARD;
}

void guard_end(struct buffer *b)
{
    memset(start(b) + b->len, GUARD_BYTE, GUARD);
}

void begin(struct buffer *b, size_t len, uint8_t old)
{
    b->len = len;
    memset(b->bytes, GUARD_BYTE, GUARD);
    memset(start(b), old, len);
    guard_end(b);
}

void copy_buffer(struct buffer *to, const struct buffer *from)
{
    to->len = from->len;
    memcpy(to->bytes, from->bytes, from->len + 2 * GUARD);
}

static void copy_call(struct call *to, const struct call *from)
{
    for (int i = 0; i < BUFFERS; i++)
        copy_buffer(&to->buffers[i], &from->buffers[i]);
}

static uint32_t play(run_call *run, struct call *c)
{
    struct buffer *b = c->buffers;
    return run(start(&b[FILE_AT]), b[FILE_AT].len, start(&b[TURNS_AT]),
               b[TURNS_AT].len, start(&b[0]), b[0].len, start(&b[1]), b[1].len,
               start(&b[2]), b[2].len, start(&b[3]), b[3].len);
}

void differs(const char *engine, const char *what, size_t at)
{
    fprintf(stderr, "%s differs from the simulator: %s, %zu\n", engine, what, at);
    abort();
}

static size_t first_difference(const struct buffer *one, const struct buffer *other)
{
    size_t at = 0;
    while (one->bytes[at] == other->bytes[at])
        at++;
    return at;
}

void same_bytes(const char *engine, const char *name, const struct buffer *ours,
                const struct buffer *theirs)
{
    if (memcmp(ours->bytes, theirs->bytes, ours->len + 2 * GUARD) != 0)
        differs(engine, name, first_difference(ours, theirs) - GUARD);
}

static struct left left_of(struct call *lent, struct call *left)
{
    struct left run = {start(&lent->buffers[0]), start(&left->buffers[0]), start(&left->buffers[1]), start(&left->buffers[2])};
    return run;
}

/* The engine's call is made again from another memory, and on other old contents. */
static void compare_pair(const char *engine, run_call *run, uint32_t ran)
{
    struct buffer *file = &given.buffers[FILE_AT], *b = given_second.buffers;
    struct left one = left_of(&given, &left_by_engine), other = left_of(&given_second, &left_of_second);
    copy_call(&given_second, &given);
    change_unnamed(start(file), file->len, start(&b[0]), b[0].len);
    for (unsigned i = 1; i < FILE_AT; i++)
        memset(start(&b[i]), (int)(0xC1 + i), b[i].len);
    copy_call(&left_of_second, &given_second);
    if (play(run, &left_of_second) != ran)
        parts(engine, "answer of run", ran);
    if (ran == 0) {
        hold_pair(engine, start(file), file->len, &one, &other);
        same_in_both(engine, "work", start(&left_by_engine.buffers[3]), start(&left_of_second.buffers[3]), LENGTHS[3]);
    }
    for (unsigned i = 0; i < FILE_AT && ran != 0; i++)
        same_in_both(engine, NAMES[i], start(&left_of_second.buffers[i]), start(&b[i]), b[i].len);
}

static void compare(const char *engine, check_call *check, run_call *run,
                    uint32_t checked, uint32_t ran)
{
    struct buffer *file = &left_by_engine.buffers[FILE_AT];
    copy_call(&left_by_engine, &given);
    if (check(start(file), file->len) != checked)
        differs(engine, "answer of check", checked);
    if (play(run, &left_by_engine) != ran)
        differs(engine, "answer of run", ran);
    for (int i = 0; i < BUFFERS; i++)
        same_bytes(engine, NAMES[i], &left_by_engine.buffers[i],
                   &left_by_reference.buffers[i]);
    compare_pair(engine, run, ran);
}

/* --- From an input to a call -------------------------------------------- */

static void put_record(struct buffer *file, unsigned worker, unsigned op,
                       unsigned reg, unsigned number)
{
    uint8_t *to = start(file) + file->len;
    const uint8_t bytes[TAMPERMAUVE_RECORD_LENGTH] = {TAMPERMAUVE_PLAN_MARK % 256,
                                   TAMPERMAUVE_PLAN_MARK / 256,
                                   (uint8_t)worker,
                                   (uint8_t)op,
                                   (uint8_t)reg,
                                   (uint8_t)(number & 255),
                                   (uint8_t)(number >> 8)};
    if (file->len + TAMPERMAUVE_RECORD_LENGTH > MOST_FILE)
        return;
    memcpy(to, bytes, TAMPERMAUVE_RECORD_LENGTH);
    file->len += TAMPERMAUVE_RECORD_LENGTH;
}

/* A step from four bytes, in a plan of so many workers; its operands are mostly in range. */
static void put_step(struct buffer *file, unsigned worker, unsigned workers, const uint8_t *from)
{
    static const uint8_t ops[16] = {
        TAMPERMAUVE_OP_SET,       TAMPERMAUVE_OP_LOAD,         TAMPERMAUVE_OP_STORE, TAMPERMAUVE_OP_ADD,
        TAMPERMAUVE_OP_SUBTRACT,  TAMPERMAUVE_OP_SKIP_ZERO,    TAMPERMAUVE_OP_SKIP_NONZERO, TAMPERMAUVE_OP_LOCK,
        TAMPERMAUVE_OP_UNLOCK,    TAMPERMAUVE_OP_WAIT,         TAMPERMAUVE_OP_SIGNAL, TAMPERMAUVE_OP_BROADCAST,
        TAMPERMAUVE_OP_BARRIER,   TAMPERMAUVE_OP_EXIT,         TAMPERMAUVE_OP_START, TAMPERMAUVE_OP_UNLOCK};
    static const uint16_t most[7] = {65535,
                                     TAMPERMAUVE_ADDRESS_LIMIT,
                                     TAMPERMAUVE_ADDRESS_LIMIT,
                                     TAMPERMAUVE_REGISTER_COUNT - 1,
                                     TAMPERMAUVE_REGISTER_COUNT - 1,
                                     TAMPERMAUVE_SKIP_LIMIT,
                                     TAMPERMAUVE_SKIP_LIMIT};
    unsigned op = ops[from[0] & 15], number = from[2] | (unsigned)from[3] << 8;
    unsigned reg = op < TAMPERMAUVE_OP_LOCK ? from[1] & 3 : 0;
    if (op == TAMPERMAUVE_OP_LOAD || op == TAMPERMAUVE_OP_STORE)
        number = number % TAMPERMAUVE_MEMORY_LENGTH;
    else if (op == TAMPERMAUVE_OP_SKIP_ZERO || op == TAMPERMAUVE_OP_SKIP_NONZERO)
        number = 1 + number % 8;
    else if (op < TAMPERMAUVE_OP_LOCK)
        number = op == TAMPERMAUVE_OP_SET ? number : number & 3;
    else if (op == TAMPERMAUVE_OP_START)
        number = number % workers;
    else
        number = op == TAMPERMAUVE_OP_EXIT ? 0 : number & 7;
    if (from[0] == 255)
        number = op < TAMPERMAUVE_OP_LOCK ? most[op - TAMPERMAUVE_OP_SET] : TAMPERMAUVE_LOCK_LIMIT;
    put_record(file, worker, op, reg, number);
}

/* The first byte has the count of workers. The next eight have in their low
 * seven bits whether the barrier of that number has a size, and which, and in
 * the top bit whether the worker of that number sleeps; the first never does.
 * The top bit of a step's first byte goes on to the next worker. */
void make_file(struct buffer *file, const uint8_t *from, size_t len)
{
    unsigned workers, worker = 0;
    file->len = 0;
    if (len < 9)
        return;
    workers = 1 + (from[0] & 7);
    put_record(file, workers, TAMPERMAUVE_OP_PLAN_RECORD, 0, 0);
    for (unsigned barrier = 0; barrier < TAMPERMAUVE_BARRIER_COUNT; barrier++)
        if (from[1 + barrier] & 127)
            put_record(file, 0, TAMPERMAUVE_OP_BARRIER_RECORD, barrier, 1 + (from[1 + barrier] & 7));
    for (unsigned sleeper = 1; sleeper < workers; sleeper++)
        if (from[1 + sleeper] & 128)
            put_record(file, sleeper, TAMPERMAUVE_OP_SLEEP_RECORD, 0, 0);
    for (size_t at = 9; at + 4 <= len; at += 4) {
        if (from[at] & 128 && worker + 1 < workers)
            worker += 1;
        put_step(file, worker, workers, from + at);
    }
}

static void make_turns(struct buffer *turns, const uint8_t *from, size_t len,
                       unsigned flags, unsigned workers)
{
    size_t times = flags & 8 ? 8 : 1;
    size_t at = 0;
    begin(turns, 0, 0);
    for (size_t i = 0; i < len; i++)
        for (size_t t = 0; t < times && at < MOST_TURNS; t++)
            start(turns)[at++] =
                flags & 2 || workers == 0 ? from[i] : (uint8_t)(from[i] % workers);
    turns->len = at;
}

static void make_lent(unsigned flags, unsigned wrong)
{
    struct buffer *memory = &given.buffers[0];
    for (unsigned i = 0; i < 4; i++) {
        size_t len = LENGTHS[i];
        if (wrong / 2 == i && wrong < 8)
            len = wrong % 2 ? len + 1 : len - 1;
        if (wrong == 8 + i)
            len -= 4;
        begin(&given.buffers[i], len, (uint8_t)(0x31 + i));
    }
    for (size_t i = 0; i < memory->len; i++)
        start(memory)[i] = flags & 32 ? 255 : flags & 4 ? (uint8_t)(i * 37 >> 3) : 0;
}

static void make_call(const uint8_t *data, size_t size)
{
    struct buffer *file = &given.buffers[FILE_AT], *turns = &given.buffers[TURNS_AT];
    unsigned flags = data[0], wrong = data[1];
    size_t len = data[2] | (size_t)data[3] << 8;
    size -= 4;
    data += 4;
    len = len > size ? size : len;
    begin(file, len > MOST_FILE ? MOST_FILE : len, 0);
    if (flags & 1)
        memcpy(start(file), data, file->len);
    else
        make_file(file, data, len);
    make_turns(turns, data + len, size - len, flags,
               file->len > TAMPERMAUVE_RECORD_WORKER ? start(file)[TAMPERMAUVE_RECORD_WORKER] : 0);
    guard_end(file);
    guard_end(turns);
    make_lent(flags, wrong);
}

int LLVMFuzzerTestOneInput(const uint8_t *data, size_t size)
{
    struct buffer *file = &left_by_reference.buffers[FILE_AT];
    uint32_t checked, ran;
    if (size < 4)
        return 0;
    if ((data[0] & 0xF0) == SEVERAL_PLANS) {
        try_batch(data, size);
        return 0;
    }
    make_call(data, size);
    copy_call(&left_by_reference, &given);
    checked = reference_check(start(file), file->len);
    ran = play(reference_run, &left_by_reference);
    compare("the library", tampermauve_check, tampermauve_run, checked, ran);
    compare("the twin", twin_check, twin_run, checked, ran);
    return 0;
}
