/* Calls of several plans, for inputs whose flags begin with D. An input is:
 *   a byte of flags, see below
 *   a byte for the lent buffers: 4 x a buffer + how it is wrong, others none
 *   a byte for the count
 *   a byte that lifts the count above its low bits: 1 to 5 by 2^8, 2^16, 2^32,
 *   2^62 or 2^63, others not
 *   for flag 2, four bytes each for the first and the last length
 *   for each plan the length of its part, two bytes, and its part
 * Flags:
 *   1  a plan's part is its file; else steps are made from it
 *   2  a number is added to the first length and one to the last, modulo 2^32
 *   4  starting memories of many values; else of zeros
 *   8  starting memories of 255s, whatever flag 4 says
 * Buffers: memories, logs, reports, answers, work, lengths, files. How: empty,
 * one byte short, one byte longer, a unit short; the unit of work and of the
 * files is a byte. */
#include <string.h>

#include "../../bench/twin.h"
#include "fuzz.h"

typedef uint32_t run_all_call(size_t, const uint8_t *, size_t, const uint8_t *, size_t, uint8_t *, size_t, uint8_t *, size_t,
                              uint8_t *, size_t, uint8_t *, size_t, uint8_t *, size_t);

run_all_call reference_run_all;

enum { WORK_AT = 4, LENGTHS_AT = 5, FILES_AT = 6, BUFFERS = 7, HEAD = 4, LENGTH_BYTES = 4 };

static const char *const NAMES[BUFFERS] = {"memories", "logs", "reports", "answers", "work", "lengths", "files"};
static const size_t UNITS[BUFFERS] = {TAMPERMAUVE_MEMORY_LENGTH, TAMPERMAUVE_LOG_LENGTH, TAMPERMAUVE_REPORT_LENGTH, 1, 1,
                                      LENGTH_BYTES, 1};

struct batch {
    size_t count;
    struct buffer buffers[BUFFERS];
};

static struct batch given, left_by_reference, left_by_engine, given_second, left_of_second;

static uint32_t play(run_all_call *run_all, struct batch *c)
{
    struct buffer *b = c->buffers;
    return run_all(c->count, start(&b[FILES_AT]), b[FILES_AT].len, start(&b[LENGTHS_AT]), b[LENGTHS_AT].len, start(&b[0]), b[0].len,
                   start(&b[1]), b[1].len, start(&b[2]), b[2].len, start(&b[3]), b[3].len, start(&b[WORK_AT]), b[WORK_AT].len);
}

static void copy_batch(struct batch *to, const struct batch *from)
{
    to->count = from->count;
    for (int i = 0; i < BUFFERS; i++)
        copy_buffer(&to->buffers[i], &from->buffers[i]);
}

static uint32_t four_bytes(const uint8_t *from)
{
    return from[0] | (uint32_t)from[1] << 8 | (uint32_t)from[2] << 16 | (uint32_t)from[3] << 24;
}

static uint8_t *part(struct batch *c, int buffer, size_t plan)
{
    return start(&c->buffers[buffer]) + plan * UNITS[buffer];
}

static struct left left_of(struct batch *lent, struct batch *left, size_t plan)
{
    struct left run = {part(lent, 0, plan), part(left, 0, plan), part(left, 1, plan), part(left, 2, plan)};
    return run;
}

/* Of a call that is refused no file is read, and no byte named. */
static void change_memories(uint32_t ran)
{
    const uint8_t *file = start(&given.buffers[FILES_AT]);
    struct buffer *memories = &given_second.buffers[0];
    for (size_t plan = 0; ran == 0 && plan < given.count; plan++) {
        uint32_t len = four_bytes(part(&given, LENGTHS_AT, plan));
        change_unnamed(file, len, part(&given_second, 0, plan), UNITS[0]);
        file += len;
    }
    for (size_t at = 0; ran != 0 && at < memories->len; at++)
        start(memories)[at] ^= 0x5A;
}

/* A refused plan's own parts are as they were lent to that call. */
static void hold_plans(const char *engine)
{
    const uint8_t *file = start(&given.buffers[FILES_AT]), *answers = part(&left_of_second, 3, 0);
    same_in_both(engine, "answers", part(&left_by_engine, 3, 0), answers, given.count);
    if (memchr(answers, 0, given.count) != NULL)
        same_in_both(engine, "work", part(&left_by_engine, WORK_AT, 0), part(&left_of_second, WORK_AT, 0), TAMPERMAUVE_WORK_LENGTH);
    for (size_t plan = 0; plan < given.count; plan++) {
        uint32_t len = four_bytes(part(&given, LENGTHS_AT, plan));
        struct left one = left_of(&given, &left_by_engine, plan), other = left_of(&given_second, &left_of_second, plan);
        if (answers[plan] == 0)
            hold_pair(engine, file, len, &one, &other);
        for (int i = 0; i < 3 && answers[plan] != 0; i++)
            same_in_both(engine, NAMES[i], part(&left_of_second, i, plan), part(&given_second, i, plan), UNITS[i]);
        file += len;
    }
}

static void compare_pair(const char *engine, run_all_call *run_all, uint32_t ran)
{
    struct buffer *b = given_second.buffers;
    copy_batch(&given_second, &given);
    change_memories(ran);
    for (int i = 1; i <= WORK_AT; i++)
        memset(start(&b[i]), 0xC1 + i, b[i].len);
    copy_batch(&left_of_second, &given_second);
    if (play(run_all, &left_of_second) != ran)
        parts(engine, "answer of run_all", ran);
    if (ran == 0)
        hold_plans(engine);
    for (int i = 0; i <= WORK_AT && ran != 0; i++)
        same_in_both(engine, NAMES[i], start(&left_of_second.buffers[i]), start(&b[i]), b[i].len);
}

static void compare(const char *engine, run_all_call *run_all, uint32_t ran)
{
    copy_batch(&left_by_engine, &given);
    if (play(run_all, &left_by_engine) != ran)
        differs(engine, "answer of run_all", ran);
    for (int i = 0; i < BUFFERS; i++)
        same_bytes(engine, NAMES[i], &left_by_engine.buffers[i], &left_by_reference.buffers[i]);
    compare_pair(engine, run_all, ran);
}

/* --- From an input to a call -------------------------------------------- */

static void put_four_bytes(uint8_t *to, uint32_t number)
{
    for (int i = 0; i < LENGTH_BYTES; i++)
        to[i] = (uint8_t)(number >> 8 * i);
}

/* The next plan's part, which may be cut by the end of the input. */
static size_t take_part(const uint8_t **data, size_t *size)
{
    size_t len;
    if (*size < 2)
        return 0;
    len = (*data)[0] | (size_t)(*data)[1] << 8;
    *data += 2;
    *size -= 2;
    return len > *size ? *size : len;
}

static void make_files(unsigned flags, size_t units, const uint8_t *data, size_t size)
{
    static struct buffer one;
    struct buffer *files = &given.buffers[FILES_AT], *lengths = &given.buffers[LENGTHS_AT];
    begin(files, 0, 0);
    begin(lengths, units * LENGTH_BYTES, 0);
    for (size_t i = 0; i < units; i++) {
        size_t len = take_part(&data, &size);
        if (flags & 1) {
            begin(&one, len > MOST_FILE ? MOST_FILE : len, 0);
            memcpy(start(&one), data, one.len);
        } else {
            make_file(&one, data, len);
        }
        memcpy(start(files) + files->len, start(&one), one.len);
        files->len += one.len;
        put_four_bytes(start(lengths) + i * LENGTH_BYTES, (uint32_t)one.len);
        data += len;
        size -= len;
    }
    guard_end(files);
}

static void add_to_length(size_t place, uint32_t number)
{
    uint8_t *four = start(&given.buffers[LENGTHS_AT]) + place * LENGTH_BYTES;
    put_four_bytes(four, four_bytes(four) + number);
}

static void make_lent(unsigned flags, size_t units)
{
    struct buffer *memories = &given.buffers[0];
    for (int i = 0; i < WORK_AT; i++)
        begin(&given.buffers[i], units * UNITS[i], (uint8_t)(0x31 + i));
    begin(&given.buffers[WORK_AT], TAMPERMAUVE_WORK_LENGTH, 0x35);
    for (size_t i = 0; i < memories->len; i++)
        start(memories)[i] = flags & 8 ? 255 : flags & 4 ? (uint8_t)(i * 37 >> 3) : 0;
}

static void make_wrong(unsigned wrong)
{
    struct buffer *b = &given.buffers[wrong / 4 < BUFFERS ? wrong / 4 : 0];
    size_t unit = UNITS[b - given.buffers], len = b->len;
    if (wrong / 4 >= BUFFERS)
        return;
    if (wrong % 4 == 0)
        b->len = 0;
    else if (wrong % 4 == 2)
        b->len = len + 1;
    else if (len >= unit)
        b->len = len - (wrong % 4 == 1 ? 1 : unit);
    if (b->len > len)
        start(b)[len] = 0;
    guard_end(b);
}

void try_batch(const uint8_t *data, size_t size)
{
    static const unsigned lifts[6] = {0, 8, 16, 32, 62, 63};
    unsigned flags = data[0], wrong = data[1], lift = data[3];
    size_t units = data[2] > MOST_UNITS ? MOST_UNITS : data[2], offsets = 0;
    uint32_t ran;
    given.count = data[2];
    if (lift > 0 && lift < 6)
        given.count += (size_t)1 << lifts[lift];
    if (flags & 2 && size >= HEAD + 2 * LENGTH_BYTES)
        offsets = 2 * LENGTH_BYTES;
    make_files(flags, units, data + HEAD + offsets, size - HEAD - offsets);
    if (offsets > 0 && units > 0) {
        add_to_length(0, four_bytes(data + HEAD));
        add_to_length(units - 1, four_bytes(data + HEAD + LENGTH_BYTES));
    }
    make_lent(flags, units);
    make_wrong(wrong);
    copy_batch(&left_by_reference, &given);
    ran = play(reference_run_all, &left_by_reference);
    compare("the library", tampermauve_run_all, ran);
    compare("the twin", twin_run_all, ran);
}
