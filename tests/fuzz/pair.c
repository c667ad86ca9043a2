/* What is promised of two accepted runs of one plan whose memories differ only
 * in bytes that no load or store of it covers. */
#include <stdio.h>
#include <stdlib.h>
#include <string.h>

#include "fuzz.h"

enum { MEMORY = TAMPERMAUVE_MEMORY_LENGTH };

static unsigned two_bytes(const uint8_t *at)
{
    return at[0] | (unsigned)at[1] << 8;
}

/* A load or store covers its address and the next, whether it is run or not. An
 * address outside of memory is in a file that is refused. */
static void name_bytes(const uint8_t *file, size_t len, uint8_t *named)
{
    memset(named, 0, MEMORY);
    for (size_t at = 0; at + TAMPERMAUVE_RECORD_LENGTH <= len; at += TAMPERMAUVE_RECORD_LENGTH) {
        unsigned op = file[at + TAMPERMAUVE_RECORD_OP];
        unsigned address = two_bytes(file + at + TAMPERMAUVE_RECORD_NUMBER);
        if ((op == TAMPERMAUVE_OP_LOAD || op == TAMPERMAUVE_OP_STORE) && address <= TAMPERMAUVE_ADDRESS_LIMIT) {
            named[address] = 1;
            named[address + 1] = 1;
        }
    }
}

void change_unnamed(const uint8_t *file, size_t file_len, uint8_t *memory, size_t len)
{
    uint8_t named[MEMORY];
    name_bytes(file, file_len, named);
    for (size_t at = 0; at < len && at < MEMORY; at++)
        if (!named[at])
            memory[at] ^= (uint8_t)(1 + at % 255);
}

void parts(const char *engine, const char *what, size_t at)
{
    fprintf(stderr, "%s: two calls part: %s, %zu\n", engine, what, at);
    abort();
}

void same_in_both(const char *engine, const char *what, const uint8_t *one, const uint8_t *other, size_t len)
{
    for (size_t at = 0; at < len; at++)
        if (one[at] != other[at])
            parts(engine, what, at);
}

static uint32_t sum_of(const uint8_t *memory)
{
    uint32_t sum = 0;
    for (size_t at = 0; at < MEMORY; at += 2)
        sum += two_bytes(memory + at);
    return sum;
}

/* A named byte is the same in both; any other is as it was lent, the reports differ by it in the sum alone. */
void hold_pair(const char *engine, const uint8_t *file, size_t file_len, const struct left *one, const struct left *other)
{
    uint8_t named[MEMORY];
    name_bytes(file, file_len, named);
    same_in_both(engine, "log", one->log, other->log, TAMPERMAUVE_LOG_LENGTH);
    same_in_both(engine, "report", one->report, other->report, TAMPERMAUVE_REPORT_SUM);
    for (size_t at = 0; at < MEMORY; at++) {
        if (named[at] && one->memory[at] != other->memory[at])
            parts(engine, "memory", at);
        if (!named[at] && (one->memory[at] != one->lent[at] || other->memory[at] != other->lent[at]))
            parts(engine, "a byte nobody named", at);
    }
    /* modulo 2^32 */
    if (tampermauve_sum(other->report) - tampermauve_sum(one->report) != sum_of(other->lent) - sum_of(one->lent))
        parts(engine, "sum", 0);
}
