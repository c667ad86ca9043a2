/* What a run is lent, and lists of turns that end a plan. */
#ifndef LENT_H
#define LENT_H

#include <stddef.h>
#include <stdint.h>

#include "tampermauve.h"

struct lent {
    uint8_t memory[TAMPERMAUVE_MEMORY_LENGTH];
    uint8_t log[TAMPERMAUVE_LOG_LENGTH];
    uint8_t report[TAMPERMAUVE_REPORT_LENGTH];
    uint8_t work[TAMPERMAUVE_WORK_LENGTH];
};

/* A list of turns. */
struct turns {
    uint8_t at[TAMPERMAUVE_TURNS_LIMIT + 1]; /* a byte more than a list may have, so that a longer one is refused */
    size_t length;
};

/* Checks a plan file: the library's answer. Here and below a pointer may be NULL where the length is 0. */
uint32_t lent_check(const uint8_t *file, size_t length);

/* Runs a plan by a list of turns: the library's answer. `lent->memory` is the starting memory. */
uint32_t lent_run(struct lent *lent, const uint8_t *file, size_t length, const uint8_t *turns, size_t turns_length);

/* Whole cycles, enough to end the plan, of a file that is accepted: each has the workers in their order. */
void turns_in_cycles(struct turns *turns, const uint8_t *file, size_t length);

/* The same with the workers of each cycle in an order of its own, which the seed settles. */
void turns_by_seed(struct turns *turns, const uint8_t *file, size_t length, uint64_t seed);

/* The steps of a file: its records but for those of the plan, of barriers and of sleepers. */
size_t steps_of(const uint8_t *file, size_t length);

#endif
