#include "lent.h"

#include <string.h>

/* The library wants a pointer also where there is no byte. */
static const uint8_t *some(const uint8_t *bytes)
{
    static const uint8_t none[1];
    return bytes != NULL ? bytes : none;
}

uint32_t lent_check(const uint8_t *file, size_t length)
{
    return tampermauve_check(some(file), length);
}

uint32_t lent_run(struct lent *lent, const uint8_t *file, size_t length, const uint8_t *turns, size_t turns_length)
{
    return tampermauve_run(some(file), length, some(turns), turns_length, lent->memory, sizeof lent->memory, lent->log,
                           sizeof lent->log, lent->report, sizeof lent->report, lent->work, sizeof lent->work);
}

size_t steps_of(const uint8_t *file, size_t length)
{
    size_t steps = 0;
    for (size_t at = 0; at < length; at += TAMPERMAUVE_RECORD_LENGTH)
        steps += file[at + TAMPERMAUVE_RECORD_OP] > TAMPERMAUVE_OP_SLEEP_RECORD;
    return steps;
}

void turns_in_cycles(struct turns *turns, const uint8_t *file, size_t length)
{
    size_t workers = file[TAMPERMAUVE_RECORD_WORKER];
    turns->length = workers * tampermauve_ending_cycles(steps_of(file, length), workers);
    for (size_t i = 0; i < turns->length; i++)
        turns->at[i] = (uint8_t)(i % workers);
}

/* A small generator of numbers (splitmix). */
static uint64_t draw(uint64_t *state)
{
    uint64_t mixed = *state += UINT64_C(0x9E3779B97F4A7C15);
    mixed = (mixed ^ (mixed >> 30)) * UINT64_C(0xBF58476D1CE4E5B9);
    mixed = (mixed ^ (mixed >> 27)) * UINT64_C(0x94D049BB133111EB);
    return mixed ^ (mixed >> 31);
}

static void shuffle(uint8_t *cycle, size_t workers, uint64_t *state)
{
    for (size_t last = workers - 1; last > 0; last--) {
        size_t other = (size_t)(draw(state) % (last + 1));
        uint8_t kept = cycle[last];
        cycle[last] = cycle[other];
        cycle[other] = kept;
    }
}

void turns_by_seed(struct turns *turns, const uint8_t *file, size_t length, uint64_t seed)
{
    size_t workers = file[TAMPERMAUVE_RECORD_WORKER];
    turns_in_cycles(turns, file, length);
    for (size_t at = 0; at < turns->length; at += workers)
        shuffle(turns->at + at, workers, &seed);
}
