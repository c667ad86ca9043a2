/* Refusals in words. */
#ifndef REFUSALS_H
#define REFUSALS_H

#include <stddef.h>
#include <stdint.h>

#include "bytes.h"
#include "lent.h"

/* Adds the rule that a file breaks, in one line. */
void refusal_print(struct bytes *words, const uint8_t *file, size_t length, uint32_t answer);

/* Adds the rule that a list of turns breaks. */
void turns_refusal_print(struct bytes *words, const uint8_t *file, const struct turns *turns, uint32_t answer);

#endif
