/* A run in words: what came of a step, what became of a worker, how the plan ended. */
#ifndef WORDS_H
#define WORDS_H

#include <stdbool.h>

#include "bytes.h"
#include "trace.h"

/* A log record as the picture has it: "lock 3" and "holds 1". The outcome is empty where the step says it all. */
struct label {
    char step[24];
    char outcome[24];
};

struct label label_of(const uint8_t *entry);

/* What an outcome says, as a table has it. */
void outcome_words(struct bytes *page, const uint8_t *entry);

bool is_failure(const uint8_t *entry);

struct phrase {
    char text[24];
};

/* What a worker's fate was before a move: "on condition 3", "exited"; an empty text if it was going. */
struct phrase fate_phrase(const struct trace *trace, size_t move, unsigned worker);

const char *end_word(unsigned end);

/* "1 round", "2 rounds". */
void count_words(struct bytes *page, size_t count, const char *one, const char *many);

/* A text from outside, with nothing in it that a browser reads as markup. */
void escaped(struct bytes *page, const char *text);

/* A change, as "2046: 00->1F" with an arrow. */
void change_words(struct bytes *page, const struct change *change);

#endif
