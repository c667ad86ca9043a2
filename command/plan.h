/* A plan, read from its file or assembled from its text, with what the library's check says of it. */
#ifndef PLAN_H
#define PLAN_H

#include <stdbool.h>
#include <stdint.h>

#include "bytes.h"
#include "files.h"

struct plan {
    const char *name;
    struct bytes file;
    struct bytes lines; /* for each record its line in the text, as an unsigned; empty where there is no text */
    bool is_text;
    bool is_cut; /* the file goes on behind what was read; it is refused for its length all the same */
    uint32_t answer;
};

/* Reads a plan: a name that ends in .steps is that of a text, any other that of a plan file. REFUSED if a text has errors, which are
 * said on standard error; a plan that the check refuses is FINE here, and `answer` tells. */
enum status plan_read(const char *path, struct plan *plan);

/* Reads a plan as text, whatever its name. */
enum status text_read(const char *path, struct plan *plan);

/* Says on standard error why the plan is refused: its record, that record's line, and the rule. */
void plan_say_refusal(const struct plan *plan);

void plan_free(struct plan *plan);

#endif
