/* The plans and turn lists that the measurement is made on. */
#ifndef SETS_H
#define SETS_H

#include <stddef.h>
#include <stdint.h>

#include "tampermauve.h"

enum { SET_FILE = TAMPERMAUVE_FILE_LIMIT, SET_TURNS = TAMPERMAUVE_TURNS_LIMIT, SET_CASES = 48, SETS_MOST = 40 };

/* One call. */
struct set_case {
    uint8_t *file;
    size_t file_len;
    uint8_t *turns;
    size_t turns_len;
};

/* Calls that are measured together. Or one call for all cases, whose files stand
 * back to back in `files` then; `files` is NULL in every other set. */
struct set {
    const char *name;
    int check_only;
    unsigned count;
    struct set_case cases[SET_CASES];
    uint8_t *files;
    size_t files_len;
    uint8_t lengths[SET_CASES * TAMPERMAUVE_LENGTH_BYTES];
};

/* Fills in the sets and gives their count. Turn lists that are costly to find
 * are made for all sets, or for the one set of a number alone. */
enum { ALL_SETS = -1 };
unsigned make_sets(struct set *sets, int only);

#endif
