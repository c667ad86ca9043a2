/* The rows of a round while the token goes round: one for each synchronising step, with the holder's own steps before it. */
#ifndef ROWS_H
#define ROWS_H

#include <stdbool.h>
#include <stddef.h>

#include "lanes.h"

struct row {
    size_t first;  /* the first move of the row */
    size_t record; /* the move that added a record; `end` if there is none, which only the last row may lack */
    size_t end;
    bool releases; /* its step lets others go on */
    bool gives_up; /* it is the holder's last row */
};

/* The rows that the given list reaches, of struct row. */
struct bytes rows_of(const struct trace *trace, const struct round *round);

int row_height(const struct row *row);

void row_draw(struct picture *picture, const struct round *round, const struct row *row, int y);

#endif
