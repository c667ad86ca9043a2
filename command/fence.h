/* The upper part of a round: the lanes' heads, and how the list came to the fence. */
#ifndef FENCE_H
#define FENCE_H

#include <stdbool.h>

#include "lanes.h"

enum { HEAD_HEIGHT = 37, FENCE_HEIGHT = 50 };

/* The names of the lanes, with each worker's state before a move. `holder` has the token, if there is one. */
void heads_draw(struct picture *picture, size_t move, unsigned holder);

void fence_draw(struct picture *picture, const struct round *round, int y);

/* The moves of a worker on its way to the fence, as far as the given list makes them. */
struct way {
    size_t steps;
    size_t arrival; /* the turn; 0 if it has not arrived */
};

struct way way_to_fence(const struct trace *trace, const struct round *round, unsigned worker);

/* The workers of the list, and how many of them have arrived. */
unsigned listed_workers(const struct trace *trace, const struct round *round);
unsigned arrived_workers(const struct trace *trace, const struct round *round);

#endif
