/* The lanes of a picture: a column for each worker, in which its state is drawn downwards. */
#ifndef LANES_H
#define LANES_H

#include <stddef.h>

#include "bytes.h"
#include "trace.h"

enum {
    GUTTER = 90,      /* left of the lanes: the numbers of records and turns */
    RECORD_END = 43,  /* where these numbers end */
    TURN_END = 82,
    BAR_AT = 16,      /* from a lane's left border to the middle of its bar */
    BAR_HALF = 7,
    TEXT_AT = 29,     /* from a lane's left border to its texts */
    TEXT_SIZE = 11,
    SMALL_SIZE = 10
};

enum lane_state {
    LANE_GONE,      /* nothing is drawn: it has exited or failed */
    LANE_RUNS,      /* by itself, before the fence */
    LANE_LISTED,    /* waits for the token */
    LANE_TOKEN,     /* has the token */
    LANE_NEXT,      /* in the next round's list */
    LANE_CONDITION, /* waits on a condition */
    LANE_BARRIER,   /* is queued at a barrier */
    LANE_ASLEEP
};

struct lane {
    enum lane_state state;
    int from;
};

/* A picture that is being drawn. Lengths are those of the picture's own coordinates. */
struct picture {
    const struct trace *trace;
    struct bytes *page;
    struct bytes over; /* what lies above the lanes, and is drawn behind them therefore */
    int lane;          /* the width of a lane */
    int column;        /* the width of the column of changed bytes, right of the lanes */
    int width;
    struct lane lanes[TAMPERMAUVE_WORKERS_LIMIT];
};

void picture_measure(struct picture *picture);

int lane_left(const struct picture *picture, unsigned worker);
int bar_middle(const struct picture *picture, unsigned worker);

/* What a worker's lane shows before a move of a round. */
enum lane_state lane_state_at(const struct trace *trace, const struct round *round, size_t move, unsigned worker);

/* From a height on, a lane shows a state. Lanes begin with nothing in them, and are drawn to the end by lanes_end. */
void lanes_begin(struct picture *picture, int y);
void lane_set(struct picture *picture, unsigned worker, enum lane_state state, int y);
void lanes_end(struct picture *picture, int y);

/* All lanes but one show their states before a move. */
void lanes_set_others(struct picture *picture, const struct round *round, size_t move, unsigned but, int y);

enum { NO_WORKER = 255 };

/* How many characters of a size a width has room for, and how wide so many are. */
int characters_in(int width, int size);
int width_of(int characters, int size);

/* A text in so wide a room: it is cut, and says so, if it is longer. */
void text_in(struct bytes *page, const char *class, int x, int y, int room, const char *text);

#endif
