/* What each turn of a run did. Every fact is read off calls of the library: runs of the first turns of the list, held against
 * each other. So a trace has no rules of its own. */
#ifndef TRACE_H
#define TRACE_H

#include <stddef.h>
#include <stdint.h>

#include "bytes.h"
#include "lent.h"

/* A byte of shared memory that a move changed. */
struct change {
    unsigned address;
    unsigned before;
    unsigned after;
};

enum move_kind { OWN_STEP, ARRIVAL, SYNCHRONISING_STEP };

struct move {
    enum move_kind kind;
    unsigned worker;
    unsigned round;
    size_t turn;           /* its place in the list of turns, the first being 1; 0 if it was played on */
    size_t record;         /* the number of its log record, the first being 1; 0 if it has none */
    size_t changes;        /* its first change */
    size_t changes_length; /* and how many there are */
    uint8_t fates[TAMPERMAUVE_WORKERS_LIMIT]; /* after it */
};

/* A round's moves are those from `first` to `end`. Before `fence` the list runs up to the fence; from there on the token goes
 * round. */
struct round {
    size_t first;
    size_t fence;
    size_t end;
};

struct trace {
    unsigned workers;
    size_t turns;          /* the length of the given list */
    size_t given;          /* how many moves it makes; those behind were played on, up to the plan's end */
    struct bytes moves;    /* of struct move */
    struct bytes changes;  /* of struct change */
    struct bytes rounds;   /* of struct round */
    const uint8_t *memory; /* at the start */
    uint32_t sum;          /* at the start */
    struct lent left;      /* what the given list leaves */
    uint8_t fates[TAMPERMAUVE_WORKERS_LIMIT]; /* at the start */
};

/* Follows a run of a file that is accepted, by turns that name its workers. `memory` is the starting memory, and stays in use.
 * The program ends, with a word and status 2, should the library's answers not fit together. */
struct trace *trace_of(const uint8_t *file, size_t length, const uint8_t *memory, const uint8_t *turns, size_t turns_length);

void trace_free(struct trace *trace);

size_t trace_moves(const struct trace *trace);
const struct move *trace_move(const struct trace *trace, size_t index);
const struct change *trace_change(const struct trace *trace, size_t index);

/* A worker's fate before a move. */
unsigned trace_fate(const struct trace *trace, size_t move, unsigned worker);

/* Whether a move lets another worker, which was on a condition, at a barrier or asleep, go on: its fate before, or 0 if not. */
unsigned trace_released_from(const struct trace *trace, size_t move, unsigned worker);

/* The rounds that are drawn: up to the one in which the given list ends. The first is 0. */
size_t trace_rounds(const struct trace *trace);
const struct round *trace_round(const struct trace *trace, size_t index);

/* The log records that the given list leaves, the first being 1, and the end code. */
size_t trace_records(const struct trace *trace);
const uint8_t *trace_record(const struct trace *trace, size_t number);
unsigned trace_end(const struct trace *trace);

/* The move of a log record. */
const struct move *trace_move_of_record(const struct trace *trace, size_t number);

#endif
