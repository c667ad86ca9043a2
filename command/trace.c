#include "trace.h"

#include <stdbool.h>
#include <stdio.h>
#include <stdlib.h>
#include <string.h>

#include "files.h"

/* A run that grows by one turn at a time, of those that move. */
struct play {
    struct trace *trace;
    const uint8_t *file;
    size_t length;
    struct bytes kept;   /* the turns that moved so far */
    struct lent *before; /* what they leave */
    struct lent *after;  /* what they leave with the turn that is tried */
    unsigned passing;    /* a bit for each worker whose turn has passed since the last move */
};

static void expect(bool holds, const char *what)
{
    if (!holds) {
        fprintf(stderr, "tampermauve: this cannot be, please report it: %s\n", what);
        exit(TROUBLE);
    }
}

static void run_from_start(const struct play *play, struct lent *lent, const uint8_t *turns, size_t turns_length)
{
    memcpy(lent->memory, play->trace->memory, sizeof lent->memory);
    expect(lent_run(lent, play->file, play->length, turns, turns_length) == TAMPERMAUVE_ACCEPTED,
           "a run of an accepted plan is refused");
}

static unsigned moves_in(const struct lent *lent)
{
    return tampermauve_word(lent->report, TAMPERMAUVE_REPORT_MOVES);
}

static bool is_going(const struct lent *lent)
{
    return lent->report[TAMPERMAUVE_REPORT_END] == TAMPERMAUVE_END_GOING;
}

static size_t add_changes(struct play *play)
{
    size_t count = 0;
    for (unsigned at = 0; at < TAMPERMAUVE_MEMORY_LENGTH; at++) {
        struct change change = {at, play->before->memory[at], play->after->memory[at]};
        if (change.before != change.after) {
            bytes_add(&play->trace->changes, &change, sizeof change);
            count++;
        }
    }
    return count;
}

/* What the last of the kept turns did: it is the difference between the runs without it and with it. */
static void add_move(struct play *play, size_t turn)
{
    struct move move;
    unsigned records = tampermauve_word(play->after->report, TAMPERMAUVE_REPORT_RECORDS);
    memset(&move, 0, sizeof move);
    move.worker = play->kept.at[play->kept.length - 1];
    move.turn = turn;
    move.round = tampermauve_word(play->before->report, TAMPERMAUVE_REPORT_ROUNDS) + 1u;
    if (records > tampermauve_word(play->before->report, TAMPERMAUVE_REPORT_RECORDS)) {
        move.kind = SYNCHRONISING_STEP;
        move.record = records;
    }
    move.changes = play->trace->changes.length / sizeof(struct change);
    move.changes_length = add_changes(play);
    memcpy(move.fates, play->after->report + TAMPERMAUVE_REPORT_FATES, sizeof move.fates);
    bytes_add(&play->trace->moves, &move, sizeof move);
}

/* Tries a turn behind those that are kept. It is kept if it moves. One that passes changes nothing, so that another turn of the
 * same worker would pass as well until somebody has moved. */
static void try_turn(struct play *play, uint8_t worker, size_t turn)
{
    struct lent *with = play->after;
    if (play->passing >> worker & 1u)
        return;
    bytes_add(&play->kept, &worker, 1);
    run_from_start(play, with, play->kept.at, play->kept.length);
    if (moves_in(with) == moves_in(play->before)) {
        play->kept.length--;
        play->passing |= 1u << worker;
        return;
    }
    add_move(play, turn);
    play->passing = 0;
    play->after = play->before;
    play->before = with;
}

static void play_list(struct play *play, const uint8_t *turns, size_t length)
{
    for (size_t i = 0; i < length && is_going(play->before); i++)
        try_turn(play, turns[i], i + 1);
    play->trace->given = trace_moves(play->trace);
}

/* The turns that moved must leave what the whole list leaves. */
static void compare_with_whole_list(const struct play *play, const uint8_t *turns, size_t length)
{
    struct lent *whole = &play->trace->left;
    run_from_start(play, whole, turns, length);
    expect(memcmp(whole->memory, play->before->memory, sizeof whole->memory) == 0, "the turns that moved leave another memory");
    expect(memcmp(whole->log, play->before->log, sizeof whole->log) == 0, "the turns that moved leave another log");
    expect(memcmp(whole->report, play->before->report, sizeof whole->report) == 0, "the turns that moved leave another report");
}

/* Whole cycles, until the plan ends: they tell which phase a round was in where the given list ended. */
static void play_on(struct play *play)
{
    size_t turns = 0;
    for (; turns < TAMPERMAUVE_ENDING_TURNS && is_going(play->before); turns++)
        try_turn(play, (uint8_t)(turns % play->trace->workers), 0);
    expect(!is_going(play->before), "whole cycles do not end the plan");
}

static struct move *move_at(const struct trace *trace, size_t index)
{
    return (struct move *)(void *)trace->moves.at + index;
}

/* Before the fence every worker's last move is its arrival. */
static void mark_arrivals(const struct trace *trace, const struct round *round)
{
    unsigned arrived = 0;
    for (size_t i = round->fence; i > round->first; i--) {
        struct move *move = move_at(trace, i - 1);
        if (!(arrived >> move->worker & 1u))
            move->kind = ARRIVAL;
        arrived |= 1u << move->worker;
    }
}

static struct round round_from(const struct trace *trace, size_t first)
{
    struct round round = {first, first, first};
    unsigned number = move_at(trace, first)->round;
    while (round.end < trace_moves(trace) && move_at(trace, round.end)->round == number)
        round.end++;
    while (round.fence < round.end && move_at(trace, round.fence)->record == 0)
        round.fence++;
    return round;
}

static void divide_into_rounds(struct trace *trace)
{
    size_t first = 0;
    while (first < trace_moves(trace)) {
        struct round round = round_from(trace, first);
        mark_arrivals(trace, &round);
        bytes_add(&trace->rounds, &round, sizeof round);
        first = round.end;
    }
}

struct trace *trace_of(const uint8_t *file, size_t length, const uint8_t *memory, const uint8_t *turns, size_t turns_length)
{
    struct trace *trace = memory_for(1, sizeof *trace);
    struct lent *lent = memory_for(2, sizeof *lent);
    struct play play = {trace, file, length, {NULL, 0, 0}, lent, lent + 1, 0};
    trace->workers = file[TAMPERMAUVE_RECORD_WORKER];
    trace->memory = memory;
    trace->turns = turns_length;
    run_from_start(&play, play.before, NULL, 0);
    memcpy(trace->fates, play.before->report + TAMPERMAUVE_REPORT_FATES, sizeof trace->fates);
    trace->sum = tampermauve_sum(play.before->report);
    play_list(&play, turns, turns_length);
    compare_with_whole_list(&play, turns, turns_length);
    play_on(&play);
    divide_into_rounds(trace);
    bytes_free(&play.kept);
    free(lent);
    return trace;
}

void trace_free(struct trace *trace)
{
    bytes_free(&trace->moves);
    bytes_free(&trace->changes);
    bytes_free(&trace->rounds);
    free(trace);
}

size_t trace_moves(const struct trace *trace)
{
    return trace->moves.length / sizeof(struct move);
}

const struct move *trace_move(const struct trace *trace, size_t index)
{
    return move_at(trace, index);
}

const struct change *trace_change(const struct trace *trace, size_t index)
{
    return (const struct change *)(const void *)trace->changes.at + index;
}

unsigned trace_fate(const struct trace *trace, size_t move, unsigned worker)
{
    return move > 0 ? trace_move(trace, move - 1)->fates[worker] : trace->fates[worker];
}

unsigned trace_released_from(const struct trace *trace, size_t move, unsigned worker)
{
    bool is_going_on = trace_fate(trace, move + 1, worker) == TAMPERMAUVE_FATE_GOING;
    return is_going_on ? trace_fate(trace, move, worker) : TAMPERMAUVE_FATE_GOING;
}

size_t trace_rounds(const struct trace *trace)
{
    size_t rounds = tampermauve_word(trace->left.report, TAMPERMAUVE_REPORT_ROUNDS);
    return is_going(&trace->left) ? rounds + 1 : rounds;
}

const struct round *trace_round(const struct trace *trace, size_t index)
{
    return (const struct round *)(const void *)trace->rounds.at + index;
}

size_t trace_records(const struct trace *trace)
{
    return tampermauve_word(trace->left.report, TAMPERMAUVE_REPORT_RECORDS);
}

const uint8_t *trace_record(const struct trace *trace, size_t number)
{
    return trace->left.log + (number - 1) * TAMPERMAUVE_ENTRY_LENGTH;
}

unsigned trace_end(const struct trace *trace)
{
    return trace->left.report[TAMPERMAUVE_REPORT_END];
}

const struct move *trace_move_of_record(const struct trace *trace, size_t number)
{
    size_t index = 0;
    while (trace_move(trace, index)->record != number)
        index++;
    return trace_move(trace, index);
}
