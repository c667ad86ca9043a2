#include "fence.h"

#include <stdio.h>

#include "words.h"

enum { STEPS_LINE = 14, ARRIVAL_TOP = 20, ARRIVAL_LINE = 30, FENCE_AT = 37, FENCE_THICK = 5, FENCE_LINE = 43 };

struct way way_to_fence(const struct trace *trace, const struct round *round, unsigned worker)
{
    struct way way = {0, 0};
    for (size_t i = round->first; i < round->fence && i < trace->given; i++) {
        const struct move *move = trace_move(trace, i);
        if (move->worker == worker && move->kind == ARRIVAL)
            way.arrival = move->turn;
        else if (move->worker == worker)
            way.steps++;
    }
    return way;
}

static bool is_listed(const struct trace *trace, const struct round *round, unsigned worker)
{
    return lane_state_at(trace, round, round->first, worker) == LANE_RUNS;
}

unsigned listed_workers(const struct trace *trace, const struct round *round)
{
    unsigned count = 0;
    for (unsigned worker = 0; worker < trace->workers; worker++)
        count += is_listed(trace, round, worker);
    return count;
}

unsigned arrived_workers(const struct trace *trace, const struct round *round)
{
    unsigned count = 0;
    for (unsigned worker = 0; worker < trace->workers; worker++)
        count += way_to_fence(trace, round, worker).arrival > 0;
    return count;
}

void heads_draw(struct picture *picture, size_t move, unsigned holder)
{
    int right = lane_left(picture, picture->trace->workers) + 8;
    struct bytes *over = &picture->over;
    bytes_print(over, "<text class='number' x='%d' y='15'>round %u</text><text class='turn' x='%d' y='29'>record</text>"
                      "<text class='turn' x='%d' y='29'>turn</text>\n", TURN_END, trace_move(picture->trace, move)->round,
                RECORD_END, TURN_END);
    for (unsigned worker = 0; worker < picture->trace->workers; worker++) {
        struct phrase state = fate_phrase(picture->trace, move, worker);
        int x = lane_left(picture, worker) + 9;
        bytes_print(over, "<text class='name' x='%d' y='15'>worker %u</text>\n", x, worker);
        text_in(over, "small", x, 29, picture->lane - 12, worker == holder ? "has the token" : state.text);
    }
    bytes_print(over, "<text class='name' x='%d' y='15'>bytes changed</text>"
                      "<text class='small' x='%d' y='29'>address: old&#8594;new</text>\n", right, right);
    bytes_print(over, "<path class='rule' d='M0 %d.5H%d'/>\n", HEAD_HEIGHT - 3, picture->width);
}

static void draw_arrival(struct picture *picture, unsigned worker, struct way way, int y)
{
    char words[32];
    int left = lane_left(picture, worker), x = bar_middle(picture, worker);
    struct bytes *over = &picture->over;
    snprintf(words, sizeof words, "%lu %s", (unsigned long)way.steps, way.steps == 1 ? "step" : "steps");
    text_in(over, "small", left + TEXT_AT, y + STEPS_LINE, picture->lane - TEXT_AT, way.steps > 0 ? words : "no step");
    if (way.arrival == 0) {
        text_in(over, "small", left + TEXT_AT, y + ARRIVAL_LINE, picture->lane - TEXT_AT, "not there yet");
        return;
    }
    snprintf(words, sizeof words, "turn %lu", (unsigned long)way.arrival);
    text_in(over, "small", left + TEXT_AT, y + ARRIVAL_LINE, picture->lane - TEXT_AT, words);
    bytes_print(over, "<path class='arrival' d='M%d %dh16l-8 %dz'/>\n", x - 8, y + ARRIVAL_TOP, FENCE_AT - ARRIVAL_TOP);
}

static void draw_fence(struct picture *picture, unsigned worker, bool full, int y)
{
    if (full)
        bytes_print(&picture->over, "<rect class='ink fence' x='%d' y='%d' width='%d' height='%d'/>\n",
                    lane_left(picture, worker) - 1, y + FENCE_AT, picture->lane + 2, FENCE_THICK);
    else
        bytes_print(&picture->over, "<path class='ink fence-open' d='M%d %dh%d'/>\n", lane_left(picture, worker),
                    y + FENCE_AT + FENCE_THICK / 2, picture->lane);
}

/* The list, in the order in which its workers get the token: those who arrived, each at its first move behind the fence. */
static void draw_list(struct picture *picture, const struct round *round, bool full, int y)
{
    int x = lane_left(picture, picture->trace->workers) + 8;
    unsigned seen = 0;
    bytes_print(&picture->over, "<text class='small' x='%d' y='%d'>list:", x, y + STEPS_LINE);
    for (size_t i = round->fence; i < round->end; i++) {
        unsigned worker = trace_move(picture->trace, i)->worker;
        if (!(seen >> worker & 1u) && is_listed(picture->trace, round, worker))
            bytes_print(&picture->over, " %u", worker);
        seen |= 1u << worker;
    }
    bytes_print(&picture->over, "</text>\n");
    if (!full)
        bytes_print(&picture->over, "<text class='small' x='%d' y='%d'>not all are there yet</text>\n", x, y + FENCE_LINE);
}

void fence_draw(struct picture *picture, const struct round *round, int y)
{
    bool full = picture->trace->given >= round->fence;
    lanes_set_others(picture, round, round->first, NO_WORKER, y);
    bytes_print(&picture->over, "<text class='turn' x='%d' y='%d'>own steps</text><text class='turn' x='%d' y='%d'>arrival"
                                "</text><text class='number' x='%d' y='%d'>fence</text>\n", TURN_END, y + STEPS_LINE,
                TURN_END, y + ARRIVAL_LINE, TURN_END, y + FENCE_LINE);
    for (unsigned worker = 0; worker < picture->trace->workers; worker++) {
        if (!is_listed(picture->trace, round, worker))
            continue;
        draw_arrival(picture, worker, way_to_fence(picture->trace, round, worker), y);
        draw_fence(picture, worker, full, y);
        lane_set(picture, worker, LANE_GONE, y + ARRIVAL_TOP);
    }
    draw_list(picture, round, full, y);
    if (full) {
        unsigned holder = trace_move(picture->trace, round->fence)->worker;
        lanes_set_others(picture, round, round->fence, holder, y + FENCE_AT + FENCE_THICK);
        lane_set(picture, holder, LANE_TOKEN, y + FENCE_AT + FENCE_THICK);
    }
}
