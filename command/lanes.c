#include "lanes.h"

#include <stdbool.h>
#include <string.h>

/* A character's advance, in thousandths of the size: no wider in the page's fonts. */
enum { ADVANCE = 603 };

int characters_in(int width, int size)
{
    return width * 1000 / (ADVANCE * size);
}

int width_of(int characters, int size)
{
    return characters * ADVANCE * size / 1000;
}

void picture_measure(struct picture *picture)
{
    static const int lane_widths[] = {176, 176, 176, 176, 156, 140, 126, 117};
    static const int column_widths[] = {260, 260, 260, 260, 260, 260, 228, 174};
    unsigned workers = picture->trace->workers;
    picture->lane = lane_widths[workers - 1];
    picture->column = column_widths[workers - 1];
    picture->width = GUTTER + (int)workers * picture->lane + picture->column;
}

int lane_left(const struct picture *picture, unsigned worker)
{
    return GUTTER + (int)worker * picture->lane;
}

int bar_middle(const struct picture *picture, unsigned worker)
{
    return lane_left(picture, worker) + BAR_AT;
}

static bool moves_later(const struct trace *trace, const struct round *round, size_t move, unsigned worker)
{
    size_t at = move > round->fence ? move : round->fence;
    while (at < round->end && trace_move(trace, at)->worker != worker)
        at++;
    return at < round->end;
}

enum lane_state lane_state_at(const struct trace *trace, const struct round *round, size_t move, unsigned worker)
{
    switch (trace_fate(trace, move, worker)) {
    case TAMPERMAUVE_FATE_GOING:
        if (!moves_later(trace, round, move, worker))
            return LANE_NEXT;
        return move < round->fence ? LANE_RUNS : LANE_LISTED;
    case TAMPERMAUVE_FATE_ON_CONDITION:
        return LANE_CONDITION;
    case TAMPERMAUVE_FATE_AT_BARRIER:
        return LANE_BARRIER;
    case TAMPERMAUVE_FATE_ASLEEP:
        return LANE_ASLEEP;
    default:
        return LANE_GONE;
    }
}

static void draw_bar(struct picture *picture, const char *class, unsigned worker, int half, int from, int to)
{
    bytes_print(picture->page, "<rect class='ink %s' x='%d' y='%d' width='%d' height='%d'/>\n", class,
                bar_middle(picture, worker) - half, from, 2 * half, to - from);
}

static void draw_line(struct picture *picture, const char *class, unsigned worker, int from, int to)
{
    bytes_print(picture->page, "<path class='ink %s' d='M%d %dV%d'/>\n", class, bar_middle(picture, worker), from, to);
}

static void draw_lane(struct picture *picture, unsigned worker, int to)
{
    enum { THIN_HALF = 4 };
    int from = picture->lanes[worker].from;
    switch (picture->lanes[worker].state) {
    case LANE_RUNS:
        draw_bar(picture, "runs", worker, THIN_HALF, from, to);
        break;
    case LANE_LISTED:
        draw_line(picture, "listed", worker, from, to);
        break;
    case LANE_TOKEN:
        draw_bar(picture, "token", worker, BAR_HALF, from, to);
        break;
    case LANE_NEXT:
        draw_line(picture, "next", worker, from, to);
        break;
    case LANE_CONDITION:
        draw_bar(picture, "condition", worker, BAR_HALF, from, to);
        break;
    case LANE_BARRIER:
        draw_bar(picture, "barrier", worker, BAR_HALF, from, to);
        break;
    case LANE_ASLEEP:
        draw_line(picture, "asleep", worker, from, to);
        break;
    case LANE_GONE:
        break;
    }
}

void lane_set(struct picture *picture, unsigned worker, enum lane_state state, int y)
{
    struct lane *lane = &picture->lanes[worker];
    if (lane->state == state)
        return;
    if (y > lane->from)
        draw_lane(picture, worker, y);
    lane->state = state;
    lane->from = y;
}

void lanes_begin(struct picture *picture, int y)
{
    for (unsigned worker = 0; worker < picture->trace->workers; worker++) {
        picture->lanes[worker].state = LANE_GONE;
        picture->lanes[worker].from = y;
    }
}

void lanes_end(struct picture *picture, int y)
{
    for (unsigned worker = 0; worker < picture->trace->workers; worker++)
        lane_set(picture, worker, LANE_GONE, y);
}

void lanes_set_others(struct picture *picture, const struct round *round, size_t move, unsigned but, int y)
{
    for (unsigned worker = 0; worker < picture->trace->workers; worker++)
        if (worker != but)
            lane_set(picture, worker, lane_state_at(picture->trace, round, move, worker), y);
}

void text_in(struct bytes *page, const char *class, int x, int y, int room, const char *text)
{
    int most = characters_in(room, TEXT_SIZE);
    bytes_print(page, "<text class='%s' x='%d' y='%d'>", class, x, y);
    if ((int)strlen(text) <= most)
        bytes_print(page, "%s</text>\n", text);
    else
        bytes_print(page, "%.*s&#8230;</text>\n", most - 1, text);
}
