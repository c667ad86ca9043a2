#include "rows.h"

#include <stdio.h>
#include <stdlib.h>
#include <string.h>

#include "words.h"

enum { OWN_HEIGHT = 15, STEP_HEIGHT = 32, RELEASE_HEIGHT = 6, REST_HEIGHT = 6, PASS_HEIGHT = 15 };
enum { LINE_ONE = 13, LINE_ONLY = 20, LINE_TWO = 26, MARK_MIDDLE = 16, RELEASE_AT = 33 };

static bool releases_anyone(const struct trace *trace, size_t move)
{
    unsigned worker = 0;
    while (worker < trace->workers && trace_released_from(trace, move, worker) == TAMPERMAUVE_FATE_GOING)
        worker++;
    return worker < trace->workers;
}

static struct row row_from(const struct trace *trace, const struct round *round, size_t first, size_t end)
{
    struct row row = {first, first, end, false, false};
    while (row.record < end && trace_move(trace, row.record)->record == 0)
        row.record++;
    if (row.record < end) {
        row.end = row.record + 1;
        row.releases = releases_anyone(trace, row.record);
        row.gives_up = row.end == round->end || trace_move(trace, row.end)->worker != trace_move(trace, first)->worker;
    }
    return row;
}

struct bytes rows_of(const struct trace *trace, const struct round *round)
{
    struct bytes rows = {NULL, 0, 0};
    size_t end = round->end < trace->given ? round->end : trace->given;
    size_t first = round->fence;
    while (first < end) {
        struct row row = row_from(trace, round, first, end);
        bytes_add(&rows, &row, sizeof row);
        first = row.end;
    }
    return rows;
}

static int own_height(const struct row *row)
{
    return row->record > row->first ? OWN_HEIGHT : 0;
}

static int step_height(const struct row *row)
{
    if (row->record == row->end)
        return REST_HEIGHT;
    return row->releases ? STEP_HEIGHT + RELEASE_HEIGHT : STEP_HEIGHT;
}

int row_height(const struct row *row)
{
    return own_height(row) + step_height(row) + (row->gives_up ? PASS_HEIGHT : 0);
}

static void draw_own_steps(struct picture *picture, const struct row *row, unsigned worker, int y)
{
    char words[32];
    size_t steps = row->record - row->first;
    if (steps == 0)
        return;
    snprintf(words, sizeof words, "+%lu %s", (unsigned long)steps, steps == 1 ? "step" : "steps");
    text_in(&picture->over, "small", lane_left(picture, worker) + TEXT_AT, y + 12, picture->lane - TEXT_AT, words);
}

/* On one line if it has room there, else on two. */
static void draw_label(struct picture *picture, const uint8_t *entry, int x, int y)
{
    struct label label = label_of(entry);
    int room = picture->lane - TEXT_AT - 3;
    const char *class = is_failure(entry) ? "failed" : "outcome";
    struct bytes *over = &picture->over;
    if (label.outcome[0] == '\0') {
        text_in(over, "step", x, y + LINE_ONLY, room, label.step);
    } else if ((int)(strlen(label.step) + strlen(label.outcome) + 3) <= characters_in(room, TEXT_SIZE)) {
        bytes_print(over, "<text class='step' x='%d' y='%d'>%s <tspan class='%s'>&#183; %s</tspan></text>\n", x, y + LINE_ONLY,
                    label.step, class, label.outcome);
    } else {
        text_in(over, "step", x, y + LINE_ONE, room, label.step);
        text_in(over, class, x, y + LINE_TWO, room, label.outcome);
    }
}

static void draw_shape(struct picture *picture, const struct move *move, const uint8_t *entry, int y)
{
    int x = bar_middle(picture, move->worker), bottom = y - MARK_MIDDLE + STEP_HEIGHT;
    if (is_failure(entry))
        bytes_print(&picture->over, "<circle class='mark cross-ground' cx='%d' cy='%d' r='9'/>"
                                    "<path class='cross' d='M%d %dl10 10m0 -10l-10 10'/>\n", x, y, x - 5, y - 5);
    else if (move->fates[move->worker] == TAMPERMAUVE_FATE_EXITED)
        bytes_print(&picture->over, "<rect class='mark' x='%d' y='%d' width='9' height='9'/>"
                                    "<path class='leaves' d='M%d %dh24'/>\n", x - 4, y - 4, x - 12, bottom);
    else
        bytes_print(&picture->over, "<circle class='mark' cx='%d' cy='%d' r='4.5'/>\n", x, y);
}

/* The mark of a step, with its label. It leads to the row of its record in the table, and a pointer on it shows the record. */
static void draw_mark(struct picture *picture, const struct move *move, int y)
{
    const uint8_t *entry = trace_record(picture->trace, move->record);
    struct bytes *over = &picture->over;
    unsigned long number = (unsigned long)move->record;
    struct label label = label_of(entry);
    bytes_print(over, "<a href='#record-%lu' tabindex='-1'><g id='mark-%lu' class='step-mark'><title>record %lu: round %u, "
                      "worker %u, op %u, number %u, outcome %u (%s: ", number, number, number, move->round, move->worker,
                (unsigned)entry[TAMPERMAUVE_ENTRY_OP], (unsigned)entry[TAMPERMAUVE_ENTRY_NUMBER],
                (unsigned)entry[TAMPERMAUVE_ENTRY_OUTCOME], label.step);
    outcome_words(over, entry);
    bytes_print(over, "), turn %lu, ", (unsigned long)move->turn);
    count_words(over, move->changes_length, "byte changed", "bytes changed");
    bytes_print(over, "</title>\n");
    draw_shape(picture, move, entry, y + MARK_MIDDLE);
    draw_label(picture, entry, lane_left(picture, move->worker) + TEXT_AT, y);
    bytes_print(over, "</g></a>\n");
}

static void draw_numbers(struct picture *picture, const struct move *move, int y)
{
    bytes_print(&picture->over, "<text class='number' x='%d' y='%d'>%lu</text>"
                                "<text class='turn' x='%d' y='%d'>%lu</text>\n", RECORD_END, y + LINE_ONLY,
                (unsigned long)move->record, TURN_END, y + LINE_ONLY, (unsigned long)move->turn);
}

/* As many of the changed bytes as two lines have room for; the last place tells how many more there are. */
static void draw_changes(struct picture *picture, const struct move *move, int y)
{
    enum { PLACE = 13 }; /* characters: "2046: 00>1F", and two between */
    int across = (characters_in(picture->column - 12, TEXT_SIZE) + 2) / PLACE;
    int left = lane_left(picture, picture->trace->workers) + 8;
    size_t places = 2 * (size_t)across;
    size_t shown = move->changes_length <= places ? move->changes_length : places - 1;
    size_t lines = move->changes_length > (size_t)across ? 2 : 1;
    for (size_t i = 0; i < places && i < move->changes_length; i++) {
        int x = left + width_of((int)i % across * PLACE, TEXT_SIZE);
        int line = lines == 1 ? LINE_ONLY : i < (size_t)across ? LINE_ONE : LINE_TWO;
        bytes_print(&picture->over, "<text class='change' x='%d' y='%d'>", x, y + line);
        if (i < shown)
            change_words(&picture->over, trace_change(picture->trace, move->changes + i));
        else
            bytes_print(&picture->over, "&#8230; %lu more", (unsigned long)(move->changes_length - shown));
        bytes_print(&picture->over, "</text>\n");
    }
}

/* A line from the holder to each worker that its step wakes, releases or starts. */
static void draw_releases(struct picture *picture, const struct round *round, size_t move, int y)
{
    int from = bar_middle(picture, trace_move(picture->trace, move)->worker);
    for (unsigned worker = 0; worker < picture->trace->workers; worker++) {
        int to = bar_middle(picture, worker), back = to > from ? -1 : 1;
        if (trace_released_from(picture->trace, move, worker) == TAMPERMAUVE_FATE_GOING)
            continue;
        lane_set(picture, worker, lane_state_at(picture->trace, round, move + 1, worker), y);
        bytes_print(&picture->over, "<path class='ink release' d='M%d %dH%d'/><path class='release-end' d='M%d %dl%d -5v10z'/>\n",
                    from, y, to + back * (BAR_HALF + 4), to + back * BAR_HALF, y, back * 8);
    }
}

/* The token's way from its holder to the next one. */
static void draw_pass(struct picture *picture, const struct round *round, const struct row *row, int y)
{
    int from = bar_middle(picture, trace_move(picture->trace, row->first)->worker);
    int to;
    if (row->end >= round->end)
        return;
    to = bar_middle(picture, trace_move(picture->trace, row->end)->worker);
    bytes_print(&picture->over, "<path class='ink pass' d='M%d %dV%dH%dV%d'/><path class='pass-end' d='M%d %dl-6 -6h12z'/>\n",
                from, y, y + 6, to, y + PASS_HEIGHT - 5, to, y + PASS_HEIGHT);
}

static void draw_step(struct picture *picture, const struct round *round, const struct row *row, int y)
{
    const struct move *move = trace_move(picture->trace, row->record);
    draw_numbers(picture, move, y);
    draw_mark(picture, move, y);
    draw_changes(picture, move, y);
    draw_releases(picture, round, row->record, y + RELEASE_AT);
}

void row_draw(struct picture *picture, const struct round *round, const struct row *row, int y)
{
    unsigned worker = trace_move(picture->trace, row->first)->worker;
    lanes_set_others(picture, round, row->first, worker, y);
    lane_set(picture, worker, LANE_TOKEN, y);
    draw_own_steps(picture, row, worker, y);
    y += own_height(row);
    if (row->record < row->end)
        draw_step(picture, round, row, y);
    y += step_height(row);
    if (row->gives_up) {
        lanes_set_others(picture, round, row->end, NO_WORKER, y);
        draw_pass(picture, round, row, y);
    }
}
