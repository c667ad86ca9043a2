#include "bands.h"

#include <stdbool.h>

#include "fence.h"
#include "lanes.h"
#include "rows.h"
#include "words.h"

enum { OPEN_ROWS = 40, FOOT_HEIGHT = 8, END_HEIGHT = 38 };

/* A picture of a part of a round: a round with many rows has several, so that none is higher than a printed page. */
struct piece {
    const struct round *round;
    const struct row *rows;
    size_t length;
    bool begins; /* it has the fence */
    bool ends;   /* it has the end of the run */
};

static int rows_height(const struct row *rows, size_t length)
{
    int height = 0;
    for (size_t i = 0; i < length; i++)
        height += row_height(&rows[i]);
    return height;
}

static int piece_height(const struct piece *piece)
{
    int height = HEAD_HEIGHT + (piece->begins ? FENCE_HEIGHT : 0) + (piece->ends ? END_HEIGHT : FOOT_HEIGHT);
    return height + rows_height(piece->rows, piece->length);
}

/* The height of a picture that fills an A4 page lying on its side, with the heading of its round above it. */
static int printed_height(const struct picture *picture)
{
    enum { PAPER_WIDTH = 1032, PAPER_HEIGHT = 660 };
    return picture->width > PAPER_WIDTH ? PAPER_HEIGHT * picture->width / PAPER_WIDTH : PAPER_HEIGHT;
}

/* Takes rows into a piece: so many that the pieces of what is left are about alike, and, if there is room, up to where the token
 * is given up. */
static void piece_fill(const struct picture *picture, struct piece *piece, size_t left)
{
    int room = printed_height(picture) - piece_height(piece);
    int whole = rows_height(piece->rows, left);
    int even = whole / ((whole + room - 1) / room + (whole == 0));
    int height = 0;
    while (piece->length < left) {
        const struct row *row = &piece->rows[piece->length];
        bool at_break = piece->length > 0 && row[-1].gives_up;
        if (height + row_height(row) > room || (height >= even && at_break))
            return;
        height += row_height(row);
        piece->length++;
    }
}

static void draw_grounds(struct picture *picture, int height)
{
    unsigned workers = picture->trace->workers;
    bytes_print(picture->page, "<rect class='column' x='0' y='0' width='%d' height='%d'/>\n", GUTTER, height);
    for (unsigned worker = 0; worker < workers; worker++)
        bytes_print(picture->page, "<rect class='lane%s' data-worker='%u' x='%d' y='0' width='%d' height='%d'/>\n",
                    worker % 2 == 0 ? " even" : "", worker, lane_left(picture, worker), picture->lane, height);
    bytes_print(picture->page, "<rect class='column' x='%d' y='0' width='%d' height='%d'/>\n", lane_left(picture, workers),
                picture->column, height);
}

static const char *end_sentence(unsigned end)
{
    static const char *const sentences[] = {"The list of turns ends here. The plan is still going.",
                                            "FINISHED: every worker exited, failed or sleeps.",
                                            "STUCK: nobody can move, and somebody still waits."};
    return sentences[end];
}

static void draw_end(struct picture *picture, int y)
{
    unsigned end = trace_end(picture->trace);
    bytes_print(&picture->over, "<path class='ink end%s' d='M0 %dH%dM0 %dH%d'/>\n", end == TAMPERMAUVE_END_GOING ? " going" : "",
                y + 6, picture->width, y + 10, picture->width);
    bytes_print(&picture->over, "<text class='wide' x='%d' y='%d'>%s</text>\n", GUTTER + 9, y + 27, end_sentence(end));
}

static void draw_rows(struct picture *picture, const struct piece *piece)
{
    int y = HEAD_HEIGHT;
    if (piece->begins) {
        fence_draw(picture, piece->round, y);
        y += FENCE_HEIGHT;
    }
    for (size_t i = 0; i < piece->length; i++) {
        row_draw(picture, piece->round, &piece->rows[i], y);
        y += row_height(&piece->rows[i]);
    }
    lanes_end(picture, piece->ends ? y : y + FOOT_HEIGHT);
    if (piece->ends)
        draw_end(picture, y);
}

static void piece_draw(struct picture *picture, const struct piece *piece)
{
    int height = piece_height(piece);
    size_t first = piece->begins ? piece->round->first : piece->rows[0].first;
    unsigned holder = piece->begins ? (unsigned)NO_WORKER : trace_move(picture->trace, first)->worker;
    bytes_print(picture->page, "<svg role='img' viewBox='0 0 %d %d' aria-label='Round %u%s: lanes of ", picture->width, height,
                trace_move(picture->trace, piece->round->first)->round, piece->begins ? "" : ", continued");
    count_words(picture->page, picture->trace->workers, "worker", "workers");
    bytes_print(picture->page, ", ");
    count_words(picture->page, piece->length, "row", "rows");
    bytes_print(picture->page, ". The table of log records tells the same.'>\n");
    draw_grounds(picture, piece->ends ? height - END_HEIGHT + 6 : height);
    lanes_begin(picture, HEAD_HEIGHT);
    heads_draw(picture, first, holder);
    draw_rows(picture, piece);
    bytes_add(picture->page, picture->over.at, picture->over.length);
    picture->over.length = 0;
    bytes_print(picture->page, "</svg>\n");
}

static void draw_pieces(struct picture *picture, const struct round *round, const struct bytes *rows, bool last_round)
{
    const struct row *first = (const struct row *)(const void *)rows->at;
    size_t count = rows->length / sizeof *first, drawn = 0;
    do {
        struct piece piece = {round, count > 0 ? first + drawn : NULL, 0, drawn == 0, last_round};
        piece_fill(picture, &piece, count - drawn);
        drawn += piece.length;
        piece.ends = last_round && drawn == count;
        piece_draw(picture, &piece);
    } while (drawn < count);
}

/* "exited: 0 1": the workers that got a fate by a step of their own in this round. */
static void write_fates(const struct trace *trace, const struct round *round, unsigned fate, const char *word, struct bytes *page)
{
    for (size_t i = round->fence; i < round->end && i < trace->given; i++) {
        const struct move *move = trace_move(trace, i);
        if (move->fates[move->worker] != fate)
            continue;
        bytes_print(page, "%s %u", word, move->worker);
        word = "";
    }
}

/* "woken: 0 1": the workers that another one's step in this round let go on from a fate. */
static void write_released(const struct trace *trace, const struct round *round, unsigned fate, const char *word,
                           struct bytes *page)
{
    for (size_t i = round->fence; i < round->end && i < trace->given; i++) {
        for (unsigned worker = 0; worker < trace->workers; worker++) {
            if (trace_released_from(trace, i, worker) != fate)
                continue;
            bytes_print(page, "%s %u", word, worker);
            word = "";
        }
    }
}

static void write_who(const struct trace *trace, const struct round *round, struct bytes *page)
{
    write_fates(trace, round, TAMPERMAUVE_FATE_ON_CONDITION, " &#183; on a condition:", page);
    write_released(trace, round, TAMPERMAUVE_FATE_ON_CONDITION, " &#183; woken:", page);
    write_fates(trace, round, TAMPERMAUVE_FATE_AT_BARRIER, " &#183; at a barrier:", page);
    write_released(trace, round, TAMPERMAUVE_FATE_AT_BARRIER, " &#183; released:", page);
    write_released(trace, round, TAMPERMAUVE_FATE_ASLEEP, " &#183; started:", page);
    write_fates(trace, round, TAMPERMAUVE_FATE_EXITED, " &#183; exited:", page);
    write_fates(trace, round, TAMPERMAUVE_FATE_FAILED, " &#183; FAILED:", page);
}

static size_t changes_in(const struct trace *trace, const struct round *round)
{
    size_t changes = 0;
    for (size_t i = round->fence; i < round->end && i < trace->given; i++)
        changes += trace_move(trace, i)->changes_length;
    return changes;
}

static size_t records_in(const struct trace *trace, const struct round *round)
{
    size_t records = 0;
    for (size_t i = round->fence; i < round->end && i < trace->given; i++)
        records += trace_move(trace, i)->record > 0;
    return records;
}

static void write_heading(const struct trace *trace, const struct round *round, bool open, struct bytes *page)
{
    unsigned number = trace_move(trace, round->first)->round;
    unsigned arrived = arrived_workers(trace, round), listed = listed_workers(trace, round);
    bytes_print(page, "<input class='fold' type='checkbox' id='fold-%u'%s>\n<h3><label for='fold-%u'>Round %u <span>", number,
                open ? " checked" : "", number, number);
    if (arrived < listed)
        bytes_print(page, "%u of ", arrived);
    bytes_print(page, "%u arrived &#183; ", listed);
    count_words(page, records_in(trace, round), "synchronising step", "synchronising steps");
    bytes_print(page, " &#183; ");
    count_words(page, changes_in(trace, round), "byte changed", "bytes changed");
    write_who(trace, round, page);
    bytes_print(page, "</span></label></h3>\n");
}

static size_t write_band(struct picture *picture, size_t index, bool open)
{
    const struct round *round = trace_round(picture->trace, index);
    struct bytes rows = rows_of(picture->trace, round);
    size_t length = rows.length / sizeof(struct row);
    bytes_print(picture->page, "<section class='band' id='round-%lu'>\n", (unsigned long)index + 1);
    write_heading(picture->trace, round, open, picture->page);
    bytes_print(picture->page, "<div class='body'>\n");
    draw_pieces(picture, round, &rows, index + 1 == trace_rounds(picture->trace));
    bytes_print(picture->page, "</div>\n</section>\n");
    bytes_free(&rows);
    return length;
}

void bands_write(const struct trace *trace, struct bytes *page)
{
    struct picture picture = {trace, page, {NULL, 0, 0}, 0, 0, 0, {{LANE_GONE, 0}}};
    size_t rows = 0;
    picture_measure(&picture);
    bytes_print(page, "<div class='bands' style='--wide:%dpx;--natural:%dpx'>\n",
                trace->workers <= 4 ? picture.width * 23 / 20 : picture.width, picture.width);
    for (size_t i = 0; i < trace_rounds(trace); i++)
        rows += write_band(&picture, i, rows < OPEN_ROWS);
    bytes_print(page, "</div>\n");
    bytes_free(&picture.over);
}
