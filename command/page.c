#include "page.h"

#include "bands.h"
#include "tables.h"
#include "trace.h"
#include "words.h"

static void write_head(const char *title, struct bytes *page)
{
    bytes_print(page, "<!DOCTYPE html>\n<html lang='en'>\n<head>\n<meta charset='utf-8'>\n"
                      "<meta name='viewport' content='width=device-width, initial-scale=1'>\n<title>");
    escaped(page, title);
    bytes_print(page, "</title>\n");
    style_write(page);
    bytes_print(page, "</head>\n");
}

/* The hatchings, which all pictures share. */
static void write_patterns(struct bytes *page)
{
    bytes_print(page, "<svg width='0' height='0' style='position:absolute' aria-hidden='true'><defs>\n"
                      "<pattern id='slanted' width='6' height='6' patternUnits='userSpaceOnUse' patternTransform='rotate(45)'>"
                      "<rect width='6' height='6' fill='#fff'/><rect width='2.4' height='6' fill='#b06a00'/></pattern>\n"
                      "<pattern id='level' width='6' height='5' patternUnits='userSpaceOnUse'>"
                      "<rect width='6' height='5' fill='#fff'/><rect width='6' height='2' fill='#5b4a8a'/></pattern>\n"
                      "</defs></svg>\n");
}

static size_t workers_with(const struct trace *trace, unsigned fate)
{
    size_t count = 0;
    for (unsigned worker = 0; worker < trace->workers; worker++)
        count += trace->left.report[TAMPERMAUVE_REPORT_FATES + worker] == fate;
    return count;
}

/* ": 3 exited, 1 failed." */
static void write_fate_counts(const struct trace *trace, struct bytes *page)
{
    static const char *const words[] = {"still going",    "exited",       "<strong>failed</strong>",
                                        "on a condition", "at a barrier", "asleep"};
    const char *before = ": ";
    for (unsigned fate = 0; fate < sizeof words / sizeof words[0]; fate++) {
        size_t count = workers_with(trace, fate);
        if (count == 0)
            continue;
        bytes_print(page, "%s%lu %s", before, (unsigned long)count, words[fate]);
        before = ", ";
    }
    bytes_print(page, ". ");
}

static void write_summary(const struct trace *trace, struct bytes *page)
{
    size_t rounds = tampermauve_word(trace->left.report, TAMPERMAUVE_REPORT_ROUNDS);
    bytes_print(page, "<p class='summary'>The plan of ");
    count_words(page, trace->workers, "worker", "workers");
    bytes_print(page, trace_end(trace) == TAMPERMAUVE_END_GOING ? " is <strong>still %s</strong> where its list of turns ends"
                                                                : " is <strong>%s</strong>", end_word(trace_end(trace)));
    write_fate_counts(trace, page);
    bytes_print(page, "Of ");
    count_words(page, trace->turns, "turn", "turns");
    bytes_print(page, " %lu moved; ", (unsigned long)trace->given);
    count_words(page, rounds, "round was completed", "rounds were completed");
    bytes_print(page, ", and the log has ");
    count_words(page, trace_records(trace), "record", "records");
    bytes_print(page, ". The total of all words at even addresses was %lu at the start and is %lu at the end.</p>\n",
                (unsigned long)trace->sum, (unsigned long)tampermauve_sum(trace->left.report));
}

static void write_picture(const struct trace *trace, struct bytes *page)
{
    bytes_print(page, "<h2 id='picture'>The run, round by round</h2>\n<p>Time goes down, and each worker has its lane. In every "
                      "round the list runs up to the fence; then the token goes from one to the next, and only its holder moves. "
                      "Each dot is a synchronising step, with its record and turn on the left and the bytes that its commit "
                      "changed on the right, in hexadecimal. A pointer on a dot shows its log record.</p>\n");
    legend_write(page);
    bytes_print(page, "<input class='all' type='checkbox' id='all' aria-label='Open all rounds'>\n"
                      "<div class='tools'><label class='all-label' for='all'></label>On paper all rounds are open; landscape "
                      "suits many workers best.</div>\n");
    bands_write(trace, page);
}

void page_write(const uint8_t *file, size_t length, const char *title, const uint8_t *memory, const uint8_t *turns,
                size_t turns_length, struct bytes *page)
{
    struct trace *trace = trace_of(file, length, memory, turns, turns_length);
    write_head(title, page);
    bytes_print(page, "<body>\n");
    write_patterns(page);
    bytes_print(page, "<h1>");
    escaped(page, title);
    bytes_print(page, "</h1>\n");
    write_summary(trace, page);
    bytes_print(page, "<nav><a href='#picture'>Picture</a><a href='#workers'>Workers</a><a href='#memory'>Memory</a>"
                      "<a href='#log'>Log</a></nav>\n<main>\n");
    write_picture(trace, page);
    tables_write(trace, page);
    bytes_print(page, "</main>\n</body>\n</html>\n");
    trace_free(trace);
}
