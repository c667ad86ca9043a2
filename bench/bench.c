/* Measures the library against the engine written by hand.
 *
 * bench [--passes N] [--csv FILE] [--svg FILE]
 * bench --engine library|twin|apart --set NUMBER   one set once, to be counted
 * bench --names                                the sets with their numbers
 *
 * Each pass measures all sets; within a set the library, the twin and the
 * twin once more take turns. The best of all passes counts. The twin against
 * itself says how far a ratio can be trusted.
 *
 * A set of plans in one call is measured once more, apart: the library with a
 * call for each plan, each with the turns that end it. */
#define _POSIX_C_SOURCE 199309L

#include <math.h>
#include <stdio.h>
#include <stdlib.h>
#include <string.h>
#include <time.h>

#include "sets.h"
#include "tampermauve.h"
#include "twin.h"

enum {
    MEMORY = TAMPERMAUVE_MEMORY_LENGTH,
    LOG = TAMPERMAUVE_LOG_LENGTH,
    REPORT = TAMPERMAUVE_REPORT_LENGTH,
    WORK = TAMPERMAUVE_WORK_LENGTH,
    PLANS = TAMPERMAUVE_PLANS_LIMIT,
    LENGTH = TAMPERMAUVE_LENGTH_BYTES,
    MOST_PASSES = 200
};
enum { LIBRARY, TWIN, TWIN_AGAIN, APART, ENGINES }; /* APART for plans in one call alone */

/* So long is one measurement, in nanoseconds. */
static const double MEASURE = 2e6;

struct result {
    double best[ENGINES];           /* ns for all cases of the set */
    double twin_passes[MOST_PASSES];
    unsigned repeats;
    double units;                   /* turns, plans of one call, or calls */
    const char *unit;
};

static struct set sets[SETS_MOST];
static struct result results[SETS_MOST];
static unsigned set_count;
/* Calls for one plan use the first of each. */
static uint8_t memory[PLANS * MEMORY], log_[PLANS * LOG], report[PLANS * REPORT];
static uint8_t verdicts[PLANS], work[WORK];
static volatile uint32_t answers;   /* keeps the calls from being dropped */

static double now(void)
{
    struct timespec t;
    clock_gettime(CLOCK_MONOTONIC, &t);
    return (double)t.tv_sec * 1e9 + (double)t.tv_nsec;
}

static uint32_t call(int engine, const struct set_case *c, int check_only)
{
    if (check_only)
        return engine == LIBRARY ? tampermauve_check(c->file, c->file_len)
                                 : twin_check(c->file, c->file_len);
    memset(memory, 0, MEMORY);
    if (engine == LIBRARY)
        return tampermauve_run(c->file, c->file_len, c->turns, c->turns_len,
                               memory, MEMORY, log_, LOG, report, REPORT, work,
                               WORK);
    return twin_run(c->file, c->file_len, c->turns, c->turns_len, memory,
                    MEMORY, log_, LOG, report, REPORT, work, WORK);
}

/* A call of the library for each plan, on its part of the buffers. */
static uint32_t call_apart(const struct set *s)
{
    uint32_t sum = 0;
    for (unsigned k = 0; k < s->count; k++) {
        const struct set_case *c = &s->cases[k];
        uint32_t answer =
            tampermauve_run(c->file, c->file_len, c->turns, c->turns_len,
                            memory + k * MEMORY, MEMORY, log_ + k * LOG, LOG,
                            report + k * REPORT, REPORT, work, WORK);
        verdicts[k] = (uint8_t)(answer & 255);
        sum += answer;
    }
    return sum;
}

/* One call for all plans of a set; all memories are cleared before, whoever runs
 * them. */
static uint32_t call_together(int engine, const struct set *s)
{
    size_t n = s->count;
    memset(memory, 0, n * MEMORY);
    if (engine == APART)
        return call_apart(s);
    if (engine == LIBRARY)
        return tampermauve_run_all(n, s->files, s->files_len, s->lengths,
                                   n * LENGTH, memory, n * MEMORY, log_, n * LOG,
                                   report, n * REPORT, verdicts, n, work, WORK);
    return twin_run_all(n, s->files, s->files_len, s->lengths, n * LENGTH, memory,
                        n * MEMORY, log_, n * LOG, report, n * REPORT, verdicts,
                        n, work, WORK);
}

static int is_together(const struct set *s)
{
    return s->files != NULL;
}

static double measure(int engine, const struct set *s, unsigned repeats)
{
    double start = now();
    for (unsigned i = 0; i < repeats; i++) {
        if (is_together(s))
            answers += call_together(engine, s);
        else
            for (unsigned k = 0; k < s->count; k++)
                answers += call(engine, &s->cases[k], s->check_only);
    }
    return (now() - start) / repeats;
}

/* What the calls so far leave, beside work. */
struct left {
    uint8_t memory[sizeof memory], log[sizeof log_], report[sizeof report];
    uint8_t verdicts[sizeof verdicts];
};

static void keep_left(struct left *l)
{
    memcpy(l->memory, memory, sizeof memory);
    memcpy(l->log, log_, sizeof log_);
    memcpy(l->report, report, sizeof report);
    memcpy(l->verdicts, verdicts, sizeof verdicts);
}

/* Both answers are 0, and the second call left what the first did. */
static void must_agree(const char *name, unsigned k, uint32_t one, uint32_t other,
                       const struct left *l)
{
    static const uint8_t accepted[PLANS];
    if (one == 0 && other == 0 && memcmp(l->memory, memory, sizeof memory) == 0 &&
        memcmp(l->log, log_, sizeof log_) == 0 &&
        memcmp(l->report, report, sizeof report) == 0 &&
        memcmp(l->verdicts, verdicts, sizeof verdicts) == 0 &&
        memcmp(verdicts, accepted, sizeof verdicts) == 0)
        return;
    fprintf(stderr, "%s, case %u: answers %u and %u, or other bytes\n", name, k,
            (unsigned)one, (unsigned)other);
    exit(1);
}

/* Both engines must agree on a set, and accept it, before it is measured; and
 * the calls apart with the one call. */
static void agree(const struct set *s)
{
    static struct left first;
    uint32_t one;
    for (unsigned k = 0; k < s->count && !is_together(s); k++) {
        one = call(TWIN, &s->cases[k], s->check_only);
        keep_left(&first);
        must_agree(s->name, k, one, call(LIBRARY, &s->cases[k], s->check_only), &first);
    }
    if (is_together(s)) {
        one = call_together(TWIN, s);
        keep_left(&first);
        must_agree(s->name, 0, one, call_together(LIBRARY, s), &first);
        must_agree(s->name, 0, one, call_together(APART, s), &first);
    }
}

/* Turns of the set's calls, where any are handed in. */
static size_t turns_of(const struct set *s)
{
    size_t turns = 0;
    for (unsigned k = 0; k < s->count && !is_together(s); k++)
        turns += s->cases[k].turns_len;
    return turns;
}

static void prepare(const struct set *s, struct result *r)
{
    double once;
    size_t turns = turns_of(s);
    agree(s);
    once = measure(TWIN, s, 1);
    r->repeats = once > MEASURE ? 1 : (unsigned)(MEASURE / (once + 1)) + 1;
    r->units = turns ? (double)turns : s->count;
    r->unit = is_together(s) ? "plan" : turns ? "turn" : s->check_only ? "check" : "run";
    for (int engine = 0; engine < ENGINES; engine++)
        r->best[engine] = HUGE_VAL;
}

static void pass(const struct set *s, struct result *r, unsigned number)
{
    int engines = is_together(s) ? ENGINES : APART;
    for (int engine = 0; engine < engines; engine++) {
        /* The order changes, so that no engine is always the first. */
        int which = (engine + (int)number) % engines;
        double took = measure(which, s, r->repeats);
        if (took < r->best[which])
            r->best[which] = took;
        if (which == TWIN)
            r->twin_passes[number] = took;
    }
}

static double ratio(const struct result *r)
{
    return r->best[LIBRARY] / r->best[TWIN];
}

/* The library's one call by its calls apart. */
static double one_by_apart(const struct result *r)
{
    return r->best[LIBRARY] / r->best[APART];
}

static double mean_ratio(void)
{
    double sum = 0;
    for (unsigned i = 0; i < set_count; i++)
        sum += log(ratio(&results[i]));
    return exp(sum / set_count);
}

static int ascending(const void *one, const void *other)
{
    double a = *(const double *)one, b = *(const double *)other;
    return (a > b) - (a < b);
}

/* --- What is written ---------------------------------------------------- */

static void print_table(void)
{
    printf("%-34s %10s %10s %7s  per\n", "set", "library ns", "twin ns", "ratio");
    for (unsigned i = 0; i < set_count; i++) {
        const struct result *r = &results[i];
        printf("%-34s %10.2f %10.2f %7.3f  %s\n", sets[i].name,
               r->best[LIBRARY] / r->units, r->best[TWIN] / r->units, ratio(r),
               r->unit);
    }
    printf("%-34s %10s %10s %7.3f\n", "geometric mean", "", "", mean_ratio());
}

static void print_apart(void)
{
    for (unsigned i = 0; i < set_count; i++) {
        const struct result *r = &results[i];
        if (is_together(&sets[i]))
            printf("%-34s %10.2f %10.2f %7.3f  plan, by forty calls of the library\n",
                   sets[i].name, r->best[LIBRARY] / r->units,
                   r->best[APART] / r->units, one_by_apart(r));
    }
}

/* The twin against itself, and how far a usual pass lies above the best. */
static void print_noise(unsigned passes)
{
    double least = HUGE_VAL, most = 0, above[SETS_MOST];
    for (unsigned i = 0; i < set_count; i++) {
        struct result *r = &results[i];
        double itself = r->best[TWIN_AGAIN] / r->best[TWIN];
        least = itself < least ? itself : least;
        most = itself > most ? itself : most;
        qsort(r->twin_passes, passes, sizeof(double), ascending);
        above[i] = r->twin_passes[passes / 2] / r->best[TWIN] - 1;
    }
    qsort(above, set_count, sizeof(double), ascending);
    printf("noise: the twin against itself %.3f to %.3f; the median pass lies "
           "%.1f %% above the best in the median set, %.1f %% in the worst\n",
           least, most, 100 * above[set_count / 2], 100 * above[set_count - 1]);
}

static FILE *open_output(const char *path)
{
    FILE *out = fopen(path, "w");
    if (out == NULL) {
        fprintf(stderr, "%s: cannot be opened\n", path);
        exit(2);
    }
    return out;
}

static void write_csv(const char *path)
{
    FILE *out = open_output(path);
    fprintf(out, "set,per,library_ns,twin_ns,ratio,twin_against_itself,one_call_by_forty\n");
    for (unsigned i = 0; i < set_count; i++) {
        const struct result *r = &results[i];
        fprintf(out, "\"%s\",%s,%.3f,%.3f,%.4f,%.4f,", sets[i].name, r->unit,
                r->best[LIBRARY] / r->units, r->best[TWIN] / r->units, ratio(r),
                r->best[TWIN_AGAIN] / r->best[TWIN]);
        if (is_together(&sets[i]))
            fprintf(out, "%.4f", one_by_apart(r));
        fprintf(out, "\n");
    }
    fclose(out);
}

enum { ROW = 24, LEFT = 260, WIDTH = 760, TOP = 50 };

static double svg_scale(void)
{
    double most = 1.5;
    for (unsigned i = 0; i < set_count; i++)
        most = ratio(&results[i]) > most ? ratio(&results[i]) : most;
    return (WIDTH - LEFT - 60) / most;
}

static void svg_line(FILE *out, double x, const char *label, const char *colour)
{
    unsigned bottom = TOP + set_count * ROW;
    fprintf(out, "<line x1=\"%.1f\" y1=\"%d\" x2=\"%.1f\" y2=\"%u\" stroke=\"%s\" "
                 "stroke-dasharray=\"4 3\"/>\n", x, TOP - 8, x, bottom, colour);
    fprintf(out, "<text x=\"%.1f\" y=\"%d\" text-anchor=\"middle\" fill=\"%s\">%s"
                 "</text>\n", x, TOP - 14, colour, label);
}

static void write_svg(const char *path)
{
    FILE *out = open_output(path);
    double scale = svg_scale();
    fprintf(out, "<svg xmlns=\"http://www.w3.org/2000/svg\" width=\"%d\" "
                 "height=\"%u\" font-family=\"sans-serif\" font-size=\"12\">\n",
            WIDTH, TOP + set_count * ROW + 20);
    fprintf(out, "<rect width=\"100%%\" height=\"100%%\" fill=\"white\"/>\n");
    fprintf(out, "<text x=\"10\" y=\"20\" font-size=\"14\">Time of the library, "
                 "the twin being 1</text>\n");
    for (unsigned i = 0; i < set_count; i++) {
        double r = ratio(&results[i]);
        unsigned y = TOP + i * ROW;
        fprintf(out, "<text x=\"%d\" y=\"%u\" text-anchor=\"end\">%s</text>\n",
                LEFT - 8, y + 15, sets[i].name);
        fprintf(out, "<rect x=\"%d\" y=\"%u\" width=\"%.1f\" height=\"%d\" "
                     "fill=\"%s\"/>\n", LEFT, y + 3, r * scale, ROW - 6,
                r <= 1 ? "#4a8f5c" : r <= 1.25 ? "#c9a227" : "#b5483a");
        fprintf(out, "<text x=\"%.1f\" y=\"%u\">%.2f</text>\n",
                LEFT + r * scale + 5, y + 15, r);
    }
    svg_line(out, LEFT + scale, "1.00", "#444444");
    svg_line(out, LEFT + 1.25 * scale, "1.25", "#b5483a");
    fprintf(out, "</svg>\n");
    fclose(out);
}

/* --- The program -------------------------------------------------------- */

struct options {
    unsigned passes;
    const char *csv, *svg, *engine;
    unsigned set;
    int names;
};

static int bad_use(void)
{
    fprintf(stderr, "bench [--passes N] [--csv FILE] [--svg FILE]\n"
                    "bench --engine library|twin|apart --set NUMBER\nbench --names\n");
    return 2;
}

static int read_options(struct options *o, int argc, char **argv)
{
    for (int i = 1; i < argc; i++) {
        const char *value = i + 1 < argc ? argv[i + 1] : NULL;
        if (strcmp(argv[i], "--names") == 0) {
            o->names = 1;
            continue;
        }
        if (value == NULL)
            return 1;
        if (strcmp(argv[i], "--passes") == 0)
            o->passes = (unsigned)strtoul(value, NULL, 10);
        else if (strcmp(argv[i], "--csv") == 0)
            o->csv = value;
        else if (strcmp(argv[i], "--svg") == 0)
            o->svg = value;
        else if (strcmp(argv[i], "--engine") == 0)
            o->engine = value;
        else if (strcmp(argv[i], "--set") == 0)
            o->set = (unsigned)strtoul(value, NULL, 10);
        else
            return 1;
        i++;
    }
    return o->passes < 1 || o->passes > MOST_PASSES;
}

static int print_names(void)
{
    for (unsigned i = 0; i < set_count; i++)
        printf("%u %s\n", i, sets[i].name);
    return 0;
}

static int engine_named(const char *name)
{
    if (strcmp(name, "apart") == 0)
        return APART;
    return strcmp(name, "library") == 0 ? LIBRARY : TWIN;
}

/* Kept as a function of its own: instructions are counted within it. */
__attribute__((noinline)) int run_once(const struct options *o);

int run_once(const struct options *o)
{
    measure(engine_named(o->engine), &sets[o->set], 1);
    return answers == 0 ? 0 : 1;
}

int main(int argc, char **argv)
{
    struct options o = {25, NULL, NULL, NULL, 0, 0};
    if (read_options(&o, argc, argv))
        return bad_use();
    set_count = make_sets(sets, o.engine != NULL || o.names ? (int)o.set : ALL_SETS);
    if (o.set >= set_count)
        return bad_use();
    if (o.engine != NULL && strcmp(o.engine, "apart") == 0 && !is_together(&sets[o.set]))
        return bad_use();
    if (o.names)
        return print_names();
    if (o.engine != NULL)
        return run_once(&o);
    for (unsigned i = 0; i < set_count; i++)
        prepare(&sets[i], &results[i]);
    for (unsigned number = 0; number < o.passes; number++)
        for (unsigned i = 0; i < set_count; i++)
            pass(&sets[i], &results[i], number);
    print_table();
    print_apart();
    print_noise(o.passes);
    if (o.csv != NULL)
        write_csv(o.csv);
    if (o.svg != NULL)
        write_svg(o.svg);
    return 0;
}
