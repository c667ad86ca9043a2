/* From a file to its text and back: docs/TEXT.md, "Back from a file". */
#ifndef TEXT_TRIPS_H
#define TEXT_TRIPS_H

#include "text.h"
#include "text_plans.h"

enum { LAST_REFUSAL = 14 };

/* How many files the check accepted, and refused with each number. */
static unsigned seen[LAST_REFUSAL + 1];

/* ---- The text's comments */

static const char *past_margin(const char *from, const char *end) {
    while (from < end && (*from == ' ' || *from == '\t')) {
        from++;
    }
    return from;
}

/* The lines of a text whose first word is this, and the last of them. */
struct found {
    unsigned count, line;
};

static struct found lines_with(const struct bytes *text, const char *first) {
    const char *from = (const char *)text->at, *end = from + text->length;
    struct found f = {0, 0};
    unsigned line = 1;
    while (from < end) {
        const char *newline = end_of_line(from, end), *begins = past_margin(from, newline);
        if ((size_t)(newline - begins) >= strlen(first) && memcmp(begins, first, strlen(first)) == 0) {
            f.count++;
            f.line = line;
        }
        line++;
        from = newline == end ? end : newline + 1;
    }
    return f;
}

/* ---- Which records a statement says whole */

enum said { NEVER, ALWAYS, EITHER };

/* A number of add, subtract or start that is no byte may be said by it or not: the paper leaves it open. */
static enum said said_by_a_statement(const uint8_t *record) {
    unsigned op = record[TAMPERMAUVE_RECORD_OP], reg = record[TAMPERMAUVE_RECORD_REGISTER];
    unsigned number = tampermauve_word(record, TAMPERMAUVE_RECORD_NUMBER);
    if (record[0] != 0x4D || record[1] != 0x50) {
        return NEVER;
    }
    if (op == TAMPERMAUVE_OP_PLAN_RECORD || op == TAMPERMAUVE_OP_SLEEP_RECORD || op == TAMPERMAUVE_OP_EXIT) {
        return reg == 0 && number == 0 ? ALWAYS : NEVER;
    }
    if (op == TAMPERMAUVE_OP_BARRIER_RECORD) {
        return record[TAMPERMAUVE_RECORD_WORKER] == 0 ? ALWAYS : NEVER;
    }
    if (op == TAMPERMAUVE_OP_ADD || op == TAMPERMAUVE_OP_SUBTRACT) {
        return number < 256 ? ALWAYS : EITHER;
    }
    if (op >= TAMPERMAUVE_OP_SET && op <= TAMPERMAUVE_OP_SKIP_NONZERO) {
        return ALWAYS;
    }
    if (op < TAMPERMAUVE_OP_LOCK || op > TAMPERMAUVE_OP_START || reg != 0) {
        return NEVER;
    }
    return op == TAMPERMAUVE_OP_START && number > 255 ? EITHER : ALWAYS;
}

/* The beginning of each line of the text, counted from 1. */
static const char **line_starts(const struct bytes *text) {
    const char *from = (const char *)text->at, *end = from + text->length;
    const char **starts = memory_for(text->length + 2, sizeof *starts);
    size_t line = 1;
    while (from < end) {
        const char *newline = end_of_line(from, end);
        starts[line++] = past_margin(from, newline);
        from = newline == end ? end : newline + 1;
    }
    return starts;
}

/* A record is a `record` line where no statement says it whole, and only there. */
static void expect_record_lines(const char *what, const uint8_t *file, size_t records, const struct bytes *text,
                                const struct bytes *lines) {
    const char **starts = line_starts(text);
    const char *end = (const char *)text->at + text->length;
    bool right = true;
    size_t k;
    for (k = 0; k < records; k++) {
        const char *from = starts[line_of(lines, k)];
        bool as_bytes = end - from > 7 && memcmp(from, "record ", 7) == 0;
        enum said said = said_by_a_statement(file + RECORD * k);
        if ((said == ALWAYS && as_bytes) || (said == NEVER && !as_bytes)) {
            right = false;
        }
    }
    hold(right, "%s: a record line where a statement says it, or none where none does", what);
    free(starts);
}

/* ---- There and back */

/* The refusal is a comment next to its record, where it has one. */
static void expect_place(const char *what, uint32_t answer, const struct assembled *a, unsigned line) {
    size_t index = tampermauve_index(answer), records = count_of_lines(&a->lines);
    bool behind = index == 0 || line > line_of(&a->lines, index - 1);
    bool before = index + 1 >= records || line < line_of(&a->lines, index + 1);
    if (tampermauve_refusal(answer) != TAMPERMAUVE_BAD_LENGTH) {
        hold(index < records && behind && before, "%s: the refusal of record %lu is told in line %u", what, (unsigned long)index,
             line);
    }
}

/* Just one line `# refused N: words` of a refused file, and none of an accepted one. */
static void expect_refusal(const char *what, uint32_t answer, const struct bytes *text, const struct assembled *a) {
    struct found all = lines_with(text, "# refused"), one;
    char words[40];
    snprintf(words, sizeof words, "# refused %lu: ", (unsigned long)tampermauve_refusal(answer));
    one = lines_with(text, words);
    if (answer == TAMPERMAUVE_ACCEPTED) {
        hold(all.count == 0, "%s: a refusal in the text of an accepted file", what);
        return;
    }
    hold(all.count == 1 && one.count == 1, "%s: %u comments, and %u of %s", what, all.count, one.count, words);
    expect_place(what, answer, a, one.line);
}

/* Bytes behind the last whole record stand in a comment, in hexadecimal. */
static void expect_rest(const char *what, const uint8_t *file, size_t length, const struct bytes *text) {
    char words[3 * RECORD + 1] = "";
    size_t k;
    for (k = length - length % RECORD; k < length; k++) {
        snprintf(words + strlen(words), 4, "%s%02X", k % RECORD == 0 ? "" : " ", file[k]);
    }
    hold(stands_in((const char *)text->at, (const char *)text->at + text->length, words), "%s: without the bytes %s", what,
         words);
}

/* The same text once more, from the bytes that it came to. */
static void expect_same_text(const char *what, const struct bytes *text, const struct assembled *a) {
    struct bytes again = disassembled_from(a->file.at, a->file.length, tampermauve_check(a->file.at, a->file.length));
    hold(same_bytes(&again, text->at, text->length), "%s: another text the second time", what);
    bytes_free(&again);
}

static void round_trip(const char *what, const uint8_t *file, size_t length) {
    uint32_t answer = tampermauve_check(file, length);
    struct bytes text = disassembled_from(file, length, answer);
    struct assembled a = assembled_from(text.at, text.length);
    size_t whole = length - length % RECORD;
    seen[tampermauve_refusal(answer)]++;
    hold(a.well_formed, "%s: its text: %.*s", what, (int)a.complaints.length, (const char *)a.complaints.at);
    hold(same_bytes(&a.file, file, whole), "%s: its text comes to other bytes", what);
    if (hold(count_of_lines(&a.lines) == whole / RECORD, "%s: not a line for each record", what)) {
        expect_refusal(what, answer, &text, &a);
        expect_record_lines(what, file, whole / RECORD, &text, &a.lines);
    }
    if (answer == TAMPERMAUVE_ACCEPTED) {
        expect_same_text(what, &text, &a);
    }
    expect_rest(what, file, length, &text);
    free_assembled(&a);
    bytes_free(&text);
}

/* ---- Random plans, and damaged ones */

static void random_trips(unsigned count) {
    static struct plan_file f;
    struct dice d = {UINT64_C(0x9E3779B97F4A7C15)};
    unsigned k, accepted = 0;
    for (k = 0; k < count; k++) {
        bool full = k % 50 == 49;
        random_plan(&d, &f, full);
        hold(!full || f.length == TAMPERMAUVE_FILE_LIMIT, "a full plan of %lu bytes", (unsigned long)f.length);
        accepted += tampermauve_check(f.bytes, f.length) == TAMPERMAUVE_ACCEPTED;
        round_trip("a random plan", f.bytes, f.length);
        do {
            damage(&d, &f);
        } while (below(&d, 3) == 0 && f.length >= RECORD && f.length < TAMPERMAUVE_FILE_LIMIT);
        round_trip("a damaged plan", f.bytes, f.length);
    }
    hold(accepted == count, "%u of %u random plans are accepted", accepted, count);
}

/* ---- Stored plans */

static struct bytes read_whole(const char *path) {
    struct bytes all = {NULL, 0, 0};
    uint8_t part[4096];
    size_t length;
    FILE *in = fopen(path, "rb");
    if (in == NULL) {
        fprintf(stderr, "%s: cannot be opened\n", path);
        exit(2);
    }
    while ((length = fread(part, 1, sizeof part, in)) > 0) {
        bytes_add(&all, part, length);
    }
    fclose(in);
    return all;
}

/* A count of plans and then, for each, its length and its bytes; count and lengths are two bytes. */
static void trips_of_many(const char *path, const struct bytes *all) {
    size_t at = 2, plan, count = all->length < 2 ? 0 : tampermauve_word(all->at, 0);
    char what[80];
    for (plan = 0; plan < count && at + 2 <= all->length; plan++) {
        size_t length = tampermauve_word(all->at, at);
        at += 2;
        if (length > all->length - at) {
            break;
        }
        snprintf(what, sizeof what, "stored plan %lu", (unsigned long)plan);
        round_trip(what, all->at + at, length);
        at += length;
    }
    hold(count > 0 && plan == count && at == all->length, "%s: not as many plans as it says", path);
}

static void stored_trips(const char *path) {
    struct bytes all = read_whole(path);
    size_t length = strlen(path);
    if (length > 5 && strcmp(path + length - 5, ".data") == 0) {
        trips_of_many(path, &all);
    } else {
        round_trip(path, all.at == NULL ? (const uint8_t *)"" : all.at, all.length);
    }
    bytes_free(&all);
}

/* ---- Files that are all alike */

/* Each byte of each part of a record, behind a plan record and a step. */
static void trips_of_bytes(void) {
    struct plan_file f;
    unsigned k;
    for (k = 0; k < RECORD * 256u; k++) {
        plan_begin(&f, 8);
        plan_size(&f, 0, 1);
        plan_add(&f, 0, TAMPERMAUVE_OP_SET, 0, 0);
        f.bytes[f.length - RECORD + k / 256u] = (uint8_t)(k % 256u);
        plan_sync(&f, 0, TAMPERMAUVE_OP_EXIT, 0);
        round_trip("a record with one byte changed", f.bytes, f.length);
    }
}

/* Each op, and some that are none, with each small register and with numbers at the ends of its range and outside of it. */
static void trips_of_ops(void) {
    static const unsigned numbers[] = {0, 1, 2, 3, 4, 7, 8, 15, 16, 127, 128, 255, 256, 2046, 2047, 65535};
    struct plan_file f;
    unsigned op, k;
    for (op = 0; op <= TAMPERMAUVE_OP_START + 1u; op++) {
        for (k = 0; k < 6u * COUNT_OF(numbers); k++) {
            plan_begin(&f, 8);
            plan_size(&f, 3, 2);
            plan_add(&f, 1, op, k % 6u, numbers[k / 6u]);
            plan_sync(&f, 1, TAMPERMAUVE_OP_EXIT, 0);
            plan_sync(&f, 1, TAMPERMAUVE_OP_EXIT, 0);
            round_trip("an op with its operands", f.bytes, f.length);
        }
    }
}

/* Skips over so many steps in blocks of each length, to the very end and one step too far. */
static void trips_of_skips(void) {
    struct plan_file f;
    unsigned steps, k;
    for (steps = 0; steps <= TAMPERMAUVE_SKIP_LIMIT; steps++) {
        for (k = 0; k < 3; k++) {
            plan_begin(&f, 2);
            plan_add(&f, k % 2, TAMPERMAUVE_OP_SKIP_ZERO, k, steps + k - 1u);
            plan_fill(&f, k % 2, steps);
            plan_add(&f, 1, TAMPERMAUVE_OP_SKIP_NONZERO, 3, 1);
            plan_fill(&f, 1, k);
            round_trip("a skip", f.bytes, f.length);
        }
    }
}

static void nothing_missing(void) {
    unsigned k;
    printf("text: accepted %u, refused", seen[0]);
    for (k = 1; k <= LAST_REFUSAL; k++) {
        if (k <= TAMPERMAUVE_SKIP_TOO_FAR || k == TAMPERMAUVE_BAD_SLEEP) {
            printf(" %u: %u%s", k, seen[k], k == LAST_REFUSAL ? "\n" : ",");
        }
    }
    for (k = 0; k <= LAST_REFUSAL; k++) {
        bool of_a_file = k <= TAMPERMAUVE_SKIP_TOO_FAR || k == TAMPERMAUVE_BAD_SLEEP;
        hold((seen[k] > 0) == of_a_file, "refusal %u came up %u times", k, seen[k]);
    }
}

/* ---- The words of a text: statements in their order, numbers decimal, skips to labels that are counted in each block */

/* The words of each line, parted by one blank; a label is a line of its own, and comments and empty lines are none. */
static void plain_line(const char *from, const char *end, struct bytes *plain) {
    bool word = false, begun = false;
    for (; from < end && *from != '#'; from++) {
        bool blank = *from == ' ' || *from == '\t' || *from == '\r';
        if (!blank && !word && begun) {
            bytes_add(plain, " ", 1);
        }
        word = !blank;
        if (!blank) {
            bytes_add(plain, from, 1);
            begun = *from != ':';
            word = begun;
        }
        if (*from == ':') {
            bytes_add(plain, "\n", 1);
        }
    }
    if (begun) {
        bytes_add(plain, "\n", 1);
    }
}

static void expect_words(const char *what, const struct plan_file *f, const char *words) {
    struct bytes text = disassembled_from(f->bytes, f->length, tampermauve_check(f->bytes, f->length)), plain = {NULL, 0, 0};
    const char *from = (const char *)text.at, *end = from + text.length;
    while (from < end) {
        const char *newline = end_of_line(from, end);
        plain_line(from, newline, &plain);
        from = newline == end ? end : newline + 1;
    }
    hold(same_bytes(&plain, words, strlen(words)), "%s: its words are:\n%.*s", what, (int)plain.length, (const char *)plain.at);
    bytes_free(&text);
    bytes_free(&plain);
}

static void words_of_every_step(void) {
    struct plan_file f;
    unsigned op;
    plan_begin(&f, 3);
    plan_size(&f, 2, 3);
    plan_size(&f, 7, 8);
    plan_sleep(&f, 2);
    plan_add(&f, 1, TAMPERMAUVE_OP_SET, 1, 65535);
    plan_add(&f, 1, TAMPERMAUVE_OP_LOAD, 2, 2046);
    plan_add(&f, 1, TAMPERMAUVE_OP_STORE, 3, 10);
    plan_add(&f, 1, TAMPERMAUVE_OP_ADD, 1, 2);
    plan_add(&f, 1, TAMPERMAUVE_OP_SUBTRACT, 3, 0);
    for (op = TAMPERMAUVE_OP_LOCK; op <= TAMPERMAUVE_OP_START; op++) {
        plan_sync(&f, 2, op, op == TAMPERMAUVE_OP_EXIT ? 0 : 2);
    }
    expect_words("every step", &f,
                 "workers 3\nbarrier 2 size 3\nbarrier 7 size 8\nsleeper 2\nworker 1\nset r1 65535\nload r2 from 2046\n"
                 "store r3 at 10\nadd r2 to r1\nsubtract r0 from r3\nworker 2\nlock 2\nunlock 2\nwait 2\nsignal 2\n"
                 "broadcast 2\nbarrier 2\nexit\nstart 2\n");
}

static void words_of_skips(void) {
    struct plan_file f;
    plan_begin(&f, 2);
    plan_add(&f, 0, TAMPERMAUVE_OP_SKIP_ZERO, 0, 1);
    plan_sync(&f, 0, TAMPERMAUVE_OP_EXIT, 0);
    plan_add(&f, 0, TAMPERMAUVE_OP_SKIP_NONZERO, 3, 2);
    plan_add(&f, 0, TAMPERMAUVE_OP_SKIP_ZERO, 2, 1);
    plan_sync(&f, 0, TAMPERMAUVE_OP_EXIT, 0);
    plan_add(&f, 1, TAMPERMAUVE_OP_SKIP_ZERO, 1, 1);
    plan_sync(&f, 1, TAMPERMAUVE_OP_EXIT, 0);
    expect_words("skips", &f,
                 "workers 2\nworker 0\nskip to L1 if r0 is zero\nexit\nL1:\nskip to L2 if r3 is not zero\n"
                 "skip to L2 if r2 is zero\nexit\nL2:\nworker 1\nskip to L1 if r1 is zero\nexit\nL1:\n");
}

static void words_of_texts(void) {
    struct plan_file f;
    memcpy(f.bytes, race_bytes, sizeof race_bytes);
    f.length = sizeof race_bytes;
    expect_words("the race", &f,
                 "workers 2\nworker 0\nload r0 from 2\nskip to L1 if r0 is not zero\nset r1 1\nstore r1 at 0\nL1:\nworker 1\n"
                 "load r0 from 0\nskip to L1 if r0 is not zero\nset r1 1\nstore r1 at 2\nL1:\n");
    words_of_every_step();
    words_of_skips();
    f.length = 0;
    plan_add(&f, 9, TAMPERMAUVE_OP_PLAN_RECORD, 0, 0);
    plan_add(&f, 1, 0xEE, 2, 0x0403);
    expect_words("records that are refused", &f, "workers 9\nrecord 4D 50 01 EE 02 03 04\n");
}

static void files_to_texts(unsigned random_plans, char **paths, int count) {
    int k;
    words_of_texts();
    trips_of_bytes();
    trips_of_ops();
    trips_of_skips();
    for (k = 0; k < count; k++) {
        stored_trips(paths[k]);
    }
    random_trips(random_plans);
    nothing_missing();
}

#endif
