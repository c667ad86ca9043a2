/* Texts with errors, and the place that docs/TEXT.md gives each: its line and column, counted from 1, the column in bytes. Of the
 * words those are looked for without which nobody would know what was expected. */
#ifndef TEXT_ERRORS_H
#define TEXT_ERRORS_H

#include "text.h"

enum { MOST_TOLD = 20, MOST_ERRORS = 6 };

struct error {
    unsigned line, column;
    const char *words; /* each of them, parted by | */
};

/* ---- A complaint is NAME:LINE:COLUMN: words, and ends its line. */

/* A number of a complaint and the colon behind it; 0 where there is none. */
static unsigned number_before_colon(const char **at, const char *end) {
    unsigned number = 0;
    while (*at < end && **at >= '0' && **at <= '9' && number < 100000000u) {
        number = 10u * number + (unsigned)(*(*at)++ - '0');
    }
    if (*at == end || **at != ':') {
        return 0;
    }
    (*at)++;
    return number;
}

/* The place that a complaint names, and where its words begin. False where it has another form. */
static bool read_complaint(const char **at, const char *end, unsigned *line, unsigned *column) {
    size_t name = sizeof TEXT_NAME - 1;
    if ((size_t)(end - *at) <= name || memcmp(*at, TEXT_NAME ":", name + 1) != 0) {
        return false;
    }
    *at += name + 1;
    *line = number_before_colon(at, end);
    *column = *line == 0 ? 0 : number_before_colon(at, end);
    return *column > 0 && end - *at > 2 && **at == ' ';
}

/* Whatever byte stood in the text, a complaint can be read. */
static bool is_readable(const char *from, const char *end) {
    for (; from < end; from++) {
        if ((unsigned char)*from < ' ' || (unsigned char)*from > '~') {
            return false;
        }
    }
    return true;
}

static bool has_words(const char *from, const char *end, const char *words) {
    char word[80];
    while (*words != 0) {
        size_t length = strcspn(words, "|");
        memcpy(word, words, length);
        word[length] = 0;
        if (!stands_in(from, end, word)) {
            return false;
        }
        words += length + (words[length] == '|');
    }
    return true;
}

static void expect_complaint(const char *what, const char *from, const char *end, const struct error *e) {
    const char *at = from;
    unsigned line = 0, column = 0;
    hold(read_complaint(&at, end, &line, &column), "%s: no form of a complaint: %.*s", what, (int)(end - from), from);
    hold(is_readable(from, end), "%s: bytes that nobody can read: %.*s", what, (int)(end - from), from);
    hold(line == e->line && column == e->column, "%s: wanted at %u:%u: %.*s", what, e->line, e->column, (int)(end - from), from);
    hold(has_words(at, end, e->words), "%s: wanted the words %s: %.*s", what, e->words, (int)(end - from), from);
}

/* Behind the last complaint that is told a line may say how many are not, and nothing else may stand there. */
static void expect_end(const char *what, const char *from, const char *end, size_t untold) {
    char rest[80];
    bool said;
    snprintf(rest, sizeof rest, TEXT_NAME ": %lu ", (unsigned long)untold);
    said = untold > 0 && (size_t)(end - from) > strlen(rest) && memcmp(from, rest, strlen(rest)) == 0 &&
           end_of_line(from, end) == end - 1;
    hold(from == end || said, "%s: behind the last complaint: %.*s", what, (int)(end - from), from);
}

/* Just these errors are told, in the order of the text; so many more are not. */
static void expect_first_errors(const char *what, const char *text, size_t length, const struct error *errors, size_t count,
                                size_t untold) {
    struct assembled a = assembled_from(text, length);
    const char *from = (const char *)a.complaints.at, *end = from + a.complaints.length;
    size_t told;
    hold(!a.well_formed, "%s: no error is seen", what);
    hold(from == end || end[-1] == '\n', "%s: the last complaint does not end its line", what);
    for (told = 0; told < count && from < end; told++) {
        const char *newline = end_of_line(from, end);
        expect_complaint(what, from, newline, &errors[told]);
        from = newline == end ? end : newline + 1;
    }
    hold(told == count, "%s: %lu complaints and not %lu", what, (unsigned long)told, (unsigned long)count);
    expect_end(what, from, end, untold);
    free_assembled(&a);
}

static void expect_errors(const char *what, const char *text, size_t length, const struct error *errors, size_t count) {
    expect_first_errors(what, text, length, errors, count, 0);
}

/* ---- One error in a step, which stands in line 2 of the text */

struct bad_step {
    const char *text;
    unsigned column;
    const char *words;
};

static const struct bad_step table_of_bad_steps[] = {
    /* a word that is missing, at the end of the line */
    {"set", 4, "expected|register|end of the line"}, {"set r1", 7, "expected|0 to 65535|end of the line"},
    {"load", 5, "register|end of the line"}, {"load r1", 8, "'from'|end of the line"},
    {"load r1 from", 13, "address|end of the line"}, {"store", 6, "register"}, {"store r1", 9, "'at'"},
    {"store r1 at", 12, "address"}, {"add", 4, "register"}, {"add r1", 7, "'to'"}, {"add r1 to", 10, "register"},
    {"subtract", 9, "register"}, {"subtract r1", 12, "'from'"}, {"subtract r1 from", 17, "register"}, {"skip", 5, "'to'"},
    {"skip 2", 7, "'if'"}, {"skip 2 if", 10, "register"}, {"skip 2 if r1", 13, "'is'"}, {"skip 2 if r1 is", 16, "'zero'|'not'"},
    {"skip 2 if r1 is not", 20, "'zero'"}, {"skip to", 8, "label"}, {"skip to x", 10, "'if'"}, {"lock", 5, "lock"},
    {"unlock", 7, "lock"}, {"wait", 5, "condition"}, {"signal", 7, "condition"}, {"broadcast", 10, "condition"},
    {"barrier", 8, "barrier"}, {"start", 6, "worker"},
    /* another word than one of these */
    {"set 1 7", 5, "register|found '1'"}, {"set rx 7", 5, "register|found 'rx'"}, {"set r 7", 5, "register|found 'r'"},
    {"set R1 7", 5, "register|found 'R1'"}, {"set r1x 7", 5, "register|found 'r1x'"}, {"set r0x1 7", 5, "register|found 'r0x1'"},
    {"set r_1 7", 5, "register|found 'r_1'"}, {"set = 7", 5, "register|found '='"}, {"set r1 r2", 8, "0 to 65535|found 'r2'"},
    {"set r1 to 7", 8, "0 to 65535|found 'to'"}, {"set r1 x", 8, "0 to 65535|found 'x'"},
    {"set r1 7x", 8, "0 to 65535|found '7x'"}, {"set r1 0x", 8, "0 to 65535|found '0x'"},
    {"set r1 0xG", 8, "0 to 65535|found '0xG'"}, {"set r1 C", 8, "0 to 65535|found 'C'"},
    {"set r1 1_000", 8, "0 to 65535|found '1_000'"}, {"load r1 at 12", 9, "'from'|found 'at'"},
    {"store r1 from 12", 10, "'at'|found 'from'"}, {"load r1 12", 9, "'from'|found '12'"},
    {"load r1 from lft", 14, "expected an address, 0 to 2046, or the name of one, found 'lft'"},
    {"load r1 from 12x", 14, "address|found '12x'"}, {"store r1 at =", 13, "address|found '='"},
    {"add r1 from r2", 8, "'to'|found 'from'"}, {"add r1 to 2", 11, "register|found '2'"},
    {"subtract r1 to r2", 13, "'from'|found 'to'"}, {"skip r1 if 2 is zero", 6, "'to'|found 'r1'"},
    {"skip 2 when r1 is zero", 8, "'if'|found 'when'"}, {"skip 2 if 1 is zero", 11, "register|found '1'"},
    {"skip 2 if r1 zero", 14, "'is'|found 'zero'"}, {"skip 2 if r0 is nought", 17, "expected 'zero' or 'not', found 'nought'"},
    {"skip 2 if r0 is not nought", 21, "'zero'|found 'nought'"}, {"skip to 2 if r0 is zero", 9, "label|found '2'"},
    {"skip 2 if r0 is Zero", 17, "'zero'|'not'|found 'Zero'"}, {"lock door", 6, "lock|0 to 15|found 'door'"},
    {"unlock door", 8, "lock|0 to 15|found 'door'"}, {"wait ready", 6, "condition|0 to 7|found 'ready'"},
    {"signal ready", 8, "condition|found 'ready'"}, {"broadcast ready", 11, "condition|found 'ready'"},
    {"barrier gate", 9, "barrier|0 to 7|found 'gate'"}, {"start x", 7, "found 'x'"},
    /* a word too many */
    {"exit now", 6, "end of the line|found 'now'"}, {"set r1 7 8", 10, "end of the line|found '8'"},
    {"lock 3 4", 8, "end of the line|found '4'"}, {"exit exit", 6, "end of the line|found 'exit'"},
    {"exit:: exit", 6, "found ':'"}, {"skip 2 if r1 is zero now", 22, "end of the line|found 'now'"},
    {"add r1 to r2 r3", 14, "end of the line|found 'r3'"}, {"exit = 2", 6, "end of the line|found '='"},
    {"start 2 3", 9, "end of the line|found '3'"},
    /* no statement */
    {"jump 3", 1, "expected|found 'jump'"}, {"  jump 3", 3, "found 'jump'"}, {"\t\tjump 3", 3, "found 'jump'"},
    {"Exit", 1, "found 'Exit'"}, {"SET r1 7", 1, "found 'SET'"}, {"7", 1, "found '7'"}, {"= 7", 1, "found '='"},
    {": exit", 1, "found ':'"}, {"7: exit", 1, "label"}, {"here: jump", 7, "found 'jump'"}, {"exits", 1, "found 'exits'"},
    {"a: b: exit", 4, "found 'b'"}, {"zero", 1, "found 'zero'"},
    /* numbers that do not fit, and none that wraps */
    {"set r256 7", 5, "register"}, {"set r99999999999999999999999 7", 5, "register"}, {"set r4294967297 7", 5, "register"},
    {"add r65536 to r1", 5, "register"}, {"add r1 to r256", 11, "register"}, {"set r1 65536", 8, "65535"},
    {"set r1 0x10000", 8, "65535"}, {"set r1 65543", 8, "65535"}, {"set r1 4294967303", 8, "65535"},
    {"set r1 18446744073709551623", 8, "65535"}, {"set r1 0x100000007", 8, "65535"}, {"set r1 0x10000000000000007", 8, "65535"},
    {"load r1 from 65536", 14, "address"}, {"store r1 at 65536", 13, "address"}, {"skip 65536 if r1 is zero", 6, ""},
    {"lock 65536", 6, "lock"}, {"unlock 65536", 8, "lock"}, {"wait 65536", 6, "condition"}, {"signal 65536", 8, "condition"},
    {"broadcast 65536", 11, "condition"}, {"barrier 65536", 9, "barrier"}, {"start 65536", 7, ""},
    {"start 18446744073709551617", 7, ""},
    /* bytes of no word; columns are bytes */
    {"set r1 -1", 8, ""}, {"set r1 +1", 8, ""}, {"set r1 1,000", 9, ""}, {"set r1 1.5", 9, ""}, {"set \"r1\" 7", 5, ""},
    {"'exit'", 1, ""}, {"exit;", 5, ""}, {"exit \x80", 6, ""}, {"exit\x80", 5, ""}, {"\xFF", 1, ""}, {"exit \xC3\xA4", 6, ""},
    {"\xC3\xA4: exit", 1, ""}, {"exit // done", 6, ""}, {"exit \v", 6, ""}, {"exit \f", 6, ""}, {"set r1 \r 7", 8, ""},
    {"exit\r exit", 5, ""}, {"s\xC3\xA4t r1 7", 1, ""}, {"\x7F" "exit", 1, ""}, {"load r0 from [12]", 14, ""},
    {"set r1 %s", 8, ""}, {"\xEF\xBB\xBF" "exit", 1, ""},
};

static void expect_bad_step(const struct bad_step *s) {
    struct error e = {2, 0, s->words};
    char text[200];
    int length = snprintf(text, sizeof text, "worker 0\n%s", s->text);
    e.column = s->column;
    expect_errors(s->text, text, (size_t)length, &e, 1);
    length = snprintf(text, sizeof text, "worker 0\n%s\nexit\n", s->text);
    expect_errors(s->text, text, (size_t)length, &e, 1);
}

/* ---- Whole texts */

struct mistake {
    const char *what, *text;
    size_t length;
    struct error errors[MOST_ERRORS]; /* the first of line 0 is none */
};

static const struct mistake table_of_mistakes[] = {
    /* statements */
    {"workers without a number", TEXT("workers\n"), {{1, 8, "end of the line"}}},
    {"workers that do not fit", TEXT("workers 256\n"), {{1, 9, ""}}},
    {"workers and a name", TEXT("workers two\n"), {{1, 9, "found 'two'"}}},
    {"workers and a word", TEXT("workers 2 3\n"), {{1, 11, "end of the line|found '3'"}}},
    {"a size without a number", TEXT("barrier 3 size\n"), {{1, 15, "end of the line"}}},
    {"a size that does not fit", TEXT("barrier 3 size 65536\n"), {{1, 16, ""}}},
    {"a barrier that does not fit its byte", TEXT("barrier 256 size 2\n"), {{1, 9, "barrier"}}},
    {"a named barrier that does not fit its byte", TEXT("barrier gate = 256 size 2\n"), {{1, 16, "barrier"}}},
    {"a named barrier without a size", TEXT("barrier gate = 3\n"), {{1, 17, "'size'"}}},
    {"a named barrier without a number", TEXT("barrier gate = size 2\n"), {{1, 16, "barrier|found 'size'"}}},
    {"another word than size", TEXT("barrier 3 of 2\n"), {{1, 11, "'size'|found 'of'"}}},
    {"a word behind a size", TEXT("barrier 3 size 2 workers"), {{1, 18, "end of the line|found 'workers'"}}},
    {"a sleeper without a number", TEXT("sleeper"), {{1, 8, "end of the line"}}},
    {"a sleeper that does not fit", TEXT("sleeper 256"), {{1, 9, ""}}},
    {"a worker without a number", TEXT("worker\n"), {{1, 7, "end of the line"}}},
    {"a worker that does not fit", TEXT("worker 256\n"), {{1, 8, ""}}},
    {"a name without =", TEXT("address left 12\n"), {{1, 14, "'='|found '12'"}}},
    {"a name without a number", TEXT("address left =\n"), {{1, 15, "address|end of the line"}}},
    {"a name that is a number", TEXT("address 12 = 12\n"), {{1, 9, "name|found '12'"}}},
    {"a name of nothing", TEXT("address\n"), {{1, 8, "name|end of the line"}}},
    {"a condition of nothing", TEXT("condition = 3\n"), {{1, 11, "name|found '='"}}},
    {"an address that does not fit", TEXT("address left = 65536\n"), {{1, 16, "address"}}},
    {"a lock that does not fit", TEXT("lock door = 65536\n"), {{1, 13, "lock"}}},
    {"a condition that does not fit", TEXT("condition ready = 65536\n"), {{1, 19, "condition"}}},
    {"a word behind a name", TEXT("lock door = 3 size 2\n"), {{1, 15, "end of the line|found 'size'"}}},
    /* names */
    {"a name given twice", TEXT("address left = 1\naddress left = 2\n"), {{2, 9, "'left'"}}},
    {"a name given twice, the same number", TEXT("lock left = 1\n lock left = 1\n"), {{2, 7, "'left'"}}},
    {"a condition given twice", TEXT("condition x = 1\naddress x = 1\ncondition\tx = 2\n"), {{3, 11, "'x'"}}},
    {"a barrier given twice", TEXT("barrier x = 1 size 2\nbarrier x = 2 size 2\n"), {{2, 9, "'x'"}}},
    {"a name above", TEXT("worker 0\nlock door\nlock door = 3\nlock door\n"), {{2, 6, "lock|found 'door'"}}},
    {"a name of another kind", TEXT("address x = 1\nworker 0\nlock x\nwait x\nbarrier x\n"),
     {{3, 6, "lock|found 'x'"}, {4, 6, "condition|found 'x'"}, {5, 9, "barrier|found 'x'"}}},
    {"a lock's name as address",
     TEXT("lock x = 1\ncondition x = 1\nbarrier x = 1 size 1\nworker 0\nload r0 from x\nstore r0 at x\n"),
     {{5, 14, "address|found 'x'"}, {6, 13, "address|found 'x'"}}},
    {"a name as a value", TEXT("address x = 1\nworker 0\nset r0 x\n"), {{3, 8, "0 to 65535|found 'x'"}}},
    /* blocks and labels */
    {"a step outside of a block", TEXT("workers 2\n  exit\n"), {{2, 3, "worker"}}},
    {"steps outside of a block", TEXT("lock 3\nbarrier 3\nset r0 1\n"), {{1, 1, "worker"}, {2, 1, "worker"}, {3, 1, "worker"}}},
    {"a label outside of a block", TEXT("workers 2\nhere:\n"), {{2, 1, "worker"}}},
    {"a label and a step outside of a block", TEXT("here: exit\n"), {{1, 1, "'here'"}, {1, 7, "worker"}}},
    {"a label twice", TEXT("worker 0\nx:\nexit\n x: exit\n"), {{4, 2, "'x'"}}},
    {"a label that is missing", TEXT("worker 0\nskip to x if r0 is zero\nexit\n"), {{2, 9, "'x'|label|block"}}},
    {"a label of the next block", TEXT("worker 0\nskip to x if r0 is zero\nexit\nworker 1\nx: exit\n"), {{2, 9, "'x'"}}},
    {"a label of the next block of the same worker", TEXT("worker 0\nskip to x if r0 is zero\nworker 0\nx:"), {{2, 9, "'x'"}}},
    {"a label of the block above", TEXT("worker 0\nx: exit\nworker 1\nskip to x if r0 is zero\nexit\n"),
     {{4, 9, "'x'|label|block"}}},
    {"a label above its skip", TEXT("worker 0\nx: exit\nskip to x if r0 is zero\nexit\n"), {{3, 9, "'x'|label behind"}}},
    {"a label alone above its skip", TEXT("worker 0\nx:\nskip to x if r0 is zero\nexit\n"), {{3, 9, "'x'|label behind"}}},
    {"a label in front of its skip", TEXT("worker 0\nx: skip to x if r0 is zero\nexit\n"), {{2, 12, "'x'|label behind"}}},
    {"an address's name as a label", TEXT("address x = 1\nworker 0\nskip to x if r0 is zero\nexit\n"), {{3, 9, "'x'"}}},
    /* records */
    {"a record of no bytes", TEXT("record\n"), {{1, 7, "end of the line"}}},
    {"a record of six bytes", TEXT("record 4D 50 01 10 00 07\n"), {{1, 25, "end of the line"}}},
    {"a record of eight bytes", TEXT("record 4D 50 01 10 00 07 00 00\n"), {{1, 29, "end of the line|found '00'"}}},
    {"a byte of one digit", TEXT("record 4D 50 1 10 00 07 00\n"), {{1, 14, "found '1'"}}},
    {"a byte of three digits", TEXT("record 4D 50 001 10 00 07 00\n"), {{1, 14, "found '001'"}}},
    {"a byte with 0x", TEXT("record 0x4D 50 01 10 00 07 00\n"), {{1, 8, "found '0x4D'"}}},
    {"a byte with a letter", TEXT("record 4D 5G 01 10 00 07 00\n"), {{1, 11, "found '5G'"}}},
    {"bytes without blanks", TEXT("record 4D500110000700\n"), {{1, 8, ""}}},
    /* bytes and ends of lines */
    {"a NUL", TEXT("workers 2\0\n"), {{1, 10, ""}}},
    {"a NUL in front", TEXT("\0workers 2\n"), {{1, 1, ""}}},
    {"a NUL between words", TEXT("workers\0 2\n"), {{1, 8, ""}}},
    {"a NUL at the end", TEXT("workers 2\n\0"), {{2, 1, ""}}},
    {"a return in a line", TEXT("workers\r2\n"), {{1, 8, ""}}},
    {"lines end by newline alone", TEXT("workers 2\rworker 0\rexit\n"), {{1, 10, ""}}},
    {"behind carriage returns", TEXT("workers 2\r\n\r\nworker 0\r\nset r1\r\n"), {{4, 7, "0 to 65535|end of the line"}}},
    {"behind comments", TEXT("# \0 one\n# two \xFF\n\nworkers 2 # three\n oops # four\n"), {{5, 2, "found 'oops'"}}},
    {"in the last line", TEXT("workers 2\n\n  oops"), {{3, 3, "found 'oops'"}}},
    /* several, each told once and in the order of the text */
    {"three errors", TEXT("workers 2\nworker 0\nset r9x 1\nexit\njump\nload r1 from nowhere\n"),
     {{3, 5, "register|found 'r9x'"}, {5, 1, "found 'jump'"}, {6, 14, "address|found 'nowhere'"}}},
    {"a label that is missing, in front of another error", TEXT("worker 0\nskip to x if r0 is zero\njump\nexit\n"),
     {{2, 9, "'x'"}, {3, 1, "found 'jump'"}}},
    {"an error in each block", TEXT("worker 0\nskip to x if r0 is zero\nworker 1\nx: jump\nworker 2\nx:\nx:\n"),
     {{2, 9, "'x'"}, {4, 4, "found 'jump'"}, {7, 1, "'x'"}}},
};

static void expect_mistake(const struct mistake *m) {
    size_t count = 0;
    while (count < MOST_ERRORS && m->errors[count].line > 0) {
        count++;
    }
    expect_errors(m->what, m->text, m->length, m->errors, count);
}

/* ---- Many errors, many words, many names */

static void expect_many(unsigned count) {
    struct error errors[MOST_TOLD];
    struct bytes text = {NULL, 0, 0};
    unsigned k;
    for (k = 0; k < count; k++) {
        bytes_print(&text, "%*sjump\n\n", (int)k, "");
        if (k < MOST_TOLD) {
            errors[k].line = 2u * k + 1u;
            errors[k].column = k + 1u;
            errors[k].words = "found 'jump'";
        }
    }
    k = count < MOST_TOLD ? count : MOST_TOLD;
    expect_first_errors("many errors", (const char *)text.at, text.length, errors, k, count - k);
    bytes_free(&text);
}

/* The first twenty are told, and a label that is missing is one where its skip stands. */
static void expect_label_among_many(void) {
    struct error errors[MOST_TOLD];
    struct bytes text = {NULL, 0, 0};
    unsigned k;
    bytes_print(&text, "worker 0\nskip to x if r0 is zero\n");
    errors[0].line = 2;
    errors[0].column = 9;
    errors[0].words = "'x'";
    for (k = 1; k <= 30; k++) {
        bytes_print(&text, "jump\n");
        if (k < MOST_TOLD) {
            errors[k].line = k + 2u;
            errors[k].column = 1;
            errors[k].words = "found 'jump'";
        }
    }
    expect_first_errors("a missing label above many", (const char *)text.at, text.length, errors, MOST_TOLD, 31 - MOST_TOLD);
    bytes_free(&text);
}

/* The place of an error in a line of so many blanks, letters or words. */
static void expect_long_line(const char *piece, unsigned pieces, const char *last, unsigned column) {
    struct error e = {3, 0, ""};
    struct bytes text = {NULL, 0, 0};
    unsigned k;
    e.column = column;
    bytes_print(&text, "worker 0\nexit\n");
    for (k = 0; k < pieces; k++) {
        bytes_print(&text, "%s", piece);
    }
    bytes_print(&text, "%s\nexit\n", last);
    expect_errors("a long line", (const char *)text.at, text.length, &e, 1);
    bytes_free(&text);
}

/* The steps between a skip and its label are a number of two bytes. */
static void expect_too_far_label(void) {
    struct error e = {2, 9, "'far'"};
    struct bytes text = {NULL, 0, 0};
    unsigned k;
    bytes_print(&text, "worker 0\nskip to far if r0 is zero\n");
    for (k = 0; k < 65536u; k++) {
        bytes_print(&text, "exit\n");
    }
    bytes_print(&text, "far: exit\n");
    expect_errors("a label behind 65536 steps", (const char *)text.at, text.length, &e, 1);
    bytes_free(&text);
}

/* The name too many, of three kinds by turns, is an error where it stands. */
static void expect_a_name_too_many(void) {
    static const char *const kinds[3] = {"address", "lock", "condition"};
    struct error e = {10001, 6, "10000"}; /* the last is a lock: 10,000 is 1 more than three times 3,333 */
    struct bytes text = {NULL, 0, 0};
    unsigned k;
    for (k = 0; k < 10001; k++) {
        bytes_print(&text, "%s n%u = 1\n", kinds[k % 3], k);
    }
    expect_errors("10,001 names", (const char *)text.at, text.length, &e, 1);
    bytes_free(&text);
}

static void errors_of_texts(void) {
    size_t k;
    for (k = 0; k < COUNT_OF(table_of_bad_steps); k++) {
        expect_bad_step(&table_of_bad_steps[k]);
    }
    for (k = 0; k < COUNT_OF(table_of_mistakes); k++) {
        expect_mistake(&table_of_mistakes[k]);
    }
    expect_many(19);
    expect_many(20);
    expect_many(21);
    expect_many(200);
    expect_label_among_many();
    expect_long_line(" ", 100000, "jump", 100001);
    expect_long_line("j", 100000, "ump", 1);
    expect_long_line("exit ", 10000, "", 6);
    expect_long_line("7 ", 10000, "", 1);
    expect_long_line("= ", 10000, "", 1);
    expect_long_line("\xFF", 100000, "", 1);
    expect_too_far_label();
    expect_a_name_too_many();
}

#endif
