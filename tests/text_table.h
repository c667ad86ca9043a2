/* Texts, and the records that docs/TEXT.md says they are, each with its line. Worked out by hand from the paper. */
#ifndef TEXT_TABLE_H
#define TEXT_TABLE_H

#include "text.h"

struct row {
    unsigned line, worker, op, reg, number;
};

/* ---- A text has just these records, in this order, on these lines. */

static void expect_lines(const char *what, const struct assembled *a, const struct row *rows, size_t count) {
    size_t k;
    if (!hold(count_of_lines(&a->lines) == count, "%s: %lu lines of records", what, (unsigned long)count_of_lines(&a->lines))) {
        return;
    }
    for (k = 0; k < count; k++) {
        hold(line_of(&a->lines, k) == rows[k].line, "%s: record %lu is said to be of line %u, and is of line %u", what,
             (unsigned long)k, line_of(&a->lines, k), rows[k].line);
    }
}

static void expect_records(const char *what, const struct assembled *a, const struct row *rows, size_t count) {
    struct plan_file f;
    size_t k;
    f.length = 0;
    for (k = 0; k < count; k++) {
        plan_add(&f, rows[k].worker, rows[k].op, rows[k].reg, rows[k].number);
    }
    hold(a->file.length == f.length, "%s: %lu bytes and not %lu", what, (unsigned long)a->file.length, (unsigned long)f.length);
    for (k = 0; k < f.length && k < a->file.length; k++) {
        if (a->file.at[k] != f.bytes[k]) {
            hold(false, "%s: byte %lu of record %lu is %u and not %u", what, (unsigned long)(k % RECORD),
                 (unsigned long)(k / RECORD), a->file.at[k], f.bytes[k]);
        }
    }
}

static void expect_rows(const char *what, const char *text, size_t length, const struct row *rows, size_t count) {
    struct assembled a = assembled_from(text, length);
    hold(a.well_formed, "%s: %.*s", what, (int)a.complaints.length, (const char *)a.complaints.at);
    hold(a.complaints.length == 0 || !a.well_formed, "%s: complaints of a text without an error", what);
    if (a.well_formed) {
        expect_records(what, &a, rows, count);
        expect_lines(what, &a, rows, count);
    }
    free_assembled(&a);
}

/* ---- Each step, in the block of worker 6 and with a name of each kind above it */

#define STEP_PRELUDE "workers 8\nbarrier gate = 3 size 2\naddress left = 12\nlock left = 5\ncondition left = 7\nworker 6\n"

struct step {
    const char *text;
    unsigned op, reg, number;
};

static const struct step table_of_steps[] = {
    {"set r1 7", 16, 1, 7}, {"set r0 0", 16, 0, 0}, {"set r3 65535", 16, 3, 65535}, {"set r2 256", 16, 2, 256},
    {"load r1 from 12", 17, 1, 12}, {"load r0 from 0", 17, 0, 0}, {"load r3 from 2046", 17, 3, 2046},
    {"load r2 from left", 17, 2, 12}, {"store r1 at 12", 18, 1, 12}, {"store r0 at 0", 18, 0, 0},
    {"store r3 at 2046", 18, 3, 2046}, {"store r2 at left", 18, 2, 12}, {"add r2 to r1", 19, 1, 2}, {"add r1 to r2", 19, 2, 1},
    {"add r0 to r3", 19, 3, 0}, {"add r3 to r3", 19, 3, 3}, {"subtract r2 from r1", 20, 1, 2}, {"subtract r1 from r2", 20, 2, 1},
    {"subtract r3 from r0", 20, 0, 3}, {"skip 2 if r1 is zero", 21, 1, 2}, {"skip 1 if r0 is zero", 21, 0, 1},
    {"skip 127 if r3 is zero", 21, 3, 127}, {"skip 2 if r1 is not zero", 22, 1, 2}, {"skip 1 if r0 is not zero", 22, 0, 1},
    {"skip 127 if r3 is not zero", 22, 3, 127}, {"lock 3", 32, 0, 3}, {"lock 0", 32, 0, 0}, {"lock 15", 32, 0, 15},
    {"lock left", 32, 0, 5}, {"unlock 3", 33, 0, 3}, {"unlock 0", 33, 0, 0}, {"unlock 15", 33, 0, 15}, {"unlock left", 33, 0, 5},
    {"wait 7", 34, 0, 7}, {"wait 0", 34, 0, 0}, {"wait left", 34, 0, 7}, {"signal 7", 35, 0, 7}, {"signal 0", 35, 0, 0},
    {"signal left", 35, 0, 7}, {"broadcast 7", 36, 0, 7}, {"broadcast 0", 36, 0, 0}, {"broadcast left", 36, 0, 7},
    {"barrier 3", 37, 0, 3}, {"barrier 0", 37, 0, 0}, {"barrier 7", 37, 0, 7}, {"barrier gate", 37, 0, 3}, {"exit", 38, 0, 0},
    {"start 2", 39, 0, 2}, {"start 0", 39, 0, 0}, {"start 7", 39, 0, 7},
    /* "the assembler asks only that a number fits its field": a byte for a register, two bytes for all else */
    {"set r4 7", 16, 4, 7}, {"set r255 7", 16, 255, 7}, {"load r255 from 65535", 17, 255, 65535},
    {"store r255 at 65535", 18, 255, 65535}, {"add r255 to r254", 19, 254, 255}, {"subtract r254 from r255", 20, 255, 254},
    {"skip 0 if r0 is zero", 21, 0, 0}, {"skip 65535 if r255 is not zero", 22, 255, 65535}, {"lock 65535", 32, 0, 65535},
    {"unlock 16", 33, 0, 16}, {"wait 65535", 34, 0, 65535}, {"signal 8", 35, 0, 8}, {"broadcast 65535", 36, 0, 65535},
    {"barrier 65535", 37, 0, 65535}, {"barrier 256", 37, 0, 256}, {"start 255", 39, 0, 255},
    /* numbers: decimal, whatever they begin with, or hexadecimal */
    {"set r1 0x0C", 16, 1, 12}, {"set r1 0xFFFF", 16, 1, 65535}, {"set r1 0xAbCd", 16, 1, 43981}, {"set r1 0x10", 16, 1, 16},
    {"set r1 0x0", 16, 1, 0}, {"set r1 010", 16, 1, 10}, {"set r1 0019", 16, 1, 19},
    {"set r1 0x0000000000000000000000012", 16, 1, 18}, {"set r1 0000000000000000000000000000012", 16, 1, 12},
    {"load r1 from 0x7FE", 17, 1, 2046}, {"store r1 at 0x0c", 18, 1, 12}, {"skip 0x7F if r1 is zero", 21, 1, 127},
    {"lock 0xF", 32, 0, 15}, {"wait 0x7", 34, 0, 7}, {"barrier 0x3", 37, 0, 3}, {"start 0x2", 39, 0, 2},
    /* blanks, margins, comments */
    {"\tset\tr1\t7", 16, 1, 7}, {"   set   r1 \t 7  \t", 16, 1, 7}, {"set r1 7\r", 16, 1, 7}, {"set r1 7 \r", 16, 1, 7},
    {"set r1 7 # to 8", 16, 1, 7}, {"set r1 7#8", 16, 1, 7}, {"exit#", 38, 0, 0}, {"exit# # exit\r", 38, 0, 0},
    {"exit # \x80\xFF\x01\x7F\"'\r\t", 38, 0, 0},
    /* a label in front of a step; no word is kept from being one */
    {"here: set r1 7", 16, 1, 7}, {"here:set r1 7", 16, 1, 7}, {"\there :\tset r1 7", 16, 1, 7}, {"_: exit", 38, 0, 0},
    {"_9z_Z: exit", 38, 0, 0}, {"exit: exit", 38, 0, 0}, {"r1: set r1 7", 16, 1, 7}, {"set: set r1 7", 16, 1, 7},
    {"worker: exit", 38, 0, 0}, {"left: load r2 from left", 17, 2, 12},
};

/* The step alone in its block, and once more with an end of line and a step behind it. */
static void expect_step(const struct step *s) {
    struct row rows[4] = {{1, 8, 0, 0, 0}, {2, 0, 1, 3, 2}, {7, 6, s->op, s->reg, s->number}, {8, 6, 38, 0, 0}};
    char text[400];
    int length = snprintf(text, sizeof text, STEP_PRELUDE "%s", s->text);
    expect_rows(s->text, text, (size_t)length, rows, 3);
    length = snprintf(text, sizeof text, STEP_PRELUDE "%s\nexit", s->text);
    expect_rows(s->text, text, (size_t)length, rows, 4);
}

/* ---- Whole texts */

enum { MOST_ROWS = 12 };

struct sentence {
    const char *what, *text;
    size_t length;
    struct row rows[MOST_ROWS]; /* the first of line 0 is none */
};

static const struct sentence table_of_sentences[] = {
    {"nothing", TEXT(""), {{0, 0, 0, 0, 0}}},
    {"an empty line", TEXT("\n"), {{0, 0, 0, 0, 0}}},
    {"blanks alone", TEXT(" \t\r\n\t \r\n \n\r\n  "), {{0, 0, 0, 0, 0}}},
    {"comments alone", TEXT("#\n # one\n\t# workers 2\n## two\r\n#no newline"), {{0, 0, 0, 0, 0}}},
    {"a comment of any bytes", TEXT("# \0\x01\x7F\x80\xC3\xA4\xFF\r\t\"' \r # :=\nworkers 2\n"), {{2, 2, 0, 0, 0}}},
    {"a comment that ends the text with a NUL", TEXT("workers 2 # \0"), {{1, 2, 0, 0, 0}}},
    /* statements */
    {"workers", TEXT("workers 2\n"), {{1, 2, 0, 0, 0}}},
    {"workers without a newline", TEXT("workers 8"), {{1, 8, 0, 0, 0}}},
    {"workers below empty lines", TEXT("\n\n \n# two\nworkers 2\n"), {{5, 2, 0, 0, 0}}},
    {"no workers", TEXT("workers 0\n"), {{1, 0, 0, 0, 0}}},
    {"workers that fill a byte", TEXT("workers 0xFF\n"), {{1, 255, 0, 0, 0}}},
    {"a size", TEXT("workers 2\nbarrier 3 size 2\n"), {{1, 2, 0, 0, 0}, {2, 0, 1, 3, 2}}},
    {"a size with a name", TEXT("workers 2\nbarrier gate = 3 size 2\n"), {{1, 2, 0, 0, 0}, {2, 0, 1, 3, 2}}},
    {"names that are words of statements", TEXT("barrier size = 3 size 2\naddress at = 12\nworker 0\nbarrier size\nstore r1 at at\n"),
     {{1, 0, 1, 3, 2}, {4, 0, 37, 0, 3}, {5, 0, 18, 1, 12}}},
    {"= is a word by itself", TEXT("barrier gate=3 size 2\naddress a=1\nlock b =2\ncondition c= 3\n"), {{1, 0, 1, 3, 2}}},
    {"a size that fills its fields", TEXT("barrier 255 size 65535\nbarrier z = 0xFF size 0xFFFF\n"),
     {{1, 0, 1, 255, 65535}, {2, 0, 1, 255, 65535}}},
    {"a sleeper", TEXT("workers 2\nsleeper 1\nsleeper 255\nsleeper 0\n"),
     {{1, 2, 0, 0, 0}, {2, 1, 2, 0, 0}, {3, 255, 2, 0, 0}, {4, 0, 2, 0, 0}}},
    {"names are no records", TEXT("address a = 12\nlock a = 3\ncondition a = 7\n"), {{0, 0, 0, 0, 0}}},
    {"names fill two bytes",
     TEXT("address a = 65535\nlock a = 65535\ncondition a = 65535\nworker 1\nload r0 from a\nlock a\nwait a\n"),
     {{5, 1, 17, 0, 65535}, {6, 1, 32, 0, 65535}, {7, 1, 34, 0, 65535}}},
    {"a block is no record", TEXT("worker 0\nworker 1\nworker 255\n"), {{0, 0, 0, 0, 0}}},
    {"a block of worker 255", TEXT("worker 255\nexit\n"), {{2, 255, 38, 0, 0}}},
    {"the order is the check's", TEXT("worker 3\nexit\nworker 1\nexit\nworkers 2\nsleeper 1\nbarrier 7 size 1\nbarrier 2 size 1"),
     {{2, 3, 38, 0, 0}, {4, 1, 38, 0, 0}, {5, 2, 0, 0, 0}, {6, 1, 2, 0, 0}, {7, 0, 1, 7, 1}, {8, 0, 1, 2, 1}}},
    {"two blocks of one worker", TEXT("worker 1\nset r0 1\nworker 1\nset r0 2\n"), {{2, 1, 16, 0, 1}, {4, 1, 16, 0, 2}}},
    {"carriage returns", TEXT("workers 2\r\n\r\nworker 1\r\n\texit\r\nend:\r\n"), {{1, 2, 0, 0, 0}, {4, 1, 38, 0, 0}}},
    /* a name has a meaning of each kind, and any word that begins as one may be one */
    {"one name of four kinds and a label",
     TEXT("barrier x = 3 size 2\naddress x = 12\nlock x = 5\ncondition x = 7\nworker 0\nskip to x if r1 is zero\n"
          "load r0 from x\nlock x\nwait x\nbarrier x\nunlock x\nx: store r0 at x\n"),
     {{1, 0, 1, 3, 2}, {6, 0, 21, 1, 5}, {7, 0, 17, 0, 12}, {8, 0, 32, 0, 5}, {9, 0, 34, 0, 7}, {10, 0, 37, 0, 3},
      {11, 0, 33, 0, 5}, {12, 0, 18, 0, 12}}},
    {"words of the text as names",
     TEXT("address size = 1\naddress r1 = 2\naddress from = 4\nlock lock = 3\nlock exit = 4\ncondition wait = 6\n"
          "barrier barrier = 1 size 2\nworker 0\nload r1 from size\nload r0 from r1\nload r0 from from\n"
          "lock lock\nunlock exit\nwait wait\nbarrier barrier\n"),
     {{7, 0, 1, 1, 2}, {9, 0, 17, 1, 1}, {10, 0, 17, 0, 2}, {11, 0, 17, 0, 4}, {12, 0, 32, 0, 3}, {13, 0, 33, 0, 4},
      {14, 0, 34, 0, 6}, {15, 0, 37, 0, 1}}},
    {"a name for a name's number, and the size of a named barrier",
     TEXT("address a = 12\naddress b = a\nlock c = 3\nlock d = c\ncondition e = 7\ncondition f = e\nbarrier g = 3 size 2\n"
          "barrier h = g size 4\nbarrier h size 5\nworker 0\nload r0 from b\nlock d\nwait f\nbarrier h\n"),
     {{7, 0, 1, 3, 2}, {8, 0, 1, 3, 4}, {9, 0, 1, 3, 5}, {11, 0, 17, 0, 12}, {12, 0, 32, 0, 3}, {13, 0, 34, 0, 7},
      {14, 0, 37, 0, 3}}},
    {"names differ by case",
     TEXT("address a = 1\naddress A = 2\naddress _ = 3\naddress a_ = 4\nworker 0\nload r0 from A\nload r0 from a\n"
          "load r0 from a_\nload r0 from _\n"),
     {{6, 0, 17, 0, 2}, {7, 0, 17, 0, 1}, {8, 0, 17, 0, 4}, {9, 0, 17, 0, 3}}},
    {"a name in a block, and used in the next", TEXT("worker 0\nexit\nlock door = 9\nlock door\nworker 1\nunlock door\n"),
     {{2, 0, 38, 0, 0}, {4, 0, 32, 0, 9}, {6, 1, 33, 0, 9}}},
    /* labels */
    {"a label behind one step", TEXT("worker 0\nskip to end if r2 is zero\nexit\nend:\nexit\n"),
     {{2, 0, 21, 2, 1}, {3, 0, 38, 0, 0}, {5, 0, 38, 0, 0}}},
    {"a label in front of a step", TEXT("worker 0\nskip to end if r2 is not zero\nexit\nexit\nend: exit\n"),
     {{2, 0, 22, 2, 2}, {3, 0, 38, 0, 0}, {4, 0, 38, 0, 0}, {5, 0, 38, 0, 0}}},
    {"a label at the end of a block", TEXT("worker 0\nskip to end if r0 is zero\nexit\nend:\nworker 1\nexit"),
     {{2, 0, 21, 0, 1}, {3, 0, 38, 0, 0}, {6, 1, 38, 0, 0}}},
    {"a label at the end of the text", TEXT("worker 0\nskip to end if r0 is zero\nexit\nend:"),
     {{2, 0, 21, 0, 1}, {3, 0, 38, 0, 0}}},
    {"a label right behind its skip", TEXT("worker 0\nskip to end if r0 is zero\nend:\nexit\n"),
     {{2, 0, 21, 0, 0}, {4, 0, 38, 0, 0}}},
    {"the same label in two blocks",
     TEXT("worker 0\nskip to end if r0 is zero\nexit\nend:\nworker 1\nskip to end if r0 is zero\nexit\nexit\nend:\n"),
     {{2, 0, 21, 0, 1}, {3, 0, 38, 0, 0}, {6, 1, 21, 0, 2}, {7, 1, 38, 0, 0}, {8, 1, 38, 0, 0}}},
    {"the same label in two blocks of one worker", TEXT("worker 0\nskip to x if r0 is zero\nexit\nx:\nworker 0\nexit\nx:\n"),
     {{2, 0, 21, 0, 1}, {3, 0, 38, 0, 0}, {6, 0, 38, 0, 0}}},
    {"two labels at one place, and two skips to one label",
     TEXT("worker 0\nskip to b if r0 is zero\nskip to a if r0 is zero\nskip to a if r1 is zero\nexit\na:\nb:\nexit\n"),
     {{2, 0, 21, 0, 3}, {3, 0, 21, 0, 2}, {4, 0, 21, 1, 1}, {5, 0, 38, 0, 0}, {8, 0, 38, 0, 0}}},
    {"what is no step is not between",
     TEXT("worker 0\nskip to a if r0 is zero\n\n# exit\nunused:\naddress z = 4\nexit\n\nlock z = 1\na:\n"),
     {{2, 0, 21, 0, 1}, {7, 0, 38, 0, 0}}},
    {"a label that no skip names", TEXT("worker 0\nalone:\nother: exit"), {{3, 0, 38, 0, 0}}},
    {"a label whose name is a word of the text", TEXT("worker 0\nskip to to if r0 is zero\nexit\nto:\n"),
     {{2, 0, 21, 0, 1}, {3, 0, 38, 0, 0}}},
    /* records as they are, with and without a block */
    {"a record", TEXT("record 4D 50 01 10 00 07 00\n"), {{1, 1, 16, 0, 7}}},
    {"a record's number is low byte first", TEXT("record 4D 50 FE FF FD 34 12"), {{1, 254, 255, 253, 0x1234}}},
    {"a record in small letters", TEXT("record 4d 50 fe ff fd 34 12"), {{1, 254, 255, 253, 0x1234}}},
    {"a record in a block of another worker", TEXT("worker 1\nexit\nrecord 4D 50 05 26 00 00 00 # exit\nexit\n"),
     {{2, 1, 38, 0, 0}, {3, 5, 38, 0, 0}, {4, 1, 38, 0, 0}}},
};

static void expect_sentence(const struct sentence *s) {
    size_t count = 0;
    while (count < MOST_ROWS && s->rows[count].line > 0) {
        count++;
    }
    expect_rows(s->what, s->text, s->length, s->rows, count);
}

/* ---- Bytes as they are */

/* The example of docs/TEXT.md: case 1 of document 01. */
static const char race_text[] = "# Two workers race: each stores only if it does not see the other's store.\nworkers 2\n\n"
                                "address left = 0\naddress right = 2\n\nworker 0\n    load r0 from right\n"
                                "    skip to done if r0 is not zero\n    set r1 1\n    store r1 at left\ndone:\n\nworker 1\n"
                                "    load r0 from left\n    skip to done if r0 is not zero\n    set r1 1\n"
                                "    store r1 at right\ndone:\n";

static const uint8_t race_bytes[9 * RECORD] = {
    0x4D, 0x50, 2, 0, 0, 0, 0, 0x4D, 0x50, 0, 17, 0, 2, 0, 0x4D, 0x50, 0, 22, 0, 2, 0, 0x4D, 0x50, 0, 16, 1, 1, 0,
    0x4D, 0x50, 0, 18, 1, 0, 0, 0x4D, 0x50, 1, 17, 0, 0, 0, 0x4D, 0x50, 1, 22, 0, 2, 0, 0x4D, 0x50, 1, 16, 1, 1, 0,
    0x4D, 0x50, 1, 18, 1, 2, 0,
};

static void expect_bytes(const char *what, const char *text, size_t length, const uint8_t *bytes, size_t count) {
    struct assembled a = assembled_from(text, length);
    hold(a.well_formed && same_bytes(&a.file, bytes, count), "%s: not its bytes", what);
    free_assembled(&a);
}

/* What the buffers hold before is kept, and the records and lines are added to it. */
static void expect_added(void) {
    struct assembled a = {false, {NULL, 0, 0}, {NULL, 0, 0}, {NULL, 0, 0}};
    bytes_add(&a.file, "abc", 3);
    hold(assemble(TEXT_NAME, "worker 0\nexit", 13, &a.file, &a.lines, &a.complaints), "added: not well-formed");
    hold(same_bytes(&a.file, "abcMP\0\x26\0\0\0", 10), "added: not behind what was there");
    hold(assemble(TEXT_NAME, "workers 1", 9, &a.file, &a.lines, &a.complaints), "added: not well-formed");
    hold(same_bytes(&a.file, "abcMP\0\x26\0\0\0MP\1\0\0\0\0", 17), "added: not behind what was there");
    hold(count_of_lines(&a.lines) == 2 && line_of(&a.lines, 0) == 2 && line_of(&a.lines, 1) == 1, "added: other lines");
    hold(!assemble(TEXT_NAME, "worker", 6, &a.file, &a.lines, &a.complaints), "added: well-formed");
    hold(assemble(TEXT_NAME, "", 0, &a.file, &a.lines, &a.complaints), "an old complaint is none of the new text");
    free_assembled(&a);
}

/* A label behind records that are not of this text. */
static void expect_label_added(void) {
    static const char text[] = "worker 0\nskip to end if r1 is zero\nexit\nend:";
    struct assembled a = {false, {NULL, 0, 0}, {NULL, 0, 0}, {NULL, 0, 0}};
    bytes_add(&a.file, race_bytes, sizeof race_bytes);
    hold(assemble(TEXT_NAME, text, sizeof text - 1, &a.file, &a.lines, &a.complaints), "a label added: not well-formed");
    hold(a.file.length == sizeof race_bytes + 2 * RECORD && memcmp(a.file.at, race_bytes, sizeof race_bytes) == 0 &&
             memcmp(a.file.at + sizeof race_bytes, "MP\0\x15\1\1\0MP\0\x26\0\0\0", 2 * RECORD) == 0,
         "a label added: other bytes");
    free_assembled(&a);
}

/* Any seven bytes are a record as they are. */
static void expect_any_record(void) {
    static const uint8_t bytes[2 * RECORD] = {0, 0, 0, 0, 0, 0, 0, 0x12, 0x34, 0x56, 0x78, 0x9A, 0xBC, 0xDE};
    expect_bytes("records without a mark", TEXT("record 00 00 00 00 00 00 00\nrecord 12 34 56 78 9A bc De"), bytes, sizeof bytes);
}

/* The worker of a block is in each of its records, whichever byte it is. */
static void expect_workers(void) {
    unsigned worker;
    for (worker = 0; worker < 256; worker++) {
        struct row row = {2, worker, 32, 0, 1};
        char text[40];
        int length = snprintf(text, sizeof text, "worker %u\nlock 0x01\n", worker);
        expect_rows("a worker's block", text, (size_t)length, &row, 1);
    }
}

/* ---- Limits */

/* A text of blanks up to a length, and a statement at its end. */
static void expect_length(size_t length) {
    struct row row = {1, 2, 0, 0, 0};
    char *text = malloc(length);
    if (text == NULL) {
        exit(2);
    }
    memset(text, ' ', length);
    memcpy(text + length - 9, "workers 2", 9);
    expect_rows("a long margin", text, length, &row, 1);
    free(text);
}

/* So many names, of three kinds by turns, and a use of every hundredth and of the last. */
static void expect_names(unsigned count) {
    static const char *const kinds[3] = {"address", "lock", "condition"};
    static const char *const uses[3] = {"load r0 from", "lock", "wait"};
    struct bytes text = {NULL, 0, 0}, uses_of_them = {NULL, 0, 0};
    struct plan_file f;
    unsigned k;
    f.length = 0;
    for (k = 0; k < count; k++) {
        unsigned kind = k % 3;
        bytes_print(&text, "%s n%u = %u\n", kinds[kind], k / 3, k);
        if (k % 100 == 0 || k + 1 == count) {
            bytes_print(&uses_of_them, "%s n%u\n", uses[kind], k / 3);
            plan_add(&f, 0, kind == 0 ? TAMPERMAUVE_OP_LOAD : kind == 1 ? TAMPERMAUVE_OP_LOCK : TAMPERMAUVE_OP_WAIT, 0, k);
        }
    }
    bytes_print(&text, "worker 0\n");
    bytes_add(&text, uses_of_them.at, uses_of_them.length);
    expect_bytes("10,000 names", (const char *)text.at, text.length, f.bytes, f.length);
    bytes_free(&uses_of_them);
    bytes_free(&text);
}

/* A skip over so many steps, whatever the check says of it. */
static void expect_far_label(unsigned steps) {
    struct bytes text = {NULL, 0, 0};
    struct assembled a;
    unsigned k;
    bytes_print(&text, "worker 0\nskip to far if r0 is zero\n");
    for (k = 0; k < steps; k++) {
        bytes_print(&text, "exit\n");
    }
    bytes_print(&text, "far: exit\n");
    a = assembled_from(text.at, text.length);
    hold(a.well_formed && tampermauve_word(a.file.at, TAMPERMAUVE_RECORD_NUMBER) == steps, "a label behind %u steps", steps);
    free_assembled(&a);
    bytes_free(&text);
}

/* So many skips to one label: a label is one name, however often it is used. */
static void expect_many_skips(unsigned skips) {
    struct bytes text = {NULL, 0, 0};
    struct assembled a;
    bool right = true;
    unsigned k;
    bytes_print(&text, "worker 0\n");
    for (k = 0; k < skips; k++) {
        bytes_print(&text, "skip to end if r0 is zero\n");
    }
    bytes_print(&text, "end: exit\n");
    a = assembled_from(text.at, text.length);
    hold(a.well_formed, "%u skips to one label: %.*s", skips, (int)a.complaints.length, (const char *)a.complaints.at);
    for (k = 0; a.well_formed && k < skips; k++) {
        right = right && tampermauve_word(a.file.at + (size_t)RECORD * k, TAMPERMAUVE_RECORD_NUMBER) == skips - k - 1u;
    }
    hold(right, "%u skips to one label: another number", skips);
    free_assembled(&a);
    bytes_free(&text);
}

/* A name of so many letters, and another that differs in the last one. */
static void expect_long_names(unsigned letters) {
    struct row rows[2] = {{4, 0, 32, 0, 1}, {5, 0, 32, 0, 2}};
    struct bytes text = {NULL, 0, 0};
    char *name = malloc(letters + 1u);
    if (name == NULL) {
        exit(2);
    }
    memset(name, 'n', letters);
    name[letters] = 0;
    bytes_print(&text, "lock %sa = 1\nlock %sb = 2\nworker 0\nlock %sa\nlock %sb\n", name, name, name, name);
    expect_rows("long names", (const char *)text.at, text.length, rows, 2);
    bytes_free(&text);
    free(name);
}

static void texts_to_bytes(void) {
    static const unsigned far[] = {1, 2, 126, 127, 128, 255, 256, 1000, 65535};
    size_t k;
    for (k = 0; k < COUNT_OF(table_of_steps); k++) {
        expect_step(&table_of_steps[k]);
    }
    for (k = 0; k < COUNT_OF(table_of_sentences); k++) {
        expect_sentence(&table_of_sentences[k]);
    }
    expect_bytes("the race", race_text, sizeof race_text - 1, race_bytes, sizeof race_bytes);
    expect_added();
    expect_label_added();
    expect_any_record();
    expect_workers();
    expect_length(100000);
    expect_length(1u << 20);
    expect_names(10000);
    for (k = 0; k < COUNT_OF(far); k++) {
        expect_far_label(far[k]);
    }
    expect_many_skips(10001);
    expect_long_names(1000);
    expect_long_names(100000);
}

#endif
