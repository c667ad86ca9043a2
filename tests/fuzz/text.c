/* A fuzz target over a plan's text. An input is both: as a text it is assembled,
 * and as a file it is disassembled and its text assembled again. What
 * docs/TEXT.md says of every text and of every file is held; a difference ends
 * in abort(). Bytes are lent alone on the heap, so that a sanitizer sees a read
 * outside of them. */
#include <stdbool.h>
#include <stdint.h>
#include <stdio.h>
#include <stdlib.h>
#include <string.h>

#include "assemble.h"
#include "disassemble.h"
#include "tampermauve.h"

#define NAME "some.steps"

enum { MOST_TOLD = 20, RECORD = TAMPERMAUVE_RECORD_LENGTH };

int LLVMFuzzerTestOneInput(const uint8_t *data, size_t size);

/* What a text came to. */
struct assembled {
    bool well_formed;
    struct bytes file, lines, complaints;
};

static void hold(bool holds, const char *what)
{
    if (!holds) {
        fprintf(stderr, "text: %s\n", what);
        abort();
    }
}

/* Ends where its allocation ends, also without any byte; it begins one byte behind. */
static uint8_t *alone(const void *bytes, size_t length)
{
    uint8_t *copy = malloc(length + 1);
    hold(copy != NULL, "no memory");
    if (length > 0)
        memcpy(copy + 1, bytes, length);
    return copy;
}

static struct assembled assembled_from(const void *text, size_t length)
{
    struct assembled a = {false, {NULL, 0, 0}, {NULL, 0, 0}, {NULL, 0, 0}};
    uint8_t *copy = alone(text, length);
    a.well_formed = assemble(NAME, (const char *)copy + 1, length, &a.file, &a.lines, &a.complaints);
    free(copy);
    return a;
}

static void free_assembled(struct assembled *a)
{
    bytes_free(&a->file);
    bytes_free(&a->lines);
    bytes_free(&a->complaints);
}

static uint32_t checked(const struct bytes *file)
{
    return tampermauve_check(file->length == 0 ? (const uint8_t *)"" : file->at, file->length);
}

static struct bytes disassembled_from(const void *file, size_t length, uint32_t answer)
{
    struct bytes text = {NULL, 0, 0};
    uint8_t *copy = alone(file, length);
    disassemble(copy + 1, length, answer, &text);
    free(copy);
    return text;
}

/* --- Complaints ------------------------------------------------------------ */

/* The length of a line, counted from 1; a text has one line more than newlines. */
static bool find_line(const char *text, size_t length, size_t line, size_t *found)
{
    size_t at = 0, from = 0;
    for (;; at++) {
        if (at < length && text[at] != '\n')
            continue;
        if (--line == 0)
            break;
        if (at == length)
            return false;
        from = at + 1;
    }
    *found = at - from;
    return true;
}

static bool is_readable(const char *from, const char *end)
{
    for (; from < end; from++)
        if ((unsigned char)*from < ' ' || (unsigned char)*from > '~')
            return false;
    return true;
}

/* NAME:LINE:COLUMN: words, at a place of the text or just behind a line of it. */
static void hold_complaint(const char *from, const char *end, const char *text, size_t length)
{
    char head[64];
    unsigned line = 0, column = 0;
    int words = 0;
    size_t found = 0, kept = (size_t)(end - from) < sizeof head ? (size_t)(end - from) : sizeof head - 1;
    memcpy(head, from, kept);
    head[kept] = 0;
    hold(sscanf(head, NAME ":%u:%u: %n", &line, &column, &words) == 2 && words > 0, "a complaint without a place");
    hold(end - from > words && is_readable(from, end), "a complaint without words, or not to be read");
    hold(line > 0 && find_line(text, length, line, &found), "a line that is not there");
    hold(column > 0 && column <= found + 1, "a column that is not there");
}

/* Twenty at the most; behind them a line may say how many more there are. */
static void hold_complaints(const struct bytes *complaints, const char *text, size_t length)
{
    const char *from = (const char *)complaints->at, *end = from + complaints->length;
    unsigned told = 0;
    hold(complaints->length > 0 && end[-1] == '\n', "an error that is not told, or not to the end");
    while (from < end && told < MOST_TOLD) {
        const char *newline = memchr(from, '\n', (size_t)(end - from));
        hold_complaint(from, newline, text, length);
        from = newline + 1;
        told++;
    }
    hold(from == end || memchr(from, '\n', (size_t)(end - from)) == end - 1, "more complaints than twenty");
}

/* --- There and back -------------------------------------------------------- */

/* How many lines are a refusal's comment, and of them that of this number. */
static void hold_refusal(const struct bytes *text, uint32_t answer)
{
    char words[40];
    unsigned all = 0, of_number = 0;
    size_t at;
    int length = snprintf(words, sizeof words, "# refused %lu: ", (unsigned long)tampermauve_refusal(answer));
    for (at = 0; at < text->length; at++) {
        all += text->length - at >= 10 && memcmp(text->at + at, words, 10) == 0;
        of_number += text->length - at >= (size_t)length && memcmp(text->at + at, words, (size_t)length) == 0;
    }
    hold(all == (answer != 0) && of_number == all, "not one comment of the refusal");
}

static bool same(const struct bytes *one, const void *other, size_t length)
{
    return one->length == length && (length == 0 || memcmp(one->at, other, length) == 0);
}

static void hold_file(const uint8_t *file, size_t length)
{
    uint32_t answer = tampermauve_check(file, length);
    struct bytes text = disassembled_from(file, length, answer), again;
    struct assembled a = assembled_from(text.at, text.length);
    hold(a.well_formed && a.complaints.length == 0, "the text of a file has an error");
    hold(same(&a.file, file, length - length % RECORD), "the text of a file comes to other bytes");
    hold(a.lines.length / sizeof(unsigned) == length / RECORD, "not a line for each record");
    hold_refusal(&text, answer);
    if (answer == 0) {
        again = disassembled_from(a.file.at, a.file.length, answer);
        hold(same(&again, text.at, text.length), "another text the second time");
        bytes_free(&again);
    }
    bytes_free(&text);
    free_assembled(&a);
}

static void hold_text(const char *text, size_t length)
{
    struct assembled a = assembled_from(text, length);
    if (!a.well_formed)
        hold_complaints(&a.complaints, text, length);
    hold(!a.well_formed || a.complaints.length == 0, "a complaint of a text without an error");
    hold(a.file.length % RECORD == 0, "a part of a record");
    hold(!a.well_formed || a.lines.length / sizeof(unsigned) == a.file.length / RECORD, "not a line for each record of a text");
    if (a.well_formed && a.file.length > 0) {
        hold(checked(&a.file) % 256 != TAMPERMAUVE_BAD_LENGTH || a.file.length > TAMPERMAUVE_FILE_LIMIT, "no whole records");
        hold_file(a.file.at, a.file.length);
    }
    free_assembled(&a);
}

int LLVMFuzzerTestOneInput(const uint8_t *data, size_t size)
{
    uint8_t *copy = alone(data, size);
    hold_text((const char *)copy + 1, size);
    hold_file(copy + 1, size);
    free(copy);
    return 0;
}
