/* What the tests of a plan's text share: checks that are counted, and both directions on bytes that stand alone on the heap, so
 * that a read outside of them is seen. */
#ifndef TEXT_H
#define TEXT_H

#include <stdarg.h>
#include <stdbool.h>
#include <stdio.h>
#include <stdlib.h>
#include <string.h>

#include "assemble.h"
#include "disassemble.h"
#include "plan_file.h"

#define TEXT_NAME "some.steps"
#define TEXT(literal) literal, sizeof literal - 1
#define COUNT_OF(array) (sizeof(array) / sizeof *(array))

enum { RECORD = TAMPERMAUVE_RECORD_LENGTH };

static unsigned checks = 0;
static unsigned failures = 0;

/* Counts a check; where it does not hold, says so. */
static inline bool hold(bool holds, const char *format, ...) {
    va_list rest;
    checks++;
    if (holds) {
        return true;
    }
    failures++;
    printf("FAILED: ");
    va_start(rest, format);
    vprintf(format, rest);
    va_end(rest);
    printf("\n");
    return false;
}

/* A copy whose last byte is the last of its allocation, also where there is none. What free wants is one byte in front of it. */
static inline uint8_t *alone(const void *bytes, size_t length) {
    uint8_t *copy = malloc(length + 1);
    if (copy == NULL) {
        fprintf(stderr, "no memory\n");
        exit(2);
    }
    memcpy(copy + 1, bytes, length);
    return copy + 1;
}

static inline void free_alone(uint8_t *copy) {
    free(copy - 1);
}

/* What a text came to. */
struct assembled {
    bool well_formed;
    struct bytes file, lines, complaints;
};

static inline struct assembled assembled_from(const void *text, size_t length) {
    struct assembled a = {false, {NULL, 0, 0}, {NULL, 0, 0}, {NULL, 0, 0}};
    uint8_t *copy = alone(text, length);
    a.well_formed = assemble(TEXT_NAME, (const char *)copy, length, &a.file, &a.lines, &a.complaints);
    free_alone(copy);
    return a;
}

static inline void free_assembled(struct assembled *a) {
    bytes_free(&a->file);
    bytes_free(&a->lines);
    bytes_free(&a->complaints);
}

static inline struct bytes disassembled_from(const uint8_t *file, size_t length, uint32_t answer) {
    struct bytes text = {NULL, 0, 0};
    uint8_t *copy = alone(file, length);
    disassemble(copy, length, answer, &text);
    free_alone(copy);
    return text;
}

/* The line of a record. */
static inline unsigned line_of(const struct bytes *lines, size_t record) {
    unsigned line;
    memcpy(&line, lines->at + record * sizeof line, sizeof line);
    return line;
}

static inline size_t count_of_lines(const struct bytes *lines) {
    return lines->length / sizeof(unsigned);
}

static inline bool same_bytes(const struct bytes *one, const void *other, size_t length) {
    return one->length == length && (length == 0 || memcmp(one->at, other, length) == 0);
}

/* The end of the line that begins here: its newline, or the end of all. */
static inline const char *end_of_line(const char *from, const char *end) {
    const char *newline = from == end ? NULL : memchr(from, '\n', (size_t)(end - from));
    return newline == NULL ? end : newline;
}

/* The words of a range of bytes stand in it; they end at a NUL. */
static inline bool stands_in(const char *from, const char *end, const char *words) {
    size_t length = strlen(words);
    for (; (size_t)(end - from) >= length; from++) {
        if (memcmp(from, words, length) == 0) {
            return true;
        }
    }
    return false;
}

#endif
