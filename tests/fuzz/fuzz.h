/* What the calls of one plan and of several share in the fuzz target. */
#ifndef FUZZ_H
#define FUZZ_H

#include <stddef.h>
#include <stdint.h>

#include "tampermauve.h"

enum {
    MOST_FILE = TAMPERMAUVE_FILE_LIMIT + TAMPERMAUVE_RECORD_LENGTH, /* one record too many */
    MOST_UNITS = 42,                                                /* two plans too many */
    ROOM = MOST_UNITS * (TAMPERMAUVE_LOG_LENGTH + 1),               /* of the longest buffer */
    GUARD = 32,
    GUARD_BYTE = 0xA7
};

/* Room for the longest of the buffers with its guards. */
struct buffer {
    uint8_t bytes[ROOM + 2 * GUARD];
    size_t len;
};

uint8_t *start(struct buffer *b);
/* So many bytes, all alike, between guards. */
void begin(struct buffer *b, size_t len, uint8_t old);
/* Guards behind bytes that are there already. */
void guard_end(struct buffer *b);
void copy_buffer(struct buffer *to, const struct buffer *from);
/* Ends in abort() where a byte of two buffers differs. */
void same_bytes(const char *engine, const char *name, const struct buffer *ours, const struct buffer *theirs);
void differs(const char *engine, const char *what, size_t at);
/* A file from steps of four bytes each. */
void make_file(struct buffer *file, const uint8_t *from, size_t len);

/* What one of two accepted runs was lent as memory, and what it left. */
struct left {
    const uint8_t *lent, *memory, *log, *report;
};

/* Changes every byte of a memory that no load or store of the file covers. */
void change_unnamed(const uint8_t *file, size_t file_len, uint8_t *memory, size_t len);
/* Ends in abort() where two runs part though their memories differ in such bytes alone. */
void hold_pair(const char *engine, const uint8_t *file, size_t file_len, const struct left *one, const struct left *other);
void same_in_both(const char *engine, const char *what, const uint8_t *one, const uint8_t *other, size_t len);
void parts(const char *engine, const char *what, size_t at);

/* A call of several plans from an input of at least four bytes; batch.c says how it is laid out. */
void try_batch(const uint8_t *data, size_t size);

#endif
