/* Bytes that grow: what is read, and what is to be written. */
#ifndef BYTES_H
#define BYTES_H

#include <stddef.h>
#include <stdint.h>

/* An empty one is all zero. The program ends, with a word and status 2, where there is no memory for more. */
struct bytes {
    uint8_t *at;
    size_t length;
    size_t room;
};

void bytes_add(struct bytes *b, const void *from, size_t length);

/* Adds what printf would print. */
#if defined(__GNUC__)
__attribute__((format(printf, 2, 3)))
#endif
void bytes_print(struct bytes *b, const char *format, ...);

void bytes_free(struct bytes *b);

/* Memory for so many things of a size, all zero. */
void *memory_for(size_t count, size_t size);

#endif
