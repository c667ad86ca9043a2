#include "bytes.h"

#include <stdarg.h>
#include <stdio.h>
#include <stdlib.h>
#include <string.h>

#include "files.h"

enum { FIRST_ROOM = 4096 };

static void *had(void *memory)
{
    if (memory == NULL) {
        fputs("tampermauve: there is not enough memory\n", stderr);
        exit(TROUBLE);
    }
    return memory;
}

void *memory_for(size_t count, size_t size)
{
    return had(calloc(count > 0 ? count : 1, size));
}

/* Makes room for so many bytes more, and one behind them. */
static void make_room(struct bytes *b, size_t more)
{
    size_t room = b->room > 0 ? b->room : FIRST_ROOM;
    while (room - b->length <= more)
        room *= 2;
    if (room > b->room) {
        b->at = had(realloc(b->at, room));
        b->room = room;
    }
}

void bytes_add(struct bytes *b, const void *from, size_t length)
{
    if (length == 0)
        return;
    make_room(b, length);
    memcpy(b->at + b->length, from, length);
    b->length += length;
}

void bytes_print(struct bytes *b, const char *format, ...)
{
    va_list words;
    int length;
    va_start(words, format);
    length = vsnprintf(NULL, 0, format, words);
    va_end(words);
    if (length <= 0)
        return;
    make_room(b, (size_t)length);
    va_start(words, format);
    vsnprintf((char *)b->at + b->length, (size_t)length + 1, format, words);
    va_end(words);
    b->length += (size_t)length;
}

void bytes_free(struct bytes *b)
{
    free(b->at);
    memset(b, 0, sizeof *b);
}
