/* Files, read whole and written whole. */
#ifndef FILES_H
#define FILES_H

#include <stdbool.h>
#include <stddef.h>
#include <stdint.h>

#include "bytes.h"

/* How the program ends: all is well; a plan is refused, or a text has an error; there is trouble with a file or with the words. */
enum status { FINE, REFUSED, TROUBLE };

/* What messages call an input: `-` is standard input. */
const char *input_name(const char *path);

/* Reads a file, or standard input; of a longer one just so many bytes. False with a word on standard error. */
bool file_read(const char *path, size_t most, struct bytes *to);

/* A file to be written: `-` is standard output. */
struct output {
    const char *path;
    const void *bytes;
    size_t length;
};

/* Writes all of them or, where one cannot be written, none: each beside its place, and then they are renamed. What is no regular
 * file, as a pipe or a device, is written straight. False with a word. */
bool files_write(const struct output *outputs, size_t count);

/* Whether standard output is a terminal. */
bool on_terminal(void);

/* False with a word if something printed did not get through. */
bool flush_output(void);

#endif
