/* From a plan as text to its file. docs/TEXT.md has the grammar. */
#ifndef ASSEMBLE_H
#define ASSEMBLE_H

#include <stdbool.h>
#include <stddef.h>

#include "bytes.h"

/* Assembles a text into `file` and `lines`, which are empty: its records, and the line of each as an unsigned. Added to `complaints` is a
 * line for each of the first errors, with the text's name, the line and the column, and what was expected. True where there is none.
 * Whether the library accepts the file is another question. */
bool assemble(const char *name, const char *text, size_t length, struct bytes *file, struct bytes *lines, struct bytes *complaints);

#endif
