/* From a plan file to its text. docs/TEXT.md has the grammar. */
#ifndef DISASSEMBLE_H
#define DISASSEMBLE_H

#include <stddef.h>
#include <stdint.h>

#include "bytes.h"

/* Adds the text of a file, of which the library's check said this. The text of an accepted file assembles to the same bytes; in that
 * of a refused one the refusal is a comment at its place, and it goes as far as there are whole records. */
void disassemble(const uint8_t *file, size_t length, uint32_t answer, struct bytes *text);

#endif
