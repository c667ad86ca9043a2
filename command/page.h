/* A run as a page: HTML with pictures in it, which needs no other file and no script. */
#ifndef PAGE_H
#define PAGE_H

#include <stddef.h>
#include <stdint.h>

#include "bytes.h"

/* Adds the page of a run to `page`. The file is accepted, `memory` is the starting memory, of TAMPERMAUVE_MEMORY_LENGTH bytes,
 * and each turn names a worker of the file. The title may hold any text: it is escaped. */
void page_write(const uint8_t *file, size_t length, const char *title, const uint8_t *memory, const uint8_t *turns,
                size_t turns_length, struct bytes *page);

/* Parts of the page, in files of their own. */
void style_write(struct bytes *page);
void legend_write(struct bytes *page);

#endif
