/* The tables below the picture: the workers, the words that changed, and the log. */
#ifndef TABLES_H
#define TABLES_H

#include "trace.h"

void tables_write(const struct trace *trace, struct bytes *page);

#endif
