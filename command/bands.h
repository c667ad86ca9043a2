/* The rounds of a run: a band for each, with a heading that is always there and a picture that folds away. */
#ifndef BANDS_H
#define BANDS_H

#include "trace.h"

void bands_write(const struct trace *trace, struct bytes *page);

#endif
