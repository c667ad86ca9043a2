/* Names in a text: those of addresses, locks, conditions and barriers, and the labels of a block. */
#ifndef NAMES_H
#define NAMES_H

#include <stddef.h>

#include "scan.h"

/* A name, with its number and where it stands; it points into the text. */
struct name {
    int kind;
    struct token token;
    unsigned number;
    unsigned line;
};

/* How many a text may give: more than a plan can use. It bounds the time that looking them up takes. */
enum { NAMES_LIMIT = 10000 };

/* An empty list is all zero. */
struct names {
    struct name *list;
    size_t count;
    size_t room;
};

/* The name of that kind and text, NULL if there is none. */
const struct name *name_find(const struct names *names, int kind, const struct token *token);

void name_add(struct names *names, const struct name *name);
void names_free(struct names *names);

#endif
