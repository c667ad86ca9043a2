/* One statement of a text. */
#ifndef PARSE_H
#define PARSE_H

#include <stdbool.h>
#include <stddef.h>

#include "bytes.h"
#include "names.h"
#include "records.h"
#include "scan.h"

struct statement {
    bool names_something; /* `kind`, `name` and `number` */
    bool opens_block;     /* of worker `number` */
    bool has_record;      /* `record`, whose worker is the block's if it is */
    bool in_block;
    enum kind kind;
    struct token name;
    unsigned number;
    struct record record;
    struct token label; /* that a skip goes to; of length 0 where there is none */
};

/* What was expected, at the word that nothing fits. */
struct miss {
    size_t at;
    struct bytes expected;
};

/* Reads the statement that begins with word `from`. Of two that could be meant the one that goes on further is. */
bool parse_statement(const struct line *line, size_t from, const struct names *names, struct statement *statement, struct miss *miss);

unsigned miss_column(const struct line *line, const struct miss *miss);

/* Adds "expected .., found ..". */
void miss_print(struct bytes *words, const struct line *line, const struct miss *miss);

#endif
