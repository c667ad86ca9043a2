/* A text, line by line, and the words of a line. */
#ifndef SCAN_H
#define SCAN_H

#include <stdbool.h>
#include <stddef.h>

/* A word: letters, digits and underscores; or one other byte. It points into the text. */
struct token {
    const char *at;
    size_t length;
    unsigned column; /* in bytes, the first being 1 */
};

/* More words than any statement has. What stands behind them is not read, as the statement is wrong by then. */
enum { TOKENS_LIMIT = 24 };

struct line {
    unsigned number; /* the first being 1 */
    struct token tokens[TOKENS_LIMIT];
    size_t count;
    unsigned end; /* the column behind the last word */
};

/* The next line of the text from *place to its end, which moves behind it; false where there is none. A comment goes from # to the
 * end of its line; blanks are spaces and tabs, and a carriage return before the end of the line. */
bool next_line(struct line *line, const char **place, const char *end);

bool token_is(const struct token *token, const char *word);

/* Whether it begins as a name does, with a letter or an underscore. */
bool is_name(const struct token *token);

/* Reads a number, decimal or hexadecimal behind 0x; one above the most is given as the most plus one. */
bool token_number(const struct token *token, unsigned most, unsigned *number);

/* The same of what stands behind a word's first letter, as in r3. */
bool token_lettered(const struct token *token, char letter, unsigned most, unsigned *number);

/* Reads a byte as two hexadecimal digits. */
bool token_byte(const struct token *token, unsigned *byte);

#endif
