/* The words of a command line. */
#ifndef OPTIONS_H
#define OPTIONS_H

#include <stdbool.h>
#include <stddef.h>

/* What a subcommand may be told; each has its own set. */
enum option_set {
    TAKES_MEMORY = 1,
    TAKES_TURNS = 2, /* --turns, --cycles, --seed */
    TAKES_KEEP = 4,
    TAKES_OUTPUT = 8,
    NEEDS_OUTPUT = 16,
    TAKES_UNCHECKED = 32,
    TAKES_MANY = 64 /* plans */
};

struct options {
    const char *memory, *turns, *cycles, *seed, *keep, *output, *unchecked, *help; /* NULL where it is not given */
    char **operands;
    size_t count;
};

/* Reads the words behind a subcommand's name; `operands` point into them, which are put in another order. False with a word. */
bool options_read(const char *command, unsigned set, char **words, size_t count, struct options *options);

/* Reads the seed's number. */
bool seed_read(const char *word, unsigned long long *seed);

#endif
