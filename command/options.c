#include "options.h"

#include <errno.h>
#include <stdio.h>
#include <stdlib.h>
#include <string.h>

static const struct {
    const char *word;
    unsigned set; /* who takes it: 0 is everybody */
    bool has_value;
    size_t place;
} known[] = {
    {"--memory", TAKES_MEMORY, true, offsetof(struct options, memory)},
    {"--turns", TAKES_TURNS, true, offsetof(struct options, turns)},
    {"--cycles", TAKES_TURNS, false, offsetof(struct options, cycles)},
    {"--seed", TAKES_TURNS, true, offsetof(struct options, seed)},
    {"--keep", TAKES_KEEP, true, offsetof(struct options, keep)},
    {"-o", TAKES_OUTPUT | NEEDS_OUTPUT, true, offsetof(struct options, output)},
    {"--unchecked", TAKES_UNCHECKED, false, offsetof(struct options, unchecked)},
    {"--help", 0, false, offsetof(struct options, help)},
};

static bool complain(const char *command, const char *before, const char *word, const char *behind)
{
    fprintf(stderr, "tampermauve %s: %s%s%s; 'tampermauve %s --help' tells more\n", command, before, word, behind, command);
    return false;
}

/* The number of an option that the subcommand takes; -1 if the word is none. */
static int option_of(const char *word, unsigned set)
{
    for (size_t i = 0; i < sizeof known / sizeof *known; i++)
        if (strcmp(word, known[i].word) == 0 && (known[i].set == 0 || (known[i].set & set) != 0))
            return (int)i;
    return -1;
}

/* Takes the option at *at, and its value behind it. */
static bool take(const char *command, unsigned set, char **words, size_t count, size_t *at, struct options *options)
{
    const char *word = words[*at];
    int which = option_of(word, set);
    const char **value;
    if (which < 0)
        return complain(command, "'", word, "' is no option here");
    value = (const char **)(void *)((char *)options + known[which].place);
    if (*value != NULL)
        return complain(command, "", word, " is given twice");
    if (known[which].has_value && ++*at == count)
        return complain(command, "", word, " needs a value behind it");
    *value = words[*at];
    return true;
}

static bool is_dash(const char *path)
{
    return path != NULL && strcmp(path, "-") == 0;
}

static bool inputs_fit(const char *command, const struct options *o)
{
    int inputs = is_dash(o->memory) + is_dash(o->turns);
    for (size_t i = 0; i < o->count; i++)
        inputs += is_dash(o->operands[i]);
    return inputs <= 1 || complain(command, "standard input can be read once, and ", "-", " is given more often");
}

/* A plan or text that is written over by what is made of it is gone. */
static bool output_fits(const char *command, unsigned set, const struct options *o)
{
    if ((set & NEEDS_OUTPUT) != 0 && o->output == NULL)
        return complain(command, "", "-o", " is missing, with the file to write");
    if (o->output != NULL && !is_dash(o->output) && strcmp(o->output, o->operands[0]) == 0)
        return complain(command, "'", o->output, "' is read, and cannot be written as well");
    return true;
}

static bool fits(const char *command, unsigned set, const struct options *o)
{
    if (o->help != NULL)
        return true;
    if (o->count == 0)
        return complain(command, "a ", (set & TAKES_UNCHECKED) != 0 ? "text" : "plan", " is missing");
    if (o->count > 1 && (set & TAKES_MANY) == 0)
        return complain(command, "'", o->operands[1], "' is one word too many");
    if ((o->turns != NULL) + (o->cycles != NULL) + (o->seed != NULL) > 1)
        return complain(command, "of --turns, --cycles and --seed one can be given", "", "");
    return output_fits(command, set, o) && inputs_fit(command, o);
}

bool options_read(const char *command, unsigned set, char **words, size_t count, struct options *options)
{
    bool all_operands = false;
    memset(options, 0, sizeof *options);
    options->operands = words;
    for (size_t at = 0; at < count; at++) {
        char *word = words[at];
        if (!all_operands && strcmp(word, "--") == 0)
            all_operands = true;
        else if (all_operands || *word != '-' || strcmp(word, "-") == 0)
            words[options->count++] = word;
        else if (!take(command, set, words, count, &at, options))
            return false;
    }
    return fits(command, set, options);
}

bool seed_read(const char *word, unsigned long long *seed)
{
    char *end;
    errno = 0;
    *seed = strtoull(word, &end, 10);
    if (*word >= '0' && *word <= '9' && *end == '\0' && errno == 0)
        return true;
    fprintf(stderr, "tampermauve: '%s' is no seed, which is a number from 0 to %llu\n", word, (unsigned long long)-1);
    return false;
}
