/* tampermauve: plans for people. Each subcommand says what it takes. */
#include <stdio.h>
#include <string.h>

#include "commands.h"
#include "tampermauve.h"

static const char plans[] = "PLAN is a plan file, or a text whose name ends in .steps; - is standard input, a plan file.\n";
static const char chosen[] = "  --memory FILE  the starting memory, 2048 bytes; without it all zero\n"
                             "  --turns FILE   a list of turns: bytes, each of which names a worker\n"
                             "  --cycles       whole cycles of turns 0, 1, .. to the end of the plan; this is the default\n"
                             "  --seed N       whole cycles, each in an order of its own, which N settles\n";

static const struct {
    const char *word;
    unsigned set;
    enum status (*command)(const struct options *);
    const char *use;
    const char *what;
    const char *chosen;
    const char *more;
} commands[] = {
    {"check", TAKES_MANY, command_check, "PLAN...", "says of each plan whether it is accepted, and if not, why", "", ""},
    {"run", TAKES_MEMORY | TAKES_TURNS | TAKES_KEEP, command_run,
     "PLAN [--memory FILE] [--turns FILE | --cycles | --seed N] [--keep PREFIX]",
     "runs a plan, and says how it ended and what it changed", chosen,
     "  --keep PREFIX  writes PREFIX.start, the starting memory, PREFIX.memory, PREFIX.log and PREFIX.report\n"},
    {"list", 0, command_list, "PLAN", "prints a plan's listing: its log from zero memory, the end and the moving turns", "", ""},
    {"assemble", NEEDS_OUTPUT | TAKES_UNCHECKED, command_assemble, "TEXT -o PLAN [--unchecked]", "writes the plan file of a text", "",
     "  -o PLAN        the file to write; - is standard output\n"
     "  --unchecked    writes a plan that the check refuses as well\n"},
    {"disassemble", TAKES_OUTPUT, command_disassemble, "PLAN [-o TEXT]", "prints the text of a plan file, a refused one too", "",
     "  -o TEXT        the file to write, in place of standard output\n"},
    {"show", TAKES_MEMORY | TAKES_TURNS | NEEDS_OUTPUT, command_show,
     "PLAN -o PAGE [--memory FILE] [--turns FILE | --cycles | --seed N]", "writes a page with a picture of a run", chosen,
     "  -o PAGE        the page to write, in HTML; - is standard output\n"},
};
enum { COMMANDS = sizeof commands / sizeof *commands };

static void print_use(FILE *to)
{
    fputs("tampermauve COMMAND ..., where COMMAND is one of\n", to);
    for (size_t i = 0; i < COMMANDS; i++)
        fprintf(to, "  %-12s %s\n", commands[i].word, commands[i].what);
    fputs("tampermauve COMMAND --help tells more of one, tampermauve --version the version.\n"
          "It ends with 0; with 1 if a plan is refused; with 2 if there is trouble with a file or with the words.\n", to);
}

static void print_help(size_t which)
{
    printf("tampermauve %s %s\n%s.\n", commands[which].word, commands[which].use, commands[which].what);
    fputs(commands[which].chosen, stdout);
    fputs(commands[which].more, stdout);
    fputs(strcmp(commands[which].word, "assemble") == 0 ? "TEXT is a plan as text; - is standard input.\n" : plans, stdout);
}

static enum status obey(size_t which, char **words, size_t count)
{
    struct options options;
    if (!options_read(commands[which].word, commands[which].set, words, count, &options))
        return TROUBLE;
    if (options.help != NULL) {
        print_help(which);
        return FINE;
    }
    return commands[which].command(&options);
}

static enum status named(const char *word, char **words, size_t count)
{
    for (size_t i = 0; i < COMMANDS; i++)
        if (strcmp(word, commands[i].word) == 0)
            return obey(i, words, count);
    if (strcmp(word, "--help") == 0) {
        print_use(stdout);
        return FINE;
    }
    if (strcmp(word, "--version") == 0) {
        puts("tampermauve " TAMPERMAUVE_VERSION);
        return FINE;
    }
    fprintf(stderr, "tampermauve: '%s' is no command\n", word);
    print_use(stderr);
    return TROUBLE;
}

int main(int argc, char **argv)
{
    enum status status;
    if (argc < 2) {
        print_use(stderr);
        return TROUBLE;
    }
    status = named(argv[1], argv + 2, (size_t)argc - 2);
    return status == TROUBLE || flush_output() ? (int)status : TROUBLE;
}
