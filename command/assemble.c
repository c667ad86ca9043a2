#include "assemble.h"

#include <stdarg.h>
#include <stdio.h>
#include <string.h>

#include "names.h"
#include "parse.h"
#include "records.h"
#include "scan.h"

enum { COMPLAINTS_LIMIT = 20, LABEL = -1, NUMBER_LIMIT = 65535 };

struct complaint {
    unsigned line, column;
    char words[256];
};

struct assembly {
    const char *name;
    struct bytes *file, *lines;
    unsigned errors;
    struct complaint told[COMPLAINTS_LIMIT]; /* the first of them */
    struct names names;  /* of addresses, locks, conditions and barriers */
    struct names labels; /* of the block, each with the number of the record that is to come */
    struct names skips;  /* of the block that go to a label, each with the number of its record */
    bool in_block;
    unsigned worker;
};

static unsigned records_in(const struct bytes *file)
{
    return (unsigned)(file->length / TAMPERMAUVE_RECORD_LENGTH);
}

/* The place of a complaint among those that are told, in the order of the text: labels are looked for at the end of their block. Those
 * behind it move on, and the last one is lost if there is no room. */
static struct complaint *room_for_complaint(struct assembly *a, unsigned line)
{
    unsigned at = a->errors < COMPLAINTS_LIMIT ? a->errors : COMPLAINTS_LIMIT;
    a->errors++;
    for (; at > 0 && a->told[at - 1].line > line; at--)
        if (at < COMPLAINTS_LIMIT)
            a->told[at] = a->told[at - 1];
    return at < COMPLAINTS_LIMIT ? &a->told[at] : NULL;
}

#if defined(__GNUC__)
__attribute__((format(printf, 4, 5)))
#endif
static void complain(struct assembly *a, unsigned line, unsigned column, const char *format, ...)
{
    struct complaint *complaint = room_for_complaint(a, line);
    va_list rest;
    if (complaint == NULL)
        return;
    complaint->line = line;
    complaint->column = column;
    va_start(rest, format);
    vsnprintf(complaint->words, sizeof complaint->words, format, rest);
    va_end(rest);
}

static void tell(const struct assembly *a, struct bytes *complaints)
{
    unsigned told = a->errors < COMPLAINTS_LIMIT ? a->errors : COMPLAINTS_LIMIT;
    for (unsigned i = 0; i < told; i++)
        bytes_print(complaints, "%s:%u:%u: %s\n", a->name, a->told[i].line, a->told[i].column, a->told[i].words);
    if (a->errors > told)
        bytes_print(complaints, "%s: %u %s more\n", a->name, a->errors - told, a->errors - told == 1 ? "error" : "errors");
}

/* The bytes of a word that a message has room for. */
static int shown(const struct token *token)
{
    return token->length < 40 ? (int)token->length : 40;
}

static void complain_of_name(struct assembly *a, unsigned line, const struct token *token, const char *words)
{
    complain(a, line, token->column, "'%.*s' %s", shown(token), token->at, words);
}

/* Gives a name, once. */
static void give_name(struct assembly *a, struct names *names, const struct name *name)
{
    const struct name *before = name_find(names, name->kind, &name->token);
    if (before == NULL && names->count == NAMES_LIMIT)
        complain(a, name->line, name->token.column, "a text has at most %d names, and a block as many labels", NAMES_LIMIT);
    else if (before == NULL)
        name_add(names, name);
    else
        complain(a, name->line, name->token.column, "'%.*s' has been given on line %u", shown(&name->token), name->token.at,
                 before->line);
}

/* Counts the steps from a skip to its label. */
static void resolve(struct assembly *a, const struct name *skip)
{
    const struct name *label = name_find(&a->labels, LABEL, &skip->token);
    uint8_t *number = a->file->at + skip->number * TAMPERMAUVE_RECORD_LENGTH + TAMPERMAUVE_RECORD_NUMBER;
    unsigned passed;
    if (label == NULL) {
        complain_of_name(a, skip->line, &skip->token, "is no label of this worker's block");
        return;
    }
    if (label->number <= skip->number) {
        complain_of_name(a, skip->line, &skip->token, "stands above: a skip goes on to a label behind it");
        return;
    }
    passed = label->number - skip->number - 1;
    if (passed > NUMBER_LIMIT) {
        complain_of_name(a, skip->line, &skip->token, "is too far away for a skip");
        return;
    }
    number[0] = (uint8_t)(passed % 256u);
    number[1] = (uint8_t)(passed / 256u);
}

static void end_block(struct assembly *a)
{
    for (size_t i = 0; i < a->skips.count; i++)
        resolve(a, &a->skips.list[i]);
    a->skips.count = 0;
    a->labels.count = 0;
}

static void add_record(struct assembly *a, const struct line *line, const struct record *record)
{
    record_add(a->file, record);
    bytes_add(a->lines, &line->number, sizeof line->number);
}

static void take_label(struct assembly *a, const struct line *line)
{
    struct name label = {LABEL, line->tokens[0], records_in(a->file), line->number};
    if (!is_name(&label.token))
        complain(a, line->number, label.token.column, "a label is a name, which begins with a letter or an underscore");
    else if (!a->in_block)
        complain_of_name(a, line->number, &label.token, "is a label, and a label stands in a worker's block");
    else
        give_name(a, &a->labels, &label);
}

/* Adds what a statement, which begins with word `from`, means to the file, or to what is known of the text. */
static void take_statement(struct assembly *a, const struct line *line, size_t from, const struct statement *s)
{
    struct record record = s->record;
    if (s->names_something) {
        struct name name = {s->kind, s->name, s->number, line->number};
        give_name(a, &a->names, &name);
    }
    if (s->opens_block) {
        end_block(a);
        a->in_block = true;
        a->worker = s->number;
    }
    if (!s->has_record)
        return;
    if (s->in_block && !a->in_block) {
        complain(a, line->number, line->tokens[from].column, "a step stands in a worker's block: 'worker W' is missing above it");
        return;
    }
    if (s->in_block)
        record.worker = a->worker;
    if (s->label.length > 0) {
        struct name skip = {LABEL, s->label, records_in(a->file), line->number};
        name_add(&a->skips, &skip);
    }
    add_record(a, line, &record);
}

static void take_line(struct assembly *a, const struct line *line)
{
    struct statement statement;
    struct miss miss = {0};
    size_t from = 0;
    if (line->count >= 2 && token_is(&line->tokens[1], ":")) {
        take_label(a, line);
        from = 2;
    }
    if (from == line->count)
        return;
    if (parse_statement(line, from, &a->names, &statement, &miss)) {
        take_statement(a, line, from, &statement);
    } else {
        struct bytes words = {0};
        miss_print(&words, line, &miss);
        complain(a, line->number, miss_column(line, &miss), "%.*s", (int)words.length, (const char *)words.at);
        bytes_free(&words);
    }
    bytes_free(&miss.expected);
}

bool assemble(const char *name, const char *text, size_t length, struct bytes *file, struct bytes *lines, struct bytes *complaints)
{
    struct assembly a = {0};
    struct line line = {0};
    const char *place = text, *end = text + length;
    a.name = name;
    a.file = file;
    a.lines = lines;
    while (next_line(&line, &place, end))
        take_line(&a, &line);
    end_block(&a);
    tell(&a, complaints);
    names_free(&a.names);
    names_free(&a.labels);
    names_free(&a.skips);
    return a.errors == 0;
}
