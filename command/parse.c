#include "parse.h"

#include <string.h>

enum { SHOWN = 40 };

/* Where the reading stands. */
struct reading {
    const struct line *line;
    size_t at;
    const struct names *names;
    struct statement *statement;
    struct miss *miss;
};

static const struct token *next(const struct reading *r)
{
    return r->at < r->line->count ? &r->line->tokens[r->at] : NULL;
}

/* Notes what was expected here, if no other reading went on further. What two forms have in common, they begin with: it is noted once. */
static bool missed(const struct reading *r, const char *before, const char *what, const char *behind)
{
    struct bytes words = {0};
    struct bytes *expected = &r->miss->expected;
    if (r->at < r->miss->at)
        return false;
    if (r->at > r->miss->at)
        expected->length = 0;
    r->miss->at = r->at;
    bytes_print(&words, "%s%s%s", before, what, behind);
    if (expected->length != words.length || memcmp(expected->at, words.at, words.length) != 0) {
        bytes_print(expected, "%s", expected->length > 0 ? " or " : "");
        bytes_add(expected, words.at, words.length);
    }
    bytes_free(&words);
    return false;
}

static bool read_word(struct reading *r, const char *word, size_t length)
{
    const struct token *token = next(r);
    char wanted[32];
    memcpy(wanted, word, length);
    wanted[length] = '\0';
    if (token == NULL || !token_is(token, wanted))
        return missed(r, "'", wanted, "'");
    r->at++;
    return true;
}

static bool read_end(struct reading *r)
{
    return next(r) == NULL || missed(r, "", "the end of the line", "");
}

static bool read_name(struct reading *r, struct token *name, const char *what)
{
    const struct token *token = next(r);
    if (token == NULL || !is_name(token))
        return missed(r, "", what, "");
    *name = *token;
    r->at++;
    return true;
}

static bool takes_names(const struct slot *slot)
{
    return slot->kind == ADDRESS || slot->kind == LOCK || slot->kind == CONDITION || slot->kind == BARRIER;
}

static bool missed_operand(const struct reading *r, const struct slot *slot)
{
    struct bytes range = {0};
    const char *behind = takes_names(slot) ? ", or the name of one" : slot->kind == SKIP ? ", or 'to' and a label" : "";
    slot_print(&range, slot, slot->most);
    bytes_add(&range, "", 1);
    missed(r, "", (const char *)range.at, behind);
    bytes_free(&range);
    return false;
}

/* Reads a number that fits the field, or the name of one. Whether it is in range is the library's question. */
static bool read_number_of(struct reading *r, const struct slot *slot, unsigned *number)
{
    const struct token *token = next(r);
    const unsigned most = slot->field == IN_NUMBER ? 65535u : 255u;
    const struct name *name;
    bool read;
    if (token == NULL)
        return missed_operand(r, slot);
    name = takes_names(slot) && is_name(token) ? name_find(r->names, (int)slot->kind, token) : NULL;
    if (name != NULL) {
        *number = name->number;
        read = true;
    } else if (slot->kind == REGISTER) {
        read = token_lettered(token, 'r', most, number);
    } else {
        read = token_number(token, most, number);
    }
    if (!read || *number > most)
        return missed_operand(r, slot);
    r->at++;
    return true;
}

static bool read_operand(struct reading *r, const struct slot *slot)
{
    const struct token *token = next(r);
    if (slot->kind == SKIP && token != NULL && token_is(token, "to")) {
        r->at++;
        return read_name(r, &r->statement->label, "a label");
    }
    return read_number_of(r, slot, field_of(&r->statement->record, slot));
}

/* Reads what stands behind a form's first word, to the end of the line. */
static bool read_rest(struct reading *r, const char *rest)
{
    const char *word;
    size_t length;
    while ((length = form_word(&rest, &word)) > 0)
        if (*word == '$' ? !read_operand(r, slot_of(word[1])) : !read_word(r, word, length))
            return false;
    return read_end(r);
}

static void begin_record(struct statement *s, unsigned op)
{
    memset(s, 0, sizeof *s);
    s->has_record = true;
    s->record.mark = TAMPERMAUVE_PLAN_MARK;
    s->record.op = op;
    s->in_block = is_step(&s->record);
}

/* Tries each form that begins with the word. A barrier with its size is no step, also where its number does not fit. */
static bool read_form(struct reading *r, const struct token *word)
{
    size_t behind = r->at + 1;
    bool sized = behind + 1 < r->line->count && token_is(&r->line->tokens[behind + 1], "size");
    for (size_t i = 0; i < form_count; i++) {
        if (!token_is(word, forms[i].word) || (sized && forms[i].op == TAMPERMAUVE_OP_BARRIER))
            continue;
        r->at = behind;
        begin_record(r->statement, forms[i].op);
        if (read_rest(r, forms[i].rest))
            return true;
    }
    return false;
}

/* What can have a name: its word, and what stands behind the name and its =. */
static const struct {
    const char *word;
    enum kind kind;
    char sign;
} named[] = {{"address", ADDRESS, 'a'}, {"lock", LOCK, 'l'}, {"condition", CONDITION, 'c'}, {"barrier", BARRIER, 'B'}};

/* Whether a line is to give a name: nothing else has a = in it, and what is no form's word can do nothing else. */
static bool gives_name(const struct line *line, size_t from)
{
    bool step = false;
    for (size_t i = from; i < line->count; i++)
        if (token_is(&line->tokens[i], "="))
            return true;
    for (size_t i = 0; i < form_count; i++)
        step = step || token_is(&line->tokens[from], forms[i].word);
    return !step;
}

/* Reads `NAME = NUMBER`, and for a barrier its size, whose record it is as well. */
static bool read_naming(struct reading *r, size_t which)
{
    struct statement *s = r->statement;
    const struct slot *slot = slot_of(named[which].sign);
    bool barrier = named[which].kind == BARRIER;
    char rest[] = {'$', named[which].sign, '\0'};
    struct token name;
    r->at++;
    if (!read_name(r, &name, "a name") || !read_word(r, "=", 1))
        return false;
    begin_record(s, TAMPERMAUVE_OP_BARRIER_RECORD);
    if (!read_rest(r, barrier ? form_of(TAMPERMAUVE_OP_BARRIER_RECORD)->rest : rest))
        return false;
    s->has_record = barrier;
    s->names_something = true;
    s->kind = named[which].kind;
    s->name = name;
    s->number = *field_of(&s->record, slot);
    return true;
}

static bool read_block(struct reading *r)
{
    r->at++;
    begin_record(r->statement, TAMPERMAUVE_OP_PLAN_RECORD);
    r->statement->has_record = false;
    r->statement->opens_block = read_rest(r, "$o");
    r->statement->number = r->statement->record.worker;
    return r->statement->opens_block;
}

/* Reads the seven bytes of a record. */
static bool read_bytes(struct reading *r)
{
    uint8_t bytes[TAMPERMAUVE_RECORD_LENGTH];
    r->at++;
    for (size_t i = 0; i < sizeof bytes; i++, r->at++) {
        const struct token *token = next(r);
        unsigned byte;
        if (token == NULL || !token_byte(token, &byte))
            return missed(r, "", "seven bytes, each as two hexadecimal digits", "");
        bytes[i] = (uint8_t)byte;
    }
    begin_record(r->statement, TAMPERMAUVE_OP_PLAN_RECORD);
    r->statement->record = record_at(bytes, 0);
    return read_end(r);
}

bool parse_statement(const struct line *line, size_t from, const struct names *names, struct statement *statement, struct miss *miss)
{
    struct reading r = {line, from, names, statement, miss};
    const struct token *word = &line->tokens[from];
    miss->at = from;
    memset(statement, 0, sizeof *statement);
    for (size_t i = 0; i < sizeof named / sizeof *named; i++)
        if (token_is(word, named[i].word) && gives_name(line, from))
            return read_naming(&r, i);
    if (token_is(word, "worker"))
        return read_block(&r);
    if (token_is(word, "record"))
        return read_bytes(&r);
    if (read_form(&r, word))
        return true;
    return miss->expected.length > 0 ? false : missed(&r, "", "a statement or a step", "");
}

unsigned miss_column(const struct line *line, const struct miss *miss)
{
    return miss->at < line->count ? line->tokens[miss->at].column : line->end;
}

/* Adds a word, or as much of it as a message has room for; a byte that is no text is shown by its number. */
static void print_token(struct bytes *words, const struct token *token)
{
    unsigned char first = (unsigned char)*token->at;
    if (token->length == 1 && (first < ' ' || first > '~'))
        bytes_print(words, "the byte %02X", (unsigned)first);
    else
        bytes_print(words, "'%.*s%s'", token->length > SHOWN ? SHOWN : (int)token->length, token->at,
                    token->length > SHOWN ? "..." : "");
}

void miss_print(struct bytes *words, const struct line *line, const struct miss *miss)
{
    bytes_print(words, "expected %.*s, found ", (int)miss->expected.length, (const char *)miss->expected.at);
    if (miss->at < line->count)
        print_token(words, &line->tokens[miss->at]);
    else
        bytes_print(words, "the end of the line");
}
