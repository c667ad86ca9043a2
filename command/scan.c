#include "scan.h"

#include <string.h>

static bool is_digit(char c)
{
    return c >= '0' && c <= '9';
}

static bool is_letter(char c)
{
    return (c >= 'a' && c <= 'z') || (c >= 'A' && c <= 'Z') || c == '_';
}

static bool is_blank(char c)
{
    return c == ' ' || c == '\t';
}

/* The bytes of a word from here: at least one. */
static size_t word_length(const char *at, const char *end)
{
    size_t length = 0;
    while (at + length < end && (is_letter(at[length]) || is_digit(at[length])))
        length++;
    return length > 0 ? length : 1;
}

/* Takes the line from its first byte to its end apart. */
static void read_words(struct line *line, const char *begin, const char *end)
{
    const char *at = begin;
    line->count = 0;
    line->end = 1;
    while (at < end && *at != '#' && line->count < TOKENS_LIMIT) {
        struct token token = {at, word_length(at, end), (unsigned)(at - begin) + 1};
        if (is_blank(*at)) {
            at++;
            continue;
        }
        line->tokens[line->count++] = token;
        at += token.length;
        line->end = (unsigned)(at - begin) + 1;
    }
}

bool next_line(struct line *line, const char **place, const char *end)
{
    const char *begin = *place, *behind;
    if (begin == end)
        return false;
    behind = memchr(begin, '\n', (size_t)(end - begin));
    *place = behind != NULL ? behind + 1 : end;
    behind = behind != NULL ? behind : end;
    line->number++;
    read_words(line, begin, behind > begin && behind[-1] == '\r' ? behind - 1 : behind);
    return true;
}

bool token_is(const struct token *token, const char *word)
{
    return strlen(word) == token->length && memcmp(token->at, word, token->length) == 0;
}

bool is_name(const struct token *token)
{
    return is_letter(*token->at);
}

/* The value of a digit, 16 for any other byte. */
static unsigned digit(char c)
{
    if (is_digit(c))
        return (unsigned)(c - '0');
    if (c >= 'a' && c <= 'f')
        return (unsigned)(c - 'a') + 10;
    return c >= 'A' && c <= 'F' ? (unsigned)(c - 'A') + 10 : 16;
}

static bool read_number(const char *at, size_t length, unsigned base, unsigned most, unsigned *number)
{
    *number = 0;
    for (size_t i = 0; i < length; i++) {
        unsigned value = digit(at[i]);
        if (value >= base)
            return false;
        *number = *number > most ? *number : *number * base + value;
    }
    *number = *number > most ? most + 1 : *number;
    return length > 0;
}

bool token_number(const struct token *token, unsigned most, unsigned *number)
{
    if (token->length > 2 && token->at[0] == '0' && token->at[1] == 'x')
        return read_number(token->at + 2, token->length - 2, 16, most, number);
    return read_number(token->at, token->length, 10, most, number);
}

bool token_lettered(const struct token *token, char letter, unsigned most, unsigned *number)
{
    return *token->at == letter && read_number(token->at + 1, token->length - 1, 10, most, number);
}

bool token_byte(const struct token *token, unsigned *byte)
{
    return token->length == 2 && read_number(token->at, 2, 16, 255, byte);
}
