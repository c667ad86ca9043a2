/* The records of a plan file, each with its text: the one table that the assembler, the disassembler and every message read. */
#ifndef RECORDS_H
#define RECORDS_H

#include <stdbool.h>
#include <stddef.h>
#include <stdint.h>

#include "bytes.h"
#include "tampermauve.h"

/* A record, taken apart. */
struct record {
    unsigned mark;
    unsigned worker;
    unsigned op;
    unsigned reg;
    unsigned number;
};

struct record record_at(const uint8_t *file, size_t index);
void record_add(struct bytes *file, const struct record *record);

/* A step belongs to a worker's block; the others are the plan record and those of barriers and sleepers. */
bool is_step(const struct record *record);

/* What an operand is, and so how it is written: a bare number, r and a number, a number or a name, or a skip's. */
enum kind { BARE, REGISTER, ADDRESS, LOCK, CONDITION, BARRIER, SKIP };

enum field { IN_WORKER, IN_REGISTER, IN_NUMBER };

/* An operand: its sign in the forms, its place in the record, and its range, which is for messages alone: the library checks it. */
struct slot {
    char sign;
    enum kind kind;
    enum field field;
    unsigned least, most;
    const char *what;
};

/* The text of an op: its first word, and what stands behind it: words, and operands as $ and their sign. */
struct form {
    unsigned op;
    const char *word;
    const char *rest;
};

extern const struct form forms[];
extern const size_t form_count;

/* The form of an op, NULL if nothing has that number. */
const struct form *form_of(unsigned op);
const struct slot *slot_of(char sign);

/* The next word of a form's rest at *place, which moves behind it; its length, 0 at the end. */
size_t form_word(const char **place, const char **word);

/* The operand's place in a record. */
unsigned *field_of(struct record *record, const struct slot *slot);

/* Whether a record's form says all of it: it has its mark, a known op, and 0 where the form has no operand. */
bool has_form(const struct record *record);

/* Adds a record's text: its form, with a skip's label where that is not NULL, or else its seven bytes. */
void record_print(struct bytes *text, const struct record *record, const char *label);

/* Adds an operand's range: "an address, 0 to 2046". */
void slot_print(struct bytes *text, const struct slot *slot, unsigned most);

/* The first word of an op's text, as "lock"; "op" where nothing has that number. */
const char *op_word(unsigned op);

#endif
