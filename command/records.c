#include "records.h"

#include <string.h>

static const struct slot slots[] = {
    {'n', BARE, IN_WORKER, 1, TAMPERMAUVE_WORKERS_LIMIT, "a number of workers"},
    {'w', BARE, IN_WORKER, 1, TAMPERMAUVE_WORKERS_LIMIT - 1, "a worker"},
    {'o', BARE, IN_WORKER, 0, TAMPERMAUVE_WORKERS_LIMIT - 1, "a worker"},
    {'B', BARRIER, IN_REGISTER, 0, TAMPERMAUVE_BARRIER_COUNT - 1, "a barrier"},
    {'s', BARE, IN_NUMBER, 1, TAMPERMAUVE_SIZE_LIMIT, "a size"},
    {'r', REGISTER, IN_REGISTER, 0, TAMPERMAUVE_REGISTER_COUNT - 1, "a register"},
    {'q', REGISTER, IN_NUMBER, 0, TAMPERMAUVE_REGISTER_COUNT - 1, "a register"},
    {'v', BARE, IN_NUMBER, 0, TAMPERMAUVE_VALUE_LIMIT, "a value"},
    {'a', ADDRESS, IN_NUMBER, 0, TAMPERMAUVE_ADDRESS_LIMIT, "an address"},
    {'k', SKIP, IN_NUMBER, 1, TAMPERMAUVE_SKIP_LIMIT, "a number of steps"},
    {'l', LOCK, IN_NUMBER, 0, TAMPERMAUVE_LOCK_LIMIT, "a lock"},
    {'c', CONDITION, IN_NUMBER, 0, TAMPERMAUVE_CONDITION_LIMIT, "a condition"},
    {'b', BARRIER, IN_NUMBER, 0, TAMPERMAUVE_BARRIER_COUNT - 1, "a barrier"},
    {'W', BARE, IN_NUMBER, 0, TAMPERMAUVE_WORKERS_LIMIT - 1, "a worker"},
};

const struct form forms[] = {
    {TAMPERMAUVE_OP_PLAN_RECORD, "workers", "$n"},
    {TAMPERMAUVE_OP_BARRIER_RECORD, "barrier", "$B size $s"},
    {TAMPERMAUVE_OP_SLEEP_RECORD, "sleeper", "$w"},
    {TAMPERMAUVE_OP_SET, "set", "$r $v"},
    {TAMPERMAUVE_OP_LOAD, "load", "$r from $a"},
    {TAMPERMAUVE_OP_STORE, "store", "$r at $a"},
    {TAMPERMAUVE_OP_ADD, "add", "$q to $r"},
    {TAMPERMAUVE_OP_SUBTRACT, "subtract", "$q from $r"},
    {TAMPERMAUVE_OP_SKIP_ZERO, "skip", "$k if $r is zero"},
    {TAMPERMAUVE_OP_SKIP_NONZERO, "skip", "$k if $r is not zero"},
    {TAMPERMAUVE_OP_LOCK, "lock", "$l"},
    {TAMPERMAUVE_OP_UNLOCK, "unlock", "$l"},
    {TAMPERMAUVE_OP_WAIT, "wait", "$c"},
    {TAMPERMAUVE_OP_SIGNAL, "signal", "$c"},
    {TAMPERMAUVE_OP_BROADCAST, "broadcast", "$c"},
    {TAMPERMAUVE_OP_BARRIER, "barrier", "$b"},
    {TAMPERMAUVE_OP_EXIT, "exit", ""},
    {TAMPERMAUVE_OP_START, "start", "$W"},
};
const size_t form_count = sizeof forms / sizeof *forms;

struct record record_at(const uint8_t *file, size_t index)
{
    const uint8_t *at = file + index * TAMPERMAUVE_RECORD_LENGTH;
    struct record record = {
        tampermauve_word(at, TAMPERMAUVE_RECORD_MARK), at[TAMPERMAUVE_RECORD_WORKER], at[TAMPERMAUVE_RECORD_OP],
        at[TAMPERMAUVE_RECORD_REGISTER], tampermauve_word(at, TAMPERMAUVE_RECORD_NUMBER),
    };
    return record;
}

static void put_word(uint8_t *at, unsigned number)
{
    at[0] = (uint8_t)(number % 256u);
    at[1] = (uint8_t)(number / 256u);
}

static void put_record(uint8_t *at, const struct record *record)
{
    put_word(at + TAMPERMAUVE_RECORD_MARK, record->mark);
    at[TAMPERMAUVE_RECORD_WORKER] = (uint8_t)record->worker;
    at[TAMPERMAUVE_RECORD_OP] = (uint8_t)record->op;
    at[TAMPERMAUVE_RECORD_REGISTER] = (uint8_t)record->reg;
    put_word(at + TAMPERMAUVE_RECORD_NUMBER, record->number);
}

void record_add(struct bytes *file, const struct record *record)
{
    uint8_t at[TAMPERMAUVE_RECORD_LENGTH];
    put_record(at, record);
    bytes_add(file, at, sizeof at);
}

bool is_step(const struct record *record)
{
    return record->op > TAMPERMAUVE_OP_SLEEP_RECORD;
}

const struct form *form_of(unsigned op)
{
    for (size_t i = 0; i < form_count; i++)
        if (forms[i].op == op)
            return &forms[i];
    return NULL;
}

const struct slot *slot_of(char sign)
{
    size_t i = 0;
    while (slots[i].sign != sign)
        i++;
    return &slots[i];
}

size_t form_word(const char **place, const char **word)
{
    size_t length;
    *word = *place + strspn(*place, " ");
    length = strcspn(*word, " ");
    *place = *word + length;
    return length;
}

unsigned *field_of(struct record *record, const struct slot *slot)
{
    return slot->field == IN_WORKER ? &record->worker : slot->field == IN_REGISTER ? &record->reg : &record->number;
}

bool has_form(const struct record *record)
{
    const struct form *form = form_of(record->op);
    struct record rest = *record;
    const char *place, *word;
    if (form == NULL || record->mark != TAMPERMAUVE_PLAN_MARK)
        return false;
    for (place = form->rest; form_word(&place, &word) > 0;)
        if (*word == '$')
            *field_of(&rest, slot_of(word[1])) = 0;
    return (is_step(record) || rest.worker == 0) && rest.reg == 0 && rest.number == 0;
}

static void print_bytes(struct bytes *text, const struct record *record)
{
    uint8_t at[TAMPERMAUVE_RECORD_LENGTH];
    put_record(at, record);
    bytes_print(text, "record");
    for (size_t i = 0; i < sizeof at; i++)
        bytes_print(text, " %02X", (unsigned)at[i]);
}

static void print_operand(struct bytes *text, struct record record, const struct slot *slot, const char *label)
{
    unsigned number = *field_of(&record, slot);
    if (slot->kind == SKIP && label != NULL)
        bytes_print(text, "to %s", label);
    else
        bytes_print(text, "%s%u", slot->kind == REGISTER ? "r" : "", number);
}

void record_print(struct bytes *text, const struct record *record, const char *label)
{
    const struct form *form = form_of(record->op);
    const char *place, *word;
    size_t length;
    if (!has_form(record)) {
        print_bytes(text, record);
        return;
    }
    bytes_print(text, "%s", form->word);
    for (place = form->rest; (length = form_word(&place, &word)) > 0;) {
        bytes_print(text, " ");
        if (*word == '$')
            print_operand(text, *record, slot_of(word[1]), label);
        else
            bytes_add(text, word, length);
    }
}

void slot_print(struct bytes *text, const struct slot *slot, unsigned most)
{
    const char *r = slot->kind == REGISTER ? "r" : "";
    bytes_print(text, "%s, %s%u to %s%u", slot->what, r, slot->least, r, most);
}

const char *op_word(unsigned op)
{
    const struct form *form = form_of(op);
    return form != NULL ? form->word : "op";
}
