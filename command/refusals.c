#include "refusals.h"

#include "records.h"

enum { MOST_RECORDS = TAMPERMAUVE_FILE_LIMIT / TAMPERMAUVE_RECORD_LENGTH };

static unsigned workers_of(const uint8_t *file)
{
    return file[TAMPERMAUVE_RECORD_WORKER];
}

static void print_length(struct bytes *words, size_t length)
{
    if (length == 0)
        bytes_print(words, "there is no record; a plan has 1 to %d, and the first is its plan record", (int)MOST_RECORDS);
    else if (length > TAMPERMAUVE_FILE_LIMIT)
        bytes_print(words, "there are more than %d records of %u bytes, the most that a plan has", (int)MOST_RECORDS,
                    TAMPERMAUVE_RECORD_LENGTH);
    else
        bytes_print(words, "the length %u is no whole number of records, each of which has %u bytes", (unsigned)length,
                    TAMPERMAUVE_RECORD_LENGTH);
}

/* The mark as two bytes. */
static void print_mark(struct bytes *words, unsigned mark)
{
    bytes_print(words, "a record begins with the bytes %02X %02X, and this one with %02X %02X", TAMPERMAUVE_PLAN_MARK % 256u,
                TAMPERMAUVE_PLAN_MARK / 256u, mark % 256u, mark / 256u);
}

/* "a register, r0 to r3", or of two registers both. */
static void print_slot(struct bytes *words, const struct record *record, const struct slot *slot, unsigned workers)
{
    if (slot->sign == 'q')
        bytes_print(words, "two registers, r%u to r%u", slot->least, slot->most);
    else
        slot_print(words, slot, record->op == TAMPERMAUVE_OP_START ? workers - 1 : slot->most);
}

/* What an op takes: "'store' takes a register, r0 to r3, and an address, 0 to 2046". */
static void print_operands(struct bytes *words, const struct record *record, unsigned workers)
{
    const struct form *form = form_of(record->op);
    const char *place = form->rest, *word, *before = " takes ";
    bytes_print(words, "'%s'", form->word);
    while (form_word(&place, &word) > 0) {
        const struct slot *slot = *word == '$' ? slot_of(word[1]) : NULL;
        if (slot == NULL)
            continue;
        bytes_print(words, "%s", before);
        print_slot(words, record, slot, workers);
        before = ", and ";
        if (slot->sign == 'q')
            break;
    }
    if (!has_form(record))
        bytes_print(words, "%s", *before == ',' ? ", and its other operand is 0" : " takes no operand: register and number are 0");
}

static void print_skip(struct bytes *words, const uint8_t *file, size_t length, size_t index)
{
    struct record skip = record_at(file, index);
    size_t behind = 0;
    for (size_t i = index + 1; i < length / TAMPERMAUVE_RECORD_LENGTH; i++)
        behind += record_at(file, i).worker == skip.worker;
    bytes_print(words, "a skip lands just behind its worker's last step at the furthest; behind this one that worker has %u more",
                (unsigned)behind);
}

static void print_worker(struct bytes *words, unsigned worker, unsigned workers)
{
    if (worker >= workers)
        bytes_print(words, "the plan has the workers 0 to %u, and this is a step of worker %u", workers - 1, worker);
    else
        bytes_print(words, "the workers' blocks ascend, and here worker %u stands behind a greater one", worker);
}

static void print_plan(struct bytes *words, size_t index)
{
    if (index > 0)
        bytes_print(words, "there is one plan record, 'workers N', and it is the first record");
    else
        bytes_print(words, "the first record is the plan record, 'workers N', where N is 1 to %u", TAMPERMAUVE_WORKERS_LIMIT);
}

static void print_sleeper(struct bytes *words, unsigned workers)
{
    if (workers == 1)
        bytes_print(words, "a plan of one worker has no sleepers");
    else
        bytes_print(words, "'sleeper W' has W from 1 to %u; sleepers ascend and stand before the steps", workers - 1);
}

/* What the records in front are, and in which order they stand. */
static void print_layout(struct bytes *words, uint32_t refusal, const struct record *record, size_t index, unsigned workers)
{
    if (refusal == TAMPERMAUVE_BAD_PLAN)
        print_plan(words, index);
    else if (refusal == TAMPERMAUVE_BAD_SLEEP)
        print_sleeper(words, workers);
    else
        bytes_print(words, "'barrier B size S' has B from 0 to %u and S from 1 to %u; barriers ascend and stand before sleepers and steps",
                    TAMPERMAUVE_BARRIER_COUNT - 1, TAMPERMAUVE_SIZE_LIMIT);
    if (!has_form(record) && !is_step(record))
        bytes_print(words, "; its other bytes are 0");
}

/* What a step is. */
static void print_step(struct bytes *words, uint32_t refusal, const struct record *step, unsigned workers)
{
    if (refusal == TAMPERMAUVE_BAD_OP)
        bytes_print(words, "there is no op %u", step->op);
    else if (refusal == TAMPERMAUVE_BAD_WORKER)
        print_worker(words, step->worker, workers);
    else if (refusal == TAMPERMAUVE_TOO_MANY_STEPS)
        bytes_print(words, "a worker has at most %u steps", TAMPERMAUVE_STEPS_LIMIT);
    else if (refusal == TAMPERMAUVE_NO_SIZE)
        bytes_print(words, "barrier %u has no size: 'barrier %u size S' stands before the steps", step->number, step->number);
    else
        print_operands(words, step, workers);
}

void refusal_print(struct bytes *words, const uint8_t *file, size_t length, uint32_t answer)
{
    size_t index = tampermauve_index(answer);
    uint32_t refusal = tampermauve_refusal(answer);
    struct record record;
    if (refusal == TAMPERMAUVE_BAD_LENGTH) {
        print_length(words, length);
        return;
    }
    record = record_at(file, index);
    switch (refusal) {
    case TAMPERMAUVE_BAD_MARK:
        print_mark(words, record.mark);
        break;
    case TAMPERMAUVE_BAD_PLAN:
    case TAMPERMAUVE_BAD_BARRIER:
    case TAMPERMAUVE_BAD_SLEEP:
        print_layout(words, refusal, &record, index, workers_of(file));
        break;
    case TAMPERMAUVE_SKIP_TOO_FAR:
        print_skip(words, file, length, index);
        break;
    default:
        print_step(words, refusal, &record, workers_of(file));
    }
}

/* The first turn that names no worker of the plan, which is accepted. */
static void print_bad_turn(struct bytes *words, unsigned workers, const struct turns *turns)
{
    size_t i = 0;
    while (turns->at[i] < workers)
        i++;
    bytes_print(words, "the plan has the workers 0 to %u, and turn %u names worker %u", workers - 1, (unsigned)i + 1,
                (unsigned)turns->at[i]);
}

void turns_refusal_print(struct bytes *words, const uint8_t *file, const struct turns *turns, uint32_t answer)
{
    if (tampermauve_refusal(answer) == TAMPERMAUVE_BAD_TURN)
        print_bad_turn(words, workers_of(file), turns);
    else
        bytes_print(words, "a list of turns has at most %u", TAMPERMAUVE_TURNS_LIMIT);
}
