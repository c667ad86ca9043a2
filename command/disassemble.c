#include "disassemble.h"

#include <stdbool.h>
#include <stdio.h>
#include <stdlib.h>

#include "records.h"
#include "refusals.h"

struct disassembly {
    const uint8_t *file;
    size_t length;
    size_t count; /* of whole records */
    uint32_t answer;
    size_t refused;   /* the place of the refusal */
    unsigned *labels; /* for each place in the file, 0 or the number of its label in its worker's block; NULL in a refused file */
    struct bytes *text;
};

static bool is_skip(const struct record *record)
{
    return record->op == TAMPERMAUVE_OP_SKIP_ZERO || record->op == TAMPERMAUVE_OP_SKIP_NONZERO;
}

static size_t landing(size_t index, const struct record *skip)
{
    return index + skip->number + 1;
}

/* Marks the places where the skips of an accepted file land. */
static unsigned *find_labels(const uint8_t *file, size_t count)
{
    unsigned *labels = memory_for(count + 1, sizeof *labels);
    for (size_t i = 0; i < count; i++) {
        struct record record = record_at(file, i);
        if (is_skip(&record))
            labels[landing(i, &record)] = 1;
    }
    return labels;
}

/* Numbers them from 1 in each block. One that stands just behind a block belongs to it. */
static void number_labels(const uint8_t *file, size_t count, unsigned *labels)
{
    unsigned number = 0;
    for (size_t place = 1; place <= count; place++) {
        struct record record = record_at(file, place - 1), before = record_at(file, place > 1 ? place - 2 : 0);
        if (!is_step(&before) || record.worker != before.worker)
            number = 0;
        if (labels[place] > 0)
            labels[place] = ++number;
    }
}

static void print_label(const struct disassembly *d, size_t place)
{
    if (d->labels != NULL && d->labels[place] > 0)
        bytes_print(d->text, "L%u:\n", d->labels[place]);
}

/* Opens a worker's block in front of a step that is not of the block before it. */
static void print_block(const struct disassembly *d, size_t index, const struct record *record)
{
    struct record before = record_at(d->file, index > 0 ? index - 1 : 0);
    if (index == 0 || !is_step(&before) || !has_form(&before) || before.worker != record->worker)
        bytes_print(d->text, "%sworker %u\n", index > 0 ? "\n" : "", record->worker);
}

/* The refusal, if this is its place. */
static void print_refusal(const struct disassembly *d, size_t place, const char *margin)
{
    if (place != d->refused)
        return;
    bytes_print(d->text, "%s# refused %u: ", margin, (unsigned)tampermauve_refusal(d->answer));
    refusal_print(d->text, d->file, d->length, d->answer);
    bytes_print(d->text, "\n");
}

static void print_record(const struct disassembly *d, size_t index)
{
    struct record record = record_at(d->file, index);
    bool in_block = is_step(&record) && has_form(&record);
    const char *margin = in_block ? "    " : "";
    char label[16] = "";
    print_label(d, index);
    if (in_block)
        print_block(d, index, &record);
    print_refusal(d, index, margin);
    if (d->labels != NULL && is_skip(&record))
        snprintf(label, sizeof label, "L%u", d->labels[landing(index, &record)]);
    bytes_print(d->text, "%s", margin);
    record_print(d->text, &record, *label != '\0' ? label : NULL);
    bytes_print(d->text, "\n");
}

/* The bytes behind the last whole record. */
static void print_tail(struct bytes *text, const uint8_t *at, size_t length)
{
    bytes_print(text, "# no whole record:");
    for (size_t i = 0; i < length; i++)
        bytes_print(text, " %02X", (unsigned)at[i]);
    bytes_print(text, "\n");
}

/* The place of a refusal: its record, or for a length the first record that is not whole or is one too many. */
static size_t place_of(uint32_t answer, size_t length)
{
    size_t most = TAMPERMAUVE_FILE_LIMIT / TAMPERMAUVE_RECORD_LENGTH, whole = length / TAMPERMAUVE_RECORD_LENGTH;
    if (answer == TAMPERMAUVE_ACCEPTED)
        return SIZE_MAX;
    if (tampermauve_refusal(answer) != TAMPERMAUVE_BAD_LENGTH)
        return tampermauve_index(answer);
    return whole < most ? whole : most;
}

void disassemble(const uint8_t *file, size_t length, uint32_t answer, struct bytes *text)
{
    size_t tail = length % TAMPERMAUVE_RECORD_LENGTH;
    struct disassembly d = {file, length, length / TAMPERMAUVE_RECORD_LENGTH, answer, place_of(answer, length), NULL, text};
    if (answer == TAMPERMAUVE_ACCEPTED) {
        d.labels = find_labels(file, d.count);
        number_labels(file, d.count, d.labels);
    }
    for (size_t index = 0; index < d.count; index++)
        print_record(&d, index);
    print_label(&d, d.count);
    print_refusal(&d, d.count, "");
    if (tail > 0)
        print_tail(text, file + length - tail, tail);
    free(d.labels);
}
