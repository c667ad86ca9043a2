#include "plan.h"

#include <stdio.h>
#include <string.h>

#include "assemble.h"
#include "lent.h"
#include "records.h"
#include "refusals.h"
#include "tampermauve.h"

/* Of a longer plan file no more is read: it is refused for its length, whatever follows. A longer text is trouble; that of a plan file
 * never is so long. */
enum { FILE_ROOM = 16384 * TAMPERMAUVE_RECORD_LENGTH, TEXT_ROOM = 1 << 20 };

static bool ends_in_steps(const char *path)
{
    const char *ending = ".steps";
    size_t length = strlen(path);
    return length > strlen(ending) && strcmp(path + length - strlen(ending), ending) == 0;
}

static enum status assembled(struct plan *plan, const struct bytes *text)
{
    struct bytes complaints = {0};
    const char *from = text->length > 0 ? (const char *)text->at : "";
    bool fine = assemble(plan->name, from, text->length, &plan->file, &plan->lines, &complaints);
    if (complaints.length > 0)
        fwrite(complaints.at, 1, complaints.length, stderr);
    bytes_free(&complaints);
    return fine ? FINE : REFUSED;
}

enum status text_read(const char *path, struct plan *plan)
{
    struct bytes text = {0};
    enum status status = TROUBLE;
    memset(plan, 0, sizeof *plan);
    plan->name = input_name(path);
    plan->is_text = true;
    if (!file_read(path, TEXT_ROOM + 1, &text))
        status = TROUBLE;
    else if (text.length > TEXT_ROOM)
        fprintf(stderr, "tampermauve: %s: is longer than %d bytes, the most that a text has\n", plan->name, (int)TEXT_ROOM);
    else
        status = assembled(plan, &text);
    bytes_free(&text);
    plan->answer = status == FINE ? lent_check(plan->file.at, plan->file.length) : TAMPERMAUVE_ACCEPTED;
    return status;
}

enum status plan_read(const char *path, struct plan *plan)
{
    if (ends_in_steps(path))
        return text_read(path, plan);
    memset(plan, 0, sizeof *plan);
    plan->name = input_name(path);
    if (!file_read(path, FILE_ROOM + 1, &plan->file))
        return TROUBLE;
    plan->is_cut = plan->file.length > FILE_ROOM;
    if (plan->is_cut)
        plan->file.length = FILE_ROOM;
    plan->answer = lent_check(plan->file.at, plan->file.length);
    return FINE;
}

/* Adds the record's line in the text, and then which it is. */
static void print_place(struct bytes *words, const struct plan *plan)
{
    size_t index = tampermauve_index(plan->answer);
    unsigned line;
    struct record record;
    if (tampermauve_refusal(plan->answer) == TAMPERMAUVE_BAD_LENGTH) {
        bytes_print(words, ": refused %u: ", (unsigned)tampermauve_refusal(plan->answer));
        return;
    }
    if (plan->is_text) {
        memcpy(&line, plan->lines.at + index * sizeof line, sizeof line);
        bytes_print(words, ":%u", line);
    }
    bytes_print(words, ": refused %u at record %u, '", (unsigned)tampermauve_refusal(plan->answer), (unsigned)index);
    record = record_at(plan->file.at, index);
    record_print(words, &record, NULL);
    bytes_print(words, "': ");
}

void plan_say_refusal(const struct plan *plan)
{
    struct bytes words = {0};
    bytes_print(&words, "%s", plan->name);
    print_place(&words, plan);
    refusal_print(&words, plan->file.at, plan->file.length, plan->answer);
    bytes_print(&words, "\n");
    fwrite(words.at, 1, words.length, stderr);
    bytes_free(&words);
}

void plan_free(struct plan *plan)
{
    bytes_free(&plan->file);
    bytes_free(&plan->lines);
}
