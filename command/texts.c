/* The subcommands that run nothing: check, assemble, disassemble. */
#include <stdio.h>

#include "commands.h"
#include "disassemble.h"
#include "lent.h"
#include "plan.h"

static enum status worse(enum status one, enum status other)
{
    return one > other ? one : other;
}

static enum status check_plan(const char *path)
{
    struct plan plan;
    enum status status = plan_read(path, &plan);
    if (status == FINE && plan.answer != TAMPERMAUVE_ACCEPTED) {
        plan_say_refusal(&plan);
        status = REFUSED;
    } else if (status == FINE) {
        printf("%s: accepted, workers: %u, steps: %u\n", plan.name, (unsigned)plan.file.at[TAMPERMAUVE_RECORD_WORKER],
               (unsigned)steps_of(plan.file.at, plan.file.length));
    }
    plan_free(&plan);
    return status;
}

enum status command_check(const struct options *options)
{
    enum status worst = FINE;
    for (size_t i = 0; i < options->count; i++)
        worst = worse(worst, check_plan(options->operands[i]));
    return worst;
}

static enum status write_plan(const struct options *options, const struct plan *plan)
{
    struct output output = {options->output, plan->file.at, plan->file.length};
    bool to_output = options->output[0] == '-' && options->output[1] == '\0';
    if (to_output && on_terminal()) {
        fputs("tampermauve: a plan file is no text for a terminal; name a file behind -o\n", stderr);
        return TROUBLE;
    }
    return files_write(&output, 1) ? FINE : TROUBLE;
}

enum status command_assemble(const struct options *options)
{
    struct plan plan;
    enum status status = text_read(options->operands[0], &plan);
    bool refused = plan.answer != TAMPERMAUVE_ACCEPTED;
    if (refused)
        plan_say_refusal(&plan);
    if (status == FINE && (!refused || options->unchecked != NULL))
        status = write_plan(options, &plan);
    plan_free(&plan);
    return refused ? worse(status, REFUSED) : status;
}

enum status command_disassemble(const struct options *options)
{
    struct plan plan;
    struct bytes text = {0};
    enum status status = plan_read(options->operands[0], &plan);
    if (status == FINE) {
        struct output output = {options->output != NULL ? options->output : "-", NULL, 0};
        disassemble(plan.file.at, plan.file.length, plan.answer, &text);
        if (plan.is_cut)
            bytes_print(&text, "# the file goes on\n");
        output.bytes = text.at;
        output.length = text.length;
        if (plan.answer != TAMPERMAUVE_ACCEPTED)
            plan_say_refusal(&plan);
        status = worse(files_write(&output, 1) ? FINE : TROUBLE, plan.answer != TAMPERMAUVE_ACCEPTED ? REFUSED : FINE);
    }
    bytes_free(&text);
    plan_free(&plan);
    return status;
}
