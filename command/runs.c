/* The subcommands that run a plan: run, list, show. */
#include <stdio.h>
#include <stdlib.h>
#include <string.h>

#include "commands.h"
#include "lent.h"
#include "page.h"
#include "plan.h"
#include "refusals.h"
#include "words.h"

/* A plan with all that it is run with. */
struct task {
    struct plan plan;
    uint8_t start[TAMPERMAUVE_MEMORY_LENGTH];
    struct turns turns;
    struct lent lent;
};

static bool read_memory(const char *path, uint8_t *memory)
{
    struct bytes bytes = {0};
    bool fine = file_read(path, TAMPERMAUVE_MEMORY_LENGTH + 1, &bytes);
    if (fine && bytes.length != TAMPERMAUVE_MEMORY_LENGTH) {
        fprintf(stderr, "tampermauve: %s: has %s%u bytes, and a memory has %u\n", input_name(path),
                bytes.length > TAMPERMAUVE_MEMORY_LENGTH ? "more than " : "",
                bytes.length > TAMPERMAUVE_MEMORY_LENGTH ? TAMPERMAUVE_MEMORY_LENGTH : (unsigned)bytes.length,
                TAMPERMAUVE_MEMORY_LENGTH);
        fine = false;
    }
    if (fine)
        memcpy(memory, bytes.at, TAMPERMAUVE_MEMORY_LENGTH);
    bytes_free(&bytes);
    return fine;
}

static bool read_turns(const char *path, struct turns *turns)
{
    struct bytes bytes = {0};
    bool fine = file_read(path, sizeof turns->at, &bytes);
    if (bytes.length > 0)
        memcpy(turns->at, bytes.at, bytes.length);
    turns->length = bytes.length;
    bytes_free(&bytes);
    return fine;
}

/* The turns: those given, or else cycles, for which the plan has to be accepted. */
static bool choose_turns(const struct options *options, struct task *task)
{
    const struct bytes *file = &task->plan.file;
    unsigned long long seed;
    if (options->turns != NULL)
        return read_turns(options->turns, &task->turns);
    if (options->seed == NULL) {
        turns_in_cycles(&task->turns, file->at, file->length);
        return true;
    }
    if (!seed_read(options->seed, &seed))
        return false;
    turns_by_seed(&task->turns, file->at, file->length, seed);
    return true;
}

static void say_turns_refusal(const char *path, const struct task *task, uint32_t answer)
{
    struct bytes words = {0};
    turns_refusal_print(&words, task->plan.file.at, &task->turns, answer);
    fprintf(stderr, "%s: refused %u: %.*s\n", input_name(path), (unsigned)tampermauve_refusal(answer), (int)words.length,
            (const char *)words.at);
    bytes_free(&words);
}

/* Runs the plan. The library tests the length of the turns before the file, and what they name behind it. */
static enum status run(const struct options *options, struct task *task)
{
    const struct bytes *file = &task->plan.file;
    uint32_t answer;
    memcpy(task->lent.memory, task->start, sizeof task->start);
    answer = lent_run(&task->lent, file->at, file->length, task->turns.at, task->turns.length);
    if (answer == TAMPERMAUVE_ACCEPTED)
        return FINE;
    if (answer == task->plan.answer)
        plan_say_refusal(&task->plan);
    else
        say_turns_refusal(options->turns, task, answer);
    return REFUSED;
}

/* Reads the plan and what it is run with, and runs it. A refused plan is said, and so is trouble. */
static enum status prepare_and_run(const struct options *options, struct task *task)
{
    enum status status = plan_read(options->operands[0], &task->plan);
    if (status != FINE)
        return status;
    if (task->plan.answer != TAMPERMAUVE_ACCEPTED && options->turns == NULL) {
        plan_say_refusal(&task->plan);
        return REFUSED;
    }
    if (options->memory != NULL && !read_memory(options->memory, task->start))
        return TROUBLE;
    return choose_turns(options, task) ? run(options, task) : TROUBLE;
}

static void free_task(struct task *task)
{
    plan_free(&task->plan);
    free(task);
}

static const char *fate_words(unsigned fate)
{
    static const char *const words[] = {
        [TAMPERMAUVE_FATE_GOING] = "going",
        [TAMPERMAUVE_FATE_EXITED] = "exited",
        [TAMPERMAUVE_FATE_FAILED] = "failed",
        [TAMPERMAUVE_FATE_ON_CONDITION] = "waiting on a condition",
        [TAMPERMAUVE_FATE_AT_BARRIER] = "queued at a barrier",
        [TAMPERMAUVE_FATE_ASLEEP] = "asleep",
    };
    return words[fate];
}

static void say_report(const uint8_t *report)
{
    printf("%s, moving turns: %u, rounds completed: %u, log records: %u\n", end_word(report[TAMPERMAUVE_REPORT_END]),
           (unsigned)tampermauve_word(report, TAMPERMAUVE_REPORT_MOVES),
           (unsigned)tampermauve_word(report, TAMPERMAUVE_REPORT_ROUNDS),
           (unsigned)tampermauve_word(report, TAMPERMAUVE_REPORT_RECORDS));
    for (unsigned worker = 0; worker < report[TAMPERMAUVE_REPORT_WORKERS]; worker++)
        printf("worker %u: %s\n", worker, fate_words(report[TAMPERMAUVE_REPORT_FATES + worker]));
}

static void say_changes(const uint8_t *before, const uint8_t *after)
{
    for (size_t at = 0; at < TAMPERMAUVE_MEMORY_LENGTH; at += 2) {
        unsigned was = tampermauve_word(before, at), is = tampermauve_word(after, at);
        if (was != is)
            printf("word at %u: %u, before %u\n", (unsigned)at, is, was);
    }
}

static enum status keep(const char *prefix, const struct task *task)
{
    static const char *const parts[] = {"start", "memory", "log", "report"};
    struct output outputs[] = {
        {NULL, task->start, sizeof task->start},
        {NULL, task->lent.memory, sizeof task->lent.memory},
        {NULL, task->lent.log, sizeof task->lent.log},
        {NULL, task->lent.report, sizeof task->lent.report},
    };
    struct bytes names[sizeof parts / sizeof *parts] = {{0}};
    bool fine;
    for (size_t i = 0; i < sizeof parts / sizeof *parts; i++) {
        bytes_print(&names[i], "%s.%s", prefix, parts[i]);
        outputs[i].path = (const char *)names[i].at;
    }
    fine = files_write(outputs, sizeof parts / sizeof *parts);
    for (size_t i = 0; i < sizeof parts / sizeof *parts; i++)
        bytes_free(&names[i]);
    return fine ? FINE : TROUBLE;
}

enum status command_run(const struct options *options)
{
    struct task *task = memory_for(1, sizeof *task);
    enum status status = prepare_and_run(options, task);
    if (status == FINE) {
        say_report(task->lent.report);
        say_changes(task->start, task->lent.memory);
        printf("sum of the words at even addresses: %lu\n", (unsigned long)tampermauve_sum(task->lent.report));
    }
    if (status == FINE && options->keep != NULL)
        status = keep(options->keep, task);
    free_task(task);
    return status;
}

static void print_log(const uint8_t *log, const uint8_t *report)
{
    unsigned records = tampermauve_word(report, TAMPERMAUVE_REPORT_RECORDS);
    for (unsigned i = 0; i < records; i++, log += TAMPERMAUVE_ENTRY_LENGTH)
        printf("%u %u %u %u %u\n", (unsigned)tampermauve_word(log, TAMPERMAUVE_ENTRY_ROUND), (unsigned)log[TAMPERMAUVE_ENTRY_WORKER],
               (unsigned)log[TAMPERMAUVE_ENTRY_OP], (unsigned)log[TAMPERMAUVE_ENTRY_NUMBER], (unsigned)log[TAMPERMAUVE_ENTRY_OUTCOME]);
    printf("%s %u\n", end_word(report[TAMPERMAUVE_REPORT_END]), (unsigned)tampermauve_word(report, TAMPERMAUVE_REPORT_MOVES));
}

enum status command_list(const struct options *options)
{
    struct task *task = memory_for(1, sizeof *task);
    enum status status = prepare_and_run(options, task);
    uint32_t answer = task->plan.answer;
    if (status == FINE)
        print_log(task->lent.log, task->lent.report);
    else if (answer != TAMPERMAUVE_ACCEPTED)
        printf("refused %u %u\n", (unsigned)tampermauve_refusal(answer), (unsigned)tampermauve_index(answer));
    free_task(task);
    return status;
}

enum status command_show(const struct options *options)
{
    struct task *task = memory_for(1, sizeof *task);
    enum status status = prepare_and_run(options, task);
    if (status == FINE) {
        const struct bytes *file = &task->plan.file;
        struct bytes page = {0};
        struct output output = {options->output, NULL, 0};
        page_write(file->at, file->length, task->plan.name, task->start, task->turns.at, task->turns.length, &page);
        output.bytes = page.at;
        output.length = page.length;
        status = files_write(&output, 1) ? FINE : TROUBLE;
        bytes_free(&page);
    }
    free_task(task);
    return status;
}
