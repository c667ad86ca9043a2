/* How much stack the calls use. Each is made on a thread whose stack is ours and filled with a pattern: what no longer has it was
 * used. The plan is the longest, every op is in it, and its turns end it. A call for many plans has it twice, and between them a refused
 * one. */
#define _XOPEN_SOURCE 600

#include <pthread.h>
#include <stdio.h>
#include <stdlib.h>
#include <string.h>

#include "plan_file.h"

enum { ROOM = 1 << 20, PATTERN = 0xA5 };

static struct plan_file file;
static uint8_t turns[TAMPERMAUVE_ENDING_TURNS], memory[TAMPERMAUVE_MEMORY_LENGTH], lines[TAMPERMAUVE_LOG_LENGTH];
static uint8_t report[TAMPERMAUVE_REPORT_LENGTH], work[TAMPERMAUVE_WORK_LENGTH];

/* for many plans: the plan, a byte that is none, and the plan again */
enum { PLANS = 3, REFUSED = 1 };
static uint8_t files[2 * TAMPERMAUVE_FILE_LIMIT + 1], lengths[PLANS * TAMPERMAUVE_LENGTH_BYTES];
static uint8_t memories[PLANS * TAMPERMAUVE_MEMORY_LENGTH], logs[PLANS * TAMPERMAUVE_LOG_LENGTH];
static uint8_t reports[PLANS * TAMPERMAUVE_REPORT_LENGTH], answers[PLANS];

static uint32_t returned;
static uint8_t *stack;
static uintptr_t top; /* where the caller of the call stands */

enum { PARTS = 12 };

/* A worker starts all others, and itself in vain. */
static void write_starts(unsigned starter) {
    unsigned w;
    for (w = 0; w < TAMPERMAUVE_WORKERS_LIMIT; w++) {
        plan_sync(&file, starter, TAMPERMAUVE_OP_START, w);
    }
}

/* The first worker starts the others, who sleep. The last one wakes the first from a condition by a signal and the six others by a
 * broadcast; each that is woken broadcasts to nobody. All meet at a barrier, and then go through parts in which they load, store over
 * page borders, lock and unlock. */
static void write_plan(void) {
    unsigned w, k;
    plan_begin(&file, TAMPERMAUVE_WORKERS_LIMIT);
    for (k = 0; k < TAMPERMAUVE_BARRIER_COUNT; k++) {
        plan_size(&file, k, TAMPERMAUVE_SIZE_LIMIT);
    }
    plan_sleepers(&file, TAMPERMAUVE_WORKERS_LIMIT);
    for (w = 0; w < TAMPERMAUVE_WORKERS_LIMIT; w++) {
        size_t first = file.length;
        if (w == 0) {
            write_starts(w);
        }
        plan_sync(&file, w, TAMPERMAUVE_OP_LOCK, 0);
        plan_sync(&file, w, w + 1u < TAMPERMAUVE_WORKERS_LIMIT ? TAMPERMAUVE_OP_WAIT : TAMPERMAUVE_OP_SIGNAL, 0);
        plan_sync(&file, w, TAMPERMAUVE_OP_BROADCAST, 0);
        plan_sync(&file, w, TAMPERMAUVE_OP_UNLOCK, 0);
        plan_sync(&file, w, TAMPERMAUVE_OP_BARRIER, 0);
        for (k = 0; k < PARTS; k++) {
            plan_add(&file, w, TAMPERMAUVE_OP_SET, 1, 1);
            plan_add(&file, w, TAMPERMAUVE_OP_LOAD, 0, 170u * k);
            plan_add(&file, w, k % 2u ? TAMPERMAUVE_OP_ADD : TAMPERMAUVE_OP_SUBTRACT, 0, 1);
            plan_add(&file, w, k % 2u ? TAMPERMAUVE_OP_SKIP_ZERO : TAMPERMAUVE_OP_SKIP_NONZERO, 1, 1);
            plan_add(&file, w, TAMPERMAUVE_OP_STORE, 0, 170u * k);
            plan_add(&file, w, TAMPERMAUVE_OP_STORE, 1, 256u * (k % 7u) + 255u);
            plan_sync(&file, w, TAMPERMAUVE_OP_LOCK, k);
            plan_sync(&file, w, TAMPERMAUVE_OP_SIGNAL, TAMPERMAUVE_CONDITION_LIMIT);
            plan_sync(&file, w, TAMPERMAUVE_OP_UNLOCK, k);
        }
        while (file.length - first < (TAMPERMAUVE_STEPS_LIMIT - 1u) * TAMPERMAUVE_RECORD_LENGTH) {
            plan_fill(&file, w, 1);
        }
        plan_sync(&file, w, TAMPERMAUVE_OP_EXIT, 0);
    }
    for (k = 0; k < sizeof turns; k++) {
        turns[k] = (uint8_t)(k % TAMPERMAUVE_WORKERS_LIMIT);
    }
}

static void *check(void *unused) {
    volatile uint8_t here = 0;
    top = (uintptr_t)&here;
    returned = tampermauve_check(file.bytes, file.length);
    return unused;
}

static void *run(void *unused) {
    volatile uint8_t here = 0;
    top = (uintptr_t)&here;
    returned = tampermauve_run(file.bytes, file.length, turns, sizeof turns, memory, sizeof memory, lines, sizeof lines, report,
                               sizeof report, work, sizeof work);
    return unused;
}

static void *run_all(void *unused) {
    volatile uint8_t here = 0;
    top = (uintptr_t)&here;
    returned = tampermauve_run_all(PLANS, files, sizeof files, lengths, sizeof lengths, memories, sizeof memories, logs, sizeof logs,
                                   reports, sizeof reports, answers, sizeof answers, work, sizeof work);
    return unused;
}

/* Lays the plans back to back. */
static void write_plans(void) {
    memcpy(files, file.bytes, TAMPERMAUVE_FILE_LIMIT);
    memcpy(files + TAMPERMAUVE_FILE_LIMIT + 1, file.bytes, TAMPERMAUVE_FILE_LIMIT);
    tampermauve_put_length(lengths, 0, TAMPERMAUVE_FILE_LIMIT);
    tampermauve_put_length(lengths, REFUSED, 1);
    tampermauve_put_length(lengths, REFUSED + 1, TAMPERMAUVE_FILE_LIMIT);
}

static void must(int wrong, const char *what) {
    if (wrong) {
        fprintf(stderr, "stack: %s\n", what);
        exit(2);
    }
}

/* The bytes below the caller's frame that the call wrote. */
static size_t used_by(void *(*call)(void *)) {
    pthread_attr_t attributes;
    pthread_t thread;
    size_t lowest = 0;
    memset(stack, PATTERN, ROOM);
    must(pthread_attr_init(&attributes), "no attributes");
    must(pthread_attr_setstack(&attributes, stack, ROOM), "no stack of ours");
    must(pthread_create(&thread, &attributes, call, NULL), "no thread");
    must(pthread_join(thread, NULL), "the thread is lost");
    pthread_attr_destroy(&attributes);
    while (lowest < ROOM && stack[lowest] == PATTERN) {
        lowest++;
    }
    return (size_t)(top - (uintptr_t)(stack + lowest));
}

/* Of many plans the last one, with all before it, came to what the run came to. */
static void look_at_all(void) {
    const size_t last = PLANS - 1;
    must(returned != TAMPERMAUVE_ACCEPTED, "the run of many plans is refused");
    must(answers[0] != TAMPERMAUVE_ACCEPTED || answers[last] != TAMPERMAUVE_ACCEPTED, "a plan of many is refused");
    must(answers[REFUSED] != TAMPERMAUVE_BAD_LENGTH, "a plan of a byte is not refused");
    must(memcmp(reports + last * sizeof report, report, sizeof report) != 0, "the last of many plans has another report");
}

int main(void) {
    size_t checked, ran, all;
    void *room = NULL;
    must(posix_memalign(&room, 4096, ROOM), "no memory");
    stack = room;
    write_plan();
    must(file.length != TAMPERMAUVE_FILE_LIMIT, "the plan is not the longest");
    checked = used_by(check);
    must(returned != TAMPERMAUVE_ACCEPTED, "the plan is refused");
    ran = used_by(run);
    must(returned != TAMPERMAUVE_ACCEPTED, "the run is refused");
    must(report[TAMPERMAUVE_REPORT_END] != TAMPERMAUVE_END_FINISHED, "the plan is not finished");
    write_plans();
    all = used_by(run_all);
    look_at_all();
    free(room);
    printf("stack: a check uses %lu bytes, a run %lu, a run of many plans %lu\n", (unsigned long)checked, (unsigned long)ran,
           (unsigned long)all);
    if (checked >= TAMPERMAUVE_STACK_LIMIT || ran >= TAMPERMAUVE_STACK_LIMIT || all >= TAMPERMAUVE_STACK_LIMIT) {
        printf("stack: FAILED: the header says less than %u\n", TAMPERMAUVE_STACK_LIMIT);
        return 1;
    }
    printf("stack: less than the header says\n");
    return 0;
}
