/* Runs 1 to 40 plan files in one call, each to its end from zero memory, and says what became of each.
 *
 * run_all PLAN..
 *
 * cc run_all.c $(pkg-config --cflags --libs tampermauve) -o run_all
 *
 * Ends with 0; 1 if a plan is refused, the others being run all the same; 2 if a file cannot be read. */
#include <stdio.h>

#include "tampermauve.h"

/* A byte more than a plan file may have, so that a longer one is refused. */
#define FILE_ROOM (TAMPERMAUVE_FILE_LIMIT + 1u)
#define PLANS TAMPERMAUVE_PLANS_LIMIT

/* All that the call reads and is lent. The memories are zero before it. */
static uint8_t files[PLANS * FILE_ROOM], lengths[PLANS * TAMPERMAUVE_LENGTH_BYTES];
static uint8_t memories[PLANS * TAMPERMAUVE_MEMORY_LENGTH], logs[PLANS * TAMPERMAUVE_LOG_LENGTH];
static uint8_t reports[PLANS * TAMPERMAUVE_REPORT_LENGTH], answers[PLANS], work[TAMPERMAUVE_WORK_LENGTH];

/* Reads a plan file and gives its length; 0 with a word if it cannot be read. */
static int read_plan(const char *path, uint8_t *to, size_t *length) {
    FILE *in = fopen(path, "rb");
    int good = in != NULL;
    if (good) {
        *length = fread(to, 1, FILE_ROOM, in);
        good = !ferror(in);
        fclose(in);
    }
    if (!good)
        fprintf(stderr, "%s: cannot be read\n", path);
    return good;
}

/* Says what became of a plan; 1 if it is refused. */
static int tell(const char *path, unsigned answer, const uint8_t *report) {
    if (answer != TAMPERMAUVE_ACCEPTED) {
        printf("%s: refused %u\n", path, answer);
        return 1;
    }
    printf("%s: %s, %u moving turns, sum %lu\n", path,
           report[TAMPERMAUVE_REPORT_END] == TAMPERMAUVE_END_FINISHED ? "finished" : "stuck",
           (unsigned)tampermauve_word(report, TAMPERMAUVE_REPORT_MOVES), (unsigned long)tampermauve_sum(report));
    return 0;
}

int main(int argc, char **argv) {
    size_t count = argc > 0 ? (size_t)argc - 1 : 0, used = 0, length = 0;
    uint32_t answer;
    int refused = 0;
    if (count < 1 || count > PLANS) {
        fprintf(stderr, "run_all PLAN.., 1 to %u of them\n", PLANS);
        return 2;
    }
    for (size_t plan = 0; plan < count; plan++) { /* the files lie back to back */
        if (!read_plan(argv[plan + 1], files + used, &length))
            return 2;
        tampermauve_put_length(lengths, plan, (uint32_t)length);
        used += length;
    }
    answer = tampermauve_run_all(count, files, used, lengths, count * TAMPERMAUVE_LENGTH_BYTES, memories,
                                 count * TAMPERMAUVE_MEMORY_LENGTH, logs, count * TAMPERMAUVE_LOG_LENGTH, reports,
                                 count * TAMPERMAUVE_REPORT_LENGTH, answers, count, work, sizeof work);
    if (answer != TAMPERMAUVE_ACCEPTED) {
        printf("the call is refused: %u\n", (unsigned)tampermauve_refusal(answer));
        return 1;
    }
    for (size_t plan = 0; plan < count; plan++)
        refused |= tell(argv[plan + 1], answers[plan], reports + plan * TAMPERMAUVE_REPORT_LENGTH);
    return refused;
}
