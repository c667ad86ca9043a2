/* A plan as text: the assembler on every statement, step and error of docs/TEXT.md, and both directions on stored, random and
 * damaged plans. What is expected is written from docs/TEXT.md and from document 01 with requests One to Seven of document 02,
 * and not from the code.
 *
 *     text COUNT [FILE...]     with so many random plans, and as many damaged ones; a file is a plan, or many where it ends in
 *                              .data, as simulator/src/bin/vectors.rs lays them out */
#include "text.h"
#include "text_errors.h"
#include "text_table.h"
#include "text_trips.h"

int main(int argc, char **argv) {
    if (argc < 2) {
        fprintf(stderr, "text COUNT [FILE...]\n");
        return 2;
    }
    texts_to_bytes();
    errors_of_texts();
    files_to_texts((unsigned)strtoul(argv[1], NULL, 10), argv + 2, argc - 2);
    printf("text: %u checks, %u failures\n", checks, failures);
    return failures > 0;
}
