/* Feeds kept inputs to the fuzz target, without a fuzzer. Ends by abort() at
 * the first difference; prints how many inputs there were. An input that is
 * too short to make a call is an error: it tests nothing. A target whose inputs
 * are shorter, or no calls, is compiled with other words. */
#include <stdint.h>
#include <stdio.h>
#include <stdlib.h>

#ifndef LEAST_INPUT
#define LEAST_INPUT 4
#define REPLAYED "inputs"
#endif

int LLVMFuzzerTestOneInput(const uint8_t *data, size_t size);

static int replay(const char *path)
{
    static uint8_t data[1 << 20];
    FILE *in = fopen(path, "rb");
    size_t size;
    if (in == NULL) {
        fprintf(stderr, "%s: cannot be opened\n", path);
        return 1;
    }
    size = fread(data, 1, sizeof data, in);
    fclose(in);
    if (size < LEAST_INPUT) {
        fprintf(stderr, "%s: makes no call\n", path);
        return 1;
    }
    LLVMFuzzerTestOneInput(data, size);
    return 0;
}

int main(int argc, char **argv)
{
    for (int i = 1; i < argc; i++)
        if (replay(argv[i]))
            return 1;
    printf("%d %s replayed\n", argc - 1, REPLAYED);
    return argc > 1 ? 0 : 1;
}
