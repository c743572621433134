/* Runs the trace on standard input and prints its six counts. */
#include <stdio.h>
#include "vaznirokh.h"

static uint8_t trace[17481]; /* one byte more than the longest trace */
static uint32_t log_words[4 * 4096];
static uint32_t counts[VAZ_COUNTS];

int main(void)
{
    size_t length = fread(trace, 1, sizeof trace, stdin);
    uint32_t refusal = vaz_run(trace, length, log_words, 4 * 4096, counts, VAZ_COUNTS);
    if (refusal != 0) {
        printf("refused %u\n", (unsigned)refusal);
        return 1;
    }
    printf("%u %u %u %u %u %u\n", (unsigned)counts[0], (unsigned)counts[1], (unsigned)counts[2],
           (unsigned)counts[3], (unsigned)counts[4], (unsigned)counts[5]);
    return 0;
}
