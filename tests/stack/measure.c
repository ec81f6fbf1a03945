/* Reads a stream of calls, makes each on a painted stack, and prints a line for each call:
 *     JOB CODE UNITS STACK */
#define _POSIX_C_SOURCE 200809L

#include <stdio.h>
#include <string.h>

#include "../library_call.h"
#include "../painted_stack.h"

/* More than the lines of any scans that are called here. */
enum { OUTPUT_BYTES = 1 << 20 };

static uint32_t table[MEIRHUPPA_WORDS_PER_UNIT * MEIRHUPPA_MOST_BUDGET];
static _Alignas(uint32_t) uint8_t output[OUTPUT_BYTES];
static uint32_t summary[LARGEST_STREAM_SIZE / sizeof(uint32_t)];
static meirhuppa_answer answer;

static void *ask(void *call)
{
    answer = ask_library(call, table, output, summary);
    return NULL;
}

int main(void)
{
    static Inputs inputs;
    Call call;
    while (read_call(stdin, &call, &inputs) == A_CALL) {
        size_t used;
        if (call.budget > MEIRHUPPA_MOST_BUDGET)
            call.budget = MEIRHUPPA_MOST_BUDGET;
        call.table_words = MEIRHUPPA_WORDS_PER_UNIT * call.budget;
        call.output_length = sizeof output;
        memcpy(summary, call.summary, call.summary_length);
        used = stack_of(ask, &call);
        printf("%d %u %u %zu\n", (int)call.job, (unsigned)answer.code, (unsigned)answer.units, used);
    }
    return 0;
}
