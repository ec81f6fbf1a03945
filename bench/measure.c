/* Reads a stream of calls, answers each many times with both programs, and prints a line for each call:
 *     JOB BUDGET CODE UNITS LIBRARY SECOND STACK
 * LIBRARY and SECOND are nanoseconds for one call, the least of several rounds; STACK is the native stack of the library's call in bytes. Ends
 * with status 1 where the two answer differently. */
#define _POSIX_C_SOURCE 200809L

#include <string.h>
#include <time.h>

#include "../tests/library_call.h"
#include "../tests/painted_stack.h"

enum { ROUNDS = 5, ROUND_NANOSECONDS = 200000 };

static uint32_t table[MEIRHUPPA_WORDS_PER_UNIT * MEIRHUPPA_MOST_BUDGET];
static _Alignas(uint32_t) uint8_t output[LONGEST_OUTPUT];
static uint32_t summary[LARGEST_STREAM_SIZE / sizeof(uint32_t)];
static meirhuppa_answer of_library;
static Answer of_second;
static Memory *memory;

/* A replacement writes its summary over the one lent, so each call is lent it anew. */
static void ask_first(const Call *call)
{
    memcpy(summary, call->summary, call->summary_length);
    of_library = ask_library(call, table, output, summary);
}

static void ask_second(const Call *call)
{
    answer_call(memory, call, &of_second);
}

static double now(void)
{
    struct timespec time;
    clock_gettime(CLOCK_MONOTONIC, &time);
    return 1e9 * (double)time.tv_sec + (double)time.tv_nsec;
}

/* The least time of one call, over rounds long enough for the clock. */
static double time_of(void (*ask)(const Call *), const Call *call)
{
    double least = 1e18;
    for (int round = 0; round < ROUNDS; round++) {
        double start = now(), end;
        unsigned asked = 0;
        do {
            ask(call);
            asked++;
            end = now();
        } while (end - start < ROUND_NANOSECONDS);
        if ((end - start) / asked < least)
            least = (end - start) / asked;
    }
    return least;
}

static void *ask_on_stack(void *call)
{
    ask_first(call);
    return NULL;
}

static bool answers_agree(void)
{
    return of_library.code == of_second.code && of_library.units == of_second.units && of_library.name == of_second.name &&
           of_library.first == of_second.first && of_library.second == of_second.second &&
           of_library.length == of_second.length && memcmp(output, of_second.output, of_library.length) == 0;
}

/* Of a replacement that both have made: the second program's summary has its words in the same order. */
static bool summaries_agree(void)
{
    const Summary *wanted = &of_second.summary;
    return summary[0] == wanted->size && summary[1] == wanted->names &&
           memcmp(summary + 2, wanted->uses, wanted->names * sizeof *wanted->uses) == 0;
}

int main(void)
{
    static Inputs inputs;
    Call call;
    memory = new_memory();
    while (read_call(stdin, &call, &inputs) == A_CALL) {
        if (call.budget > MEIRHUPPA_MOST_BUDGET && !is_unbudgeted(call.job))
            continue;
        call.table_words = MEIRHUPPA_WORDS_PER_UNIT * call.budget;
        if (call.output_length > 0) /* with none, the time is that before anything is written */
            call.output_length = sizeof output;
        double library = time_of(ask_first, &call), second = time_of(ask_second, &call);
        if (!answers_agree() || (call.job == JOB_REPLACE && of_library.code == SUCCESS && !summaries_agree())) {
            fprintf(stderr, "measure: the two programs answer differently\n");
            return 1;
        }
        printf("%d %u %u %u %.1f %.1f %zu\n", (int)call.job, call.budget, of_library.code, of_library.units, library, second, stack_of(ask_on_stack, &call));
    }
    free_memory(memory);
    return 0;
}
