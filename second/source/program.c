/* program: reads one image on standard input, expands it at phase 0, parses the
   result, and prints one line: code, its number, units, the units of both jobs. */
#include <stdio.h>

#include "jobs.h"

enum { PROGRAM_BUDGET = 400 };

static void answer_job(Memory *memory, Job job, const uint8_t *image, size_t length,
                       Answer *answer)
{
    Call call = {.job = job,
                 .budget = PROGRAM_BUDGET,
                 .table_words = TABLE_WORDS_PER_UNIT * PROGRAM_BUDGET,
                 .output_length = LONGEST_IMAGE,
                 .image = image,
                 .image_length = length};
    answer_call(memory, &call, answer);
}

int main(void)
{
    static uint8_t image[LONGEST_IMAGE + 1]; /* a byte more is enough to be too long */
    static Answer expanded, parsed;
    size_t length = fread(image, 1, sizeof image, stdin);
    Memory *memory = new_memory();
    answer_job(memory, JOB_EXPAND, image, length, &expanded);
    uint32_t code = expanded.code, units = expanded.units;
    if (code == SUCCESS) {
        answer_job(memory, JOB_PARSE, expanded.output, expanded.length, &parsed);
        code = parsed.code;
        units += parsed.units;
    }
    printf("code %u units %u\n", (unsigned)code, (unsigned)units);
    free_memory(memory);
    return 0;
}
