/* A call of the stream, made of the library as any C program would, with the sizes that the call has. The output begins where a word may: the
 * panel check and the summary are lent as many whole words as go into it, and what is left over is not lent. The summary has the whole words of
 * the call's own. */
#ifndef LIBRARY_CALL_H
#define LIBRARY_CALL_H

#include "../include/meirhuppa.h"
#include "../second/source/stream.h"

/* How many words of a summary the call lends. */
static inline size_t lent_words(const Call *call)
{
    return call->summary_length / sizeof(uint32_t);
}

/* A question writes nothing: its two numbers are put where the line has what was written. With a refusal they are 0; if they were not, they would
 * be seen as units and name. */
static inline meirhuppa_answer ask_uses(const Call *call, const uint32_t *summary, uint32_t *output)
{
    meirhuppa_uses_answer given = meirhuppa_uses(call->image, call->image_length, summary, lent_words(call), call->phase);
    meirhuppa_answer answer = {.code = given.code, .units = given.count, .name = given.first};
    if (given.code != MEIRHUPPA_SUCCESS)
        return answer;
    output[0] = given.count;
    output[1] = given.first;
    return (meirhuppa_answer){.length = 2 * sizeof *output};
}

static inline meirhuppa_answer ask_library(const Call *call, uint32_t *table, void *output, uint32_t *summary)
{
    switch (call->job) {
    case JOB_RESOLVE:
        return meirhuppa_resolve(call->image, call->image_length, call->phase, call->budget, table, call->table_words);
    case JOB_EXPAND:
        return meirhuppa_expand(call->image, call->image_length, call->phase, call->budget, table, call->table_words,
                                output, call->output_length);
    case JOB_PARSE:
        return meirhuppa_parse(call->image, call->image_length, call->budget, table, call->table_words,
                               output, call->output_length);
    case JOB_EVALUATE:
        return meirhuppa_evaluate(call->image, call->image_length, call->budget, table, call->table_words,
                                  output, call->output_length);
    case JOB_PANEL:
        return meirhuppa_panel(call->image, call->image_length, output, call->output_length / sizeof(uint32_t));
    case JOB_SCAN:
        return meirhuppa_scan(call->image, call->image_length, call->recording, call->recording_length,
                              output, call->output_length);
    case JOB_READ:
        return meirhuppa_read(call->image, call->image_length, output, call->output_length);
    case JOB_SUMMARY:
        return meirhuppa_summary(call->image, call->image_length, output, call->output_length / sizeof(uint32_t));
    case JOB_USES:
        return ask_uses(call, summary, output);
    case JOB_REPLACE:
        return meirhuppa_replace(call->image, call->image_length, call->phase, call->part, call->part_length, summary, lent_words(call),
                                 output, call->output_length);
    case JOB_SHRINK:
        return meirhuppa_shrink(call->image, call->image_length, output, call->output_length);
    default:
        return meirhuppa_print(call->image, call->image_length, output, call->output_length);
    }
}

#endif
