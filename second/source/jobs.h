/* The jobs, each from a call's numbers and image to its answer. */
#ifndef JOBS_H
#define JOBS_H

#include <stddef.h>
#include <stdint.h>

#include "image.h"
#include "scans.h"
#include "uses.h"

typedef enum {
    JOB_RESOLVE,
    JOB_EXPAND,
    JOB_PARSE,
    JOB_EVALUATE,
    JOB_PANEL,
    JOB_SCAN,
    JOB_READ,
    JOB_PRINT,
    JOB_SUMMARY,
    JOB_USES,
    JOB_REPLACE,
    JOB_SHRINK,
    JOBS
} Job;

/* Lines of scans may be longer than an image; a stream lends no more than this. */
enum { LONGEST_OUTPUT = 70000 };

typedef struct {
    Job job;
    uint32_t phase; /* used by resolve and expand; the name for uses, the place for replace */
    uint32_t budget; /* used by the jobs up to evaluate, as is the table */
    uint32_t table_words;
    uint32_t output_length; /* not used by resolve and uses */
    const uint8_t *image; /* or the text, for read */
    size_t image_length;
    const uint8_t *recording; /* used by scan */
    size_t recording_length;
    const uint8_t *summary; /* used by uses and replace */
    size_t summary_length;
    const uint8_t *part; /* used by replace */
    size_t part_length;
} Call;

typedef struct {
    uint32_t code;
    uint32_t units;
    uint32_t name;
    uint32_t length;
    uint32_t first, second; /* with code 6: the places of two bindings that compete */
    uint32_t local; /* how often primitives 7 to 9 gave something; no part of the answer's line */
    uint8_t output[LONGEST_OUTPUT]; /* the first length bytes are written */
    Summary summary; /* after a replacement */
} Answer;

/* Whether the job takes neither budget nor table, nor a phase. */
static inline bool is_unbudgeted(Job job)
{
    return job >= JOB_PANEL;
}

/* Whether a summary is lent to the job. */
static inline bool takes_summary(Job job)
{
    return job == JOB_USES || job == JOB_REPLACE;
}

/* Reads a tree image and checks it against the profile: every refusal of the
   panel check but 20. */
Code load_panel(Memory *memory, const Call *call, Image *image, Panel *panel);

/* Loads a call of scan: every refusal of it but 20. */
Code load_scans(Memory *memory, const Call *call, Runner *runner, Recording *recording);

/* Answers a call. The memory is cleared first. */
void answer_call(Memory *memory, const Call *call, Answer *answer);

#endif
