/* The stream of calls and the answer lines; second/README.md describes both. */
#ifndef STREAM_H
#define STREAM_H

#include <stdbool.h>
#include <stdio.h>

#include "jobs.h"

/* The most words of a table, and the most bytes of an output and of each input. */
enum { LARGEST_STREAM_TABLE = 170000, LARGEST_STREAM_SIZE = LONGEST_OUTPUT };

/* The bytes that a call of the stream brings. */
typedef struct {
    uint8_t image[LARGEST_STREAM_SIZE];
    uint8_t recording[LARGEST_STREAM_SIZE];
    uint8_t summary[LARGEST_STREAM_SIZE];
    uint8_t part[LARGEST_STREAM_SIZE];
} Inputs;

typedef enum { A_CALL, THE_END, CUT } Met;

/* Reads the next call; its bytes are put into inputs. */
Met read_call(FILE *stream, Call *call, Inputs *inputs);

void write_call(FILE *stream, const Call *call);

/* CODE UNITS NAME LENGTH FIRST SECOND TABLE OUTPUT, and SUMMARY of a replacement */
void write_answer_line(FILE *stream, const Call *call, const Answer *answer);

#endif
