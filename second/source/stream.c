#include "stream.h"

/* Numbers of the stream need not be in the shortest form, but they have at
   most five bytes and are at most 4,294,967,295. */
static Met read_stream_number(FILE *stream, uint32_t *number)
{
    uint32_t value = 0;
    for (int group = 0; group < 5; group++) {
        int byte = getc(stream);
        if (byte == EOF)
            return group == 0 ? THE_END : CUT;
        if (group == 4 && byte > 15)
            return CUT;
        value |= (uint32_t)(byte & 127) << (7 * group);
        if (byte < 128) {
            *number = value;
            return A_CALL;
        }
    }
    return CUT;
}

/* A length and so many bytes. */
static bool read_input(FILE *stream, uint8_t bytes[LARGEST_STREAM_SIZE], size_t *length)
{
    uint32_t number;
    if (read_stream_number(stream, &number) != A_CALL || number > LARGEST_STREAM_SIZE)
        return false;
    *length = number;
    return fread(bytes, 1, number, stream) == number;
}

/* What stands behind the image in some jobs. */
static bool read_further(FILE *stream, Call *call, Inputs *inputs)
{
    call->recording = inputs->recording;
    call->summary = inputs->summary;
    call->part = inputs->part;
    call->recording_length = call->summary_length = call->part_length = 0;
    if (call->job == JOB_SCAN && !read_input(stream, inputs->recording, &call->recording_length))
        return false;
    if (takes_summary(call->job) && !read_input(stream, inputs->summary, &call->summary_length))
        return false;
    return call->job != JOB_REPLACE || read_input(stream, inputs->part, &call->part_length);
}

Met read_call(FILE *stream, Call *call, Inputs *inputs)
{
    uint32_t job;
    Met met = read_stream_number(stream, &job);
    if (met != A_CALL)
        return met;
    if (job >= JOBS)
        return CUT;
    call->job = (Job)job;
    if (read_stream_number(stream, &call->phase) != A_CALL ||
        read_stream_number(stream, &call->budget) != A_CALL ||
        read_stream_number(stream, &call->table_words) != A_CALL ||
        call->table_words > LARGEST_STREAM_TABLE ||
        read_stream_number(stream, &call->output_length) != A_CALL ||
        call->output_length > LARGEST_STREAM_SIZE ||
        !read_input(stream, inputs->image, &call->image_length))
        return CUT;
    call->image = inputs->image;
    return read_further(stream, call, inputs) ? A_CALL : CUT;
}

static void write_stream_number(FILE *stream, uint32_t number)
{
    while (number > 127) {
        putc((int)(128 | (number & 127)), stream);
        number >>= 7;
    }
    putc((int)number, stream);
}

static void write_input(FILE *stream, const uint8_t *bytes, size_t length)
{
    write_stream_number(stream, (uint32_t)length);
    fwrite(bytes, 1, length, stream);
}

void write_call(FILE *stream, const Call *call)
{
    write_stream_number(stream, call->job);
    write_stream_number(stream, call->phase);
    write_stream_number(stream, call->budget);
    write_stream_number(stream, call->table_words);
    write_stream_number(stream, call->output_length);
    write_input(stream, call->image, call->image_length);
    if (call->job == JOB_SCAN)
        write_input(stream, call->recording, call->recording_length);
    if (takes_summary(call->job))
        write_input(stream, call->summary, call->summary_length);
    if (call->job == JOB_REPLACE)
        write_input(stream, call->part, call->part_length);
}

/* What a right implementation does to the table: nothing after code 5 or in a
   job that takes none, and nothing to see with a budget of 0; else its first
   words are cleared. */
static const char *table_column(const Call *call, const Answer *answer)
{
    if (is_unbudgeted(call->job))
        return "kept";
    return answer->code == BAD_BUDGET || call->budget == 0 ? "kept" : "clear";
}

static void write_byte(FILE *stream, uint32_t byte)
{
    static const char digits[] = "0123456789abcdef";
    putc(digits[byte >> 4], stream);
    putc(digits[byte & 15], stream);
}

/* Four bytes, low byte first. */
static void write_word(FILE *stream, uint32_t word)
{
    for (int i = 0; i < BYTES_PER_WORD; i++)
        write_byte(stream, word >> (8 * i) & 255);
}

static void write_summary(FILE *stream, const Summary *summary)
{
    write_word(stream, summary->size);
    write_word(stream, summary->names);
    for (uint32_t name = 0; name < summary->names; name++) {
        write_word(stream, summary->uses[name].count);
        write_word(stream, summary->uses[name].first);
    }
}

/* One column more, after a refusal too. */
static void write_summary_column(FILE *stream, const Answer *answer)
{
    putc(' ', stream);
    if (answer->code == SUCCESS)
        write_summary(stream, &answer->summary);
    else
        putc('-', stream);
}

void write_answer_line(FILE *stream, const Call *call, const Answer *answer)
{
    fprintf(stream, "%u %u %u %u %u %u %s ", (unsigned)answer->code, (unsigned)answer->units,
            (unsigned)answer->name, (unsigned)answer->length, (unsigned)answer->first,
            (unsigned)answer->second, table_column(call, answer));
    if (answer->length == 0)
        putc('-', stream);
    for (uint32_t i = 0; i < answer->length; i++)
        write_byte(stream, answer->output[i]);
    if (call->job == JOB_REPLACE)
        write_summary_column(stream, answer);
    putc('\n', stream);
}
