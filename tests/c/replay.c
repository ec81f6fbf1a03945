/* Reads a stream of calls on standard input, as second/README.md describes it, makes each through the library's header as any C program would,
 * and prints the line that the program `replay` prints. The second program's reader reads the stream; the library's answer is what is tried.
 *
 * The buffers are exactly as long as the call says: behind each begins a page that may not be touched, so that reading or writing one element
 * too many ends this program, and a buffer of no elements is an address and nothing else. Words are lent to the panel check and for a summary:
 * that page begins behind the last whole one. */
#define _DEFAULT_SOURCE /* MAP_ANONYMOUS */

#include <stdlib.h>
#include <string.h>
#include <sys/mman.h>
#include <unistd.h>

#include "../library_call.h"

#define TABLE_FILL 0xa5a5a5a5u
#define OUTPUT_FILL 0x5a

/* Where the lent buffers end. */
static uint8_t *image_end;
static uint8_t *recording_end;
static uint8_t *part_end;
static uint32_t *summary_end;
static uint32_t *table_end;
static uint8_t *output_end;

/* The end of so many bytes of memory, with the page behind them. */
static void *fenced(size_t bytes)
{
    size_t page = (size_t)sysconf(_SC_PAGESIZE);
    size_t room = (bytes + page - 1) / page * page;
    uint8_t *start = mmap(NULL, room + page, PROT_READ | PROT_WRITE, MAP_PRIVATE | MAP_ANONYMOUS, -1, 0);
    if (start == MAP_FAILED || mprotect(start + room, page, PROT_NONE) != 0) {
        perror("replay");
        exit(2);
    }
    return start + room;
}

static bool words_are(uint32_t value, const uint32_t *words, size_t count)
{
    for (size_t i = 0; i < count; i++)
        if (words[i] != value)
            return false;
    return true;
}

static bool bytes_are(uint8_t value, const uint8_t *bytes, size_t count)
{
    for (size_t i = 0; i < count; i++)
        if (bytes[i] != value)
            return false;
    return true;
}

static const char *table_column(const Call *call, const uint32_t *table)
{
    size_t cleared = (size_t)MEIRHUPPA_WORDS_PER_UNIT * call->budget;
    if (words_are(TABLE_FILL, table, call->table_words))
        return "kept";
    if (cleared <= call->table_words && words_are(0, table, cleared) &&
        words_are(TABLE_FILL, table + cleared, call->table_words - cleared))
        return "clear";
    return "bad";
}

/* A length that is over the output's makes the column too short, and is seen by that. */
static void print_output(const uint8_t *output, size_t length, size_t output_length)
{
    if (length > output_length)
        length = output_length;
    if (length == 0)
        putchar('-');
    for (size_t i = 0; i < length; i++)
        printf("%02x", output[i]);
    if (!bytes_are(OUTPUT_FILL, output + length, output_length - length))
        putchar('!');
}

/* How much of the output is lent. The library's words have their low byte first, as the line wants them. A question has two words, whatever the
 * call says. */
static size_t lent_output(const Call *call)
{
    if (call->job == JOB_USES)
        return 2 * sizeof(uint32_t);
    bool in_words = call->job == JOB_PANEL || call->job == JOB_SUMMARY;
    return in_words ? call->output_length / sizeof(uint32_t) * sizeof(uint32_t) : call->output_length;
}

/* Whether the lent summary is as it was, from a word on. */
static bool summary_is_kept(const Call *call, const uint32_t *summary, size_t from)
{
    size_t before = from * sizeof *summary;
    return memcmp(summary + from, call->summary + before, lent_words(call) * sizeof *summary - before) == 0;
}

/* How many words of the summary a replacement has written. */
static size_t written_words(const Call *call, uint32_t code, const uint32_t *summary)
{
    if (call->job != JOB_REPLACE || code != MEIRHUPPA_SUCCESS)
        return 0;
    size_t words = 2 + 2 * (size_t)summary[1];
    return words < lent_words(call) ? words : lent_words(call);
}

/* A replacement has one column more; `!` stands behind what a word follows that has changed and should not have. */
static void print_summary(const Call *call, uint32_t code, const uint32_t *summary)
{
    size_t written = written_words(call, code, summary);
    if (call->job == JOB_REPLACE)
        printf(written > 0 ? " " : " -");
    for (size_t i = 0; i < written * sizeof *summary; i++)
        printf("%02x", ((const uint8_t *)summary)[i]);
    if (!summary_is_kept(call, summary, written))
        putchar('!');
}

/* The bytes, moved to where they end before the page. */
static const uint8_t *lent_input(uint8_t *end, const uint8_t *bytes, size_t length)
{
    return memcpy(end - length, bytes, length);
}

static void answer(Call *call)
{
    size_t output_length = lent_output(call);
    uint32_t *table = table_end - call->table_words;
    uint8_t *output = output_end - output_length;
    uint32_t *summary = summary_end - lent_words(call);
    call->image = lent_input(image_end, call->image, call->image_length);
    call->recording = lent_input(recording_end, call->recording, call->recording_length);
    call->part = lent_input(part_end, call->part, call->part_length);
    memcpy(summary, call->summary, lent_words(call) * sizeof *summary);
    for (size_t i = 0; i < call->table_words; i++)
        table[i] = TABLE_FILL;
    memset(output, OUTPUT_FILL, output_length);
    meirhuppa_answer given = ask_library(call, table, output, summary);
    printf("%u %u %u %u %u %u %s ", (unsigned)given.code, (unsigned)given.units, (unsigned)given.name, (unsigned)given.length,
           (unsigned)given.first, (unsigned)given.second, table_column(call, table));
    print_output(output, given.length, output_length);
    print_summary(call, given.code, summary);
    putchar('\n');
}

int main(void)
{
    static Inputs inputs;
    Call call;
    Met met;
    image_end = fenced(LARGEST_STREAM_SIZE);
    recording_end = fenced(LARGEST_STREAM_SIZE);
    part_end = fenced(LARGEST_STREAM_SIZE);
    summary_end = fenced(LARGEST_STREAM_SIZE);
    table_end = fenced(LARGEST_STREAM_TABLE * sizeof *table_end);
    output_end = fenced(LARGEST_STREAM_SIZE);
    while ((met = read_call(stdin, &call, &inputs)) == A_CALL)
        answer(&call);
    if (met == CUT)
        puts("cut");
    return fflush(stdout) == 0 ? 0 : 1;
}
