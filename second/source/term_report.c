/* term_report: reads a file of images on standard input, each with its length before
   it, expands each at phase 0 and prints how often each code was given, the units of all,
   and their mean (request T-13). A file that is malformed or ends too early prints `cut`.

   Nothing is kept from image to image but counts and sums. */
#include <stdio.h>

#include "jobs.h"

enum { REPORT_BUDGET = 400, CODES = LAST_CODE + 1 };

typedef struct {
    uint64_t counts[CODES]; /* by code */
    uint64_t images;
    uint64_t units;
} Report;

/* What a file has next. */
typedef enum { AN_IMAGE, END_OF_FILE, CUT_HERE } Next;

/* A length in groups of seven bits, in its shortest form, at most 4,294,967,295. */
static Next read_length(uint32_t *length)
{
    *length = 0;
    for (int group = 0; group < 5; group++) {
        int byte = getchar();
        if (byte == EOF)
            return group == 0 ? END_OF_FILE : CUT_HERE;
        if (group == 4 && byte > 15)
            return CUT_HERE;
        *length |= (uint32_t)(byte & 127) << (7 * group);
        if (byte < 128)
            return byte == 0 && group > 0 ? CUT_HERE : AN_IMAGE;
    }
    return CUT_HERE;
}

/* Passes over so many bytes; false where the file ends inside. */
static bool pass_over(uint32_t length)
{
    static uint8_t bytes[1 << 16];
    while (length > 0) {
        size_t wanted = length < sizeof bytes ? length : sizeof bytes;
        if (fread(bytes, 1, wanted, stdin) != wanted)
            return false;
        length -= (uint32_t)wanted;
    }
    return true;
}

static void expand_one(Memory *memory, const uint8_t *image, size_t length, Answer *answer)
{
    Call call = {.job = JOB_EXPAND,
                 .budget = REPORT_BUDGET,
                 .table_words = TABLE_WORDS_PER_UNIT * REPORT_BUDGET,
                 .output_length = LONGEST_IMAGE,
                 .image = image,
                 .image_length = length};
    answer_call(memory, &call, answer);
}

static void count_answer(Report *report, uint32_t code, uint32_t units)
{
    report->counts[code]++;
    report->images++;
    report->units += units;
}

/* The image whose length has been read; false where the file ends inside. */
static bool report_image(Memory *memory, uint32_t length, Report *report)
{
    static uint8_t image[LONGEST_IMAGE];
    static Answer answer;
    if (length > LONGEST_IMAGE) { /* its code needs none of its bytes */
        count_answer(report, OVER_LIMIT, 0);
        return pass_over(length);
    }
    if (fread(image, 1, length, stdin) != length)
        return false;
    expand_one(memory, image, length, &answer);
    count_answer(report, answer.code, answer.units);
    return true;
}

/* False where the file is cut. */
static bool read_file(Memory *memory, Report *report)
{
    uint32_t length;
    Next next;
    while ((next = read_length(&length)) == AN_IMAGE)
        if (!report_image(memory, length, report))
            return false;
    return next == END_OF_FILE;
}

static void print_report(const Report *report)
{
    for (uint32_t code = 0; code < CODES; code++)
        if (report->counts[code] > 0)
            printf("code %u %llu\n", (unsigned)code, (unsigned long long)report->counts[code]);
    printf("units %llu\n", (unsigned long long)report->units);
    if (report->images == 0)
        printf("mean none\n");
    else
        printf("mean %llu %llu\n", (unsigned long long)(report->units / report->images),
               (unsigned long long)(report->units % report->images));
}

int main(void)
{
    static Report report;
    Memory *memory = new_memory();
    if (read_file(memory, &report))
        print_report(&report);
    else
        puts("cut");
    free_memory(memory);
    return fflush(stdout) == 0 ? 0 : 1;
}
