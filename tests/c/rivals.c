/* The answer comes back by value, six words, and with code 6 it names two bindings that compete (request T-04); else it names none. */
#include <string.h>

#include "../library_call.h"

_Static_assert(sizeof(meirhuppa_answer) == 6 * sizeof(uint32_t), "six words");
_Static_assert(offsetof(meirhuppa_answer, length) == 12, "the first four are where they were");
_Static_assert(offsetof(meirhuppa_answer, first) == 16 && offsetof(meirhuppa_answer, second) == 20, "and two behind them");

enum { BUDGET = 32, TABLE_WORDS = MEIRHUPPA_WORDS_PER_UNIT * BUDGET, OUTPUT_BYTES = 100, STRAY = 0x5a5a5a5a };

/* Images: x is the word 4, a set has its count before its scopes. */

/* x{1,2}; x{1} to 6, x{2} to 7. */
static const uint8_t sample_3[] = {1, 2, 1, 'x', 1, 'y', 3, 2, 2, 4, 6, 1, 1, 4, 7, 1, 2, 0, 2, 1, 2, 0, 0, 4};
/* The same with x{1,2} to 8, which contains both. */
static const uint8_t sample_4[] = {1, 2, 1, 'x', 1, 'y', 3, 2, 3, 4, 6, 1, 1, 4, 8, 2, 1, 2, 4, 7, 1, 2, 0, 2, 1, 2, 0, 0, 4};
/* x{1,2,3}; x{1,2} to 6, x{3} to 7: the larger one does not win. */
static const uint8_t wrong_turn[] = {1, 2, 1, 'x', 1, 'y', 3, 3, 2, 4, 6, 2, 1, 2, 4, 7, 1, 3, 0, 3, 1, 2, 3, 0, 0, 4};
/* (lambda x{1} (lambda x{2} x{1,2})); x{2} to 5. The lambdas bind x{1,3} and x{2,3,4}: the image's own stands between them, in the last. */
static const uint8_t between[] = {1, 1, 1, 'x', 1, 2, 1, 4, 5, 1, 2, 5, 0, 0, 0, 3, 0, 0, 0, 0, 0, 0, 1, 1, 0, 0, 4, 5, 0, 0, 0, 3,
                                  0, 0, 0, 0, 0, 0, 1, 2, 0, 0, 4, 0, 2, 1, 2, 0, 0, 4};
/* The tree of number 9. */
static const uint8_t nine[] = {2, 0, 0, 0, 3, 1, 9};

#define CALL(asked, bytes) \
    {.job = asked, .budget = BUDGET, .table_words = TABLE_WORDS, .output_length = OUTPUT_BYTES, .image = bytes, .image_length = sizeof bytes}

static const struct {
    const char *what;
    Call call;
    meirhuppa_answer wanted;
} cases[] = {
    {"sample 3", CALL(JOB_RESOLVE, sample_3), {.code = MEIRHUPPA_AMBIGUOUS, .units = 1, .first = 1, .second = 2}},
    {"sample 4", CALL(JOB_RESOLVE, sample_4), {.units = 1, .name = 8}},
    {"the wrong turn", CALL(JOB_RESOLVE, wrong_turn), {.code = MEIRHUPPA_AMBIGUOUS, .units = 1, .first = 1, .second = 2}},
    {"expand", CALL(JOB_EXPAND, between), {.code = MEIRHUPPA_AMBIGUOUS, .units = 17, .first = 1, .second = 3}},
    {"parse", CALL(JOB_PARSE, sample_3), {.code = MEIRHUPPA_AMBIGUOUS, .units = 2, .first = 1, .second = 2}},
    {"another refusal", CALL(JOB_PARSE, nine), {.code = MEIRHUPPA_WRONG_KIND}},
    {"evaluate", CALL(JOB_EVALUATE, nine), {.units = 2, .length = sizeof nine}},
};

/* What stands around the answer is not the library's to write. */
static struct {
    uint32_t before;
    meirhuppa_answer given;
    uint32_t behind;
} kept = {.before = STRAY, .behind = STRAY};

static bool is_given(meirhuppa_answer wanted)
{
    return memcmp(&kept.given, &wanted, sizeof wanted) == 0 && kept.before == STRAY && kept.behind == STRAY;
}

int main(void)
{
    static uint32_t table[TABLE_WORDS];
    static uint8_t output[OUTPUT_BYTES];
    int failed = 0;
    for (size_t i = 0; i < sizeof cases / sizeof *cases; i++) {
        kept.given = ask_library(&cases[i].call, table, output, NULL);
        if (!is_given(cases[i].wanted)) {
            printf("rivals: %s: code %u, bindings %u and %u\n", cases[i].what, (unsigned)kept.given.code, (unsigned)kept.given.first,
                   (unsigned)kept.given.second);
            failed = 1;
        }
    }
    return failed;
}
