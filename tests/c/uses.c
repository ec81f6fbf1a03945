/* Where a bit is used (request T-10), as a C program would have it: a summary beside a tree image, questions to it, and a contact replaced. */
#include <stdbool.h>
#include <stdio.h>
#include <string.h>

#include "meirhuppa.h"

/* Five names, the last of them a bit's, so a summary has twelve words. One more is lent. */
enum { FILL = 0x5a, OUTPUT_BYTES = 60, NAMES = 5, WORDS = 12, LENT = 13, BIT = 4, OR_PLACE = 5 };

/* ([4 ('set $4 ('or @1 $4))] 0): size 10, and the bit is used at places 4 and 8. */
static const uint8_t latch[] = {2, 0, 1, 0, 1, 2, 2, 4, 1, 3, 3, 4, 4, 0, 4, 1, 3, 3, 4, 1, 3, 2, 1, 0, 4, 3, 1, 0};
static const uint32_t latch_summary[WORDS] = {10, NAMES, 0, 0, 0, 0, 0, 0, 0, 0, 2, 4};
/* Point 1 in the place of ('or @1 $4): size 7. */
static const uint8_t point[] = {3, 2, 1};
static const uint8_t relay[] = {2, 0, 1, 0, 1, 2, 2, 4, 1, 3, 3, 4, 4, 0, 4, 3, 2, 1, 3, 1, 0};
static const uint32_t relay_summary[WORDS] = {7, NAMES, 0, 0, 0, 0, 0, 0, 0, 0, 1, 4};
static const uint8_t syntax[] = {1, 0, 0, 0, 0, 1, 0, 0, 0, 9};

static uint32_t summary[LENT];
static uint8_t output[OUTPUT_BYTES];
static int failed;

static void check(const char *what, bool holds)
{
    if (!holds) {
        printf("uses: %s\n", what);
        failed = 1;
    }
}

static bool is_filled(const void *bytes, size_t from, size_t end)
{
    for (size_t i = from; i < end; i++)
        if (((const uint8_t *)bytes)[i] != FILL)
            return false;
    return true;
}

/* The code alone, and the length where it is 0. */
static bool is_answer(meirhuppa_answer given, uint32_t code, size_t length)
{
    meirhuppa_answer wanted = {.code = code, .length = (uint32_t)length};
    return memcmp(&given, &wanted, sizeof wanted) == 0 && is_filled(output, length, sizeof output);
}

/* The summary has these words, and those behind them as they were. */
static bool summary_is(const uint32_t *wanted)
{
    return memcmp(summary, wanted, WORDS * sizeof *wanted) == 0 && is_filled(summary, WORDS * sizeof *wanted, sizeof summary);
}

static void start(const uint32_t *words)
{
    memset(output, FILL, sizeof output);
    memset(summary, FILL, sizeof summary);
    if (words != NULL)
        memcpy(summary, words, WORDS * sizeof *words);
}

static meirhuppa_answer summary_of(const uint8_t *image, size_t length, size_t words)
{
    start(NULL);
    return meirhuppa_summary(image, length, summary, words);
}

static void check_summary(void)
{
    check("a summary", is_answer(summary_of(latch, sizeof latch, LENT), 0, sizeof latch_summary) && summary_is(latch_summary));
    check("just enough words", is_answer(summary_of(latch, sizeof latch, WORDS), 0, sizeof latch_summary) && summary_is(latch_summary));
    check("too few words", is_answer(summary_of(latch, sizeof latch, WORDS - 1), MEIRHUPPA_TOO_LONG, 0));
    check("they are untouched", is_filled(summary, 0, sizeof summary));
    check("a damaged image", is_answer(summary_of(latch, sizeof latch - 1, LENT), MEIRHUPPA_LAYOUT, 0));
    check("a syntax image", is_answer(summary_of(syntax, sizeof syntax, LENT), MEIRHUPPA_WRONG_KIND, 0));
    check("untouched too", is_filled(summary, 0, sizeof summary));
}

static bool uses_are(const uint8_t *image, size_t length, size_t words, uint32_t name, meirhuppa_uses_answer wanted)
{
    meirhuppa_uses_answer given = meirhuppa_uses(image, length, summary, words, name);
    return memcmp(&given, &wanted, sizeof wanted) == 0;
}

static void check_questions(void)
{
    start(latch_summary);
    check("a question", uses_are(latch, sizeof latch, LENT, BIT, (meirhuppa_uses_answer){0, 2, 4}));
    check("a name that is not used", uses_are(latch, sizeof latch, WORDS, 0, (meirhuppa_uses_answer){0, 0, 0}));
    check("a name that is not there", uses_are(latch, sizeof latch, WORDS, NAMES, (meirhuppa_uses_answer){MEIRHUPPA_NO_SUCH_NAME, 0, 0}));
    check("a summary too short", uses_are(latch, sizeof latch, WORDS - 1, BIT, (meirhuppa_uses_answer){MEIRHUPPA_ANOTHER_TREE, 0, 0}));
    check("another tree", uses_are(relay, sizeof relay, WORDS, BIT, (meirhuppa_uses_answer){MEIRHUPPA_ANOTHER_TREE, 0, 0}));
    check("a syntax image", uses_are(syntax, sizeof syntax, WORDS, BIT, (meirhuppa_uses_answer){MEIRHUPPA_WRONG_KIND, 0, 0}));
    check("nothing was written", summary_is(latch_summary));
    memset(summary + 2, 0xff, (WORDS - 2) * sizeof *summary);
    check("entries are taken as they are", uses_are(latch, sizeof latch, WORDS, BIT, (meirhuppa_uses_answer){0, UINT32_MAX, UINT32_MAX}));
}

static meirhuppa_answer replace(uint32_t place, size_t part_length, size_t words, size_t room)
{
    start(latch_summary);
    return meirhuppa_replace(latch, sizeof latch, place, point, part_length, summary, words, output, room);
}

static void check_replacement(void)
{
    check("a replacement", is_answer(replace(OR_PLACE, sizeof point, LENT, sizeof output), 0, sizeof relay));
    check("its image", memcmp(output, relay, sizeof relay) == 0);
    check("its summary", summary_is(relay_summary));
    check("a question to it", uses_are(relay, sizeof relay, WORDS, BIT, (meirhuppa_uses_answer){0, 1, 4}));
    check("just enough of all", is_answer(replace(OR_PLACE, sizeof point, WORDS, sizeof relay), 0, sizeof relay) && summary_is(relay_summary));
    check("no such place", is_answer(replace(10, sizeof point, WORDS, sizeof output), MEIRHUPPA_ANOTHER_TREE, 0) && summary_is(latch_summary));
    check("a summary too short",
          is_answer(replace(OR_PLACE, sizeof point, WORDS - 1, sizeof output), MEIRHUPPA_ANOTHER_TREE, 0) && summary_is(latch_summary));
    check("a part cut off",
          is_answer(replace(OR_PLACE, sizeof point - 1, WORDS, sizeof output), MEIRHUPPA_LAYOUT, 0) && summary_is(latch_summary));
    check("no part", is_answer(replace(OR_PLACE, 0, WORDS, sizeof output), MEIRHUPPA_LAYOUT, 0) && summary_is(latch_summary));
    check("too little room",
          is_answer(replace(OR_PLACE, sizeof point, WORDS, sizeof relay - 1), MEIRHUPPA_TOO_LONG, 0) && summary_is(latch_summary));
}

int main(void)
{
    check_summary();
    check_questions();
    check_replacement();
    return failed;
}
