/* Text in and text out (request T-05), as a C program would have it: strings, and buffers as long as they must be. */
#include <stdbool.h>
#include <stdio.h>
#include <string.h>

#include "meirhuppa.h"

enum { FILL = 0x5a, OUTPUT_BYTES = 100, MILLION = 1000000 };

/* The image that document 01 shows whole. */
static const uint8_t worked[] = {1, 1, 1, 'x', 0, 0, 0, 5, 0, 0, 0, 3, 0, 0, 0, 0, 0, 0, 0, 0, 0, 4, 0, 0, 0, 0, 4};
static const uint8_t tree[] = {2, 0, 0, 0, 3, 1, 9};
static uint8_t output[OUTPUT_BYTES];
static uint8_t text[2 * MILLION];
static int failed;

static void check(const char *what, bool holds)
{
    if (!holds) {
        printf("texts: %s\n", what);
        failed = 1;
    }
}

static bool is_kept_from(size_t length)
{
    for (size_t i = length; i < sizeof output; i++)
        if (output[i] != FILL)
            return false;
    return true;
}

/* The code alone, the length where it is 0, and the output as it was behind that length. */
static bool is_answer(meirhuppa_answer given, uint32_t code, size_t length)
{
    meirhuppa_answer wanted = {.code = code, .length = (uint32_t)length};
    return memcmp(&given, &wanted, sizeof wanted) == 0 && is_kept_from(length);
}

static meirhuppa_answer read_into(const void *given, size_t length, size_t room)
{
    memset(output, FILL, sizeof output);
    return meirhuppa_read(given, length, output, room);
}

static meirhuppa_answer print_into(const uint8_t *image, size_t length, size_t room)
{
    memset(output, FILL, sizeof output);
    return meirhuppa_print(image, length, output, room);
}

static bool is_refused(const char *given, uint32_t code)
{
    return is_answer(read_into(given, strlen(given), sizeof output), code, 0);
}

static void check_worked(void)
{
    static const char typed[] = "; a function\n( lambda\tx\r\n x)";
    static const char plain[] = "(lambda x x)";
    check("a text", is_answer(read_into(typed, strlen(typed), sizeof output), 0, sizeof worked) &&
                        memcmp(output, worked, sizeof worked) == 0);
    check("just enough room for the image", is_answer(read_into(plain, strlen(plain), sizeof worked), 0, sizeof worked));
    check("too little room for the image", is_answer(read_into(plain, strlen(plain), sizeof worked - 1), MEIRHUPPA_TOO_LONG, 0));
    check("an image", is_answer(print_into(worked, sizeof worked, sizeof output), 0, strlen(plain)) &&
                          memcmp(output, plain, strlen(plain)) == 0);
    check("just enough room for the text", is_answer(print_into(worked, sizeof worked, strlen(plain)), 0, strlen(plain)));
    check("too little room for the text", is_answer(print_into(worked, sizeof worked, strlen(plain) - 1), MEIRHUPPA_TOO_LONG, 0));
}

static void check_refusals(void)
{
    check("no object", is_refused("", MEIRHUPPA_BAD_TEXT));
    check("a second object", is_refused("x y", MEIRHUPPA_BAD_TEXT));
    check("a leading zero", is_refused("(01)", MEIRHUPPA_BAD_TEXT));
    check("one closed too many", is_refused("x)", MEIRHUPPA_UNBALANCED));
    check("one left open", is_refused("(x", MEIRHUPPA_UNBALANCED));
    check("the first from the front counts", is_refused(") 01", MEIRHUPPA_UNBALANCED) && is_refused("01 )", MEIRHUPPA_BAD_TEXT));
    check("limits come behind", is_refused("(@1024", MEIRHUPPA_UNBALANCED) && is_refused("@1024", MEIRHUPPA_OVER_LIMIT));
    check("a damaged image", is_answer(print_into(worked, sizeof worked - 1, sizeof output), MEIRHUPPA_LAYOUT, 0));
    check("a tree image", is_answer(print_into(tree, sizeof tree, sizeof output), MEIRHUPPA_WRONG_KIND, 0));
    check("65,537 bytes of image", is_answer(print_into(text, 65537, sizeof output), MEIRHUPPA_OVER_LIMIT, 0));
}

static void check_long_texts(void)
{
    memset(text, '(', MILLION);
    memset(text + MILLION, ')', MILLION);
    check("a million open", is_answer(read_into(text, MILLION, sizeof output), MEIRHUPPA_UNBALANCED, 0));
    check("a million lists in each other", is_answer(read_into(text, sizeof text, sizeof output), MEIRHUPPA_OVER_LIMIT, 0));
    memset(text, ';', MILLION);
    text[MILLION - 1] = '\n';
    text[MILLION] = '9';
    check("a number behind a long comment", is_answer(read_into(text, MILLION + 1, sizeof output), 0, 10));
}

int main(void)
{
    check_worked();
    check_refusals();
    check_long_texts();
    return failed;
}
