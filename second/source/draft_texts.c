/* Drafts of texts: all kinds of tokens, odd spaces and comments, damage at any
   byte, parentheses nested deep, many words. */
#include <stdio.h>
#include <string.h>

#include "chance.h"
#include "draft_parts.h"

static Draft *made;
static bool is_plain;     /* single spaces and no comments */
static uint32_t until_odd; /* tokens before one that is over a limit or none at all; 0 where none is */

/* ---- bytes ---- */

static void put(const char *text)
{
    size_t length = strlen(text);
    if (length > DRAFT_ROOM - made->length)
        return;
    memcpy(made->bytes + made->length, text, length);
    made->length += length;
}

static void put_byte(uint8_t byte)
{
    if (made->length < DRAFT_ROOM)
        made->bytes[made->length++] = byte;
}

static void put_number(const char *before, uint64_t number)
{
    char text[32];
    snprintf(text, sizeof text, "%s%llu", before, (unsigned long long)number);
    put(text);
}

/* ---- spaces ---- */

static void put_comment(void)
{
    put_byte(';');
    for (uint32_t i = below(12); i > 0; i--) {
        uint8_t byte = percent(80) ? (uint8_t)between(32, 126) : (uint8_t)below(256);
        put_byte(byte == '\n' || byte == '\r' ? ' ' : byte);
    }
    put(percent(60) ? "\n" : percent(50) ? "\r" : "\r\n");
}

/* Something that parts tokens, or may stand beside a parenthesis. */
static void put_space(void)
{
    static const char *const spaces[] = {" ", "\t", "\n", "\r", "\r\n", "  ", " \t "};
    if (is_plain)
        put(" ");
    else if (percent(8))
        put_comment();
    else
        put(percent(70) ? " " : spaces[below(sizeof spaces / sizeof spaces[0])]);
}

static void put_maybe_space(void)
{
    if (!is_plain && percent(15))
        put_space();
}

/* ---- tokens ---- */

static void put_any_word(void)
{
    static const char *const pool[] = {"x", "y", "z", "m", "run", "motor-1", "!", "~", "a@1", "x2",
                                       "lambdas", "quot", "X", "and", "-1", "q{1}", "[", "\"", "\\"};
    if (percent(25)) {
        put((const char *[]){"lambda", "let-syntax", "quote", "syntax"}[below(CORE_NAMES)]);
    } else if (percent(93)) {
        put(pool[below(sizeof pool / sizeof pool[0])]);
    } else { /* a long one */
        for (uint32_t i = between(30, LONGEST_WORD); i > 0; i--)
            put_byte((uint8_t)between('a', 'c'));
    }
}

static void put_rung_word(void)
{
    if (percent(70)) {
        put("'");
        put((const char *[]){"and", "or", "not", "out", "set", "all"}[below(6)]);
    } else {
        put_number("'", between(6, LARGEST_RUNG_WORD));
    }
}

static void put_leaf(void)
{
    switch (below(12)) {
    case 0:
    case 1:
        put_number("", below(200));
        break;
    case 2:
        put_number("", percent(50) ? (uint32_t)next_chance() : UINT32_MAX - below(3));
        break;
    case 3:
    case 4:
        put_number("@", percent(80) ? below(30) : LARGEST_POINT - below(3));
        break;
    case 5:
        put_number("#", any_primitive());
        break;
    case 6:
    case 7:
        put_rung_word();
        break;
    default:
        put_any_word();
        break;
    }
}

/* A token over a limit, or one that is none. */
static void put_odd_leaf(void)
{
    static const char *const over[] = {"4294967296", "4294967299", "18446744073709551616", "99999999999999999999999", "@1024",
                                       "@4294967296", "#7", "#10", "aaaaaaaaaaaaaaaaaaaaaaaaaaaaaaaaa"};
    static const char *const none[] = {"007", "00", "01", "@", "@01", "#", "#00", "'", "'5", "'06", "'16", "'0", "'x", "1a", "@1a",
                                       "#1a", "a'b", "a#", "''", "'andy", "\x7f", "x\x80", "\xff", "\x0b", "@@1", "#-1"};
    if (percent(55))
        put(over[below(sizeof over / sizeof over[0])]);
    else
        put(none[below(sizeof none / sizeof none[0])]);
}

static void put_token(void)
{
    if (until_odd > 0 && --until_odd == 0)
        put_odd_leaf();
    else
        put_leaf();
}

/* ---- objects ---- */

static void put_object(int depth);

/* Parts with something between them; beside a list it need not be there. */
static void put_parts(uint32_t count, int depth)
{
    for (uint32_t i = 0; i < count; i++) {
        size_t before = made->length;
        bool behind_list = before > 0 && made->bytes[before - 1] == ')';
        if (i > 0 && (is_plain || !behind_list || percent(70)))
            put_space();
        put_object(depth);
    }
}

static void put_list(uint32_t count, int depth)
{
    put("(");
    put_maybe_space();
    put_parts(count, depth - 1);
    put_maybe_space();
    put(")");
}

static void put_object(int depth)
{
    if (depth <= 0 || percent(50))
        put_token();
    else
        put_list(percent(90) ? below(5) : below(20), depth);
}

/* ---- texts of many bytes ---- */

/* Near the limit of nesting, or far beyond it. */
static void put_deep(bool is_small)
{
    uint32_t levels = percent(90) || is_small ? between(60, 68) : percent(80) ? between(69, 2000) : between(2000, 34000);
    uint32_t closed = percent(70) ? levels : percent(50) ? levels - 1 : levels + 1;
    for (uint32_t i = 0; i < levels; i++) {
        put("(");
        if (percent(2))
            put_leaf(), put_space();
    }
    if (percent(60))
        put_object(1);
    for (uint32_t i = 0; i < closed; i++)
        put(")");
}

/* Near the most words there may be; each is met twice now and then. */
static void put_many_words(void)
{
    uint32_t words = MOST_NAMES - CORE_NAMES - 2 + below(4);
    put("(");
    for (uint32_t i = 0; i < words; i++) {
        put_number(" w", i);
        if (percent(3))
            put_number(" w", below(i + 1));
        if (percent(1))
            put(" quote");
    }
    put(")");
}

/* The image is near the longest there may be: five bytes for each number. */
static void put_many_numbers(void)
{
    uint32_t count = LONGEST_IMAGE / 5 - between(0, 6);
    put("(0");
    for (uint32_t i = 1; i < count; i++)
        put(" 0");
    put(percent(50) ? " 128)" : ")");
}

/* ---- damage ---- */

static uint8_t telling_byte(void)
{
    static const char telling[] = "()()();'#@ \t\n\r0179axl-\x7f\x80\xff\x0b";
    return (uint8_t)telling[below(sizeof telling)]; /* its last byte is 0 */
}

static void insert_byte(size_t place, uint8_t byte)
{
    if (made->length == DRAFT_ROOM)
        return;
    memmove(made->bytes + place + 1, made->bytes + place, made->length - place);
    made->bytes[place] = byte;
    made->length++;
}

static void damage_text(void)
{
    if (made->length == 0)
        return;
    size_t place = below((uint32_t)made->length);
    switch (below(6)) {
    case 0:
        made->bytes[place] = telling_byte();
        break;
    case 1:
        insert_byte(place, telling_byte());
        break;
    case 2:
        insert_byte(place, made->bytes[place]);
        break;
    case 3:
        memmove(made->bytes + place, made->bytes + place + 1, made->length - place - 1);
        made->length--;
        break;
    case 4:
        made->length = place;
        break;
    default:
        made->bytes[place] ^= (uint8_t)(1u << below(8));
        break;
    }
}

static void put_whole_text(bool is_small)
{
    if (percent(4))
        put_deep(is_small);
    else if (!is_small && below(400) == 0)
        put_many_words();
    else if (!is_small && below(500) == 0)
        put_many_numbers();
    else if (percent(12))
        put_token();
    else
        put_list(below(7), percent(80) ? (int)between(1, 4) : 6);
}

void draft_text(bool is_small, Draft *draft)
{
    made = draft;
    made->kind = 0;
    made->length = 0;
    is_plain = percent(15);
    until_odd = percent(18) ? between(1, 6) : 0;
    put_maybe_space();
    put_whole_text(is_small);
    put_maybe_space();
    if (percent(2)) { /* one object more */
        put_space();
        put_whole_text(is_small);
    }
    if (percent(20))
        for (uint32_t times = percent(70) ? 1 : between(1, 4); times > 0; times--)
            damage_text();
}

/* About as many words of 32 bytes as make the longest text. */
void draft_long_words(Memory *memory, Draft *draft)
{
    static const char word[] = "a-word-of-as-many-bytes-as-it-may";
    enum { MOST_PARTS = LONGEST_IMAGE / (LONGEST_WORD + 1) + 2 };
    static const Object *parts[MOST_PARTS];
    start_draft(memory, SYNTAX_IMAGE, 0);
    choose_counts();
    draft_image.word_count = 2;
    draft_image.words[0] = (Word){(const uint8_t *)word, LONGEST_WORD};
    draft_image.words[1] = (Word){(const uint8_t *)word, between(20, 31)};
    draft_image.names = CORE_NAMES + 2;
    uint32_t count = MOST_PARTS - below(4);
    for (uint32_t i = 0; i < count; i++)
        parts[i] = symbol(i + 1 < count ? CORE_NAMES : CORE_NAMES + 1);
    draft_image.object = list_of(count, parts);
    finish_draft(draft);
}
