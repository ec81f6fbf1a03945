/* Drafts of panel programs: most of them within the profile, some with one rule
   broken, a point driven twice, an open variable or too many bits. */
#include <string.h>

#include "chance.h"
#include "draft_parts.h"

/* The bits around a place, innermost first. */
typedef struct Bits Bits;
struct Bits {
    uint32_t name;
    const Bits *outer;
};

/* What is to be had of the draft at hand. */
static bool names_differ;    /* each bit has a name of its own */
static bool drives_again;    /* points may be driven twice */
static bool is_open;         /* a variable may have any name */
static uint32_t until_break; /* pieces to be made before one breaks a rule; 0 where none does */
static uint32_t next_name;
static bool driven[LARGEST_POINT + 1];

enum { MOST_PARTS = 4 };

static const Tree *program(int depth, const Bits *bits);
static const Tree *expression(int depth, const Bits *bits);

/* ---- small makers ---- */

static const Tree *rung_word(uint32_t word)
{
    return tree_atom(RUNG_WORD, word);
}

static const Tree *number(uint32_t value)
{
    return tree_atom(NUMBER, value);
}

static const Tree *any_point(void)
{
    return tree_atom(POINT, percent(90) ? below(8) : below(LARGEST_POINT + 1));
}

/* A point that no `out` drives yet, or in some drafts one that may be driven. */
static const Tree *point_to_drive(void)
{
    uint32_t point = percent(70) ? below(16) : below(LARGEST_POINT + 1);
    if (drives_again)
        point = percent(70) ? below(8) : point;
    else
        for (uint32_t i = 0; driven[point] && i <= LARGEST_POINT; i++)
            point = (point + 1) % (LARGEST_POINT + 1);
    driven[point] = true;
    return tree_atom(POINT, point);
}

static uint32_t any_name(void)
{
    if (!names_differ || next_name == MOST_NAMES)
        return below(draft_image.names < 8 ? draft_image.names : 8);
    return next_name++;
}

/* A bit around the place; where there is none, a variable without a function. */
static const Tree *any_bit(const Bits *bits)
{
    uint32_t met = 0, chosen = below(draft_image.names);
    bool open = is_open && percent(20);
    for (; bits != NULL && !open; bits = bits->outer)
        if (below(++met) == 0)
            chosen = bits->name;
    return make_variable(draft_memory, chosen);
}

static bool breaks_here(void)
{
    return until_break > 0 && --until_break == 0;
}

/* ---- rules broken ---- */

/* What is neither a program nor an expression. */
static const Tree *odd_piece(const Bits *bits)
{
    const Tree *point = any_point(), *empty = tree_list(0, NULL, true);
    switch (below(12)) {
    case 0:
        return number(below(3));
    case 1:
        return rung_word(below(LARGEST_RUNG_WORD + 1));
    case 2:
        return tree_atom(SYMBOL, below(CORE_NAMES));
    case 3:
        return tree_atom(PRIMITIVE, any_primitive());
    case 4:
        return percent(50) ? empty : tree_list(1, &point, true);
    case 5:
        return any_syntax();
    case 6:
        return make_function(draft_memory, any_name(), program(1, bits));
    case 7:
        return tree_list(1, &point, false);
    case 8:
        return apply2(point, point, any_point());
    case 9:
        return apply2(tree_atom(PRIMITIVE, any_primitive()), point, point);
    case 10:
        return apply1(expression(1, bits), point);
    default:
        return apply2(rung_word(between(RUNG_ALL + 1, LARGEST_RUNG_WORD)), point, point);
    }
}

/* Any rung word on some expressions: nearly always too many, too few or the
   wrong ones. */
static const Tree *odd_rung(const Bits *bits)
{
    const Tree *parts[MOST_PARTS + 1] = {rung_word(below(RUNG_ALL + 1))};
    uint32_t count = between(1, MOST_PARTS);
    for (uint32_t i = 1; i < count; i++)
        parts[i] = percent(80) ? expression(1, bits) : program(1, bits);
    return tree_list(count, parts, false);
}

static const Tree *odd_start(const Bits *bits)
{
    switch (below(5)) {
    case 0:
        return number(percent(50) ? 2 : (uint32_t)next_chance());
    case 1:
        return rung_word(below(2));
    case 2:
        return tree_atom(POINT, below(2));
    case 3:
        return tree_atom(PRIMITIVE, below(2));
    default:
        return expression(1, bits);
    }
}

/* A function applied otherwise than to one start value. */
static const Tree *odd_bit(const Bits *bits)
{
    Bits inner = {.name = any_name(), .outer = bits};
    const Tree *function = make_function(draft_memory, inner.name, program(1, &inner));
    switch (below(4)) {
    case 0:
        return tree_list(1, &function, false);
    case 1:
        return apply2(function, number(below(2)), number(below(2)));
    case 2:
        return apply1(number(below(2)), function);
    default:
        return apply1(function, odd_start(bits));
    }
}

static const Tree *odd_program(const Bits *bits)
{
    switch (below(4)) {
    case 0:
        return odd_bit(bits);
    case 1:
        return odd_rung(bits);
    case 2:
        return expression(1, bits);
    default:
        return odd_piece(bits);
    }
}

static const Tree *odd_expression(const Bits *bits)
{
    switch (below(4)) {
    case 0:
        return program(1, bits);
    case 1:
        return odd_rung(bits);
    default:
        return odd_piece(bits);
    }
}

/* ---- expressions and programs ---- */

static const Tree *expression(int depth, const Bits *bits)
{
    if (breaks_here())
        return odd_expression(bits);
    if (depth <= 0 || percent(35))
        return (bits != NULL || is_open) && percent(50) ? any_bit(bits) : any_point();
    if (percent(30))
        return apply1(rung_word(RUNG_NOT), expression(depth - 1, bits));
    const Tree *parts[MOST_PARTS + 1] = {rung_word(percent(50) ? RUNG_AND : RUNG_OR)};
    uint32_t count = percent(70) ? 3 : between(3, MOST_PARTS + 1);
    for (uint32_t i = 1; i < count; i++)
        parts[i] = expression(depth - 1, bits);
    return tree_list(count, parts, false);
}

static const Tree *rung(int depth, const Bits *bits)
{
    const Tree *driving = expression(depth, bits);
    if ((bits != NULL || is_open) && percent(50))
        return apply2(rung_word(RUNG_SET), any_bit(bits), driving);
    return apply2(rung_word(RUNG_OUT), point_to_drive(), driving);
}

/* The name is taken before the body is made, so that outer bits come first. */
static const Tree *bit(int depth, const Bits *bits)
{
    Bits inner = {.name = any_name(), .outer = bits};
    const Tree *body = program(depth - 1, &inner);
    return apply1(make_function(draft_memory, inner.name, body), number(below(2)));
}

static const Tree *program(int depth, const Bits *bits)
{
    if (breaks_here())
        return odd_program(bits);
    if (depth <= 0 || percent(15))
        return rung(percent(60) ? 1 : 3, bits);
    if (percent(45))
        return bit(depth, bits);
    const Tree *parts[MOST_PARTS + 1] = {rung_word(RUNG_ALL)};
    uint32_t count = between(2, MOST_PARTS + 1);
    for (uint32_t i = 1; i < count; i++)
        parts[i] = program(depth - 1, bits);
    return tree_list(count, parts, false);
}

/* ---- near the limits ---- */

static const Tree *tower(uint32_t height, const Bits *bits)
{
    if (height == 0)
        return program(0, bits);
    Bits inner = {.name = any_name(), .outer = bits};
    const Tree *body = tower(height - 1, &inner);
    return apply1(make_function(draft_memory, inner.name, body), number(below(2)));
}

/* Nearly 256 bits, or one or two more, in towers side by side. */
static const Tree *many_bits(void)
{
    const Tree *parts[MOST_BITS + 4] = {rung_word(RUNG_ALL)};
    uint32_t left = between(MOST_BITS - 2, MOST_BITS + 2), count = 1, highest = between(1, 20);
    while (left > 0) {
        uint32_t height = between(1, highest < left ? highest : left);
        parts[count++] = tower(height, NULL);
        left -= height;
    }
    return tree_list(count, parts, false);
}

static const Tree *deep_expression(const Tree *inner, uint32_t levels, const Bits *bits)
{
    for (uint32_t i = 0; i < levels; i++) {
        const Tree *beside = expression(0, bits);
        uint32_t word = below(RUNG_NOT + 1);
        if (word == RUNG_NOT)
            inner = apply1(rung_word(word), inner);
        else
            inner = percent(50) ? apply2(rung_word(word), inner, beside)
                                : apply2(rung_word(word), beside, inner);
    }
    return inner;
}

static const Tree *deep_all(const Tree *inner, uint32_t levels)
{
    for (uint32_t i = 0; i < levels; i++)
        inner = percent(60) ? apply1(rung_word(RUNG_ALL), inner)
                            : apply2(rung_word(RUNG_ALL), inner, rung(0, NULL));
    return inner;
}

/* A program whose deepest part is near level 64. */
static const Tree *deep_program(void)
{
    uint32_t levels = MOST_NESTING - below(4) + below(3), above = below(levels);
    switch (below(3)) {
    case 0: {
        const Tree *deep = deep_expression(expression(0, NULL), levels - above, NULL);
        return deep_all(apply2(rung_word(RUNG_OUT), point_to_drive(), deep),
                        above > 2 ? above - 2 : 0);
    }
    case 1:
        return deep_all(program(0, NULL), levels - 2);
    default:
        return tower(levels / 2 - below(3), NULL);
    }
}

/* Many rungs in one `all`, which drive many points. */
static const Tree *wide_program(void)
{
    enum { MOST_RUNGS = 200 };
    const Tree *parts[MOST_RUNGS + 1] = {rung_word(RUNG_ALL)};
    uint32_t count = between(2, percent(20) ? MOST_RUNGS + 1 : 20);
    Bits bits = {.name = any_name(), .outer = NULL};
    for (uint32_t i = 1; i < count; i++)
        parts[i] = rung(1, &bits);
    const Tree *function = make_function(draft_memory, bits.name, tree_list(count, parts, false));
    return apply1(function, number(below(2)));
}

static const Tree *any_panel(void)
{
    if (percent(6))
        return many_bits();
    if (percent(8))
        return deep_program();
    if (percent(6))
        return wide_program();
    return program((int)between(0, 6), NULL);
}

static void finish_panel(Draft *draft)
{
    next_name = CORE_NAMES + draft_image.word_count;
    memset(driven, 0, sizeof driven);
    draft_image.tree = any_panel();
    if (draft_image.names < next_name)
        draft_image.names = next_name;
    finish_draft(draft);
}

void draft_panel(Memory *memory, Draft *draft)
{
    start_draft(memory, TREE_IMAGE, between(0, 3));
    choose_counts();
    names_differ = percent(60);
    drives_again = percent(25);
    is_open = percent(8);
    until_break = percent(30) ? between(1, percent(80) ? 12 : 300) : 0;
    finish_panel(draft);
}

void draft_ladder(Memory *memory, Draft *draft)
{
    start_draft(memory, TREE_IMAGE, 0);
    names_differ = percent(50);
    drives_again = is_open = false;
    until_break = 0;
    finish_panel(draft);
}
