#include "uses.h"

#include <string.h>

/* ---- counting ---- */

/* Counts the variables from a place on. next is the place of the tree, and
   becomes the one behind it. */
static void count_from(const Tree *tree, uint32_t from, uint32_t *next, Uses uses[MOST_NAMES])
{
    uint32_t place = (*next)++;
    if (tree->tag == VARIABLE && place >= from && uses[tree->name].count++ == 0)
        uses[tree->name].first = place;
    for (uint32_t i = 0; i < tree->count; i++)
        count_from(tree->parts[i], from, next, uses);
}

/* The size of the tree. */
static uint32_t count_uses(const Tree *tree, uint32_t from, Uses uses[MOST_NAMES])
{
    uint32_t size = 0;
    memset(uses, 0, MOST_NAMES * sizeof *uses);
    count_from(tree, from, &size, uses);
    return size;
}

void summarize(const Tree *tree, uint32_t names, Summary *summary)
{
    summary->names = names;
    summary->size = count_uses(tree, 0, summary->uses);
}

/* ---- a lent summary ---- */

static uint32_t word_at(const uint8_t *bytes, uint32_t index)
{
    const uint8_t *word = bytes + BYTES_PER_WORD * (size_t)index;
    return word[0] | (uint32_t)word[1] << 8 | (uint32_t)word[2] << 16 | (uint32_t)word[3] << 24;
}

bool read_summary(const uint8_t *bytes, size_t length, const Image *image, Summary *summary)
{
    static Uses counted[MOST_NAMES];
    if (length / BYTES_PER_WORD < summary_words(image->names))
        return false;
    summary->size = word_at(bytes, 0);
    summary->names = word_at(bytes, 1);
    if (summary->size != count_uses(image->tree, 0, counted) || summary->names != image->names)
        return false;
    for (uint32_t name = 0; name < image->names; name++)
        summary->uses[name] = (Uses){word_at(bytes, 2 + 2 * name), word_at(bytes, 3 + 2 * name)};
    return true;
}

/* ---- parts ---- */

/* left counts down the places before the one that is looked for. */
static bool find_from(const Tree *tree, uint32_t level, bool only_values, uint32_t *left, Part *part)
{
    if (*left == 0) {
        part->tree = tree;
        part->level = level;
        part->only_values = only_values;
        return true;
    }
    --*left;
    for (uint32_t i = 0; i < tree->count; i++)
        if (find_from(tree->parts[i], level + 1, tree->tag == LIST_VALUE, left, part))
            return true;
    return false;
}

bool find_part(const Tree *tree, uint32_t place, Part *part)
{
    uint32_t left = place;
    part->place = place;
    return find_from(tree, 1, false, &left, part);
}

const Tree *with_part(Memory *memory, const Tree *tree, const Tree *old, const Tree *new)
{
    if (tree == old)
        return new;
    if (tree->count == 0)
        return tree;
    const Tree **parts = take_tree_parts(memory, tree->count);
    for (uint32_t i = 0; i < tree->count; i++)
        parts[i] = with_part(memory, tree->parts[i], old, new);
    switch (tree->tag) {
    case FUNCTION:
        return make_function(memory, tree->name, parts[0]);
    case APPLICATION:
        return make_application(memory, tree->count, parts);
    default:
        return make_list_value(memory, tree->count, parts);
    }
}

/* ---- bringing a summary up to date ---- */

typedef struct {
    uint32_t place;
    uint32_t old_size, new_size;
    Uses gone[MOST_NAMES];   /* in the old part, places from its own 0 */
    Uses come[MOST_NAMES];   /* in the new part, likewise */
    Uses behind[MOST_NAMES]; /* behind the old part, places of the old tree */
} Replacement;

/* A lent entry may be any number; what is more than a word stays the largest. */
static uint32_t in_a_word(uint64_t number)
{
    return number < UINT32_MAX ? (uint32_t)number : UINT32_MAX;
}

/* The place of something behind the old part, behind the new one. */
static uint32_t moved(const Replacement *made, uint32_t place)
{
    return in_a_word((uint64_t)place - made->old_size + made->new_size);
}

/* The first place of a name that is used in the new tree. */
static uint32_t first_after(const Replacement *made, uint32_t name, Uses before)
{
    if (before.count > 0 && before.first < made->place)
        return before.first;
    if (made->come[name].count > 0)
        return made->place + made->come[name].first;
    if (before.first >= made->place + made->old_size)
        return moved(made, before.first);
    return made->behind[name].count > 0 ? moved(made, made->behind[name].first) : 0;
}

static Uses uses_after(const Replacement *made, uint32_t name, Uses before)
{
    uint32_t gone = made->gone[name].count, come = made->come[name].count;
    uint64_t kept = before.count > gone ? before.count - gone : 0;
    uint32_t count = in_a_word(kept + come);
    return (Uses){count, count > 0 ? first_after(made, name, before) : 0};
}

void replace_in_summary(Summary *summary, const Tree *tree, const Part *old, const Tree *new)
{
    static Replacement made;
    made.place = old->place;
    made.old_size = count_uses(old->tree, 0, made.gone);
    made.new_size = count_uses(new, 0, made.come);
    count_uses(tree, old->place + made.old_size, made.behind);
    summary->size = summary->size - made.old_size + made.new_size;
    for (uint32_t name = 0; name < summary->names; name++)
        summary->uses[name] = uses_after(&made, name, summary->uses[name]);
}
