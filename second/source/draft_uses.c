/* Drafts for where a bit is used: trees full of variables, summaries of them,
   and parts to put in the place of others. Most are good; some summaries have
   entries that were invented, and some parts one fault. */
#include <string.h>

#include "chance.h"
#include "draft_parts.h"

enum { MOST_PARTS = 5, FEW_NAMES = 7 };

/* ---- trees ---- */

static const Tree *contacts(int depth);
static const Tree *value(int depth);

/* A few names come again and again, and others now and then. */
static uint32_t any_name(void)
{
    uint32_t names = draft_image.names < FEW_NAMES ? draft_image.names : FEW_NAMES;
    return percent(95) ? below(names) : below(draft_image.names);
}

static const Tree *variable(void)
{
    return make_variable(draft_memory, any_name());
}

static const Tree *list(int depth, bool is_value)
{
    const Tree *parts[MOST_PARTS];
    uint32_t count = is_value ? below(MOST_PARTS + 1) : between(1, MOST_PARTS);
    for (uint32_t i = 0; i < count; i++)
        parts[i] = is_value ? value(depth - 1) : contacts(depth - 1);
    return tree_list(count, parts, is_value);
}

static const Tree *atom_of_tree(void)
{
    const Object *chosen = any_atom();
    return tree_atom(chosen->tag, chosen->content);
}

static const Tree *value(int depth)
{
    uint32_t choice = below(100);
    if (choice < 35 || depth <= 0)
        return atom_of_tree();
    if (choice < 50)
        return any_syntax();
    if (choice < 75)
        return list(depth, true);
    return make_function(draft_memory, any_name(), contacts(depth - 1));
}

static const Tree *contacts(int depth)
{
    uint32_t choice = below(100);
    if (choice < (depth <= 0 ? 75 : 30))
        return variable();
    if (choice < 70 && depth > 0)
        return list(depth, false);
    return value(depth);
}

/* So many wholes around a variable, or around an atom where a value is wanted. */
static const Tree *deep(uint32_t times, bool is_value)
{
    const Tree *inner = is_value ? atom_of_tree() : variable();
    for (; times > 0; times--)
        inner = percent(30) ? make_function(draft_memory, any_name(), inner) : tree_list(1, &inner, is_value);
    return inner;
}

/* An application of very many small parts. */
static const Tree *wide(uint32_t count)
{
    const Tree **parts = take_tree_parts(draft_memory, count);
    for (uint32_t i = 0; i < count; i++)
        parts[i] = percent(80) ? variable() : contacts(1);
    return make_application(draft_memory, count, parts);
}

void draft_contacts(Memory *memory, Draft *draft)
{
    start_draft(memory, TREE_IMAGE, between(0, 3));
    choose_counts();
    uint32_t choice = below(1000);
    if (choice < 5)
        draft_image.tree = wide(between(20000, 32760));
    else if (choice < 30)
        draft_image.tree = wide(between(30, 900));
    else if (choice < 80)
        draft_image.tree = deep(between(50, 64), percent(50));
    else
        draft_image.tree = contacts((int)between(0, 6));
    finish_draft(draft);
}

/* ---- summaries ---- */

static void put_word(Draft *draft, uint32_t word)
{
    for (int byte = 0; byte < BYTES_PER_WORD; byte++)
        draft->bytes[draft->length++] = (uint8_t)(word >> (8 * byte));
}

static uint32_t invented(uint32_t size)
{
    if (percent(70))
        return below(size + 4);
    return percent(50) ? UINT32_MAX - below(4) : (uint32_t)next_chance();
}

/* Some entries become what they are not. */
static void invent_entries(Summary *summary)
{
    for (uint32_t name = 0; name < summary->names; name++) {
        if (percent(60))
            summary->uses[name].count = percent(30) ? 0 : invented(summary->size);
        if (percent(60))
            summary->uses[name].first = invented(summary->size);
    }
}

/* Size or names beside what they are. */
static void mistake_head(Summary *summary)
{
    uint32_t *chosen = percent(50) ? &summary->size : &summary->names;
    *chosen = percent(80) ? *chosen + 2 * below(2) - 1 : (uint32_t)next_chance();
}

void put_summary(const Summary *summary, uint32_t names, Draft *draft)
{
    draft->length = 0;
    put_word(draft, summary->size);
    put_word(draft, summary->names);
    for (uint32_t name = 0; name < names; name++) {
        put_word(draft, summary->uses[name].count);
        put_word(draft, summary->uses[name].first);
    }
}

/* Too short, or with more behind. */
static void move_end(Draft *draft)
{
    if (percent(50)) {
        draft->length -= percent(70) ? between(1, BYTES_PER_WORD) : below((uint32_t)draft->length + 1);
        return;
    }
    for (uint32_t bytes = between(1, 20); bytes > 0; bytes--)
        draft->bytes[draft->length++] = (uint8_t)next_chance();
}

void draft_summary(const Image *image, Draft *draft)
{
    static Summary summary;
    uint32_t choice = below(100);
    summarize(image->tree, image->names, &summary);
    if (choice < 15)
        invent_entries(&summary);
    else if (choice < 20)
        mistake_head(&summary);
    put_summary(&summary, image->names, draft);
    if (choice >= 20 && choice < 28)
        move_end(draft);
}

/* ---- names and places ---- */

static uint32_t size_of(const Image *image)
{
    static Summary summary;
    summarize(image->tree, image->names, &summary);
    return summary.size;
}

/* Below the end, or not far from it, or anywhere. */
static uint32_t below_or_beside(uint32_t end)
{
    if (percent(90))
        return below(end);
    return percent(80) ? end + below(2) : (uint32_t)next_chance();
}

uint32_t draft_name(const Image *image)
{
    return below_or_beside(percent(70) && image->names > FEW_NAMES ? FEW_NAMES : image->names);
}

uint32_t draft_place(const Image *image)
{
    return below_or_beside(size_of(image));
}

/* ---- parts ---- */

/* The part that stands at some place of the tree. */
static const Tree *part_of(const Image *image)
{
    Part part;
    find_part(image->tree, below(size_of(image)), &part);
    return part.tree;
}

static const Tree *any_part(const Image *image, const Part *old)
{
    uint32_t choice = below(100);
    uint32_t room = MOST_NESTING - old->level; /* levels below the place */
    if (choice < 20)
        return part_of(image);
    if (choice < 30)
        return deep(room + below(3) - (room > 0), old->only_values);
    if (choice < 32)
        return wide(between(1, 3000));
    return old->only_values ? value((int)below(4)) : contacts((int)below(5));
}

/* The names and scopes of the image, from which parts are made. */
static void take_counts(Memory *memory, const Image *image)
{
    draft_memory = memory;
    draft_image.word_count = image->word_count;
    draft_image.names = image->names;
    draft_image.scopes = image->scopes;
}

/* One name or scope more than there are. */
static void overdraw(void)
{
    if (percent(50) && draft_image.scopes < MOST_SCOPES)
        draft_image.scopes++;
    else if (draft_image.names < MOST_NAMES)
        draft_image.names++;
}

void draft_part(Memory *memory, const Image *image, uint32_t place, Draft *draft)
{
    static Draft none;
    Part old;
    if (!find_part(image->tree, place, &old))
        find_part(image->tree, 0, &old);
    take_counts(memory, image);
    if (percent(3))
        overdraw();
    const Tree *part = any_part(image, &old);
    if (!write_part(part, draft->bytes, DRAFT_ROOM, &draft->length))
        draft->length = 0;
    if (percent(6))
        damage_draft(draft, &none);
    else if (percent(3) && draft->length < DRAFT_ROOM)
        draft->bytes[draft->length++] = (uint8_t)below(5);
}
