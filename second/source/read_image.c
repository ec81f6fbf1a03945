/* Reading an image from the front; the first fault decides. */
#include "image.h"
#include "words.h"

typedef struct {
    const uint8_t *bytes;
    size_t length;
    size_t place;
    Code fault; /* SUCCESS as long as none was met */
    Memory *memory;
    Image *image;
} Reader;

static bool fault(Reader *reader, Code code)
{
    reader->fault = code;
    return false;
}

/* ---- numbers ---- */

static bool read_number(Reader *reader, uint32_t *number)
{
    uint32_t value = 0;
    for (int group = 0;; group++) {
        if (reader->place == reader->length)
            return fault(reader, BAD_LAYOUT);
        uint8_t byte = reader->bytes[reader->place++];
        if (group == 4 && byte > 15)
            return fault(reader, OVER_LIMIT);
        value |= (uint32_t)(byte & 127) << (7 * group);
        if (byte < 128) {
            if (byte == 0 && group > 0)
                return fault(reader, BAD_LAYOUT); /* not the shortest form */
            *number = value;
            return true;
        }
    }
}

/* A number over the limit is code 2. */
static bool read_limited(Reader *reader, uint32_t limit, uint32_t *number)
{
    if (!read_number(reader, number))
        return false;
    if (*number > limit)
        return fault(reader, OVER_LIMIT);
    return true;
}

/* A number from declared on is undeclared: code 1. */
static bool read_declared(Reader *reader, uint32_t declared, uint32_t *number)
{
    if (!read_number(reader, number))
        return false;
    if (*number >= declared)
        return fault(reader, BAD_LAYOUT);
    return true;
}

static bool read_symbol(Reader *reader, uint32_t *symbol)
{
    return read_declared(reader, CORE_NAMES + reader->image->word_count, symbol);
}

static bool read_name(Reader *reader, uint32_t *name)
{
    return read_declared(reader, reader->image->names, name);
}

/* ---- words ---- */

static bool read_word(Reader *reader, uint32_t index)
{
    Image *image = reader->image;
    Word word;
    if (!read_number(reader, &word.length))
        return false;
    if (word.length == 0)
        return fault(reader, BAD_LAYOUT);
    if (word.length > LONGEST_WORD)
        return fault(reader, OVER_LIMIT);
    if (word.length > reader->length - reader->place)
        return fault(reader, BAD_LAYOUT);
    word.bytes = reader->bytes + reader->place;
    reader->place += word.length;
    if (!is_word(word) || core_name(word) < CORE_NAMES)
        return fault(reader, BAD_LAYOUT);
    for (uint32_t i = 0; i < index; i++)
        if (same_words(image->words[i], word))
            return fault(reader, BAD_LAYOUT);
    image->words[index] = word;
    return true;
}

static bool read_words_and_counts(Reader *reader)
{
    Image *image = reader->image;
    if (!read_limited(reader, MOST_NAMES - CORE_NAMES, &image->word_count))
        return false;
    for (uint32_t i = 0; i < image->word_count; i++)
        if (!read_word(reader, i))
            return false;
    uint32_t made;
    if (!read_limited(reader, MOST_NAMES - CORE_NAMES - image->word_count, &made))
        return false;
    image->names = CORE_NAMES + image->word_count + made;
    return read_limited(reader, MOST_SCOPES, &image->scopes);
}

/* ---- sets and bindings ---- */

/* The count is not judged by itself: the scopes that follow decide. */
static bool read_set(Reader *reader, ScopeSet *set)
{
    uint32_t count;
    if (!read_number(reader, &count))
        return false;
    *set = NO_SCOPES;
    uint32_t before = 0;
    for (uint32_t i = 0; i < count; i++) {
        uint32_t scope;
        if (!read_declared(reader, reader->image->scopes + 1, &scope))
            return false;
        if (scope <= before)
            return fault(reader, BAD_LAYOUT);
        put_scope(set, scope);
        before = scope;
    }
    return true;
}

static bool read_sets(Reader *reader, ScopeSet sets[PHASES])
{
    for (int phase = 0; phase < PHASES; phase++)
        if (!read_set(reader, &sets[phase]))
            return false;
    return true;
}

int compare_bindings(const Binding *left, const Binding *right)
{
    if (left->symbol != right->symbol)
        return left->symbol < right->symbol ? -1 : 1;
    return compare_sets(left->set, right->set);
}

static bool read_bindings(Reader *reader)
{
    Image *image = reader->image;
    if (!read_limited(reader, MOST_BINDINGS, &image->binding_count))
        return false;
    for (uint32_t i = 0; i < image->binding_count; i++) {
        Binding *binding = &image->bindings[i];
        if (!read_symbol(reader, &binding->symbol) || !read_name(reader, &binding->target) ||
            !read_set(reader, &binding->set))
            return false;
        if (i > 0 && compare_bindings(binding - 1, binding) >= 0)
            return fault(reader, BAD_LAYOUT);
    }
    return true;
}

/* ---- syntax objects ---- */

static bool read_atom_content(Reader *reader, Atom *atom)
{
    switch (atom->tag) {
    case SYMBOL:
        return read_symbol(reader, &atom->content);
    case NUMBER:
        return read_number(reader, &atom->content);
    case POINT:
        return read_limited(reader, LARGEST_POINT, &atom->content);
    case PRIMITIVE:
        return read_limited(reader, LARGEST_PRIMITIVE, &atom->content);
    case RUNG_WORD:
        return read_limited(reader, LARGEST_RUNG_WORD, &atom->content);
    case LIST:
        break;
    }
    return fault(reader, BAD_LAYOUT);
}

/* Room for the parts that can still follow. Each takes at least a byte, so
   with a larger count the image ends before the list does. */
static uint32_t parts_that_can_follow(const Reader *reader, uint32_t count)
{
    size_t left = reader->length - reader->place;
    return count < left ? count : (uint32_t)left;
}

static const Object *read_object(Reader *reader, uint32_t level)
{
    if (level > MOST_NESTING) {
        fault(reader, OVER_LIMIT);
        return NULL;
    }
    uint32_t tag;
    ScopeSet sets[PHASES];
    if (!read_declared(reader, LIST + 1, &tag) || !read_sets(reader, sets))
        return NULL;
    if (tag != LIST) {
        Atom atom = {.tag = (ObjectTag)tag};
        if (!read_atom_content(reader, &atom))
            return NULL;
        return make_atom_object(reader->memory, atom, sets);
    }
    uint32_t count;
    if (!read_number(reader, &count))
        return NULL;
    const Object **parts = take_object_parts(reader->memory, parts_that_can_follow(reader, count));
    for (uint32_t i = 0; i < count; i++) {
        const Object *part = read_object(reader, level + 1);
        if (part == NULL)
            return NULL;
        parts[i] = part;
    }
    return make_list_object(reader->memory, count, parts, sets);
}

/* ---- trees ---- */

static const Tree *read_tree(Reader *reader, uint32_t level, bool only_values);

static const Tree **read_tree_parts(Reader *reader, uint32_t level, uint32_t count,
                                    bool only_values)
{
    const Tree **parts = take_tree_parts(reader->memory, parts_that_can_follow(reader, count));
    for (uint32_t i = 0; i < count; i++) {
        const Tree *part = read_tree(reader, level + 1, only_values);
        if (part == NULL)
            return NULL;
        parts[i] = part;
    }
    return parts;
}

static const Tree *read_tree(Reader *reader, uint32_t level, bool only_values)
{
    if (level > MOST_NESTING) {
        fault(reader, OVER_LIMIT);
        return NULL;
    }
    uint32_t tag, name, count;
    if (!read_declared(reader, SYNTAX_VALUE + 1, &tag))
        return NULL;
    if (only_values && (tag == VARIABLE || tag == APPLICATION)) {
        fault(reader, BAD_LAYOUT);
        return NULL;
    }
    switch ((TreeTag)tag) {
    case VARIABLE:
        if (!read_name(reader, &name))
            return NULL;
        return make_variable(reader->memory, name);
    case FUNCTION: {
        if (!read_name(reader, &name))
            return NULL;
        const Tree *body = read_tree(reader, level + 1, false);
        if (body == NULL)
            return NULL;
        return make_function(reader->memory, name, body);
    }
    case ATOM: {
        uint32_t atom_tag;
        if (!read_declared(reader, LIST, &atom_tag))
            return NULL;
        Atom atom = {.tag = (ObjectTag)atom_tag};
        if (!read_atom_content(reader, &atom))
            return NULL;
        return make_atom(reader->memory, atom);
    }
    case SYNTAX_VALUE: {
        const Object *object = read_object(reader, level);
        if (object == NULL)
            return NULL;
        return make_syntax_value(reader->memory, object);
    }
    case APPLICATION:
    case LIST_VALUE: {
        if (!read_number(reader, &count))
            return NULL;
        if (tag == APPLICATION && count == 0) {
            fault(reader, BAD_LAYOUT);
            return NULL;
        }
        const Tree **parts = read_tree_parts(reader, level, count, tag == LIST_VALUE);
        if (parts == NULL)
            return NULL;
        return tag == APPLICATION ? make_application(reader->memory, count, parts)
                                  : make_list_value(reader->memory, count, parts);
    }
    }
    return NULL;
}

/* ---- the whole ---- */

/* The fault of what was read, or that bytes are left over. */
static Code whole(const Reader *reader)
{
    if (reader->fault != SUCCESS)
        return reader->fault;
    return reader->place == reader->length ? SUCCESS : BAD_LAYOUT;
}

Code read_image(Memory *memory, const uint8_t *bytes, size_t length, uint32_t wanted_kind,
                Image *image)
{
    Reader reader = {
        .bytes = bytes, .length = length, .fault = SUCCESS, .memory = memory, .image = image};
    image->binding_count = 0;
    image->object = NULL;
    image->tree = NULL;
    if (length > LONGEST_IMAGE)
        return OVER_LIMIT;
    if (!read_number(&reader, &image->kind))
        return reader.fault;
    if (image->kind != SYNTAX_IMAGE && image->kind != TREE_IMAGE)
        return BAD_LAYOUT;
    if (image->kind != wanted_kind)
        return WRONG_KIND;
    if (!read_words_and_counts(&reader))
        return reader.fault;
    if (image->kind == SYNTAX_IMAGE) {
        if (!read_bindings(&reader))
            return reader.fault;
        image->object = read_object(&reader, 1);
    } else {
        image->tree = read_tree(&reader, 1, false);
    }
    return whole(&reader);
}

Code read_part(Memory *memory, const uint8_t *bytes, size_t length, Image *counts, uint32_t level,
               bool only_values, const Tree **part)
{
    Reader reader = {
        .bytes = bytes, .length = length, .fault = SUCCESS, .memory = memory, .image = counts};
    if (length > LONGEST_IMAGE)
        return OVER_LIMIT;
    *part = read_tree(&reader, level, only_values);
    return whole(&reader);
}
