/* Writing an image. The writer stops as soon as there is no room left, so it
   never walks through more parts than it has room for bytes. */
#include <string.h>

#include "image.h"

typedef struct {
    uint8_t *bytes;
    size_t room;
    size_t length;
} Writer;

static bool write_byte(Writer *writer, uint8_t byte)
{
    if (writer->length == writer->room)
        return false;
    writer->bytes[writer->length++] = byte;
    return true;
}

static bool write_number(Writer *writer, uint32_t number)
{
    while (number > 127) {
        if (!write_byte(writer, (uint8_t)(128 | (number & 127))))
            return false;
        number >>= 7;
    }
    return write_byte(writer, (uint8_t)number);
}

static bool write_word(Writer *writer, Word word)
{
    if (!write_number(writer, word.length))
        return false;
    for (uint32_t i = 0; i < word.length; i++)
        if (!write_byte(writer, word.bytes[i]))
            return false;
    return true;
}

static bool write_set(Writer *writer, ScopeSet set)
{
    if (!write_number(writer, count_scopes(set)))
        return false;
    for (uint32_t i = 0; i < SET_WORDS; i++) {
        uint32_t scope = i * WORD_BITS + 1;
        for (uint64_t left = set.words[i]; left != 0; left >>= 1, scope++)
            if ((left & 1) != 0 && !write_number(writer, scope))
                return false;
    }
    return true;
}

static bool write_object(Writer *writer, const Object *object)
{
    if (!write_number(writer, object->tag))
        return false;
    for (int phase = 0; phase < PHASES; phase++)
        if (!write_set(writer, object->sets[phase]))
            return false;
    if (object->tag != LIST)
        return write_number(writer, object->content);
    if (!write_number(writer, object->count))
        return false;
    for (uint32_t i = 0; i < object->count; i++)
        if (!write_object(writer, object->parts[i]))
            return false;
    return true;
}

static bool write_tree(Writer *writer, const Tree *tree)
{
    if (!write_number(writer, tree->tag))
        return false;
    switch (tree->tag) {
    case VARIABLE:
        return write_number(writer, tree->name);
    case FUNCTION:
        return write_number(writer, tree->name) && write_tree(writer, tree->parts[0]);
    case ATOM:
        return write_number(writer, tree->atom.tag) && write_number(writer, tree->atom.content);
    case SYNTAX_VALUE:
        return write_object(writer, tree->object);
    case APPLICATION:
    case LIST_VALUE:
        break;
    }
    if (!write_number(writer, tree->count))
        return false;
    for (uint32_t i = 0; i < tree->count; i++)
        if (!write_tree(writer, tree->parts[i]))
            return false;
    return true;
}

static bool write_words_and_counts(Writer *writer, const Image *image)
{
    if (!write_number(writer, image->word_count))
        return false;
    for (uint32_t i = 0; i < image->word_count; i++)
        if (!write_word(writer, image->words[i]))
            return false;
    return write_number(writer, image->names - CORE_NAMES - image->word_count) &&
           write_number(writer, image->scopes);
}

static bool write_bindings(Writer *writer, const Image *image)
{
    if (!write_number(writer, image->binding_count))
        return false;
    for (uint32_t i = 0; i < image->binding_count; i++) {
        const Binding *binding = &image->bindings[i];
        if (!write_number(writer, binding->symbol) || !write_number(writer, binding->target) ||
            !write_set(writer, binding->set))
            return false;
    }
    return true;
}

bool write_image(const Image *image, uint8_t *bytes, size_t room, size_t *length)
{
    Writer writer = {.bytes = bytes, .room = room};
    if (!write_number(&writer, image->kind) || !write_words_and_counts(&writer, image))
        return false;
    if (image->kind == SYNTAX_IMAGE) {
        if (!write_bindings(&writer, image) || !write_object(&writer, image->object))
            return false;
    } else if (!write_tree(&writer, image->tree)) {
        return false;
    }
    *length = writer.length;
    return true;
}

bool write_part(const Tree *part, uint8_t *bytes, size_t room, size_t *length)
{
    Writer writer = {.bytes = bytes, .room = room};
    bool fits = write_tree(&writer, part);
    *length = writer.length;
    return fits;
}
