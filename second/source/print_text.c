/* Printing an object as text: single spaces, no comments, no line end. */
#include <string.h>

#include "text.h"
#include "tokens.h"
#include "words.h"

typedef struct {
    const Image *image;
    uint8_t *text;
    size_t room;
    size_t length;
} Printer;

static bool print_bytes(Printer *printer, const void *bytes, size_t count)
{
    if (count > printer->room - printer->length)
        return false;
    memcpy(printer->text + printer->length, bytes, count);
    printer->length += count;
    return true;
}

static bool print_string(Printer *printer, const char *text)
{
    return print_bytes(printer, text, strlen(text));
}

static bool print_word(Printer *printer, Word word)
{
    return print_bytes(printer, word.bytes, word.length);
}

static bool print_number(Printer *printer, uint32_t number)
{
    char digits[10];
    size_t first = sizeof digits;
    do {
        digits[--first] = (char)('0' + number % 10);
        number /= 10;
    } while (number > 0);
    return print_bytes(printer, digits + first, sizeof digits - first);
}

static bool print_symbol(Printer *printer, uint32_t symbol)
{
    if (symbol < CORE_NAMES)
        return print_word(printer, core_word(symbol));
    return print_word(printer, printer->image->words[symbol - CORE_NAMES]);
}

static bool print_rung_word(Printer *printer, uint32_t word)
{
    if (!print_string(printer, "'"))
        return false;
    if (word < NAMED_RUNG_WORDS)
        return print_string(printer, rung_word_names[word]);
    return print_number(printer, word);
}

static bool print_object(Printer *printer, const Object *object);

static bool print_list(Printer *printer, const Object *list)
{
    if (!print_string(printer, "("))
        return false;
    for (uint32_t i = 0; i < list->count; i++) {
        if (i > 0 && !print_string(printer, " "))
            return false;
        if (!print_object(printer, list->parts[i]))
            return false;
    }
    return print_string(printer, ")");
}

static bool print_object(Printer *printer, const Object *object)
{
    switch (object->tag) {
    case SYMBOL:
        return print_symbol(printer, object->content);
    case NUMBER:
        return print_number(printer, object->content);
    case POINT:
        return print_string(printer, "@") && print_number(printer, object->content);
    case PRIMITIVE:
        return print_string(printer, "#") && print_number(printer, object->content);
    case RUNG_WORD:
        return print_rung_word(printer, object->content);
    case LIST:
        break;
    }
    return print_list(printer, object);
}

bool print_text(const Image *image, uint8_t *text, size_t room, size_t *length)
{
    Printer printer = {.image = image, .text = text, .room = room};
    bool fits = print_object(&printer, image->object);
    *length = printer.length;
    return fits;
}
