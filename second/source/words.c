#include "words.h"

#include <string.h>

static const char *const core_words[CORE_NAMES] = {
    "lambda",
    "let-syntax",
    "quote",
    "syntax",
};

bool same_words(Word left, Word right)
{
    return left.length == right.length && memcmp(left.bytes, right.bytes, left.length) == 0;
}

bool is_word(Word word)
{
    for (uint32_t i = 0; i < word.length; i++) {
        uint8_t byte = word.bytes[i];
        if (byte < 33 || byte > 126 || strchr("();'#", byte) != NULL)
            return false;
    }
    uint8_t first = word.bytes[0];
    return !(first >= '0' && first <= '9') && first != '@';
}

Word core_word(uint32_t name)
{
    const char *text = core_words[name];
    return (Word){.bytes = (const uint8_t *)text, .length = (uint32_t)strlen(text)};
}

uint32_t core_name(Word word)
{
    uint32_t name = 0;
    while (name < CORE_NAMES && !same_words(core_word(name), word))
        name++;
    return name;
}
