/* The words of images and texts. */
#ifndef WORDS_H
#define WORDS_H

#include "image.h"

bool same_words(Word left, Word right);

/* Whether the bytes may stand in a word and the first one may begin it. The
   length is not judged; there is at least one byte. */
bool is_word(Word word);

/* The name of a core form from its word, or CORE_NAMES where it is none of
   them; and the other way round. */
uint32_t core_name(Word word);
Word core_word(uint32_t name);

#endif
