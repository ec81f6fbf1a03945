/* Text in, text out (request T-05). */
#ifndef TEXT_H
#define TEXT_H

#include "image.h"

/* Reads a text of any length into a syntax image with no scopes, words numbered
   as first met. The words stay in the text. Anything but SUCCESS is 26 or 27,
   the first from the front over the whole text, or else 2. */
Code read_text(Memory *memory, const uint8_t *text, size_t length, Image *image);

/* Writes the object of a syntax image as text to at most room bytes, which may
   be half written when there is no room: then the answer is false. */
bool print_text(const Image *image, uint8_t *text, size_t room, size_t *length);

#endif
