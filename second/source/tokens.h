/* The tokens of a text (request T-05). */
#ifndef TOKENS_H
#define TOKENS_H

#include "image.h"

typedef enum { OPENING, CLOSING, LEAF, NO_TOKEN } TokenKind;

typedef struct {
    TokenKind kind; /* NO_TOKEN is a run of bytes that means nothing */
    ObjectTag tag;  /* of a leaf */
    uint32_t content;
    bool is_over;   /* a limit of images is exceeded */
    Word word;      /* of a symbol, core words included */
    uint32_t parts; /* of an opening parenthesis, once they are counted */
} Token;

/* All tokens of a text, in order. */
typedef struct {
    size_t count;
    Token *tokens;
} Tokens;

Tokens cut_text(Memory *memory, const uint8_t *text, size_t length);

/* The rung words that have a name. */
enum { NAMED_RUNG_WORDS = 6 };
extern const char *const rung_word_names[NAMED_RUNG_WORDS];

#endif
