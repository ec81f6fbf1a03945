/* An image: its words, counts, bindings and root; read from bytes and written. */
#ifndef IMAGE_H
#define IMAGE_H

#include <stdbool.h>
#include <stddef.h>
#include <stdint.h>

#include "pieces.h"

enum { SYNTAX_IMAGE = 1, TREE_IMAGE = 2 };

typedef struct {
    const uint8_t *bytes;
    uint32_t length;
} Word;

typedef struct {
    uint32_t symbol;
    uint32_t target;
    ScopeSet set;
} Binding;

typedef struct {
    uint32_t kind;
    uint32_t word_count;
    Word words[MOST_NAMES - CORE_NAMES];
    uint32_t names;  /* all names: core, words and made */
    uint32_t scopes; /* numbered 1 to this */
    uint32_t binding_count;
    Binding bindings[MOST_BINDINGS]; /* ascending by symbol and then set */
    const Object *object;            /* the root of a syntax image */
    const Tree *tree;                /* the root of a tree image */
} Image;

/* Reads a whole image of the wanted kind. The words stay in the bytes given.
   Anything but SUCCESS is the first fault from the front: 1, 2 or 4. */
Code read_image(Memory *memory, const uint8_t *bytes, size_t length, uint32_t wanted_kind,
                Image *image);

/* Reads a part as it would be read in an image with these counts, at a level,
   and in a list value where only_values is set. Its bytes have no head. */
Code read_part(Memory *memory, const uint8_t *bytes, size_t length, Image *counts, uint32_t level,
               bool only_values, const Tree **part);

/* Writes the image to at most room bytes, which may be half written when there
   is no room: then the answer is false. */
bool write_image(const Image *image, uint8_t *bytes, size_t room, size_t *length);

/* The same for a part, which has no head. */
bool write_part(const Tree *part, uint8_t *bytes, size_t room, size_t *length);

/* Negative, zero or positive: by symbol and then set. */
int compare_bindings(const Binding *left, const Binding *right);

#endif
