/* Where a bit is used (request T-10): the summary of a tree, and how it is
   brought up to date when a part of the tree is replaced.

   Places count from 0 the things that size counts, a whole before its parts,
   left to right. A syntax value is one thing, whatever it holds. */
#ifndef USES_H
#define USES_H

#include "image.h"

typedef struct {
    uint32_t count; /* variables with the name, outside syntax values */
    uint32_t first; /* the place of the first of them; 0 where there is none */
} Uses;

typedef struct {
    uint32_t size;  /* of the whole tree */
    uint32_t names; /* core, words and made */
    Uses uses[MOST_NAMES];
} Summary;

/* A summary as words is its size, its names and for each name count and first. */
static inline uint32_t summary_words(uint32_t names)
{
    return 2 + 2 * names;
}

void summarize(const Tree *tree, uint32_t names, Summary *summary);

/* Reads a lent summary of four bytes a word, low byte first. False where it is
   too short for the image, or belongs to a tree with another size or count of
   names. Its entries are taken as they are. */
bool read_summary(const uint8_t *bytes, size_t length, const Image *image, Summary *summary);

/* A part of a tree and where it stands. */
typedef struct {
    const Tree *tree;
    uint32_t place;
    uint32_t level;   /* 1 for the whole */
    bool only_values; /* it stands in a list value */
} Part;

/* False where the place is not below the size of the tree. */
bool find_part(const Tree *tree, uint32_t place, Part *part);

/* The tree with another part in the place of one that it has. */
const Tree *with_part(Memory *memory, const Tree *tree, const Tree *old, const Tree *new);

/* Brings the summary of a tree up to date, of which a part is replaced. */
void replace_in_summary(Summary *summary, const Tree *tree, const Part *old, const Tree *new);

#endif
