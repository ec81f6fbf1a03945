/* Syntax objects and trees: immutable, parts shared, sizes and nesting known.

   A piece is built once and never changed, so the same part may stand in many
   wholes. A piece of exponential size is therefore small in memory, and its
   size and nesting are kept with it instead of being counted again. */
#ifndef PIECES_H
#define PIECES_H

#include <stddef.h>
#include <stdint.h>

#include "limits.h"
#include "scope_set.h"

/* The memory of one call; all of it is given back at once. */
typedef struct Memory Memory;
Memory *new_memory(void);
void clear_memory(Memory *memory);
void free_memory(Memory *memory);
void *take_memory(Memory *memory, size_t bytes);

/* Object tags of the image. The first five are atoms. */
typedef enum { SYMBOL, NUMBER, POINT, PRIMITIVE, RUNG_WORD, LIST } ObjectTag;

typedef struct {
    ObjectTag tag; /* never LIST */
    uint32_t content;
} Atom;

typedef struct Object Object;
struct Object {
    ObjectTag tag;
    uint32_t content; /* of an atom */
    uint32_t count;   /* of a list */
    const Object *const *parts;
    ScopeSet sets[PHASES];
    uint32_t size; /* up to SIZE_CAP */
    uint32_t nesting;
};

/* Tree tags of the image. The last four are values. */
typedef enum { VARIABLE, APPLICATION, FUNCTION, ATOM, LIST_VALUE, SYNTAX_VALUE } TreeTag;

typedef struct Tree Tree;
struct Tree {
    TreeTag tag;
    uint32_t name;            /* of a variable or function */
    Atom atom;                /* of an atom */
    const Object *object;     /* of a syntax value */
    uint32_t count;           /* parts of an application or list value; 1 in a function */
    const Tree *const *parts; /* a function's only part is its body */
    uint32_t size;            /* a syntax value counts one; up to SIZE_CAP */
    uint32_t loading_size;    /* a syntax value counts as its object; up to SIZE_CAP */
    uint32_t nesting;
};

const Object *make_atom_object(Memory *memory, Atom atom, const ScopeSet sets[PHASES]);
const Object *make_list_object(Memory *memory, uint32_t count, const Object *const *parts,
                               const ScopeSet sets[PHASES]);

const Tree *make_variable(Memory *memory, uint32_t name);
const Tree *make_application(Memory *memory, uint32_t count, const Tree *const *parts);
const Tree *make_function(Memory *memory, uint32_t name, const Tree *body);
const Tree *make_atom(Memory *memory, Atom atom);
const Tree *make_list_value(Memory *memory, uint32_t count, const Tree *const *parts);
const Tree *make_syntax_value(Memory *memory, const Object *object);

const Object **take_object_parts(Memory *memory, uint32_t count);
const Tree **take_tree_parts(Memory *memory, uint32_t count);

#endif
