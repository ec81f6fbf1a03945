#include "pieces.h"

#include <stdio.h>
#include <stdlib.h>

/* ---- memory ---- */

/* Blocks are kept from call to call. Built with CAREFUL_MEMORY every piece has
   a block of its own, so that the sanitizers see a step outside it. */
typedef struct Block Block;
struct Block {
    Block *next;
    size_t room;
    size_t used;
    _Alignas(max_align_t) unsigned char bytes[];
};

struct Memory {
    Block *blocks;
};

enum { BLOCK_ROOM = 1 << 18 };

static Block *new_block(size_t room)
{
    Block *block = malloc(sizeof(Block) + room);
    if (block == NULL) {
        fprintf(stderr, "out of memory\n");
        exit(2);
    }
    block->next = NULL;
    block->room = room;
    block->used = 0;
    return block;
}

Memory *new_memory(void)
{
    Memory *memory = malloc(sizeof(Memory));
    if (memory == NULL) {
        fprintf(stderr, "out of memory\n");
        exit(2);
    }
    memory->blocks = NULL;
    return memory;
}

void clear_memory(Memory *memory)
{
    Block *kept = NULL;
    while (memory->blocks != NULL) {
        Block *block = memory->blocks;
        memory->blocks = block->next;
        if (kept == NULL && block->room == BLOCK_ROOM) {
            kept = block;
            kept->used = 0;
            kept->next = NULL;
        } else {
            free(block);
        }
    }
    memory->blocks = kept;
}

void free_memory(Memory *memory)
{
    while (memory->blocks != NULL) {
        Block *block = memory->blocks;
        memory->blocks = block->next;
        free(block);
    }
    free(memory);
}

void *take_memory(Memory *memory, size_t bytes)
{
    size_t aligned = (bytes + sizeof(max_align_t) - 1) / sizeof(max_align_t) * sizeof(max_align_t);
#ifdef CAREFUL_MEMORY
    Block *own = new_block(bytes);
    own->next = memory->blocks;
    memory->blocks = own;
    (void)aligned;
    return own->bytes;
#else
    if (memory->blocks == NULL || memory->blocks->room - memory->blocks->used < aligned) {
        Block *block = new_block(aligned > BLOCK_ROOM ? aligned : BLOCK_ROOM);
        block->next = memory->blocks;
        memory->blocks = block;
    }
    void *taken = memory->blocks->bytes + memory->blocks->used;
    memory->blocks->used += aligned;
    return taken;
#endif
}

const Object **take_object_parts(Memory *memory, uint32_t count)
{
    return take_memory(memory, (size_t)count * sizeof(const Object *));
}

const Tree **take_tree_parts(Memory *memory, uint32_t count)
{
    return take_memory(memory, (size_t)count * sizeof(const Tree *));
}

/* ---- sizes ---- */

static uint32_t add_sizes(uint32_t left, uint32_t right)
{
    uint32_t sum = left + right; /* neither is over SIZE_CAP */
    return sum < SIZE_CAP ? sum : SIZE_CAP;
}

static uint32_t larger(uint32_t left, uint32_t right)
{
    return left > right ? left : right;
}

/* ---- syntax objects ---- */

static Object *new_object(Memory *memory, ObjectTag tag, const ScopeSet sets[PHASES])
{
    Object *object = take_memory(memory, sizeof(Object));
    *object = (Object){.tag = tag, .size = 1, .nesting = 1};
    for (int phase = 0; phase < PHASES; phase++)
        object->sets[phase] = sets[phase];
    return object;
}

const Object *make_atom_object(Memory *memory, Atom atom, const ScopeSet sets[PHASES])
{
    Object *object = new_object(memory, atom.tag, sets);
    object->content = atom.content;
    return object;
}

const Object *make_list_object(Memory *memory, uint32_t count, const Object *const *parts,
                               const ScopeSet sets[PHASES])
{
    Object *object = new_object(memory, LIST, sets);
    object->count = count;
    object->parts = parts;
    for (uint32_t i = 0; i < count; i++) {
        object->size = add_sizes(object->size, parts[i]->size);
        object->nesting = larger(object->nesting, parts[i]->nesting + 1);
    }
    return object;
}

/* ---- trees ---- */

static Tree *new_tree(Memory *memory, TreeTag tag)
{
    Tree *tree = take_memory(memory, sizeof(Tree));
    *tree = (Tree){.tag = tag, .size = 1, .loading_size = 1, .nesting = 1};
    return tree;
}

static void set_parts(Tree *tree, uint32_t count, const Tree *const *parts)
{
    tree->count = count;
    tree->parts = parts;
    for (uint32_t i = 0; i < count; i++) {
        tree->size = add_sizes(tree->size, parts[i]->size);
        tree->loading_size = add_sizes(tree->loading_size, parts[i]->loading_size);
        tree->nesting = larger(tree->nesting, parts[i]->nesting + 1);
    }
}

const Tree *make_variable(Memory *memory, uint32_t name)
{
    Tree *tree = new_tree(memory, VARIABLE);
    tree->name = name;
    return tree;
}

const Tree *make_application(Memory *memory, uint32_t count, const Tree *const *parts)
{
    Tree *tree = new_tree(memory, APPLICATION);
    set_parts(tree, count, parts);
    return tree;
}

const Tree *make_function(Memory *memory, uint32_t name, const Tree *body)
{
    Tree *tree = new_tree(memory, FUNCTION);
    const Tree **only = take_tree_parts(memory, 1);
    only[0] = body;
    tree->name = name;
    set_parts(tree, 1, only);
    return tree;
}

const Tree *make_atom(Memory *memory, Atom atom)
{
    Tree *tree = new_tree(memory, ATOM);
    tree->atom = atom;
    return tree;
}

const Tree *make_list_value(Memory *memory, uint32_t count, const Tree *const *parts)
{
    Tree *tree = new_tree(memory, LIST_VALUE);
    set_parts(tree, count, parts);
    return tree;
}

const Tree *make_syntax_value(Memory *memory, const Object *object)
{
    Tree *tree = new_tree(memory, SYNTAX_VALUE);
    tree->object = object;
    tree->loading_size = object->size;
    tree->nesting = object->nesting;
    return tree;
}
