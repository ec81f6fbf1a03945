/* What drafts of syntax, of trees and of panel programs have in common. */
#ifndef DRAFT_PARTS_H
#define DRAFT_PARTS_H

#include "drafts.h"

/* The image at hand and the memory its pieces are in. */
extern Image draft_image;
extern Memory *draft_memory;

/* Starts an image with so many words, some of which may be the same. */
void start_draft(Memory *memory, uint32_t kind, uint32_t words);

/* Counts of names and scopes, now and then near their limits. */
void choose_counts(void);

/* Writes the image at hand. */
void finish_draft(Draft *draft);

/* Parts of syntax, without scopes. */
const Object *atom(ObjectTag tag, uint32_t content);
const Object *symbol(uint32_t number);
const Object *primitive(uint32_t number);
const Object *list_of(uint32_t count, const Object *const *given);
const Object *list1(const Object *a);
const Object *list2(const Object *a, const Object *b);
const Object *list3(const Object *a, const Object *b, const Object *c);
const Object *list4(const Object *a, const Object *b, const Object *c, const Object *d);
const Object *lambda(uint32_t word, const Object *body);
const Object *lambda_of(const Object *binder, const Object *body);
const Object *let_syntax(uint32_t word, const Object *value, const Object *body);
const Object *quote(const Object *object);
const Object *syntax(const Object *object);
const Object *notation(const char *text);
const Object *any_atom(void);
const Object *any_object(int depth);

/* One of the primitives that drafts have. */
uint32_t any_primitive(void);

/* The words that mean something where a piece of program is made. */
typedef struct Known Known;
struct Known {
    uint32_t word;
    bool is_macro;
    const Known *outer;
};

const Known *some_known(const Known *known, bool is_macro); /* or NULL */
const Object *some_program(int depth, const Known *known);
const Object *macro_use(int depth, const Known *known, uint32_t word);
const Object *right_hand_side(int depth, const Known *known);

/* Code one phase up, for a macro whose form has this word: what takes an argument of
   the use, from 0, and what builds a template with holes. */
const Object *argument_code(uint32_t form, uint32_t argument);
const Object *template_of(int depth, const Known *known, uint32_t holes);
const Object *template_code(const Object *template, uint32_t form);

/* Gives a program counts and, now and then, scopes and bindings, and writes it. */
void finish_program(const Object *root, Draft *draft);

/* A word of the image, now and then a core word. */
uint32_t any_word(void);

/* Puts a binding in order, but where it is there already or no room is left. */
void add_binding(Binding binding);

/* The object with scopes of the image in some of its sets. */
const Object *sprinkle(const Object *object, uint32_t of_hundred);

/* Parts of trees; a list value is made where is_value is set, else an application. */
const Tree *tree_atom(ObjectTag tag, uint32_t content);
const Tree *tree_list(uint32_t count, const Tree *const *given, bool is_value);
const Tree *apply1(const Tree *head, const Tree *a);
const Tree *apply2(const Tree *head, const Tree *a, const Tree *b);
const Tree *any_syntax(void);

#endif
