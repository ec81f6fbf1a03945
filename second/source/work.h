/* The work of one job: what may be spent, what was spent, and the rules.

   Every rule answers NULL or false when it refuses; the code is then in the
   work, and nothing more is charged. */
#ifndef WORK_H
#define WORK_H

#include <stdbool.h>
#include <stdint.h>

#include "image.h"

typedef struct {
    uint32_t budget;
    uint32_t units;   /* charged so far, never over the budget */
    uint32_t entries; /* in progress */
    Code code;        /* SUCCESS until something is refused */
    uint32_t first, second; /* with 6: the places of two bindings that compete, from 1 */
    uint32_t local;   /* how often primitives 7 to 9 gave something */
    ScopeSet prunable; /* in the expansion under way */
    ScopeSet uses;     /* the use scopes of the macro uses in it */
    Image *image;     /* names, scopes and bindings grow here */
    Memory *memory;
} Work;

/* Refusing; NULL, so that a rule can return it. */
void *refuse(Work *work, Code code);

/* Charges units, or refuses with 19 and charges nothing. */
bool charge(Work *work, uint32_t units);

/* An entry: 18 is tested, then 1 is charged. */
bool enter(Work *work);
void leave(Work *work);

/* The piece just made, or NULL with 17 when it is nested too deep. */
const Object *made_object(Work *work, const Object *object);
const Tree *made_tree(Work *work, const Tree *tree);

/* What an identifier names at a phase, or 6 and who competes. */
bool resolve(Work *work, const Object *identifier, uint32_t phase, uint32_t *name);

/* ---- scopes over a whole piece ---- */

typedef enum { ADD, FLIP, PRUNE } ScopeChange;

/* Charged the object's size; then every part of it is reached. */
const Object *change_scopes(Work *work, ScopeChange change, const Object *object, uint32_t phase,
                            ScopeSet scopes);

/* ---- shapes that expand and parse ask for ---- */

bool is_identifier(const Object *object);
bool is_lambda_shape(const Object *form);     /* (lambda id body) */
bool is_let_syntax_shape(const Object *form); /* (let-syntax id rhs body) */
bool is_quoting_shape(const Object *form);    /* (quote d), (syntax s) */

/* ---- the rules; each call is an entry ---- */

/* What a name means while a text is expanded. Core forms are not listed: their
   names mean the same everywhere. */
typedef struct Meaning Meaning;
struct Meaning {
    uint32_t name;
    const Object *binder; /* of a variable, else NULL */
    const Tree *macro;    /* the value of a macro, else NULL */
    const Meaning *outer;
};

/* The meaning of a name that is no core form's, or NULL. */
const Meaning *meaning_of(const Meaning *meanings, uint32_t name);

/* Names that a local expansion leaves alone, whatever they mean. They stand beside
   the meanings, so that another local expansion has others. */
typedef struct Stop Stop;
struct Stop {
    uint32_t name;
    const Stop *others;
};

bool is_stop(const Stop *stops, uint32_t name);

/* The macro use that something is evaluated for: where it was met, and its
   introduction scope. */
typedef struct {
    uint32_t phase;
    uint32_t introduction;
    const Meaning *meanings;
    const Stop *stops;
} MacroUse;

/* What is expanded goes on in the expansion under way: its prunable set and its use
   scopes grow by those of the macro uses met, and stay so. */
const Object *expand(Work *work, const Object *object, uint32_t phase, const Meaning *meanings,
                     const Stop *stops);
const Tree *parse(Work *work, const Object *object, uint32_t phase);
/* The use is NULL in a right-hand side and in the job, where there is none. */
const Tree *evaluate(Work *work, const Tree *tree, const MacroUse *use);

/* ---- local expansion; their charge of 1 has been made ---- */

const Tree *local_value(Work *work, const MacroUse *use, const Tree *identifier);
const Tree *local_expand(Work *work, const MacroUse *use, const Tree *piece, const Tree *stops);
const Tree *local_binder(Work *work, const MacroUse *use, const Tree *identifier);

#endif
