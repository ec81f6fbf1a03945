/* Expanding a syntax object at a phase. */
#include "work.h"

/* ---- scopes over a whole piece ---- */

static ScopeSet change_set(ScopeChange change, ScopeSet set, ScopeSet scopes)
{
    switch (change) {
    case ADD:
        return add_scopes(set, scopes);
    case FLIP:
        return flip_scopes(set, scopes);
    default:
        return prune_scopes(set, scopes);
    }
}

static const Object *change_parts(Work *work, ScopeChange change, const Object *object, uint32_t phase,
                                  ScopeSet scopes)
{
    ScopeSet sets[PHASES] = {object->sets[0], object->sets[1], object->sets[2]};
    sets[phase] = change_set(change, sets[phase], scopes);
    if (object->tag != LIST)
        return make_atom_object(work->memory, (Atom){object->tag, object->content}, sets);
    const Object **parts = take_object_parts(work->memory, object->count);
    for (uint32_t i = 0; i < object->count; i++)
        parts[i] = change_parts(work, change, object->parts[i], phase, scopes);
    return make_list_object(work->memory, object->count, parts, sets);
}

const Object *change_scopes(Work *work, ScopeChange change, const Object *object, uint32_t phase,
                            ScopeSet scopes)
{
    if (!charge(work, object->size))
        return NULL;
    return change_parts(work, change, object, phase, scopes);
}

/* ---- fresh names, fresh scopes, bindings ---- */

static bool fresh_name(Work *work, uint32_t *name)
{
    if (work->image->names == MOST_NAMES) {
        refuse(work, NO_NAME_ROOM);
        return false;
    }
    *name = work->image->names++;
    return true;
}

static bool fresh_scope(Work *work, uint32_t *scope)
{
    if (work->image->scopes == MOST_SCOPES) {
        refuse(work, NO_SCOPE_ROOM);
        return false;
    }
    *scope = ++work->image->scopes;
    return true;
}

/* The bindings stay ascending. None is the same as the new one: its set holds
   a scope just made, which neither the image's own bindings have nor those made
   before it. */
static bool bind(Work *work, Binding binding)
{
    Image *image = work->image;
    if (image->binding_count == MOST_BINDINGS) {
        refuse(work, NO_BINDING_ROOM);
        return false;
    }
    uint32_t place = image->binding_count;
    while (place > 0 && compare_bindings(&image->bindings[place - 1], &binding) > 0)
        place--;
    for (uint32_t i = image->binding_count; i > place; i--)
        image->bindings[i] = image->bindings[i - 1];
    image->bindings[place] = binding;
    image->binding_count++;
    return true;
}

/* ---- core forms ---- */

/* What lambda and let-syntax have in common: a new name for the binder. */
typedef struct {
    uint32_t name;
    uint32_t scope;
    const Object *identifier; /* the binder with the new scope */
} Binder;

static bool new_binder(Work *work, const Object *identifier, uint32_t phase, Binder *binder)
{
    if (!fresh_name(work, &binder->name) || !fresh_scope(work, &binder->scope))
        return false;
    binder->identifier = change_scopes(work, ADD, identifier, phase, only_scope(binder->scope));
    if (binder->identifier == NULL)
        return false;
    return bind(work, (Binding){.symbol = identifier->content,
                                .target = binder->name,
                                .set = binder->identifier->sets[phase]});
}

/* An expansion of its own, of a part, a body or a right-hand side: it starts with a
   prunable set and without use scopes, and what both become in it is forgotten. */
static const Object *expand_inside(Work *work, const Object *object, uint32_t phase,
                                   const Meaning *meanings, const Stop *stops, ScopeSet prunable)
{
    ScopeSet prunable_before = work->prunable, uses_before = work->uses;
    work->prunable = prunable;
    work->uses = NO_SCOPES;
    const Object *result = expand(work, object, phase, meanings, stops);
    work->prunable = prunable_before;
    work->uses = uses_before;
    return result;
}

/* The body gets the binder's scope, which is prunable in it. */
static const Object *expand_body(Work *work, const Object *body, uint32_t phase, uint32_t scope,
                                 const Meaning *meanings, const Stop *stops)
{
    const Object *scoped = change_scopes(work, ADD, body, phase, only_scope(scope));
    if (scoped == NULL)
        return NULL;
    return expand_inside(work, scoped, phase, meanings, stops,
                         add_scopes(work->prunable, only_scope(scope)));
}

static const Object *expand_lambda(Work *work, const Object *form, uint32_t phase,
                                   const Meaning *meanings, const Stop *stops)
{
    if (!is_lambda_shape(form))
        return refuse(work, NO_RULE);
    Binder binder;
    if (!new_binder(work, form->parts[1], phase, &binder))
        return NULL;
    Meaning variable = {.name = binder.name, .binder = binder.identifier, .outer = meanings};
    const Object *body =
        expand_body(work, form->parts[2], phase, binder.scope, &variable, stops);
    if (body == NULL)
        return NULL;
    const Object **parts = take_object_parts(work->memory, 3);
    parts[0] = form->parts[0];
    parts[1] = binder.identifier;
    parts[2] = body;
    return made_object(work, make_list_object(work->memory, 3, parts, form->sets));
}

/* The value of a right-hand side: expanded, parsed and evaluated one phase up,
   where only the core forms have a meaning and nothing is stopped. */
static const Tree *macro_value(Work *work, const Object *right_hand_side, uint32_t phase)
{
    if (phase + 1 > LAST_PHASE)
        return refuse(work, PHASE_OVER);
    const Object *expanded =
        expand_inside(work, right_hand_side, phase + 1, NULL, NULL, NO_SCOPES);
    if (expanded == NULL)
        return NULL;
    const Tree *tree = parse(work, expanded, phase + 1);
    if (tree == NULL)
        return NULL;
    return evaluate(work, tree, NULL);
}

static const Object *expand_let_syntax(Work *work, const Object *form, uint32_t phase,
                                       const Meaning *meanings, const Stop *stops)
{
    if (!is_let_syntax_shape(form))
        return refuse(work, NO_RULE);
    Binder binder;
    if (!new_binder(work, form->parts[1], phase, &binder))
        return NULL;
    const Tree *value = macro_value(work, form->parts[2], phase);
    if (value == NULL)
        return NULL;
    Meaning macro = {.name = binder.name, .macro = value, .outer = meanings};
    return expand_body(work, form->parts[3], phase, binder.scope, &macro, stops);
}

static const Object *expand_quote(Work *work, const Object *form)
{
    if (!is_quoting_shape(form))
        return refuse(work, NO_RULE);
    return form;
}

static const Object *expand_syntax(Work *work, const Object *form, uint32_t phase)
{
    if (!is_quoting_shape(form))
        return refuse(work, NO_RULE);
    const Object **parts = take_object_parts(work->memory, 2);
    parts[0] = form->parts[0];
    parts[1] = change_scopes(work, PRUNE, form->parts[1], phase, work->prunable);
    if (parts[1] == NULL)
        return NULL;
    return made_object(work, make_list_object(work->memory, 2, parts, form->sets));
}

/* ---- macro uses ---- */

static const Object *expand_macro_use(Work *work, const Object *form, const Tree *macro,
                                      uint32_t phase, const Meaning *meanings, const Stop *stops)
{
    uint32_t use, introduction;
    if (!fresh_scope(work, &use) || !fresh_scope(work, &introduction))
        return NULL;
    const Object *used = change_scopes(work, ADD, form, phase, only_scope(use));
    if (used == NULL)
        return NULL;
    const Object *flipped = change_scopes(work, FLIP, used, phase, only_scope(introduction));
    if (flipped == NULL)
        return NULL;
    const Tree **parts = take_tree_parts(work->memory, 2);
    parts[0] = macro;
    parts[1] = make_syntax_value(work->memory, flipped);
    /* The use scope is prunable from here on, also in what the use becomes, and
       is one of those that an identifier fit to bind goes without. */
    put_scope(&work->prunable, use);
    put_scope(&work->uses, use);
    MacroUse here = {phase, introduction, meanings, stops};
    /* This application is not tested for 17. */
    const Tree *value = evaluate(work, make_application(work->memory, 2, parts), &here);
    if (value == NULL)
        return NULL;
    if (value->tag != SYNTAX_VALUE)
        return refuse(work, NO_SYNTAX_OBJECT);
    const Object *result =
        change_scopes(work, FLIP, value->object, phase, only_scope(introduction));
    if (result == NULL)
        return NULL;
    return expand(work, result, phase, meanings, stops);
}

/* ---- everything ---- */

const Meaning *meaning_of(const Meaning *meanings, uint32_t name)
{
    while (meanings != NULL && meanings->name != name)
        meanings = meanings->outer;
    return meanings;
}

bool is_stop(const Stop *stops, uint32_t name)
{
    while (stops != NULL && stops->name != name)
        stops = stops->others;
    return stops != NULL;
}

static const Object *expand_identifier(Work *work, const Object *identifier, uint32_t phase,
                                       const Meaning *meanings, const Stop *stops)
{
    uint32_t name;
    if (!resolve(work, identifier, phase, &name))
        return NULL;
    if (name < CORE_NAMES || is_stop(stops, name))
        return refuse(work, NO_RULE);
    const Meaning *meaning = meaning_of(meanings, name);
    if (meaning == NULL)
        return refuse(work, NO_MEANING);
    if (meaning->binder == NULL)
        return refuse(work, NO_RULE);
    return meaning->binder;
}

static const Object *expand_application(Work *work, const Object *form, uint32_t phase,
                                        const Meaning *meanings, const Stop *stops)
{
    const Object **parts = take_object_parts(work->memory, form->count);
    for (uint32_t i = 0; i < form->count; i++) {
        parts[i] = expand_inside(work, form->parts[i], phase, meanings, stops, work->prunable);
        if (parts[i] == NULL)
            return NULL;
    }
    return made_object(work, make_list_object(work->memory, form->count, parts, form->sets));
}

static const Object *expand_list(Work *work, const Object *form, uint32_t phase,
                                 const Meaning *meanings, const Stop *stops)
{
    if (form->count == 0)
        return refuse(work, NO_RULE);
    if (is_identifier(form->parts[0])) {
        uint32_t name;
        if (!resolve(work, form->parts[0], phase, &name))
            return NULL;
        if (is_stop(stops, name))
            return form;
        switch (name) {
        case LAMBDA:
            return expand_lambda(work, form, phase, meanings, stops);
        case LET_SYNTAX:
            return expand_let_syntax(work, form, phase, meanings, stops);
        case QUOTE:
            return expand_quote(work, form);
        case SYNTAX:
            return expand_syntax(work, form, phase);
        }
        const Meaning *meaning = meaning_of(meanings, name);
        if (meaning != NULL && meaning->macro != NULL)
            return expand_macro_use(work, form, meaning->macro, phase, meanings, stops);
    }
    return expand_application(work, form, phase, meanings, stops);
}

const Object *expand(Work *work, const Object *object, uint32_t phase, const Meaning *meanings,
                     const Stop *stops)
{
    if (!enter(work))
        return NULL;
    const Object *result;
    if (object->tag == LIST)
        result = expand_list(work, object, phase, meanings, stops);
    else if (object->tag == SYMBOL)
        result = expand_identifier(work, object, phase, meanings, stops);
    else
        result = object;
    leave(work);
    return result;
}
