/* Local expansion (request T-08): what a macro may ask for while it is used. Source
   document 000 calls these lvalue, lexpand and lbinder. */
#include "work.h"

static bool is_identifier_value(const Tree *value)
{
    return value->tag == SYNTAX_VALUE && is_identifier(value->object);
}

static bool are_identifiers(const Tree *value)
{
    if (value->tag != LIST_VALUE)
        return false;
    for (uint32_t i = 0; i < value->count; i++)
        if (!is_identifier_value(value->parts[i]))
            return false;
    return true;
}

/* What a macro was defined as. A name that is stopped, a core form's, a variable's or
   nobody's has no such value. */
const Tree *local_value(Work *work, const MacroUse *use, const Tree *identifier)
{
    uint32_t name;
    if (!is_identifier_value(identifier))
        return refuse(work, WRONG_ARGUMENT);
    if (!resolve(work, identifier->object, use->phase, &name))
        return NULL;
    const Meaning *meaning = meaning_of(use->meanings, name);
    if (is_stop(use->stops, name) || meaning == NULL || meaning->macro == NULL)
        return refuse(work, WRONG_ARGUMENT);
    return meaning->macro;
}

/* Each identifier in turn: its name, which must mean something, stopped or not. */
static bool read_stops(Work *work, const MacroUse *use, const Tree *identifiers, const Stop **stops)
{
    *stops = NULL;
    for (uint32_t i = 0; i < identifiers->count; i++) {
        Stop *stop = take_memory(work->memory, sizeof *stop);
        stop->others = *stops;
        if (!resolve(work, identifiers->parts[i]->object, use->phase, &stop->name))
            return false;
        if (stop->name >= CORE_NAMES && meaning_of(use->meanings, stop->name) == NULL) {
            refuse(work, WRONG_ARGUMENT);
            return false;
        }
        *stops = stop;
    }
    return true;
}

static const Object *flip_introduction(Work *work, const MacroUse *use, const Object *object)
{
    return change_scopes(work, FLIP, object, use->phase, only_scope(use->introduction));
}

/* The piece expanded where the macro is used, with these stops and no others. It goes on
   in the expansion under way: the use scopes met stay with the macro that asked. */
const Tree *local_expand(Work *work, const MacroUse *use, const Tree *piece, const Tree *stops)
{
    const Stop *names;
    if (piece->tag != SYNTAX_VALUE || !are_identifiers(stops))
        return refuse(work, WRONG_ARGUMENT);
    if (!read_stops(work, use, stops, &names))
        return NULL;
    const Object *flipped = flip_introduction(work, use, piece->object);
    if (flipped == NULL)
        return NULL;
    const Object *expanded = expand(work, flipped, use->phase, use->meanings, names);
    if (expanded == NULL)
        return NULL;
    const Object *result = flip_introduction(work, use, expanded);
    if (result == NULL)
        return NULL;
    return make_syntax_value(work->memory, result);
}

/* Without the use scopes there are now, so that it binds what was written beside it. */
const Tree *local_binder(Work *work, const MacroUse *use, const Tree *identifier)
{
    if (!is_identifier_value(identifier))
        return refuse(work, WRONG_ARGUMENT);
    const Object *result = change_scopes(work, PRUNE, identifier->object, use->phase, work->uses);
    if (result == NULL)
        return NULL;
    return make_syntax_value(work->memory, result);
}
