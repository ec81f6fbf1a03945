/* Parsing core forms at a phase into a tree. */
#include "work.h"

/* The stripped data of a quoted text. Its size has been charged. */
static const Tree *strip(Work *work, const Object *object)
{
    if (object->tag != LIST)
        return make_atom(work->memory, (Atom){.tag = object->tag, .content = object->content});
    const Tree **parts = take_tree_parts(work->memory, object->count);
    for (uint32_t i = 0; i < object->count; i++)
        parts[i] = strip(work, object->parts[i]);
    return make_list_value(work->memory, object->count, parts);
}

static const Tree *parse_lambda(Work *work, const Object *form, uint32_t phase)
{
    if (!is_lambda_shape(form))
        return refuse(work, NO_RULE);
    uint32_t name;
    if (!resolve(work, form->parts[1], phase, &name))
        return NULL;
    const Tree *body = parse(work, form->parts[2], phase);
    if (body == NULL)
        return NULL;
    return made_tree(work, make_function(work->memory, name, body));
}

static const Tree *parse_quote(Work *work, const Object *form)
{
    if (!is_quoting_shape(form))
        return refuse(work, NO_RULE);
    if (!charge(work, form->parts[1]->size))
        return NULL;
    return made_tree(work, strip(work, form->parts[1]));
}

static const Tree *parse_syntax(Work *work, const Object *form)
{
    if (!is_quoting_shape(form))
        return refuse(work, NO_RULE);
    return made_tree(work, make_syntax_value(work->memory, form->parts[1]));
}

static const Tree *parse_application(Work *work, const Object *form, uint32_t phase)
{
    const Tree **parts = take_tree_parts(work->memory, form->count);
    for (uint32_t i = 0; i < form->count; i++) {
        parts[i] = parse(work, form->parts[i], phase);
        if (parts[i] == NULL)
            return NULL;
    }
    return made_tree(work, make_application(work->memory, form->count, parts));
}

static const Tree *parse_list(Work *work, const Object *form, uint32_t phase)
{
    if (form->count == 0)
        return refuse(work, NO_RULE);
    if (is_identifier(form->parts[0])) {
        uint32_t name;
        if (!resolve(work, form->parts[0], phase, &name))
            return NULL;
        switch (name) {
        case LAMBDA:
            return parse_lambda(work, form, phase);
        case LET_SYNTAX:
            return refuse(work, NO_RULE);
        case QUOTE:
            return parse_quote(work, form);
        case SYNTAX:
            return parse_syntax(work, form);
        }
    }
    return parse_application(work, form, phase);
}

static const Tree *parse_identifier(Work *work, const Object *identifier, uint32_t phase)
{
    uint32_t name;
    if (!resolve(work, identifier, phase, &name))
        return NULL;
    return make_variable(work->memory, name);
}

const Tree *parse(Work *work, const Object *object, uint32_t phase)
{
    if (!enter(work))
        return NULL;
    const Tree *tree;
    if (object->tag == LIST)
        tree = parse_list(work, object, phase);
    else if (object->tag == SYMBOL)
        tree = parse_identifier(work, object, phase);
    else
        tree = make_atom(work->memory, (Atom){.tag = object->tag, .content = object->content});
    leave(work);
    return tree;
}
