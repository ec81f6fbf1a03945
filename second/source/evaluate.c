/* Evaluating a tree: substitution and the ten primitives. */
#include "work.h"

enum { STX_E, MK_STX, FIRST, REST, LINK, SAME, PICK, VALUE_OF, EXPAND, BINDER, MOST_ARGUMENTS = 3 };

static const uint32_t argument_counts[] = {
    [STX_E] = 1, [MK_STX] = 2, [FIRST] = 1, [REST] = 1, [LINK] = 2, [SAME] = 2, [PICK] = 3,
    [VALUE_OF] = 1, [EXPAND] = 2, [BINDER] = 1,
};

/* ---- functions ---- */

/* The body with a value for each variable of the name; the body itself where
   there is none. Its whole size has been charged. */
static const Tree *substitute(Work *work, const Tree *body, uint32_t name, const Tree *value)
{
    if (body->tag == VARIABLE)
        return body->name == name ? value : body;
    if (body->tag == FUNCTION && body->name == name)
        return body;
    if (body->tag == ATOM || body->tag == SYNTAX_VALUE)
        return body;
    const Tree **parts = take_tree_parts(work->memory, body->count);
    bool changed = false;
    for (uint32_t i = 0; i < body->count; i++) {
        parts[i] = substitute(work, body->parts[i], name, value);
        if (parts[i] != body->parts[i])
            changed = true;
    }
    if (!changed)
        return body;
    switch (body->tag) {
    case FUNCTION:
        return make_function(work->memory, body->name, parts[0]);
    case LIST_VALUE:
        return make_list_value(work->memory, body->count, parts);
    default:
        return make_application(work->memory, body->count, parts);
    }
}

static const Tree *apply_function(Work *work, const Tree *function, const Tree *argument,
                                  const MacroUse *use)
{
    const Tree *body = function->parts[0];
    if (!charge(work, body->size))
        return NULL;
    const Tree *result = made_tree(work, substitute(work, body, function->name, argument));
    if (result == NULL)
        return NULL;
    return evaluate(work, result, use);
}

/* ---- primitives ---- */

static bool is_nonempty_list(const Tree *value)
{
    return value->tag == LIST_VALUE && value->count > 0;
}

static const Tree *content(Work *work, const Tree *syntax)
{
    if (syntax->tag != SYNTAX_VALUE)
        return refuse(work, WRONG_ARGUMENT);
    const Object *object = syntax->object;
    if (object->tag != LIST)
        return make_atom(work->memory, (Atom){.tag = object->tag, .content = object->content});
    const Tree **parts = take_tree_parts(work->memory, object->count);
    for (uint32_t i = 0; i < object->count; i++)
        parts[i] = make_syntax_value(work->memory, object->parts[i]);
    return make_list_value(work->memory, object->count, parts);
}

static const Tree *make_syntax(Work *work, const Tree *value, const Tree *syntax)
{
    if (syntax->tag != SYNTAX_VALUE)
        return refuse(work, WRONG_ARGUMENT);
    const ScopeSet *sets = syntax->object->sets;
    const Object *object;
    if (value->tag == ATOM) {
        object = make_atom_object(work->memory, value->atom, sets);
    } else if (value->tag == LIST_VALUE) {
        const Object **parts = take_object_parts(work->memory, value->count);
        for (uint32_t i = 0; i < value->count; i++) {
            if (value->parts[i]->tag != SYNTAX_VALUE)
                return refuse(work, WRONG_ARGUMENT);
            parts[i] = value->parts[i]->object;
        }
        object = make_list_object(work->memory, value->count, parts, sets);
    } else {
        return refuse(work, WRONG_ARGUMENT);
    }
    return make_syntax_value(work->memory, object);
}

static const Tree *first(Work *work, const Tree *list)
{
    if (!is_nonempty_list(list))
        return refuse(work, WRONG_ARGUMENT);
    return list->parts[0];
}

static const Tree *rest(Work *work, const Tree *list)
{
    if (!is_nonempty_list(list))
        return refuse(work, WRONG_ARGUMENT);
    return make_list_value(work->memory, list->count - 1, list->parts + 1);
}

static const Tree *link_value(Work *work, const Tree *value, const Tree *list)
{
    if (list->tag != LIST_VALUE)
        return refuse(work, WRONG_ARGUMENT);
    const Tree **parts = take_tree_parts(work->memory, list->count + 1);
    parts[0] = value;
    for (uint32_t i = 0; i < list->count; i++)
        parts[i + 1] = list->parts[i];
    return make_list_value(work->memory, list->count + 1, parts);
}

static const Tree *same(Work *work, const Tree *left, const Tree *right)
{
    if (left->tag != ATOM || right->tag != ATOM)
        return refuse(work, WRONG_ARGUMENT);
    bool agree = left->atom.tag == right->atom.tag && left->atom.content == right->atom.content;
    return make_atom(work->memory, (Atom){.tag = NUMBER, .content = agree ? 1 : 0});
}

static const Tree *pick(Work *work, const Tree *number, const Tree *a, const Tree *b)
{
    if (number->tag != ATOM || number->atom.tag != NUMBER)
        return refuse(work, WRONG_ARGUMENT);
    return number->atom.content == 0 ? b : a;
}

static const Tree *primitive_result(Work *work, uint32_t primitive, const Tree *const *arguments,
                                    const MacroUse *use)
{
    switch (primitive) {
    case STX_E:
        return content(work, arguments[0]);
    case MK_STX:
        return make_syntax(work, arguments[0], arguments[1]);
    case FIRST:
        return first(work, arguments[0]);
    case REST:
        return rest(work, arguments[0]);
    case LINK:
        return link_value(work, arguments[0], arguments[1]);
    case SAME:
        return same(work, arguments[0], arguments[1]);
    case PICK:
        return pick(work, arguments[0], arguments[1], arguments[2]);
    case VALUE_OF:
        return local_value(work, use, arguments[0]);
    case EXPAND:
        return local_expand(work, use, arguments[0], arguments[1]);
    default:
        return local_binder(work, use, arguments[0]);
    }
}

static const Tree *apply_primitive(Work *work, uint32_t primitive, const Tree *const *arguments,
                                   const MacroUse *use)
{
    if (!charge(work, 1))
        return NULL;
    const Tree *result = primitive_result(work, primitive, arguments, use);
    if (result == NULL)
        return NULL;
    work->local += primitive >= VALUE_OF;
    return made_tree(work, result);
}

/* ---- applications ---- */

static bool is_primitive(const Tree *value)
{
    return value->tag == ATOM && value->atom.tag == PRIMITIVE;
}

/* Code 10: whether the value may be applied to so many arguments. */
static bool takes(const Tree *value, uint32_t argument_count)
{
    if (value->tag == FUNCTION)
        return argument_count == 1;
    return is_primitive(value) && argument_count == argument_counts[value->atom.content];
}

/* Whether the value needs the macro use that it is applied in, for its introduction
   scope, phase and meanings. */
static bool is_local(const Tree *value)
{
    return is_primitive(value) && value->atom.content >= VALUE_OF;
}

static const Tree *evaluate_application(Work *work, const Tree *application, const MacroUse *use)
{
    const Tree *head = evaluate(work, application->parts[0], use);
    if (head == NULL)
        return NULL;
    uint32_t argument_count = application->count - 1;
    if (!takes(head, argument_count))
        return refuse(work, NOT_APPLICABLE);
    if (is_local(head) && use == NULL)
        return refuse(work, NO_INTRODUCTION_SCOPE);
    const Tree *arguments[MOST_ARGUMENTS];
    for (uint32_t i = 0; i < argument_count; i++) {
        arguments[i] = evaluate(work, application->parts[i + 1], use);
        if (arguments[i] == NULL)
            return NULL;
    }
    if (head->tag == FUNCTION)
        return apply_function(work, head, arguments[0], use);
    return apply_primitive(work, head->atom.content, arguments, use);
}

const Tree *evaluate(Work *work, const Tree *tree, const MacroUse *use)
{
    if (!enter(work))
        return NULL;
    const Tree *value;
    if (tree->tag == APPLICATION)
        value = evaluate_application(work, tree, use);
    else if (tree->tag == VARIABLE)
        value = refuse(work, FREE_VARIABLE); /* no closed tree comes here */
    else
        value = tree;
    leave(work);
    return value;
}
