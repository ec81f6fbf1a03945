#include "work.h"

void *refuse(Work *work, Code code)
{
    work->code = code;
    return NULL;
}

bool charge(Work *work, uint32_t units)
{
    if (units > work->budget - work->units) {
        refuse(work, CHARGE_TOO_LARGE);
        return false;
    }
    work->units += units;
    return true;
}

bool enter(Work *work)
{
    if (work->entries == MOST_ENTRIES) {
        refuse(work, TOO_MANY_ENTRIES);
        return false;
    }
    if (!charge(work, 1))
        return false;
    work->entries++;
    return true;
}

void leave(Work *work)
{
    work->entries--;
}

const Object *made_object(Work *work, const Object *object)
{
    if (object->nesting > MOST_NESTING)
        return refuse(work, TOO_NESTED);
    return object;
}

const Tree *made_tree(Work *work, const Tree *tree)
{
    if (tree->nesting > MOST_NESTING)
        return refuse(work, TOO_NESTED);
    return tree;
}

bool is_identifier(const Object *object)
{
    return object->tag == SYMBOL;
}

bool is_lambda_shape(const Object *form)
{
    return form->count == 3 && is_identifier(form->parts[1]);
}

bool is_let_syntax_shape(const Object *form)
{
    return form->count == 4 && is_identifier(form->parts[1]);
}

bool is_quoting_shape(const Object *form)
{
    return form->count == 2;
}
