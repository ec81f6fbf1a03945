/* Drafts of trees for evaluate: most of them closed and of the right kinds. */
#include "chance.h"
#include "draft_parts.h"

typedef struct Bound Bound;
struct Bound {
    uint32_t name;
    const Bound *outer;
};

/* What a tree should evaluate to. */
typedef enum { ANY_VALUE, A_NUMBER, AN_ATOM, A_LIST, SYNTAXES, A_SYNTAX, A_FUNCTION } Wanted;

static const Tree *tree(int depth, const Bound *bound, Wanted wanted);

const Tree *tree_atom(ObjectTag tag, uint32_t content)
{
    return make_atom(draft_memory, (Atom){tag, content});
}

const Tree *tree_list(uint32_t count, const Tree *const *given, bool is_value)
{
    const Tree **parts = take_tree_parts(draft_memory, count);
    for (uint32_t i = 0; i < count; i++)
        parts[i] = given[i];
    return is_value ? make_list_value(draft_memory, count, parts)
                    : make_application(draft_memory, count, parts);
}

const Tree *apply1(const Tree *head, const Tree *a)
{
    return tree_list(2, (const Tree *[]){head, a}, false);
}

const Tree *apply2(const Tree *head, const Tree *a, const Tree *b)
{
    return tree_list(3, (const Tree *[]){head, a, b}, false);
}

static const Tree *apply3(const Tree *head, const Tree *a, const Tree *b, const Tree *c)
{
    return tree_list(4, (const Tree *[]){head, a, b, c}, false);
}

static const Tree *tree_primitive(uint32_t number)
{
    return tree_atom(PRIMITIVE, number);
}

const Tree *any_syntax(void)
{
    return make_syntax_value(draft_memory, sprinkle(any_object(2), 30));
}

static uint32_t any_function_name(void)
{
    uint32_t names = draft_image.names < 8 ? draft_image.names : 8;
    return percent(95) ? below(names) : below(draft_image.names);
}

static const Tree *any_variable(const Bound *bound)
{
    uint32_t met = 0, chosen = any_function_name();
    for (; bound != NULL; bound = bound->outer)
        if (below(++met) == 0)
            chosen = bound->name;
    return make_variable(draft_memory, chosen);
}

static const Tree *value(int depth, const Bound *bound, Wanted wanted)
{
    const Tree *parts[4];
    uint32_t count;
    switch (wanted) {
    case A_NUMBER:
        return tree_atom(NUMBER, below(3));
    case AN_ATOM: {
        const Object *chosen = any_atom();
        return tree_atom(chosen->tag, chosen->content);
    }
    case A_LIST:
        count = below(4);
        for (uint32_t i = 0; i < count; i++)
            parts[i] = value(depth - 1, bound,
                             depth > 0 ? (Wanted[]){AN_ATOM, A_LIST, A_SYNTAX, A_FUNCTION}[below(4)]
                                       : AN_ATOM);
        return tree_list(count, parts, true);
    case SYNTAXES:
        count = below(4);
        for (uint32_t i = 0; i < count; i++)
            parts[i] = any_syntax();
        return tree_list(count, parts, true);
    case A_SYNTAX:
        return any_syntax();
    case A_FUNCTION: {
        Bound inner = {.name = any_function_name(), .outer = bound};
        return make_function(draft_memory, inner.name, tree(depth - 1, &inner, ANY_VALUE));
    }
    default:
        return value(depth, bound,
                     (Wanted[]){AN_ATOM, AN_ATOM, A_LIST, A_SYNTAX, A_FUNCTION}[below(5)]);
    }
}

/* A tree that most often evaluates to what is wanted. */
static const Tree *tree(int depth, const Bound *bound, Wanted wanted)
{
    if (percent(4))
        wanted = ANY_VALUE;
    if (bound != NULL && percent(25))
        return any_variable(bound);
    if (percent(1))
        return any_variable(bound);
    if (depth <= 0)
        return value(depth, bound, wanted);
    if (percent(3)) { /* wrong counts, and heads that cannot be applied */
        const Tree *parts[5];
        uint32_t count = between(1, 5);
        for (uint32_t i = 0; i < count; i++)
            parts[i] = tree(depth - 1, bound, ANY_VALUE);
        if (percent(60))
            parts[0] = tree_primitive(any_primitive());
        return tree_list(count, parts, false);
    }
    if (draft_primitives > LARGEST_PRIMITIVE && percent(2)) /* there is no introduction scope */
        return percent(60) ? apply1(tree_primitive(percent(50) ? 7 : 9), tree(depth - 1, bound, A_SYNTAX))
                           : apply2(tree_primitive(8), tree(depth - 1, bound, A_SYNTAX), tree(depth - 1, bound, SYNTAXES));
    switch (below(12)) {
    case 0:
    case 1: { /* a function applied */
        Bound inner = {.name = any_function_name(), .outer = bound};
        const Tree *function =
            make_function(draft_memory, inner.name, tree(depth - 1, &inner, wanted));
        return apply1(function, tree(depth - 1, bound, ANY_VALUE));
    }
    case 2:
        return apply3(tree_primitive(6), tree(depth - 2, bound, A_NUMBER),
                      tree(depth - 1, bound, wanted), tree(depth - 1, bound, wanted));
    case 3:
        return apply1(tree_primitive(2), tree(depth - 1, bound, A_LIST));
    default:
        break;
    }
    switch (wanted) {
    case A_NUMBER:
    case AN_ATOM:
        if (percent(50))
            return apply2(tree_primitive(5), tree(depth - 1, bound, AN_ATOM),
                          tree(depth - 1, bound, AN_ATOM));
        return value(depth, bound, wanted);
    case A_LIST:
        if (percent(25))
            return apply1(tree_primitive(3), tree(depth - 1, bound, A_LIST));
        if (percent(60))
            return apply2(tree_primitive(4), tree(depth - 1, bound, ANY_VALUE),
                          tree(depth - 1, bound, A_LIST));
        return value(depth, bound, A_LIST);
    case SYNTAXES:
        if (percent(40))
            return apply1(tree_primitive(0), tree(depth - 1, bound, A_SYNTAX));
        if (percent(60))
            return apply2(tree_primitive(4), tree(depth - 1, bound, A_SYNTAX),
                          tree(depth - 1, bound, SYNTAXES));
        return value(depth, bound, SYNTAXES);
    case A_SYNTAX:
        if (percent(70))
            return apply2(tree_primitive(1),
                          tree(depth - 1, bound, percent(50) ? AN_ATOM : SYNTAXES),
                          tree(depth - 2, bound, A_SYNTAX));
        return value(depth, bound, A_SYNTAX);
    case A_FUNCTION:
        return value(depth, bound, A_FUNCTION);
    default:
        return tree(depth, bound,
                    (Wanted[]){AN_ATOM, A_LIST, A_LIST, SYNTAXES, A_SYNTAX, A_SYNTAX,
                               A_FUNCTION}[below(7)]);
    }
}

/* [n (link $n (link $n <>))]: what goes in comes out twice. */
static const Tree *doubler(uint32_t name)
{
    const Tree *variable = make_variable(draft_memory, name);
    const Tree *empty = tree_list(0, NULL, true);
    return make_function(draft_memory, name,
                         apply2(tree_primitive(4), variable,
                                apply2(tree_primitive(4), variable, empty)));
}

static const Tree *deep_value(const Tree *inner, uint32_t times)
{
    for (uint32_t i = 0; i < times; i++)
        inner = tree_list(1, &inner, true);
    return inner;
}

/* Applications of the identity around a tree: an entry is in progress for each. */
static const Tree *deep_application(const Tree *inner, uint32_t times)
{
    for (uint32_t i = 0; i < times; i++)
        inner = percent(80) ? apply1(make_function(draft_memory, 1, make_variable(draft_memory, 1)), inner)
                            : apply2(tree_primitive(4), inner, tree_list(0, NULL, true));
    return inner;
}

/* Values that double, values nested deep, entries that pile up. */
static const Tree *hard_tree(void)
{
    const Tree *x = make_variable(draft_memory, 2), *f = make_variable(draft_memory, 3);
    switch (below(7)) {
    case 0: { /* doubled over and over */
        const Tree *result = value(1, NULL, ANY_VALUE);
        for (uint32_t i = between(1, 20); i > 0; i--)
            result = apply1(doubler(2), result);
        return result;
    }
    case 1: { /* a function that doubles many times, applied to a doubler */
        const Tree *body = x;
        for (uint32_t i = between(1, 30); i > 0; i--)
            body = apply1(f, body);
        return apply1(apply1(make_function(draft_memory, 3, make_function(draft_memory, 2, body)),
                             doubler(0)),
                      value(1, NULL, ANY_VALUE));
    }
    case 2: { /* link makes a value deeper */
        const Tree *result = deep_value(value(0, NULL, ANY_VALUE), between(55, 62));
        uint32_t times = between(1, 63);
        for (uint32_t i = times > 10 ? times % 8 : times; i > 0; i--)
            result = apply2(tree_primitive(4), result, tree_list(0, NULL, true));
        return result;
    }
    case 3: { /* substitution makes a tree deeper */
        uint32_t inner = between(2, 60), outer = 66 - inner - below(6);
        const Tree *body = deep_application(x, outer > 60 ? 60 : outer);
        return apply1(make_function(draft_memory, 2, body), deep_value(tree_atom(NUMBER, 1), inner));
    }
    case 4: { /* round and round */
        const Tree *twice = make_function(draft_memory, 3, apply1(f, f));
        return deep_application(apply1(twice, twice), below(50));
    }
    case 5: { /* entries near their limit */
        uint32_t outer = between(30, 61), inner = 128 - outer - below(8) + below(4);
        if (inner > 60)
            inner = 60;
        const Tree *body = deep_application(x, inner);
        return deep_application(apply1(make_function(draft_memory, 2, body), tree_atom(NUMBER, 1)),
                                outer);
    }
    default: { /* round and round, growing */
        const Tree *grow =
            make_function(draft_memory, 3,
                          make_function(draft_memory, 2,
                                        apply1(apply1(f, f), apply1(doubler(1), x))));
        return apply1(apply1(grow, grow), value(0, NULL, ANY_VALUE));
    }
    }
}

void draft_tree(Memory *memory, Draft *draft)
{
    start_draft(memory, TREE_IMAGE, between(0, 3));
    choose_counts();
    draft_image.tree = percent(8) ? hard_tree() : tree((int)between(1, 6), NULL, ANY_VALUE);
    finish_draft(draft);
}
