/* Drafts in which bindings of a word compete: most of these calls give code 6.

   A few scopes are chosen. The word has all of them, its bindings have some each. */
#include "chance.h"
#include "draft_parts.h"

enum { MOST_CHOSEN = 24 };

static uint32_t chosen[MOST_CHOSEN]; /* ascending */
static uint32_t chosen_count;
static uint32_t rival; /* the word whose bindings compete */

/* ---- scopes and sets ---- */

/* Scopes one after another or far apart, so that all words of a set are met. */
static void choose_rival_scopes(uint32_t count)
{
    uint32_t step = percent(50) ? 1 : between(1, (MOST_SCOPES - 8) / count);
    uint32_t last = MOST_SCOPES - 8 - step * (count - 1); /* some are left for expand */
    uint32_t scope = percent(60) ? 1 : between(1, last);
    chosen_count = count;
    for (uint32_t i = 0; i < count; i++, scope += step)
        chosen[i] = scope;
    if (draft_image.scopes < chosen[count - 1])
        draft_image.scopes = chosen[count - 1];
}

static ScopeSet all_chosen(void)
{
    ScopeSet set = NO_SCOPES;
    for (uint32_t i = 0; i < chosen_count; i++)
        put_scope(&set, chosen[i]);
    return set;
}

static ScopeSet some_chosen(uint32_t most)
{
    ScopeSet set = NO_SCOPES;
    for (uint32_t i = between(1, most); i > 0; i--)
        put_scope(&set, chosen[below(chosen_count)]);
    return set;
}

/* ---- bindings ---- */

static void bind_rival(ScopeSet set)
{
    add_binding((Binding){.symbol = rival, .target = below(draft_image.names), .set = set});
}

/* The scope chosen as number i, and others behind it. */
static ScopeSet chosen_with(uint32_t i, const ScopeSet *others)
{
    ScopeSet set = only_scope(chosen[i % chosen_count]);
    return others == NULL ? set : add_scopes(set, *others);
}

/* Bindings of the word: two, a chain beside one, many, or any. */
static void bind_rivals(void)
{
    ScopeSet set;
    switch (below(5)) {
    case 0:
        bind_rival(chosen_with(below(chosen_count), NULL));
        bind_rival(some_chosen(3));
        break;
    case 1: /* the first in order is in another */
        set = chosen_with(1, NULL);
        bind_rival(chosen_with(0, NULL));
        bind_rival(chosen_with(0, &set));
        bind_rival(chosen_with(2, percent(50) ? NULL : &set));
        break;
    case 2: /* one in the middle is in others */
        set = chosen_with(1, NULL);
        bind_rival(set);
        bind_rival(chosen_with(0, &set));
        bind_rival(chosen_with(2, &set));
        break;
    case 3:
        for (uint32_t i = between(3, percent(10) ? 120 : 20); i > 0; i--)
            bind_rival(some_chosen(4));
        break;
    default:
        for (uint32_t i = between(2, 4); i > 0; i--)
            bind_rival(some_chosen(3));
        break;
    }
    if (percent(20))
        bind_rival(NO_SCOPES);
}

/* Bindings that are no candidates: of other words, or with a scope more. */
static void bind_bystanders(void)
{
    for (uint32_t i = below(5); i > 0; i--)
        add_binding((Binding){.symbol = percent(20) ? below(CORE_NAMES) : any_word(),
                              .target = below(draft_image.names),
                              .set = some_chosen(2)});
    if (percent(40) && draft_image.scopes < MOST_SCOPES - 4) {
        uint32_t other = ++draft_image.scopes;
        for (uint32_t i = between(1, 3); i > 0; i--)
            bind_rival(add_scopes(some_chosen(2), only_scope(other)));
    }
}

/* Very many bindings of a core word, which stand before those of the others. */
static void bind_crowd(void)
{
    uint32_t left = between(100, MOST_BINDINGS - draft_image.binding_count), word = below(CORE_NAMES);
    if (draft_image.scopes < 40)
        draft_image.scopes = 40;
    for (uint32_t low = 1; low < 40 && left > 0; low++)
        for (uint32_t high = low + 1; high <= 40 && left > 0; high++, left--)
            add_binding((Binding){.symbol = word,
                                  .target = word,
                                  .set = add_scopes(only_scope(low), only_scope(high))});
}

/* ---- where the word stands ---- */

/* The word with all the scopes, or some of them, at every phase or at one. */
static const Object *rival_word(void)
{
    ScopeSet sets[PHASES] = {NO_SCOPES, NO_SCOPES, NO_SCOPES};
    ScopeSet set = percent(80) ? all_chosen() : some_chosen(chosen_count);
    uint32_t only = percent(75) ? PHASES : below(PHASES);
    for (uint32_t phase = 0; phase < PHASES; phase++)
        if (only == PHASES || only == phase)
            sets[phase] = set;
    return make_atom_object(draft_memory, (Atom){SYMBOL, rival}, sets);
}

/* The word with some of the scopes, to be bound with a fresh one. */
static const Object *rival_binder(void)
{
    ScopeSet set = some_chosen(2);
    return make_atom_object(draft_memory, (Atom){SYMBOL, rival}, (ScopeSet[PHASES]){set, set, set});
}

/* A part of an application, the head of one, or alone. */
static const Object *in_application(const Object *object)
{
    switch (below(4)) {
    case 0:
        return list_of(2, (const Object *[]){object, any_atom()});
    case 1:
        return list_of(2, (const Object *[]){atom(NUMBER, 1), object});
    case 2:
        return list_of(3, (const Object *[]){atom(NUMBER, 1), lambda_of(symbol(any_word()), atom(POINT, 2)), object});
    default:
        return object;
    }
}

/* Something to expand in which the word stands; binders around it make bindings
   of their own, which compete as well. */
static const Object *to_expand(int depth)
{
    if (depth == 0 || percent(25))
        return in_application(rival_word());
    switch (below(6)) {
    case 0:
        return lambda_of(symbol(any_word()), to_expand(depth - 1));
    case 1:
    case 2:
        return lambda_of(rival_binder(), to_expand(depth - 1));
    case 3: /* at the phase above */
        return let_syntax(any_word(), to_expand(depth - 1), atom(NUMBER, 1));
    case 4: { /* in what a macro gives */
        uint32_t macro = any_word();
        const Object *use = symbol(macro);
        return let_syntax(macro, lambda_of(symbol(any_word()), syntax(to_expand(depth - 1))),
                          list_of(1, &use));
    }
    default:
        return let_syntax(any_word(), atom(NUMBER, 1), to_expand(depth - 1));
    }
}

static const Object *to_parse(int depth)
{
    if (depth == 0 || percent(30))
        return in_application(rival_word());
    if (percent(30))
        return lambda_of(rival_word(), to_parse(depth - 1));
    if (percent(50))
        return lambda_of(symbol(any_word()), to_parse(depth - 1));
    return in_application(to_parse(depth - 1));
}

void draft_rivals(Memory *memory, Job job, Draft *draft)
{
    start_draft(memory, SYNTAX_IMAGE, between(1, 4));
    choose_counts();
    if (draft_image.scopes > MOST_SCOPES - 8)
        draft_image.scopes = MOST_SCOPES - 8;
    choose_rival_scopes(percent(85) ? between(2, 5) : between(2, MOST_CHOSEN));
    rival = any_word();
    bind_rivals();
    bind_bystanders();
    if (percent(3))
        bind_crowd();
    draft_image.object = job == JOB_RESOLVE  ? rival_word()
                         : job == JOB_EXPAND ? to_expand((int)below(4))
                                             : to_parse((int)below(4));
    finish_draft(draft);
}
