/* Drafts of finished images: words with many bindings, of which some are used,
   and scopes that lie far apart, for the job that makes them smaller.

   Sets are made of a few scopes, so that one often contains another. */
#include "chance.h"
#include "draft_parts.h"

enum { MOST_POOLED = 40, DEEPEST = 4, MOST_PARTS = 5 };

static uint32_t pool[MOST_POOLED];
static uint32_t pool_count;

/* ---- sets ---- */

static void choose_pool(void)
{
    if (draft_image.scopes == 0 || percent(60))
        draft_image.scopes = percent(30) ? MOST_SCOPES : between(2, MOST_SCOPES);
    pool_count = between(1, percent(80) ? 8 : MOST_POOLED);
    for (uint32_t i = 0; i < pool_count; i++)
        pool[i] = between(1, draft_image.scopes);
}

static ScopeSet pooled(uint32_t most)
{
    ScopeSet set = NO_SCOPES;
    for (uint32_t i = below(most + 1); i > 0; i--)
        put_scope(&set, pool[below(pool_count)]);
    return set;
}

/* Most objects have scopes at phase 0, few at the others. */
static void choose_sets(ScopeSet sets[PHASES])
{
    for (int phase = 0; phase < PHASES; phase++)
        sets[phase] = percent(phase == 0 ? 75 : 25) ? pooled(percent(80) ? 4 : pool_count) : NO_SCOPES;
}

/* ---- objects ---- */

static uint32_t finished_symbol(void)
{
    return percent(85) ? any_word() : below(CORE_NAMES);
}

static const Object *finished_atom(void)
{
    ScopeSet sets[PHASES];
    choose_sets(sets);
    Atom atom = {SYMBOL, finished_symbol()};
    if (percent(20))
        atom = percent(50) ? (Atom){NUMBER, below(300)} : (Atom){POINT, below(LARGEST_POINT + 1)};
    return make_atom_object(draft_memory, atom, sets);
}

static const Object *finished_object(int depth)
{
    if (depth == 0 || percent(40))
        return finished_atom();
    ScopeSet sets[PHASES];
    choose_sets(sets);
    uint32_t count = below(MOST_PARTS);
    const Object **parts = take_object_parts(draft_memory, count);
    for (uint32_t i = 0; i < count; i++)
        parts[i] = finished_object(depth - 1);
    const Object *list = make_list_object(draft_memory, count, parts, sets);
    return percent(10) ? syntax(list) : list;
}

/* ---- bindings ---- */

static void bind_pooled(void)
{
    uint32_t count = percent(85) ? below(12) : between(12, MOST_BINDINGS);
    for (uint32_t i = 0; i < count; i++)
        add_binding((Binding){.symbol = finished_symbol(),
                              .target = below(draft_image.names),
                              .set = pooled(percent(85) ? 3 : pool_count)});
}

void draft_finished(Memory *memory, Draft *draft)
{
    start_draft(memory, SYNTAX_IMAGE, between(1, 6));
    choose_counts();
    choose_pool();
    bind_pooled();
    draft_image.object = finished_object(DEEPEST);
    finish_draft(draft);
}
