/* Resolving an identifier at a phase, and who competes where that fails. */
#include "work.h"

static bool is_candidate(const Binding *binding, const Object *identifier, uint32_t phase)
{
    return binding->symbol == identifier->content &&
           is_contained(binding->set, identifier->sets[phase]);
}

/* The candidates among the bindings of an image. */
typedef struct {
    const Image *image;
    const Object *identifier;
    uint32_t phase;
} Candidates;

static bool is_one_of(const Candidates *candidates, uint32_t place)
{
    return is_candidate(&candidates->image->bindings[place], candidates->identifier,
                        candidates->phase);
}

/* Whether another candidate contains the one at a place. */
static bool is_outdone(const Candidates *candidates, uint32_t place)
{
    const Image *image = candidates->image;
    for (uint32_t i = 0; i < image->binding_count; i++)
        if (i != place && is_one_of(candidates, i) &&
            is_contained(image->bindings[place].set, image->bindings[i].set))
            return true;
    return false;
}

/* The first two candidates that no other contains, by their places from 1. Of
   those that are contained in no other there are two at least: were there one,
   it would contain all. */
static void name_rivals(Work *work, const Candidates *candidates)
{
    for (uint32_t i = 0; i < candidates->image->binding_count && work->second == 0; i++) {
        if (!is_one_of(candidates, i) || is_outdone(candidates, i))
            continue;
        if (work->first == 0)
            work->first = i + 1;
        else
            work->second = i + 1;
    }
}

/* A candidate contains every other exactly when its set is the union of all
   the candidates' sets. No two bindings of a symbol have the same set. */
bool resolve(Work *work, const Object *identifier, uint32_t phase, uint32_t *name)
{
    const Image *image = work->image;
    ScopeSet all = NO_SCOPES;
    bool any = false;
    for (uint32_t i = 0; i < image->binding_count; i++) {
        if (is_candidate(&image->bindings[i], identifier, phase)) {
            all = add_scopes(all, image->bindings[i].set);
            any = true;
        }
    }
    if (!any) {
        *name = identifier->content;
        return true;
    }
    for (uint32_t i = 0; i < image->binding_count; i++) {
        const Binding *binding = &image->bindings[i];
        if (is_candidate(binding, identifier, phase) && same_sets(binding->set, all)) {
            *name = binding->target;
            return true;
        }
    }
    name_rivals(work, &(Candidates){image, identifier, phase});
    refuse(work, AMBIGUOUS);
    return false;
}
