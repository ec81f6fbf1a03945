/* Request T-11: a binding is dropped where no identifier of its symbol contains
   its set at some phase, then every scope that is in no remaining set; the
   rest are renumbered in order. Words and names stay. */
#include "shrink.h"

/* Bindings stand by symbol, so those of one symbol stand together: where they
   begin. Those of the last symbol end at limits[symbol count]. */
typedef struct {
    uint32_t limits[MOST_NAMES + 1];
    bool used[MOST_BINDINGS];
    ScopeSet scopes; /* those of all remaining sets */
} Uses;

/* The new number of each scope that remains. */
typedef struct {
    uint32_t numbers[MOST_SCOPES + 1];
} Renumbering;

static void find_limits(const Image *image, Uses *uses)
{
    uint32_t place = 0;
    for (uint32_t symbol = 0; symbol <= MOST_NAMES; symbol++) {
        while (place < image->binding_count && image->bindings[place].symbol < symbol)
            place++;
        uses->limits[symbol] = place;
    }
}

static bool is_contained_at_some_phase(ScopeSet set, const Object *identifier)
{
    for (int phase = 0; phase < PHASES; phase++)
        if (is_contained(set, identifier->sets[phase]))
            return true;
    return false;
}

static void use_bindings(const Image *image, const Object *identifier, Uses *uses)
{
    uint32_t end = uses->limits[identifier->content + 1];
    for (uint32_t i = uses->limits[identifier->content]; i < end; i++)
        if (!uses->used[i] && is_contained_at_some_phase(image->bindings[i].set, identifier))
            uses->used[i] = true;
}

static void use_object(const Image *image, const Object *object, Uses *uses)
{
    for (int phase = 0; phase < PHASES; phase++)
        uses->scopes = add_scopes(uses->scopes, object->sets[phase]);
    if (object->tag == SYMBOL)
        use_bindings(image, object, uses);
    for (uint32_t i = 0; i < object->count; i++)
        use_object(image, object->parts[i], uses);
}

static void drop_bindings(Image *image, Uses *uses)
{
    uint32_t kept = 0;
    for (uint32_t i = 0; i < image->binding_count; i++) {
        if (!uses->used[i])
            continue;
        uses->scopes = add_scopes(uses->scopes, image->bindings[i].set);
        image->bindings[kept++] = image->bindings[i];
    }
    image->binding_count = kept;
}

static void number_scopes(Image *image, ScopeSet remaining, Renumbering *renumbering)
{
    uint32_t count = 0;
    for (uint32_t scope = 1; scope <= image->scopes; scope++)
        if (is_contained(only_scope(scope), remaining))
            renumbering->numbers[scope] = ++count;
    image->scopes = count;
}

static ScopeSet renumber_set(const Renumbering *renumbering, ScopeSet set)
{
    ScopeSet renumbered = NO_SCOPES;
    for (uint32_t i = 0; i < SET_WORDS; i++) {
        uint32_t scope = i * WORD_BITS + 1;
        for (uint64_t left = set.words[i]; left != 0; left >>= 1, scope++)
            if ((left & 1) != 0)
                put_scope(&renumbered, renumbering->numbers[scope]);
    }
    return renumbered;
}

static const Object *renumber_object(Memory *memory, const Renumbering *renumbering,
                                     const Object *object)
{
    ScopeSet sets[PHASES];
    for (int phase = 0; phase < PHASES; phase++)
        sets[phase] = renumber_set(renumbering, object->sets[phase]);
    if (object->tag != LIST) {
        Atom atom = {.tag = object->tag, .content = object->content};
        return make_atom_object(memory, atom, sets);
    }
    const Object **parts = take_object_parts(memory, object->count);
    for (uint32_t i = 0; i < object->count; i++)
        parts[i] = renumber_object(memory, renumbering, object->parts[i]);
    return make_list_object(memory, object->count, parts, sets);
}

void shrink_image(Memory *memory, Image *image)
{
    Uses uses = {.scopes = NO_SCOPES};
    Renumbering renumbering = {{0}};
    find_limits(image, &uses);
    use_object(image, image->object, &uses);
    drop_bindings(image, &uses);
    number_scopes(image, uses.scopes, &renumbering);
    for (uint32_t i = 0; i < image->binding_count; i++)
        image->bindings[i].set = renumber_set(&renumbering, image->bindings[i].set);
    image->object = renumber_object(memory, &renumbering, image->object);
}
