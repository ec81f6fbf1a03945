/* numbering: numbering must not matter (request T-12), over the second program's own answers.

       numbering --seed S --count N

   makes N well-formed images by chance, some of them with local expansion and some results
   of expanding, with scopes anywhere from 1 to 256; renumbers the scopes of each by a one-to-one rule drawn by
   chance, writes it in order, expands both with the same phase and budget and enough
   output, and asks that

   - code and units agree;
   - the second result is the first with its scopes renumbered by the same rule, fresh
     scopes left as they are, and written in order.

   Where an image or a result is longer than 65,536 bytes nothing is asked. Which two
   bindings compete is not compared, since they go by image order. An image that breaks
   this is printed in hexadecimal, before and after. It is an alarm and no proof. */
#include <stdio.h>
#include <stdlib.h>
#include <string.h>

#include "chance.h"
#include "drafts.h"
#include "jobs.h"

static Memory *memory;

/* What was met: by how many words of a set its scopes take, where the bindings change
   order, where the bytes change their number, by answer, where primitives 7 to 9 gave
   something, and what was wrong. */
static uint64_t widths[SET_WORDS], reordered, relengthened, accepted, refused, too_long, local, violations;

typedef struct {
    size_t length;
    uint8_t bytes[LONGEST_IMAGE];
} Written;

/* ---- rules ---- */

typedef struct {
    uint32_t to[MOST_SCOPES + 1]; /* of each scope from 1 on */
} Rule;

/* One-to-one on 1 to scopes, all beyond left as they are. */
static void draw_rule(uint32_t scopes, Rule *rule)
{
    for (uint32_t scope = 0; scope <= MOST_SCOPES; scope++)
        rule->to[scope] = scope;
    for (uint32_t scope = scopes; scope > 1; scope--) {
        uint32_t other = between(1, scope), kept = rule->to[scope];
        rule->to[scope] = rule->to[other];
        rule->to[other] = kept;
    }
}

static ScopeSet renumber_set(const Rule *rule, ScopeSet set)
{
    ScopeSet renumbered = NO_SCOPES;
    for (uint32_t scope = 1; scope <= MOST_SCOPES; scope++)
        if ((set.words[(scope - 1) / WORD_BITS] >> (scope - 1) % WORD_BITS & 1) != 0)
            put_scope(&renumbered, rule->to[scope]);
    return renumbered;
}

static const Object *renumber_object(const Rule *rule, const Object *object)
{
    ScopeSet sets[PHASES];
    for (int phase = 0; phase < PHASES; phase++)
        sets[phase] = renumber_set(rule, object->sets[phase]);
    if (object->tag != LIST)
        return make_atom_object(memory, (Atom){object->tag, object->content}, sets);
    const Object **parts = take_object_parts(memory, object->count);
    for (uint32_t i = 0; i < object->count; i++)
        parts[i] = renumber_object(rule, object->parts[i]);
    return make_list_object(memory, object->count, parts, sets);
}

static int in_order(const void *left, const void *right)
{
    return compare_bindings(left, right);
}

/* Whether the bindings had to be put in another order. */
static bool renumber_image(const Rule *rule, Image *image)
{
    bool moved = false;
    for (uint32_t i = 0; i < image->binding_count; i++) {
        image->bindings[i].set = renumber_set(rule, image->bindings[i].set);
        moved |= i > 0 && compare_bindings(&image->bindings[i - 1], &image->bindings[i]) > 0;
    }
    qsort(image->bindings, image->binding_count, sizeof image->bindings[0], in_order);
    image->object = renumber_object(rule, image->object);
    return moved;
}

/* ---- images from bytes to bytes ---- */

static bool read_syntax(const uint8_t *bytes, size_t length, Image *image)
{
    clear_memory(memory);
    return read_image(memory, bytes, length, SYNTAX_IMAGE, image) == SUCCESS;
}

static bool write_again(const Image *image, Written *written)
{
    return write_image(image, written->bytes, LONGEST_IMAGE, &written->length);
}

/* False where the renumbered image is too long. */
static bool renumber_bytes(const Rule *rule, const uint8_t *bytes, size_t length, bool *moved, Written *written)
{
    static Image image;
    if (!read_syntax(bytes, length, &image))
        return false;
    *moved = renumber_image(rule, &image);
    return write_again(&image, written);
}

/* ---- images by chance ---- */

static void expand_bytes(const uint8_t *bytes, size_t length, uint32_t phase, uint32_t budget, Answer *answer)
{
    Call call = {.job = JOB_EXPAND,
                 .phase = phase,
                 .budget = budget,
                 .table_words = TABLE_WORDS_PER_UNIT * budget,
                 .output_length = LONGEST_IMAGE,
                 .image = bytes,
                 .image_length = length};
    answer_call(memory, &call, answer);
}

static void draft_syntax(Draft *draft)
{
    static Answer expanded;
    uint32_t choice = below(100);
    if (choice < 40)
        draft_program(memory, draft);
    else if (choice < 75)
        draft_local(memory, false, draft);
    else if (choice < 82)
        draft_object(memory, draft);
    else
        draft_rivals(memory, JOB_EXPAND, draft);
    if (!percent(40))
        return;
    expand_bytes(draft->bytes, draft->length, 0, MOST_BUDGET, &expanded);
    if (expanded.code != SUCCESS)
        return;
    draft->length = expanded.length;
    memcpy(draft->bytes, expanded.output, expanded.length);
}

/* A count of scopes that leaves the image its own, and now and then few or none for
   fresh ones. */
static uint32_t more_scopes(uint32_t scopes)
{
    uint32_t least = scopes < 2 ? 2 : scopes;
    if (percent(35))
        return least;
    return between(least, percent(60) ? MOST_SCOPES - (MOST_SCOPES - least) / 4 : MOST_SCOPES);
}

/* An image with its scopes spread by chance; false where the draft is no image. */
static bool make_image(Written *written, uint32_t *scopes)
{
    static Draft draft;
    static Image image;
    Rule spread;
    draft_syntax(&draft);
    if (!read_syntax(draft.bytes, draft.length, &image))
        return false;
    *scopes = image.scopes = more_scopes(image.scopes);
    draw_rule(image.scopes, &spread);
    renumber_image(&spread, &image);
    return write_again(&image, written);
}

/* ---- the property ---- */

static void print_bytes(const uint8_t *bytes, size_t length)
{
    for (size_t i = 0; i < length; i++)
        printf("%02x", bytes[i]);
}

static void violation(const char *what, const Written *one, const Written *two)
{
    violations++;
    printf("violation: %s: ", what);
    print_bytes(one->bytes, one->length);
    printf(" and ");
    print_bytes(two->bytes, two->length);
    putchar('\n');
}

static const char *wrong_answers(const Rule *rule, const Answer *one, const Answer *two)
{
    static Written expected;
    bool moved;
    if (one->code != two->code)
        return "other codes";
    if (one->units != two->units)
        return "other units";
    if (one->code != SUCCESS)
        return NULL;
    if (!renumber_bytes(rule, one->output, one->length, &moved, &expected))
        return "the result renumbered is too long";
    if (expected.length != two->length || memcmp(expected.bytes, two->output, two->length) != 0)
        return "other results";
    return NULL;
}

static void try_pair(const Rule *rule, const Written *one, const Written *two)
{
    static Answer first, second;
    uint32_t phase = percent(85) ? 0 : below(LAST_PHASE + 2);
    uint32_t budget = percent(70) ? MOST_BUDGET : below(400);
    expand_bytes(one->bytes, one->length, phase, budget, &first);
    expand_bytes(two->bytes, two->length, phase, budget, &second);
    if (first.code == TOO_LONG || second.code == TOO_LONG) {
        too_long++;
        return;
    }
    accepted += first.code == SUCCESS;
    local += first.local > 0;
    refused += first.code != SUCCESS;
    const char *wrong = wrong_answers(rule, &first, &second);
    if (wrong != NULL)
        violation(wrong, one, two);
}

/* False where no image was made, or its renumbered one is too long. */
static bool try_chance(void)
{
    static Written one, two;
    Rule rule;
    uint32_t scopes;
    bool moved;
    if (!make_image(&one, &scopes))
        return false;
    draw_rule(scopes, &rule);
    if (!renumber_bytes(&rule, one.bytes, one.length, &moved, &two))
        return false;
    widths[(scopes - 1) / WORD_BITS]++;
    reordered += moved;
    relengthened += one.length != two.length;
    try_pair(&rule, &one, &two);
    return true;
}

static void print_counts(uint64_t count)
{
    printf("%llu images, of up to", (unsigned long long)count);
    for (int i = 0; i < SET_WORDS; i++)
        printf(" %d scopes %llu,", (i + 1) * WORD_BITS, (unsigned long long)widths[i]);
    printf(" %llu with bindings in another order, %llu of another length; %llu accepted, %llu refused, %llu too long, %llu with local expansion; %llu violations\n",
           (unsigned long long)reordered, (unsigned long long)relengthened, (unsigned long long)accepted,
           (unsigned long long)refused, (unsigned long long)too_long, (unsigned long long)local,
           (unsigned long long)violations);
}

int main(int count, char **arguments)
{
    uint64_t seed = 1, wanted = 1000, tried = 0;
    for (int i = 1; i < count; i += 2) {
        const char *value = i + 1 < count ? arguments[i + 1] : NULL;
        if (value != NULL && strcmp(arguments[i], "--seed") == 0) {
            seed = strtoull(value, NULL, 10);
        } else if (value != NULL && strcmp(arguments[i], "--count") == 0) {
            wanted = strtoull(value, NULL, 10);
        } else {
            fprintf(stderr, "numbering --seed S --count N\n");
            return 2;
        }
    }
    memory = new_memory();
    start_chance(seed);
    while (tried < wanted)
        tried += try_chance();
    free_memory(memory);
    print_counts(tried);
    return violations > 0;
}
