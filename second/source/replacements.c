/* replacements: where a bit is used, over the second program's own results.

       replacements --seed S --count N

   makes N trees and their summaries, replaces one part after another, and asks
   of each replacement:

   - the summary brought up to date is that of the new tree, counted anew;
   - a question to it, for some names, gives what was counted;
   - the same part put back gives the first image and the first summary.

   A call that breaks one of these is printed. It is an alarm and no proof. */
#include <stdlib.h>
#include <string.h>

#include "chance.h"
#include "drafts.h"
#include "stream.h"

enum { MOST_STEPS = 8, QUESTIONS = 6 };

static Memory *memory;
static uint64_t replaced_count, violations;

static void violation(const Call *call, const char *what)
{
    violations++;
    printf("violation: %s: ", what);
    write_call(stdout, call);
    putchar('\n');
}

static bool load(const Draft *draft, Image *image)
{
    clear_memory(memory);
    return read_image(memory, draft->bytes, draft->length, TREE_IMAGE, image) == SUCCESS;
}

static bool same_drafts(const Draft *left, const Draft *right)
{
    return left->length == right->length && memcmp(left->bytes, right->bytes, left->length) == 0;
}

/* The summary of an image as the job gives it, in bytes. */
static void counted(const Draft *image, Draft *summary)
{
    static Answer answer;
    Call call = {.job = JOB_SUMMARY, .output_length = LONGEST_IMAGE, .image = image->bytes, .image_length = image->length};
    answer_call(memory, &call, &answer);
    summary->length = answer.length;
    memcpy(summary->bytes, answer.output, answer.length);
}

/* Whether questions are answered with the entry of the name. */
static bool answers_some(const Draft *image, const Draft *summary)
{
    static Answer answer;
    uint32_t names = (uint32_t)(summary->length / BYTES_PER_WORD - 2) / 2;
    for (int asked = 0; asked < QUESTIONS; asked++) {
        uint32_t name = below(names);
        Call call = {.job = JOB_USES, .phase = name, .image = image->bytes, .image_length = image->length,
                     .summary = summary->bytes, .summary_length = summary->length};
        answer_call(memory, &call, &answer);
        if (answer.code != SUCCESS || memcmp(answer.output, summary->bytes + 8 + 8 * (size_t)name, 8) != 0)
            return false;
    }
    return true;
}

/* An image with its summary, and a part that is to stand at a place of it. */
typedef struct {
    Draft image, summary, part;
    uint32_t place;
} State;

static Call call_of(const State *state)
{
    return (Call){.job = JOB_REPLACE,
                  .phase = state->place,
                  .output_length = LONGEST_IMAGE,
                  .image = state->image.bytes,
                  .image_length = state->image.length,
                  .summary = state->summary.bytes,
                  .summary_length = state->summary.length,
                  .part = state->part.bytes,
                  .part_length = state->part.length};
}

/* Image and summary after the replacement; false where it is refused. */
static bool replace(const State *before, State *after)
{
    static Answer answer;
    Call call = call_of(before);
    answer_call(memory, &call, &answer);
    if (answer.code != SUCCESS)
        return false;
    after->image.length = answer.length;
    memcpy(after->image.bytes, answer.output, answer.length);
    put_summary(&answer.summary, answer.summary.names, &after->summary);
    return true;
}

/* Chooses a place and a part; the part that stands there now is kept. */
static bool choose(State *state, Draft *old)
{
    static Image image;
    Part part;
    if (!load(&state->image, &image))
        return false;
    state->place = draft_place(&image);
    draft_part(memory, &image, state->place, &state->part);
    return find_part(image.tree, state->place, &part) &&
           write_part(part.tree, old->bytes, DRAFT_ROOM, &old->length);
}

static void check(const State *before, State *after, const Draft *old)
{
    static Draft anew;
    static State back;
    Call call = call_of(before);
    counted(&after->image, &anew);
    if (!same_drafts(&after->summary, &anew))
        violation(&call, "another summary than that of the new tree");
    if (!answers_some(&after->image, &after->summary))
        violation(&call, "a question is answered otherwise");
    after->place = before->place;
    after->part = *old;
    if (!replace(after, &back) || !same_drafts(&back.image, &before->image) || !same_drafts(&back.summary, &before->summary))
        violation(&call, "the old part put back gives something else");
}

static void try_tree(void)
{
    static State state, after;
    static Draft old;
    draft_contacts(memory, &state.image);
    counted(&state.image, &state.summary);
    for (int step = 0; step < MOST_STEPS; step++) {
        if (!choose(&state, &old) || !replace(&state, &after))
            continue;
        replaced_count++;
        check(&state, &after, &old);
        state.image = after.image;
        state.summary = after.summary;
    }
}

int main(int count, char **arguments)
{
    uint64_t seed = 1, wanted = 1000;
    for (int i = 1; i < count; i += 2) {
        const char *value = i + 1 < count ? arguments[i + 1] : NULL;
        if (value != NULL && strcmp(arguments[i], "--seed") == 0) {
            seed = strtoull(value, NULL, 10);
        } else if (value != NULL && strcmp(arguments[i], "--count") == 0) {
            wanted = strtoull(value, NULL, 10);
        } else {
            fprintf(stderr, "replacements --seed S --count N\n");
            return 2;
        }
    }
    memory = new_memory();
    start_chance(seed);
    for (; wanted > 0; wanted--)
        try_tree();
    free_memory(memory);
    printf("%llu replacements, %llu violations\n", (unsigned long long)replaced_count, (unsigned long long)violations);
    return violations > 0;
}
