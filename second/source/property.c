/* property: condition 3 over the second program's own results.

       property --seed S --count N [--local]

   makes programs until N have been accepted by expand at phase 0, and asks of
   each of them:

   - parse of the written image, with budget 4,096, is refused for nothing but
     19 or 20;
   - the names of all functions in the tree differ, and none is below the count
     of names of the image before expansion;
   - every variable outside syntax values is inside the function of its name;
   - evaluate of the written tree never gives 3, nor does the panel check;
   - where the panel check takes the tree, each name has one address;
   - reading an image and writing it again gives the same bytes, so no symbol
     and set is bound twice in it;
   - a program that is refused is never refused with 3.

   With --local these are programs with local expansion, and only those are counted in
   which one of primitives 7 to 9 gave something.

   An image that breaks one of these is printed in hexadecimal. It is an alarm
   and no proof. */
#include <stdio.h>
#include <stdlib.h>
#include <string.h>

#include "chance.h"
#include "drafts.h"
#include "jobs.h"
#include "panel.h"

static Memory *memory;
static uint64_t violations;

static void violation(const Draft *draft, const char *what)
{
    violations++;
    printf("violation: %s: ", what);
    for (size_t i = 0; i < draft->length; i++)
        printf("%02x", draft->bytes[i]);
    putchar('\n');
}

static void answer_largest(Job job, const uint8_t *image, size_t length, Answer *answer)
{
    Call call = {.job = job,
                 .budget = MOST_BUDGET,
                 .table_words = TABLE_WORDS_PER_UNIT * MOST_BUDGET,
                 .output_length = LONGEST_IMAGE,
                 .image = image,
                 .image_length = length};
    answer_call(memory, &call, answer);
}

static bool same_when_written_again(const uint8_t *bytes, size_t length, uint32_t kind)
{
    static Image image;
    static uint8_t again[LONGEST_IMAGE];
    size_t written;
    clear_memory(memory);
    return read_image(memory, bytes, length, kind, &image) == SUCCESS &&
           write_image(&image, again, LONGEST_IMAGE, &written) && written == length &&
           memcmp(bytes, again, length) == 0;
}

/* Functions met so far, and those around the tree at hand. */
static bool met[MOST_NAMES];
static bool around[MOST_NAMES];

static const char *wrong_name(const Tree *tree, uint32_t names_before)
{
    if (tree->tag == VARIABLE)
        return around[tree->name] ? NULL : "a variable outside the function of its name";
    if (tree->tag == FUNCTION) {
        if (met[tree->name])
            return "two functions of one name";
        if (tree->name < names_before)
            return "a function with a name from before";
        met[tree->name] = around[tree->name] = true;
    }
    const char *wrong = NULL;
    for (uint32_t i = 0; i < tree->count && wrong == NULL; i++)
        wrong = wrong_name(tree->parts[i], names_before);
    if (tree->tag == FUNCTION)
        around[tree->name] = false;
    return wrong;
}

static const char *wrong_tree(const uint8_t *bytes, size_t length, uint32_t names_before)
{
    static Image image;
    clear_memory(memory);
    if (read_image(memory, bytes, length, TREE_IMAGE, &image) != SUCCESS)
        return "the written tree cannot be read";
    memset(met, 0, sizeof met);
    memset(around, 0, sizeof around);
    return wrong_name(image.tree, names_before);
}

/* Where the panel check takes a tree: whether two of its bits have one name. */
static bool shares_names(const Answer *panel)
{
    for (uint32_t i = 0; i < panel->length; i += BYTES_PER_WORD)
        for (uint32_t j = 0; j < i; j += BYTES_PER_WORD)
            if (memcmp(panel->output + i, panel->output + j, BYTES_PER_WORD) == 0)
                return true;
    return false;
}

/* Counts the trees with bits that the panel check takes. */
static uint64_t with_bits;

static void check_addresses(const Draft *draft, const Answer *parsed)
{
    static Answer panel;
    answer_largest(JOB_PANEL, parsed->output, parsed->length, &panel);
    if (panel.code == FREE_VARIABLE)
        violation(draft, "the panel check gives 3");
    if (panel.code == SUCCESS && shares_names(&panel))
        violation(draft, "two addresses for one name");
    if (panel.code == SUCCESS && panel.length > 0)
        with_bits++;
}

static uint32_t names_of(const Draft *draft)
{
    static Image image;
    clear_memory(memory);
    return read_image(memory, draft->bytes, draft->length, SYNTAX_IMAGE, &image) == SUCCESS
               ? image.names
               : 0;
}

int main(int count, char **arguments)
{
    static Draft draft;
    static Answer expanded, parsed, evaluated;
    uint64_t seed = 1, wanted = 1000, accepted = 0, made = 0, parsed_count = 0;
    bool is_local = false;
    for (int i = 1; i < count; i++) {
        if (strcmp(arguments[i], "--seed") == 0 && i + 1 < count) {
            seed = strtoull(arguments[++i], NULL, 10);
        } else if (strcmp(arguments[i], "--count") == 0 && i + 1 < count) {
            wanted = strtoull(arguments[++i], NULL, 10);
        } else if (strcmp(arguments[i], "--local") == 0) {
            is_local = true;
        } else {
            fprintf(stderr, "property --seed S --count N [--local]\n");
            return 2;
        }
    }
    memory = new_memory();
    start_chance(seed);
    while (accepted < wanted) {
        if (is_local)
            draft_local(memory, false, &draft);
        else
            draft_program(memory, &draft);
        uint32_t names_before = names_of(&draft);
        if (names_before == 0)
            continue; /* nested too deep, or a count over its limit */
        made++;
        if (!same_when_written_again(draft.bytes, draft.length, SYNTAX_IMAGE))
            violation(&draft, "another image when read and written");
        answer_largest(JOB_EXPAND, draft.bytes, draft.length, &expanded);
        if (expanded.code == FREE_VARIABLE)
            violation(&draft, "expand is refused with 3");
        if (expanded.code != SUCCESS || (is_local && expanded.local == 0))
            continue;
        accepted++;
        if (!same_when_written_again(expanded.output, expanded.length, SYNTAX_IMAGE))
            violation(&draft, "another image when the result is read and written");
        answer_largest(JOB_PARSE, expanded.output, expanded.length, &parsed);
        if (parsed.code == CHARGE_TOO_LARGE || parsed.code == TOO_LONG)
            continue;
        if (parsed.code != SUCCESS) {
            violation(&draft, "the result cannot be parsed");
            continue;
        }
        parsed_count++;
        if (!same_when_written_again(parsed.output, parsed.length, TREE_IMAGE))
            violation(&draft, "another image when the tree is read and written");
        const char *wrong = wrong_tree(parsed.output, parsed.length, names_before);
        if (wrong != NULL)
            violation(&draft, wrong);
        answer_largest(JOB_EVALUATE, parsed.output, parsed.length, &evaluated);
        if (evaluated.code == FREE_VARIABLE)
            violation(&draft, "evaluate gives 3");
        check_addresses(&draft, &parsed);
    }
    printf("%llu programs, %llu accepted, %llu parsed, %llu of them panel programs with bits, "
           "%llu violations\n",
           (unsigned long long)made, (unsigned long long)accepted,
           (unsigned long long)parsed_count, (unsigned long long)with_bits,
           (unsigned long long)violations);
    free_memory(memory);
    return violations == 0 ? 0 : 1;
}
