#include "jobs.h"

#include <string.h>

#include "shrink.h"
#include "text.h"
#include "work.h"

/* Code 3: a variable, outside syntax values, without a function of its name
   around it. The functions around a tree are a chain, innermost first. */
typedef struct Around Around;
struct Around {
    uint32_t name;
    const Around *outer;
};

static bool is_closed(const Tree *tree, const Around *around)
{
    if (tree->tag == VARIABLE) {
        while (around != NULL && around->name != tree->name)
            around = around->outer;
        return around != NULL;
    }
    Around here = {.name = tree->name, .outer = around};
    for (uint32_t i = 0; i < tree->count; i++)
        if (!is_closed(tree->parts[i], tree->tag == FUNCTION ? &here : around))
            return false;
    return true;
}

/* The work of a job on an image already loaded and charged. */

static void do_resolve(Work *work, uint32_t phase, uint32_t *name)
{
    if (!is_identifier(work->image->object))
        refuse(work, NO_RULE);
    else
        resolve(work, work->image->object, phase, name);
}

static void do_expand(Work *work, uint32_t phase)
{
    work->image->object = expand(work, work->image->object, phase, NULL, NULL);
}

static void do_parse(Work *work)
{
    work->image->tree = parse(work, work->image->object, 0);
    work->image->kind = TREE_IMAGE;
}

static void do_evaluate(Work *work)
{
    work->image->tree = evaluate(work, work->image->tree, NULL);
}

/* The room for an image or a text. */
static size_t room_of(const Call *call)
{
    return call->output_length < LONGEST_IMAGE ? call->output_length : LONGEST_IMAGE;
}

/* False where the image is longer than the output. */
static bool write_result(const Call *call, const Image *image, Answer *answer)
{
    size_t length;
    if (!write_image(image, answer->output, room_of(call), &length))
        return false;
    answer->length = (uint32_t)length;
    return true;
}

static void do_job(Work *work, const Call *call, Answer *answer)
{
    Image *image = work->image;
    if (!charge(work, image->tree != NULL ? image->tree->loading_size : image->object->size))
        return;
    uint32_t name = 0;
    switch (call->job) {
    case JOB_RESOLVE:
        do_resolve(work, call->phase, &name);
        if (work->code == SUCCESS)
            answer->name = name;
        return;
    case JOB_EXPAND:
        do_expand(work, call->phase);
        break;
    case JOB_PARSE:
        do_parse(work);
        break;
    case JOB_EVALUATE:
        do_evaluate(work);
        break;
    default:
        return; /* takes no budget and does not come here */
    }
    if (work->code == SUCCESS && !write_result(call, image, answer))
        refuse(work, TOO_LONG);
}

/* A word of the output: four bytes, low byte first. */
static void put_word(Answer *answer, uint32_t word)
{
    for (int byte = 0; byte < BYTES_PER_WORD; byte++)
        answer->output[answer->length++] = (uint8_t)(word >> (8 * byte));
}

/* The names of the bits by address. */
static void write_bits(const Panel *panel, Answer *answer)
{
    for (uint32_t i = 0; i < panel->bit_count; i++)
        put_word(answer, panel->names[i]);
}

static Code read_tree_image(Memory *memory, const Call *call, Image *image)
{
    return read_image(memory, call->image, call->image_length, TREE_IMAGE, image);
}

Code load_panel(Memory *memory, const Call *call, Image *image, Panel *panel)
{
    Code code = read_tree_image(memory, call, image);
    if (code != SUCCESS)
        return code;
    if (!is_closed(image->tree, NULL))
        return FREE_VARIABLE;
    return check_panel(image->tree, panel);
}

static void answer_panel(Memory *memory, const Call *call, Image *image, Answer *answer)
{
    static Panel panel;
    answer->code = load_panel(memory, call, image, &panel);
    if (answer->code != SUCCESS)
        return;
    uint32_t room = call->output_length / BYTES_PER_WORD; /* whole words */
    if (panel.bit_count > room)
        answer->code = TOO_LONG;
    else
        write_bits(&panel, answer);
}

Code load_scans(Memory *memory, const Call *call, Runner *runner, Recording *recording)
{
    static Image image;
    static Panel panel;
    Code code = load_panel(memory, call, &image, &panel);
    if (code != SUCCESS)
        return code;
    code = read_recording(memory, call->recording, call->recording_length, recording);
    if (code != SUCCESS)
        return code;
    if (changes_driven(recording, panel.driven))
        return CHANGES_DRIVEN;
    start_runner(memory, image.tree, &panel, runner);
    return SUCCESS;
}

/* The lines one after another, as long as they go in. */
static bool write_lines(Runner *runner, const Recording *recording, size_t room, Answer *answer)
{
    uint8_t line[LONGEST_LINE];
    size_t written = 0;
    for (uint32_t i = 0; i < recording->count; i++) {
        size_t length = run_scan(runner, &recording->scans[i], line);
        if (length > room - written)
            return false;
        memcpy(answer->output + written, line, length);
        written += length;
    }
    answer->length = (uint32_t)written;
    return true;
}

static void answer_scan(Memory *memory, const Call *call, Answer *answer)
{
    static Runner runner;
    Recording recording;
    answer->code = load_scans(memory, call, &runner, &recording);
    if (answer->code != SUCCESS)
        return;
    size_t room = call->output_length < LONGEST_OUTPUT ? call->output_length : LONGEST_OUTPUT;
    if (!write_lines(&runner, &recording, room, answer))
        answer->code = TOO_LONG;
}

static void answer_read(Memory *memory, const Call *call, Image *image, Answer *answer)
{
    answer->code = read_text(memory, call->image, call->image_length, image);
    if (answer->code == SUCCESS && !write_result(call, image, answer))
        answer->code = TOO_LONG;
}

static void answer_print(Memory *memory, const Call *call, Image *image, Answer *answer)
{
    answer->code = read_image(memory, call->image, call->image_length, SYNTAX_IMAGE, image);
    if (answer->code != SUCCESS)
        return;
    size_t length;
    if (print_text(image, answer->output, room_of(call), &length))
        answer->length = (uint32_t)length;
    else
        answer->code = TOO_LONG;
}

/* A question to a summary reads one entry. */
static void put_uses(Answer *answer, Uses uses)
{
    put_word(answer, uses.count);
    put_word(answer, uses.first);
}

static void answer_summary(Memory *memory, const Call *call, Image *image, Answer *answer)
{
    static Summary summary;
    answer->code = read_tree_image(memory, call, image);
    if (answer->code != SUCCESS)
        return;
    if (summary_words(image->names) > call->output_length / BYTES_PER_WORD) {
        answer->code = TOO_LONG;
        return;
    }
    summarize(image->tree, image->names, &summary);
    put_word(answer, summary.size);
    put_word(answer, summary.names);
    for (uint32_t name = 0; name < summary.names; name++)
        put_uses(answer, summary.uses[name]);
}

static Code load_summary(Memory *memory, const Call *call, Image *image, Summary *summary)
{
    Code code = read_tree_image(memory, call, image);
    if (code != SUCCESS)
        return code;
    return read_summary(call->summary, call->summary_length, image, summary) ? SUCCESS : ANOTHER_SUMMARY;
}

static void answer_uses(Memory *memory, const Call *call, Image *image, Answer *answer)
{
    static Summary summary;
    uint32_t name = call->phase;
    answer->code = load_summary(memory, call, image, &summary);
    if (answer->code != SUCCESS)
        return;
    if (name < summary.names)
        put_uses(answer, summary.uses[name]);
    else
        answer->code = NO_SUCH_NAME;
}

static void answer_replace(Memory *memory, const Call *call, Image *image, Answer *answer)
{
    const Tree *new;
    Part old;
    answer->code = load_summary(memory, call, image, &answer->summary);
    if (answer->code != SUCCESS)
        return;
    if (!find_part(image->tree, call->phase, &old)) {
        answer->code = ANOTHER_SUMMARY;
        return;
    }
    answer->code = read_part(memory, call->part, call->part_length, image, old.level, old.only_values, &new);
    if (answer->code != SUCCESS)
        return;
    replace_in_summary(&answer->summary, image->tree, &old, new);
    image->tree = with_part(memory, image->tree, old.tree, new);
    if (!write_result(call, image, answer))
        answer->code = TOO_LONG;
}

static void answer_shrink(Memory *memory, const Call *call, Image *image, Answer *answer)
{
    answer->code = read_image(memory, call->image, call->image_length, SYNTAX_IMAGE, image);
    if (answer->code != SUCCESS)
        return;
    shrink_image(memory, image);
    if (!write_result(call, image, answer))
        answer->code = TOO_LONG;
}

/* A job that takes neither budget nor table, nor a phase. */
static void answer_unbudgeted(Memory *memory, const Call *call, Image *image, Answer *answer)
{
    switch (call->job) {
    case JOB_PANEL:
        answer_panel(memory, call, image, answer);
        break;
    case JOB_SCAN:
        answer_scan(memory, call, answer);
        break;
    case JOB_READ:
        answer_read(memory, call, image, answer);
        break;
    case JOB_SUMMARY:
        answer_summary(memory, call, image, answer);
        break;
    case JOB_USES:
        answer_uses(memory, call, image, answer);
        break;
    case JOB_REPLACE:
        answer_replace(memory, call, image, answer);
        break;
    case JOB_SHRINK:
        answer_shrink(memory, call, image, answer);
        break;
    default:
        answer_print(memory, call, image, answer);
        break;
    }
}

void answer_call(Memory *memory, const Call *call, Answer *answer)
{
    static Image image;
    clear_memory(memory);
    answer->units = answer->name = answer->length = answer->first = answer->second = answer->local = 0;

    if (is_unbudgeted(call->job)) {
        answer_unbudgeted(memory, call, &image, answer);
        return;
    }
    if (call->budget > MOST_BUDGET ||
        call->table_words < TABLE_WORDS_PER_UNIT * call->budget) {
        answer->code = BAD_BUDGET;
        return;
    }
    bool takes_phase = call->job == JOB_RESOLVE || call->job == JOB_EXPAND;
    if (takes_phase && call->phase > LAST_PHASE) {
        answer->code = PHASE_OVER;
        return;
    }
    uint32_t kind = call->job == JOB_EVALUATE ? TREE_IMAGE : SYNTAX_IMAGE;
    answer->code = read_image(memory, call->image, call->image_length, kind, &image);
    if (answer->code != SUCCESS)
        return;
    if (call->job == JOB_EVALUATE && !is_closed(image.tree, NULL)) {
        answer->code = FREE_VARIABLE;
        return;
    }
    Work work = {.budget = call->budget, .code = SUCCESS, .image = &image, .memory = memory};
    do_job(&work, call, answer);
    answer->code = work.code;
    answer->units = work.units;
    answer->first = work.first;
    answer->second = work.second;
    answer->local = work.local;
}
