/* calls: a stream of calls made up by chance from a seed.

       calls --seed S --count N [--small BYTES] [--local PERCENT]

   Each call is first answered with all the budget and output there is. The
   calls then hand out budgets, tables and outputs around what it needed.
   --small keeps images, recordings and parts shorter than so many bytes, and nearly
   all budgets to 200 at most. --local says how many of a hundred drafts are programs with
   local expansion, 15 where it is not given; with 0 there is no primitive over 6. */
#include <stdlib.h>
#include <string.h>

#include "chance.h"
#include "drafts.h"
#include "panel.h"
#include "stream.h"

static uint32_t local_share = 15;
static uint32_t small; /* images are shorter than this; 0 where they need not be */
static Memory *memory;
static uint64_t wanted;

static uint32_t choose_phase(void)
{
    if (percent(80))
        return 0;
    return percent(95) ? below(3) : between(3, 5);
}

static uint32_t choose_budget(uint32_t need)
{
    uint32_t choice = below(100);
    if (choice < 45)
        return need + below(20);
    if (choice < 58)
        return need;
    if (choice < 64 && need > 0)
        return need - 1;
    if (choice < 85)
        return below(need + 1);
    if (choice < 95)
        return small > 0 ? 200 : MOST_BUDGET;
    if (choice < 97)
        return MOST_BUDGET - below(2) + below(3);
    if (choice < 98)
        return percent(50) ? (uint32_t)next_chance() : 4096 + below(300);
    return below(40);
}

static uint32_t choose_table(uint32_t budget)
{
    if (budget > MOST_BUDGET)
        return below(LARGEST_STREAM_TABLE + 1);
    uint32_t need = TABLE_WORDS_PER_UNIT * budget;
    uint32_t choice = below(100);
    if (choice < 90)
        return need;
    if (choice < 94)
        return need + between(1, 40);
    if (choice < 96 && need > 0)
        return need - 1;
    if (choice < 97)
        return 0;
    if (choice < 98)
        return below(need + 1);
    return need + below(LARGEST_STREAM_TABLE - need + 1);
}

static uint32_t choose_output(uint32_t need)
{
    uint32_t choice = below(100);
    if (choice < 50)
        return need;
    if (choice < 60)
        return need + between(1, 30);
    if (choice < 68 && need > 0)
        return need - 1;
    if (choice < 74)
        return below(need + 1);
    if (choice < 97)
        return LONGEST_IMAGE;
    return LONGEST_IMAGE + below(3) - 1;
}

/* Phase, budget and table of a job that takes none. In its place some have a name or a place. */
static void choose_unused(Call *call)
{
    if (!takes_summary(call->job))
        call->phase = percent(95) ? below(5) : (uint32_t)next_chance();
    call->budget = percent(95) ? below(4) : (uint32_t)next_chance();
    call->table_words = percent(95) ? below(90) : below(LARGEST_STREAM_TABLE + 1);
}

/* The output of the panel check and of a summary is words. */
static uint32_t choose_words_output(uint32_t need)
{
    uint32_t choice = below(100);
    if (choice < 30)
        return need;
    if (choice < 50)
        return need + between(1, 9);
    if (choice < 60 && need > 0)
        return need - between(1, 4);
    if (choice < 68)
        return below(need + 1);
    return choice < 98 ? MOST_BITS * BYTES_PER_WORD : LONGEST_IMAGE;
}

/* Lines may be longer than an image. */
static uint32_t choose_lines_output(uint32_t need)
{
    uint32_t choice = below(100);
    if (choice < 8 && need > 0)
        return need - 1;
    if (choice < 14)
        return below(need + 1);
    if (choice < 50)
        return need;
    return choice < 60 && need < LARGEST_STREAM_SIZE ? need + 1 : LARGEST_STREAM_SIZE;
}

/* A recording for the image of a call, whatever the image is. */
static void add_recording(Call *call)
{
    static Draft recorded;
    static Image image;
    static Panel panel;
    memset(&panel, 0, sizeof panel);
    clear_memory(memory);
    load_panel(memory, call, &image, &panel);
    draft_recording(panel.driven, small > 0, &recorded);
    if (percent(8))
        damage_draft(&recorded, &recorded);
    call->recording = recorded.bytes;
    call->recording_length = recorded.length;
}

/* A name or a place, a summary and a part. Where the image is no tree, they are
   those of an image before it. */
static void add_summary(Call *call)
{
    static Draft summary, part;
    static Image image;
    clear_memory(memory);
    if (read_image(memory, call->image, call->image_length, TREE_IMAGE, &image) == SUCCESS) {
        call->phase = call->job == JOB_USES ? draft_name(&image) : draft_place(&image);
        draft_summary(&image, &summary);
        draft_part(memory, &image, call->phase, &part);
    }
    call->summary = summary.bytes;
    call->summary_length = summary.length;
    call->part = part.bytes;
    call->part_length = part.length;
}

static uint32_t choose_unbudgeted_output(Job job, uint32_t need)
{
    if (job == JOB_PANEL || job == JOB_SUMMARY)
        return choose_words_output(need);
    return job == JOB_SCAN ? choose_lines_output(need) : choose_output(need);
}

static void choose_sizes(Call *call, const Answer *answer)
{
    if (is_unbudgeted(call->job)) {
        choose_unused(call);
        call->output_length = choose_unbudgeted_output(call->job, answer->length);
    } else {
        call->budget = choose_budget(answer->units);
        call->table_words = choose_table(call->budget);
        call->output_length = choose_output(answer->length);
    }
}

/* Whether a call is within what --small asks for. */
static bool is_small_enough(const Call *call, const Answer *answer)
{
    if (call->image_length >= small || call->recording_length >= small || call->part_length >= small ||
        call->summary_length > 200 || answer->length > 200)
        return false;
    return (call->budget <= 200 || percent(5)) && call->budget <= 5000;
}

/* Emits a call of the job on the image, with sizes around its need. */
static void emit(Job job, const Draft *draft, Answer *answer)
{
    Call call = {.job = job,
                 .phase = job == JOB_PARSE || job == JOB_EVALUATE ? below(5) : choose_phase(),
                 .budget = MOST_BUDGET,
                 .table_words = TABLE_WORDS_PER_UNIT * MOST_BUDGET,
                 .output_length = job == JOB_SCAN ? LONGEST_OUTPUT : LONGEST_IMAGE,
                 .image = draft->bytes,
                 .image_length = draft->length};
    if (job == JOB_SCAN)
        add_recording(&call);
    if (takes_summary(job))
        add_summary(&call);
    answer_call(memory, &call, answer);
    if (wanted == 0)
        return;
    choose_sizes(&call, answer);
    if (small > 0 && !is_small_enough(&call, answer))
        return;
    write_call(stdout, &call);
    wanted--;
}

static Job choose_job(uint32_t kind)
{
    if (percent(2))
        return (Job)below(JOBS);
    if (kind == TREE_IMAGE)
        return percent(95) ? JOB_EVALUATE : percent(50) ? JOB_PANEL : JOB_SCAN;
    uint32_t choice = below(10);
    return choice < 5 ? JOB_EXPAND : choice < 8 ? JOB_PARSE : choice < 9 ? JOB_RESOLVE : JOB_PRINT;
}

static void make_draft(Draft *draft, Job *job)
{
    if (local_share > 0 && percent(local_share)) {
        if (percent(5)) {
            draft_tree(memory, draft);
            *job = JOB_EVALUATE;
            return;
        }
        draft_local(memory, small > 0, draft);
        *job = percent(97) ? JOB_EXPAND : choose_job(draft->kind);
        return;
    }
    uint32_t choice = below(100);
    if (percent(8)) {
        draft_text(small > 0, draft);
        *job = JOB_READ;
    } else if (percent(8)) {
        draft_finished(memory, draft);
        *job = percent(90) ? JOB_SHRINK : choose_job(draft->kind);
    } else if (percent(9)) {
        draft_contacts(memory, draft);
        *job = percent(65) ? JOB_REPLACE : percent(60) ? JOB_USES : percent(80) ? JOB_SUMMARY : choose_job(draft->kind);
    } else if (percent(6)) {
        *job = (Job[]){JOB_RESOLVE, JOB_EXPAND, JOB_PARSE}[below(3)];
        draft_rivals(memory, *job, draft);
    } else if (choice < 36) {
        draft_program(memory, draft);
        *job = percent(95) ? JOB_EXPAND : choose_job(draft->kind);
    } else if (choice < 44) {
        draft_identifier(memory, draft);
        *job = percent(95) ? JOB_RESOLVE : choose_job(draft->kind);
    } else if (choice < 53) {
        draft_object(memory, draft);
        *job = percent(65) ? JOB_PARSE : percent(75) ? JOB_PRINT : choose_job(draft->kind);
        if (below(300) == 0 && small == 0) {
            draft_long_words(memory, draft);
            *job = JOB_PRINT;
        }
    } else if (choice < 74) {
        draft_tree(memory, draft);
        *job = choose_job(draft->kind);
    } else if (choice < 86) {
        draft_panel(memory, draft);
        *job = percent(90) ? JOB_PANEL : percent(50) ? JOB_SCAN : choose_job(draft->kind);
    } else {
        draft_ladder(memory, draft);
        *job = JOB_SCAN;
    }
}

/* The written image of an answer becomes the next draft. */
static bool take_result(Draft *draft, const Answer *answer, uint32_t kind)
{
    if (answer->code != SUCCESS || answer->length == 0)
        return false;
    draft->kind = kind;
    draft->length = answer->length;
    memcpy(draft->bytes, answer->output, answer->length);
    return true;
}

/* Calls on what the last answer wrote: a text is read and printed, a program
   is expanded, made smaller or not, parsed and checked or evaluated in turn, a part is
   replaced after another. */
static void go_on(Job job, Draft *draft, Answer *answer)
{
    if (job == JOB_READ && percent(50) && take_result(draft, answer, SYNTAX_IMAGE)) {
        emit(percent(60) ? JOB_PRINT : JOB_EXPAND, draft, answer);
    } else if (job == JOB_PRINT && percent(30) && take_result(draft, answer, 0)) {
        emit(JOB_READ, draft, answer);
    } else if (job == JOB_SHRINK && percent(30) && take_result(draft, answer, SYNTAX_IMAGE)) {
        emit(percent(70) ? JOB_SHRINK : percent(50) ? JOB_PARSE : JOB_EXPAND, draft, answer);
    } else if (job == JOB_EXPAND && percent(35) && take_result(draft, answer, SYNTAX_IMAGE)) {
        if (percent(10)) { /* shown; what it wrote is no image */
            emit(JOB_PRINT, draft, answer);
            return;
        }
        if (percent(10)) /* expanded again */
            emit(JOB_EXPAND, draft, answer);
        if (percent(30) && take_result(draft, answer, SYNTAX_IMAGE))
            emit(JOB_SHRINK, draft, answer);
        if (take_result(draft, answer, SYNTAX_IMAGE))
            emit(JOB_PARSE, draft, answer);
        if (percent(40) && take_result(draft, answer, TREE_IMAGE))
            emit((Job[]){JOB_PANEL, JOB_PANEL, JOB_SCAN, JOB_SUMMARY, JOB_REPLACE}[below(5)], draft, answer);
    } else if (job == JOB_REPLACE && percent(50) && take_result(draft, answer, TREE_IMAGE)) {
        emit(percent(50) ? JOB_REPLACE : percent(50) ? JOB_USES : JOB_SUMMARY, draft, answer);
    } else if (job == JOB_PARSE && percent(50) && take_result(draft, answer, TREE_IMAGE)) {
        emit(percent(75) ? JOB_EVALUATE : JOB_PANEL, draft, answer);
    } else if (job == JOB_EVALUATE && percent(5) && take_result(draft, answer, TREE_IMAGE)) {
        emit(JOB_EVALUATE, draft, answer);
    }
}

int main(int count, char **arguments)
{
    static Draft draft, other;
    static Answer answer;
    uint64_t seed = 1;
    wanted = 1000;
    for (int i = 1; i < count; i++) {
        if (strcmp(arguments[i], "--seed") == 0 && i + 1 < count) {
            seed = strtoull(arguments[++i], NULL, 10);
        } else if (strcmp(arguments[i], "--count") == 0 && i + 1 < count) {
            wanted = strtoull(arguments[++i], NULL, 10);
        } else if (strcmp(arguments[i], "--small") == 0 && i + 1 < count) {
            small = (uint32_t)strtoul(arguments[++i], NULL, 10);
        } else if (strcmp(arguments[i], "--local") == 0 && i + 1 < count) {
            local_share = (uint32_t)strtoul(arguments[++i], NULL, 10);
        } else {
            fprintf(stderr, "calls --seed S --count N [--small BYTES] [--local PERCENT]\n");
            return 2;
        }
    }
    if (local_share == 0)
        draft_primitives = 7;
    memory = new_memory();
    start_chance(seed);
    draft_tree(memory, &other);
    while (wanted > 0) {
        Job job;
        make_draft(&draft, &job);
        if (percent(15)) {
            damage_draft(&draft, &other);
            emit(job, &draft, &answer);
        } else {
            emit(job, &draft, &answer);
            if (percent(15)) /* the same image with other sizes */
                emit(job, &draft, &answer);
            go_on(job, &draft, &answer);
        }
        if (percent(30))
            other = draft;
    }
    free_memory(memory);
    return fflush(stdout) == 0 ? 0 : 1;
}
