#include "scans.h"

#include <string.h>

/* ---- the wired program ---- */

typedef enum { CONTACT, NOT_OF, AND_OF, OR_OF } ExpressionKind;

typedef struct Expression Expression;
struct Expression {
    ExpressionKind kind;
    uint32_t place; /* of a contact */
    uint32_t count;
    const Expression *parts;
};

struct Rung {
    uint32_t place; /* of the coil: what `out` drives or `set` sets */
    Expression driving;
    const Rung *next;
};

/* ---- wiring ---- */

/* The bits around a part of the program, innermost first. */
typedef struct Bits Bits;
struct Bits {
    uint32_t name;
    uint32_t place;
    const Bits *outer;
};

typedef struct {
    Memory *memory;
    Runner *runner;
    uint32_t bit_count;
    const Rung **last; /* where the next rung is hung */
} Wiring;

static uint32_t place_of(const Tree *tree, const Bits *bits)
{
    if (tree->tag == ATOM)
        return tree->atom.content;
    while (bits->name != tree->name)
        bits = bits->outer;
    return bits->place;
}

static ExpressionKind kind_of(const Tree *tree)
{
    if (tree->tag != APPLICATION)
        return CONTACT;
    switch (tree->parts[0]->atom.content) {
    case RUNG_AND:
        return AND_OF;
    case RUNG_OR:
        return OR_OF;
    default:
        return NOT_OF;
    }
}

static void wire_expression(Wiring *wiring, const Tree *tree, const Bits *bits, Expression *made)
{
    made->kind = kind_of(tree);
    made->count = 0;
    made->parts = NULL;
    if (made->kind == CONTACT) {
        made->place = place_of(tree, bits);
        return;
    }
    made->count = tree->count - 1;
    Expression *parts = take_memory(wiring->memory, made->count * sizeof(Expression));
    for (uint32_t i = 0; i < made->count; i++)
        wire_expression(wiring, tree->parts[i + 1], bits, &parts[i]);
    made->parts = parts;
}

static void wire_rung(Wiring *wiring, const Tree *tree, const Bits *bits)
{
    Rung *rung = take_memory(wiring->memory, sizeof(Rung));
    rung->place = place_of(tree->parts[1], bits);
    wire_expression(wiring, tree->parts[2], bits, &rung->driving);
    rung->next = NULL;
    *wiring->last = rung;
    wiring->last = &rung->next;
}

static void wire(Wiring *wiring, const Tree *tree, const Bits *bits);

/* A bit's address is how many functions were met before it. */
static void wire_bit(Wiring *wiring, const Tree *tree, const Bits *bits)
{
    const Tree *function = tree->parts[0];
    Bits inner = {.name = function->name, .place = POINTS + wiring->bit_count, .outer = bits};
    wiring->bit_count++;
    wiring->runner->values[inner.place] = tree->parts[1]->atom.content == 1;
    wire(wiring, function->parts[0], &inner);
}

static void wire(Wiring *wiring, const Tree *tree, const Bits *bits)
{
    if (tree->parts[0]->tag == FUNCTION) {
        wire_bit(wiring, tree, bits);
    } else if (tree->parts[0]->atom.content == RUNG_ALL) {
        for (uint32_t i = 1; i < tree->count; i++)
            wire(wiring, tree->parts[i], bits);
    } else {
        wire_rung(wiring, tree, bits);
    }
}

void start_runner(Memory *memory, const Tree *program, const Panel *panel, Runner *runner)
{
    memset(runner, 0, sizeof *runner);
    Wiring wiring = {.memory = memory, .runner = runner, .last = &runner->rungs};
    wire(&wiring, program, NULL);
    for (uint32_t point = 0; point < POINTS; point++)
        if (panel->driven[point])
            runner->driven[runner->driven_count++] = point;
}

/* ---- a scan ---- */

static bool is_on(const Expression *expression, const bool values[PLACES])
{
    if (expression->kind == CONTACT)
        return values[expression->place];
    if (expression->kind == NOT_OF)
        return !is_on(&expression->parts[0], values);
    bool all = expression->kind == AND_OF;
    for (uint32_t i = 0; i < expression->count; i++)
        if (is_on(&expression->parts[i], values) != all)
            return !all;
    return all;
}

static void apply_changes(Runner *runner, const Scan *scan)
{
    for (uint32_t i = 0; i < scan->count; i++)
        runner->values[scan->changes[i].point] = scan->changes[i].value;
}

static void work_rungs(Runner *runner)
{
    for (const Rung *rung = runner->rungs; rung != NULL; rung = rung->next)
        runner->values[rung->place] = is_on(&rung->driving, runner->values);
}

/* ---- its line ---- */

static uint8_t *write_number(uint8_t *end, uint32_t number)
{
    uint32_t power = 1;
    while (number / power > 9)
        power *= 10;
    for (; power > 0; power /= 10)
        *end++ = (uint8_t)('0' + number / power % 10);
    return end;
}

static size_t write_line(const Runner *runner, uint8_t *line)
{
    uint8_t *end = write_number(line, runner->scans_done);
    for (uint32_t i = 0; i < runner->driven_count; i++) {
        *end++ = ' ';
        *end++ = '@';
        end = write_number(end, runner->driven[i]);
        *end++ = '=';
        *end++ = runner->values[runner->driven[i]] ? '1' : '0';
    }
    *end++ = '\n';
    return (size_t)(end - line);
}

size_t run_scan(Runner *runner, const Scan *scan, uint8_t *line)
{
    apply_changes(runner, scan);
    work_rungs(runner);
    runner->scans_done++;
    return write_line(runner, line);
}
