/* The panel check. The tree is closed, so that a variable in it is a bit: every
   function of a program is one. */
#include "panel.h"

#include <string.h>

static bool is_atom(const Tree *tree, ObjectTag tag)
{
    return tree->tag == ATOM && tree->atom.tag == tag;
}

/* Whether the tree is an application of a rung word; which one it is. */
static bool is_rung(const Tree *tree, uint32_t *word)
{
    if (tree->tag != APPLICATION || !is_atom(tree->parts[0], RUNG_WORD))
        return false;
    *word = tree->parts[0]->atom.content;
    return true;
}

/* ---- expressions ---- */

static bool takes_arguments(uint32_t word, uint32_t count)
{
    switch (word) {
    case RUNG_AND:
    case RUNG_OR:
        return count >= 2;
    case RUNG_NOT:
        return count == 1;
    default:
        return false;
    }
}

static bool is_expression(const Tree *tree)
{
    if (tree->tag == VARIABLE || is_atom(tree, POINT))
        return true;
    uint32_t word;
    if (!is_rung(tree, &word) || !takes_arguments(word, tree->count - 1))
        return false;
    for (uint32_t i = 1; i < tree->count; i++)
        if (!is_expression(tree->parts[i]))
            return false;
    return true;
}

/* ---- programs ---- */

static bool is_program(const Tree *tree, Panel *panel);

/* A function applied to its start value: the next address is its bit's. */
static bool is_bit(const Tree *tree, Panel *panel)
{
    const Tree *function = tree->parts[0];
    if (tree->count != 2)
        return false;
    const Tree *start = tree->parts[1];
    if (!is_atom(start, NUMBER) || start->atom.content > 1)
        return false;
    if (panel->bit_count < MOST_BITS)
        panel->names[panel->bit_count] = function->name;
    panel->bit_count++;
    return is_program(function->parts[0], panel);
}

static bool are_programs(const Tree *tree, Panel *panel)
{
    if (tree->count < 2)
        return false;
    for (uint32_t i = 1; i < tree->count; i++)
        if (!is_program(tree->parts[i], panel))
            return false;
    return true;
}

static bool is_out(const Tree *tree, Panel *panel)
{
    if (tree->count != 3 || !is_atom(tree->parts[1], POINT))
        return false;
    uint32_t point = tree->parts[1]->atom.content;
    if (panel->driven[point])
        panel->driven_twice = true;
    panel->driven[point] = true;
    return is_expression(tree->parts[2]);
}

static bool is_set(const Tree *tree)
{
    return tree->count == 3 && tree->parts[1]->tag == VARIABLE && is_expression(tree->parts[2]);
}

static bool is_program(const Tree *tree, Panel *panel)
{
    if (tree->tag == APPLICATION && tree->parts[0]->tag == FUNCTION)
        return is_bit(tree, panel);
    uint32_t word;
    if (!is_rung(tree, &word))
        return false;
    switch (word) {
    case RUNG_ALL:
        return are_programs(tree, panel);
    case RUNG_OUT:
        return is_out(tree, panel);
    case RUNG_SET:
        return is_set(tree);
    default:
        return false;
    }
}

Code check_panel(const Tree *tree, Panel *panel)
{
    memset(panel, 0, sizeof *panel);
    if (!is_program(tree, panel))
        return OUTSIDE_PROFILE;
    if (panel->driven_twice)
        return DRIVEN_TWICE;
    if (panel->bit_count > MOST_BITS)
        return TOO_MANY_BITS;
    return SUCCESS;
}
