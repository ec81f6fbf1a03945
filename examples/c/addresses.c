/* addresses FILE: expands and parses a syntax image, checks that the panel takes the tree, and prints the tree's bits with their addresses.
 * Each bit has a name of its own (condition 3), so one name is one address and one address one name. */
#include <stdio.h>

#include "meirhuppa.h"

#define BUDGET 1024u

static uint32_t table[MEIRHUPPA_WORDS_PER_UNIT * BUDGET];
static uint8_t image[MEIRHUPPA_MOST_IMAGE + 1];
static uint8_t expanded[MEIRHUPPA_MOST_IMAGE];
static uint8_t tree[MEIRHUPPA_MOST_IMAGE];
static uint32_t bits[MEIRHUPPA_MOST_BITS];

static int refused(const char *job, meirhuppa_answer answer)
{
    fprintf(stderr, "%s: refused with code %u after %u units: %s", job, (unsigned)answer.code, (unsigned)answer.units,
            meirhuppa_meaning(answer.code));
    if (answer.code == MEIRHUPPA_AMBIGUOUS)
        fprintf(stderr, ": bindings %u and %u compete", (unsigned)answer.first, (unsigned)answer.second);
    fputc('\n', stderr);
    return 1;
}

static void print_bits(uint32_t count)
{
    for (uint32_t address = 0; address < count; address++)
        printf("bit %u: address %u\n", (unsigned)bits[address], (unsigned)address);
}

int main(int argc, char **argv)
{
    FILE *file;
    size_t length;
    meirhuppa_answer answer;

    if (argc != 2 || (file = fopen(argv[1], "rb")) == NULL) {
        fprintf(stderr, "usage: addresses FILE, where FILE is a syntax image\n");
        return 2;
    }
    length = fread(image, 1, sizeof image, file);
    fclose(file);
    answer = meirhuppa_expand(image, length, 0, BUDGET, table, sizeof table / sizeof *table, expanded, sizeof expanded);
    if (answer.code != MEIRHUPPA_SUCCESS)
        return refused("expand", answer);
    answer = meirhuppa_parse(expanded, answer.length, BUDGET, table, sizeof table / sizeof *table, tree, sizeof tree);
    if (answer.code != MEIRHUPPA_SUCCESS)
        return refused("parse", answer);
    answer = meirhuppa_panel(tree, answer.length, bits, sizeof bits / sizeof *bits);
    if (answer.code != MEIRHUPPA_SUCCESS)
        return refused("panel", answer);
    print_bits(answer.length / sizeof *bits);
    return 0;
}
