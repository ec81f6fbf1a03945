/* The panel profile of request T-01: the trees that the panel's compiler takes,
   and the addresses of their bits. */
#ifndef PANEL_H
#define PANEL_H

#include <stdbool.h>
#include <stdint.h>

#include "pieces.h"

enum { POINTS = LARGEST_POINT + 1 };

typedef struct {
    uint32_t bit_count;        /* all functions, also those over MOST_BITS */
    uint32_t names[MOST_BITS]; /* of the bits, by address */
    bool driven[POINTS];       /* points that an `out` drives */
    bool driven_twice;         /* some point by two */
} Panel;

/* Looks through a closed tree: 21, 22, 23 or SUCCESS. The panel is settled only
   after SUCCESS. */
Code check_panel(const Tree *tree, Panel *panel);

#endif
