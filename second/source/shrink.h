/* An image of the same meaning without dead bindings and unused scopes. */
#ifndef SHRINK_H
#define SHRINK_H

#include "image.h"

/* The root is made anew in the memory given. */
void shrink_image(Memory *memory, Image *image);

#endif
