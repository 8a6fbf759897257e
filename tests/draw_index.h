/* Random indexes, most of them the store's own or nearly, and what an index is carried with. */
#ifndef DRAW_INDEX_H
#define DRAW_INDEX_H

#include "scene.h"

/* The index that the call reads. */
void draw_index(struct scene *scene);

/* The numbers of a write that may have been, or any; what is in the index that the call writes. */
void draw_carry(struct scene *scene, struct call *call);

#endif
