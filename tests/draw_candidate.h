/* Random candidates of a write, and processor lists for them. */
#ifndef DRAW_CANDIDATE_H
#define DRAW_CANDIDATE_H

#include "scene.h"

/* A candidate for the scene's store, and in most cases a new list. */
void draw_candidate(struct scene *scene);

#endif
