/* Random calls, most of them nearly valid, several on one store that changes with the answers. */
#ifndef DRAW_CALL_H
#define DRAW_CALL_H

#include "scene.h"

/* Draws the next call, and what it is lent, in the scene's rooms. */
void draw_call(struct scene *scene, struct call *call);

/* Ends the call: takes back what was meant for it alone. */
void call_answered(struct scene *scene, bool stored);

#endif
