/* Random updates around given pairs. */
#ifndef DRAW_UPDATE_H
#define DRAW_UPDATE_H

#include "update.h"

/* A good update of so many blocks with the pairs that it has already. */
void draw_update(struct update *update, uint32_t blocks);

/* Breaks one rule, or nearly does; the sums stay right unless they are the rule. */
void damage_update(struct update *update);

uint32_t draw_revision(void);

#endif
