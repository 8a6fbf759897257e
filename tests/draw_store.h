/* Random stores: full ones, ones with holes, bad ones. And what stands in them. */
#ifndef DRAW_STORE_H
#define DRAW_STORE_H

#include "scene.h"

/* The updates of the last store drawn, while it is good. */
extern struct held {
    uint32_t count;
    const uint8_t *updates[32];
} held;

void draw_store(struct lent *store);

/* Looks the updates up again, when a call has changed the store. */
void find_held(const struct lent *store);

/* A processor, as a pair with one platform: of the usual signatures, or of a stored update too. */
struct pair usual_processor(void);
struct pair some_processor(void);

/* One of the processors that a pair names; any platform if it names none. */
struct pair processor_of(struct pair pair);

#endif
