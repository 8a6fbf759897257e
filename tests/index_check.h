/* What the functions of one build owe each other where an index is in play. */
#ifndef INDEX_CHECK_H
#define INDEX_CHECK_H

#include "scene.h"

/* Before the call: looks at the store, and at the index that the call reads. */
void index_before(const struct scene *scene, struct call *call);

/* After it: null, or what is wrong. */
const char *index_check(const struct scene *scene, const struct call *call,
                        const uint32_t *answer);

#endif
