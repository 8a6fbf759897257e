/* Counts the answers by call and code. */
#ifndef TALLY_H
#define TALLY_H

#include <stdbool.h>
#include <stdint.h>

#include "scene.h"

/* False if the call may not give this code. */
bool tally_add(const struct call *call, const uint32_t *answer);

/* Writes the counts; false if there is a code that no call gave. */
bool tally_say(void);

#endif
