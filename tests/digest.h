/* A digest of all that the calls left behind. */
#ifndef DIGEST_H
#define DIGEST_H

#include <stdint.h>

void digest(const void *from, uint32_t length);

void digest_say(void);

#endif
