/* The library's sum in plain C, to time beside it. */
#ifndef PLAIN_SUM_H
#define PLAIN_SUM_H

#include <stddef.h>
#include <stdint.h>

/* The sum of the dwords, modulo 2^32: sixteen a turn to four sums, then the rest, one a turn. */
uint32_t plain_sum(const uint8_t *bytes, size_t length);

#endif
