/*
 * Small repeatable random numbers, the same on every target. There is one row of them: where an
 * expression draws two, C has to say which comes first, or it must not matter.
 */
#ifndef RANDOM_H
#define RANDOM_H

#include <stdbool.h>
#include <stdint.h>

void seed(uint64_t number);

uint32_t random_word(void);

/* From 0 to limit - 1. */
uint32_t below(uint32_t limit);

/* From low to high. */
uint32_t between(uint32_t low, uint32_t high);

/* True in so many of a hundred cases. */
bool chance(uint32_t percent);

/* One number of an array. */
#define PICK(of) ((of)[below(sizeof(of) / sizeof((of)[0]))])

#endif
