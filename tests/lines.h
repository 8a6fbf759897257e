/* What the test programs write to standard output. */
#ifndef LINES_H
#define LINES_H

#include <stdint.h>

void say(const char *text);

/* A text, with spaces behind it up to a width. */
void say_wide(const char *text, uint32_t width);

/* A decimal number, with spaces before it up to a width. */
void say_number(uint32_t number, uint32_t width);

/* A number of so many hex digits. */
void say_hex(uint32_t number, uint32_t digits);

/* Writes out what was said so far. */
void said(void);

#endif
