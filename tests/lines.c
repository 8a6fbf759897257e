#define _POSIX_C_SOURCE 200809L /* write */

#include "lines.h"

#include <string.h>
#include <unistd.h>

enum { ROOM = 4096 };

static char text_room[ROOM];
static uint32_t used;

void said(void)
{
    uint32_t written = 0;
    while (written < used) {
        ssize_t count = write(1, text_room + written, used - written);
        if (count <= 0)
            break;
        written += (uint32_t)count;
    }
    used = 0;
}

static void say_byte(char byte)
{
    if (used == ROOM)
        said();
    text_room[used++] = byte;
}

void say(const char *text)
{
    say_wide(text, 0);
}

void say_wide(const char *text, uint32_t width)
{
    uint32_t length = (uint32_t)strlen(text);
    for (uint32_t i = 0; i < length; i++)
        say_byte(text[i]);
    for (uint32_t i = length; i < width; i++)
        say_byte(' ');
}

static uint32_t digit_count(uint32_t number)
{
    uint32_t digits = 1;
    for (; number >= 10; number /= 10)
        digits++;
    return digits;
}

void say_number(uint32_t number, uint32_t width)
{
    uint32_t digits = digit_count(number);
    uint32_t unit = 1;
    for (uint32_t i = digits; i < width; i++)
        say_byte(' ');
    for (uint32_t i = 1; i < digits; i++)
        unit *= 10;
    for (; unit > 0; unit /= 10)
        say_byte((char)('0' + number / unit % 10));
}

void say_hex(uint32_t number, uint32_t digits)
{
    for (uint32_t shift = 4 * digits; shift > 0; shift -= 4)
        say_byte("0123456789abcdef"[number >> (shift - 4) & 15]);
}
