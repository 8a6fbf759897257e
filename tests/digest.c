/* Four lanes of 32 bits. */
#include "digest.h"

#include "lines.h"
#include "update.h"

enum { LANES = 4 };

static uint32_t lanes[LANES] = { 1, 2, 3, 4 };

static uint32_t mixed(uint32_t lane, uint32_t word)
{
    lane = (lane ^ word) * 0x9E3779B1u;
    return lane << 13 | lane >> 19;
}

void digest(const void *from, uint32_t length)
{
    const uint8_t *bytes = from;
    uint32_t a = lanes[0], b = lanes[1], c = lanes[2], d = mixed(lanes[3], length);
    for (; length >= 16; length -= 16, bytes += 16) {
        a = mixed(a, dword(bytes, 0));
        b = mixed(b, dword(bytes, 4));
        c = mixed(c, dword(bytes, 8));
        d = mixed(d, dword(bytes, 12));
    }
    for (; length > 0; length--, bytes++)
        a = mixed(a, *bytes);
    lanes[0] = a;
    lanes[1] = b;
    lanes[2] = c;
    lanes[3] = d;
}

void digest_say(void)
{
    say("digest ");
    for (int i = 0; i < LANES; i++)
        say_hex(lanes[i], 8);
    say("\n");
}
