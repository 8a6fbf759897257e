#include "plain_sum.h"

#include <string.h>

static uint32_t dword(const uint8_t *at)
{
    uint32_t x;
    memcpy(&x, at, sizeof x);
    return x;
}

uint32_t plain_sum(const uint8_t *bytes, size_t length)
{
    uint32_t sums[4] = { 0 };
    while (length >= 64) {
        sums[0] += dword(bytes) + dword(bytes + 16) + dword(bytes + 32) + dword(bytes + 48);
        sums[1] += dword(bytes + 4) + dword(bytes + 20) + dword(bytes + 36) + dword(bytes + 52);
        sums[2] += dword(bytes + 8) + dword(bytes + 24) + dword(bytes + 40) + dword(bytes + 56);
        sums[3] += dword(bytes + 12) + dword(bytes + 28) + dword(bytes + 44) + dword(bytes + 60);
        bytes += 64;
        length -= 64;
    }
    uint32_t sum = sums[0] + sums[1] + sums[2] + sums[3];
    for (; length >= 4; bytes += 4, length -= 4)
        sum += dword(bytes);
    return sum;
}
