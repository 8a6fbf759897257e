/* splitmix64, of which the high half is used. */
#include "random.h"

static uint64_t state;

void seed(uint64_t number)
{
    state = number;
}

uint32_t random_word(void)
{
    state += 0x9E3779B97F4A7C15u;
    uint64_t mixed = state;
    mixed = (mixed ^ (mixed >> 30)) * 0xBF58476D1CE4E5B9u;
    mixed = (mixed ^ (mixed >> 27)) * 0x94D049BB133111EBu;
    return (uint32_t)((mixed ^ (mixed >> 31)) >> 32);
}

uint32_t below(uint32_t limit)
{
    return (uint32_t)((uint64_t)random_word() * limit >> 32);
}

uint32_t between(uint32_t low, uint32_t high)
{
    return low + below(high - low + 1);
}

bool chance(uint32_t percent)
{
    return below(100) < percent;
}
