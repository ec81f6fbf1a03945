#include "chance.h"

static uint64_t state;

void start_chance(uint64_t seed)
{
    state = seed;
}

/* splitmix64 */
uint64_t next_chance(void)
{
    uint64_t mixed = state += UINT64_C(0x9e3779b97f4a7c15);
    mixed = (mixed ^ (mixed >> 30)) * UINT64_C(0xbf58476d1ce4e5b9);
    mixed = (mixed ^ (mixed >> 27)) * UINT64_C(0x94d049bb133111eb);
    return mixed ^ (mixed >> 31);
}

uint32_t below(uint32_t limit)
{
    return (uint32_t)((next_chance() >> 32) * limit >> 32);
}

uint32_t between(uint32_t low, uint32_t high)
{
    return low + below(high - low + 1);
}

bool percent(uint32_t of_hundred)
{
    return below(100) < of_hundred;
}
