/* Random numbers: one stream for each call, so that a call can be made again alone. */
#include "random.h"
#include "bounds.h"

uint64_t stream;

uint64_t any_word(void)
{
    uint64_t z = stream += 0x9e3779b97f4a7c15u;
    z = (z ^ (z >> 30)) * 0xbf58476d1ce4e5b9u;
    z = (z ^ (z >> 27)) * 0x94d049bb133111ebu;
    return z ^ (z >> 31);
}

uint64_t below(uint64_t n)
{
    return any_word() % n;
}

uint64_t between(uint64_t least, uint64_t most)
{
    return least + below(most - least + 1);
}

bool one_in(uint64_t n)
{
    return below(n) == 0;
}

/* A number of the kind that breaks programs: at powers of two and limits, near `old`, or any at all. */
uint64_t wild(uint64_t old)
{
    switch (below(6)) {
    case 0: return below(4);
    case 1: return ((uint64_t)1 << below(64)) + between(0, 2) - 1;
    case 2: return old + between(0, 2) - 1;
    case 3: return UINT64_MAX - below(3);
    case 4: return LIMIT_POSITION + between(0, 2) - 1;
    default: return any_word();
    }
}
