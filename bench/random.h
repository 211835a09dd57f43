/* Numbers drawn from a fixed seed, by splitmix64: every run has the same inputs. */
#ifndef RANDOM_H
#define RANDOM_H

#include <stdint.h>

static uint64_t random_below(uint64_t bound)
{
    static uint64_t state = 19821982;
    uint64_t z = state += 0x9e3779b97f4a7c15;
    z = (z ^ (z >> 30)) * 0xbf58476d1ce4e5b9;
    z = (z ^ (z >> 27)) * 0x94d049bb133111eb;
    return (z ^ (z >> 31)) % bound;
}

#endif
