/*
 * Random numbers for the C tests, the same in every run.
 */
#ifndef RANDOM_H
#define RANDOM_H

#include <stdint.h>

static uint64_t next_random(void)
{
    static uint64_t state = UINT64_C(0x9E3779B97F4A7C15);

    state ^= state << 13;
    state ^= state >> 7;
    state ^= state << 17;
    return state;
}

#endif
