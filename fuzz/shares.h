/*
 * What the end of a run prints of what was met, and a line `too rare:`, on which tools/fuzz fails.
 */
#ifndef FUZZ_SHARES_H
#define FUZZ_SHARES_H

#include <inttypes.h>
#include <stddef.h>
#include <stdint.h>
#include <stdio.h>

/* What was met, with the number of all of which at least one must be such. */
struct share {
    const char *name;
    uint64_t among;
};

static inline void print_too_rare(const char *what, uint64_t count, uint64_t least)
{
    if (count < least)
        fprintf(stderr, "too rare: %s: %" PRIu64 ", at least %" PRIu64 "\n", what, count, least);
}

static inline void print_shares(const char *what, const struct share *shares, const uint64_t *counts, size_t length,
                                uint64_t all)
{
    fprintf(stderr, "%s:", what);
    for (size_t i = 0; i < length; i++)
        fprintf(stderr, " %s %" PRIu64 ";", shares[i].name, counts[i]);
    fputs("\n", stderr);
    for (size_t i = 0; i < length; i++)
        print_too_rare(shares[i].name, counts[i], all / shares[i].among);
}

/* How often each of the numbers came, those that never came left out. */
static inline void print_numbers(const char *what, const uint64_t *counts, size_t length)
{
    fprintf(stderr, "%s:", what);
    for (size_t number = 0; number < length; number++)
        if (counts[number] > 0)
            fprintf(stderr, " %zu %" PRIu64 ";", number, counts[number]);
    fputs("\n", stderr);
}

#endif
