/*
 * Memory to lend to calls that are not instrumented: a page that may not be touched stands before it and behind it,
 * and every number in it has a value of its own beforehand.
 */
#ifndef FUZZ_LEND_H
#define FUZZ_LEND_H

#include <stddef.h>
#include <stdint.h>
#include <stdio.h>
#include <stdlib.h>
#include <sys/mman.h>
#include <unistd.h>

struct lent {
    uint8_t *start;
    uint8_t *end;
};

static inline struct lent lend(size_t bytes)
{
    size_t page = (size_t)sysconf(_SC_PAGESIZE);
    size_t inside = (bytes + page - 1) / page * page;
    uint8_t *all = mmap(NULL, inside + 2 * page, PROT_NONE, MAP_PRIVATE | MAP_ANONYMOUS, -1, 0);

    if (all == MAP_FAILED || mprotect(all + page, inside, PROT_READ | PROT_WRITE) != 0) {
        perror("lend");
        exit(1);
    }
    return (struct lent){all + page, all + page + inside};
}

/* What the number at an index holds before a call. */
static inline uint64_t fill(uint64_t index)
{
    return UINT64_C(0xA5C3961E5A3C69E1) ^ (index + 1) * UINT64_C(0x9E3779B97F4A7C15);
}

#endif
