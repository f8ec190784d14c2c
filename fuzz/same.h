/* Compares a number of the archive with the expected one, and ends the run where they differ. */
#ifndef FUZZ_SAME_H
#define FUZZ_SAME_H

#include <inttypes.h>
#include <stdio.h>
#include <stdlib.h>

/* Said behind the name of what differs, where the same is compared twice. */
static const char *same_where = "";

/* 1 passes over every difference but those that same_where tells of, so that a planted fault is found by them alone. */
#ifndef SAME_WHERE_ALONE
#define SAME_WHERE_ALONE 0
#endif

static inline void same(const char *what, uint64_t archive, uint64_t expected)
{
    if (archive != expected && (!SAME_WHERE_ALONE || *same_where != '\0')) {
        fprintf(stderr, "differs: %s%s: archive %" PRIu64 ", expected %" PRIu64 "\n", what, same_where, archive,
                expected);
        abort();
    }
}

#endif
