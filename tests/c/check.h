/*
 * What the C tests share: checks that are counted and go on after a failure, and memory to lend.
 */
#ifndef CHECK_H
#define CHECK_H

#include "prunepocket.h"

#include <inttypes.h>
#include <stdio.h>
#include <stdlib.h>

/* What lent numbers hold before a call. No field in the tests has this value. */
#define FILL UINT64_C(0xA5A5A5A5A5A5A5A5)

static unsigned long passed;
static unsigned long failed;

/* The case under way, and the file and line that have it. */
static const char *name;
static const char *file;
static int line;

static void check_equal(const char *what, uint64_t got, uint64_t expected)
{
    if (got == expected) {
        passed++;
        return;
    }
    failed++;
    printf("%s:%d: %s: %s: got %" PRIu64 ", expected %" PRIu64 "\n", file, line, name, what, got,
           expected);
}

/* Inline, since not every test has answers with a place. */
static inline void check_answer(const char *what, struct prunepocket_answer got, uint64_t number,
                                uint64_t place)
{
    char text[100];

    snprintf(text, sizeof text, "%s: number", what);
    check_equal(text, got.number, number);
    snprintf(text, sizeof text, "%s: place", what);
    check_equal(text, got.place, place);
}

static void *allocate(size_t bytes)
{
    /* An empty array has an address too. */
    void *memory = malloc(bytes > 0 ? bytes : 1);

    if (memory == NULL) {
        fputs("C test: out of memory\n", stderr);
        exit(1);
    }
    return memory;
}

static void start_checks(const char *test_file)
{
    /* Messages take nothing from the heap, which a faulty call may have overwritten. */
    static char buffer[BUFSIZ];

    setvbuf(stdout, buffer, _IOLBF, sizeof buffer);
    file = test_file;
}

/* The status of the program. */
static int finish_checks(void)
{
    if (failed > 0) {
        printf("%s: %lu checks failed, %lu passed\n", file, failed, passed);
        return 1;
    }
    printf("%s: %lu checks passed\n", file, passed);
    return 0;
}

#endif
