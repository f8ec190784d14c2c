/*
 * Replaying a recording, written from document 02 (E7) alone, over the decoder and the plain register. It shares no
 * code with the archive that it is compared with.
 */
#ifndef FUZZ_RECORDING_H
#define FUZZ_RECORDING_H

#include "register.h"

/* Bytes of a head and of an entry in the table of contents. */
enum { HEAD_BYTES = 16, ENTRY_BYTES = 32 };

enum { MOST_RECORDING = 65536, MOST_ENTRIES = 256 };

/* What is wrong with a layout: the first that applies gives 25. */
enum layout { GOOD_LAYOUT, TOO_LONG, HEAD_CUT, TOO_MANY_ENTRIES, CONTENTS_CUT, BODIES_CUT, BODIES_END_EARLY, LAYOUTS };

/* The line of an entry. */
struct entry_line {
    size_t items;
    size_t accepted;
    unsigned number; /* the reader's refusal, or the first of a report or farewell, or 0 */
    /* Not of the line, but of how it came: to count what was met. */
    struct clocks now;
    struct from origin;
    bool read;             /* the reader took the datagram */
    size_t settings;       /* items that are settings */
    unsigned last_refusal; /* of a report or farewell, or 0 */
    bool behind_refusal;   /* a report or farewell was accepted behind a refused one */
};

struct replayed {
    unsigned refusal; /* 25 or 12: then there are no entries and no target */
    size_t count;
    struct entry_line entries[MOST_ENTRIES];
    struct choice choice; /* number 20 where there is no target, also without entries */
    /* Not of the answer. */
    enum layout layout;
    struct plain_register rows; /* after the last entry, where there is no refusal */
};

void replay(const uint8_t *file, size_t length, struct replayed *replayed);

#endif
