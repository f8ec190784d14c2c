/*
 * What test_table.c, test_burst.c and test_settings.c share: words of places held, and tables,
 * records and readings of random bytes. What not all of them use is inline.
 */
#ifndef RANDOM_TABLES_H
#define RANDOM_TABLES_H

#include "random.h"
#include "tables.h"

static uint64_t with_place(uint64_t word, size_t place)
{
    return word | UINT64_C(1) << place;
}

/* The lowest free place, or PRUNEPOCKET_PLACES where none is free. */
static inline size_t lowest_free(uint64_t word)
{
    size_t place = 0;

    while (place < PRUNEPOCKET_PLACES && is_held(word, place))
        place++;
    return place;
}

/* All places below the lowest free one are held, and above it those that another word holds. */
static uint64_t word_with(size_t lowest, uint64_t above)
{
    uint64_t word = 0;

    for (size_t place = 0; place < PRUNEPOCKET_PLACES; place++) {
        if (place < lowest || (place > lowest && is_held(above, place)))
            word = with_place(word, place);
    }
    return word;
}

/* Any bytes, or few different ones, so that numbers and origins meet. */
static void fill_random(void *memory, size_t bytes, int few)
{
    static const uint8_t some[] = {0, 0, 0, 1, 0xFF};
    uint8_t *byte = memory;

    for (size_t i = 0; i < bytes; i++)
        byte[i] = few ? some[(next_random() >> 32) % sizeof some] : (uint8_t)(next_random() >> 32);
}

static table_t random_table(int few)
{
    table_t table;

    fill_random(&table, sizeof table, few);
    for (size_t place = 0; place < PRUNEPOCKET_PLACES; place++) {
        if (next_random() % 4 == 0)
            table.members[place].tally = PRUNEPOCKET_TALLY_LIMIT - (uint32_t)(next_random() % 2);
    }
    if (next_random() % 2 == 0)
        table.held = word_with(next_random() % PRUNEPOCKET_PLACES, table.held);
    if (next_random() % 4 == 0)
        table.held = UINT64_MAX;
    return table;
}

/* A random record, or one of the table's own that comes closer to being accepted. */
static inline record_t random_record(const table_t *table, int few)
{
    record_t record;

    fill_random(&record, sizeof record, few);
    if (next_random() % 2 == 0)
        record = table->members[next_random() % PRUNEPOCKET_PLACES].record;
    if (next_random() % 8 != 0) {
        record.report.group = table->group;
        record.report.media = table->media;
    }
    if (next_random() % 4 == 0)
        record.source = (uint32_t)next_random();
    if (next_random() % 4 == 0)
        record.origin.port ^= 1;
    if (next_random() % 16 == 0)
        record.report.received = UINT64_MAX;
    if (next_random() % 4 != 0)
        record.report.presented = (uint32_t)(record.report.received >> 16) +
                                  (next_random() % 2 == 0 ? SHORT_SECONDS(1) : 0);
    return record;
}

/* A random reading, or one that is near a record's times. */
static inline reading_t random_reading(const record_t *record, int few)
{
    reading_t reading;

    fill_random(&reading, sizeof reading, few);
    if (next_random() % 4 != 0)
        reading.ntp = record->report.received + next_random() % SECONDS(31);
    if (next_random() % 4 != 0)
        reading.rtp = record->report.rtp + (uint32_t)(next_random() % 60);
    return reading;
}

#endif
