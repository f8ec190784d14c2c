/*
 * What test_table.c, test_tallies.c, test_burst.c, test_order.c and test_settings.c share: the
 * reports of the cases, each call with what is checked of its answer, and tables to start from. What
 * not all of them use is inline.
 */
#ifndef TABLES_H
#define TABLES_H

#include "values.h"

/* ---- Reports --------------------------------------------------------------------------------- */

static record_t record_10(void)
{
    return (record_t){10, unit(10), {SECONDS(999), GROUP, MEDIA, 8910000, 0x03E78000, 33, 1}};
}

static record_t record_20(void)
{
    return (record_t){20, unit(20), {SECONDS(998), GROUP, MEDIA, 8820000, 0x03E6C000, 33, 1}};
}

/* A report of some source without presentation, received at N and R of the cases. */
static record_t arrival(uint32_t source)
{
    return (record_t){source, unit(30), {SECONDS(1000), GROUP, MEDIA, 9000000, 0, 33, 0}};
}

/* A report on which source 10 would be chosen, from another origin. */
static record_t twin_at(origin_t origin)
{
    record_t twin = record_10();

    twin.origin = origin;
    twin.report.presented = 0x03E7F000;
    return twin;
}

/* A report of the wired unit of this number, presented in the slot in which it was received. */
static record_t wired_at(uint8_t source, uint64_t received)
{
    return (record_t){source, unit(source),
                      {received, GROUP, MEDIA, 8910000, (uint32_t)(received >> 16), 33, 1}};
}

/* Received at 999 s, presented 03E70000. */
static inline record_t wired(uint8_t source)
{
    return wired_at(source, SECONDS(999));
}

/* ---- The word of places held ----------------------------------------------------------------- */

/* The first place is the lowest bit. */
static int is_held(uint64_t word, size_t place)
{
    return (word >> place & 1) == 1;
}

static unsigned count_held(uint64_t word)
{
    unsigned count = 0;

    for (size_t place = 0; place < PRUNEPOCKET_PLACES; place++) {
        if (is_held(word, place))
            count++;
    }
    return count;
}

/* ---- Equality, padding aside ----------------------------------------------------------------- */

static int same_member(const member_t *a, const member_t *b)
{
    return same_record(&a->record, &b->record) && SAME(tally);
}

static int same_table(const table_t *a, const table_t *b)
{
    for (size_t i = 0; i < PRUNEPOCKET_PLACES; i++) {
        if (!same_member(&a->members[i], &b->members[i]))
            return 0;
    }
    return SAME(group) && SAME(media) && SAME(rate) && SAME(held);
}

/* ---- One call -------------------------------------------------------------------------------- */

/* Opening is accepted, and the table is without members. */
static table_t open_table(uint32_t group, uint32_t media, uint32_t rate)
{
    answered_t answered = prunepocket_open(group, media, rate);

    check_equal("open: number", answered.number, PRUNEPOCKET_ACCEPTED);
    check_equal("open: members", prunepocket_count_members(answered.table), 0);
    return answered.table;
}

/* The table of the cases. */
static table_t opened(void)
{
    return open_table(GROUP, MEDIA, RATE);
}

/* The lowest place at which a number is held, or PRUNEPOCKET_PLACES where it is not. */
static size_t place_of(const table_t *table, uint32_t source)
{
    size_t place = 0;

    while (place < PRUNEPOCKET_PLACES &&
           !(is_held(table->held, place) && table->members[place].record.source == source))
        place++;
    return place;
}

static uint32_t one_more(uint32_t tally)
{
    return tally == PRUNEPOCKET_TALLY_LIMIT ? tally : tally + 1;
}

/* Refused under a number: the table is as before, but that 14 raises the tally of its holder. */
static void check_refused(const char *what, const answered_t *answered, table_t table,
                          uint32_t source)
{
    size_t holder = place_of(&table, source);

    if (answered->number == PRUNEPOCKET_OTHER_ORIGIN && holder < PRUNEPOCKET_PLACES)
        table.members[holder].tally = one_more(table.members[holder].tally);
    check_true(what, same_table(&answered->table, &table));
}

/* The table after a report, which gets this number. */
static table_t report(table_t table, record_t record, reading_t reading, uint64_t number)
{
    answered_t answered = prunepocket_report(table, record, reading);

    check_equal("report: number", answered.number, number);
    if (number != PRUNEPOCKET_ACCEPTED)
        check_refused("report: the table after a refusal", &answered, table, record.source);
    return answered.table;
}

/* The table after a farewell, which gets this number. */
static table_t farewell(table_t table, uint32_t source, origin_t origin, uint64_t number)
{
    answered_t answered = prunepocket_farewell(table, source, origin);
    uint32_t before = prunepocket_count_members(table);

    check_equal("farewell: number", answered.number, number);
    if (number != PRUNEPOCKET_ACCEPTED)
        check_refused("farewell: the table after a refusal", &answered, table, source);
    else
        check_equal("farewell: members", prunepocket_count_members(answered.table), before - 1);
    return answered.table;
}

/* The table after a sweep, which leaves so many members. */
static inline table_t sweep(table_t table, reading_t reading, uint32_t members)
{
    answered_t answered = prunepocket_sweep(table, reading);

    check_equal("sweep: number", answered.number, PRUNEPOCKET_ACCEPTED);
    check_equal("sweep: members", prunepocket_count_members(answered.table), members);
    return answered.table;
}

/* The target, and the table is as before. */
static target_t choose(table_t table, reading_t reading)
{
    followed_t followed = prunepocket_choose(table, reading);

    check_equal("choose: number", followed.number, PRUNEPOCKET_ACCEPTED);
    check_true("choose: the table as before", same_table(&followed.table, &table));
    return followed.target;
}

/* Who is chosen, and how many are counted. */
static void check_chosen(table_t table, reading_t reading, uint32_t source, uint32_t counted)
{
    target_t target = choose(table, reading);

    check_equal("chosen", target.source, source);
    check_equal("counted", target.counted, counted);
}

/* ---- Places ---------------------------------------------------------------------------------- */

/* A place is held by this member, or where that is null, not held: then all of it is zeros. */
static void check_at(const table_t *table, size_t place, const member_t *member)
{
    static const member_t zeros;
    const member_t *expected = member != NULL ? member : &zeros;
    place_t at = prunepocket_member_at(*table, place);

    check_equal("member_at: held", at.held, member != NULL);
    check_true("member_at: record", same_record(&at.member.record, &expected->record));
    check_equal("member_at: tally", at.member.tally, expected->tally);
}

/* A member of this tally stands on the record. */
static void check_tallied(table_t table, size_t place, record_t record, uint32_t tally)
{
    check_at(&table, place, &(member_t){record, tally});
}

/* No twin was met. */
static inline void check_member(table_t table, size_t place, record_t record)
{
    check_tallied(table, place, record, 0);
}

static inline void check_vacant(table_t table, size_t place)
{
    check_at(&table, place, NULL);
}

/* The calls show one table as another has it. */
static void check_place(const table_t *table, size_t place, const table_t *expected)
{
    check_at(table, place, is_held(expected->held, place) ? &expected->members[place] : NULL);
}

static inline void check_places(const table_t *table, const table_t *expected)
{
    check_equal("members", prunepocket_count_members(*table), count_held(expected->held));
    for (size_t place = 0; place < PRUNEPOCKET_PLACES; place++)
        check_place(table, place, expected);
}

/* ---- Tables to start from -------------------------------------------------------------------- */

/* The table with one report, accepted. */
static table_t with_one(record_t record)
{
    return report(opened(), record, now, PRUNEPOCKET_ACCEPTED);
}

static inline table_t with_two(record_t first, record_t second)
{
    return report(with_one(first), second, now, PRUNEPOCKET_ACCEPTED);
}

/* Sources 100 to 163, at the places 0 to 63. */
static table_t full_table(void)
{
    table_t table = opened();

    for (uint32_t i = 0; i < PRUNEPOCKET_PLACES; i++) {
        table = report(table, arrival(100 + i), now, PRUNEPOCKET_ACCEPTED);
        check_equal("members", prunepocket_count_members(table), i + 1);
    }
    return table;
}

/* The full table after the farewells of all whose places the word does not hold. */
static inline table_t left_by_farewells(table_t table, uint64_t word)
{
    for (uint32_t i = 0; i < PRUNEPOCKET_PLACES; i++) {
        if (!is_held(word, i))
            table = farewell(table, 100 + i, unit(30), PRUNEPOCKET_ACCEPTED);
    }
    return table;
}

/* Sources 100 to 163 stand at the places, and the word says which of them are held. */
static inline table_t table_of(uint64_t word)
{
    table_t table = opened();

    table.held = word;
    for (uint32_t i = 0; i < PRUNEPOCKET_PLACES; i++)
        table.members[i] = (member_t){arrival(100 + i), 0};
    return table;
}

/* C writes a tally at every place, held or not: from place to place there is a step between them. */
static inline table_t with_tallies(table_t table, uint32_t first, uint32_t step)
{
    for (uint32_t i = 0; i < PRUNEPOCKET_PLACES; i++)
        table.members[i].tally = first + i * step;
    return table;
}

/* ---- Bytes ----------------------------------------------------------------------------------- */

/* The least significant byte comes first on the archive's machine. */
static uint64_t number_at(const void *memory, size_t offset, size_t size)
{
    const uint8_t *bytes = memory;
    uint64_t value = 0;

    for (size_t i = size; i > 0; i--)
        value = value << 8 | bytes[offset + i - 1];
    return value;
}

#endif
