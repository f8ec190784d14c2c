/*
 * Holds the member table to document 02 (E8): two reports of different source numbers, both
 * accepted one after the other, leave the same members, reports and tallies in either order, be
 * they single reports, datagrams or a burst. So do the same further calls, whose answers agree, and
 * every choice agrees. Members are looked at by number, as the public calls show them: places may
 * differ.
 */
#include "datagrams.h"

/* ---- Two reports ----------------------------------------------------------------------------- */

/* A report as it arrives. */
struct arrived {
    record_t record;
    reading_t reading;
};

/* The table after two reports: the first is accepted, and the second gets this number. */
typedef table_t take_two(table_t table, struct arrived first, struct arrived second,
                         uint64_t number);

static table_t as_reports(table_t table, struct arrived first, struct arrived second,
                          uint64_t number)
{
    table = report(table, first.record, first.reading, PRUNEPOCKET_ACCEPTED);
    return report(table, second.record, second.reading, number);
}

/* The first packets of a datagram with an RR and two reports, from the origin of the first. */
static table_t take_packets(table_t table, struct arrived first, struct arrived second,
                            uint64_t count, uint64_t number)
{
    uint8_t datagram[RR_BYTES + 2 * PRUNEPOCKET_REPORT_BYTES];
    uint64_t answers[2] = {FILL, FILL};
    datagram_answered_t answered;

    memcpy(datagram, rr, RR_BYTES);
    put_report(datagram + RR_BYTES, first.record);
    put_report(datagram + RR_BYTES + PRUNEPOCKET_REPORT_BYTES, second.record);
    answered = prunepocket_take_datagram(table, datagram,
                                         RR_BYTES + count * PRUNEPOCKET_REPORT_BYTES, 0,
                                         first.record.origin, first.reading, answers, count);
    check_equal("datagram: number", answered.number, PRUNEPOCKET_ACCEPTED);
    check_equal("datagram: calls", answered.count, count);
    if (count > 1)
        check_equal("datagram: the first answer", answers[0], PRUNEPOCKET_ACCEPTED);
    check_equal("datagram: the last answer", answers[count - 1], number);
    return answered.table;
}

static table_t as_datagrams(table_t table, struct arrived first, struct arrived second,
                            uint64_t number)
{
    table = take_packets(table, first, first, 1, PRUNEPOCKET_ACCEPTED);
    return take_packets(table, second, second, 1, number);
}

static table_t as_one_datagram(table_t table, struct arrived first, struct arrived second,
                               uint64_t number)
{
    return take_packets(table, first, second, 2, number);
}

static table_t as_burst(table_t table, struct arrived first, struct arrived second, uint64_t number)
{
    record_t records[2] = {first.record, second.record};
    uint64_t answers[2] = {FILL, FILL};
    answered_t answered =
        prunepocket_report_burst(table, records, 2, first.reading, answers, LENGTH(answers));

    check_equal("burst: number", answered.number, PRUNEPOCKET_ACCEPTED);
    check_equal("burst: the first answer", answers[0], PRUNEPOCKET_ACCEPTED);
    check_equal("burst: the second answer", answers[1], number);
    return answered.table;
}

/* The last two take both reports at the reading of the first, and one datagram has one origin. */
static const struct {
    const char *name;
    take_two *take;
} ways[] = {
    {"as reports", as_reports},
    {"as datagrams", as_datagrams},
    {"as one datagram", as_one_datagram},
    {"as a burst", as_burst},
};

#define WAYS_WITH_OWN_READINGS 2

/* The case under way, with the way in which reports are told and how many members there are. */
static void name_case(const char *text, size_t way, table_t table)
{
    static char named[100];

    snprintf(named, sizeof named, "%s, %s, beside %u members", text, ways[way].name,
             (unsigned)prunepocket_count_members(table));
    name = named;
}

/* ---- Two sites ------------------------------------------------------------------------------- */

static int by_source(const void *one, const void *other)
{
    uint32_t a = ((const member_t *)one)->record.source;
    uint32_t b = ((const member_t *)other)->record.source;

    return (a > b) - (a < b);
}

/* The members in the order of their numbers: how many there are. */
static size_t members_of(table_t table, member_t members[PRUNEPOCKET_PLACES])
{
    size_t count = 0;

    for (size_t i = 0; i < PRUNEPOCKET_PLACES; i++) {
        place_t place = prunepocket_member_at(table, i);

        if (place.held)
            members[count++] = place.member;
    }
    check_equal("members", prunepocket_count_members(table), count);
    qsort(members, count, sizeof *members, by_source);
    return count;
}

static void check_same_members(table_t site, table_t other)
{
    member_t members[PRUNEPOCKET_PLACES];
    member_t others[PRUNEPOCKET_PLACES];
    size_t count = members_of(site, members);

    check_equal("members in the other order", members_of(other, others), count);
    for (size_t i = 0; i < count; i++)
        check_true("member in the other order", same_member(&members[i], &others[i]));
}

/*
 * Where all may be fresh, where P2 just is, where of the two P1 alone is, where only later reports
 * are, and where none is.
 */
static const reading_t readings[] = {
    {SECONDS(1000), 9000000},      {SECONDS(1005), 9450000},      {SECONDS(1028), 11520000},
    {SECONDS(1028) + 1, 11520000}, {SECONDS(1029) + 1, 11610000}, {SECONDS(1100), 18000000},
};

static void check_same_choices(table_t site, table_t other)
{
    for (size_t i = 0; i < LENGTH(readings); i++) {
        followed_t chosen = prunepocket_choose(site, readings[i]);
        followed_t chosen_other = prunepocket_choose(other, readings[i]);

        check_equal("choice in the other order", chosen_other.number, chosen.number);
        check_target(chosen_other.target, chosen.target);
    }
}

static void check_alike(table_t site, table_t other)
{
    check_same_members(site, other);
    check_same_choices(site, other);
}

/* ---- Further calls --------------------------------------------------------------------------- */

static record_t third(uint32_t source, uint64_t seconds, uint32_t rtp)
{
    uint32_t presented = SHORT_SECONDS(seconds) + 0x4000;

    return (record_t){source, unit(30), {SECONDS(seconds), GROUP, MEDIA, rtp, presented, 33, 1}};
}

#define FURTHER_CALLS 8

/*
 * Where sources 10 and 20 are members, each call gets the paper's number: twins of both, farewells,
 * a new member in the place that was left, a sweep behind which P1 and P2 are gone, another one.
 */
static table_t call_further(table_t table, size_t step)
{
    static const reading_t late = {SECONDS(1029) + 1, 11610000};

    switch (step) {
    case 0:
        return report(table, twin_at(unit(11)), now, PRUNEPOCKET_OTHER_ORIGIN);
    case 1:
    case 2:
        return farewell(table, 20, unit(11), PRUNEPOCKET_OTHER_ORIGIN);
    case 3:
        return farewell(table, 10, unit(10), PRUNEPOCKET_ACCEPTED);
    case 4:
        return farewell(table, 10, unit(10), PRUNEPOCKET_NO_MEMBER);
    case 5:
        return report(table, third(30, 1000, 8990000), now, PRUNEPOCKET_ACCEPTED);
    case 6:
        return prunepocket_sweep(farewell(table, 30, unit(30), PRUNEPOCKET_ACCEPTED), late).table;
    default:
        return report(table, third(40, 1029, 11600000), late, PRUNEPOCKET_ACCEPTED);
    }
}

static void check_further(table_t site, table_t other)
{
    for (size_t step = 0; step < FURTHER_CALLS; step++) {
        site = call_further(site, step);
        other = call_further(other, step);
        check_alike(site, other);
    }
}

/* Both orders from one table, at once and after the same further calls. */
static void check_either_order(table_t table, size_t way, struct arrived one,
                               struct arrived another)
{
    table_t site = ways[way].take(table, one, another, PRUNEPOCKET_ACCEPTED);
    table_t other = ways[way].take(table, another, one, PRUNEPOCKET_ACCEPTED);

    check_alike(site, other);
    check_further(site, other);
}

/* ---- Tests ----------------------------------------------------------------------------------- */

/* P1, and P4 with it: presented a quarter of a second later. */
static struct arrived p1(void)
{
    return (struct arrived){record_10(), now};
}

static struct arrived p4(void)
{
    struct arrived arrived = p1();

    arrived.record.report.presented = 0x03E7C000;
    return arrived;
}

/* P2. In one datagram with source 10 it comes from the same unit. */
static struct arrived p2(size_t way)
{
    struct arrived arrived = {record_20(), now};

    if (ways[way].take == as_one_datagram)
        arrived.record.origin = unit(10);
    return arrived;
}

/* Sources 100 and on stand at the places that the word holds. */
static table_t beside(uint64_t word)
{
    return left_by_farewells(full_table(), word);
}

#define FIRST_62 (UINT64_MAX >> 2)
#define FIRST_63 (UINT64_MAX >> 1)

/* Alone, beside one, and beside 62, with the last two places free and with two between. */
static void test_new_units(void)
{
    static const uint64_t words[] = {0, 2, FIRST_62, ~(UINT64_C(1) << 5 | UINT64_C(1) << 40)};

    CASE("two new units");
    for (size_t i = 0; i < LENGTH(words) * LENGTH(ways); i++) {
        size_t way = i % LENGTH(ways);
        table_t table = beside(words[i / LENGTH(ways)]);

        name_case("two new units", way, table);
        check_either_order(table, way, p1(), p2(way));
        check_either_order(table, way, p4(), p2(way));
    }
}

/* The lower number is chosen, also where it stands at the higher place. */
static void test_tie(void)
{
    CASE("a tie");
    for (size_t way = 0; way < LENGTH(ways); way++) {
        name_case("a tie", way, opened());

        table_t site = ways[way].take(opened(), p4(), p2(way), PRUNEPOCKET_ACCEPTED);
        table_t other = ways[way].take(opened(), p2(way), p4(), PRUNEPOCKET_ACCEPTED);

        check_member(site, 0, p4().record);
        check_member(site, 1, p2(way).record);
        check_member(other, 0, p2(way).record);
        check_member(other, 1, p4().record);
        check_vacant(other, 2);
        check_chosen(site, now, 10, 2);
        check_chosen(other, now, 10, 2);
    }
}

/* Source 20 five seconds later, and so late that no reading finds both fresh. */
static void test_own_readings(void)
{
    static const struct arrived late[] = {
        {{20, {{0}, 1}, {SECONDS(1003), GROUP, MEDIA, 9270000, 0x03EBC000, 33, 1}},
         {SECONDS(1005), 9450000}},
        {{20, {{0}, 1}, {SECONDS(1029) + 1, GROUP, MEDIA, 11610000, 0x0405C000, 33, 1}},
         {SECONDS(1031), 11790000}},
    };

    CASE("own readings");
    for (size_t i = 0; i < LENGTH(late) * WAYS_WITH_OWN_READINGS; i++) {
        size_t way = i % WAYS_WITH_OWN_READINGS;
        struct arrived second = late[i / WAYS_WITH_OWN_READINGS];

        name_case("own readings", way, opened());
        report(opened(), second.record, now, PRUNEPOCKET_RECEIVED_FAR);
        check_either_order(opened(), way, p1(), second);
        check_either_order(beside(FIRST_62), way, p1(), second);
    }
}

/* Two members with tallies report again: their places are as they were, too. */
static void test_members(void)
{
    CASE("two members");
    for (size_t way = 0; way < LENGTH(ways); way++) {
        table_t table = as_reports(beside(FIRST_62), p1(), p2(way), PRUNEPOCKET_ACCEPTED);
        table_t site, other;

        name_case("two members", way, table);
        table = farewell(table, 10, unit(12), PRUNEPOCKET_OTHER_ORIGIN);
        site = ways[way].take(table, p4(), p2(way), PRUNEPOCKET_ACCEPTED);
        other = ways[way].take(table, p2(way), p4(), PRUNEPOCKET_ACCEPTED);
        check_true("the same places", same_table(&site, &other));
        check_tallied(other, 62, p4().record, 1);
        check_either_order(table, way, p4(), p2(way));
    }
}

/* The last place is free for the new one, whoever comes first. */
static void test_new_unit_and_member(void)
{
    CASE("a new unit and a member");
    for (size_t way = 0; way < LENGTH(ways); way++) {
        table_t table = report(beside(FIRST_62), p1().record, now, PRUNEPOCKET_ACCEPTED);

        name_case("a new unit and a member", way, table);
        table = report(table, twin_at(unit(12)), now, PRUNEPOCKET_OTHER_ORIGIN);
        check_either_order(table, way, p4(), p2(way));
    }
}

/* Both must be accepted: beside 63 members the second gets 18, and the sites differ. */
static void test_last_place(void)
{
    CASE("the last place");
    for (size_t way = 0; way < LENGTH(ways); way++) {
        table_t table = beside(FIRST_63);

        name_case("the last place", way, table);

        table_t site = ways[way].take(table, p1(), p2(way), PRUNEPOCKET_NO_ROOM);
        table_t other = ways[way].take(table, p2(way), p1(), PRUNEPOCKET_NO_ROOM);

        check_member(site, 63, p1().record);
        check_member(other, 63, p2(way).record);
        check_chosen(site, now, 10, 1);
        check_chosen(other, now, 20, 1);
    }
}

int main(void)
{
    start_checks("tests/c/test_order.c");
    test_new_units();
    test_tie();
    test_own_readings();
    test_members();
    test_new_unit_and_member();
    test_last_place();
    return finish_checks();
}
