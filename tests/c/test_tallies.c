/*
 * Holds the tallies of members to document 02 (E5), at every place and at the limit: which answers
 * raise them, through what they stay, when they go, and that choosing does not look at them.
 */
#include "datagrams.h"

#define LIMIT PRUNEPOCKET_TALLY_LIMIT

/* ---- By reports, farewells and sweeps -------------------------------------------------------- */

/* A report of the member at a place of full_table and of table_of, and of its twin. */
static record_t member_report(uint32_t place)
{
    return arrival(100 + place);
}

static record_t twin_report(uint32_t place)
{
    record_t twin = member_report(place);

    twin.origin = unit(31);
    return twin;
}

/* The table after so many calls of the twin of the member at a place, farewells in every second. */
static table_t meet_twin(table_t table, uint32_t place, uint32_t calls)
{
    for (uint32_t i = 0; i < calls; i++) {
        if (i % 2 == 0)
            table = report(table, twin_report(place), now, PRUNEPOCKET_OTHER_ORIGIN);
        else
            table = farewell(table, 100 + place, unit(31), PRUNEPOCKET_OTHER_ORIGIN);
    }
    return table;
}

/* 13, 15, 16 and 17 of the member at a place, and 13 of its twin: all fields are as before. */
static void check_uncounted(table_t table, uint32_t place)
{
    record_t records[] = {member_report(place), twin_report(place)};
    record_t record = member_report(place);

    for (size_t i = 0; i < LENGTH(records); i++) {
        records[i].report.group = GROUP + 1;
        report(table, records[i], now, PRUNEPOCKET_OTHER_STREAM);
        records[i].report.group = GROUP;
        records[i].report.media = MEDIA + 1;
        report(table, records[i], now, PRUNEPOCKET_OTHER_STREAM);
    }
    record.report.received = now.ntp + 1;
    report(table, record, now, PRUNEPOCKET_RECEIVED_FAR);
    record.report.received = now.ntp - SECONDS(30) - 1;
    report(table, record, now, PRUNEPOCKET_RECEIVED_FAR);
    record.report.received = now.ntp;
    record.report.rtp = now.rtp + 1;
    report(table, record, now, PRUNEPOCKET_RTP_AGED);
    record.report.rtp = now.rtp - 60 * RATE - 1;
    report(table, record, now, PRUNEPOCKET_RTP_AGED);
    record.report.rtp = now.rtp;
    record.report.p = 1;
    record.report.presented = (uint32_t)(now.ntp >> 16) + SHORT_SECONDS(30) + 1;
    report(table, record, now, PRUNEPOCKET_BADLY_PRESENTED);
}

static void test_uncounted_refusals(void)
{
    static const uint32_t firsts[] = {0, 7, LIMIT - 63};
    record_t foreign = member_report(0);

    CASE("refusals other than 14, at every place");
    for (size_t i = 0; i < LENGTH(firsts); i++) {
        table_t table = with_tallies(full_table(), firsts[i], 1);

        for (uint32_t place = 0; place < PRUNEPOCKET_PLACES; place++)
            check_uncounted(table, place);
        report(table, record_10(), now, PRUNEPOCKET_NO_ROOM);
        farewell(table, 10, unit(30), PRUNEPOCKET_NO_MEMBER);
        farewell(table, 164, unit(31), PRUNEPOCKET_NO_MEMBER);
    }

    CASE("13 and 19 of a number that left a tally at a free place");
    foreign.report.group = GROUP + 1;
    report(with_tallies(table_of(0), 1, 1), foreign, now, PRUNEPOCKET_OTHER_STREAM);
    farewell(with_tallies(table_of(0), 1, 1), 100, unit(30), PRUNEPOCKET_NO_MEMBER);
    farewell(with_tallies(table_of(0), 1, 1), 100, unit(31), PRUNEPOCKET_NO_MEMBER);
}

/* 14 comes before 15 to 18, and counts whatever else is wrong. */
static void test_counted_refusals(void)
{
    table_t table;
    record_t faulty = {163, unit(31), {SECONDS(1001), GROUP, MEDIA, 9000001, 0x04050001, 33, 1}};

    CASE("a twin's report that would get 15, 16 and 17, where all places are held");
    table = full_table();
    table = report(table, faulty, now, PRUNEPOCKET_OTHER_ORIGIN);
    check_tallied(table, 63, member_report(63), 1);
    table = report(table, faulty, (reading_t){0, 0}, PRUNEPOCKET_OTHER_ORIGIN);
    check_tallied(table, 63, member_report(63), 2);

    CASE("a twin of a member that is not fresh");
    table = report(with_one(record_10()), twin_at(unit(11)), (reading_t){SECONDS(1031), 11790000},
                   PRUNEPOCKET_OTHER_ORIGIN);
    check_tallied(table, 0, record_10(), 1);
}

/* Each tally is another: at each place the twin calls once more often than at the one before. */
static void test_twins_at_every_place(void)
{
    table_t table;

    CASE("two numbers with twins, at every two neighbouring places");
    for (uint32_t place = 0; place < PRUNEPOCKET_PLACES; place++) {
        uint32_t next = (place + 1) % PRUNEPOCKET_PLACES;
        table_t expected = full_table();

        table = meet_twin(meet_twin(expected, place, 2), next, 3);
        expected.members[place].tally = 2;
        expected.members[next].tally = 3;
        check_places(&table, &expected);
    }

    CASE("every number has a twin");
    table = full_table();
    for (uint32_t place = 0; place < PRUNEPOCKET_PLACES; place++)
        table = meet_twin(table, place, place + 1);
    for (uint32_t place = 0; place < PRUNEPOCKET_PLACES; place++)
        check_tallied(table, place, member_report(place), place + 1);
}

/* Nothing but the member's own leaving takes its tally. */
static void test_kept_tallies(void)
{
    record_t later = record_10();
    table_t table;

    CASE("a tally stays through the member's own reports, accepted and refused");
    table = with_two(record_10(), record_20());
    table = report(table, twin_at(unit(11)), now, PRUNEPOCKET_OTHER_ORIGIN);
    table = farewell(table, 10, unit(12), PRUNEPOCKET_OTHER_ORIGIN);
    table = report(table, record_10(), now, PRUNEPOCKET_ACCEPTED);
    check_tallied(table, 0, record_10(), 2);
    later.report.received += 1;
    table = report(table, later, now, PRUNEPOCKET_ACCEPTED);
    check_tallied(table, 0, later, 2);
    later.report.received = SECONDS(1001);
    table = report(table, later, now, PRUNEPOCKET_RECEIVED_FAR);
    table = report(table, record_10(), now, PRUNEPOCKET_ACCEPTED);
    check_tallied(table, 0, record_10(), 2);

    CASE("a tally stays through the reports and farewells of others");
    table = report(table, arrival(30), now, PRUNEPOCKET_ACCEPTED);
    table = farewell(table, 30, unit(30), PRUNEPOCKET_ACCEPTED);
    check_tallied(table, 0, record_10(), 2);
    check_member(table, 1, record_20());

    CASE("a tally stays through sweeps that the member outlasts");
    table = sweep(table, now, 2);
    check_tallied(table, 0, record_10(), 2);
    table = sweep(table, (reading_t){SECONDS(1029), 9000000}, 1);
    check_tallied(table, 0, record_10(), 2);
    table = report(table, twin_at(unit(11)), now, PRUNEPOCKET_OTHER_ORIGIN);
    check_tallied(table, 0, record_10(), 3);
}

/* None of the members here is fresh at this reading. */
static const reading_t all_swept = {SECONDS(1031), 9000000};

/* The member of one place has left. It, its twin or source 20 joins at another, or at its own. */
static void check_joining_anew(table_t left, uint32_t from, uint32_t place)
{
    table_t table;

    check_vacant(left, place);
    table = report(left, member_report(from), now, PRUNEPOCKET_ACCEPTED);
    check_member(table, place, member_report(from));
    table = report(left, twin_report(from), now, PRUNEPOCKET_ACCEPTED);
    check_member(table, place, twin_report(from));
    table = report(left, record_20(), now, PRUNEPOCKET_ACCEPTED);
    check_member(table, place, record_20());
}

static table_t leave_by_farewell(table_t table, uint32_t place)
{
    return farewell(table, 100 + place, unit(30), PRUNEPOCKET_ACCEPTED);
}

/* Its last report is just fresh at the reading of the cases, where all others are fresh for longer. */
static table_t leave_by_sweep(table_t table, uint32_t place)
{
    record_t oldest = member_report(place);

    oldest.report.received = now.ntp - SECONDS(30);
    table = report(table, oldest, now, PRUNEPOCKET_ACCEPTED);
    return sweep(table, (reading_t){now.ntp + 1, now.rtp}, prunepocket_count_members(table) - 1);
}

/* From each place: back to it, and where source 10 has taken it, to the next, whose member left too. */
static void check_coming_back(table_t (*leave)(table_t, uint32_t))
{
    table_t full = with_tallies(full_table(), LIMIT - 63, 1);

    for (uint32_t place = 0; place < PRUNEPOCKET_PLACES; place++) {
        uint32_t next = (place + 1) % PRUNEPOCKET_PLACES;
        table_t left = leave(full, place);

        check_joining_anew(left, place, place);
        left = leave(report(left, record_10(), now, PRUNEPOCKET_ACCEPTED), next);
        check_member(left, place, record_10());
        check_joining_anew(left, place, next);
    }
}

static void test_gone_tallies(void)
{
    table_t full;
    table_t left;

    CASE("a member leaves by farewell, and it, its twin or another joins at its place or the next");
    check_coming_back(leave_by_farewell);

    CASE("a member leaves by a sweep, and it, its twin or another joins at its place or the next");
    check_coming_back(leave_by_sweep);

    CASE("all leave by farewell, and each comes back at place 0");
    full = with_tallies(full_table(), LIMIT - 63, 1);
    left = left_by_farewells(full, 0);
    for (uint32_t place = 0; place < PRUNEPOCKET_PLACES; place++) {
        check_vacant(left, place);
        check_joining_anew(left, place, 0);
    }

    CASE("all leave by a sweep, and each comes back at place 0");
    left = sweep(full, all_swept, 0);
    for (uint32_t place = 0; place < PRUNEPOCKET_PLACES; place++) {
        check_vacant(left, place);
        check_joining_anew(left, place, 0);
    }
}

static void test_leaving_of_others(void)
{
    table_t full;
    table_t left;

    CASE("a farewell and a sweep leave the other tallies");
    full = with_tallies(full_table(), LIMIT - 63, 1);
    left = farewell(full, 100, unit(30), PRUNEPOCKET_ACCEPTED);
    full.held &= ~UINT64_C(1);
    check_places(&left, &full);
    left = report(left, record_10(), now, PRUNEPOCKET_ACCEPTED);
    left = report(left, twin_at(unit(11)), now, PRUNEPOCKET_OTHER_ORIGIN);
    left = sweep(left, (reading_t){SECONDS(999), 9000000}, 1);
    check_tallied(left, 0, record_10(), 1);
    check_vacant(left, 1);
    check_vacant(left, 63);
}

/* By public calls alone. */
static void test_joining_at_another_place(void)
{
    table_t table;

    CASE("a member leaves, another takes its place, and it comes back to another place");
    table = with_two(record_10(), record_20());
    table = report(table, twin_at(unit(11)), now, PRUNEPOCKET_OTHER_ORIGIN);
    table = farewell(table, 20, unit(21), PRUNEPOCKET_OTHER_ORIGIN);
    table = farewell(table, 20, unit(21), PRUNEPOCKET_OTHER_ORIGIN);
    table = farewell(table, 10, unit(10), PRUNEPOCKET_ACCEPTED);
    check_vacant(table, 0);
    table = report(table, arrival(30), now, PRUNEPOCKET_ACCEPTED);
    check_member(table, 0, arrival(30));
    table = report(table, record_10(), now, PRUNEPOCKET_ACCEPTED);
    check_member(table, 2, record_10());
    check_tallied(table, 1, record_20(), 2);

    CASE("it leaves, and its twin joins: now the first unit is the twin");
    table = farewell(table, 10, unit(10), PRUNEPOCKET_ACCEPTED);
    table = report(table, twin_at(unit(11)), now, PRUNEPOCKET_ACCEPTED);
    check_member(table, 2, twin_at(unit(11)));
    table = report(table, record_10(), now, PRUNEPOCKET_OTHER_ORIGIN);
    table = farewell(table, 10, unit(10), PRUNEPOCKET_OTHER_ORIGIN);
    check_tallied(table, 2, twin_at(unit(11)), 2);
    check_tallied(table, 1, record_20(), 2);
    check_member(table, 0, arrival(30));

    CASE("all are swept, and one joins anew");
    table = sweep(table, all_swept, 0);
    check_vacant(table, 1);
    table = report(table, record_20(), now, PRUNEPOCKET_ACCEPTED);
    check_member(table, 0, record_20());
}

static void test_tally_limit(void)
{
    static const uint32_t places[] = {0, 31, 63};
    table_t full;

    CASE("the limit of a tally");
    check_equal("PRUNEPOCKET_TALLY_LIMIT", LIMIT, UINT64_C(4294967295));
    full = full_table();
    for (size_t i = 0; i < LENGTH(places); i++) {
        uint32_t place = places[i];
        table_t table = full;

        table.members[place].tally = 4294967294;
        check_tallied(report(table, twin_report(place), now, PRUNEPOCKET_OTHER_ORIGIN), place,
                      member_report(place), 4294967295);
        check_tallied(farewell(table, 100 + place, unit(31), PRUNEPOCKET_OTHER_ORIGIN), place,
                      member_report(place), 4294967295);
        check_tallied(meet_twin(table, place, 4), place, member_report(place), 4294967295);
        table.members[place].tally = 4294967295;
        check_tallied(meet_twin(table, place, 1), place, member_report(place), 4294967295);
        check_tallied(farewell(table, 100 + place, unit(31), PRUNEPOCKET_OTHER_ORIGIN), place,
                      member_report(place), 4294967295);
        check_tallied(report(table, member_report(place), now, PRUNEPOCKET_ACCEPTED), place,
                      member_report(place), 4294967295);
    }

    CASE("each carry of a tally");
    for (unsigned bits = 1; bits < 32; bits++) {
        full.members[5].tally = (UINT32_C(1) << bits) - 1;
        check_tallied(meet_twin(full, 5, 1), 5, member_report(5), UINT32_C(1) << bits);
    }
}

/* Tables that differ in their tallies alone choose alike, and a sweep leaves the same members. */
static void check_choice_alike(table_t table, reading_t reading, uint32_t first, uint32_t step)
{
    table_t other = with_tallies(table, first, step);
    followed_t expected = prunepocket_choose(table, reading);
    followed_t followed = prunepocket_choose(other, reading);

    check_equal("choose: number", followed.number, expected.number);
    check_true("choose: target", same_target(&followed.target, &expected.target));
    check_true("choose: the table as before", same_table(&followed.table, &other));
    check_equal("sweep: places held", prunepocket_sweep(other, reading).table.held,
                prunepocket_sweep(table, reading).table.held);
}

static void test_choices_with_tallies(void)
{
    static const uint32_t steps[] = {0, 1, UINT32_MAX, UINT32_C(1) << 26, 0x9E3779B9};
    table_t equals = full_table();
    table_t pair = with_two(record_20(), wired(10));
    table_t tie = with_two(arrival(30), arrival(29));

    CASE("choosing does not look at tallies");
    for (size_t i = 0; i < LENGTH(steps); i++) {
        check_choice_alike(equals, now, LIMIT, steps[i]);
        check_choice_alike(equals, now, 100, steps[i]);
        check_choice_alike(equals, all_swept, 100, steps[i]);
        check_choice_alike(pair, now, LIMIT, steps[i]);
        check_choice_alike(tie, now, 1, steps[i]);
        check_choice_alike(opened(), now, 1, steps[i]);
    }
    check_chosen(with_tallies(equals, 0, 1), now, 100, 64);
    check_chosen(with_tallies(equals, 63, UINT32_MAX), now, 100, 64);
    check_chosen(with_tallies(tie, 0, 1), now, 29, 2);
    check_chosen(with_tallies(tie, 1, UINT32_MAX), now, 29, 2);
    check_target(choose(with_tallies(pair, 0, 1), now), target_20);
    check_target(choose(with_tallies(pair, 1, UINT32_MAX), now), target_20);
}

static void test_vacant_tallies(void)
{
    static const size_t behind[] = {64, 65, 127, 128, (size_t)1 << 32, SIZE_MAX};
    table_t table;

    CASE("a place without a member shows no tally, whatever stands in its memory");
    table = with_tallies(table_of(UINT64_C(0x5555555555555555)), 1, 1);
    for (uint32_t place = 0; place < PRUNEPOCKET_PLACES; place += 2) {
        check_tallied(table, place, member_report(place), 1 + place);
        check_vacant(table, place + 1);
    }
    table.held = UINT64_MAX;
    for (size_t i = 0; i < LENGTH(behind); i++)
        check_vacant(table, behind[i]);
}

/* ---- By whole datagrams ---------------------------------------------------------------------- */

/* As many sources as a BYE can have. */
#define BYE_SOURCES 31
#define BYE_BYTES (4 + 4 * BYE_SOURCES)
#define TWIN_CALLS (1 + BYE_SOURCES)
#define TWIN_BYTES (RR_BYTES + PRUNEPOCKET_REPORT_BYTES + BYE_BYTES)

/* An RR, the report of 10 and its farewell 31 times; or the farewells before the report. */
static uint8_t *lend_twin_datagram(int farewells_first)
{
    static const uint8_t header[] = {0x80 | BYE_SOURCES, 203, 0, BYE_SOURCES};
    uint8_t *datagram = allocate(TWIN_BYTES);
    uint8_t *bye = datagram + RR_BYTES + (farewells_first ? 0 : PRUNEPOCKET_REPORT_BYTES);

    memset(datagram, 0, TWIN_BYTES);
    memcpy(datagram, rr, sizeof rr);
    put_report(datagram + RR_BYTES + (farewells_first ? BYE_BYTES : 0), record_10());
    memcpy(bye, header, sizeof header);
    for (size_t i = 1; i <= BYE_SOURCES; i++)
        bye[4 * i + 3] = 10;
    return datagram;
}

/* From the twin, all calls get 14: the tally of the member of 10, from one to another. */
static void check_twin_datagram(const uint8_t *datagram, uint32_t from, uint32_t to)
{
    static const struct prunepocket_answer none;
    uint64_t numbers[TWIN_CALLS];
    table_t table = with_two(record_20(), twin_at(unit(11)));
    table_t expected;

    for (size_t i = 0; i < TWIN_CALLS; i++)
        numbers[i] = PRUNEPOCKET_OTHER_ORIGIN;
    table.members[1].tally = from;
    expected = table;
    expected.members[1].tally = to;
    table = take(table, datagram, TWIN_BYTES, 0, TWIN_CALLS, none, numbers, TWIN_CALLS);
    check_true("all else as before", same_table(&table, &expected));
    check_tallied(table, 1, twin_at(unit(11)), to);
}

static void test_twin_datagrams(void)
{
    for (int farewells_first = 0; farewells_first < 2; farewells_first++) {
        uint8_t *datagram = lend_twin_datagram(farewells_first);
        table_t table = with_one(twin_at(unit(11)));

        CASE("a datagram with thirty-two calls of a twin");
        check_twin_datagram(datagram, 0, 32);
        check_twin_datagram(datagram, 5, 37);

        CASE("a datagram with thirty-two calls of a twin, near the limit");
        check_twin_datagram(datagram, LIMIT - 33, LIMIT - 1);
        check_twin_datagram(datagram, LIMIT - 32, LIMIT);
        check_twin_datagram(datagram, LIMIT - 31, LIMIT);
        check_twin_datagram(datagram, LIMIT - 1, LIMIT);
        check_twin_datagram(datagram, LIMIT, LIMIT);

        CASE("a refused datagram of a twin");
        table.members[0].tally = 5;
        take_refused(table, datagram, TWIN_BYTES, 0, TWIN_CALLS - 1, PRUNEPOCKET_SHORT_BUFFER, 0);
        take_refused(table, datagram, TWIN_BYTES - 1, 0, TWIN_CALLS, PRUNEPOCKET_BAD_LENGTH, 0);
        take_refused(table, datagram + RR_BYTES, TWIN_BYTES - RR_BYTES, 0, TWIN_CALLS,
                     PRUNEPOCKET_BAD_FIRST, 0);
        free(datagram);
    }
}

/* The member itself: it leaves with the first farewell, and each farewell behind that gets 19. */
static void test_own_datagrams(void)
{
    static const struct prunepocket_answer none;
    uint64_t numbers[TWIN_CALLS];
    uint8_t *datagram = lend_twin_datagram(0);
    table_t table = with_one(record_10());

    CASE("a datagram with the member's report and farewells");
    table.members[0].tally = 5;
    for (size_t i = 0; i < TWIN_CALLS; i++)
        numbers[i] = i < 2 ? PRUNEPOCKET_ACCEPTED : PRUNEPOCKET_NO_MEMBER;
    table = take(table, datagram, TWIN_BYTES, 0, TWIN_CALLS, none, numbers, TWIN_CALLS);
    check_vacant(table, 0);
    free(datagram);

    CASE("a datagram with the member's farewells, and then its report");
    datagram = lend_twin_datagram(1);
    table = with_one(record_10());
    table.members[0].tally = 5;
    numbers[1] = PRUNEPOCKET_NO_MEMBER;
    numbers[TWIN_CALLS - 1] = PRUNEPOCKET_ACCEPTED;
    table = take(table, datagram, TWIN_BYTES, 0, TWIN_CALLS, none, numbers, TWIN_CALLS);
    check_member(table, 0, record_10());
    free(datagram);
}

int main(void)
{
    start_checks(__FILE__);
    test_uncounted_refusals();
    test_counted_refusals();
    test_twins_at_every_place();
    test_kept_tallies();
    test_gone_tallies();
    test_leaving_of_others();
    test_joining_at_another_place();
    test_tally_limit();
    test_choices_with_tallies();
    test_vacant_tallies();
    test_twin_datagrams();
    test_own_datagrams();
    return finish_checks();
}
