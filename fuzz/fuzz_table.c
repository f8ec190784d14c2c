/*
 * Takes every input as a script of calls, gives them to the archive's member table and to the plain register, and
 * aborts where an answer, a member, its place, its tally or the target differs, or where a burst writes outside of the
 * numbers that its list is to get. A second site takes reports in the other order (other_order.h), and both check
 * settings packets (settings.h). What a datagram has is the decoder's word. The form of a script is in README.md.
 */
#include "decoder.h"
#include "lend.h"
#include "other_order.h"
#include "prunepocket.h"
#include "register.h"
#include "same.h"
#include "script.h"
#include "settings.h"
#include "shares.h"
#include "sides.h"

#include <inttypes.h>
#include <stdbool.h>
#include <stdio.h>
#include <stdlib.h>
#include <string.h>

enum { MOST_CALLS = 600, NUMBERS = 25, MOST_PACKETS = 7, MOST_DATAGRAM = 40 * MOST_PACKETS };
enum call { OPEN, FILE_REPORT, SAY_FAREWELL, SWEEP, CHOOSE, TAKE_DATAGRAM, REPORT_BURST, CALLS };

static const char *const call_names[CALLS] = {"open",   "report",        "farewell",    "sweep",
                                              "choose", "take_datagram", "report_burst"};

/* The longest burst that is tried, whose last eight bits say 64. The list is at most one longer, among more numbers. */
enum { LONGEST_BURST = 320, AROUND_LIST = 512 };

/* What is told apart at a step of 0: the low 16 bits of received, which other steps clear. */
enum low_bits { LOW_0, LOW_1, LOW_65535, LOW_OTHER, ALL_ONES, LOW_BITS };

static const char *const low_bits_names[LOW_BITS] = {"low bits 0", "low bits 1", "low bits 65535", "other low bits",
                                                     "all ones"};

/* What is told apart of new members that 13 to 17 let pass: where they stand. */
enum new_member { AT_0, AT_0_BELOW, BELOW, AT_63_LAST, NO_PLACE, NEW_MEMBERS };

static const struct share new_member_shares[NEW_MEMBERS] = {
    {"at place 0", 100},
    {"at place 0 below held places", 10000},
    {"at any place below held places", 2000},
    {"at place 63 with all others held", 1000},
    {"refused with 18", 100},
};

/* What is told apart of tallies: what raised them, and what must leave them or begin anew. */
enum tally_case {
    BY_REPORT,
    BY_FAREWELL,
    IN_DATAGRAM,
    TWIN_13,
    OWN_13,
    OWN_15,
    OWN_16,
    OWN_17,
    OWN_ACCEPTED,
    SWEEP_OUTLASTED,
    AFTER_FAREWELL,
    AFTER_SWEEP,
    JOINED_ANEW,
    TO_LIMIT,
    AT_LIMIT,
    EQUAL_HIGHER,
    TALLY_CASES
};

static const struct share tally_shares[TALLY_CASES] = {
    {"14 of a report", 100},
    {"14 of a farewell", 1000},
    {"14 in a datagram", 10000},
    {"13 of a twin", 10000},
    {"13 of a tallied member", 20000},
    {"15 of a tallied member", 10000},
    {"16 of a tallied member", 10000},
    {"17 of a tallied member", 100000},
    {"accepted of a tallied member", 1000},
    {"sweeps outlasted by a tallied member", 10000},
    {"new member at the place of a tallied one after a farewell", 20000},
    {"new member at the place of a tallied one after a sweep", 20000},
    {"new member whose number left with a tally", 20000},
    {"14 up to the limit", 10000},
    {"14 at the limit", 10000},
    {"chosen among equals of higher tallies", 1000},
};

/* What is told apart of bursts: their lengths, and what their reports got. */
enum burst_case {
    EMPTY_BURST,
    FULL_BURST,
    EXACT_LIST,
    LONG_WITH_SHORT_LIST,
    BEHIND_REFUSAL,
    TWIN_OF_MEMBER,
    TWIN_IN_BURST,
    TO_LIMIT_IN_BURST,
    NO_PLACE_IN_BURST,
    BURST_CASES
};

static const struct share burst_shares[BURST_CASES] = {
    {"without reports", 1000},
    {"64 reports taken", 500},
    {"taken with a list exactly as long", 20},
    {"23 with a list shorter than the reports", 500},
    {"an accepted report behind a refused one", 100},
    {"14 under the number of a member from before", 100},
    {"14 under a number that joined in the burst", 100},
    {"14 up to the limit, or at it", 20000},
    {"18 behind an accepted report", 1000},
};

/*
 * What the fuzzer is told beside the branches: answers by call, in a burst, at a step of 0, with tallies, rows,
 * the place of a new member with none held above it, with some, or with all others held, and how a
 * target came about.
 */
enum {
    BY_BURST = CALLS * NUMBERS,
    IN_BURST = BY_BURST + BURST_CASES,
    BY_LOW_BITS = IN_BURST + NUMBERS,
    BY_TALLY = BY_LOW_BITS + LOW_BITS * NUMBERS,
    BY_ROWS = BY_TALLY + TALLY_CASES,
    BY_PLACE = BY_ROWS + 65,
    BY_COUNTED = BY_PLACE + 3 * 65,
    BY_TIES = BY_COUNTED + 3 * 65,
    COUNTERS = BY_TIES + 3 * 65
};
__attribute__((section("__libfuzzer_extra_counters"))) static uint8_t counters[COUNTERS];

/* What was met since the start. */
static uint64_t met[CALLS][NUMBERS];
static uint64_t ties[2], targets[2], replaced, swept, most_rows, reduced;

/* Reports, by calls and in datagrams; those with P 1 and a step of 0; the targets among these. */
static uint64_t reports, at_step_0[LOW_BITS][NUMBERS], wired, wired_ties;

/* Reports of new members, by calls and in datagrams. */
static uint64_t new_members[NEW_MEMBERS];

/* What was done to tallies, by calls and in datagrams. */
static uint64_t tallies_met[TALLY_CASES];

/* Bursts; their reports by number, which are not among the reports above; what was met in them. */
static uint64_t bursts, in_bursts[NUMBERS], bursts_met[BURST_CASES];

/* Below so many reports, as where one input is run, a share says nothing. */
#define ENOUGH_REPORTS 10000

static uint64_t count_step_0(size_t low_bits)
{
    uint64_t count = 0;

    for (size_t number = 0; number < NUMBERS; number++)
        count += at_step_0[low_bits][number];
    return count;
}

/* What a run of ENOUGH_REPORTS must meet more often. */
static void at_least(const char *what, uint64_t count, uint64_t least)
{
    if (reports >= ENOUGH_REPORTS)
        print_too_rare(what, count, least);
}

static void print_step_0(void)
{
    uint64_t all = 0, accepted = 0, refused = 0;

    for (size_t i = 0; i < LOW_BITS; i++) {
        all += count_step_0(i);
        accepted += at_step_0[i][0];
        refused += at_step_0[i][17];
    }
    double share = reports > 0 ? 100.0 * (double)all / (double)reports : 0.0;
    fprintf(stderr, "step 0: %" PRIu64 " of %" PRIu64 " reports, %.1f %%; %" PRIu64 " accepted, %" PRIu64
                    " refused with 17; targets: %" PRIu64 ", %" PRIu64 " among equals\n",
            all, reports, share, accepted, refused, wired, wired_ties);
    fputs("step 0, received:", stderr);
    for (size_t i = 0; i < LOW_BITS; i++)
        fprintf(stderr, " %s %" PRIu64 ";", low_bits_names[i], count_step_0(i));
    fputs("\n", stderr);

    at_least("step 0", all, reports / 10);
    at_least("step 0, accepted", accepted, reports / 100);
    at_least("step 0, refused with 17", refused, reports / 10000);
    at_least("step 0, targets", wired, reports / 1000);
    for (size_t i = 0; i < LOW_BITS; i++)
        at_least(low_bits_names[i], count_step_0(i), reports / 1000);
}

/* Of how many something has a share: of none where there are too few reports. */
static uint64_t enough_of(uint64_t count)
{
    return reports >= ENOUGH_REPORTS ? count : 0;
}

static void print_met(void)
{
    for (size_t call = 0; call < CALLS; call++)
        print_numbers(call_names[call], met[call], NUMBERS);
    print_numbers("reports in bursts", in_bursts, NUMBERS);
    fprintf(stderr, "targets: %" PRIu64 " by presentation, %" PRIu64 " among equals; %" PRIu64 " by arrival, %" PRIu64
                    " among equals\n",
            targets[0], ties[0], targets[1], ties[1]);
    print_step_0();
    print_shares("new members", new_member_shares, new_members, NEW_MEMBERS, enough_of(reports));
    print_shares("tallies", tally_shares, tallies_met, TALLY_CASES, enough_of(reports));
    print_shares("bursts", burst_shares, bursts_met, BURST_CASES, enough_of(bursts));
    print_shares("the other order", order_shares, orders_met, ORDER_CASES, enough_of(reports));
    print_checks(enough_of(checks));
    fprintf(stderr, "reports replaced: %" PRIu64 "; members swept: %" PRIu64 "; at most %" PRIu64
                    " members; looks at all members: %" PRIu64 "\n",
            replaced, swept, most_rows, looks);
    fprintf(stderr, "datagrams accepted at reduced size that otherwise get 4: %" PRIu64 "\n", reduced);
}

/* What bursts are lent: the reports, and a list among other numbers. */
static struct lent report_memory, list_memory;

int LLVMFuzzerInitialize(int *argc, char ***argv)
{
    (void)argc;
    (void)argv;
    report_memory = lend(LONGEST_BURST * sizeof(struct prunepocket_record));
    list_memory = lend(AROUND_LIST * sizeof(uint64_t));
    atexit(print_met);
    return 0;
}

/* ---- Both sides of the comparison ---- */

/* Takes the table that a call handed back, after a look at its number. */
static void take(struct sides *sides, enum call call, const struct prunepocket_answered *answered, unsigned number)
{
    size_t count = register_count(&sides->rows);

    met[call][number]++;
    counters[call * NUMBERS + number] = 1;
    same(call_names[call], answered->number, number);
    if (number != 0)
        same_table(&answered->table, &sides->table);
    sides->table = answered->table;
    sides->calls++;
    if (count > most_rows)
        most_rows = count;
    counters[BY_ROWS + count] = 1;
    if (number == 0)
        same("members", prunepocket_count_members(sides->table), count);
}

static bool open_both(struct sides *sides, uint32_t group, uint32_t media, uint32_t rate)
{
    unsigned number = register_open(&sides->rows, group, media, rate);
    struct prunepocket_answered answered = prunepocket_open(group, media, rate);

    met[OPEN][number]++;
    counters[OPEN * NUMBERS + number] = 1;
    same("open", answered.number, number);
    if (number != 0)
        return false;
    sides->table = answered.table;
    memset(sides->left, 0, sizeof sides->left);
    look(sides);
    register_open(&other.site.rows, group, media, rate);
    other.site.table = answered.table;
    other.waits = false;
    return true;
}

static enum low_bits low_bits_of(uint64_t received)
{
    if (received == UINT64_MAX)
        return ALL_ONES;
    switch (received % 65536) {
    case 0:
        return LOW_0;
    case 1:
        return LOW_1;
    case 65535:
        return LOW_65535;
    default:
        return LOW_OTHER;
    }
}

static void count_report(const struct told *report, unsigned number)
{
    reports++;
    if (report->p != 0 && register_same_slot(report)) {
        enum low_bits low_bits = low_bits_of(report->received);

        at_step_0[low_bits][number]++;
        counters[BY_LOW_BITS + low_bits * NUMBERS + number] = 1;
    }
}

/* A new row stands at a place, or at none. All places below it are held. */
static void count_new_member(const struct plain_register *rows, size_t place)
{
    size_t count = register_count(rows);
    bool last = count == PLACES;
    bool below = count > place + 1;

    new_members[AT_0] += place == 0;
    new_members[AT_0_BELOW] += place == 0 && below;
    new_members[BELOW] += below;
    new_members[AT_63_LAST] += place == 63 && last;
    new_members[NO_PLACE] += place == PLACES;
    counters[BY_PLACE + 65 * (last ? 2 : below) + place] = 1;
}

static void count_tally(enum tally_case tally_case)
{
    tallies_met[tally_case]++;
    counters[BY_TALLY + tally_case] = 1;
}

/* A call under the number of the row at a place, which had this tally before it, got 14. */
static void count_14(enum tally_case raised_by, uint32_t tally)
{
    count_tally(raised_by);
    if (tally == TALLY_LIMIT)
        count_tally(AT_LIMIT);
    if (tally == TALLY_LIMIT - 1)
        count_tally(TO_LIMIT);
}

/* What a report got of another origin than the row's, or of the row's own; before, the row had this tally. */
static void count_member_report(bool twin, unsigned number, uint32_t tally)
{
    /* A row's own report gets no other number. */
    static const enum tally_case own[NUMBERS] = {
        [0] = OWN_ACCEPTED, [13] = OWN_13, [15] = OWN_15, [16] = OWN_16, [17] = OWN_17,
    };

    if (number == 14)
        count_14(BY_REPORT, tally);
    if (number == 13 && twin)
        count_tally(TWIN_13);
    if (!twin && tally > 0)
        count_tally(own[number]);
    replaced += number == 0;
}

/* A new row stands at a place. Where its number had a row before, that left with this tally. */
static void count_joining(struct sides *sides, size_t place, uint32_t tally)
{
    count_new_member(&sides->rows, place);
    if (tally > 0)
        count_tally(JOINED_ANEW);
    if (sides->left[place] == LEFT_BY_FAREWELL)
        count_tally(AFTER_FAREWELL);
    if (sides->left[place] == LEFT_BY_SWEEP)
        count_tally(AFTER_SWEEP);
    sides->left[place] = NONE_LEFT;
}

/* The register's number for a report. */
static unsigned report_expected(struct sides *sides, const struct row *row, struct clocks now)
{
    const struct row *member = register_row(&sides->rows, row->source);
    bool twin = member && memcmp(&member->origin, &row->origin, sizeof row->origin) != 0;
    uint32_t tally = register_last_tally(&sides->rows, row->source);
    unsigned number = register_report(&sides->rows, row, now);

    count_report(&row->report, number);
    if (member)
        count_member_report(twin, number, tally);
    if (number == 0 && !member)
        count_joining(sides, place_of(&sides->rows, row->source), tally);
    if (number == 18)
        count_new_member(&sides->rows, PLACES);
    return number;
}

/* The register's number for a farewell. */
static unsigned farewell_expected(struct sides *sides, uint32_t source, const struct from *origin)
{
    const struct row *member = register_row(&sides->rows, source);
    size_t place = member ? place_of(&sides->rows, source) : PLACES;
    uint32_t tally = register_tally_at(&sides->rows, place);
    unsigned number = register_farewell(&sides->rows, source, origin);

    if (number == 14)
        count_14(BY_FAREWELL, tally);
    if (number == 0)
        sides->left[place] = tally > 0 ? LEFT_BY_FAREWELL : NONE_LEFT;
    return number;
}

/* 14 raises the holder's tally, and all else of the table is as before. */
static void expect_raised(struct sides *sides, uint32_t source, unsigned number)
{
    if (number == 14) {
        size_t place = place_of(&sides->rows, source);

        sides->table.members[place].tally = register_tally_at(&sides->rows, place);
    }
}

static void report_both(struct sides *sides, const struct row *row, struct clocks now)
{
    struct prunepocket_answered answered = prunepocket_report(sides->table, to_record(row), to_reading(now));
    unsigned number = report_expected(sides, row, now);

    expect_raised(sides, row->source, number);
    take(sides, FILE_REPORT, &answered, number);
    if (number == 0)
        look_at(sides, place_of(&sides->rows, row->source));
    report_other(sides, row, now, number);
}

static void farewell_both(struct sides *sides, uint32_t source, const struct from *origin)
{
    tell_waiting(sides);

    bool apart = is_apart(sides, source);
    struct prunepocket_answered answered = prunepocket_farewell(sides->table, source, to_origin(origin));
    unsigned number = farewell_expected(sides, source, origin);

    expect_raised(sides, source, number);
    take(sides, SAY_FAREWELL, &answered, number);
    farewell_other(source, origin, number);
    count_order_if(number == 14 ? RAISED_APART : LEFT_APART, apart);
}

/* The register's sweep, after which the places of members with tallies are known. */
static void sweep_expected(struct sides *sides, struct clocks now)
{
    uint32_t tallies[PLACES];
    bool held[PLACES];

    memcpy(held, sides->rows.held, sizeof held);
    for (size_t place = 0; place < PLACES; place++)
        tallies[place] = register_tally_at(&sides->rows, place);
    register_sweep(&sides->rows, now);
    for (size_t place = 0; place < PLACES; place++) {
        if (sides->rows.held[place] && tallies[place] > 0)
            count_tally(SWEEP_OUTLASTED);
        if (held[place] && !sides->rows.held[place])
            sides->left[place] = tallies[place] > 0 ? LEFT_BY_SWEEP : NONE_LEFT;
    }
}

static void sweep_both(struct sides *sides, struct clocks now)
{
    tell_waiting(sides);

    struct prunepocket_answered answered = prunepocket_sweep(sides->table, to_reading(now));
    size_t before = register_count(&sides->rows), apart = count_apart(sides);

    sweep_expected(sides, now);
    swept += before - register_count(&sides->rows);
    take(sides, SWEEP, &answered, 0);
    sweep_other(now);
    count_order_if(SWEPT_APART, count_apart(sides) < apart);
}

static void count_choice(const struct choice *choice)
{
    int mode = choice->by_arrival ? 1 : 0;
    int told = choice->same_slot ? 2 : mode;

    met[CHOOSE][choice->number]++;
    counters[CHOOSE * NUMBERS + choice->number] = 1;
    if (choice->number != 0)
        return;
    targets[mode]++;
    ties[mode] += choice->equally_late > 0;
    wired += choice->same_slot != 0;
    wired_ties += choice->same_slot && choice->equally_late > 0;
    counters[BY_COUNTED + 65 * told + choice->counted] = 1;
    counters[BY_TIES + 65 * told + choice->equally_late] = 1;
}

/* The target, which is among equals, has an equal with a higher tally. */
static bool has_equal_above(const struct plain_register *rows, const struct choice *choice)
{
    uint32_t tally = register_tally_at(rows, place_of(rows, choice->source));

    for (size_t place = 0; place < PLACES; place++)
        if (choice->latest[place] && register_tally_at(rows, place) > tally)
            return true;
    return false;
}

static struct prunepocket_target to_target(const struct choice *choice)
{
    return (struct prunepocket_target){choice->source, choice->group,     choice->media,  choice->received,
                                       choice->rtp,    choice->presented, choice->counted};
}

static void choose_both(struct sides *sides, struct clocks now)
{
    struct choice expected = register_choose(&sides->rows, now);
    struct prunepocket_target target = to_target(&expected);
    struct prunepocket_followed followed = prunepocket_choose(sides->table, to_reading(now));

    sides->calls++;
    count_choice(&expected);
    if (expected.equally_late > 0 && has_equal_above(&sides->rows, &expected))
        count_tally(EQUAL_HIGHER);
    same("choose", followed.number, expected.number);
    same_target(&followed.target, &target);
    same_table(&followed.table, &sides->table);
    sides->table = followed.table;
    if (followed.number == 0)
        check_own(sides, &followed.target, now);
    tell_waiting(sides);
    same_choice(&followed, now);
    count_order_if(CHOSEN_APART, followed.number == 0 && is_apart(sides, expected.source));
    count_order_if(EQUALS_APART, expected.equally_late > 0 && is_apart(sides, expected.source));
}

/* ---- Whole datagrams ---- */

/* A datagram as it arrives. */
struct arrival {
    uint8_t bytes[MOST_DATAGRAM];
    size_t length;
    uint32_t reduced_size;
    struct from origin;
    struct clocks now;
};

/* What the archive answers, and the list, in which each number has a value of its own beforehand. */
struct taken {
    struct prunepocket_datagram_answered answered;
    uint64_t numbers[MOST_ITEMS];
};

static void take_arrival(const struct sides *sides, const struct arrival *arrival, uint32_t reduced_size,
                         struct taken *taken)
{
    for (size_t i = 0; i < MOST_ITEMS; i++)
        taken->numbers[i] = fill(i);
    taken->answered =
        prunepocket_take_datagram(sides->table, arrival->bytes, arrival->length, reduced_size,
                                  to_origin(&arrival->origin), to_reading(arrival->now), taken->numbers, MOST_ITEMS);
}

static void same_numbers(const char *what, const uint64_t *archive, const uint64_t *expected, size_t length)
{
    for (size_t i = 0; i < length; i++)
        same(what, archive[i], expected[i]);
}

/*
 * Both values of the flag beside each other, without decoder and register: at reduced size 4 is never given, and unless
 * it is given otherwise, the answers are alike.
 */
static void check_alike(const struct sides *sides, const struct arrival *arrival)
{
    static struct taken taken[2];

    take_arrival(sides, arrival, 0, &taken[0]);
    take_arrival(sides, arrival, arrival->reduced_size == 0 ? 1 : arrival->reduced_size, &taken[1]);
    same("4 at reduced size", taken[1].answered.number == PRUNEPOCKET_BAD_FIRST, 0);
    if (taken[0].answered.number == PRUNEPOCKET_BAD_FIRST) {
        reduced += taken[1].answered.number == 0;
        return;
    }
    same("take_datagram at reduced size beside not", taken[1].answered.number, taken[0].answered.number);
    same("its place", taken[1].answered.place, taken[0].answered.place);
    same("its count", taken[1].answered.count, taken[0].answered.count);
    same_numbers("its list", taken[1].numbers, taken[0].numbers, MOST_ITEMS);
    same_table(&taken[1].answered.table, &taken[0].answered.table);
}

static struct row to_row(const struct item *item, const struct from *origin)
{
    return (struct row){item->source,
                        *origin,
                        {item->received, item->group, item->media, item->rtp, (uint32_t)item->presented,
                         item->payload_type, item->p}};
}

/* The register's numbers for the reports and farewells that were decoded: how many there are. */
static size_t numbers_expected(struct sides *sides, const struct arrival *arrival, const struct decoded *decoded,
                               uint64_t *numbers)
{
    size_t count = 0;

    for (size_t i = 0; i < decoded->count; i++) {
        const struct item *item = &decoded->items[i];
        struct row row = to_row(item, &arrival->origin);

        if (item->kind == REPORT)
            numbers[count++] = report_expected(sides, &row, arrival->now);
        else if (item->kind == FAREWELL)
            numbers[count++] = farewell_expected(sides, item->source, &arrival->origin);
        if (item->kind != SETTINGS && numbers[count - 1] == 14)
            count_tally(IN_DATAGRAM);
    }
    return count;
}

/* The members that a datagram speaks of stand there as the register has them. */
static void look_at_sources(const struct sides *sides, const struct decoded *decoded)
{
    for (size_t i = 0; i < decoded->count; i++)
        if (register_row(&sides->rows, decoded->items[i].source))
            look_at(sides, place_of(&sides->rows, decoded->items[i].source));
}

/* An XR packet with one block: put_report's. */
#define REPORT_PACKET UINT32_C(0x80CF0009)
enum { BLOCK_AT = 8, PACKET_BYTES = 40 };

static bool is_report_packet(const struct arrival *arrival, const struct item *item)
{
    uint8_t header[4];

    put_word(header, REPORT_PACKET);
    return item->kind == REPORT && memcmp(arrival->bytes + item->place - BLOCK_AT, header, sizeof header) == 0;
}

/* The packets of two reports that stand one behind the other. */
static void exchange_packets(struct arrival *arrival, const struct item *first)
{
    uint8_t *at = arrival->bytes + first->place - BLOCK_AT, packet[PACKET_BYTES];

    memcpy(packet, at, PACKET_BYTES);
    memmove(at, at + PACKET_BYTES, PACKET_BYTES);
    memcpy(at + PACKET_BYTES, packet, PACKET_BYTES);
}

/* Exchanges as exchange_in_burst does: whether there are such reports. The items have these numbers, settings none. */
static bool exchange_in_datagram(struct arrival *arrival, const struct decoded *decoded, const uint64_t *numbers)
{
    bool exchanged = false;

    for (size_t i = 1; i < decoded->count; i++) {
        const struct item *second = &decoded->items[i], *first = second - 1;

        if (is_report_packet(arrival, first) && is_report_packet(arrival, second) && numbers[0] == 0 &&
            numbers[1] == 0 && first->source != second->source && second->place == first->place + PACKET_BYTES) {
            exchange_packets(arrival, first);
            exchanged = true;
            numbers++;
            i++;
        }
        numbers += decoded->items[i - 1].kind != SETTINGS;
    }
    return exchanged;
}

/* The second site takes a datagram with reports exchanged, which leaves the list as it was: both numbers are 0. */
static void datagram_other(const struct sides *sides, const struct arrival *arrival, struct decoded *decoded,
                           const struct taken *first)
{
    static struct arrival exchanged;
    static struct taken taken;
    unsigned number = (unsigned)first->answered.number;

    exchanged = *arrival;
    count_order_if(EXCHANGED_IN_DATAGRAM, exchange_in_datagram(&exchanged, decoded, first->numbers));
    take_arrival(&other.site, &exchanged, arrival->reduced_size, &taken);
    decode(exchanged.bytes, exchanged.length, arrival->reduced_size != 0, decoded);
    for (size_t i = 0; i < decoded->count; i++) {
        const struct item *item = &decoded->items[i];
        struct row row = to_row(item, &arrival->origin);

        if (item->kind == REPORT)
            register_report(&other.site.rows, &row, arrival->now);
        else if (item->kind == FAREWELL)
            register_farewell(&other.site.rows, item->source, &arrival->origin);
    }
    struct prunepocket_answered answered = {.number = taken.answered.number, .table = taken.answered.table};
    take_other("take_datagram", &answered, decoded->refusal, number);
    same_where = IN_OTHER_ORDER;
    same_numbers("list of take_datagram", taken.numbers, first->numbers, MOST_ITEMS);
    same("place of take_datagram", taken.answered.place, first->answered.place);
    same("count of take_datagram", taken.answered.count, first->answered.count);
    same_where = "";
    look_at_other(sides);
}

static void datagram_both(struct sides *sides, const struct arrival *arrival)
{
    static struct decoded decoded;
    static struct taken taken;
    uint64_t numbers[MOST_ITEMS];

    tell_waiting(sides);
    check_alike(sides, arrival);
    decode(arrival->bytes, arrival->length, arrival->reduced_size != 0, &decoded);
    size_t count = numbers_expected(sides, arrival, &decoded, numbers);
    take_arrival(sides, arrival, arrival->reduced_size, &taken);

    struct prunepocket_answered answered = {.number = taken.answered.number, .table = taken.answered.table};
    take(sides, TAKE_DATAGRAM, &answered, decoded.refusal);
    same("place of a refused datagram", taken.answered.place, decoded.place);
    same("count of take_datagram", taken.answered.count, count);
    for (size_t i = 0; i < MOST_ITEMS; i++)
        same("list of take_datagram", taken.numbers[i], i < count ? numbers[i] : fill(i));
    look_at_sources(sides, &decoded);
    datagram_other(sides, arrival, &decoded, &taken);
}

/* ---- Bursts ---- */

struct burst {
    struct row rows[LONGEST_BURST];
    size_t count;
    size_t room; /* how many numbers the list has */
    struct clocks now;
};

static void count_burst(enum burst_case burst_case)
{
    bursts_met[burst_case]++;
    counters[BY_BURST + burst_case] = 1;
}

/* Lengths alone. */
static void count_lengths(const struct burst *burst, unsigned number)
{
    bursts++;
    if (burst->count == 0)
        count_burst(EMPTY_BURST);
    if (burst->count == 64 && number == 0)
        count_burst(FULL_BURST);
    if (burst->count > 0 && burst->room == burst->count && number == 0)
        count_burst(EXACT_LIST);
    if (number == 23 && burst->room < burst->count)
        count_burst(LONG_WITH_SHORT_LIST);
}

/* A report of a burst got a number; before the burst these places were held, and its number had this tally just now. */
static void count_in_burst(const struct sides *sides, const bool *held, uint32_t source, unsigned number,
                           uint32_t tally)
{
    in_bursts[number]++;
    counters[IN_BURST + number] = 1;
    if (number == 14) {
        count_burst(held[place_of(&sides->rows, source)] ? TWIN_OF_MEMBER : TWIN_IN_BURST);
        if (tally >= TALLY_LIMIT - 1)
            count_burst(TO_LIMIT_IN_BURST);
    }
}

/* The register's numbers for the reports of a burst, one by one in list order. */
static void burst_expected(struct sides *sides, const struct burst *burst, uint64_t *numbers)
{
    bool held[PLACES], refused = false, accepted = false, behind_refusal = false, no_place = false;

    memcpy(held, sides->rows.held, sizeof held);
    for (size_t i = 0; i < burst->count; i++) {
        const struct row *row = &burst->rows[i];
        bool is_member = register_row(&sides->rows, row->source) != NULL;
        uint32_t tally = register_last_tally(&sides->rows, row->source);
        unsigned number = register_report(&sides->rows, row, burst->now);

        if (number == 0 && !is_member)
            sides->left[place_of(&sides->rows, row->source)] = NONE_LEFT;
        count_in_burst(sides, held, row->source, number, tally);
        behind_refusal |= refused && number == 0;
        no_place |= accepted && number == 18;
        refused |= number != 0;
        accepted |= number == 0;
        numbers[i] = number;
    }
    if (behind_refusal)
        count_burst(BEHIND_REFUSAL);
    if (no_place)
        count_burst(NO_PLACE_IN_BURST);
}

/* What the archive answers, and the numbers among which the list stands. */
struct burst_taken {
    struct prunepocket_answered answered;
    uint64_t numbers[AROUND_LIST];
    size_t first; /* of the list */
};

/* Each number has a value of its own. */
static void fill_numbers(uint64_t *numbers, size_t length)
{
    for (size_t i = 0; i < length; i++)
        numbers[i] = fill(i);
}

/* The archive's answer, where reports and list both end at pages that may not be touched, or start at them. */
static void call_burst(const struct sides *sides, const struct burst *burst, bool at_end, struct burst_taken *taken)
{
    size_t bytes = burst->count * sizeof(struct prunepocket_record);
    struct prunepocket_record *records =
        (struct prunepocket_record *)(at_end ? report_memory.end - bytes : report_memory.start);
    uint64_t *numbers = (uint64_t *)(at_end ? list_memory.end - sizeof taken->numbers : list_memory.start);
    static struct prunepocket_record copy[LONGEST_BURST];

    for (size_t i = 0; i < burst->count; i++)
        copy[i] = to_record(&burst->rows[i]);
    memcpy(records, copy, bytes);
    fill_numbers(numbers, AROUND_LIST);
    taken->first = at_end ? AROUND_LIST - burst->room : 0;
    taken->answered = prunepocket_report_burst(sides->table, records, burst->count, to_reading(burst->now),
                                               numbers + taken->first, burst->room);
    memcpy(taken->numbers, numbers, sizeof taken->numbers);
    same("reports of a burst are written on", memcmp(records, copy, bytes) != 0, 0);
}

/* The list has so many numbers at its front. Behind them, and around the list, all is as before. */
static void same_list(const struct burst_taken *taken, const uint64_t *numbers, size_t count)
{
    for (size_t i = 0; i < AROUND_LIST; i++) {
        bool in_front = i >= taken->first && i - taken->first < count;

        same(in_front ? "list of report_burst" : "list of report_burst as before", taken->numbers[i],
             in_front ? numbers[i - taken->first] : fill(i));
    }
}

/* Each two reports one after the other that are both accepted, and of different numbers: whether there are such. */
static bool exchange_in_burst(struct burst *burst, const uint64_t *numbers)
{
    bool exchanged = false;

    for (size_t i = 1; i < burst->count; i++) {
        struct row *second = &burst->rows[i], *first = second - 1, row = *first;

        if (numbers[i - 1] == 0 && numbers[i] == 0 && first->source != second->source) {
            *first = *second;
            *second = row;
            exchanged = true;
            i++;
        }
    }
    return exchanged;
}

/* The second site takes a burst with reports exchanged, which leaves the list as it was: both numbers are 0. */
static void burst_other(const struct sides *sides, const struct burst *burst, unsigned number, const uint64_t *numbers)
{
    static struct burst exchanged;
    static struct burst_taken taken;
    size_t count = number == 0 ? burst->count : 0;

    exchanged = *burst;
    if (number == 0)
        count_order_if(EXCHANGED_IN_BURST, exchange_in_burst(&exchanged, numbers));
    call_burst(&other.site, &exchanged, true, &taken);
    take_other("report_burst", &taken.answered, number, number);
    same_where = IN_OTHER_ORDER;
    for (size_t i = 0; i < count; i++)
        same("number of the register", register_report(&other.site.rows, &exchanged.rows[i], burst->now), numbers[i]);
    same_list(&taken, numbers, count);
    same_where = "";
    look_at_other(sides);
}

static void burst_both(struct sides *sides, const struct burst *burst)
{
    static struct burst_taken at_start, at_end;
    uint64_t numbers[64];
    unsigned number = register_burst(burst->count, burst->room);
    size_t count = number == 0 ? burst->count : 0;

    tell_waiting(sides);
    call_burst(sides, burst, false, &at_start);
    call_burst(sides, burst, true, &at_end);
    count_lengths(burst, number);
    if (number == 0)
        burst_expected(sides, burst, numbers);
    same("report_burst", at_start.answered.number, number);
    same_table(&at_start.answered.table, &at_end.answered.table);
    take(sides, REPORT_BURST, &at_end.answered, number);
    same_list(&at_start, numbers, count);
    same_list(&at_end, numbers, count);
    look(sides);
    burst_other(sides, burst, number, numbers);
}

/* ---- The script ---- */

static bool open_script(struct script *script, struct sides *sides)
{
    struct opening said = opening(script);

    return open_both(sides, said.group, said.media, said.rate);
}

/* A packet of a source: a report with the times of the last, a BYE, settings, an RR, or one of any type. */
static uint8_t *put_packet(struct script *script, uint8_t *bytes, const struct told *report)
{
    uint8_t said = byte(script);
    uint32_t from = source(script);

    switch (said % 6) {
    case 0:
    case 1:
        return put_report(bytes, from, report);
    case 2:
        return put_word(put_word(bytes, 0x81CB0001), from);
    case 3:
        return put_settings(bytes, from, report);
    case 4:
        return put_word(put_word(bytes, 0x80C90001), from);
    default:
        return put_word(put_word(bytes, 0x80000001 | (uint32_t)byte(script) << 16), from);
    }
}

/* Reduced size, origin, packets, and one byte that is then changed, or none. */
static void arrive(struct script *script, const struct told *report, struct arrival *arrival)
{
    static const uint32_t flags[] = {0, 1, 2, 255, 256, 65536, 0x80000000, UINT32_MAX};
    uint8_t *end = arrival->bytes;

    arrival->reduced_size = flags[byte(script) % 8];
    arrival->origin = origin(script);
    for (uint8_t packets = byte(script) % (MOST_PACKETS + 1); packets > 0; packets--)
        end = put_packet(script, end, report);
    arrival->length = (size_t)(end - arrival->bytes);

    size_t changed = (size_t)number(script, 2);
    uint8_t bits = byte(script);
    if (changed < arrival->length)
        arrival->bytes[changed] ^= bits;
}

/* From 192 on around the most that a burst may have. */
static size_t burst_length(struct script *script)
{
    uint8_t said = byte(script);
    size_t around = 62 + said % 6;

    if (said < 192)
        return said % 64;
    return around == 67 ? LONGEST_BURST : around;
}

/* The length of the list: mostly that of the reports, or around it. */
static size_t list_length(struct script *script, size_t count)
{
    uint8_t said = byte(script);

    switch (said % 8) {
    default: /* 0 to 2 */
        return count;
    case 3:
        return count > 0 ? count - 1 : 0;
    case 4:
        return count + 1;
    case 5:
        return 64;
    case 6:
        return 0;
    case 7:
        return said / 8;
    }
}

/* Which number the report at an index has: each one more, all the same, each twice, or five in turn. */
static uint32_t burst_source(uint32_t from, uint32_t index, uint8_t how)
{
    switch (how % 4) {
    default: /* 0 */
        return from + index;
    case 1:
        return from;
    case 2:
        return from + index / 2;
    case 3:
        return from + index % 5;
    }
}

/*
 * The lengths of reports and list, the first source, two origins, and of eight reports in turn which are of the second
 * origin and which are spoilt. All are the last report but for that, and are told apart by the payload type.
 */
static void read_burst(struct script *script, const struct sides *sides, const struct state *state, struct burst *burst)
{
    burst->count = burst_length(script);
    burst->room = list_length(script, burst->count);
    burst->now = state->now;

    uint32_t from = source(script);
    struct from origins[2] = {origin(script)};
    uint8_t how = byte(script);
    origins[1] = origin(script);
    uint8_t twins = byte(script);
    uint8_t spoilt = byte(script);
    for (uint32_t i = 0; i < burst->count; i++) {
        struct row *row = &burst->rows[i];

        row->source = burst_source(from, i, how);
        row->origin = origins[twins >> i % 8 & 1];
        row->report = state->report;
        row->report.payload_type = (uint8_t)(row->report.payload_type + i);
        if (spoilt >> i % 8 & 1)
            spoil(&row->report, how / 4, burst->now, sides->rows.rate);
    }
}

/* Many sources report alike, or each a slot later than the one before; from 64 on every second with P 1 and step 0. */
static void report_alike(struct script *script, struct sides *sides, uint8_t said, const struct told *report,
                         struct clocks now)
{
    uint32_t from = source(script);
    uint8_t many = byte(script) % 70;
    struct row row = {.origin = origin(script)};

    for (uint32_t i = 0; i < many && sides->calls < MOST_CALLS; i++) {
        row.source = from + i;
        row.report = *report;
        row.report.presented += said & 16 ? i : 0;
        if (said >= 64 && i % 2 == 1) {
            row.report.p = 1;
            row.report.presented = (uint32_t)(report->received >> 16);
        }
        report_both(sides, &row, now);
    }
}

/* The row that a byte says, in the order of places; null where there are none, and no byte is read. */
static const struct row *row_said(struct script *script, const struct plain_register *rows)
{
    size_t count = register_count(rows);
    size_t before = count > 0 ? byte(script) % count : 0;

    for (size_t place = 0; place < PLACES; place++)
        if (rows->held[place] && before-- == 0)
            return &rows->rows[place];
    return NULL;
}

/* A farewell of any number, or a member's own, so that its place is free. */
static void leave(struct script *script, struct sides *sides, uint8_t said)
{
    if (said & 16) {
        const struct row *row = row_said(script, &sides->rows);

        if (row)
            farewell_both(sides, row->source, &row->origin);
    } else {
        uint32_t from = source(script);
        struct from its = origin(script);

        farewell_both(sides, from, &its);
    }
}

/*
 * C writes a tally near the limit to a member of the table value, and the register is told of it. Then a twin, whose
 * origin differs in one byte, says farewell.
 */
static void write_tally(struct script *script, struct sides *sides)
{
    const struct row *row = row_said(script, &sides->rows);

    if (row) {
        size_t place = place_of(&sides->rows, row->source);
        uint8_t said = byte(script);
        struct from twin = row->origin;

        tell_waiting(sides);
        sides->table.members[place].tally = TALLY_LIMIT - said % 4;
        register_start_tally(&sides->rows, place, TALLY_LIMIT - said % 4);
        write_tally_other(row->source, TALLY_LIMIT - said % 4);
        twin.bytes[said / 4 % 18] ^= 1;
        farewell_both(sides, row->source, &twin);
    }
}

/* Where a row is just fresh or just not. */
static struct clocks limit_of(struct script *script, const struct row *row, uint32_t rate)
{
    struct clocks limit;

    limit.n = row->report.received + ntp_age(script);
    limit.r = row->report.rtp + rtp_age(script, rate);
    return limit;
}

/* Choosing where a member is just fresh or just not, and sometimes a sweep there. */
static void choose_at_limit(struct script *script, struct sides *sides, uint8_t said)
{
    const struct row *row = row_said(script, &sides->rows);

    if (row) {
        struct clocks limit = limit_of(script, row, sides->rows.rate);

        choose_both(sides, limit);
        if (said & 16)
            sweep_both(sides, limit);
    }
}

/* A report with times of its own. */
static void report_anew(struct script *script, struct sides *sides, struct state *state)
{
    struct told *report = &state->report;
    struct row row = {.source = source(script)};

    row.origin = origin(script);
    describe(script, sides->rows.group, sides->rows.media, report);
    report->received = received_time(script, &state->now);
    report->rtp = state->now.r - rtp_age(script, sides->rows.rate);
    report->presented = presented(script, report->received);
    row.report = *report;
    report_both(sides, &row, state->now);
}

/* The report before, from another source. */
static void report_again(struct script *script, struct sides *sides, const struct state *state)
{
    struct row row = {.source = source(script)};

    row.origin = origin(script);
    row.report = state->report;
    report_both(sides, &row, state->now);
}

/* A little later or earlier by one of the clocks. */
static void shift(struct told *report, uint8_t more)
{
    report->presented += more & 1 ? (uint32_t)(more >> 3) : 0;
    report->received -= more & 2 ? (uint64_t)(more >> 3) << 16 : 0;
    report->rtp -= more & 4 ? (uint32_t)(more >> 3) : 0;
}

static void call_report(struct script *script, struct sides *sides, uint8_t said, struct state *state)
{
    switch (said % 12) {
    default: /* 0 and 1 */
        report_anew(script, sides, state);
        break;
    case 2:
        report_again(script, sides, state);
        break;
    case 3:
        shift(&state->report, byte(script));
        report_again(script, sides, state);
        break;
    case 4:
        report_alike(script, sides, said, &state->report, state->now);
        break;
    }
}

/* A settings packet is checked at the script's reading, or where a member is just fresh or just not. */
static void check_packet(struct script *script, struct sides *sides, struct clocks now)
{
    uint8_t form = byte(script);
    const struct row *row = form & 16 ? row_said(script, &sides->rows) : NULL;
    struct check check = {.now = row ? limit_of(script, row, sides->rows.rate) : now};

    read_check(script, &sides->rows, form, &check);
    check_both(sides, &check);
}

static void call_choose(struct script *script, struct sides *sides, uint8_t said, struct clocks now)
{
    switch (said % 12) {
    case 7:
        if (said & 16)
            write_tally(script, sides);
        choose_both(sides, now);
        break;
    case 8: /* at another reading, which does not move the clocks */
        if (said & 16)
            check_packet(script, sides, now);
        else
            choose_both(sides, move(script, now, sides->rows.rate));
        break;
    default: /* 9 */
        choose_at_limit(script, sides, said);
        break;
    }
}

/* A whole datagram, or a burst of reports. */
static void call_many(struct script *script, struct sides *sides, uint8_t said, const struct state *state)
{
    static struct arrival arrival;
    static struct burst burst;

    if (said & 16) {
        read_burst(script, sides, state, &burst);
        burst_both(sides, &burst);
    } else {
        arrive(script, &state->report, &arrival);
        arrival.now = state->now;
        datagram_both(sides, &arrival);
    }
}

static void call_one(struct script *script, struct sides *sides, struct state *state)
{
    uint8_t said = byte(script);

    switch (said % 12) {
    default: /* 0 to 4 */
        call_report(script, sides, said, state);
        break;
    case 5:
        leave(script, sides, said);
        break;
    case 6:
        sweep_both(sides, state->now);
        break;
    case 7:
    case 8:
    case 9:
        call_choose(script, sides, said, state->now);
        break;
    case 10:
        state->now = move(script, state->now, sides->rows.rate);
        break;
    case 11:
        call_many(script, sides, said, state);
        break;
    }
}

static void call_script(struct script *script, struct sides *sides)
{
    /* P1 of document 01, until the script says otherwise. */
    struct state state = {
        {1000 * SECOND, 9000000},
        {999 * SECOND, sides->rows.group, sides->rows.media, 8910000, 0x03E78000, 33, 1},
    };

    while (script->left > 0 && sides->calls < MOST_CALLS) {
        call_one(script, sides, &state);
        if (sides->calls % 16 == 0) {
            look(sides);
            look_at_other(sides);
        }
    }
    choose_both(sides, state.now);
    look(sides);
    look_at_other(sides);
}

int LLVMFuzzerTestOneInput(const uint8_t *data, size_t size);

int LLVMFuzzerTestOneInput(const uint8_t *data, size_t size)
{
    static struct sides sides;
    struct script script = {data, size};

    sides.calls = 0;
    while (script.left > 0)
        if (open_script(&script, &sides)) {
            call_script(&script, &sides);
            break;
        }
    return 0;
}
