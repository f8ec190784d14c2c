/*
 * E8 of document 02: the order of arrival does not matter. A second site is told the calls of the first, but that of
 * each two reports one after the other, both accepted and of different source numbers, it takes the second before the
 * first, each with its own origin and reading. It exchanges in the same way within a burst or a datagram. From then on
 * its answers, its members by number with reports and tallies, and its choices are the first one's; places may differ.
 */
#ifndef FUZZ_OTHER_ORDER_H
#define FUZZ_OTHER_ORDER_H

#include "shares.h"
#include "sides.h"

/* What is told apart: the two reports, and further calls that meet a member which stands at another place. */
enum order_case {
    EXCHANGED,
    OWN_READINGS,
    BOTH_NEW,
    NEW_AND_MEMBER,
    BOTH_MEMBERS,
    LAST_TWO_PLACES,
    EQUALLY_LATE,
    SECOND_NO_PLACE,
    EXCHANGED_IN_BURST,
    EXCHANGED_IN_DATAGRAM,
    CHOSEN_APART,
    EQUALS_APART,
    RAISED_APART,
    LEFT_APART,
    SWEPT_APART,
    JOINED_APART,
    ORDER_CASES
};

static const struct share order_shares[ORDER_CASES] = {
    {"exchanged", 20},
    {"each at its own reading", 20000},
    {"both new", 20},
    {"a new one and a member", 1000},
    {"both members", 500},
    {"both new, at the last two places", 5000},
    {"both the latest, equally late", 100},
    {"not exchanged, since the second gets 18", 10000},
    {"bursts with reports exchanged", 2000},
    {"datagrams with reports exchanged", 20000},
    {"targets at other places", 500},
    {"targets at other places among equals", 500},
    {"14 of members at other places", 500},
    {"farewells from other places", 5000},
    {"sweeps that take members from other places", 20000},
    {"new members that come to other places alone", 10000},
};

#define IN_OTHER_ORDER " in the other order"

__attribute__((section("__libfuzzer_extra_counters"))) static uint8_t order_counters[ORDER_CASES];

/* What was met since the start. */
static uint64_t orders_met[ORDER_CASES];

static struct {
    struct sides site; /* the second site */
    /* A report that the first site has accepted, and of which the second has not been told. */
    bool waits;
    struct row row;
    struct clocks now;
} other;

static void count_order(enum order_case order_case)
{
    orders_met[order_case]++;
    order_counters[order_case] = 1;
}

static void count_order_if(enum order_case order_case, bool truth)
{
    if (truth)
        count_order(order_case);
}

/* The second site's number is the first one's, and so is that of its register. */
static void take_other(const char *what, const struct prunepocket_answered *answered, unsigned registered,
                       unsigned number)
{
    same_where = IN_OTHER_ORDER;
    same(what, answered->number, number);
    same("number of the register", registered, number);
    same_where = "";
    other.site.table = answered->table;
}

static void tell_report(const struct row *row, struct clocks now, unsigned number)
{
    struct prunepocket_answered answered = prunepocket_report(other.site.table, to_record(row), to_reading(now));

    take_other("report", &answered, register_report(&other.site.rows, row, now), number);
}

/* Whether a number's member stands at different places on the two sites. Nothing waits. */
static bool is_apart(const struct sides *first, uint32_t source)
{
    return register_row(&first->rows, source) != NULL &&
           place_of(&first->rows, source) != place_of(&other.site.rows, source);
}

/* How many members do. */
static size_t count_apart(const struct sides *first)
{
    size_t count = 0;

    for (size_t place = 0; place < PLACES; place++)
        count += first->rows.held[place] && is_apart(first, first->rows.rows[place].source);
    return count;
}

/* Whether a number is no member's on the second site: its report is then of a new one. */
static bool is_new(uint32_t source)
{
    return register_row(&other.site.rows, source) == NULL;
}

/* No report came that could stand before the one that waits. */
static void tell_waiting(const struct sides *first)
{
    if (other.waits) {
        bool was_new = is_new(other.row.source);

        other.waits = false;
        tell_report(&other.row, other.now, 0);
        count_order_if(JOINED_APART, was_new && is_apart(first, other.row.source));
    }
}

/* A number's member on the second site is the first one's, wherever it stands. */
static void same_member_of(const struct sides *first, uint32_t source)
{
    struct prunepocket_place at = prunepocket_member_at(other.site.table, place_of(&other.site.rows, source));
    struct prunepocket_place expected = prunepocket_member_at(first->table, place_of(&first->rows, source));

    same("held", at.held, 1);
    /* Padding may differ, so only where the bytes do are the fields looked at. */
    if (memcmp(&at, &expected, sizeof at) != 0)
        same_member(&at.member, &expected.member);
}

/* Members agree one to one: each of the second site is one of the first, and there are as many. Nothing waits. */
static void same_members(const struct sides *first)
{
    same_where = IN_OTHER_ORDER;
    same("members", prunepocket_count_members(other.site.table), prunepocket_count_members(first->table));
    for (size_t place = 0; place < PLACES; place++) {
        const struct row *row = register_row_at(&other.site.rows, place);

        if (!row)
            continue;
        same("a member's number", register_row(&first->rows, row->source) != NULL, 1);
        same_member_of(first, row->source);
    }
    same_where = "";
}

/* The second site is its own register, and its members are the first one's. */
static void look_at_other(const struct sides *first)
{
    if (!other.waits) {
        look(&other.site);
        same_members(first);
    }
}

/* The choice of the second site is this one of the first. */
static void same_choice(const struct prunepocket_followed *first, struct clocks now)
{
    struct prunepocket_followed followed = prunepocket_choose(other.site.table, to_reading(now));

    same_where = IN_OTHER_ORDER;
    same("choose", followed.number, first->number);
    same_target(&followed.target, &first->target);
    same_table(&followed.table, &other.site.table);
    same_where = "";
}

static void same_choice_at(const struct sides *first, struct clocks now)
{
    struct prunepocket_followed followed = prunepocket_choose(first->table, to_reading(now));

    same_choice(&followed, now);
}

static bool is_same_reading(struct clocks one, struct clocks another)
{
    return one.n == another.n && one.r == another.r;
}

/* Before the second site is told of either: the report that waits, and the one behind it. */
static void count_exchange(const struct sides *first, const struct row *row, struct clocks now)
{
    int new_ones = is_new(other.row.source) + is_new(row->source);
    struct choice choice = register_choose(&first->rows, now);

    count_order(EXCHANGED);
    count_order_if(OWN_READINGS, !is_same_reading(other.now, now));
    count_order(new_ones == 2 ? BOTH_NEW : new_ones == 1 ? NEW_AND_MEMBER : BOTH_MEMBERS);
    count_order_if(LAST_TWO_PLACES, new_ones == 2 && register_count(&first->rows) == PLACES);
    count_order_if(EQUALLY_LATE, choice.latest[place_of(&first->rows, row->source)] &&
                                     choice.latest[place_of(&first->rows, other.row.source)]);
}

/* The first site has accepted a report behind the one that waits: this one comes first here. */
static void exchange(const struct sides *first, const struct row *row, struct clocks now)
{
    count_exchange(first, row, now);
    other.waits = false;
    tell_report(row, now, 0);
    tell_report(&other.row, other.now, 0);
    same_where = IN_OTHER_ORDER;
    same_member_of(first, row->source);
    same_member_of(first, other.row.source);
    same_where = "";
    same_choice_at(first, now);
    if (!is_same_reading(other.now, now))
        same_choice_at(first, other.now);
}

/* 18 of a report behind the new member that waits: in the other order that one would get it. They are not exchanged. */
static void check_condition(const struct row *row, struct clocks now)
{
    struct prunepocket_answered second = prunepocket_report(other.site.table, to_record(row), to_reading(now));
    struct prunepocket_answered first = prunepocket_report(second.table, to_record(&other.row), to_reading(other.now));

    count_order(SECOND_NO_PLACE);
    same_where = " where the last place goes to the other";
    same("report", second.number, 0);
    same("report", first.number, 18);
    same_where = "";
}

static void wait_with(const struct row *row, struct clocks now)
{
    other.waits = true;
    other.row = *row;
    other.now = now;
}

/* The first site has taken a report. */
static void report_other(const struct sides *first, const struct row *row, struct clocks now, unsigned number)
{
    if (other.waits && number == 0 && row->source != other.row.source) {
        exchange(first, row, now);
        return;
    }
    if (other.waits && number == 18 && is_new(other.row.source))
        check_condition(row, now);
    tell_waiting(first);
    if (number == 0) {
        wait_with(row, now);
    } else {
        tell_report(row, now, number);
        count_order_if(RAISED_APART, number == 14 && is_apart(first, row->source));
    }
}

static void farewell_other(uint32_t source, const struct from *origin, unsigned number)
{
    struct prunepocket_answered answered = prunepocket_farewell(other.site.table, source, to_origin(origin));

    take_other("farewell", &answered, register_farewell(&other.site.rows, source, origin), number);
}

static void sweep_other(struct clocks now)
{
    struct prunepocket_answered answered = prunepocket_sweep(other.site.table, to_reading(now));

    register_sweep(&other.site.rows, now);
    take_other("sweep", &answered, 0, 0);
}

/* C writes the tally that it writes to the member of the first site. */
static void write_tally_other(uint32_t source, uint32_t tally)
{
    size_t place = place_of(&other.site.rows, source);

    other.site.table.members[place].tally = tally;
    register_start_tally(&other.site.rows, place, tally);
}

#endif
