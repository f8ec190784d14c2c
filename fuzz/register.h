/*
 * The plain register, choosing and the check of another maker's settings, written from
 * document 01 and E3, E4, E5, E6 and E9 of document 02 alone. It is fed the calls'
 * arguments and nothing from the table that it is compared with. A tally is counted in
 * the list of calls, where it is asked for.
 */
#ifndef FUZZ_REGISTER_H
#define FUZZ_REGISTER_H

#include <stdbool.h>
#include <stddef.h>
#include <stdint.h>

#define PLACES 64

/* Sixteen bytes of address and two of port. */
struct from {
    uint8_t bytes[18];
};

/* P is 1 where p is not 0. */
struct told {
    uint64_t received;
    uint32_t group;
    uint32_t media;
    uint32_t rtp;
    uint32_t presented;
    uint8_t payload_type;
    uint8_t p;
};

struct row {
    uint32_t source;
    struct from origin;
    struct told report;
};

/* A report or farewell that was answered. */
struct answered_call {
    uint32_t source;
    unsigned number;
    /* An accepted report whose number was no member's by the calls before it, or a tally that was told. */
    bool starts;
    uint32_t from; /* the tally from there on: 0 where it joins */
};

/* More reports and farewells than a script leads to, those in datagrams among them. */
#define MOST_HISTORY 65536

#define TALLY_LIMIT 4294967295

/*
 * Each row stands at its member's place. What stands at a place that is not held is no row. The history is all reports
 * and farewells since the opening.
 */
struct plain_register {
    uint32_t group;
    uint32_t media;
    uint32_t rate;
    bool held[PLACES];
    struct row rows[PLACES];
    size_t calls;
    struct answered_call history[MOST_HISTORY];
};

/* The sender's clocks: NTP time N and RTP time R. */
struct clocks {
    uint64_t n;
    uint32_t r;
};

/* The refusal's number, or 0 and the target. */
struct choice {
    unsigned number;
    uint32_t source;
    uint32_t group;
    uint32_t media;
    uint64_t received;
    uint32_t rtp;
    uint64_t presented;
    uint32_t counted;
    /* Not of the answer, but of how it came: to count what was met. */
    uint32_t equally_late;
    bool latest[PLACES]; /* the chosen row and its equals */
    int by_arrival;
    int same_slot;
};

/* A settings packet. The sender is said only to be told. */
struct packet {
    uint32_t sender;
    uint32_t media;
    uint32_t group;
    uint64_t received;
    uint32_t rtp;
    uint64_t presented;
};

/* How late a packet is that is not refused: beside the latest member and the slack. */
enum lateness_case { FAR_EARLY, JUST_EARLY, AS_LATE, WITHIN_SLACK, ALL_OF_SLACK, JUST_OVER_SLACK, FAR_OVER_SLACK };

/* The refusal's number, or 0 and whether the packet suits. */
struct verdict {
    unsigned number;
    bool suits;
    /* Not of the answer, but of how it came: to count what was met. */
    enum lateness_case late;
    uint32_t counted;
    bool by_arrival;
};

/* Each answers the refusal's number, or 0. */
unsigned register_open(struct plain_register *rows, uint32_t group, uint32_t media, uint32_t rate);
unsigned register_report(struct plain_register *rows, const struct row *row, struct clocks now);
unsigned register_farewell(struct plain_register *rows, uint32_t source, const struct from *origin);
void register_sweep(struct plain_register *rows, struct clocks now);

/*
 * The number of a burst of so many reports with so many numbers to answer in, before any of them is tried. Where it is
 * 0, each report is then one of register_report, in list order.
 */
unsigned register_burst(size_t reports, size_t numbers);

struct choice register_choose(const struct plain_register *rows, struct clocks now);

/* Slack is in units of 2^-16 s. */
struct verdict register_check(const struct plain_register *rows, const struct packet *packet, struct clocks now,
                              uint32_t slack);

/*
 * The first presented time at which a packet of this RTP time is as late as the latest counted row, or later; modulo
 * 2^64. It is N where no row is fresh.
 */
uint64_t register_presented_for(const struct plain_register *rows, uint32_t rtp, struct clocks now);

/* Whether a report, where P is 1, says presented in the slot of 2^-16 s in which it was received: the step is 0. */
int register_same_slot(const struct told *report);

/* The row of a source number, and the row at any place, or null. */
const struct row *register_row(const struct plain_register *rows, uint32_t source);
const struct row *register_row_at(const struct plain_register *rows, size_t place);

/*
 * Of the calls that got 14 under a number behind its last joining, how many there are, cut at the limit: the tally of
 * its row, or where it has none, the one that its last row left with.
 */
uint32_t register_last_tally(const struct plain_register *rows, uint32_t source);

/* The tally of the row at a place, or 0 where no row stands there. */
uint32_t register_tally_at(const struct plain_register *rows, size_t place);

/* The row at a place has this tally from here on, whatever calls were before: a table value that C has written on. */
void register_start_tally(struct plain_register *rows, size_t place, uint32_t tally);

/* How many rows there are. */
size_t register_count(const struct plain_register *rows);

#endif
