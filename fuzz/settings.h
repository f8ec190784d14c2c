/*
 * E9 of document 02: checks of settings packets. A script makes them near the latest member's lateness, near the most
 * that the slack allows, and near every limit. The archive's answer is the register's, the table is handed back as it
 * was, and the second site, told in the other order, answers the same.
 */
#ifndef FUZZ_SETTINGS_H
#define FUZZ_SETTINGS_H

#include "other_order.h"
#include "script.h"
#include "shares.h"
#include "sides.h"

/* What is told apart of packets: the first by lateness_case, then limits, and refusals where the next applies too. */
enum settings_case {
    BY_LATENESS,
    GREATEST_SLACK = BY_LATENESS + FAR_OVER_SLACK + 1,
    SLACK_ONE_OVER,
    IN_ARRIVAL_MODE,
    MEMBER_AS_SENDER,
    WRAPPED,
    DELAY_OF_1,
    DELAY_OF_30_S,
    DELAY_OVER,
    DELAY_OF_0,
    PRESENTED_0,
    IS_11_AND_20,
    IS_20_AND_13,
    IS_13_AND_15,
    IS_15_AND_16,
    IS_16_AND_17,
    CHECKED_APART,
    SETTINGS_CASES
};

static const struct share settings_shares[SETTINGS_CASES] = {
    {"earlier than the latest member", 150},
    {"earlier by up to a unit", 200},
    {"as late", 100},
    {"later, within the slack", 100},
    {"later by all of the slack", 2000},
    {"by up to a unit more", 200},
    {"by more than a unit more", 100},
    {"as late or later with the greatest slack", 200},
    {"11 for one above the greatest slack", 50},
    {"suits in arrival mode", 500},
    {"suits though a member's number is the sender's", 300},
    {"suits though presented is below received, by a wrap", 10000},
    {"a delay of a unit", 500},
    {"a delay of 30 s", 5000},
    {"17 for a delay of 30 s and a unit", 5000},
    {"17 for a delay of 0", 500},
    {"17 for presented 0, the delay being good", 5000},
    {"11 where none is fresh", 100},
    {"20 for another stream", 200},
    {"13 for a received time that is far", 500},
    {"15 for an RTP time that is aged", 200},
    {"16 for a bad delay", 300},
    {"the latest member stands at another place", 100},
};

enum { SETTINGS_NUMBERS = 25, SETTINGS_COUNTERS = SETTINGS_CASES + 8 * SETTINGS_NUMBERS };

/* By case, and by number with how many rows are counted, as a power of two. */
__attribute__((section("__libfuzzer_extra_counters"))) static uint8_t settings_counters[SETTINGS_COUNTERS];

/* What was met since the start. */
static uint64_t checks, settings_numbers[SETTINGS_NUMBERS], settings_met[SETTINGS_CASES], own_checked[2];

static void count_settings_if(enum settings_case settings_case, bool truth)
{
    if (truth) {
        settings_met[settings_case]++;
        settings_counters[settings_case] = 1;
    }
}

/* A packet to be checked, at a reading and with a slack. */
struct check {
    struct packet packet;
    struct clocks now;
    uint32_t slack;
};

/* The number where the refusal that came first does not apply. */
static unsigned number_behind(const struct plain_register *rows, struct check check, unsigned number)
{
    if (number == 11)
        check.slack = 0;
    if (number == 13) {
        check.packet.group = rows->group;
        check.packet.media = rows->media;
    }
    if (number == 15)
        check.packet.received = check.now.n;
    if (number == 16)
        check.packet.rtp = check.now.r;
    return register_check(rows, &check.packet, check.now, check.slack).number;
}

static void count_refused(const struct plain_register *rows, const struct check *check, unsigned number)
{
    uint64_t delay = check->packet.presented - check->packet.received;
    unsigned behind = number_behind(rows, *check, number);
    bool is_other_stream = check->packet.group != rows->group || check->packet.media != rows->media;

    count_settings_if(SLACK_ONE_OVER, number == 11 && check->slack == PRUNEPOCKET_SLACK_LIMIT + 1);
    count_settings_if(DELAY_OVER, number == 17 && delay == 30 * SECOND + 1);
    count_settings_if(DELAY_OF_0, number == 17 && delay == 0 && check->packet.presented != 0);
    count_settings_if(PRESENTED_0, number == 17 && check->packet.presented == 0 && delay > 0 && delay <= 30 * SECOND);
    count_settings_if(IS_11_AND_20, number == 11 && behind == 20);
    count_settings_if(IS_20_AND_13, number == 20 && is_other_stream);
    count_settings_if(IS_13_AND_15, number == 13 && behind == 15);
    count_settings_if(IS_15_AND_16, number == 15 && behind == 16);
    count_settings_if(IS_16_AND_17, number == 16 && behind == 17);
}

static void count_judged(const struct sides *sides, const struct check *check, const struct verdict *verdict)
{
    uint64_t delay = check->packet.presented - check->packet.received;
    struct choice choice = register_choose(&sides->rows, check->now);

    count_settings_if(BY_LATENESS + verdict->late, true);
    count_settings_if(GREATEST_SLACK, verdict->late >= AS_LATE && check->slack == PRUNEPOCKET_SLACK_LIMIT);
    count_settings_if(IN_ARRIVAL_MODE, verdict->suits && verdict->by_arrival);
    count_settings_if(MEMBER_AS_SENDER, verdict->suits && register_row(&sides->rows, check->packet.sender) != NULL);
    count_settings_if(WRAPPED, verdict->suits && check->packet.presented < check->packet.received);
    count_settings_if(DELAY_OF_1, delay == 1);
    count_settings_if(DELAY_OF_30_S, delay == 30 * SECOND);
    count_settings_if(CHECKED_APART, is_apart(sides, choice.source));
}

static void count_check(const struct sides *sides, const struct check *check, const struct verdict *verdict)
{
    size_t power = 0;

    while (power < 7 && verdict->counted >> power > 0)
        power++;
    checks++;
    settings_numbers[verdict->number]++;
    settings_counters[SETTINGS_CASES + power * SETTINGS_NUMBERS + verdict->number] = 1;
    if (verdict->number == 0)
        count_judged(sides, check, verdict);
    else
        count_refused(&sides->rows, check, verdict->number);
}

static struct prunepocket_settings to_settings(const struct packet *packet)
{
    return (struct prunepocket_settings){packet->sender,   packet->media, packet->group,
                                         packet->received, packet->rtp,   packet->presented};
}

/* The answer of a site, which is left with the table that was handed back. */
static void same_verdict(struct sides *site, const struct check *check, const struct verdict *verdict)
{
    struct prunepocket_settings_answered answered =
        prunepocket_check_settings(site->table, to_settings(&check->packet), to_reading(check->now), check->slack);

    same("check_settings", answered.number, verdict->number);
    same("suits", answered.suits, verdict->suits);
    same_table(&answered.table, &site->table);
    site->table = answered.table;
}

static void check_one(struct sides *sides, const struct check *check)
{
    struct verdict verdict = register_check(&sides->rows, &check->packet, check->now, check->slack);

    sides->calls++;
    count_check(sides, check, &verdict);
    same_verdict(sides, check, &verdict);
    same_where = IN_OTHER_ORDER;
    same_verdict(&other.site, check, &verdict);
    same_where = "";
}

/* The packet; and a unit earlier, a unit later, with a little less slack and with a little more. */
static void check_both(struct sides *sides, const struct check *check)
{
    struct check beside = *check;

    tell_waiting(sides);
    check_one(sides, check);
    beside.packet.presented = check->packet.presented - 1;
    check_one(sides, &beside);
    beside.packet.presented = check->packet.presented + 1;
    check_one(sides, &beside);
    beside.packet.presented = check->packet.presented;
    if (check->slack > 0) {
        beside.slack = check->slack - 1;
        check_one(sides, &beside);
    }
    beside.slack = check->slack + 1;
    check_one(sides, &beside);
}

/* Without the register: the archive's own choice suits with slack 0, or in arrival mode gets 17. */
static void check_own(const struct sides *sides, const struct prunepocket_target *target, struct clocks now)
{
    struct prunepocket_settings settings = {target->source,   target->media, target->group,
                                            target->received, target->rtp,   target->presented};
    struct prunepocket_settings_answered answered =
        prunepocket_check_settings(sides->table, settings, to_reading(now), 0);
    bool by_arrival = target->presented == 0;

    own_checked[by_arrival]++;
    same("check of our own choice", answered.number, by_arrival ? 17 : 0);
    same("our own choice suits", answered.suits, !by_arrival);
}

static void print_checks(uint64_t enough)
{
    print_numbers("check_settings", settings_numbers, SETTINGS_NUMBERS);
    print_shares("settings", settings_shares, settings_met, SETTINGS_CASES, enough);
    fprintf(stderr, "our own choices checked: %" PRIu64 " by presentation, %" PRIu64 " by arrival\n", own_checked[0],
            own_checked[1]);
}

/* ---- The script ---- */

static uint32_t slack_said(struct script *script)
{
    static const uint32_t slacks[] = {0, 0, 1, PRUNEPOCKET_SLACK_LIMIT, PRUNEPOCKET_SLACK_LIMIT + 1, UINT32_MAX};
    uint8_t said = byte(script);

    switch (said % 8) {
    default: /* 0 to 5 */
        return slacks[said % 8];
    case 6:
        return said / 8;
    case 7:
        return (uint32_t)number(script, 3) % (PRUNEPOCKET_SLACK_LIMIT + 2);
    }
}

/* Received by its age, or so long before presented as a byte says. */
static uint64_t received_said(struct script *script, const struct check *check, bool by_delay)
{
    uint64_t more = ntp_age(script);

    return by_delay ? check->packet.presented - more : check->now.n - more;
}

/* The first presented time that suits, or the last, and how far beside it. */
static void aim(struct script *script, const struct plain_register *rows, struct check *check, uint8_t form)
{
    struct packet *packet = &check->packet;

    packet->rtp = check->now.r - rtp_age(script, rows->rate);
    packet->presented = beside(script, register_presented_for(rows, packet->rtp, check->now), form & 8 ? 2 : 0, 0);
    packet->presented += form & 2 ? (uint64_t)check->slack << 16 : 0;
    packet->received = received_said(script, check, form & 1);
}

/* Our own choice's times, and how far beside its presented time. */
static void follow(struct script *script, const struct plain_register *rows, struct check *check, uint8_t form)
{
    struct choice choice = register_choose(rows, check->now);

    check->packet.received = choice.received;
    check->packet.rtp = choice.rtp;
    check->packet.presented = beside(script, choice.presented, form & 8 ? 2 : 0, 0);
}

static void read_times(struct script *script, const struct plain_register *rows, struct check *check, uint8_t form)
{
    struct packet *packet = &check->packet;

    switch (form % 8) {
    default: /* 0 to 3 */
        aim(script, rows, check, form);
        break;
    case 4:
        follow(script, rows, check, form);
        break;
    case 5: /* by its ages and its delay */
        packet->rtp = check->now.r - rtp_age(script, rows->rate);
        packet->received = received_said(script, check, false);
        packet->presented = packet->received + ntp_age(script);
        break;
    case 6: /* presented near 0 */
        packet->rtp = check->now.r - rtp_age(script, rows->rate);
        packet->presented = beside(script, 0, form & 8 ? 3 : 0, SECOND / 4);
        packet->received = received_said(script, check, true);
        break;
    case 7:
        packet->received = number(script, 8);
        packet->rtp = (uint32_t)number(script, 4);
        packet->presented = number(script, 8);
        break;
    }
}

/* Slack, sender and times, at a reading; the form says how the times are said, and whether of another stream. */
static void read_check(struct script *script, const struct plain_register *rows, uint8_t form, struct check *check)
{
    check->slack = slack_said(script);
    check->packet.sender = source(script);
    check->packet.group = rows->group ^ (form >> 5 == 6);
    check->packet.media = rows->media ^ (form >> 5 == 7 ? 0x80000000 : 0);
    read_times(script, rows, check, form);
}

#endif
