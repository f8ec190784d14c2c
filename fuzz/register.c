#include "register.h"

#include <stdio.h>
#include <stdlib.h>
#include <string.h>

/*
 * A fault to be planted, which the comparison must then find:
 * 1: among equally late members the one at the lowest place is chosen
 * 2: a step of 0 is read as a full turn, 2^32
 * 3: the last byte of the port is not looked at
 * 4: an RTP age of 60 seconds exactly is refused
 * 5: at a step of 0 the delay is 0
 * 6: at a step of 0 the expanded presentation is received
 * 7: at a step of 0 the plus one does not wrap
 * 8: at a step of 0 the low 16 bits of received are cleared
 * 9: a new row's place is the number of places held behind the last free one (leading zeros)
 * 10: a new row's place is the lowest that is held (trailing zeros of the word itself)
 * 11: a new row's place is the one behind the lowest free one
 * 12: a new row's place is 63 where none is free, so that it replaces the row there
 * 13: 18 is given where place 63 alone is free
 */
#ifndef REGISTER_FAULT
#define REGISTER_FAULT 0
#endif

typedef __int128 whole;

#define SECOND ((uint64_t)1 << 32)

#define SLACK_LIMIT (30 * 65536)

static bool far(uint64_t received, struct clocks now)
{
    uint64_t age = now.n - received;
    return age > 30 * SECOND;
}

static bool aged(uint32_t rtp, struct clocks now, uint32_t rate)
{
    uint32_t age = now.r - rtp;
    uint64_t most = (uint64_t)60 * rate;
    return REGISTER_FAULT == 4 ? age >= most : age > most;
}

static bool fresh(const struct plain_register *rows, const struct told *report, struct clocks now)
{
    return !far(report->received, now) && !aged(report->rtp, now, rows->rate);
}

static uint32_t step(const struct told *report)
{
    uint32_t middle = (uint32_t)(report->received >> 16);

    return report->presented - middle;
}

int register_same_slot(const struct told *report)
{
    return step(report) == 0;
}

/* Expanded, before wrapping. At a step of 0 it is one unit after received, whose low bits then count. */
static whole presentation(const struct told *report)
{
    uint64_t start = report->received - report->received % 65536;
    uint64_t steps = step(report);

    if (steps == 0 && REGISTER_FAULT == 2)
        steps = (uint64_t)1 << 32;
    if (steps == 0)
        return (whole)(REGISTER_FAULT == 8 ? start : report->received) + 1;
    return (whole)start + (whole)steps * 65536;
}

static whole delay(const struct told *report)
{
    if (REGISTER_FAULT == 5 && step(report) == 0)
        return 0;
    return presentation(report) - (whole)report->received;
}

/* Modulo 2^64. */
static uint64_t expanded(const struct told *report)
{
    if (REGISTER_FAULT == 6 && step(report) == 0)
        return report->received;
    if (REGISTER_FAULT == 7 && step(report) == 0 && report->received == UINT64_MAX)
        return UINT64_MAX;
    return (uint64_t)presentation(report);
}

static whole lateness_of(uint32_t rate, whole later, uint64_t received, uint32_t rtp, struct clocks now)
{
    uint64_t ntp_age = now.n - received;
    uint32_t rtp_age = now.r - rtp;

    return (whole)rate * (later - (whole)ntp_age) + (whole)rtp_age * (whole)SECOND;
}

static whole lateness(const struct plain_register *rows, const struct told *report, bool by_arrival, struct clocks now)
{
    return lateness_of(rows->rate, by_arrival ? 0 : delay(report), report->received, report->rtp, now);
}

static bool equal(const struct from *one, const struct from *other)
{
    return memcmp(one->bytes, other->bytes, REGISTER_FAULT == 3 ? 17 : 18) == 0;
}

const struct row *register_row(const struct plain_register *rows, uint32_t source)
{
    for (size_t place = 0; place < PLACES; place++)
        if (rows->held[place] && rows->rows[place].source == source)
            return &rows->rows[place];
    return NULL;
}

const struct row *register_row_at(const struct plain_register *rows, size_t place)
{
    return place < PLACES && rows->held[place] ? &rows->rows[place] : NULL;
}

size_t register_count(const struct plain_register *rows)
{
    size_t count = 0;

    for (size_t place = 0; place < PLACES; place++)
        count += rows->held[place];
    return count;
}

/* The lowest place that is held, or that is not; PLACES where there is none. */
static size_t lowest(const struct plain_register *rows, bool held)
{
    size_t place = 0;

    while (place < PLACES && rows->held[place] != held)
        place++;
    return place;
}

static size_t held_behind_last_free(const struct plain_register *rows)
{
    size_t count = 0;

    while (count < PLACES && rows->held[PLACES - 1 - count])
        count++;
    return count;
}

/* The place of a new row: the lowest free one, or PLACES where none is free, which is 18. */
static size_t place_for_new(const struct plain_register *rows)
{
    size_t place = lowest(rows, false);

    if (REGISTER_FAULT == 9)
        return held_behind_last_free(rows);
    if (REGISTER_FAULT == 10)
        return lowest(rows, true);
    if (REGISTER_FAULT == 11 && place < PLACES)
        return place + 1;
    if (REGISTER_FAULT == 12 && place == PLACES)
        return PLACES - 1;
    if (REGISTER_FAULT == 13 && place == PLACES - 1)
        return PLACES;
    return place;
}

unsigned register_open(struct plain_register *rows, uint32_t group, uint32_t media, uint32_t rate)
{
    if (group == 0 || group == UINT32_MAX || rate < 1 || rate > 192000)
        return 12;
    rows->group = group;
    rows->media = media;
    rows->rate = rate;
    rows->calls = 0;
    memset(rows->held, 0, sizeof rows->held);
    return 0;
}

static void note(struct plain_register *rows, struct answered_call call)
{
    if (rows->calls == MOST_HISTORY) {
        fputs("register: the history is full\n", stderr);
        exit(1);
    }
    rows->history[rows->calls++] = call;
}

static unsigned answer_report(struct plain_register *rows, const struct row *row, struct clocks now)
{
    const struct told *report = &row->report;
    const struct row *before = register_row(rows, row->source);

    if (report->group != rows->group || report->media != rows->media)
        return 13;
    if (before && !equal(&before->origin, &row->origin))
        return 14;
    if (far(report->received, now))
        return 15;
    if (aged(report->rtp, now, rows->rate))
        return 16;
    if (report->p && (delay(report) > (whole)(30 * SECOND) || expanded(report) == 0))
        return 17;
    if (before) {
        rows->rows[before - rows->rows].report = *report;
        return 0;
    }

    size_t place = place_for_new(rows);
    if (place == PLACES)
        return 18;
    rows->held[place] = true;
    rows->rows[place] = *row;
    return 0;
}

unsigned register_report(struct plain_register *rows, const struct row *row, struct clocks now)
{
    bool is_member = register_row(rows, row->source) != NULL;
    unsigned number = answer_report(rows, row, now);

    note(rows, (struct answered_call){.source = row->source, .number = number, .starts = number == 0 && !is_member});
    return number;
}

unsigned register_burst(size_t reports, size_t numbers)
{
    if (reports > 64)
        return 23;
    if (numbers < reports)
        return 24;
    return 0;
}

static unsigned answer_farewell(struct plain_register *rows, uint32_t source, const struct from *origin)
{
    const struct row *row = register_row(rows, source);

    if (!row)
        return 19;
    if (!equal(&row->origin, origin))
        return 14;
    rows->held[row - rows->rows] = false;
    return 0;
}

unsigned register_farewell(struct plain_register *rows, uint32_t source, const struct from *origin)
{
    unsigned number = answer_farewell(rows, source, origin);

    note(rows, (struct answered_call){.source = source, .number = number});
    return number;
}

void register_start_tally(struct plain_register *rows, size_t place, uint32_t tally)
{
    note(rows, (struct answered_call){.source = rows->rows[place].source, .starts = true, .from = tally});
}

uint32_t register_last_tally(const struct plain_register *rows, uint32_t source)
{
    uint64_t tally = 0;

    for (size_t i = rows->calls; i > 0; i--) {
        const struct answered_call *call = &rows->history[i - 1];

        if (call->source != source)
            continue;
        if (call->starts) {
            tally += call->from;
            break;
        }
        tally += call->number == 14;
    }
    return tally < TALLY_LIMIT ? (uint32_t)tally : TALLY_LIMIT;
}

uint32_t register_tally_at(const struct plain_register *rows, size_t place)
{
    const struct row *row = register_row_at(rows, place);

    return row ? register_last_tally(rows, row->source) : 0;
}

void register_sweep(struct plain_register *rows, struct clocks now)
{
    for (size_t place = 0; place < PLACES; place++) {
        const struct row *row = register_row_at(rows, place);

        if (row && !fresh(rows, &row->report, now))
            rows->held[place] = false;
    }
}

/* No fresh row has P 1. */
static bool arrival_mode(const struct plain_register *rows, struct clocks now)
{
    for (size_t place = 0; place < PLACES; place++) {
        const struct row *row = register_row_at(rows, place);

        if (row && row->report.p && fresh(rows, &row->report, now))
            return false;
    }
    return true;
}

/* The target of the chosen row. */
static void set_target(struct choice *choice, const struct row *chosen)
{
    choice->number = 0;
    choice->source = chosen->source;
    choice->group = chosen->report.group;
    choice->media = chosen->report.media;
    choice->received = chosen->report.received;
    choice->rtp = chosen->report.rtp;
    choice->presented = choice->by_arrival ? 0 : expanded(&chosen->report);
    choice->same_slot = !choice->by_arrival && register_same_slot(&chosen->report);
}

struct choice register_choose(const struct plain_register *rows, struct clocks now)
{
    struct choice choice = {.number = 20, .by_arrival = arrival_mode(rows, now)};
    const struct row *chosen = NULL;
    whole latest = 0;

    for (size_t place = 0; place < PLACES; place++) {
        const struct row *row = register_row_at(rows, place);

        if (!row || !fresh(rows, &row->report, now) || (!choice.by_arrival && !row->report.p))
            continue;
        choice.counted++;
        whole late = lateness(rows, &row->report, choice.by_arrival, now);
        bool lower = REGISTER_FAULT != 1 && chosen && row->source < chosen->source;
        if (!chosen || late > latest) {
            choice.equally_late = 0;
            memset(choice.latest, 0, sizeof choice.latest);
            chosen = row;
            latest = late;
        } else if (late == latest) {
            choice.equally_late++;
            if (lower)
                chosen = row;
        }
        choice.latest[place] = late == latest;
    }
    if (chosen)
        set_target(&choice, chosen);
    return choice;
}

/* The lateness of the latest counted row. There is one. */
static whole greatest_lateness(const struct plain_register *rows, struct clocks now)
{
    struct choice choice = register_choose(rows, now);
    size_t place = 0;

    while (!choice.latest[place])
        place++;
    return lateness(rows, &rows->rows[place].report, choice.by_arrival, now);
}

static unsigned answer_packet(const struct plain_register *rows, const struct packet *packet, struct clocks now,
                              uint32_t slack)
{
    uint64_t later = packet->presented - packet->received;

    if (slack > SLACK_LIMIT)
        return 11;
    if (register_choose(rows, now).counted == 0)
        return 20;
    if (packet->group != rows->group || packet->media != rows->media)
        return 13;
    if (far(packet->received, now))
        return 15;
    if (aged(packet->rtp, now, rows->rate))
        return 16;
    if (later > 30 * SECOND || packet->presented == 0 || later == 0)
        return 17;
    return 0;
}

/* By how much the packet is later than the latest row, beside what is allowed and the least step of presented. */
static enum lateness_case lateness_case_of(whole excess, whole allowed, uint32_t rate)
{
    if (excess < 0)
        return excess + rate < 0 ? FAR_EARLY : JUST_EARLY;
    if (excess == 0)
        return AS_LATE;
    if (excess < allowed)
        return WITHIN_SLACK;
    if (excess == allowed)
        return ALL_OF_SLACK;
    return excess > allowed + rate ? FAR_OVER_SLACK : JUST_OVER_SLACK;
}

struct verdict register_check(const struct plain_register *rows, const struct packet *packet, struct clocks now,
                              uint32_t slack)
{
    struct verdict verdict = {.number = answer_packet(rows, packet, now, slack)};

    if (verdict.number == 0) {
        struct choice choice = register_choose(rows, now);
        whole later = (whole)(packet->presented - packet->received);
        whole late = lateness_of(rows->rate, later, packet->received, packet->rtp, now);
        whole excess = late - greatest_lateness(rows, now);
        whole allowed = (whole)rows->rate * slack * 65536;

        verdict.suits = excess >= 0 && excess <= allowed;
        verdict.late = lateness_case_of(excess, allowed, rows->rate);
        verdict.counted = choice.counted;
        verdict.by_arrival = choice.by_arrival;
    }
    return verdict;
}

uint64_t register_presented_for(const struct plain_register *rows, uint32_t rtp, struct clocks now)
{
    uint32_t rtp_age = now.r - rtp;

    if (register_choose(rows, now).counted == 0)
        return now.n;

    whole rest = greatest_lateness(rows, now) - (whole)rtp_age * (whole)SECOND;
    whole units = rest / rows->rate;
    if (units * rows->rate < rest)
        units++;
    return now.n + (uint64_t)units;
}
