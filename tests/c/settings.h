/*
 * What document 02 (E9) says of a settings packet, computed in 128 bits from the papers alone, for
 * test_settings.c. It takes any table value, whatever its rate and its reports.
 */
#ifndef SETTINGS_H
#define SETTINGS_H

#include "tables.h"

typedef struct prunepocket_settings settings_t;
typedef struct prunepocket_settings_answered settings_answered_t;

__extension__ typedef __int128 whole_t;

/* The refusal's number, or 0; and whether the packet suits. */
struct verdict {
    uint64_t number;
    uint32_t suits;
};

/* The counted members: how many there are, and the lateness of the latest. */
struct counted {
    unsigned count;
    int by_arrival;
    whole_t greatest;
};

static int is_far(uint64_t received, reading_t reading)
{
    return (uint64_t)(reading.ntp - received) > SECONDS(30);
}

static int is_aged(uint32_t rtp, uint32_t rate, reading_t reading)
{
    return (uint32_t)(reading.rtp - rtp) > (uint64_t)60 * rate;
}

/* Of a packet or of a report with this delay. */
static whole_t lateness_of(uint32_t rate, whole_t delay, uint64_t received, uint32_t rtp,
                           reading_t reading)
{
    uint64_t ntp_age = reading.ntp - received;
    uint32_t rtp_age = reading.rtp - rtp;

    return (whole_t)rate * (delay - (whole_t)ntp_age) + (whole_t)rtp_age * ((whole_t)1 << 32);
}

/* From received to the expanded presentation, before wrapping. */
static whole_t delay_of(const struct prunepocket_report_fields *report)
{
    uint32_t step = report->presented - (uint32_t)(report->received >> 16);

    return step == 0 ? 1 : (whole_t)step * 65536 - (whole_t)(report->received % 65536);
}

static int is_fresh(const table_t *table, size_t place, reading_t reading)
{
    const struct prunepocket_report_fields *report = &table->members[place].record.report;

    return is_held(table->held, place) && !is_far(report->received, reading) &&
           !is_aged(report->rtp, table->rate, reading);
}

static struct counted count_members(const table_t *table, reading_t reading)
{
    struct counted counted = {.by_arrival = 1};

    for (size_t i = 0; i < PRUNEPOCKET_PLACES; i++) {
        if (is_fresh(table, i, reading) && table->members[i].record.report.p != 0)
            counted.by_arrival = 0;
    }
    for (size_t i = 0; i < PRUNEPOCKET_PLACES; i++) {
        const struct prunepocket_report_fields *report = &table->members[i].record.report;
        whole_t delay = counted.by_arrival ? 0 : delay_of(report);
        whole_t late = lateness_of(table->rate, delay, report->received, report->rtp, reading);

        if (!is_fresh(table, i, reading) || (!counted.by_arrival && report->p == 0))
            continue;
        if (counted.count == 0 || late > counted.greatest)
            counted.greatest = late;
        counted.count++;
    }
    return counted;
}

static uint64_t settings_number(const table_t *table, settings_t settings, reading_t reading,
                                uint32_t slack)
{
    uint64_t delay = settings.presented - settings.received;

    if (slack > 30 * UINT32_C(65536))
        return 11;
    if (count_members(table, reading).count == 0)
        return 20;
    if (settings.group != table->group || settings.media != table->media)
        return 13;
    if (is_far(settings.received, reading))
        return 15;
    if (is_aged(settings.rtp, table->rate, reading))
        return 16;
    return settings.presented == 0 || delay == 0 || delay > SECONDS(30) ? 17 : 0;
}

/* By how much the packet is later than the latest member. The packet is not refused. */
static whole_t excess_of(const table_t *table, settings_t settings, reading_t reading)
{
    uint64_t delay = settings.presented - settings.received;

    return lateness_of(table->rate, (whole_t)delay, settings.received, settings.rtp, reading) -
           count_members(table, reading).greatest;
}

/* How much later it may be. */
static whole_t allowed(const table_t *table, uint32_t slack)
{
    return (whole_t)table->rate * slack * 65536;
}

static struct verdict verdict_of(const table_t *table, settings_t settings, reading_t reading,
                                 uint32_t slack)
{
    struct verdict verdict = {settings_number(table, settings, reading, slack), 0};

    if (verdict.number == 0) {
        whole_t excess = excess_of(table, settings, reading);

        verdict.suits = excess >= 0 && excess <= allowed(table, slack);
    }
    return verdict;
}

#endif
