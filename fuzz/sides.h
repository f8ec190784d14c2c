/*
 * A member table of the archive beside the plain register that was told the same calls, and what is compared of them.
 */
#ifndef FUZZ_SIDES_H
#define FUZZ_SIDES_H

#include "prunepocket.h"
#include "register.h"
#include "same.h"

#include <stdbool.h>
#include <stdint.h>
#include <string.h>

/* How a member with a tally above 0 left a place where none has joined since. */
enum leaving { NONE_LEFT, LEFT_BY_FAREWELL, LEFT_BY_SWEEP };

struct sides {
    struct prunepocket_table table;
    struct plain_register rows;
    enum leaving left[PLACES];
    unsigned calls;
};

static struct prunepocket_origin to_origin(const struct from *from)
{
    struct prunepocket_origin origin;

    memset(&origin, 0, sizeof origin);
    memcpy(origin.address, from->bytes, 16);
    origin.port = (uint16_t)(from->bytes[16] << 8 | from->bytes[17]);
    return origin;
}

static struct prunepocket_reading to_reading(struct clocks now)
{
    return (struct prunepocket_reading){.ntp = now.n, .rtp = now.r};
}

static struct prunepocket_record to_record(const struct row *row)
{
    struct prunepocket_record record;

    memset(&record, 0, sizeof record);
    record.source = row->source;
    record.origin = to_origin(&row->origin);
    record.report.received = row->report.received;
    record.report.group = row->report.group;
    record.report.media = row->report.media;
    record.report.rtp = row->report.rtp;
    record.report.presented = row->report.presented;
    record.report.payload_type = row->report.payload_type;
    record.report.p = row->report.p;
    return record;
}

static void same_record(const struct prunepocket_record *archive, const struct prunepocket_record *expected)
{
    same("source of a member", archive->source, expected->source);
    for (size_t i = 0; i < 16; i++)
        same("address of a member", archive->origin.address[i], expected->origin.address[i]);
    same("port of a member", archive->origin.port, expected->origin.port);
    same("received of a member", archive->report.received, expected->report.received);
    same("group of a member", archive->report.group, expected->report.group);
    same("media source of a member", archive->report.media, expected->report.media);
    same("rtp of a member", archive->report.rtp, expected->report.rtp);
    same("presented of a member", archive->report.presented, expected->report.presented);
    same("payload type of a member", archive->report.payload_type, expected->report.payload_type);
    same("p of a member", archive->report.p, expected->report.p);
}

static void same_member(const struct prunepocket_member *archive, const struct prunepocket_member *expected)
{
    same_record(&archive->record, &expected->record);
    same("tally of a member", archive->tally, expected->tally);
}

static void same_target(const struct prunepocket_target *archive, const struct prunepocket_target *expected)
{
    same("source of the target", archive->source, expected->source);
    same("group of the target", archive->group, expected->group);
    same("media source of the target", archive->media, expected->media);
    same("received of the target", archive->received, expected->received);
    same("rtp of the target", archive->rtp, expected->rtp);
    same("presented of the target", archive->presented, expected->presented);
    same("counted", archive->counted, expected->counted);
}

static void same_table(const struct prunepocket_table *archive, const struct prunepocket_table *before)
{
    same("group of the table as before", archive->group, before->group);
    same("media source of the table as before", archive->media, before->media);
    same("rate of the table as before", archive->rate, before->rate);
    same("places of the table as before", archive->held, before->held);
    /* Padding may differ, so only where the bytes do are the fields looked at. */
    if (memcmp(archive->members, before->members, sizeof before->members) != 0)
        for (size_t i = 0; i < PRUNEPOCKET_PLACES; i++)
            same_member(&archive->members[i], &before->members[i]);
}

/* The place of a number that has a row. */
static size_t place_of(const struct plain_register *rows, uint32_t source)
{
    return (size_t)(register_row(rows, source) - rows->rows);
}

/* At a place stands the row there with its tally; where there is none, as behind the last place, all is zeros. */
static void look_at(const struct sides *sides, size_t place)
{
    const struct row *row = register_row_at(&sides->rows, place);
    struct prunepocket_member member = {.tally = register_tally_at(&sides->rows, place)};
    struct prunepocket_place at = prunepocket_member_at(sides->table, place);

    if (row)
        member.record = to_record(row);
    same("held", at.held, row != NULL);
    same_member(&at.member, &member);
}

/* Looks at all members since the start. */
static uint64_t looks;

static void look(const struct sides *sides)
{
    static const size_t outside[] = {PRUNEPOCKET_PLACES, 65, 128, SIZE_MAX};

    looks++;
    same("members", prunepocket_count_members(sides->table), register_count(&sides->rows));
    for (size_t place = 0; place < PRUNEPOCKET_PLACES; place++)
        look_at(sides, place);
    for (size_t i = 0; i < sizeof outside / sizeof outside[0]; i++)
        look_at(sides, outside[i]);
}

#endif
