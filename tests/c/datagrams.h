/*
 * What test_table.c, test_tallies.c, test_order.c and test_settings.c share of whole datagrams. What
 * not all of them use is inline.
 */
#ifndef DATAGRAMS_H
#define DATAGRAMS_H

#include "tables.h"

/* An RR without report blocks, which stands first where reduced size is not agreed. */
#define RR_BYTES 8
static const uint8_t rr[RR_BYTES] = {0x80, 201, 0, 1, 0, 0, 0, 1};

static inline void put_report(uint8_t *packet, record_t record)
{
    uint64_t written = 0;

    check_answer("report: written",
                 prunepocket_write_report(record.source, record.report.payload_type,
                                          record.report.p, record.report.group,
                                          record.report.media, record.report.received,
                                          record.report.rtp, record.report.presented, packet,
                                          PRUNEPOCKET_REPORT_BYTES, &written),
                 0, 0);
}

/*
 * The table after the first bytes of a datagram from the unit of source 10, with a list that has
 * room for so many numbers. The numbers expected stand at its front; behind, it is as it was lent.
 */
static table_t take(table_t table, const uint8_t *datagram, size_t length, uint32_t reduced_size,
                    size_t room, struct prunepocket_answer answer, const uint64_t *numbers,
                    size_t count)
{
    uint64_t *answers = allocate(room * sizeof *answers);
    datagram_answered_t *answered = allocate(sizeof *answered);
    table_t after;

    for (size_t i = 0; i < room; i++)
        answers[i] = FILL;
    *answered = prunepocket_take_datagram(table, datagram, length, reduced_size, unit(10), now,
                                          answers, room);
    check_answer("take_datagram",
                 (struct prunepocket_answer){number_at(answered, 0, 8), number_at(answered, 8, 8)},
                 answer.number, answer.place);
    check_equal("take_datagram: count", number_at(answered, 16, 8), count);
    for (size_t i = 0; i < room; i++)
        check_equal("take_datagram: answers", answers[i], i < count ? numbers[i] : FILL);
    after = answered->table;
    free(answered);
    free(answers);
    return after;
}

/* Refused, with the table and the list as before. */
static inline void take_refused(table_t table, const uint8_t *datagram, size_t length,
                                uint32_t reduced_size, size_t room, uint64_t number,
                                uint64_t place)
{
    struct prunepocket_answer answer = {number, place};
    table_t after = take(table, datagram, length, reduced_size, room, answer, NULL, 0);

    check_true("take_datagram: the table as before", same_table(&after, &table));
}

#endif
