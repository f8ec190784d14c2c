/*
 * What the C tests of the member table share: short names for its structs, and equality with padding
 * aside.
 */
#ifndef MEMBERS_H
#define MEMBERS_H

#include "check.h"

#include <string.h>

typedef struct prunepocket_origin origin_t;
typedef struct prunepocket_record record_t;
typedef struct prunepocket_member member_t;
typedef struct prunepocket_reading reading_t;
typedef struct prunepocket_target target_t;
typedef struct prunepocket_table table_t;
typedef struct prunepocket_answered answered_t;
typedef struct prunepocket_datagram_answered datagram_answered_t;
typedef struct prunepocket_place place_t;
typedef struct prunepocket_followed followed_t;

/* A full time of whole seconds. */
#define SECONDS(n) ((uint64_t)(n) << 32)

#define SAME(field) (memcmp(&a->field, &b->field, sizeof a->field) == 0)

/* Inline, since not every test compares records or targets. */
static inline int same_record(const record_t *a, const record_t *b)
{
    return SAME(source) && SAME(origin) && SAME(report.received) && SAME(report.group) &&
           SAME(report.media) && SAME(report.rtp) && SAME(report.presented) &&
           SAME(report.payload_type) && SAME(report.p);
}

static inline int same_target(const target_t *a, const target_t *b)
{
    return SAME(source) && SAME(group) && SAME(media) && SAME(received) && SAME(rtp) &&
           SAME(presented) && SAME(counted);
}

static void check_true(const char *what, int truth)
{
    check_equal(what, truth != 0, 1);
}

static void check_target(target_t got, target_t expected)
{
    check_equal("target: source", got.source, expected.source);
    check_equal("target: group", got.group, expected.group);
    check_equal("target: media source", got.media, expected.media);
    check_equal("target: received", got.received, expected.received);
    check_equal("target: RTP", got.rtp, expected.rtp);
    check_equal("target: presented", got.presented, expected.presented);
    check_equal("target: counted", got.counted, expected.counted);
}

#endif
