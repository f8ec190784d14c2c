/*
 * The lateness of a target, for the C tests and for fuzz/faulty_archive.c.
 */
#ifndef LATENESS_H
#define LATENESS_H

#include "prunepocket.h"

/* Of a target's three times, in units of 1/(rate * 2^32) s. */
static int64_t lateness(struct prunepocket_target target, uint32_t rate,
                        struct prunepocket_reading reading)
{
    uint64_t delay = target.presented == 0 ? 0 : target.presented - target.received;
    uint64_t ntp_age = reading.ntp - target.received;
    uint32_t rtp_age = reading.rtp - target.rtp;

    return (int64_t)rate * ((int64_t)delay - (int64_t)ntp_age) +
           (int64_t)((uint64_t)rtp_age << 32);
}

#endif
