/*
 * What the scripts of fuzz_table.c and fuzz_recording.c share: the bytes of a script as sources, origins, readings and
 * times near every limit, and packets with a report's fields.
 */
#ifndef FUZZ_SCRIPT_H
#define FUZZ_SCRIPT_H

#include "register.h"

#include <stdbool.h>
#include <stddef.h>
#include <stdint.h>

#define SECOND ((uint64_t)1 << 32)

struct script {
    const uint8_t *at;
    size_t left;
};

/* Behind the last byte come zeros. */
static inline uint8_t byte(struct script *script)
{
    if (script->left == 0)
        return 0;
    script->left--;
    return *script->at++;
}

static inline uint64_t number(struct script *script, int bytes)
{
    uint64_t value = 0;

    for (int i = 0; i < bytes; i++)
        value = value << 8 | byte(script);
    return value;
}

static inline uint32_t source(struct script *script)
{
    static const uint32_t sources[] = {10, 20, 0, 1, UINT32_MAX, 0x80000000, 0x7FFFFFFF, 30};
    uint8_t said = byte(script);

    return said < 8 ? sources[said] : said;
}

/* The usual origin, or one that differs from it in one byte. */
static inline struct from origin(struct script *script)
{
    struct from from = {{0, 0, 0, 0, 0, 0, 0, 0, 0, 0, 0xFF, 0xFF, 192, 0, 2, 1, 0x13, 0x8D}};
    uint8_t said = byte(script);

    if (said >= 128)
        from.bytes[said % 18] ^= (uint8_t)(1 << (said / 18 % 8));
    return from;
}

/* A few units more or less than what the times are held against. */
static inline uint64_t beside(struct script *script, uint64_t limit, uint8_t scale, uint64_t large)
{
    uint64_t more = (uint64_t)(int64_t)(int8_t)byte(script);

    switch (scale & 3) {
    case 0:
    case 1:
        return limit + more;
    case 2:
        return limit + more * 65536;
    default:
        return limit + more * large;
    }
}

/* By a byte that was read already. */
static inline uint64_t ntp_age_said(struct script *script, uint8_t said)
{
    switch (said & 7) {
    case 0:
    case 1:
        return beside(script, 0, said >> 3, SECOND / 4);
    case 2:
        return beside(script, SECOND, said >> 3, SECOND / 4);
    case 3:
    case 4:
        return beside(script, 30 * SECOND, said >> 3, SECOND / 4);
    case 5:
        return beside(script, (uint64_t)1 << 63, said >> 3, SECOND);
    case 6:
        return number(script, 5);
    default:
        return number(script, 8);
    }
}

static inline uint64_t ntp_age(struct script *script)
{
    return ntp_age_said(script, byte(script));
}

/*
 * Received by its age. The top bits of the age's byte aim at the edges of a step of 0: the low 16 bits, and all ones,
 * where the clock moves so that the age is as said.
 */
static inline uint64_t received_time(struct script *script, struct clocks *now)
{
    uint8_t said = byte(script);
    uint64_t age = ntp_age_said(script, said);
    uint64_t slot = (now->n - age) / 65536 * 65536;

    switch (said >> 5) {
    case 4:
        return slot;
    case 5:
        return slot + 1;
    case 6:
        return slot + 65535;
    case 7:
        now->n = UINT64_MAX + age;
        return UINT64_MAX;
    default:
        return now->n - age;
    }
}

static inline uint32_t rtp_age(struct script *script, uint32_t rate)
{
    uint8_t said = byte(script);

    switch (said & 7) {
    case 0:
    case 1:
        return (uint32_t)beside(script, 0, said >> 3, rate / 4);
    case 2:
        return (uint32_t)beside(script, rate, said >> 3, rate / 4);
    case 3:
    case 4:
        return (uint32_t)beside(script, (uint64_t)60 * rate, said >> 3, rate / 4);
    case 5:
        return (uint32_t)beside(script, (uint64_t)1 << 31, said >> 3, rate);
    case 6:
        return (uint32_t)number(script, 3);
    default:
        return (uint32_t)number(script, 4);
    }
}

/* From 160 on the step is 0. */
static inline uint32_t presented(struct script *script, uint64_t received)
{
    uint8_t said = byte(script);
    uint32_t middle = (uint32_t)(received >> 16);

    if (said >= 160)
        return middle;
    switch (said & 7) {
    case 0:
    case 1:
    case 2:
        return (uint32_t)beside(script, middle, said >> 3, 16384);
    case 3:
    case 4:
        return (uint32_t)beside(script, middle + (uint64_t)30 * 65536, said >> 3, 16384);
    case 5:
        return (uint32_t)beside(script, 0, said >> 3, 16384);
    case 6:
        return middle + (uint32_t)number(script, 3);
    default:
        return (uint32_t)number(script, 4);
    }
}

static inline struct clocks move(struct script *script, struct clocks now, uint32_t rate)
{
    uint8_t said = byte(script);

    switch (said & 7) {
    case 0: /* both clocks go on alike, by quarters of a second */
    {
        uint8_t quarters = byte(script);
        now.n += quarters * (SECOND / 4);
        now.r += (uint32_t)((uint64_t)quarters * rate / 4);
        break;
    }
    case 1:
        now.n += (uint64_t)(int64_t)(int8_t)byte(script);
        break;
    case 2:
        now.r += (uint32_t)(int32_t)(int8_t)byte(script);
        break;
    case 3:
        now.n += ntp_age(script);
        break;
    case 4:
        now.r += rtp_age(script, rate);
        break;
    case 5: /* near a wrap */
        now.n = beside(script, 0, said >> 3, SECOND);
        now.r = (uint32_t)beside(script, 0, said >> 3, rate);
        break;
    case 6: /* near a carry out of the bits that the short time has */
        now.n = beside(script, (uint64_t)1 << 48, said >> 3, SECOND);
        break;
    default:
        now.n = number(script, 8);
        now.r = (uint32_t)number(script, 4);
        break;
    }
    return now;
}

/* What a table is opened for. */
struct opening {
    uint32_t group;
    uint32_t media;
    uint32_t rate;
};

static inline struct opening opening(struct script *script)
{
    static const uint32_t groups[] = {42, 42, 42, 1, UINT32_MAX - 1, 0, UINT32_MAX, 7};
    static const uint32_t rates[] = {90000, 48000, 44100, 1, 2, 191999, 192000, 8000, 0, 192001, UINT32_MAX};
    uint8_t group = byte(script);
    uint8_t rate = byte(script);

    return (struct opening){
        .group = groups[group & 7],
        .media = group & 8 ? 0 : 7,
        .rate = rate < 11 ? rates[rate] : (uint32_t)number(script, 3),
    };
}

/* What a report says beside its times. */
static inline void describe(struct script *script, uint32_t group, uint32_t media, struct told *report)
{
    uint8_t said = byte(script);

    report->group = group;
    report->media = media;
    report->payload_type = said >> 1 & 0x7F;
    report->p = said & 1;
    if (said >= 240) {
        report->group ^= said & 2 ? 1 : 0;
        report->media ^= said & 4 ? 0x80000000 : 0;
        /* The header's word on any other P: it counts as 1 and is kept. */
        if (said & 8)
            report->p = byte(script);
    }
}

/* What calls leave for those behind them: the clocks and the last report. */
struct state {
    struct clocks now;
    struct told report;
};

/* A report that is refused, or one that has P 0. */
static inline void spoil(struct told *report, uint8_t how, struct clocks now, uint32_t rate)
{
    switch (how % 8) {
    case 0:
        report->group ^= 1;
        break;
    case 1:
        report->media ^= 1;
        break;
    case 2:
        report->received = now.n + 1;
        break;
    case 3:
        report->received = now.n - 30 * SECOND - 1;
        break;
    case 4:
        report->rtp = now.r + 1;
        break;
    case 5:
        report->rtp = now.r - 60 * rate - 1;
        break;
    case 6:
        report->p = 1;
        report->presented = (uint32_t)(report->received >> 16) + 30 * 65536 + 1;
        break;
    default:
        report->p = 0;
        break;
    }
}

static inline uint8_t *put_word(uint8_t *bytes, uint32_t word)
{
    for (int i = 0; i < 4; i++)
        bytes[i] = (uint8_t)(word >> (24 - 8 * i));
    return bytes + 4;
}

/* Three of the words that a report and the settings have: received and RTP time. */
static inline uint8_t *put_times(uint8_t *bytes, const struct told *report)
{
    bytes = put_word(bytes, (uint32_t)(report->received >> 32));
    bytes = put_word(bytes, (uint32_t)report->received);
    return put_word(bytes, report->rtp);
}

static inline uint8_t *put_report(uint8_t *bytes, uint32_t sender, const struct told *report)
{
    bytes = put_word(bytes, 0x80CF0009);
    bytes = put_word(bytes, sender);
    bytes = put_word(bytes, report->p != 0 ? 0x0C110007 : 0x0C100007);
    bytes = put_word(bytes, (uint32_t)report->payload_type << 25);
    bytes = put_word(bytes, report->group);
    bytes = put_word(bytes, report->media);
    bytes = put_times(bytes, report);
    return put_word(bytes, report->presented);
}

static inline uint8_t *put_settings(uint8_t *bytes, uint32_t sender, const struct told *report)
{
    bytes = put_word(bytes, 0x80D30008);
    bytes = put_word(bytes, sender);
    bytes = put_word(bytes, report->media);
    bytes = put_word(bytes, report->group);
    bytes = put_times(bytes, report);
    bytes = put_word(bytes, 0);
    return put_word(bytes, report->presented);
}

#endif
