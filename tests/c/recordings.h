/*
 * Recordings for test_replay.c, made entry by entry: their datagrams, and their bytes.
 */
#ifndef RECORDINGS_H
#define RECORDINGS_H

#include "values.h"

#define HEAD_BYTES 16
#define ENTRY_BYTES 32

/* More than a recording may have. */
#define MOST_ENTRIES 300
#define MOST_BYTES 70000

struct entry {
    reading_t reading;
    origin_t origin;
    const uint8_t *body; /* among the bodies of its recording */
    size_t length;
    size_t said; /* the length that its entry says */
};

static struct {
    uint32_t group;
    uint32_t media;
    uint32_t rate;
    uint32_t said; /* the number of entries that its head says */
    size_t count;
    struct entry entries[MOST_ENTRIES];
    size_t body_bytes;
    uint8_t bodies[MOST_BYTES];
} recording;

/* ---- Entries --------------------------------------------------------------------------------- */

static void start_recording(uint32_t group, uint32_t media, uint32_t rate)
{
    recording.group = group;
    recording.media = media;
    recording.rate = rate;
    recording.said = 0;
    recording.count = 0;
    recording.body_bytes = 0;
}

static void add_bytes(reading_t reading, origin_t origin, const uint8_t *bytes, size_t length)
{
    uint8_t *body = recording.bodies + recording.body_bytes;

    if (recording.count == MOST_ENTRIES || length > MOST_BYTES - recording.body_bytes) {
        puts("C test: no room for another entry");
        exit(1);
    }
    memcpy(body, bytes, length);
    recording.entries[recording.count++] = (struct entry){reading, origin, body, length, length};
    recording.body_bytes += length;
    recording.said++;
}

static void put_word(uint8_t *bytes, uint32_t word)
{
    for (size_t i = 0; i < 4; i++)
        bytes[i] = (uint8_t)(word >> (24 - 8 * i));
}

/* A datagram word by word. */
static void add_words(reading_t reading, origin_t origin, const uint32_t *words, size_t count)
{
    uint8_t *bytes = allocate(4 * count);

    for (size_t i = 0; i < count; i++)
        put_word(bytes + 4 * i, words[i]);
    add_bytes(reading, origin, bytes, 4 * count);
    free(bytes);
}

#define ADD(reading, origin, ...) \
    add_words(reading, origin, (const uint32_t[]){__VA_ARGS__}, \
              LENGTH(((const uint32_t[]){__VA_ARGS__})))

/* ---- Packets --------------------------------------------------------------------------------- */

#define RR(sender) 0x80C90001, sender

#define BYE(source) 0x81CB0001, source

/* An XR with one report of payload type 33, for the group and media source of the cases. */
#define REPORT(source, p, seconds, fraction, rtp, presented) \
    REPORT_OF(GROUP, MEDIA, source, p, seconds, fraction, rtp, presented)

#define REPORT_OF(group, media, source, p, seconds, fraction, rtp, presented) \
    0x80CF0009, source, 0x0C100007 | (uint32_t)(p) << 16, 0x42000000, group, media, seconds, \
        fraction, rtp, presented

/* P1 and P2, and a report of source 10 that presents later than both. */
#define P1 REPORT(10, 1, 999, 0, 8910000, 0x03E78000)
#define P2 REPORT(20, 1, 998, 0, 8820000, 0x03E6C000)
#define LATER REPORT(10, 1, 999, 0, 8910000, 0x03E7F000)

/* P3, the settings. */
#define SETTINGS 0x80D30008, 1, MEDIA, GROUP, 998, 0, 8820000, 998, 0xC0000000

/* ---- Bytes ----------------------------------------------------------------------------------- */

static void put_entry(uint8_t *bytes, const struct entry *entry)
{
    put_word(bytes, (uint32_t)(entry->reading.ntp >> 32));
    put_word(bytes + 4, (uint32_t)entry->reading.ntp);
    put_word(bytes + 8, entry->reading.rtp);
    memcpy(bytes + 12, entry->origin.address, 16);
    put_word(bytes + 28, (uint32_t)entry->origin.port << 16 | (uint32_t)entry->said);
}

/* What a recording needs of memory where nothing is cut off. */
static size_t recording_bytes(void)
{
    return HEAD_BYTES + ENTRY_BYTES * recording.count + recording.body_bytes;
}

static void put_recording(uint8_t *bytes)
{
    put_word(bytes, recording.said);
    put_word(bytes + 4, recording.group);
    put_word(bytes + 8, recording.media);
    put_word(bytes + 12, recording.rate);
    for (size_t i = 0; i < recording.count; i++)
        put_entry(bytes + HEAD_BYTES + ENTRY_BYTES * i, &recording.entries[i]);
    memcpy(bytes + HEAD_BYTES + ENTRY_BYTES * recording.count, recording.bodies,
           recording.body_bytes);
}

#endif
