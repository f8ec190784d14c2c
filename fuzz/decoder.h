/*
 * A decoder of RTCP datagrams for IDMS matter, written from documents 01 and 02 (E2) alone.
 * It shares no code with the archive that it is compared with.
 */
#ifndef FUZZ_DECODER_H
#define FUZZ_DECODER_H

#include <stdbool.h>
#include <stddef.h>
#include <stdint.h>

enum kind { REPORT = 1, SETTINGS = 2, FAREWELL = 3 };

/* What an item does not have is 0. */
struct item {
    enum kind kind;
    size_t place;
    uint32_t source;
    uint32_t group;
    uint32_t media;
    uint64_t received;
    uint32_t rtp;
    uint64_t presented;
    uint8_t payload_type;
    uint8_t p;
};

/* No datagram has as many items as words, and 2,048 bytes are 512 words. */
#define MOST_ITEMS 512

/* Where refusal is not 0, there are a place and no items. */
struct decoded {
    unsigned refusal;
    size_t place;
    size_t count;
    struct item items[MOST_ITEMS];
};

/* reduced_size: whether reduced size was agreed. */
void decode(const uint8_t *datagram, size_t length, bool reduced_size, struct decoded *decoded);

#endif
