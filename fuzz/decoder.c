#include "decoder.h"

/*
 * A fault to be planted, which the comparison must then find:
 * 1: padding may take a whole packet, its header too
 * 2: check 7 comes before check 6
 * 3: presented is read where P is 0
 * 4: a datagram may have 2,052 bytes
 * 5: 4 is given at reduced size too
 * 6: 4 is never given
 * 7: at reduced size the first packet may be padded where it is the last
 * 8: the flag is turned round
 * 9: at reduced size a first packet of type 200 or 201 may have any content
 */
#ifndef DECODER_FAULT
#define DECODER_FAULT 0
#endif

/* Packet types: RFC 3550 section 12.1, RFC 3611 section 2, RFC 7272 section 7. */
enum { SR = 200, RR = 201, BYE = 203, XR = 207, IDMS_SETTINGS = 211 };

/* RFC 7272 section 6. */
enum { IDMS_BLOCK = 12, IDMS_BLOCK_LENGTH = 7, SYNCHRONIZATION_CLIENT = 1 };

enum { HEADER = 4, SETTINGS_BYTES = 36, MOST_BYTES = DECODER_FAULT == 4 ? 2052 : 2048 };

static uint32_t word(const uint8_t *bytes)
{
    return (uint32_t)bytes[0] << 24 | (uint32_t)bytes[1] << 16 | (uint32_t)bytes[2] << 8 | bytes[3];
}

static uint64_t two_words(const uint8_t *bytes)
{
    return (uint64_t)word(bytes) << 32 | word(bytes + 4);
}

/* The bytes of a packet or block whose header says its words less one in its last two bytes. */
static size_t bytes_said(const uint8_t *header)
{
    return 4 * (((size_t)header[2] << 8 | header[3]) + 1);
}

static void refuse(struct decoded *decoded, unsigned number, size_t place)
{
    decoded->refusal = number;
    decoded->place = place;
    decoded->count = 0;
}

static struct item *add(struct decoded *decoded, enum kind kind, size_t place, uint32_t source)
{
    struct item *item = &decoded->items[decoded->count++];
    *item = (struct item){.kind = kind, .place = place, .source = source};
    return item;
}

/* Content starts with the packet's header and ends before its padding. */
static bool content_fits(uint8_t type, unsigned count, size_t content)
{
    switch (type) {
    case SR:
        return content >= 28 + 24 * (size_t)count;
    case RR:
        return content >= 8 + 24 * (size_t)count;
    case BYE:
        return content >= 4 + 4 * (size_t)count;
    case XR:
        return content >= 8;
    case IDMS_SETTINGS:
        return content == SETTINGS_BYTES;
    default:
        return true;
    }
}

static void take_report(const uint8_t *datagram, size_t place, uint32_t sender, struct decoded *decoded)
{
    const uint8_t *block = datagram + place;
    struct item *item = add(decoded, REPORT, place, sender);

    item->p = block[1] & 1;
    item->payload_type = block[4] >> 1;
    item->group = word(block + 8);
    item->media = word(block + 12);
    item->received = two_words(block + 16);
    item->rtp = word(block + 24);
    if (item->p == 1 || DECODER_FAULT == 3)
        item->presented = word(block + 28);
}

static void take_settings(const uint8_t *datagram, size_t place, struct decoded *decoded)
{
    const uint8_t *packet = datagram + place;
    struct item *item = add(decoded, SETTINGS, place, word(packet + 4));

    item->media = word(packet + 8);
    item->group = word(packet + 12);
    item->received = two_words(packet + 16);
    item->rtp = word(packet + 24);
    item->presented = two_words(packet + 28);
}

/* Answers whether every block of the XR packet was good. */
static bool take_blocks(const uint8_t *datagram, size_t place, size_t content, struct decoded *decoded)
{
    uint32_t sender = word(datagram + place + 4);
    size_t end = place + content;

    for (size_t block = place + 8; block < end;) {
        size_t bytes = bytes_said(datagram + block);
        bool ours = datagram[block] == IDMS_BLOCK;
        bool bad_length = ours && bytes != 4 * (IDMS_BLOCK_LENGTH + 1);

        if (DECODER_FAULT == 2 && bad_length) {
            refuse(decoded, 7, block);
            return false;
        }
        if (bytes > end - block) {
            refuse(decoded, 6, block);
            return false;
        }
        if (bad_length) {
            refuse(decoded, 7, block);
            return false;
        }
        if (ours && datagram[block + 1] >> 4 == SYNCHRONIZATION_CLIENT)
            take_report(datagram, block, sender, decoded);
        block += bytes;
    }
    return true;
}

/* Whether the first packet may be of a type. */
static bool may_be_first(uint8_t type, bool reduced_size)
{
    switch (DECODER_FAULT) {
    case 5:
        reduced_size = false;
        break;
    case 6:
        reduced_size = true;
        break;
    case 8:
        reduced_size = !reduced_size;
        break;
    default:
        break;
    }
    return reduced_size || type == SR || type == RR;
}

void decode(const uint8_t *datagram, size_t length, bool reduced_size, struct decoded *decoded)
{
    decoded->refusal = 0;
    decoded->place = 0;
    decoded->count = 0;

    if (length == 0 || length % 4 != 0 || length > MOST_BYTES) {
        refuse(decoded, 1, 0);
        return;
    }
    for (size_t place = 0; place < length;) {
        const uint8_t *packet = datagram + place;
        bool padded = packet[0] >> 5 & 1;
        unsigned count = packet[0] & 31;
        uint8_t type = packet[1];
        size_t bytes = bytes_said(packet);
        size_t content = bytes;

        if (packet[0] >> 6 != 2) {
            refuse(decoded, 2, place);
            return;
        }
        if (bytes > length - place) {
            refuse(decoded, 2, place);
            return;
        }
        if (padded) {
            bool last = place + bytes == length;
            size_t padding = packet[bytes - 1];
            size_t most = DECODER_FAULT == 1 ? bytes : bytes - HEADER;
            bool first = place == 0 && !(DECODER_FAULT == 7 && reduced_size);

            if (first || !last || padding == 0 || padding % 4 != 0 || padding > most) {
                refuse(decoded, 3, place);
                return;
            }
            content -= padding;
        }
        if (place == 0 && !may_be_first(type, reduced_size)) {
            refuse(decoded, 4, place);
            return;
        }
        bool unchecked = DECODER_FAULT == 9 && reduced_size && place == 0 && (type == SR || type == RR);
        if (!unchecked && !content_fits(type, count, content)) {
            refuse(decoded, 5, place);
            return;
        }
        switch (type) {
        case BYE:
            for (unsigned i = 0; i < count; i++)
                add(decoded, FAREWELL, place + 4 + 4 * i, word(packet + 4 + 4 * i));
            break;
        case XR:
            if (!take_blocks(datagram, place, content, decoded))
                return;
            break;
        case IDMS_SETTINGS:
            take_settings(datagram, place, decoded);
            break;
        default:
            break;
        }
        place += bytes;
    }
}
