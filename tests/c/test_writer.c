/*
 * Calls both writers of prunepocket.h with buffers of every length up to LONGEST, and holds each
 * answer to messages written out word by word. Buffers are filled beforehand and looked at whole
 * afterwards. They are lent at their exact size from the heap, so that valgrind sees any step
 * outside of them. What was written is read again, alone and behind an RR.
 */
#include "check.h"

#include <string.h>

#define LONGEST 64

/* Each byte of FILL. */
#define FILL_BYTE 0xA5

/* Either message. Settings have no payload type and no P. */
struct message {
    size_t size;
    uint32_t sender;
    uint32_t payload_type;
    uint32_t p;
    uint32_t group;
    uint32_t media;
    uint64_t received;
    uint32_t rtp;
    uint64_t presented;
};

/* ---- One call -------------------------------------------------------------------------------- */

static struct prunepocket_answer write_message(const struct message *m, uint8_t *buffer,
                                                size_t length, uint64_t *written)
{
    if (m->size == PRUNEPOCKET_SETTINGS_BYTES)
        return prunepocket_write_settings(m->sender, m->group, m->media, m->received,
                                          m->rtp, m->presented, buffer, length, written);
    return prunepocket_write_report(m->sender, m->payload_type, m->p, m->group, m->media,
                                    m->received, m->rtp, (uint32_t)m->presented, buffer, length,
                                    written);
}

/* Each word has its most significant byte first. */
static uint8_t byte_of(const uint32_t *words, size_t at)
{
    return (uint8_t)(words[at / 4] >> (24 - 8 * (at % 4)));
}

/* A message of some bytes stands at the front, all else is as it was lent. Shows one error. */
static void check_buffer(const uint8_t *buffer, size_t length, const uint32_t *words, size_t size)
{
    char text[80];

    for (size_t i = 0; i < length; i++) {
        uint8_t expected = i < size ? byte_of(words, i) : FILL_BYTE;

        if (buffer[i] != expected) {
            snprintf(text, sizeof text, "buffer of %zu: byte %zu", length, i);
            check_equal(text, buffer[i], expected);
            return;
        }
    }
    passed++;
}

static void message_written(const struct message *m, size_t length, const uint32_t *words)
{
    uint8_t *buffer = allocate(length);
    uint64_t written = FILL;
    char text[80];

    memset(buffer, FILL_BYTE, length);
    snprintf(text, sizeof text, "buffer of %zu", length);
    check_answer(text, write_message(m, buffer, length, &written), 0, 0);
    check_equal("written", written, m->size);
    check_buffer(buffer, length, words, m->size);
    free(buffer);
}

static void message_refused(const struct message *m, size_t length, uint64_t number)
{
    uint8_t *buffer = allocate(length);
    uint64_t written = FILL;
    char text[80];

    memset(buffer, FILL_BYTE, length);
    snprintf(text, sizeof text, "buffer of %zu", length);
    check_answer(text, write_message(m, buffer, length, &written), number, 0);
    check_equal("written after a refusal", written, FILL);
    check_buffer(buffer, length, NULL, 0);
    free(buffer);
}

/* ---- Reading again --------------------------------------------------------------------------- */

/* An RR without report blocks. */
static const uint8_t rr[] = {0x80, 201, 0, 1, 0, 0, 0, 99};

#define MOST_MESSAGES 2

/* The row of a message that starts at a place. A report's block stands behind header and sender. */
static void put_row(const struct message *m, size_t place, uint64_t row[PRUNEPOCKET_ROW])
{
    int is_report = m->size == PRUNEPOCKET_REPORT_BYTES;

    row[PRUNEPOCKET_FIELD_KIND] = is_report ? PRUNEPOCKET_REPORT : PRUNEPOCKET_SETTINGS;
    row[PRUNEPOCKET_FIELD_PLACE] = is_report ? place + 8 : place;
    row[PRUNEPOCKET_FIELD_SOURCE] = m->sender;
    row[PRUNEPOCKET_FIELD_GROUP] = m->group;
    row[PRUNEPOCKET_FIELD_MEDIA] = m->media;
    row[PRUNEPOCKET_FIELD_RECEIVED] = m->received;
    row[PRUNEPOCKET_FIELD_RTP] = m->rtp;
    row[PRUNEPOCKET_FIELD_PRESENTED] = m->presented;
    row[PRUNEPOCKET_FIELD_PAYLOAD_TYPE] = is_report ? m->payload_type : 0;
    row[PRUNEPOCKET_FIELD_P] = is_report ? m->p : 0;
}

/* The reader gives this number, and unless it is a refusal, these rows. */
static void check_read(const uint8_t *datagram, size_t length, uint32_t reduced_size,
                       uint64_t number, const uint64_t *expected, size_t items)
{
    uint64_t rows[MOST_MESSAGES * PRUNEPOCKET_ROW];
    uint64_t count = FILL;
    char text[80];

    snprintf(text, sizeof text, "%zu bytes read, reduced_size %" PRIu32, length, reduced_size);
    check_answer(text,
                 prunepocket_read_items(datagram, length, reduced_size, rows,
                                        MOST_MESSAGES * PRUNEPOCKET_ROW, &count),
                 number, 0);
    check_equal("count", count, number == 0 ? items : FILL);
    for (size_t i = 0; count == items && i < items * PRUNEPOCKET_ROW; i++) {
        snprintf(text, sizeof text, "number %zu of the rows", i);
        check_equal(text, rows[i], expected[i]);
    }
}

/*
 * As a host does it: an RR or none, then the messages, each at its place in one datagram. Behind
 * the RR they are read with either flag, and without it where reduced size was agreed.
 */
static void check_sent(const struct message *messages, size_t items, size_t front)
{
    size_t length = front;
    size_t end = front;
    uint64_t rows[MOST_MESSAGES * PRUNEPOCKET_ROW];
    uint8_t *datagram;

    for (size_t i = 0; i < items; i++)
        length += messages[i].size;
    datagram = allocate(length);
    memcpy(datagram, rr, front);
    for (size_t i = 0; i < items; i++) {
        uint64_t written = 0;

        check_answer("message",
                     write_message(&messages[i], datagram + end, length - end, &written), 0, 0);
        put_row(&messages[i], end, rows + i * PRUNEPOCKET_ROW);
        end += written;
    }
    check_equal("bytes", end, length);
    check_read(datagram, length, 0, front > 0 ? 0 : PRUNEPOCKET_BAD_FIRST, rows, items);
    check_read(datagram, length, 1, 0, rows, items);
    free(datagram);
}

/* ---- One message ----------------------------------------------------------------------------- */

/* The message is written wherever it has room, and gets 10 elsewhere. It is read as it was told. */
static void check_written(int case_line, const char *case_name, struct message m,
                          const uint32_t *words)
{
    line = case_line;
    name = case_name;
    for (size_t length = 0; length < m.size; length++)
        message_refused(&m, length, 10);
    for (size_t length = m.size; length <= LONGEST; length++)
        message_written(&m, length, words);
    check_sent(&m, 1, 0);
    check_sent(&m, 1, sizeof rr);
}

/* 11 comes before 10, so that no length gives another answer. */
static void check_refused(int case_line, const char *case_name, struct message m)
{
    line = case_line;
    name = case_name;
    for (size_t length = 0; length <= LONGEST; length++)
        message_refused(&m, length, 11);
}

#define CHECK_WRITTEN(name, m, ...) \
    check_written(__LINE__, name, m, (const uint32_t[]){__VA_ARGS__})

#define CHECK_REFUSED(name, m) check_refused(__LINE__, name, m)

/* ---- Cases ----------------------------------------------------------------------------------- */

/* 998 s, received in P5 and P3. */
#define RECEIVED (UINT64_C(998) << 32)

/* Presented in P3. */
#define PRESENTED UINT64_C(0x000003E6C0000000)

/* P5, the report of source 20, with some fields of choice. */
static struct message report(uint32_t payload_type, uint32_t p, uint32_t group, uint32_t presented)
{
    return (struct message){PRUNEPOCKET_REPORT_BYTES, 20, payload_type, p, group, 7, RECEIVED,
                            8820000, presented};
}

/* The settings of P3, with some fields of choice. */
static struct message settings(uint32_t group, uint64_t presented)
{
    return (struct message){PRUNEPOCKET_SETTINGS_BYTES, 1, 0, 0, group, 7, RECEIVED, 8820000,
                            presented};
}

/* Fields whose bytes all differ. */
static struct message distinct(size_t size, uint64_t presented)
{
    return (struct message){size, 0x01020304, 0x2A, 1, 0x05060708, 0x090A0B0C,
                            UINT64_C(0x0D0E0F1011121314), 0x15161718, presented};
}

/* Words of these messages. In the settings the media source precedes the group. */
#define XR 0x80CF0009, 0x00000014
#define HEAD 0x80D30008, 0x00000001, 0x00000007
#define TIMES 0x000003E6, 0x00000000, 0x00869520

static void test_reports(void)
{
    CHECK_WRITTEN("P5", report(33, 1, 42, 0x03E6C000), XR, 0x0C110007, 0x42000000, 0x0000002A,
                  0x00000007, TIMES, 0x03E6C000);
    CHECK_WRITTEN("payload type 0", report(0, 1, 42, 0x03E6C000), XR, 0x0C110007, 0x00000000,
                  0x0000002A, 0x00000007, TIMES, 0x03E6C000);
    CHECK_WRITTEN("payload type 127", report(127, 1, 42, 0x03E6C000), XR, 0x0C110007, 0xFE000000,
                  0x0000002A, 0x00000007, TIMES, 0x03E6C000);
    CHECK_WRITTEN("P 0", report(33, 0, 42, 0), XR, 0x0C100007, 0x42000000, 0x0000002A, 0x00000007,
                  TIMES, 0x00000000);
    CHECK_WRITTEN("P 1 with presented 0", report(33, 1, 42, 0), XR, 0x0C110007, 0x42000000,
                  0x0000002A, 0x00000007, TIMES, 0x00000000);
    CHECK_WRITTEN("group 0", report(33, 1, 0, 0x03E6C000), XR, 0x0C110007, 0x42000000, 0x00000000,
                  0x00000007, TIMES, 0x03E6C000);
    CHECK_WRITTEN("group 4294967294", report(33, 1, 0xFFFFFFFE, 0x03E6C000), XR, 0x0C110007,
                  0x42000000, 0xFFFFFFFE, 0x00000007, TIMES, 0x03E6C000);
    CHECK_WRITTEN("the order of a report", distinct(PRUNEPOCKET_REPORT_BYTES, 0x191A1B1C),
                  0x80CF0009, 0x01020304, 0x0C110007, 0x54000000, 0x05060708, 0x090A0B0C,
                  0x0D0E0F10, 0x11121314, 0x15161718, 0x191A1B1C);
}

static void test_settings(void)
{
    CHECK_WRITTEN("P3", settings(42, PRESENTED), HEAD, 0x0000002A, TIMES, 0x000003E6, 0xC0000000);
    CHECK_WRITTEN("presented 0", settings(42, 0), HEAD, 0x0000002A, TIMES, 0, 0);
    CHECK_WRITTEN("group 0", settings(0, PRESENTED), HEAD, 0x00000000, TIMES, 0x000003E6,
                  0xC0000000);
    CHECK_WRITTEN("group 4294967294", settings(0xFFFFFFFE, PRESENTED), HEAD, 0xFFFFFFFE, TIMES,
                  0x000003E6, 0xC0000000);
    CHECK_WRITTEN("the order of settings",
                  distinct(PRUNEPOCKET_SETTINGS_BYTES, UINT64_C(0x191A1B1C1D1E1F20)), 0x80D30008,
                  0x01020304, 0x090A0B0C, 0x05060708, 0x0D0E0F10, 0x11121314, 0x15161718,
                  0x191A1B1C, 0x1D1E1F20);
}

static void test_refusals(void)
{
    CHECK_REFUSED("payload type 128", report(128, 1, 42, 0x03E6C000));
    CHECK_REFUSED("payload type 256", report(256, 1, 42, 0x03E6C000));
    CHECK_REFUSED("payload type 4294967295", report(UINT32_MAX, 1, 42, 0x03E6C000));
    CHECK_REFUSED("P 2", report(33, 2, 42, 0x03E6C000));
    CHECK_REFUSED("P 257", report(33, 257, 42, 0x03E6C000));
    CHECK_REFUSED("P 4294967295", report(33, UINT32_MAX, 42, 0x03E6C000));
    CHECK_REFUSED("P 0 with presented", report(33, 0, 42, 0x03E6C000));
    CHECK_REFUSED("P 0 with presented 1", report(33, 0, 42, 1));
    CHECK_REFUSED("group 4294967295 of a report", report(33, 1, UINT32_MAX, 0x03E6C000));
    CHECK_REFUSED("group 4294967295 of settings", settings(UINT32_MAX, PRESENTED));
    CHECK_REFUSED("group 4294967295 of empty settings", settings(UINT32_MAX, 0));
}

static void test_datagram(void)
{
    const struct message both[] = {report(33, 1, 42, 0x03E6C000), settings(42, PRESENTED)};
    const struct message turned[] = {both[1], both[0]};

    line = __LINE__;
    name = "both messages behind an RR";
    check_sent(both, 2, sizeof rr);
    check_sent(turned, 2, sizeof rr);
    name = "both messages alone";
    check_sent(both, 2, 0);
    check_sent(turned, 2, 0);
}

int main(void)
{
    start_checks(__FILE__);
    test_reports();
    test_settings();
    test_refusals();
    test_datagram();
    return finish_checks();
}
