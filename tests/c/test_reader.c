/*
 * Calls every reader of prunepocket.h on datagrams written out word by word, and holds each answer
 * to values taken from the layouts. What a call may not change is filled beforehand and looked at
 * afterwards. Datagrams and arrays are lent at their exact size from the heap, so that valgrind
 * sees any step outside of them.
 */
#include "check.h"

#include <string.h>

typedef uint64_t row_t[PRUNEPOCKET_ROW];

/* ---- Lent memory ----------------------------------------------------------------------------- */

/* The numbers from start to before end are as they were lent. */
static void check_untouched(const char *what, const uint64_t *numbers, size_t start, size_t end)
{
    size_t i = start;

    while (i < end && numbers[i] == FILL)
        i++;
    check_equal(what, i < end ? numbers[i] : FILL, FILL);
}

/* The first bytes of some words, each with its most significant byte first. */
static uint8_t *lend_datagram(const uint32_t *words, size_t length)
{
    uint8_t *datagram = allocate(length);

    for (size_t i = 0; i < length; i++)
        datagram[i] = (uint8_t)(words[i / 4] >> (24 - 8 * (i % 4)));
    return datagram;
}

/* Ends a loan: the datagram is as it was lent. */
static void take_back(uint8_t *datagram, const uint32_t *words, size_t length)
{
    uint8_t *before = lend_datagram(words, length);

    check_equal("datagram changed", memcmp(datagram, before, length) != 0, 0);
    free(before);
    free(datagram);
}

static uint64_t *lend_numbers(size_t length)
{
    uint64_t *numbers = allocate(length * sizeof *numbers);

    for (size_t i = 0; i < length; i++)
        numbers[i] = FILL;
    return numbers;
}

/* ---- One call -------------------------------------------------------------------------------- */

static void count_refused(const uint32_t *words, size_t length, uint32_t reduced_size,
                          uint64_t number, uint64_t place)
{
    uint8_t *datagram = lend_datagram(words, length);
    uint64_t count = FILL;

    check_answer("count_items", prunepocket_count_items(datagram, length, reduced_size, &count),
                 number, place);
    check_untouched("count_items: count after a refusal", &count, 0, 1);
    take_back(datagram, words, length);
}

static void count_given(const uint32_t *words, size_t length, uint32_t reduced_size,
                        uint64_t items)
{
    uint8_t *datagram = lend_datagram(words, length);
    uint64_t count = FILL;

    check_answer("count_items", prunepocket_count_items(datagram, length, reduced_size, &count), 0,
                 0);
    check_equal("count_items: count", count, items);
    take_back(datagram, words, length);
}

static void field_refused(const uint32_t *words, size_t length, uint32_t reduced_size,
                          uint64_t index, uint64_t field, uint64_t number, uint64_t place)
{
    uint8_t *datagram = lend_datagram(words, length);
    uint64_t value = FILL;
    char text[80];

    snprintf(text, sizeof text, "item_field: item %" PRIu64 ", field %" PRIu64, index, field);
    check_answer(text,
                 prunepocket_item_field(datagram, length, reduced_size, index, field, &value),
                 number, place);
    check_untouched(text, &value, 0, 1);
    take_back(datagram, words, length);
}

static void field_given(const uint32_t *words, size_t length, uint32_t reduced_size,
                        uint64_t index, uint64_t field, uint64_t expected)
{
    uint8_t *datagram = lend_datagram(words, length);
    uint64_t value = FILL;
    char text[80];

    snprintf(text, sizeof text, "item_field: item %" PRIu64 ", field %" PRIu64, index, field);
    check_answer(text,
                 prunepocket_item_field(datagram, length, reduced_size, index, field, &value), 0,
                 0);
    check_equal(text, value, expected);
    take_back(datagram, words, length);
}

static void rows_refused(const uint32_t *words, size_t length, uint32_t reduced_size,
                         size_t rows_length, uint64_t number, uint64_t place)
{
    uint8_t *datagram = lend_datagram(words, length);
    uint64_t *rows = lend_numbers(rows_length);
    uint64_t count = FILL;
    char text[80];

    snprintf(text, sizeof text, "read_items: array of %zu", rows_length);
    check_answer(text,
                 prunepocket_read_items(datagram, length, reduced_size, rows, rows_length, &count),
                 number, place);
    check_untouched("read_items: array after a refusal", rows, 0, rows_length);
    check_untouched("read_items: count after a refusal", &count, 0, 1);
    free(rows);
    take_back(datagram, words, length);
}

static void rows_given(const uint32_t *words, size_t length, uint32_t reduced_size,
                       size_t rows_length, const row_t *expected, size_t items)
{
    uint8_t *datagram = lend_datagram(words, length);
    uint64_t *rows = lend_numbers(rows_length);
    uint64_t count = FILL;
    char text[80];

    snprintf(text, sizeof text, "read_items: array of %zu", rows_length);
    check_answer(text,
                 prunepocket_read_items(datagram, length, reduced_size, rows, rows_length, &count),
                 0, 0);
    check_equal("read_items: count", count, items);
    for (size_t i = 0; i < items; i++) {
        for (size_t column = 0; column < PRUNEPOCKET_ROW; column++) {
            snprintf(text, sizeof text, "read_items: row %zu, column %zu", i, column);
            check_equal(text, rows[i * PRUNEPOCKET_ROW + column], expected[i][column]);
        }
    }
    check_untouched("read_items: array behind the last row", rows, items * PRUNEPOCKET_ROW,
                    rows_length);
    free(rows);
    take_back(datagram, words, length);
}

/* ---- One datagram ---------------------------------------------------------------------------- */

/* The first says that reduced size was not agreed, all others say that it was. */
static const uint32_t flags[] = {0, 1, 2, 255, 256, 65536, 0x80000000, UINT32_MAX};

#define NOT_AGREED 0
#define FIRST_AGREED 1
#define FLAGS (sizeof flags / sizeof *flags)

/* The case under way, with what its calls are told of reduced size. */
static void start_case(int case_line, const char *case_name, uint32_t reduced_size)
{
    static char text[100];

    snprintf(text, sizeof text, "%s, reduced_size 0x%" PRIX32, case_name, reduced_size);
    line = case_line;
    name = text;
}

/* Every call gives the datagram's refusal, whatever else it was asked. */
static void refused(const uint32_t *words, size_t length, uint32_t reduced_size, uint64_t number,
                    uint64_t place)
{
    count_refused(words, length, reduced_size, number, place);
    field_refused(words, length, reduced_size, 0, PRUNEPOCKET_FIELD_KIND, number, place);
    field_refused(words, length, reduced_size, 0, PRUNEPOCKET_ROW, number, place);
    field_refused(words, length, reduced_size, UINT64_MAX, UINT64_MAX, number, place);
    rows_refused(words, length, reduced_size, 0, number, place);
    rows_refused(words, length, reduced_size, 4 * PRUNEPOCKET_ROW, number, place);
}

static uint64_t fields_of(uint64_t kind)
{
    switch (kind) {
    case PRUNEPOCKET_REPORT:
        return 10;
    case PRUNEPOCKET_SETTINGS:
        return 8;
    default:
        return 3;
    }
}

/* The datagram has these items, in this order. */
static void given(const uint32_t *words, size_t length, uint32_t reduced_size,
                  const row_t *expected, size_t items)
{
    size_t needed = items * PRUNEPOCKET_ROW;

    count_given(words, length, reduced_size, items);

    for (size_t i = 0; i < items; i++) {
        uint64_t fields = fields_of(expected[i][PRUNEPOCKET_FIELD_KIND]);

        for (uint64_t field = 0; field < fields; field++)
            field_given(words, length, reduced_size, i, field, expected[i][field]);
        for (uint64_t field = fields; field <= PRUNEPOCKET_ROW; field++)
            field_refused(words, length, reduced_size, i, field, 9, 0);
        field_refused(words, length, reduced_size, i, UINT64_MAX, 9, 0);
    }
    field_refused(words, length, reduced_size, items, PRUNEPOCKET_FIELD_KIND, 9, 0);
    field_refused(words, length, reduced_size, items + 1, PRUNEPOCKET_FIELD_SOURCE, 9, 0);
    field_refused(words, length, reduced_size, UINT64_MAX, PRUNEPOCKET_FIELD_KIND, 9, 0);

    if (items > 0) {
        rows_refused(words, length, reduced_size, 0, 10, 0);
        rows_refused(words, length, reduced_size, needed - 1, 10, 0);
    }
    rows_given(words, length, reduced_size, needed, expected, items);
    rows_given(words, length, reduced_size, needed + 1, expected, items);
    rows_given(words, length, reduced_size, needed + 2 * PRUNEPOCKET_ROW, expected, items);
}

/* Refused alike from one of the flags on. */
static void check_refused(int case_line, const char *case_name, const uint32_t *words,
                          size_t length, size_t first_flag, uint64_t number, uint64_t place)
{
    for (size_t i = first_flag; i < FLAGS; i++) {
        start_case(case_line, case_name, flags[i]);
        refused(words, length, flags[i], number, place);
    }
}

/* The same items from one of the flags on. */
static void check_items(int case_line, const char *case_name, const uint32_t *words, size_t length,
                        size_t first_flag, const row_t *expected, size_t items)
{
    for (size_t i = first_flag; i < FLAGS; i++) {
        start_case(case_line, case_name, flags[i]);
        given(words, length, flags[i], expected, items);
    }
}

/* 4 where reduced size was not agreed. */
static void check_bad_first(int case_line, const char *case_name, const uint32_t *words,
                            size_t length)
{
    start_case(case_line, case_name, flags[NOT_AGREED]);
    refused(words, length, flags[NOT_AGREED], 4, 0);
}

/* With every flag. */
#define CHECK_REFUSED(name, words, number, place) \
    check_refused(__LINE__, name, words, sizeof(words), NOT_AGREED, number, place)

#define CHECK_ITEMS(name, words, rows) \
    check_items(__LINE__, name, words, sizeof(words), NOT_AGREED, rows, \
                sizeof(rows) / sizeof(row_t))

#define CHECK_NO_ITEMS(name, words) \
    check_items(__LINE__, name, words, sizeof(words), NOT_AGREED, NULL, 0)

/* So where reduced size was agreed, and 4 where it was not. */
#define CHECK_AGREED_REFUSED(name, words, number, place) \
    (check_bad_first(__LINE__, name, words, sizeof(words)), \
     check_refused(__LINE__, name, words, sizeof(words), FIRST_AGREED, number, place))

#define CHECK_AGREED_ITEMS(name, words, rows) \
    (check_bad_first(__LINE__, name, words, sizeof(words)), \
     check_items(__LINE__, name, words, sizeof(words), FIRST_AGREED, rows, \
                 sizeof(rows) / sizeof(row_t)))

#define CHECK_AGREED_NO_ITEMS(name, words) \
    (check_bad_first(__LINE__, name, words, sizeof(words)), \
     check_items(__LINE__, name, words, sizeof(words), FIRST_AGREED, NULL, 0))

/* ---- Cases ----------------------------------------------------------------------------------- */

/* An RR of source 99 without report blocks, 8 bytes. */
#define RR 0x80C90001, 0x00000063

/* P5, the report of source 20: an XR packet of 40 bytes, its block at byte 8. */
#define XR 0x80CF0009, 0x00000014
#define REPORT 0x0C110007
#define ARRIVAL 0x0C100007 /* the same with P 0 */
#define FIELDS 0x42000000, 0x0000002A, 0x00000007, 0x000003E6, 0x00000000, 0x00869520, 0x03E6C000

/* The settings packet of P3, 36 bytes. Here the media source precedes the group. */
#define SETTINGS \
    0x80D30008, 0x00000001, 0x00000007, 0x0000002A, 0x000003E6, 0x00000000, 0x00869520, \
    0x000003E6, 0xC0000000

/* A BYE packet with the sources 10 and 20, 12 bytes. */
#define BYE 0x82CB0002, 0x0000000A, 0x00000014

/* 998 s, received in P5 and P3. */
#define RECEIVED (UINT64_C(998) << 32)

static void test_items(void)
{
    static const uint32_t alone[] = {RR};
    static const uint32_t report[] = {RR, XR, REPORT, FIELDS};
    static const uint32_t arrival[] = {RR, XR, ARRIVAL, FIELDS};
    static const uint32_t settings[] = {RR, SETTINGS};
    static const uint32_t farewells[] = {RR, BYE};
    static const uint32_t all[] = {RR, XR, REPORT, FIELDS, SETTINGS, BYE};

    static const row_t report_rows[] = {{
        [PRUNEPOCKET_FIELD_KIND] = PRUNEPOCKET_REPORT,
        [PRUNEPOCKET_FIELD_PLACE] = 16,
        [PRUNEPOCKET_FIELD_SOURCE] = 20,
        [PRUNEPOCKET_FIELD_GROUP] = 42,
        [PRUNEPOCKET_FIELD_MEDIA] = 7,
        [PRUNEPOCKET_FIELD_RECEIVED] = RECEIVED,
        [PRUNEPOCKET_FIELD_RTP] = 8820000,
        [PRUNEPOCKET_FIELD_PRESENTED] = 0x03E6C000,
        [PRUNEPOCKET_FIELD_PAYLOAD_TYPE] = 33,
        [PRUNEPOCKET_FIELD_P] = 1,
    }};
    /* Where P is 0, presented is not looked at and reads as 0. */
    static const row_t arrival_rows[] = {{1, 16, 20, 42, 7, RECEIVED, 8820000, 0, 33, 0}};
    static const row_t settings_rows[] = {{
        [PRUNEPOCKET_FIELD_KIND] = PRUNEPOCKET_SETTINGS,
        [PRUNEPOCKET_FIELD_PLACE] = 8,
        [PRUNEPOCKET_FIELD_SOURCE] = 1,
        [PRUNEPOCKET_FIELD_GROUP] = 42,
        [PRUNEPOCKET_FIELD_MEDIA] = 7,
        [PRUNEPOCKET_FIELD_RECEIVED] = RECEIVED,
        [PRUNEPOCKET_FIELD_RTP] = 8820000,
        [PRUNEPOCKET_FIELD_PRESENTED] = UINT64_C(0x000003E6C0000000),
    }};
    static const row_t farewell_rows[] = {
        {
            [PRUNEPOCKET_FIELD_KIND] = PRUNEPOCKET_FAREWELL,
            [PRUNEPOCKET_FIELD_PLACE] = 12,
            [PRUNEPOCKET_FIELD_SOURCE] = 10,
        },
        {
            [PRUNEPOCKET_FIELD_KIND] = PRUNEPOCKET_FAREWELL,
            [PRUNEPOCKET_FIELD_PLACE] = 16,
            [PRUNEPOCKET_FIELD_SOURCE] = 20,
        },
    };
    static const row_t all_rows[] = {
        {1, 16, 20, 42, 7, RECEIVED, 8820000, 0x03E6C000, 33, 1},
        {2, 48, 1, 42, 7, RECEIVED, 8820000, UINT64_C(0x000003E6C0000000), 0, 0},
        {3, 88, 10, 0, 0, 0, 0, 0, 0, 0},
        {3, 92, 20, 0, 0, 0, 0, 0, 0, 0},
    };

    CHECK_NO_ITEMS("one RR alone", alone);
    CHECK_ITEMS("P5 behind an RR", report, report_rows);
    CHECK_ITEMS("P5 with P 0", arrival, arrival_rows);
    CHECK_ITEMS("P3's settings behind an RR", settings, settings_rows);
    CHECK_ITEMS("a BYE with two sources", farewells, farewell_rows);
    CHECK_ITEMS("all of these in one datagram", all, all_rows);
}

static void test_refusals(void)
{
    static const uint32_t length[] = {RR, 0x80000000};
    static const uint32_t too_long[513] = {0x80C90200};
    static const uint32_t version[] = {RR, 0x41CB0001, 0x0000000A};
    static const uint32_t packet_past_end[] = {RR, BYE, 0x82CB0002, 0x0000000A};
    static const uint32_t padding[] = {RR, 0xA1CB0002, 0x0000000A, 0x00000000};
    static const uint32_t short_settings[] = {RR, 0x80D30007, 1, 7, 42, 998, 0, 8820000, 998};
    static const uint32_t block_past_end[] = {RR, 0x80CF0003, 0x00000014, REPORT, 0x42000000};
    /* A block of type 4 stands before the one that is refused. */
    static const uint32_t block_length[] = {RR, XR, 0x04000000, 0x0C110006, 0, 0, 0, 0, 0, 0};

    check_refused(__LINE__, "the empty datagram", length, 0, NOT_AGREED, 1, 0);
    check_refused(__LINE__, "9 bytes", length, 9, NOT_AGREED, 1, 0);
    CHECK_REFUSED("2,052 bytes", too_long, 1, 0);
    CHECK_REFUSED("version 1", version, 2, 8);
    CHECK_REFUSED("a packet past the end", packet_past_end, 2, 20);
    CHECK_REFUSED("padding of 0 bytes", padding, 3, 8);
    CHECK_REFUSED("settings of 32 bytes", short_settings, 5, 8);
    CHECK_REFUSED("a block past the content", block_past_end, 6, 16);
    CHECK_REFUSED("a report block of 7 words", block_length, 7, 20);
}

/* Where reduced size was agreed, any first packet type is walked. */
static void test_first_packets(void)
{
    static const uint32_t report[] = {XR, REPORT, FIELDS};
    static const uint32_t settings[] = {SETTINGS};
    static const uint32_t farewells[] = {BYE};
    static const uint32_t before_rr[] = {BYE, RR};
    static const uint32_t unknown[] = {0x80C00001, 0x00000014};
    static const uint32_t type_0[] = {0x80000000, XR, REPORT, FIELDS};
    static const uint32_t type_255[] = {0x9FFF0000, BYE};
    static const uint32_t sdes[] = {0x80CA0000};
    static const uint32_t all[] = {XR, REPORT, FIELDS, SETTINGS, BYE};

    static const row_t report_rows[] = {{1, 8, 20, 42, 7, RECEIVED, 8820000, 0x03E6C000, 33, 1}};
    static const row_t settings_rows[] = {
        {2, 0, 1, 42, 7, RECEIVED, 8820000, UINT64_C(0x000003E6C0000000), 0, 0},
    };
    static const row_t farewell_rows[] = {{3, 4, 10}, {3, 8, 20}};
    static const row_t type_0_rows[] = {{1, 12, 20, 42, 7, RECEIVED, 8820000, 0x03E6C000, 33, 1}};
    static const row_t type_255_rows[] = {{3, 8, 10}, {3, 12, 20}};
    static const row_t all_rows[] = {
        {1, 8, 20, 42, 7, RECEIVED, 8820000, 0x03E6C000, 33, 1},
        {2, 40, 1, 42, 7, RECEIVED, 8820000, UINT64_C(0x000003E6C0000000), 0, 0},
        {3, 80, 10},
        {3, 84, 20},
    };

    CHECK_AGREED_ITEMS("P5 alone", report, report_rows);
    CHECK_AGREED_ITEMS("P3's settings alone", settings, settings_rows);
    CHECK_AGREED_ITEMS("a BYE alone", farewells, farewell_rows);
    CHECK_AGREED_ITEMS("a BYE before an RR", before_rr, farewell_rows);
    CHECK_AGREED_NO_ITEMS("type 192 alone", unknown);
    CHECK_AGREED_ITEMS("type 0 before P5", type_0, type_0_rows);
    CHECK_AGREED_ITEMS("type 255 before a BYE", type_255, type_255_rows);
    CHECK_AGREED_NO_ITEMS("an SDES alone", sdes);
    CHECK_AGREED_ITEMS("P5, settings and a BYE without an RR", all, all_rows);
}

/* No first packet may be padded, not even where it is the only one. */
static void test_first_padding(void)
{
    static const uint32_t report[] = {0xA0CF000A, 0x00000014, REPORT, FIELDS, 4};
    static const uint32_t settings[] = {0xA0D30009, 1, 7, 42, 998, 0, 8820000, 998, 0, 4};
    static const uint32_t farewells[] = {0xA2CB0003, 10, 20, 4};
    static const uint32_t unknown[] = {0xA0C00001, 4};
    static const uint32_t rr[] = {0xA0C90002, 99, 4};
    static const uint32_t sr[] = {0xA0C80007, 99, 0, 0, 0, 0, 0, 4};
    static const uint32_t not_last[] = {0xA0CF0002, 20, 4, BYE};
    static const uint32_t last[] = {XR, REPORT, FIELDS, 0xA1CB0002, 10, 4};
    static const row_t last_rows[] = {
        {1, 8, 20, 42, 7, RECEIVED, 8820000, 0x03E6C000, 33, 1},
        {3, 44, 10},
    };

    CHECK_REFUSED("P5 alone and padded", report, 3, 0);
    CHECK_REFUSED("settings alone and padded", settings, 3, 0);
    CHECK_REFUSED("a BYE alone and padded", farewells, 3, 0);
    CHECK_REFUSED("type 192 alone and padded", unknown, 3, 0);
    CHECK_REFUSED("an RR alone and padded", rr, 3, 0);
    CHECK_REFUSED("an SR alone and padded", sr, 3, 0);
    CHECK_REFUSED("a padded XR before a BYE", not_last, 3, 0);
    CHECK_AGREED_ITEMS("a padded BYE behind P5", last, last_rows);
}

/* 4 comes behind 1 to 3 and before 5 to 7. */
static void test_first_refusals(void)
{
    static const uint32_t too_long[513] = {0x80CC0200};
    static const uint32_t version[] = {0x40CF0001, 20};
    static const uint32_t past_end[] = {0x80CF0002, 20};
    static const uint32_t short_rr[] = {0x81C90001, 99};
    static const uint32_t short_sr[] = {0x80C80005, 99, 0, 0, 0, 0};
    static const uint32_t short_xr[] = {0x80CF0000};
    static const uint32_t short_bye[] = {0x82CB0001, 10};
    static const uint32_t short_settings[] = {0x80D30007, 1, 7, 42, 998, 0, 8820000, 998};
    static const uint32_t long_settings[] = {0x80D30009, 1, 7, 42, 998, 0, 8820000, 998, 0, 0};
    static const uint32_t block_past_end[] = {0x80CF0003, 20, 0x04000000, 0x04000001};
    static const uint32_t block_length[] = {0x80CF0003, 20, 0x04000000, 0x0C110000};
    static const uint32_t later_version[] = {BYE, 0x40CB0000};
    static const uint32_t later_padding[] = {BYE, 0xA0CB0001, 0};
    static const uint32_t later_rr[] = {BYE, 0x80C90000};

    CHECK_REFUSED("an APP of 2,052 bytes", too_long, 1, 0);
    check_refused(__LINE__, "an XR of 6 bytes", version, 6, NOT_AGREED, 1, 0);
    CHECK_REFUSED("an XR of version 1", version, 2, 0);
    CHECK_REFUSED("an XR past the end", past_end, 2, 0);
    CHECK_REFUSED("an RR with count 1 of 8 bytes", short_rr, 5, 0);
    CHECK_REFUSED("an SR of 24 bytes", short_sr, 5, 0);
    CHECK_AGREED_REFUSED("an XR of 4 bytes", short_xr, 5, 0);
    CHECK_AGREED_REFUSED("a BYE with count 2 of 8 bytes", short_bye, 5, 0);
    CHECK_AGREED_REFUSED("settings of 32 bytes first", short_settings, 5, 0);
    CHECK_AGREED_REFUSED("settings of 40 bytes first", long_settings, 5, 0);
    CHECK_AGREED_REFUSED("a block past the content of a first XR", block_past_end, 6, 12);
    CHECK_AGREED_REFUSED("a report block of 1 word in a first XR", block_length, 7, 12);
    CHECK_AGREED_REFUSED("version 1 behind a BYE", later_version, 2, 12);
    CHECK_AGREED_REFUSED("padding of 0 bytes behind a BYE", later_padding, 3, 12);
    CHECK_AGREED_REFUSED("an RR of 4 bytes behind a BYE", later_rr, 5, 12);
}

/* ---- Both flags beside each other ------------------------------------------------------------ */

/* More than any datagram below has. */
#define MOST_ROWS 8

/* What the calls answer on a datagram, with what they leave in lent memory. */
struct answers {
    struct prunepocket_answer counted;
    struct prunepocket_answer read;
    struct prunepocket_answer fields[4];
    uint64_t count;
    uint64_t read_count;
    uint64_t values[4];
    row_t rows[MOST_ROWS];
};

static struct answers answers_of(const uint8_t *datagram, size_t length, uint32_t reduced_size)
{
    struct answers a;

    memset(&a, 0, sizeof a);
    a.counted = prunepocket_count_items(datagram, length, reduced_size, &a.count);
    a.read = prunepocket_read_items(datagram, length, reduced_size, a.rows[0],
                                    MOST_ROWS * PRUNEPOCKET_ROW, &a.read_count);
    for (size_t i = 0; i < 4; i++)
        a.fields[i] = prunepocket_item_field(datagram, length, reduced_size, i,
                                             PRUNEPOCKET_FIELD_SOURCE, &a.values[i]);
    return a;
}

/* What the calls answer on a datagram that stands behind an RR, with places as without it. */
static struct answers answers_behind_rr(const uint8_t *datagram, size_t length)
{
    static const uint8_t rr[8] = {0x80, 0xC9, 0, 1, 0, 0, 0, 99};
    uint8_t *whole = allocate(sizeof rr + length);
    struct answers a;

    memcpy(whole, rr, sizeof rr);
    memcpy(whole + sizeof rr, datagram, length);
    a = answers_of(whole, sizeof rr + length, flags[NOT_AGREED]);
    free(whole);
    if (a.counted.number != 0) {
        a.counted.place -= sizeof rr;
        a.read.place -= sizeof rr;
        for (size_t i = 0; i < 4; i++)
            a.fields[i].place -= sizeof rr;
    }
    for (size_t i = 0; i < a.read_count; i++)
        a.rows[i][PRUNEPOCKET_FIELD_PLACE] -= sizeof rr;
    return a;
}

/*
 * Unless 4 is given without reduced size, both flags answer alike. Where it is, the first packet at
 * reduced size is walked as if it were not the first.
 */
static void check_both_flags(const uint8_t *datagram, size_t length, unsigned long *bad_first)
{
    struct answers without = answers_of(datagram, length, flags[NOT_AGREED]);
    struct answers with = answers_of(datagram, length, flags[FIRST_AGREED]);

    check_equal("not 4 at reduced size", with.counted.number == 4, 0);
    if (without.counted.number == 4) {
        ++*bad_first;
        without = answers_behind_rr(datagram, length);
    }
    check_equal("number", with.counted.number, without.counted.number);
    check_equal("place", with.counted.place, without.counted.place);
    check_equal("all else", memcmp(&with, &without, sizeof with) != 0, 0);
}

/* A datagram, and each that differs from it in one byte. */
static void check_changes(int case_line, const char *case_name, const uint32_t *words,
                          size_t length)
{
    uint8_t *datagram = lend_datagram(words, length);
    unsigned long bad_first = 0;

    line = case_line;
    name = case_name;
    for (size_t i = 0; i < length; i++) {
        uint8_t before = datagram[i];

        for (unsigned byte = 0; byte <= UINT8_MAX; byte++) {
            datagram[i] = (uint8_t)byte;
            check_both_flags(datagram, length, &bad_first);
        }
        datagram[i] = before;
    }
    check_equal("4 was met", bad_first > 0, 1);
    free(datagram);
}

#define CHECK_CHANGES(name, words) check_changes(__LINE__, name, words, sizeof(words))

static void test_both_flags(void)
{
    static const uint32_t behind_rr[] = {RR, XR, REPORT, FIELDS, SETTINGS, BYE};
    static const uint32_t alone[] = {XR, REPORT, FIELDS};
    static const uint32_t without_rr[] = {SETTINGS, BYE, 0xA1CB0002, 30, 4};
    static const uint32_t behind_sr[] = {0x80C80006, 99, 0, 0, 0, 0, 0, BYE};

    CHECK_CHANGES("changes of an RR, P5, settings and a BYE", behind_rr);
    CHECK_CHANGES("changes of P5 alone", alone);
    CHECK_CHANGES("changes of settings, a BYE and a padded BYE", without_rr);
    CHECK_CHANGES("changes of an SR and a BYE", behind_sr);
}

int main(void)
{
    start_checks(__FILE__);
    test_items();
    test_refusals();
    test_first_packets();
    test_first_padding();
    test_first_refusals();
    test_both_flags();
    return finish_checks();
}
