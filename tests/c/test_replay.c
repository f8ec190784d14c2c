/*
 * Holds prunepocket_replay to document 02 (E7): a row for each entry, the target at the last entry's
 * reading, and refusals 25, 12 and 10 in this order, which leave the rows as before. Recordings and
 * rows are lent at their exact size from the heap, so that valgrind sees any step outside of them.
 * Random recordings are held against prunepocket_open, prunepocket_take_datagram and
 * prunepocket_choose, called one by one.
 */
#include "random.h"
#include "recordings.h"

#define ROW 3
#define ENTRY_LIMIT 256
#define BYTE_LIMIT 65536

_Static_assert(ROW == PRUNEPOCKET_ENTRY_ROW, "three numbers an entry");
_Static_assert(ENTRY_LIMIT == PRUNEPOCKET_ENTRY_LIMIT, "256 entries");
_Static_assert(BYTE_LIMIT == PRUNEPOCKET_RECORDING_LIMIT, "65,536 bytes");

typedef struct prunepocket_recording_answered replayed_t;

/* ---- One call -------------------------------------------------------------------------------- */

/* What a call must answer. Rows are ROW numbers an entry. */
struct expected {
    uint64_t number;
    uint64_t entries;
    const uint64_t *rows;
    uint64_t choice;
    target_t target;
};

/* Each number of the rows has a value of its own beforehand. */
static uint64_t lent_number(size_t index)
{
    return FILL + index;
}

/* The rows expected stand at the front; behind them, the array is as it was lent. */
static void check_rows(const uint64_t *rows, size_t room, const struct expected *expected)
{
    char text[80];

    for (size_t i = 0; i < room; i++) {
        snprintf(text, sizeof text, "replay: number %zu of %zu in the rows", i, room);
        check_equal(text, rows[i],
                    i < ROW * expected->entries ? expected->rows[i] : lent_number(i));
    }
}

/* The bytes are not written on, and neither is the array but for the rows. */
static void check_call(const uint8_t *bytes, size_t length, size_t room,
                       const struct expected *expected)
{
    uint8_t *lent = allocate(length);
    uint64_t *rows = allocate(room * sizeof *rows);
    replayed_t *replayed = allocate(sizeof *replayed);

    memcpy(lent, bytes, length);
    for (size_t i = 0; i < room; i++)
        rows[i] = lent_number(i);
    *replayed = prunepocket_replay(lent, length, rows, room);
    check_equal("replay: number", replayed->number, expected->number);
    check_equal("replay: entries", replayed->entries, expected->entries);
    check_equal("replay: choice", replayed->choice, expected->choice);
    check_target(replayed->target, expected->target);
    check_rows(rows, room, expected);
    check_true("replay: the recording as before", memcmp(lent, bytes, length) == 0);
    free(replayed);
    free(rows);
    free(lent);
}

/* After a refusal there are no entries and no target. */
static void check_refused(const uint8_t *bytes, size_t length, size_t room, uint64_t number)
{
    struct expected refused = {number, 0, NULL, PRUNEPOCKET_NONE_COUNTED, {0}};

    check_call(bytes, length, room, &refused);
}

/* ---- One recording --------------------------------------------------------------------------- */

/* The bytes of the recording that was made, with some more behind them. */
static uint8_t *made_bytes(size_t more)
{
    uint8_t *bytes = allocate(recording_bytes() + more);

    put_recording(bytes);
    memset(bytes + recording_bytes(), 0, more);
    return bytes;
}

/* Refused, whatever room there is for rows. */
static void refused_bytes(const uint8_t *bytes, size_t length, uint64_t number)
{
    static const size_t rooms[] = {0, 1, ROW, ROW * ENTRY_LIMIT};

    for (size_t i = 0; i < LENGTH(rooms); i++)
        check_refused(bytes, length, rooms[i], number);
}

static void refused(uint64_t number)
{
    uint8_t *bytes = made_bytes(0);

    refused_bytes(bytes, recording_bytes(), number);
    free(bytes);
}

/* Replayed with room for exactly its rows and for more, and refused with 10 where it has less. */
static void check_made(const struct expected *expected)
{
    size_t needed = ROW * recording.count;
    uint8_t *bytes = made_bytes(0);

    check_call(bytes, recording_bytes(), needed, expected);
    check_call(bytes, recording_bytes(), needed + 1, expected);
    check_call(bytes, recording_bytes(), needed + 2 * ROW, expected);
    if (needed > 0) {
        check_refused(bytes, recording_bytes(), needed - 1, PRUNEPOCKET_SHORT_BUFFER);
        check_refused(bytes, recording_bytes(), 0, PRUNEPOCKET_SHORT_BUFFER);
    }
    free(bytes);
}

static void replays(const uint64_t *rows, target_t target)
{
    struct expected expected = {PRUNEPOCKET_ACCEPTED, recording.count, rows, 0, target};

    check_made(&expected);
}

/* Replayed, and there is no target. */
static void replays_without(const uint64_t *rows)
{
    struct expected expected = {PRUNEPOCKET_ACCEPTED, recording.count, rows,
                                PRUNEPOCKET_NONE_COUNTED, {0}};

    check_made(&expected);
}

/* The row of each entry, three numbers a row. */
#define ROWS(...) \
    (check_equal("a row for each entry", sizeof((uint64_t[]){__VA_ARGS__}) / sizeof(uint64_t), \
                 ROW * recording.count), \
     (const uint64_t[]){__VA_ARGS__})

/* ---- Values ---------------------------------------------------------------------------------- */

/* The target where P1 is the only one that is counted, and where LATER is. */
static const target_t target_10 = {
    10, GROUP, MEDIA, SECONDS(999), 8910000, UINT64_C(0x3E780000000), 1,
};
static const target_t target_later = {
    10, GROUP, MEDIA, SECONDS(999), 8910000, UINT64_C(0x3E7F0000000), 1,
};

static target_t of_counted(target_t target, uint32_t counted)
{
    target.counted = counted;
    return target;
}

static origin_t at_port(uint8_t host, uint16_t port)
{
    origin_t origin = unit(host);

    origin.port = port;
    return origin;
}

static void start_cases(void)
{
    start_recording(GROUP, MEDIA, RATE);
}

static void make_example(void)
{
    start_cases();
    ADD(now, unit(10), RR(10), P1);
    ADD(now, unit(20), RR(20), P2);
}

/* ---- The request's example ------------------------------------------------------------------- */

/* Word by word, as the file holds it. */
static const uint32_t example[] = {
    0x00000002, 0x0000002A, 0x00000007, 0x00015F90,
    0x000003E8, 0x00000000, 0x00895440, 0x00000000, 0x00000000, 0x0000FFFF, 0xC000020A, 0x138D0030,
    0x000003E8, 0x00000000, 0x00895440, 0x00000000, 0x00000000, 0x0000FFFF, 0xC0000214, 0x138D0030,
    0x80C90001, 0x0000000A, 0x80CF0009, 0x0000000A, 0x0C110007, 0x42000000,
    0x0000002A, 0x00000007, 0x000003E7, 0x00000000, 0x0087F4B0, 0x03E78000,
    0x80C90001, 0x00000014, 0x80CF0009, 0x00000014, 0x0C110007, 0x42000000,
    0x0000002A, 0x00000007, 0x000003E6, 0x00000000, 0x00869520, 0x03E6C000,
};

static void test_example(void)
{
    static const uint64_t rows[] = {1, 1, 0, 1, 1, 0};
    struct expected expected = {PRUNEPOCKET_ACCEPTED, 2, rows, 0, target_20};
    uint8_t bytes[sizeof example];
    uint8_t *made;

    CASE("the request's example, word by word");
    for (size_t i = 0; i < LENGTH(example); i++)
        put_word(bytes + 4 * i, example[i]);
    for (size_t room = 6; room <= 20; room++)
        check_call(bytes, sizeof bytes, room, &expected);
    for (size_t room = 0; room < 6; room++)
        check_refused(bytes, sizeof bytes, room, PRUNEPOCKET_SHORT_BUFFER);

    CASE("the request's example, made entry by entry");
    make_example();
    made = made_bytes(0);
    check_equal("bytes", recording_bytes(), sizeof bytes);
    check_true("the same bytes", memcmp(made, bytes, sizeof bytes) == 0);
    free(made);
    replays(rows, target_20);
}

/* Bytes for bodies of any length. */
static const uint8_t zeros[BYTE_LIMIT + 1];

/* ---- 25 -------------------------------------------------------------------------------------- */

/* Cut at every byte, and with bytes added. */
static void check_ends(void)
{
    size_t length = recording_bytes();
    uint8_t *bytes = made_bytes(40);

    for (size_t cut = 0; cut < length; cut++)
        refused_bytes(bytes, cut, PRUNEPOCKET_BAD_LAYOUT);
    for (size_t more = 1; more <= 40; more++)
        refused_bytes(bytes, length + more, PRUNEPOCKET_BAD_LAYOUT);
    free(bytes);
}

static void test_ends(void)
{
    CASE("no entries, cut at every byte and with bytes added");
    start_cases();
    check_ends();

    CASE("the example, cut at every byte and with bytes added");
    make_example();
    check_ends();

    CASE("bodies of length 0 and of odd lengths, cut at every byte and with bytes added");
    start_cases();
    add_bytes(now, unit(10), zeros, 0);
    add_bytes(now, unit(10), zeros, 7);
    ADD(now, unit(10), RR(10), P1, BYE(30));
    add_bytes(now, unit(10), zeros, 0);
    check_ends();
}

/* The example, whose head says another number of entries. */
static void test_counts(void)
{
    static const uint32_t counts[] = {
        0, 1, 3, 4, 255, 256, 257, 258, 512, 513, 514, 65536, 65538, 0x01000002, 0x08000000,
        0x08000002, 0x10000002, 0x40000002, 0x7FFFFFFF, 0x80000000, 0x80000002, 0xFFFFFFFF,
    };

    CASE("the example, whose head says another number of entries");
    for (size_t i = 0; i < LENGTH(counts); i++) {
        make_example();
        recording.said = counts[i];
        refused(PRUNEPOCKET_BAD_LAYOUT);
    }
}

/* The example, whose entries say other lengths: the sum alone decides on 25. */
static void test_lengths(void)
{
    static const uint16_t lengths[][2] = {
        {47, 48}, {49, 48}, {48, 47}, {48, 49}, {0, 0}, {0, 95}, {0, 97}, {97, 0}, {96, 1},
        /* Right modulo 2^8 or 2^16, and the most. */
        {304, 48}, {48, 304}, {65535, 97}, {97, 65535}, {32816, 32816}, {65535, 65535},
    };

    CASE("the example, whose entries say other lengths");
    for (size_t i = 0; i < LENGTH(lengths); i++) {
        make_example();
        recording.entries[0].said = lengths[i][0];
        recording.entries[1].said = lengths[i][1];
        refused(PRUNEPOCKET_BAD_LAYOUT);
    }
}

/* The same sum, so that the bodies end with the recording, but not where the datagrams did. */
static void test_moved_bodies(void)
{
    CASE("the first body ends a word before its datagram does");
    make_example();
    recording.entries[0].said = 44;
    recording.entries[1].said = 52;
    replays_without(ROWS(0, 0, 2, 0, 0, 2));

    CASE("both datagrams in the second body, under the second origin");
    make_example();
    recording.entries[0].said = 0;
    recording.entries[1].said = 96;
    replays(ROWS(0, 0, 1, 2, 2, 0), target_20);

    CASE("both datagrams in the first body");
    make_example();
    recording.entries[0].said = 96;
    recording.entries[1].said = 0;
    replays(ROWS(2, 2, 0, 0, 0, 1), target_20);
}

/* The same datagram so many times, and the row that each gives. */
static void make_alike(size_t count, const uint64_t *row, uint64_t *rows)
{
    start_cases();
    for (size_t i = 0; i < count; i++) {
        ADD(now, unit(20), RR(20), P2);
        memcpy(rows + ROW * i, row, ROW * sizeof *row);
    }
}

static void test_entry_limit(void)
{
    static const uint64_t row[] = {1, 1, 0};
    static uint64_t rows[ROW * MOST_ENTRIES];
    uint8_t *bytes;

    CASE("up to 256 entries");
    for (size_t count = 253; count <= ENTRY_LIMIT; count++) {
        make_alike(count, row, rows);
        replays(rows, of_counted(target_20, 1));
    }

    CASE("256 entries, cut by a byte and with one more");
    bytes = made_bytes(1);
    refused_bytes(bytes, recording_bytes() - 1, PRUNEPOCKET_BAD_LAYOUT);
    refused_bytes(bytes, recording_bytes() + 1, PRUNEPOCKET_BAD_LAYOUT);
    free(bytes);

    CASE("more than 256 entries");
    for (size_t count = ENTRY_LIMIT + 1; count <= MOST_ENTRIES; count++) {
        make_alike(count, row, rows);
        refused(PRUNEPOCKET_BAD_LAYOUT);
    }
}

/* An entry whose body fills the recording up to so many bytes. */
static void fill_up_to(size_t bytes)
{
    add_bytes(now, unit(10), zeros, bytes - recording_bytes() - ENTRY_BYTES);
}

static void test_byte_limit(void)
{
    CASE("65,536 bytes, of one body and of many");
    start_cases();
    fill_up_to(BYTE_LIMIT);
    replays_without(ROWS(0, 0, 1));
    make_example();
    fill_up_to(BYTE_LIMIT);
    replays(ROWS(1, 1, 0, 1, 1, 0, 0, 0, 1), target_20);

    CASE("more than 65,536 bytes, in an otherwise good layout");
    for (size_t more = 1; more <= 20; more++) {
        make_example();
        fill_up_to(BYTE_LIMIT + more);
        refused(PRUNEPOCKET_BAD_LAYOUT);
    }
    make_example();
    fill_up_to(40000);
    fill_up_to(BYTE_LIMIT + 176 + 64);
    refused(PRUNEPOCKET_BAD_LAYOUT);
}

/* ---- 12 and 10 ------------------------------------------------------------------------------- */

/* For the example's entries, and for none. */
static void check_opening(uint32_t group, uint32_t media, uint32_t rate, int is_refused)
{
    for (int entries = 0; entries < 2; entries++) {
        start_recording(group, media, rate);
        if (entries)
            ADD(now, unit(10), RR(10), REPORT_OF(group, media, 10, 0, 1000, 0, 9000000, 0));
        if (is_refused)
            refused(PRUNEPOCKET_BAD_OPENING);
        else if (entries)
            replays(ROWS(1, 1, 0), (target_t){10, group, media, SECONDS(1000), 9000000, 0, 1});
        else
            replays_without(NULL);
    }
}

static void test_openings(void)
{
    CASE("groups, media sources and rates that a table is opened for");
    check_opening(1, 0, 1, 0);
    check_opening(4294967294, 4294967295, 192000, 0);
    check_opening(0x01000000, 1, 65536, 0);
    check_opening(65536, 0x80000000, 191999, 0);

    CASE("12");
    check_opening(0, MEDIA, RATE, 1);
    check_opening(4294967295, MEDIA, RATE, 1);
    check_opening(GROUP, MEDIA, 0, 1);
    check_opening(GROUP, MEDIA, 192001, 1);
    check_opening(GROUP, MEDIA, 0x00100000, 1);
    check_opening(GROUP, MEDIA, 0x80000001, 1);
    check_opening(GROUP, MEDIA, 4294967295, 1);
    check_opening(0, 0, 0, 1);
}

/* Where several refusals apply, the first of 25, 12 and 10 is given. */
static void test_order(void)
{
    uint8_t *bytes;

    CASE("25 before 12");
    make_example();
    recording.group = 0;
    recording.rate = 0;
    bytes = made_bytes(1);
    refused_bytes(bytes, recording_bytes(), PRUNEPOCKET_BAD_OPENING);
    refused_bytes(bytes, recording_bytes() + 1, PRUNEPOCKET_BAD_LAYOUT);
    refused_bytes(bytes, recording_bytes() - 1, PRUNEPOCKET_BAD_LAYOUT);
    refused_bytes(bytes, HEAD_BYTES + 2 * ENTRY_BYTES, PRUNEPOCKET_BAD_LAYOUT);
    refused_bytes(bytes, HEAD_BYTES + 2 * ENTRY_BYTES - 1, PRUNEPOCKET_BAD_LAYOUT);
    refused_bytes(bytes, HEAD_BYTES, PRUNEPOCKET_BAD_LAYOUT);
    free(bytes);

    CASE("25 before 12 where there are too many entries or bytes");
    start_recording(0, MEDIA, RATE);
    for (size_t i = 0; i <= ENTRY_LIMIT; i++)
        add_bytes(now, unit(10), zeros, 0);
    refused(PRUNEPOCKET_BAD_LAYOUT);
    start_recording(GROUP, MEDIA, 0);
    fill_up_to(BYTE_LIMIT + 1);
    refused(PRUNEPOCKET_BAD_LAYOUT);
}

/* Every room for the rows of so many entries. */
static void test_rooms(void)
{
    static const uint64_t row[] = {1, 1, 0};
    uint64_t rows[ROW * 5];

    CASE("every room for rows: 10 where it is too short");
    for (size_t count = 0; count <= 5; count++) {
        struct expected expected = {PRUNEPOCKET_ACCEPTED, count, rows, 0, of_counted(target_20, 1)};
        uint8_t *bytes;

        make_alike(count, row, rows);
        if (count == 0) {
            expected.choice = PRUNEPOCKET_NONE_COUNTED;
            expected.target = (target_t){0};
        }
        bytes = made_bytes(0);
        for (size_t room = 0; room < ROW * count; room++)
            check_refused(bytes, recording_bytes(), room, PRUNEPOCKET_SHORT_BUFFER);
        for (size_t room = ROW * count; room <= ROW * 6; room++)
            check_call(bytes, recording_bytes(), room, &expected);
        free(bytes);
    }
}

/* ---- What an entry gives --------------------------------------------------------------------- */

static void test_no_entries(void)
{
    CASE("no entries");
    start_cases();
    replays_without(NULL);
}

/* The reader's refusals: nothing is taken of the datagram, whose good report presents later. */
static void test_reader_refusals(void)
{
    CASE("the reader's refusals, and a table that stays as it was");
    start_cases();
    ADD(now, unit(20), RR(20), P2);
    add_bytes(now, unit(10), zeros, 0);
    add_bytes(now, unit(10), zeros, 6);
    add_bytes(now, unit(10), zeros, 2052);
    ADD(now, unit(10), RR(10), LATER, 0x40CB0000);
    ADD(now, unit(10), RR(10), LATER, 0x80CB0001);
    ADD(now, unit(10), RR(10), LATER, 0xA0CB0001, 3);
    ADD(now, unit(10), 0xA0C90002, 10, 4);
    ADD(now, unit(10), LATER);
    ADD(now, unit(10), RR(10), LATER, 0x81CB0000);
    ADD(now, unit(10), RR(10), LATER, 0x80D30007, 1, MEDIA, GROUP, 998, 0, 8820000, 998);
    ADD(now, unit(10), RR(10), LATER, 0x80CF0002, 10, 0x04000001);
    ADD(now, unit(10), RR(10), LATER, 0x80CF0002, 10, 0x0C110000);
    ADD(now, unit(10), RR(10));
    replays(ROWS(1, 1, 0, 0, 0, 1, 0, 0, 1, 0, 0, 1, 0, 0, 2, 0, 0, 2, 0, 0, 3, 0, 0, 3, 0, 0, 4,
                 0, 0, 5, 0, 0, 5, 0, 0, 6, 0, 0, 7, 0, 0, 0),
            of_counted(target_20, 1));
}

static void test_settings(void)
{
    CASE("settings are items, and neither accepted nor refused");
    start_cases();
    ADD(now, unit(20), RR(20), SETTINGS, P2, SETTINGS);
    ADD(now, unit(20), RR(20), SETTINGS);
    ADD(now, unit(20), RR(20), SETTINGS, SETTINGS, SETTINGS);
    ADD(now, unit(10), RR(20), SETTINGS, P2);
    ADD(now, unit(10), RR(20), P2, SETTINGS);
    ADD(now, unit(20), RR(20), SETTINGS, BYE(30), SETTINGS, P2);
    replays(ROWS(3, 1, 0, 1, 0, 0, 3, 0, 0, 2, 0, 14, 2, 0, 14, 4, 1, 19),
            of_counted(target_20, 1));
}

/* Reports of other sources that get 13, 15, 16 and 17 at the reading of the cases. */
#define GETS_13 REPORT_OF(GROUP + 1, MEDIA, 60, 1, 999, 0, 8910000, 0x03E78000)
#define GETS_15 REPORT(61, 1, 1000, 1, 8910000, 0x03E88000)
#define GETS_16 REPORT(62, 1, 999, 0, 3599999, 0x03E78000)
#define GETS_17 REPORT(63, 1, 999, 0, 8910000, 0x04050001)

static void test_first_refusals(void)
{
    CASE("the first refusal of an entry");
    start_cases();
    ADD(now, unit(10), RR(10), P1, GETS_16, GETS_15, P1);
    ADD(now, unit(10), RR(10), GETS_15, GETS_16);
    ADD(now, unit(10), RR(10), BYE(30), P1, GETS_13);
    ADD(now, unit(10), RR(10), P1, GETS_13, BYE(30));
    ADD(now, unit(10), RR(10), GETS_17, GETS_13, GETS_15, GETS_16);
    ADD(now, unit(20), RR(10), P1, BYE(30), P2);
    ADD(now, unit(20), RR(10), BYE(30), P1, P2);
    replays(ROWS(4, 2, 16, 2, 0, 15, 3, 1, 19, 3, 1, 13, 4, 0, 17, 3, 1, 14, 3, 1, 19), target_20);
}

/* Origins that differ from the holder's in one of the eighteen bytes. */
static void test_twins(void)
{
    static uint64_t rows[ROW * 40];
    uint64_t *row = rows;

    CASE("a twin between the holder's entries, by report and by farewell, and by each byte");
    start_cases();
    ADD(now, unit(10), RR(10), P1);
    memcpy(row, (uint64_t[]){1, 1, 0}, ROW * sizeof *row);
    for (size_t i = 0; i < 18; i++) {
        origin_t twin = unit(10);

        if (i < 16)
            twin.address[i] ^= 1;
        else
            twin.port ^= i == 16 ? 0x0100 : 0x0001;
        ADD(now, twin, RR(10), LATER);
        ADD(now, twin, RR(10), BYE(10));
        memcpy(row += ROW, (uint64_t[]){1, 0, 14}, ROW * sizeof *row);
        memcpy(row += ROW, (uint64_t[]){1, 0, 14}, ROW * sizeof *row);
    }
    replays(rows, target_10);
    ADD(now, unit(10), RR(10), LATER);
    memcpy(row + ROW, (uint64_t[]){1, 1, 0}, ROW * sizeof *row);
    replays(rows, target_later);
}

static void test_farewells(void)
{
    CASE("farewells: of a member, of a number not held, of the same member again, of a twin");
    make_example();
    ADD(now, unit(20), RR(20), BYE(20));
    ADD(now, unit(10), RR(10), BYE(30));
    ADD(now, unit(20), RR(20), BYE(20));
    ADD(now, unit(20), RR(20), BYE(10));
    replays(ROWS(1, 1, 0, 1, 1, 0, 1, 1, 0, 1, 0, 19, 1, 0, 19, 1, 0, 14), target_10);

    CASE("all members leave");
    make_example();
    ADD(now, unit(10), RR(10), 0x82CB0002, 10, 10);
    ADD(now, unit(20), RR(20), BYE(20));
    replays_without(ROWS(1, 1, 0, 1, 1, 0, 2, 1, 19, 1, 1, 0));

    CASE("a number passes to its twin by a farewell");
    start_cases();
    ADD(now, at_port(10, 5010), RR(10), P1);
    ADD(now, at_port(10, 5011), RR(10), LATER);
    ADD(now, at_port(10, 5010), RR(10), BYE(10));
    ADD(now, at_port(10, 5011), RR(10), LATER);
    ADD(now, at_port(10, 5010), RR(10), P1);
    replays(ROWS(1, 1, 0, 1, 0, 14, 1, 1, 0, 1, 1, 0, 1, 0, 14), target_later);
}

/* The places of the table: 64 sources, one report a datagram, and one more. */
static void test_full_table(void)
{
    static uint64_t rows[ROW * 67];

    CASE("a 65th member gets 18, until one leaves");
    start_cases();
    for (uint32_t i = 0; i < 67; i++) {
        if (i < 65)
            ADD(now, unit(10), RR(10), REPORT(100 + i, 1, 999, 0, 8910000, 0x03E78000));
        rows[ROW * i] = 1;
        rows[ROW * i + 1] = i != 64;
        rows[ROW * i + 2] = i == 64 ? PRUNEPOCKET_NO_ROOM : 0;
    }
    ADD(now, unit(10), RR(10), BYE(100));
    ADD(now, unit(10), RR(10), REPORT(164, 1, 999, 0, 8910000, 0x03E78000));
    replays(rows, (target_t){101, GROUP, MEDIA, SECONDS(999), 8910000, UINT64_C(0x3E780000000),
                             PRUNEPOCKET_PLACES});
}

/* ---- Readings and the target ----------------------------------------------------------------- */

/* Later than the reading of the cases by seconds, both clocks alike. */
static reading_t later_by(uint32_t seconds)
{
    return (reading_t){now.ntp + SECONDS(seconds), now.rtp + seconds * RATE};
}

static void test_own_readings(void)
{
    CASE("each entry at its own reading");
    start_cases();
    ADD(now, unit(10), RR(10), P1);
    ADD(((reading_t){SECONDS(1030), 9000000}), unit(10), RR(10), P1);
    ADD(((reading_t){SECONDS(998), 9000000}), unit(10), RR(10), P1);
    ADD(((reading_t){SECONDS(999), 8909999}), unit(10), RR(10), P1);
    ADD(((reading_t){SECONDS(1029) + 1, 9000000}), unit(10), RR(10), P1);
    ADD(((reading_t){SECONDS(1029), 14310001}), unit(10), RR(10), P1);
    ADD(((reading_t){SECONDS(1029), 14310000}), unit(10), RR(10), P1);
    replays(ROWS(1, 1, 0, 1, 0, 15, 1, 0, 15, 1, 0, 16, 1, 0, 15, 1, 0, 16, 1, 1, 0), target_10);

    CASE("each entry under its own origin");
    make_example();
    ADD(now, unit(10), RR(20), BYE(20));
    ADD(now, unit(20), RR(10), BYE(10));
    ADD(now, unit(20), RR(20), P1);
    ADD(now, unit(10), RR(10), P1);
    replays(ROWS(1, 1, 0, 1, 1, 0, 1, 0, 14, 1, 0, 14, 1, 0, 14, 1, 1, 0), target_20);
}

/* At 1029 s source 10 is exactly 30 s old, and source 20 a second more. */
static void test_last_reading(void)
{
    CASE("the choice at the last reading, of an entry that the reader refuses");
    make_example();
    add_bytes(later_by(29), unit(20), zeros, 0);
    replays(ROWS(1, 1, 0, 1, 1, 0, 0, 0, 1), target_10);

    CASE("the choice at the last reading, of an entry without items");
    make_example();
    ADD(later_by(29), unit(20), RR(20));
    replays(ROWS(1, 1, 0, 1, 1, 0, 0, 0, 0), target_10);

    CASE("the choice at the last reading, of a report that is refused");
    make_example();
    ADD(later_by(29), unit(20), RR(20), P2);
    replays(ROWS(1, 1, 0, 1, 1, 0, 1, 0, 15), target_10);

    CASE("the last reading before those of the reports");
    make_example();
    ADD(((reading_t){SECONDS(998), 8820000}), unit(20), RR(20));
    replays(ROWS(1, 1, 0, 1, 1, 0, 0, 0, 0), of_counted(target_20, 1));

    CASE("every member is stale at the last reading");
    make_example();
    ADD(((reading_t){SECONDS(1029) + 1, 11610000}), unit(20), RR(20));
    replays_without(ROWS(1, 1, 0, 1, 1, 0, 0, 0, 0));
    make_example();
    ADD(((reading_t){SECONDS(1000), 14310001}), unit(20), RR(20));
    replays_without(ROWS(1, 1, 0, 1, 1, 0, 0, 0, 0));

    CASE("stale members are kept: a reading between the others that none of them outlasts");
    make_example();
    ADD(later_by(31), unit(20), RR(20));
    ADD(now, unit(20), RR(20));
    replays(ROWS(1, 1, 0, 1, 1, 0, 0, 0, 0, 0, 0, 0), target_20);
}

static void test_targets(void)
{
    CASE("P4: a tie");
    start_cases();
    ADD(now, unit(20), RR(20), P2);
    ADD(now, unit(10), RR(10), REPORT(10, 1, 999, 0, 8910000, 0x03E7C000));
    replays(ROWS(1, 1, 0, 1, 1, 0), (target_t){10, GROUP, MEDIA, SECONDS(999), 8910000,
                                               UINT64_C(0x3E7C0000000), 2});

    CASE("arrival mode: presented is 0");
    start_cases();
    ADD(now, unit(10), RR(10), REPORT(10, 0, 999, 0, 8910000, 0x03E7F000));
    ADD(now, unit(20), RR(20), REPORT(20, 0, 998, 0, 8819999, 0));
    replays(ROWS(1, 1, 0, 1, 1, 0), (target_t){20, GROUP, MEDIA, SECONDS(998), 8819999, 0, 2});

    CASE("E3: presented in the slot in which it was received");
    start_cases();
    ADD(now, unit(10), RR(10), REPORT(10, 1, 999, 0, 8910000, 0x03E70000));
    replays(ROWS(1, 1, 0),
            (target_t){10, GROUP, MEDIA, SECONDS(999), 8910000, SECONDS(999) + 1, 1});

    CASE("P6 and P7: around the wrap");
    start_cases();
    ADD(((reading_t){SECONDS(1), 9000000}), unit(10), RR(10),
        REPORT(10, 1, 0xFFFFFFFF, 0, 9000000, 0x00004000));
    ADD(((reading_t){SECONDS(1), 9000000}), unit(10), RR(10),
        REPORT(10, 1, 0xFFFFFFFF, 0, 9000000, 0));
    replays(ROWS(1, 1, 0, 1, 0, 17), (target_t){10, GROUP, MEDIA, UINT64_C(0xFFFFFFFF00000000),
                                                9000000, 0x40000000, 1});
}

/* Numbers whose bytes all differ, so that the order of bytes and fields is seen. */
static void test_order_of_fields(void)
{
    reading_t reading = {UINT64_C(0x0102030405060708), 0x090A0B0C};
    origin_t origin = {{0x11, 0x12, 0x13, 0x14, 0x15, 0x16, 0x17, 0x18,
                        0x19, 0x1A, 0x1B, 0x1C, 0x1D, 0x1E, 0x1F, 0x20}, 0x2122};

    CASE("the order of fields and bytes");
    start_recording(0x31323334, 0x35363738, 0x00012345);
    ADD(reading, origin, RR(1),
        REPORT_OF(0x31323334, 0x35363738, 0x41424344, 1, 0x01020304, 0x05060708, 0x090A0B0C,
                  0x03040507));
    replays(ROWS(1, 1, 0), (target_t){0x41424344, 0x31323334, 0x35363738, reading.ntp, reading.rtp,
                                      UINT64_C(0x0102030405070000), 1});
}

/* ---- Random recordings ----------------------------------------------------------------------- */

#define RANDOM_RECORDINGS 400

/* What the entries of random recordings gave: their numbers, 0 to 19, and more that was met. */
static unsigned long met[20];
static unsigned long met_entries;
static unsigned long met_settings;     /* settings in a datagram that was read */
static unsigned long met_mixed;        /* an accepted item beside a refused one */
static unsigned long met_two_refusals; /* the last refusal is another than the first */
static unsigned long met_presented;    /* targets by presentation */
static unsigned long met_by_arrival;   /* targets by arrival */
static unsigned long met_none;         /* no target though there are entries */
static unsigned long met_unread_last;  /* targets at a reading whose datagram the reader refuses */

#define PICK(array) ((array)[(next_random() >> 16) % LENGTH(array)])

static int one_in(uint64_t count)
{
    return (next_random() >> 16) % count == 0;
}

/* A datagram that grows word by word. */
static struct {
    uint32_t words[512];
    size_t count;
} draft;

static void draft_words(const uint32_t *words, size_t count)
{
    memcpy(draft.words + draft.count, words, count * sizeof *words);
    draft.count += count;
}

#define DRAFT(...) \
    draft_words((const uint32_t[]){__VA_ARGS__}, LENGTH(((const uint32_t[]){__VA_ARGS__})))

/* Times at the limits and beside them, for a reading. */
static void draft_report(reading_t reading, uint32_t source)
{
    static const uint64_t ages[] = {0, 0, 1, SECONDS(1), SECONDS(1), SECONDS(2), SECONDS(29),
                                    SECONDS(30), SECONDS(30) + 1, UINT64_MAX};
    static const uint32_t ticks[] = {0, 0, 1, RATE, RATE, 2 * RATE, 29 * RATE,
                                     60 * RATE, 60 * RATE + 1, UINT32_MAX};
    static const uint32_t steps[] = {0, 0, 1, 16384, 49152, SHORT_SECONDS(1), SHORT_SECONDS(29),
                                     SHORT_SECONDS(30), SHORT_SECONDS(30) + 1};
    uint64_t received = reading.ntp - PICK(ages);

    DRAFT(REPORT_OF(GROUP + one_in(20), MEDIA + one_in(20), source, !one_in(4),
                    (uint32_t)(received >> 32), (uint32_t)received, reading.rtp - PICK(ticks),
                    (uint32_t)(received >> 16) + PICK(steps)));
}

static void draft_packet(reading_t reading, uint32_t source)
{
    switch ((next_random() >> 16) % 8) {
    case 0:
        DRAFT(BYE(source));
        break;
    case 1:
        DRAFT(SETTINGS);
        break;
    default:
        draft_report(reading, source);
        break;
    }
}

/* A last packet that the reader refuses with 3, 5, 6 or 7. */
static void draft_refused(void)
{
    switch ((next_random() >> 16) % 4) {
    case 0:
        DRAFT(0xA0CB0000);
        break;
    case 1:
        DRAFT(0x81CB0000);
        break;
    case 2:
        DRAFT(0x80CF0002, 10, 0x04000001);
        break;
    default:
        DRAFT(0x80CF0002, 10, 0x0C110000);
        break;
    }
}

/* What the reader refuses, mostly: no RR, an end that is cut off, or a byte that is changed. */
static void add_spoilt(reading_t reading, origin_t origin)
{
    uint8_t bytes[sizeof draft.words];
    size_t length = 4 * draft.count;

    for (size_t i = 0; i < draft.count; i++)
        put_word(bytes + 4 * i, draft.words[i]);
    switch ((next_random() >> 16) % 4) {
    case 0:
        add_bytes(reading, origin, bytes + 8, length - 8);
        break;
    case 1:
        add_bytes(reading, origin, bytes, (next_random() >> 16) % length);
        break;
    default:
        bytes[(next_random() >> 16) % length] ^= (uint8_t)(1 << (next_random() >> 16) % 8);
        add_bytes(reading, origin, bytes, length);
        break;
    }
}

/* From few sources and three origins, or from more sources than there are places. */
static void add_random(reading_t reading, uint32_t sources)
{
    origin_t origin = unit((uint8_t)(10 + (next_random() >> 16) % (sources > 64 ? 1 : 3)));

    draft.count = 0;
    DRAFT(RR(10));
    for (uint64_t packets = (next_random() >> 16) % (sources > 64 ? 8 : 5); packets > 0; packets--)
        draft_packet(reading, (uint32_t)((next_random() >> 16) % sources));
    if (one_in(10))
        draft_refused();
    if (one_in(8))
        add_spoilt(reading, origin);
    else
        add_words(reading, origin, draft.words, draft.count);
}

/* The clocks go on, at times a long way, and at times back. */
static reading_t move(reading_t reading)
{
    static const int64_t seconds[] = {0, 0, 0, 1, 1, 2, 31, -5};
    int64_t moved = PICK(seconds);

    reading.ntp += (uint64_t)moved << 32;
    reading.rtp += (uint32_t)moved * RATE;
    return reading;
}

static void make_random(void)
{
    static const size_t counts[] = {1, 2, 3, 5, 8, 13, 20};
    static const reading_t starts[] = {{SECONDS(1000), 9000000}, {SECONDS(1000), 9000000},
                                       {UINT64_MAX - 5, UINT32_MAX - 5}};
    int many = one_in(4);
    size_t count = one_in(50) ? ENTRY_LIMIT : many ? 60 : PICK(counts);
    reading_t reading = PICK(starts);

    start_cases();
    for (size_t i = 0; i < count; i++) {
        add_random(reading, many ? 120 : 6);
        if (!many || one_in(8))
            reading = move(reading);
    }
}

static void count_entry(const uint64_t *row, const uint64_t *answers, uint64_t count)
{
    uint64_t last = 0;

    for (uint64_t i = 0; i < count; i++)
        last = answers[i] != 0 ? answers[i] : last;
    met_entries++;
    met[row[2] < LENGTH(met) ? row[2] : 0]++;
    met_settings += row[0] > count;
    met_mixed += row[1] > 0 && row[2] != 0;
    met_two_refusals += last != 0 && last != row[2];
}

/* The table after an entry's datagram, and the entry's row. */
static table_t take_entry(table_t table, const struct entry *entry, uint64_t *row)
{
    uint64_t answers[512];
    uint64_t items = 0;
    datagram_answered_t answered =
        prunepocket_take_datagram(table, entry->body, entry->length, 0, entry->origin,
                                  entry->reading, answers, LENGTH(answers));

    prunepocket_count_items(entry->body, entry->length, 0, &items);
    row[0] = items;
    row[1] = 0;
    row[2] = answered.number;
    for (uint64_t i = 0; i < answered.count; i++) {
        row[1] += answers[i] == 0;
        if (row[2] == 0)
            row[2] = answers[i];
    }
    count_entry(row, answers, answered.count);
    return answered.table;
}

/* What the calls one by one lead to. */
static struct expected one_by_one(uint64_t *rows)
{
    struct expected expected = {0, recording.count, rows, 0, {0}};
    const struct entry *last = &recording.entries[recording.count - 1];
    table_t table = prunepocket_open(recording.group, recording.media, recording.rate).table;
    followed_t followed;

    for (size_t i = 0; i < recording.count; i++)
        table = take_entry(table, &recording.entries[i], rows + ROW * i);
    followed = prunepocket_choose(table, last->reading);
    expected.choice = followed.number;
    expected.target = followed.target;

    met_none += followed.number != 0;
    met_presented += followed.target.presented != 0;
    met_by_arrival += followed.number == 0 && followed.target.presented == 0;
    met_unread_last += followed.number == 0 && rows[ROW * recording.count - 1] >= 1 &&
                       rows[ROW * recording.count - 1] <= 7;
    return expected;
}

static void test_random_recordings(void)
{
    static uint64_t rows[ROW * ENTRY_LIMIT];

    CASE("random recordings, as the calls one by one");
    for (int i = 0; i < RANDOM_RECORDINGS; i++) {
        struct expected expected;
        uint8_t *bytes;

        make_random();
        expected = one_by_one(rows);
        check_made(&expected);
        bytes = made_bytes(1);
        check_refused(bytes, recording_bytes() + 1, ROW * recording.count, PRUNEPOCKET_BAD_LAYOUT);
        check_refused(bytes, (next_random() >> 16) % recording_bytes(), ROW * recording.count,
                      PRUNEPOCKET_BAD_LAYOUT);
        free(bytes);
    }
}

static void test_met(void)
{
    static const uint8_t numbers[] = {0, 1, 2, 3, 4, 5, 6, 7, 13, 14, 15, 16, 17, 18, 19};

    CASE("what random recordings met");
    for (size_t i = 0; i < LENGTH(numbers); i++)
        check_true("each number in one of 200 entries or more",
                   met[numbers[i]] >= met_entries / 200);
    check_true("settings", met_settings >= met_entries / 10);
    check_true("accepted beside refused", met_mixed >= met_entries / 10);
    check_true("two refusals", met_two_refusals >= met_entries / 20);
    check_true("targets by presentation", met_presented >= RANDOM_RECORDINGS / 4);
    check_true("targets by arrival", met_by_arrival >= RANDOM_RECORDINGS / 20);
    check_true("no target", met_none >= RANDOM_RECORDINGS / 20);
    check_true("targets at a reading whose datagram is refused",
               met_unread_last >= RANDOM_RECORDINGS / 40);
}

int main(void)
{
    start_checks(__FILE__);
    test_example();
    test_ends();
    test_counts();
    test_lengths();
    test_moved_bodies();
    test_entry_limit();
    test_byte_limit();
    test_openings();
    test_order();
    test_rooms();
    test_no_entries();
    test_reader_refusals();
    test_settings();
    test_first_refusals();
    test_twins();
    test_farewells();
    test_full_table();
    test_own_readings();
    test_last_reading();
    test_targets();
    test_order_of_fields();
    test_random_recordings();
    test_met();
    return finish_checks();
}
