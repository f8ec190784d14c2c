/*
 * Calls every function of the member table in prunepocket.h but the burst, which test_burst.c does,
 * and the check of settings, which test_settings.c does. Holds each struct of C to the bytes that
 * the archive writes, answers to what documents 01 and 02 (E3, E4) say at the limits, and each table
 * after a refusal to the one before, but for the holder's tally after 14, field by field, padding
 * aside. The table's own fields are looked at here, in test_tallies.c, test_burst.c, test_order.c and
 * test_settings.c: a host does not. The papers' cases are in test_scenes.c.
 */
#include "datagrams.h"
#include "lateness.h"
#include "random_tables.h"

/* ---- One call -------------------------------------------------------------------------------- */

/*
 * What a new member's report got that meets none of 13 to 17: the lowest free place, with a tally of
 * 0 whatever stood there, or 18 where none is free. All else in the table is as before.
 */
static void check_new_member(const answered_t *answered, table_t table, record_t record)
{
    size_t place = lowest_free(table.held);
    uint64_t number = PRUNEPOCKET_NO_ROOM;

    if (place < PRUNEPOCKET_PLACES) {
        number = PRUNEPOCKET_ACCEPTED;
        table.held = with_place(table.held, place);
        table.members[place] = (member_t){record, 0};
    }
    check_equal("new member: number", answered->number, number);
    check_equal("new member: places held", answered->table.held, table.held);
    check_true("new member: the table", same_table(&answered->table, &table));
}

static void check_none_fresh(table_t table, reading_t reading)
{
    static const target_t zeros;
    followed_t followed = prunepocket_choose(table, reading);

    check_equal("choose: number", followed.number, PRUNEPOCKET_NONE_COUNTED);
    check_true("choose: target of zeros", same_target(&followed.target, &zeros));
    check_true("choose: the table as before", same_table(&followed.table, &table));
}

static void check_lateness(target_t target, uint32_t rate, reading_t reading, int64_t expected)
{
    check_equal("lateness", (uint64_t)lateness(target, rate, reading), (uint64_t)expected);
}

/* ---- Layout ---------------------------------------------------------------------------------- */

#define SIZE(type, size) check_equal("size of " #type, sizeof(type), size)

#define FIELD(type, field, offset, size) \
    (check_equal("offset of " #field, offsetof(type, field), offset), \
     check_equal("size of " #field, sizeof((type *)NULL)->field, size))

static void test_small_layouts(void)
{
    CASE("layout of an origin");
    SIZE(origin_t, 18);
    FIELD(origin_t, address, 0, 16);
    FIELD(origin_t, port, 16, 2);

    CASE("layout of the report fields");
    SIZE(struct prunepocket_report_fields, 32);
    FIELD(struct prunepocket_report_fields, received, 0, 8);
    FIELD(struct prunepocket_report_fields, group, 8, 4);
    FIELD(struct prunepocket_report_fields, media, 12, 4);
    FIELD(struct prunepocket_report_fields, rtp, 16, 4);
    FIELD(struct prunepocket_report_fields, presented, 20, 4);
    FIELD(struct prunepocket_report_fields, payload_type, 24, 1);
    FIELD(struct prunepocket_report_fields, p, 25, 1);

    CASE("layout of a record");
    SIZE(record_t, 56);
    FIELD(record_t, source, 0, 4);
    FIELD(record_t, origin, 4, 18);
    FIELD(record_t, report, 24, 32);

    CASE("layout of a member");
    SIZE(member_t, 64);
    FIELD(member_t, record, 0, 56);
    FIELD(member_t, tally, 56, 4);

    CASE("layout of a reading");
    SIZE(reading_t, 16);
    FIELD(reading_t, ntp, 0, 8);
    FIELD(reading_t, rtp, 8, 4);
}

static void test_large_layouts(void)
{
    CASE("layout of a target");
    SIZE(target_t, 48);
    FIELD(target_t, source, 0, 4);
    FIELD(target_t, group, 4, 4);
    FIELD(target_t, media, 8, 4);
    FIELD(target_t, received, 16, 8);
    FIELD(target_t, rtp, 24, 4);
    FIELD(target_t, presented, 32, 8);
    FIELD(target_t, counted, 40, 4);

    CASE("layout of a table");
    SIZE(table_t, 4120);
    FIELD(table_t, group, 0, 4);
    FIELD(table_t, media, 4, 4);
    FIELD(table_t, rate, 8, 4);
    FIELD(table_t, held, 16, 8);
    FIELD(table_t, members, 24, 64 * 64);
}

static void test_answer_layouts(void)
{
    CASE("layout of the answers");
    SIZE(answered_t, 4128);
    FIELD(answered_t, number, 0, 8);
    FIELD(answered_t, table, 8, 4120);
    SIZE(datagram_answered_t, 4144);
    FIELD(datagram_answered_t, number, 0, 8);
    FIELD(datagram_answered_t, place, 8, 8);
    FIELD(datagram_answered_t, count, 16, 8);
    FIELD(datagram_answered_t, table, 24, 4120);
    SIZE(place_t, 72);
    FIELD(place_t, held, 0, 4);
    FIELD(place_t, member, 8, 64);
    SIZE(followed_t, 4176);
    FIELD(followed_t, number, 0, 8);
    FIELD(followed_t, target, 8, 48);
    FIELD(followed_t, table, 56, 4120);
}

/* ---- The archive's bytes --------------------------------------------------------------------- */

/* A number of some bytes within a struct. */
struct part {
    size_t offset;
    size_t size;
    uint64_t value;
};

/* A struct within memory, from its start, has these parts. */
static void check_parts(const char *what, const void *memory, size_t start,
                        const struct part *parts, size_t count)
{
    char text[80];

    for (size_t i = 0; i < count; i++) {
        snprintf(text, sizeof text, "%s: byte %zu", what, start + parts[i].offset);
        check_equal(text, number_at(memory, start + parts[i].offset, parts[i].size),
                    parts[i].value);
    }
}

/* A record whose bytes nearly all differ, and where they are. */
static const record_t distinct = {
    0x01020304,
    {{16, 17, 18, 19, 20, 21, 22, 23, 24, 25, 26, 27, 28, 29, 30, 31}, 0x2021},
    {UINT64_C(0x3031323334353637), 0x40414243, 0x50515253, 0x60616263, 0x32343435, 0x71, 1},
};

static const struct part record_parts[] = {
    {0, 4, 0x01020304},
    {4, 8, UINT64_C(0x1716151413121110)},
    {12, 8, UINT64_C(0x1F1E1D1C1B1A1918)},
    {20, 2, 0x2021},
    {24, 8, UINT64_C(0x3031323334353637)},
    {32, 4, 0x40414243},
    {36, 4, 0x50515253},
    {40, 4, 0x60616263},
    {44, 4, 0x32343435},
    {48, 1, 0x71},
    {49, 1, 1},
};

/* Its table, as opened and with the record; and its target. */
static const struct part opened_parts[] = {
    {0, 4, 0x40414243}, {4, 4, 0x50515253}, {8, 4, 0x15F90}, {16, 8, 0},
};
static const struct part filed_parts[] = {
    {0, 4, 0x40414243}, {4, 4, 0x50515253}, {8, 4, 0x15F90}, {16, 8, 1},
};
static const struct part target_parts[] = {
    {0, 4, 0x01020304},
    {4, 4, 0x40414243},
    {8, 4, 0x50515253},
    {16, 8, UINT64_C(0x3031323334353637)},
    {24, 4, 0x60616263},
    {32, 8, UINT64_C(0x3031323434350000)},
    {40, 4, 1},
};

#define CHECK_PARTS(what, memory, start, parts) \
    check_parts(what, memory, start, parts, LENGTH(parts))

/* A second after the record was received, and a tick. */
static const reading_t distinct_reading = {UINT64_C(0x3031323434353637), 0x60616264};

/* Answers stand at their exact size on the heap: valgrind sees a byte that the archive left out. */
static void test_opened_bytes(void)
{
    answered_t *answered = allocate(sizeof *answered);

    CASE("bytes of a table just opened");
    *answered = prunepocket_open(0x40414243, 0x50515253, 0x15F90);
    check_equal("number", number_at(answered, 0, 8), 0);
    CHECK_PARTS("table", answered, 8, opened_parts);
    for (size_t i = 0; i < PRUNEPOCKET_PLACES; i++)
        check_vacant(answered->table, i);

    CASE("bytes of a refusal");
    *answered = prunepocket_report(answered->table, record_10(), now);
    check_equal("number", number_at(answered, 0, 8), 13);
    CHECK_PARTS("table", answered, 8, opened_parts);
    free(answered);
}

static void test_filed_bytes(void)
{
    answered_t *answered = allocate(sizeof *answered);
    place_t *place = allocate(sizeof *place);

    CASE("bytes of a table with a record");
    *answered = prunepocket_report(open_table(0x40414243, 0x50515253, 0x15F90), distinct,
                                   distinct_reading);
    check_equal("number", number_at(answered, 0, 8), 0);
    CHECK_PARTS("table", answered, 8, filed_parts);
    CHECK_PARTS("record in the table", answered, 8 + 24, record_parts);

    CASE("bytes of a place");
    *place = prunepocket_member_at(answered->table, 0);
    check_equal("held", number_at(place, 0, 4), 1);
    CHECK_PARTS("member", place, 8, record_parts);
    free(place);
    free(answered);
}

/* Behind the record of 56 bytes: the archive's own number, and one whose bytes differ. */
static void test_tally_bytes(void)
{
    record_t twin = distinct;
    answered_t *answered = allocate(sizeof *answered);
    place_t *place = allocate(sizeof *place);
    table_t table;

    CASE("bytes of a tally");
    table = open_table(0x40414243, 0x50515253, 0x15F90);
    table = report(table, distinct, distinct_reading, PRUNEPOCKET_ACCEPTED);
    check_equal("tally of a new member", number_at(&table, 24 + 56, 4), 0);
    twin.origin.port ^= 1;
    *answered = prunepocket_report(table, twin, distinct_reading);
    check_equal("number", number_at(answered, 0, 8), 14);
    CHECK_PARTS("record in the table", answered, 8 + 24, record_parts);
    check_equal("tally in the table", number_at(answered, 8 + 24 + 56, 4), 1);
    table.members[0].tally = 0x8182838F;
    *answered = prunepocket_report(table, twin, distinct_reading);
    check_equal("tally in the table", number_at(answered, 8 + 24 + 56, 4), 0x81828390);
    *place = prunepocket_member_at(answered->table, 0);
    CHECK_PARTS("member", place, 8, record_parts);
    check_equal("tally of the place", number_at(place, 8 + 56, 4), 0x81828390);
    free(place);
    free(answered);
}

static void test_followed_bytes(void)
{
    followed_t *followed = allocate(sizeof *followed);
    table_t table;

    CASE("bytes of a choice");
    table = open_table(0x40414243, 0x50515253, 0x15F90);
    table = report(table, distinct, distinct_reading, PRUNEPOCKET_ACCEPTED);
    *followed = prunepocket_choose(table, distinct_reading);
    check_equal("number", number_at(followed, 0, 8), 0);
    CHECK_PARTS("target", followed, 8, target_parts);
    CHECK_PARTS("table", followed, 56, filed_parts);
    CHECK_PARTS("record in the table", followed, 56 + 24, record_parts);
    free(followed);
}

/* ---- Twins ----------------------------------------------------------------------------------- */

/* The twin's report and farewell get 14, the target is unchanged, and the holder's tally is 2. */
static void check_twin(table_t table, origin_t origin)
{
    table_t after = report(table, twin_at(origin), now, PRUNEPOCKET_OTHER_ORIGIN);

    check_target(choose(after, now), target_20);
    check_tallied(after, 0, record_10(), 1);
    after = farewell(after, 10, origin, PRUNEPOCKET_OTHER_ORIGIN);
    check_target(choose(after, now), target_20);
    check_tallied(after, 0, record_10(), 2);
    check_member(after, 1, record_20());
    check_equal("members", prunepocket_count_members(after), 2);
    table.members[0].tally = 2;
    check_true("all else as before the twin", same_table(&after, &table));
}

/* Each of the 144 bits of an origin counts. */
static void test_near_twins(void)
{
    table_t table;

    CASE("origins that differ in one bit");
    table = with_two(record_10(), record_20());
    for (size_t bit = 0; bit < 144; bit++) {
        origin_t origin = unit(10);

        if (bit < 128)
            origin.address[bit / 8] ^= (uint8_t)(1u << bit % 8);
        else
            origin.port ^= (uint16_t)(1u << (bit - 128));
        check_twin(table, origin);
    }
}

static void test_two_numbers(void)
{
    table_t table;

    CASE("one origin holds two numbers");
    table = with_two(record_10(), record_20());
    table = report(table, arrival(20), now, PRUNEPOCKET_OTHER_ORIGIN);
    check_tallied(table, 1, record_20(), 1);
    table = report(table, arrival(30), now, PRUNEPOCKET_ACCEPTED);
    table = report(table, arrival(31), now, PRUNEPOCKET_ACCEPTED);
    check_equal("members", prunepocket_count_members(table), 4);
    table = farewell(table, 30, unit(30), PRUNEPOCKET_ACCEPTED);
    check_member(table, 3, arrival(31));
}

/* ---- Places ---------------------------------------------------------------------------------- */

static void test_full_table(void)
{
    table_t table;

    CASE("sixty-four members");
    table = full_table();
    for (uint32_t i = 0; i < PRUNEPOCKET_PLACES; i++) {
        check_member(table, i, arrival(100 + i));
        check_equal("source in the table", number_at(&table, 24 + 64 * i, 4), 100 + i);
        check_equal("tally in the table", number_at(&table, 24 + 64 * i + 56, 4), 0);
    }
    check_chosen(table, now, 100, 64);
    report(table, record_10(), now, PRUNEPOCKET_NO_ROOM);

    CASE("a member's next report, where all places are held");
    table = report(table, arrival(163), now, PRUNEPOCKET_ACCEPTED);
    check_equal("members", prunepocket_count_members(table), 64);

    CASE("no member stands behind the last place");
    check_vacant(table, 64);
    check_vacant(table, 127);
    check_vacant(table, 128);
    check_vacant(table, (size_t)1 << 32);
    check_vacant(table, SIZE_MAX);
}

static void test_freed_places(void)
{
    table_t table;

    CASE("the 65th after a farewell");
    table = full_table();
    table = farewell(table, 117, unit(30), PRUNEPOCKET_ACCEPTED);
    check_vacant(table, 17);
    table = report(table, record_10(), now, PRUNEPOCKET_ACCEPTED);
    check_member(table, 17, record_10());
    report(table, record_20(), now, PRUNEPOCKET_NO_ROOM);

    CASE("the lowest of two free places is taken first");
    table = farewell(table, 105, unit(30), PRUNEPOCKET_ACCEPTED);
    table = farewell(table, 163, unit(30), PRUNEPOCKET_ACCEPTED);
    table = report(table, record_20(), now, PRUNEPOCKET_ACCEPTED);
    check_member(table, 5, record_20());
    check_vacant(table, 63);
    table = report(table, arrival(200), now, PRUNEPOCKET_ACCEPTED);
    check_member(table, 63, arrival(200));
    check_equal("members", prunepocket_count_members(table), 64);
}

static void test_farewells(void)
{
    table_t table;

    CASE("a farewell from a number that is not held");
    table = with_two(record_10(), record_20());
    farewell(opened(), 10, unit(10), PRUNEPOCKET_NO_MEMBER);
    farewell(opened(), 0, (origin_t){{0}, 0}, PRUNEPOCKET_NO_MEMBER);
    farewell(table, 11, unit(10), PRUNEPOCKET_NO_MEMBER);
    farewell(table, 0, unit(10), PRUNEPOCKET_NO_MEMBER);
}

/* ---- Reports --------------------------------------------------------------------------------- */

/* Every check of a new member applies; they are lifted one by one. */
static void test_order_of_a_new_member(void)
{
    table_t table;
    record_t faulty = {10, unit(10), {SECONDS(1001), GROUP, 8, 9000001, 0x04050001, 33, 1}};

    CASE("the order of 13 to 18, where all places are held");
    table = full_table();
    report(table, faulty, now, PRUNEPOCKET_OTHER_STREAM);
    faulty.report.media = MEDIA;
    report(table, faulty, now, PRUNEPOCKET_RECEIVED_FAR);
    faulty.report.received = SECONDS(999);
    report(table, faulty, now, PRUNEPOCKET_RTP_AGED);
    faulty.report.rtp = 8910000;
    report(table, faulty, now, PRUNEPOCKET_BADLY_PRESENTED);
    faulty.report.presented = 0x03E78000;
    report(table, faulty, now, PRUNEPOCKET_NO_ROOM);
}

static void test_standing_report(void)
{
    record_t earlier = record_10();
    record_t refused = record_10();
    table_t table;

    CASE("the last accepted report stands");
    table = with_two(record_10(), record_20());
    earlier.report.received = SECONDS(998);
    earlier.report.payload_type = 255;
    table = report(table, earlier, now, PRUNEPOCKET_ACCEPTED);
    check_equal("members", prunepocket_count_members(table), 2);
    check_member(table, 0, earlier);
    check_member(table, 1, record_20());

    CASE("a refused report does not stand");
    refused.report.received = SECONDS(969);
    table = report(table, refused, now, PRUNEPOCKET_RECEIVED_FAR);
    check_member(table, 0, earlier);
}

/* P is a byte: any value but 0 counts as 1. */
static void test_p(void)
{
    static const uint8_t values[] = {1, 2, 128, 255};
    record_t record = record_10();

    CASE("P other than 0");
    for (size_t i = 0; i < sizeof values; i++) {
        record.report.p = values[i];
        record.report.presented = 0x04050001;
        report(opened(), record, now, PRUNEPOCKET_BADLY_PRESENTED);
        record.report.presented = 0x03E78000;
        check_member(with_one(record), 0, record);
        check_equal("presented", choose(with_one(record), now).presented, UINT64_C(0x3E780000000));
        check_chosen(with_two(record, arrival(5)), now, 10, 1);
    }

    CASE("P 0 with a presented time that would get 17");
    record.report.p = 0;
    record.report.presented = 0x04050001;
    check_member(with_one(record), 0, record);
    check_equal("presented", choose(with_one(record), now).presented, 0);
}

/* ---- Sweeps and choosing --------------------------------------------------------------------- */

static void test_sweeps(void)
{
    table_t table;
    table_t swept;

    CASE("a sweep of fresh members");
    table = with_two(record_10(), record_20());
    swept = sweep(table, now, 2);
    check_true("the table as before", same_table(&swept, &table));
    swept = sweep(table, (reading_t){SECONDS(1028), 9000000}, 2);
    check_true("the table as before", same_table(&swept, &table));

    CASE("a sweep a unit after source 20 was fresh");
    swept = sweep(table, (reading_t){SECONDS(1028) + 1, 9000000}, 1);
    check_member(swept, 0, record_10());
    check_vacant(swept, 1);
    farewell(swept, 20, unit(20), PRUNEPOCKET_NO_MEMBER);
    sweep(swept, (reading_t){SECONDS(1029), 9000000}, 1);
    sweep(swept, (reading_t){SECONDS(1029) + 1, 9000000}, 0);

    CASE("a sweep before the report of 10 was received");
    swept = sweep(table, (reading_t){SECONDS(999) - 1, 9000000}, 1);
    check_vacant(swept, 0);
    check_member(swept, 1, record_20());

    CASE("a sweep of an empty table");
    sweep(opened(), now, 0);
}

static void test_sweeps_by_rtp(void)
{
    table_t table;

    CASE("a sweep by the RTP age");
    table = with_two(record_10(), record_20());
    sweep(table, (reading_t){SECONDS(1000), 8820000 + 60 * RATE}, 2);
    check_member(sweep(table, (reading_t){SECONDS(1000), 8820001 + 60 * RATE}, 1), 0, record_10());
    sweep(table, (reading_t){SECONDS(1000), 8910001 + 60 * RATE}, 0);
    check_member(sweep(table, (reading_t){SECONDS(1000), 8909999}, 1), 1, record_20());

    CASE("a twin takes the number after a sweep");
    table = sweep(table, (reading_t){SECONDS(1000), 8819999}, 0);
    check_member(report(table, twin_at(unit(11)), now, PRUNEPOCKET_ACCEPTED), 0,
                 twin_at(unit(11)));
}

static void test_arrival_mode(void)
{
    record_t first = record_10();
    record_t second = record_20();

    CASE("no member reports presentation");
    first.report.p = 0;
    second.report.p = 0;
    check_target(choose(with_two(first, second), now),
                 (target_t){10, GROUP, MEDIA, SECONDS(999), 8910000, 0, 2});
    check_lateness(choose(with_two(first, second), now), RATE, now, 0);
    second.report.rtp -= 1;
    check_target(choose(with_two(first, second), now),
                 (target_t){20, GROUP, MEDIA, SECONDS(998), 8819999, 0, 2});

    CASE("a member that reports presentation is counted alone");
    second.report.rtp = 3600000;
    check_target(choose(with_two(record_10(), second), now),
                 (target_t){10, GROUP, MEDIA, SECONDS(999), 8910000, UINT64_C(0x3E780000000), 1});

    CASE("the member that reports presentation is not fresh");
    check_target(choose(with_two(first, record_20()), (reading_t){SECONDS(1029), 9000000}),
                 (target_t){10, GROUP, MEDIA, SECONDS(999), 8910000, 0, 1});
}

static void test_none_fresh(void)
{
    table_t table;

    CASE("no fresh member to follow");
    table = with_two(record_10(), record_20());
    check_none_fresh(opened(), now);
    check_none_fresh(table, (reading_t){SECONDS(1029) + 1, 9000000});
    check_none_fresh(table, (reading_t){SECONDS(998) - 1, 9000000});
    check_none_fresh(table, (reading_t){SECONDS(1000), 8910001 + 60 * RATE});
    check_none_fresh(table, (reading_t){SECONDS(1000), 8819999});
    check_none_fresh(table, (reading_t){0, 0});
    check_none_fresh(table, (reading_t){UINT64_MAX, UINT32_MAX});

    CASE("one is left to follow");
    check_chosen(table, (reading_t){SECONDS(1029), 9000000}, 10, 1);
    check_chosen(table, (reading_t){SECONDS(998), 9000000}, 20, 1);
    check_equal("members, fresh or not", prunepocket_count_members(table), 2);
}

/* ---- Whole datagrams ------------------------------------------------------------------------- */

/* The RR, the report of 10, the settings, the report of 20, and a BYE of 20 and 30. */
#define SETTINGS_PLACE (RR_BYTES + PRUNEPOCKET_REPORT_BYTES)
#define BYE_PLACE (SETTINGS_PLACE + PRUNEPOCKET_SETTINGS_BYTES + PRUNEPOCKET_REPORT_BYTES)
#define DATAGRAM_BYTES (BYE_PLACE + 12)
#define DATAGRAM_CALLS 4

/* The first says that reduced size was not agreed, all others say that it was. */
static const uint32_t flags[] = {0, 1, 2, 255, 256, 65536, 0x80000000, UINT32_MAX};

#define NOT_AGREED 0

static uint8_t *lend_datagram(void)
{
    static const uint8_t bye[] = {0x82, 203, 0, 2, 0, 0, 0, 20, 0, 0, 0, 30};
    uint8_t *datagram = allocate(DATAGRAM_BYTES);
    uint64_t written = 0;

    memcpy(datagram, rr, sizeof rr);
    put_report(datagram + sizeof rr, record_10());
    check_answer("settings: written",
                 prunepocket_write_settings(1, target_20.group, target_20.media,
                                            target_20.received, target_20.rtp,
                                            target_20.presented, datagram + SETTINGS_PLACE,
                                            PRUNEPOCKET_SETTINGS_BYTES, &written),
                 0, 0);
    put_report(datagram + SETTINGS_PLACE + PRUNEPOCKET_SETTINGS_BYTES, record_20());
    memcpy(datagram + BYE_PLACE, bye, sizeof bye);
    return datagram;
}

/* The datagram is accepted into several tables, whatever room the list has for more numbers. */
static void check_taken(const uint8_t *datagram, size_t length, uint32_t reduced_size)
{
    static const struct prunepocket_answer none;
    static const uint64_t numbers[] = {PRUNEPOCKET_ACCEPTED, PRUNEPOCKET_ACCEPTED,
                                       PRUNEPOCKET_ACCEPTED, PRUNEPOCKET_NO_MEMBER};
    static const uint64_t again[] = {PRUNEPOCKET_OTHER_ORIGIN, PRUNEPOCKET_ACCEPTED,
                                     PRUNEPOCKET_ACCEPTED, PRUNEPOCKET_OTHER_ORIGIN};
    record_t second = record_20();
    table_t one_by_one;
    table_t table;

    CASE("two reports, the settings and two farewells");
    table = take(opened(), datagram, length, reduced_size, DATAGRAM_CALLS, none, numbers, 4);
    second.origin = unit(10);
    one_by_one = farewell(with_two(record_10(), second), 20, unit(10), PRUNEPOCKET_ACCEPTED);
    check_true("as the calls one by one", same_table(&table, &one_by_one));
    check_member(table, 0, record_10());
    check_equal("members", prunepocket_count_members(table), 1);

    CASE("a list that is longer than the calls");
    take(opened(), datagram, length, reduced_size, DATAGRAM_CALLS + 3, none, numbers, 4);

    CASE("numbers that another origin holds");
    table = with_two(twin_at(unit(11)), arrival(30));
    table = take(table, datagram, length, reduced_size, DATAGRAM_CALLS, none, again, 4);
    check_tallied(table, 0, twin_at(unit(11)), 1);
    check_tallied(table, 1, arrival(30), 1);
    check_equal("members", prunepocket_count_members(table), 2);
}

/* Without the RR in front, the datagram is accepted where reduced size was agreed. */
static void test_whole_datagrams(void)
{
    static const struct prunepocket_answer none;
    uint8_t *datagram = lend_datagram();
    table_t table;

    for (size_t i = 0; i < LENGTH(flags); i++) {
        check_taken(datagram, DATAGRAM_BYTES, flags[i]);
        if (i != NOT_AGREED)
            check_taken(datagram + RR_BYTES, DATAGRAM_BYTES - RR_BYTES, flags[i]);

        CASE("datagrams without calls");
        table = take(with_one(record_10()), datagram, RR_BYTES, flags[i], 0, none, NULL, 0);
        check_member(table, 0, record_10());
    }

    CASE("settings alone at reduced size");
    table = take(with_one(record_10()), datagram + SETTINGS_PLACE, PRUNEPOCKET_SETTINGS_BYTES, 1, 0,
                 none, NULL, 0);
    check_member(table, 0, record_10());
    free(datagram);
}

/* Refusals of a datagram that starts with the RR, or with the report behind it. */
static void check_refused_datagrams(const uint8_t *datagram, size_t front, uint32_t reduced_size)
{
    size_t length = DATAGRAM_BYTES - front;
    table_t table = with_two(record_10(), record_20());

    CASE("lists that are shorter than the calls");
    for (size_t room = 0; room < DATAGRAM_CALLS; room++)
        take_refused(table, datagram + front, length, reduced_size, room,
                     PRUNEPOCKET_SHORT_BUFFER, 0);

    CASE("datagrams that are refused, whatever the list");
    for (size_t room = 0; room <= DATAGRAM_CALLS; room++) {
        take_refused(table, datagram + front, 0, reduced_size, room, PRUNEPOCKET_BAD_LENGTH, 0);
        take_refused(table, datagram + front, length - 4, reduced_size, room,
                     PRUNEPOCKET_BAD_PACKET, BYE_PLACE - front);
    }
}

static void test_refused_datagrams(void)
{
    uint8_t *datagram = lend_datagram();
    table_t table = with_two(record_10(), record_20());

    for (size_t i = 0; i < LENGTH(flags); i++) {
        check_refused_datagrams(datagram, 0, flags[i]);
        if (i != NOT_AGREED)
            check_refused_datagrams(datagram, RR_BYTES, flags[i]);
    }

    CASE("no RR in front, and reduced size not agreed, whatever the list");
    for (size_t room = 0; room <= DATAGRAM_CALLS; room++)
        take_refused(table, datagram + RR_BYTES, DATAGRAM_BYTES - RR_BYTES, flags[NOT_AGREED],
                     room, PRUNEPOCKET_BAD_FIRST, 0);
    take_refused(table, datagram + BYE_PLACE, DATAGRAM_BYTES - BYE_PLACE, flags[NOT_AGREED], 2,
                 PRUNEPOCKET_BAD_FIRST, 0);

    CASE("settings that are too short behind the RR, and first");
    datagram[SETTINGS_PLACE + 3] = 7;
    for (size_t i = 0; i < LENGTH(flags); i++) {
        take_refused(table, datagram, DATAGRAM_BYTES, flags[i], DATAGRAM_CALLS,
                     PRUNEPOCKET_SHORT_CONTENT, SETTINGS_PLACE);
        take_refused(table, datagram + SETTINGS_PLACE, DATAGRAM_BYTES - SETTINGS_PLACE, flags[i],
                     DATAGRAM_CALLS,
                     i == NOT_AGREED ? PRUNEPOCKET_BAD_FIRST : PRUNEPOCKET_SHORT_CONTENT, 0);
    }

    CASE("a padded first packet, whose block is all padding");
    datagram[RR_BYTES] |= 0x20;
    datagram[SETTINGS_PLACE - 1] = PRUNEPOCKET_REPORT_BYTES - 8;
    for (size_t i = 0; i < LENGTH(flags); i++)
        take_refused(table, datagram + RR_BYTES, PRUNEPOCKET_REPORT_BYTES, flags[i],
                     DATAGRAM_CALLS, PRUNEPOCKET_BAD_PADDING, 0);
    free(datagram);
}

/* ---- Limits ---------------------------------------------------------------------------------- */

/* 12, with nothing in the table that is handed back. */
static void opening_refused(uint32_t group, uint32_t media, uint32_t rate)
{
    static const table_t zeros;
    answered_t answered = prunepocket_open(group, media, rate);

    check_equal("open: number", answered.number, PRUNEPOCKET_BAD_OPENING);
    check_true("open: no table", same_table(&answered.table, &zeros));
    check_equal("open: members", prunepocket_count_members(answered.table), 0);
}

static void test_openings(void)
{
    CASE("openings that are refused");
    opening_refused(0, MEDIA, RATE);
    opening_refused(UINT32_MAX, MEDIA, RATE);
    opening_refused(GROUP, MEDIA, 0);
    opening_refused(GROUP, MEDIA, 192001);
    opening_refused(GROUP, MEDIA, UINT32_MAX);
    opening_refused(0, 0, 0);
    opening_refused(UINT32_MAX, UINT32_MAX, UINT32_MAX);

    CASE("openings that are taken");
    open_table(1, MEDIA, RATE);
    open_table(UINT32_MAX - 1, MEDIA, RATE);
    open_table(GROUP, 0, RATE);
    open_table(GROUP, UINT32_MAX, RATE);
    open_table(GROUP, MEDIA, 1);
    open_table(GROUP, MEDIA, 192000);
}

/* 15 gets a report without presentation unless it was received within 30 s at or before ntp. */
static void check_ntp_limits(uint64_t ntp)
{
    reading_t reading = {ntp, 9000000};
    record_t record = arrival(10);

    record.report.received = ntp - SECONDS(30);
    check_chosen(report(opened(), record, reading, PRUNEPOCKET_ACCEPTED), reading, 10, 1);
    record.report.received = ntp - SECONDS(30) - 1;
    report(opened(), record, reading, PRUNEPOCKET_RECEIVED_FAR);
    record.report.received = ntp;
    check_chosen(report(opened(), record, reading, PRUNEPOCKET_ACCEPTED), reading, 10, 1);
    record.report.received = ntp + 1;
    report(opened(), record, reading, PRUNEPOCKET_RECEIVED_FAR);
    record.report.received = ntp + (UINT64_C(1) << 63);
    report(opened(), record, reading, PRUNEPOCKET_RECEIVED_FAR);
}

/* 16 gets a report unless its RTP time lies within 60 seconds at or before rtp. */
static void check_rtp_limits(uint32_t rate, uint32_t rtp)
{
    table_t table = open_table(GROUP, MEDIA, rate);
    reading_t reading = {SECONDS(1000), rtp};
    record_t record = arrival(10);

    record.report.rtp = rtp - 60 * rate;
    check_chosen(report(table, record, reading, PRUNEPOCKET_ACCEPTED), reading, 10, 1);
    record.report.rtp = rtp - 60 * rate - 1;
    report(table, record, reading, PRUNEPOCKET_RTP_AGED);
    record.report.rtp = rtp;
    check_chosen(report(table, record, reading, PRUNEPOCKET_ACCEPTED), reading, 10, 1);
    record.report.rtp = rtp + 1;
    report(table, record, reading, PRUNEPOCKET_RTP_AGED);
}

static void test_reading_limits(void)
{
    static const uint64_t ntps[] = {
        0,
        1,
        SECONDS(30) - 1,
        SECONDS(30),
        SECONDS(1000),
        UINT64_C(1) << 63,
        UINT64_MAX - SECONDS(30),
        UINT64_MAX,
    };
    static const uint32_t rates[] = {1, 8000, RATE, 191999, 192000};
    static const uint32_t rtps[] = {0, 59, 60, 11520000, UINT32_C(1) << 31, UINT32_MAX};

    CASE("received times at the limits");
    for (size_t i = 0; i < LENGTH(ntps); i++)
        check_ntp_limits(ntps[i]);

    CASE("rates and RTP times at the limits");
    for (size_t i = 0; i < LENGTH(rates); i++) {
        for (size_t j = 0; j < LENGTH(rtps); j++)
            check_rtp_limits(rates[i], rtps[j]);
    }
}

/* The full time that a step stands for: 0 is one unit after received, others start a slot. */
static uint64_t full_time(uint64_t received, uint32_t step)
{
    return step == 0 ? received + 1 : (received >> 16 << 16) + ((uint64_t)step << 16);
}

/* A report of source 10, received at some time and presented some 2^-16 s after its M. */
static void step_gets(uint64_t received, uint32_t step, uint64_t number)
{
    record_t record = record_10();
    reading_t reading = {received, 8910000};
    table_t table;

    record.report.received = received;
    record.report.presented = (uint32_t)(received >> 16) + step;
    table = report(opened(), record, reading, number);
    if (number == PRUNEPOCKET_ACCEPTED)
        check_equal("presented", choose(table, reading).presented, full_time(received, step));
}

static void test_presented_limits(void)
{
    static const uint64_t times[] = {
        0, 1, 0xFFFF, 0x10000, SECONDS(999), SECONDS(999) + 1, SECONDS(999) + 0xFFFF,
        (UINT64_C(1) << 48) - 1, UINT64_C(1) << 48, UINT64_C(1) << 63, UINT64_MAX - SECONDS(40),
        UINT64_MAX - 0xFFFF, UINT64_MAX - 1, UINT64_MAX,
    };

    CASE("presented times at the limits");
    for (size_t i = 0; i < LENGTH(times); i++) {
        step_gets(times[i], 0,
                  times[i] == UINT64_MAX ? PRUNEPOCKET_BADLY_PRESENTED : PRUNEPOCKET_ACCEPTED);
        step_gets(times[i], 2, PRUNEPOCKET_ACCEPTED);
        step_gets(times[i], SHORT_SECONDS(30), PRUNEPOCKET_ACCEPTED);
        step_gets(times[i], SHORT_SECONDS(30) + 1, PRUNEPOCKET_BADLY_PRESENTED);
        step_gets(times[i], UINT32_MAX, PRUNEPOCKET_BADLY_PRESENTED);
    }

    CASE("presented at the full time 0");
    step_gets(UINT64_MAX, 1, PRUNEPOCKET_BADLY_PRESENTED);
    step_gets(UINT64_MAX - 0x10000, 0, PRUNEPOCKET_ACCEPTED);
    step_gets(UINT64_MAX - 0x10000, 2, PRUNEPOCKET_BADLY_PRESENTED);
    step_gets(-SECONDS(30), SHORT_SECONDS(30), PRUNEPOCKET_BADLY_PRESENTED);
    step_gets(-SECONDS(30), SHORT_SECONDS(30) - 1, PRUNEPOCKET_ACCEPTED);
    step_gets(-SECONDS(29), SHORT_SECONDS(29) + 1, PRUNEPOCKET_ACCEPTED);
}

/* ---- Wired units: presented in the slot of 2^-16 s in which it was received ------------------ */

/* The target where a wired unit is followed. */
static target_t wired_target(uint8_t source, uint64_t received, uint32_t counted)
{
    return (target_t){source, GROUP, MEDIA, received, 8910000, received + 1, counted};
}

static void test_wired_unit(void)
{
    static const struct prunepocket_answer none;
    static const uint64_t accepted[] = {PRUNEPOCKET_ACCEPTED};
    uint8_t *packet = allocate(PRUNEPOCKET_REPORT_BYTES);
    table_t table;
    table_t taken;

    CASE("received 999 s, presented 03E70000");
    check_equal("the report's presented", wired(10).report.presented, 0x03E70000);
    table = with_one(wired(10));
    check_member(table, 0, wired(10));
    check_target(choose(table, now), wired_target(10, SECONDS(999), 1));
    check_true("presented is not empty", choose(table, now).presented != 0);
    check_lateness(choose(table, now), RATE, now, RATE);

    CASE("the same out of a datagram");
    put_report(packet, wired(10));
    taken = take(opened(), packet, PRUNEPOCKET_REPORT_BYTES, 1, 1, none, accepted, 1);
    check_true("as the call", same_table(&taken, &table));
    check_target(choose(taken, now), wired_target(10, SECONDS(999), 1));
    free(packet);

    CASE("a wired unit passes 17, where all places are held");
    report(full_table(), wired(10), now, PRUNEPOCKET_NO_ROOM);

    CASE("a wired unit that arrived at the reading, and a unit of 2^-32 s after it");
    report(opened(), wired_at(10, now.ntp), now, PRUNEPOCKET_ACCEPTED);
    report(opened(), wired_at(10, now.ntp + 1), now, PRUNEPOCKET_RECEIVED_FAR);
}

/* One unit after all ones is the full time 0. */
static void test_wired_at_all_ones(void)
{
    static const reading_t behind_wrap = {SECONDS(1), 9000000};
    record_t all_ones = wired_at(10, UINT64_MAX);
    record_t next_slot = all_ones;
    table_t table;

    CASE("received FFFFFFFF FFFFFFFF, presented FFFFFFFF");
    check_equal("the report's presented", all_ones.report.presented, UINT32_MAX);
    report(opened(), all_ones, behind_wrap, PRUNEPOCKET_BADLY_PRESENTED);
    table = report(with_two(record_10(), record_20()), all_ones, behind_wrap,
                   PRUNEPOCKET_BADLY_PRESENTED);
    check_member(table, 0, record_10());
    check_target(choose(table, now), target_20);
    report(full_table(), all_ones, behind_wrap, PRUNEPOCKET_BADLY_PRESENTED);

    CASE("received a unit earlier");
    table = report(opened(), wired_at(10, UINT64_MAX - 1), behind_wrap, PRUNEPOCKET_ACCEPTED);
    check_target(choose(table, behind_wrap), wired_target(10, UINT64_MAX - 1, 1));

    CASE("received FFFFFFFF FFFFFFFF, presented one slot and two slots later");
    next_slot.report.presented = 0;
    report(opened(), next_slot, behind_wrap, PRUNEPOCKET_BADLY_PRESENTED);
    next_slot.report.presented = 1;
    table = report(opened(), next_slot, behind_wrap, PRUNEPOCKET_ACCEPTED);
    check_equal("presented", choose(table, behind_wrap).presented, 0x10000);

    CASE("received FFFFFFFF FFFFFFFF, presented FFFFFFFF, where P is 0");
    all_ones.report.p = 0;
    table = report(opened(), all_ones, behind_wrap, PRUNEPOCKET_ACCEPTED);
    check_equal("presented", choose(table, behind_wrap).presented, 0);
}

static void test_wired_beside_others(void)
{
    record_t next_slot = wired(20);
    table_t table;

    CASE("a wired unit beside a slower one");
    table = with_two(wired(10), record_20());
    check_target(choose(table, now), target_20);
    check_target(choose(with_two(record_20(), wired(10)), now), target_20);
    table = farewell(table, 20, unit(20), PRUNEPOCKET_ACCEPTED);
    check_target(choose(table, now), wired_target(10, SECONDS(999), 1));

    CASE("a wired unit beside one that presents in the next slot");
    next_slot.report.presented += 1;
    table = with_two(wired(10), next_slot);
    check_chosen(table, now, 20, 2);
    check_equal("presented", choose(table, now).presented, SECONDS(999) + 0x10000);

    CASE("a wired unit beside one that does not report presentation");
    check_target(choose(with_two(arrival(5), wired(10)), now), wired_target(10, SECONDS(999), 1));

    CASE("two wired units, received at the same time: the lowest number");
    check_target(choose(with_two(wired(10), wired(20)), now), wired_target(10, SECONDS(999), 2));
    check_target(choose(with_two(wired(20), wired(10)), now), wired_target(10, SECONDS(999), 2));

    CASE("two wired units, one received a unit of 2^-32 s later");
    table = with_two(wired(10), wired_at(20, SECONDS(999) + 1));
    check_target(choose(table, now), wired_target(20, SECONDS(999) + 1, 2));
    table = with_two(wired_at(10, SECONDS(999) + 0xFFFF), wired_at(20, SECONDS(999) + 0xFFFE));
    check_target(choose(table, now), wired_target(10, SECONDS(999) + 0xFFFF, 2));
}

/*
 * The next slot starts one unit after 999 s and 65535 units, where a step of 1 leads as well. Were the
 * delay of the wired unit not 1, there would be no tie, and one of the two choices would differ.
 */
static void test_wired_tie(void)
{
    static const uint64_t received = SECONDS(999) + 0xFFFF;
    record_t next_slot[] = {wired_at(10, received), wired_at(20, received)};

    for (size_t i = 0; i < LENGTH(next_slot); i++)
        next_slot[i].report.presented += 1;

    CASE("a wired unit and one in the next slot present at one full time");
    check_target(choose(with_one(wired_at(10, received)), now), wired_target(10, received, 1));
    check_target(choose(with_one(next_slot[0]), now), wired_target(10, received, 1));
    check_equal("presented", choose(with_one(next_slot[0]), now).presented,
                SECONDS(999) + 0x10000);

    CASE("a tie with a wired unit: the lowest number");
    check_target(choose(with_two(wired_at(10, received), next_slot[1]), now),
                 wired_target(10, received, 2));
    check_target(choose(with_two(next_slot[0], wired_at(20, received)), now),
                 wired_target(10, received, 2));
}

static void test_wired_settings(void)
{
    static const uint8_t expected[PRUNEPOCKET_SETTINGS_BYTES] = {
        0x80, 0xD3, 0x00, 0x08, 0x00, 0x00, 0x00, 0x01, 0x00, 0x00, 0x00, 0x07,
        0x00, 0x00, 0x00, 0x2A, 0x00, 0x00, 0x03, 0xE7, 0x00, 0x00, 0x00, 0x00,
        0x00, 0x87, 0xF4, 0xB0, 0x00, 0x00, 0x03, 0xE7, 0x00, 0x00, 0x00, 0x01,
    };
    uint8_t *packet = allocate(sizeof expected);
    uint64_t written = 0;
    uint64_t presented = 0;
    target_t target;

    CASE("the settings from a wired unit");
    target = choose(with_one(wired(10)), now);
    check_answer("write_settings",
                 prunepocket_write_settings(1, target.group, target.media, target.received,
                                            target.rtp, target.presented, packet, sizeof expected,
                                            &written),
                 0, 0);
    check_equal("written", written, sizeof expected);
    for (size_t i = 0; i < sizeof expected; i++)
        check_equal("byte of the settings", packet[i], expected[i]);
    check_answer("item_field",
                 prunepocket_item_field(packet, sizeof expected, 1, 0,
                                        PRUNEPOCKET_FIELD_PRESENTED, &presented),
                 0, 0);
    check_equal("presented", presented, SECONDS(999) + 1);
    free(packet);
}

/* ---- Lateness -------------------------------------------------------------------------------- */

/* The greatest and the least lateness that a counted member can have, at the greatest rate. */
static void test_lateness_limits(void)
{
    table_t table;
    record_t least = {5, unit(30), {SECONDS(970), GROUP, MEDIA, 9000000, 0x03CA0000, 33, 1}};
    record_t greatest = {9, unit(30), {SECONDS(1000), GROUP, MEDIA, 0, 0x04060000, 33, 1}};
    reading_t late = {SECONDS(1000), 11520000};
    target_t target;

    CASE("the least lateness");
    table = open_table(GROUP, MEDIA, 192000);
    target = choose(report(table, least, now, PRUNEPOCKET_ACCEPTED), now);
    check_lateness(target, 192000, now, INT64_C(192000) * (1 - (int64_t)SECONDS(30)));

    CASE("the greatest lateness");
    target = choose(report(table, greatest, late, PRUNEPOCKET_ACCEPTED), late);
    check_lateness(target, 192000, late, INT64_C(192000) * (int64_t)SECONDS(90));

    CASE("the greatest lateness is chosen before the least");
    table = report(table, least, late, PRUNEPOCKET_ACCEPTED);
    check_chosen(report(table, greatest, late, PRUNEPOCKET_ACCEPTED), late, 9, 2);
}

/* Of two reports at a rate, the second is from the higher number and is chosen, or tied with. */
static void check_second(uint32_t rate, record_t first, record_t second, uint32_t source)
{
    table_t table = open_table(GROUP, MEDIA, rate);

    table = report(table, first, now, PRUNEPOCKET_ACCEPTED);
    table = report(table, second, now, PRUNEPOCKET_ACCEPTED);
    check_chosen(table, now, source, 2);
}

/* Nothing is rounded: one unit decides. */
static void test_small_differences(void)
{
    static const uint32_t rates[] = {1, 8000, RATE, 192000};
    record_t first = arrival(30);
    record_t second = arrival(31);

    for (size_t i = 0; i < LENGTH(rates); i++) {
        CASE("received a unit later, in arrival mode");
        first.report = arrival(30).report;
        first.report.received = SECONDS(1000) - 1;
        second.report = arrival(31).report;
        check_second(rates[i], first, second, 31);

        CASE("an RTP time a tick earlier");
        first.report.received = SECONDS(1000);
        second.report.rtp = 8999999;
        check_second(rates[i], first, second, 31);

        CASE("a second older by both clocks: a tie");
        second.report.rtp = 9000000 - rates[i];
        second.report.received = SECONDS(999);
        check_second(rates[i], first, second, 30);

        CASE("presented a unit later");
        first.report = record_10().report;
        second.report = record_10().report;
        check_second(RATE, first, second, 30);
        second.report.presented += 1;
        check_second(RATE, first, second, 31);
    }
}

/* ---- As a host does it ----------------------------------------------------------------------- */

/* A report item's row under the origin of its datagram. */
static record_t record_of(const uint64_t *row, origin_t origin)
{
    return (record_t){
        (uint32_t)row[PRUNEPOCKET_FIELD_SOURCE],
        origin,
        {
            .received = row[PRUNEPOCKET_FIELD_RECEIVED],
            .group = (uint32_t)row[PRUNEPOCKET_FIELD_GROUP],
            .media = (uint32_t)row[PRUNEPOCKET_FIELD_MEDIA],
            .rtp = (uint32_t)row[PRUNEPOCKET_FIELD_RTP],
            .presented = (uint32_t)row[PRUNEPOCKET_FIELD_PRESENTED],
            .payload_type = (uint8_t)row[PRUNEPOCKET_FIELD_PAYLOAD_TYPE],
            .p = (uint8_t)row[PRUNEPOCKET_FIELD_P],
        },
    };
}

/* The table after each report and farewell of a datagram. */
static table_t take_datagram(table_t table, const uint8_t *datagram, size_t length,
                             uint32_t reduced_size, origin_t origin)
{
    uint64_t rows[4 * PRUNEPOCKET_ROW];
    uint64_t count = 0;

    check_answer("read_items",
                 prunepocket_read_items(datagram, length, reduced_size, rows, LENGTH(rows),
                                        &count),
                 0, 0);
    for (size_t i = 0; i < count; i++) {
        const uint64_t *row = rows + i * PRUNEPOCKET_ROW;

        if (row[PRUNEPOCKET_FIELD_KIND] == PRUNEPOCKET_REPORT)
            table = prunepocket_report(table, record_of(row, origin), now).table;
        if (row[PRUNEPOCKET_FIELD_KIND] == PRUNEPOCKET_FAREWELL)
            table = prunepocket_farewell(table, (uint32_t)row[PRUNEPOCKET_FIELD_SOURCE], origin)
                        .table;
    }
    return table;
}

/* The datagrams of two units, each of which starts with an RR or with the message behind it. */
static void check_host(size_t front, uint32_t reduced_size)
{
    static const uint8_t bye[] = {0x80, 201, 0, 1, 0, 0, 0, 99, 0x82, 203, 0, 2,
                                  0,    0,   0, 10, 0, 0, 0, 20};
    uint8_t datagram[RR_BYTES + PRUNEPOCKET_REPORT_BYTES] = {0x80, 201, 0, 1, 0, 0, 0, 99};
    uint64_t written = 0;
    table_t table;

    CASE("a report out of a datagram");
    table = with_one(record_10());
    check_answer("write_report",
                 prunepocket_write_report(20, 33, 1, GROUP, MEDIA, SECONDS(998), 8820000,
                                          0x03E6C000, datagram + RR_BYTES,
                                          sizeof datagram - RR_BYTES, &written),
                 0, 0);
    table = take_datagram(table, datagram + front, sizeof datagram - front, reduced_size, unit(20));
    check_member(table, 1, record_20());
    check_target(choose(table, now), target_20);

    CASE("a BYE with both sources, from the second unit");
    table = take_datagram(table, bye + front, sizeof bye - front, reduced_size, unit(20));
    check_tallied(table, 0, record_10(), 1);
    check_vacant(table, 1);
}

static void test_datagrams(void)
{
    check_host(0, 0);
    check_host(0, 1);
    check_host(RR_BYTES, 1);
}

/* Nothing is kept between calls. */
static void test_two_tables(void)
{
    record_t foreign = arrival(10);
    table_t one;
    table_t other;
    table_t alone;

    CASE("two tables in turn");
    one = opened();
    other = open_table(43, MEDIA, 8000);
    alone = with_two(record_10(), record_20());
    foreign.report.group = 43;
    one = report(one, record_10(), now, PRUNEPOCKET_ACCEPTED);
    other = report(other, foreign, now, PRUNEPOCKET_ACCEPTED);
    one = report(one, foreign, now, PRUNEPOCKET_OTHER_STREAM);
    other = farewell(other, 10, unit(10), PRUNEPOCKET_OTHER_ORIGIN);
    one = report(one, record_20(), now, PRUNEPOCKET_ACCEPTED);
    other = farewell(other, 10, unit(30), PRUNEPOCKET_ACCEPTED);
    check_true("as the one table alone", same_table(&one, &alone));
    check_none_fresh(other, now);
}

/* ---- Every kind of word ---------------------------------------------------------------------- */

/* Random words for each lowest free place that has others above it. */
#define RANDOM_WORDS 50

/* The word as the name of a case. */
static const char *word_name(uint64_t word)
{
    static char text[40];

    snprintf(text, sizeof text, "places held: %016" PRIX64, word);
    return text;
}

/* C writes the word and tallies, and a new member reports. */
static void check_written(size_t lowest, uint64_t above)
{
    uint64_t word = word_with(lowest, above);
    table_t table;
    answered_t answered;

    CASE(word_name(word));
    table = with_tallies(table_of(word), 1, 3);
    check_equal("lowest free place", lowest_free(word), lowest);
    check_places(&table, &table);
    answered = prunepocket_report(table, record_10(), now);
    check_new_member(&answered, table, record_10());
}

/* Calls alone lead to the word; sources from 200 on take the free places, and one more gets 18. */
static void check_called(const table_t *full, size_t lowest, uint64_t above)
{
    uint64_t word = word_with(lowest, above);
    uint32_t last = 200 + PRUNEPOCKET_PLACES - count_held(word);
    table_t expected;
    table_t table;

    CASE(word_name(word));
    expected = table_of(word);
    table = left_by_farewells(*full, word);
    check_places(&table, &expected);
    for (uint32_t source = 200; source < last; source++) {
        size_t place = lowest_free(expected.held);

        table = report(table, arrival(source), now, PRUNEPOCKET_ACCEPTED);
        check_member(table, place, arrival(source));
        expected.held = with_place(expected.held, place);
        expected.members[place].record = arrival(source);
    }
    check_places(&table, &expected);
    report(table, arrival(last), now, PRUNEPOCKET_NO_ROOM);
}

/* None above, all (a single free place, or none), alternating from either, and the last alone. */
static void test_words(void)
{
    static const uint64_t above[] = {
        0,
        UINT64_MAX,
        UINT64_C(0x5555555555555555),
        UINT64_C(0xAAAAAAAAAAAAAAAA),
        UINT64_C(1) << 63,
    };
    table_t full;

    CASE("every lowest free place, and none");
    full = full_table();
    for (size_t lowest = 0; lowest <= PRUNEPOCKET_PLACES; lowest++) {
        for (size_t i = 0; i < LENGTH(above); i++) {
            check_written(lowest, above[i]);
            check_called(&full, lowest, above[i]);
        }
    }
}

static void test_single_places(void)
{
    table_t full;

    CASE("a single place held");
    full = full_table();
    for (size_t place = 0; place < PRUNEPOCKET_PLACES; place++) {
        size_t lowest = place == 0 ? 1 : 0;

        check_written(lowest, with_place(0, place));
        check_called(&full, lowest, with_place(0, place));
    }
}

static void test_random_words(void)
{
    table_t full;

    CASE("random places held above the lowest free one");
    full = full_table();
    for (size_t lowest = 0; lowest < PRUNEPOCKET_PLACES - 1; lowest++) {
        for (int i = 0; i < RANDOM_WORDS; i++)
            check_written(lowest, next_random());
        check_called(&full, lowest, next_random());
    }
}

/* 18 is for new members alone. */
static void test_own_reports(void)
{
    table_t table;

    CASE("each member's next report, where all places are held");
    table = table_of(UINT64_MAX);
    for (uint32_t i = 0; i < PRUNEPOCKET_PLACES; i++) {
        record_t record = arrival(100 + i);
        table_t expected = table;
        table_t after;

        record.report.received -= 1;
        expected.members[i].record = record;
        after = report(table, record, now, PRUNEPOCKET_ACCEPTED);
        check_true("the report stands at the member's place", same_table(&after, &expected));
    }
}

/* ---- Tables that C has written on ------------------------------------------------------------ */

#define RANDOM_TABLES 1000

/* The numbers that random tables were answered with, 0 to 20. */
static unsigned long met[21];

/*
 * Random reports with a step of 0, and those of them that 13 to 16 let pass: with any other received
 * time, and with all ones.
 */
static unsigned long met_step_0;
static unsigned long judged_step_0[2];

/* Random reports of new members that 13 to 17 let pass, by the lowest free place. */
static unsigned long judged_new[PRUNEPOCKET_PLACES + 1];

/* Random calls that got 14 where the tally was below the limit, and at it. */
static unsigned long raised[2];

/* The number is one that the call can give: 0, or from low to high. */
static void check_number(const char *what, uint64_t number, uint64_t low, uint64_t high)
{
    check_true(what, number == 0 || (low <= number && number <= high));
    if (number < LENGTH(met))
        met[number]++;
}

/* At a step of 0, 17 is given exactly where received is all ones, but for 13 to 16 before it. */
static void check_step_0(const struct prunepocket_report_fields *fields, uint64_t number)
{
    int all_ones = fields->received == UINT64_MAX;

    if (fields->p == 0 || fields->presented != (uint32_t)(fields->received >> 16))
        return;
    met_step_0++;
    if (number == PRUNEPOCKET_ACCEPTED || number >= PRUNEPOCKET_BADLY_PRESENTED) {
        judged_step_0[all_ones]++;
        check_equal("report: 17 at a step of 0", number == PRUNEPOCKET_BADLY_PRESENTED, all_ones);
    }
}

/* A call under a number got 14. Where a random table holds it twice, the lower place is the number's. */
static void count_14(const table_t *table, uint32_t source)
{
    size_t holder = place_of(table, source);

    check_true("14: the number is held", holder < PRUNEPOCKET_PLACES);
    if (holder < PRUNEPOCKET_PLACES)
        raised[table->members[holder].tally == PRUNEPOCKET_TALLY_LIMIT]++;
}

static void random_report(table_t table, record_t record, reading_t reading)
{
    answered_t answered = prunepocket_report(table, record, reading);
    size_t holder = place_of(&table, record.source);

    check_number("report: number", answered.number, 13, 18);
    check_step_0(&record.report, answered.number);
    if (answered.number == PRUNEPOCKET_OTHER_ORIGIN)
        count_14(&table, record.source);
    if (answered.number >= 13 && answered.number <= 17) {
        check_refused("report: the table after a refusal", &answered, table, record.source);
    } else if (holder < PRUNEPOCKET_PLACES) {
        check_equal("member: number", answered.number, PRUNEPOCKET_ACCEPTED);
        check_equal("member: places held", answered.table.held, table.held);
        table.members[holder].record = record;
        check_true("member: the table", same_table(&answered.table, &table));
    } else {
        judged_new[lowest_free(table.held)]++;
        check_new_member(&answered, table, record);
    }
}

/* Members that were removed stand at their places again. Their tallies are gone or not. */
static void put_back(table_t *after, const table_t *before, uint64_t removed)
{
    after->held |= removed;
    for (size_t place = 0; place < PRUNEPOCKET_PLACES; place++) {
        if (is_held(removed, place))
            after->members[place].tally = before->members[place].tally;
    }
}

static void random_farewell(table_t table, uint32_t source, origin_t origin)
{
    answered_t answered = prunepocket_farewell(table, source, origin);
    uint64_t removed = table.held & ~answered.table.held;

    check_number("farewell: number", answered.number, 14, 19);
    check_true("farewell: not 15 to 18", answered.number < 15 || answered.number > 18);
    check_equal("farewell: removed", count_held(removed), answered.number == 0);
    if (answered.number == PRUNEPOCKET_OTHER_ORIGIN)
        count_14(&table, source);
    if (answered.number != PRUNEPOCKET_ACCEPTED) {
        check_refused("farewell: the table after a refusal", &answered, table, source);
    } else {
        put_back(&answered.table, &table, removed);
        check_true("farewell: all else as before", same_table(&answered.table, &table));
    }
}

/* 20 is given exactly where a sweep would leave no member. */
static void random_choice(table_t table, reading_t reading)
{
    answered_t swept = prunepocket_sweep(table, reading);
    followed_t followed = prunepocket_choose(table, reading);

    check_equal("sweep: number", swept.number, 0);
    check_equal("sweep: no place more", swept.table.held & ~table.held, 0);
    check_number("choose: number", followed.number, 20, 20);
    check_equal("choose: 20", followed.number == 20, swept.table.held == 0);
    check_true("choose: counted", followed.target.counted <= count_held(swept.table.held));
    check_true("choose: the table as before", same_table(&followed.table, &table));
    put_back(&swept.table, &table, table.held & ~swept.table.held);
    check_true("sweep: all else as before", same_table(&swept.table, &table));
}

static void random_places(table_t table)
{
    size_t place = (size_t)next_random();

    check_equal("members", prunepocket_count_members(table), count_held(table.held));
    if (place >= PRUNEPOCKET_PLACES)
        check_vacant(table, place);
    check_place(&table, place % PRUNEPOCKET_PLACES, &table);
}

static void random_opening(void)
{
    uint32_t group = (uint32_t)next_random();
    uint32_t rate = (uint32_t)(next_random() % 384000);
    answered_t answered = prunepocket_open(group, (uint32_t)next_random(), rate);

    check_number("open: number", answered.number, 12, 12);
    check_equal("open: members", prunepocket_count_members(answered.table), 0);
}

static void check_new_members_met(void)
{
    unsigned long placed = 0;
    unsigned places = 0;

    for (size_t place = 0; place < PRUNEPOCKET_PLACES; place++) {
        placed += judged_new[place];
        places += judged_new[place] > 0;
    }
    CASE("new members that 13 to 17 let pass were met on random tables");
    check_true("one report of ten or more got a place", placed >= RANDOM_TABLES / 10);
    check_true("at half of the places or more", places >= PRUNEPOCKET_PLACES / 2);
    check_true("one report of fifty or more got 18",
               judged_new[PRUNEPOCKET_PLACES] >= RANDOM_TABLES / 50);
}

static void test_random_tables(void)
{
    static const uint8_t numbers[] = {0, 12, 13, 14, 15, 16, 17, 18, 19, 20};

    CASE("tables of random bytes");
    for (int i = 0; i < RANDOM_TABLES; i++) {
        int few = i % 2;
        table_t table = random_table(few);
        record_t record = random_record(&table, few);
        reading_t reading = random_reading(&record, few);

        random_report(table, record, reading);
        random_farewell(table, record.source, record.origin);
        random_choice(table, reading);
        random_places(table);
        random_opening();
    }

    CASE("each number was met on random tables");
    for (size_t i = 0; i < sizeof numbers; i++)
        check_true("met", met[numbers[i]] > 0);

    CASE("a step of 0 was met on random tables, in one report of ten or more");
    check_true("met", met_step_0 >= RANDOM_TABLES / 10);
    check_true("accepted, or 18", judged_step_0[0] >= RANDOM_TABLES / 100);
    check_true("17 where received is all ones", judged_step_0[1] > 0);

    CASE("14 was met on random tables, in one of a hundred reports and farewells or more");
    check_true("below the limit", raised[0] >= 2 * RANDOM_TABLES / 100);
    check_true("at the limit", raised[1] >= 2 * RANDOM_TABLES / 100);
    check_new_members_met();
}

int main(void)
{
    start_checks(__FILE__);
    test_small_layouts();
    test_large_layouts();
    test_answer_layouts();
    test_opened_bytes();
    test_filed_bytes();
    test_tally_bytes();
    test_followed_bytes();
    test_near_twins();
    test_two_numbers();
    test_full_table();
    test_freed_places();
    test_farewells();
    test_order_of_a_new_member();
    test_standing_report();
    test_p();
    test_sweeps();
    test_sweeps_by_rtp();
    test_arrival_mode();
    test_none_fresh();
    test_whole_datagrams();
    test_refused_datagrams();
    test_openings();
    test_reading_limits();
    test_presented_limits();
    test_wired_unit();
    test_wired_at_all_ones();
    test_wired_beside_others();
    test_wired_tie();
    test_wired_settings();
    test_lateness_limits();
    test_small_differences();
    test_datagrams();
    test_two_tables();
    test_words();
    test_single_places();
    test_random_words();
    test_own_reports();
    test_random_tables();
    return finish_checks();
}
