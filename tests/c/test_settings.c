/*
 * Holds prunepocket_check_settings to document 02 (E9): the bytes of both structs, what suits at the
 * least and at the greatest lateness, every refusal at its limits and in its order, and the table
 * handed back as it was, field by field, padding aside. Every answer is also that of settings.h.
 */
#include "settings.h"

#include "datagrams.h"
#include "random_tables.h"

/* ---- One call -------------------------------------------------------------------------------- */

/* The packet gets this number and this word, and the table is as before. */
static void check_settings(table_t table, settings_t settings, reading_t reading, uint32_t slack,
                           struct verdict expected)
{
    settings_answered_t answered = prunepocket_check_settings(table, settings, reading, slack);

    check_equal("check_settings: number", answered.number, expected.number);
    check_equal("check_settings: suits", answered.suits, expected.suits);
    check_true("check_settings: the table as before", same_table(&answered.table, &table));
}

/* What a case says is also what is computed. */
static void check_case(table_t table, settings_t settings, reading_t reading, uint32_t slack,
                       uint64_t number, uint32_t suits)
{
    struct verdict computed = verdict_of(&table, settings, reading, slack);

    check_settings(table, settings, reading, slack, (struct verdict){number, suits});
    check_equal("computed: number", computed.number, number);
    check_equal("computed: suits", computed.suits, suits);
}

static void check_yes(table_t table, settings_t settings, uint32_t slack)
{
    check_case(table, settings, now, slack, PRUNEPOCKET_ACCEPTED, 1);
}

static void check_no(table_t table, settings_t settings, uint32_t slack)
{
    check_case(table, settings, now, slack, PRUNEPOCKET_ACCEPTED, 0);
}

/* Whatever the slack, up to its limit. */
static void check_number(table_t table, settings_t settings, uint64_t number)
{
    static const uint32_t slacks[] = {0, 1, PRUNEPOCKET_SLACK_LIMIT};

    for (size_t i = 0; i < LENGTH(slacks); i++)
        check_case(table, settings, now, slacks[i], number, 0);
}

/* ---- Packets --------------------------------------------------------------------------------- */

#define SECOND SECONDS(1)

/* P3: our own settings where P1 and P2 are held. */
static const settings_t own = {1, MEDIA, GROUP, SECONDS(998), 8820000, UINT64_C(0x3E6C0000000)};

static table_t p1_and_p2(void)
{
    return with_two(record_10(), record_20());
}

static settings_t packet(uint64_t received, uint32_t rtp, uint64_t presented)
{
    return (settings_t){1, MEDIA, GROUP, received, rtp, presented};
}

static settings_t settings_of(target_t target)
{
    return (settings_t){1,          target.media,    target.group, target.received,
                        target.rtp, target.presented};
}

/* Presented later by so many units of 2^-32 s, or earlier. */
static settings_t later(settings_t settings, int64_t units)
{
    settings.presented += (uint64_t)units;
    return settings;
}

/* ---- Layout ---------------------------------------------------------------------------------- */

#define FIELD(type, field, offset, size) \
    (check_equal("offset of " #field, offsetof(type, field), offset), \
     check_equal("size of " #field, sizeof((type *)NULL)->field, size))

static void test_layouts(void)
{
    CASE("layout of a settings packet");
    check_equal("size", sizeof(settings_t), 40);
    FIELD(settings_t, sender, 0, 4);
    FIELD(settings_t, media, 4, 4);
    FIELD(settings_t, group, 8, 4);
    FIELD(settings_t, received, 16, 8);
    FIELD(settings_t, rtp, 24, 4);
    FIELD(settings_t, presented, 32, 8);

    CASE("layout of the answer");
    check_equal("size", sizeof(settings_answered_t), 4136);
    FIELD(settings_answered_t, number, 0, 8);
    FIELD(settings_answered_t, suits, 8, 4);
    FIELD(settings_answered_t, table, 16, 4120);
}

/* The packet that stands in forty bytes by the header's offsets. */
static settings_t packet_in(const uint8_t bytes[40])
{
    return (settings_t){
        (uint32_t)number_at(bytes, 0, 4),  (uint32_t)number_at(bytes, 4, 4),
        (uint32_t)number_at(bytes, 8, 4),  number_at(bytes, 16, 8),
        (uint32_t)number_at(bytes, 24, 4), number_at(bytes, 32, 8),
    };
}

/* One bit of the forty bytes is turned round. The sender and the padding are not looked at. */
static void check_bit(const table_t *table, const settings_t *settings, reading_t reading,
                      size_t bit)
{
    uint8_t bytes[40];
    settings_t changed;
    size_t at = bit / 8;
    int is_looked_at = (at >= 4 && at < 12) || (at >= 16 && at < 28) || at >= 32;

    memcpy(bytes, settings, sizeof bytes);
    bytes[at] ^= (uint8_t)(1 << bit % 8);
    memcpy(&changed, bytes, sizeof bytes);

    struct verdict expected = verdict_of(table, packet_in(bytes), reading, 0);

    /* With the presented time as it is, received decides refusals alone. */
    if (!is_looked_at || at < 16 || at >= 24)
        check_equal("suits by bytes", expected.suits, !is_looked_at);
    check_settings(*table, changed, reading, 0, expected);
}

/* A packet whose bytes nearly all differ, as the archive reads it, and a table as it writes it. */
static void test_bytes(void)
{
    static const record_t distinct = {
        0x01020304,
        {{16, 17, 18, 19, 20, 21, 22, 23, 24, 25, 26, 27, 28, 29, 30, 31}, 0x2021},
        {UINT64_C(0x3031323334353637), 0x40414243, 0x50515253, 0x60616263, 0x32343435, 0x71, 1},
    };
    static const reading_t reading = {UINT64_C(0x3031323434353637), 0x60616264};
    static const settings_t settings = {0x71727374, 0x50515253,
                                        0x40414243, UINT64_C(0x3031323334353637),
                                        0x60616263, UINT64_C(0x3031323434350000)};
    table_t table = report(open_table(0x40414243, 0x50515253, RATE), distinct, reading, 0);
    settings_answered_t *answered = allocate(sizeof *answered);

    CASE("bytes of a settings packet");
    table.members[0].tally = 0x81828384;
    for (size_t bit = 0; bit < 8 * sizeof settings; bit++)
        check_bit(&table, &settings, reading, bit);

    /* On the heap valgrind sees a byte that the archive left out. */
    CASE("bytes of the answer");
    *answered = prunepocket_check_settings(table, settings, reading, 0);
    check_equal("number", number_at(answered, 0, 8), 0);
    check_equal("suits", number_at(answered, 8, 4), 1);
    check_equal("group", number_at(answered, 16, 4), 0x40414243);
    check_equal("media source", number_at(answered, 20, 4), 0x50515253);
    check_equal("rate", number_at(answered, 24, 4), RATE);
    check_equal("held", number_at(answered, 32, 8), 1);
    check_equal("source", number_at(answered, 40, 4), 0x01020304);
    check_equal("received", number_at(answered, 64, 8), UINT64_C(0x3031323334353637));
    check_equal("tally", number_at(answered, 96, 4), 0x81828384);
    *answered = prunepocket_check_settings(table, settings, reading, UINT32_MAX);
    check_equal("number of a refusal", number_at(answered, 0, 8), 11);
    check_equal("suits after a refusal", number_at(answered, 8, 4), 0);
    check_true("the table after a refusal", same_table(&answered->table, &table));
    free(answered);
}

/* ---- What suits ------------------------------------------------------------------------------ */

static void test_own_choice(void)
{
    table_t table = p1_and_p2();
    record_t tied = record_10();

    CASE("P1 and P2 held: our own settings");
    check_target(choose(table, now), target_20);
    check_yes(table, own, 0);
    check_yes(table, settings_of(choose(table, now)), 0);
    check_yes(table, own, PRUNEPOCKET_SLACK_LIMIT);

    CASE("P1 and P2 held: the settings of P1 are earlier by a quarter of a second");
    check_no(table, settings_of(choose(with_one(record_10()), now)), 0);
    check_no(table, settings_of(choose(with_one(record_10()), now)), PRUNEPOCKET_SLACK_LIMIT);

    CASE("P1 alone: the settings of P2 are later by a quarter of a second");
    check_no(with_one(record_10()), own, 0);
    check_no(with_one(record_10()), own, 16383);
    check_yes(with_one(record_10()), own, 16384);

    CASE("P4: the settings of either");
    tied.report.presented = 0x03E7C000;
    table = with_two(tied, record_20());
    check_yes(table, own, 0);
    check_yes(table, packet(SECONDS(999), 8910000, UINT64_C(0x3E7C0000000)), 0);
    check_yes(table, settings_of(choose(table, now)), 0);
}

static void test_one_unit(void)
{
    table_t table = p1_and_p2();
    settings_t settings = own;

    CASE("a unit earlier, a unit later");
    check_no(table, later(own, -1), 0);
    check_no(table, later(own, -1), PRUNEPOCKET_SLACK_LIMIT);
    check_no(table, later(own, 1), 0);
    check_yes(table, later(own, 1), 1);

    CASE("a tick of the media clock earlier, a tick later");
    settings.rtp = own.rtp + 1;
    check_no(table, settings, 0);
    check_no(table, settings, PRUNEPOCKET_SLACK_LIMIT);
    settings.rtp = own.rtp - 1;
    check_no(table, settings, 0);
    check_yes(table, settings, 1);

    CASE("with the same presented time, another received time");
    settings = own;
    for (int64_t units = -65536; units <= 65536; units += 32768) {
        settings.received = own.received + (uint64_t)units;
        check_yes(table, settings, 0);
        check_no(table, later(settings, -1), PRUNEPOCKET_SLACK_LIMIT);
        check_no(table, later(settings, 1), 0);
    }
}

/* With a delay of up to 30 s, and by the media clock up to the slack's limit. */
static void test_slacks(void)
{
    static const uint32_t slacks[] = {0,     1,     2,      255,    256,     32767,
                                      65535, 65536, 131072, 999999, 1916927, 1916928};
    table_t table = p1_and_p2();
    settings_t settings = own;

    CASE("as much later as the slack says, and a unit more");
    for (size_t i = 0; i < LENGTH(slacks); i++) {
        int64_t units = (int64_t)slacks[i] * 65536;

        check_yes(table, own, slacks[i]);
        check_no(table, later(own, -1), slacks[i]);
        check_yes(table, later(own, units), slacks[i]);
        if (slacks[i] > 0)
            check_no(table, later(own, units), slacks[i] - 1);
        if (slacks[i] < 1916928)
            check_no(table, later(own, units + 1), slacks[i]);
    }

    CASE("30 s later");
    settings.rtp = own.rtp - 30 * RATE;
    check_yes(table, settings, PRUNEPOCKET_SLACK_LIMIT);
    check_yes(table, later(settings, -1), PRUNEPOCKET_SLACK_LIMIT);
    check_no(table, settings, PRUNEPOCKET_SLACK_LIMIT - 1);
    check_yes(table, later(settings, -65536), PRUNEPOCKET_SLACK_LIMIT - 1);
    check_no(table, later(settings, 1), PRUNEPOCKET_SLACK_LIMIT);
}

static void test_slack_limit(void)
{
    table_t table = p1_and_p2();

    CASE("the slack's limit");
    check_equal("limit", PRUNEPOCKET_SLACK_LIMIT, 1966080);
    check_yes(table, own, 0);
    check_yes(table, own, 1966079);
    check_yes(table, own, 1966080);
    check_case(table, own, now, 1966081, 11, 0);
    check_case(table, own, now, 1966080 + 65536, 11, 0);
    check_case(table, own, now, UINT32_C(1) << 31, 11, 0);
    check_case(table, own, now, UINT32_MAX, 11, 0);
}

static uint32_t common_divisor(uint32_t rate)
{
    uint32_t divisor = 1;

    while (rate % 2 == 0) {
        rate /= 2;
        divisor *= 2;
    }
    return divisor;
}

/*
 * A packet that is later by the least number of units of lateness that three times can make, or
 * earlier by as many: so many ticks of RTP age more, and so many units of presented less. Received
 * is earlier too, so that the delay is above 0.
 */
static settings_t just_beside(settings_t settings, uint32_t rate, int sign)
{
    int64_t least = sign * (int64_t)common_divisor(rate);
    int64_t ticks = 0;

    while (((ticks << 32) - least) % rate != 0)
        ticks++;
    settings.rtp -= (uint32_t)ticks;
    settings.received -= SECONDS(2);
    return later(settings, -(((ticks << 32) - least) / rate));
}

/* The member's unit presents half a second after received, a second ago; 60 s old is not 16. */
static void check_rate(uint32_t rate)
{
    record_t record = record_10();
    settings_t settings;
    table_t table;

    record.report.rtp = 9000000 - rate;
    table = report(open_table(GROUP, MEDIA, rate), record, now, PRUNEPOCKET_ACCEPTED);
    settings = settings_of(choose(table, now));
    check_yes(table, settings, 0);
    check_yes(table, just_beside(settings, rate, 0), 0);
    check_no(table, just_beside(settings, rate, 1), 0);
    check_yes(table, just_beside(settings, rate, 1), 1);
    check_no(table, just_beside(settings, rate, -1), 0);
    check_no(table, just_beside(settings, rate, -1), PRUNEPOCKET_SLACK_LIMIT);

    /* As much later as a slack of 10,000 says. */
    settings = later(settings, 10000 * 65536);
    check_yes(table, settings, 10000);
    check_no(table, just_beside(settings, rate, 1), 10000);
    check_yes(table, just_beside(settings, rate, -1), 10000);
    settings.rtp = 9000000 - 60 * rate - 1;
    check_number(table, settings, 16);
}

static void test_rates(void)
{
    static const uint32_t rates[] = {1, 2, 3, 8000, 44100, 48000, 90000, 149999, 191999, 192000};

    CASE("the least difference of lateness at a rate");
    for (size_t i = 0; i < LENGTH(rates); i++)
        check_rate(rates[i]);
}

/* ---- Refusals at their limits ---------------------------------------------------------------- */

/* Their lateness is that of P2 unless the case says otherwise. */
static void test_received_limits(void)
{
    table_t table = p1_and_p2();

    CASE("received 30 s ago");
    check_yes(table, packet(SECONDS(970), 8820000, own.presented), 0);
    check_number(table, packet(SECONDS(970) - 1, 8820000, own.presented), 15);
    check_number(table, packet(0, 8820000, own.presented), 15);

    CASE("received at the reading");
    check_yes(table, packet(SECONDS(1000), 8977500, SECONDS(1000) + SECOND / 2), 0);
    check_number(table, packet(SECONDS(1000) + 1, 8977500, SECONDS(1000) + SECOND / 2), 15);
    check_number(table, packet(SECONDS(1001), 8977500, SECONDS(1001) + SECOND / 2), 15);
    check_number(table, packet(UINT64_MAX, 8977500, SECOND), 15);
}

static void test_rtp_limits(void)
{
    table_t table = p1_and_p2();
    settings_t oldest = packet(SECONDS(970), 3600000, SECONDS(970) + 1);

    CASE("RTP time 60 s old, 29.25 s and a unit later than P2");
    check_no(table, oldest, 0);
    check_no(table, oldest, 1916928);
    check_yes(table, oldest, 1916929);
    oldest.rtp = 3599999;
    check_number(table, oldest, 16);

    CASE("RTP time of the reading");
    check_yes(table, packet(SECONDS(999), 9000000, SECONDS(1000) + SECOND / 4 * 3), 0);
    check_number(table, packet(SECONDS(999), 9000001, SECONDS(1000) + SECOND / 4 * 3), 16);
    check_number(table, packet(SECONDS(999), UINT32_MAX, SECONDS(1000) + SECOND / 4 * 3), 16);
}

static void test_delay_limits(void)
{
    table_t table = p1_and_p2();
    settings_t longest =
        packet(SECONDS(970) + SECOND / 4 * 3, 9000000, SECONDS(1000) + SECOND / 4 * 3);

    CASE("a delay of a unit, and of 0");
    check_yes(table, packet(SECONDS(999), 8842500, SECONDS(999) + 1), 1);
    check_no(table, packet(SECONDS(999), 8842500, SECONDS(999) + 1), 0);
    check_number(table, packet(SECONDS(999), 8842500, SECONDS(999)), 17);
    check_number(table, packet(SECONDS(999), 8842500, SECONDS(999) - 1), 17);
    check_number(table, packet(SECONDS(998), 8820000, SECONDS(998)), 17);

    CASE("a delay of 30 s");
    check_yes(table, longest, 0);
    check_number(table, later(longest, 1), 17);
    check_number(table, later(longest, 65536), 17);
    longest.received -= 1;
    check_number(table, longest, 17);

    CASE("presented 0, and below 2^32 as a short time is");
    check_number(table, packet(SECONDS(998), 8820000, 0), 17);
    check_number(table, packet(SECONDS(998), 8820000, 1), 17);
    check_number(table, packet(SECONDS(998), 8820000, 0x03E6C000), 17);
    check_number(table, packet(SECONDS(998), 8820000, UINT64_MAX), 17);
}

/* Packets where N is 1 s, and a member presents at 00000000 40000000. */
static const struct {
    uint64_t received;
    uint64_t presented;
    uint64_t number;
    uint32_t suits;
} behind_wrap[] = {
    {UINT64_C(0xFFFFFFFF00000000), 0x40000000, 0, 1},
    {UINT64_C(0xFFFFFFFF00000000), 0x40000001, 0, 0},
    {UINT64_C(0xFFFFFFFF00000000), 0x3FFFFFFF, 0, 0},
    {UINT64_C(0xFFFFFFFF00000000), 1, 0, 0},
    {UINT64_C(0xFFFFFFFF00000000), 0, 17, 0},
    {UINT64_C(0xFFFFFFFF00000000), UINT64_MAX, 0, 0},
    {UINT64_C(0xFFFFFFFF00000000), UINT64_C(0xFFFFFFFF00000000), 17, 0},
    {UINT64_C(0xFFFFFFFF00000000), UINT64_C(0xFFFFFFFEFFFFFFFF), 17, 0},
    {UINT64_MAX, 0x40000000, 0, 1},
    {UINT64_MAX, 0, 17, 0},
    {UINT64_MAX, UINT64_MAX, 17, 0},
    {0, 0x40000000, 0, 1},
    {0, 0, 17, 0},
    {0, SECONDS(30), 0, 0},
    {0, SECONDS(30) + 1, 17, 0},
    {0x3FFFFFFF, 0x40000000, 0, 1},
    {0x40000000, 0x40000000, 17, 0},
    {SECOND, 0x40000000, 17, 0},
    {SECOND + 1, 0x40000000, 15, 0},
    {SECOND - SECONDS(30), 0x40000000, 0, 1},
    {SECOND - SECONDS(30) - 1, 0x40000000, 15, 0},
    {UINT64_C(1) << 63, 0x40000000, 15, 0},
};

/* P6: the member was received at FFFFFFFF 00000000. */
static void test_ntp_wrap(void)
{
    static const reading_t one = {SECOND, 9000000};
    record_t record = record_10();
    table_t table;

    CASE("N behind the wrap");
    record.report.received = UINT64_C(0xFFFFFFFF00000000);
    record.report.rtp = 9000000;
    record.report.presented = 0x4000;
    table = report(opened(), record, one, PRUNEPOCKET_ACCEPTED);
    check_case(table, settings_of(choose(table, one)), one, 0, 0, 1);
    for (size_t i = 0; i < LENGTH(behind_wrap); i++)
        check_case(table, packet(behind_wrap[i].received, 9000000, behind_wrap[i].presented), one,
                   0, behind_wrap[i].number, behind_wrap[i].suits);
}

/* R is 100, and the member's RTP time is a second older. */
static void test_rtp_wrap(void)
{
    static const reading_t reading = {SECONDS(1000), 100};
    static const uint32_t second_ago = UINT32_C(100) - RATE;
    static const uint32_t minute_ago = UINT32_C(100) - 60 * RATE;
    record_t record = record_10();
    settings_t settings;
    table_t table;

    CASE("R behind the wrap");
    record.report.rtp = second_ago;
    table = report(opened(), record, reading, PRUNEPOCKET_ACCEPTED);
    settings = packet(SECONDS(999), second_ago, SECONDS(999) + SECOND / 2);
    check_case(table, settings, reading, 0, 0, 1);
    check_case(table, later(settings, 1), reading, 0, 0, 0);
    settings.rtp = UINT32_MAX;
    check_case(table, later(settings, 1), reading, PRUNEPOCKET_SLACK_LIMIT, 0, 0);
    settings = packet(SECONDS(999), 0, SECONDS(1001));
    check_case(table, settings, reading, PRUNEPOCKET_SLACK_LIMIT, 0, 1);
    settings.rtp = 100;
    check_case(table, settings, reading, 32768, 0, 1);
    settings.rtp = 101;
    check_case(table, settings, reading, PRUNEPOCKET_SLACK_LIMIT, 16, 0);
    settings = packet(SECONDS(970), minute_ago, SECONDS(970) + 1);
    check_case(table, settings, reading, PRUNEPOCKET_SLACK_LIMIT, 0, 1);
    settings.rtp--;
    check_case(table, settings, reading, PRUNEPOCKET_SLACK_LIMIT, 16, 0);
}

/* ---- Order of refusals ----------------------------------------------------------------------- */

/* The ways in which a refusal applies, from 1 on. By way 0 it does not. */
struct ways {
    size_t slack, table, stream, received, rtp, presented;
};

enum { SLACKS = 3, TABLES = 3, STREAMS = 4, RECEIVED = 3, RTPS = 3, PRESENTED = 5 };

static struct ways ways_of(size_t index)
{
    struct ways ways;

    ways.slack = index % SLACKS;
    index /= SLACKS;
    ways.table = index % TABLES;
    index /= TABLES;
    ways.stream = index % STREAMS;
    index /= STREAMS;
    ways.received = index % RECEIVED;
    index /= RECEIVED;
    ways.rtp = index % RTPS;
    ways.presented = index / RTPS;
    return ways;
}

static settings_t packet_by(struct ways ways)
{
    const uint64_t received[RECEIVED] = {own.received, now.ntp + 1, now.ntp - SECONDS(30) - 1};
    const uint32_t rtps[RTPS] = {own.rtp, now.rtp + 1, now.rtp - 60 * RATE - 1};
    settings_t settings = packet(received[ways.received], rtps[ways.rtp], 0);
    const uint64_t presented[PRESENTED] = {
        settings.received + (own.presented - own.received),
        0,
        settings.received,
        settings.received + SECONDS(30) + 1,
        settings.received - 1,
    };

    settings.presented = presented[ways.presented];
    settings.group ^= ways.stream & 1;
    settings.media ^= ways.stream & 2;
    return settings;
}

static uint64_t first_of(struct ways ways)
{
    if (ways.slack > 0)
        return 11;
    if (ways.table > 0)
        return 20;
    if (ways.stream > 0)
        return 13;
    if (ways.received > 0)
        return 15;
    if (ways.rtp > 0)
        return 16;
    return ways.presented > 0 ? 17 : 0;
}

/* P1 and P2, received a unit too early to be fresh. */
static table_t only_stale(void)
{
    static const reading_t before = {SECONDS(970), 6300000};
    record_t first = record_10();
    record_t second = record_20();

    first.report.received = second.report.received = SECONDS(970) - 1;
    first.report.presented = second.report.presented = SHORT_SECONDS(970);
    first.report.rtp = second.report.rtp = 6300000;
    return report(report(opened(), first, before, 0), second, before, 0);
}

/* Every set of refusals that can apply together, each in each of its ways. */
static void test_order_of_refusals(void)
{
    static const uint32_t slacks[SLACKS] = {0, PRUNEPOCKET_SLACK_LIMIT + 1, UINT32_MAX};
    size_t count = (size_t)SLACKS * TABLES * STREAMS * RECEIVED * RTPS * PRESENTED;
    table_t tables[TABLES] = {p1_and_p2(), opened(), only_stale()};

    CASE("the order of refusals");
    for (size_t i = 0; i < count; i++) {
        struct ways ways = ways_of(i);
        uint64_t number = first_of(ways);

        check_case(tables[ways.table], packet_by(ways), now, slacks[ways.slack], number,
                   number == 0);
    }
}

/* ---- Members --------------------------------------------------------------------------------- */

static void test_sender(void)
{
    static const uint32_t senders[] = {0, 1, 10, 20, MEDIA, GROUP, UINT32_C(1) << 31, UINT32_MAX};
    table_t table = p1_and_p2();

    CASE("any sender");
    for (size_t i = 0; i < LENGTH(senders); i++) {
        settings_t settings = own;

        settings.sender = senders[i];
        check_yes(table, settings, 0);
        check_no(table, later(settings, -1), 0);
        check_no(table, later(settings, 1), 0);
        settings.group ^= 1;
        check_number(table, settings, 13);
    }
}

/* Group and media source stand in the other order than in a report; each of their bits counts. */
static void test_stream(void)
{
    table_t table = p1_and_p2();

    CASE("another group or media source");
    for (unsigned bit = 0; bit < 32; bit++) {
        settings_t settings = own;

        settings.group ^= UINT32_C(1) << bit;
        check_number(table, settings, 13);
        settings = own;
        settings.media ^= UINT32_C(1) << bit;
        check_number(table, settings, 13);
    }
    check_number(table, (settings_t){1, GROUP, MEDIA, own.received, own.rtp, own.presented}, 13);
}

/* All that stands in it: places not held, and tallies. */
static void test_table_as_before(void)
{
    table_t table = p1_and_p2();

    CASE("the table as before");
    for (size_t i = 2; i < PRUNEPOCKET_PLACES; i++)
        fill_random(&table.members[i], sizeof table.members[i], 0);
    table = with_tallies(table, 7, UINT32_C(0x04030201));
    check_yes(table, own, 0);
    check_no(table, later(own, 1), 0);
    check_number(table, later(own, SECONDS(30)), 17);
    check_case(table, own, now, UINT32_MAX, 11, 0);
    table.held = 0;
    check_number(table, own, 20);
    table.rate = 0;
    table.group = 0;
    check_number(table, own, 20);
}

static void test_none_fresh(void)
{
    static const reading_t last = {SECONDS(1028), 11520000};
    static const reading_t ended = {SECONDS(1028) + 1, 11520000};
    static const reading_t aged = {SECONDS(1000), 8820000 + 60 * RATE + 1};
    settings_t fresh = packet(SECONDS(1020), 11000000, SECONDS(1021));
    table_t table = with_one(record_20());

    CASE("no members");
    check_number(opened(), own, 20);
    check_number(farewell(with_one(record_10()), 10, unit(10), 0), own, 20);

    CASE("only stale members");
    check_number(only_stale(), own, 20);
    check_case(table, own, last, 0, 0, 1);
    check_case(table, fresh, last, 0, 0, 0);
    check_case(table, own, ended, 0, 20, 0);
    check_case(table, fresh, ended, 0, 20, 0);
    check_case(table, own, aged, 0, 20, 0);
    check_case(table, own, (reading_t){SECONDS(998) - 1, 8820000}, 0, 20, 0);
    check_case(table, own, (reading_t){SECONDS(998), 8819999}, 0, 20, 0);
}

/* Members that are stale, or that have P 0 beside one with P 1, are not compared with. */
static void test_not_counted(void)
{
    static const reading_t reading = {SECONDS(1028) + 1, 11520000};
    record_t late_arrival = arrival(30);
    table_t table = p1_and_p2();
    settings_t of_10 = packet(SECONDS(999), 8910000, SECONDS(999) + SECOND / 2);

    CASE("the latest member is stale");
    check_no(table, of_10, 0);
    check_case(table, of_10, reading, 0, 0, 1);
    check_case(table, later(of_10, 1), reading, 0, 0, 0);
    check_case(table, settings_of(choose(table, reading)), reading, 0, 0, 1);

    CASE("a member with P 0 is later");
    late_arrival.report.received = SECONDS(999);
    late_arrival.report.rtp = 9000000 - 50 * RATE;
    table = report(table, late_arrival, now, PRUNEPOCKET_ACCEPTED);
    check_chosen(table, now, 20, 2);
    check_yes(table, own, 0);
    check_no(table, later(own, 1), 0);

    CASE("and the same with P 2, which counts as P 1");
    late_arrival.report.p = 2;
    late_arrival.report.presented = SHORT_SECONDS(999) + 1;
    table = report(table, late_arrival, now, PRUNEPOCKET_ACCEPTED);
    check_chosen(table, now, 30, 3);
    check_no(table, own, PRUNEPOCKET_SLACK_LIMIT);
    check_yes(table, settings_of(choose(table, now)), 0);
}

/* The member's delay is 0 there: its lateness is 0 too. */
static void test_arrival_mode(void)
{
    table_t table = with_one(arrival(30));
    record_t older = arrival(40);

    CASE("arrival mode: our own choice has no presented time");
    check_equal("presented", choose(table, now).presented, 0);
    check_number(table, settings_of(choose(table, now)), 17);

    CASE("arrival mode: another maker's packet");
    check_yes(table, packet(SECONDS(999), 9000000, SECONDS(1000)), 0);
    check_no(table, packet(SECONDS(999), 9000000, SECONDS(1000) - 1), 0);
    check_no(table, packet(SECONDS(999), 9000000, SECONDS(1000) + 1), 0);
    check_yes(table, packet(SECONDS(999), 9000000, SECONDS(1000) + 1), 1);
    check_yes(table, packet(SECONDS(999), 9000000, SECONDS(1000) + 65536), 1);
    check_no(table, packet(SECONDS(999), 9000000, SECONDS(1000) + 65537), 1);
    check_yes(table, packet(SECONDS(1000), 9000000, SECONDS(1030)), PRUNEPOCKET_SLACK_LIMIT);
    check_no(table, packet(SECONDS(1000), 9000000, SECONDS(1030)), PRUNEPOCKET_SLACK_LIMIT - 1);

    CASE("arrival mode: presented is not looked at in reports");
    older.report.presented = SHORT_SECONDS(1010);
    older.report.received = SECONDS(999);
    older.report.rtp = 9000000 - RATE - 1;
    table = report(table, older, now, PRUNEPOCKET_ACCEPTED);
    check_chosen(table, now, 40, 2);
    check_no(table, packet(SECONDS(999), 9000000, SECONDS(1000)), PRUNEPOCKET_SLACK_LIMIT);
    check_yes(table, packet(SECONDS(999), 8999999, SECONDS(1000)), 0);
    check_number(table, settings_of(choose(table, now)), 17);

    CASE("a member with P 1 ends arrival mode");
    table = report(table, record_10(), now, PRUNEPOCKET_ACCEPTED);
    check_yes(table, settings_of(choose(table, now)), 0);
    check_no(table, packet(SECONDS(999), 8999999, SECONDS(1000)), PRUNEPOCKET_SLACK_LIMIT);
}

/* The member at a place presents so many slots after it was received. */
static table_t with_slots(table_t table, uint32_t place, uint32_t slots)
{
    record_t record = arrival(100 + place);

    record.report.received = SECONDS(999);
    record.report.p = 1;
    record.report.presented = SHORT_SECONDS(999) + slots;
    return report(table, record, now, PRUNEPOCKET_ACCEPTED);
}

static void test_64_members(void)
{
    table_t table = full_table();
    settings_t at_256 = packet(SECONDS(999), 9000000, SECONDS(999) + 256 * 65536);

    CASE("64 members, the latest at every place");
    check_yes(table, packet(SECONDS(999), 9000000, SECONDS(1000)), 0);
    for (uint32_t i = 0; i < PRUNEPOCKET_PLACES; i++)
        table = with_slots(table, i, 1 + i);
    for (uint32_t latest = 0; latest < PRUNEPOCKET_PLACES; latest++) {
        if (latest > 0)
            table = with_slots(table, latest - 1, latest);
        table = with_slots(table, latest, 256);
        check_yes(table, at_256, 0);
        check_no(table, later(at_256, -1), 0);
        check_no(table, later(at_256, 1), 0);
        check_yes(table, later(at_256, 65536), 1);
        check_no(table, packet(SECONDS(999), 9000000, SECONDS(999) + 64 * 65536), 0);
        check_yes(table, settings_of(choose(table, now)), 0);
    }

    CASE("any one place held");
    for (size_t place = 0; place < PRUNEPOCKET_PLACES; place++) {
        table.held = UINT64_C(1) << place;
        check_yes(table, settings_of(choose(table, now)), 0);
        check_no(table, later(settings_of(choose(table, now)), -1), 0);
    }
}

/* A unit that presents in the slot in which it was received is a unit of 2^-32 s later (E3). */
static void test_wired(void)
{
    table_t table = with_one(wired(10));
    settings_t settings = packet(SECONDS(999), 8910000, SECONDS(999) + 1);

    CASE("a wired unit");
    check_yes(table, settings, 0);
    check_yes(table, settings_of(choose(table, now)), 0);
    check_no(table, later(settings, 1), 0);
    check_yes(table, later(settings, 65536), 1);
    check_no(table, later(settings, 65537), 1);
    check_number(table, later(settings, -1), 17);

    CASE("as late as a wired unit, though received earlier");
    check_yes(table, packet(SECONDS(998), 8910000, SECONDS(999) + 1), 0);
    check_no(table, packet(SECONDS(998), 8910000, SECONDS(999)), 0);
}

/* ---- Through writer and reader --------------------------------------------------------------- */

/* The target as a settings packet behind an RR, and back. */
static settings_t reread(target_t target, uint32_t sender)
{
    uint8_t datagram[RR_BYTES + PRUNEPOCKET_SETTINGS_BYTES];
    uint64_t row[PRUNEPOCKET_ROW];
    uint64_t written = 0;
    uint64_t count = 0;

    memcpy(datagram, rr, RR_BYTES);
    check_answer("settings: written",
                 prunepocket_write_settings(sender, target.group, target.media, target.received,
                                            target.rtp, target.presented, datagram + RR_BYTES,
                                            PRUNEPOCKET_SETTINGS_BYTES, &written),
                 0, 0);
    check_equal("settings: bytes", written, PRUNEPOCKET_SETTINGS_BYTES);
    check_answer("settings: read",
                 prunepocket_read_items(datagram, sizeof datagram, 0, row, LENGTH(row), &count), 0,
                 0);
    check_equal("settings: items", count, 1);
    check_equal("settings: kind", row[PRUNEPOCKET_FIELD_KIND], PRUNEPOCKET_SETTINGS);
    return (settings_t){
        (uint32_t)row[PRUNEPOCKET_FIELD_SOURCE], (uint32_t)row[PRUNEPOCKET_FIELD_MEDIA],
        (uint32_t)row[PRUNEPOCKET_FIELD_GROUP],  row[PRUNEPOCKET_FIELD_RECEIVED],
        (uint32_t)row[PRUNEPOCKET_FIELD_RTP],    row[PRUNEPOCKET_FIELD_PRESENTED],
    };
}

static void test_datagrams(void)
{
    table_t table = p1_and_p2();

    CASE("our own choice as a datagram");
    check_yes(table, reread(choose(table, now), 1), 0);
    check_yes(table, reread(choose(table, now), UINT32_MAX), 0);
    check_no(table, later(reread(choose(table, now), 1), -1), 0);
    table = with_one(wired(10));
    check_yes(table, reread(choose(table, now), 1), 0);

    CASE("our own choice as a datagram in arrival mode");
    table = full_table();
    check_number(table, reread(choose(table, now), 1), 17);
    table = report(table, twin_at(unit(10)), now, PRUNEPOCKET_NO_ROOM);
    table = farewell(table, 163, unit(30), PRUNEPOCKET_ACCEPTED);
    table = report(table, twin_at(unit(10)), now, PRUNEPOCKET_ACCEPTED);
    check_yes(table, reread(choose(table, now), 1), 0);
}

/* ---- Random tables --------------------------------------------------------------------------- */

/* What random packets met. */
enum met {
    MET_11,
    MET_20,
    MET_13,
    MET_15,
    MET_16,
    MET_17,
    EARLY,
    EXACT,
    WITHIN,
    UP_TO_SLACK,
    LATE,
    JUST_EARLY,
    JUST_LATE,
    BY_ARRIVAL,
    OWN,
    WRITTEN_RATE,
    METS
};

static const char *const met_names[METS] = {
    [MET_11] = "11",
    [MET_20] = "20",
    [MET_13] = "13",
    [MET_15] = "15",
    [MET_16] = "16",
    [MET_17] = "17",
    [EARLY] = "earlier",
    [EXACT] = "as late as the latest",
    [WITHIN] = "within the slack",
    [UP_TO_SLACK] = "later by all of the slack",
    [LATE] = "later than the slack",
    [JUST_EARLY] = "earlier by less than a unit",
    [JUST_LATE] = "later than the slack by less than a unit",
    [BY_ARRIVAL] = "arrival mode",
    [OWN] = "our own choice",
    [WRITTEN_RATE] = "a rate that no table is opened for",
};

static unsigned long mets[METS];

static void count_number(uint64_t number)
{
    static const uint64_t numbers[] = {11, 20, 13, 15, 16, 17};

    for (size_t i = 0; i < LENGTH(numbers); i++)
        mets[MET_11 + i] += number == numbers[i];
}

static void count_met(const table_t *table, settings_t settings, reading_t reading, uint32_t slack)
{
    uint64_t number = settings_number(table, settings, reading, slack);

    count_number(number);
    if (number == 0) {
        whole_t excess = excess_of(table, settings, reading);
        whole_t most = allowed(table, slack);

        mets[EARLY] += excess < 0;
        mets[JUST_EARLY] += excess < 0 && excess > -(whole_t)table->rate;
        mets[EXACT] += excess == 0;
        mets[WITHIN] += excess > 0 && excess < most;
        mets[UP_TO_SLACK] += excess == most && most > 0;
        mets[LATE] += excess > most;
        mets[JUST_LATE] += excess > most && excess < most + table->rate;
        mets[BY_ARRIVAL] += (unsigned long)count_members(table, reading).by_arrival;
        mets[WRITTEN_RATE] += table->rate < 1 || table->rate > 192000;
    }
}

/* From 0 to a limit, often at either end, and now and then beyond it. */
static uint64_t random_up_to(uint64_t limit)
{
    switch (next_random() % 16) {
    case 0:
        return 0;
    case 1:
        return 1;
    case 2:
        return limit;
    case 3:
        return limit + 1;
    default:
        return next_random() % (limit + 1);
    }
}

/* The reports of most places are fresh at the reading, with few or many different times. */
static void freshen(table_t *table, reading_t reading, int few)
{
    uint64_t most_rtp = (uint64_t)60 * table->rate;
    int any_presented = next_random() % 8 == 0;

    for (size_t i = 0; i < PRUNEPOCKET_PLACES; i++) {
        struct prunepocket_report_fields *report = &table->members[i].record.report;

        if (next_random() % 8 == 0)
            continue;
        report->group = table->group;
        report->media = table->media;
        report->received = reading.ntp - random_up_to(SECONDS(30));
        report->rtp = reading.rtp - (uint32_t)random_up_to(most_rtp < UINT32_MAX ? most_rtp : 60);
        if (few)
            report->received = reading.ntp - SECONDS(next_random() % 3);
        if (!any_presented)
            report->presented =
                (uint32_t)(report->received >> 16) + (uint32_t)random_up_to(SHORT_SECONDS(30));
        report->p = (uint8_t)(report->p % 4 == 3 ? report->p : report->p % 2);
    }
}

/* Any bytes; then a rate that a table may have, fresh members or none with P 1. */
static table_t random_members(reading_t *reading, int few)
{
    table_t table = random_table(few);
    int without_p = next_random() % 4 == 0;

    fill_random(reading, sizeof *reading, few);
    if (next_random() % 2 == 0)
        table.rate = 1 + (uint32_t)(next_random() % 192000);
    if (next_random() % 8 != 0)
        freshen(&table, *reading, few);
    for (size_t i = 0; without_p && i < PRUNEPOCKET_PLACES; i++)
        table.members[i].record.report.p = 0;
    return table;
}

static uint32_t random_slack(void)
{
    switch (next_random() % 8) {
    case 0:
    case 1:
        return 0;
    case 2:
        return PRUNEPOCKET_SLACK_LIMIT - (uint32_t)(next_random() % 2);
    case 3:
        return next_random() % 4 == 0 ? (uint32_t)next_random() : PRUNEPOCKET_SLACK_LIMIT + 1;
    default:
        return (uint32_t)(next_random() % PRUNEPOCKET_SLACK_LIMIT) >> next_random() % 20;
    }
}

/* Within a range, and if that is empty, at its start. */
static int64_t random_within(int64_t low, int64_t high)
{
    return low + (int64_t)random_up_to(high > low ? (uint64_t)(high - low) : 0);
}

/*
 * A packet whose lateness is near that of the latest member, or near the most that the slack allows.
 * Its presented time is then mostly within 30 s of the reading, and received at most 30 s before
 * both.
 */
static void aim(const table_t *table, settings_t *settings, reading_t reading, uint32_t slack)
{
    whole_t aimed = count_members(table, reading).greatest;
    int64_t half_minute = 30 * (int64_t)table->rate;
    int64_t ticks;
    int64_t units;

    if (next_random() % 2 == 0)
        aimed += allowed(table, slack);
    ticks = (int64_t)(aimed >> 32) + random_within(-half_minute, half_minute);
    if (ticks < 0)
        ticks = 0;
    if (ticks > 2 * half_minute)
        ticks = 2 * half_minute + (int64_t)(next_random() % 2);
    settings->rtp = reading.rtp - (uint32_t)ticks;
    aimed -= (whole_t)(uint32_t)ticks * ((whole_t)1 << 32);
    units = (int64_t)(table->rate > 0 ? aimed / table->rate : 0) + (int64_t)(next_random() % 5) - 2;
    settings->presented = reading.ntp + (uint64_t)units;
    settings->received =
        reading.ntp + (uint64_t)random_within((units > 0 ? units : 0) - (int64_t)SECONDS(30),
                                              units > 0 ? 0 : units - 1);
}

/* The times of our own choice, presented then, later by the slack, or a unit beside. */
static void follow(table_t table, settings_t *settings, reading_t reading, uint32_t slack)
{
    target_t target = prunepocket_choose(table, reading).target;

    settings->received = target.received;
    settings->rtp = target.rtp;
    settings->presented = target.presented + next_random() % 3 - 1;
    if (next_random() % 2 == 0)
        settings->presented += (uint64_t)slack << 16;
}

static settings_t random_packet(const table_t *table, reading_t reading, uint32_t slack, int few)
{
    uint64_t most_rtp = (uint64_t)60 * table->rate;
    settings_t settings;

    fill_random(&settings, sizeof settings, few);
    if (next_random() % 16 != 0)
        settings.group = table->group;
    if (next_random() % 16 != 0)
        settings.media = table->media;
    settings.rtp = reading.rtp - (uint32_t)random_up_to(most_rtp < UINT32_MAX ? most_rtp : 60);
    switch (next_random() % 8) {
    case 0:
        fill_random(&settings.rtp, sizeof settings.rtp, few);
        break;
    case 1:
        settings.received = reading.ntp - random_up_to(SECONDS(30));
        settings.presented = settings.received + random_up_to(SECONDS(30));
        break;
    case 2:
    case 3:
        follow(*table, &settings, reading, slack);
        break;
    default:
        aim(table, &settings, reading, slack);
        break;
    }
    return settings;
}

/* In presentation mode it suits without slack, if its report is one that the table would accept. */
static void check_own_choice(table_t table, reading_t reading)
{
    followed_t followed = prunepocket_choose(table, reading);
    settings_t settings = settings_of(followed.target);
    struct verdict expected = verdict_of(&table, settings, reading, 0);

    if (followed.number != 0)
        return;
    if (expected.number == 0) {
        check_equal("our own choice, computed", expected.suits, 1);
        mets[OWN]++;
    }
    check_settings(table, settings, reading, 0, expected);
}

static void test_random_tables(void)
{
    enum { TABLES_TRIED = 1000, PACKETS_EACH = 12 };

    CASE("tables of random bytes");
    for (unsigned long i = 0; i < TABLES_TRIED; i++) {
        int few = i % 4 == 0;
        reading_t reading;
        table_t table = random_members(&reading, few);

        check_own_choice(table, reading);
        for (size_t j = 0; j < PACKETS_EACH; j++) {
            uint32_t slack = random_slack();
            settings_t settings = random_packet(&table, reading, slack, few);

            count_met(&table, settings, reading, slack);
            check_settings(table, settings, reading, slack,
                           verdict_of(&table, settings, reading, slack));
        }
    }

    CASE("each was met on random tables");
    for (size_t i = 0; i < METS; i++)
        check_true(met_names[i], mets[i] >= 50);
}

int main(void)
{
    start_checks("tests/c/test_settings.c");
    test_layouts();
    test_bytes();
    test_own_choice();
    test_one_unit();
    test_slacks();
    test_slack_limit();
    test_rates();
    test_received_limits();
    test_rtp_limits();
    test_delay_limits();
    test_ntp_wrap();
    test_rtp_wrap();
    test_order_of_refusals();
    test_sender();
    test_stream();
    test_table_as_before();
    test_none_fresh();
    test_not_counted();
    test_arrival_mode();
    test_64_members();
    test_wired();
    test_datagrams();
    test_random_tables();
    return finish_checks();
}
