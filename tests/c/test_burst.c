/*
 * Holds prunepocket_report_burst to document 02 (E6): one number for each report, in list order, for
 * bursts and lists of every length; refusals 23 and 24, which leave table, tallies and list as
 * before; and table and numbers that are those of the single reports, from tables at many states.
 */
#include "random_tables.h"

#define LIMIT PRUNEPOCKET_TALLY_LIMIT

#define BURST_LIMIT 64

/* A full burst goes through a whole table. */
_Static_assert(BURST_LIMIT == PRUNEPOCKET_PLACES, "64 reports and 64 places");
_Static_assert(BURST_LIMIT == PRUNEPOCKET_BURST_LIMIT, "64 reports");

/* ---- Lent memory ----------------------------------------------------------------------------- */

#define GUARD 0xC3

/* Memory for a call, with bytes around it that must stay; without these, valgrind sees its ends. */
struct lent {
    uint8_t *block;
    size_t bytes;
    size_t around;
};

static struct lent lend(size_t bytes, size_t around)
{
    struct lent lent = {allocate(bytes + 2 * around), bytes, around};

    memset(lent.block, GUARD, bytes + 2 * around);
    return lent;
}

static void *start_of(const struct lent *lent)
{
    return lent->block + lent->around;
}

static void take_back(const char *what, struct lent lent)
{
    const uint8_t *behind = lent.block + lent.around + lent.bytes;
    size_t changed = 0;

    for (size_t i = 0; i < lent.around; i++)
        changed += (lent.block[i] != GUARD) + (behind[i] != GUARD);
    check_equal(what, changed, 0);
    free(lent.block);
}

/* Field by field: padding stays as it was filled, so that all bytes can be compared afterwards. */
static void put_record(record_t *to, const record_t *from)
{
    to->source = from->source;
    memcpy(to->origin.address, from->origin.address, sizeof to->origin.address);
    to->origin.port = from->origin.port;
    to->report.received = from->report.received;
    to->report.group = from->report.group;
    to->report.media = from->report.media;
    to->report.rtp = from->report.rtp;
    to->report.presented = from->report.presented;
    to->report.payload_type = from->report.payload_type;
    to->report.p = from->report.p;
}

static struct lent lend_reports(const record_t *reports, size_t count, size_t around)
{
    struct lent lent = lend(count * sizeof *reports, around);
    record_t *records = start_of(&lent);

    for (size_t i = 0; i < count; i++)
        put_record(&records[i], &reports[i]);
    return lent;
}

/* Each number of a list has a value of its own beforehand. */
static uint64_t lent_number(size_t index)
{
    return FILL + index;
}

static struct lent lend_list(size_t room, size_t around)
{
    struct lent lent = lend(room * sizeof(uint64_t), around);
    uint64_t *list = start_of(&lent);

    for (size_t i = 0; i < room; i++)
        list[i] = lent_number(i);
    return lent;
}

/* ---- One call -------------------------------------------------------------------------------- */

/* What a call is told beside the table. */
struct burst {
    const record_t *reports;
    size_t count;
    reading_t reading;
    size_t room; /* how many numbers the list has */
};

/* The numbers expected stand at the front of the list; behind them, it is as it was lent. */
static void check_list(const uint64_t *list, size_t room, const uint64_t *numbers, size_t count)
{
    for (size_t i = 0; i < room; i++)
        check_equal("burst: answers", list[i], i < count ? numbers[i] : lent_number(i));
}

/*
 * What a burst answers, where memory with so many bytes around it is lent. The answer stands at its
 * exact size on the heap, for valgrind. The reports are not written on.
 */
static table_t call_burst(table_t table, const struct burst *burst, size_t around, uint64_t number,
                          const uint64_t *numbers)
{
    struct lent reports = lend_reports(burst->reports, burst->count, around);
    struct lent copy = lend_reports(burst->reports, burst->count, around);
    struct lent list = lend_list(burst->room, around);
    answered_t *answered = allocate(sizeof *answered);
    table_t after;

    *answered = prunepocket_report_burst(table, start_of(&reports), burst->count, burst->reading,
                                         start_of(&list), burst->room);
    after = answered->table;
    check_equal("burst: number", number_at(answered, 0, 8), number);
    check_list(start_of(&list), burst->room, numbers,
               number == PRUNEPOCKET_ACCEPTED ? burst->count : 0);
    check_true("burst: the reports as before",
               memcmp(start_of(&reports), start_of(&copy), reports.bytes) == 0);
    take_back("burst: bytes around the reports", reports);
    take_back("burst: bytes around the list", list);
    free(copy.block);
    free(answered);
    return after;
}

/* Bytes around the memory that is lent, which keep it aligned. */
#define AROUND 64

/* The table after a burst that is taken, with a number for each report. */
static table_t burst_taken(table_t table, struct burst burst, const uint64_t *numbers)
{
    table_t after = call_burst(table, &burst, AROUND, PRUNEPOCKET_ACCEPTED, numbers);
    table_t again = call_burst(table, &burst, 0, PRUNEPOCKET_ACCEPTED, numbers);

    check_true("burst: the same table again", same_table(&again, &after));
    return after;
}

/* Refused: table, tallies and list are as before. */
static void burst_refused(table_t table, struct burst burst, uint64_t number)
{
    table_t after = call_burst(table, &burst, AROUND, number, NULL);
    table_t again = call_burst(table, &burst, 0, number, NULL);

    check_true("burst: the table after a refusal", same_table(&after, &table));
    check_true("burst: the table after a refusal", same_table(&again, &table));
}

/* At the reading of the cases, with a list that is exactly as long. */
#define BURST(records, length) ((struct burst){records, length, now, length})

/* Takes arrays of records and of numbers, of the same length. */
#define TAKEN(table, records, numbers) \
    (check_equal("a number for each report", LENGTH(records), LENGTH(numbers)), \
     burst_taken(table, BURST(records, LENGTH(records)), numbers))

/* The table after the reports one by one, and the number of each. */
static table_t one_by_one(table_t table, const struct burst *burst, uint64_t *numbers)
{
    for (size_t i = 0; i < burst->count; i++) {
        answered_t answered = prunepocket_report(table, burst->reports[i], burst->reading);

        numbers[i] = answered.number;
        table = answered.table;
    }
    return table;
}

/* Table, target and numbers are those of the single reports. The numbers are handed to the caller. */
static table_t check_as_single(table_t table, struct burst burst, uint64_t numbers[BURST_LIMIT])
{
    table_t expected = one_by_one(table, &burst, numbers);
    table_t after = burst_taken(table, burst, numbers);
    target_t target = prunepocket_choose(after, burst.reading).target;
    target_t single = prunepocket_choose(expected, burst.reading).target;

    check_true("burst: the table of the single reports", same_table(&after, &expected));
    check_true("burst: the target of the single reports", same_target(&target, &single));
    return after;
}

/* ---- Values ---------------------------------------------------------------------------------- */

/* Reports of the sources from this one on, in turn. */
static void put_arrivals(record_t *reports, size_t count, uint32_t first)
{
    for (size_t i = 0; i < count; i++)
        reports[i] = arrival(first + (uint32_t)i);
}

static void put_numbers(uint64_t *numbers, size_t count, uint64_t number)
{
    for (size_t i = 0; i < count; i++)
        numbers[i] = number;
}

static void put_alike(record_t *reports, size_t count, record_t record)
{
    for (size_t i = 0; i < count; i++)
        reports[i] = record;
}

static record_t from_origin(record_t record, origin_t origin)
{
    record.origin = origin;
    return record;
}

/* The same report at another payload type, so that it is told apart. */
static record_t marked(record_t record, uint8_t payload_type)
{
    record.report.payload_type = payload_type;
    return record;
}

/* A report that gets this number, 13 to 17, where the table holds source 10. */
static record_t refused_with(uint64_t number)
{
    record_t record = arrival(50);

    switch (number) {
    case PRUNEPOCKET_OTHER_STREAM:
        record.report.media = MEDIA + 1;
        break;
    case PRUNEPOCKET_OTHER_ORIGIN:
        return twin_at(unit(11));
    case PRUNEPOCKET_RECEIVED_FAR:
        record.report.received = now.ntp + 1;
        break;
    case PRUNEPOCKET_RTP_AGED:
        record.report.rtp = now.rtp + 1;
        break;
    default:
        record.report.p = 1;
        record.report.presented = (uint32_t)(now.ntp >> 16) + SHORT_SECONDS(30) + 1;
        break;
    }
    return record;
}

#define STATES 7

/* Tables to which a burst does something: numbers join, own reports replace, twins raise tallies. */
static table_t states[STATES];

static void make_states(void)
{
    table_t full = full_table();
    table_t with_10;

    CASE("tables to start from");
    states[0] = opened();
    states[1] = with_two(record_10(), arrival(101));
    states[2] = left_by_farewells(full, UINT64_C(0x00FF00FF0F0F3355));
    states[3] = full;
    states[4] = with_tallies(full, LIMIT - 63, 1);
    states[5] = with_tallies(table_of(UINT64_C(0x5555555555555555)), LIMIT, UINT32_MAX);
    with_10 = report(left_by_farewells(full, ~UINT64_C(8)), record_10(), now, PRUNEPOCKET_ACCEPTED);
    states[6] = sweep(with_10, (reading_t){SECONDS(999), now.rtp}, 1);
}

/* In turn a new number, a member's own report, a twin of it, and one of another stream. */
static record_t mixed_report(size_t index)
{
    uint32_t source = 90 + (uint32_t)(index * 7 % 80);

    switch (index % 4) {
    case 0:
        return arrival(source);
    case 1:
        return marked(arrival(100 + (uint32_t)index % 64), (uint8_t)index);
    case 2:
        return from_origin(arrival(100 + (uint32_t)index % 64), unit(31));
    default:
        return refused_with(PRUNEPOCKET_OTHER_STREAM);
    }
}

static void put_mixed(record_t *reports, size_t count)
{
    for (size_t i = 0; i < count; i++)
        reports[i] = mixed_report(i);
}

/* ---- Lengths --------------------------------------------------------------------------------- */

/* A burst of some length with a list of another: taken, or 23 or 24. */
static void check_lengths(table_t table, const record_t *reports, size_t count, size_t room)
{
    struct burst burst = {reports, count, now, room};
    uint64_t numbers[BURST_LIMIT];

    if (count > BURST_LIMIT)
        burst_refused(table, burst, PRUNEPOCKET_LONG_BURST);
    else if (room < count)
        burst_refused(table, burst, PRUNEPOCKET_SHORT_ANSWERS);
    else
        check_as_single(table, burst, numbers);
}

/* Lists around a length, and lists that are longer and shorter than any burst. */
static void check_rooms(table_t table, const record_t *reports, size_t count)
{
    size_t rooms[] = {0, 1, 63, 64, 65, 100, 256, 1000, count > 0 ? count - 1 : 0, count, count + 1};

    for (size_t i = 0; i < LENGTH(rooms); i++)
        check_lengths(table, reports, count, rooms[i]);
}

static void test_lengths(void)
{
    static const size_t counts[] = {0, 1, 2, 31, 62, 63, 64, 65, 66, 100};
    record_t reports[100];

    put_mixed(reports, LENGTH(reports));
    CASE("bursts and lists of several lengths");
    for (size_t state = 0; state < STATES; state++) {
        for (size_t i = 0; i < LENGTH(counts); i++)
            check_rooms(states[state], reports, counts[i]);
    }
}

/* Every length of a burst, with every length of a list that is shorter, and with one as long. */
static void test_every_length(void)
{
    record_t reports[BURST_LIMIT];

    CASE("every length of burst and list");
    put_mixed(reports, LENGTH(reports));
    for (size_t count = 0; count <= BURST_LIMIT; count++) {
        for (size_t room = 0; room <= count; room++)
            check_lengths(states[2], reports, count, room);
    }
}

/* Lengths of which the last eight or sixteen bits say 64 or less. */
static void test_long_bursts(void)
{
    static const size_t counts[] = {65, 127, 128, 192, 255, 256, 257, 320, 1000, 65536, 65600};
    record_t *reports = allocate(65600 * sizeof *reports);

    CASE("more than 64 reports, whatever the list");
    put_mixed(reports, 65600);
    for (size_t i = 0; i < LENGTH(counts); i++) {
        size_t rooms[] = {0, 1, 63, 64, counts[i] - 1, counts[i], counts[i] + 1};

        for (size_t j = 0; j < LENGTH(rooms); j++)
            burst_refused(states[j % STATES],
                          (struct burst){reports, counts[i], now, rooms[j]},
                          PRUNEPOCKET_LONG_BURST);
    }
    free(reports);
}

static void test_long_lists(void)
{
    static const size_t rooms[] = {65, 127, 128, 255, 256, 257, 65535, 65536, 65537};
    record_t reports[BURST_LIMIT];

    CASE("lists that are longer than any burst");
    put_mixed(reports, LENGTH(reports));
    for (size_t i = 0; i < LENGTH(rooms); i++) {
        check_lengths(states[1], reports, 64, rooms[i]);
        check_lengths(states[4], reports, 1, rooms[i]);
    }
}

static void test_empty_bursts(void)
{
    static const size_t rooms[] = {0, 1, 2, 63, 64, 65, 1000};
    record_t none = record_10();

    CASE("a burst without reports, whatever the list");
    for (size_t state = 0; state < STATES; state++) {
        for (size_t i = 0; i < LENGTH(rooms); i++) {
            struct burst burst = {&none, 0, now, rooms[i]};
            table_t after = burst_taken(states[state], burst, NULL);

            check_true("the table as before", same_table(&after, &states[state]));
        }
    }
}

/* ---- Twins ----------------------------------------------------------------------------------- */

static void test_two_twins(void)
{
    static const uint64_t numbers[] = {PRUNEPOCKET_ACCEPTED, PRUNEPOCKET_OTHER_ORIGIN};
    record_t first[] = {record_10(), twin_at(unit(11))};
    record_t second[] = {twin_at(unit(11)), record_10()};
    table_t table;

    CASE("two twins in one burst: the first holds the number");
    table = TAKEN(opened(), first, numbers);
    check_equal("members", prunepocket_count_members(table), 1);
    check_tallied(table, 0, record_10(), 1);
    check_vacant(table, 1);

    CASE("the same two in the other order");
    table = TAKEN(opened(), second, numbers);
    check_equal("members", prunepocket_count_members(table), 1);
    check_tallied(table, 0, twin_at(unit(11)), 1);

    CASE("the same two in one burst more: the holder stays");
    table = burst_taken(table, BURST(second, 2), numbers);
    check_tallied(table, 0, twin_at(unit(11)), 2);
}

static void test_twins_among_reports(void)
{
    static const uint64_t behind[] = {0, 0, 14};
    static const uint64_t between[] = {0, 14, 0};
    static const uint64_t three[] = {0, 14, 0, 14, 14, 0};
    record_t again = marked(record_10(), 34);
    record_t own_first[] = {record_10(), again, twin_at(unit(11))};
    record_t own_around[] = {record_10(), twin_at(unit(11)), again};
    record_t origins[] = {record_10(),         twin_at(unit(11)), record_20(),
                          twin_at(unit(12)), twin_at(unit(11)), again};
    table_t table;

    CASE("a twin behind the holder's own second report");
    table = TAKEN(opened(), own_first, behind);
    check_tallied(table, 0, again, 1);
    check_equal("members", prunepocket_count_members(table), 1);

    CASE("a twin between the holder's two reports");
    table = TAKEN(opened(), own_around, between);
    check_tallied(table, 0, again, 1);

    CASE("twins of two origins among other reports");
    table = TAKEN(opened(), origins, three);
    check_tallied(table, 0, again, 3);
    check_member(table, 1, record_20());
    check_equal("members", prunepocket_count_members(table), 2);
}

static void test_twins_of_members(void)
{
    static const uint64_t numbers[] = {14, 0, 14, 13, 14};
    record_t reports[] = {twin_at(unit(11)), record_20(), from_origin(record_20(), unit(21)),
                          twin_at(unit(11)), twin_at(unit(12))};
    table_t table;

    CASE("twins of a member from before, and of one that joins in the burst");
    reports[3].report.group = GROUP + 1;
    table = TAKEN(with_one(record_10()), reports, numbers);
    check_tallied(table, 0, record_10(), 2);
    check_tallied(table, 1, record_20(), 1);
    check_chosen(table, now, 20, 2);

    CASE("a member leaves, and its twin joins in a burst: the first unit is the twin now");
    table = farewell(table, 10, unit(10), PRUNEPOCKET_ACCEPTED);
    reports[3] = record_10();
    table = TAKEN(table, reports, ((uint64_t[]){0, 0, 14, 14, 14}));
    check_tallied(table, 0, twin_at(unit(11)), 2);
    check_tallied(table, 1, record_20(), 2);
}

static void test_refused_twins(void)
{
    static const uint64_t numbers[] = {PRUNEPOCKET_OTHER_ORIGIN};
    record_t reports[BURST_LIMIT + 1];
    table_t table = with_two(record_20(), record_10());

    CASE("a refused burst of a twin raises no tally");
    table.members[1].tally = 5;
    put_alike(reports, LENGTH(reports), twin_at(unit(11)));
    burst_refused(table, (struct burst){reports, 65, now, 65}, PRUNEPOCKET_LONG_BURST);
    burst_refused(table, (struct burst){reports, 65, now, 64}, PRUNEPOCKET_LONG_BURST);
    burst_refused(table, (struct burst){reports, 64, now, 63}, PRUNEPOCKET_SHORT_ANSWERS);
    burst_refused(table, (struct burst){reports, 1, now, 0}, PRUNEPOCKET_SHORT_ANSWERS);
    check_tallied(burst_taken(table, BURST(reports, 1), numbers), 1, record_10(), 6);
}

/* Each of the 144 bits of an origin counts, and each report stands under its own origin. */
static void test_origins(void)
{
    static const uint64_t numbers[] = {0, 14, 0};

    CASE("twins in one burst whose origins differ in one bit");
    for (size_t bit = 0; bit < 144; bit++) {
        record_t reports[] = {record_10(), twin_at(unit(10)), record_20()};
        origin_t *origin = &reports[1].origin;
        table_t table;

        if (bit < 128)
            origin->address[bit / 8] ^= (uint8_t)(1u << bit % 8);
        else
            origin->port ^= (uint16_t)(1u << (bit - 128));
        reports[2].origin = *origin;
        table = TAKEN(opened(), reports, numbers);
        check_tallied(table, 0, record_10(), 1);
        check_member(table, 1, reports[2]);
    }
}

/* ---- Refused reports ------------------------------------------------------------------------- */

/* One of nine reports is refused: all others join in their order. */
static void check_refused_among(uint64_t number, size_t place)
{
    record_t reports[9];
    uint64_t numbers[LENGTH(reports)] = {0};
    table_t table;
    size_t joined = 0;

    put_arrivals(reports, LENGTH(reports), 200);
    reports[place] = refused_with(number);
    numbers[place] = number;
    table = TAKEN(with_one(record_10()), reports, numbers);
    check_equal("members", prunepocket_count_members(table), 9);
    check_tallied(table, 0, record_10(), number == PRUNEPOCKET_OTHER_ORIGIN);
    for (size_t i = 0; i < LENGTH(reports); i++) {
        if (i != place)
            check_member(table, ++joined, reports[i]);
    }
}

static void test_refused_among(void)
{
    CASE("a report refused with 13 to 17, at each place of a burst");
    for (size_t place = 0; place < 9; place++) {
        for (uint64_t number = PRUNEPOCKET_OTHER_STREAM; number < PRUNEPOCKET_NO_ROOM; number++)
            check_refused_among(number, place);
    }
}

static void test_all_refusals(void)
{
    static const uint64_t numbers[] = {13, 14, 15, 16, 17, 0, 17, 16, 15, 14, 13, 0};
    static const uint64_t in_full[] = {18, 13, 0, 14, 18, 15, 16, 17, 18, 0};
    record_t reports[LENGTH(numbers)];
    record_t full[] = {arrival(200),      refused_with(13), marked(arrival(100), 1),
                       twin_at(unit(11)), arrival(201),     refused_with(15),
                       refused_with(16),  refused_with(17), arrival(200),
                       marked(arrival(163), 2)};
    table_t table;

    CASE("every refusal of a report in one burst, in either order");
    for (size_t i = 0; i < LENGTH(numbers); i++)
        reports[i] = numbers[i] != 0 ? refused_with(numbers[i]) : wired((uint8_t)(60 + i));
    table = TAKEN(with_one(record_10()), reports, numbers);
    check_tallied(table, 0, record_10(), 2);
    check_member(table, 1, wired(65));
    check_member(table, 2, wired(71));
    check_equal("members", prunepocket_count_members(table), 3);

    CASE("every refusal of a report in one burst, where all places are held");
    full[3] = from_origin(arrival(110), unit(31));
    table = TAKEN(full_table(), full, in_full);
    check_member(table, 0, marked(arrival(100), 1));
    check_tallied(table, 10, arrival(110), 1);
    check_member(table, 63, marked(arrival(163), 2));
}

/* As many as there can be, into a full table: nothing is changed but the tally of source 10. */
static void check_all_refused(uint64_t number)
{
    record_t reports[BURST_LIMIT];
    uint64_t numbers[BURST_LIMIT];
    table_t table = full_table();
    table_t expected;

    table.members[17].record = record_10();
    expected = table;
    expected.members[17].tally = number == PRUNEPOCKET_OTHER_ORIGIN ? BURST_LIMIT : 0;
    put_alike(reports, BURST_LIMIT,
              number == PRUNEPOCKET_NO_ROOM ? arrival(200) : refused_with(number));
    put_numbers(numbers, BURST_LIMIT, number);
    table = TAKEN(table, reports, numbers);
    check_true("the table", same_table(&table, &expected));
}

static void test_all_refused(void)
{
    CASE("sixty-four reports that are all refused alike");
    for (uint64_t number = PRUNEPOCKET_OTHER_STREAM; number <= PRUNEPOCKET_NO_ROOM; number++)
        check_all_refused(number);
}

/* ---- Places ---------------------------------------------------------------------------------- */

static void test_filling(void)
{
    record_t reports[BURST_LIMIT];
    uint64_t numbers[BURST_LIMIT] = {0};
    table_t full = full_table();
    table_t table;

    CASE("a burst of 64 fills an empty table");
    put_arrivals(reports, BURST_LIMIT, 100);
    table = TAKEN(opened(), reports, numbers);
    check_true("as the single reports", same_table(&table, &full));
    check_places(&table, &full);
    check_chosen(table, now, 100, 64);

    CASE("the same burst again");
    table = TAKEN(table, reports, numbers);
    check_true("the table as before", same_table(&table, &full));

    CASE("64 new numbers where all places are held");
    put_arrivals(reports, BURST_LIMIT, 200);
    put_numbers(numbers, BURST_LIMIT, PRUNEPOCKET_NO_ROOM);
    table = TAKEN(full, reports, numbers);
    check_true("the table as before", same_table(&table, &full));
}

/* Places go by list order, and not by number. */
static void test_falling_numbers(void)
{
    record_t reports[BURST_LIMIT];
    uint64_t numbers[BURST_LIMIT] = {0};
    table_t expected = table_of(UINT64_MAX);
    table_t table;

    CASE("a burst of 64 with the highest number first");
    for (uint32_t i = 0; i < BURST_LIMIT; i++) {
        reports[i] = arrival(163 - i);
        expected.members[i].record = reports[i];
    }
    table = TAKEN(opened(), reports, numbers);
    check_places(&table, &expected);
    check_chosen(table, now, 100, 64);
}

/* 64 new numbers: the first take the free places, lowest first, and the others get 18. */
static void check_filled(const table_t *full, uint64_t word)
{
    record_t reports[BURST_LIMIT];
    uint64_t numbers[BURST_LIMIT];
    table_t table = left_by_farewells(*full, word);
    table_t expected = table_of(word);

    put_arrivals(reports, BURST_LIMIT, 200);
    for (size_t i = 0; i < BURST_LIMIT; i++) {
        size_t place = lowest_free(expected.held);

        numbers[i] = place < PRUNEPOCKET_PLACES ? PRUNEPOCKET_ACCEPTED : PRUNEPOCKET_NO_ROOM;
        if (place < PRUNEPOCKET_PLACES) {
            expected.held = with_place(expected.held, place);
            expected.members[place].record = reports[i];
        }
    }
    table = TAKEN(table, reports, numbers);
    check_places(&table, &expected);
}

static void test_free_places(void)
{
    table_t full = full_table();

    CASE("new numbers at the lowest free places, each number of them free");
    for (size_t lowest = 0; lowest <= PRUNEPOCKET_PLACES; lowest++) {
        check_filled(&full, word_with(lowest, 0));
        check_filled(&full, word_with(lowest, UINT64_MAX));
        check_filled(&full, word_with(lowest, next_random()));
    }
}

/* ---- One number ------------------------------------------------------------------------------ */

/* Every so many reports, the holder's own; the others are its twin's. From one tally to another. */
static void check_one_number(size_t own_every, uint32_t from, uint32_t to)
{
    record_t reports[BURST_LIMIT];
    uint64_t numbers[BURST_LIMIT];
    table_t table = with_two(record_20(), record_10());
    table_t expected;

    table.members[1].tally = from;
    expected = table;
    expected.members[1].tally = to;
    for (size_t i = 0; i < BURST_LIMIT; i++) {
        int is_own = i % own_every == 0;

        reports[i] = is_own ? marked(record_10(), (uint8_t)i) : twin_at(unit(11));
        numbers[i] = is_own ? PRUNEPOCKET_ACCEPTED : PRUNEPOCKET_OTHER_ORIGIN;
        if (is_own)
            expected.members[1].record = reports[i];
    }
    table = TAKEN(table, reports, numbers);
    check_true("all else as before", same_table(&table, &expected));
    check_places(&table, &expected);
}

static void test_one_number(void)
{
    CASE("64 reports of one member: the last one stands, and no tally is raised");
    check_one_number(1, 0, 0);
    check_one_number(1, LIMIT, LIMIT);

    CASE("64 reports of a member and its twin");
    check_one_number(2, 0, 32);
    check_one_number(64, 0, 63);
    check_one_number(3, 7, 7 + 42);

    CASE("64 reports of a member and its twin, near the limit of the tally");
    check_one_number(2, LIMIT - 33, LIMIT - 1);
    check_one_number(2, LIMIT - 32, LIMIT);
    check_one_number(2, LIMIT - 31, LIMIT);
    check_one_number(64, LIMIT - 1, LIMIT);
    check_one_number(64, LIMIT, LIMIT);
}

static void test_new_number(void)
{
    record_t reports[BURST_LIMIT];
    uint64_t numbers[BURST_LIMIT];
    table_t table;

    CASE("64 origins report one new number: the first holds it");
    for (uint8_t i = 0; i < BURST_LIMIT; i++) {
        reports[i] = from_origin(record_10(), unit(100 + i));
        numbers[i] = i == 0 ? PRUNEPOCKET_ACCEPTED : PRUNEPOCKET_OTHER_ORIGIN;
    }
    table = TAKEN(with_one(record_20()), reports, numbers);
    check_member(table, 0, record_20());
    check_tallied(table, 1, reports[0], 63);
    check_equal("members", prunepocket_count_members(table), 2);

    CASE("a new number at the place of one that left with a tally begins at 0");
    table = farewell(table, 10, unit(100), PRUNEPOCKET_ACCEPTED);
    table = burst_taken(table, BURST(reports, 3), numbers);
    check_tallied(table, 1, reports[0], 2);
}

/* ---- The reading ----------------------------------------------------------------------------- */

/* A report that was received at a reading. */
static record_t arrival_at(uint32_t source, reading_t reading)
{
    record_t record = arrival(source);

    record.report.received = reading.ntp;
    record.report.rtp = reading.rtp;
    return record;
}

/* At the limits of 15 and 16, and a unit or a tick beside. */
static void check_at_limits(reading_t reading)
{
    static const uint64_t numbers[] = {0, 15, 0, 15, 0, 16, 0, 16};
    record_t reports[LENGTH(numbers)];
    table_t table;

    put_alike(reports, LENGTH(reports), arrival_at(60, reading));
    reports[0].report.received = reading.ntp - SECONDS(30);
    reports[1].report.received = reading.ntp - SECONDS(30) - 1;
    reports[3].report.received = reading.ntp + 1;
    reports[4].report.rtp = reading.rtp - 60 * RATE;
    reports[5].report.rtp = reading.rtp - 60 * RATE - 1;
    reports[7].report.rtp = reading.rtp + 1;
    for (uint32_t i = 0; i < LENGTH(reports); i++)
        reports[i].source = 60 + i;
    table = burst_taken(opened(), (struct burst){reports, 8, reading, 8}, numbers);
    check_member(table, 0, reports[0]);
    check_member(table, 1, reports[2]);
    check_member(table, 2, reports[4]);
    check_member(table, 3, reports[6]);
    check_equal("members", prunepocket_count_members(table), 4);
}

static void test_readings(void)
{
    static const uint64_t ntps[] = {0, 1, SECONDS(30), SECONDS(1000), UINT64_C(1) << 63, UINT64_MAX};
    static const uint32_t rtps[] = {0, 60, 9000000, UINT32_C(1) << 31, UINT32_MAX};

    CASE("one reading for all reports, at the limits");
    for (size_t i = 0; i < LENGTH(ntps); i++) {
        for (size_t j = 0; j < LENGTH(rtps); j++)
            check_at_limits((reading_t){ntps[i], rtps[j]});
    }
}

/* The papers' two reports: what the table chooses behind the burst. */
static void test_target(void)
{
    record_t reports[] = {record_10(), record_20()};
    record_t reversed[] = {record_20(), record_10()};
    static const uint64_t numbers[] = {0, 0};

    CASE("the target of P1 and P2 in one burst");
    check_target(choose(TAKEN(opened(), reports, numbers), now), target_20);
    check_target(choose(TAKEN(opened(), reversed, numbers), now), target_20);
}

/* ---- Random bursts --------------------------------------------------------------------------- */

#define RANDOM_BURSTS 350

/* The numbers that reports of random bursts got, 0 to 18. */
static unsigned long met[19];

/* Random bursts in which a report was refused before one that was accepted. */
static unsigned long met_behind_refusal;

/* Random bursts with a twin of a number that joined in the same burst. */
static unsigned long met_new_twin;

static void count_met(const table_t *before, const struct burst *burst, const uint64_t *numbers)
{
    size_t first_refusal = burst->count;
    size_t last_accepted = 0;
    int new_twin = 0;

    for (size_t i = 0; i < burst->count; i++) {
        uint32_t source = burst->reports[i].source;

        met[numbers[i] < LENGTH(met) ? numbers[i] : 0]++;
        if (numbers[i] != 0 && i < first_refusal)
            first_refusal = i;
        if (numbers[i] == 0)
            last_accepted = i;
        new_twin |= numbers[i] == 14 && place_of(before, source) == PRUNEPOCKET_PLACES;
    }
    met_behind_refusal += first_refusal < last_accepted;
    met_new_twin += (unsigned)new_twin;
}

/* Mostly any length, and often the least and the most. */
static size_t random_length(void)
{
    switch (next_random() % 8) {
    case 0:
        return next_random() % 3;
    case 1:
        return BURST_LIMIT - next_random() % 2;
    default:
        return next_random() % (BURST_LIMIT + 1);
    }
}

/* From few numbers and two origins, or from many; one of two is spoilt, or has P 1 and step 0. */
static record_t random_report(int few)
{
    uint32_t source = few ? 98 + next_random() % 5 : 80 + next_random() % 120;
    record_t record = arrival(source);

    switch (next_random() % 16) {
    case 0:
        record.report.group ^= 1;
        break;
    case 1:
        record.report.received -= SECONDS(30) + next_random() % 2;
        break;
    case 2:
        record.report.rtp -= 60 * RATE + next_random() % 2;
        break;
    case 3:
        record.report.p = 1;
        record.report.presented = SHORT_SECONDS(1030) + next_random() % 2;
        break;
    case 4:
    case 5:
        record.report = wired_at(0, now.ntp - next_random() % SECONDS(1)).report;
        break;
    default:
        break;
    }
    if (next_random() % 4 == 0)
        record.origin = unit(31);
    return marked(record, (uint8_t)next_random());
}

static table_t random_burst(table_t table, const record_t *reports, size_t count,
                            reading_t reading)
{
    struct burst burst = {reports, count, reading, count + next_random() % 3};
    uint64_t numbers[BURST_LIMIT];
    table_t after = check_as_single(table, burst, numbers);

    count_met(&table, &burst, numbers);
    return after;
}

/* The table after a burst of any length. */
static table_t any_burst(table_t table, int few)
{
    record_t reports[BURST_LIMIT];
    size_t count = random_length();

    for (size_t i = 0; i < count; i++)
        reports[i] = random_report(few);
    return random_burst(table, reports, count, now);
}

/* From every state, two bursts in turn. */
static void test_random_bursts(void)
{
    CASE("random bursts, as the single reports");
    for (size_t i = 0; i < RANDOM_BURSTS; i++)
        any_burst(any_burst(states[i % STATES], i % 2 == 0), i % 2 == 0);
}

/* One report more than a burst may have. They share their times, so that one reading suits them. */
static void put_random(record_t *reports, const table_t *table, int few)
{
    for (size_t i = 0; i <= BURST_LIMIT; i++) {
        reports[i] = random_record(table, few);
        if (next_random() % 4 != 0)
            reports[i].report = reports[0].report;
    }
}

/* Tables that C has written on: also numbers that are held twice, and any group and rate. */
static void test_random_tables(void)
{
    record_t reports[BURST_LIMIT + 1];

    CASE("bursts into tables of random bytes, as the single reports");
    for (int i = 0; i < RANDOM_BURSTS; i++) {
        int few = i % 2;
        table_t table = random_table(few);
        size_t count = random_length();
        reading_t reading;

        put_random(reports, &table, few);
        reading = random_reading(&reports[0], few);
        random_burst(table, reports, count, reading);
        burst_refused(table, (struct burst){reports, count + 1, reading, count},
                      count < BURST_LIMIT ? PRUNEPOCKET_SHORT_ANSWERS : PRUNEPOCKET_LONG_BURST);
    }
}

static void test_met(void)
{
    static const uint8_t numbers[] = {0, 13, 14, 15, 16, 17, 18};

    CASE("what random bursts met");
    for (size_t i = 0; i < LENGTH(numbers); i++)
        check_true("each number in one of two hundred reports or more",
                   met[numbers[i]] >= RANDOM_BURSTS * 3 * 32 / 200);
    check_true("an accepted report behind a refused one", met_behind_refusal >= RANDOM_BURSTS / 2);
    check_true("a twin of a number that joined in the burst", met_new_twin >= RANDOM_BURSTS / 10);
}

int main(void)
{
    start_checks(__FILE__);
    make_states();
    test_lengths();
    test_every_length();
    test_long_bursts();
    test_long_lists();
    test_empty_bursts();
    test_two_twins();
    test_twins_among_reports();
    test_twins_of_members();
    test_refused_twins();
    test_origins();
    test_refused_among();
    test_all_refusals();
    test_all_refused();
    test_filling();
    test_falling_numbers();
    test_free_places();
    test_one_number();
    test_new_number();
    test_readings();
    test_target();
    test_random_bursts();
    test_random_tables();
    test_met();
    return finish_checks();
}
