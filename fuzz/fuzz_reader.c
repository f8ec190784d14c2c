/*
 * Gives every input as a datagram to the archive's readers and to the decoder, once where reduced size was agreed and
 * once where it was not, and aborts where they differ, where a call writes outside of what was lent to it, or where it
 * writes at all though it refuses.
 */
#include "decoder.h"
#include "lend.h"
#include "prunepocket.h"

#include <inttypes.h>
#include <stdio.h>
#include <stdlib.h>
#include <string.h>

enum { NUMBERS = 8, BUCKETS = 32, BUCKET_BYTES = 64, KINDS = 4 };

/*
 * The archive is not instrumented, and what the decoder does is seen by its branches. These counters tell the fuzzer
 * more: which refusal was met in which part of the datagram, at reduced size and not, and how many items there are of
 * each kind.
 */
__attribute__((section("__libfuzzer_extra_counters"))) static uint8_t counters[2][NUMBERS * BUCKETS + KINDS];

/* What was met since the start, where reduced size was not agreed and where it was. */
static struct met {
    uint64_t runs[NUMBERS];
    uint8_t places[NUMBERS][MOST_ITEMS];
    uint64_t items[KINDS];
    size_t most_items;
} met[2];
static uint64_t calls;

static void print_met_at(const struct met *at)
{
    fprintf(stderr, "refusal       runs  places  first   last\n");
    for (size_t number = 0; number < NUMBERS; number++) {
        size_t distinct = 0, first = 0, last = 0;

        for (size_t i = 0; i < MOST_ITEMS; i++) {
            if (!at->places[number][i])
                continue;
            if (distinct++ == 0)
                first = 4 * i;
            last = 4 * i;
        }
        fprintf(stderr, "%7zu %10" PRIu64 " %7zu %6zu %6zu\n", number, at->runs[number], distinct, first, last);
    }
    fprintf(stderr, "items: %" PRIu64 " reports, %" PRIu64 " settings, %" PRIu64 " farewells, "
                    "at most %zu in a datagram\n",
            at->items[REPORT], at->items[SETTINGS], at->items[FAREWELL], at->most_items);
}

static void print_met(void)
{
    fprintf(stderr, "calls of the archive: %" PRIu64 "\nreduced size not agreed:\n", calls);
    print_met_at(&met[0]);
    fprintf(stderr, "reduced size agreed:\n");
    print_met_at(&met[1]);
}

/* The datagram stands twice in memory: before a page that may not be read, and behind one. */
enum { MOST_INPUT = 4096, MOST_ROW_NUMBERS = PRUNEPOCKET_ROW * (MOST_ITEMS + 2), GUARDS = 32 };
static struct lent before_fence, behind_fence, row_memory;

int LLVMFuzzerInitialize(int *argc, char ***argv)
{
    (void)argc;
    (void)argv;
    before_fence = lend(MOST_INPUT);
    behind_fence = lend(MOST_INPUT);
    row_memory = lend((GUARDS + MOST_ROW_NUMBERS) * sizeof(uint64_t));
    atexit(print_met);
    return 0;
}

static void differ(const char *what, uint64_t archive, uint64_t decoder)
{
    fprintf(stderr, "differs: %s: archive %" PRIu64 ", expected %" PRIu64 "\n", what, archive, decoder);
    abort();
}

static void same(const char *what, uint64_t archive, uint64_t decoder)
{
    if (archive != decoder)
        differ(what, archive, decoder);
}

static void same_answer(const char *what, struct prunepocket_answer archive, uint64_t number, uint64_t place)
{
    if (archive.number != number)
        fprintf(stderr, "at %" PRIu64 " and %" PRIu64 ": ", archive.place, place);
    same(what, archive.number, number);
    same("place", archive.place, place);
}

/* A number to be written, between two that are not. */
struct between {
    uint64_t front[2];
    uint64_t number;
    uint64_t back[2];
};

static struct between filled(void)
{
    return (struct between){{fill(0), fill(1)}, fill(2), {fill(3), fill(4)}};
}

static void check_between(const char *what, const struct between *lent, uint64_t expected)
{
    same(what, lent->number, expected);
    same("before the number", lent->front[0], fill(0));
    same("before the number", lent->front[1], fill(1));
    same("behind the number", lent->back[0], fill(3));
    same("behind the number", lent->back[1], fill(4));
}

static void columns(const struct item *item, uint64_t row[PRUNEPOCKET_ROW])
{
    row[PRUNEPOCKET_FIELD_KIND] = item->kind;
    row[PRUNEPOCKET_FIELD_PLACE] = item->place;
    row[PRUNEPOCKET_FIELD_SOURCE] = item->source;
    row[PRUNEPOCKET_FIELD_GROUP] = item->group;
    row[PRUNEPOCKET_FIELD_MEDIA] = item->media;
    row[PRUNEPOCKET_FIELD_RECEIVED] = item->received;
    row[PRUNEPOCKET_FIELD_RTP] = item->rtp;
    row[PRUNEPOCKET_FIELD_PRESENTED] = item->presented;
    row[PRUNEPOCKET_FIELD_PAYLOAD_TYPE] = item->payload_type;
    row[PRUNEPOCKET_FIELD_P] = item->p;
}

static uint64_t fields_of(enum kind kind)
{
    switch (kind) {
    case REPORT:
        return 10;
    case SETTINGS:
        return 8;
    default:
        return 3;
    }
}

/* Calls that were told of reduced size since the input came, so that an input is told the same in every run. */
static size_t calls_told;

/* What the next call is told: 0 where reduced size was not agreed, and where it was, each of some other values. */
static uint32_t told(bool reduced_size)
{
    static const uint32_t agreed[] = {1, 2, 255, 256, 65536, 0x80000000, UINT32_MAX};

    return reduced_size ? agreed[calls_told++ % (sizeof agreed / sizeof agreed[0])] : 0;
}

static void check_count(const uint8_t *datagram, size_t length, bool reduced_size, const struct decoded *decoded)
{
    struct between count = filled();

    calls++;
    struct prunepocket_answer answer = prunepocket_count_items(datagram, length, told(reduced_size), &count.number);

    same_answer("count_items", answer, decoded->refusal, decoded->place);
    check_between("item count", &count, decoded->refusal ? fill(2) : decoded->count);
}

/* The array ends at a page that may not be touched, and guard values stand before it. */
static void check_rows(const uint8_t *datagram, size_t length, bool reduced_size, const struct decoded *decoded,
                       size_t rows_length)
{
    uint64_t *rows = (uint64_t *)(void *)row_memory.end - rows_length;
    uint64_t *guards = rows - GUARDS;
    size_t needed = PRUNEPOCKET_ROW * decoded->count;
    size_t written = 0;
    uint64_t number = decoded->refusal;
    struct between count = filled();

    for (size_t i = 0; i < GUARDS + rows_length; i++)
        guards[i] = fill(i);

    calls++;
    struct prunepocket_answer answer =
        prunepocket_read_items(datagram, length, told(reduced_size), rows, rows_length, &count.number);

    if (number == 0 && rows_length < needed)
        number = PRUNEPOCKET_SHORT_BUFFER;
    same_answer("read_items", answer, number, decoded->place);
    check_between("count of read_items", &count, number ? fill(2) : decoded->count);

    if (number == 0) {
        for (size_t i = 0; i < decoded->count; i++) {
            uint64_t row[PRUNEPOCKET_ROW];

            columns(&decoded->items[i], row);
            for (size_t column = 0; column < PRUNEPOCKET_ROW; column++)
                same("column of a row", rows[PRUNEPOCKET_ROW * i + column], row[column]);
        }
        written = needed;
    }
    for (size_t i = 0; i < GUARDS; i++)
        same("before the rows", guards[i], fill(i));
    for (size_t i = written; i < rows_length; i++)
        same("behind the rows", rows[i], fill(GUARDS + i));
}

static void check_field(const uint8_t *datagram, size_t length, bool reduced_size, const struct decoded *decoded,
                        uint64_t index, uint64_t field)
{
    struct between value = filled();
    uint64_t number = decoded->refusal;
    uint64_t row[PRUNEPOCKET_ROW];

    if (number == 0 && (index >= decoded->count || field >= fields_of(decoded->items[index].kind)))
        number = PRUNEPOCKET_NO_SUCH_ITEM;

    calls++;
    struct prunepocket_answer answer =
        prunepocket_item_field(datagram, length, told(reduced_size), index, field, &value.number);

    same_answer("item_field", answer, number, decoded->place);
    if (number == 0) {
        columns(&decoded->items[index], row);
        check_between("field", &value, row[field]);
    } else {
        check_between("field of a refusal", &value, fill(2));
    }
}

static void check_item(const uint8_t *datagram, size_t length, bool reduced_size, const struct decoded *decoded,
                       uint64_t index)
{
    for (uint64_t field = 0; field <= PRUNEPOCKET_ROW; field++)
        check_field(datagram, length, reduced_size, decoded, index, field);
    check_field(datagram, length, reduced_size, decoded, index, UINT64_MAX);
}

/*
 * Both values of the flag beside each other, without the decoder: at reduced size 4 is never given, and unless it is
 * given otherwise, the answers are alike.
 */
static void check_alike(const uint8_t *datagram, size_t length)
{
    static uint64_t rows[2][PRUNEPOCKET_ROW * MOST_ITEMS];
    struct prunepocket_answer answers[2];
    uint64_t counts[2] = {0, 0};

    for (size_t i = 0; i < 2; i++) {
        calls++;
        answers[i] =
            prunepocket_read_items(datagram, length, told(i == 1), rows[i], PRUNEPOCKET_ROW * MOST_ITEMS, &counts[i]);
    }
    if (answers[1].number == PRUNEPOCKET_BAD_FIRST)
        differ("4 at reduced size", 1, 0);
    if (answers[0].number == PRUNEPOCKET_BAD_FIRST)
        return;
    same_answer("reduced size beside not", answers[1], answers[0].number, answers[0].place);
    same("count at reduced size beside not", counts[1], counts[0]);
    for (size_t i = 0; i < PRUNEPOCKET_ROW * counts[0]; i++)
        same("rows at reduced size beside not", rows[1][i], rows[0][i]);
}

static void count_met(bool reduced_size, const struct decoded *decoded)
{
    struct met *at = &met[reduced_size];
    size_t bucket = decoded->place / BUCKET_BYTES;

    at->runs[decoded->refusal]++;
    if (decoded->place / 4 < MOST_ITEMS)
        at->places[decoded->refusal][decoded->place / 4] = 1;
    counters[reduced_size][decoded->refusal * BUCKETS + (bucket < BUCKETS ? bucket : BUCKETS - 1)] = 1;
    if (decoded->count > at->most_items)
        at->most_items = decoded->count;
    for (size_t i = 0; i < decoded->count; i++) {
        uint8_t *counter = &counters[reduced_size][NUMBERS * BUCKETS + decoded->items[i].kind];

        at->items[decoded->items[i].kind]++;
        if (*counter < UINT8_MAX)
            ++*counter;
    }
}

size_t LLVMFuzzerMutate(uint8_t *data, size_t size, size_t most);
size_t LLVMFuzzerCustomMutator(uint8_t *data, size_t size, size_t most, unsigned seed);
int LLVMFuzzerTestOneInput(const uint8_t *data, size_t size);

/* Every packet gets version 2, and one that runs past the end is made to end there. */
static void mend(uint8_t *datagram, size_t length)
{
    size_t bytes;

    for (size_t place = 0; place < length; place += bytes) {
        uint8_t *packet = datagram + place;

        packet[0] = (packet[0] & 0x3F) | 0x80;
        bytes = 4 * (((size_t)packet[2] << 8 | packet[3]) + 1);
        if (bytes > length - place) {
            bytes = length - place;
            packet[2] = (uint8_t)((bytes / 4 - 1) >> 8);
            packet[3] = (uint8_t)(bytes / 4 - 1);
        }
    }
}

/*
 * Most of the fuzzer's own changes give a length that is no multiple of 4, or break the chain of packets near the
 * front. An eighth of them is left so, the others get whole words, and half get a whole chain.
 */
size_t LLVMFuzzerCustomMutator(uint8_t *data, size_t size, size_t most, unsigned seed)
{
    size = LLVMFuzzerMutate(data, size, most);
    if (seed % 8 == 0)
        return size;
    while (size % 4 != 0 && size < most)
        data[size++] = 0;
    size -= size % 4;
    if (seed / 8 % 2 == 0)
        mend(data, size);
    return size;
}

/* The bytes that the decoder is given stand at both other addresses too. */
static void check_datagram(const uint8_t *data, const uint8_t *near_end, const uint8_t *near_start, size_t size,
                           bool reduced_size)
{
    static struct decoded decoded;

    decode(data, size, reduced_size, &decoded);
    count_met(reduced_size, &decoded);

    check_count(near_end, size, reduced_size, &decoded);
    check_count(near_start, size, reduced_size, &decoded);

    size_t needed = PRUNEPOCKET_ROW * decoded.count;
    check_rows(near_end, size, reduced_size, &decoded, needed);
    check_rows(near_start, size, reduced_size, &decoded, needed + 7);
    if (needed > 0) {
        check_rows(near_end, size, reduced_size, &decoded, needed - 1);
        check_rows(near_end, size, reduced_size, &decoded, needed - PRUNEPOCKET_ROW);
        check_rows(near_end, size, reduced_size, &decoded, needed / 2);
        check_rows(near_end, size, reduced_size, &decoded, 0);

        /* The first item, the last and one between them that the bytes decide. */
        size_t between = 0;
        for (size_t i = 0; i < size; i++)
            between = between * 31 + data[i];
        check_item(near_end, size, reduced_size, &decoded, 0);
        check_item(near_start, size, reduced_size, &decoded, decoded.count - 1);
        check_item(near_end, size, reduced_size, &decoded, between % decoded.count);
    } else {
        check_field(near_end, size, reduced_size, &decoded, 0, 0);
    }
    check_field(near_end, size, reduced_size, &decoded, decoded.count, 0);
    check_field(near_start, size, reduced_size, &decoded, decoded.count + 1, 1);
    check_field(near_end, size, reduced_size, &decoded, UINT64_MAX, 2);
}

int LLVMFuzzerTestOneInput(const uint8_t *data, size_t size)
{
    if (size > MOST_INPUT)
        return 0;
    uint8_t *near_end = before_fence.end - size;
    uint8_t *near_start = behind_fence.start;
    if (size > 0) {
        memcpy(near_end, data, size);
        memcpy(near_start, data, size);
    }

    calls_told = 0;
    check_alike(near_end, size);
    check_datagram(data, near_end, near_start, size, false);
    check_datagram(data, near_end, near_start, size, true);

    if (size > 0 && (memcmp(near_end, data, size) != 0 || memcmp(near_start, data, size) != 0))
        differ("the datagram was written on", 1, 0);
    return 0;
}
