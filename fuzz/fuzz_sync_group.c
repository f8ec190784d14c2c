/*
 * Takes every input as a group to be written and a line to be read, gives them to the archive's writer and reader of
 * the SDP line and to independent ones, and aborts where they differ, where a call writes outside of what was lent to
 * it, or where it writes at all though it refuses. The form of an input is in README.md.
 */
#include "lend.h"
#include "prunepocket.h"
#include "same.h"
#include "sync_group.h"

#include <inttypes.h>
#include <stdio.h>
#include <stdlib.h>
#include <string.h>

/* Bytes before the line: they say which group is written, and how long the buffer is. */
enum { HEAD = 6, MOST_INPUT = 4096, MOST_ROOM = 255, GUARDS = 64 };

/* What the fuzzer is told beside the branches: answers by how many digits there are. */
enum { ACCEPTED, REFUSED_10, REFUSED_21, REFUSED_22, ANSWERS };
enum { LAST_COUNTED = 12, DIGITS = LAST_COUNTED + 1 };
__attribute__((section("__libfuzzer_extra_counters"))) static uint8_t counters[2 * ANSWERS * DIGITS];

/* What was met since the start. Places for digits end with that for all that are more. */
static uint64_t met_reading[ANSWERS][DIGITS], met_writing[ANSWERS][DIGITS];
static uint64_t calls, leading_zeros, most_digits;

static void print_table(const char *what, uint64_t met[ANSWERS][DIGITS])
{
    static const unsigned numbers[ANSWERS] = {0, 10, 21, 22};

    for (size_t answer = 0; answer < ANSWERS; answer++) {
        uint64_t all = 0;

        for (size_t digits = 0; digits < DIGITS; digits++)
            all += met[answer][digits];
        if (all == 0)
            continue;
        fprintf(stderr, "%s, %u: %" PRIu64 ", by digits:", what, numbers[answer], all);
        for (size_t digits = 0; digits < DIGITS; digits++)
            if (met[answer][digits] > 0)
                fprintf(stderr, " %zu%s %" PRIu64 ";", digits, digits == LAST_COUNTED ? " or more" : "",
                        met[answer][digits]);
        fputs("\n", stderr);
    }
}

static void print_met(void)
{
    fprintf(stderr, "calls of the archive: %" PRIu64 "\n", calls);
    print_table("read", met_reading);
    print_table("written", met_writing);
    fprintf(stderr, "groups read behind leading zeros: %" PRIu64 "; at most %" PRIu64 " digits in a line\n",
            leading_zeros, most_digits);
}

static size_t answer_of(unsigned refusal)
{
    switch (refusal) {
    case 0:
        return ACCEPTED;
    case PRUNEPOCKET_SHORT_BUFFER:
        return REFUSED_10;
    case PRUNEPOCKET_BAD_LINE:
        return REFUSED_21;
    default:
        return REFUSED_22;
    }
}

static void count_met(uint64_t met[ANSWERS][DIGITS], uint8_t *counted, unsigned refusal, size_t digits)
{
    size_t answer = answer_of(refusal);
    size_t at = digits < LAST_COUNTED ? digits : LAST_COUNTED;

    met[answer][at]++;
    counted[answer * DIGITS + at] = 1;
}

/* The line stands twice in memory: before a page that may not be read, and behind one. */
static struct lent before_fence, behind_fence, buffer_memory;

int LLVMFuzzerInitialize(int *argc, char ***argv)
{
    (void)argc;
    (void)argv;
    before_fence = lend(MOST_INPUT);
    behind_fence = lend(MOST_INPUT);
    buffer_memory = lend(GUARDS + MOST_ROOM);
    atexit(print_met);
    return 0;
}

/* ---- Reading ---- */

/* A group to be read, between two numbers that are not written. */
struct between {
    uint32_t front;
    uint32_t group;
    uint32_t back;
};

static void check_read(const uint8_t *line, size_t length, const struct line_read *expected)
{
    struct between lent = {(uint32_t)fill(0), (uint32_t)fill(1), (uint32_t)fill(2)};
    struct prunepocket_answer answer = prunepocket_read_sync_group(line, length, &lent.group);

    calls++;
    same("read_sync_group", answer.number, expected->refusal);
    same("place of read_sync_group", answer.place, 0);
    same(expected->refusal ? "group of a refusal" : "group", lent.group,
         expected->refusal ? (uint32_t)fill(1) : expected->group);
    same("before the group", lent.front, (uint32_t)fill(0));
    same("behind the group", lent.back, (uint32_t)fill(2));
}

/* ---- Writing ---- */

/* No byte of a line has the highest bit, and neither has a zero byte. */
static uint8_t fill_byte(size_t index)
{
    return (uint8_t)(fill(index) | 0x80);
}

static size_t digits_in(uint32_t group)
{
    size_t digits = 1;

    while (group >= 10) {
        group /= 10;
        digits++;
    }
    return digits;
}

/* The buffer ends at a page that may not be touched, and guard bytes stand before it. */
static const uint8_t *check_write(uint32_t group, size_t room)
{
    uint8_t *buffer = buffer_memory.end - room;
    uint8_t *guards = buffer - GUARDS;
    uint64_t lent[3] = {fill(0), fill(1), fill(2)};
    struct line_written expected = write_line(group, room);

    for (size_t i = 0; i < GUARDS + room; i++)
        guards[i] = fill_byte(i);
    count_met(met_writing, counters + ANSWERS * DIGITS, expected.refusal, digits_in(group));

    calls++;
    struct prunepocket_answer answer = prunepocket_write_sync_group(group, buffer, room, &lent[1]);

    same("write_sync_group", answer.number, expected.refusal);
    same("place of write_sync_group", answer.place, 0);
    same(expected.refusal ? "bytes written of a refusal" : "bytes written", lent[1],
         expected.refusal ? fill(1) : expected.length);
    same("before the number of bytes", lent[0], fill(0));
    same("behind the number of bytes", lent[2], fill(2));
    for (size_t i = 0; i < GUARDS; i++)
        same("before the buffer", guards[i], fill_byte(i));
    for (size_t i = 0; i < expected.length; i++)
        same("byte of the line", buffer[i], expected.bytes[i]);
    for (size_t i = expected.length; i < room; i++)
        same(expected.refusal ? "buffer of a refusal" : "behind the line", buffer[i], fill_byte(GUARDS + i));
    return buffer;
}

/* In a buffer of the given length, of exactly the line's, one byte shorter, longer, and in none; then read again. */
static void check_group(uint32_t group, size_t room)
{
    size_t needed = PREFIX_BYTES + digits_in(group) + 2;
    struct line_read back = {.group = group, .digits = digits_in(group)};

    check_write(group, room);
    check_write(group, 0);
    check_write(group, needed - 1);
    check_write(group, needed + 7);
    const uint8_t *line = check_write(group, needed);
    if (write_line(group, needed).refusal == 0)
        check_read(line, needed, &back);
}

/* The group of a line is written as the same line without its leading zeros. */
static void check_back(const uint8_t *line, const struct line_read *read)
{
    size_t needed = PREFIX_BYTES + digits_in(read->group) + 2;
    size_t zeros = read->digits - digits_in(read->group);
    const uint8_t *written = check_write(read->group, needed);

    leading_zeros += zeros > 0;
    for (size_t i = 0; i < needed; i++)
        same("line written back", written[i], line[i < PREFIX_BYTES ? i : i + zeros]);
}

/* Any number is spelled in a line, also where no writer would. */
static void check_spelled(uint64_t number)
{
    char text[64];
    size_t length = (size_t)snprintf(text, sizeof text, LINE_PREFIX "%" PRIu64 "\r\n", number);
    uint8_t *line = buffer_memory.end - length;

    memcpy(line, text, length);
    struct line_read expected = read_line(line, length);
    check_read(line, length, &expected);
}

/* ---- The input ---- */

/* A number, or a limit and how far above it or, modulo 2^32, below: where a digit is added, and where 22 comes. */
static uint64_t number_of(const uint8_t head[HEAD])
{
    static const uint32_t limits[] = {0,       10,       100,       1000,       10000,      100000,
                                      1000000, 10000000, 100000000, 1000000000, UINT32_MAX, UINT32_C(1) << 31};
    uint32_t more = (uint32_t)head[1] << 24 | (uint32_t)head[2] << 16 | (uint32_t)head[3] << 8 | head[4];

    return (uint64_t)limits[head[0] % (sizeof limits / sizeof *limits)] + more;
}

size_t LLVMFuzzerMutate(uint8_t *data, size_t size, size_t most);
size_t LLVMFuzzerCustomMutator(uint8_t *data, size_t size, size_t most, unsigned seed);
int LLVMFuzzerTestOneInput(const uint8_t *data, size_t size);

/* The line gets its prefix and its end, and every byte between becomes a digit. */
static void mend(uint8_t *line, size_t length)
{
    memcpy(line, LINE_PREFIX, PREFIX_BYTES);
    for (size_t i = PREFIX_BYTES; i < length - 2; i++)
        if (line[i] < '0' || line[i] > '9')
            line[i] = (uint8_t)('0' + line[i] % 10);
    line[length - 2] = '\r';
    line[length - 1] = '\n';
}

/* Most of the fuzzer's own changes break the grammar. Half of them are mended, and a quarter of these spoilt again. */
size_t LLVMFuzzerCustomMutator(uint8_t *data, size_t size, size_t most, unsigned seed)
{
    size = LLVMFuzzerMutate(data, size, most);
    if (seed % 2 == 0 || size < HEAD + PREFIX_BYTES + 2)
        return size;
    mend(data + HEAD, size - HEAD);
    if (seed / 2 % 4 == 0)
        data[HEAD + seed / 8 % (size - HEAD)] ^= (uint8_t)(1 << (seed >> 29));
    return size;
}

int LLVMFuzzerTestOneInput(const uint8_t *data, size_t size)
{
    uint8_t head[HEAD] = {0};
    size_t length = size > HEAD ? size - HEAD : 0;

    if (length > MOST_INPUT)
        return 0;
    uint8_t *near_end = before_fence.end - length;
    uint8_t *near_start = behind_fence.start;
    if (size > 0)
        memcpy(head, data, size < HEAD ? size : HEAD);
    if (length > 0) {
        memcpy(near_end, data + HEAD, length);
        memcpy(near_start, data + HEAD, length);
    }

    struct line_read expected = read_line(near_end, length);
    count_met(met_reading, counters, expected.refusal, expected.digits);
    if (expected.digits > most_digits)
        most_digits = expected.digits;

    check_read(near_end, length, &expected);
    check_read(near_start, length, &expected);
    if (expected.refusal == 0)
        check_back(near_end, &expected);
    check_spelled(number_of(head));
    check_group((uint32_t)number_of(head), head[HEAD - 1]);

    if (length > 0 && (memcmp(near_end, data + HEAD, length) != 0 || memcmp(near_start, data + HEAD, length) != 0))
        same("the line was written on", 1, 0);
    return 0;
}
