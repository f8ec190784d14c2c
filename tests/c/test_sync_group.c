/*
 * Calls the reader and the writer of the SDP line of prunepocket.h, and holds each answer to the
 * grammar of RFC 7272, section 10. What a call may not change is filled beforehand and looked at
 * afterwards. Lines and buffers are lent at their exact size from the heap, so that valgrind sees
 * any step outside of them.
 */
#include "check.h"

#include <string.h>

#define PREFIX "a=rtcp-idms:sync-group="
#define PREFIX_BYTES (sizeof PREFIX - 1)
#define CRLF "\r\n"

#define LONGEST_BUFFER 64
#define GREATEST UINT32_C(4294967294)

/* What lent bytes hold before a call: never what a line holds, and no zero. */
static const uint8_t fillings[] = {0xA5, 0xDA};

/* ---- Lent memory ----------------------------------------------------------------------------- */

/* A group number to be read, between two that are not. */
struct lent_group {
    uint32_t front;
    uint32_t group;
    uint32_t back;
};

/* The same of how many bytes were written. */
struct lent_written {
    uint64_t front;
    uint64_t written;
    uint64_t back;
};

#define FILL32 ((uint32_t)FILL)

static void check_group(const struct lent_group *lent, uint32_t expected)
{
    check_equal("group", lent->group, expected);
    check_equal("before the group", lent->front, FILL32);
    check_equal("behind the group", lent->back, FILL32);
}

static void check_count(const struct lent_written *lent, uint64_t expected)
{
    check_equal("written", lent->written, expected);
    check_equal("before what was written", lent->front, FILL);
    check_equal("behind what was written", lent->back, FILL);
}

static struct lent_group lend_group(void)
{
    return (struct lent_group){FILL32, FILL32, FILL32};
}

static struct lent_written lend_written(void)
{
    return (struct lent_written){FILL, FILL, FILL};
}

/* ---- One call -------------------------------------------------------------------------------- */

/* Reads a line: it gives this group, or is refused with a number and gives none. */
static void check_line(const char *text, size_t length, uint64_t number, uint32_t group)
{
    struct lent_group lent = lend_group();
    uint8_t *bytes = allocate(length);

    memcpy(bytes, text, length);
    check_answer("read_sync_group", prunepocket_read_sync_group(bytes, length, &lent.group),
                 number, 0);
    check_group(&lent, number == 0 ? group : FILL32);
    check_equal("line changed", memcmp(bytes, text, length) != 0, 0);
    free(bytes);
}

/* A line of some bytes stands at the front, all else is as it was lent. Shows one error. */
static void check_buffer(const uint8_t *buffer, size_t length, const char *text, size_t size,
                         uint8_t filling)
{
    char what[80];

    for (size_t i = 0; i < length; i++) {
        uint8_t expected = i < size ? (uint8_t)text[i] : filling;

        if (buffer[i] != expected) {
            snprintf(what, sizeof what, "buffer of %zu: byte %zu", length, i);
            check_equal(what, buffer[i], expected);
            return;
        }
    }
    passed++;
}

/* Writes a group into a buffer of some length: this text, or a refusal that changes nothing. */
static void check_write(uint32_t group, size_t length, uint64_t number, const char *text)
{
    size_t size = number == 0 ? strlen(text) : 0;
    char what[80];

    snprintf(what, sizeof what, "write_sync_group, buffer of %zu", length);
    for (size_t i = 0; i < sizeof fillings; i++) {
        struct lent_written lent = lend_written();
        uint8_t *buffer = allocate(length);

        memset(buffer, fillings[i], length);
        check_answer(what, prunepocket_write_sync_group(group, buffer, length, &lent.written),
                     number, 0);
        check_count(&lent, number == 0 ? size : FILL);
        check_buffer(buffer, length, text, size, fillings[i]);
        free(buffer);
    }
}

/* ---- One line and one group ------------------------------------------------------------------ */

/* A literal's bytes are counted by its size, since a zero byte may be one of them. */
#define CHECK_READ(name, text, group) \
    (start_case(__LINE__, name), check_line(text, sizeof(text) - 1, 0, group))
#define CHECK_REFUSED(name, text, number) \
    (start_case(__LINE__, name), check_line(text, sizeof(text) - 1, number, 0))
#define CHECK_WRITTEN(name, group, text) check_written(__LINE__, name, group, text)

static void start_case(int case_line, const char *case_name)
{
    line = case_line;
    name = case_name;
}

/* The line is written wherever it has room, and gets 10 elsewhere. */
static void check_written(int case_line, const char *case_name, uint32_t group, const char *text)
{
    size_t size = strlen(text);

    start_case(case_line, case_name);
    for (size_t length = 0; length < size; length++)
        check_write(group, length, 10, NULL);
    for (size_t length = size; length <= LONGEST_BUFFER; length++)
        check_write(group, length, 0, text);
}

/* A line of so many digits, all alike, for the caller to free. It ends with a zero byte. */
static char *line_of(size_t digits, char digit)
{
    char *text = allocate(PREFIX_BYTES + digits + sizeof CRLF);

    memcpy(text, PREFIX, PREFIX_BYTES);
    memset(text + PREFIX_BYTES, digit, digits);
    memcpy(text + PREFIX_BYTES + digits, CRLF, sizeof CRLF);
    return text;
}

/* ---- Reading --------------------------------------------------------------------------------- */

static void test_groups(void)
{
    CHECK_READ("group 42", PREFIX "42" CRLF, 42);
    CHECK_READ("group 0, the empty group", PREFIX "0" CRLF, 0);
    CHECK_READ("group 1", PREFIX "1" CRLF, 1);
    CHECK_READ("every digit", PREFIX "1234567890" CRLF, 1234567890);
    CHECK_READ("two zeros", PREFIX "00" CRLF, 0);
    CHECK_READ("ten zeros", PREFIX "0000000000" CRLF, 0);
    CHECK_READ("one leading zero", PREFIX "042" CRLF, 42);
    CHECK_READ("eight leading zeros", PREFIX "0000000042" CRLF, 42);
    CHECK_READ("no octal number", PREFIX "0777" CRLF, 777);
    CHECK_READ("the highest bit", PREFIX "2147483648" CRLF, UINT32_C(2147483648));
    CHECK_READ("nine nines", PREFIX "999999999" CRLF, 999999999);
    CHECK_READ("the greatest but one", PREFIX "4294967293" CRLF, GREATEST - 1);
    CHECK_READ("the greatest", PREFIX "4294967294" CRLF, GREATEST);
}

static void test_too_great(void)
{
    CHECK_REFUSED("4294967295", PREFIX "4294967295" CRLF, 22);
    CHECK_REFUSED("2^32", PREFIX "4294967296" CRLF, 22);
    CHECK_REFUSED("42 more than 2^32", PREFIX "4294967338" CRLF, 22);
    CHECK_REFUSED("42 more than twice 2^32", PREFIX "8589934634" CRLF, 22);
    CHECK_REFUSED("ten nines", PREFIX "9999999999" CRLF, 22);
    CHECK_REFUSED("eleven zeros", PREFIX "00000000000" CRLF, 22);
    CHECK_REFUSED("42 in eleven digits", PREFIX "00000000042" CRLF, 22);
    CHECK_REFUSED("the greatest in eleven digits", PREFIX "04294967294" CRLF, 22);
    CHECK_REFUSED("eleven digits without a zero", PREFIX "11111111111" CRLF, 22);
    CHECK_REFUSED("42 more than 2^64", PREFIX "18446744073709551658" CRLF, 22);
}

static void test_grammar(void)
{
    CHECK_REFUSED("nothing", "", 21);
    CHECK_REFUSED("CR LF alone", CRLF, 21);
    CHECK_REFUSED("no digit", PREFIX CRLF, 21);
    CHECK_REFUSED("no attribute", "42" CRLF, 21);
    CHECK_REFUSED("another attribute", "a=rtcp-mux" CRLF, 21);
    CHECK_REFUSED("no line end", PREFIX "42", 21);
    CHECK_REFUSED("LF alone", PREFIX "42\n", 21);
    CHECK_REFUSED("CR alone", PREFIX "42\r", 21);
    CHECK_REFUSED("LF CR", PREFIX "42\n\r", 21);
    CHECK_REFUSED("two CR", PREFIX "42\r\r\n", 21);
    CHECK_REFUSED("two line ends", PREFIX "42" CRLF CRLF, 21);
    CHECK_REFUSED("two lines", PREFIX "42" CRLF PREFIX "42" CRLF, 21);
    CHECK_REFUSED("a zero byte behind", PREFIX "42" CRLF "\0", 21);
    CHECK_REFUSED("a zero byte before the line end", PREFIX "42\0" CRLF, 21);
    CHECK_REFUSED("a zero byte first", "\0" PREFIX "42" CRLF, 21);
    CHECK_REFUSED("a space first", " " PREFIX "42" CRLF, 21);
    CHECK_REFUSED("a space before the digits", PREFIX " 42" CRLF, 21);
    CHECK_REFUSED("a space behind the digits", PREFIX "42 " CRLF, 21);
    CHECK_REFUSED("a space among the digits", PREFIX "4 2" CRLF, 21);
    CHECK_REFUSED("plus", PREFIX "+42" CRLF, 21);
    CHECK_REFUSED("minus", PREFIX "-1" CRLF, 21);
    CHECK_REFUSED("hex", PREFIX "0x2A" CRLF, 21);
    CHECK_REFUSED("a point", PREFIX "42.0" CRLF, 21);
    CHECK_REFUSED("the prefix twice", PREFIX PREFIX "42" CRLF, 21);
    CHECK_REFUSED("upper case", "A=RTCP-IDMS:SYNC-GROUP=42" CRLF, 21);
    CHECK_REFUSED("one capital", "a=rtcp-idms:sync-Group=42" CRLF, 21);
}

/* What is both gets 21. */
static void test_grammar_first(void)
{
    CHECK_REFUSED("4294967295 before LF alone", PREFIX "4294967295\n", 21);
    CHECK_REFUSED("4294967295 without a line end", PREFIX "4294967295", 21);
    CHECK_REFUSED("4294967295 before a byte too many", PREFIX "4294967295" CRLF "a", 21);
    CHECK_REFUSED("4294967295 with a capital", "A=rtcp-idms:sync-group=4294967295" CRLF, 21);
    CHECK_REFUSED("eleven digits before LF alone", PREFIX "00000000042\n", 21);
    CHECK_REFUSED("a letter as the eleventh digit", PREFIX "0000000042x" CRLF, 21);
    CHECK_REFUSED("a letter behind eleven digits", PREFIX "00000000042x" CRLF, 21);
    CHECK_REFUSED("a letter before eleven digits", PREFIX "x00000000042" CRLF, 21);
}

/* Every number of digits, of the least, another and the greatest digit. */
static void test_digit_counts(void)
{
    static const char digits[] = "0149";

    for (size_t i = 0; i < strlen(digits); i++) {
        uint64_t value = 0;

        for (size_t count = 0; count <= 20; count++) {
            char *text = line_of(count, digits[i]);
            uint64_t number = count == 0 ? 21 : count > 10 || value > GREATEST ? 22 : 0;

            start_case(__LINE__, text);
            check_line(text, strlen(text), number, (uint32_t)value);
            free(text);
            value = count < 10 ? 10 * value + (uint64_t)(digits[i] - '0') : value;
        }
    }
}

/* Each byte of a line is replaced by each other byte: only digits for digits keep the grammar. */
static void check_each_byte(const char *good, size_t digits)
{
    size_t length = strlen(good);
    char *text = allocate(length + 1);

    for (size_t at = 0; at < length; at++) {
        for (int byte = 0; byte < 256; byte++) {
            int is_digit = byte >= '0' && byte <= '9';
            int is_kept = (uint8_t)good[at] == byte;
            uint64_t value;

            memcpy(text, good, length + 1);
            text[at] = (char)byte;
            value = strtoull(text + PREFIX_BYTES, NULL, 10);
            if (at >= PREFIX_BYTES && at < PREFIX_BYTES + digits)
                is_kept = is_digit;
            check_line(text, length, !is_kept ? 21 : value > GREATEST || digits > 10 ? 22 : 0,
                       (uint32_t)value);
        }
    }
    free(text);
}

static void test_each_byte(void)
{
    start_case(__LINE__, "one digit, each byte replaced");
    check_each_byte(PREFIX "7" CRLF, 1);
    start_case(__LINE__, "the greatest group, each byte replaced");
    check_each_byte(PREFIX "4294967294" CRLF, 10);
    start_case(__LINE__, "eleven digits, each byte replaced");
    check_each_byte(PREFIX "00000000042" CRLF, 11);
}

/* A line that is cut short on either side, or has any byte too many there. */
static void test_whole_line(void)
{
    static const char good[] = PREFIX "42" CRLF;
    size_t length = strlen(good);
    char more[sizeof good];

    for (size_t cut = 1; cut <= length; cut++) {
        start_case(__LINE__, "cut at its end");
        check_line(good, length - cut, 21, 0);
        start_case(__LINE__, "cut at its front");
        check_line(good + cut, length - cut, 21, 0);
    }
    for (int byte = 0; byte < 256; byte++) {
        start_case(__LINE__, "a byte behind");
        memcpy(more, good, length);
        more[length] = (char)byte;
        check_line(more, length + 1, 21, 0);
        start_case(__LINE__, "a byte before");
        memcpy(more + 1, good, length);
        more[0] = (char)byte;
        check_line(more, length + 1, 21, 0);
    }
}

/* Counts that an 8-bit or 16-bit counter would take for one to ten. */
static void test_many_digits(void)
{
    static const size_t counts[] = {255, 256, 257, 258, 266, 267, 1000, 65536, 65537, 65546};

    for (size_t i = 0; i < sizeof counts / sizeof *counts; i++) {
        for (char digit = '0'; digit <= '9'; digit++) {
            char *text = line_of(counts[i], digit);
            char what[40];

            snprintf(what, sizeof what, "%zu digits %c", counts[i], digit);
            start_case(__LINE__, what);
            check_line(text, strlen(text), 22, 0);
            text[strlen(text) - 1] = '\0';
            snprintf(what, sizeof what, "%zu digits %c without LF", counts[i], digit);
            start_case(__LINE__, what);
            check_line(text, strlen(text), 21, 0);
            free(text);
        }
    }
}

/* One bad byte anywhere in a line of a thousand digits is 21. */
static void test_thousand_digits(void)
{
    static const char bad[] = {'/', ':', 'x', ' ', '\r', '\n', '\0', (char)0xB0};
    char *text = line_of(1000, '0');
    size_t length = strlen(text);

    start_case(__LINE__, "a thousand digits");
    check_line(text, length, 22, 0);
    for (size_t at = 0; at < length; at++) {
        char good = text[at];
        char what[60];

        for (size_t i = 0; i < sizeof bad; i++) {
            if (bad[i] == good)
                continue;
            snprintf(what, sizeof what, "a thousand digits, byte %zu is %d", at, bad[i]);
            start_case(__LINE__, what);
            text[at] = bad[i];
            check_line(text, length, 21, 0);
        }
        text[at] = good;
    }
    free(text);
}

/* ---- Writing --------------------------------------------------------------------------------- */

static void test_lines(void)
{
    CHECK_WRITTEN("group 42", 42, PREFIX "42" CRLF);
    CHECK_WRITTEN("group 0, the empty group", 0, PREFIX "0" CRLF);
    CHECK_WRITTEN("group 9", 9, PREFIX "9" CRLF);
    CHECK_WRITTEN("zeros at the end", 1000000000, PREFIX "1000000000" CRLF);
    CHECK_WRITTEN("zeros within", 4000000004, PREFIX "4000000004" CRLF);
    CHECK_WRITTEN("every digit", 1234567890, PREFIX "1234567890" CRLF);
    CHECK_WRITTEN("the highest bit", UINT32_C(2147483648), PREFIX "2147483648" CRLF);
    CHECK_WRITTEN("the greatest but one", GREATEST - 1, PREFIX "4294967293" CRLF);
    CHECK_WRITTEN("the greatest", GREATEST, PREFIX "4294967294" CRLF);
}

/* 26 bytes for one digit and one more for each further one, on both sides of each power of ten. */
static void test_sizes(void)
{
    static const char ones[] = "1000000000";
    static const char nines[] = "9999999999";
    char text[LONGEST_BUFFER];
    uint64_t power = 1;

    for (size_t digits = 1; digits <= 10; digits++, power *= 10) {
        snprintf(text, sizeof text, PREFIX "%.*s" CRLF, (int)digits, ones);
        check_written(__LINE__, text, (uint32_t)power, text);
        if (digits == 10)
            break;
        snprintf(text, sizeof text, PREFIX "%.*s" CRLF, (int)digits, nines);
        check_written(__LINE__, text, (uint32_t)(10 * power - 1), text);
    }
    start_case(__LINE__, "the longest line");
    check_equal("PRUNEPOCKET_LINE_BYTES", PRUNEPOCKET_LINE_BYTES, 35);
    check_write(GREATEST, PRUNEPOCKET_LINE_BYTES - 1, 10, NULL);
    check_write(GREATEST, PRUNEPOCKET_LINE_BYTES, 0, PREFIX "4294967294" CRLF);
    start_case(__LINE__, "the shortest line");
    check_write(0, 25, 10, NULL);
    check_write(0, 26, 0, PREFIX "0" CRLF);
}

/* Buffers whose length, cut to 8 or 16 bits, would be too short. */
static void test_long_buffers(void)
{
    static const size_t lengths[] = {255, 256, 257, 281, 65535, 65536, 65537, 65561};

    start_case(__LINE__, "long buffers");
    for (size_t i = 0; i < sizeof lengths / sizeof *lengths; i++)
        check_write(42, lengths[i], 0, PREFIX "42" CRLF);
}

/* 22 comes before 10, so that no length gives another answer. */
static void test_reserved_group(void)
{
    start_case(__LINE__, "group 4294967295");
    for (size_t length = 0; length <= LONGEST_BUFFER; length++)
        check_write(UINT32_MAX, length, 22, NULL);
}

/* ---- Both ways ------------------------------------------------------------------------------- */

/* What is written is read as the same group. */
static void check_back(uint32_t group)
{
    size_t room = PRUNEPOCKET_LINE_BYTES;
    char *buffer = allocate(room);
    struct lent_written lent = lend_written();
    char what[40];

    snprintf(what, sizeof what, "group %" PRIu32 " and back", group);
    start_case(__LINE__, what);
    check_answer("write_sync_group",
                 prunepocket_write_sync_group(group, (uint8_t *)buffer, room, &lent.written), 0, 0);
    check_equal("written in range", lent.written >= 26 && lent.written <= room, 1);
    if (lent.written <= room)
        check_line(buffer, (size_t)lent.written, 0, group);
    free(buffer);
}

static void test_groups_and_back(void)
{
    uint32_t bit = 1;

    for (int i = 0; i < 32; i++, bit <<= 1) {
        check_back(bit - 1);
        check_back(bit);
        check_back(~bit);
    }
    for (uint64_t group = 0; group <= GREATEST; group += 1234567)
        check_back((uint32_t)group);
    check_back(GREATEST);
}

/* What was read is written as the same line, but for leading zeros. */
static void test_lines_and_back(void)
{
    static const char *const digits[] = {"0",     "7",          "42",        "100",
                                         "65536", "1000000000", "4294967294"};

    for (size_t i = 0; i < sizeof digits / sizeof *digits; i++) {
        for (size_t zeros = 0; zeros + strlen(digits[i]) <= 10; zeros++) {
            char text[LONGEST_BUFFER];
            char expected[LONGEST_BUFFER];
            struct lent_group lent = lend_group();

            snprintf(text, sizeof text, PREFIX "%.*s%s" CRLF, (int)zeros, "000000000", digits[i]);
            snprintf(expected, sizeof expected, PREFIX "%s" CRLF, digits[i]);
            start_case(__LINE__, text);
            check_answer("read_sync_group",
                         prunepocket_read_sync_group((uint8_t *)text, strlen(text), &lent.group), 0,
                         0);
            check_write(lent.group, strlen(expected), 0, expected);
        }
    }
}

/* As a host does it: the lines of a file, one of which names the group, which opens a table. */
static void test_file(void)
{
    static const char text[] = "m=audio 5004 RTP/AVP 33" CRLF "a=rtcp-mux" CRLF PREFIX
                               "42" CRLF "a=recvonly" CRLF;
    struct lent_group lent = lend_group();
    unsigned lines = 0;

    start_case(__LINE__, "the lines of a file");
    for (const char *at = text; *at != '\0'; lines++) {
        size_t length = strcspn(at, "\n") + 1;

        check_answer("read_sync_group",
                     prunepocket_read_sync_group((const uint8_t *)at, length, &lent.group),
                     lines == 2 ? 0 : 21, 0);
        at += length;
    }
    check_equal("lines", lines, 4);
    check_group(&lent, 42);
    check_equal("open", prunepocket_open(lent.group, 7, 90000).number, 0);
    check_line(PREFIX "0" CRLF, PREFIX_BYTES + 3, 0, 0);
    check_equal("open with the empty group", prunepocket_open(0, 7, 90000).number, 12);
}

int main(void)
{
    start_checks(__FILE__);
    test_groups();
    test_too_great();
    test_grammar();
    test_grammar_first();
    test_digit_counts();
    test_each_byte();
    test_whole_line();
    test_many_digits();
    test_thousand_digits();
    test_lines();
    test_sizes();
    test_long_buffers();
    test_reserved_group();
    test_groups_and_back();
    test_lines_and_back();
    test_file();
    return finish_checks();
}
