#include "sync_group.h"

#include <ctype.h>
#include <inttypes.h>
#include <stdbool.h>
#include <stdio.h>
#include <stdlib.h>
#include <string.h>

/*
 * A fault to be planted, which the comparison must then find:
 * 1: 22 comes before 21
 * 2: eleven digits are taken
 * 3: the number wraps at 2^32
 * 4: LF is taken without CR
 * 5: a byte behind the line is taken
 * 6: the writer's 10 comes before its 22
 * 7: upper case is taken
 * 8: no digit is read as 0
 * 9: 4294967295 is read
 * 10: a leading zero is not read, if other digits follow
 * 11: the digits are counted in 8 bits
 * 12: the writer asks for room for the longest line
 * 13: 21 comes where there are more than ten digits
 * 14: 4294967295 is written
 */
#ifndef SYNC_GROUP_FAULT
#define SYNC_GROUP_FAULT 0
#endif

enum { SHORT_BUFFER = 10, BAD_LINE = 21, BAD_GROUP = 22 };

#define GREATEST (SYNC_GROUP_FAULT == 9 ? "4294967295" : "4294967294")
enum { GREATEST_DIGITS = 10, MOST_DIGITS = SYNC_GROUP_FAULT == 2 ? 11 : 10 };

struct slice {
    const uint8_t *start;
    size_t length;
};

static void take(struct slice *rest, size_t bytes)
{
    rest->start += bytes;
    rest->length -= bytes;
}

/* ---- The rules of RFC 7272 section 10: each takes its bytes from the front, or answers false ---- */

/* ABNF's literals stand for upper case too (RFC 5234 section 2.3), but document 02 has them in lower case. */
static bool literal(struct slice *rest, const char *text)
{
    size_t length = strlen(text);
    char front[PREFIX_BYTES];

    if (rest->length < length)
        return false;
    memcpy(front, rest->start, length);
    for (size_t i = 0; SYNC_GROUP_FAULT == 7 && i < length; i++)
        front[i] = (char)tolower((unsigned char)front[i]);
    if (memcmp(front, text, length) != 0)
        return false;
    take(rest, length);
    return true;
}

/* 1*DIGIT in place of 1*10DIGIT: more than ten are not 21 but 22. */
static bool sync_group_id(struct slice *rest, struct slice *digits)
{
    digits->start = rest->start;
    while (rest->length > 0 && rest->start[0] >= 0x30 && rest->start[0] <= 0x39) {
        take(rest, 1);
        digits->length++;
    }
    if (SYNC_GROUP_FAULT == 10 && digits->length > 1 && digits->start[0] == '0')
        return false;
    return digits->length > 0 || SYNC_GROUP_FAULT == 8;
}

/* The whole slice is the line: nothing is left behind CR LF. */
static bool rtcp_idms(struct slice line, struct slice *digits)
{
    return literal(&line, "a=") && literal(&line, "rtcp-idms") && literal(&line, ":") &&
           literal(&line, "sync-group=") && sync_group_id(&line, digits) &&
           (literal(&line, "\r\n") || (SYNC_GROUP_FAULT == 4 && literal(&line, "\n"))) &&
           line.length <= (SYNC_GROUP_FAULT == 5 ? 1 : 0);
}

/* ---- The number ---- */

static struct slice without_leading_zeros(struct slice digits)
{
    while (digits.length > 0 && digits.start[0] == '0')
        take(&digits, 1);
    return digits;
}

/* Compared as text, where nothing wraps: the number of more digits is the greater. */
static bool above_greatest(struct slice number)
{
    if (number.length != GREATEST_DIGITS)
        return number.length > GREATEST_DIGITS;
    return memcmp(number.start, GREATEST, GREATEST_DIGITS) > 0;
}

/* Of a number of at most ten digits. */
static uint64_t value_of(struct slice number)
{
    char text[GREATEST_DIGITS + 1] = "";

    memcpy(text, number.start, number.length);
    return strtoull(text, NULL, 10);
}

struct line_read read_line(const uint8_t *line, size_t length)
{
    struct slice digits = {line, 0};
    bool is_line = rtcp_idms((struct slice){line, length}, &digits);
    struct slice number = without_leading_zeros(digits);
    bool too_many = (SYNC_GROUP_FAULT == 11 ? (uint8_t)digits.length : digits.length) > MOST_DIGITS;
    bool too_great = above_greatest(number);
    struct line_read read = {.digits = digits.length};

    if (SYNC_GROUP_FAULT == 3 && number.length == GREATEST_DIGITS)
        too_great = (uint32_t)value_of(number) == UINT32_MAX;

    if (SYNC_GROUP_FAULT == 1 && (too_many || too_great))
        read.refusal = BAD_GROUP;
    else if (!is_line || (SYNC_GROUP_FAULT == 13 && too_many))
        read.refusal = BAD_LINE;
    else if (too_many || too_great)
        read.refusal = BAD_GROUP;
    else
        read.group = (uint32_t)value_of(number);
    return read;
}

struct line_written write_line(uint32_t group, size_t room)
{
    char text[LONGEST_LINE + 1];
    size_t length = (size_t)snprintf(text, sizeof text, LINE_PREFIX "%" PRIu32 "\r\n", group);
    bool is_reserved = group == UINT32_MAX && SYNC_GROUP_FAULT != 14;
    bool is_short = room < (SYNC_GROUP_FAULT == 12 ? LONGEST_LINE : length);

    if (is_short && (!is_reserved || SYNC_GROUP_FAULT == 6))
        return (struct line_written){.refusal = SHORT_BUFFER};
    if (is_reserved)
        return (struct line_written){.refusal = BAD_GROUP};

    struct line_written written = {.length = length};
    memcpy(written.bytes, text, length);
    return written;
}
