/*
 * A reader and a writer of the SDP line that names a group. They follow document 02 (E1) alone, and the grammar that it
 * points to, RFC 7272 section 10. They share no code with the archive that they are compared with.
 */
#ifndef FUZZ_SYNC_GROUP_H
#define FUZZ_SYNC_GROUP_H

#include <stddef.h>
#include <stdint.h>

#define LINE_PREFIX "a=rtcp-idms:sync-group="

enum { PREFIX_BYTES = sizeof LINE_PREFIX - 1, LONGEST_LINE = PREFIX_BYTES + 10 + 2 };

/*
 * Where refusal is not 0, there is no group. The digits are those between the prefix and the first byte that is none,
 * leading zeros counted; without the prefix there are none.
 */
struct line_read {
    unsigned refusal;
    uint32_t group;
    size_t digits;
};

/* The line is all of the bytes. Refusals: 21, then 22. */
struct line_read read_line(const uint8_t *line, size_t length);

/* Where refusal is not 0, there are no bytes. */
struct line_written {
    unsigned refusal;
    size_t length;
    uint8_t bytes[LONGEST_LINE];
};

/* Room is the length of the buffer that the line is for. Refusals: 22, then 10. */
struct line_written write_line(uint32_t group, size_t room);

#endif
