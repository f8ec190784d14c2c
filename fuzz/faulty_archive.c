/*
 * An archive with a planted fault: each function here stands before the archive's own (the linker's --wrap), calls it
 * and then does wrong, or tells it something else. The comparison must see it, though the archive is not instrumented.
 *
 * 1: a number before the rows is written
 * 2: a number behind the last row is written, in an array that has it
 * 3: a number behind an array that is exactly long enough is written
 * 4: rows are written though the array is too short
 * 5: the count is written though the datagram is refused
 * 6: the byte behind the datagram is read
 * 7: after a refused report, a member's payload type in the table is another
 * 8: choosing hands back a table whose first place is not held
 * 9: the group is written though the line is refused
 * 10: the byte behind the line that is read is read
 * 11: the line that is read is written on
 * 12: a refused line has a place other than 0
 * 13: a zero byte is put behind the line that was written, in a buffer that has room for it
 * 14: a byte behind a buffer that is exactly long enough is written
 * 15: a byte before the buffer is written
 * 16: the buffer is written though it is too short
 * 17: the number of bytes is written though the group is refused
 * 18: the last byte of a buffer that is longer than the line is written
 * 19: read_items gives 4 at reduced size too
 * 20: read_items never gives 4
 * 21: the flag of read_items is turned round
 * 22: read_items passes over the first packet's P at reduced size
 * 23: count_items does not pass the flag on
 * 24: item_field does not pass the flag on
 * 25: take_datagram does not pass the flag on
 * 26: take_datagram never gives 4
 * 27: the flag of take_datagram is turned round
 * 28: take_datagram passes over the first packet's P at reduced size
 * 29: count_items looks at the flag's last bit alone, so that 2 is not agreed
 * 30: item_field looks at the flag's last byte alone, so that 256 is not agreed
 * 31: take_datagram takes 1 alone for agreed
 * 32: a twin's report that gets 13 raises the tally
 * 33: a member's report that gets 15 raises its tally
 * 34: a farewell that gets 14 does not raise the tally
 * 35: a place keeps the tally of the member that left it by farewell
 * 36: a place keeps the tally of the member that left it by a sweep
 * 37: a member's own accepted report sets its tally to 0
 * 38: the tally wraps at its limit
 * 39: the tally stops one before its limit
 * 40: the tally of the next member is raised
 * 41: among equally late members the one of the highest tally is chosen
 * 42: a number that joins anew has the tally that it left with
 * 43: a call of a datagram that gets 14 does not raise the tally
 * 44: a place that is not held shows the tally in its memory
 * 45: a report that gets 14 does not raise the tally
 * 46: a burst stops at its first refused report
 * 47: a burst's 24 comes before its 23
 * 48: a burst of 64 reports gets 23
 * 49: the list of a burst is filled backwards
 * 50: the number behind those of a burst's reports is written, in a list that has it
 * 51: a refused burst files its first report
 * 52: all reports of a burst are filed under the origin of the first
 * 53: a burst gets 24 where the list is exactly as long
 * 54: the list of a refused burst is written
 * 55: the number behind a list that is exactly as long as the burst is written
 * 56: a report of a burst that gets 14 does not raise the tally
 * 57: the reports of a burst are taken from the last to the first
 * 58: the numbers of a burst are those that its reports get from the table before it
 * 59: the record behind a burst's reports is read
 * 60: a burst of 65 reports is taken as one of 64
 * 61: a burst without reports gets 24 where the list has no numbers
 * 62: a burst's lengths are looked at in eight bits
 * 63: a refused burst raises the tally that its first report would have raised
 * 64: a recording without its last byte is taken
 * 65: a recording with a byte behind its bodies is taken
 * 66: 257 entries are taken
 * 67: a recording's 12 comes before its 25
 * 68: settings in a recording are counted as accepted
 * 69: an entry's number is the last refusal of its items
 * 70: a recording's choice is at the first entry's reading
 * 71: an entry's datagram is taken under the origin of the entry before
 * 72: an entry whose datagram is refused has one item
 * 73: the number behind the last row is written, in an array that has it
 * 74: the number behind rows that are exactly long enough is written
 * 75: a recording's 10 is not given, and as many numbers as fit are written
 * 76: a recording's 10 comes before its 12
 * 77: the rows are written though a recording gets 10
 * 78: a recording of 65,537 bytes is taken
 * 79: an entry's datagram is taken at the reading of the entry before
 * 80: a recording is taken at reduced size
 * 81: a recording's choice is at the reading of the last entry that was read
 * 82: settings in a recording are no items
 * 83: entries behind a datagram that is refused are not taken
 * 84: after a refusal, the entries are those that the head says
 * 85: the byte behind the recording is read
 * 86: the recording is written on
 * 87: 256 entries get 25
 * 88: rows that are exactly long enough get 10
 * 89: a recording of 65,536 bytes gets 25
 * 90: the number of entries is looked at in 16 bits
 * 91: the lengths of bodies are added up in 16 bits
 * 92: a recording's members are swept at each reading
 * 93: the table is opened anew for each entry
 * 94: the last byte of an entry's port is not looked at
 * 95: items behind a refused one are not counted as accepted
 * 96: a recording without entries has a target
 * 97: after a refusal there is a target
 * 98: the last four bytes of an entry's N are not looked at
 * 99: the choice is made before the last datagram is taken
 * 100: among equally late members the one at the lowest place is chosen
 * 101: an accepted report of a new member raises the tally of the member at the held place before its own
 * 102: the member whose report was accepted last is followed, where it is counted
 * 103: settings are compared with the earliest counted member
 * 104: slack is taken in units of 2^-32 s
 * 105: the greatest slack gets 11
 * 106: settings that are later by all of the slack do not suit
 * 107: settings that are as late as the latest member do not suit
 * 108: the 13 of settings comes before their 20
 * 109: the 11 of a check comes after its 20
 * 110: settings with presented 0 are taken
 * 111: settings with a delay of 0 are taken
 * 112: the presented time of settings is cut to 32 bits
 * 113: settings whose sender has a member's number get 13
 * 114: a check of settings that suit raises a tally
 * 115: a slack above its limit is taken as the limit
 * 116: settings are compared with members of P 0 too
 * 117: settings are compared with members up to 60 s old
 * 118: settings get 20 in arrival mode
 * 119: the 16 of settings comes before their 15
 * 120: the 17 of settings comes before their 16
 * 121: settings received 30 s ago get 15
 * 122: settings with an RTP age of 60 seconds exactly get 16
 * 123: settings with a delay of 30 s get 17
 * 124: refused settings suit
 * 125: the delay of settings is looked at in units of 2^-16 s, so that 30 s and a unit are taken
 * 126: group and media source of settings are exchanged
 * 127: no settings are too late
 * 128: no settings are too early
 * 129: settings are compared in whole milliseconds
 * 130: settings received after N as a plain number get 15
 * 131: after a refused check, the table's first place is not held
 * 132: settings are compared with the counted member at the lowest place
 * 133: the slack in units of 2^-32 s is cut to 32 bits
 * 134: settings whose presented time as a plain number is below received get 17
 * 135: the media source of settings is not looked at
 */
#include "../tests/c/lateness.h"
#include "prunepocket.h"

#include <string.h>

#ifndef ARCHIVE_FAULT
#define ARCHIVE_FAULT 0
#endif

struct prunepocket_answer __real_prunepocket_count_items(const uint8_t *, size_t, uint32_t, uint64_t *);
struct prunepocket_answer __wrap_prunepocket_count_items(const uint8_t *, size_t, uint32_t, uint64_t *);
struct prunepocket_answer __real_prunepocket_item_field(const uint8_t *, size_t, uint32_t, uint64_t, uint64_t,
                                                        uint64_t *);
struct prunepocket_answer __wrap_prunepocket_item_field(const uint8_t *, size_t, uint32_t, uint64_t, uint64_t,
                                                        uint64_t *);
struct prunepocket_answer __real_prunepocket_read_items(const uint8_t *, size_t, uint32_t, uint64_t *, size_t,
                                                        uint64_t *);
struct prunepocket_answer __wrap_prunepocket_read_items(const uint8_t *, size_t, uint32_t, uint64_t *, size_t,
                                                        uint64_t *);
struct prunepocket_answered __real_prunepocket_report(struct prunepocket_table, struct prunepocket_record,
                                                      struct prunepocket_reading);
struct prunepocket_answered __wrap_prunepocket_report(struct prunepocket_table, struct prunepocket_record,
                                                      struct prunepocket_reading);
struct prunepocket_answered __real_prunepocket_farewell(struct prunepocket_table, uint32_t, struct prunepocket_origin);
struct prunepocket_answered __wrap_prunepocket_farewell(struct prunepocket_table, uint32_t, struct prunepocket_origin);
struct prunepocket_answered __real_prunepocket_sweep(struct prunepocket_table, struct prunepocket_reading);
struct prunepocket_answered __wrap_prunepocket_sweep(struct prunepocket_table, struct prunepocket_reading);
struct prunepocket_place __real_prunepocket_member_at(struct prunepocket_table, size_t);
struct prunepocket_place __wrap_prunepocket_member_at(struct prunepocket_table, size_t);
struct prunepocket_datagram_answered
__real_prunepocket_take_datagram(struct prunepocket_table, const uint8_t *, size_t, uint32_t, struct prunepocket_origin,
                                 struct prunepocket_reading, uint64_t *, size_t);
struct prunepocket_datagram_answered
__wrap_prunepocket_take_datagram(struct prunepocket_table, const uint8_t *, size_t, uint32_t, struct prunepocket_origin,
                                 struct prunepocket_reading, uint64_t *, size_t);
struct prunepocket_answered __real_prunepocket_report_burst(struct prunepocket_table, const struct prunepocket_record *,
                                                            size_t, struct prunepocket_reading, uint64_t *, size_t);
struct prunepocket_answered __wrap_prunepocket_report_burst(struct prunepocket_table, const struct prunepocket_record *,
                                                            size_t, struct prunepocket_reading, uint64_t *, size_t);
struct prunepocket_followed __real_prunepocket_choose(struct prunepocket_table, struct prunepocket_reading);
struct prunepocket_followed __wrap_prunepocket_choose(struct prunepocket_table, struct prunepocket_reading);
struct prunepocket_settings_answered __real_prunepocket_check_settings(struct prunepocket_table,
                                                                       struct prunepocket_settings,
                                                                       struct prunepocket_reading, uint32_t);
struct prunepocket_settings_answered __wrap_prunepocket_check_settings(struct prunepocket_table,
                                                                       struct prunepocket_settings,
                                                                       struct prunepocket_reading, uint32_t);
struct prunepocket_recording_answered __real_prunepocket_replay(const uint8_t *, size_t, uint64_t *, size_t);
struct prunepocket_recording_answered __wrap_prunepocket_replay(const uint8_t *, size_t, uint64_t *, size_t);
struct prunepocket_answer __real_prunepocket_read_sync_group(const uint8_t *, size_t, uint32_t *);
struct prunepocket_answer __wrap_prunepocket_read_sync_group(const uint8_t *, size_t, uint32_t *);
struct prunepocket_answer __real_prunepocket_write_sync_group(uint32_t, uint8_t *, size_t, uint64_t *);
struct prunepocket_answer __wrap_prunepocket_write_sync_group(uint32_t, uint8_t *, size_t, uint64_t *);

/* The datagram without P in its first packet. */
static const uint8_t *without_first_p(const uint8_t *datagram, size_t length)
{
    static uint8_t copy[4096];

    memcpy(copy, datagram, length);
    copy[0] &= 0xDF;
    return copy;
}

struct prunepocket_answer __wrap_prunepocket_count_items(const uint8_t *datagram, size_t length, uint32_t reduced_size,
                                                         uint64_t *count)
{
    if (ARCHIVE_FAULT == 23)
        reduced_size = 0;
    if (ARCHIVE_FAULT == 29)
        reduced_size &= 1;
    return __real_prunepocket_count_items(datagram, length, reduced_size, count);
}

struct prunepocket_answer __wrap_prunepocket_item_field(const uint8_t *datagram, size_t length, uint32_t reduced_size,
                                                        uint64_t index, uint64_t field, uint64_t *value)
{
    if (ARCHIVE_FAULT == 24)
        reduced_size = 0;
    if (ARCHIVE_FAULT == 30)
        reduced_size &= 0xFF;
    return __real_prunepocket_item_field(datagram, length, reduced_size, index, field, value);
}

__attribute__((no_sanitize("all"))) struct prunepocket_answer
__wrap_prunepocket_read_items(const uint8_t *datagram, size_t length, uint32_t reduced_size, uint64_t *rows,
                              size_t rows_length, uint64_t *count)
{
    if (ARCHIVE_FAULT == 19)
        reduced_size = 0;
    if (ARCHIVE_FAULT == 20)
        reduced_size = 1;
    if (ARCHIVE_FAULT == 21)
        reduced_size = reduced_size == 0;
    if (ARCHIVE_FAULT == 22 && reduced_size != 0 && length > 0)
        datagram = without_first_p(datagram, length);

    struct prunepocket_answer answer =
        __real_prunepocket_read_items(datagram, length, reduced_size, rows, rows_length, count);
    size_t written = answer.number == 0 ? PRUNEPOCKET_ROW * (size_t)*count : 0;

    if (ARCHIVE_FAULT == 1 && written > 0)
        ((volatile uint64_t *)rows)[-1] = 1;
    if (ARCHIVE_FAULT == 2 && written > 0 && written < rows_length)
        rows[written] = 1;
    if (ARCHIVE_FAULT == 3 && written > 0 && written == rows_length)
        ((volatile uint64_t *)rows)[rows_length] = 1;
    if (ARCHIVE_FAULT == 4 && answer.number == PRUNEPOCKET_SHORT_BUFFER && rows_length > 0)
        rows[0] = 1;
    if (ARCHIVE_FAULT == 5 && answer.number != 0)
        *count = 0;
    if (ARCHIVE_FAULT == 6 && length > 0)
        (void)((const volatile uint8_t *)datagram)[length];
    return answer;
}

static int is_held(const struct prunepocket_table *table, size_t place)
{
    return (table->held >> place & 1) == 1;
}

/* The first place of a number, among those held or those not held; PRUNEPOCKET_PLACES where it has none. */
static size_t place_of(const struct prunepocket_table *table, uint32_t source, int held)
{
    size_t place = 0;

    while (place < PRUNEPOCKET_PLACES &&
           (is_held(table, place) != held || table->members[place].record.source != source))
        place++;
    return place;
}

/* The held place behind another, from the last on to the first. */
static size_t next_held(const struct prunepocket_table *table, size_t place)
{
    do
        place = (place + 1) % PRUNEPOCKET_PLACES;
    while (!is_held(table, place));
    return place;
}

/* The held place before another, from the first on to the last. */
static size_t held_before(const struct prunepocket_table *table, size_t place)
{
    do
        place = (place + PRUNEPOCKET_PLACES - 1) % PRUNEPOCKET_PLACES;
    while (!is_held(table, place));
    return place;
}

/* Each table has it in its own memory, at the places that are not held. */
static void note_last_heard(struct prunepocket_table *table, uint32_t source)
{
    for (size_t place = 0; place < PRUNEPOCKET_PLACES; place++)
        if (!is_held(table, place))
            table->members[place].record.source = source;
}

/* After 14 under a number: the tally before and the one that came. */
static void plant_after_14(const struct prunepocket_table *before, struct prunepocket_table *after, uint32_t source)
{
    size_t place = place_of(before, source, 1);
    uint32_t tally = before->members[place].tally;

    if (ARCHIVE_FAULT == 38 && tally == PRUNEPOCKET_TALLY_LIMIT)
        after->members[place].tally = 0;
    if (ARCHIVE_FAULT == 39 && tally == PRUNEPOCKET_TALLY_LIMIT - 1)
        after->members[place].tally = tally;
    if (ARCHIVE_FAULT == 40) {
        uint32_t *next = &after->members[next_held(after, place)].tally;

        after->members[place].tally = tally;
        *next += *next < PRUNEPOCKET_TALLY_LIMIT;
    }
}

/* An accepted report, of a member or of a new one. Memory at places that are not held still has who left. */
static void plant_after_accepted(const struct prunepocket_table *before, struct prunepocket_table *after,
                                 uint32_t source)
{
    size_t place = place_of(after, source, 1);
    int is_new = !is_held(before, place);
    size_t left = place_of(before, source, 0);

    if (ARCHIVE_FAULT == 37 && !is_new)
        after->members[place].tally = 0;
    if ((ARCHIVE_FAULT == 35 || ARCHIVE_FAULT == 36) && is_new)
        after->members[place].tally = before->members[place].tally;
    if (ARCHIVE_FAULT == 42 && is_new && left < PRUNEPOCKET_PLACES)
        after->members[place].tally = before->members[left].tally;
    if (ARCHIVE_FAULT == 101 && is_new)
        after->members[held_before(after, place)].tally += prunepocket_count_members(*after) > 1;
    if (ARCHIVE_FAULT == 102)
        note_last_heard(after, source);
}

/* Members that left, by farewell or by a sweep: memory keeps their tallies, or has 0. */
static void plant_after_leaving(const struct prunepocket_table *before, struct prunepocket_table *after, int keeps)
{
    for (size_t place = 0; place < PRUNEPOCKET_PLACES; place++)
        if (is_held(before, place) && !is_held(after, place))
            after->members[place].tally = keeps ? before->members[place].tally : 0;
}

struct prunepocket_answered __wrap_prunepocket_report(struct prunepocket_table table, struct prunepocket_record record,
                                                      struct prunepocket_reading reading)
{
    struct prunepocket_answered answered = __real_prunepocket_report(table, record, reading);
    size_t place = place_of(&table, record.source, 1);
    int is_twin = place < PRUNEPOCKET_PLACES &&
                  memcmp(&table.members[place].record.origin, &record.origin, sizeof record.origin) != 0;

    if (ARCHIVE_FAULT == 7 && answered.number == PRUNEPOCKET_OTHER_ORIGIN)
        answered.table.members[0].record.report.payload_type ^= 1;
    if (ARCHIVE_FAULT == 32 && answered.number == PRUNEPOCKET_OTHER_STREAM && is_twin)
        answered.table.members[place].tally++;
    if (ARCHIVE_FAULT == 33 && answered.number == PRUNEPOCKET_RECEIVED_FAR && place < PRUNEPOCKET_PLACES)
        answered.table.members[place].tally++;
    if (ARCHIVE_FAULT == 45 && answered.number == PRUNEPOCKET_OTHER_ORIGIN)
        answered.table = table;
    if (answered.number == PRUNEPOCKET_OTHER_ORIGIN)
        plant_after_14(&table, &answered.table, record.source);
    if (answered.number == PRUNEPOCKET_ACCEPTED)
        plant_after_accepted(&table, &answered.table, record.source);
    return answered;
}

struct prunepocket_answered __wrap_prunepocket_farewell(struct prunepocket_table table, uint32_t source,
                                                        struct prunepocket_origin origin)
{
    struct prunepocket_answered answered = __real_prunepocket_farewell(table, source, origin);

    if (ARCHIVE_FAULT == 34 && answered.number == PRUNEPOCKET_OTHER_ORIGIN)
        answered.table = table;
    if (answered.number == PRUNEPOCKET_OTHER_ORIGIN)
        plant_after_14(&table, &answered.table, source);
    plant_after_leaving(&table, &answered.table, ARCHIVE_FAULT != 36);
    return answered;
}

struct prunepocket_answered __wrap_prunepocket_sweep(struct prunepocket_table table, struct prunepocket_reading reading)
{
    struct prunepocket_answered answered = __real_prunepocket_sweep(table, reading);

    plant_after_leaving(&table, &answered.table, ARCHIVE_FAULT != 35);
    return answered;
}

struct prunepocket_place __wrap_prunepocket_member_at(struct prunepocket_table table, size_t place)
{
    struct prunepocket_place at = __real_prunepocket_member_at(table, place);

    if (ARCHIVE_FAULT == 44 && place < PRUNEPOCKET_PLACES && !at.held)
        at.member.tally = table.members[place].tally;
    return at;
}

struct prunepocket_datagram_answered
__wrap_prunepocket_take_datagram(struct prunepocket_table table, const uint8_t *datagram, size_t length,
                                 uint32_t reduced_size, struct prunepocket_origin origin,
                                 struct prunepocket_reading reading, uint64_t *answers, size_t answers_length)
{
    if (ARCHIVE_FAULT == 25)
        reduced_size = 0;
    if (ARCHIVE_FAULT == 26)
        reduced_size = 1;
    if (ARCHIVE_FAULT == 27)
        reduced_size = reduced_size == 0;
    if (ARCHIVE_FAULT == 31)
        reduced_size = reduced_size == 1;
    if (ARCHIVE_FAULT == 28 && reduced_size != 0 && length > 0)
        datagram = without_first_p(datagram, length);

    struct prunepocket_datagram_answered answered = __real_prunepocket_take_datagram(
        table, datagram, length, reduced_size, origin, reading, answers, answers_length);

    for (size_t place = 0; ARCHIVE_FAULT == 43 && place < PRUNEPOCKET_PLACES; place++)
        if (is_held(&table, place) && answered.table.members[place].tally > table.members[place].tally)
            answered.table.members[place].tally = table.members[place].tally;
    return answered;
}

/* What a burst is told. */
struct burst {
    const struct prunepocket_record *reports;
    size_t count;
    struct prunepocket_reading reading;
    uint64_t *answers;
    size_t room;
};

static struct prunepocket_answered call_burst(struct prunepocket_table table, struct burst burst)
{
    return __real_prunepocket_report_burst(table, burst.reports, burst.count, burst.reading, burst.answers, burst.room);
}

/* The number of a burst by its lengths alone. */
static uint64_t burst_number(size_t count, size_t room)
{
    if (ARCHIVE_FAULT == 62) {
        count %= 256;
        room %= 256;
    }
    if (ARCHIVE_FAULT == 47 && room < count)
        return PRUNEPOCKET_SHORT_ANSWERS;
    if (count > 64 || (ARCHIVE_FAULT == 48 && count == 64))
        return PRUNEPOCKET_LONG_BURST;
    if (room < count || (ARCHIVE_FAULT == 53 && count > 0 && room == count) ||
        (ARCHIVE_FAULT == 61 && count == 0 && room == 0))
        return PRUNEPOCKET_SHORT_ANSWERS;
    return PRUNEPOCKET_ACCEPTED;
}

/* A refused burst, which may do something all the same. */
static struct prunepocket_answered refuse_burst(struct prunepocket_table table, struct burst burst, uint64_t number)
{
    struct prunepocket_answered answered = {.number = number, .table = table};

    if (ARCHIVE_FAULT == 54 && burst.room > 0)
        burst.answers[0] = 0;
    if (ARCHIVE_FAULT == 51 || ARCHIVE_FAULT == 63) {
        struct prunepocket_answered first = __real_prunepocket_report(table, burst.reports[0], burst.reading);

        if ((first.number == PRUNEPOCKET_ACCEPTED) == (ARCHIVE_FAULT == 51))
            answered.table = first.table;
    }
    return answered;
}

/* The reports one by one, in list order or from the last on, until one is refused, or all. */
static struct prunepocket_answered take_one_by_one(struct prunepocket_table table, struct burst burst)
{
    struct prunepocket_answered answered = {.number = PRUNEPOCKET_ACCEPTED, .table = table};

    for (size_t i = 0; i < burst.count; i++) {
        size_t at = ARCHIVE_FAULT == 57 ? burst.count - 1 - i : i;
        struct prunepocket_record record = burst.reports[at];

        if (ARCHIVE_FAULT == 52)
            record.origin = burst.reports[0].origin;
        struct prunepocket_answered single = __real_prunepocket_report(answered.table, record, burst.reading);

        if (ARCHIVE_FAULT != 56 || single.number != PRUNEPOCKET_OTHER_ORIGIN)
            answered.table = single.table;
        if (ARCHIVE_FAULT == 58)
            single = __real_prunepocket_report(table, record, burst.reading);
        burst.answers[at] = single.number;
        if (ARCHIVE_FAULT == 46 && single.number != PRUNEPOCKET_ACCEPTED)
            break;
    }
    return answered;
}

static void reverse(uint64_t *numbers, size_t count)
{
    for (size_t i = 0; i < count / 2; i++) {
        uint64_t front = numbers[i];

        numbers[i] = numbers[count - 1 - i];
        numbers[count - 1 - i] = front;
    }
}

/* A burst that is taken is the archive's own, but for the faults within it. */
__attribute__((no_sanitize("all"))) struct prunepocket_answered
__wrap_prunepocket_report_burst(struct prunepocket_table table, const struct prunepocket_record *reports,
                                size_t reports_length, struct prunepocket_reading reading, uint64_t *answers,
                                size_t answers_length)
{
    struct burst burst = {reports, reports_length, reading, answers, answers_length};

    if (ARCHIVE_FAULT == 59 && reports_length > 0) {
        /* Kept, since valgrind passes over what is read and not used. */
        volatile uint32_t behind = ((const volatile struct prunepocket_record *)reports)[reports_length].source;

        (void)behind;
    }
    if (ARCHIVE_FAULT == 60 && reports_length == 65)
        burst.count = 64;

    uint64_t number = burst_number(burst.count, burst.room);
    if (number != PRUNEPOCKET_ACCEPTED)
        return refuse_burst(table, burst, number);
    if (ARCHIVE_FAULT == 62)
        burst.count %= 256;

    int within = ARCHIVE_FAULT == 46 || ARCHIVE_FAULT == 52 || (ARCHIVE_FAULT >= 56 && ARCHIVE_FAULT <= 58);
    struct prunepocket_answered answered = within ? take_one_by_one(table, burst) : call_burst(table, burst);

    if (ARCHIVE_FAULT == 49)
        reverse(answers, burst.count);
    if (ARCHIVE_FAULT == 50 && burst.count < answers_length)
        answers[burst.count] = 0;
    if (ARCHIVE_FAULT == 55 && burst.count == answers_length)
        ((volatile uint64_t *)answers)[answers_length] = 0;
    return answered;
}

/* The target where the member at a place alone is held: whether it is counted, as those are that the target is of. */
static int choose_alone(struct prunepocket_table table, struct prunepocket_reading reading, size_t place,
                        struct prunepocket_target *target)
{
    uint32_t counted = target->counted;
    int is_arrival = target->presented == 0;
    struct prunepocket_followed alone;

    table.held &= UINT64_C(1) << place;
    alone = __real_prunepocket_choose(table, reading);
    if (alone.number != PRUNEPOCKET_ACCEPTED || (alone.target.presented == 0) != is_arrival)
        return 0;
    *target = alone.target;
    target->counted = counted;
    return 1;
}

/* The target, or that of an equally late member: the one of the highest tally, or the one at the lowest place. */
static struct prunepocket_target choose_among_equals(struct prunepocket_table table, struct prunepocket_reading reading,
                                                     struct prunepocket_target target)
{
    size_t at = place_of(&table, target.source, 1);
    struct prunepocket_target chosen = target;

    for (size_t place = 0; place < PRUNEPOCKET_PLACES; place++) {
        struct prunepocket_target alone = target;

        if (choose_alone(table, reading, place, &alone) &&
            lateness(alone, table.rate, reading) == lateness(target, table.rate, reading) &&
            (ARCHIVE_FAULT == 100 ? place < at : table.members[place].tally > table.members[at].tally)) {
            at = place;
            chosen = alone;
        }
    }
    return chosen;
}

/* The target, or that of the member heard last. */
static struct prunepocket_target choose_last_heard(struct prunepocket_table table, struct prunepocket_reading reading,
                                                   struct prunepocket_target target)
{
    size_t free_place = 0;
    size_t place;

    while (free_place < PRUNEPOCKET_PLACES && is_held(&table, free_place))
        free_place++;
    if (free_place < PRUNEPOCKET_PLACES) {
        place = place_of(&table, table.members[free_place].record.source, 1);
        if (place < PRUNEPOCKET_PLACES)
            choose_alone(table, reading, place, &target);
    }
    return target;
}

struct prunepocket_followed __wrap_prunepocket_choose(struct prunepocket_table table,
                                                      struct prunepocket_reading reading)
{
    struct prunepocket_followed followed = __real_prunepocket_choose(table, reading);

    if (ARCHIVE_FAULT == 8)
        followed.table.held &= ~UINT64_C(1);
    if ((ARCHIVE_FAULT == 41 || ARCHIVE_FAULT == 100) && followed.number == PRUNEPOCKET_ACCEPTED)
        followed.target = choose_among_equals(table, reading, followed.target);
    if (ARCHIVE_FAULT == 102 && followed.number == PRUNEPOCKET_ACCEPTED)
        followed.target = choose_last_heard(table, reading, followed.target);
    return followed;
}

/* What a check of settings is told. */
struct check {
    struct prunepocket_settings settings;
    struct prunepocket_reading reading;
    uint32_t slack;
};

/* Whether 20 applies. */
static int none_counted(const struct prunepocket_table *table, const struct check *check)
{
    struct prunepocket_followed followed = __real_prunepocket_choose(*table, check->reading);

    return followed.number != PRUNEPOCKET_ACCEPTED || (ARCHIVE_FAULT == 118 && followed.target.presented == 0);
}

/* Whether 13 applies. */
static int other_stream(const struct prunepocket_table *table, const struct prunepocket_settings *settings)
{
    if (ARCHIVE_FAULT == 113 && place_of(table, settings->sender, 1) < PRUNEPOCKET_PLACES)
        return 1;
    if (ARCHIVE_FAULT == 126)
        return settings->group != table->media || settings->media != table->group;
    return settings->group != table->group || (ARCHIVE_FAULT != 135 && settings->media != table->media);
}

/* Whether 15 applies. */
static int received_far(const struct check *check)
{
    uint64_t age = check->reading.ntp - check->settings.received;

    return age > (UINT64_C(30) << 32) - (ARCHIVE_FAULT == 121) ||
           (ARCHIVE_FAULT == 130 && check->settings.received > check->reading.ntp);
}

/* Whether 17 applies. */
static int badly_presented(const struct prunepocket_settings *settings)
{
    uint64_t delay = settings->presented - settings->received;
    uint64_t most = (UINT64_C(30) << 32) - (ARCHIVE_FAULT == 123) + (ARCHIVE_FAULT == 125 ? 65535 : 0);

    return delay > most || (ARCHIVE_FAULT != 110 && settings->presented == 0) || (ARCHIVE_FAULT != 111 && delay == 0) ||
           (ARCHIVE_FAULT == 134 && settings->presented < settings->received);
}

static int applies(uint64_t number, const struct prunepocket_table *table, const struct check *check)
{
    uint32_t rtp_age = check->reading.rtp - check->settings.rtp;

    switch (number) {
    case PRUNEPOCKET_OUT_OF_RANGE:
        return ARCHIVE_FAULT != 115 && check->slack > PRUNEPOCKET_SLACK_LIMIT - (ARCHIVE_FAULT == 105);
    case PRUNEPOCKET_NONE_COUNTED:
        return none_counted(table, check);
    case PRUNEPOCKET_OTHER_STREAM:
        return other_stream(table, &check->settings);
    case PRUNEPOCKET_RECEIVED_FAR:
        return received_far(check);
    case PRUNEPOCKET_RTP_AGED:
        return rtp_age > UINT64_C(60) * table->rate - (ARCHIVE_FAULT == 122);
    default:
        return badly_presented(&check->settings);
    }
}

/* The first refusal that applies, in the paper's order or in another. */
static uint64_t settings_number(const struct prunepocket_table *table, const struct check *check)
{
    uint64_t order[] = {11, 20, 13, 15, 16, 17};
    size_t exchanged = ARCHIVE_FAULT == 109 ? 1 : ARCHIVE_FAULT == 108 ? 2 : ARCHIVE_FAULT == 119 ? 4 : 5;

    if (ARCHIVE_FAULT == 109 || ARCHIVE_FAULT == 108 || ARCHIVE_FAULT == 119 || ARCHIVE_FAULT == 120) {
        uint64_t second = order[exchanged];

        order[exchanged] = order[exchanged - 1];
        order[exchanged - 1] = second;
    }
    for (size_t i = 0; i < sizeof order / sizeof order[0]; i++)
        if (applies(order[i], table, check))
            return order[i];
    return PRUNEPOCKET_ACCEPTED;
}

/* The target where a member alone is held, at the reading or where it was received: whether there is one. */
static int target_at(struct prunepocket_table table, struct prunepocket_reading reading, size_t place,
                     struct prunepocket_target *target)
{
    const struct prunepocket_report_fields *report = &table.members[place].record.report;
    uint64_t ntp_age = reading.ntp - report->received;
    uint32_t rtp_age = reading.rtp - report->rtp;
    struct prunepocket_followed alone;

    table.held &= UINT64_C(1) << place;
    if (ARCHIVE_FAULT == 117 && ntp_age <= UINT64_C(60) << 32 && rtp_age <= UINT64_C(60) * table.rate)
        reading = (struct prunepocket_reading){report->received, report->rtp};
    alone = __real_prunepocket_choose(table, reading);
    *target = alone.target;
    return alone.number == PRUNEPOCKET_ACCEPTED;
}

/* The lateness of the member that settings are compared with: the latest, or another. 20 does not apply. */
static int64_t compared_with(const struct prunepocket_table *table, struct prunepocket_reading reading)
{
    struct prunepocket_target chosen = __real_prunepocket_choose(*table, reading).target, at;
    int64_t late = lateness(chosen, table->rate, reading);

    for (size_t place = 0; place < PRUNEPOCKET_PLACES; place++) {
        int any = ARCHIVE_FAULT == 116 && target_at(*table, reading, place, &at);
        int counted = target_at(*table, reading, place, &at) && (at.presented == 0) == (chosen.presented == 0);
        int64_t its = any || counted ? lateness(at, table->rate, reading) : late;

        if (ARCHIVE_FAULT == 132 && counted)
            return its;
        if (ARCHIVE_FAULT == 103 ? its < late : its > late)
            late = its;
    }
    return late;
}

/* As much later as settings may be, in units of lateness. */
static int64_t allowed_by(uint32_t rate, uint32_t slack)
{
    if (ARCHIVE_FAULT == 104)
        return (int64_t)rate * slack;
    if (ARCHIVE_FAULT == 133)
        return (int64_t)rate * (uint32_t)(slack << 16);
    return (int64_t)rate * slack * 65536;
}

static int settings_suit(const struct prunepocket_table *table, const struct check *check)
{
    struct prunepocket_target times = {.received = check->settings.received,
                                       .rtp = check->settings.rtp,
                                       .presented = check->settings.presented};
    uint32_t slack = check->slack > PRUNEPOCKET_SLACK_LIMIT ? PRUNEPOCKET_SLACK_LIMIT : check->slack;
    int64_t allowed = allowed_by(table->rate, slack);
    int64_t excess = lateness(times, table->rate, check->reading) - compared_with(table, check->reading);

    if (ARCHIVE_FAULT == 129) {
        int64_t millisecond = ((int64_t)table->rate << 32) / 1000;

        return excess / millisecond >= 0 && excess / millisecond <= allowed / millisecond;
    }
    if (ARCHIVE_FAULT == 106 && allowed > 0 && excess == allowed)
        return 0;
    if (ARCHIVE_FAULT == 107 && excess == 0)
        return 0;
    return (excess >= 0 || ARCHIVE_FAULT == 128) && (excess <= allowed || ARCHIVE_FAULT == 127);
}

struct prunepocket_settings_answered __wrap_prunepocket_check_settings(struct prunepocket_table table,
                                                                       struct prunepocket_settings settings,
                                                                       struct prunepocket_reading reading,
                                                                       uint32_t slack)
{
    struct prunepocket_settings_answered answered = __real_prunepocket_check_settings(table, settings, reading, slack);
    struct check check = {settings, reading, slack};

    if (ARCHIVE_FAULT < 103)
        return answered;
    if (ARCHIVE_FAULT == 112)
        check.settings.presented &= UINT32_MAX;
    answered.number = settings_number(&table, &check);
    answered.suits = answered.number == PRUNEPOCKET_ACCEPTED ? settings_suit(&table, &check) : ARCHIVE_FAULT == 124;
    if (ARCHIVE_FAULT == 114 && answered.suits)
        answered.table.members[next_held(&table, 0)].tally ^= 1;
    if (ARCHIVE_FAULT == 131 && answered.number != PRUNEPOCKET_ACCEPTED)
        answered.table.held &= ~UINT64_C(1);
    return answered;
}

/* What a replay is told. */
struct recording {
    const uint8_t *bytes;
    size_t length;
    uint64_t *rows;
    size_t room;
};

enum { HEAD = 16, CONTENTS = 32 };

static uint64_t number_in(const uint8_t *bytes, size_t count)
{
    uint64_t value = 0;

    for (size_t i = 0; i < count; i++)
        value = value << 8 | bytes[i];
    return value;
}

static size_t entries_said(const struct recording *recording)
{
    size_t count = (size_t)number_in(recording->bytes, 4);

    return ARCHIVE_FAULT == 90 ? count % 65536 : count;
}

static size_t length_said(const struct recording *recording, size_t entry)
{
    return (size_t)number_in(recording->bytes + HEAD + CONTENTS * entry + 30, 2);
}

/* The bodies end where they may, by how many bytes they are said to have. */
static int ends_well(const struct recording *recording, size_t count)
{
    size_t bodies = 0;
    size_t there = recording->length - HEAD - CONTENTS * count;

    for (size_t i = 0; i < count; i++)
        bodies += length_said(recording, i);
    if (ARCHIVE_FAULT == 91)
        bodies %= 65536;
    return bodies == there || (ARCHIVE_FAULT == 64 && bodies == there + 1) ||
           (ARCHIVE_FAULT == 65 && bodies + 1 == there);
}

static uint64_t layout_number(const struct recording *recording)
{
    size_t most = ARCHIVE_FAULT == 78 ? 65537 : ARCHIVE_FAULT == 89 ? 65535 : 65536;
    size_t most_entries = ARCHIVE_FAULT == 66 ? 257 : ARCHIVE_FAULT == 87 ? 255 : 256;

    if (recording->length > most || recording->length < HEAD)
        return PRUNEPOCKET_BAD_LAYOUT;

    size_t count = entries_said(recording);
    if (count > most_entries || recording->length - HEAD < CONTENTS * count || !ends_well(recording, count))
        return PRUNEPOCKET_BAD_LAYOUT;
    return PRUNEPOCKET_ACCEPTED;
}

static struct prunepocket_answered open_recorded(const struct recording *recording)
{
    return prunepocket_open((uint32_t)number_in(recording->bytes + 4, 4),
                            (uint32_t)number_in(recording->bytes + 8, 4),
                            (uint32_t)number_in(recording->bytes + 12, 4));
}

static uint64_t recording_number(const struct recording *recording)
{
    uint64_t layout = layout_number(recording);
    uint64_t opening = recording->length < HEAD ? PRUNEPOCKET_ACCEPTED : open_recorded(recording).number;

    if (ARCHIVE_FAULT == 67 && opening != PRUNEPOCKET_ACCEPTED)
        return opening;
    if (layout != PRUNEPOCKET_ACCEPTED)
        return layout;

    size_t needed = PRUNEPOCKET_ENTRY_ROW * entries_said(recording) + (ARCHIVE_FAULT == 88);
    uint64_t room = recording->room < needed ? PRUNEPOCKET_SHORT_BUFFER : PRUNEPOCKET_ACCEPTED;
    if (ARCHIVE_FAULT == 76 && room != PRUNEPOCKET_ACCEPTED)
        return room;
    if (opening != PRUNEPOCKET_ACCEPTED)
        return opening;
    return ARCHIVE_FAULT == 75 ? PRUNEPOCKET_ACCEPTED : room;
}

/* What an entry says, and its body, which ends with the recording at the latest. */
struct recorded {
    struct prunepocket_reading reading;
    struct prunepocket_origin origin;
    const uint8_t *body;
    size_t length;
};

static struct recorded recorded_at(const struct recording *recording, size_t index, const uint8_t *body)
{
    const uint8_t *entry = recording->bytes + HEAD + CONTENTS * index;
    size_t left = (size_t)(recording->bytes + recording->length - body);
    size_t said = length_said(recording, index);
    struct recorded recorded = {.body = body, .length = said < left ? said : left};

    recorded.reading.ntp = number_in(entry, ARCHIVE_FAULT == 98 ? 4 : 8) << (ARCHIVE_FAULT == 98 ? 32 : 0);
    recorded.reading.rtp = (uint32_t)number_in(entry + 8, 4);
    memcpy(recorded.origin.address, entry + 12, 16);
    recorded.origin.port = (uint16_t)number_in(entry + 28, 2);
    if (ARCHIVE_FAULT == 94)
        recorded.origin.port &= 0xFF00;
    return recorded;
}

/* The row of a datagram that was taken with these numbers, and has so many items. */
static void count_row(const struct prunepocket_datagram_answered *answered, const uint64_t *numbers, uint64_t items,
                      uint64_t row[PRUNEPOCKET_ENTRY_ROW])
{
    uint64_t settings = items - answered->count;

    row[PRUNEPOCKET_ENTRY_ITEMS] = items - (ARCHIVE_FAULT == 82 ? settings : 0);
    row[PRUNEPOCKET_ENTRY_ACCEPTED] = ARCHIVE_FAULT == 68 ? settings : 0;
    row[PRUNEPOCKET_ENTRY_NUMBER] = answered->number;
    for (uint64_t i = 0; i < answered->count; i++) {
        if (numbers[i] == 0)
            row[PRUNEPOCKET_ENTRY_ACCEPTED] += ARCHIVE_FAULT != 95 || row[PRUNEPOCKET_ENTRY_NUMBER] == 0;
        else if (row[PRUNEPOCKET_ENTRY_NUMBER] == 0 || ARCHIVE_FAULT == 69)
            row[PRUNEPOCKET_ENTRY_NUMBER] = numbers[i];
    }
    if (ARCHIVE_FAULT == 72 && answered->number != 0)
        row[PRUNEPOCKET_ENTRY_ITEMS] = 1;
}

/* The table after an entry, whose row goes to its place as far as there is room. */
static struct prunepocket_table take_recorded(struct prunepocket_table table, const struct recording *recording,
                                              size_t index, const struct recorded *recorded)
{
    uint64_t numbers[512];
    uint64_t items = 0;
    uint64_t row[PRUNEPOCKET_ENTRY_ROW];
    uint32_t reduced_size = ARCHIVE_FAULT == 80;
    struct prunepocket_datagram_answered answered =
        __real_prunepocket_take_datagram(table, recorded->body, recorded->length, reduced_size, recorded->origin,
                                         recorded->reading, numbers, 512);

    __real_prunepocket_count_items(recorded->body, recorded->length, reduced_size, &items);
    count_row(&answered, numbers, items, row);
    for (size_t i = 0; i < PRUNEPOCKET_ENTRY_ROW; i++)
        if (PRUNEPOCKET_ENTRY_ROW * index + i < recording->room)
            recording->rows[PRUNEPOCKET_ENTRY_ROW * index + i] = row[i];
    if (ARCHIVE_FAULT == 92)
        return __real_prunepocket_sweep(answered.table, recorded->reading).table;
    return answered.table;
}

/* The reading of the choice, of all that were met. */
static struct prunepocket_reading reading_of(const struct recording *recording, size_t count)
{
    const uint8_t *body = recording->bytes + HEAD + CONTENTS * count;
    struct prunepocket_reading reading = recorded_at(recording, 0, body).reading;

    for (size_t i = 0; i < count && ARCHIVE_FAULT != 70; i++) {
        struct recorded recorded = recorded_at(recording, i, body);
        uint64_t items;

        if (ARCHIVE_FAULT != 81 ||
            __real_prunepocket_count_items(recorded.body, recorded.length, 0, &items).number == 0)
            reading = recorded.reading;
        body += recorded.length;
    }
    return reading;
}

/* Each entry by the other calls, but for the faults within. */
static struct prunepocket_recording_answered replay_by_calls(const struct recording *recording)
{
    size_t count = entries_said(recording);
    const uint8_t *body = recording->bytes + HEAD + CONTENTS * count;
    struct prunepocket_recording_answered replayed = {.entries = count, .choice = PRUNEPOCKET_NONE_COUNTED};
    struct prunepocket_table opened = open_recorded(recording).table;
    struct prunepocket_table table = opened, before_last = opened;
    struct recorded before = {.body = body};

    for (size_t i = 0; i < count; i++) {
        struct recorded recorded = recorded_at(recording, i, body), taken = recorded;

        if (ARCHIVE_FAULT == 71 && i > 0)
            taken.origin = before.origin;
        if (ARCHIVE_FAULT == 79 && i > 0)
            taken.reading = before.reading;
        if (ARCHIVE_FAULT == 93)
            table = opened;
        if (ARCHIVE_FAULT == 83 && i > 0 && recording->rows[PRUNEPOCKET_ENTRY_ROW * i - 1] - 1 < 7)
            taken.length = 0;
        before_last = table;
        table = take_recorded(table, recording, i, &taken);
        body += recorded.length;
        before = recorded;
    }
    if (count > 0) {
        struct prunepocket_followed followed =
            __real_prunepocket_choose(ARCHIVE_FAULT == 99 ? before_last : table, reading_of(recording, count));

        replayed.choice = followed.number;
        replayed.target = followed.target;
    }
    return replayed;
}

static struct prunepocket_recording_answered refuse_recording(const struct recording *recording, uint64_t number)
{
    struct prunepocket_recording_answered replayed = {.number = number, .choice = PRUNEPOCKET_NONE_COUNTED};

    if (ARCHIVE_FAULT == 77 && number == PRUNEPOCKET_SHORT_BUFFER && recording->room > 0)
        recording->rows[0] = 0;
    if (ARCHIVE_FAULT == 84 && recording->length >= HEAD)
        replayed.entries = entries_said(recording);
    if (ARCHIVE_FAULT == 97)
        replayed.choice = PRUNEPOCKET_ACCEPTED;
    return replayed;
}

/* Memory that a replay may not touch. */
__attribute__((no_sanitize("all"))) static void plant_around(const struct recording *recording, uint64_t number)
{
    size_t written = number == PRUNEPOCKET_ACCEPTED ? PRUNEPOCKET_ENTRY_ROW * entries_said(recording) : 0;

    if (ARCHIVE_FAULT == 73 && written > 0 && written < recording->room)
        recording->rows[written] = 0;
    if (ARCHIVE_FAULT == 74 && written > 0 && written == recording->room)
        ((volatile uint64_t *)recording->rows)[written] = 0;
    if (ARCHIVE_FAULT == 85 && recording->length > 0) {
        /* Kept, since valgrind passes over what is read and not used. */
        volatile uint8_t behind = ((const volatile uint8_t *)recording->bytes)[recording->length];

        (void)behind;
    }
    if (ARCHIVE_FAULT == 86 && number == PRUNEPOCKET_ACCEPTED)
        ((volatile uint8_t *)(uintptr_t)recording->bytes)[0] = 1;
}

struct prunepocket_recording_answered __wrap_prunepocket_replay(const uint8_t *bytes, size_t length, uint64_t *rows,
                                                                size_t room)
{
    struct recording recording = {bytes, length, rows, room};
    int is_around = ARCHIVE_FAULT == 73 || ARCHIVE_FAULT == 74 || ARCHIVE_FAULT == 85 || ARCHIVE_FAULT == 86;

    if (ARCHIVE_FAULT < 64 || is_around) {
        struct prunepocket_recording_answered replayed = __real_prunepocket_replay(bytes, length, rows, room);

        plant_around(&recording, replayed.number);
        return replayed;
    }

    uint64_t number = recording_number(&recording);
    if (number != PRUNEPOCKET_ACCEPTED)
        return refuse_recording(&recording, number);

    struct prunepocket_recording_answered replayed = replay_by_calls(&recording);
    if (ARCHIVE_FAULT == 96 && replayed.entries == 0)
        replayed.choice = PRUNEPOCKET_ACCEPTED;
    return replayed;
}

__attribute__((no_sanitize("all"))) struct prunepocket_answer
__wrap_prunepocket_read_sync_group(const uint8_t *line, size_t length, uint32_t *group)
{
    struct prunepocket_answer answer = __real_prunepocket_read_sync_group(line, length, group);

    if (ARCHIVE_FAULT == 9 && answer.number != 0)
        *group = 0;
    if (ARCHIVE_FAULT == 10 && length > 0)
        (void)((const volatile uint8_t *)line)[length];
    if (ARCHIVE_FAULT == 11 && answer.number == 0)
        ((volatile uint8_t *)(uintptr_t)line)[length - 2] = 0;
    if (ARCHIVE_FAULT == 12 && answer.number == PRUNEPOCKET_BAD_GROUP)
        answer.place = length;
    return answer;
}

__attribute__((no_sanitize("all"))) struct prunepocket_answer
__wrap_prunepocket_write_sync_group(uint32_t group, uint8_t *buffer, size_t length, uint64_t *written)
{
    struct prunepocket_answer answer = __real_prunepocket_write_sync_group(group, buffer, length, written);
    size_t bytes = answer.number == 0 ? (size_t)*written : 0;

    if (ARCHIVE_FAULT == 13 && bytes > 0 && bytes < length)
        buffer[bytes] = 0;
    if (ARCHIVE_FAULT == 14 && bytes > 0 && bytes == length)
        ((volatile uint8_t *)buffer)[length] = 0;
    if (ARCHIVE_FAULT == 15 && bytes > 0)
        ((volatile uint8_t *)buffer)[-1] = 0;
    if (ARCHIVE_FAULT == 16 && answer.number == PRUNEPOCKET_SHORT_BUFFER && length > 0)
        buffer[0] = 'a';
    if (ARCHIVE_FAULT == 17 && answer.number == PRUNEPOCKET_BAD_GROUP)
        *written = 0;
    if (ARCHIVE_FAULT == 18 && bytes > 0 && bytes < length)
        buffer[length - 1] ^= 1;
    return answer;
}
