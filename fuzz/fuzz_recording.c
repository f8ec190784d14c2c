/*
 * Takes every input as a script that makes a recording, or as a recording itself, gives it to the archive's replay and
 * to the independent one, and aborts where the number, a row, the choice or the target differs, where a call writes
 * outside of the rows, or where it writes at all though it refuses. The form of a script is in README.md.
 */
#include "lend.h"
#include "prunepocket.h"
#include "recording.h"
#include "same.h"
#include "script.h"
#include "shares.h"

#include <inttypes.h>
#include <stdbool.h>
#include <stdio.h>
#include <stdlib.h>
#include <string.h>

/* Refusals; an entry gets none from 20 on. */
enum { SHORT_BUFFER = 10, BAD_OPENING = 12, NONE_TO_FOLLOW = 20, NUMBERS = 20 };

/* More than a recording may have of each. */
enum { MOST_FILE = 70000, MOST_MADE = 300 };

/* Numbers of a row, of all rows, and of the memory among which the rows stand. */
enum { ROW = 3, MOST_ROWS = ROW * MOST_ENTRIES, AROUND_ROWS = 1024 };

/* ---- What was met ---- */

static const struct share layout_shares[LAYOUTS] = {
    {"good layout", 3},
    {"over 65,536 bytes", 1000},
    {"head cut short", 10000},
    {"over 256 entries", 1000},
    {"table of contents cut short", 2000},
    {"bodies end behind the file", 200},
    {"bodies end before the file does", 200},
};

/* What is told apart of recordings. */
enum recording_case {
    ONE_BYTE_OVER,
    ONE_ENTRY_OVER,
    ONE_BYTE_MISSING,
    ONE_BYTE_MORE,
    BAD_OPENING_TOO,
    REFUSED_OPENING,
    NO_ENTRIES,
    ALL_ENTRIES,
    ALL_BYTES,
    SETTINGS_READ,
    BEHIND_REFUSAL,
    TWO_REFUSALS,
    OTHER_THAN_FIRST,
    OTHER_THAN_BEFORE,
    UNREAD_LAST,
    BY_PRESENTATION,
    BY_ARRIVAL,
    NONE_FRESH,
    RECORDING_CASES
};

static const struct share recording_shares[RECORDING_CASES] = {
    {"65,537 bytes, else good", 10000},
    {"257 entries, else good", 10000},
    {"one byte missing", 10000},
    {"one byte more", 10000},
    {"25 where 12 applies too", 1000},
    {"12", 50},
    {"no entries", 2000},
    {"256 entries", 2000},
    {"65,536 bytes", 10000},
    {"settings in a datagram that is read", 100},
    {"accepted behind a refused one", 100},
    {"the last refusal another than the first", 100},
    {"another target than at the first reading", 500},
    {"another target than at the reading before the last", 500},
    {"a target though the last datagram is refused", 500},
    {"a target by presentation", 20},
    {"a target by arrival", 100},
    {"members, and none fresh", 500},
};

/* What the fuzzer is told beside the branches. */
enum {
    BY_CASE = LAYOUTS,
    BY_NUMBER = BY_CASE + RECORDING_CASES,
    BY_NUMBER_BEHIND = BY_NUMBER + NUMBERS,
    BY_ENTRIES = BY_NUMBER_BEHIND + NUMBERS,
    BY_COUNTED = BY_ENTRIES + 10,
    COUNTERS = BY_COUNTED + 65
};
__attribute__((section("__libfuzzer_extra_counters"))) static uint8_t counters[COUNTERS];

static uint64_t recordings, calls, entries_met, layouts_met[LAYOUTS], cases_met[RECORDING_CASES], by_number[NUMBERS];

/* Below so many recordings, as where one input is run, a share says nothing. */
#define ENOUGH_RECORDINGS 10000

static void print_met(void)
{
    uint64_t all = recordings >= ENOUGH_RECORDINGS ? recordings : 0;

    fprintf(stderr, "recordings: %" PRIu64 "; calls of the archive: %" PRIu64 "; entries: %" PRIu64 "\n", recordings,
            calls, entries_met);
    print_shares("layouts", layout_shares, layouts_met, LAYOUTS, all);
    print_shares("met", recording_shares, cases_met, RECORDING_CASES, all);
    print_numbers("entries by number", by_number, NUMBERS);
    for (size_t number = 1; number < NUMBERS; number++)
        if (number < 8 || number > 12)
            print_too_rare("an entry's number", by_number[number], all / 2000);
}

static void count_case(enum recording_case recording_case)
{
    cases_met[recording_case]++;
    counters[BY_CASE + recording_case] = 1;
}

static uint32_t head_word(const uint8_t *file, size_t index)
{
    const uint8_t *word = file + 4 * index;

    return (uint32_t)word[0] << 24 | (uint32_t)word[1] << 16 | (uint32_t)word[2] << 8 | word[3];
}

/* The opening that a head says would be refused. */
static bool is_bad_opening(const uint8_t *file)
{
    static struct plain_register rows;

    return register_open(&rows, head_word(file, 1), head_word(file, 2), head_word(file, 3)) == BAD_OPENING;
}

/* Where the last body ends by the head and the table of contents, or 0 where these are not there in full. */
static size_t end_said(const uint8_t *file, size_t length)
{
    size_t count = head_word(file, 0);
    size_t end = HEAD_BYTES;

    if (count > MOST_MADE || length < HEAD_BYTES + ENTRY_BYTES * count)
        return 0;
    for (size_t i = 1; i <= count; i++) {
        const uint8_t *behind = file + HEAD_BYTES + ENTRY_BYTES * i;

        end += ENTRY_BYTES + ((size_t)behind[-2] << 8 | behind[-1]);
    }
    return end;
}

/* What lacks little of a good layout. */
static void count_near_miss(enum layout layout, const uint8_t *file, size_t length)
{
    size_t end = end_said(file, length);

    if (layout == TOO_LONG && length == MOST_RECORDING + 1 && end == length)
        count_case(ONE_BYTE_OVER);
    if (layout == TOO_MANY_ENTRIES && head_word(file, 0) == MOST_ENTRIES + 1 && end == length)
        count_case(ONE_ENTRY_OVER);
    if (layout == BODIES_CUT && end == length + 1)
        count_case(ONE_BYTE_MISSING);
    if (layout == BODIES_END_EARLY && end + 1 == length)
        count_case(ONE_BYTE_MORE);
    if (is_bad_opening(file))
        count_case(BAD_OPENING_TOO);
}

static bool is_other_choice(const struct choice *one, const struct choice *other)
{
    return one->number != other->number || one->source != other->source || one->presented != other->presented ||
           one->counted != other->counted;
}

static void count_entry(const struct entry_line *line)
{
    entries_met++;
    by_number[line->number]++;
    counters[BY_NUMBER + line->number] = 1;
    if (line->accepted > 0)
        counters[BY_NUMBER_BEHIND + line->number] = 1;
    if (line->settings > 0)
        count_case(SETTINGS_READ);
    if (line->behind_refusal)
        count_case(BEHIND_REFUSAL);
    if (line->read && line->last_refusal != line->number)
        count_case(TWO_REFUSALS);
}

static void count_choice(const struct replayed *replayed)
{
    const struct entry_line *last = &replayed->entries[replayed->count - 1];
    struct choice at_first = register_choose(&replayed->rows, replayed->entries[0].now);

    counters[BY_COUNTED + replayed->choice.counted] = 1;
    if (is_other_choice(&replayed->choice, &at_first))
        count_case(OTHER_THAN_FIRST);
    if (replayed->count > 1) {
        struct choice before = register_choose(&replayed->rows, last[-1].now);

        if (is_other_choice(&replayed->choice, &before))
            count_case(OTHER_THAN_BEFORE);
    }
    if (replayed->choice.number == 0)
        count_case(replayed->choice.by_arrival ? BY_ARRIVAL : BY_PRESENTATION);
    else if (register_count(&replayed->rows) > 0)
        count_case(NONE_FRESH);
    if (replayed->choice.number == 0 && !last->read)
        count_case(UNREAD_LAST);
}

static void count_replayed(const struct replayed *replayed, size_t length)
{
    size_t bits = 0;

    while (replayed->count >> bits > 0)
        bits++;
    counters[BY_ENTRIES + bits] = 1;
    for (size_t i = 0; i < replayed->count; i++)
        count_entry(&replayed->entries[i]);
    if (replayed->count == 0)
        count_case(NO_ENTRIES);
    if (replayed->count == MOST_ENTRIES)
        count_case(ALL_ENTRIES);
    if (length == MOST_RECORDING)
        count_case(ALL_BYTES);
    if (replayed->count > 0)
        count_choice(replayed);
}

static void count_recording(const struct replayed *replayed, const uint8_t *file, size_t length)
{
    recordings++;
    layouts_met[replayed->layout]++;
    counters[replayed->layout] = 1;
    if (replayed->layout != GOOD_LAYOUT && length >= HEAD_BYTES)
        count_near_miss(replayed->layout, file, length);
    if (replayed->refusal == BAD_OPENING)
        count_case(REFUSED_OPENING);
    if (replayed->refusal == 0)
        count_replayed(replayed, length);
}

/* ---- The comparison ---- */

/* The recording stands twice in memory: before a page that may not be read, and behind one. */
static struct lent before_fence, behind_fence, rows_memory;

int LLVMFuzzerInitialize(int *argc, char ***argv)
{
    (void)argc;
    (void)argv;
    before_fence = lend(MOST_FILE);
    behind_fence = lend(MOST_FILE);
    rows_memory = lend(AROUND_ROWS * sizeof(uint64_t));
    atexit(print_met);
    return 0;
}

static uint64_t row_number(const struct replayed *replayed, size_t index)
{
    const struct entry_line *line = &replayed->entries[index / ROW];

    switch (index % ROW) {
    case PRUNEPOCKET_ENTRY_ITEMS:
        return line->items;
    case PRUNEPOCKET_ENTRY_ACCEPTED:
        return line->accepted;
    default:
        return line->number;
    }
}

/* After a refusal there are no entries, and the target is zeros, as it is beside 20. */
static void same_replayed(const struct prunepocket_recording_answered *archive, unsigned number,
                          const struct replayed *replayed)
{
    static const struct choice none = {.number = NONE_TO_FOLLOW};
    const struct choice *choice = number == 0 ? &replayed->choice : &none;

    same("replay", archive->number, number);
    same("entries", archive->entries, number == 0 ? replayed->count : 0);
    same("choice", archive->choice, choice->number);
    same("source of the target", archive->target.source, choice->source);
    same("group of the target", archive->target.group, choice->group);
    same("media source of the target", archive->target.media, choice->media);
    same("received of the target", archive->target.received, choice->received);
    same("rtp of the target", archive->target.rtp, choice->rtp);
    same("presented of the target", archive->target.presented, choice->presented);
    same("counted", archive->target.counted, choice->counted);
}

/* The rows have so many numbers, which end at a page that may not be touched, or start at one. */
static void check_replay(const uint8_t *file, size_t length, size_t room, bool at_end, const struct replayed *replayed)
{
    uint64_t *numbers = (uint64_t *)(at_end ? rows_memory.end - AROUND_ROWS * sizeof(uint64_t) : rows_memory.start);
    size_t first = at_end ? AROUND_ROWS - room : 0;
    bool is_short = replayed->refusal == 0 && room < ROW * replayed->count;
    unsigned number = is_short ? SHORT_BUFFER : replayed->refusal;
    size_t written = number == 0 ? ROW * replayed->count : 0;

    for (size_t i = 0; i < AROUND_ROWS; i++)
        numbers[i] = fill(i);
    calls++;
    struct prunepocket_recording_answered archive = prunepocket_replay(file, length, numbers + first, room);

    same_replayed(&archive, number, replayed);
    for (size_t i = 0; i < AROUND_ROWS; i++) {
        bool in_rows = i >= first && i - first < written;

        same(in_rows ? "rows" : "rows as before", numbers[i], in_rows ? row_number(replayed, i - first) : fill(i));
    }
}

/* With rows that are exactly long enough, longer, one number too short, half as long, and none. */
static void check_recording(const uint8_t *file, size_t length)
{
    static struct replayed replayed;
    uint8_t *near_end = before_fence.end - length;
    uint8_t *near_start = behind_fence.start;

    memcpy(near_end, file, length);
    memcpy(near_start, file, length);
    replay(file, length, &replayed);
    count_recording(&replayed, file, length);

    size_t needed = ROW * replayed.count;
    check_replay(near_end, length, needed, true, &replayed);
    check_replay(near_start, length, needed + 7, false, &replayed);
    if (needed > 0) {
        check_replay(near_start, length, needed - 1, true, &replayed);
        check_replay(near_end, length, needed / 2, false, &replayed);
        check_replay(near_end, length, 0, true, &replayed);
    } else {
        check_replay(near_end, length, MOST_ROWS, false, &replayed);
    }
    if (memcmp(near_end, file, length) != 0 || memcmp(near_start, file, length) != 0)
        same("the recording was written on", 1, 0);
}

/* ---- Making a recording ---- */

/* What a script has made so far, and the damage that is then done to it. */
struct made {
    struct opening head;
    size_t count;
    uint8_t contents[MOST_MADE][ENTRY_BYTES];
    size_t body_bytes;
    uint8_t bodies[MOST_FILE];
    size_t last_length; /* of the last body */
    bool has_count;
    uint32_t count_said; /* where has_count: another number of entries */
    size_t cut;      /* bytes that the end loses */
    size_t appended; /* bytes behind the bodies */
};

static size_t made_bytes(const struct made *made)
{
    return HEAD_BYTES + ENTRY_BYTES * made->count + made->body_bytes;
}

static void put_half(uint8_t *bytes, size_t half)
{
    bytes[0] = (uint8_t)(half >> 8);
    bytes[1] = (uint8_t)half;
}

/* An entry for which there is no room is left out. */
static void add_entry(struct made *made, struct clocks now, const struct from *origin, const uint8_t *body,
                      size_t length)
{
    uint8_t *entry = made->contents[made->count];

    if (made->count == MOST_MADE || length > 65535 || made_bytes(made) + ENTRY_BYTES + length > MOST_FILE)
        return;
    put_word(put_word(put_word(entry, (uint32_t)(now.n >> 32)), (uint32_t)now.n), now.r);
    memcpy(entry + 12, origin->bytes, sizeof origin->bytes);
    put_half(entry + 30, length);
    memcpy(made->bodies + made->body_bytes, body, length);
    made->count++;
    made->body_bytes += length;
    made->last_length = length;
}

/* The last entry again. */
static void repeat_entry(struct made *made, size_t times)
{
    for (; times > 0 && made->count > 0 && made->count < MOST_MADE; times--) {
        if (made_bytes(made) + ENTRY_BYTES + made->last_length > MOST_FILE)
            return;
        memcpy(made->contents[made->count], made->contents[made->count - 1], ENTRY_BYTES);
        memcpy(made->bodies + made->body_bytes, made->bodies + made->body_bytes - made->last_length,
               made->last_length);
        made->count++;
        made->body_bytes += made->last_length;
    }
}

/* The whole file, and how many bytes it has. */
static size_t put_made(const struct made *made, uint8_t *file)
{
    static const uint8_t zeros[256];
    uint8_t *end = put_word(file, made->has_count ? made->count_said : (uint32_t)made->count);

    end = put_word(put_word(put_word(end, made->head.group), made->head.media), made->head.rate);
    memcpy(end, made->contents, ENTRY_BYTES * made->count);
    end += ENTRY_BYTES * made->count;
    memcpy(end, made->bodies, made->body_bytes);
    end += made->body_bytes;
    memcpy(end, zeros, made->appended);
    end += made->appended;

    size_t length = (size_t)(end - file);
    return made->cut < length ? length - made->cut : 0;
}

/* ---- The script ---- */

enum { MOST_PACKETS = 7, MOST_ALIKE = 32, MOST_DATAGRAM = 8 + MOST_PACKETS * MOST_ALIKE * 40 };

/* A report with times of its own, which are then those of the last report. */
static uint8_t *put_anew(struct script *script, uint8_t *bytes, const struct made *made, struct state *state)
{
    struct told *report = &state->report;
    uint32_t from = source(script);

    describe(script, made->head.group, made->head.media, report);
    report->received = received_time(script, &state->now);
    report->rtp = state->now.r - rtp_age(script, made->head.rate);
    report->presented = presented(script, report->received);
    return put_report(bytes, from, report);
}

static uint8_t *put_spoilt(struct script *script, uint8_t *bytes, const struct made *made, const struct state *state)
{
    struct told report = state->report;
    uint32_t from = source(script);

    spoil(&report, byte(script), state->now, made->head.rate);
    return put_report(bytes, from, &report);
}

/* So many sources in turn: each in a report, or all in one BYE. */
static uint8_t *put_many(struct script *script, uint8_t *bytes, const struct told *report)
{
    uint32_t from = source(script);
    uint8_t said = byte(script);
    uint32_t count = said % MOST_ALIKE;

    if (said < 128) {
        for (uint32_t i = 0; i <= count; i++)
            bytes = put_report(bytes, from + i, report);
        return bytes;
    }
    bytes = put_word(bytes, 0x80CB0000 | count << 24 | count);
    for (uint32_t i = 0; i < count; i++)
        bytes = put_word(bytes, from + i);
    return bytes;
}

/* A packet of any type, or an XR whose block of type 12 has another length. */
static uint8_t *put_other(struct script *script, uint8_t *bytes, uint8_t said)
{
    uint32_t from = source(script);

    if (said & 16)
        return put_word(put_word(put_word(bytes, 0x80CF0002), from), 0x0C110000 | byte(script) % 2);
    return put_word(put_word(bytes, 0x80000001 | (uint32_t)byte(script) << 16), from);
}

static uint8_t *put_packet(struct script *script, uint8_t *bytes, const struct made *made, struct state *state)
{
    uint8_t said = byte(script);

    switch (said % 8) {
    case 0:
        return put_report(bytes, source(script), &state->report);
    default: /* 1 and 2 */
        return put_anew(script, bytes, made, state);
    case 3:
        return put_spoilt(script, bytes, made, state);
    case 4:
        return put_word(put_word(bytes, 0x81CB0001), source(script));
    case 5:
        return put_settings(bytes, source(script), &state->report);
    case 6:
        return put_many(script, bytes, &state->report);
    case 7:
        return put_other(script, bytes, said);
    }
}

/* Origin, packets behind an RR or none, and one byte that is then changed, if the step's byte says so. */
static void add_datagram(struct script *script, struct made *made, struct state *state, bool is_changed)
{
    static uint8_t datagram[MOST_DATAGRAM];
    uint8_t *end = datagram;
    struct from from = origin(script);
    uint8_t said = byte(script);

    if (said < 224)
        end = put_word(put_word(end, 0x80C90001), 10);
    for (uint8_t packets = said % (MOST_PACKETS + 1); packets > 0; packets--)
        end = put_packet(script, end, made, state);

    size_t length = (size_t)(end - datagram);
    if (is_changed) {
        size_t place = (size_t)number(script, 2);
        uint8_t bits = byte(script);

        if (place < length)
            datagram[place] ^= bits;
    }
    add_entry(made, state->now, &from, datagram, length);
}

/* A length that is said, or one with which the file comes near its limit from so many bytes before the body. */
static size_t zeros_length(struct script *script, size_t before)
{
    uint8_t said = byte(script);

    switch (said % 4) {
    case 0:
        return said / 4;
    case 1:
        return (size_t)number(script, 2) % 4096;
    default: /* 2 and 3 */
        return before + 4 < MOST_RECORDING ? MOST_RECORDING - before + said / 4 % 8 - 4 : 0;
    }
}

static void add_zeros(struct script *script, struct made *made, const struct state *state)
{
    static const uint8_t zeros[MOST_FILE];
    struct from from = origin(script);

    add_entry(made, state->now, &from, zeros, zeros_length(script, made_bytes(made) + ENTRY_BYTES));
}

/* More or less by a few. */
static uint32_t shifted(struct script *script, size_t from)
{
    return (uint32_t)from + (uint32_t)(int32_t)(int8_t)byte(script);
}

static void damage(struct script *script, struct made *made)
{
    switch (byte(script) % 6) {
    case 0:
        made->has_count = true;
        made->count_said = shifted(script, made->count);
        break;
    case 1:
        made->has_count = true;
        made->count_said = (uint32_t)number(script, 4);
        break;
    case 2:
        if (made->count > 0)
            put_half(made->contents[made->count - 1] + 30, shifted(script, made->last_length) % 65536);
        break;
    case 3:
        made->cut = 1 + byte(script) % 4;
        break;
    case 4:
        made->cut = (size_t)number(script, 2);
        break;
    default:
        made->appended = 1 + byte(script) % 4;
        break;
    }
}

/* How often the last entry comes again: at most 31 times, or until there are 255 to 258 entries. */
static size_t repeats(struct script *script, size_t count)
{
    uint8_t said = byte(script);

    if (said < 128)
        return said % 32;
    return count < 255 ? 255 + said % 4 - count : 0;
}

/* From 250 on damage is done. */
static void make_step(struct script *script, struct made *made, struct state *state)
{
    uint8_t said = byte(script);

    if (said >= 250) {
        damage(script, made);
        return;
    }
    switch (said % 8) {
    default: /* 0 to 4 */
        add_datagram(script, made, state, said % 8 == 4);
        break;
    case 5:
        state->now = move(script, state->now, made->head.rate);
        break;
    case 6:
        repeat_entry(made, repeats(script, made->count));
        break;
    case 7:
        add_zeros(script, made, state);
        break;
    }
}

static size_t make_recording(struct script *script, uint8_t *file)
{
    static struct made made;
    struct opening head = opening(script);
    /* P1 of document 01, until the script says otherwise. */
    struct state state = {
        {1000 * SECOND, 9000000},
        {999 * SECOND, head.group, head.media, 8910000, 0x03E78000, 33, 1},
    };

    made.head = head;
    made.count = 0;
    made.body_bytes = 0;
    made.last_length = 0;
    made.has_count = false;
    made.cut = 0;
    made.appended = 0;
    while (script->left > 0)
        make_step(script, &made, &state);
    return put_made(&made, file);
}

int LLVMFuzzerTestOneInput(const uint8_t *data, size_t size);

/* A first byte of 255 says that the bytes behind it are the recording. */
int LLVMFuzzerTestOneInput(const uint8_t *data, size_t size)
{
    static uint8_t file[MOST_FILE + 256];
    struct script script = {data, size};
    size_t length;

    if (size > 0 && data[0] == 255) {
        length = size - 1 < MOST_FILE ? size - 1 : MOST_FILE;
        memcpy(file, data + 1, length);
    } else {
        length = make_recording(&script, file);
    }
    if (length <= MOST_FILE)
        check_recording(file, length);
    return 0;
}
