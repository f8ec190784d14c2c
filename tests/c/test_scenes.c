/*
 * Runs the scenes of the receiving bench's text on the archive, and holds every answer against the
 * text's own. tests/README.md has the form of the text. A line not understood ends the test.
 */
#include "lateness.h"
#include "members.h"

#define TEXT "crates/receiving_bench/stdin"
#define PRINTED "crates/receiving_bench/stdout"

#define MOST_WORDS 64
#define MOST_CALLS 512

/* Numbers for the rows of any recording. */
#define MOST_ROWS (PRUNEPOCKET_ENTRY_ROW * PRUNEPOCKET_ENTRY_LIMIT)

/* Reports of a burst: more than it may have, for those that are refused. */
#define LONGEST_BURST 1000

/* Characters of a line of the text. */
#define MOST_TEXT 1024

/* The words of the step under way, behind its name, and those of the answer that it is due. */
static char *asked[MOST_WORDS + 1];
static char *due[MOST_WORDS + 1];

/* What steps leave for the steps behind them. */
static struct {
    table_t table;
    table_t before;     /* before the last call that could change it */
    uint32_t stream[2]; /* group and media source of the reports */
    reading_t reading;
    uint32_t reduced_size; /* whether it was agreed */
    record_t record;       /* the last report */
    uint8_t *datagram;
    size_t length;
    uint8_t *recording;
    size_t recorded; /* bytes of it */
    target_t target;
} bench;

/* A step whose reports are part of a burst: where it stands in the text, and the number it is due. */
struct burst_step {
    int line;
    char text[MOST_TEXT];
    size_t first; /* of its reports in the burst */
    size_t count;
    uint64_t number;
};

/* The burst whose reports are gathered: it is called with the last of them. */
static struct {
    struct burst_step own; /* the step of the burst itself */
    size_t wanted;
    size_t count;
    size_t length; /* of the answer list */
    record_t records[LONGEST_BURST];
    size_t step_count;
    struct burst_step steps[LONGEST_BURST];
} burst;

static void not_understood(const char *word)
{
    printf("%s:%d: %s: not understood: %s\n", file, line, name, word == NULL ? "its end" : word);
    exit(1);
}

/* ---- Words ----------------------------------------------------------------------------------- */

static int is(const char *word, const char *expected)
{
    return word != NULL && strcmp(word, expected) == 0;
}

/* Decimal, or hex behind 0x, up to an end and to the most that it may be. */
static uint64_t number_before(const char *word, char end, uint64_t most)
{
    int is_hex = word != NULL && strncmp(word, "0x", 2) == 0;
    const char *digits = is_hex ? word + 2 : word;
    char *rest;
    uint64_t number;

    if (word == NULL || strspn(digits, "0123456789abcdefABCDEF") == 0)
        not_understood(word);
    number = strtoull(digits, &rest, is_hex ? 16 : 10);
    if (*rest != end || number > most)
        not_understood(word);
    return number;
}

static uint32_t number(const char *word)
{
    return (uint32_t)number_before(word, '\0', UINT32_MAX);
}

/* Seconds, and units of 2^-32 s behind a plus. */
static uint64_t time_of(const char *word)
{
    const char *plus = word == NULL ? NULL : strchr(word, '+');

    if (plus == NULL)
        return SECONDS(number(word));
    return SECONDS(number_before(word, '+', UINT32_MAX)) + number(plus + 1);
}

/* A target's presented time, or that there is none. */
static uint64_t presented_of(const char *word)
{
    return is(word, "-") ? 0 : time_of(word);
}

static void put_hex(const char *digits, size_t count, uint8_t *bytes)
{
    for (size_t i = 0; i < count; i++) {
        char pair[] = {'0', 'x', digits[2 * i], digits[2 * i + 1], '\0'};

        bytes[i] = (uint8_t)number(pair);
    }
}

/* Words of eight hex digits: how many bytes there are. */
static size_t bytes_of(char **words, uint8_t bytes[4 * MOST_WORDS])
{
    size_t count = 0;

    for (; words[count] != NULL; count++) {
        if (strlen(words[count]) != 8)
            not_understood(words[count]);
        put_hex(words[count], 4, bytes + 4 * count);
    }
    return 4 * count;
}

/*
 * A text in double quotes, where \r is CR and \n is LF, for the caller to free. It stands at its
 * exact length on the heap, for valgrind.
 */
static uint8_t *text_of(const char *word, size_t *length)
{
    uint8_t bytes[MOST_TEXT];
    uint8_t *text;
    const char *at = word;
    size_t count = 0;

    if (word == NULL || *word != '"')
        not_understood(word);
    for (at++; *at != '"' && *at != '\0'; at++) {
        int is_escape = *at == '\\' && (at[1] == 'r' || at[1] == 'n');

        at += is_escape;
        bytes[count++] = (uint8_t)(!is_escape ? *at : *at == 'r' ? '\r' : '\n');
    }
    if (strcmp(at, "\"") != 0)
        not_understood(word);
    text = allocate(count);
    memcpy(text, bytes, count);
    *length = count;
    return text;
}

/* An address, a colon and a port. */
static origin_t origin_of(const char *word)
{
    origin_t origin = {{[10] = 0xFF, [11] = 0xFF}, 0};
    const char *colon = word == NULL ? NULL : strchr(word, ':');

    if (colon == NULL)
        not_understood(word);
    if (colon - word == 32)
        put_hex(word, 16, origin.address);
    for (size_t i = 12; i < 16 && colon - word != 32; i++) {
        origin.address[i] = (uint8_t)number_before(word, i < 15 ? '.' : ':', 0xFF);
        word = i < 15 ? strchr(word, '.') + 1 : word;
    }
    origin.port = (uint16_t)number_before(colon + 1, '\0', UINT16_MAX);
    return origin;
}

/* Source, origin, received, RTP and presented of a report. */
static void read_report(void)
{
    int has_presented = !is(asked[4], "-");

    bench.record.source = number(asked[0]);
    bench.record.origin = origin_of(asked[1]);
    bench.record.report = (struct prunepocket_report_fields){
        .received = time_of(asked[2]),
        .group = bench.stream[0],
        .media = bench.stream[1],
        .rtp = number(asked[3]),
        .presented = has_presented ? number(asked[4]) : 0,
        .payload_type = 33,
        .p = has_presented,
    };
}

/* P1's report from another source, of 192.0.2.1 and the port 5000 + source. */
static void make_report(uint32_t source)
{
    if (source > UINT16_MAX - 5000)
        not_understood("a source without a port");
    bench.record = (record_t){
        source,
        {{[10] = 0xFF, [11] = 0xFF, [12] = 192, [14] = 2, [15] = 1}, (uint16_t)(5000 + source)},
        {SECONDS(999), bench.stream[0], bench.stream[1], 8910000, 0x03E78000, 33, 1},
    };
}

/* ---- Answers --------------------------------------------------------------------------------- */

/* There are so many words in the answer that is due. */
static void due_words(size_t count)
{
    for (size_t i = 0; i < count; i++) {
        if (due[i] == NULL)
            not_understood(NULL);
    }
    if (due[count] != NULL)
        not_understood(due[count]);
}

static void check_number(uint64_t got)
{
    due_words(1);
    check_equal("number", got, number(due[0]));
}

static void check_time(uint64_t got)
{
    due_words(1);
    check_equal("time", got, time_of(due[0]));
}

/* Whether the text has a refusal with its place, which is then the answer. */
static int check_refused(struct prunepocket_answer got)
{
    int refused = is(due[0], "refused");

    if (refused)
        due_words(3);
    check_answer("answer", got, refused ? number(due[1]) : 0, refused ? number(due[2]) : 0);
    return refused;
}

/* Whether the text has a refusal at no place, which is then the answer. Else one word is due. */
static int check_refused_at_0(struct prunepocket_answer got)
{
    int refused = is(due[0], "refused");

    due_words(refused ? 2 : 1);
    check_answer("answer", got, refused ? number(due[1]) : 0, 0);
    return refused;
}

static void check_bytes(const uint8_t *got, uint64_t length)
{
    uint8_t bytes[4 * MOST_WORDS];

    check_equal("bytes", length, bytes_of(due, bytes));
    check_true("the same bytes", memcmp(got, bytes, (size_t)length) == 0);
}

/* ---- Calls ----------------------------------------------------------------------------------- */

static uint64_t open_table(uint32_t group, uint32_t media, uint32_t rate)
{
    answered_t answered = prunepocket_open(group, media, rate);

    if (answered.number == PRUNEPOCKET_ACCEPTED) {
        bench.table = answered.table;
        bench.before = answered.table;
        bench.stream[0] = group;
        bench.stream[1] = media;
    }
    return answered.number;
}

static void check_call(answered_t answered)
{
    bench.before = bench.table;
    bench.table = answered.table;
    check_number(answered.number);
}

static datagram_answered_t take(const uint8_t *datagram, size_t length, origin_t origin,
                                uint64_t numbers[MOST_CALLS])
{
    bench.before = bench.table;
    return prunepocket_take_datagram(bench.table, datagram, length, bench.reduced_size, origin,
                                     bench.reading, numbers, MOST_CALLS);
}

/* Takes a message behind an RR in, which is one call: its number. */
static uint64_t send_message(const uint8_t *message, size_t length, origin_t origin)
{
    uint8_t datagram[8 + PRUNEPOCKET_REPORT_BYTES] = {0x80, 0xC9, 0, 1, 0, 0, 0, 1};
    uint64_t numbers[MOST_CALLS] = {0};
    datagram_answered_t taken;

    memcpy(datagram + 8, message, length);
    taken = take(datagram, 8 + length, origin, numbers);
    bench.table = taken.table;
    check_equal("the datagram's number", taken.number, PRUNEPOCKET_ACCEPTED);
    check_equal("calls", taken.count, 1);
    return numbers[0];
}

/* Writes the last report: how many bytes it has. */
static uint64_t write_report(uint8_t buffer[PRUNEPOCKET_REPORT_BYTES])
{
    struct prunepocket_report_fields report = bench.record.report;
    uint64_t written = 0;

    check_answer("write_report",
                 prunepocket_write_report(bench.record.source, report.payload_type, report.p,
                                          report.group, report.media, report.received, report.rtp,
                                          report.presented, buffer, PRUNEPOCKET_REPORT_BYTES,
                                          &written),
                 0, 0);
    return written;
}

static uint64_t send_report(void)
{
    uint8_t message[PRUNEPOCKET_REPORT_BYTES];
    size_t length = (size_t)write_report(message);

    return send_message(message, length, bench.record.origin);
}

/* ---- Bursts ---------------------------------------------------------------------------------- */

/* Whether reports are still to come for a burst. */
static int is_gathering(void)
{
    return burst.count < burst.wanted;
}

static void gather_report(void)
{
    if (!is_gathering())
        not_understood("a report more than its burst has");
    burst.records[burst.count++] = bench.record;
}

/* The step under way, with the reports from the first of its own on. */
static void note_step(struct burst_step *step, size_t first)
{
    due_words(1);
    step->line = line;
    strcpy(step->text, name);
    step->first = first;
    step->count = burst.count - first;
    step->number = number(due[0]);
}

/* Compares what a step got with what it is due; a failure is told of that step's line. */
static void check_noted(const struct burst_step *step, uint64_t got)
{
    int here = line;
    const char *text = name;

    line = step->line;
    name = step->text;
    check_equal("number", got, step->number);
    line = here;
    name = text;
}

/* The last of a step's numbers that is not 0, or 0. */
static uint64_t last_refusal(const struct burst_step *step, const uint64_t *list)
{
    uint64_t last = 0;

    for (size_t i = step->first; i < step->first + step->count; i++)
        last = list[i] == 0 ? last : list[i];
    return last;
}

/* The list stands at its exact length on the heap, for valgrind. */
static uint64_t *lend_list(size_t length)
{
    uint64_t *list = allocate(length * sizeof *list);

    for (size_t i = 0; i < length; i++)
        list[i] = FILL;
    return list;
}

/* So many numbers at the front of the list were written, and no others. */
static void check_list(const uint64_t *list, size_t length, size_t written)
{
    for (size_t i = 0; i < length; i++)
        check_equal("the list as before", list[i] == FILL, i >= written);
}

/* The reports stand at their exact length, too. */
static void call_burst(void)
{
    record_t *records = allocate(burst.count * sizeof *records);
    uint64_t *list = lend_list(burst.length);
    answered_t answered;

    memcpy(records, burst.records, burst.count * sizeof *records);
    bench.before = bench.table;
    answered = prunepocket_report_burst(bench.table, records, burst.count, bench.reading, list,
                                        burst.length);
    bench.table = answered.table;
    check_noted(&burst.own, answered.number);
    check_list(list, burst.length, answered.number == PRUNEPOCKET_ACCEPTED ? burst.count : 0);
    for (size_t i = 0; i < burst.step_count && answered.number == PRUNEPOCKET_ACCEPTED; i++)
        check_noted(&burst.steps[i], last_refusal(&burst.steps[i], list));
    free(list);
    free(records);
}

/* The reports from the first on are those of the step under way. */
static void gather_step(size_t first)
{
    if (burst.step_count == LONGEST_BURST)
        not_understood("so many steps of a burst");
    note_step(&burst.steps[burst.step_count++], first);
    if (!is_gathering())
        call_burst();
}

/* ---- Recordings ------------------------------------------------------------------------------ */

/*
 * Some bytes of the recording, at its front, and others behind them are the recording from then on.
 * It stands at its exact length on the heap, for valgrind.
 */
static void make_recording(size_t kept, const uint8_t *behind, size_t count)
{
    uint8_t *recording = allocate(kept + count);

    memcpy(recording, bench.recording, kept);
    memcpy(recording + kept, behind, count);
    free(bench.recording);
    bench.recording = recording;
    bench.recorded = kept + count;
}

/* The step's words stand behind the bytes that are kept. */
static void append_words(size_t kept)
{
    uint8_t bytes[4 * MOST_WORDS];

    due_words(0);
    make_recording(kept, bytes, bytes_of(asked, bytes));
}

static struct prunepocket_recording_answered replay(uint64_t rows[MOST_ROWS])
{
    memset(rows, 0, MOST_ROWS * sizeof *rows);
    return prunepocket_replay(bench.recording, bench.recorded, rows, MOST_ROWS);
}

/* ---- Steps ----------------------------------------------------------------------------------- */

static void step_table(void)
{
    due_words(0);
    check_equal("open", open_table(42, 7, 90000), PRUNEPOCKET_ACCEPTED);
    bench.reading = (reading_t){SECONDS(1000), 9000000};
    bench.reduced_size = 0;
}

static void step_open(void)
{
    check_number(open_table(number(asked[0]), number(asked[1]), number(asked[2])));
}

static void step_reading(void)
{
    due_words(0);
    bench.reading = (reading_t){time_of(asked[0]), number(asked[1])};
}

static void step_agreed(void)
{
    due_words(0);
    bench.reduced_size = 1;
}

static void step_not_agreed(void)
{
    due_words(0);
    bench.reduced_size = 0;
}

static void step_stream(void)
{
    due_words(0);
    bench.stream[0] = number(asked[0]);
    bench.stream[1] = number(asked[1]);
}

/* The datagram stands at its exact length on the heap, for valgrind. */
static void step_datagram(void)
{
    uint8_t bytes[4 * MOST_WORDS];

    due_words(0);
    bench.length = bytes_of(asked, bytes);
    free(bench.datagram);
    bench.datagram = allocate(bench.length);
    memcpy(bench.datagram, bytes, bench.length);
}

static void step_recording(void)
{
    append_words(0);
}

static void step_append(void)
{
    append_words(bench.recorded);
}

static void step_cut(void)
{
    size_t left_out = (size_t)number_before(asked[0], '\0', bench.recorded);

    due_words(0);
    make_recording(bench.recorded - left_out, bench.recording, 0);
}

static void step_report(void)
{
    read_report();
    if (is_gathering()) {
        gather_report();
        gather_step(burst.count - 1);
    } else {
        check_call(prunepocket_report(bench.table, bench.record, bench.reading));
    }
}

/* A refused burst has no steps: none of its reports may be tried. */
static void step_burst(void)
{
    burst.wanted = number_before(asked[0], '\0', LONGEST_BURST);
    burst.length = number(asked[1]);
    burst.count = 0;
    burst.step_count = 0;
    note_step(&burst.own, 0);
    for (uint32_t source = 1; burst.own.number != 0 && is_gathering(); source++) {
        make_report(source);
        gather_report();
    }
    if (!is_gathering())
        call_burst();
}

static void step_farewell(void)
{
    check_call(prunepocket_farewell(bench.table, number(asked[0]), origin_of(asked[1])));
}

static void step_sweep(void)
{
    check_call(prunepocket_sweep(bench.table, bench.reading));
}

static void step_send_report(void)
{
    read_report();
    check_number(send_report());
}

static void step_send_farewell(void)
{
    uint32_t source = number(asked[0]);
    uint8_t bye[8] = {0x81, 0xCB, 0, 1};

    for (int i = 0; i < 4; i++)
        bye[4 + i] = (uint8_t)(source >> (24 - 8 * i));
    check_number(send_message(bye, sizeof bye, origin_of(asked[1])));
}

/* Each report as a datagram, or all as part of a burst. */
static void step_fill(void)
{
    table_t before = bench.table;
    uint32_t last = number(asked[1]);
    size_t first = burst.count;
    int in_burst = is_gathering();
    uint64_t answer = 0;

    for (uint32_t source = number(asked[0]); source <= last; source++) {
        uint64_t got = 0;

        make_report(source);
        if (in_burst)
            gather_report();
        else
            got = send_report();
        answer = got == 0 ? answer : got;
    }
    if (in_burst) {
        gather_step(first);
    } else {
        bench.before = before;
        check_number(answer);
    }
}

static void step_take(void)
{
    uint64_t numbers[MOST_CALLS];
    datagram_answered_t taken = take(bench.datagram, bench.length, origin_of(asked[0]), numbers);
    size_t count = (size_t)taken.count;

    bench.table = taken.table;
    if (check_refused((struct prunepocket_answer){taken.number, taken.place})) {
        check_equal("calls", count, 0);
        return;
    }
    due_words(count > 0 ? count : 1);
    if (count == 0)
        check_true("no calls", is(due[0], "none"));
    for (size_t i = 0; i < count; i++)
        check_equal("call", numbers[i], number(due[i]));
}

static void step_items(void)
{
    uint64_t count = 0;

    if (!check_refused(prunepocket_count_items(bench.datagram, bench.length, bench.reduced_size,
                                               &count)))
        check_number(count);
}

static void step_item(void)
{
    static const char *const kinds[] = {"", "report", "settings", "farewell"};
    uint32_t index = number(asked[0]);
    uint64_t kind = 0;
    uint64_t source = 0;

    if (check_refused(prunepocket_item_field(bench.datagram, bench.length, bench.reduced_size,
                                             index, PRUNEPOCKET_FIELD_KIND, &kind)))
        return;
    prunepocket_item_field(bench.datagram, bench.length, bench.reduced_size, index,
                           PRUNEPOCKET_FIELD_SOURCE, &source);
    due_words(2);
    check_true("kind", kind < 4 && is(due[0], kinds[kind]));
    check_equal("source", source, number(due[1]));
}

static void step_choose(void)
{
    followed_t followed = prunepocket_choose(bench.table, bench.reading);
    int refused = is(due[0], "refused");

    due_words(refused ? 2 : 5);
    check_equal("number", followed.number, refused ? number(due[1]) : 0);
    bench.target = followed.target;
    if (refused)
        return;
    check_target(followed.target,
                 (target_t){
                     .source = number(due[0]),
                     .group = bench.table.group,
                     .media = bench.table.media,
                     .received = time_of(due[1]),
                     .rtp = number(due[2]),
                     .presented = presented_of(due[3]),
                     .counted = number(due[4]),
                 });
}

/* A lateness in the text is so many times 2^32, as a time in seconds is. */
static void step_lateness(void)
{
    check_time((uint64_t)lateness(bench.target, bench.table.rate, bench.reading));
}

static void step_age(void)
{
    check_time(bench.reading.ntp - bench.target.received);
}

static void step_delay(void)
{
    check_time(bench.target.presented - bench.target.received);
}

static void step_members(void)
{
    check_number(prunepocket_count_members(bench.table));
}

static void step_place(void)
{
    place_t place = prunepocket_member_at(bench.table, number(asked[0]));
    int is_free = is(due[0], "free");
    origin_t origin;

    due_words(is_free ? 1 : 2);
    check_equal("held", place.held, !is_free);
    if (is_free)
        return;
    origin = origin_of(due[1]);
    check_equal("source", place.member.record.source, number(due[0]));
    check_true("origin", memcmp(&place.member.record.origin, &origin, sizeof origin) == 0);
}

static void step_tally(void)
{
    place_t place = prunepocket_member_at(bench.table, number(asked[0]));
    int is_none = is(due[0], "none");

    check_equal("held", place.held, !is_none);
    if (is_none) {
        due_words(1);
        check_equal("tally", place.member.tally, 0);
    } else {
        check_number(place.member.tally);
    }
}

/* Members and target are as before the last call, but that one place, or none, has this tally. */
static void check_unchanged(size_t raised, uint32_t tally)
{
    target_t now = prunepocket_choose(bench.table, bench.reading).target;
    target_t then = prunepocket_choose(bench.before, bench.reading).target;

    for (size_t i = 0; i < PRUNEPOCKET_PLACES; i++) {
        place_t place = prunepocket_member_at(bench.table, i);
        place_t before = prunepocket_member_at(bench.before, i);

        if (i == raised)
            before.member.tally = tally;
        check_equal("held", place.held, before.held);
        check_true("record", same_record(&place.member.record, &before.member.record));
        check_equal("tally", place.member.tally, before.member.tally);
    }
    check_true("target", same_target(&now, &then));
}

static void step_unchanged(void)
{
    due_words(0);
    check_unchanged(PRUNEPOCKET_PLACES, 0);
}

static void step_unchanged_but_tally(void)
{
    uint32_t place = number(asked[0]);

    if (place >= PRUNEPOCKET_PLACES)
        not_understood(asked[0]);
    due_words(1);
    check_unchanged(place, number(due[0]));
}

static void step_write_report(void)
{
    uint8_t buffer[PRUNEPOCKET_REPORT_BYTES];

    check_bytes(buffer, write_report(buffer));
}

static void step_write_settings(void)
{
    uint8_t buffer[PRUNEPOCKET_SETTINGS_BYTES];
    uint64_t written = 0;
    target_t target = bench.target;

    check_answer("write_settings",
                 prunepocket_write_settings(number(asked[0]), target.group, target.media,
                                            target.received, target.rtp, target.presented, buffer,
                                            sizeof buffer, &written),
                 0, 0);
    check_bytes(buffer, written);
}

/* Checks a settings packet on the table, which is handed back as it was. */
static void check_settings(struct prunepocket_settings settings, uint32_t slack)
{
    int refused = is(due[0], "refused");
    struct prunepocket_settings_answered answered =
        prunepocket_check_settings(bench.table, settings, bench.reading, slack);

    due_words(refused ? 2 : 1);
    if (!refused && !is(due[0], "yes") && !is(due[0], "no"))
        not_understood(due[0]);
    bench.before = bench.table;
    bench.table = answered.table;
    check_equal("number", answered.number, refused ? number(due[1]) : 0);
    check_equal("suits", answered.suits, is(due[0], "yes"));
    check_unchanged(PRUNEPOCKET_PLACES, 0);
}

/* The settings packet that is the item at an index. */
static struct prunepocket_settings read_settings(const uint8_t *datagram, size_t length,
                                                 uint32_t reduced_size, uint32_t index)
{
    uint64_t fields[PRUNEPOCKET_FIELD_PRESENTED + 1] = {0};

    for (size_t i = 0; i < sizeof fields / sizeof *fields; i++)
        check_answer("item_field",
                     prunepocket_item_field(datagram, length, reduced_size, index, i, &fields[i]),
                     0, 0);
    check_equal("kind", fields[PRUNEPOCKET_FIELD_KIND], PRUNEPOCKET_SETTINGS);
    return (struct prunepocket_settings){
        .sender = (uint32_t)fields[PRUNEPOCKET_FIELD_SOURCE],
        .media = (uint32_t)fields[PRUNEPOCKET_FIELD_MEDIA],
        .group = (uint32_t)fields[PRUNEPOCKET_FIELD_GROUP],
        .received = fields[PRUNEPOCKET_FIELD_RECEIVED],
        .rtp = (uint32_t)fields[PRUNEPOCKET_FIELD_RTP],
        .presented = fields[PRUNEPOCKET_FIELD_PRESENTED],
    };
}

static void step_check(void)
{
    check_settings(
        (struct prunepocket_settings){
            .sender = 1,
            .media = number(asked[1]),
            .group = number(asked[0]),
            .received = time_of(asked[2]),
            .rtp = number(asked[3]),
            .presented = time_of(asked[4]),
        },
        number(asked[5]));
}

/* The table's own choice, zeros where there is none, is written and read back behind an RR. */
static void step_check_own(void)
{
    uint8_t datagram[8 + PRUNEPOCKET_SETTINGS_BYTES] = {0x80, 0xC9, 0, 1, 0, 0, 0, 1};
    uint64_t written = 0;
    target_t target = prunepocket_choose(bench.table, bench.reading).target;

    check_answer("write_settings",
                 prunepocket_write_settings(1, target.group, target.media, target.received,
                                            target.rtp, target.presented, datagram + 8,
                                            PRUNEPOCKET_SETTINGS_BYTES, &written),
                 0, 0);
    check_settings(read_settings(datagram, sizeof datagram, 0, 0), number(asked[0]));
}

static void step_check_item(void)
{
    check_settings(
        read_settings(bench.datagram, bench.length, bench.reduced_size, number(asked[0])),
        number(asked[1]));
}

static void step_line(void)
{
    size_t length = 0;
    uint8_t *text = text_of(asked[0], &length);
    uint32_t group = (uint32_t)FILL;
    int refused = check_refused_at_0(prunepocket_read_sync_group(text, length, &group));

    check_equal("group", group, refused ? (uint32_t)FILL : number(due[0]));
    free(text);
}

/* What the text does not have stays as it was. */
static void step_write_line(void)
{
    uint8_t buffer[PRUNEPOCKET_LINE_BYTES] = {0};
    uint8_t expected[sizeof buffer] = {0};
    uint64_t written = FILL;
    size_t length = 0;
    uint8_t *text;
    struct prunepocket_answer answer =
        prunepocket_write_sync_group(number(asked[0]), buffer, sizeof buffer, &written);

    if (check_refused_at_0(answer)) {
        check_equal("written after a refusal", written, FILL);
    } else {
        text = text_of(due[0], &length);
        check_equal("written", written, length);
        memcpy(expected, text, length < sizeof expected ? length : sizeof expected);
        free(text);
    }
    check_true("the same bytes", memcmp(buffer, expected, sizeof buffer) == 0);
}

static void step_replay(void)
{
    uint64_t rows[MOST_ROWS];
    struct prunepocket_recording_answered replayed = replay(rows);
    int refused = is(due[0], "refused");

    due_words(refused ? 2 : 1);
    check_equal("number", replayed.number, refused ? number(due[1]) : 0);
    check_equal("entries", replayed.entries, refused ? 0 : number(due[0]));
}

static void step_replay_entry(void)
{
    uint64_t rows[MOST_ROWS];
    uint64_t index = number_before(asked[0], '\0', PRUNEPOCKET_ENTRY_LIMIT - 1);
    const uint64_t *row = rows + PRUNEPOCKET_ENTRY_ROW * index;

    due_words(PRUNEPOCKET_ENTRY_ROW);
    replay(rows);
    check_equal("items", row[PRUNEPOCKET_ENTRY_ITEMS], number(due[0]));
    check_equal("accepted", row[PRUNEPOCKET_ENTRY_ACCEPTED], number(due[1]));
    check_equal("first refusal", row[PRUNEPOCKET_ENTRY_NUMBER], number(due[2]));
}

static void step_replay_target(void)
{
    uint64_t rows[MOST_ROWS];
    struct prunepocket_recording_answered replayed = replay(rows);
    int is_none = is(due[0], "none");

    due_words(is_none ? 1 : 2);
    check_equal("choice", replayed.choice, is_none ? PRUNEPOCKET_NONE_COUNTED : 0);
    check_equal("source", replayed.target.source, is_none ? 0 : number(due[0]));
    check_equal("presented", replayed.target.presented, is_none ? 0 : presented_of(due[1]));
}

/* ---- The text -------------------------------------------------------------------------------- */

#define ANY SIZE_MAX

static const struct step {
    const char *name;
    size_t arguments;
    void (*run)(void);
} steps[] = {
    {"table", 0, step_table},
    {"open", 3, step_open},
    {"reading", 2, step_reading},
    {"reduced size agreed", 0, step_agreed},
    {"reduced size not agreed", 0, step_not_agreed},
    {"stream", 2, step_stream},
    {"report", 5, step_report},
    {"farewell", 2, step_farewell},
    {"send report", 5, step_send_report},
    {"send farewell", 2, step_send_farewell},
    {"fill", 2, step_fill},
    {"burst", 2, step_burst},
    {"sweep", 0, step_sweep},
    {"datagram", ANY, step_datagram},
    {"recording", ANY, step_recording},
    {"append", ANY, step_append},
    {"cut", 1, step_cut},
    {"take", 1, step_take},
    {"items", 0, step_items},
    {"item", 1, step_item},
    {"choose", 0, step_choose},
    {"lateness", 0, step_lateness},
    {"age", 0, step_age},
    {"delay", 0, step_delay},
    {"members", 0, step_members},
    {"place", 1, step_place},
    {"tally", 1, step_tally},
    {"unchanged but tally", 1, step_unchanged_but_tally}, /* before the shorter name */
    {"unchanged", 0, step_unchanged},
    {"write report", 0, step_write_report},
    {"write settings", 1, step_write_settings},
    {"check own", 1, step_check_own}, /* before the shorter name */
    {"check item", 2, step_check_item},
    {"check", 6, step_check},
    {"line", 1, step_line},
    {"write line", 1, step_write_line},
    {"replay entry", 1, step_replay_entry}, /* before the shorter name */
    {"replay target", 0, step_replay_target},
    {"replay", 0, step_replay},
};

static unsigned long steps_run;

/* Steps with an answer: it was held against the text's, for those of a burst with its last report. */
static unsigned long answers;

/* Behind a quoted text that starts here, or here where none does. Its spaces part no words. */
static char *behind_quotes(char *at)
{
    char *end = *at == '"' ? strchr(at + 1, '"') : NULL;

    if (*at == '"' && end == NULL)
        not_understood(at);
    return end == NULL ? at : end + 1;
}

/* Splits a text into its words: how many there are. */
static size_t split(char *text, char **words)
{
    size_t count = 0;

    while (*(text += strspn(text, " ")) != '\0') {
        if (count == MOST_WORDS)
            not_understood(text);
        words[count++] = text;
        text = behind_quotes(text);
        text += strcspn(text, " ");
        if (*text != '\0')
            *text++ = '\0';
    }
    words[count] = NULL;
    return count;
}

/* Where a step's answer is told off by " = ", outside of quotes, or NULL. */
static char *find_answer(char *text)
{
    while (*text != '\0' && strncmp(text, " = ", 3) != 0)
        text = *text == '"' ? behind_quotes(text) : text + 1;
    return *text == '\0' ? NULL : text;
}

/* The step whose name stands at the front of a text, alone or before a space. */
static const struct step *find_step(const char *text)
{
    for (size_t i = 0; i < sizeof steps / sizeof *steps; i++) {
        size_t length = strlen(steps[i].name);

        if (strncmp(text, steps[i].name, length) == 0 &&
            (text[length] == '\0' || text[length] == ' '))
            return &steps[i];
    }
    not_understood(text);
    return NULL;
}

/* Whether a step may stand between a burst and its last report. */
static int is_of_burst(const struct step *step)
{
    return step->run == step_report || step->run == step_fill || step->run == step_stream;
}

/* Runs a step, without the two spaces before it. */
static void run(char *text)
{
    char *answer = find_answer(text);
    const struct step *step;

    due[0] = NULL;
    if (answer != NULL) {
        *answer = '\0';
        split(answer + 3, due);
    }
    step = find_step(text);
    if (split(text + strlen(step->name), asked) != step->arguments && step->arguments != ANY)
        not_understood("so many words");
    if (is_gathering() && !is_of_burst(step))
        not_understood("a burst that lacks its reports");
    step->run();
    steps_run++;
    answers += answer != NULL || step->run == step_unchanged;
}

/* How many answers the program compares, by the last line of what it prints. */
static unsigned long answers_printed(void)
{
    char text[MOST_TEXT];
    unsigned long count = 0;
    FILE *stream = fopen(PRINTED, "r");

    if (stream == NULL) {
        perror(PRINTED);
        exit(1);
    }
    while (fgets(text, sizeof text, stream) != NULL)
        sscanf(text, "receiving bench: %lu of", &count);
    fclose(stream);
    return count;
}

int main(void)
{
    static char text[MOST_TEXT];
    static char copy[sizeof text];
    unsigned long lines = 0;
    FILE *stream = fopen(TEXT, "r");

    start_checks(TEXT);
    name = copy;
    bench.datagram = allocate(0);
    bench.recording = allocate(0);
    if (stream == NULL) {
        perror(TEXT);
        return 1;
    }
    for (line = 1; fgets(text, sizeof text, stream) != NULL; line++) {
        int is_step = strncmp(text, "  ", 2) == 0;

        if (strlen(text) == sizeof text - 1 || (!is_step && strchr(" \t", text[0]) != NULL))
            not_understood(text);
        text[strcspn(text, "\n")] = '\0';
        strcpy(copy, text);
        lines += is_step;
        if (is_step)
            run(text + 2);
    }
    fclose(stream);
    free(bench.datagram);
    free(bench.recording);
    if (is_gathering())
        not_understood("a burst that lacks its reports");
    check_true("there are steps", lines > 0);
    check_equal("steps that were run", steps_run, lines);
    check_equal("answers, as printed by the program", answers, answers_printed());
    printf("%s: %lu steps, %lu answers\n", file, steps_run, answers);
    return finish_checks();
}
