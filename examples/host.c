/*
 * A small host around libprunepocket.a: a synchronization server on UDP, over the loopback. Its
 * loudspeakers are simulated here too, by sockets of their own. Two of them bear one source number,
 * as twins do, and differ in their ports alone. One is a battery unit, which sends each message
 * alone: reduced-size RTCP (RFC 5506).
 *
 * The host files what each datagram holds, then sends the target back to the datagram's sender.
 * Everything is printed: what was sent, the answers, the members, the numbers that have twins, the
 * target, and the settings that the loudspeaker read. One datagram is under way at a time and the
 * sender's clock stands still, so the text is the same in every run. It is also the same over IPv4
 * and over IPv6, and is printed once; stderr says whether IPv6 was there.
 *
 * The status is 0 only where everything came as expected.
 */
#define _POSIX_C_SOURCE 200809L

#include <prunepocket.h>

#include <arpa/inet.h>
#include <inttypes.h>
#include <netinet/in.h>
#include <poll.h>
#include <stdbool.h>
#include <stdio.h>
#include <stdlib.h>
#include <string.h>
#include <sys/socket.h>
#include <unistd.h>

/*
 * What the host is told of its stream. One line names the group, which the loudspeakers know, and
 * one says that reduced-size RTCP was agreed.
 */
static const char site_file[] = "m=audio 5004 RTP/AVP 33\r\n"
                                "a=rtcp-rsize\r\n"
                                "a=rtcp-idms:sync-group=42\r\n";

#define GROUP 42
#define MEDIA 7
#define RATE 90000
#define PAYLOAD_TYPE 33

/* The host's own SSRC, the sender of the settings. */
#define HOST 1

/* A full time of whole seconds, and of a fraction of 1,000 behind them. */
#define SECONDS(n) ((uint64_t)(n) << 32)
#define SECONDS_AND(n, thousandths) (SECONDS(n) + ((uint64_t)(thousandths) << 32) / 1000)

/* On the loopback a datagram is there at once: one that takes so long is not coming. */
#define TIMEOUT_MS 2000

/* The longest datagram that the reader takes. */
#define LONGEST 2048

/* An item takes a word or more, so rows for so many are never too few. */
#define MOST_ITEMS (LONGEST / 4)

/* Bytes of the RR and the SDES that stand before every message but a battery unit's. */
#define FRONT 28

/* ---- Sockets --------------------------------------------------------------------------------- */

struct address {
    union {
        struct sockaddr any;
        struct sockaddr_in v4;
        struct sockaddr_in6 v6;
    };
    socklen_t length;
};

/* The system failed: there is nothing to go on with. */
static _Noreturn void die(const char *what)
{
    perror(what);
    exit(EXIT_FAILURE);
}

/* Only what is known to be in range is opened and written here, so no refusal is due. */
static void must_be_accepted(const char *what, uint64_t number)
{
    if (number == PRUNEPOCKET_ACCEPTED)
        return;
    fprintf(stderr, "%s: refused %" PRIu64 "\n", what, number);
    exit(EXIT_FAILURE);
}

/* The loopback of a family. Port 0 asks the system for a free one. */
static struct address loopback(int family)
{
    struct address address;

    memset(&address, 0, sizeof address);
    if (family == AF_INET) {
        address.v4.sin_family = AF_INET;
        address.v4.sin_addr.s_addr = htonl(INADDR_LOOPBACK);
        address.length = sizeof address.v4;
    } else {
        address.v6.sin6_family = AF_INET6;
        address.v6.sin6_addr = in6addr_loopback;
        address.length = sizeof address.v6;
    }
    return address;
}

/* A socket on the loopback, or -1 where the family is not there. */
static int try_socket(int family)
{
    struct address address = loopback(family);
    int fd = socket(family, SOCK_DGRAM, 0);

    if (fd >= 0 && bind(fd, &address.any, address.length) < 0) {
        close(fd);
        return -1;
    }
    return fd;
}

static int open_socket(int family)
{
    int fd = try_socket(family);

    if (fd < 0)
        die("a socket on the loopback");
    return fd;
}

/* A loudspeaker's socket. Connected, it sends to the host and hears nobody else. */
static int open_unit(int family, int host)
{
    struct address address = {.length = sizeof address.v6};
    int fd = open_socket(family);

    if (getsockname(host, &address.any, &address.length) < 0)
        die("the host's port");
    if (connect(fd, &address.any, address.length) < 0)
        die("a way to the host");
    return fd;
}

static bool is_waiting(int fd, int timeout_ms)
{
    struct pollfd waiting = {.fd = fd, .events = POLLIN};
    int ready = poll(&waiting, 1, timeout_ms);

    if (ready < 0)
        die("poll");
    return ready > 0;
}

static size_t receive(int fd, uint8_t *datagram, size_t size, struct address *from)
{
    ssize_t length;

    if (!is_waiting(fd, TIMEOUT_MS)) {
        fputs("a datagram did not arrive\n", stderr);
        exit(EXIT_FAILURE);
    }
    from->length = sizeof from->v6;
    length = recvfrom(fd, datagram, size, 0, &from->any, &from->length);
    if (length < 0)
        die("receiving");
    return (size_t)length;
}

/*
 * Sixteen bytes of address and the port, whatever the family. The scope of a link-local IPv6
 * address is no part of it: a host that serves several links keeps a table for each.
 */
static struct prunepocket_origin origin_of(const struct address *from)
{
    struct prunepocket_origin origin = {.port = 0};

    if (from->any.sa_family == AF_INET) {
        /* ::ffff:a.b.c.d, which is also how an IPv6 socket shows a sender on IPv4. */
        origin.address[10] = 0xFF;
        origin.address[11] = 0xFF;
        memcpy(origin.address + 12, &from->v4.sin_addr, 4);
        origin.port = ntohs(from->v4.sin_port);
    } else {
        memcpy(origin.address, &from->v6.sin6_addr, 16);
        origin.port = ntohs(from->v6.sin6_port);
    }
    return origin;
}

/* ---- Packets that the library leaves to the host --------------------------------------------- */

static void put32(uint8_t *bytes, uint32_t word)
{
    for (int i = 0; i < 4; i++)
        bytes[i] = (uint8_t)(word >> (24 - 8 * i));
}

/*
 * An RR with count 0 and an SDES with the CNAME: RFC 3550 (6.1) has them in front of every compound
 * packet. The CNAME is made of the source number here, so twins share that as well.
 */
static void put_front(uint8_t *datagram, uint32_t source)
{
    memset(datagram, 0, FRONT);
    put32(datagram, 0x80C90001);
    put32(datagram + 4, source);
    put32(datagram + 8, 0x81CA0004);
    put32(datagram + 12, source);
    datagram[16] = 1;
    datagram[17] = 8;
    /* Two zeros behind the eight digits end the chunk and fill its last word. */
    snprintf((char *)datagram + 18, FRONT - 18, "%08" PRIx32, source);
}

/* A BYE of one source. */
static size_t put_farewell(uint8_t *bytes, uint32_t source)
{
    put32(bytes, 0x81CB0001);
    put32(bytes + 4, source);
    return 8;
}

/* ---- Text ------------------------------------------------------------------------------------ */

/* Times are seconds and a fraction: of 2^32 in a full time, of 2^16 in a short one. */
static void show_full(FILE *out, const char *name, uint64_t time)
{
    fprintf(out, " %s %" PRIu64 " %" PRIu64, name, time >> 32, time & 0xFFFFFFFF);
}

static void show_member(FILE *out, const struct prunepocket_record *record)
{
    const struct prunepocket_report_fields *report = &record->report;

    fprintf(out, "  member %" PRIu32, record->source);
    show_full(out, "received", report->received);
    fprintf(out, " rtp %" PRIu32 " presented %" PRIu32 " %" PRIu32 "\n", report->rtp,
            report->presented >> 16, report->presented & 0xFFFF);
}

static void show_members(FILE *out, const struct prunepocket_table *table)
{
    if (prunepocket_count_members(*table) == 0)
        fputs("  no members\n", out);
    for (size_t place = 0; place < PRUNEPOCKET_PLACES; place++) {
        struct prunepocket_place at = prunepocket_member_at(*table, place);

        if (at.held)
            show_member(out, &at.member.record);
    }
}

/* The members whose numbers others use as well, and how often these were refused. */
static void show_twins(FILE *out, const struct prunepocket_table *table)
{
    for (size_t place = 0; place < PRUNEPOCKET_PLACES; place++) {
        struct prunepocket_place at = prunepocket_member_at(*table, place);

        if (at.member.tally > 0)
            fprintf(out, "  number %" PRIu32 " has twins, tally %" PRIu32 "\n",
                    at.member.record.source, at.member.tally);
    }
}

static void show_target(FILE *out, const struct prunepocket_followed *followed)
{
    if (followed->number != PRUNEPOCKET_ACCEPTED)
        fprintf(out, "  no target, refused %" PRIu64 "\n", followed->number);
    else
        fprintf(out, "  target %" PRIu32 " counted %" PRIu32 "\n", followed->target.source,
                followed->target.counted);
}

static void show_answer(FILE *out, const uint64_t *row, uint64_t number)
{
    uint64_t kind = row[PRUNEPOCKET_FIELD_KIND];

    /* Settings were passed by: they are neither accepted nor refused. */
    if (kind == PRUNEPOCKET_SETTINGS)
        return;
    fprintf(out, "  %s of %" PRIu64, kind == PRUNEPOCKET_REPORT ? "report" : "farewell",
            row[PRUNEPOCKET_FIELD_SOURCE]);
    if (number == PRUNEPOCKET_ACCEPTED)
        fputs(" accepted\n", out);
    else
        fprintf(out, " refused %" PRIu64 "%s\n", number,
                number == PRUNEPOCKET_OTHER_ORIGIN ? ", a twin" : "");
}

/* ---- The host -------------------------------------------------------------------------------- */

struct host {
    int socket;
    uint32_t reduced_size; /* 1 where reduced-size RTCP was agreed, else 0 */
    struct prunepocket_table table;
    FILE *out;
};

/* What became of a datagram: the reader's answer, and its items with a number for each. */
struct taken {
    struct prunepocket_answer answer;
    uint64_t items;
    uint64_t rows[MOST_ITEMS * PRUNEPOCKET_ROW];
    uint64_t answers[MOST_ITEMS];
};

static struct prunepocket_record record_of(const uint64_t *row, struct prunepocket_origin origin)
{
    return (struct prunepocket_record){
        .source = (uint32_t)row[PRUNEPOCKET_FIELD_SOURCE],
        .origin = origin,
        .report = {
            .received = row[PRUNEPOCKET_FIELD_RECEIVED],
            .group = (uint32_t)row[PRUNEPOCKET_FIELD_GROUP],
            .media = (uint32_t)row[PRUNEPOCKET_FIELD_MEDIA],
            .rtp = (uint32_t)row[PRUNEPOCKET_FIELD_RTP],
            .presented = (uint32_t)row[PRUNEPOCKET_FIELD_PRESENTED],
            .payload_type = (uint8_t)row[PRUNEPOCKET_FIELD_PAYLOAD_TYPE],
            .p = (uint8_t)row[PRUNEPOCKET_FIELD_P],
        },
    };
}

static struct prunepocket_answered take_item(struct prunepocket_table table, const uint64_t *row,
                                             struct prunepocket_origin origin,
                                             struct prunepocket_reading reading)
{
    switch (row[PRUNEPOCKET_FIELD_KIND]) {
    case PRUNEPOCKET_REPORT:
        return prunepocket_report(table, record_of(row, origin), reading);
    case PRUNEPOCKET_FAREWELL:
        return prunepocket_farewell(table, (uint32_t)row[PRUNEPOCKET_FIELD_SOURCE], origin);
    default:
        /* Settings are for loudspeakers: a host passes them by. */
        return (struct prunepocket_answered){.number = PRUNEPOCKET_ACCEPTED, .table = table};
    }
}

/* Files the items of a whole datagram, in their order. A refused item does not stop the rest. */
static void take_datagram(struct host *host, const uint8_t *datagram, size_t length,
                          struct prunepocket_origin origin, struct prunepocket_reading reading,
                          struct taken *taken)
{
    taken->items = 0;
    taken->answer = prunepocket_read_items(datagram, length, host->reduced_size, taken->rows,
                                           MOST_ITEMS * PRUNEPOCKET_ROW, &taken->items);
    for (uint64_t i = 0; i < taken->items; i++) {
        struct prunepocket_answered answered =
            take_item(host->table, taken->rows + i * PRUNEPOCKET_ROW, origin, reading);

        /* A refused twin raised a tally, so the table is taken in every case. */
        host->table = answered.table;
        taken->answers[i] = answered.number;
    }
}

static void show_taken(FILE *out, const struct taken *taken)
{
    if (taken->answer.number != PRUNEPOCKET_ACCEPTED)
        fprintf(out, "  datagram refused %" PRIu64 " at %" PRIu64 "\n", taken->answer.number,
                taken->answer.place);
    for (uint64_t i = 0; i < taken->items; i++)
        show_answer(out, taken->rows + i * PRUNEPOCKET_ROW, taken->answers[i]);
}

/* The bytes of a text's first line, LF included. */
static size_t line_length(const char *text)
{
    size_t length = strcspn(text, "\n");

    return length + (text[length] == '\n');
}

/* The group that a site file names, or 0, for which no table opens. */
static uint32_t group_of(const char *text)
{
    uint32_t group = 0;

    while (*text != '\0') {
        size_t length = line_length(text);
        uint64_t number =
            prunepocket_read_sync_group((const uint8_t *)text, length, &group).number;

        /* 21 says that it is another line, 22 that its group cannot be used. */
        if (number != PRUNEPOCKET_BAD_LINE)
            must_be_accepted("the group's line", number);
        text += length;
    }
    return group;
}

/* 1 where a site file has the line that stands for reduced-size RTCP, else 0. */
static uint32_t reduced_size_of(const char *text)
{
    static const char line[] = "a=rtcp-rsize\r\n";

    for (; *text != '\0'; text += line_length(text)) {
        if (strncmp(text, line, strlen(line)) == 0)
            return 1;
    }
    return 0;
}

static struct host open_host(int family, FILE *out)
{
    struct prunepocket_answered opened = prunepocket_open(group_of(site_file), MEDIA, RATE);

    /* Refused, opening gives no table: look at the number before the table is used. */
    must_be_accepted("opening", opened.number);
    return (struct host){
        .socket = open_socket(family),
        .reduced_size = reduced_size_of(site_file),
        .table = opened.table,
        .out = out,
    };
}

/* The target goes out as it was chosen: a stale one would ask a loudspeaker for the impossible. */
static void send_settings(const struct host *host, const struct prunepocket_target *target,
                          const struct address *to)
{
    uint8_t datagram[FRONT + PRUNEPOCKET_SETTINGS_BYTES];
    uint64_t written = 0;
    struct prunepocket_answer answer;

    put_front(datagram, HOST);
    answer = prunepocket_write_settings(HOST, target->group, target->media, target->received,
                                        target->rtp, target->presented, datagram + FRONT,
                                        sizeof datagram - FRONT, &written);
    must_be_accepted("settings", answer.number);
    if (sendto(host->socket, datagram, FRONT + written, 0, &to->any, to->length) < 0)
        die("sending settings");
}

/* Shows the members, those with twins again, and the target at a reading. */
static struct prunepocket_followed choose(const struct host *host,
                                          struct prunepocket_reading reading)
{
    struct prunepocket_followed followed = prunepocket_choose(host->table, reading);

    show_members(host->out, &host->table);
    show_twins(host->out, &host->table);
    show_target(host->out, &followed);
    return followed;
}

/*
 * Waits for a datagram, takes it, and sends the target, if there is one, to where it came from. A
 * refused twin is answered as well: it is no member, but it plays and has to be in step.
 */
static void serve(struct host *host, struct prunepocket_reading reading, struct taken *taken)
{
    /* A byte more than the reader takes: a longer datagram is refused and not read in part. */
    uint8_t datagram[LONGEST + 1];
    struct address from;
    size_t length = receive(host->socket, datagram, sizeof datagram, &from);
    struct prunepocket_followed followed;

    take_datagram(host, datagram, length, origin_of(&from), reading, taken);
    show_taken(host->out, taken);
    followed = choose(host, reading);
    if (followed.number == PRUNEPOCKET_ACCEPTED)
        send_settings(host, &followed.target, &from);
}

/* What a host does now and then, or loudspeakers that went silent would keep their places. */
static void sweep(struct host *host, struct prunepocket_reading reading)
{
    host->table = prunepocket_sweep(host->table, reading).table;
}

/* ---- The loudspeakers ------------------------------------------------------------------------ */

/* A loudspeaker, and when it received and presented the packet that it reports. */
struct unit {
    const char *name;
    uint32_t source;
    uint64_t received;
    uint32_t rtp;
    uint64_t presented;
    bool on_battery; /* whether it sends its messages alone */
};

enum { STAND, RING, TWIN, BATTERY, UNITS, NOBODY = UNITS };

/*
 * At the reading below they are late by 0.5, 0.75, 0.875 and 1 s; stand and ring are the papers' P1
 * and P2. So the ring's twin would be followed as soon as its report was filed.
 */
static const struct unit units[UNITS] = {
    [STAND] = {"stand", 10, SECONDS(999), 8910000, SECONDS_AND(999, 500), false},
    [RING] = {"ring", 20, SECONDS(998), 8820000, SECONDS_AND(998, 750), false},
    [TWIN] = {"twin", 20, SECONDS(999), 8910000, SECONDS_AND(999, 875), false},
    [BATTERY] = {"battery", 30, SECONDS(997), 8730000, SECONDS(998), true},
};

/* Simulated readings of the sender's clock. A host takes one as each datagram arrives. */
static const struct prunepocket_reading now = {.ntp = SECONDS(1000), .rtp = 9000000};
static const struct prunepocket_reading later = {.ntp = SECONDS(1031), .rtp = 9000000 + 31 * RATE};

enum message { REPORT, CUT_REPORT, FAREWELL };

/* The bytes of a report, which has the middle 32 bits of the presented time. */
static size_t put_report(uint8_t *bytes, const struct unit *unit)
{
    uint64_t written = 0;
    struct prunepocket_answer answer = prunepocket_write_report(
        unit->source, PAYLOAD_TYPE, 1, GROUP, MEDIA, unit->received, unit->rtp,
        (uint32_t)(unit->presented >> 16), bytes, PRUNEPOCKET_REPORT_BYTES, &written);

    must_be_accepted("a report", answer.number);
    return (size_t)written;
}

static void send_message(FILE *out, int fd, const struct unit *unit, enum message message)
{
    uint8_t datagram[FRONT + PRUNEPOCKET_REPORT_BYTES];
    size_t length = 0;

    if (!unit->on_battery) {
        put_front(datagram, unit->source);
        length = FRONT;
    }
    if (message == FAREWELL)
        length += put_farewell(datagram + length, unit->source);
    else
        length += put_report(datagram + length, unit);
    if (message == CUT_REPORT)
        length -= 4;
    fprintf(out, "%s sends a %s of %" PRIu32 "%s%s\n", unit->name,
            message == FAREWELL ? "farewell" : "report", unit->source,
            unit->on_battery ? ", alone" : "", message == CUT_REPORT ? ", its last word lost" : "");
    if (send(fd, datagram, length, 0) < 0)
        die("sending a message");
}

/* Reads a datagram whose only item is settings into its row. */
static bool read_settings(const uint8_t *datagram, size_t length, uint32_t reduced_size,
                          uint64_t row[PRUNEPOCKET_ROW])
{
    uint64_t items = 0;
    struct prunepocket_answer answer =
        prunepocket_read_items(datagram, length, reduced_size, row, PRUNEPOCKET_ROW, &items);

    return answer.number == PRUNEPOCKET_ACCEPTED && items == 1 &&
           row[PRUNEPOCKET_FIELD_KIND] == PRUNEPOCKET_SETTINGS;
}

static void show_settings(FILE *out, const struct unit *unit, const uint64_t *row)
{
    fprintf(out, "  %s gets settings from %" PRIu64, unit->name, row[PRUNEPOCKET_FIELD_SOURCE]);
    show_full(out, "received", row[PRUNEPOCKET_FIELD_RECEIVED]);
    fprintf(out, " rtp %" PRIu64, row[PRUNEPOCKET_FIELD_RTP]);
    show_full(out, "presented", row[PRUNEPOCKET_FIELD_PRESENTED]);
    fputs("\n", out);
}

/* ---- What is expected ------------------------------------------------------------------------ */

static bool all_good = true;

static void expect(bool truth, const char *what)
{
    if (truth)
        return;
    fprintf(stderr, "not as expected: %s\n", what);
    all_good = false;
}

/* A datagram, and what becomes of it. */
struct step {
    int from;                      /* the loudspeaker that sends */
    enum message message;          /* what it sends */
    struct prunepocket_answer due; /* the refusal of the datagram or of its item, or none */
    uint32_t members;              /* how many there are afterwards */
    uint32_t tallies;              /* and the tallies of all of them together */
    int followed;                  /* the loudspeaker whose times are the target */
};

static const struct step steps[] = {
    {STAND, CUT_REPORT, {PRUNEPOCKET_BAD_PACKET, FRONT}, 0, 0, NOBODY},
    {STAND, REPORT, {PRUNEPOCKET_ACCEPTED, 0}, 1, 0, STAND},
    {RING, REPORT, {PRUNEPOCKET_ACCEPTED, 0}, 2, 0, RING},
    {TWIN, REPORT, {PRUNEPOCKET_OTHER_ORIGIN, 0}, 2, 1, RING},
    {TWIN, FAREWELL, {PRUNEPOCKET_OTHER_ORIGIN, 0}, 2, 2, RING},
    {RING, REPORT, {PRUNEPOCKET_ACCEPTED, 0}, 2, 2, RING},
    {RING, FAREWELL, {PRUNEPOCKET_ACCEPTED, 0}, 1, 0, STAND},
    {TWIN, REPORT, {PRUNEPOCKET_ACCEPTED, 0}, 2, 0, TWIN},
    {RING, REPORT, {PRUNEPOCKET_OTHER_ORIGIN, 0}, 2, 1, TWIN},
    {BATTERY, REPORT, {PRUNEPOCKET_ACCEPTED, 0}, 3, 1, BATTERY},
    {BATTERY, FAREWELL, {PRUNEPOCKET_ACCEPTED, 0}, 2, 1, TWIN},
};

/* Either the datagram is refused, at its place, or its only item gets the number. */
static void expect_taken(const struct taken *taken, struct prunepocket_answer due)
{
    struct prunepocket_answer got = taken->answer;

    if (got.number == PRUNEPOCKET_ACCEPTED) {
        expect(taken->items == 1, "a datagram's items");
        got.number = taken->items > 0 ? taken->answers[0] : PRUNEPOCKET_NO_SUCH_ITEM;
    }
    expect(got.number == due.number, "an answer's number");
    expect(got.place == due.place, "a refusal's place");
}

/* The settings bring back the times of the loudspeaker that is followed, presented in full. */
static void expect_settings(const uint64_t *row, const struct unit *followed)
{
    expect(row[PRUNEPOCKET_FIELD_SOURCE] == HOST, "the settings' sender");
    expect(row[PRUNEPOCKET_FIELD_GROUP] == GROUP, "the settings' group");
    expect(row[PRUNEPOCKET_FIELD_MEDIA] == MEDIA, "the settings' media source");
    expect(row[PRUNEPOCKET_FIELD_RECEIVED] == followed->received, "the settings' received time");
    expect(row[PRUNEPOCKET_FIELD_RTP] == followed->rtp, "the settings' RTP time");
    expect(row[PRUNEPOCKET_FIELD_PRESENTED] == followed->presented, "the settings' presented time");
}

/*
 * The loudspeaker reads the host's answer, and looks for none where nobody is followed. What was
 * agreed it knows as the host does, from the SDP.
 */
static void get_settings(FILE *out, int fd, uint32_t reduced_size, const struct step *step)
{
    uint8_t datagram[LONGEST + 1];
    uint64_t row[PRUNEPOCKET_ROW];
    struct address from;
    size_t length;

    if (step->followed == NOBODY) {
        /* The host is done with the datagram, so an answer would be here by now. */
        expect(!is_waiting(fd, 0), "no settings without a target");
        return;
    }
    length = receive(fd, datagram, sizeof datagram, &from);
    if (!read_settings(datagram, length, reduced_size, row)) {
        expect(false, "settings as the only item");
        return;
    }
    show_settings(out, &units[step->from], row);
    expect_settings(row, &units[step->followed]);
}

/* ---- The course of events -------------------------------------------------------------------- */

static uint32_t sum_of_tallies(const struct prunepocket_table *table)
{
    uint32_t sum = 0;

    for (size_t place = 0; place < PRUNEPOCKET_PLACES; place++)
        sum += prunepocket_member_at(*table, place).member.tally;
    return sum;
}

static void take_step(struct host *host, const int *sockets, const struct step *step)
{
    struct taken taken;

    send_message(host->out, sockets[step->from], &units[step->from], step->message);
    serve(host, now, &taken);
    expect_taken(&taken, step->due);
    expect(prunepocket_count_members(host->table) == step->members, "how many members there are");
    expect(sum_of_tallies(&host->table) == step->tallies, "the members' tallies");
    get_settings(host->out, sockets[step->from], host->reduced_size, step);
}

static void fall_silent(struct host *host)
{
    fputs("31 s later, nobody was heard again: sweep\n", host->out);
    sweep(host, later);
    expect(prunepocket_count_members(host->table) == 0, "no members after the sweep");
    expect(choose(host, later).number == PRUNEPOCKET_NONE_COUNTED, "no target after the sweep");
}

static void run(int family, FILE *out)
{
    struct host host = open_host(family, out);
    int sockets[UNITS];

    for (int i = 0; i < UNITS; i++)
        sockets[i] = open_unit(family, host.socket);
    for (size_t i = 0; i < sizeof steps / sizeof *steps; i++)
        take_step(&host, sockets, &steps[i]);
    fall_silent(&host);
    for (int i = 0; i < UNITS; i++)
        close(sockets[i]);
    close(host.socket);
}

/* What a run prints, for the caller to free. */
static char *text_of_run(int family)
{
    char *text = NULL;
    size_t length = 0;
    FILE *out = open_memstream(&text, &length);

    if (out == NULL)
        die("memory for the text");
    run(family, out);
    if (fclose(out) != 0)
        die("memory for the text");
    return text;
}

static bool has_loopback(int family)
{
    int fd = try_socket(family);

    if (fd >= 0)
        close(fd);
    return fd >= 0;
}

int main(void)
{
    char *v4 = text_of_run(AF_INET);

    fputs(v4, stdout);
    if (has_loopback(AF_INET6)) {
        char *v6 = text_of_run(AF_INET6);
        bool same = strcmp(v4, v6) == 0;

        expect(same, "the text over IPv6");
        fprintf(stderr, "IPv6: %s\n", same ? "the same" : v6);
        free(v6);
    } else {
        fputs("IPv6: not here\n", stderr);
    }
    free(v4);
    /* A text that could not be written was not as expected either. */
    expect(fflush(stdout) == 0, "standard output");
    return all_good ? EXIT_SUCCESS : EXIT_FAILURE;
}
