/*
 * prunepocket: reads and writes RTCP for inter-destination media
 * synchronization (IDMS, RFC 7272) and the SDP line that names a group, holds
 * the member table of a synchronization group, which chooses the target, runs a
 * site recording through one, and moves a loudspeaker's playout to the target.
 *
 * Link with libprunepocket.a. Every function takes any arguments that C can
 * pass truthfully (a pointer and the number of elements behind it), answers
 * every datagram, every line, every table, every recording and every playout
 * clock, allocates nothing, keeps nothing between calls and may be called from
 * any thread.
 *
 * A pointer may not be null. Where an array is empty, pass the address of any
 * object and the length 0. Two pointers that are passed to one call must not
 * lead to the same memory.
 */
#ifndef PRUNEPOCKET_H
#define PRUNEPOCKET_H

#include <stddef.h>
#include <stdint.h>

#ifdef __cplusplus
extern "C" {
#endif

/* ---- Answers ------------------------------------------------------------
 *
 * Each reader and writer answers the number of a refusal, and the byte of the
 * datagram at which it was met, which is 0 where there is no datagram. Number 0
 * with place 0 says that the call was not refused. After any other number, the
 * memory that was lent to the call is as before. The calls of the member table
 * answer a number alone, 0, 11 to 20, 23 or 24; that for a whole datagram answers
 * number and place, 0, 1 to 7 or 10. Replaying a recording answers a number
 * without a place, 0, 25, 12 or 10, and so do the calls of a loudspeaker, 0, 12,
 * 13, 15 to 17, 26 or 27.
 */
struct prunepocket_answer {
    uint64_t number;
    uint64_t place;
};

#define PRUNEPOCKET_ACCEPTED 0 /* no refusal */
/* Numbers 1 to 7 are of the whole datagram: no item is taken from it. */
#define PRUNEPOCKET_BAD_LENGTH 1       /* datagram length is 0, not a multiple of 4, or over 2,048; place 0 */
#define PRUNEPOCKET_BAD_PACKET 2       /* version is not 2, or the packet runs past the end; the packet's place */
#define PRUNEPOCKET_BAD_PADDING 3      /* bad padding; the packet's place */
#define PRUNEPOCKET_BAD_FIRST 4        /* first packet is neither 200 nor 201, and reduced size not agreed; place 0 */
#define PRUNEPOCKET_SHORT_CONTENT 5    /* content too short for its type, or for 211 not 36 bytes; the packet's place */
#define PRUNEPOCKET_BLOCK_PAST_END 6   /* an XR block runs past the content; the block's place */
#define PRUNEPOCKET_BAD_BLOCK_LENGTH 7 /* block type 12 with block length other than 7; the block's place */
/* There is no number 8. */
#define PRUNEPOCKET_NO_SUCH_ITEM 9  /* item index not below the item count, or the item has no such field; place 0 */
#define PRUNEPOCKET_SHORT_BUFFER 10 /* lent array or buffer too short, but for the list of a burst; place 0 */
#define PRUNEPOCKET_OUT_OF_RANGE 11 /* a field to be written is out of range, place 0; or a slack above its limit */
/* Numbers 12 to 20 are of the member table, 12, 13 and 15 to 17 of a loudspeaker too; no place, nor has 11 there. */
#define PRUNEPOCKET_BAD_OPENING 12     /* group is 0 or 4294967295, or rate is outside of 1 to 192,000 */
#define PRUNEPOCKET_OTHER_STREAM 13    /* report or settings of another group or media source */
#define PRUNEPOCKET_OTHER_ORIGIN 14    /* source number is held by another origin: a twin */
#define PRUNEPOCKET_RECEIVED_FAR 15    /* received time is not within 30 s at or before the reading */
#define PRUNEPOCKET_RTP_AGED 16        /* RTP age is above 60 seconds of the media clock */
#define PRUNEPOCKET_BADLY_PRESENTED 17 /* P is 1, and delay over 30 s or expanded presentation 0; settings: see below */
#define PRUNEPOCKET_NO_ROOM 18         /* report of a new member, and all 64 places are held */
#define PRUNEPOCKET_NO_MEMBER 19       /* farewell from a source number that is not held */
#define PRUNEPOCKET_NONE_COUNTED 20    /* no member is counted, since none is fresh: there is no target */
/* Numbers 21 and 22 are of the SDP line. */
#define PRUNEPOCKET_BAD_LINE 21  /* not the line a=rtcp-idms:sync-group=DIGITS CR LF; place 0 */
#define PRUNEPOCKET_BAD_GROUP 22 /* that line with more than ten digits, or a group above 4294967294; place 0 */
/* Numbers 23 and 24 are of a burst of reports, and have no place. */
#define PRUNEPOCKET_LONG_BURST 23    /* more than 64 reports */
#define PRUNEPOCKET_SHORT_ANSWERS 24 /* answer list shorter than the reports */
/* Number 25 is of a recording, and has no place; 12 and 10 are given for one too, without a place. */
#define PRUNEPOCKET_BAD_LAYOUT 25 /* over 65,536 bytes, cut short, over 256 entries, or not ending with the bodies */
/* Numbers 26 and 27 are of a playout clock, and have no place. */
#define PRUNEPOCKET_BAD_STEP 26      /* step is below 1 or over 2^57 */
#define PRUNEPOCKET_OUTSIDE_RANGE 27 /* current or target is below -2^57 or over 2^57 */

/* ---- Items --------------------------------------------------------------
 *
 * An item is a report (a type-12 XR block with role 1), the settings (a packet
 * of type 211) or a farewell (one source of a BYE packet, type 203). Items
 * stand in datagram order. A field is known by its number, which is also its
 * column in a row of prunepocket_read_items.
 */
#define PRUNEPOCKET_FIELD_KIND 0         /* every item: PRUNEPOCKET_REPORT, _SETTINGS or _FAREWELL */
#define PRUNEPOCKET_FIELD_PLACE 1        /* every item: the byte at which its block, packet or source starts */
#define PRUNEPOCKET_FIELD_SOURCE 2       /* every item: the XR sender's, the settings sender's or the leaving SSRC */
#define PRUNEPOCKET_FIELD_GROUP 3        /* report, settings: media stream correlation identifier (the group) */
#define PRUNEPOCKET_FIELD_MEDIA 4        /* report, settings: SSRC of the media source */
#define PRUNEPOCKET_FIELD_RECEIVED 5     /* report, settings: packet received NTP timestamp, 64 bits */
#define PRUNEPOCKET_FIELD_RTP 6          /* report, settings: packet received RTP timestamp, 32 bits */
#define PRUNEPOCKET_FIELD_PRESENTED 7    /* report: presented NTP time, 32 bits, P 0: 0; settings: 64 bits, empty: 0 */
#define PRUNEPOCKET_FIELD_PAYLOAD_TYPE 8 /* report: payload type, 7 bits */
#define PRUNEPOCKET_FIELD_P 9            /* report: 1 where a presented time is given, else 0 */

#define PRUNEPOCKET_REPORT 1   /* has fields 0 to 9 */
#define PRUNEPOCKET_SETTINGS 2 /* has fields 0 to 7 */
#define PRUNEPOCKET_FAREWELL 3 /* has fields 0 to 2 */

#define PRUNEPOCKET_ROW 10 /* columns of a row: a column that the item does not have holds 0 */

/*
 * Every call that is given a datagram is told by reduced_size whether reduced-size
 * RTCP (RFC 5506) was agreed with the unit that sent it: 0 says that it was not,
 * and every other value of the 32 bits that it was. A host knows it from its SDP,
 * where the line a=rtcp-rsize stands for it. Where it was agreed, the first packet
 * may be of any type, and 4 is never given. Every other check is made as where it
 * was not, in the same order: padding on the first packet is 3, even where it is
 * the only one. The datagrams of a recording are read as where it was not.
 */

/*
 * Puts how many items the datagram has into *count.
 * Refusals: 1 to 7.
 */
struct prunepocket_answer prunepocket_count_items(const uint8_t *datagram, size_t length,
                                                  uint32_t reduced_size,
                                                  uint64_t *count);

/*
 * Puts one field of the item at an index (from 0) into *value.
 * Refusals: 1 to 7 of the datagram, at any index; then 9, with place 0, where
 * the index is not below the item count or the item has no such field.
 */
struct prunepocket_answer prunepocket_item_field(const uint8_t *datagram, size_t length,
                                                 uint32_t reduced_size,
                                                 uint64_t index, uint64_t field,
                                                 uint64_t *value);

/*
 * Puts every item into rows, PRUNEPOCKET_ROW numbers an item, and how many
 * items there are into *count. Numbers of the array behind the last row are as
 * before.
 * Refusals: 1 to 7 of the datagram; then 10, with place 0, where rows_length
 * is below PRUNEPOCKET_ROW times the item count.
 */
struct prunepocket_answer prunepocket_read_items(const uint8_t *datagram, size_t length,
                                                 uint32_t reduced_size,
                                                 uint64_t *rows, size_t rows_length,
                                                 uint64_t *count);

/* ---- Messages -----------------------------------------------------------
 *
 * A writer puts a message at the front of a buffer, and how many bytes it took
 * into *written. Nothing behind these bytes is changed, and after a refusal
 * nothing at all. Both take group and media source in this order; the messages
 * themselves hold them in different orders. The host puts an SR or RR, and
 * SDES, before what was written, unless reduced size was agreed with those who
 * are to read it.
 */
#define PRUNEPOCKET_REPORT_BYTES 40
#define PRUNEPOCKET_SETTINGS_BYTES 36

/*
 * Writes an XR packet of 40 bytes with one IDMS report block (role 1).
 * Refusals, in this order: 11 where payload_type is above 127, p is above 1,
 * p is 0 and presented is not, or group is 4294967295; then 10 where length is
 * below 40.
 */
struct prunepocket_answer prunepocket_write_report(uint32_t sender, uint32_t payload_type,
                                                   uint32_t p, uint32_t group,
                                                   uint32_t media, uint64_t received,
                                                   uint32_t rtp, uint32_t presented,
                                                   uint8_t *buffer, size_t length,
                                                   uint64_t *written);

/*
 * Writes an IDMS settings packet of 36 bytes. Presented 0 means empty.
 * Refusals, in this order: 11 where group is 4294967295; then 10 where length
 * is below 36.
 */
struct prunepocket_answer prunepocket_write_settings(uint32_t sender, uint32_t group,
                                                     uint32_t media, uint64_t received,
                                                     uint32_t rtp, uint64_t presented,
                                                     uint8_t *buffer, size_t length,
                                                     uint64_t *written);

/* ---- The group number in a site file ------------------------------------
 *
 * A site file names its synchronization group by the SDP attribute rtcp-idms
 * (RFC 7272, section 10), in a line such as
 *
 *     a=rtcp-idms:sync-group=42
 *
 * that ends with CR LF. Group 0 is the empty group: it is read and written, but
 * prunepocket_open refuses it with 12.
 */
#define PRUNEPOCKET_LINE_BYTES 35 /* a buffer that every line fits into; the shortest line has 26 bytes */

/*
 * Reads the group number of a line into *group. The line is all of the length
 * bytes: a=rtcp-idms:sync-group= in lower case, one to ten ASCII digits, CR, LF,
 * and nothing before, between or behind, nor the zero byte that ends a C string.
 * Leading zeros are read.
 * Refusals, in this order, with place 0: 21 where the bytes are not so, however
 * many digits there are, as for no digit, LF without CR or any other line of the
 * file; 22 where they are so but for more than ten digits, leading zeros counted,
 * or a number above 4294967294. After a refusal *group is as before.
 */
struct prunepocket_answer prunepocket_read_sync_group(const uint8_t *line, size_t length,
                                                      uint32_t *group);

/*
 * Writes the line of a group number, CR LF included, to the front of a buffer,
 * without leading zeros, and puts how many bytes it took, 26 to 35, into
 * *written. Nothing behind these bytes is changed: no zero byte is put there.
 * Refusals, in this order, with place 0: 22 where group is 4294967295; then 10
 * where length is below that of the line. After a refusal nothing is changed.
 */
struct prunepocket_answer prunepocket_write_sync_group(uint32_t group,
                                                       uint8_t *buffer, size_t length,
                                                       uint64_t *written);

/* ---- Member table -------------------------------------------------------
 *
 * A table holds the members of one synchronization group, at most one for each
 * source number, and chooses the member that all are to follow.
 *
 * A host keeps one struct prunepocket_table. It passes the table to a call by
 * value, and takes the one that is handed back in its place:
 *
 *     struct prunepocket_answered answered = prunepocket_open(42, 7, 90000);
 *     if (answered.number == PRUNEPOCKET_ACCEPTED)
 *         table = answered.table;
 *
 *     answered = prunepocket_report(table, record, reading);
 *     table = answered.table;
 *
 * After a refusal the table handed back equals the one that was passed (bytes
 * of padding may differ), except that 14 raises the tally of the member that
 * holds the source number. So take the table in every case. Opening alone is
 * otherwise: refused with 12, it gives no table. What it then hands back stands
 * for none and is not to be passed on; look at the number first.
 *
 * For each item that a reader gives, the host files a report, or calls
 * prunepocket_farewell with a farewell's source, under the origin that the
 * datagram came from; prunepocket_take_datagram does so for all items of a
 * datagram at once, and prunepocket_report_burst takes the reports of many
 * datagrams. What is chosen goes to the members by prunepocket_write_settings.
 *
 * No call writes to the table that it was passed: it gets a copy. Nothing is
 * kept between calls, so two threads may use two tables at a time. Where
 * threads share one table, the host makes them wait for each other, from the
 * passing of the table until the one handed back has been taken.
 *
 * Every call answers whatever it is passed. A table that C has written on still
 * gets a defined answer from every call, though not that of the reports,
 * farewells and sweeps before.
 */
#define PRUNEPOCKET_PLACES 64                     /* places of a table: as many members as there can be */
#define PRUNEPOCKET_BURST_LIMIT 64                /* the most reports of a burst */
#define PRUNEPOCKET_SLACK_LIMIT UINT32_C(1966080) /* the greatest slack, in units of 2^-16 s: 30 s */

/*
 * Where a datagram came from. Two origins are equal when all eighteen bytes of
 * address and port are. A source number belongs to the origin that holds it;
 * another origin with the same number, a twin, is refused with 14, or with 13
 * where its report is of another group or media source, and never alters the
 * member's number, origin or report. A 14 raises the member's tally. Two units
 * behind one address and port cannot be told apart.
 */
struct prunepocket_origin {
    uint8_t address[16]; /* The IPv6 address in network order; an IPv4 address as the IPv4-mapped ::ffff:a.b.c.d. */
    uint16_t port;       /* The UDP port, in the host's byte order. */
};

/*
 * The fields of a report, as the reader gives them. The sender is not among
 * them: it is the source of the record.
 */
struct prunepocket_report_fields {
    uint64_t received;    /* The packet received NTP timestamp, in units of 2^-32 s. */
    uint32_t group;       /* The media stream correlation identifier, which is the group. */
    uint32_t media;       /* The SSRC of the media source. */
    uint32_t rtp;         /* The packet received RTP timestamp. */
    uint32_t presented;   /* The packet presented NTP timestamp, in units of 2^-16 s; not looked at where P is 0. */
    uint8_t payload_type; /* The payload type, which is kept and not looked at. */
    uint8_t p;            /* P is 0 or 1: any value but 0 counts as P 1, and is kept as it was given. */
};

/* A report under its source number and its origin: what the table is told. */
struct prunepocket_record {
    uint32_t source;                         /* The source number, which is the SSRC of the report's sender. */
    struct prunepocket_origin origin;        /* Where the report came from. */
    struct prunepocket_report_fields report; /* The fields of the report. */
};

#define PRUNEPOCKET_TALLY_LIMIT UINT32_C(4294967295) /* where a tally stops */

/*
 * A member: the record that it stands on, and its tally. The tally says how many
 * times the member's source number was refused with 14, by prunepocket_report,
 * prunepocket_farewell, in a burst or in a datagram, since the member last joined,
 * and stops at PRUNEPOCKET_TALLY_LIMIT. Above 0, calls under the number came from another
 * address or port while the member held it: of a twin, or of the member's own
 * unit after it moved.
 * The tally starts at 0 where the member joins, and goes when the member goes, by
 * farewell or sweep: one that joins anew starts at 0 again. No other refusal
 * counts, whoever gets it, and neither the member's own reports nor a sweep that
 * it outlasts changes the tally. Choosing does not look at it.
 */
struct prunepocket_member {
    struct prunepocket_record record; /* Its number, its origin and its last accepted report. */
    uint32_t tally;                   /* How often its number was refused with 14 since it joined, up to the limit. */
};

/* A reading of the NTP clock and of the media source's RTP clock at one moment: the server's, or a loudspeaker's. */
struct prunepocket_reading {
    uint64_t ntp; /* The NTP time N, in units of 2^-32 s. */
    uint32_t rtp; /* The RTP time R of the media clock. */
};

/* The member to follow, with the settings from its own report. */
struct prunepocket_target {
    uint32_t source;    /* The member's source number. */
    uint32_t group;     /* The group of its report. */
    uint32_t media;     /* The media source of its report. */
    uint64_t received;  /* The received time of its report. */
    uint32_t rtp;       /* The RTP time of its report. */
    uint64_t presented; /* The presented time of its report, expanded to a full time, or 0 in arrival mode. */
    uint32_t counted;   /* How many members were counted, the chosen one among them. */
};

/*
 * A settings packet, as the reader gives its fields: one row of
 * prunepocket_read_items with kind PRUNEPOCKET_SETTINGS.
 */
struct prunepocket_settings {
    uint32_t sender;    /* The SSRC of its sender, column 2; not looked at. */
    uint32_t media;     /* The SSRC of the media source, column 4. */
    uint32_t group;     /* The media stream correlation identifier, which is the group, column 3. */
    uint64_t received;  /* The packet received NTP timestamp, column 5. */
    uint32_t rtp;       /* The packet received RTP timestamp, column 6. */
    uint64_t presented; /* The packet presented NTP timestamp, all 64 bits, column 7; 0 means empty. */
};

/*
 * A member table of 4,120 bytes. Its fields are the table's own: C passes the
 * struct from call to call and does not look inside. prunepocket_count_members
 * and prunepocket_member_at say what it holds.
 */
struct prunepocket_table {
    uint32_t group;                                        /* The group that it was opened for. */
    uint32_t media;                                        /* The media source that it was opened for. */
    uint32_t rate;                                         /* The clock rate that it was opened for. */
    uint64_t held;                                         /* The places held, the first as the lowest bit. */
    struct prunepocket_member members[PRUNEPOCKET_PLACES]; /* The member at each place held; at others, anything. */
};

/*
 * What opening, a report, a burst, a farewell and a sweep answer. The table
 * afterwards is after 12 none, after 14 the one passed but for the holder's tally,
 * and after any other refusal equal to the one passed.
 */
struct prunepocket_answered {
    uint64_t number;                /* The refusal's number, or 0 that there is none. */
    struct prunepocket_table table; /* The table afterwards. */
};

/* What taking a whole datagram answers. */
struct prunepocket_datagram_answered {
    uint64_t number;                /* The refusal's number, or 0 that there is none. */
    uint64_t place;                 /* The byte of the datagram at which the refusal was met, or 0. */
    uint64_t count;                 /* How many numbers were put into the list, one for each call; 0 after a refusal. */
    struct prunepocket_table table; /* The table afterwards: after a refusal of the datagram equal to the one passed. */
};

/* What stands at a place. */
struct prunepocket_place {
    uint32_t held;                    /* 1 where a member stands there, else 0. */
    struct prunepocket_member member; /* The member with its tally, or zeros where there is none. */
};

/* What choosing answers. */
struct prunepocket_followed {
    uint64_t number;                  /* The refusal's number, or 0 that there is none. */
    struct prunepocket_target target; /* The target, or zeros after a refusal. */
    struct prunepocket_table table;   /* The table as it was. */
};

/* What checking a settings packet answers. */
struct prunepocket_settings_answered {
    uint64_t number;                /* The refusal's number, or 0 that there is none. */
    uint32_t suits;                 /* 1 where the packet suits the members, 0 where it does not or was refused. */
    struct prunepocket_table table; /* The table as it was. */
};

/*
 * Opens a table without members for a group, a media source and a clock rate in
 * ticks a second.
 * Refusals: 12 where group is 0 or 4294967295, or rate is outside of 1 to
 * 192,000; what is handed back then stands for no table.
 */
struct prunepocket_answered prunepocket_open(uint32_t group, uint32_t media, uint32_t rate);

/*
 * Takes a report that arrived at the sender's reading. Accepted, it replaces the
 * member's report before, also where its received time is earlier, and the
 * member keeps its place and its tally; a new member takes the lowest free place,
 * with a tally of 0. Every other place is as before.
 * The order in which accepted reports of different source numbers arrive decides
 * nothing but places: where two are both accepted one after the other, so are they
 * in the other order, and members, reports, tallies, the answers of all further
 * calls and every target are then the same.
 * Refusals, in this order: 13 where group or media source are not the table's;
 * 14 where another origin holds the source number, and the tally of the member
 * that holds it is one higher, up to PRUNEPOCKET_TALLY_LIMIT; 15 where it was
 * received after the reading, or more than 30 s before it; 16 where its RTP time
 * is after the reading's, or more than 60 seconds of media clock before it; 17
 * where P is 1 and it is presented more than 30 s after it was received, or at the
 * full time 0; 18 where it is a new member's and all places are held. All times
 * wrap.
 * Where P is 1, presented is bits 16 to 47 of a full time, the number of a slot
 * of 2^-16 s. It stands for the start of the next slot of that number after
 * received; where received itself lies in a slot of that number, as at a wired
 * loudspeaker, it stands for received plus one unit of 2^-32 s.
 */
struct prunepocket_answered prunepocket_report(struct prunepocket_table table,
                                               struct prunepocket_record record,
                                               struct prunepocket_reading reading);

/*
 * Takes a burst of reports that all arrived at the sender's reading: each report,
 * in list order, as prunepocket_report does. The table handed back is the one
 * that these single calls leave, and a refused report does not stop the rest: so
 * of two twins in one burst the first takes the number, and the second gets 14.
 * The number that each report gets, 0 or 13 to 18, goes to its place in answers;
 * numbers of the list behind the reports are as before. Each 14 among them has
 * raised the holder's tally. The burst's own number is 0 whatever its reports got.
 * PRUNEPOCKET_BURST_LIMIT numbers are always enough. A burst without reports is
 * taken, whatever the list.
 * Refusals, in this order, before any report is tried: 23 where reports_length is
 * above PRUNEPOCKET_BURST_LIMIT; 24 where answers_length is below reports_length.
 * Table, tallies included, and list are then as before.
 */
struct prunepocket_answered prunepocket_report_burst(struct prunepocket_table table,
                                                     const struct prunepocket_record *reports,
                                                     size_t reports_length,
                                                     struct prunepocket_reading reading,
                                                     uint64_t *answers, size_t answers_length);

/*
 * Takes a farewell of a source number: the member is removed if this origin
 * holds the number, and its tally goes with it.
 * Refusals: 19 where no member has the number; 14 where another origin holds it,
 * and the tally of the member that holds it is one higher, up to
 * PRUNEPOCKET_TALLY_LIMIT.
 */
struct prunepocket_answered prunepocket_farewell(struct prunepocket_table table, uint32_t source,
                                                 struct prunepocket_origin origin);

/*
 * Removes every member that is not fresh at the reading, and its tally with it:
 * 15 or 16 would be given there for the report that it stands on.
 * Refusals: none, the number is 0.
 */
struct prunepocket_answered prunepocket_sweep(struct prunepocket_table table,
                                              struct prunepocket_reading reading);

/*
 * Takes a whole datagram that came from this origin and arrived at the sender's
 * reading: each report and each farewell in it, in the order of items, as
 * prunepocket_report and prunepocket_farewell do. The settings are passed by.
 * reduced_size is as for the calls that read.
 * The number that each call gets, 0 or 13 to 19, goes to the front of answers,
 * also in the order of items; numbers of the list behind them are as before.
 * Each 14 among them has raised the holder's tally. The datagram's own number is
 * 0 whatever its calls got.
 * As many numbers as the datagram has items are always enough, and so are 512.
 * Refusals: 1 to 7 of the datagram; then 10, with place 0, where answers_length
 * is below the number of reports and farewells. Table and list are then as
 * before, and no call was made.
 */
struct prunepocket_datagram_answered prunepocket_take_datagram(struct prunepocket_table table,
                                                               const uint8_t *datagram, size_t length,
                                                               uint32_t reduced_size,
                                                               struct prunepocket_origin origin,
                                                               struct prunepocket_reading reading,
                                                               uint64_t *answers, size_t answers_length);

/*
 * Answers how many members there are, fresh or not.
 * Refusals: none.
 */
uint32_t prunepocket_count_members(struct prunepocket_table table);

/*
 * Answers who stands at a place, from 0 to 63, with its tally. No member stands
 * at any other.
 * Refusals: none, held is 0 where no member stands there.
 */
struct prunepocket_place prunepocket_member_at(struct prunepocket_table table, size_t place);

/*
 * Chooses the member to follow at the reading, and hands the table back as it
 * was. Counted are the fresh members whose report has P 1; where there are none,
 * all fresh members, by arrival (arrival mode). The one that presents latest is
 * chosen; among equals, the lowest source number.
 * Refusals: 20 where no member is fresh.
 */
struct prunepocket_followed prunepocket_choose(struct prunepocket_table table,
                                               struct prunepocket_reading reading);

/*
 * Says whether a settings packet that another server sent suits the members at
 * the reading, and hands the table back as it was. The packet's delay is presented
 * minus received, modulo 2^64, and its lateness is a member's with that delay:
 * rate * (delay - NTP age) + RTP age * 2^32, a signed number. Suits is 1 exactly
 * if that is at least the lateness of every counted member, and exceeds the
 * greatest by no more than rate * slack * 2^16. Counted are the same members as in
 * prunepocket_choose. Slack is in units of 2^-16 s.
 * Where suits is 1, the packet asks no counted member to present a sample earlier
 * than its own report says. Where it is 0, and the call was not refused, either
 * the packet asks some counted member to present every sample earlier, or it is
 * later than the latest member by more than the slack. A target of
 * prunepocket_choose at the same reading, as the settings packet of any sender,
 * suits with slack 0; in arrival mode it has no presented time and gets 17.
 * Refusals, in this order: 11 where slack is above PRUNEPOCKET_SLACK_LIMIT; 20
 * where no member is fresh; 13 where group or media source are not the table's; 15
 * where its received time is after the reading, or more than 30 s before it; 16
 * where its RTP time is after the reading's, or more than 60 seconds of media
 * clock before it; 17 where its delay is over 30 s, presented is 0, or its delay
 * is 0. Suits is then 0.
 */
struct prunepocket_settings_answered prunepocket_check_settings(struct prunepocket_table table,
                                                                struct prunepocket_settings settings,
                                                                struct prunepocket_reading reading,
                                                                uint32_t slack);

/* ---- Recordings ---------------------------------------------------------
 *
 * A recording holds the datagrams that a server received, each with where it
 * came from and the sender's reading when it arrived. Its numbers are
 * big-endian, and its parts stand one behind the other:
 *
 *     head                4 bytes  how many entries there are, up to 256
 *                         4        the group
 *                         4        the media source
 *                         4        the clock rate
 *     table of contents   for each entry 32 bytes:
 *                         8        the NTP time N of the reading
 *                         4        the RTP time R of the reading
 *                         16       the address of the origin
 *                         2        the port of the origin
 *                         2        the length of the body
 *     bodies              the datagrams, in the same order, each of the length
 *                         that its entry says; the last ends where the
 *                         recording ends
 *
 * A recording without entries is its head alone. A body may have any length
 * that the recording has room for, 0 included. A datagram that the reader
 * refuses still has its entry and its row.
 */
#define PRUNEPOCKET_RECORDING_LIMIT 65536 /* the most bytes of a recording */
#define PRUNEPOCKET_ENTRY_LIMIT 256       /* the most entries of a recording */

#define PRUNEPOCKET_ENTRY_ITEMS 0    /* how many items the datagram has; 0 where the reader refuses it */
#define PRUNEPOCKET_ENTRY_ACCEPTED 1 /* how many of its reports and farewells were accepted */
#define PRUNEPOCKET_ENTRY_NUMBER 2   /* the reader's number, or the first refusal among reports and farewells, or 0 */
#define PRUNEPOCKET_ENTRY_ROW 3      /* columns of an entry's row */

/* What replaying a recording answers. */
struct prunepocket_recording_answered {
    uint64_t number;                  /* The refusal's number, or 0 that there is none. */
    uint64_t entries;                 /* How many entries the recording has; 0 after a refusal. */
    uint64_t choice;                  /* 0 where there is a target; else 20: none is fresh, no entries, or refused. */
    struct prunepocket_target target; /* The target, or zeros where there is none. */
};

/*
 * Runs a recording through a table that is opened for its group, media source
 * and rate: each datagram in turn, as prunepocket_take_datagram takes it under
 * its entry's origin and reading, with reduced size not agreed; then chooses at
 * the last entry's reading. It never sweeps. Without entries there is no target.
 * What each entry gave goes into rows, PRUNEPOCKET_ENTRY_ROW numbers an entry:
 * its items; how many of its reports and farewells were accepted; and the first
 * number other than 0 that one of them got, 13 to 19, or 0. Settings are items,
 * and are neither accepted nor refused. A datagram that the reader refuses has 0
 * items, 0 accepted and the reader's number, 1 to 7, and the table stays as it
 * was. Numbers of the array behind the last row are as before.
 * PRUNEPOCKET_ENTRY_ROW times PRUNEPOCKET_ENTRY_LIMIT numbers are always enough.
 * Refusals, in this order: 25 where the recording is longer than
 * PRUNEPOCKET_RECORDING_LIMIT, ends within its head, has more than
 * PRUNEPOCKET_ENTRY_LIMIT entries, ends within its table of contents, or does
 * not end where its last body does; 12 where its group is 0 or 4294967295, or
 * its rate is outside of 1 to 192,000; then 10 where rows_length is below
 * PRUNEPOCKET_ENTRY_ROW times the number of entries. The rows are then as
 * before.
 */
struct prunepocket_recording_answered prunepocket_replay(const uint8_t *recording, size_t length,
                                                         uint64_t *rows, size_t rows_length);

/* ---- The loudspeaker's side ---------------------------------------------
 *
 * A loudspeaker keeps a playout clock: how late it plays, how late it is to play,
 * and the most by which one audio tick may change the first. It lends the record
 * to prunepocket_set_target and prunepocket_tick, each of which writes one field
 * of it or none. Where one thread ticks and another sets, they must take turns: no
 * two calls may have the same record at a time.
 * Lateness is a signed number in units of 1/(rate * 2^32) s, rate being that of
 * prunepocket_open: at 90,000 a millisecond is 90 * 2^32. At a reading (N, R), a
 * loudspeaker of lateness L presents the sample with RTP time R + k at N plus
 * L + k * 2^32 such units. The calls that take a clock need no rate: they ask only
 * that its three numbers have the same unit.
 * Before the first call the loudspeaker writes the three fields: step; current,
 * which prunepocket_target_lateness answers of the loudspeaker's own received, RTP
 * and full presented time; and target, which is current until one is set. Then,
 * for each settings packet that it reads:
 *
 *     asked = prunepocket_target_lateness(group, media, rate, settings, reading);
 *     if (asked.number == PRUNEPOCKET_ACCEPTED)
 *         number = prunepocket_set_target(&clock, asked.lateness);
 *
 * and at each audio tick:
 *
 *     number = prunepocket_tick(&clock);
 */
#define PRUNEPOCKET_LATENESS_LIMIT INT64_C(144115188075855872) /* 2^57: the limit of each field */

struct prunepocket_playout_clock {
    int64_t current; /* How late the loudspeaker plays: from minus the limit to the limit. */
    int64_t target;  /* How late it is to play: from minus the limit to the limit. */
    int64_t step;    /* The most by which one tick changes current: from 1 to the limit. */
};

/* What the lateness of a settings packet's target answers. */
struct prunepocket_lateness_answered {
    uint64_t number;  /* The refusal's number, or 0 that there is none. */
    int64_t lateness; /* The lateness, which may be 0; after a refusal 0, which is then none. */
};

/*
 * Answers how late a settings packet asks a loudspeaker to play: the lateness of
 * the packet's three times at the loudspeaker's own reading,
 * rate * (delay - NTP age) + RTP age * 2^32. The reading is of the loudspeaker's
 * NTP clock and of the media source's RTP clock at one moment, as a server's is; R
 * is not the RTP time of the sample that is being played. NTP age is the reading's
 * N minus received, modulo 2^64; RTP age is its R minus the packet's RTP time,
 * modulo 2^32; the delay is presented minus received, modulo 2^64, or 0 where
 * presented is 0. A server in arrival mode writes presented 0: the lateness is then
 * that of arrival. The loudspeaker names its group, its media source and the rate;
 * the packet's sender is not looked at.
 * An accepted lateness lies between minus PRUNEPOCKET_LATENESS_LIMIT and that
 * limit, so prunepocket_set_target takes it wherever step and current are good.
 * Refusals, in this order: 12 where group is 0 or 4294967295, or rate is outside
 * of 1 to 192,000; 13 where the packet has another group or media source; 15 where
 * its received time is after the reading, or more than 30 s before it; 16 where
 * its RTP time is after the reading's, or more than 60 seconds of media clock
 * before it; 17 where presented is not 0, and its delay is over 30 s or is 0.
 * Lateness is then 0, and there is nothing to set. A packet that is not refused at
 * the server's reading may be at the loudspeaker's, with 15 or 16.
 */
struct prunepocket_lateness_answered prunepocket_target_lateness(uint32_t group, uint32_t media,
                                                                 uint32_t rate,
                                                                 struct prunepocket_settings settings,
                                                                 struct prunepocket_reading reading);

/*
 * Writes the clock's target, and nothing else, and answers 0. Where only
 * prunepocket_tick writes the record from then on, every tick is accepted, and
 * current is exactly the target after as many ticks as the difference between
 * target and current, divided by step and rounded up, not sooner, and ever after.
 * Refusals, in this order, judged on the record that the call would make: 26 where
 * step is below 1 or over the limit; 27 where current or the new target is below
 * minus the limit or over it. The record is then as before. The target that the
 * call replaces is not looked at.
 */
uint64_t prunepocket_set_target(struct prunepocket_playout_clock *clock, int64_t target);

/*
 * One audio tick: moves the clock's current towards its target, by step or, where
 * less is left, by what is left, and answers 0. It never passes the target, and on
 * the target it stays there. Nothing else is written.
 * Refusals, in this order, judged on the record as it is: 26 where step is below 1
 * or over the limit; 27 where current or target is below minus the limit or over
 * it. The record is then as before.
 */
uint64_t prunepocket_tick(struct prunepocket_playout_clock *clock);

#ifdef __cplusplus
}
#endif

#endif
