#include "recording.h"

#include "decoder.h"

#include <string.h>

enum { BAD_LAYOUT = 25, NONE_TO_FOLLOW = 20 };

/* Where the fields of an entry stand in its 32 bytes: N, R, address and port, length. */
enum { AT_N = 0, AT_R = 8, AT_ORIGIN = 12, AT_LENGTH = 30 };

/* The most significant byte comes first. */
static uint64_t number_at(const uint8_t *bytes, size_t count)
{
    uint64_t value = 0;

    for (size_t i = 0; i < count; i++)
        value = value << 8 | bytes[i];
    return value;
}

static uint32_t head_word(const uint8_t *file, size_t index)
{
    return (uint32_t)number_at(file + 4 * index, 4);
}

static const uint8_t *entry_at(const uint8_t *file, size_t index)
{
    return file + HEAD_BYTES + ENTRY_BYTES * index;
}

static size_t body_length(const uint8_t *file, size_t index)
{
    return (size_t)number_at(entry_at(file, index) + AT_LENGTH, 2);
}

static enum layout layout_of(const uint8_t *file, size_t length)
{
    if (length > MOST_RECORDING)
        return TOO_LONG;
    if (length < HEAD_BYTES)
        return HEAD_CUT;

    size_t count = head_word(file, 0);
    if (count > MOST_ENTRIES)
        return TOO_MANY_ENTRIES;
    if (length < HEAD_BYTES + ENTRY_BYTES * count)
        return CONTENTS_CUT;

    size_t end = HEAD_BYTES + ENTRY_BYTES * count;
    for (size_t i = 0; i < count; i++)
        end += body_length(file, i);
    if (end > length)
        return BODIES_CUT;
    return end < length ? BODIES_END_EARLY : GOOD_LAYOUT;
}

/* A report or farewell is offered to the register; settings are not. */
static void offer(struct plain_register *rows, const struct item *item, struct entry_line *line)
{
    struct row row = {item->source,
                      line->origin,
                      {item->received, item->group, item->media, item->rtp, (uint32_t)item->presented,
                       item->payload_type, item->p}};
    unsigned number;

    if (item->kind == SETTINGS) {
        line->settings++;
        return;
    }
    if (item->kind == REPORT)
        number = register_report(rows, &row, line->now);
    else
        number = register_farewell(rows, item->source, &line->origin);

    if (number == 0) {
        line->accepted++;
        line->behind_refusal |= line->number != 0;
        return;
    }
    if (line->number == 0)
        line->number = number;
    line->last_refusal = number;
}

/* Reduced size is off. */
static void take_body(struct plain_register *rows, const uint8_t *body, size_t length, struct entry_line *line)
{
    static struct decoded decoded;

    decode(body, length, false, &decoded);
    if (decoded.refusal != 0) {
        line->number = decoded.refusal;
        return;
    }
    line->read = true;
    line->items = decoded.count;
    for (size_t i = 0; i < decoded.count; i++)
        offer(rows, &decoded.items[i], line);
}

static struct entry_line entry_line_of(const uint8_t *entry)
{
    struct entry_line line = {
        .now = {.n = number_at(entry + AT_N, 8), .r = (uint32_t)number_at(entry + AT_R, 4)},
    };

    memcpy(line.origin.bytes, entry + AT_ORIGIN, sizeof line.origin.bytes);
    return line;
}

static void take_entries(const uint8_t *file, struct replayed *replayed)
{
    const uint8_t *body = entry_at(file, replayed->count);

    for (size_t i = 0; i < replayed->count; i++) {
        struct entry_line *line = &replayed->entries[i];

        *line = entry_line_of(entry_at(file, i));
        take_body(&replayed->rows, body, body_length(file, i), line);
        body += body_length(file, i);
    }
}

void replay(const uint8_t *file, size_t length, struct replayed *replayed)
{
    replayed->count = 0;
    replayed->choice = (struct choice){.number = NONE_TO_FOLLOW};
    replayed->layout = layout_of(file, length);
    replayed->refusal = BAD_LAYOUT;
    if (replayed->layout != GOOD_LAYOUT)
        return;

    replayed->refusal = register_open(&replayed->rows, head_word(file, 1), head_word(file, 2), head_word(file, 3));
    if (replayed->refusal != 0)
        return;

    replayed->count = head_word(file, 0);
    take_entries(file, replayed);
    if (replayed->count > 0)
        replayed->choice = register_choose(&replayed->rows, replayed->entries[replayed->count - 1].now);
}
