#include "call.h"

#include <errno.h>
#include <string.h>

bytes bytes_of(const char *text)
{
    bytes b = {(const uint8_t *)text, strlen(text)};

    return b;
}

static int all_ascii(const uint8_t *at, size_t len)
{
    size_t i;

    for (i = 0; i < len; i++) {
        if (at[i] > 127) {
            return 0;
        }
    }
    return 1;
}

/* Whether calls with a setting answer a number: 4 is for the spool, 10 for
 * current messages. */
static int number_fits(uint32_t number, uint64_t setting)
{
    switch (number) {
    case HENNELAKU_BAD_ALT_ADDRESS:
        return setting == HENNELAKU_SPOOL;
    case HENNELAKU_ALT_ADDRESS_RETIRED:
        return setting != HENNELAKU_SPOOL;
    default:
        return number <= HENNELAKU_HEADER_ROOM;
    }
}

/* Whether the input of an answer goes with its number. */
static int input_fits(hennelaku_answer a)
{
    switch (a.number) {
    case HENNELAKU_OK:
        return a.input == HENNELAKU_NO_INPUT;
    case HENNELAKU_TOO_LONG:
        return a.input == (a.place == 0 ? HENNELAKU_ENVELOPE
                                        : HENNELAKU_HEADER);
    case HENNELAKU_HELD:
        return a.input == HENNELAKU_ENVELOPE || a.input == HENNELAKU_HEADER;
    case HENNELAKU_HEADER_LINE:
    case HENNELAKU_HEADER_ROOM:
        return a.input == HENNELAKU_HEADER;
    default:
        return a.input == HENNELAKU_ENVELOPE;
    }
}

/* The line in which an offset lies, from 0. */
static size_t line_of(bytes input, size_t offset)
{
    size_t line = 0;
    size_t i;

    for (i = 1; i < offset; i++) {
        if (input.at[i - 1] == '\r' && input.at[i] == '\n') {
            line++;
        }
    }
    return line;
}

/* Whether the byte of an answer goes with its number and place. */
static int offset_fits(hennelaku_answer a, bytes envelope, bytes header)
{
    bytes input = a.input == HENNELAKU_ENVELOPE ? envelope : header;
    size_t line;

    if (a.number == HENNELAKU_OK || a.number == HENNELAKU_TOO_LONG
        || a.number == HENNELAKU_ENVELOPE_ROOM
        || a.number == HENNELAKU_HEADER_ROOM) {
        return a.offset == 0;
    }
    if (a.offset > input.len) {
        return 0;
    }
    line = line_of(input, a.offset);
    switch (a.number) {
    case HENNELAKU_NO_ALT_ADDRESS:
        return line == a.place && input.at[a.offset - 1] == '<';
    case HENNELAKU_BAD_ALT_ADDRESS:
    case HENNELAKU_ALT_ADDRESS_RETIRED:
        return line == a.place && input.at[a.offset - 1] == '=';
    case HENNELAKU_HELD:
        return a.offset < input.len && input.at[a.offset] > 127
            && (a.input == HENNELAKU_HEADER ? line >= a.place
                                            : line == a.place);
    default:
        return line == a.place;
    }
}

static const char *broken_answer(const outcome *o, uint64_t setting,
                                 bytes envelope, bytes header)
{
    hennelaku_answer a = o->answer;

    if (!number_fits(a.number, setting)) {
        return "a number that the setting does not have";
    }
    if (a.number != HENNELAKU_OK
        && (a.envelope_len != 0 || a.header_len != 0)) {
        return "a refusal with a length";
    }
    if (a.number == HENNELAKU_OK && a.place != 0) {
        return "a place with 0";
    }
    if (!input_fits(a)) {
        return "an input that does not go with the number";
    }
    if (!offset_fits(a, envelope, header)) {
        return "an offset that does not go with number and place";
    }
    if (a.envelope_len > o->envelope.len || a.header_len > o->header.len) {
        return "a length over the buffer's";
    }
    if (!area_untouched(&o->envelope, a.envelope_len)) {
        return "a byte of the envelope's buffer changed past the length";
    }
    if (!area_untouched(&o->header, a.header_len)) {
        return "a byte of the header's buffer changed past the length";
    }
    if (!all_ascii(o->envelope.at, a.envelope_len)
        || !all_ascii(o->header.at, a.header_len)) {
        return "output that is not ASCII";
    }
    if (a.envelope_len > envelope.len
        || a.header_len > HENNELAKU_HEADER_ROOM_FOR(header.len)) {
        return "output over the bounds";
    }
    return NULL;
}

outcome call(uint64_t setting, area_kind kind, bytes envelope, bytes header,
             size_t envelope_room, size_t header_room)
{
    area e = area_of(kind, envelope.at, envelope.len);
    area h = area_of(kind, header.at, header.len);
    outcome o;

    o.envelope = area_new(kind, envelope_room);
    o.header = area_new(kind, header_room);
    errno = 12345;
    o.answer = hennelaku_downgrade(setting, e.at, e.len, h.at, h.len,
                                   o.envelope.at, envelope_room,
                                   o.header.at, header_room);
    o.broken = broken_answer(&o, setting, envelope, header);
    if (errno != 12345) {
        o.broken = "errno changed";
    }
    if ((e.len > 0 && memcmp(e.at, envelope.at, e.len) != 0)
        || (h.len > 0 && memcmp(h.at, header.at, h.len) != 0)
        || !area_untouched(&e, e.len) || !area_untouched(&h, h.len)) {
        o.broken = "an input changed";
    }
    area_free(&e);
    area_free(&h);
    return o;
}

void outcome_free(outcome *o)
{
    area_free(&o->envelope);
    area_free(&o->header);
}
