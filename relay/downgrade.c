#include "downgrade.h"

int library_fits(void)
{
    return hennelaku_version() == HENNELAKU_VERSION;
}

/* The buffers are filled from their front, as far as their room goes. */
static hennelaku_answer call(uint64_t setting, part envelope, part header,
                             buffer *to_envelope, buffer *to_header)
{
    hennelaku_answer answer = hennelaku_downgrade(
        setting, envelope.bytes, envelope.len, header.bytes, header.len,
        to_envelope->bytes, to_envelope->room,
        to_header->bytes, to_header->room);

    to_envelope->len = answer.envelope_len;
    to_header->len = answer.header_len;
    return answer;
}

int downgrade(uint64_t setting, part envelope, part header, downgraded *d)
{
    downgraded_clear(d);
    if (!buffer_reserve(&d->envelope, HENNELAKU_ENVELOPE_ROOM_MAX)
        || !buffer_reserve(&d->header, HENNELAKU_HEADER_ROOM_MAX)) {
        return 0;
    }
    d->answer = call(setting, envelope, header, &d->envelope, &d->header);
    return 1;
}

void downgraded_clear(downgraded *d)
{
    static const hennelaku_answer none;

    buffer_clear(&d->envelope);
    buffer_clear(&d->header);
    d->answer = none;
}

/* The header is malformed, which the library says after it has found the envelope
 * good, and before it measures what goes out. */
int is_envelope(part envelope)
{
    buffer no_room = {NULL, 0, 0, 0};
    buffer none_either = {NULL, 0, 0, 0};

    return call(HENNELAKU_SPOOL, envelope, part_of("?"), &no_room,
                &none_either).number == HENNELAKU_HEADER_LINE;
}
