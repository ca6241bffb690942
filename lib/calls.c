/*
 * The library's C side: what hennelaku.h declares, over the symbols of the
 * proved archive. Freestanding: it needs no C library.
 */
#include "hennelaku.h"

/*
 * The proved calls. Each pointer has to be that of an array of the length
 * beside it, and not null, also where that length is 0.
 */
hennelaku_answer hennelaku_downgrade_slices(
    uint64_t setting,
    const uint8_t *envelope, size_t envelope_len,
    const uint8_t *header, size_t header_len,
    uint8_t *envelope_buffer, size_t envelope_room,
    uint8_t *header_buffer, size_t header_room);

void hennelaku_downgrade_batch_slices(
    uint64_t setting,
    const uint8_t *input, size_t input_len,
    uint32_t *records, size_t records_len,
    uint8_t *envelope_buffer, size_t envelope_room,
    uint8_t *header_buffer, size_t header_room);

hennelaku_mailbox_answer hennelaku_downgrade_mailbox_slices(
    const uint8_t *header, size_t header_len,
    uint8_t *buffer, size_t room);

hennelaku_read_answer hennelaku_read_downgraded_slices(
    const uint8_t *header, size_t header_len, size_t place,
    uint8_t *buffer, size_t room);

hennelaku_answer hennelaku_downgrade(
    uint64_t setting,
    const uint8_t *envelope, size_t envelope_len,
    const uint8_t *header, size_t header_len,
    uint8_t *envelope_buffer, size_t envelope_room,
    uint8_t *header_buffer, size_t header_room)
{
    uint8_t none[4] = {0, 0, 0, 0};

    return hennelaku_downgrade_slices(
        setting,
        envelope_len == 0 ? &none[0] : envelope, envelope_len,
        header_len == 0 ? &none[1] : header, header_len,
        envelope_room == 0 ? &none[2] : envelope_buffer, envelope_room,
        header_room == 0 ? &none[3] : header_buffer, header_room);
}

void hennelaku_downgrade_batch(
    uint64_t setting,
    const uint8_t *input, size_t input_len,
    uint32_t *records, size_t records_len,
    uint8_t *envelope_buffer, size_t envelope_room,
    uint8_t *header_buffer, size_t header_room)
{
    uint8_t none[3] = {0, 0, 0};
    uint32_t no_number = 0;

    hennelaku_downgrade_batch_slices(
        setting,
        input_len == 0 ? &none[0] : input, input_len,
        records_len == 0 ? &no_number : records, records_len,
        envelope_room == 0 ? &none[1] : envelope_buffer, envelope_room,
        header_room == 0 ? &none[2] : header_buffer, header_room);
}

hennelaku_mailbox_answer hennelaku_downgrade_mailbox(
    const uint8_t *header, size_t header_len,
    uint8_t *buffer, size_t room)
{
    uint8_t none[2] = {0, 0};

    return hennelaku_downgrade_mailbox_slices(
        header_len == 0 ? &none[0] : header, header_len,
        room == 0 ? &none[1] : buffer, room);
}

hennelaku_read_answer hennelaku_read_downgraded(
    const uint8_t *header, size_t header_len, size_t place,
    uint8_t *buffer, size_t room)
{
    uint8_t none[2] = {0, 0};

    return hennelaku_read_downgraded_slices(
        header_len == 0 ? &none[0] : header, header_len, place,
        room == 0 ? &none[1] : buffer, room);
}

/* What the library has to say of a number. */
typedef struct meaning {
    const char *text;
    hennelaku_reply reply;
} meaning;

/* Codes are those of RFC 5321, section 4.2.3, enhanced codes those of RFC 3463
 * and of the registry of RFC 5248. */
static const meaning meanings[] = {
    [HENNELAKU_OK] = {
        "downgraded",
        {250, "2.0.0", "Message can go to an ASCII-only server"}},
    [HENNELAKU_TOO_LONG] = {
        "the envelope or the header is too long",
        {552, "5.3.4", "Envelope or header is too long to be downgraded"}},
    [HENNELAKU_ENVELOPE_LINE] = {
        "an envelope line is malformed or missing",
        {501, "5.5.4", "MAIL or RCPT line is malformed or missing"}},
    [HENNELAKU_NO_ALT_ADDRESS] = {
        "a path is not ASCII and has no ALT-ADDRESS",
        {553, "5.6.7", "Address is not ASCII and has no ALT-ADDRESS"}},
    [HENNELAKU_BAD_ALT_ADDRESS] = {
        "an ALT-ADDRESS stands beside an ASCII path, or does not spell an "
        "ASCII address",
        {501, "5.5.4", "ALT-ADDRESS stands beside an ASCII address, or does "
                       "not spell an ASCII address"}},
    [HENNELAKU_HEADER_LINE] = {
        "a header line is malformed",
        {554, "5.6.0", "Header line is malformed"}},
    [HENNELAKU_HELD] = {
        "an ORCPT or a held header field holds non-ASCII",
        {554, "5.6.9", "ORCPT or a header field that cannot be downgraded "
                       "holds non-ASCII"}},
    [HENNELAKU_ENVELOPE_ROOM] = {
        "the outgoing envelope is longer than its buffer",
        {451, "4.3.1", "No room for the downgraded envelope"}},
    [HENNELAKU_HEADER_ROOM] = {
        "the outgoing header is longer than its buffer",
        {451, "4.3.1", "No room for the downgraded header"}},
    [HENNELAKU_RANGE] = {
        "a record's envelope or header goes past the end of the input",
        {451, "4.3.0", "Message is not whole in the batch"}},
    [HENNELAKU_ALT_ADDRESS_RETIRED] = {
        "an ALT-ADDRESS stands in a current message",
        {555, "5.5.4", "ALT-ADDRESS is not taken in a current message"}}
};

static const meaning no_answer = {
    "not an answer of this library",
    {451, "4.3.0", "Message cannot be downgraded at this time"}
};

static const meaning *meaning_of(uint32_t number)
{
    return number < sizeof meanings / sizeof meanings[0] ? &meanings[number]
                                                         : &no_answer;
}

const char *hennelaku_number_text(uint32_t number)
{
    return meaning_of(number)->text;
}

hennelaku_reply hennelaku_smtp_reply(uint32_t number)
{
    return meaning_of(number)->reply;
}
