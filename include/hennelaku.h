/*
 * hennelaku.h - downgrade a mail envelope and header to ASCII by RFC 5504, a
 * stored message's header by RFC 6857, and read what was put into Downgraded-
 * fields
 *
 * C99 or later, and C++. Link with -lhennelaku (x86-64 Linux): libhennelaku.a
 * or libhennelaku.so.0, which need nothing but memcpy and memset of the C
 * library.
 */
#ifndef HENNELAKU_H
#define HENNELAKU_H

#include <stddef.h>
#include <stdint.h>

#ifdef __cplusplus
extern "C" {
#endif

/*
 * The version of this header. HENNELAKU_VERSION is 10000 times the major number
 * plus 100 times the minor number plus the patch number: a later version has a
 * greater one.
 */
#define HENNELAKU_VERSION_MAJOR 0
#define HENNELAKU_VERSION_MINOR 4
#define HENNELAKU_VERSION_PATCH 0
#define HENNELAKU_VERSION \
    (10000 * HENNELAKU_VERSION_MAJOR + 100 * HENNELAKU_VERSION_MINOR \
     + HENNELAKU_VERSION_PATCH)
#define HENNELAKU_VERSION_TEXT "0.4.0"

/* Limits of one call. */
#define HENNELAKU_MAX_ENVELOPE 16384   /* bytes of an envelope */
#define HENNELAKU_MAX_HEADER 32768     /* bytes of a header */
#define HENNELAKU_MAX_RECIPIENTS 100   /* RCPT lines of an envelope */
#define HENNELAKU_MAX_LINE 998         /* bytes of a line before its CRLF */

/*
 * Buffers that always suffice.
 *
 * The outgoing header has at most 30 bytes for each byte of the header, 50 more
 * for each byte of a Content-Type or Content-Disposition field that is not
 * ASCII, and 20,600 for the two fields that may be put before it; the outgoing
 * envelope is never longer than the envelope. Both are proved. So with
 *
 *     envelope_room >= envelope_len   (or HENNELAKU_ENVELOPE_ROOM_MAX), and
 *     header_room >= HENNELAKU_HEADER_ROOM_FOR(header_len)
 *                                     (or HENNELAKU_HEADER_ROOM_MAX)
 *
 * the answers 7 and 8 are never given. A call with such a header buffer is also
 * the fastest: the outgoing header is then not measured before it is written.
 */
#define HENNELAKU_ENVELOPE_ROOM_MAX HENNELAKU_MAX_ENVELOPE
#define HENNELAKU_HEADER_ROOM_FOR(header_len) (80 * (header_len) + 20600)
#define HENNELAKU_HEADER_ROOM_MAX 2642040

/*
 * The most stack that one call uses, in bytes. Frames have a fixed size. One
 * function calls itself, for comments inside comments: at most 256 times,
 * however deep they are. Measured, not proved: about 121,000 bytes
 * (`make -C relay stack`).
 */
#define HENNELAKU_STACK 131072

/*
 * The numbers of the answers. Where several conditions hold, the first in this
 * order is answered: 1, for the envelope, then for the header; 2, 3, 4 and 10,
 * by the first envelope line at fault, and within that line by the lowest
 * number; 5, by the first header line at fault; 6, for the envelope, then for
 * the header; 7; 8.
 *
 * Lines count from 0, each from the start of the envelope or of the header; a
 * continuation line of a header counts as a line.
 *
 * Offsets count bytes from 0, from the start of the envelope or of the header,
 * not of the line. For 2 and 5 the offset is that of the first byte at which
 * the line, its CRLF with it, stops being a beginning of any well-formed line
 * at its number; where a last line without CRLF has no such byte, it is the end
 * of the input. What can no longer be completed within HENNELAKU_MAX_LINE bytes
 * is not such a beginning. For 0, 1, 7 and 8 the offset is 0.
 */
enum hennelaku_number {
    /* Downgraded. place is 0; both lengths say what was written. */
    HENNELAKU_OK = 0,
    /* An input is over its limit. place says which: 0 the envelope, 1 the
     * header. */
    HENNELAKU_TOO_LONG = 1,
    /* An envelope line is malformed, or missing (an envelope has one MAIL line
     * and 1 to 100 RCPT lines). place is the line of the envelope; for a
     * missing line it is the number that the line would have. offset: see
     * above; for a missing line it is the envelope's length. */
    HENNELAKU_ENVELOPE_LINE = 2,
    /* A path is not ASCII, and its line has no ALT-ADDRESS. place is the line
     * of the envelope, offset the byte after its '<'. */
    HENNELAKU_NO_ALT_ADDRESS = 3,
    /* An ALT-ADDRESS of a spool message stands beside a path that is ASCII, or
     * is not xtext of an ASCII address. place is the line of the envelope,
     * offset the first byte of the ALT-ADDRESS value. */
    HENNELAKU_BAD_ALT_ADDRESS = 4,
    /* A header line is malformed. place is the line of the header. offset: see
     * above. */
    HENNELAKU_HEADER_LINE = 5,
    /* An ORCPT value holds non-ASCII: input is HENNELAKU_ENVELOPE, place the
     * line of the envelope, offset the first such byte of an ORCPT value there.
     * Or no ORCPT does, and a held header field (see hennelaku_downgrade) does:
     * input is HENNELAKU_HEADER, place the first line of that field, offset its
     * first such byte, which may stand in a later line of the field. */
    HENNELAKU_HELD = 6,
    /* The outgoing envelope is longer than its buffer. place is the length
     * that it needs, in bytes. */
    HENNELAKU_ENVELOPE_ROOM = 7,
    /* The outgoing header is longer than its buffer. place is the length that
     * it needs, in bytes. */
    HENNELAKU_HEADER_ROOM = 8,
    /* Of a record of a batch: the start of its envelope or of its header plus
     * the length beside it is past the end of the input. Looked for before all
     * others; place and offset are 0. */
    HENNELAKU_RANGE = 9,
    /* An ALT-ADDRESS stands in a current message, whatever its path and its
     * value. place is the line of the envelope, offset the first byte of the
     * ALT-ADDRESS value. */
    HENNELAKU_ALT_ADDRESS_RETIRED = 10
};

/*
 * The setting of a call says where a message is from. RFC 6531 has no
 * ALT-ADDRESS: messages in which alternatives are still named are from the spool,
 * all others current. Every setting but 0 means a current message.
 *
 * In a current message an ALT-ADDRESS is refused by 10, so that a path that is
 * not ASCII is always refused; and a header field that has an address with an
 * inner alternative, `<address <ASCII address>>`, is put as a whole into a
 * Downgraded- field.
 */
enum hennelaku_setting {
    HENNELAKU_SPOOL = 0,
    HENNELAKU_CURRENT = 1
};

/* The input that number, place and offset of an answer are about; for 7 and 8
 * the one whose output has no room. */
enum hennelaku_input {
    HENNELAKU_NO_INPUT = 0,  /* with the number 0 */
    HENNELAKU_ENVELOPE = 1,
    HENNELAKU_HEADER = 2
};

/* What a call answers. */
typedef struct hennelaku_answer {
    uint32_t number;      /* one of enum hennelaku_number */
    uint32_t input;       /* one of enum hennelaku_input */
    size_t place;         /* a line, a number of bytes or an input: see there */
    size_t offset;        /* the byte that tells why: see there */
    size_t envelope_len;  /* bytes written to the envelope's buffer, or 0 */
    size_t header_len;    /* bytes written to the header's buffer, or 0 */
} hennelaku_answer;

/* The library is built for size_t of 8 bytes; another ABI fails here. */
typedef char hennelaku_size_t_has_8_bytes[sizeof(size_t) == 8 ? 1 : -1];

/*
 * The HENNELAKU_VERSION of the library that is linked. Where it differs from
 * that of the header, the two are of different releases, and an answer may have
 * other members: do not call.
 */
uint32_t hennelaku_version(void);

/*
 * Downgrades one message.
 *
 * setting: HENNELAKU_SPOOL or HENNELAKU_CURRENT. envelope: one line `MAIL FROM:<path> ..`, then 1 to 100 lines
 * `RCPT TO:<path> ..`, each ended by CRLF. header: the header section, each
 * line ended by CRLF, without the empty line after it; it may be empty.
 * envelope_room and header_room are the sizes of the buffers.
 *
 * After number 0 the first envelope_len bytes of envelope_buffer and the first
 * header_len bytes of header_buffer (lengths as answered) are the outgoing
 * envelope and header: all ASCII, in the same form as the inputs. No byte past
 * these lengths is touched.
 *
 * What becomes of a header field goes by its name, in any letter case, where its
 * value is not ASCII; one whose value is ASCII is copied byte for byte.
 *
 *     address     From Sender Reply-To To Cc Bcc, the same six after Resent-,
 *                 Return-Path Disposition-Notification-To: addresses replaced
 *                 (in a spool message) or removed, a group as a whole where one in it would be
 *                 removed; phrases and comments in encoded words; where an
 *                 address was replaced or removed, the original text in a
 *                 Downgraded- field after it
 *     plain text  Subject Comments Content-Description: text in encoded words
 *     comments    Date Resent-Date Message-ID Resent-Message-ID In-Reply-To
 *                 References MIME-Version Content-ID
 *                 Content-Transfer-Encoding: runs of comments in parentheses
 *                 that are not ASCII in encoded words, all else byte for byte;
 *                 refused by 6 where non-ASCII stands outside comments
 *     Received    for and an address in angle brackets that is not ASCII
 *                 removed, with the blanks and folds before it; comments as
 *                 above, all else byte for byte; refused by 6 where other
 *                 non-ASCII stands outside comments, where no address in angle
 *                 brackets follows a for, or where a line would have more than
 *                 998 bytes
 *     parameters  Content-Type Content-Disposition: values of parameters that
 *                 are not ASCII by RFC 2231, each on lines of its own, in as
 *                 few parts as go; comments as above, all else byte for byte;
 *                 refused by 6 where a parameter's name has a `*`, where two
 *                 share a name, where a name leaves no room for a character, or
 *                 where other non-ASCII stands outside comments
 *     held        Original-Recipient Final-Recipient Keywords: refused by 6
 *     any other   Downgraded- before the name, text in encoded words
 *
 * In plain text and Downgraded- fields the first encoded word stands after the
 * colon and one space, as far as 76 characters allow; where no character fits
 * there, the colon ends its line. Every other word has a line of its own. Each
 * word is in Q or in B of RFC 2047, whichever holds more characters of what is
 * left of the text, in Q where they hold as many. So no row of words of both
 * kinds has fewer words; in those fields, none so set has fewer lines.
 *
 * A parameter value that is not ASCII, as the name of a file, goes out in UTF-8
 * without its quoting and folds: name*=UTF-8''value on a line of its own, or
 * where that line would have more than 76 characters, a ; counted with it, in
 * numbered parts, name*0*=UTF-8''value, name*1*=value and so on, a line each, of
 * whole characters and each as full as its line allows. White space and folds
 * about such a value go.
 *
 * After any other number no byte of either buffer has changed, and both
 * lengths are 0.
 *
 * Any bytes may be passed: there is no input that a caller has to keep away.
 * What a caller owes: each pointer is that of as many bytes as the length
 * beside it says; no two of the four overlap; no other thread writes to the
 * inputs or uses the buffers during the call. A pointer whose length is 0 is
 * not used and may be null: each of the four.
 *
 * Nothing is kept between calls. The call allocates nothing, reads no locale,
 * does not touch errno, and may be made from several threads at once on
 * distinct buffers. It uses at most HENNELAKU_STACK bytes of stack.
 */
hennelaku_answer hennelaku_downgrade(
    uint64_t setting,
    const uint8_t *envelope, size_t envelope_len,
    const uint8_t *header, size_t header_len,
    uint8_t *envelope_buffer, size_t envelope_room,
    uint8_t *header_buffer, size_t header_room);

/*
 * The places of a record of a batch: nine numbers, of which the call reads the
 * first four and writes the last five.
 */
enum hennelaku_record {
    HENNELAKU_RECORD_ENVELOPE_START = 0,    /* in the input, from 0 */
    HENNELAKU_RECORD_ENVELOPE_LEN = 1,
    HENNELAKU_RECORD_HEADER_START = 2,
    HENNELAKU_RECORD_HEADER_LEN = 3,
    HENNELAKU_RECORD_NUMBER = 4,            /* one of enum hennelaku_number */
    HENNELAKU_RECORD_PLACE = 5,
    HENNELAKU_RECORD_OFFSET = 6,
    HENNELAKU_RECORD_OUT_ENVELOPE_LEN = 7,  /* bytes written, or 0 */
    HENNELAKU_RECORD_OUT_HEADER_LEN = 8,
    HENNELAKU_RECORD_SIZE = 9               /* numbers of a record */
};

/*
 * Downgrades many messages, which all have one setting.
 *
 * input has their envelopes and headers, in any order; they may overlap, and
 * one may serve several messages. records has records_len numbers, nine to a
 * record; a last part of fewer than nine is neither read nor written. The call
 * answers nothing: all is in the records.
 *
 * The outgoing envelopes stand one after another in envelope_buffer, in the
 * order of the records, and the outgoing headers in header_buffer. What is
 * written for a record, in its five numbers and in the buffers, is what
 * hennelaku_downgrade answers and writes for its envelope and its header where
 * it is given the room that the records before it have left. A refused record
 * takes no room in either buffer, and those after it go on: after 7 or 8 a
 * shorter one may still fit. Place and offset count from the start of the
 * record's own envelope or header. For a 6 the record does not say which of the
 * two it is about; a call of hennelaku_downgrade on that record does.
 *
 * Past the last output no byte of either buffer is touched, and input and the
 * four numbers that are read stay as they are. With envelope_room and
 * header_room that are the sums of the lengths of the envelopes and of
 * HENNELAKU_HEADER_ROOM_FOR of those of the headers, 7 and 8 are never
 * answered.
 *
 * What a caller owes is what hennelaku_downgrade asks: pointers to as many
 * bytes, or numbers, as the length beside them says, and no two of the four
 * overlap. A pointer whose length is 0 may be null.
 */
void hennelaku_downgrade_batch(
    uint64_t setting,
    const uint8_t *input, size_t input_len,
    uint32_t *records, size_t records_len,
    uint8_t *envelope_buffer, size_t envelope_room,
    uint8_t *header_buffer, size_t header_room);

/* What hennelaku_downgrade_mailbox answers. */
typedef struct hennelaku_mailbox_answer {
    uint32_t number;  /* 0, 1, 5, 6 or 8 of enum hennelaku_number */
    size_t place;     /* 0: 0; 1: 1; 5, 6: the line; 8: the length needed */
    size_t offset;    /* 5, 6: the byte, from the header's start; else 0 */
    size_t length;    /* bytes written, 0 after a refusal */
} hennelaku_mailbox_answer;

/*
 * Downgrades the header of a stored message, for a program that fetches mail and
 * knows only ASCII (RFC 6857). There is no envelope and no setting.
 *
 * header: as for hennelaku_downgrade. After number 0 the first length bytes of
 * buffer are the outgoing header, all ASCII; no byte past them is touched. After
 * any other number no byte has changed. The refusals are those of
 * hennelaku_downgrade that are about a header, in their order: 1, with place 1;
 * the first 5; the first 6; 8. Their places and offsets are the same.
 *
 * A field whose value is ASCII is copied byte for byte. Where it is not, what
 * becomes of it is what hennelaku_downgrade makes of it in a current message,
 * but for this:
 *
 *     address     a mailbox with an address that is not ASCII becomes its
 *                 phrase, the address in encoded words and `:;`; a group with
 *                 such a member its phrase, all between its colon and its
 *                 semicolon in encoded words and `:;`. No Downgraded- field
 *                 follows; only a text that is not a list of addresses, or that
 *                 has an inner alternative, is put into one
 *     Message-ID Resent-Message-ID In-Reply-To References: where non-ASCII
 *                 stands outside comments, Downgraded- before the name, all of
 *                 the text in encoded words
 *     Content-Language Accept-Language Auto-Submitted: as Date
 *     any other   the name as it is, text in encoded words
 *
 * With room >= HENNELAKU_HEADER_ROOM_FOR(header_len), or
 * HENNELAKU_HEADER_ROOM_MAX, 8 is never answered.
 *
 * What a caller owes, and what holds of the call besides, is the same as for
 * hennelaku_downgrade: header and buffer do not overlap, and a pointer whose
 * length is 0 may be null.
 */
hennelaku_mailbox_answer hennelaku_downgrade_mailbox(
    const uint8_t *header, size_t header_len,
    uint8_t *buffer, size_t room);

/*
 * The numbers of the reader's answers. Of the refusals, 1 to 5, the lowest that
 * holds of the whole field is answered.
 */
enum hennelaku_read_number {
    /* The text stands in the buffer. */
    HENNELAKU_READ_TEXT = 0,
    /* The field is malformed: a line without CRLF, a name over 87 bytes, ... */
    HENNELAKU_READ_FIELD = 1,
    /* An encoded word is malformed, or in another encoding than Q or B. */
    HENNELAKU_READ_WORD = 2,
    /* An encoded word has another charset than UTF-8. */
    HENNELAKU_READ_CHARSET = 3,
    /* The bytes of an encoded word are not UTF-8. */
    HENNELAKU_READ_UTF8 = 4,
    /* The text is longer than the buffer: length says what it needs. */
    HENNELAKU_READ_ROOM = 5,
    /* No field begins at place or later. */
    HENNELAKU_READ_NONE = 6
};

/* What hennelaku_read_downgraded answers. */
typedef struct hennelaku_read_answer {
    uint32_t number;  /* one of enum hennelaku_read_number */
    size_t start;     /* where the field begins; header_len for 6 */
    size_t next;      /* the place after the field; header_len for 6 */
    size_t length;    /* 0: bytes of the text; 5: bytes it needs; else 0 */
} hennelaku_read_answer;

/*
 * Reads the first field of a header that begins at place or later and whose
 * line begins with `Downgraded-`, in any letter case. Calls from place 0 on,
 * each with the place `next` of the one before, find every such field once, in
 * order; a refused one too.
 *
 * header: any bytes, of any length. Only CRLF ends a line. A field goes on in
 * the lines begun by a space or a TAB.
 *
 * The text is the field's value without the CRLF of its folds and without
 * spaces and TABs at its front. In it each run of bytes between spaces and TABs
 * that begins with `=?`, ends with `?=` and has at least four bytes is an
 * encoded word of RFC 2047, and is decoded: charset UTF-8, encoding Q or B, in
 * any letter case. White space between two words is dropped; all else stays. On
 * a header that hennelaku_downgrade or hennelaku_downgrade_mailbox wrote, each
 * Downgraded- field that it added reads as exactly the text that was encoded.
 *
 * After number 0 the first length bytes of buffer are the text, in UTF-8 where
 * the field is; control bytes that were encoded are in it as they are, so that
 * it is not to be shown on a terminal without quoting. No byte past the length
 * is touched; after any other number no byte has changed. No text is longer
 * than its field: a room of header_len bytes always suffices.
 *
 * What a caller owes, and what holds of the call besides, is the same as for
 * hennelaku_downgrade: header and buffer do not overlap, and a pointer whose
 * length is 0 may be null.
 */
hennelaku_read_answer hennelaku_read_downgraded(
    const uint8_t *header, size_t header_len, size_t place,
    uint8_t *buffer, size_t room);

/* The meaning of a number in English, for a log. Never null. */
const char *hennelaku_number_text(uint32_t number);

/* What a server says to its client about a message with some answer. */
typedef struct hennelaku_reply {
    uint32_t code;         /* RFC 5321: 250, 451, .. */
    const char *enhanced;  /* RFC 3463: "2.0.0", "4.3.1", .. */
    const char *text;      /* printable ASCII of at most 100 bytes */
} hennelaku_reply;

/*
 * The reply for a number; its members are never null.
 *
 *     0  250 2.0.0
 *     1  552 5.3.4  message too big
 *     2  501 5.5.4  invalid command arguments
 *     3  553 5.6.7  non-ASCII address not permitted
 *     4  501 5.5.4
 *     5  554 5.6.0  other media error
 *     6  554 5.6.9  header in UTF-8 cannot be transferred
 *     7  451 4.3.1  no room; the message may be sent again
 *     8  451 4.3.1
 *     9  451 4.3.0  other failure of the mail system
 *    10  555 5.5.4  parameter of MAIL or RCPT not implemented
 *     any other number  451 4.3.0
 */
hennelaku_reply hennelaku_smtp_reply(uint32_t number);

#ifdef __cplusplus
}
#endif

#endif /* HENNELAKU_H */
