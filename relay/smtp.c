#include "smtp.h"

#include <errno.h>
#include <stdio.h>
#include <string.h>

#include "connection.h"
#include "lines.h"
#include "reply.h"

/* How long each answer may take, in seconds: RFC 5321, section 4.5.3.2. */
enum {
    SECONDS_CONNECT = 30,
    SECONDS_COMMAND = 300,
    SECONDS_DATA_COMMAND = 120,
    SECONDS_BLOCK = 180,
    SECONDS_END_OF_DATA = 600
};

/* Data are sent in blocks of so many bytes. */
#define BLOCK 65536

/* So many columns of a reply and of a command are told. */
#define MAX_TOLD 400

typedef struct session {
    const smtp_options *options;
    const smtp_message *message;
    smtp_result *result;
    connection connection;
    reply reply;
    buffer line;  /* the last one read */
    part step;  /* what the next hop is to answer */
    int offers_8bitmime;
    int offers_size;
    int in_data;  /* a QUIT would be taken for text */
} session;

static int within(const session *s, int seconds)
{
    return seconds < s->options->max_seconds ? seconds
                                             : s->options->max_seconds;
}

/* Starts the words of a result: the next hop and the step. */
static void start_result(session *s, enum smtp_outcome outcome,
                         const char *enhanced)
{
    smtp_result *r = s->result;

    r->outcome = outcome;
    snprintf(r->enhanced, sizeof r->enhanced, "%s", enhanced);
    buffer_clear(&r->text);
    add_quoted(&r->text, part_of(s->options->hop->name), MAX_TOLD);
    buffer_add_text(&r->text, ", ");
    add_quoted(&r->text, s->step, MAX_TOLD);
    buffer_add_text(&r->text, ": ");
}

/* Tells trouble without a reply. Returns 0. */
static int doubt(session *s, const char *enhanced, const char *words)
{
    start_result(s, SMTP_LATER, enhanced);
    buffer_add_text(&s->result->text, words);
    return 0;
}

static int doubt_io(session *s, enum io_result io, int seconds)
{
    switch (io) {
    case IO_NO_NAME:
        return doubt(s, "4.4.3", "the host's address is not found");
    case IO_TIMEOUT:
        doubt(s, "4.4.2", "no answer within ");
        buffer_add_number(&s->result->text, (size_t)seconds);
        buffer_add_text(&s->result->text, " s");
        return 0;
    case IO_CLOSED:
        return doubt(s, "4.4.2", "the connection was closed");
    default:
        return doubt(s, "4.4.1", strerror(errno));
    }
}

/* Reads a reply. Returns its first digit, or 0 after trouble, which is told. */
static int get_reply(session *s, int seconds)
{
    enum io_result io = IO_DONE;

    switch (read_reply(&s->connection, &s->reply, &s->line, &io,
                       deadline_in(seconds))) {
    case REPLY_READ:
        return s->reply.code / 100;
    case REPLY_NOT_READ:
        return doubt_io(s, io, seconds);
    case REPLY_GARBAGE:
        doubt(s, "4.5.0", "the answer is not a reply of SMTP: \"");
        add_quoted(&s->result->text, buffer_part(&s->line), MAX_TOLD);
        buffer_add_text(&s->result->text, "\"");
        return 0;
    default:
        return doubt(s, "4.3.0", "no memory");
    }
}

/* What was said unasked may not be taken for the answer to what comes next: so
 * a 250 from before the data is never one for the data. */
static int is_in_turn(session *s)
{
    enum io_result io = IO_DONE;
    enum reply_result r;

    if (!connection_has_input(&s->connection)) {
        return 1;
    }
    r = read_reply(&s->connection, &s->reply, &s->line, &io, deadline_in(0));
    if (r == REPLY_NOT_READ && io != IO_TIMEOUT) {
        return doubt_io(s, io, 0);
    }
    doubt(s, "4.5.0", "the next hop spoke before it was asked: \"");
    if (r == REPLY_READ) {
        add_reply(&s->result->text, &s->reply);
    } else {
        add_quoted(&s->result->text, buffer_part(&s->line), MAX_TOLD);
    }
    buffer_add_text(&s->result->text, "\"");
    return 0;
}

/* Sends a command and reads its reply. Returns the reply's first digit, or 0
 * after trouble. */
static int ask(session *s, part command, int seconds)
{
    enum io_result io;

    s->step = part_between(command, 0, next_crlf(command, 0));
    seconds = within(s, seconds);
    if (!is_in_turn(s)) {
        return 0;
    }
    io = connection_write(&s->connection, command, deadline_in(seconds));
    return io != IO_DONE ? doubt_io(s, io, seconds) : get_reply(s, seconds);
}

/* Tells a reply that ends the session. */
static void end_by_reply(session *s, enum smtp_outcome outcome)
{
    char enhanced[12];

    read_enhanced(&s->reply, outcome == SMTP_SENT ? '2'
                             : outcome == SMTP_REFUSED ? '5' : '4', enhanced);
    start_result(s, outcome, enhanced);
    buffer_clear(&s->result->reply);
    add_reply(&s->result->reply, &s->reply);
    buffer_add(&s->result->text, buffer_part(&s->result->reply));
}

/* Goes on by a reply that starts with the digit `want`. A refusal for good is
 * one only where `on_5xx` says so. */
static int goes_on(session *s, int digit, int want,
                   enum smtp_outcome on_5xx)
{
    if (digit != want && digit != 0) {
        end_by_reply(s, digit == 5 ? on_5xx : SMTP_LATER);
    }
    return digit == want;
}

/* Says EHLO, or HELO to a server that does not know EHLO. */
static int say_hello(session *s, const char *verb)
{
    buffer command = {NULL, 0, 0, 0};
    int digit;

    buffer_add_text(&command, verb);
    buffer_add_text(&command, " ");
    buffer_add_text(&command, s->options->own_name);
    buffer_add_text(&command, "\r\n");
    digit = command.failed ? doubt(s, "4.3.0", "no memory")
                           : ask(s, buffer_part(&command), SECONDS_COMMAND);
    if (digit == 2 && verb[0] == 'E') {
        s->offers_8bitmime = offers(&s->reply, "8BITMIME");
        s->offers_size = offers(&s->reply, "SIZE");
    }
    s->step = part_of(verb);
    buffer_clear(&command);
    return digit;
}

/* Before MAIL nothing is said of the message, so no refusal is one of it. */
static int open_session(session *s)
{
    int seconds = within(s, SECONDS_CONNECT);
    enum io_result io;
    int digit;

    s->step = part_of("connecting");
    io = connection_open(&s->connection, s->options->hop->host,
                         s->options->hop->port, seconds);
    if (io != IO_DONE) {
        return doubt_io(s, io, seconds);
    }
    s->step = part_of("greeting");
    digit = get_reply(s, within(s, SECONDS_COMMAND));
    if (!goes_on(s, digit, 2, SMTP_LATER)) {
        return 0;
    }
    digit = say_hello(s, "EHLO");
    if (digit == 5) {
        digit = say_hello(s, "HELO");
    }
    return goes_on(s, digit, 2, SMTP_LATER);
}

/* A message that is not ASCII goes to a server that takes it, unchanged. */
static int takes_bytes(session *s)
{
    if (!s->message->is_8bit || s->offers_8bitmime) {
        return 1;
    }
    start_result(s, SMTP_REFUSED, "5.6.3");
    buffer_add_text(&s->result->text,
                    "8BITMIME is not offered, and the body is not ASCII");
    return 0;
}

static int send_mail_line(session *s, part line)
{
    buffer command = {NULL, 0, 0, 0};
    int digit;

    buffer_add(&command, line);
    if (s->offers_size) {
        buffer_add_text(&command, " SIZE=");
        buffer_add_number(&command, s->message->size);
    }
    if (s->message->is_8bit) {
        buffer_add_text(&command, " BODY=8BITMIME");
    }
    buffer_add_text(&command, "\r\n");
    digit = command.failed ? doubt(s, "4.3.0", "no memory")
                           : ask(s, buffer_part(&command), SECONDS_COMMAND);
    s->step = line;
    buffer_clear(&command);
    return goes_on(s, digit, 2, SMTP_REFUSED);
}

/* Every recipient is asked for, since one that may be taken later outweighs
 * one that is refused: then all of them are tried again. */
static int send_recipients(session *s, part lines)
{
    size_t count = count_lines(lines);
    int all_taken = 1;

    while (lines.len > 0) {
        size_t end = next_crlf(lines, 0) + 2;
        int digit = ask(s, part_between(lines, 0, end), SECONDS_COMMAND);

        if (digit == 0) {
            return 0;
        }
        if (digit != 2) {
            if (all_taken || (s->result->outcome == SMTP_REFUSED
                              && digit != 5)) {
                goes_on(s, digit, 2, SMTP_REFUSED);
            }
            all_taken = 0;
        }
        lines = part_between(lines, end, lines.len);
    }
    if (!all_taken && count > 1) {
        buffer_add_text(&s->result->text, "; nothing was sent to any of the ");
        buffer_add_number(&s->result->text, count);
        buffer_add_text(&s->result->text, " recipients");
    }
    return all_taken;
}

static int send_envelope(session *s)
{
    part envelope = s->message->envelope;
    size_t end = next_crlf(envelope, 0);

    return send_mail_line(s, part_between(envelope, 0, end))
        && send_recipients(s, part_between(envelope, end + 2, envelope.len));
}

static int send_data(session *s)
{
    part rest = s->message->data;
    int seconds = within(s, SECONDS_BLOCK);

    s->in_data = 1;
    s->step = part_of("data");
    while (rest.len > 0) {
        size_t len = rest.len < BLOCK ? rest.len : BLOCK;
        enum io_result io;

        if (!is_in_turn(s)) {
            return 0;
        }
        io = connection_write(&s->connection, part_between(rest, 0, len),
                              deadline_in(seconds));
        if (io != IO_DONE) {
            return doubt_io(s, io, seconds);
        }
        rest = part_between(rest, len, rest.len);
    }
    s->in_data = 0;
    s->step = part_of("end of data");
    return goes_on(s, get_reply(s, within(s, SECONDS_END_OF_DATA)), 2,
                   SMTP_REFUSED);
}

/* Whatever becomes of QUIT, what was answered before stands. */
static void close_session(session *s)
{
    if (s->connection.fd >= 0 && !s->in_data) {
        connection_write(&s->connection, part_of("QUIT\r\n"),
                         deadline_in(1));
    }
    connection_close(&s->connection);
    buffer_clear(&s->reply.text);
    buffer_clear(&s->line);
    memset(s, 0, sizeof *s);
}

void smtp_deliver(const smtp_options *options, const smtp_message *message,
                  smtp_result *result)
{
    session s;

    memset(&s, 0, sizeof s);
    s.options = options;
    s.message = message;
    s.result = result;
    s.connection.fd = -1;
    result->outcome = SMTP_LATER;
    if (open_session(&s) && takes_bytes(&s) && send_envelope(&s)
        && goes_on(&s, ask(&s, part_of("DATA\r\n"), SECONDS_DATA_COMMAND), 3,
                   SMTP_REFUSED)
        && send_data(&s)) {
        end_by_reply(&s, SMTP_SENT);
    }
    close_session(&s);
}

/* Adds lines, with the dots that start them doubled. */
static void add_lines(buffer *to, part lines)
{
    size_t start = 0;

    while (start < lines.len) {
        const uint8_t *lf = memchr(lines.bytes + start, '\n',
                                   lines.len - start);
        size_t end = lf == NULL ? lines.len : (size_t)(lf - lines.bytes) + 1;

        if (lines.bytes[start] == '.') {
            buffer_add_byte(to, '.');
        }
        buffer_add(to, part_between(lines, start, end));
        start = end;
    }
}

void add_data(buffer *to, part header, int has_empty_line, part body)
{
    add_lines(to, header);
    if (has_empty_line) {
        buffer_add_text(to, "\r\n");
    }
    add_lines(to, body);
    buffer_add_text(to, ".\r\n");
}
