#include "reply.h"

#include <stdio.h>

#include "lines.h"

/* So many bytes of a line are read, the rest passed over. */
#define MAX_REPLY_LINE 1024

/* What has more text is not a reply. */
#define MAX_REPLY 8192

/* So many columns are told. */
#define MAX_TOLD 400

/* Reads a line, without its CRLF or LF, as far as MAX_REPLY_LINE. */
static enum io_result read_line(connection *c, buffer *line, deadline by)
{
    enum io_result io;
    uint8_t byte;

    line->len = 0;
    while ((io = connection_read(c, &byte, by)) == IO_DONE
           && byte != '\n') {
        if (line->len < MAX_REPLY_LINE) {
            buffer_add_byte(line, byte);
        }
    }
    if (line->len > 0 && line->bytes[line->len - 1] == '\r') {
        line->len--;
    }
    return io;
}

/* The code of a reply line, or 0 where it is none. */
static int read_code(part line)
{
    size_t i;

    if (line.len < 3 || line.bytes[0] < '2' || line.bytes[0] > '5'
        || (line.len > 3 && line.bytes[3] != ' ' && line.bytes[3] != '-')) {
        return 0;
    }
    for (i = 1; i < 3; i++) {
        if (line.bytes[i] < '0' || line.bytes[i] > '9') {
            return 0;
        }
    }
    return (line.bytes[0] - '0') * 100 + (line.bytes[1] - '0') * 10
        + (line.bytes[2] - '0');
}

/* Adds a line to the reply. Returns 0 where it does not belong to one. */
static int take_line(reply *r, part line, int is_first)
{
    int code = read_code(line);

    if (code == 0 || (!is_first && code != r->code)
        || r->text.len + line.len > MAX_REPLY) {
        return 0;
    }
    r->code = code;
    if (line.len > 3) {
        buffer_add(&r->text, part_between(line, 4, line.len));
    }
    buffer_add_byte(&r->text, '\n');
    return 1;
}

enum reply_result read_reply(connection *c, reply *r, buffer *line,
                             enum io_result *io, deadline by)
{
    int is_first = 1;

    r->text.len = 0;
    do {
        *io = read_line(c, line, by);
        if (*io != IO_DONE) {
            return REPLY_NOT_READ;
        }
        if (line->failed || r->text.failed) {
            return REPLY_NO_MEMORY;
        }
        if (!take_line(r, buffer_part(line), is_first)) {
            return REPLY_GARBAGE;
        }
        is_first = 0;
    } while (line->len > 3 && line->bytes[3] == '-');
    return r->text.failed ? REPLY_NO_MEMORY : REPLY_READ;
}

void add_reply(buffer *to, const reply *r)
{
    part rest = buffer_part(&r->text);
    size_t i = 0;

    buffer_add_number(to, (size_t)r->code);
    while (rest.len > 0 && to->len <= MAX_TOLD) {
        while (rest.bytes[i] != '\n') {
            i++;
        }
        if (i > 0) {
            buffer_add_text(to, " ");
            add_quoted(to, part_between(rest, 0, i), MAX_TOLD);
        }
        rest = part_between(rest, i + 1, rest.len);
        i = 0;
    }
}

/* The length of the enhanced status code at the start of a text: a digit, and
 * twice a dot with 1 to 3 digits (RFC 3463). 0 where there is none. */
static size_t enhanced_len(part text)
{
    size_t at = 1;
    int i;

    for (i = 0; i < 2; i++) {
        size_t start = at + 1;

        if (at >= text.len || text.bytes[at] != '.') {
            return 0;
        }
        at = start;
        while (at < text.len && text.bytes[at] >= '0'
               && text.bytes[at] <= '9') {
            at++;
        }
        if (at == start || at > start + 3) {
            return 0;
        }
    }
    return at;
}

void read_enhanced(const reply *r, char class, char enhanced[12])
{
    part text = buffer_part(&r->text);
    size_t len = enhanced_len(text);

    snprintf(enhanced, 12, "?.0.0");
    if (len > 0 && text.bytes[0] == '0' + r->code / 100) {
        snprintf(enhanced, 12, "%.*s", (int)len, (const char *)text.bytes);
    }
    enhanced[0] = class;
}

int offers(const reply *r, const char *keyword)
{
    part rest = buffer_part(&r->text);
    int is_first = 1;  /* that line has the server's name */

    while (rest.len > 0) {
        size_t len = 0;
        size_t end = 0;

        while (rest.bytes[end] != '\n') {
            end++;
        }
        while (len < end && rest.bytes[len] != ' ') {
            len++;
        }
        if (!is_first && part_equal_in_any_case(part_between(rest, 0, len),
                                                part_of(keyword))) {
            return 1;
        }
        is_first = 0;
        rest = part_between(rest, end + 1, rest.len);
    }
    return 0;
}
