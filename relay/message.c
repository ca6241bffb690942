#include "message.h"

#include <string.h>

#include "lines.h"

enum read_result read_all(FILE *in, size_t limit, buffer *into)
{
    size_t got;

    do {
        if (!buffer_reserve(into, 65536)) {
            return READ_NO_MEMORY;
        }
        got = fread(into->bytes + into->len, 1, into->room - into->len, in);
        if (ferror(in)) {
            return READ_FAILED;
        }
        into->len += got;
        if (into->len > limit) {
            return READ_TOO_LONG;
        }
    } while (got > 0);
    return READ_DONE;
}

size_t add_with_crlf(buffer *to, part from)
{
    size_t lone = 0;
    size_t start = 0;
    size_t i;

    for (i = 0; i < from.len; i++) {
        if (from.bytes[i] == '\n' && (i == 0 || from.bytes[i - 1] != '\r')) {
            buffer_add(to, part_between(from, start, i));
            buffer_add_byte(to, '\r');
            start = i;
            lone++;
        }
    }
    buffer_add(to, part_between(from, start, from.len));
    return lone;
}

size_t find_lone_cr(part p)
{
    size_t i;

    for (i = 0; i < p.len; i++) {
        if (p.bytes[i] == '\r'
            && (i + 1 == p.len || p.bytes[i + 1] != '\n')) {
            return i;
        }
    }
    return p.len;
}

int cut_at_empty_line(part *rest, part *front)
{
    size_t at = 0;

    for (;;) {
        size_t end = next_crlf(*rest, at);

        if (end == rest->len) {
            return 0;
        }
        if (end == at) {
            break;
        }
        at = end + 2;
    }
    *front = part_between(*rest, 0, at);
    *rest = part_between(*rest, at + 2, rest->len);
    return 1;
}

/* The place after the line at `at`. */
static size_t after_line(part p, size_t at)
{
    size_t end = next_crlf(p, at);

    return end == p.len ? end : end + 2;
}

/* The place after the field at `at`: its continuation lines belong to it. */
static size_t after_field(part p, size_t at)
{
    do {
        at = after_line(p, at);
    } while (at < p.len && (p.bytes[at] == ' ' || p.bytes[at] == '\t'));
    return at;
}

static int is_bcc(part field)
{
    const uint8_t *colon = field.len == 0 ? NULL
                         : memchr(field.bytes, ':', field.len);
    part name;

    if (colon == NULL) {
        return 0;
    }
    name = part_between(field, 0, (size_t)(colon - field.bytes));
    return part_equal_in_any_case(name, part_of("Bcc"))
        || part_equal_in_any_case(name, part_of("Resent-Bcc"));
}

size_t add_without_bcc(buffer *to, part header)
{
    size_t left_out = 0;
    size_t at = 0;

    while (at < header.len) {
        size_t next = after_field(header, at);
        part field = part_between(header, at, next);

        if (is_bcc(field)) {
            left_out++;
        } else {
            buffer_add(to, field);
        }
        at = next;
    }
    return left_out;
}
