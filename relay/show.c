#include "show.h"

#include <stdio.h>

#include "characters.h"

/* A character as it is shown. */
typedef struct shown {
    char escape[16];  /* empty where it stands for itself */
    size_t len;       /* its bytes in the text */
    size_t width;     /* columns */
} shown;

/* The character, or the byte that is none, at a place of a text. */
static shown show_at(part text, size_t at)
{
    shown s = {"", 1, 1};
    uint32_t number;
    size_t len = character_at(text, at, &number);
    int width = 0;

    if (len == 0 || number < 0x20 || number == 0x7F) {
        width = snprintf(s.escape, sizeof s.escape, "\\x%02x",
                         (unsigned)text.bytes[at]);
    } else if (number == '\\') {
        width = snprintf(s.escape, sizeof s.escape, "\\\\");
    } else if (is_steering(number)) {
        width = snprintf(s.escape, sizeof s.escape, "\\u{%X}",
                         (unsigned)number);
    }
    s.len = len == 0 ? 1 : len;
    s.width = width > 0 ? (size_t)width : character_width(number);
    return s;
}

static void add_one(buffer *to, part text, size_t at, const shown *s)
{
    if (s->escape[0] != '\0') {
        buffer_add_text(to, s->escape);
    } else {
        buffer_add(to, part_between(text, at, at + s->len));
    }
}

/* The place of the first character from `at` on that does not stand for itself:
 * a backslash, `also`, a byte that is no character, or one that could steer a
 * terminal. */
static size_t plain_end(part text, size_t at, uint8_t also)
{
    for (;;) {
        uint32_t number;
        size_t len;

        /* Most characters are these, for which nothing is called. */
        while (at < text.len && text.bytes[at] >= 0x20 && text.bytes[at] < 0x7F
               && text.bytes[at] != '\\' && text.bytes[at] != also) {
            at++;
        }
        if (at == text.len || text.bytes[at] < 0x80) {
            return at;
        }
        len = character_at(text, at, &number);
        if (len == 0 || is_steering(number)) {
            return at;
        }
        at += len;
    }
}

void add_shown(buffer *to, part text)
{
    size_t at = 0;

    while (at < text.len) {
        size_t end = plain_end(text, at, '\\');

        buffer_add(to, part_between(text, at, end));
        at = end;
        if (at < text.len) {
            shown s = show_at(text, at);

            add_one(to, text, at, &s);
            at += s.len;
        }
    }
}

/* How many columns a text takes; no more than `most` are counted. */
static size_t shown_width(part text, size_t most)
{
    size_t width = 0;
    size_t at = 0;

    while (at < text.len && width <= most) {
        shown s = show_at(text, at);

        width += s.width;
        at += s.len;
    }
    return width;
}

void add_shown_in(buffer *to, part text, size_t columns)
{
    int is_cut = shown_width(text, columns) > columns;
    size_t dots = !is_cut ? 0 : columns < 6 ? 1 : 3;
    size_t left = columns - dots;
    size_t at = 0;

    while (at < text.len) {
        shown s = show_at(text, at);

        if (s.width > left) {
            break;
        }
        add_one(to, text, at, &s);
        left -= s.width;
        at += s.len;
    }
    buffer_add(to, part_between(part_of("..."), 0, dots));
    for (; left > 0; left--) {
        buffer_add_byte(to, ' ');
    }
}

static void add_json_escape(buffer *to, uint32_t number)
{
    char escape[16];

    if (number > 0xFFFF) {
        snprintf(escape, sizeof escape, "\\u%04x\\u%04x",
                 (unsigned)(0xD7C0 + (number >> 10)),
                 (unsigned)(0xDC00 + (number & 0x3FF)));
    } else {
        snprintf(escape, sizeof escape, "\\u%04x", (unsigned)number);
    }
    buffer_add_text(to, escape);
}

/* Adds the character, or the byte that is none, at a place of a text, as it is
 * escaped. Returns its length. */
static size_t add_json_character(buffer *to, part text, size_t at)
{
    uint32_t number;
    size_t len = character_at(text, at, &number);

    if (len == 0) {
        buffer_add_text(to, "\\ufffd");
    } else if (number == '"' || number == '\\') {
        buffer_add_byte(to, '\\');
        buffer_add_byte(to, (uint8_t)number);
    } else {
        add_json_escape(to, number);
    }
    return len == 0 ? 1 : len;
}

void add_json(buffer *to, part text)
{
    size_t at = 0;

    buffer_add_byte(to, '"');
    while (at < text.len) {
        size_t end = plain_end(text, at, '"');

        buffer_add(to, part_between(text, at, end));
        at = end < text.len ? end + add_json_character(to, text, end) : end;
    }
    buffer_add_byte(to, '"');
}
