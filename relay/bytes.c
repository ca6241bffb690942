#include "bytes.h"

#include <stdlib.h>
#include <string.h>

part part_of(const char *text)
{
    part p;

    p.bytes = (const uint8_t *)text;
    p.len = strlen(text);
    return p;
}

part part_between(part p, size_t from, size_t to)
{
    /* A null pointer takes no addition, of 0 either. */
    if (from > 0) {
        p.bytes += from;
    }
    p.len = to - from;
    return p;
}

int part_equal(part a, part b)
{
    return a.len == b.len
        && (a.len == 0 || memcmp(a.bytes, b.bytes, a.len) == 0);
}

uint8_t lower_case(uint8_t c)
{
    return c >= 'A' && c <= 'Z' ? (uint8_t)(c + ('a' - 'A')) : c;
}

int part_equal_in_any_case(part a, part b)
{
    size_t i;

    if (a.len != b.len) {
        return 0;
    }
    for (i = 0; i < a.len; i++) {
        if (lower_case(a.bytes[i]) != lower_case(b.bytes[i])) {
            return 0;
        }
    }
    return 1;
}

int part_is_ascii(part p)
{
    size_t i;

    for (i = 0; i < p.len; i++) {
        if (p.bytes[i] > 127) {
            return 0;
        }
    }
    return 1;
}

part buffer_part(const buffer *b)
{
    part p;

    p.bytes = b->bytes;
    p.len = b->len;
    return p;
}

int buffer_reserve(buffer *b, size_t len)
{
    size_t room = b->room == 0 ? 256 : b->room;
    uint8_t *grown;

    if (b->failed || len > SIZE_MAX / 4 - b->len) {
        b->failed = 1;
        return 0;
    }
    while (room < b->len + len) {
        room *= 2;
    }
    if (room == b->room) {
        return 1;
    }
    grown = realloc(b->bytes, room);
    if (grown == NULL) {
        b->failed = 1;
        return 0;
    }
    b->bytes = grown;
    b->room = room;
    return 1;
}

void buffer_add(buffer *b, part p)
{
    if (p.len > 0 && buffer_reserve(b, p.len)) {
        memcpy(b->bytes + b->len, p.bytes, p.len);
        b->len += p.len;
    }
}

void buffer_add_text(buffer *b, const char *text)
{
    buffer_add(b, part_of(text));
}

void buffer_add_byte(buffer *b, uint8_t byte)
{
    if (buffer_reserve(b, 1)) {
        b->bytes[b->len++] = byte;
    }
}

void buffer_add_number(buffer *b, size_t number)
{
    uint8_t digits[20];
    size_t at = sizeof digits;
    part p;

    do {
        digits[--at] = (uint8_t)('0' + number % 10);
        number /= 10;
    } while (number > 0);
    p.bytes = digits + at;
    p.len = sizeof digits - at;
    buffer_add(b, p);
}

/* Volatile, since a compiler leaves out what it sees nobody read again. */
static void *(*const volatile overwrite)(void *, int, size_t) = memset;

void buffer_clear(buffer *b)
{
    if (b->bytes != NULL) {
        overwrite(b->bytes, 0, b->room);
    }
    free(b->bytes);
    memset(b, 0, sizeof *b);
}
