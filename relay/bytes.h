/* Bytes: some that are lent, and a buffer that grows. */
#ifndef BYTES_H
#define BYTES_H

#include <stddef.h>
#include <stdint.h>

/* Some bytes; not owned. */
typedef struct part {
    const uint8_t *bytes;
    size_t len;
} part;

/* Bytes that are owned. All zero is an empty one. */
typedef struct buffer {
    uint8_t *bytes;
    size_t len;
    size_t room;
    int failed;  /* there was no memory for something that was added */
} buffer;

part part_of(const char *text);

/* The bytes of p from `from` on, before `to`. */
part part_between(part p, size_t from, size_t to);

int part_equal(part a, part b);

/* An ASCII letter made small; every other byte as it is. */
uint8_t lower_case(uint8_t c);

/* The same bytes but for the case of ASCII letters. */
int part_equal_in_any_case(part a, part b);

int part_is_ascii(part p);

part buffer_part(const buffer *b);

/* Once there is no memory a buffer takes nothing more: `failed` is to be looked
 * at before its bytes are used. */
void buffer_add(buffer *b, part p);
void buffer_add_text(buffer *b, const char *text);
void buffer_add_byte(buffer *b, uint8_t byte);
void buffer_add_number(buffer *b, size_t number);

/* Makes room for so many bytes more. */
int buffer_reserve(buffer *b, size_t len);

/* Overwrites the bytes, frees them, and leaves an empty buffer. */
void buffer_clear(buffer *b);

#endif
