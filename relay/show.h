/* Text of a mail as people see it: in UTF-8, with nothing in it that steers a
 * terminal. */
#ifndef SHOW_H
#define SHOW_H

#include "bytes.h"

/* Adds a text on one line: \xNN for each control byte and each byte that is not
 * UTF-8, \u{N} in hex for every other character that could steer a terminal, \\
 * for a backslash; all other characters as they are. */
void add_shown(buffer *to, part text);

/* The same in just so many columns of a terminal, two at least: cut before a
 * character that has no room, with three dots or what fits of them, and filled
 * with spaces. */
void add_shown_in(buffer *to, part text, size_t columns);

/* Adds a text as a string of JSON (RFC 8259) in quotes. Characters that could
 * steer a terminal are escaped; a byte that is not UTF-8 becomes U+FFFD. */
void add_json(buffer *to, part text);

#endif
