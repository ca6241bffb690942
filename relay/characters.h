/* Characters of UTF-8: their numbers, the columns that a terminal gives them,
 * and those that could steer it. */
#ifndef CHARACTERS_H
#define CHARACTERS_H

#include "bytes.h"

/* The length in bytes of the character at `at`, whose number goes to *number;
 * 0 where none of RFC 3629 stands there. */
size_t character_at(part p, size_t at, uint32_t *number);

/* Columns of a character in a terminal: 0, 1 or 2, by Unicode 14. */
size_t character_width(uint32_t number);

/* Whether a character may do more in a terminal than be seen: control
 * characters, the embeddings, overrides and isolates of bidirectional text,
 * separators of lines, and other format characters but the marks and joiners
 * that scripts are written with. */
int is_steering(uint32_t number);

#endif
