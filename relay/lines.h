/* Lines of a text that end in CRLF, and how their bytes are shown. */
#ifndef LINES_H
#define LINES_H

#include <stdio.h>

#include "bytes.h"

/* So many columns are for the quoted bytes of a line: with quotes and dots they
 * and the mark stay on one row of a terminal with 80. */
#define MAX_QUOTED 70

/* A line of a part. */
typedef struct part_line {
    size_t number;  /* from 0 */
    size_t start;   /* its offset in the part */
    part text;      /* without its CRLF */
    int has_crlf;
} part_line;

/* The place of the first CRLF from `at` on, or p.len. */
size_t next_crlf(part p, size_t at);

/* The line of p in which the byte at `offset` stands, its CRLF with it; for the
 * end of p a last line without CRLF. Returns 0 where p has no such line: then
 * the number is the one that it would have. */
int find_line(part p, size_t offset, part_line *found);

/* How many CRLF p has. */
size_t count_lines(part p);

/* The column, from 1, of the byte at `at` of a line, in characters: a byte that
 * belongs to none counts as one, as do CR and LF after the text. */
size_t character_column(part text, size_t at);

/* Adds bytes as ASCII that a terminal and a log take for text: \xNN for each
 * that is not printable ASCII, a backslash before " and \. No more than
 * `columns` of them, and then three dots. */
void add_quoted(buffer *b, part p, size_t columns);

/* Adds a text as people read it, in UTF-8: what add_quoted would spell is spelled
 * so where it is ASCII or no UTF-8, and a character that is not seen, or changes
 * the order of others (controls, bidirectional ones, zero width), as \u{NNNN}.
 * No more than `columns` characters, spellings counted in full, and then three
 * dots. */
void add_readable(buffer *b, part p, size_t columns);

/* Writes a line in quotes, and below it a mark under the byte at `at`. What
 * follows the text is not quoted: the mark is then under the closing quote, and
 * says what it stands for. */
void print_marked(FILE *out, const part_line *l, size_t at);

#endif
