/* Alternatives: which ASCII address stands for an address that is not ASCII.
 *
 * A file of alternatives has an address and its ASCII address on each line,
 * parted by spaces or TABs. Empty lines, and what follows a # that starts a word,
 * say nothing. It ends in the line `# end`, which stands nowhere else: so no
 * front part of a file is one.
 *
 * `cdb:NAME` is the table NAME.cdb that postmap(1) makes, keys as they were
 * written (postmap -f). */
#ifndef ALTERNATIVES_H
#define ALTERNATIVES_H

#include "bytes.h"
#include "cdb.h"

#define MAX_ALTERNATIVES ((size_t)16 * 1024 * 1024)

/* The last line of a file, before its LF or CRLF. */
#define CLOSING_LINE "# end"

/* What is wrong with a file or table. */
typedef struct file_fault {
    size_t line;         /* from 1; 0 for all of it */
    const char *reason;  /* null where nothing is */
} file_fault;

/* An open file or table. All zero for none, and after alternatives_clear. */
typedef struct alternatives {
    const char *name;  /* as it was given; null for none */
    int is_table;
    buffer text;       /* of a file: whole, and without a bad line */
    cdb table;
} alternatives;

/* Reads a file and looks at every line of it, or opens a table. Returns 0 where
 * something is wrong. */
int alternatives_open(alternatives *a, const char *name, file_fault *fault);

/* Adds the alternative of an address. Returns 0 where there is none; or where
 * there is a fault: two that differ, or a table's value that is no ASCII
 * address. Two spellings with the same key are one address. */
int find_alternative(const alternatives *a, part address, buffer *alternative,
                     file_fault *fault);

/* Looks at all that is there, two entries of one address that differ among it.
 * Returns how many alternatives there are. */
size_t check_alternatives(const alternatives *a, file_fault *fault);

/* Looks at the text of a file, as alternatives_open does. */
void check_text(part text, file_fault *fault);

void alternatives_clear(alternatives *a);

#endif
