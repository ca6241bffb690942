/* A message as it is read: lines made to end in CRLF, header and body parted. */
#ifndef MESSAGE_H
#define MESSAGE_H

#include <stdio.h>

#include "bytes.h"

/* The longest input, in bytes. */
#define MAX_MESSAGE ((size_t)64 * 1024 * 1024)

enum read_result {
    READ_DONE,
    READ_FAILED,     /* errno says why */
    READ_TOO_LONG,   /* over the limit */
    READ_NO_MEMORY
};

/* Reads what is left of a file. */
enum read_result read_all(FILE *in, size_t limit, buffer *into);

/* Adds a text with CRLF for each LF that has no CR before it. Returns how many
 * those were. */
size_t add_with_crlf(buffer *to, part from);

/* The place of the first CR with no LF after it, or p.len. */
size_t find_lone_cr(part p);

/* Cuts a part off the front of *rest, with its last CRLF, and drops the empty
 * line after it. Returns 0, and cuts nothing, where no empty line is there. */
int cut_at_empty_line(part *rest, part *front);

/* Adds a header without its Bcc and Resent-Bcc fields: a recipient may not learn
 * of those who are named there. Returns how many fields were left out. */
size_t add_without_bcc(buffer *to, part header);

#endif
