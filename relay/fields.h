/* Fields of a header, read by the library. */
#ifndef FIELDS_H
#define FIELDS_H

#include "bytes.h"
#include "hennelaku.h"

/* A Downgraded- field of a header, as it was read. */
typedef struct read_field {
    uint32_t number;  /* one of enum hennelaku_read_number, but for 5 and 6 */
    part name;        /* what stands before its colon, or before a blank */
    part text;        /* in the buffer it was read into, where the number is 0 */
} read_field;

/* All Downgraded- fields of a header, in order, each read once. */
typedef struct read_fields {
    buffer texts;   /* those that were read, one after the other */
    buffer places;  /* of each field; for read_at */
    size_t count;
    part header;
} read_fields;

/* What keeps a field from being read, in words. */
const char *read_reason(uint32_t number);

/* Reads the Downgraded- fields of a header, which has to stay. Returns 0 where
 * there is no memory. */
int read_downgraded(read_fields *r, part header);

/* One of them, from 0. */
read_field read_at(const read_fields *r, size_t at);

void read_fields_clear(read_fields *r);

/* Whether the line at `at` begins with a name, in any letter case, and a
 * colon. */
int begins_field(part header, size_t at, part name);

/* Finds the first field of a name, with its continuation lines. Returns 0 where
 * there is none. */
int find_field(part header, part name, part *field);

/* Adds the text of the header's first field of a name, `Downgraded-` before it
 * or not: with its encoded words read where the library reads them, else as it
 * stands, without its folds. Returns 0 where there is no such field. */
int add_field_text(buffer *to, const read_fields *r, const char *name);

/* Adds the front of `<old <new>>`, which Downgraded-Mail-From and
 * Downgraded-Rcpt-To hold. Returns 0 where the field is not there or not so. */
int add_old_path(buffer *to, const read_fields *r, const char *name);

#endif
