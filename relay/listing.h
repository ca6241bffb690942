/* What hennelaku-read prints for a message: its Downgraded- fields, a row of a
 * table, or an object of JSON. */
#ifndef LISTING_H
#define LISTING_H

#include "bytes.h"
#include "fields.h"

enum listing_form {
    LISTING_FIELDS,
    LISTING_TABLE,  /* on a terminal: columns that line up */
    LISTING_TABS,   /* elsewhere: cells parted by TABs */
    LISTING_JSON
};

typedef struct listing {
    enum listing_form form;
    size_t columns;   /* of the terminal */
    int names_files;  /* the file's name goes before each field */
    size_t refused;   /* fields that could not be read, so far */
    buffer out;       /* what is to be printed */
    buffer told;      /* for standard error */
    buffer text;
    buffer cell;
    read_fields read; /* of the message that is listed */
} listing;

/* A message of a file. */
typedef struct listed {
    part file;
    size_t number;  /* in an mbox of several, from 1; else 0 */
    part header;    /* its lines end in CRLF */
} listed;

/* Adds the heading of a table. */
void add_heading(listing *l);

/* Adds what is printed for a message. Returns 0 where there is no memory. */
int add_message(listing *l, const listed *m);

void listing_clear(listing *l);

#endif
