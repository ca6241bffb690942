/* The delivery of one message, from standard input to the next hop's reply. */
#ifndef DELIVERY_H
#define DELIVERY_H

#include <stdio.h>

#include "alternatives.h"
#include "downgrade.h"
#include "envelope.h"
#include "smtp.h"

enum {
    STATUS_DELIVERED = 0,
    STATUS_MESSAGE = 65,   /* EX_DATAERR */
    STATUS_NEXT_HOP = 69,  /* EX_UNAVAILABLE */
    STATUS_LATER = 75      /* EX_TEMPFAIL */
};

typedef struct delivery_options {
    smtp_options smtp;
    envelope_addresses addresses;
    uint64_t setting;          /* of the library's call */
    const char *alternatives;  /* the name of the file or table; null for none */
    const char *queue_id;      /* null where it is not known */
} delivery_options;

/* What belongs to one message. All zero before it, and after delivery_clear. */
typedef struct delivery {
    const delivery_options *options;
    buffer input;           /* as it came */
    buffer message;         /* its lines end in CRLF */
    alternatives known;
    buffer envelope;
    buffer header;          /* without Bcc */
    int has_empty_line;     /* after the header that goes out */
    part body;              /* of the message */
    buffer data;            /* what is sent after DATA */
    downgraded downgraded;
    int is_downgraded;      /* the library was asked */
    smtp_result sent;
    int status;             /* the exit status */
    char enhanced[12];      /* status code of RFC 3463, of the same class */
    buffer text;            /* why, in UTF-8 that a log takes */
} delivery;

/* Reads a message and makes of it what would be sent: the envelope and header in
 * `downgraded`, and the body. Returns 0 where nothing would be, and sets status,
 * enhanced, text. */
int prepare(delivery *d, const delivery_options *options, FILE *in);

/* Delivers the message that is read from `in`: sets status, enhanced, text. */
void deliver(delivery *d, const delivery_options *options, FILE *in);

/* Adds the line for the log, without an LF. */
void add_log_line(buffer *to, const delivery *d);

void delivery_clear(delivery *d);

#endif
