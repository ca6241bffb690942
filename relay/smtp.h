/* One delivery by SMTP (RFC 5321): to all recipients, or to none of them. */
#ifndef SMTP_H
#define SMTP_H

#include "bytes.h"

/* The next hop. */
typedef struct smtp_hop {
    const char *name;  /* as it was given */
    char host[256];
    char port[32];
} smtp_hop;

/* Reads HOST:PORT, HOST, [HOST]:PORT or [HOST], the last two also with the
 * `ipv6:` of Postfix before an address; port 25 where none is named. Returns 0
 * where it is none of them. */
int read_hop(const char *text, smtp_hop *hop);

/* Whether the next hop is this machine, by its name or address. */
int is_loopback(const smtp_hop *hop);

typedef struct smtp_message {
    part envelope;   /* MAIL and RCPT lines without parameters */
    part data;       /* as it is sent, closed by the dot */
    size_t size;     /* bytes of the message, dots not doubled (RFC 1870) */
    int is_8bit;     /* some byte is not ASCII */
} smtp_message;

/* Adds a message as it is sent after DATA: header, empty line, body, dots that
 * start a line doubled, the closing dot (RFC 5321, section 4.5.2). Every line
 * of header and body ends in CRLF; without an empty line there is no body. */
void add_data(buffer *to, part header, int has_empty_line, part body);

typedef struct smtp_options {
    const smtp_hop *hop;
    const char *own_name;  /* for EHLO */
    int max_seconds;       /* no wait is longer */
} smtp_options;

enum smtp_outcome {
    SMTP_LATER,    /* anything but the two below */
    SMTP_SENT,     /* the next hop has said so after the data */
    SMTP_REFUSED   /* the next hop has refused it for good: nothing was sent */
};

typedef struct smtp_result {
    enum smtp_outcome outcome;
    char enhanced[12];  /* status code of RFC 3463 */
    buffer text;        /* what happened, in words: printable ASCII */
    buffer reply;       /* the next hop's last reply, likewise; may be empty */
} smtp_result;

void smtp_deliver(const smtp_options *options, const smtp_message *message,
                  smtp_result *result);

#endif
