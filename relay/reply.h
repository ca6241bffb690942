/* Replies of a server (RFC 5321, section 4.2). */
#ifndef REPLY_H
#define REPLY_H

#include "bytes.h"
#include "connection.h"

typedef struct reply {
    int code;
    buffer text;  /* its lines without their code, each ended by LF */
} reply;

enum reply_result {
    REPLY_READ,
    REPLY_NOT_READ,  /* `io` says why */
    REPLY_GARBAGE,   /* `line` is not of a reply */
    REPLY_NO_MEMORY
};

/* Reads a whole reply. `line` is for its lines; the last one stays there. */
enum reply_result read_reply(connection *c, reply *r, buffer *line,
                             enum io_result *io, deadline by);

/* Adds a reply in printable ASCII, its lines one after another. */
void add_reply(buffer *to, const reply *r);

/* The status code of RFC 3463 at the start of a reply's text, where it is of
 * the reply's class, or x.0.0; with the digit `class` in front. */
void read_enhanced(const reply *r, char class, char enhanced[12]);

/* Whether a line of a reply to EHLO starts with a keyword. */
int offers(const reply *r, const char *keyword);

#endif
