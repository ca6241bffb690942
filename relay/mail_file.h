/* The headers of the messages in a file: of one message, or of an mbox. */
#ifndef MAIL_FILE_H
#define MAIL_FILE_H

#include "bytes.h"

/* The longest header, in bytes. */
#define MAX_STORED_HEADER ((size_t)16 * 1024 * 1024)

typedef struct mail_file {
    int fd;
    uint8_t in[65536];  /* read, and not yet taken: from `at` on, before `end` */
    size_t at;
    size_t end;
    buffer line;        /* the last line that was looked at */
    int is_mbox;        /* the file begins with a From line */
    size_t count;       /* messages so far */
    int error;          /* errno of a read that failed, or 0 */
} mail_file;

enum mail_result {
    MAIL_HEADER,
    MAIL_END,        /* there is no further message */
    MAIL_FAILED,     /* `error` says why */
    MAIL_TOO_LONG,   /* a header over the limit */
    MAIL_NO_MEMORY
};

/* Begins to read. The line's buffer is used again where it has one. */
void mail_file_begin(mail_file *f, int fd);

/* Reads on to the end of the next message's header, and puts it into *header
 * without a From line and without the empty line after it. Each of its lines
 * ends in CRLF, but for a last one at which the file ends. An LF ends a line,
 * with or without a CR. */
enum mail_result next_header(mail_file *f, buffer *header);

#endif
