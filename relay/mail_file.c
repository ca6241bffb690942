#define _XOPEN_SOURCE 700

#include "mail_file.h"

#include <errno.h>
#include <string.h>
#include <unistd.h>

/* Of a line outside a header only so much is kept. */
#define MAX_SEEN 1000

void mail_file_begin(mail_file *f, int fd)
{
    f->fd = fd;
    f->at = 0;
    f->end = 0;
    f->is_mbox = 0;
    f->count = 0;
    f->error = 0;
}

/* Reads more. Returns 0 at the end of the file, and where it fails. */
static int fill(mail_file *f)
{
    ssize_t got;

    do {
        got = read(f->fd, f->in, sizeof f->in);
    } while (got < 0 && errno == EINTR);
    if (got < 0) {
        f->error = errno;
    }
    f->at = 0;
    f->end = got > 0 ? (size_t)got : 0;
    return got > 0;
}

/* Adds the next line, its LF with it, or the first `most` bytes of it. Returns
 * 0 where no LF ends it. */
static int add_line(mail_file *f, buffer *to, size_t most)
{
    const uint8_t *lf = NULL;

    while (lf == NULL && (f->at < f->end || fill(f))) {
        part rest = {f->in + f->at, f->end - f->at};

        lf = memchr(rest.bytes, '\n', rest.len);
        if (lf != NULL) {
            rest.len = (size_t)(lf - rest.bytes) + 1;
        }
        f->at += rest.len;
        rest.len = rest.len > most ? most : rest.len;
        most -= rest.len;
        buffer_add(to, rest);
    }
    return lf != NULL;
}

/* Whether the bytes from `at` on are an end of line and nothing else. */
static int is_empty_line(const buffer *b, size_t at)
{
    size_t len = b->len - at;

    return (len == 1 && b->bytes[at] == '\n')
        || (len == 2 && b->bytes[at] == '\r' && b->bytes[at + 1] == '\n');
}

static int is_digit(uint8_t c)
{
    return c >= '0' && c <= '9';
}

/* A line that parts the messages of an mbox: `From ` and somewhere a time. */
static int is_from_line(const buffer *b)
{
    size_t i;

    if (b->len < 5 || memcmp(b->bytes, "From ", 5) != 0) {
        return 0;
    }
    for (i = 6; i + 2 < b->len; i++) {
        if (b->bytes[i] == ':' && is_digit(b->bytes[i - 1])
            && is_digit(b->bytes[i + 1]) && is_digit(b->bytes[i + 2])) {
            return 1;
        }
    }
    return 0;
}

/* Reads on past the next From line that follows an empty line. Returns 0 where
 * there is none. */
static int skip_body(mail_file *f)
{
    int after_empty = 1;

    for (;;) {
        f->line.len = 0;
        if (!add_line(f, &f->line, MAX_SEEN) && f->line.len == 0) {
            return 0;
        }
        if (after_empty && is_from_line(&f->line)) {
            return 1;
        }
        after_empty = is_empty_line(&f->line, 0);
    }
}

/* Adds lines up to an empty one or to the file's end, each with CRLF for its
 * LF. Returns 0 where the file ends before an empty line. */
static int add_header(mail_file *f, buffer *header)
{
    size_t start = 0;

    while (add_line(f, header, MAX_STORED_HEADER + 1 - start)) {
        if (is_empty_line(header, start)) {
            header->len = start;
            return 1;
        }
        if (f->count == 0 && start == 0 && is_from_line(header)) {
            f->is_mbox = 1;
            header->len = 0;
        } else if (header->len < 2
                   || header->bytes[header->len - 2] != '\r') {
            header->len--;
            buffer_add_text(header, "\r\n");
        }
        start = header->len;
        if (start > MAX_STORED_HEADER || header->failed) {
            return 0;
        }
    }
    return 0;
}

enum mail_result next_header(mail_file *f, buffer *header)
{
    int is_whole = 0;

    header->len = 0;
    if (f->count == 0 || (f->is_mbox && skip_body(f))) {
        is_whole = add_header(f, header);
    } else {
        return f->error != 0 ? MAIL_FAILED : MAIL_END;
    }
    if (f->error != 0 || header->failed) {
        return header->failed ? MAIL_NO_MEMORY : MAIL_FAILED;
    }
    if (header->len > MAX_STORED_HEADER) {
        return MAIL_TOO_LONG;
    }
    if (f->count == 0 && !is_whole && header->len == 0 && !f->is_mbox) {
        return MAIL_END;
    }
    f->count++;
    return MAIL_HEADER;
}
