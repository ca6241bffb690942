#define _POSIX_C_SOURCE 200809L

#include "queued.h"

#include <errno.h>
#include <stdio.h>
#include <stdlib.h>
#include <string.h>

#include "delivery.h"
#include "message.h"

enum {
    STATUS_USAGE = 64,
    STATUS_NO_INPUT = 66,
    STATUS_NO_MEMORY = 71,
    STATUS_IO = 74
};

typedef struct queued {
    delivery_options options;
    const char **recipients;
    const char *file;
    int has_sender;
} queued;

static int takes_value(const char *option)
{
    return strcmp(option, "--from") == 0 || strcmp(option, "--to") == 0
        || strcmp(option, "--alternatives") == 0;
}

int is_queued(int argc, char **argv)
{
    int i;

    for (i = 1; i < argc; i++) {
        if (takes_value(argv[i])) {
            return 1;
        }
    }
    return 0;
}

static int tell_usage(const char *option, const char *reason)
{
    fprintf(stderr, "hennelaku: option %s: %s\nusage: " QUEUED_USAGE "\n",
            option, reason);
    return 0;
}

static void take_value(queued *q, const char *option, const char *value)
{
    envelope_addresses *a = &q->options.addresses;

    if (strcmp(option, "--alternatives") == 0) {
        q->options.alternatives = value;
    } else if (strcmp(option, "--to") == 0) {
        q->recipients[a->recipient_count++] = value;
    } else {
        a->sender = part_of(strcmp(value, "<>") == 0
                            || strcmp(value, "MAILER-DAEMON") == 0
                            ? "" : value);
        q->has_sender = 1;
    }
}

static int read_options(queued *q, int argc, char **argv)
{
    int i;

    q->file = NULL;
    for (i = 1; i < argc; i++) {
        if (takes_value(argv[i])) {
            if (i + 1 == argc) {
                return tell_usage(argv[i], "its value is missing");
            }
            take_value(q, argv[i], argv[i + 1]);
            i++;
        } else if (strcmp(argv[i], "--current") == 0) {
            q->options.setting = HENNELAKU_CURRENT;
        } else if ((argv[i][0] == '-' && argv[i][1] != '\0')
                   || q->file != NULL) {
            return tell_usage("given", "not one of these, or a second file");
        } else {
            q->file = argv[i];
        }
    }
    if (!q->has_sender) {
        return tell_usage("--from", "missing: the sender, <> for none");
    }
    if (q->options.addresses.recipient_count == 0) {
        return tell_usage("--to", "missing: a recipient");
    }
    return q->options.setting == HENNELAKU_SPOOL
        || q->options.alternatives == NULL
        || tell_usage("--alternatives", "not with --current");
}

/* Writes what would be sent. */
static int write_prepared(const delivery *d)
{
    const buffer *envelope = &d->downgraded.envelope;
    const buffer *header = &d->downgraded.header;

    fwrite(envelope->bytes, 1, envelope->len, stdout);
    fputs("DATA\r\n", stdout);
    if (header->len > 0) {
        fwrite(header->bytes, 1, header->len, stdout);
    }
    if (d->has_empty_line) {
        fputs("\r\n", stdout);
        fwrite(d->body.bytes, 1, d->body.len, stdout);
    }
    if (fflush(stdout) != 0 || ferror(stdout)) {
        fprintf(stderr, "standard output cannot be written: %s\n",
                strerror(errno));
        return STATUS_IO;
    }
    return STATUS_DELIVERED;
}

/* The place after the next LF from `at` on, or text.len. */
static size_t after_line(part text, size_t at)
{
    const uint8_t *lf = at == text.len ? NULL
                      : memchr(text.bytes + at, '\n', text.len - at);

    return lf == NULL ? text.len : (size_t)(lf - text.bytes) + 1;
}

static int starts_with(part text, size_t at, const char *front)
{
    part f = part_of(front);

    return text.len - at >= f.len
        && part_equal(part_between(text, at, at + f.len), f);
}

/* The message in what postcat(1) prints of a whole queue file: from the line that
 * says so to the last one that says where its contents end. */
static part message_of(part text)
{
    size_t start = 0;
    size_t end = text.len;
    size_t at;

    if (!starts_with(text, 0, "*** ENVELOPE RECORDS ")) {
        return text;
    }
    for (at = 0; at < text.len; at = after_line(text, at)) {
        if (start == 0 && starts_with(text, at, "*** MESSAGE CONTENTS ")) {
            start = after_line(text, at);
        } else if (starts_with(text, at, "*** HEADER EXTRACTED ")) {
            end = at;
        }
    }
    return part_between(text, start, end < start ? start : end);
}

static int show(const queued *q, FILE *in)
{
    delivery d;
    int status;

    memset(&d, 0, sizeof d);
    if (prepare(&d, &q->options, in)) {
        status = write_prepared(&d);
    } else {
        status = d.status;
        fprintf(stderr, "%s: %s %.*s\n", status == STATUS_LATER
                ? "would stay in the queue" : "would be refused",
                d.enhanced, (int)d.text.len,
                d.text.len == 0 ? "" : (const char *)d.text.bytes);
    }
    delivery_clear(&d);
    return status;
}

/* Shows a message, or the one in the output of postcat. */
static int show_input(const queued *q, FILE *in)
{
    buffer text = {NULL, 0, 0, 0};
    enum read_result r = read_all(in, MAX_MESSAGE, &text);
    part message = message_of(buffer_part(&text));
    int status = STATUS_IO;
    FILE *lines = NULL;

    if (r == READ_FAILED) {
        fprintf(stderr, "the message cannot be read: %s\n", strerror(errno));
    } else {
        /* A message of no bytes is told as one that is empty, and one that is
         * too long as such. */
        lines = r == READ_DONE && message.len > 0
            ? fmemopen((void *)message.bytes, message.len, "rb")
            : fopen(r == READ_DONE ? "/dev/null" : "/dev/zero", "rb");
    }
    if (lines != NULL) {
        status = show(q, lines);
        fclose(lines);
    }
    buffer_clear(&text);
    return status;
}

int show_queued(int argc, char **argv)
{
    int status = STATUS_USAGE;
    FILE *in = stdin;
    queued q;

    memset(&q, 0, sizeof q);
    q.recipients = calloc((size_t)argc, sizeof *q.recipients);
    if (q.recipients == NULL) {
        fputs("no memory\n", stderr);
        return STATUS_NO_MEMORY;
    }
    q.options.addresses.recipients = q.recipients;
    if (read_options(&q, argc, argv)) {
        if (q.file != NULL && strcmp(q.file, "-") != 0) {
            in = fopen(q.file, "rb");
        }
        if (in == NULL) {
            fprintf(stderr, "%s: cannot be opened: %s\n", q.file,
                    strerror(errno));
            status = STATUS_NO_INPUT;
        } else {
            status = show_input(&q, in);
        }
    }
    if (in != NULL && in != stdin) {
        fclose(in);
    }
    free(q.recipients);
    return status;
}
