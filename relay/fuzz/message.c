/* Fuzzes the reading of a message: lines, header and body, what would be sent. */
#define _POSIX_C_SOURCE 200809L

#include <stdio.h>
#include <string.h>

#include "delivery.h"
#include "must.h"

static const char *const recipients[] = {"pilot@example.net"};
static const char *const others[] = {"\xC3\xA9@example.net"};

/* Whether every CR has its LF and every LF its CR. */
static int has_line_ends(part p)
{
    size_t i;

    for (i = 0; i < p.len; i++) {
        if ((p.bytes[i] == '\n') != (i > 0 && p.bytes[i - 1] == '\r')) {
            return 0;
        }
    }
    return p.len == 0 || p.bytes[p.len - 1] != '\r';
}

static void check_prepared(const delivery *d)
{
    part header = buffer_part(&d->downgraded.header);

    must(part_is_ascii(header));
    must(part_is_ascii(buffer_part(&d->downgraded.envelope)));
    must(has_line_ends(header) && has_line_ends(d->body));
    must(d->has_empty_line || d->body.len == 0);
}

int LLVMFuzzerTestOneInput(const uint8_t *data, size_t size)
{
    static smtp_hop hop = {"127.0.0.1:1", "127.0.0.1", "1"};
    buffer line = {NULL, 0, 0, 0};
    delivery_options options;
    delivery d;
    FILE *in;

    if (size < 2) {
        return 0;
    }
    memset(&options, 0, sizeof options);
    memset(&d, 0, sizeof d);
    options.smtp.hop = &hop;
    options.setting = data[0] & 1;
    options.addresses.sender = part_of("a@example.org");
    options.addresses.recipients = data[0] & 2 ? others : recipients;
    options.addresses.recipient_count = 1;
    in = fmemopen((void *)(data + 1), size - 1, "rb");
    must(in != NULL);
    if (prepare(&d, &options, in)) {
        must((data[0] & 2) == 0);
        check_prepared(&d);
    } else {
        must(d.status == STATUS_MESSAGE || d.status == STATUS_LATER);
        must(d.text.len > 0);
    }
    must_be_text(buffer_part(&d.text));
    add_log_line(&line, &d);
    must_be_text(buffer_part(&line));
    buffer_clear(&line);
    delivery_clear(&d);
    fclose(in);
    return 0;
}
