#include "envelope.h"

#include "address.h"
#include "lines.h"

part address_at(const envelope_addresses *a, size_t line)
{
    return line == 0 ? a->sender : part_of(a->recipients[line - 1]);
}

/* RFC 5321 has two paths that are no address: the null sender and Postmaster. */
static int is_path(part p, size_t line)
{
    return is_address(p)
        || (line == 0 ? p.len == 0
                      : part_equal_in_any_case(p, part_of("Postmaster")));
}

static void add_line(buffer *to, size_t line, part path,
                     const alternatives *known, envelope_result *r)
{
    buffer alternative = {NULL, 0, 0, 0};

    buffer_add_text(to, line == 0 ? "MAIL FROM:<" : "RCPT TO:<");
    buffer_add(to, path);
    buffer_add_text(to, ">");
    if (!part_is_ascii(path)) {
        if (find_alternative(known, path, &alternative, &r->fault)) {
            buffer_add_text(to, " ALT-ADDRESS=");
            add_xtext(to, buffer_part(&alternative));
            to->failed |= alternative.failed;
        } else if (r->fault.reason != NULL) {
            r->number = ENVELOPE_ALTERNATIVES;
        }
        buffer_clear(&alternative);
    }
    buffer_add_text(to, "\r\n");
}

envelope_result add_envelope(buffer *to, const envelope_addresses *a,
                             const alternatives *known)
{
    envelope_result r = {ENVELOPE_GOOD, 0, {0, NULL}};

    for (r.line = 0; r.line <= a->recipient_count; r.line++) {
        part path = address_at(a, r.line);

        if (!is_path(path, r.line)) {
            r.number = ENVELOPE_NOT_ADDRESS;
        } else {
            add_line(to, r.line, path, known, &r);
        }
        if (r.number != ENVELOPE_GOOD) {
            break;
        }
    }
    return r;
}

part path_at(part envelope, size_t line)
{
    size_t start = 0;
    size_t end = next_crlf(envelope, 0);
    part path;

    while (line > 0 && end < envelope.len) {
        start = end + 2;
        end = next_crlf(envelope, start);
        line--;
    }
    path = part_between(envelope, start, end);
    while (path.len > 0 && path.bytes[0] != '<') {
        path = part_between(path, 1, path.len);
    }
    return path;
}
