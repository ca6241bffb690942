#include <string.h>

#include "smtp.h"

/* Copies a part that is not empty and fits. */
static int copy(part p, char *to, size_t room)
{
    if (p.len == 0 || p.len >= room
        || memchr(p.bytes, '\0', p.len) != NULL) {
        return 0;
    }
    memcpy(to, p.bytes, p.len);
    to[p.len] = '\0';
    return 1;
}

/* The place of a byte, or p.len. */
static size_t find(part p, uint8_t byte)
{
    const uint8_t *at = p.len == 0 ? NULL : memchr(p.bytes, byte, p.len);

    return at == NULL ? p.len : (size_t)(at - p.bytes);
}

/* Drops `ipv6:` where it stands in front. */
static part without_prefix(part p)
{
    part prefix = part_of("ipv6:");

    return p.len >= prefix.len
        && part_equal_in_any_case(part_between(p, 0, prefix.len), prefix)
        ? part_between(p, prefix.len, p.len) : p;
}

int read_hop(const char *text, smtp_hop *hop)
{
    part p = part_of(text);
    part host;
    part rest;

    hop->name = text;
    if (p.len > 0 && p.bytes[0] == '[') {
        size_t end = find(p, ']');

        if (end == p.len) {
            return 0;
        }
        host = without_prefix(part_between(p, 1, end));
        rest = part_between(p, end + 1, p.len);
    } else {
        size_t end = find(p, ':');

        host = part_between(p, 0, end);
        rest = part_between(p, end, p.len);
    }
    if (rest.len == 0) {
        rest = part_of(":25");
    }
    return rest.bytes[0] == ':' && copy(host, hop->host, sizeof hop->host)
        && find(part_between(rest, 1, rest.len), ':') == rest.len - 1
        && copy(part_between(rest, 1, rest.len), hop->port, sizeof hop->port);
}

int is_loopback(const smtp_hop *hop)
{
    part host = part_of(hop->host);

    return part_equal_in_any_case(host, part_of("localhost"))
        || part_equal(host, part_of("::1"))
        || strncmp(hop->host, "127.", 4) == 0;
}
