#include "lent.h"

#include <errno.h>
#include <string.h>

#include "check.h"

#define OWN_ERRNO 12345

lent lent_new(area_kind kind, bytes header, size_t room)
{
    lent l;

    l.header = header;
    l.input = area_of(kind, header.at, header.len);
    l.buffer = area_new(kind, room);
    errno = OWN_ERRNO;
    return l;
}

void lent_expect(const lent *l, bytes written)
{
    if (errno != OWN_ERRNO) {
        blame("errno changed");
    }
    if (!area_untouched(&l->input, l->input.len)
        || (l->header.len > 0
            && memcmp(l->input.at, l->header.at, l->header.len) != 0)) {
        blame("the header changed");
    }
    if (written.len > l->buffer.len) {
        blame("%zu bytes in a room of %zu", written.len, l->buffer.len);
        return;
    }
    if (!area_untouched(&l->buffer, written.len)) {
        blame("a byte past the written ones changed");
    }
    if (written.len > 0
        && memcmp(l->buffer.at, written.at, written.len) != 0) {
        blame("it wrote %.*s", (int)written.len, (const char *)l->buffer.at);
    }
}

void lent_free(lent *l)
{
    area_free(&l->input);
    area_free(&l->buffer);
}
