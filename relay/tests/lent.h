/* A header and a buffer that are lent to a call. */
#ifndef LENT_H
#define LENT_H

#include "area.h"
#include "call.h"

typedef struct lent {
    bytes header;  /* as it was before the call */
    area input;
    area buffer;
} lent;

/* Lends a copy of a header, and a buffer of so many bytes. */
lent lent_new(area_kind kind, bytes header, size_t room);

/* Blames a call that has changed the header, errno, or a byte of the buffer
 * past the written ones; and one that has not written just these bytes. */
void lent_expect(const lent *l, bytes written);

void lent_free(lent *l);

#endif
