/* One call of the library on lent memory, with what holds of every call. */
#ifndef CALL_H
#define CALL_H

#include "area.h"
#include "hennelaku.h"

typedef struct bytes {
    const uint8_t *at;
    size_t len;
} bytes;

/* A call's answer and what it wrote. */
typedef struct outcome {
    hennelaku_answer answer;
    area envelope;
    area header;
    const char *broken; /* what no call may do and this one did, or null */
} outcome;

bytes bytes_of(const char *text);

outcome call(uint64_t setting, area_kind kind, bytes envelope, bytes header,
             size_t envelope_room, size_t header_room);

void outcome_free(outcome *o);

#endif
