/* What a fuzz target says of every input. */
#ifndef MUST_H
#define MUST_H

#include <stdint.h>
#include <stdlib.h>
#include <unistr.h>

#include "bytes.h"

int LLVMFuzzerTestOneInput(const uint8_t *data, size_t size);

static inline void must(int is)
{
    if (!is) {
        abort();
    }
}

/* A text that goes to a log or a terminal: UTF-8 without controls. */
static inline void must_be_text(part p)
{
    size_t i;

    must(p.len == 0 || u8_check(p.bytes, p.len) == NULL);
    for (i = 0; i < p.len; i++) {
        must(p.bytes[i] >= 32 && p.bytes[i] != 127);
        must(p.bytes[i] != 0xC2 || p.bytes[i + 1] >= 0xA0);
    }
}

#endif
