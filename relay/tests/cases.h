/* The worked cases: an input and the whole answer; those of document 01 are
 * spool messages. */
#ifndef CASES_H
#define CASES_H

#include <stddef.h>

#include "hennelaku.h"

typedef struct test_case {
    const char *name;
    const char *envelope;
    const char *header;
    hennelaku_answer answer;  /* without the lengths */
    const char *envelope_out; /* null where refused */
    const char *header_out;
} test_case;

/* Spool messages. */
extern const test_case cases[];
extern const size_t case_count;

/* Current messages. */
extern const test_case current_cases[];
extern const size_t current_case_count;

#endif
