/* What a refusal of the library says to people: the place, the rule, the limit
 * and what was found, and what to do. */
#ifndef REFUSAL_H
#define REFUSAL_H

#include "bytes.h"
#include "downgrade.h"

/* Adds why the library refuses a header, by the answers 1, 5 and 6, as
 * `header line 3, byte 17, "X: ..": ..`; counted from 1. */
void add_header_refusal(buffer *to, part header, hennelaku_answer answer);

/* What helps against that. */
const char *header_remedy(hennelaku_answer answer);

#endif
