/* Tests of the byte that an answer tells. */
#ifndef OFFSET_H
#define OFFSET_H

#include "check.h"

/* The answers 2 and 5 do not depend on what follows their byte, and where the
 * input ends before that byte, they tell its end. */
void expect_same_when_cut(uint64_t setting, bytes envelope, bytes header,
                          hennelaku_answer a);

/* Limits, and every case by a search. */
void test_offsets(void);

#endif
