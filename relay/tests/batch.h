/* Tests of batches. */
#ifndef BATCH_H
#define BATCH_H

void test_batches(void);

#endif
