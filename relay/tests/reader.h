/* Tests of hennelaku_read_downgraded. */
#ifndef READER_H
#define READER_H

void test_reader(void);

#endif
