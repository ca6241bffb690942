/* Tests of hennelaku_downgrade_mailbox. */
#ifndef MAILBOX_H
#define MAILBOX_H

void test_mailbox(void);

#endif
