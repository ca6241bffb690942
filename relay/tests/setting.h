/* Tests of the setting: spool and current messages. */
#ifndef SETTING_H
#define SETTING_H

void test_settings(void);

#endif
