/* Tests of long parameters: numbered parts, and names that leave no room. */
#ifndef PARAMETERS_H
#define PARAMETERS_H

void test_parameters(void);

#endif
