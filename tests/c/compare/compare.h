/* One call checked, and the calls that are not drawn at random. */
#ifndef COMPARE_H
#define COMPARE_H

#include <stdint.h>

/* compare.c: makes the call at hand and compares result and rows; gives the result. */
uint64_t check_call(void);

/* worked.c */
void check_worked_cases(void);

#endif
