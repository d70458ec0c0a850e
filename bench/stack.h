/* How much of the stack a call takes. */
#ifndef STACK_H
#define STACK_H

#include <stddef.h>

/* Calls `there` on a stack of its own of 1 MiB, and gives the bytes of it that were written. Less what a function that
 * does nothing takes, they are those of the call. Not for several threads at once. */
size_t stack_bytes(void (*there)(void));

#endif
