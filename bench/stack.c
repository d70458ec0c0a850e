/* A call on a stack of its own, painted before. */
#define _XOPEN_SOURCE 700
#include <stdint.h>
#include <ucontext.h>
#include "stack.h"

enum { STACK_WORDS = 131072 };
static uint64_t stack[STACK_WORDS];
static ucontext_t outside, inside;

size_t stack_bytes(void (*there)(void))
{
    const uint64_t paint = 0x6b6b6b6b6b6b6b6bu;
    for (size_t i = 0; i < STACK_WORDS; i++)
        stack[i] = paint;
    getcontext(&inside);
    inside.uc_stack.ss_sp = stack;
    inside.uc_stack.ss_size = sizeof stack;
    inside.uc_link = &outside;
    makecontext(&inside, there, 0);
    swapcontext(&outside, &inside);
    size_t untouched = 0;
    while (untouched < STACK_WORDS && stack[untouched] == paint)
        untouched++;
    return (STACK_WORDS - untouched) * sizeof *stack;
}
