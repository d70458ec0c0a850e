/* tests/c/caller with a fault: what a call has left is spoiled, as FAULT says, for the call FAULT_CALL in its argument FAULT_ROW, a row. tests/python/planted_calls.py plants each of them,
 * and must find it. */
#include <stdlib.h>
#include <string.h>
#include "../caller/caller.h"

static const struct call *sound;
static struct call spoiled;

static bool is_fault(const char *name)
{
    return strcmp(getenv("FAULT"), name) == 0;
}

static uint64_t make_spoiled(void)
{
    uint64_t code = sound->make();
    const struct argument *row = &given[atoi(getenv("FAULT_ROW"))];
    volatile unsigned char *bytes = row->row;
    if (is_fault("behind"))
        bytes[row->bytes] ^= 1;
    else if (is_fault("before"))
        bytes[-1] ^= 1;
    else if (is_fault("beyond"))
        (void)bytes[row->bytes];
    else if (is_fault("refusal") && code != 0 && row->bytes > 0)
        bytes[row->bytes - 1] ^= 1;
    else if (is_fault("answer") && code == 0 && row->bytes > 0)
        bytes[row->bytes - 1] ^= 1;
    else if (is_fault("code"))
        code += 256;
    else if (is_fault("trap"))
        __builtin_trap();
    return code;
}

/* As the linker names them (--wrap). */
const struct call *__real_call_named(const char name[8]);
const struct call *__wrap_call_named(const char name[8]);

const struct call *__wrap_call_named(const char name[8])
{
    sound = __real_call_named(name);
    if (strcmp(sound->name, getenv("FAULT_CALL")) != 0)
        return sound;
    spoiled = *sound;
    spoiled.make = make_spoiled;
    return &spoiled;
}
