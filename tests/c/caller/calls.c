/* Each call by its prototype in the header, with the arguments that are given. */
#include <string.h>
#include <violstream.h>
#include "caller.h"

struct argument given[ARGUMENTS];

#define NUMBER(i) given[i].number
#define BYTES(i) given[i].row, given[i].bytes
#define WORDS(i) (void *)given[i].row, given[i].bytes / sizeof(uint64_t)
#define TICKETS(i) (void *)given[i].row, given[i].bytes / sizeof(struct violstream_ticket)

static uint64_t version(void)
{
    return violstream_version();
}

static uint64_t pick(void)
{
    return violstream_pick(BYTES(0), BYTES(1), BYTES(2), BYTES(3), NUMBER(4), WORDS(5), WORDS(6), BYTES(7), BYTES(8), WORDS(9));
}

static uint64_t answer(void)
{
    return violstream_answer(BYTES(0), BYTES(1), WORDS(2), WORDS(3));
}

static uint64_t buys(void)
{
    return violstream_buys(BYTES(0), BYTES(1), WORDS(2), WORDS(3));
}

static uint64_t check(void)
{
    return violstream_check(BYTES(0), BYTES(1), BYTES(2), WORDS(3), WORDS(4));
}

static uint64_t mend(void)
{
    return violstream_mend(BYTES(0), BYTES(1), BYTES(2), WORDS(3));
}

static uint64_t file(void)
{
    return violstream_file(TICKETS(0), WORDS(1), NUMBER(2), NUMBER(3), NUMBER(4), NUMBER(5), WORDS(6));
}

static uint64_t withdraw(void)
{
    return violstream_withdraw(TICKETS(0), WORDS(1), NUMBER(2), NUMBER(3));
}

static uint64_t board(void)
{
    return violstream_board(TICKETS(0), WORDS(1), WORDS(2), WORDS(3), WORDS(4), NUMBER(5), NUMBER(6), WORDS(7), WORDS(8), WORDS(9), WORDS(10), WORDS(11), WORDS(12), WORDS(13));
}

static uint64_t event(void)
{
    return violstream_event(TICKETS(0), WORDS(1), WORDS(2), WORDS(3), WORDS(4), BYTES(5), BYTES(6), WORDS(7), WORDS(8));
}

static uint64_t waiting(void)
{
    return violstream_waiting(TICKETS(0), BYTES(1), WORDS(2));
}

static const struct call calls[] = {
    {"version", 0, version}, {"pick", 10, pick}, {"answer", 4, answer}, {"buys", 4, buys}, {"check", 5, check}, {"mend", 4, mend},
    {"file", 7, file}, {"withdraw", 4, withdraw}, {"board", 14, board}, {"event", 9, event}, {"waiting", 3, waiting},
};

const struct call *call_named(const char name[8])
{
    for (size_t i = 0; i < sizeof calls / sizeof calls[0]; i++)
        if (strncmp(calls[i].name, name, 8) == 0)
            return &calls[i];
    give_up("there is no call of this name");
    return NULL;
}
