/* The call at hand: its parameters, its rows in the arena, and what is said of it where it differs. */
#ifndef CALL_H
#define CALL_H

#include <stdbool.h>
#include <stddef.h>
#include <stdint.h>
#include "bounds.h"

enum row { STARTS, LENGTHS, AGGREGATES, NUMBERS, COUNTS, DETOUR_STARTS, DETOUR_ENDS, TIMES, LEGS, SUMS, ROOM, ROWS };
enum { INPUTS = TIMES, MOST_DRAFTED = 4200, GUARD = 8, MOST_SHIFT = 3 };
enum { MOST_ANSWER = 8192 };      /* words in a row for an answer other than the room */
#define MOST_ROOM ((size_t)LIMIT_WANTS * LIMIT_WANTS * (LIMIT_READS + 1) + 64)
#define ARENA_WORDS (INPUTS * (size_t)MOST_DRAFTED + 3 * (size_t)MOST_ANSWER + MOST_ROOM \
                     + (ROWS + 1) * (size_t)(GUARD + MOST_SHIFT))

struct call {
    bool plan;
    bool any;                               /* one of the two calls for a head anywhere */
    uint64_t head, turn, rule;
    size_t length[ROWS];
    bool null[ROWS];                        /* lend a null pointer if the row is empty */
    uint64_t draft[INPUTS][MOST_DRAFTED];   /* what stands in the rows that are lent to be read */
};

/* ---- call.c ---- */

extern struct call call;
extern uint64_t *now, *due;                 /* the arena as the library sees it, and as it must be afterwards */
extern size_t offset[ROWS], arena_words;
extern bool apart;                          /* lend each row in a block of its own */
extern const char *const row_names[ROWS];

void *allocate(size_t count, size_t size);

bool is_read(enum row r);
uint64_t drafted_reads(void);
uint64_t drafted_tape_end(void);
uint64_t drafted_wanted_end(void);
const char *function_called(void);
size_t drafted_stops(uint64_t names[LIMIT_WANTS + 1]);

void lay_out(void);
const uint64_t *expected(enum row r);
uint64_t make_call(void);

/* ---- differ.c ---- */

extern uint64_t seed, call_number;
extern const char *worked_case;             /* the name of the worked case at hand, if it is one */
extern bool answered;                       /* the call is accepted and `due` holds its answer */

_Noreturn void differ(const char *what, uint64_t must_be, uint64_t is);
_Noreturn void differ_in_result(uint64_t must_be, uint64_t is);
void compare_every_word(void);

#endif
