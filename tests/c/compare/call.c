/* The call at hand: its rows between guard words in one arena, and the call itself. */
#include <stdio.h>
#include <stdlib.h>
#include <string.h>
#include <violstream.h>
#include "call.h"
#include "random.h"

/* The header says the same. */
_Static_assert(VIOLSTREAM_MAX_FILES == LIMIT_FILES && VIOLSTREAM_MAX_WANTS == LIMIT_WANTS
               && VIOLSTREAM_MAX_READS == LIMIT_READS, "numbers of files, wants and reads");
_Static_assert(VIOLSTREAM_MAX_AGGREGATE == LIMIT_AGGREGATE, "aggregate numbers");
_Static_assert(VIOLSTREAM_MAX_POSITION == LIMIT_POSITION && VIOLSTREAM_MAX_TURN == LIMIT_TURN, "positions and turn price");
_Static_assert(VIOLSTREAM_ROOM_WORDS(10, 50) == 5100 && VIOLSTREAM_ROOM_MOST == 4198400, "words of room");
_Static_assert(VIOLSTREAM_FILE_ROWS == 1 && VIOLSTREAM_BAD_FILE == 2 && VIOLSTREAM_WANT_ROWS == 3 && VIOLSTREAM_BAD_WANT == 4
               && VIOLSTREAM_TOO_MANY_READS == 5 && VIOLSTREAM_TURN_PRICE == 6 && VIOLSTREAM_HEAD_PLACE == 7
               && VIOLSTREAM_SHORT_ROW == 8 && VIOLSTREAM_SHORT_ROOM == 9 && VIOLSTREAM_BAD_ENTRY == 10
               && VIOLSTREAM_BAD_RULE == 14, "refusal numbers");
_Static_assert(VIOLSTREAM_LEAST == 1, "rule number");

const char *const row_names[ROWS] = {
    "starts", "lengths", "aggregates", "numbers", "counts", "detour_starts", "detour_ends", "times", "legs", "sums", "room",
};

struct call call;
uint64_t *now, *due;
size_t offset[ROWS], arena_words;

static _Noreturn void out_of_memory(size_t bytes)
{
    fprintf(stderr, "compare.c: no memory for %zu bytes\n", bytes);
    exit(2);
}

void *allocate(size_t count, size_t size)
{
    void *p = calloc(count, size);
    if (p == NULL)
        out_of_memory(count * size);
    return p;
}

bool is_read(enum row r)
{
    return r <= COUNTS || (r <= DETOUR_ENDS && !call.plan);
}

uint64_t drafted_reads(void)
{
    uint64_t reads = 0;
    for (size_t i = 0; i < call.length[COUNTS]; i++)
        reads += call.draft[COUNTS][i];
    return reads;
}

uint64_t drafted_tape_end(void)
{
    size_t n = call.length[STARTS];
    return n == 0 ? 0 : call.draft[STARTS][n - 1] + call.draft[LENGTHS][n - 1];
}

/* Where the aggregate of the last want ends. Of a sound table with sound wants; 0 without wants. */
uint64_t drafted_wanted_end(void)
{
    const uint64_t *aggregates = call.draft[AGGREGATES];
    size_t k = call.length[NUMBERS];
    if (k == 0)
        return 0;
    size_t last = (size_t)call.draft[NUMBERS][k - 1] - 1;
    while (aggregates[last] != 0 && last + 1 < call.length[STARTS] && aggregates[last + 1] == aggregates[last])
        last++;
    return call.draft[STARTS][last] + call.draft[LENGTHS][last];
}

/* The names of the stops, and how many there are. Of a sound table with sound wants. */
size_t drafted_stops(uint64_t names[LIMIT_WANTS + 1])
{
    const uint64_t *aggregates = call.draft[AGGREGATES];
    size_t stops = 0;
    for (size_t i = 0; i < call.length[NUMBERS]; i++) {
        size_t first = (size_t)call.draft[NUMBERS][i] - 1;
        while (aggregates[first] != 0 && first > 0 && aggregates[first - 1] == aggregates[first])
            first--;
        if (stops == 0 || names[stops - 1] != first + 1)
            names[stops++] = first + 1;
    }
    return stops;
}

static size_t put_noise(size_t at, size_t words)
{
    for (size_t i = 0; i < words; i++)
        now[at + i] = any_word();
    return at + words;
}

static size_t put_row(size_t at, enum row r)
{
    offset[r] = at;
    if (!is_read(r))
        return put_noise(at, call.length[r]);
    memcpy(now + at, call.draft[r], call.length[r] * sizeof *now);
    return at + call.length[r];
}

static void require_space(void)
{
    size_t words = (ROWS + 1) * (size_t)(GUARD + MOST_SHIFT);
    for (int r = 0; r < ROWS; r++)
        words += call.length[r];
    if (words > ARENA_WORDS)
        out_of_memory(words * sizeof *now);
}

void lay_out(void)
{
    size_t at = 0;
    require_space();
    for (int r = 0; r < ROWS; r++) {
        at = put_noise(at, GUARD + below(MOST_SHIFT + 1));
        at = put_row(at, (enum row)r);
    }
    arena_words = put_noise(at, GUARD);
    memcpy(due, now, arena_words * sizeof *due);
}

bool apart;
static uint64_t *block[ROWS];               /* the rows as they are lent, if apart */

static uint64_t *lent(enum row r)
{
    if (call.null[r] && call.length[r] == 0)
        return NULL;
    return apart ? block[r] : now + offset[r];
}

static void take_apart(void)
{
    for (int r = 0; r < ROWS; r++) {
        size_t bytes = call.length[r] * sizeof *now;
        block[r] = malloc(bytes);
        if (block[r] == NULL && bytes > 0)
            out_of_memory(bytes);
        if (bytes > 0)
            memcpy(block[r], now + offset[r], bytes);
    }
}

static void put_together(void)
{
    for (int r = 0; r < ROWS; r++) {
        if (call.length[r] > 0)
            memcpy(now + offset[r], block[r], call.length[r] * sizeof *now);
        free(block[r]);
    }
}

const uint64_t *expected(enum row r)
{
    return due + offset[r];
}

const char *function_called(void)
{
    static const char *const names[] = {"violstream_price", "violstream_price_any", "violstream_plan", "violstream_plan_any"};
    return names[2 * call.plan + call.any];
}

#define LENT(r) lent(r), call.length[r]

static uint64_t call_library_anywhere(void)
{
    if (call.plan)
        return violstream_plan_any(LENT(STARTS), LENT(LENGTHS), LENT(AGGREGATES), LENT(NUMBERS), LENT(COUNTS), call.head,
                                   call.turn, LENT(DETOUR_STARTS), LENT(DETOUR_ENDS), LENT(TIMES), LENT(LEGS), LENT(SUMS),
                                   LENT(ROOM));
    return violstream_price_any(LENT(STARTS), LENT(LENGTHS), LENT(AGGREGATES), LENT(NUMBERS), LENT(COUNTS), call.head, call.turn,
                                LENT(DETOUR_STARTS), LENT(DETOUR_ENDS), LENT(TIMES), LENT(LEGS), LENT(SUMS));
}

static uint64_t call_library(void)
{
    if (call.any)
        return call_library_anywhere();
    if (call.plan)
        return violstream_plan(LENT(STARTS), LENT(LENGTHS), LENT(AGGREGATES), LENT(NUMBERS), LENT(COUNTS), call.head, call.turn,
                               call.rule, LENT(DETOUR_STARTS), LENT(DETOUR_ENDS), LENT(TIMES), LENT(LEGS), LENT(SUMS),
                               LENT(ROOM));
    return violstream_price(LENT(STARTS), LENT(LENGTHS), LENT(AGGREGATES), LENT(NUMBERS), LENT(COUNTS), call.head, call.turn,
                            LENT(DETOUR_STARTS), LENT(DETOUR_ENDS), LENT(TIMES), LENT(LEGS), LENT(SUMS));
}

uint64_t make_call(void)
{
    if (!apart)
        return call_library();
    take_apart();
    uint64_t result = call_library();
    put_together();
    return result;
}
