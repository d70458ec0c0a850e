/* An accepted call once more, with its stops handed in as the files of a table without aggregates. The library's two answers
 * must be the same: lists by the stops' names, times and legs by their wants. */
#include <violstream.h>
#include "call.h"
#include "oracle.h"

uint64_t *joined_room;
uint64_t compared_joined;

static struct {
    uint64_t lengths[LIMIT_WANTS], aggregates[LIMIT_WANTS], numbers[LIMIT_WANTS];
    uint64_t from[LIMIT_WANTS], to[LIMIT_WANTS], times[LIMIT_WANTS], legs[LIMIT_WANTS], sums[4];
} joined;

static bool some_file_lies_in_one(void)
{
    for (size_t i = 0; i < call.length[AGGREGATES]; i++)
        if (expected(AGGREGATES)[i] != 0)
            return true;
    return false;
}

static void hand_in_stops(void)
{
    for (size_t i = 0; i < run.k; i++) {
        joined.lengths[i] = run.end[i] - run.start[i];
        joined.aggregates[i] = 0;
        joined.numbers[i] = i + 1;
    }
}

static uint64_t plan_joined(void)
{
    if (call.any)
        return violstream_plan_any(run.start, run.k, joined.lengths, run.k, joined.aggregates, run.k, joined.numbers, run.k,
                                   run.count, run.k, run.head, run.turn, joined.from, LIMIT_WANTS, joined.to, LIMIT_WANTS,
                                   joined.times, LIMIT_WANTS, joined.legs, LIMIT_WANTS, joined.sums, 4, joined_room, MOST_ROOM);
    return violstream_plan(run.start, run.k, joined.lengths, run.k, joined.aggregates, run.k, joined.numbers, run.k, run.count,
                           run.k, run.head, run.turn, call.rule, joined.from, LIMIT_WANTS, joined.to, LIMIT_WANTS, joined.times,
                           LIMIT_WANTS, joined.legs, LIMIT_WANTS, joined.sums, 4, joined_room, MOST_ROOM);
}

/* The list that was handed in, by the numbers that the stops have as files. */
static uint64_t price_joined(void)
{
    size_t n = call.length[DETOUR_STARTS];
    for (size_t i = 0; i < n; i++) {
        joined.from[i] = position_of(expected(DETOUR_STARTS)[i]) + 1;
        joined.to[i] = position_of(expected(DETOUR_ENDS)[i]) + 1;
    }
    if (call.any)
        return violstream_price_any(run.start, run.k, joined.lengths, run.k, joined.aggregates, run.k, joined.numbers, run.k,
                                    run.count, run.k, run.head, run.turn, joined.from, n, joined.to, n, joined.times, LIMIT_WANTS,
                                    joined.legs, LIMIT_WANTS, joined.sums, 4);
    return violstream_price(run.start, run.k, joined.lengths, run.k, joined.aggregates, run.k, joined.numbers, run.k, run.count,
                            run.k, run.head, run.turn, joined.from, n, joined.to, n, joined.times, LIMIT_WANTS, joined.legs,
                            LIMIT_WANTS, joined.sums, 4);
}

static void compare_words(const char *what, uint64_t by_stops, uint64_t is)
{
    if (by_stops != is)
        differ(what, by_stops, is);
}

static void compare_answers(void)
{
    for (size_t i = 0; i < 4; i++)
        compare_words("a word of sums, as for the stops alone", joined.sums[i], now[offset[SUMS] + i]);
    for (size_t i = 0; i < call.length[NUMBERS]; i++) {
        compare_words("a time, as for the stops alone", joined.times[stop_of[i]], now[offset[TIMES] + i]);
        compare_words("a leg, as for the stops alone", joined.legs[stop_of[i]], now[offset[LEGS] + i]);
    }
    for (size_t i = 0; call.plan && i < joined.sums[3]; i++) {
        compare_words("the start of a detour, as for the stops alone", wanted[joined.from[i] - 1], now[offset[DETOUR_STARTS] + i]);
        compare_words("the end of a detour, as for the stops alone", wanted[joined.to[i] - 1], now[offset[DETOUR_ENDS] + i]);
    }
}

void compare_with_joined(void)
{
    if (!some_file_lies_in_one())
        return;
    hand_in_stops();
    compare_words("the result for the stops alone", 0, call.plan ? plan_joined() : price_joined());
    compare_answers();
    compared_joined++;
}
