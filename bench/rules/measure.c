/* Calls of the library. */
#define _POSIX_C_SOURCE 199309L
#include "measure.h"
#include <inttypes.h>
#include <stdio.h>
#include <stdlib.h>
#include <time.h>

static uint64_t *room;
static uint64_t from[VIOLSTREAM_MAX_WANTS], to[VIOLSTREAM_MAX_WANTS], times[VIOLSTREAM_MAX_WANTS], legs[VIOLSTREAM_MAX_WANTS];

void lend_room(void)
{
    room = calloc(VIOLSTREAM_ROOM_MOST, sizeof *room);
    if (room == NULL) {
        fprintf(stderr, "rules: no memory for the room\n");
        exit(1);
    }
}

static void accepted(const struct tape *t, const char *call, uint64_t result)
{
    if (result == 0)
        return;
    fprintf(stderr, "rules: %s refuses a run of %zu wants: %s (place %" PRIu64 ")\n", call, t->wants, violstream_reason(result),
            violstream_place(result));
    exit(1);
}

static struct violstream_run run_of(const struct tape *t)
{
    return (struct violstream_run){.starts = t->starts, .lengths = t->lengths, .aggregates = t->aggregates, .files = t->files,
                                   .numbers = t->numbers, .counts = t->counts, .wants = t->wants,
                                   .head = t->stops.head, .turn = t->stops.turn};
}

static struct violstream_rows rows(size_t detours)
{
    return (struct violstream_rows){.detour_starts = from, .detour_ends = to, .detours = detours,
                                    .times = times, .times_len = VIOLSTREAM_MAX_WANTS,
                                    .legs = legs, .legs_len = VIOLSTREAM_MAX_WANTS,
                                    .room = room, .room_len = VIOLSTREAM_ROOM_MOST};
}

uint64_t least_sum(const struct tape *t)
{
    struct violstream_run run = run_of(t);
    struct violstream_rows answer = rows(VIOLSTREAM_MAX_WANTS);
    accepted(t, "violstream_plan", violstream_plan_rows(&run, VIOLSTREAM_LEAST, &answer));
    return answer.sums[VIOLSTREAM_SUM];
}

uint64_t list_sum(const struct tape *t, const struct stop_list *list)
{
    struct violstream_run run = run_of(t);
    struct violstream_rows answer = rows(list->length);
    for (size_t i = 0; i < list->length; i++) {
        from[i] = t->numbers[list->start[i]];
        to[i] = t->numbers[list->end[i]];
    }
    accepted(t, "violstream_price", violstream_price_rows(&run, &answer));
    return answer.sums[VIOLSTREAM_SUM];
}

void rule_sums(const struct tape *t, uint64_t sums[RULES])
{
    struct stop_list list;
    for (int r = 0; r < RULES; r++) {
        rule_list((enum rule_number)r, &t->stops, room, &list);
        sums[r] = list_sum(t, &list);
    }
}

uint64_t span_sum(const struct tape *t, size_t span)
{
    struct stop_list list;
    list_logdp(&t->stops, span, room, &list);
    return list_sum(t, &list);
}

/* ---- Time ---- */

/* Of the processor: other work on the machine does not count. */
static double microseconds(void)
{
    struct timespec t;
    clock_gettime(CLOCK_PROCESS_CPUTIME_ID, &t);
    return 1e6 * (double)t.tv_sec + 1e-3 * (double)t.tv_nsec;
}

/* Calls until that many microseconds are over: what takes less than the clock can tell is measured by many. */
static const double enough = 100;

double rule_time(const struct tape *t, enum rule_number rule)
{
    struct stop_list list;
    unsigned calls = 0;
    double began = microseconds(), taken;
    do {
        rule_list(rule, &t->stops, room, &list);
        calls++;
        taken = microseconds() - began;
    } while (taken < enough);
    return taken / calls;
}

double least_time(const struct tape *t)
{
    unsigned calls = 0;
    double began = microseconds(), taken;
    do {
        least_sum(t);
        calls++;
        taken = microseconds() - began;
    } while (taken < enough);
    return taken / calls;
}
