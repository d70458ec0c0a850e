/* Tries to make the planner slow. A shape is 64 wanted files with gaps and 1,024 reads; each search starts at one that is drawn
 * from a family (lengths, gaps and reads that grow or shrink along the tape), and goes on from whatever change takes longer. Time
 * is that of the processor, so that other work on the machine does not count. */
#define _POSIX_C_SOURCE 199309L
#include <inttypes.h>
#include <stdbool.h>
#include <stdio.h>
#include <string.h>
#include <time.h>
#include <violstream.h>
#include "slow.h"
#include "tables.h"

enum { FILES = VIOLSTREAM_MAX_WANTS, READS = VIOLSTREAM_MAX_READS, CLIMB = 300, TURNS = 3 };

/* By proportion; make_stops makes whole numbers of them that keep the limits. */
struct shape {
    double length[FILES], gap[FILES], crowd[FILES], turn;
};

static uint64_t state;

static double unit(void)
{
    state ^= state << 13;
    state ^= state >> 7;
    state ^= state << 17;
    return (double)(state >> 11) / 9007199254740992.0;
}

static size_t below(size_t most)
{
    return (size_t)(unit() * (double)most);
}

/* From 1/most to most. */
static double factor(double most)
{
    double f = 1 + unit() * (most - 1);
    return unit() < 0.5 ? f : 1 / f;
}

static double processor_milliseconds(void)
{
    struct timespec t;
    clock_gettime(CLOCK_PROCESS_CPUTIME_ID, &t);
    return 1e3 * (double)t.tv_sec + 1e-6 * (double)t.tv_nsec;
}

/* ---- Shapes ---- */

/* Numbers that grow or shrink by a factor from file to file; `rough`: each by a factor of its own besides. */
static void draw_row(double *row, double first, double by, bool rough)
{
    for (size_t i = 0; i < FILES; i++, first *= by)
        row[i] = first * (rough ? factor(3) : 1);
}

static void draw(struct shape *h)
{
    draw_row(h->length, 1, factor(3), unit() < 0.5);
    draw_row(h->gap, unit() < 0.5 ? 0 : unit(), factor(2), true);
    draw_row(h->crowd, 1, factor(1.5), unit() < 0.5);
    if (unit() < 0.5)
        h->crowd[unit() < 0.7 ? FILES - 1 : below(FILES)] *= 1e18;
    h->turn = 1;
    for (size_t doublings = below(33); doublings > 0; doublings--)
        h->turn *= 2;
}

static void change(struct shape *h)
{
    size_t at = below(FILES);
    double by = factor(1.2);
    switch (below(6)) {
    case 0: h->length[at] *= factor(4); break;
    case 1: h->gap[at] = unit() < 0.5 ? 0 : h->length[at] * factor(10); break;
    case 2: h->crowd[at] *= factor(100); break;
    case 3: h->turn *= factor(4); break;
    case 4:                                 /* all files from here on longer, or shorter, by more and more */
        for (double f = by; at < FILES; at++, f *= by)
            h->length[at] *= f;
        break;
    default:
        for (; at < FILES; at++)
            h->length[at] *= by;
    }
}

static void make_stops(const struct shape *h, struct stops *p)
{
    const double tape = 0.9 * (double)VIOLSTREAM_MAX_POSITION;
    double whole = 0, crowd = 0;
    uint64_t place = 0, left = READS - FILES;
    for (size_t i = 0; i < FILES; i++) {
        whole += h->length[i] + h->gap[i];
        crowd += h->crowd[i];
    }
    *p = (struct stops){.k = FILES, .reads = READS};
    for (size_t i = 0; i < FILES; i++) {
        p->start[i] = place + (uint64_t)(h->gap[i] / whole * tape);
        p->end[i] = place = p->start[i] + 1 + (uint64_t)(h->length[i] / whole * tape);
        uint64_t more = (uint64_t)(h->crowd[i] / crowd * (READS - FILES));
        p->count[i] = 1 + (more < left ? more : left);
        left -= p->count[i] - 1;
    }
    p->count[FILES - 1] += left;
    p->head = place;
    p->turn = h->turn < (double)VIOLSTREAM_MAX_TURN ? (uint64_t)h->turn : VIOLSTREAM_MAX_TURN;
}

/* ---- Engines ---- */

static uint64_t from[FILES], to[FILES], times[FILES], legs[FILES], sums[VIOLSTREAM_SUMS];

static bool plan(const struct stops *p, uint64_t *room)
{
    static const uint64_t alone[FILES];     /* in no aggregate */
    uint64_t lengths[FILES], numbers[FILES];
    for (size_t i = 0; i < FILES; i++) {
        lengths[i] = p->end[i] - p->start[i];
        numbers[i] = i + 1;
    }
    return violstream_plan(p->start, FILES, lengths, FILES, alone, FILES, numbers, FILES, p->count, FILES, p->head, p->turn,
                           VIOLSTREAM_LEAST, from, FILES, to, FILES, times, FILES, legs, FILES, sums, VIOLSTREAM_SUMS, room,
                           VIOLSTREAM_ROOM_MOST) == 0;
}

static bool same_list(const struct stop_list *list)
{
    if (sums[VIOLSTREAM_DETOURS] != list->length)
        return false;
    for (size_t i = 0; i < list->length; i++)
        if (from[i] != list->start[i] + 1 || to[i] != list->end[i] + 1)
            return false;
    return true;
}

/* The best of a few; -1 where the planner refuses or differs from table.c, which is asked where `table` is given. */
static double time_of(const struct stops *p, uint64_t *room, double *table)
{
    double best = -1, table_best = -1;
    for (int turn = 0; turn < TURNS; turn++) {
        struct stop_list list;
        double began = processor_milliseconds();
        if (!plan(p, room))
            return -1;
        double planned = processor_milliseconds();
        best = turn == 0 || planned - began < best ? planned - began : best;
        if (table == NULL)
            continue;
        uint64_t sum = table_least(p, room, &list);
        double taken = processor_milliseconds() - planned;
        table_best = turn == 0 || taken < table_best ? taken : table_best;
        if (sum != sums[VIOLSTREAM_SUM] || !same_list(&list))
            return -1;
    }
    if (table != NULL)
        *table = table_best;
    return best;
}

static void print_run(const struct stops *p)
{
    printf("turn price %" PRIu64 "; gap, length and reads of each file:", p->turn);
    for (size_t i = 0; i < FILES; i++)
        printf("%s%" PRIu64 " %" PRIu64 " %" PRIu64, i % 8 == 0 ? "\n  " : ", ", p->start[i] - (i == 0 ? 0 : p->end[i - 1]),
               p->end[i] - p->start[i], p->count[i]);
    printf("\n");
}

bool search_slow(double seconds, uint64_t seed, uint64_t *room)
{
    struct shape here, there;
    struct stops p, slowest;
    double slow_here = 0, slow = -1, table;
    size_t tried = 0;
    state = 88172645463325252u ^ seed * 0x9e3779b97f4a7c15u;
    for (double began = processor_milliseconds(); processor_milliseconds() - began < 1e3 * seconds; tried++) {
        if (tried % CLIMB == 0) {
            draw(&there);
            slow_here = 0;
        } else {
            there = here;
            for (size_t n = 1 + below(4); n > 0; n--)
                change(&there);
        }
        make_stops(&there, &p);
        double taken = time_of(&p, room, NULL);
        if (taken < 0)
            return false;
        if (taken > slow_here) {
            slow_here = taken;
            here = there;
        }
        if (taken > slow) {
            slow = taken;
            slowest = p;
            if (time_of(&p, room, &table) < 0)
                return false;
        }
    }
    slow = time_of(&slowest, room, &table);
    printf("%zu shapes tried. The slowest takes the planner %.2f ms, table.c %.2f ms without clearing.\n", tried, slow, table);
    print_run(&slowest);
    return slow >= 0;
}
