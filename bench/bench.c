/* Measures the planner and the pricer through the C boundary, beside two table programs in C (table.c and paper.c), in
 * one process and on the same runs, and prints one table. Every sum is compared, and the planner's list with table.c's.
 *
 * bench/run.sh [--quick | --slow SECONDS] builds and runs it     --quick: each size once, to see that all agree; its times
 * say little     --slow: in place of the table, a search for runs that take the planner long (slow.c) */
#define _POSIX_C_SOURCE 199309L
#include <inttypes.h>
#include <stdbool.h>
#include <stdio.h>
#include <stdlib.h>
#include <string.h>
#include <time.h>
#include <violstream.h>
#include "slow.h"
#include "stack.h"
#include "tables.h"

#ifndef FLAGS
#define FLAGS "flags not given"
#endif

static bool quick;

static _Noreturn void fail(const char *what, uint64_t k, uint64_t reads)
{
    fprintf(stderr, "bench: %s (%" PRIu64 " wants, %" PRIu64 " reads)\n", what, k, reads);
    exit(1);
}

static double milliseconds(void)
{
    struct timespec t;
    clock_gettime(CLOCK_MONOTONIC, &t);
    return 1e3 * (double)t.tv_sec + 1e-6 * (double)t.tv_nsec;
}

/* ---- Runs ---- */

static uint64_t state = 88172645463325252u;

static uint64_t upto(uint64_t most)
{
    state ^= state << 13;
    state ^= state >> 7;
    state ^= state << 17;
    return 1 + state % most;
}

/* A run as the boundary takes it, and its stops as the table programs take them. */
struct request {
    size_t files, wants;
    uint64_t starts[VIOLSTREAM_MAX_FILES], lengths[VIOLSTREAM_MAX_FILES], aggregates[VIOLSTREAM_MAX_FILES];
    uint64_t numbers[VIOLSTREAM_MAX_WANTS], counts[VIOLSTREAM_MAX_WANTS];
    struct stops stops;
    uint64_t names[VIOLSTREAM_MAX_WANTS];   /* of the stops: their first files */
};

static void add_file(struct request *q, uint64_t most_length)
{
    size_t n = q->files++;
    uint64_t end = n == 0 ? 0 : q->starts[n - 1] + q->lengths[n - 1];
    q->starts[n] = end + upto(most_length / 4 + 1);
    q->lengths[n] = upto(most_length);
    q->aggregates[n] = 0;
}

static void want_last_file(struct request *q)
{
    q->counts[q->wants] = 1;
    q->numbers[q->wants++] = q->files;
}

static bool one_aggregate(const struct request *q, size_t file, size_t next)
{
    return q->aggregates[file] != 0 && q->aggregates[file] == q->aggregates[next];
}

/* The stops of the wants: those of one aggregate are one. */
static void join(struct request *q)
{
    struct stops *p = &q->stops;
    p->k = 0;
    for (size_t i = 0; i < q->wants; i++) {
        size_t first = (size_t)q->numbers[i] - 1, last = first;
        while (first > 0 && one_aggregate(q, first - 1, first))
            first--;
        while (last + 1 < q->files && one_aggregate(q, last, last + 1))
            last++;
        if (p->k > 0 && q->names[p->k - 1] == first + 1) {
            p->count[p->k - 1] += q->counts[i];
            continue;
        }
        q->names[p->k] = first + 1;
        p->start[p->k] = q->starts[first];
        p->end[p->k] = q->starts[last] + q->lengths[last];
        p->count[p->k++] = q->counts[i];
    }
}

/* k wants on a tape of at least 2 * k files: of the leftmost files all but every third are wanted. */
static void make_request(struct request *q, size_t k, uint64_t reads, size_t files)
{
    const uint64_t most_length = 100000000;
    q->files = q->wants = 0;
    q->stops = (struct stops){.reads = reads, .turn = upto(1000000)};
    while (q->files < files) {
        add_file(q, most_length);
        if (q->wants < k && q->files % 3 != 0)
            want_last_file(q);
    }
    for (uint64_t rest = reads - k; rest > 0; rest--)
        q->counts[upto(k) - 1]++;
    q->stops.head = q->starts[files - 1] + q->lengths[files - 1];
    join(q);
}

/* Every so many files in an aggregate. The numbers fall, so that none is looked for. */
static void aggregate(struct request *q, size_t together)
{
    for (size_t i = 0; i < q->files; i++)
        q->aggregates[i] = VIOLSTREAM_MAX_AGGREGATE - i / together;
    join(q);
}

/* Every file in an aggregate of its own, in the order in which judging takes longest: the lowest number, the highest, and then
 * the others, so that each lies between numbers that were met and is looked for among them. */
static void aggregate_worst(struct request *q)
{
    for (size_t i = 0; i < q->files; i++)
        q->aggregates[i] = i;
    q->aggregates[0] = 1;
    q->aggregates[1] = VIOLSTREAM_MAX_AGGREGATE;
    join(q);
}

/* ---- Engines ---- */

static uint64_t *room;                      /* shared by all engines */
static uint64_t from[VIOLSTREAM_MAX_WANTS], to[VIOLSTREAM_MAX_WANTS], times[VIOLSTREAM_MAX_WANTS];
static uint64_t legs[VIOLSTREAM_MAX_WANTS], sums[VIOLSTREAM_SUMS];
static struct stop_list table_list;

static uint64_t by_boundary(const struct request *q)
{
    const struct stops *p = &q->stops;
    uint64_t result = violstream_plan(q->starts, q->files, q->lengths, q->files, q->aggregates, q->files, q->numbers,
                                      q->wants, q->counts, q->wants, p->head, p->turn, VIOLSTREAM_LEAST, from,
                                      VIOLSTREAM_MAX_WANTS, to, VIOLSTREAM_MAX_WANTS, times, VIOLSTREAM_MAX_WANTS, legs,
                                      VIOLSTREAM_MAX_WANTS, sums, VIOLSTREAM_SUMS, room, VIOLSTREAM_ROOM_MOST);
    if (result != 0)
        fail(violstream_reason(result), p->k, p->reads);
    return sums[VIOLSTREAM_SUM];
}

static uint64_t by_table(const struct request *q)
{
    return table_least(&q->stops, room, &table_list);
}

static uint64_t by_paper(const struct request *q)
{
    return paper_least(&q->stops, room);
}

static uint64_t by_paper_rows(const struct request *q)
{
    return paper_least_by_rows(&q->stops, room);
}

/* Not an engine: what it takes to clear the room, which the planner does and the others do not. */
static uint64_t by_clearing(const struct request *q)
{
    memset(room, 0, VIOLSTREAM_ROOM_WORDS(q->stops.k, q->stops.reads) * sizeof *room);
    return room[0];
}

enum engine { BOUNDARY, TABLE, PAPER, PAPER_ROWS, CLEARING, ENGINES };
static uint64_t (*const engines[ENGINES])(const struct request *) = {
    by_boundary, by_table, by_paper, by_paper_rows, by_clearing,
};

static double time_once(enum engine e, const struct request *q, uint64_t *sum)
{
    size_t words = VIOLSTREAM_ROOM_WORDS(q->stops.k, q->stops.reads);
    for (size_t i = 0; i < words; i++)
        room[i] = 0x5555555555555555u + i;
    double began = milliseconds();
    *sum = engines[e](q);
    return milliseconds() - began;
}

static void compare_lists(const struct request *q)
{
    if (sums[VIOLSTREAM_DETOURS] != table_list.length)
        fail("the planner's list and table.c's differ in length", q->stops.k, q->stops.reads);
    for (size_t i = 0; i < table_list.length; i++)
        if (from[i] != q->names[table_list.start[i]] || to[i] != q->names[table_list.end[i]])
            fail("the planner's list and table.c's differ", q->stops.k, q->stops.reads);
}

/* All engines in turn, several times; the best time of each. */
static void time_all(const struct request *q, double best[ENGINES])
{
    enum { FEWEST = 5, MOST = 400 };
    const double enough = 1500;             /* milliseconds for one size */
    double began = milliseconds();
    for (int turn = 0; turn < (quick ? 1 : MOST) && (turn < FEWEST || milliseconds() - began < enough); turn++) {
        uint64_t sum[ENGINES];
        for (int e = 0; e < ENGINES; e++) {
            double taken = time_once((enum engine)e, q, &sum[e]);
            best[e] = turn == 0 || taken < best[e] ? taken : best[e];
        }
        if (sum[BOUNDARY] != sum[TABLE] || sum[PAPER] != sum[TABLE] || sum[PAPER_ROWS] != sum[TABLE])
            fail("the sums differ", q->stops.k, q->stops.reads);
        compare_lists(q);
    }
}

/* The planner's time against that of a table program that clears its room too. */
static double same_job(const double best[ENGINES], enum engine e)
{
    return best[BOUNDARY] / (best[e] + best[CLEARING]);
}

static void print_size(const struct request *q, const char *where)
{
    double best[ENGINES];
    time_all(q, best);
    printf("%6zu %6" PRIu64 "  %-9s | %8.3f  %8.3f  %8.3f     %8.3f  %8.3f | %10.2f | %5.2f  %5.2f  %11.2f\n", q->wants,
           q->stops.reads, where, best[BOUNDARY], best[TABLE], best[PAPER], best[PAPER_ROWS], best[CLEARING],
           best[BOUNDARY] / best[TABLE], same_job(best, TABLE), same_job(best, PAPER), same_job(best, PAPER_ROWS));
    fflush(stdout);
}

/* One read for each want, and all the others at one of them: the dearest shapes have it at one end. */
static void crowd(struct request *q, size_t at)
{
    for (size_t i = 0; i < q->wants; i++)
        q->counts[i] = 1;
    q->counts[at] += q->stops.reads - q->wants;
    join(q);
}

/* The slowest shape found (slow.c): each file half as long as the one to its left, down to 1, no gaps, all wanted; a turn costs 1,
 * and the reads crowd the rightmost. What a choice comes to then dips below the row in many blocks. */
static void make_halving(struct request *q)
{
    uint64_t place = 0, length = VIOLSTREAM_MAX_POSITION / 4;
    q->files = q->wants = 0;
    q->stops = (struct stops){.reads = VIOLSTREAM_MAX_READS, .turn = 1};
    while (q->files < VIOLSTREAM_MAX_WANTS) {
        q->starts[q->files] = place;
        q->lengths[q->files] = length;
        q->aggregates[q->files++] = 0;
        want_last_file(q);
        place += length;
        length = length > 1 ? length / 2 : 1;
    }
    q->stops.head = place;
    crowd(q, q->wants - 1);
}

static void print_sizes(struct request *q)
{
    static const size_t wants[] = {8, 16, 32, 64};
    static const uint64_t reads[] = {64, 256, 1024};
    printf("                         |                                                    | boundary / | boundary / with clearing\n"
           " wants  reads  most at   | boundary     table     paper  paper, rows  clearing |      table | table  paper  paper, rows\n");
    for (size_t i = 0; i < sizeof wants / sizeof *wants; i++)
        for (size_t j = 0; j < sizeof reads / sizeof *reads; j++) {
            make_request(q, wants[i], reads[j], 2 * wants[i]);
            print_size(q, "no file");
        }
    crowd(q, 0);
    print_size(q, "leftmost");
    crowd(q, q->wants / 2);
    print_size(q, "middle");
    crowd(q, q->wants - 1);
    print_size(q, "rightmost");
    static const size_t together[] = {1, 2, 6};
    for (size_t i = 0; i < sizeof together / sizeof *together; i++) {
        char where[32];
        make_request(q, 64, 1024, 128);
        aggregate(q, together[i]);
        snprintf(where, sizeof where, "%zu by %zu", q->stops.k, together[i]);
        print_size(q, where);
    }
    make_halving(q);
    print_size(q, "halving");
}

/* ---- The pricer ---- */

static void price(const struct request *q, size_t detours)
{
    const struct stops *p = &q->stops;
    uint64_t result = violstream_price(q->starts, q->files, q->lengths, q->files, q->aggregates, q->files, q->numbers,
                                       q->wants, q->counts, q->wants, p->head, p->turn, from, detours, to, detours, times,
                                       VIOLSTREAM_MAX_WANTS, legs, VIOLSTREAM_MAX_WANTS, sums, VIOLSTREAM_SUMS);
    if (result != 0)
        fail(violstream_reason(result), p->k, p->reads);
}

/* Each stop by a detour of its own, from the right. */
static size_t single_detours(const struct request *q)
{
    size_t k = q->stops.k;
    for (size_t i = 0; i + 1 < k; i++)
        from[i] = to[i] = q->names[k - 1 - i];
    return k - 1;
}

/* Detours around detours, from the middle outwards. */
static size_t nested_detours(const struct request *q)
{
    size_t middle = q->stops.k / 2, n = 0;
    for (; n + 1 < middle; n++) {
        from[n] = q->names[middle - n];
        to[n] = q->names[middle + n];
    }
    return n;
}

static void print_price(const struct request *q, const char *list, size_t detours)
{
    int turns = quick ? 1 : 2000;
    double best = 0;
    for (int turn = 0; turn < turns; turn++) {
        double began = milliseconds();
        price(q, detours);
        double taken = milliseconds() - began;
        best = turn == 0 || taken < best ? taken : best;
    }
    printf("price, 64 wants, 1,024 reads, %4zu files, %2zu detours (%s): %.1f microseconds\n", q->files, detours, list, 1e3 * best);
}

static void print_prices(struct request *q)
{
    make_request(q, 64, 1024, 128);
    print_price(q, "none", 0);
    print_price(q, "one each", single_detours(q));
    print_price(q, "nested", nested_detours(q));
    make_request(q, 64, 1024, VIOLSTREAM_MAX_FILES);
    print_price(q, "one each", single_detours(q));
    for (size_t i = 0; i < q->wants; i++)
        q->numbers[i] = (i + 1) * 64;
    aggregate(q, 64);
    print_price(q, "one each, aggregates of 64", single_detours(q));
}

/* ---- Aggregate numbers in the worst order ---- */

/* 4,096 files, each in an aggregate of its own. Judging looks for each number among those before it; the bar is 10 ms. */
static void print_worst_order(struct request *q)
{
    enum { TURNS = 200 };
    double price_best = 0, plan_best = 0;
    make_request(q, 2, 2, VIOLSTREAM_MAX_FILES);
    aggregate_worst(q);
    for (int turn = 0; turn < (quick ? 1 : TURNS); turn++) {
        double began = milliseconds();
        price(q, 0);
        double priced = milliseconds();
        by_boundary(q);
        double planned = milliseconds();
        price_best = turn == 0 || priced - began < price_best ? priced - began : price_best;
        plan_best = turn == 0 || planned - priced < plan_best ? planned - priced : plan_best;
    }
    printf("4,096 aggregates of one file, numbers in the worst order, 2 wants: price %.2f ms, plan %.2f ms (bar: 10)\n", price_best,
           plan_best);
}

/* ---- A head anywhere ---- */

static uint64_t by_anywhere(const struct request *q)
{
    const struct stops *p = &q->stops;
    uint64_t result = violstream_plan_any(q->starts, q->files, q->lengths, q->files, q->aggregates, q->files, q->numbers,
                                          q->wants, q->counts, q->wants, p->head, p->turn, from, VIOLSTREAM_MAX_WANTS, to,
                                          VIOLSTREAM_MAX_WANTS, times, VIOLSTREAM_MAX_WANTS, legs, VIOLSTREAM_MAX_WANTS, sums,
                                          VIOLSTREAM_SUMS, room, VIOLSTREAM_ROOM_MOST);
    if (result != 0)
        fail(violstream_reason(result), p->k, p->reads);
    return sums[VIOLSTREAM_SUM];
}

/* The planner for any head beside the other, the head right of everything; then with the head amid the stops, and at 0. All in
 * turn, the best time of each. */
static void print_anywhere(struct request *q, const char *where)
{
    enum { PLAN, RIGHT, AMID, LEFT, CALLS, TURNS = 60 };
    const uint64_t right = q->stops.head, places[CALLS] = {right, right, q->stops.start[q->stops.k / 2], 0};
    double best[CALLS];
    for (int turn = 0; turn < (quick ? 1 : TURNS); turn++) {
        uint64_t sum[CALLS];
        for (int c = 0; c < CALLS; c++) {
            q->stops.head = places[c];
            double began = milliseconds();
            sum[c] = c == PLAN ? by_boundary(q) : by_anywhere(q);
            double taken = milliseconds() - began;
            best[c] = turn == 0 || taken < best[c] ? taken : best[c];
        }
        if (sum[RIGHT] != sum[PLAN])
            fail("the sums of the two planners differ", q->stops.k, q->stops.reads);
    }
    q->stops.head = right;
    printf("a head anywhere, 64 wants, 1,024 reads, most at %s: plan %.2f ms, plan_any %.2f ms (%.2f times, bar: 1.1), head amid %.2f ms, "
           "head at 0 %.2f ms\n", where, best[PLAN], best[RIGHT], best[RIGHT] / best[PLAN], best[AMID], best[LEFT]);
    fflush(stdout);
}

static void print_anywheres(struct request *q)
{
    make_request(q, 64, 1024, 128);
    print_anywhere(q, "no file");
    crowd(q, 0);
    print_anywhere(q, "leftmost");
    crowd(q, q->wants - 1);
    print_anywhere(q, "rightmost");
    make_halving(q);
    print_anywhere(q, "rightmost, halving");
}

/* ---- Small plans ---- */

static void print_small(size_t k, uint64_t reads)
{
    enum { REQUESTS = 1000 };
    struct request *q = calloc(REQUESTS, sizeof *q);
    if (q == NULL)
        fail("no memory for requests", k, reads);
    for (size_t i = 0; i < REQUESTS; i++)
        make_request(&q[i], k, reads, 3 * k);
    size_t plans = 0;
    double began = milliseconds(), taken;
    do {
        by_boundary(&q[plans++ % REQUESTS]);
        taken = milliseconds() - began;
    } while (plans < REQUESTS || taken < (quick ? 0 : 1000));
    printf("plan, %zu wants, %" PRIu64 " reads, %zu files, %d runs in turn: %.0f plans a second\n", k, reads, 3 * k, REQUESTS,
           1e3 * (double)plans / taken);
    free(q);
}

/* ---- Stack ---- */

static const struct request *on_stack;

static void nothing_there(void)
{
}

static void plan_there(void)
{
    by_boundary(on_stack);
}

static void price_there(void)
{
    price(on_stack, single_detours(on_stack));
}

static void print_stack(struct request *q)
{
    make_request(q, 64, 1024, 128);
    on_stack = q;
    size_t unused = stack_bytes(nothing_there);
    size_t plan = stack_bytes(plan_there) - unused;
    size_t price = stack_bytes(price_there) - unused;
    printf("stack at 64 wants and 1,024 reads, bytes: plan %zu, price %zu (with this program's own frame for the call)\n", plan, price);
}

int main(int argc, char **argv)
{
    static struct request request;
    quick = argc == 2 && strcmp(argv[1], "--quick") == 0;
    bool slow = argc == 3 && strcmp(argv[1], "--slow") == 0;
    if (argc > 1 && !quick && !slow) {
        fprintf(stderr, "usage: bench [--quick | --slow SECONDS]\n");
        return 2;
    }
    room = calloc(VIOLSTREAM_ROOM_MOST, sizeof *room);
    if (room == NULL)
        fail("no memory for the room", VIOLSTREAM_MAX_WANTS, VIOLSTREAM_MAX_READS);
    if (slow) {
        if (!search_slow(strtod(argv[2], NULL), 1, room))
            fail("the planner refuses or differs from table.c", VIOLSTREAM_MAX_WANTS, VIOLSTREAM_MAX_READS);
        free(room);
        return 0;
    }
    printf("Milliseconds, the best of %s, one core, C compiled with %s.\n"
           "One buffer serves all: before every timed call, outside the clock, it is filled with a pattern other than zero.\n"
           "No buffer is cleared first. boundary: violstream_plan, which judges, plans, prices and clears its room at the end.\n"
           "table: table.c, which makes table and list. paper: document 000's cells one by one. paper, rows: the same with n_skip innermost.\n"
           "None of these clears its table. clearing: that alone. with clearing: a program's time and that of clearing together.\n"
           "n by m: as no file, all files in aggregates of m, which make n stops of the wants; the table programs take the stops.\n"
           "halving: each file half as long as the one to its left, and most reads at the rightmost; the slowest shape found.\n\n",
           quick ? "one" : "at least 5", FLAGS);
    print_sizes(&request);
    printf("\n");
    print_prices(&request);
    print_worst_order(&request);
    print_anywheres(&request);
    print_small(4, 8);
    print_small(10, 50);
    print_stack(&request);
    free(room);
    return 0;
}
