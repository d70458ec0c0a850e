/* Calls violstream_price and violstream_plan, and the same two for a head anywhere, violstream_price_any and
 * violstream_plan_any, at random and compares every answer with one worked out here:
 *
 *   - refusals by judging the call in the order of the table, literally;
 *   - stops by taking the table apart from left to right, once, into aggregates and files that lie in none;
 *   - times, legs, sum, finish and end by moving a head along the legs of the list;
 *   - the least list of up to 10 stops by trying all well-formed lists, enumerated from the three rules as they are
 *     written (1,430 lists for 8 stops), and the literal tie rule;
 *   - for more stops, the least sum by the cells of document 000 (paper.c), and no cheaper or earlier list among lists
 *     that differ from the one given in up to two entries.
 *
 * Where some file lies in an aggregate, the library is called once more, on the stops as files of a table without
 * aggregates: the two answers must be the same, by other names.
 *
 * All rows of a call stand in one arena between guard words. After the call every word of the arena, guards and rows
 * that are only read among them, is compared with what it must be.
 *
 * make -C tests/c compare    (Makefile there says against what)
 * target/tests/compare [--calls N] [--seed S] [--from N] [--apart] [--sheets FILE]
 *                                                 exit status: 0 all agree, 1 a difference, 2 bad usage
 *
 * --sheets writes down plans of at most 8 wants, as run sheets with the plan sheets that must come of them.
 * --apart lends each row in a block of its own from malloc, so that valgrind sees every word read outside a row:
 * valgrind --error-exitcode=9 target/tests/compare --apart --calls 20000
 *
 * random.c draws numbers, draw_runs.c, draw_lists.c, draw_heads.c and draw_calls.c the calls; call.c lends the rows and calls; lists.c,
 * walk.c, judge.c and answer.c work out the answer, joined.c the call on stops alone; sheets.c writes plans down; differ.c says where it is another; met.c counts what was met;
 * worked.c has the cases that are worked by hand. */
#define _POSIX_C_SOURCE 199309L
#include <inttypes.h>
#include <stdbool.h>
#include <stdio.h>
#include <stdlib.h>
#include <string.h>
#include <time.h>
#include "call.h"
#include "compare.h"
#include "draw.h"
#include "oracle.h"
#include "random.h"

enum { DEFAULT_CALLS = 250000, COVERING_CALLS = 100000 };

uint64_t check_call(void)
{
    answered = false;
    lay_out();
    uint64_t must_be = judge();
    uint64_t is = make_call();
    if (is != must_be)
        differ_in_result(must_be, is);
    if (must_be == 0)
        write_answer();
    answered = must_be == 0;
    compare_every_word();
    if (answered) {
        compare_with_joined();
        note_sheet();
    }
    note_call(must_be);
    return must_be;
}

static uint64_t accepted(int plan)
{
    return results[0][plan][0] + results[1][plan][0];
}

static uint64_t refused(int plan)
{
    uint64_t sum = 0;
    for (int number = 1; number < 256; number++)
        sum += results[0][plan][number] + results[1][plan][number];
    return sum;
}

static uint64_t number_argument(const char *name, const char *text)
{
    char *end = NULL;
    uint64_t value = text == NULL ? 0 : strtoull(text, &end, 10);
    if (text == NULL || *text < '0' || *text > '9' || *end != '\0') {
        fprintf(stderr, "compare: %s needs a number, not '%s'\n", name, text == NULL ? "" : text);
        exit(2);
    }
    return value;
}

static double seconds(void)
{
    struct timespec t;
    clock_gettime(CLOCK_MONOTONIC, &t);
    return (double)t.tv_sec + 1e-9 * (double)t.tv_nsec;
}

static void check_random_calls(uint64_t from, uint64_t calls)
{
    for (call_number = from; call_number - from < calls; call_number++) {
        stream = seed;
        stream = any_word() ^ call_number * 0xd1342543de82ef95u;
        draw_call();
        check_call();
    }
}

static void print_summary(uint64_t calls, double taken)
{
    printf("compare.c: %" PRIu64 " calls agree, seed %" PRIu64 ": price %" PRIu64 " accepted, %" PRIu64 " refused; plan %" PRIu64
           " accepted (%" PRIu64 " against all lists, %" PRIu64 " against document 000's cells), %" PRIu64 " refused; %" PRIu64
           " also against their stops alone; %" PRIu64 " accepted with the head anywhere; %.1f s\n",
           calls, seed, accepted(0), refused(0), accepted(1), plans_searched, plans_by_cells, refused(1), compared_joined,
           results[1][0][0] + results[1][1][0], taken);
}

static void read_arguments(char **words, uint64_t *calls, uint64_t *from)
{
    for (; *words != NULL; words++) {
        if (strcmp(*words, "--apart") == 0) {
            apart = true;
            continue;
        }
        if (strcmp(*words, "--sheets") == 0) {
            open_sheets(*++words);
            continue;
        }
        uint64_t *number = strcmp(*words, "--calls") == 0 ? calls
                         : strcmp(*words, "--seed") == 0 ? &seed
                         : strcmp(*words, "--from") == 0 ? from : NULL;
        if (number == NULL) {
            fprintf(stderr, "usage: compare [--calls N] [--seed S] [--from N] [--apart] [--sheets FILE]\n");
            exit(2);
        }
        *number = number_argument(words[0], words[1]);
        words++;
    }
}

int main(int argc, char **argv)
{
    uint64_t calls = DEFAULT_CALLS, from = 0;
    if (argc > 0)
        read_arguments(argv + 1, &calls, &from);
    double began = seconds();
    now = allocate(ARENA_WORDS, sizeof *now);
    due = allocate(ARENA_WORDS, sizeof *due);
    cells = allocate(MOST_ROOM, sizeof *cells);
    joined_room = allocate(MOST_ROOM, sizeof *joined_room);
    enumerate_lists();
    check_worked_cases();
    check_random_calls(from, calls);
    if (calls >= COVERING_CALLS)
        require_all_met();
    close_sheets();
    print_summary(calls, seconds() - began);
    return 0;
}
