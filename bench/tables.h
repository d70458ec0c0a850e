/* Two table programs in C that find the least sum of a run, to measure the planner against and to check it by.
 * Neither judges its input: k, reads, head and turn keep the limits of violstream.h, and stops do not overlap. */
#ifndef TABLES_H
#define TABLES_H

#include <stddef.h>
#include <stdint.h>

enum { MOST_STOPS = 64 };

/* The stops of a run, left to right: aggregates, and files in none, that are wanted. */
struct stops {
    size_t k;
    uint64_t reads; /* of all stops together */
    uint64_t head, turn;
    uint64_t start[MOST_STOPS], end[MOST_STOPS], count[MOST_STOPS];
};

/* A list of detours by position among the stops, from 0. */
struct stop_list {
    size_t length;
    size_t start[MOST_STOPS], end[MOST_STOPS];
};

/* `table` has k * k * (reads + 1) words, of any content; each leaves it as it falls out. */

/* table.c: the planner's own recurrence, and the list read off the table. */
uint64_t table_least(const struct stops *stops, uint64_t *table, struct stop_list *list);

/* paper.c: the cells of document 000, section 4.3, one cell after the other as the formula is written. */
uint64_t paper_least(const struct stops *stops, uint64_t *table);

/* paper.c: the same cells, with n_skip in the innermost loop. */
uint64_t paper_least_by_rows(const struct stops *stops, uint64_t *table);

#endif
