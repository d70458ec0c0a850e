/* Lists of detours, by position among the stops: the rules for them, all of them, and their walk. */
#ifndef LISTS_H
#define LISTS_H

#include <stdbool.h>
#include <stddef.h>
#include <stdint.h>
#include "bounds.h"
#include "tables.h"

struct list {
    uint8_t length, start[LIMIT_WANTS], end[LIMIT_WANTS];
};

/* ---- lists.c ---- */

enum rule_broken { NONE, NOT_WANTED, BACKWARD, AT_LEFTMOST, NOT_FALLING, SAME_END, CROSSING, BEYOND_HEAD, RULES };
extern const char *const rule_names[RULES];

enum rule_broken broken_by(const uint64_t *wanted, size_t k, const uint64_t *a, const uint64_t *b, size_t i);
bool comes_first(const struct list *x, const struct list *y, size_t k);
void put_in(struct list *list, size_t start, size_t end);

enum { MOST_SEARCHED = 10 };      /* stops up to which every list is tried */
extern struct list *all_lists[MOST_SEARCHED + 1];
extern size_t number_of_lists[MOST_SEARCHED + 1];

void enumerate_lists(void);

/* ---- walk.c ---- */

struct walk {
    uint64_t sum, finish, end, times[LIMIT_WANTS], legs[LIMIT_WANTS];
};

size_t own_stop(const struct stops *run);
uint64_t turns_at(const struct stops *run, size_t stop);
void walk_list(const struct stops *run, const struct list *list, struct walk *walk);
void search_all_lists(const struct stops *run, struct list *best);

#endif
