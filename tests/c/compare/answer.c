/* The answer of an accepted call. */
#include <string.h>
#include "call.h"
#include "oracle.h"
#include "random.h"

uint64_t *cells;
uint64_t plans_searched, plans_by_cells;

size_t position_of(uint64_t name)
{
    size_t i = 0;
    while (wanted[i] != name)
        i++;
    return i;
}

/* A well-formed list by names as one by position. */
static void take_up_list(const uint64_t *a, const uint64_t *b, size_t n, struct list *list)
{
    list->length = (uint8_t)n;
    for (size_t i = 0; i < n; i++) {
        list->start[i] = (uint8_t)position_of(a[i]);
        list->end[i] = (uint8_t)position_of(b[i]);
    }
}

static bool well_formed(const struct list *list)
{
    uint64_t a[LIMIT_WANTS], b[LIMIT_WANTS];
    for (size_t i = 0; i < list->length; i++) {
        a[i] = wanted[list->start[i]];
        b[i] = wanted[list->end[i]];
        if (broken_at(a, b, i) != NONE)
            return false;
    }
    return true;
}

static void take_out(struct list *list, size_t at)
{
    list->length--;
    for (size_t i = at; i < list->length; i++) {
        list->start[i] = list->start[i + 1];
        list->end[i] = list->end[i + 1];
    }
}

/* Lists that differ in up to two entries from the one given: none is cheaper, none as cheap comes first. */
static void try_neighbours(const struct list *given, uint64_t sum, size_t tries)
{
    struct walk walk;
    for (size_t i = 0; i < tries; i++) {
        struct list other = *given;
        if (other.length > 0 && !one_in(3))
            take_out(&other, below(other.length));
        if (other.length + 1u < run.k && !one_in(3)) {
            size_t start = between(1, run.k - 1);
            put_in(&other, start, between(start, run.k - 1));
        }
        if (!well_formed(&other))
            continue;
        walk_list(&run, &other, &walk);
        if (walk.sum < sum)
            differ("the sum of the list given: a list that differs little is cheaper", walk.sum, sum);
        if (walk.sum == sum && comes_first(&other, given, run.k))
            differ("the list given: one of the same sum comes first; the numbers of their entries", other.length, given->length);
    }
}

/* By the cells of document 000, with starts right of the head taken to be where the head is. */
static uint64_t least_by_cells(void)
{
    struct stops pulled = run;
    for (size_t i = 0; i < run.k; i++)
        pulled.start[i] = turns_at(&run, i);
    return paper_least_by_rows(&pulled, cells);
}

/* More stops than can be searched: the list given stands in the rows; is it least? */
static void examine_list_given(struct list *list)
{
    enum { NEIGHBOURS = 300 };
    const uint64_t *a = now + offset[DETOUR_STARTS], *b = now + offset[DETOUR_ENDS];
    uint64_t n = now[offset[SUMS] + 3];
    if (n >= run.k)
        differ("the number of detours is below the number of stops", run.k - 1, n);
    for (size_t i = 0; i < n; i++)
        if (broken_at(a, b, i) != NONE)
            differ("the list given is well formed; the first bad entry", 0, i + 1);
    take_up_list(a, b, (size_t)n, list);
    struct walk walk;
    walk_list(&run, list, &walk);
    uint64_t least = least_by_cells();
    if (walk.sum != least)
        differ("the sum of the list given, against the cells of document 000", least, walk.sum);
    try_neighbours(list, walk.sum, NEIGHBOURS);
    plans_by_cells++;
}

static void find_list(struct list *list)
{
    list->length = 0;
    if (!call.plan) {
        take_up_list(expected(DETOUR_STARTS), expected(DETOUR_ENDS), call.length[DETOUR_STARTS], list);
    } else if (run.k <= MOST_SEARCHED) {
        search_all_lists(&run, list);
        plans_searched++;
    } else {
        examine_list_given(list);
    }
}

void write_answer(void)
{
    struct list list;
    struct walk walk;
    find_list(&list);
    walk_list(&run, &list, &walk);
    for (size_t i = 0; i < call.length[NUMBERS]; i++) {
        due[offset[TIMES] + i] = walk.times[stop_of[i]];
        due[offset[LEGS] + i] = walk.legs[stop_of[i]];
    }
    uint64_t sums[4] = {walk.sum, walk.finish, walk.end, list.length};
    memcpy(due + offset[SUMS], sums, sizeof sums);
    if (!call.plan)
        return;
    for (size_t i = 0; i < list.length; i++) {
        due[offset[DETOUR_STARTS] + i] = wanted[list.start[i]];
        due[offset[DETOUR_ENDS] + i] = wanted[list.end[i]];
    }
    memset(due + offset[ROOM], 0, room_words() * sizeof *due);
}
