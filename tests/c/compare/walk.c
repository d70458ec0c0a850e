/* The walk of a list, and the search through all of them. */
#include "call.h"
#include "lists.h"

struct head {
    uint64_t place, clock, leg;
};

/* The head's own stop, the first that starts at or right of the head; k if none does. No detour starts right of it. */
size_t own_stop(const struct stops *run)
{
    size_t i = 0;
    while (i < run->k && run->start[i] < run->head)
        i++;
    return i;
}

/* Where a leg from a stop turns right: at its start, or where the head began if the start lies right of that. */
uint64_t turns_at(const struct stops *run, size_t stop)
{
    return run->start[stop] < run->head ? run->start[stop] : run->head;
}

static void move_left(struct head *head, uint64_t to)
{
    if (to > head->place)
        differ("a leg of this program's own walk goes left", head->place, to);
    head->clock += head->place - to;
    head->place = to;
}

static void move_right(struct head *head, uint64_t to)
{
    if (to < head->place)
        differ("a leg of this program's own walk goes right", head->place, to);
    head->clock += to - head->place;
    head->place = to;
}

/* One leg: left to `from`, turn, right to `to`. What lies wholly inside and is not yet read is read, in this leg. The first
 * leg that is gone has number 1; a stop that is not read yet has leg 0. */
static void go_leg(const struct stops *run, struct head *head, uint64_t from, uint64_t to, struct walk *walk)
{
    head->leg++;
    move_left(head, from);
    head->clock += run->turn;
    for (size_t i = 0; i < run->k; i++)
        if (walk->legs[i] == 0 && from <= run->start[i] && run->end[i] <= to) {
            walk->legs[i] = head->leg;
            walk->times[i] = head->clock + (run->end[i] - from);
        }
    move_right(head, to);
}

void walk_list(const struct stops *run, const struct list *list, struct walk *walk)
{
    struct head head = {run->head, 0, 0};
    for (size_t i = 0; i < run->k; i++)
        walk->legs[i] = 0;
    for (size_t i = 0; i < list->length; i++) {
        go_leg(run, &head, turns_at(run, list->start[i]), run->end[list->end[i]], walk);
        head.clock += run->turn;
    }
    if (run->k > 0) {
        size_t last = run->k - 1;
        while (last > 0 && walk->legs[last] > 0)
            last--;
        go_leg(run, &head, turns_at(run, 0), run->end[last], walk);
    }
    walk->sum = 0;
    for (size_t i = 0; i < run->k; i++)
        walk->sum += run->count[i] * walk->times[i];
    walk->finish = head.clock;
    walk->end = head.place;
}

/* The first start is the furthest right. */
static bool within_reach(const struct list *list, size_t own)
{
    return list->length == 0 || list->start[0] <= own;
}

void search_all_lists(const struct stops *run, struct list *best)
{
    struct walk walk;
    size_t own = own_stop(run);
    *best = all_lists[run->k][0];
    walk_list(run, best, &walk);
    uint64_t least = walk.sum;
    for (size_t i = 1; i < number_of_lists[run->k]; i++) {
        const struct list *list = &all_lists[run->k][i];
        if (!within_reach(list, own))
            continue;
        walk_list(run, list, &walk);
        if (walk.sum < least || (walk.sum == least && comes_first(list, best, run->k))) {
            least = walk.sum;
            *best = *list;
        }
    }
}
