/* Making lists, well formed and broken. */
#include "draw.h"
#include "lists.h"
#include "random.h"

static uint64_t names[LIMIT_WANTS + 1];     /* of the stops of the run in the draft */
static size_t stops;

static void draft_list(const struct list *list)
{
    call.length[DETOUR_STARTS] = call.length[DETOUR_ENDS] = list->length;
    for (size_t i = 0; i < list->length; i++) {
        call.draft[DETOUR_STARTS][i] = names[list->start[i]];
        call.draft[DETOUR_ENDS][i] = names[list->end[i]];
    }
}

static enum rule_broken broken_in_draft(size_t i)
{
    return broken_by(names, stops, call.draft[DETOUR_STARTS], call.draft[DETOUR_ENDS], i);
}

static bool draft_is_well_formed(void)
{
    for (size_t i = 0; i < call.length[DETOUR_STARTS]; i++)
        if (broken_in_draft(i) != NONE)
            return false;
    return true;
}

/* A well-formed list for more stops than are enumerated, grown one detour at a time. */
static void grow_list(size_t k, struct list *list)
{
    list->length = 0;
    for (size_t tries = below(3 * k); tries > 0 && list->length + 1u < k; tries--) {
        struct list longer = *list;
        size_t start = between(1, k - 1);
        put_in(&longer, start, one_in(2) ? start : between(start, k - 1));
        draft_list(&longer);
        if (draft_is_well_formed())
            *list = longer;
    }
}

/* (k, k) (k-1, k-1) ... : a detour for each stop, the longest list there is. */
static void longest_list(size_t k, struct list *list)
{
    list->length = (uint8_t)(k - 1);
    for (size_t i = 0; i + 1 < k; i++)
        list->start[i] = list->end[i] = (uint8_t)(k - 1 - i);
}

void draw_list(void)
{
    size_t k = stops = drafted_stops(names);
    struct list list;
    if (k <= MOST_SEARCHED)
        list = all_lists[k][below(number_of_lists[k])];
    else if (one_in(8))
        longest_list(k, &list);
    else
        grow_list(k, &list);
    draft_list(&list);
}

static uint64_t any_name(void)
{
    uint64_t files = call.length[STARTS];
    if (one_in(6))
        return one_in(2) ? wild(files) : below(files + 2);
    if (stops == 0)
        return below(3);
    if (one_in(6))                          /* perhaps a file of an aggregate, and not the first */
        return one_in(2) ? call.draft[NUMBERS][below(call.length[NUMBERS])] : names[below(stops)] + 1;
    return names[below(stops)];
}

/* Puts in place of one entry one that breaks a rule chosen at random, if some tries find one. */
void break_list(void)
{
    if (call.length[DETOUR_STARTS] == 0 || one_in(20)) {
        lengthen(DETOUR_STARTS);
        lengthen(DETOUR_ENDS);
    }
    stops = drafted_stops(names);
    size_t at = below(call.length[DETOUR_STARTS]);
    enum rule_broken kind = (enum rule_broken)between(NOT_WANTED, CROSSING);
    for (int tries = 0; tries < 200; tries++) {
        call.draft[DETOUR_STARTS][at] = any_name();
        call.draft[DETOUR_ENDS][at] = any_name();
        if (broken_in_draft(at) == kind)
            return;
    }
}
