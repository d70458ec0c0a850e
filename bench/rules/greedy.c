/* The rules that start from a detour to every stop and change it entry by entry: document 000, appendix A, and document
 * 003, section 6.1. */
#include "rules.h"
#include <stdbool.h>
#include <string.h>

void list_nodetour(const struct stops *stops, size_t span, uint64_t *room, struct stop_list *list)
{
    (void)stops, (void)span, (void)room;
    list->length = 0;
}

static void reach_each(const struct stops *p, reaches reach)
{
    reach[0] = 0;
    for (size_t a = 1; a < p->k; a++)
        reach[a] = a;
}

void list_gs(const struct stops *stops, size_t span, uint64_t *room, struct stop_list *list)
{
    reaches reach;
    (void)span, (void)room;
    reach_each(stops, reach);
    list_reaches(stops, reach, list);
}

/* ---- What a detour gives and takes, by half: all distances are gone there and back ---- */

/* From the start of stop a to the leftmost stop, with the detours that begin on the way. */
static uint64_t way_left(const struct stops *p, const reaches reach, size_t a)
{
    uint64_t way = p->start[a] - p->start[0];
    for (size_t g = 1; g < a; g++)
        if (reach[g] != 0)
            way += p->end[reach[g]] - p->start[g] + p->turn;
    return way;
}

static uint64_t reads_left(const struct stops *p, size_t a)
{
    uint64_t reads = 0;
    for (size_t g = 0; g < a; g++)
        reads += p->count[g];
    return reads;
}

/* Which stops some detour passes. */
static void mark_passed(const struct stops *p, const reaches reach, bool passed[MOST_STOPS])
{
    size_t far = 0;
    for (size_t g = 0; g < p->k; g++) {
        far = reach[g] > far ? reach[g] : far;
        passed[g] = g > 0 && g <= far;
    }
}

/* Reads of the stops from a on that no detour passes. */
static uint64_t reads_skipped(const struct stops *p, const bool passed[MOST_STOPS], size_t a)
{
    uint64_t reads = 0;
    for (size_t g = a; g < p->k; g++)
        reads += passed[g] ? 0 : p->count[g];
    return reads;
}

/* Where every detour is to one stop: is the sum smaller without the one to f? Document 000, inequality (5). */
static bool detrimental(const struct stops *p, const reaches reach, size_t f)
{
    bool passed[MOST_STOPS];
    mark_passed(p, reach, passed);
    uint64_t given = p->count[f] * way_left(p, reach, f);
    uint64_t taken = (p->end[f] - p->start[f] + p->turn) * (reads_left(p, f) + reads_skipped(p, passed, f + 1));
    return given < taken;
}

/* ---- FGS ---- */

/* One pass from the left. */
static bool filter(const struct stops *p, reaches reach)
{
    bool changed = false;
    for (size_t f = 1; f < p->k; f++)
        if (reach[f] != 0 && detrimental(p, reach, f)) {
            reach[f] = 0;
            changed = true;
        }
    return changed;
}

/* As many passes as there are stops; one that changes nothing is the last that could. */
static void reach_filtered(const struct stops *p, reaches reach)
{
    reach_each(p, reach);
    for (size_t pass = 0; pass < p->k && filter(p, reach); pass++)
        ;
}

void list_fgs(const struct stops *stops, size_t span, uint64_t *room, struct stop_list *list)
{
    reaches reach;
    (void)span, (void)room;
    reach_filtered(stops, reach);
    list_reaches(stops, reach, list);
}

/* ---- LFL: always the first such detour that the head comes to ---- */

static bool postpone_one(const struct stops *p, reaches reach)
{
    for (size_t f = p->k; f-- > 1;)
        if (reach[f] != 0 && detrimental(p, reach, f)) {
            reach[f] = 0;
            return true;
        }
    return false;
}

void list_lfl(const struct stops *stops, size_t span, uint64_t *room, struct stop_list *list)
{
    reaches reach;
    (void)span, (void)room;
    reach_each(stops, reach);
    while (postpone_one(stops, reach))
        ;
    list_reaches(stops, reach, list);
}

/* ---- NFGS and LOGNFGS ---- */

struct extension {
    size_t to;
    int64_t change; /* of the sum, by half: document 000, definition 1 */
};

/* The best end for a detour from f, where none starts yet, at most `span` stops on; the nearest of those as good. */
static struct extension best_extension(const struct stops *p, const reaches reach, size_t f, size_t span)
{
    bool passed[MOST_STOPS];
    mark_passed(p, reach, passed);
    uint64_t way = way_left(p, reach, f), left = reads_left(p, f), skipped = reads_skipped(p, passed, f), read = 0;
    struct extension best = {f, INT64_MAX};
    for (size_t b = f; b < p->k && b - f <= span; b++) {
        read += passed[b] ? 0 : p->count[b];
        uint64_t taken = (p->end[b] - p->start[f] + p->turn) * (left + skipped - read);
        int64_t change = (int64_t)taken - (int64_t)(read * way);
        if (change < best.change)
            best = (struct extension){b, change};
    }
    return best;
}

/* The detour from f anew. `far` is the furthest end of those put down so far; a detour inside one of these stays. */
static void extend(const struct stops *p, reaches reach, size_t f, size_t span, size_t *far)
{
    bool was = reach[f] != 0;
    reach[f] = 0;
    struct extension best = best_extension(p, reach, f, span);
    if (best.change < 0) {
        reach[f] = best.to;
        *far = best.to > *far ? best.to : *far;
    } else if (was && *far > f) {
        reach[f] = f;
    }
}

/* Detours that cross, or end together, are no list: the one that is done later ends before the earlier one starts, and
 * no stop is read later (document 000, lemma 1). */
static void uncross(const struct stops *p, reaches reach)
{
    for (size_t a = p->k; a-- > 1;)
        for (size_t g = a + 1; g <= reach[a]; g++)
            if (reach[g] >= reach[a]) {
                reach[a] = g - 1;
                g = a;
            }
}

void list_nfgs(const struct stops *stops, size_t span, uint64_t *room, struct stop_list *list)
{
    reaches reach;
    size_t far = 0;
    (void)room;
    reach_filtered(stops, reach);
    for (size_t f = 1; f < stops->k; f++)
        extend(stops, reach, f, span, &far);
    uncross(stops, reach);
    list_reaches(stops, reach, list);
}
