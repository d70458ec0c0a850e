/* A table program in C for the planner's recurrence, written without regard to proofs.
 *
 * Cell (a, b, s) is the smallest cost, above what no movement can avoid, of the stops a+1 .. b when a leg that starts at
 * stop a and passes b is still to come and s reads right of b are skipped. The last stop b is skipped, or a detour (c, b)
 * with a < c <= b reads it. Cell (a, b, s) stands at (a*k + b)*(reads+1) + s, and s runs in the innermost loop. */
#include "tables.h"

struct table {
    const struct stops *stops;
    uint64_t *cells;
    uint64_t left[MOST_STOPS + 1]; /* reads of all stops left of a stop */
};

static uint64_t *row(const struct table *t, size_t a, size_t b)
{
    return t->cells + (a * t->stops->k + b) * (t->stops->reads + 1);
}

/* How many values of s a row for the last stop b has: no more reads can be skipped than lie right of b. */
static size_t width(const struct table *t, size_t b)
{
    return (size_t)(t->stops->reads - t->left[b + 1]) + 1;
}

static void sum_up_left(struct table *t)
{
    t->left[0] = 0;
    for (size_t i = 0; i < t->stops->k; i++)
        t->left[i + 1] = t->left[i] + t->stops->count[i];
}

static void set_to_skip(uint64_t *restrict best, const uint64_t *restrict rest, uint64_t fixed, size_t n)
{
    for (size_t s = 0; s < n; s++)
        best[s] = fixed + rest[s];
}

/* best[s] = min(best[s], fixed + slope*s + rest[s]) */
static void improve_by_last(uint64_t *restrict best, const uint64_t *restrict rest, uint64_t fixed, uint64_t slope, size_t n)
{
    for (size_t s = 0; s < n; s++) {
        uint64_t cost = fixed + slope * s + rest[s];
        best[s] = cost < best[s] ? cost : best[s];
    }
}

/* best[s] = min(best[s], fixed + slope*s + inner[s] + rest[s]) */
static void improve_by_longer(uint64_t *restrict best, const uint64_t *restrict inner, const uint64_t *restrict rest,
                              uint64_t fixed, uint64_t slope, size_t n)
{
    for (size_t s = 0; s < n; s++) {
        uint64_t cost = fixed + slope * s + inner[s] + rest[s];
        best[s] = cost < best[s] ? cost : best[s];
    }
}

static void fill_row(const struct table *t, size_t a, size_t b)
{
    const struct stops *p = t->stops;
    uint64_t *best = row(t, a, b);
    size_t n = width(t, b);
    set_to_skip(best, row(t, a, b - 1) + p->count[b], 2 * (p->start[b] - p->start[a]) * p->count[b], n);
    uint64_t slope = 2 * (p->turn + p->end[b] - p->start[b]);
    improve_by_last(best, row(t, a, b - 1), slope * t->left[b], slope, n);
    for (size_t c = b - 1; c > a; c--) {
        slope = 2 * (p->turn + p->end[b] - p->start[c]);
        improve_by_longer(best, row(t, c, b - 1) + p->count[b], row(t, a, c - 1),
                          slope * t->left[c] + 2 * (p->start[b] - p->start[c]) * p->count[b], slope, n);
    }
}

static void fill(const struct table *t)
{
    for (size_t b = 0; b < t->stops->k; b++) {
        uint64_t *empty = row(t, b, b);
        for (size_t s = 0; s < width(t, b); s++)
            empty[s] = 0;
        for (size_t a = 0; a < b; a++)
            fill_row(t, a, b);
    }
}

static uint64_t cost_of_skip(const struct table *t, size_t a, size_t b, uint64_t s)
{
    const struct stops *p = t->stops;
    return 2 * (p->start[b] - p->start[a]) * p->count[b] + row(t, a, b - 1)[s + p->count[b]];
}

static uint64_t cost_of_detour(const struct table *t, size_t a, size_t b, uint64_t s, size_t c)
{
    const struct stops *p = t->stops;
    uint64_t cost = 2 * (p->turn + p->end[b] - p->start[c]) * (t->left[c] + s) + row(t, a, c - 1)[s];
    if (c < b)
        cost += 2 * (p->start[b] - p->start[c]) * p->count[b] + row(t, c, b - 1)[s + p->count[b]];
    return cost;
}

/* The first choice that attains the cell: skip, then the detour that starts furthest right. */
static void read_off(const struct table *t, size_t a, size_t b, uint64_t s, struct stop_list *list)
{
    while (b > a) {
        uint64_t least = row(t, a, b)[s];
        if (cost_of_skip(t, a, b, s) == least) {
            s += t->stops->count[b--];
            continue;
        }
        size_t c = b;
        while (cost_of_detour(t, a, b, s, c) != least)
            c--;
        if (c < b)
            read_off(t, c, b - 1, s + t->stops->count[b], list);
        list->start[list->length] = c;
        list->end[list->length++] = b;
        b = c - 1;
    }
}

static uint64_t unavoidable(const struct stops *p)
{
    uint64_t sum = 0;
    for (size_t i = 0; i < p->k; i++)
        sum += p->count[i] * (p->head + p->turn + p->end[i] - 2 * p->start[i]);
    return sum;
}

uint64_t table_least(const struct stops *stops, uint64_t *table, struct stop_list *list)
{
    struct table t = {.stops = stops, .cells = table};
    list->length = 0;
    if (stops->k == 0)
        return 0;
    sum_up_left(&t);
    fill(&t);
    read_off(&t, 0, stops->k - 1, 0, list);
    return unavoidable(stops) + row(&t, 0, stops->k - 1)[0];
}
