/* LOGDP: document 000's cells (section 4.3) where a detour may span so many stops and no more (section 4.5).
 *
 * Cell (a, b, n) is what the stops a .. b cost, above what no movement can avoid, where a leg that starts at a and passes b
 * is still to come and n reads right of b are skipped. It stands at (a*k + b)*(reads+1) + n. */
#include "rules.h"

struct windows {
    const struct stops *stops;
    size_t span;
    uint64_t *cells;
    uint64_t left[MOST_STOPS + 1]; /* reads of all stops left of a stop */
};

static uint64_t *cells(const struct windows *w, size_t a, size_t b)
{
    return w->cells + (a * w->stops->k + b) * (w->stops->reads + 1);
}

static uint64_t cost_skipped(const struct windows *w, size_t a, size_t b, uint64_t n)
{
    const struct stops *p = w->stops;
    return cells(w, a, b - 1)[n + p->count[b]] + 2 * (p->end[b] - p->end[b - 1]) * (n + w->left[a]) +
           2 * (p->start[b] - p->end[b - 1]) * p->count[b];
}

static uint64_t cost_detour(const struct windows *w, size_t a, size_t c, size_t b, uint64_t n)
{
    const struct stops *p = w->stops;
    return cells(w, a, c - 1)[n] + cells(w, c, b)[n] + 2 * (p->end[b] - p->end[c - 1]) * (n + w->left[a]) +
           2 * p->turn * (n + w->left[c]);
}

/* The furthest left that a detour to b may start in the window. */
static size_t first_start(const struct windows *w, size_t a, size_t b)
{
    return b > w->span && b - w->span > a + 1 ? b - w->span : a + 1;
}

static uint64_t best_cost(const struct windows *w, size_t a, size_t b, uint64_t n)
{
    const struct stops *p = w->stops;
    if (a == b)
        return 2 * (p->end[b] - p->start[b]) * (n + w->left[b]);
    uint64_t best = cost_skipped(w, a, b, n);
    for (size_t c = first_start(w, a, b); c <= b; c++) {
        uint64_t cost = cost_detour(w, a, c, b, n);
        best = cost < best ? cost : best;
    }
    return best;
}

/* No more reads can be skipped than lie right of b. */
static void fill(const struct windows *w, size_t a, size_t b)
{
    for (uint64_t n = 0; n <= w->stops->reads - w->left[b + 1]; n++)
        cells(w, a, b)[n] = best_cost(w, a, b, n);
}

/* A window that begins right of the leftmost stop is that of a detour, and as short. */
static void fill_all(const struct windows *w)
{
    size_t k = w->stops->k;
    for (size_t a = k; a-- > 0;)
        for (size_t b = a; b < k && (a == 0 || b - a <= w->span); b++)
            fill(w, a, b);
}

/* The detours of a window. */
static void read_off(const struct windows *w, size_t a, size_t b, uint64_t n, reaches reach)
{
    while (b > a) {
        uint64_t best = cells(w, a, b)[n];
        if (cost_skipped(w, a, b, n) == best) {
            n += w->stops->count[b--];
            continue;
        }
        size_t c = first_start(w, a, b);
        while (cost_detour(w, a, c, b, n) != best)
            c++;
        reach[c] = b;
        read_off(w, c, b, n, reach);
        b = c - 1;
    }
}

void list_logdp(const struct stops *stops, size_t span, uint64_t *room, struct stop_list *list)
{
    reaches reach = {0};
    struct windows w = {.stops = stops, .span = span, .cells = room};
    for (size_t i = 0; i < stops->k; i++)
        w.left[i + 1] = w.left[i] + stops->count[i];
    fill_all(&w);
    if (stops->k > 0)
        read_off(&w, 0, stops->k - 1, 0, reach);
    list_reaches(stops, reach, list);
}
