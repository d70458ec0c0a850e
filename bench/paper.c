/* The cells of document 000 (Honoré, Simon, Suter), section 4.3, in that paper's words:
 *
 *   T[b, b, n]   = 2 s(b) (n + nl(b))
 *   skip         = T[a, left(b), n + x(b)] + 2 (r(b) - r(left(b))) (n + nl(a)) + 2 (l(b) - r(left(b))) x(b)
 *   detour_c     = T[a, left(c), n] + T[c, b, n] + 2 (r(b) - r(left(c))) (n + nl(a)) + 2 U (n + nl(c))
 *   T[a, b, n]   = min(skip, min over c in (a, b] of detour_c)
 *
 * with n reads skipped, x(b) the reads of b, nl(b) those of all requested files left of b. The least sum is VirtualLB
 * plus T[first, last, 0]. Only values of n that can occur are filled: no more reads are skipped than lie right of b. */
#include "tables.h"

struct cells {
    const struct stops *stops;
    uint64_t *words;
    uint64_t left[MOST_STOPS + 1]; /* nl */
};

static uint64_t *cells_of(const struct cells *t, size_t a, size_t b)
{
    return t->words + (a * t->stops->k + b) * (t->stops->reads + 1);
}

static uint64_t most_skipped(const struct cells *t, size_t b)
{
    return t->stops->reads - t->left[b + 1];
}

static void sum_up_left(struct cells *t)
{
    t->left[0] = 0;
    for (size_t i = 0; i < t->stops->k; i++)
        t->left[i + 1] = t->left[i] + t->stops->count[i];
}

static uint64_t virtual_lower_bound(const struct stops *p)
{
    uint64_t sum = 0;
    for (size_t f = 0; f < p->k; f++)
        sum += p->count[f] * (p->head - p->start[f] + (p->end[f] - p->start[f]) + p->turn);
    return sum;
}

static void fill_single(const struct cells *t, size_t b)
{
    const struct stops *p = t->stops;
    uint64_t *cell = cells_of(t, b, b);
    for (uint64_t n = 0; n <= most_skipped(t, b); n++)
        cell[n] = 2 * (p->end[b] - p->start[b]) * (n + t->left[b]);
}

static uint64_t skip(const struct cells *t, size_t a, size_t b, uint64_t n)
{
    const struct stops *p = t->stops;
    return cells_of(t, a, b - 1)[n + p->count[b]] + 2 * (p->end[b] - p->end[b - 1]) * (n + t->left[a])
         + 2 * (p->start[b] - p->end[b - 1]) * p->count[b];
}

static uint64_t detour(const struct cells *t, size_t c, size_t a, size_t b, uint64_t n)
{
    const struct stops *p = t->stops;
    return cells_of(t, a, c - 1)[n] + cells_of(t, c, b)[n] + 2 * (p->end[b] - p->end[c - 1]) * (n + t->left[a])
         + 2 * p->turn * (n + t->left[c]);
}

static uint64_t cell(const struct cells *t, size_t a, size_t b, uint64_t n)
{
    uint64_t least = skip(t, a, b, n);
    for (size_t c = a + 1; c <= b; c++) {
        uint64_t cost = detour(t, c, a, b, n);
        least = cost < least ? cost : least;
    }
    return least;
}

static void fill_one_by_one(const struct cells *t, size_t a, size_t b)
{
    for (uint64_t n = 0; n <= most_skipped(t, b); n++)
        cells_of(t, a, b)[n] = cell(t, a, b, n);
}

/* least[n] = min(least[n], x[n] + y[n] + fixed + slope*n) */
static void take_smaller(uint64_t *restrict least, const uint64_t *restrict x, const uint64_t *restrict y,
                         uint64_t fixed, uint64_t slope, uint64_t most)
{
    for (uint64_t n = 0; n <= most; n++) {
        uint64_t cost = x[n] + y[n] + fixed + slope * n;
        least[n] = cost < least[n] ? cost : least[n];
    }
}

static void fill_as_row(const struct cells *t, size_t a, size_t b)
{
    const struct stops *p = t->stops;
    uint64_t most = most_skipped(t, b), *least = cells_of(t, a, b);
    for (uint64_t n = 0; n <= most; n++)
        least[n] = skip(t, a, b, n);
    for (size_t c = a + 1; c <= b; c++) {
        uint64_t length = 2 * (p->end[b] - p->end[c - 1]);
        take_smaller(least, cells_of(t, a, c - 1), cells_of(t, c, b),
                     length * t->left[a] + 2 * p->turn * t->left[c], length + 2 * p->turn, most);
    }
}

/* A cell (a, b) asks for (a, b-1), (a, c-1) and (c, b): b rises, a falls. */
static uint64_t least_sum(const struct stops *stops, uint64_t *table,
                          void (*fill)(const struct cells *, size_t, size_t))
{
    struct cells t = {.stops = stops, .words = table};
    if (stops->k == 0)
        return 0;
    sum_up_left(&t);
    for (size_t b = 0; b < stops->k; b++) {
        fill_single(&t, b);
        for (size_t a = b; a-- > 0;)
            fill(&t, a, b);
    }
    return virtual_lower_bound(stops) + cells_of(&t, 0, stops->k - 1)[0];
}

uint64_t paper_least(const struct stops *stops, uint64_t *table)
{
    return least_sum(stops, table, fill_one_by_one);
}

uint64_t paper_least_by_rows(const struct stops *stops, uint64_t *table)
{
    return least_sum(stops, table, fill_as_row);
}
