/* ADP: document 003's recursions (6) and (7), in which every file of a block is read by a detour of its own.
 *
 * So what is chosen is only which stops are skipped. Cell (i, n) is what the stops up to i cost, by half and above what no
 * movement can avoid, where n reads right of i are skipped. It stands at i*(reads+1) + n. */
#include "rules.h"

struct choices {
    const struct stops *stops;
    uint64_t *cells;
    uint64_t left[MOST_STOPS + 1]; /* reads of all stops left of a stop */
};

static uint64_t *cells(const struct choices *c, size_t i)
{
    return c->cells + i * (c->stops->reads + 1);
}

/* Skipped, its reads wait while the head goes to the leftmost stop and back, and for every detour on the way. */
static uint64_t cost_skipped(const struct choices *c, size_t i, uint64_t n)
{
    const struct stops *p = c->stops;
    return p->count[i] * (p->start[i] - p->start[0]) + cells(c, i - 1)[n + p->count[i]];
}

static uint64_t cost_detour(const struct choices *c, size_t i, uint64_t n)
{
    const struct stops *p = c->stops;
    return (p->end[i] - p->start[i] + p->turn) * (n + c->left[i]) + cells(c, i - 1)[n];
}

static void fill(const struct choices *c, size_t i)
{
    for (uint64_t n = 0; n <= c->stops->reads - c->left[i + 1]; n++) {
        uint64_t skipped = i == 0 ? 0 : cost_skipped(c, i, n), detour = i == 0 ? 0 : cost_detour(c, i, n);
        cells(c, i)[n] = skipped < detour ? skipped : detour;
    }
}

static void read_off(const struct choices *c, reaches reach)
{
    uint64_t n = 0;
    for (size_t i = c->stops->k; i-- > 1;)
        if (cost_skipped(c, i, n) == cells(c, i)[n])
            n += c->stops->count[i];
        else
            reach[i] = i;
}

void list_adp(const struct stops *stops, size_t span, uint64_t *room, struct stop_list *list)
{
    reaches reach = {0};
    struct choices c = {.stops = stops, .cells = room};
    (void)span;
    for (size_t i = 0; i < stops->k; i++)
        c.left[i + 1] = c.left[i] + stops->count[i];
    for (size_t i = 0; i < stops->k; i++)
        fill(&c, i);
    read_off(&c, reach);
    list_reaches(stops, reach, list);
}
