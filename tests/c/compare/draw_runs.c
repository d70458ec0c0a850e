/* Making sound runs. */
#include "draw.h"
#include "random.h"

static uint64_t draw(struct spread spread, uint64_t least)
{
    return spread.same ? spread.most : between(least, spread.most);
}

struct spread any_spread(const uint64_t *mosts, size_t n)
{
    return (struct spread){mosts[below(n)], one_in(2)};
}

static void add_file(uint64_t *end, struct spread gap, struct spread length)
{
    size_t n = call.length[STARTS]++;
    call.length[LENGTHS]++;
    call.draft[STARTS][n] = *end + draw(gap, 0);
    call.draft[LENGTHS][n] = draw(length, 1);
    *end = call.draft[STARTS][n] + call.draft[LENGTHS][n];
}

/* Numbers that never return, the first of them `top`; files of one number are neighbours. None, some or all files lie in an
 * aggregate, and up to one, a few or many in the same. The others follow at a stride that is odd, so that the first
 * 4,096 numbers differ: one of 1 to 4,096 and whatever `top` is, if that is above. */
void draw_aggregates(uint64_t top)
{
    uint64_t parts_alone = one_in(3) ? 100 : below(3) * 40, longest = (uint64_t[]){1, 2, 4, 30}[below(4)];
    uint64_t stride = (uint64_t[]){1, LIMIT_AGGREGATE - 1, 2 * below(LIMIT_AGGREGATE / 2) + 1}[below(3)], used = 0;
    call.length[AGGREGATES] = call.length[STARTS];
    for (size_t i = 0; i < call.length[AGGREGATES];) {
        uint64_t number = below(100) < parts_alone ? 0 : used == 0 ? top : 1 + (top - 1 + used * stride) % LIMIT_AGGREGATE;
        used += number != 0;
        for (uint64_t files = between(1, longest); files > 0 && i < call.length[AGGREGATES]; files--)
            call.draft[AGGREGATES][i++] = number;
    }
}

/* k wanted files, with up to `unwanted` others before each and after the last. */
void draw_tape(size_t k, size_t unwanted, struct spread gap, struct spread length)
{
    uint64_t end = 0;
    call.length[STARTS] = call.length[LENGTHS] = call.length[NUMBERS] = 0;
    for (size_t i = 0; i <= k; i++) {
        for (size_t others = below(unwanted + 1); others > 0; others--)
            add_file(&end, gap, length);
        if (i == k)
            break;
        add_file(&end, gap, length);
        call.draft[NUMBERS][call.length[NUMBERS]++] = call.length[STARTS];
    }
    draw_aggregates(between(1, LIMIT_AGGREGATE));
}

void draw_counts(struct spread count)
{
    call.length[COUNTS] = call.length[NUMBERS];
    for (size_t i = 0; i < call.length[COUNTS]; i++)
        call.draft[COUNTS][i] = draw(count, 1);
}

/* Spreads R reads over the wants. */
void draw_reads(uint64_t reads)
{
    draw_counts((struct spread){1, true});
    for (uint64_t rest = reads - call.length[COUNTS]; rest > 0;) {
        uint64_t part = between(1, rest < 40 ? rest : 40);
        call.draft[COUNTS][below(call.length[COUNTS])] += part;
        rest -= part;
    }
}

static size_t a_little_more(size_t least)
{
    return least + (one_in(2) ? 0 : below(6));
}

void draw_answer_rows(void)
{
    uint64_t names[LIMIT_WANTS + 1];
    size_t k = drafted_stops(names), wants = call.length[NUMBERS];
    if (call.plan)
        call.length[DETOUR_STARTS] = a_little_more(k == 0 ? 0 : k - 1);
    if (call.plan)
        call.length[DETOUR_ENDS] = a_little_more(k == 0 ? 0 : k - 1);
    call.length[TIMES] = a_little_more(wants);
    call.length[LEGS] = a_little_more(wants);
    call.length[SUMS] = a_little_more(4);
    call.length[ROOM] = call.plan ? a_little_more(k * k * (size_t)(drafted_reads() + 1)) : 0;
    for (int r = 0; r < ROWS; r++)
        call.null[r] = one_in(2);
}

/* Moves every file right so that the last one ends at the limit. */
void shift_to_limit(void)
{
    size_t n = call.length[STARTS];
    if (n == 0)
        return;
    uint64_t by = LIMIT_POSITION - drafted_tape_end();
    for (size_t i = 0; i < n; i++)
        call.draft[STARTS][i] += by;
}

static uint64_t draw_head(uint64_t wanted_end)
{
    uint64_t spare = LIMIT_POSITION - wanted_end;
    switch (below(4)) {
    case 0: return wanted_end + between(0, spare);
    case 1: return wanted_end + between(0, spare < 100 ? spare : 100);
    default: return wanted_end;
    }
}

/* A sound run, rich in ties: one half of all spreads are of equal values, and the small ones are met most. */
void draw_run(size_t k)
{
    struct spread gap = ANY_SPREAD(0, 0, 0, 0, 1, 3, 10, 1000, 2147483648);
    struct spread length = ANY_SPREAD(1, 1, 2, 2, 3, 10, 10, 1000, 2147483648);
    struct spread count = ANY_SPREAD(1, 1, 2, 3, 5, 16);
    struct spread turn = ANY_SPREAD(0, 0, 0, 0, 1, 2, 5, 30, 1000, LIMIT_TURN);
    draw_tape(k, one_in(2) ? 0 : below(3), gap, length);
    if (one_in(8))
        shift_to_limit();
    draw_counts(count);
    call.head = draw_head(drafted_wanted_end());
    call.turn = draw(turn, 0);
    call.rule = 1;
}

/* One word more, of any kind. */
void lengthen(enum row r)
{
    if (is_read(r))
        call.draft[r][call.length[r]] = wild(call.length[r]);
    call.length[r]++;
}
