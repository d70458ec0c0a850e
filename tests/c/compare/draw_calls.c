/* Kinds of calls. */
#include "draw.h"
#include "lists.h"
#include "random.h"

static size_t any_small(void)
{
    return one_in(3) ? below(9) : between(5, 8);
}

static void sound_plan(size_t k)
{
    call.plan = true;
    draw_run(k);
    draw_answer_rows();
}

/* At most 8 stops, of which lists are soon tried; of more wants where aggregates make them so few. */
static void small_plan(void)
{
    uint64_t names[LIMIT_WANTS + 1];
    sound_plan(one_in(4) ? between(9, 20) : any_small());
    if (drafted_stops(names) > 8)
        sound_plan(any_small());
}

static void sound_price(size_t k)
{
    call.plan = false;
    draw_run(k);
    draw_list();
    draw_answer_rows();
}

static void sound_call(void)
{
    if (one_in(2))
        small_plan();
    else
        sound_price(one_in(4) ? between(0, LIMIT_WANTS) : below(13));
}

static void price_broken_list(void)
{
    sound_price(one_in(3) ? between(9, LIMIT_WANTS) : between(0, 12));
    break_list();
    if (one_in(4))
        break_list();
    if (one_in(16))
        call.length[one_in(2) ? DETOUR_STARTS : DETOUR_ENDS]--;
}

/* 64 wants; with 1,024 reads and no aggregates there is no larger call. */
static void largest_plan(uint64_t reads)
{
    sound_plan(LIMIT_WANTS);
    draw_reads(reads);
    draw_answer_rows();
}

static void largest_price(void)
{
    sound_price(LIMIT_WANTS);
    draw_reads(LIMIT_READS);
}

static void long_table(size_t files)
{
    size_t k = below(9);
    struct spread gap = ANY_SPREAD(0, 1, 1000), length = ANY_SPREAD(1, 2, 1000, 1 << 27);
    draw_tape(files, 0, gap, length);
    for (size_t i = 0, alone = one_in(3); alone && i < files; i++)
        call.draft[AGGREGATES][i] = LIMIT_AGGREGATE - i % LIMIT_AGGREGATE;
    for (size_t i = 0; i < k; i++)
        call.draft[NUMBERS][i] = files / k * i + 1 + below(files / k);
    call.length[NUMBERS] = k;
    draw_counts((struct spread){3, false});
    call.head = LIMIT_POSITION;
}

/* Lends one word less, or as much as is needed and no more. */
static void lend_edge(enum row r, size_t needed, bool over)
{
    call.length[r] = over && needed > 0 ? needed - 1 : needed;
}

static uint64_t odd_rule(void)
{
    static const uint64_t odd[] = {0, 0, 2, 3, 255, 256, 257, 4294967296u, 4294967297u, (uint64_t)1 << 63, UINT64_MAX};
    return odd[below(sizeof odd / sizeof *odd)];
}

/* The head at the last wanted file's own end, where its aggregate may go on. */
static void head_at_last_want(void)
{
    size_t last = (size_t)call.draft[NUMBERS][call.length[NUMBERS] - 1] - 1;
    call.head = call.draft[STARTS][last] + call.draft[LENGTHS][last];
}

static void run_at_edge(bool over)
{
    size_t k = call.length[NUMBERS];
    switch (below(6)) {
    case 0: call.turn = LIMIT_TURN + over; break;
    case 1: call.head = LIMIT_POSITION + over; break;
    case 2: call.head = drafted_wanted_end() - (over && k > 0); break;
    case 3:
        shift_to_limit();
        if (over && call.length[STARTS] > 0)
            call.draft[LENGTHS][call.length[STARTS] - 1]++;
        call.head = LIMIT_POSITION;
        break;
    case 4:
        if (k > 0)
            head_at_last_want();
        break;
    default:
        if (k > 0)
            draw_reads(LIMIT_READS + over);
    }
}

static void rows_at_edge(bool over)
{
    uint64_t names[LIMIT_WANTS + 1];
    size_t k = drafted_stops(names), wants = call.length[NUMBERS], most_detours = k == 0 ? 0 : k - 1;
    switch (below(call.plan ? 6 : 3)) {
    case 0: lend_edge(TIMES, wants, over); break;
    case 1: lend_edge(LEGS, wants, over); break;
    case 2: lend_edge(SUMS, 4, over); break;
    case 3: lend_edge(ROOM, k * k * (size_t)(drafted_reads() + 1), over); break;
    case 4: lend_edge(DETOUR_STARTS, most_detours, over); break;
    default: lend_edge(DETOUR_ENDS, most_detours, over);
    }
}

/* A number that returns after another entry, or after 0; or after neither, which it may. */
static void return_number(void)
{
    uint64_t *aggregates = call.draft[AGGREGATES], number = between(1, LIMIT_AGGREGATE);
    size_t n = call.length[AGGREGATES];
    if (n < 3)
        return;
    size_t at = below(n - 2);
    aggregates[at] = aggregates[one_in(2) ? at + 2 : between(at + 2, n - 1)] = number;
    if (one_in(2))
        aggregates[at + 1] = one_in(2) ? 0 : number;
}

static void numbers_at_edge(bool over)
{
    switch (below(12)) {
    case 0: long_table(LIMIT_FILES + over); break;
    case 1:
        draw_run(LIMIT_WANTS + over);
        draw_counts((struct spread){2, false});
        break;
    case 2:
        draw_aggregates(LIMIT_AGGREGATE + over);
        call.head = LIMIT_POSITION;
        break;
    case 3:
        return_number();
        call.head = LIMIT_POSITION;
        break;
    default: call.rule = over ? odd_rule() : 1;
    }
    if (!call.plan)
        call.length[DETOUR_STARTS] = call.length[DETOUR_ENDS] = 0;
    draw_answer_rows();
    if (over && one_in(5))
        lengthen((enum row)below(COUNTS + 1));
}

/* At a limit, or one over it. */
static void edge_call(void)
{
    bool over = one_in(2);
    sound_call();
    switch (below(4)) {
    case 0: numbers_at_edge(over); break;
    case 1: rows_at_edge(over); break;
    default:
        run_at_edge(over);
        draw_answer_rows();
        if (one_in(3))
            rows_at_edge(one_in(2));
    }
}

static void damage_word(void)
{
    enum row r = (enum row)below(INPUTS);
    if (call.length[r] == 0 || !is_read(r))
        return;
    uint64_t *word = &call.draft[r][below(call.length[r])];
    *word = wild(*word);
}

static void damage_length(void)
{
    enum row r = (enum row)below(ROWS);
    size_t length = call.length[r];
    switch (below(4)) {
    case 0: lengthen(r); break;
    case 1: call.length[r] = below(length + 1); break;
    default: call.length[r] = length > 0 ? length - 1 : 0;
    }
}

static void swap_words(void)
{
    enum row r = (enum row)below(INPUTS);
    if (call.length[r] < 2 || !is_read(r))
        return;
    uint64_t *word = &call.draft[r][below(call.length[r] - 1)], kept = word[0];
    word[0] = word[1];
    word[1] = kept;
}

static void damaged_call(void)
{
    sound_call();
    for (size_t times = between(1, 3); times > 0; times--)
        switch (below(9)) {
        case 0: call.head = wild(call.head); break;
        case 8: return_number(); break;
        case 1: call.turn = wild(LIMIT_TURN); break;
        case 2: call.rule = one_in(2) ? odd_rule() : wild(0); break;
        case 3:
        case 4: damage_length(); break;
        case 5: swap_words(); break;
        default: damage_word();
        }
}

/* Any numbers in every parameter, in short rows. */
static void wild_call(void)
{
    call.plan = one_in(2);
    for (int r = 0; r < ROWS; r++) {
        bool beside = r == LENGTHS || r == AGGREGATES || r == COUNTS || r == DETOUR_ENDS;
        call.length[r] = beside && !one_in(3) ? call.length[r - 1] : below(7);
        call.null[r] = one_in(2);
        for (size_t i = 0; r < INPUTS && i < call.length[r]; i++)
            call.draft[r][i] = wild(i);
    }
    call.head = wild(0);
    call.turn = wild(0);
    call.rule = wild(0);
}

static void draw_kind(void)
{
    uint64_t kind = below(10000);
    if (kind < 2)
        largest_plan(LIMIT_READS);
    else if (kind < 20)
        largest_plan(between(LIMIT_WANTS, 2 * LIMIT_WANTS));
    else if (kind < 30)
        largest_price();
    else if (kind < 60)
        sound_plan(between(9, MOST_SEARCHED));
    else if (kind < 160)
        sound_plan(between(MOST_SEARCHED + 1, 24));
    else if (kind < 4500)
        small_plan();
    else if (kind < 6000)
        sound_price(one_in(4) ? between(0, LIMIT_WANTS) : below(13));
    else if (kind < 7500)
        price_broken_list();
    else if (kind < 8500)
        edge_call();
    else if (kind < 9800)
        damaged_call();
    else
        wild_call();
}

void draw_call(void)
{
    call.any = false;
    draw_kind();
    if (one_in(2))
        put_head_anywhere();
}
