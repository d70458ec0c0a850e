/* The cases that document 01 works by hand, and those with aggregates. */
#include <string.h>
#include "call.h"
#include "compare.h"
#include "draw.h"
#include "oracle.h"
#include "random.h"

struct worked {
    const char *name;
    size_t files;
    uint64_t start[4], length[4];
    size_t wants;
    uint64_t number[4], count[4], head, turn;
    size_t detours;
    uint64_t from[2], to[2], result, sum, leg[4];
    bool least;                             /* the planner gives this list */
    uint64_t aggregate[4], finish, end, time[4];        /* of those with aggregates, or with a head anywhere */
    bool any;
};

#define ALONE {0}, 0, 0, {0}, false                  /* no file in an aggregate, and a head right of everything */
#define SHEET 3, {0, 10, 20}, {10, 4, 30}, 3, {1, 2, 3}, {1, 3, 1}
#define GAP 4, {0, 10, 16, 20}, {10, 4, 4, 30}       /* files 2 and 3 with a gap between them */

static const struct worked worked_cases[] = {
    {"no wants", 1, {0}, {10}, 0, {0}, {0}, 60, 0, 0, {0}, {0}, 0, 0, {0}, true, ALONE},
    {"one file", 1, {5}, {3}, 1, {1}, {3}, 8, 2, 0, {0}, {0}, 0, 24, {1}, true, ALONE},
    {"two files, tie, empty", 2, {0, 10}, {10, 10}, 2, {1, 2}, {1, 1}, 20, 0, 0, {0}, {0}, 0, 70, {1, 1}, true, ALONE},
    {"two files, tie, (2,2)", 2, {0, 10}, {10, 10}, 2, {1, 2}, {1, 1}, 20, 0, 1, {2}, {2}, 0, 70, {2, 1}, false, ALONE},
    {"two reads, (2,2)", 2, {0, 10}, {10, 10}, 2, {1, 2}, {1, 2}, 20, 0, 1, {2}, {2}, 0, 90, {2, 1}, true, ALONE},
    {"two reads, empty", 2, {0, 10}, {10, 10}, 2, {1, 2}, {1, 2}, 20, 0, 0, {0}, {0}, 0, 110, {1, 1}, false, ALONE},
    {"turn 1, empty", 2, {0, 10}, {10, 10}, 2, {1, 2}, {1, 1}, 20, 1, 0, {0}, {0}, 0, 72, {1, 1}, true, ALONE},
    {"turn 1, (2,2)", 2, {0, 10}, {10, 10}, 2, {1, 2}, {1, 1}, 20, 1, 1, {2}, {2}, 0, 74, {2, 1}, false, ALONE},
    {"only file 2", 2, {0, 10}, {10, 10}, 1, {2}, {1}, 20, 0, 0, {0}, {0}, 0, 20, {1}, true, ALONE},
    {"sheet, empty", 3, {0, 10, 20}, {10, 4, 30}, 3, {1, 2, 3}, {1, 3, 1}, 60, 1, 0, {0}, {0}, 0, 407, {1, 1, 1}, false, ALONE},
    {"sheet, (2,2)", 3, {0, 10, 20}, {10, 4, 30}, 3, {1, 2, 3}, {1, 3, 1}, 60, 1, 1, {2}, {2}, 0, 367, {2, 1, 2}, true, ALONE},
    {"sheet, (2,3)", 3, {0, 10, 20}, {10, 4, 30}, 3, {1, 2, 3}, {1, 3, 1}, 60, 1, 1, {2}, {3}, 0, 409, {2, 1, 1}, false, ALONE},
    {"sheet, (3,3)", 3, {0, 10, 20}, {10, 4, 30}, 3, {1, 2, 3}, {1, 3, 1}, 60, 1, 1, {3}, {3}, 0, 615, {2, 2, 1}, false, ALONE},
    {"sheet, (3,3)(2,2)", 3, {0, 10, 20}, {10, 4, 30}, 3, {1, 2, 3}, {1, 3, 1}, 60, 1, 2, {3, 2}, {3, 2}, 0, 565, {3, 2, 1}, false, ALONE},
    {"four files, (3,3)(2,4)", 4, {0, 2, 4, 6}, {2, 2, 2, 2}, 4, {1, 2, 3, 4}, {1, 1, 1, 1}, 8, 1, 2, {3, 2}, {3, 4}, 0, 72, {3, 2, 1, 2}, false, ALONE},
    {"four files, empty", 4, {0, 2, 4, 6}, {2, 2, 2, 2}, 4, {1, 2, 3, 4}, {1, 1, 1, 1}, 8, 1, 0, {0}, {0}, 0, 56, {1, 1, 1, 1}, true, ALONE},
    {"equal ends", 4, {0, 2, 4, 6}, {2, 2, 2, 2}, 4, {1, 2, 3, 4}, {1, 1, 1, 1}, 8, 1, 2, {3, 2}, {4, 4}, 10 + 2 * 256, 0, {0}, false, ALONE},
    {"crossing", 4, {0, 2, 4, 6}, {2, 2, 2, 2}, 4, {1, 2, 3, 4}, {1, 1, 1, 1}, 8, 1, 2, {3, 2}, {4, 3}, 10 + 2 * 256, 0, {0}, false, ALONE},
    {"aggregate, (2,2)", GAP, 3, {1, 3, 4}, {1, 3, 1}, 60, 1, 1, {2}, {2}, 0, 409, {2, 1, 2}, true, {0, 7, 7, 0}, 133, 50, {93, 61, 133}, false},
    {"aggregate, by its second file", GAP, 3, {1, 3, 4}, {1, 3, 1}, 60, 1, 1, {3}, {3}, 10 + 256, 0, {0}, false, {0, 7, 7, 0}, 0, 0, {0}, false},
    {"none, (3,3)", GAP, 3, {1, 3, 4}, {1, 3, 1}, 60, 1, 1, {3}, {3}, 0, 349, {2, 1, 2}, true, {0}, 121, 50, {81, 49, 121}, false},
    {"both members", GAP, 4, {1, 2, 3, 4}, {1, 2, 1, 1}, 60, 1, 1, {2}, {2}, 0, 409, {2, 1, 1, 2}, true, {0, 7, 7, 0}, 133, 50, {93, 61, 61, 133}, false},
    {"head left of the aggregate's end", 2, {0, 10}, {4, 4}, 1, {1}, {1}, 13, 0, 0, {0}, {0}, 7, 0, {0}, true, {9, 9}, 0, 0, {0}, false},
    {"head at the aggregate's end", 2, {0, 10}, {4, 4}, 1, {1}, {1}, 14, 0, 0, {0}, {0}, 0, 28, {1}, true, {9, 9}, 28, 14, {28}, false},
    {"5, 0, 5", GAP, 1, {1}, {1}, 60, 1, 0, {0}, {0}, 2 + 3 * 256, 0, {0}, true, {5, 0, 5, 0}, 0, 0, {0}, false},
    {"5, 3, 3, 5", GAP, 1, {1}, {1}, 60, 1, 0, {0}, {0}, 2 + 4 * 256, 0, {0}, true, {5, 3, 3, 5}, 0, 0, {0}, false},
    {"4,096", GAP, 1, {1}, {1}, 60, 1, 0, {0}, {0}, 0, 71, {1}, true, {4096, 3, 3, 2}, 71, 10, {71}, false},
    {"4,097", GAP, 1, {1}, {1}, 60, 1, 0, {0}, {0}, 2 + 2 * 256, 0, {0}, true, {4096, 4097, 3, 2}, 0, 0, {0}, false},
    {"just mounted", SHEET, 0, 1, 0, {0}, {0}, 0, 107, {1, 1, 1}, true, {0}, 51, 50, {11, 15, 51}, true},
    {"just mounted, (2,2)", SHEET, 0, 1, 1, {2}, {2}, 10 + 256, 0, {0}, false, {0}, 0, 0, {0}, true},
    {"head at 14, empty", SHEET, 14, 1, 0, {0}, {0}, 0, 177, {1, 1, 1}, false, {0}, 65, 50, {25, 29, 65}, true},
    {"head at 14, (2,2)", SHEET, 14, 1, 1, {2}, {2}, 0, 137, {2, 1, 2}, true, {0}, 75, 50, {35, 9, 75}, true},
    {"head at 14, (2,3)", SHEET, 14, 1, 1, {2}, {3}, 0, 179, {2, 1, 1}, false, {0}, 107, 10, {107, 9, 45}, true},
    {"head at 14, (3,3)", SHEET, 14, 1, 1, {3}, {3}, 0, 445, {2, 2, 1}, false, {0}, 103, 14, {99, 103, 37}, true},
    {"head at 10, (3,3)", SHEET, 10, 1, 1, {3}, {3}, 10 + 256, 0, {0}, false, {0}, 0, 0, {0}, true},
    {"a detour from the head", 2, {0, 5}, {1, 1}, 2, {1, 2}, {1, 5}, 4, 0, 1, {2}, {2}, 0, 19, {2, 1}, true, {0}, 9, 1, {9, 2}, true},
    {"head above the limit", SHEET, LIMIT_POSITION + 1, 1, 0, {0}, {0}, 7, 0, {0}, true, {0}, 0, 0, {0}, true},
};

static void draft_words(enum row r, const uint64_t *words, size_t n)
{
    call.length[r] = n;
    memcpy(call.draft[r], words, n * sizeof *words);
}

static void check_worked(const struct worked *w, bool plan)
{
    call.plan = plan;
    call.any = w->any;
    call.head = w->head;
    call.turn = w->turn;
    call.rule = 1;
    draft_words(STARTS, w->start, w->files);
    draft_words(LENGTHS, w->length, w->files);
    draft_words(AGGREGATES, w->aggregate, w->files);
    draft_words(NUMBERS, w->number, w->wants);
    draft_words(COUNTS, w->count, w->wants);
    draft_words(DETOUR_STARTS, w->from, w->detours);
    draft_words(DETOUR_ENDS, w->to, w->detours);
    draw_answer_rows();
    uint64_t result = check_call();
    if (result != w->result)
        differ_in_result(w->result, result);
    if (result == 0 && now[offset[SUMS]] != w->sum)
        differ("the sum worked by hand", w->sum, now[offset[SUMS]]);
    for (size_t i = 0; result == 0 && i < w->wants; i++)
        if (now[offset[LEGS] + i] != w->leg[i])
            differ("a leg worked by hand", w->leg[i], now[offset[LEGS] + i]);
    for (size_t i = 0; result == 0 && w->time[0] != 0 && i < w->wants; i++)
        if (now[offset[TIMES] + i] != w->time[i])
            differ("a time worked by hand", w->time[i], now[offset[TIMES] + i]);
    if (result == 0 && w->time[0] != 0 && (now[offset[SUMS] + 1] != w->finish || now[offset[SUMS] + 2] != w->end))
        differ("the finish worked by hand, at the end worked by hand", w->finish, now[offset[SUMS] + 1]);
    for (size_t i = 0; plan && result == 0 && i < w->detours; i++)
        if (now[offset[DETOUR_STARTS] + i] != w->from[i] || now[offset[DETOUR_ENDS] + i] != w->to[i])
            differ("the start of a detour worked by hand", w->from[i], now[offset[DETOUR_STARTS] + i]);
    if (plan && result == 0 && now[offset[SUMS] + 3] != w->detours)
        differ("the number of detours worked by hand", w->detours, now[offset[SUMS] + 3]);
}

void check_worked_cases(void)
{
    stream = seed;
    for (size_t i = 0; i < sizeof worked_cases / sizeof *worked_cases; i++) {
        worked_case = worked_cases[i].name;
        check_worked(&worked_cases[i], false);
        if (worked_cases[i].least)
            check_worked(&worked_cases[i], true);
    }
    worked_case = NULL;
    memset(results, 0, sizeof results);
    plans_searched = compared_joined = 0;
}
