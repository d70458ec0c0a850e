/* What was met: results, limits from both sides, rules of a list broken at each entry. */
#include <stdio.h>
#include <stdlib.h>
#include "call.h"
#include "oracle.h"

uint64_t results[2][2][256];

enum met {
    LARGEST_PLAN, LARGEST_PRICE, FILES_4096, FILES_4097, AGGREGATE_4096, AGGREGATE_4097, RETURNS_AFTER_NONE,
    RETURNS_AFTER_OTHER, AGGREGATES_UNEQUAL, EACH_ITS_OWN, WANTS_64, WANTS_65, READS_1024, READS_1025, END_AT_LIMIT,
    END_OVER_LIMIT, TURN_AT_LIMIT, TURN_OVER_LIMIT, HEAD_AT_LIMIT, HEAD_OVER_LIMIT, HEAD_AT_END, HEAD_LEFT_OF_END,
    HEAD_AT_LAST_WANT, WANTS_JOINED, FIRST_NOT_WANTED, LATER_WANTED, LATER_NOT_WANTED, ROWS_FOR_STOPS, ROOM_FOR_STOPS,
    TIMES_FOR_STOPS,
    RULE_0, RULE_0_SHORT_ROWS, RULE_2, RULE_255, RULE_256, RULE_LARGEST, UNEQUAL_HALVES, ROWS_JUST_ENOUGH, TIMES_SHORT, LEGS_SHORT,
    SUMS_SHORT, DETOUR_STARTS_SHORT, DETOUR_ENDS_SHORT, ROOM_SHORT, NULL_ROWS,
    INSIDE_A_STOP, AT_A_START, AT_AN_END, LEFT_OF_ALL, PRICED_LEFT_OF_ALL, AT_ZERO, ONE_LEFT_OF_END, DETOUR_FROM_HEAD,
    MANY_FROM_HEAD, ANYWHERE_RIGHT_OF_ALL, METS
};

static const char *const met_names[METS] = {
    "accepted: a plan of 64 wants and 1,024 reads", "accepted: a price of 64 wants and 1,024 reads",
    "accepted: 4,096 files", "refused: 4,097 files",
    "accepted: aggregate number 4,096", "refused: aggregate number 4,097", "refused: a number that returns after 0",
    "refused: a number that returns after another", "refused: aggregates of another number than files",
    "accepted: 4,096 files, each in an aggregate of its own", "accepted: 64 wants", "refused: 65 wants",
    "accepted: 1,024 reads", "refused: 1,025 reads", "accepted: a file that ends at the limit",
    "refused: a file that ends one over the limit", "accepted: turn price at the limit",
    "refused: turn price one over the limit", "accepted: head at the limit", "refused: head one over the limit",
    "accepted: head at the rightmost wanted end", "refused: head one left of the rightmost wanted end",
    "refused: head right of the last wanted file, left of its aggregate's end", "accepted: a plan of wants that are joined, with a detour",
    "accepted: a plan whose list names a file that is not wanted", "refused: a list that names a wanted file which is not the first",
    "refused: a list that names an unwanted file of a wanted aggregate", "accepted: rows for detours by the stops and not by the wants",
    "accepted: room by the stops and not by the wants", "refused: times for the stops and not for the wants",
    "refused: rule 0", "refused: rule 0, before a short row or room", "refused: rule 2", "refused: rule 255",
    "refused: rule 256", "refused: rule 2^64 - 1",
    "refused: halves of a list of unequal number", "accepted: rows and room of just the words needed",
    "refused: times one word short", "refused: legs one word short", "refused: sums one word short",
    "refused: detour starts one word short", "refused: detour ends one word short",
    "refused: room one word short",
    "accepted: a plan with every empty row a null pointer",
    "anywhere: a head inside a stop", "anywhere: a head at a stop's start", "anywhere: a head at a stop's end, with another further right",
    "anywhere: a plan with everything right of the head", "anywhere: a price with everything right of the head",
    "anywhere: a head at 0, with wants", "anywhere: a head one left of the rightmost wanted end",
    "anywhere: a plan with a detour from the head, left of its stop's start", "anywhere: such a plan of more stops than are searched",
    "anywhere: a head right of everything",
};

static uint64_t times_met[METS];

static void note(enum met m, bool is_met)
{
    times_met[m] += is_met;
}

/* Of an accepted table: every file lies in an aggregate, and no two in the same. */
static bool each_in_its_own(void)
{
    for (size_t i = 0; i < call.length[AGGREGATES]; i++)
        if (call.draft[AGGREGATES][i] == 0 || name_of(i + 1) != i + 1)
            return false;
    return true;
}

static void note_numbers(uint64_t result)
{
    const uint64_t *aggregates = call.draft[AGGREGATES];
    bool highest = false, met_before = false;
    size_t at = result % 256 == 2 ? (size_t)(result / 256) - 1 : 0;
    for (size_t i = 0; result == 0 && i < call.length[AGGREGATES]; i++)
        highest = highest || aggregates[i] == LIMIT_AGGREGATE;
    for (size_t i = 0; i + 1 < at; i++)
        met_before = met_before || aggregates[i] == aggregates[at];
    bool returns = met_before && aggregates[at] != 0 && aggregates[at - 1] != aggregates[at];
    note(AGGREGATE_4096, highest);
    note(AGGREGATE_4097, result % 256 == 2 && aggregates[at] == LIMIT_AGGREGATE + 1);
    note(RETURNS_AFTER_NONE, returns && aggregates[at - 1] == 0);
    note(RETURNS_AFTER_OTHER, returns && aggregates[at - 1] != 0);
}

static bool is_wanted(uint64_t file)
{
    for (size_t i = 0; i < call.length[NUMBERS]; i++)
        if (call.draft[NUMBERS][i] == file)
            return true;
    return false;
}

static bool is_stop(uint64_t name)
{
    for (size_t i = 0; i < run.k; i++)
        if (wanted[i] == name)
            return true;
    return false;
}

/* Lists and what they name, of a run that is sound. */
static void note_names(uint64_t result)
{
    size_t n = result == 0 && call.plan ? (size_t)due[offset[SUMS] + 3] : 0;
    bool unwanted = false;
    for (size_t i = 0; i < n; i++)
        unwanted = unwanted || !is_wanted(due[offset[DETOUR_STARTS] + i]) || !is_wanted(due[offset[DETOUR_ENDS] + i]);
    note(WANTS_JOINED, n > 0 && run.k < call.length[NUMBERS]);
    note(FIRST_NOT_WANTED, unwanted);
    if (result % 256 != 10 || result == 10)
        return;
    uint64_t name = call.draft[DETOUR_STARTS][result / 256 - 1];
    bool later = is_stop(name_of(name)) && name_of(name) != name;
    note(LATER_WANTED, later && is_wanted(name));
    note(LATER_NOT_WANTED, later && !is_wanted(name));
}

static void note_sizes(uint64_t result)
{
    size_t files = call.length[STARTS], wants = call.length[NUMBERS];
    bool largest = result == 0 && run.k == LIMIT_WANTS && run.reads == LIMIT_READS;
    note(LARGEST_PLAN, largest && call.plan);
    note(LARGEST_PRICE, largest && !call.plan);
    note(FILES_4096, result == 0 && files == LIMIT_FILES);
    note(FILES_4097, result == 1 && files == LIMIT_FILES + 1 && call.length[LENGTHS] == files && call.length[AGGREGATES] == files);
    note(AGGREGATES_UNEQUAL, result == 1 && files <= LIMIT_FILES && call.length[LENGTHS] == files);
    note(EACH_ITS_OWN, result == 0 && files == LIMIT_FILES && each_in_its_own());
    note(WANTS_64, result == 0 && wants == LIMIT_WANTS);
    note(WANTS_65, result == 3 && wants == LIMIT_WANTS + 1 && call.length[COUNTS] == wants);
    note(READS_1024, result == 0 && run.reads == LIMIT_READS);
    note(READS_1025, result == 5 && drafted_reads() == LIMIT_READS + 1);
}

static void note_places(uint64_t result)
{
    uint64_t tape_end = drafted_tape_end(), wanted_end = result == 0 || result == 7 ? drafted_wanted_end() : 0;
    note(END_AT_LIMIT, result == 0 && tape_end == LIMIT_POSITION);
    note(END_OVER_LIMIT, result == refuse(2, call.length[STARTS]) && tape_end == LIMIT_POSITION + 1);
    note(TURN_AT_LIMIT, result == 0 && call.turn == LIMIT_TURN);
    note(TURN_OVER_LIMIT, result == 6 && call.turn == LIMIT_TURN + 1);
    note(HEAD_AT_LIMIT, result == 0 && call.head == LIMIT_POSITION);
    note(HEAD_OVER_LIMIT, result == 7 && call.head == LIMIT_POSITION + 1);
    note(HEAD_AT_END, result == 0 && wanted_end > 0 && call.head == wanted_end);
    note(HEAD_LEFT_OF_END, result == 7 && wanted_end > 0 && call.head == wanted_end - 1);
    size_t last = wanted_end > 0 ? (size_t)call.draft[NUMBERS][call.length[NUMBERS] - 1] - 1 : 0;
    note(HEAD_AT_LAST_WANT, result == 7 && wanted_end > 0 && call.head <= LIMIT_POSITION
         && call.head >= call.draft[STARTS][last] + call.draft[LENGTHS][last]);
}

static void note_rules(uint64_t result)
{
    note(RULE_0, result == 14 && call.rule == 0);
    note(RULE_0_SHORT_ROWS, result == 14 && call.rule == 0 && (call.length[SUMS] < 4 || call.length[ROOM] < room_words()));
    note(RULE_2, result == 14 && call.rule == 2);
    note(RULE_255, result == 14 && call.rule == 255);
    note(RULE_256, result == 14 && call.rule == 256);
    note(RULE_LARGEST, result == 14 && call.rule == UINT64_MAX);
    note(UNEQUAL_HALVES, result == 10);
}

/* Where the head stands among the stops, of an accepted call for a head anywhere. */
static void note_head(uint64_t result)
{
    uint64_t head = call.head, last_end = run.k > 0 ? run.end[run.k - 1] : 0;
    bool is_inside = false, is_at_start = false, is_at_end = false;
    if (result != 0 || !call.any || run.k == 0)
        return;
    for (size_t i = 0; i < run.k; i++) {
        is_inside = is_inside || (run.start[i] < head && head < run.end[i]);
        is_at_start = is_at_start || head == run.start[i];
        is_at_end = is_at_end || (head == run.end[i] && i + 1 < run.k);
    }
    size_t own = own_stop(&run);
    bool from_head = call.plan && own < run.k && due[offset[SUMS] + 3] > 0 && due[offset[DETOUR_STARTS]] == wanted[own]
                     && head < run.start[own];
    note(INSIDE_A_STOP, is_inside);
    note(AT_A_START, is_at_start);
    note(AT_AN_END, is_at_end);
    note(LEFT_OF_ALL, call.plan && run.k > 1 && head < run.start[0]);
    note(PRICED_LEFT_OF_ALL, !call.plan && run.k > 1 && head < run.start[0]);
    note(AT_ZERO, head == 0);
    note(ONE_LEFT_OF_END, head + 1 == last_end);
    note(DETOUR_FROM_HEAD, from_head);
    note(MANY_FROM_HEAD, from_head && run.k > MOST_SEARCHED);
    note(ANYWHERE_RIGHT_OF_ALL, head >= last_end);
}

static bool all_empty_rows_are_null(void)
{
    for (int r = 0; r < ROWS; r++)
        if (call.length[r] == 0 && !call.null[r])
            return false;
    return true;
}

static void note_rows(uint64_t result)
{
    const size_t *length = call.length, k = length[NUMBERS];
    bool both_for_wants = length[TIMES] >= k && length[LEGS] >= k;
    bool row_short = result == 8, room_short = result == 9 && length[ROOM] + 1 == room_words();
    bool planned = result == 0 && call.plan && run.k > 1;
    note(ROWS_JUST_ENOUGH, planned && length[TIMES] == k && length[LEGS] == k && length[SUMS] == 4
         && length[DETOUR_STARTS] == run.k - 1 && length[DETOUR_ENDS] == run.k - 1 && length[ROOM] == room_words());
    note(ROWS_FOR_STOPS, planned && length[DETOUR_STARTS] + 1 < k && length[DETOUR_ENDS] + 1 < k);
    note(ROOM_FOR_STOPS, planned && length[ROOM] < k * k * (size_t)(run.reads + 1));
    note(TIMES_FOR_STOPS, row_short && length[TIMES] >= run.k && length[TIMES] < k && length[LEGS] >= k && length[SUMS] >= 4);
    note(TIMES_SHORT, row_short && length[TIMES] + 1 == k && length[LEGS] >= k && length[SUMS] >= 4);
    note(LEGS_SHORT, row_short && length[LEGS] + 1 == k && length[TIMES] >= k && length[SUMS] >= 4);
    note(SUMS_SHORT, row_short && length[SUMS] == 3 && both_for_wants);
    note(DETOUR_STARTS_SHORT, row_short && call.plan && length[DETOUR_STARTS] + 2 == run.k && both_for_wants);
    note(DETOUR_ENDS_SHORT, row_short && call.plan && length[DETOUR_ENDS] + 2 == run.k && both_for_wants);
    note(ROOM_SHORT, room_short);
    note(NULL_ROWS, result == 0 && call.plan && k == 0 && length[ROOM] == 0 && all_empty_rows_are_null());
}

void note_call(uint64_t result)
{
    results[call.any][call.plan][result % 256]++;
    note_sizes(result);
    note_numbers(result);
    note_names(result);
    note_places(result);
    note_rules(result);
    note_head(result);
    note_rows(result);
}

static void require_met(uint64_t times, const char *what, const char *detail, size_t number)
{
    if (times > 0)
        return;
    fprintf(stderr, "compare.c: never met: %s %s %zu; this says nothing of the library, choose more calls\n", what, detail, number);
    exit(1);
}

static void require_results(bool any)
{
    static const size_t of_both[] = {0, 1, 2, 3, 4, 5, 6, 7, 8};
    const char *price = any ? "violstream_price_any" : "violstream_price", *plan = any ? "violstream_plan_any" : "violstream_plan";
    for (size_t i = 0; i < sizeof of_both / sizeof *of_both; i++) {
        require_met(results[any][0][of_both[i]], price, "giving", of_both[i]);
        require_met(results[any][1][of_both[i]], plan, "giving", of_both[i]);
    }
    require_met(results[any][0][10], price, "giving", 10);
    require_met(results[any][1][9], plan, "giving", 9);
}

void require_all_met(void)
{
    enum { ENTRIES = 8 };
    require_results(false);
    require_results(true);
    require_met(results[0][1][14], "violstream_plan", "giving", 14);
    for (int m = 0; m < METS; m++)
        require_met(times_met[m], met_names[m], "- condition", (size_t)m);
    for (int rule = NOT_WANTED; rule <= CROSSING; rule++)
        for (size_t entry = rule < NOT_FALLING ? 0 : 1; entry < ENTRIES; entry++)
            require_met(times_broken[rule][entry], rule_names[rule], "at entry", entry + 1);
    require_met(times_broken[BEYOND_HEAD][0], rule_names[BEYOND_HEAD], "at entry", 1);
}
