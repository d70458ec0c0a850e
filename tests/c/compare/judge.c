/* Judging, in the order of the table. */
#include "call.h"
#include "oracle.h"

struct stops run;
uint64_t wanted[LIMIT_WANTS];
size_t stop_of[LIMIT_WANTS];
uint64_t times_broken[RULES][LIMIT_WANTS + 1];

uint64_t refuse(uint64_t number, uint64_t place)
{
    return number + 256 * place;
}

/* A number that is too high, or was met before but not at the file just before. */
static bool number_is_bad(uint64_t number, size_t file, uint16_t last_file[LIMIT_AGGREGATE + 1])
{
    if (number > LIMIT_AGGREGATE)
        return true;
    bool returns = number != 0 && last_file[number] != 0 && last_file[number] + 1u != file;
    last_file[number] = (uint16_t)file;
    return returns;
}

static size_t first_bad_file(const uint64_t *starts, const uint64_t *lengths, const uint64_t *aggregates, size_t n)
{
    uint16_t last_file[LIMIT_AGGREGATE + 1] = {0};      /* the last file with each number, counted from 1 */
    uint64_t previous_end = 0;
    for (size_t i = 0; i < n; i++) {
        if (lengths[i] == 0 || starts[i] < previous_end)
            return i + 1;
        if (starts[i] > LIMIT_POSITION || lengths[i] > LIMIT_POSITION - starts[i])
            return i + 1;
        if (number_is_bad(aggregates[i], i + 1, last_file))
            return i + 1;
        previous_end = starts[i] + lengths[i];
    }
    return 0;
}

/* ---- What is read together ---- */

/* The aggregates of a sound table and its files that lie in none, from left to right. */
static struct part {
    uint64_t first, start, end;
} parts[LIMIT_FILES];
static size_t part_of[LIMIT_FILES];

static void take_apart_table(size_t files)
{
    size_t n = 0;
    uint64_t open = 0;                                  /* the aggregate that may go on */
    for (size_t i = 0; i < files; i++) {
        uint64_t start = expected(STARTS)[i], number = expected(AGGREGATES)[i];
        if (number == 0 || number != open)
            parts[n++] = (struct part){.first = i + 1, .start = start};
        parts[n - 1].end = start + expected(LENGTHS)[i];
        part_of[i] = n - 1;
        open = number;
    }
}

/* By what name a list speaks of a file of a sound table; 0 for a number past it. */
uint64_t name_of(uint64_t file)
{
    return file < 1 || file > call.length[STARTS] ? 0 : parts[part_of[file - 1]].first;
}

static size_t first_bad_want(const uint64_t *numbers, const uint64_t *counts, size_t n, size_t files)
{
    for (size_t i = 0; i < n; i++)
        if (numbers[i] < 1 || numbers[i] > files || (i > 0 && numbers[i] <= numbers[i - 1]) || counts[i] == 0)
            return i + 1;
    return 0;
}

static bool too_many_reads(const uint64_t *counts, size_t n)
{
    uint64_t left = LIMIT_READS;
    for (size_t i = 0; i < n; i++) {
        if (counts[i] > left)
            return true;
        left -= counts[i];
    }
    return false;
}

static bool head_is_bad(size_t wants)
{
    if (call.head > LIMIT_POSITION)
        return true;
    if (wants == 0 || call.any)
        return false;
    return call.head < parts[part_of[expected(NUMBERS)[wants - 1] - 1]].end;
}

static uint64_t judge_run(void)
{
    size_t files = call.length[STARTS], wants = call.length[NUMBERS], bad;
    if (files > LIMIT_FILES || files != call.length[LENGTHS] || files != call.length[AGGREGATES])
        return refuse(1, 0);
    if ((bad = first_bad_file(expected(STARTS), expected(LENGTHS), expected(AGGREGATES), files)) != 0)
        return refuse(2, bad);
    take_apart_table(files);
    if (wants > LIMIT_WANTS || wants != call.length[COUNTS])
        return refuse(3, 0);
    if ((bad = first_bad_want(expected(NUMBERS), expected(COUNTS), wants, files)) != 0)
        return refuse(4, bad);
    if (too_many_reads(expected(COUNTS), wants))
        return refuse(5, 0);
    if (call.turn > LIMIT_TURN)
        return refuse(6, 0);
    return head_is_bad(wants) ? refuse(7, 0) : 0;
}

static void take_up_run(void)
{
    run = (struct stops){.k = 0, .head = call.head, .turn = call.turn};
    for (size_t i = 0; i < call.length[NUMBERS]; i++) {
        const struct part *part = &parts[part_of[expected(NUMBERS)[i] - 1]];
        if (run.k == 0 || wanted[run.k - 1] != part->first) {
            wanted[run.k] = part->first;
            run.start[run.k] = part->start;
            run.end[run.k] = part->end;
            run.k++;
        }
        stop_of[i] = run.k - 1;
        run.count[run.k - 1] += expected(COUNTS)[i];
        run.reads += expected(COUNTS)[i];
    }
}

/* What entry i of a list breaks: a rule for every head, or the one on where the head stands. */
enum rule_broken broken_at(const uint64_t *a, const uint64_t *b, size_t i)
{
    size_t own = own_stop(&run);
    enum rule_broken broken = broken_by(wanted, run.k, a, b, i);
    return broken == NONE && own < run.k && a[i] > wanted[own] ? BEYOND_HEAD : broken;
}

static uint64_t judge_list(const uint64_t *a, size_t starts, const uint64_t *b, size_t ends)
{
    if (starts != ends)
        return refuse(10, 0);
    for (size_t i = 0; i < starts; i++) {
        enum rule_broken broken = broken_at(a, b, i);
        times_broken[broken][i < LIMIT_WANTS ? i : LIMIT_WANTS]++;
        if (broken != NONE)
            return refuse(10, i + 1);
    }
    return 0;
}

size_t room_words(void)
{
    return run.k * run.k * (size_t)(run.reads + 1);
}

static bool a_row_is_short(void)
{
    size_t wants = call.length[NUMBERS], most_detours = run.k == 0 ? 0 : run.k - 1;
    if (call.length[TIMES] < wants || call.length[LEGS] < wants || call.length[SUMS] < 4)
        return true;
    return call.plan && (call.length[DETOUR_STARTS] < most_detours || call.length[DETOUR_ENDS] < most_detours);
}

uint64_t judge(void)
{
    uint64_t refusal = judge_run();
    if (refusal != 0)
        return refusal;
    take_up_run();
    if (call.plan && !call.any && call.rule != 1)
        return refuse(14, 0);
    if (!call.plan)
        refusal = judge_list(expected(DETOUR_STARTS), call.length[DETOUR_STARTS],
                             expected(DETOUR_ENDS), call.length[DETOUR_ENDS]);
    if (refusal != 0)
        return refusal;
    if (a_row_is_short())
        return refuse(8, 0);
    return call.plan && call.length[ROOM] < room_words() ? refuse(9, 0) : 0;
}
