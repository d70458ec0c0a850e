/* A difference, and the account of its call. */
#include <inttypes.h>
#include <stdio.h>
#include <stdlib.h>
#include <string.h>
#include "call.h"

uint64_t seed = 1, call_number;
const char *worked_case;
bool answered;

static void print_row(enum row r)
{
    enum { SHOWN = 70 };
    fprintf(stderr, "  %-13s %zu word%s", row_names[r], call.length[r], call.length[r] == 1 ? "" : "s");
    if (call.length[r] == 0)
        fprintf(stderr, call.null[r] ? " (null pointer)" : "");
    for (size_t i = 0; is_read(r) && i < call.length[r] && i < SHOWN; i++)
        fprintf(stderr, "%s %" PRIu64, i == 0 ? ":" : "", call.draft[r][i]);
    fprintf(stderr, "%s\n", is_read(r) && call.length[r] > SHOWN ? " ..." : "");
}

static void print_call(void)
{
    fprintf(stderr, "  call          %s, head %" PRIu64 ", turn %" PRIu64, function_called(), call.head, call.turn);
    if (call.plan && !call.any)
        fprintf(stderr, ", rule %" PRIu64, call.rule);
    fprintf(stderr, "\n");
    for (int r = 0; r < (call.plan ? ROWS : ROOM); r++)
        print_row((enum row)r);
}

static void print_how_to_repeat(void)
{
    if (worked_case)
        fprintf(stderr, "  worked case   %s\n", worked_case);
    else
        fprintf(stderr, "  again alone   compare --seed %" PRIu64 " --from %" PRIu64 " --calls 1\n", seed, call_number);
}

static void print_words(const char *row, const char *verb, const uint64_t *words, size_t n)
{
    fprintf(stderr, "  %-13s %-7s", row, verb);
    for (size_t i = 0; i < n; i++)
        fprintf(stderr, " %" PRIu64, words[i]);
    fprintf(stderr, "\n");
}

/* The rows for the answer of an accepted call, as far as they hold it. */
static void print_answer(void)
{
    uint64_t detours = due[offset[SUMS] + 3];
    fprintf(stderr, "  the answer, as far as the rows hold it\n");
    for (int r = DETOUR_STARTS; r <= SUMS; r++) {
        size_t n = r == SUMS ? 4 : r == TIMES || r == LEGS ? call.length[NUMBERS] : (size_t)detours;
        if (is_read((enum row)r))
            continue;
        print_words(row_names[r], "must be", due + offset[r], n);
        print_words(row_names[r], "is", now + offset[r], n);
    }
}

_Noreturn void differ(const char *what, uint64_t must_be, uint64_t is)
{
    fprintf(stderr, "compare.c: difference: %s\n  must be       %" PRIu64 "\n  is            %" PRIu64 "\n", what, must_be, is);
    print_call();
    if (answered)
        print_answer();
    print_how_to_repeat();
    exit(1);
}

_Noreturn void differ_in_result(uint64_t must_be, uint64_t is)
{
    char what[160];
    snprintf(what, sizeof what, "the result: must be number %" PRIu64 " at place %" PRIu64 ", is number %" PRIu64
             " at place %" PRIu64, must_be % 256, must_be / 256, is % 256, is / 256);
    differ(what, must_be, is);
}

static _Noreturn void differ_in_word(size_t at)
{
    char what[160];
    snprintf(what, sizeof what, "a guard word after the last row");
    for (int r = ROWS; r-- > 0;) {
        if (at < offset[r])
            snprintf(what, sizeof what, "a guard word before row %s", row_names[r]);
        else if (at < offset[r] + call.length[r])
            snprintf(what, sizeof what, "row %s, word %zu counted from 0", row_names[r], at - offset[r]);
    }
    differ(what, due[at], now[at]);
}

void compare_every_word(void)
{
    if (memcmp(now, due, arena_words * sizeof *now) == 0)
        return;
    size_t at = 0;
    while (now[at] == due[at])
        at++;
    differ_in_word(at);
}
