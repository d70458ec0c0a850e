/* What documents 000, 001 and 003 say of their rules of thumb, tried on the library: the rules are those of bench/rules, the
 * sums violstream_price's, the least violstream_plan's. No rule may be below the least on any run.
 *
 *   rules [--tapes N]      N: tapes of each kind (default 169) */
#include <inttypes.h>
#include <stdbool.h>
#include <stdio.h>
#include <stdlib.h>
#include <string.h>
#include "rules/measure.h"

static struct tape tape;
static unsigned runs;

static void must(bool holds, const char *what, uint64_t is, uint64_t bar)
{
    if (holds)
        return;
    const struct stops *p = &tape.stops;
    fprintf(stderr, "rules: %s: %" PRIu64 " against %" PRIu64 " (run %u: head %" PRIu64 ", turn %" PRIu64 "; start, end, reads:", what, is, bar,
            runs, p->head, p->turn);
    for (size_t i = 0; i < p->k; i++)
        fprintf(stderr, " %" PRIu64 ",%" PRIu64 ",%" PRIu64, p->start[i], p->end[i], p->count[i]);
    fprintf(stderr, ")\n");
    exit(1);
}

static void at_least(const char *what, uint64_t is, uint64_t bar)
{
    must(is >= bar, what, is, bar);
}

static void equal(const char *what, uint64_t is, uint64_t bar)
{
    must(is == bar, what, is, bar);
}

/* ---- Of every run ---- */

static void above_least(const uint64_t sums[RULES], uint64_t least)
{
    char what[64];
    for (int r = 0; r < RULES; r++) {
        snprintf(what, sizeof what, "%s is below the least", rules[r].name);
        at_least(what, sums[r], least);
    }
}

/* Which rules have more lists to choose from, or only change a list to a better one. */
static void in_order(const uint64_t sums[RULES])
{
    at_least("FGS is dearer than GS", sums[GS], sums[FGS]);
    equal("LFL is not FGS", sums[LFL], sums[FGS]);
    at_least("NFGS is dearer than FGS", sums[FGS], sums[NFGS]);
    at_least("LOGNFGS(5) is dearer than FGS", sums[FGS], sums[LOGNFGS_5]);
    at_least("ADP is dearer than FGS", sums[FGS], sums[ADP]);
    at_least("ADP is dearer than NODETOUR", sums[NODETOUR], sums[ADP]);
    at_least("LOGDP(1) is dearer than ADP", sums[ADP], sums[LOGDP_1]);
    at_least("LOGDP(5) is dearer than LOGDP(1)", sums[LOGDP_1], sums[LOGDP_5]);
}

static void try_run(uint64_t turn)
{
    uint64_t sums[RULES];
    ready(&tape, turn);
    runs++;
    uint64_t least = least_sum(&tape);
    rule_sums(&tape, sums);
    above_least(sums, least);
    in_order(sums);
    equal("windows of any span do not give the least", span_sum(&tape, tape.wants), least);
    equal("windows of span 0 do not give what ADP does", span_sum(&tape, 0), sums[ADP]);
    if (turn == 0)
        at_least("GS is above 3 times the least without a turn price", 3 * least, sums[GS]);
}

static void try_prices(void)
{
    for (uint64_t price = 0; price <= 2; price++)
        try_run(tape.segment * price / 2);
}

/* ---- Tapes ---- */

static void try_drawn(uint64_t tapes)
{
    enum { MOST = 20 }; /* wants, for time's sake */
    static const double sigmas[] = {1.5, 2.0, 2.38, 2.5, 3.0};
    for (uint64_t number = 1; number <= tapes; number++) {
        draw_000(&tape, number, MOST, number % 2 == 0 ? 1 : 8);
        try_prices();
        draw_003(&tape, number, 100, (unsigned)(25 + 25 * (number % 4)), sigmas[number % 5], MOST);
        try_prices();
    }
    draw_000(&tape, 1, VIOLSTREAM_MAX_WANTS, 8);
    try_prices();
}

/* Short, with gaps, many numbers alike. */
static void try_small(uint64_t tapes)
{
    for (uint64_t number = 0; number < 40 * tapes; number++) {
        draw_from(number);
        empty_tape(&tape);
        for (uint64_t left = 1 + draw_below(8); left > 0; left--) {
            add_file(&tape, draw_below(4), 1 + draw_below(6));
            want_last(&tape, 1 + draw_below(5));
        }
        try_run(draw_below(4));
    }
}

/* ---- Files of one length, no turn price ---- */

static uint64_t sum_by(enum rule_number rule)
{
    uint64_t sums[RULES];
    rule_sums(&tape, sums);
    return sums[rule];
}

/* Every so many files wanted, the leftmost always, once each. */
static void make_alike(size_t files, uint64_t length, uint64_t one_in)
{
    empty_tape(&tape);
    for (size_t i = 0; i < files; i++) {
        add_file(&tape, 0, length);
        if (tape.wants < VIOLSTREAM_MAX_WANTS && (i == 0 || draw_below(one_in) == 0))
            want_last(&tape, 1);
    }
    ready(&tape, 0);
    runs++;
}

static void try_alike(void)
{
    for (size_t files = 1; files <= VIOLSTREAM_MAX_WANTS; files++) {
        draw_from(files);
        make_alike(files, 1 + draw_below(1000), 1);
        equal("003, proposition 3: the sweep is not least", sum_by(NODETOUR), least_sum(&tape));
        make_alike(3 * files, 1 + draw_below(1000), 1 + draw_below(6));
        equal("003, proposition 5: GS is not least", sum_by(GS), least_sum(&tape));
    }
}

/* ---- Tapes that the papers write down ---- */

/* 003, proposition 2: n - 2 short files at the right, one at the left, a long one between that nobody wants. The sweep's ratio
 * grows as n does. */
static void try_far_apart(uint64_t n)
{
    empty_tape(&tape);
    add_file(&tape, 0, 1);
    want_last(&tape, 1);
    add_file(&tape, 0, n * n - n + 1);
    for (uint64_t i = 3; i <= n; i++) {
        add_file(&tape, 0, 1);
        want_last(&tape, 1);
    }
    ready(&tape, 0);
    runs++;
    equal("003, proposition 2: the tape's length", tape.stops.head, n * n);
    at_least("003, proposition 2: the sweep's ratio is below n / 2", 2 * sum_by(NODETOUR), n * least_sum(&tape));
}

/* 001, proposition 4: a short file that m - 1 wait for, left of a long one that one waits for. That paper counts until the
 * reading begins: 2 (m - 1) less. The sweep costs m * m + 1, and GS nears 3 times that. */
static void try_greedy_worst(uint64_t m)
{
    empty_tape(&tape);
    add_file(&tape, 0, 1);
    want_last(&tape, m - 1);
    add_file(&tape, 0, m - 1);
    want_last(&tape, 1);
    ready(&tape, 0);
    runs++;
    equal("001, proposition 4: the sweep", sum_by(NODETOUR) - 2 * (m - 1), m * m + 1);
    equal("001, proposition 4: the sweep is least", sum_by(NODETOUR), least_sum(&tape));
    at_least("001, proposition 4: GS is not near 3 times the least", sum_by(GS) * m, (3 * m - 10) * least_sum(&tape));
}

static void try_written_down(void)
{
    for (uint64_t n = 4; n <= VIOLSTREAM_MAX_WANTS; n++)
        try_far_apart(n);
    for (uint64_t m = 4; m <= VIOLSTREAM_MAX_READS; m *= 2)
        try_greedy_worst(m);
}

int main(int argc, char **argv)
{
    uint64_t tapes = TAPES_000;
    if (argc == 3 && strcmp(argv[1], "--tapes") == 0) {
        tapes = strtoull(argv[2], NULL, 10);
    } else if (argc > 1) {
        fprintf(stderr, "usage: rules [--tapes N]\n");
        return 2;
    }
    lend_room();
    try_written_down();
    try_alike();
    try_small(tapes);
    try_drawn(tapes);
    printf("rules: %u runs, %d rules: none below the least, and the papers' statements hold\n", runs, RULES);
    return 0;
}
