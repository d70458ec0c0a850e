/* Plans runs by every rule and by the library, and prints a line for each: what table.py makes the table and the picture of.
 *
 * bench/rules/run.sh builds and runs it */
#include <inttypes.h>
#include <stdio.h>
#include <stdlib.h>
#include "measure.h"

/* All reads' lengths: document 003 counts a response until the reading begins, and the library until it ends. */
static uint64_t reading(const struct tape *t)
{
    const struct stops *p = &t->stops;
    uint64_t sum = 0;
    for (size_t i = 0; i < p->k; i++)
        sum += p->count[i] * (p->end[i] - p->start[i]);
    return sum;
}

static void print_line(const char *set, const char *kind, int price, const struct tape *t, const char *rule, uint64_t sum,
                       uint64_t least, double time)
{
    printf("%s,%s,%d,%zu,%zu,%" PRIu64 ",%" PRIu64 ",%s,%" PRIu64 ",%" PRIu64 ",%.3f\n", set, kind, price, t->files, t->wants,
           t->stops.reads, reading(t), rule, sum, least, time);
}

static void print_run(const char *set, const char *kind, int price, const struct tape *t)
{
    uint64_t least = least_sum(t), sums[RULES];
    rule_sums(t, sums);
    for (int r = 0; r < RULES; r++) {
        if (sums[r] < least) {
            fprintf(stderr, "rules: %s gives %" PRIu64 ", below the least, %" PRIu64 "\n", rules[r].name, sums[r], least);
            exit(1);
        }
        print_line(set, kind, price, t, rules[r].name, sums[r], least, rule_time(t, (enum rule_number)r));
    }
    print_line(set, kind, price, t, "least", least, least, least_time(t));
}

/* No turn price, half the mean segment, the mean segment. */
static void print_prices(const char *set, const char *kind, struct tape *t)
{
    for (int price = 0; price <= 2; price++) {
        ready(t, t->segment * (uint64_t)price / 2);
        print_run(set, kind, price, t);
    }
}

static void print_000(struct tape *t, const char *set, double bunch)
{
    for (uint64_t number = 1; number <= TAPES_000; number++) {
        draw_000(t, number, VIOLSTREAM_MAX_WANTS, bunch);
        print_prices(set, "", t);
    }
}

static void print_003(struct tape *t)
{
    static const double sigmas[] = {1.5, 2.0, 2.38, 2.5, 3.0};
    char kind[32];
    uint64_t number = 0;
    for (size_t files = 100; files <= 400; files += 100)
        for (unsigned percent = 25; percent <= 100; percent += 25)
            for (size_t s = 0; s < sizeof sigmas / sizeof *sigmas; s++)
                for (int i = 0; i < 10; i++) {
                    snprintf(kind, sizeof kind, "%zu/%u/%.2f", files, percent, sigmas[s]);
                    draw_003(t, ++number, files, percent, sigmas[s], VIOLSTREAM_MAX_WANTS);
                    print_prices("003", kind, t);
                }
}

int main(void)
{
    static struct tape tape;
    lend_room();
    printf("set,kind,price,files,wants,reads,reading,rule,sum,least,microseconds\n");
    print_000(&tape, "000 spread", 1);
    print_000(&tape, "000 bunched", 8);
    print_003(&tape);
    return 0;
}
