/* Drawing tapes. The figures are the papers' own: document 000, appendix B; document 003, section 8.1. */
#include "draw.h"
#include <math.h>
#include <stdbool.h>
#include <string.h>

/* ---- A tape by hand ---- */

void empty_tape(struct tape *t)
{
    memset(t, 0, sizeof *t);
}

void add_file(struct tape *t, uint64_t gap, uint64_t length)
{
    size_t n = t->files++;
    t->starts[n] = gap + (n == 0 ? 0 : t->starts[n - 1] + t->lengths[n - 1]);
    t->lengths[n] = length;
}

void want_last(struct tape *t, uint64_t count)
{
    struct stops *p = &t->stops;
    size_t last = t->files - 1;
    t->numbers[t->wants] = t->files;
    t->counts[t->wants++] = count;
    p->start[p->k] = t->starts[last];
    p->end[p->k] = t->starts[last] + t->lengths[last];
    p->count[p->k++] = count;
    p->reads += count;
}

void ready(struct tape *t, uint64_t turn)
{
    size_t last = t->files - 1;
    t->stops.head = t->starts[last] + t->lengths[last];
    t->stops.turn = turn;
}

/* ---- Random numbers ---- */

static uint64_t stream;

void draw_from(uint64_t seed)
{
    stream = seed * 0xd1342543de82ef95u;
}

static uint64_t any_word(void)
{
    uint64_t z = stream += 0x9e3779b97f4a7c15u;
    z = (z ^ (z >> 30)) * 0xbf58476d1ce4e5b9u;
    z = (z ^ (z >> 27)) * 0x94d049bb133111ebu;
    return z ^ (z >> 31);
}

uint64_t draw_below(uint64_t n)
{
    return any_word() % n;
}

/* Above 0 and at most 1. */
static double uniform(void)
{
    return (double)((any_word() >> 11) + 1) / 9007199254740992.0;
}

static double normal(void)
{
    double size = sqrt(-2 * log(uniform()));
    return size * cos(6.283185307179586 * uniform());
}

static double log_normal(double mu, double sigma)
{
    return exp(mu + sigma * normal());
}

/* By its median and mean, from least to most. */
static double skewed(double median, double mean, double least, double most)
{
    double drawn;
    do
        drawn = log_normal(log(median), sqrt(2 * log(mean / median)));
    while (drawn < least || drawn > most);
    return drawn;
}

/* `total` in n parts of at least 1, at random, the weights log-normal. */
static void share_out(uint64_t *parts, size_t n, double total, double sigma)
{
    static double weights[VIOLSTREAM_MAX_FILES];
    double sum = 0;
    for (size_t i = 0; i < n; i++)
        sum += weights[i] = log_normal(0, sigma);
    for (size_t i = 0; i < n; i++)
        parts[i] = 1 + (uint64_t)((total - (double)n) * weights[i] / sum);
}

/* ---- Document 000 ---- */

/* The tapes are full: 708 segments of 28,509,500 kilobytes in the mean. How much segments differ in length, and wanted
 * files in reads, the paper does not say. */
static const double mean_files = 708, mean_segment = 28509500, spread = 1;

/* How many of the `left` wanted files the next bunch has. */
static size_t bunch_length(double bunch, size_t left)
{
    size_t length = 1;
    while (length < left && uniform() > 1 / bunch)
        length++;
    return length;
}

/* Puts `wants` marks on `files` files: bunches and files that nobody wants in any order, each as likely. */
static void mark_wanted(bool *wanted, size_t files, size_t wants, double bunch)
{
    static size_t lengths[VIOLSTREAM_MAX_WANTS];
    size_t bunches = 0, others = files - wants, at = 0;
    for (size_t left = wants; left > 0; left -= lengths[bunches++])
        lengths[bunches] = bunch_length(bunch, left);
    memset(wanted, 0, files * sizeof *wanted);
    while (bunches > 0) {
        if (draw_below(bunches + others) >= bunches) {
            others--, at++;
            continue;
        }
        for (size_t i = lengths[--bunches]; i > 0; i--)
            wanted[at++] = true;
    }
}

static void lay_out(struct tape *t, size_t files, size_t wants, double reads, double length, double bunch)
{
    static uint64_t lengths[VIOLSTREAM_MAX_FILES];
    static bool wanted[VIOLSTREAM_MAX_FILES];
    uint64_t counts[VIOLSTREAM_MAX_WANTS];
    share_out(lengths, files, length, spread);
    share_out(counts, wants, reads, spread);
    mark_wanted(wanted, files, wants, bunch);
    empty_tape(t);
    for (size_t i = 0; i < files; i++) {
        add_file(t, 0, lengths[i]);
        if (wanted[i])
            want_last(t, counts[t->wants]);
    }
}

void draw_000(struct tape *t, uint64_t number, size_t most, double bunch)
{
    draw_from(number);
    double files = skewed(489, 708, 111, 4141), wanted = skewed(148, 170, 31, 852), reads = skewed(2669, 3640, 1182, 15477);
    wanted = floor(fmin(wanted, files));
    size_t wants = wanted > (double)most ? most : (size_t)wanted;
    double part = (double)wants / wanted;
    files = fmin(floor(files * part), VIOLSTREAM_MAX_FILES);
    lay_out(t, (size_t)fmax(files, (double)wants), wants, fmin(reads * part, VIOLSTREAM_MAX_READS), part * mean_files * mean_segment, bunch);
    t->segment = (uint64_t)mean_segment;
}

/* ---- Document 003 ---- */

void draw_003(struct tape *t, uint64_t number, size_t files, unsigned percent, double sigma, size_t most)
{
    const double mu = 13.04, longest = exp(mu + 1.2815515655446004 * sigma); /* the 90 % quantile */
    draw_from(number);
    empty_tape(t);
    while (t->files < files) {
        bool wanted = t->files == 0 || draw_below(100) < percent;
        if (wanted && t->wants == most)
            break;
        add_file(t, 0, 1 + (uint64_t)(fmin(log_normal(mu, sigma), longest) / 1000));
        if (wanted)
            want_last(t, 1);
    }
    t->segment = (t->starts[t->files - 1] + t->lengths[t->files - 1]) / t->files;
}
