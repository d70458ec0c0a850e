/* Times readers of an LTFS index beside libexpat: the same index and the same list of paths, in one run.
 *
 *   index ROUNDS INDEX LIST [INDEX LIST]...
 *
 * The time is the processor's, the median of ROUNDS, all readers of all indexes in turn. The texts lie in memory. bench/index/run.sh links the proved
 * functions: three that it names bench_balanced, bench_ltfs and bench_picks, and violstream_pick, which is the whole call from bytes to bytes. */
#include "index.h"

#include <stdio.h>
#include <stdlib.h>
#include <string.h>
#include <time.h>

#include <violstream.h>

uint64_t bench_balanced(const uint8_t *index, size_t index_len);
uint64_t bench_ltfs(const uint8_t *label, size_t label_len, const uint8_t *index, size_t index_len);
uint64_t bench_picks(const uint8_t *index, size_t index_len, const uint8_t *list, size_t list_len, uint64_t *states, size_t states_len,
                     uint64_t *starts, size_t starts_len, uint64_t *ends, size_t ends_len);

static const char label[] = "<ltfslabel><partitions><index>a</index><data>b</data></partitions><blocksize>524288</blocksize></ltfslabel>";

enum { EXPAT, BALANCED, LTFS, PICKS, PICK, READERS };

enum { MOST_LINES = 1024, MOST_ROUNDS = 101, MOST_TAPES = 8, ONE_FILE = 1, MOST_ENTRIES = VIOLSTREAM_MAX_WANTS };

static const char *const names[READERS] = {"expat", "balanced", "ltfs", "picks", "pick"};

/* An index with its list; what each reader says of it, and the times that it took. */
struct tape {
    struct text index, list;
    struct lines lines;
    uint64_t said[READERS];
    double taken[READERS][MOST_ROUNDS];
};

/* What bench_picks finds for each line of the list: how many files, and from where to where the one lies. */
static uint64_t states[MOST_LINES], starts[MOST_LINES], ends[MOST_LINES];

/* What violstream_pick writes. */
static uint8_t sheet_bytes[VIOLSTREAM_SHEET_MOST], *name_bytes;
static size_t sheet_size;

void fail(const char *what)
{
    fprintf(stderr, "index: %s\n", what);
    exit(1);
}

int compare_lines(const void *one, const void *other)
{
    return strcmp(((const struct line *)one)->path, ((const struct line *)other)->path);
}

static struct text read_text(const char *name)
{
    FILE *file = fopen(name, "rb");
    if (file == NULL || fseek(file, 0, SEEK_END) != 0)
        fail("a text cannot be read");
    long size = ftell(file);
    if (size < 0 || fseek(file, 0, SEEK_SET) != 0)
        fail("a text cannot be read");
    struct text text = {malloc((size_t)size + 1), (size_t)size};
    if (text.bytes == NULL || fread(text.bytes, 1, text.size, file) != text.size)
        fail("a text cannot be read");
    text.bytes[text.size] = 0;
    fclose(file);
    return text;
}

/* Sorted lines, each path once. */
static size_t without_repeats(struct line *rows, size_t count)
{
    size_t kept = 0;
    for (size_t i = 0; i < count; i++)
        if (i == 0 || compare_lines(&rows[i], &rows[kept - 1]) != 0)
            rows[kept++] = rows[i];
    return kept;
}

/* The list is copied: each line feed of the copy becomes the end of a path. */
static struct lines lines_of(struct text list)
{
    struct lines lines = {calloc(list.size + 1, sizeof *lines.rows), 0, 0};
    char *path = malloc(list.size + 1);
    if (lines.rows == NULL || path == NULL)
        fail("no memory");
    memcpy(path, list.bytes, list.size + 1);
    for (char *end = strchr(path, '\n'); end != NULL; end = strchr(path, '\n')) {
        *end = 0;
        lines.rows[lines.listed++].path = path;
        path = end + 1;
    }
    qsort(lines.rows, lines.listed, sizeof *lines.rows, compare_lines);
    lines.count = without_repeats(lines.rows, lines.listed);
    return lines;
}

static double seconds(void)
{
    struct timespec t;
    clock_gettime(CLOCK_PROCESS_CPUTIME_ID, &t);
    return (double)t.tv_sec + (double)t.tv_nsec * 1e-9;
}

static uint64_t whole_call(const struct tape *tape)
{
    struct violstream_paths paths = {"VX0041", 6, label, sizeof label - 1, tape->index.bytes, tape->index.size, tape->list.bytes, tape->list.size, VIOLSTREAM_BYTES, NULL, NULL};
    struct violstream_text sheet = {sheet_bytes, sizeof sheet_bytes, 0}, named = {name_bytes, VIOLSTREAM_NAMES_MOST(tape->list.size), 0};
    uint64_t result = violstream_pick_rows(&paths, &sheet, &named);
    sheet_size = (size_t)sheet.size;
    return violstream_number(result);
}

static uint64_t one_call(int reader, struct tape *tape)
{
    const uint8_t *bytes = (const uint8_t *)tape->index.bytes, *list = (const uint8_t *)tape->list.bytes;
    if (reader == EXPAT)
        return files_by_expat(tape->index, &tape->lines);
    if (reader == BALANCED)
        return bench_balanced(bytes, tape->index.size);
    if (reader == LTFS)
        return bench_ltfs((const uint8_t *)label, sizeof label - 1, bytes, tape->index.size);
    if (reader == PICK)
        return whole_call(tape);
    return bench_picks(bytes, tape->index.size, list, tape->list.size, states, MOST_LINES, starts, MOST_LINES, ends, MOST_LINES);
}

/* The line of a path at a place of the list. */
static const struct line *line_at(const char *path, const struct lines *lines)
{
    char copy[4096];
    size_t size = strcspn(path, "\n");
    if (size >= sizeof copy)
        fail("a path is too long");
    memcpy(copy, path, size);
    copy[size] = 0;
    struct line wanted = {copy, 0, 0, 0};
    return bsearch(&wanted, lines->rows, lines->count, sizeof wanted, compare_lines);
}

/* For every line of the list expat and bench_picks have found one file, and the same range. */
static void must_find_the_same(const struct tape *tape)
{
    const char *path = tape->list.bytes;
    one_call(PICKS, (struct tape *)tape);
    for (size_t i = 0; i < tape->lines.listed; i++) {
        const struct line *line = line_at(path, &tape->lines);
        if (line == NULL || states[i] != ONE_FILE || starts[i] != line->start || ends[i] != line->end)
            fail("expat and picks differ");
        path = strchr(path, '\n') + 1;
    }
}

static int compare_starts(const void *one, const void *other)
{
    uint64_t a = ((const struct line *)one)->start, b = ((const struct line *)other)->start;
    return (a > b) - (a < b);
}

/* The files of the run sheet are the ranges that expat has found, from left to right; no two overlap on these tapes. */
static void must_be_the_sheet(struct tape *tape)
{
    char line[80], *at;
    struct line *sorted = malloc(tape->lines.count * sizeof *sorted);
    if (sorted == NULL)
        fail("no memory");
    one_call(PICK, tape);
    sheet_bytes[sheet_size < sizeof sheet_bytes ? sheet_size : sizeof sheet_bytes - 1] = 0;
    memcpy(sorted, tape->lines.rows, tape->lines.count * sizeof *sorted);
    qsort(sorted, tape->lines.count, sizeof *sorted, compare_starts);
    at = strstr((char *)sheet_bytes, "\nfile=");
    for (size_t i = 0; i < tape->lines.count; i++, at += at == NULL ? 0 : strlen(line)) {
        snprintf(line, sizeof line, "\nfile=%llu,%llu,0", (unsigned long long)sorted[i].start, (unsigned long long)(sorted[i].end - sorted[i].start));
        if (at == NULL || strncmp(at, line, strlen(line)) != 0)
            fail("expat and pick differ");
    }
    free(sorted);
}

/* A reader that stopped early would look fast: each must say what the whole index says. */
static void must_agree(struct tape *tape)
{
    const uint64_t *said = tape->said;
    uint64_t whole = tape->lines.count <= MOST_ENTRIES ? VIOLSTREAM_ACCEPTED : VIOLSTREAM_WANT_ROWS;
    for (size_t i = 0; i < tape->lines.count; i++)
        if (tape->lines.rows[i].files == 0)
            fail("a line of the list is of no file");
    if (said[EXPAT] < tape->lines.count || said[BALANCED] != 1 || said[LTFS] != 21 || said[PICKS] != 1 || said[PICK] != whole)
        fail("a reader did not say what the index says");
    must_find_the_same(tape);
    if (whole == VIOLSTREAM_ACCEPTED)
        must_be_the_sheet(tape);
}

static int compare_times(const void *one, const void *other)
{
    double a = *(const double *)one, b = *(const double *)other;
    return (a > b) - (a < b);
}

static double median(double *taken, int rounds)
{
    qsort(taken, (size_t)rounds, sizeof *taken, compare_times);
    return rounds % 2 ? taken[rounds / 2] : (taken[rounds / 2 - 1] + taken[rounds / 2]) / 2;
}

static void time_all(struct tape *tapes, int count, int rounds)
{
    for (int turn = 0; turn < rounds * count * READERS; turn++) {
        int reader = turn % READERS, round = turn / READERS / count;
        struct tape *tape = &tapes[turn / READERS % count];
        double before = seconds();
        tape->said[reader] = one_call(reader, tape);
        tape->taken[reader][round] = seconds() - before;
    }
}

static void print_times(struct tape *tape, int rounds)
{
    double middle[READERS];
    for (int reader = 0; reader < READERS; reader++)
        middle[reader] = median(tape->taken[reader], rounds);
    printf("%llu files, %zu bytes, %zu lines of %zu files; the median of %d\n", (unsigned long long)tape->said[EXPAT], tape->index.size, tape->lines.listed, tape->lines.count, rounds);
    for (int reader = 0; reader < READERS; reader++)
        printf("%-9s %7.1f ms %7.1f MB/s %6.2f of expat's time %6.2f ns a byte\n", names[reader], middle[reader] * 1e3, (double)tape->index.size / middle[reader] / 1e6,
               middle[reader] / middle[EXPAT], middle[reader] * 1e9 / (double)tape->index.size);
}

int main(int argc, char **argv)
{
    static struct tape tapes[MOST_TAPES];
    int count = argc / 2 - 1, rounds = argc > 1 ? atoi(argv[1]) : 0;
    if (argc % 2 != 0 || count < 1 || count > MOST_TAPES || rounds < 1 || rounds > MOST_ROUNDS)
        fail("usage: index ROUNDS INDEX LIST [INDEX LIST]...");
    size_t longest = 0;
    for (int i = 0; i < count; i++) {
        tapes[i].index = read_text(argv[2 + 2 * i]);
        tapes[i].list = read_text(argv[3 + 2 * i]);
        tapes[i].lines = lines_of(tapes[i].list);
        longest = tapes[i].list.size > longest ? tapes[i].list.size : longest;
    }
    name_bytes = malloc(VIOLSTREAM_NAMES_MOST(longest));
    if (name_bytes == NULL)
        fail("no memory");
    time_all(tapes, count, rounds);
    for (int i = 0; i < count; i++) {
        must_agree(&tapes[i]);
        print_times(&tapes[i], rounds);
    }
    return 0;
}
