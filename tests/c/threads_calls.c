/* The calls for tickets, for sheets and for files by path from several threads at once, each with rows of its own: every thread goes through the same days, sheets and tapes, over and over,
 * and every result, table and text must be what one thread alone got before.
 *
 * make -C tests/c threads_calls    (Makefile beside this file says against what)
 * target/tests/threads_calls [ROUNDS]     300 rounds by default; exit status: 0 all agree, 1 a difference */
#define _POSIX_C_SOURCE 200809L
#include <inttypes.h>
#include <pthread.h>
#include <stdio.h>
#include <stdlib.h>
#include <string.h>
#include <violstream.h>

enum { THREADS = 4, DAYS = 8, EVENTS = 12, FILES = 6, ROOM = VIOLSTREAM_ROOM_WORDS(8, 1024) };

static const uint64_t starts[FILES] = {0, 10, 14, 20, 30, 45}, lengths[FILES] = {10, 4, 2, 5, 10, 5}, aggregates[FILES] = {0, 7, 7, 0, 0, 0};
static char lines[DAYS][EVENTS][40];
static char mail[DAYS][400];
static const char label[] = "<ltfslabel><partitions><index>a</index><data>b</data></partitions><blocksize>10</blocksize></ltfslabel>";
static char indexes[DAYS][2000], lists[DAYS][200];

/* What a day leaves, in words and bytes without a gap. */
struct left {
    uint64_t codes[EVENTS], sizes[EVENTS], lasts[2], waiting_code, waiting_size, sheet_codes[4], sheet_sizes[5], pick_code, pick_sizes[2];
    struct violstream_ticket tickets[VIOLSTREAM_PLACES];
    uint8_t texts[EVENTS][VIOLSTREAM_TEXT_MOST + 3], waiting[VIOLSTREAM_TEXT_MOST + 3];
    uint8_t mended[1024], changes[1024], plan[VIOLSTREAM_PLAN_MOST + 4], figures[1024], verdict[1024], picked[1024], names[1024];
};

static struct worker {
    struct left alone[DAYS], left;
    uint64_t room[ROOM];
    unsigned differences;
} *workers;
static pthread_barrier_t begin;
static unsigned rounds = 300;

static uint64_t upto(uint64_t most)
{
    static uint64_t state = 88172645463325252u;
    state ^= state << 13;
    state ^= state >> 7;
    state ^= state << 17;
    return 1 + state % most;
}

static void draw(unsigned day)
{
    for (int i = 0; i < EVENTS; i++)
        switch (upto(5)) {
        case 1:
            snprintf(lines[day][i], sizeof lines[day][i], "withdraw=%" PRIu64 ",%" PRIu64 "\n", upto(2), upto(4));
            break;
        case 2:
            snprintf(lines[day][i], sizeof lines[day][i], "board=%" PRIu64 ",%" PRIu64 "\n", 40 + upto(30), upto(9));
            break;
        default:
            snprintf(lines[day][i], sizeof lines[day][i], "file=%" PRIu64 ",%" PRIu64 ",%" PRIu64 "\n", upto(2), upto(FILES + 1), upto(5));
        }
    snprintf(mail[day], sizeof mail[day],
             "tape=T%u\nhead=%" PRIu64 "\nturn=%" PRIu64 "\nrule=least\nfiles=3\nfile=0,10,0\nfile=10,4,0\nfile=20,30,0\nwants=9\nwant=3,%" PRIu64 "\nwant=1,%" PRIu64 "\nwant=2,3\nwant=1,0\n", day,
             upto(60), upto(5), upto(3), upto(3));
}

/* A tape of six files in a folder, and a list of nine lines. */
static void draw_tape(unsigned day)
{
    int have = snprintf(indexes[day], sizeof indexes[day], "<ltfsindex><directory><contents><directory><name>d%u</name><contents>", day);
    for (int i = 1; i <= FILES; i++)
        have += snprintf(indexes[day] + have, sizeof indexes[day] - (size_t)have,
                         "<file><name>%d</name><extentinfo><extent><partition>b</partition><startblock>%" PRIu64 "</startblock><byteoffset>0</byteoffset><bytecount>%" PRIu64
                         "</bytecount></extent></extentinfo></file>", i, upto(20), upto(40));
    snprintf(indexes[day] + have, sizeof indexes[day] - (size_t)have, "</contents></directory></contents></directory></ltfsindex>");
    have = 0;
    for (int i = 0; i < 9; i++)
        have += snprintf(lists[day] + have, sizeof lists[day] - (size_t)have, "d%u/%" PRIu64 "\n", day, upto(FILES));
}

static void go_through(unsigned day, struct worker *worker)
{
    struct left *left = &worker->left;
    memset(left, 0, sizeof *left);
    for (int i = 0; i < EVENTS; i++)
        left->codes[i] = violstream_event(left->tickets, VIOLSTREAM_PLACES, left->lasts, 2, starts, FILES, lengths, FILES, aggregates, FILES, (const uint8_t *)lines[day][i],
                                          strlen(lines[day][i]), left->texts[i], VIOLSTREAM_TEXT_MOST, worker->room, ROOM, &left->sizes[i], 1);
    left->waiting_code = violstream_waiting(left->tickets, VIOLSTREAM_PLACES, left->waiting, sizeof left->waiting, &left->waiting_size, 1);
    left->sheet_codes[0] = violstream_mend((const uint8_t *)mail[day], strlen(mail[day]), left->mended, sizeof left->mended, left->changes, sizeof left->changes, left->sheet_sizes, 2);
    left->sheet_codes[1] = violstream_answer(left->mended, left->sheet_sizes[0], left->plan, sizeof left->plan, worker->room, ROOM, &left->sheet_sizes[2], 1);
    left->sheet_codes[3] = violstream_buys(left->mended, left->sheet_sizes[0], left->figures, sizeof left->figures, worker->room, ROOM, &left->sheet_sizes[4], 1);
    left->sheet_codes[2] = violstream_check(left->mended, left->sheet_sizes[0], left->plan, left->sheet_sizes[2], left->verdict, sizeof left->verdict, worker->room, ROOM, &left->sheet_sizes[3], 1);
    left->pick_code = violstream_pick((const uint8_t *)"T", 1, (const uint8_t *)label, sizeof label - 1, (const uint8_t *)indexes[day], strlen(indexes[day]), (const uint8_t *)lists[day],
                                      strlen(lists[day]), day % 2, NULL, 0, NULL, 0, left->picked, sizeof left->picked, left->names, sizeof left->names, left->pick_sizes, 2);
}

static void *work(void *given)
{
    struct worker *worker = given;
    pthread_barrier_wait(&begin);
    for (unsigned i = 0; i < rounds * DAYS; i++) {
        unsigned day = (i + (unsigned)(worker - workers)) % DAYS;
        go_through(day, worker);
        worker->differences += memcmp(&worker->left, &worker->alone[day], sizeof worker->left) != 0;
    }
    return NULL;
}

int main(int words, char **word)
{
    if (words == 2)
        rounds = (unsigned)strtoul(word[1], NULL, 10);
    pthread_t threads[THREADS];
    unsigned differences = 0, accepted = 0;
    workers = calloc(THREADS, sizeof *workers);
    if (workers == NULL || pthread_barrier_init(&begin, NULL, THREADS) != 0)
        return 1;
    for (unsigned day = 0; day < DAYS; day++) {
        draw(day);
        draw_tape(day);
        go_through(day, &workers[0]);
        for (int i = 0; i < THREADS; i++)
            workers[i].alone[day] = workers[0].left;
        for (int i = 0; i < EVENTS; i++)
            accepted += workers[0].left.codes[i] == 0;
        if (workers[0].left.sheet_codes[0] + workers[0].left.sheet_codes[1] + workers[0].left.sheet_codes[2] + workers[0].left.sheet_codes[3] + workers[0].left.waiting_code + workers[0].left.pick_code != 0)
            differences++;
    }
    for (int i = 0; i < THREADS; i++)
        if (pthread_create(&threads[i], NULL, work, &workers[i]) != 0)
            return 1;
    for (int i = 0; i < THREADS; i++) {
        pthread_join(threads[i], NULL);
        differences += workers[i].differences;
    }
    printf("threads_calls: %d threads went through %d days %u times each, %u of %d events accepted; differences: %u\n", THREADS, DAYS, rounds, accepted, DAYS * EVENTS, differences);
    return differences != 0 || accepted < DAYS * EVENTS / 4;
}
