/* Calls from several threads at once, each with rows of its own: every thread plans its runs and prices the lists it
 * gets, over and over, and every result and every word of every row must be what one thread alone got before.
 *
 * make -C tests/c threads    (Makefile beside this file says against what)
 * target/tests/threads [ROUNDS]     1,000 rounds by default; exit status: 0 all agree, 1 a difference */
#define _POSIX_C_SOURCE 200809L
#include <inttypes.h>
#include <pthread.h>
#include <stdio.h>
#include <stdlib.h>
#include <string.h>
#include <violstream.h>

enum { THREADS = 4, RUNS = 24 };
static unsigned rounds = 1000;
enum { WANTS = 12, FILES = 2 * WANTS, READS = 4 * WANTS, ROOM = VIOLSTREAM_ROOM_WORDS(WANTS, READS) };

/* What is lent to be read, and what is lent for the answer. Words alone, so that memcmp sees every one and no gap. */
struct run {
    uint64_t wants, head, turn, starts[FILES], lengths[FILES], aggregates[FILES], numbers[WANTS], counts[WANTS];
};
struct answer {
    uint64_t planned, from[WANTS], to[WANTS], times[WANTS], legs[WANTS], sums[VIOLSTREAM_SUMS];
    uint64_t priced, times_again[WANTS], legs_again[WANTS], sums_again[VIOLSTREAM_SUMS];
};

static struct desk {
    struct run runs[RUNS], lent;
    struct answer alone[RUNS], answer;
    uint64_t room[ROOM];
    unsigned differences;
} desks[THREADS];
static pthread_barrier_t start;
static const uint64_t cleared[ROOM];        /* an accepted plan leaves the room it used at 0, a refused one as it was */

static uint64_t upto(uint64_t most)
{
    static uint64_t state = 88172645463325252u;
    state ^= state << 13;
    state ^= state >> 7;
    state ^= state << 17;
    return 1 + state % most;
}

/* Every sixth run has a turn price over the limit, and is refused. Every second has files in aggregates. */
static void draw(struct run *run, unsigned number)
{
    uint64_t end = 0;
    *run = (struct run){.wants = upto(WANTS), .turn = number % 6 == 5 ? VIOLSTREAM_MAX_TURN + 1 : upto(1000)};
    for (size_t i = 0; i < FILES; i++) {
        run->starts[i] = end + upto(100) - 1;
        run->lengths[i] = upto(1000);
        run->aggregates[i] = number % 2 == 0 ? 0 : i > 0 && upto(3) > 1 ? run->aggregates[i - 1] : FILES - i;
        end = run->starts[i] + run->lengths[i];
    }
    for (size_t i = 0; i < run->wants; i++) {
        run->numbers[i] = 2 * i + upto(2);
        run->counts[i] = upto(READS / WANTS);
    }
    run->head = end + upto(100);
}

static void plan_and_price(const struct run *r, struct answer *a, uint64_t *room)
{
    memset(a, 0x5a, sizeof *a);
    a->planned = violstream_plan(r->starts, FILES, r->lengths, FILES, r->aggregates, FILES, r->numbers, r->wants, r->counts,
                                 r->wants, r->head, r->turn, VIOLSTREAM_LEAST, a->from, WANTS, a->to, WANTS, a->times, WANTS,
                                 a->legs, WANTS, a->sums, VIOLSTREAM_SUMS, room, ROOM);
    size_t detours = a->planned == 0 ? a->sums[VIOLSTREAM_DETOURS] : 0;
    a->priced = violstream_price(r->starts, FILES, r->lengths, FILES, r->aggregates, FILES, r->numbers, r->wants, r->counts,
                                 r->wants, r->head, r->turn, a->from, detours, a->to, detours, a->times_again, WANTS,
                                 a->legs_again, WANTS, a->sums_again, VIOLSTREAM_SUMS);
}

static void *work(void *given)
{
    struct desk *desk = given;
    pthread_barrier_wait(&start);
    for (unsigned round = 0; round < rounds; round++)
        for (unsigned i = 0; i < RUNS; i++) {
            desk->lent = desk->runs[i];
            plan_and_price(&desk->lent, &desk->answer, desk->room);
            if (memcmp(&desk->lent, &desk->runs[i], sizeof desk->lent) == 0
                && memcmp(&desk->answer, &desk->alone[i], sizeof desk->answer) == 0
                && memcmp(desk->room, cleared, sizeof cleared) == 0)
                continue;
            if (desk->differences++ == 0)
                fprintf(stderr, "threads.c: difference: thread %d, round %u, run %u: plan gave %" PRIu64 ", sum %" PRIu64
                        "; alone %" PRIu64 ", sum %" PRIu64 "\n", (int)(desk - desks), round, i, desk->answer.planned,
                        desk->answer.sums[VIOLSTREAM_SUM], desk->alone[i].planned, desk->alone[i].sums[VIOLSTREAM_SUM]);
        }
    return NULL;
}

int main(int words, char **word)
{
    if (words == 2)
        rounds = (unsigned)strtoul(word[1], NULL, 10);
    pthread_t threads[THREADS];
    unsigned started = 0, accepted = 0, differences = 0;
    for (unsigned i = 0; i < THREADS * RUNS; i++) {
        struct desk *desk = &desks[i / RUNS];
        struct answer *alone = &desk->alone[i % RUNS];
        draw(&desk->runs[i % RUNS], i);
        plan_and_price(&desk->runs[i % RUNS], alone, desk->room);
        accepted += alone->planned == 0 && alone->priced == 0;
    }
    pthread_barrier_init(&start, NULL, THREADS);
    while (started < THREADS && pthread_create(&threads[started], NULL, work, &desks[started]) == 0)
        started++;
    for (unsigned t = 0; started == THREADS && t < THREADS; t++) {
        pthread_join(threads[t], NULL);
        differences += desks[t].differences;
    }
    if (started != THREADS || accepted != THREADS * RUNS * 5 / 6 || differences != 0) {
        fprintf(stderr, "threads.c: %u threads started, must be %d; %u of %d runs accepted, must be 5 of 6; %u differences, must be 0\n",
                started, THREADS, accepted, THREADS * RUNS, differences);
        return 1;
    }
    printf("threads.c: %d threads at once, %u plans and prices each: as by one thread alone\n", THREADS, rounds * RUNS);
    return 0;
}
