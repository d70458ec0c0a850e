/* Two threads lend one row, which the header puts outside the promise: a library that is watched by the thread sanitizer (tools/watched.sh) must be seen to write to it from both. A library that
 * is not watched does so unseen, and the program ends with 0.
 *
 * make -C tests/c shared_row ARCHIVE=... CFLAGS='-O1 -fsanitize=thread'    (tests/run.sh: watched) */
#include <pthread.h>
#include <stddef.h>
#include <violstream.h>

static const uint64_t starts[2] = {0, 10}, lengths[2] = {5, 5}, aggregates[2] = {0, 0}, numbers[1] = {2}, counts[1] = {1};
static uint64_t times[1];

static void *price(void *nothing)
{
    uint64_t leg, sums[VIOLSTREAM_SUMS];
    for (int i = 0; i < 10000; i++)
        violstream_price(starts, 2, lengths, 2, aggregates, 2, numbers, 1, counts, 1, 100, 0, NULL, 0, NULL, 0, times, 1, &leg, 1, sums, VIOLSTREAM_SUMS);
    return nothing;
}

int main(void)
{
    pthread_t other;
    if (pthread_create(&other, NULL, price, NULL) != 0)
        return 2;
    price(NULL);
    pthread_join(other, NULL);
    return 0;
}
