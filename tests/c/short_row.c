/* Lends a row one word shorter than it says, which the header puts outside the promise: a library that is watched by the address sanitizer (tools/watched.sh) must be stopped where it reads
 * the word behind it, in its own code. A library that is not watched reads on, and the program ends with 3.
 *
 * make -C tests/c short_row ARCHIVE=... CFLAGS='-O1 -fsanitize=address,undefined'    (tests/run.sh: watched) */
#include <stdlib.h>
#include <violstream.h>

enum { FILES = 3 };

int main(void)
{
    uint64_t *starts = calloc(FILES - 1, sizeof *starts), *lengths = calloc(FILES, sizeof *lengths), *aggregates = calloc(FILES, sizeof *aggregates);
    uint64_t number = FILES, count = 1, time = 0, leg = 0, sums[VIOLSTREAM_SUMS] = {0};
    if (starts == NULL || lengths == NULL || aggregates == NULL)
        return 2;
    for (int i = 0; i < FILES; i++) {
        if (i < FILES - 1)
            starts[i] = 10 * (uint64_t)i;
        lengths[i] = 5;
    }
    violstream_price(starts, FILES, lengths, FILES, aggregates, FILES, &number, 1, &count, 1, 100, 0, NULL, 0, NULL, 0, &time, 1, &leg, 1, sums, VIOLSTREAM_SUMS);
    return 3;
}
