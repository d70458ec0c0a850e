/* Runs within the library's limits, drawn as documents 000 and 003 describe their tapes. Lengths are in kilobytes. */
#ifndef DRAW_H
#define DRAW_H

#include <violstream.h>
#include "tables.h"

struct tape {
    size_t files, wants;
    uint64_t starts[VIOLSTREAM_MAX_FILES], lengths[VIOLSTREAM_MAX_FILES], aggregates[VIOLSTREAM_MAX_FILES];
    uint64_t numbers[VIOLSTREAM_MAX_WANTS], counts[VIOLSTREAM_MAX_WANTS];
    uint64_t segment; /* the mean segment, by which the turn price goes */
    struct stops stops;
};

/* ---- A tape by hand ---- */

void empty_tape(struct tape *t);
void add_file(struct tape *t, uint64_t gap, uint64_t length);
void want_last(struct tape *t, uint64_t count);

/* The head at the end of the tape, and this turn price. */
void ready(struct tape *t, uint64_t turn);

/* ---- Random numbers ---- */

void draw_from(uint64_t seed);
uint64_t draw_below(uint64_t n);

/* ---- Tapes of the papers ---- */

enum { TAPES_000 = 169 };

/* One of the tapes of document 000: a stretch of it with at most `most` wanted files, which lie in bunches of that mean
 * length; 1: each for itself. */
void draw_000(struct tape *t, uint64_t number, size_t most, double bunch);

/* An artificial tape of document 003: so many files, of which `percent` in a hundred are wanted, once each; sigma is that
 * of the lengths. It ends where it would have more than `most` wanted files. */
void draw_003(struct tape *t, uint64_t number, size_t files, unsigned percent, double sigma, size_t most);

#endif
