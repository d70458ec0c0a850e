/* What the harnesses share: an input taken apart, rows of just their length, and what must hold of every call over texts, whatever it is handed.
 *
 * An input is some texts with a byte 0x1e between them; README.md beside this file says which. */
#ifndef FUZZ_H
#define FUZZ_H
#include <stdbool.h>
#include <stddef.h>
#include <stdint.h>
#include <violstream.h>

/* A text that is lent to be read, in a block of just its length, and where it came from. */
struct text {
    uint8_t *bytes;
    size_t len;
    const uint8_t *from;
};

/* Each harness has this one: a call or several with an input. */
void try_input(const uint8_t *input, size_t len);

/* The next text of an input, which goes on behind it. All blocks go when the input has been tried. */
struct text next_text(const uint8_t **input, size_t *len);
void *block(size_t bytes);
/* Whether bytes are those that a block has at first. */
bool untouched(const void *at, size_t bytes);
void note_text(struct text text);

/* Ends the program by a signal, which a fuzzer counts as a crash. */
_Noreturn void wrong(const char *what, uint64_t code);

/* The rows that a call may write to, in the order of its parameters but that the sizes come last. */
enum row { FIRST, SECOND, ROOM, SIZES, ROWS };

struct lent {
    void *at;
    size_t len;
};

struct call {
    size_t most[ROWS];       /* lengths in which every answer fits; 0 where the call has no such row. Of ROOM what is lent at most */
    const uint8_t *numbers;  /* the refusals that the header allows, ended by 0; without 8 and 9, which depend on the rows */
    uint64_t (*make)(const struct lent rows[ROWS]);
    void (*before)(void);    /* puts back what else the call changes, before each call */
    void (*refused)(uint64_t code);   /* looks at what else must not have changed */
};

/* Calls with rows that do for every answer, of just the length that this answer takes, and with each row one entry shorter. Gives the code of the first. */
uint64_t hold(const struct call *call);
#endif
