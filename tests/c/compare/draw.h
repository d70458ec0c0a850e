/* Drawing calls at random. */
#ifndef DRAW_H
#define DRAW_H

#include <stdbool.h>
#include <stddef.h>
#include <stdint.h>
#include "call.h"

/* ---- draw_runs.c ---- */

/* Values that are all the same, or each anything from a least value on. */
struct spread {
    uint64_t most;
    bool same;
};

struct spread any_spread(const uint64_t *mosts, size_t n);

#define ANY_SPREAD(...) any_spread((const uint64_t[]){__VA_ARGS__}, sizeof(uint64_t[]){__VA_ARGS__} / sizeof(uint64_t))

void draw_tape(size_t k, size_t unwanted, struct spread gap, struct spread length);
void draw_aggregates(uint64_t top);
void draw_counts(struct spread count);
void draw_reads(uint64_t reads);
void draw_answer_rows(void);
void shift_to_limit(void);
void draw_run(size_t k);
void lengthen(enum row r);

/* ---- draw_lists.c ---- */

void draw_list(void);
void break_list(void);

/* ---- draw_calls.c ---- */

void draw_call(void);

/* ---- draw_heads.c ---- */

void put_head_anywhere(void);

#endif
