/* What the call at hand must give, and what was met on the way. */
#ifndef ORACLE_H
#define ORACLE_H

#include <stddef.h>
#include <stdint.h>
#include "lists.h"

/* ---- judge.c ---- */

extern struct stops run;                    /* the run of the call at hand, joined, once it is judged sound */
extern uint64_t wanted[LIMIT_WANTS];        /* the names of its stops: their first files */
extern size_t stop_of[LIMIT_WANTS];         /* the stop of each want handed in */
extern uint64_t times_broken[RULES][LIMIT_WANTS + 1];

uint64_t refuse(uint64_t number, uint64_t place);
size_t room_words(void);
enum rule_broken broken_at(const uint64_t *a, const uint64_t *b, size_t i);
uint64_t judge(void);
uint64_t name_of(uint64_t file);

/* ---- answer.c ---- */

extern uint64_t *cells;                     /* for paper.c */
extern uint64_t plans_searched, plans_by_cells;

size_t position_of(uint64_t name);
void write_answer(void);

/* ---- joined.c ---- */

extern uint64_t *joined_room;
extern uint64_t compared_joined;

void compare_with_joined(void);

/* ---- sheets.c ---- */

void open_sheets(const char *path);
void note_sheet(void);                      /* the call at hand is accepted, and `due` holds its answer */
void close_sheets(void);

/* ---- met.c ---- */

extern uint64_t results[2][2][256];         /* by whether the head may stand anywhere, by function and number */

void note_call(uint64_t result);
void require_all_met(void);

#endif
