/* A search for runs that take the planner long. */
#ifndef SLOW_H
#define SLOW_H

#include <stdint.h>

/* Draws tapes at the limits, changes them a little at a time for so many seconds, keeping what takes longer, and prints the
 * slowest run that it met. `room` has VIOLSTREAM_ROOM_MOST words. False where the planner and table.c differ on a run. */
_Bool search_slow(double seconds, uint64_t seed, uint64_t *room);

#endif
