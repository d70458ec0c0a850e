/* Document 01's limits and that of L10, written out here and not taken from violstream.h; call.c holds the two against each other. */
#ifndef BOUNDS_H
#define BOUNDS_H

#define LIMIT_POSITION 1099511627776u
#define LIMIT_TURN 4294967296u
enum { LIMIT_FILES = 4096, LIMIT_AGGREGATE = 4096, LIMIT_WANTS = 64, LIMIT_READS = 1024 };

#endif
