/* Random numbers: one stream for each call, so that a call can be made again alone. */
#ifndef RANDOM_H
#define RANDOM_H

#include <stdbool.h>
#include <stdint.h>

extern uint64_t stream;

uint64_t any_word(void);
uint64_t below(uint64_t n);
uint64_t between(uint64_t least, uint64_t most);
bool one_in(uint64_t n);
uint64_t wild(uint64_t old);

#endif
