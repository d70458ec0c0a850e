/* What the library says of a run: the least sum, and the sum of a rule's list. A refusal, and a sum below the least, end the
 * program. */
#ifndef MEASURE_H
#define MEASURE_H

#include "draw.h"
#include "rules.h"

void lend_room(void);

/* By violstream_plan. */
uint64_t least_sum(const struct tape *t);

/* By violstream_price. */
uint64_t list_sum(const struct tape *t, const struct stop_list *list);

/* The sum of each rule's list. */
void rule_sums(const struct tape *t, uint64_t sums[RULES]);

/* The same list by a span other than the rule's: windows.c. */
uint64_t span_sum(const struct tape *t, size_t span);

/* Microseconds for a list of the rule, and for the planner's whole answer. */
double rule_time(const struct tape *t, enum rule_number rule);
double least_time(const struct tape *t);

#endif
