/* The rules of thumb of documents 000 and 003: each gives a list of detours for the stops of a run. What a list costs is
 * not reckoned here: measure.h asks the library. How gaps in the papers were filled: docs/DECISIONS.md, 90 to 94. */
#ifndef RULES_H
#define RULES_H

#include "tables.h"

/* Cheapest to work out first. */
enum rule_number { NODETOUR, GS, FGS, LFL, NFGS, LOGNFGS_5, ADP, LOGDP_1, LOGDP_5, RULES };

struct rule {
    const char *name;
    void (*list)(const struct stops *stops, size_t span, uint64_t *room, struct stop_list *list);
    double lambda; /* of the rules whose detours are bounded: their span is lambda * log k stops; 0 of the others */
};

extern const struct rule rules[RULES];

/* The list of a rule. `room` is for k * k * (reads + 1) words, of any content. */
void rule_list(enum rule_number rule, const struct stops *stops, uint64_t *room, struct stop_list *list);

/* By how many stops the end of a detour may lie right of its start. */
size_t rule_span(double lambda, size_t k);

/* ---- For the files of this folder, and for tests ---- */

/* reach[a] is the stop at which the detour that starts at a ends, or 0: no detour starts, hence none ends, at stop 0. */
typedef size_t reaches[MOST_STOPS];

void list_reaches(const struct stops *stops, const reaches reach, struct stop_list *list);

/* greedy.c */
void list_nodetour(const struct stops *stops, size_t span, uint64_t *room, struct stop_list *list);
void list_gs(const struct stops *stops, size_t span, uint64_t *room, struct stop_list *list);
void list_fgs(const struct stops *stops, size_t span, uint64_t *room, struct stop_list *list);
void list_lfl(const struct stops *stops, size_t span, uint64_t *room, struct stop_list *list);
void list_nfgs(const struct stops *stops, size_t span, uint64_t *room, struct stop_list *list);

/* windows.c: of all lists whose detours keep the span, one of smallest sum. A span of k gives the least of all. */
void list_logdp(const struct stops *stops, size_t span, uint64_t *room, struct stop_list *list);

/* single.c: of all lists whose detours go to one stop each, one of smallest sum. */
void list_adp(const struct stops *stops, size_t span, uint64_t *room, struct stop_list *list);

#endif
