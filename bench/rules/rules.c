/* The rules by name, and how a list is put down. */
#include "rules.h"
#include <math.h>

const struct rule rules[RULES] = {
    [NODETOUR] = {"NODETOUR", list_nodetour, 0},
    [GS] = {"GS", list_gs, 0},
    [FGS] = {"FGS", list_fgs, 0},
    [LFL] = {"LFL", list_lfl, 0},
    [NFGS] = {"NFGS", list_nfgs, 0},
    [LOGNFGS_5] = {"LOGNFGS(5)", list_nfgs, 5},
    [ADP] = {"ADP", list_adp, 0},
    [LOGDP_1] = {"LOGDP(1)", list_logdp, 1},
    [LOGDP_5] = {"LOGDP(5)", list_logdp, 5},
};

size_t rule_span(double lambda, size_t k)
{
    return k == 0 ? 0 : (size_t)floor(lambda * log((double)k));
}

void rule_list(enum rule_number rule, const struct stops *stops, uint64_t *room, struct stop_list *list)
{
    const struct rule *r = &rules[rule];
    size_t span = r->lambda > 0 ? rule_span(r->lambda, stops->k) : stops->k;
    r->list(stops, span, room, list);
}

/* Starts fall from entry to entry: the head comes from the right. */
void list_reaches(const struct stops *stops, const reaches reach, struct stop_list *list)
{
    list->length = 0;
    for (size_t a = stops->k; a-- > 1;)
        if (reach[a] != 0) {
            list->start[list->length] = a;
            list->end[list->length++] = reach[a];
        }
}
