/* The head put anywhere. */
#include "draw.h"
#include "random.h"

/* At or next to the start or the end of a file, anywhere left of where it stands, or at 0. */
static uint64_t any_place(void)
{
    size_t files = call.length[STARTS] < call.length[LENGTHS] ? call.length[STARTS] : call.length[LENGTHS];
    if (files > 0 && !one_in(3)) {
        size_t at = below(files);
        uint64_t edge = call.draft[STARTS][at] + (one_in(3) ? call.draft[LENGTHS][at] : 0);
        return one_in(2) ? edge : edge + 1 - below(3);
    }
    return one_in(3) ? 0 : between(0, call.head < LIMIT_POSITION ? call.head : LIMIT_POSITION);
}

/* Takes entries from the beginning of a list, of which the first starts furthest right. */
static void shorten_list(void)
{
    for (size_t some = below(4); some > 0 && call.length[DETOUR_STARTS] > 0 && call.length[DETOUR_ENDS] > 0; some--)
        for (int half = DETOUR_STARTS; half <= DETOUR_ENDS; half++) {
            call.length[half]--;
            for (size_t i = 0; i < call.length[half]; i++)
                call.draft[half][i] = call.draft[half][i + 1];
        }
}

void put_head_anywhere(void)
{
    call.any = true;
    if (!one_in(5))
        call.head = any_place();
    if (!call.plan && one_in(2))
        shorten_list();
}
