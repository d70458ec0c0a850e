/* violstream_answer: an input is a run sheet. */
#include "../fuzz.h"

static struct text sheet;

static uint64_t make(const struct lent rows[ROWS])
{
    return violstream_answer(sheet.bytes, sheet.len, rows[FIRST].at, rows[FIRST].len, rows[ROOM].at, rows[ROOM].len, rows[SIZES].at, rows[SIZES].len);
}

void try_input(const uint8_t *input, size_t len)
{
    static const uint8_t numbers[] = {12, 11, 19, 1, 2, 3, 4, 5, 6, 7, 0};
    static const struct call call = {{[FIRST] = VIOLSTREAM_PLAN_MOST, [ROOM] = VIOLSTREAM_ROOM_WORDS(8, 24), [SIZES] = 1}, numbers, make, NULL, NULL};
    sheet = next_text(&input, &len);
    hold(&call);
}
