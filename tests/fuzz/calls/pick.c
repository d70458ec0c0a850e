/* violstream_pick: an input is a tape's name, b or another byte (the unit: bytes or blocks), the head or nothing, the turn price or nothing, a label, an index and a list of paths. */
#include "../fuzz.h"

static struct text tape, label, indexed, list;
static uint64_t unit, head, turn;
static size_t heads, turns;

static uint64_t make(const struct lent rows[ROWS])
{
    return violstream_pick(tape.bytes, tape.len, label.bytes, label.len, indexed.bytes, indexed.len, list.bytes, list.len, unit, heads ? &head : NULL, heads, turns ? &turn : NULL, turns,
                           rows[FIRST].at, rows[FIRST].len, rows[SECOND].at, rows[SECOND].len, rows[SIZES].at, rows[SIZES].len);
}

/* A number by its digits; any other byte counts by its lowest four bits. */
static size_t number(struct text text, uint64_t *value)
{
    *value = 0;
    for (size_t i = 0; i < text.len; i++)
        *value = *value * 10 + (text.bytes[i] & 15);
    return text.len > 0;
}

void try_input(const uint8_t *input, size_t len)
{
    static const uint8_t numbers[] = {13, 20, 44, 11, 5, 41, 42, 23, 3, 0};
    struct call call = {{[FIRST] = VIOLSTREAM_SHEET_MOST, [SECOND] = 0, [SIZES] = 2}, numbers, make, NULL, NULL};
    tape = next_text(&input, &len);
    struct text kind = next_text(&input, &len);
    unit = kind.len == 1 && kind.bytes[0] == 'b' ? VIOLSTREAM_BYTES : VIOLSTREAM_BLOCKS;
    heads = number(next_text(&input, &len), &head);
    turns = number(next_text(&input, &len), &turn);
    label = next_text(&input, &len);
    indexed = next_text(&input, &len);
    list = next_text(&input, &len);
    call.most[SECOND] = VIOLSTREAM_NAMES_MOST(list.len);
    hold(&call);
}
