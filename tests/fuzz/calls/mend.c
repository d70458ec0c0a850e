/* violstream_mend: an input is a run sheet from mail. What was mended is mended to itself, without a change. */
#include "../fuzz.h"
#include <string.h>

static struct text sheet;
static uint8_t *mended;
static uint64_t mended_len;

static uint64_t make(const struct lent rows[ROWS])
{
    uint64_t code = violstream_mend(sheet.bytes, sheet.len, rows[FIRST].at, rows[FIRST].len, rows[SECOND].at, rows[SECOND].len, rows[SIZES].at, rows[SIZES].len);
    if (code == 0)
        mended = rows[FIRST].at, mended_len = ((uint64_t *)rows[SIZES].at)[0];
    return code;
}

void try_input(const uint8_t *input, size_t len)
{
    static const uint8_t numbers[] = {12, 11, 3, 5, 0};
    static const struct call call = {{[FIRST] = VIOLSTREAM_SHEET_MOST, [SECOND] = VIOLSTREAM_CHANGES_MOST, [SIZES] = 2}, numbers, make, NULL, NULL};
    sheet = next_text(&input, &len);
    if (hold(&call) != 0)
        return;
    uint8_t *out = block(mended_len);
    uint64_t sizes[2];
    uint64_t code = violstream_mend(mended, mended_len, out, mended_len, NULL, 0, sizes, 2);
    if (code != 0 || sizes[0] != mended_len || sizes[1] != 0 || memcmp(out, mended, mended_len) != 0)
        wrong("what was mended is not mended to itself", code);
}
