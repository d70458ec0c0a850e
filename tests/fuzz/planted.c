/* Stands for violstream_answer with one fault, by the number in FAULT; with 0 none. run.sh --planted: the harness must stop at each, and at none with 0.
 * Its "sheets" are texts that begin with t; its plan is `ok` and LF, made in two words of room. */
#include <stdlib.h>
#include <string.h>
#include <violstream.h>

static uint64_t refuse(int fault, uint8_t *out, size_t out_len)
{
    if (fault == 1 && out_len > 0)
        out[0] = 1; /* a refusal that writes */
    return fault == 2 ? 10 : 11; /* a number that is not this call's */
}

static size_t write_plan(int fault, uint8_t *out, size_t out_len)
{
    static int calls;
    calls++;
    memcpy(out, fault == 3 && calls % 2 == 0 ? "ko\n" : "ok\n", 3); /* another answer to the same call */
    if (fault == 4 && out_len > 3)
        out[3] = 0; /* a byte behind the text */
    return fault == 5 ? 1 + (size_t)VIOLSTREAM_PLAN_MOST : 3; /* a size that no plan sheet has */
}

uint64_t violstream_answer(const uint8_t *sheet, size_t sheet_len, uint8_t *out, size_t out_len, uint64_t *room, size_t room_len, uint64_t *sizes, size_t sizes_len)
{
    int fault = getenv("FAULT") == NULL ? 0 : atoi(getenv("FAULT"));
    if (sheet_len == 0 || sheet[0] != 't' || (fault == 6 && sheet[sheet_len] == 't')) /* a byte behind the sheet is read */
        return refuse(fault, out, out_len);
    if (fault == 7)
        ((uint8_t *)sheet)[0] = 'u'; /* a row that is lent to be read */
    if (room_len < 2 && fault != 8) /* a room that is too short is taken */
        return 9;
    for (size_t i = 0; i < 2 && i < room_len; i++)
        room[i] = fault == 9; /* a room that is not cleared */
    if (out_len < (fault == 10 ? 4u : 3u) || sizes_len < 1) /* rows that do are refused */
        return fault == 11 ? 0 : 8; /* rows that do not are accepted */
    sizes[0] = write_plan(fault, out, out_len);
    return 0;
}
