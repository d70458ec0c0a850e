/* How much of the stack the calls for tickets, for sheets and for paths take, with all that they call: on an empty table, a full one, and each that an event goes on to. Fails where a call
 * takes more bytes than violstream.h says, or does not give the result that its case is there for.
 *
 * A figure is what a call writes on a stack painted before (bench/stack.c), less what a function that does nothing writes. It holds the caller's frame too, with
 * the arguments beyond the sixth.
 *
 * make -C tests/c stack_desk      (Makefile beside this file says against what)
 * target/tests/stack_desk         exit status: 0 none above, 1 some, or a wrong result */
#include <inttypes.h>
#include <stdio.h>
#include <string.h>
#include <violstream.h>
#include "stack.h"

/* The bytes that violstream.h allows. */
enum { CALL_MOST = 16384, SHEET_MOST = 32768, BUYS_MOST = 49152, CHECK_MOST = 147456, MEND_MOST = 167936, PICK_MOST = 86016, EVENT_MOST = 557056, FILES = 8 };

static const uint64_t starts[FILES] = {0, 10, 16, 20, 50, 60, 70, 80}, lengths[FILES] = {10, 4, 4, 30, 10, 10, 10, 10}, aggregates[FILES];
static struct violstream_desk desk;
static uint64_t room[VIOLSTREAM_ROOM_WORDS(8, 1024)], from[8], to[8], times[8], legs[8], number, result;
static uint8_t bytes[VIOLSTREAM_TEXT_MOST], sheet_bytes[VIOLSTREAM_SHEET_MOST], verdict_bytes[VIOLSTREAM_CHECK_MOST], change_bytes[VIOLSTREAM_CHANGES_MOST];
static uint8_t name_bytes[VIOLSTREAM_NAMES_MOST(1025 * 4)];
static struct violstream_text text, sheet_text, verdict_text, change_text, name_text;
static struct violstream_paths paths;
static char list[1025 * 4 + 1];
static struct violstream_run run;
static struct violstream_rows rows;
static const char *line, *plan;
static int wrong;

static void nothing(void) { }
static void file(void) { result = violstream_file_rows(&desk, 1, 3, 3, FILES, &number); }
static void withdraw(void) { result = violstream_withdraw_rows(&desk, 1, 1); }
static void board(void) { result = violstream_board_rows(&desk, &run, &rows); }
static void event(void) { result = violstream_event_rows(&desk, &run, line, strlen(line), &rows, &text); }
static void waiting(void) { result = violstream_waiting_rows(&desk, &text); }

static void answer(void) { result = violstream_answer_rows(line, strlen(line), &rows, &sheet_text); }
static void buys(void) { result = violstream_buys_rows(line, strlen(line), &rows, &sheet_text); }
static void check(void) { result = violstream_check_rows(line, strlen(line), plan, strlen(plan), &rows, &verdict_text); }
static void mend(void) { result = violstream_mend_rows(line, strlen(line), &sheet_text, &change_text); }
static void pick(void) { result = violstream_pick_rows(&paths, &sheet_text, &name_text); }

/* Sixteen tickets of each office, with as many reads as they can ask for. */
static void fill(void)
{
    memset(&desk, 0, sizeof desk);
    for (uint64_t i = 0; i < 32; i++)
        if (violstream_file_rows(&desk, 1 + i / 16, 1 + i % FILES, VIOLSTREAM_MAX_COUNT, FILES, &number) != 0)
            wrong = 1;
}

static void hold(const char *what, void (*call)(void), uint64_t must, size_t most)
{
    size_t taken = stack_bytes(call) - stack_bytes(nothing);
    printf("%-28s %7zu bytes of %d\n", what, taken, (int)most);
    if (taken > most || result != must) {
        fprintf(stderr, "stack_desk.c: %s takes %zu bytes and gives %" PRIu64 "; allowed are %zu, and it must give %" PRIu64 "\n", what, taken, result, most, must);
        wrong = 1;
    }
}

/* With no words for the lengths. */
static void pick_short(void)
{
    result = violstream_pick(paths.tape, paths.tape_len, paths.label, paths.label_len, paths.index, paths.index_len, paths.list, paths.list_len, paths.unit, NULL, 0, NULL, 0, sheet_bytes,
                             sizeof sheet_bytes, name_bytes, sizeof name_bytes, NULL, 0);
}

/* The same path on so many lines. */
static void hold_pick(const char *what, const char *path, size_t lines, uint64_t must)
{
    size_t bytes = strlen(path);
    for (size_t i = 0; i < lines; i++)
        memcpy(list + i * bytes, path, bytes);
    paths.list = list, paths.list_len = lines * bytes;
    hold(what, pick, must, PICK_MOST);
}

/* An index as deep as one can be, with two files in its second folder, of which the second has no bytes. The name of a folder stands behind what is in it. */
#define FOLDER "<directory><contents>"
#define END "</contents><name>d</name></directory>"
#define FILE_A "<file><name>&#97;</name><extentinfo><extent><partition>b</partition><startblock>4</startblock><byteoffset>0</byteoffset><bytecount>25</bytecount></extent></extentinfo></file>"

static void hold_picks(void)
{
    static const char label[] = "<ltfslabel><partitions><index>a</index><data>b</data></partitions><blocksize>10</blocksize></ltfslabel>";
    static const char index[] = "<ltfsindex><directory><name>V</name><contents>" FOLDER FOLDER FOLDER FOLDER FOLDER FOLDER FOLDER FOLDER FOLDER FOLDER FOLDER FOLDER FILE_A END END END END END END
                                END END END END END END FOLDER FILE_A "<file><name>b</name></file>" END "</contents></directory></ltfsindex>";
    paths.tape = "VX0041", paths.tape_len = 6;
    paths.label = label, paths.label_len = sizeof label - 1;
    paths.index = index, paths.index_len = sizeof index - 1;
    name_text.bytes = name_bytes, name_text.room = sizeof name_bytes;
    hold_pick("pick, nothing", "", 0, 0);
    hold_pick("pick, 1,024 lines", "d/a\n", 1024, 0);
    hold_pick("pick, 1,025 lines", "d/a\n", 1025, VIOLSTREAM_TOO_MANY_READS);
    hold_pick("pick, deep", "d/d/d/d/d/d/d/d/d/d/d/d/a\n", 1, 0);
    hold_pick("pick, no path", "\n", 1, VIOLSTREAM_BAD_LINE + 256 * 1);
    hold_pick("pick, no file", "d/c\n", 1, VIOLSTREAM_NO_FILE + 256 * 1);
    hold_pick("pick, no bytes", "d/b\n", 1, VIOLSTREAM_NO_RANGE + 256 * 1);
    paths.unit = VIOLSTREAM_BLOCKS;
    hold_pick("pick, blocks", "d/a\n", 1, 0);
    hold("pick, no sizes", pick_short, VIOLSTREAM_SHORT_ROW, PICK_MOST);
    name_text.room = 3;
    hold_pick("pick, short row", "d/a\n", 1, VIOLSTREAM_SHORT_ROW);
    paths.label_len = 5;
    hold_pick("pick, no label", "d/a\n", 1, VIOLSTREAM_BAD_INDEX);
}

static void hold_event(const char *what, const char *of, uint64_t must)
{
    line = of;
    hold(what, event, must, EVENT_MOST);
}

int main(void)
{
    run.starts = starts, run.lengths = lengths, run.aggregates = aggregates, run.files = FILES;
    run.head = 100, run.turn = 1;
    rows.detour_starts = from, rows.detour_ends = to, rows.detours = 8;
    rows.times = times, rows.times_len = 8;
    rows.legs = legs, rows.legs_len = 8;
    rows.room = room, rows.room_len = VIOLSTREAM_ROOM_WORDS(8, 1024);
    text.bytes = bytes, text.room = sizeof bytes;
    hold("file", file, 0, CALL_MOST);
    hold("withdraw", withdraw, 0, CALL_MOST);
    hold("withdraw, not waiting", withdraw, VIOLSTREAM_NOT_WAITING, CALL_MOST);
    hold("waiting, nobody", waiting, 0, CALL_MOST);
    hold("board, nobody", board, 0, CALL_MOST);
    fill();
    hold("file, full", file, VIOLSTREAM_OFFICE_FULL, CALL_MOST);
    hold("waiting, 32", waiting, 0, CALL_MOST);
    hold("board, eight", board, 0, CALL_MOST);
    run.head = 1;
    hold("board, head too far left", board, VIOLSTREAM_HEAD_PLACE, CALL_MOST);
    hold_event("event, file", "file=1,1,1\n", 0);
    hold_event("event, withdraw", "withdraw=2,16\n", 0);
    hold_event("event, none", "x\n", VIOLSTREAM_BAD_LINE);
    hold_event("event, board", "board=100,1\n", 0);
    sheet_text.bytes = sheet_bytes, sheet_text.room = sizeof sheet_bytes;
    line = "tape=VX0041\nhead=60\nturn=1\nrule=least\nfiles=2\nfile=0,10,0\nfile=10,4,0\nwants=2\nwant=1,1\nwant=2,3\n";
    hold("buys, a detour", buys, 0, BUYS_MOST);
    line = "tape=VX0041\nhead=0\nturn=1\nrule=least\nfiles=2\nfile=0,10,0\nfile=10,4,0\nwants=2\nwant=1,1\nwant=2,3\n";
    hold("answer", answer, 0, SHEET_MOST);
    hold("buys", buys, 0, BUYS_MOST);
    verdict_text.bytes = verdict_bytes, verdict_text.room = sizeof verdict_bytes;
    change_text.bytes = change_bytes, change_text.room = sizeof change_bytes;
    plan = "tape=VX0041\nsum=43\nreads=4\nfinish=15\nend=14\ndetours=0\ntime=1,11,1\ntime=2,15,1\n";
    hold("check", check, 0, CHECK_MOST);
    plan = "tape=VX0041\nsum=1\nreads=4\nfinish=15\nend=14\ndetours=1\ndetour=2,2\ntime=1,11,1\ntime=2,15,1\n";
    hold("check, another list", check, 0, CHECK_MOST);
    plan = "x\n";
    hold("check, no plan sheet", check, VIOLSTREAM_BAD_LINE + 256 * 1, CHECK_MOST);
    hold("mend", mend, 0, MEND_MOST);
    line = "tape=VX0041\nhead=0\nturn=\nrule=sweep\nfiles=0\nfile=0,10,0\nfile=10,4,0\nwants=0\nwant=2,3\nwant=1,1\nwant=2,0\nwant=1,1\n";
    hold("mend, all kinds", mend, 0, MEND_MOST);
    line = "x\n";
    hold("mend, no sheet", mend, VIOLSTREAM_BAD_LINE + 256 * 1, MEND_MOST);
    hold("answer, no sheet", answer, VIOLSTREAM_BAD_LINE + 256 * 1, SHEET_MOST);
    hold("buys, no sheet", buys, VIOLSTREAM_BAD_LINE + 256 * 1, BUYS_MOST);
    hold_picks();
    text.room = 100;
    hold_event("event, board, short row", "board=100,1\n", VIOLSTREAM_SHORT_ROW);
    return wrong;
}
