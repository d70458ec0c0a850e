/*
 * violstream.h - plan and price the recall of files from tape, keep the waiting tickets of two offices, find files by their
 * paths, and answer, check and mend sheets. First what a run is, then the calls.
 *
 * THE RUN
 *
 *   Positions on the tape are whole numbers from 0 to 2^40. One unit of tape takes one unit of time, in both
 *   directions.
 *   Files are numbered from 1 in tape order; file f is entry f - 1 of `starts`, `lengths` and `aggregates`. Gaps
 *   are allowed.
 *   Entry f - 1 of `aggregates` is the number of the aggregate in which file f lies, 1 to 4,096, or 0 for none. The
 *   files of one aggregate are neighbours in the table; its number need not be higher than that of the one before.
 *   An aggregate is read as a whole, from the start of its first file to the end of its last, the gaps between them
 *   included.
 *   A want is a file number and how many reads of that file are waiting; wants stand in rising file number.
 *   A want of a file that lies in an aggregate is a want of the whole aggregate. What is wanted is called a stop: an
 *   aggregate, or a file that lies in none. Wants of files of one aggregate are one stop, and their reads add up; its
 *   name is the number of the aggregate's first file, wanted or not. With 0 everywhere in `aggregates` each want is a
 *   stop by itself.
 *   The head starts at `head`, at or right of the end of the rightmost stop, set to move left, at clock 0. For
 *   violstream_price_any and violstream_plan_any `head` is any place up to 2^40.
 *   Each turn of the head costs `turn`, the first one too. A stop is read by the first rightward run that
 *   starts at or left of its start and ends at or right of its end; its time is the clock when the head reaches
 *   its end in that run. Every want of the stop, and each of its reads, has that time. The sum of a run is the total,
 *   over wants, of reads times time.
 *   Not modelled: several tracks (a tape that winds in serpentines is planned as if it were one line), speeds that
 *   change, writing, and wants that arrive during a run.
 *
 * DETOURS
 *
 *   A detour (a, b) names two stops, a <= b, each by the number of its first file: on first reaching the start of a,
 *   the head goes right to the end of b and comes back. A list of detours is well formed when every a lies right of the
 *   leftmost stop, the starts strictly fall from entry to entry (the order in which they are done), and of
 *   two detours with a < a' either b < a' or b' < b. After the list comes the last sweep: left to the start of
 *   the leftmost stop, then right to the end of the rightmost stop that no detour has read, where the
 *   run finishes: the last thing that happens is a read. Without wants there is no sweep, only the empty list is
 *   well formed, and the head stays where it is.
 *   Where the head may stand anywhere, two things more. The head's own stop is the first that starts at or right of
 *   `head`: a list is well formed only if no detour starts right of it. And where the start of a detour's first stop, or
 *   for the last sweep of the leftmost stop, lies right of `head`, the leg turns at `head` and goes right at once.
 *   Legs are counted from 1: detour i of the list is leg i, and the last sweep is the last leg, leg 1 if the list is
 *   empty. A want's leg is the one whose rightward run reads its stop.
 *   Of two lists with the same sum, look at the rightmost stop at which they differ in whether a detour ends
 *   there or in where that detour starts: the list with no detour ending there comes first, else the one whose
 *   detour starts further right. So there is one best list.
 *
 * THE CALLS, in the order in which a daemon meets them, with the program below in which each is made
 *
 *   violstream_pick       a tape's LTFS label and index, and a list of paths, to the run sheet of these
 *                         files and their names: what `violstream pick` prints                                    (paths.c)
 *   violstream_version    the version of the library that is linked                                            (anywhere.c)
 *   violstream_mend       a run sheet from mail put in order, and a line for each change: what
 *                         `violstream mend` prints                                                                (sheet.c)
 *   violstream_plan       the best list of detours for a run, and what it costs; asks for a head at or
 *                         right of everything wanted                                                            (example.c)
 *   violstream_plan_any   the same for a head anywhere: a tape just mounted, or a second run from where
 *                         the first ended                                                                      (anywhere.c)
 *   violstream_price      what a list of detours costs; violstream_price_any: for a head anywhere              (anywhere.c)
 *   violstream_answer     a run sheet's bytes to the plan sheet's, for a head anywhere: what
 *                         `violstream plan --any` prints                                                          (sheet.c)
 *   violstream_buys       the same to the figure sheet's, what each detour of the plan buys: what
 *                         `violstream buys --any` prints                                                          (sheet.c)
 *   violstream_file       a ticket filed at one of two offices; violstream_withdraw: one withdrawn              (tickets.c)
 *   violstream_waiting    who waits, as text                                                                    (tickets.c)
 *   violstream_board      up to eight tickets leave on one run, which is planned                                (tickets.c)
 *   violstream_event      a filing, withdrawal or boarding by a line of text, answered by the text that
 *                         `violstream desk` prints                                                              (tickets.c)
 *   violstream_check      whether a plan sheet is right for a run sheet: what `violstream check` prints           (sheet.c)
 *
 * Each that is lent rows has a second form with its rows in structs, violstream_NAME_rows, at the end of this file. Where
 * violstream_plan and violstream_price accept, the calls for a head anywhere give the same.
 *
 * All work on 64-bit numbers and on rows that the caller lends. They allocate nothing and keep nothing between calls, so
 * several threads can call at once, each with rows of its own. A plan at the limits takes a few milliseconds, at most some
 * tens. The most bytes of stack that a call takes beside its arguments, whatever it is handed:
 *
 *   violstream_price, violstream_price_any                                                  1,024
 *   violstream_plan, violstream_plan_any                                                    6,144
 *   violstream_file, violstream_withdraw, violstream_board, violstream_waiting             16,384
 *   violstream_answer                                                                      32,768
 *   violstream_buys                                                                        49,152  (48 KiB)
 *   violstream_pick                                                                        86,016  (84 KiB)
 *   violstream_check                                                                      147,456  (144 KiB)
 *   violstream_mend                                                                       167,936  (164 KiB)
 *   violstream_event                                                                      557,056  (544 KiB)
 *
 * Mind the last five where a thread has a small stack. C99 or later, or C++. Link with libviolstream.a (x86-64), which needs
 * the C library and nothing else:
 *
 *   cc example.c $(pkg-config --cflags --libs violstream)
 *
 * -lviolstream by itself takes libviolstream.so, which must then be found when the program starts.
 *
 * TICKETS
 *
 *   Two offices ask for files of one tape by tickets. The waiting table is a row of 32 records, which the caller keeps from
 *   call to call: 16 places of office 1, then 16 of office 2. In each office's places its tickets stand in order of filing,
 *   their numbers rising, and then empty places, whose four words are 0. Beside it the caller keeps a row of two words, the
 *   last number given to each office, 0 for none. A table of zeros with two zeros beside it is the morning of a day.
 *   A boarding takes four tickets of each office, or all it has, in order of filing, and gives places that one office
 *   does not need to the other: at most eight. Their files are the wants of a run, counts of one file added. The
 *   tickets leave only if its plan is accepted. So a ticket with j tickets of its own office ahead leaves by accepted
 *   boarding number j / 4 + 1 from then, whatever the other office files, unless it is withdrawn.
 *   A record that could not have come about so is refused (26) by every call before it does anything else.
 *   Records past the 32nd are neither read nor written.
 *
 * ROWS
 *
 *   A row is a pointer and, right after it, its length: in words of 64 bits, for texts in bytes, for tickets in records. The caller
 *   owns every row before, during and after a call. A row of length 0 may have a null pointer. Rows may be longer than needed.
 *
 *   Accepted (result 0): the rows for the answer hold it in their first entries. Later entries are unchanged.
 *   Refused (any other result): nothing in any row has changed.
 *   Rows that are lent to be read never change.
 *
 *   Outside the promise, as for any C function: a length greater than the memory behind the pointer, a pointer
 *   that is not aligned for uint64_t, a null pointer with a length other than 0, rows that overlap, and a row
 *   that another thread changes during the call. Everything else, whatever the numbers, gets an answer.
 *
 * A PROGRAM
 *
 * ---- example.c ----
 *     #include <inttypes.h>
 *     #include <stdio.h>
 *     #include <violstream.h>
 *
 *     int main(void)
 *     {
 *         const uint64_t starts[] = {0, 10, 16, 20}, lengths[] = {10, 4, 4, 30}; // four files
 *         const uint64_t aggregates[] = {0, 7, 7, 0};                 // files 2 and 3 lie in aggregate 7
 *         const uint64_t numbers[] = {1, 3, 4}, counts[] = {1, 3, 1}; // three are wanted, file 3 three times
 *         static uint64_t room[VIOLSTREAM_ROOM_WORDS(3, 5)];          // 3 stops, 5 reads
 *         uint64_t from[2], to[2], times[3], legs[3];
 *         struct violstream_run run;
 *         struct violstream_rows rows;
 *
 *         run.starts = starts, run.lengths = lengths, run.aggregates = aggregates, run.files = 4;
 *         run.numbers = numbers, run.counts = counts, run.wants = 3;
 *         run.head = 60, run.turn = 1;
 *         rows.detour_starts = from, rows.detour_ends = to, rows.detours = 2;
 *         rows.times = times, rows.times_len = 3;
 *         rows.legs = legs, rows.legs_len = 3;
 *         rows.room = room, rows.room_len = VIOLSTREAM_ROOM_WORDS(3, 5);
 *         uint64_t result = violstream_plan_rows(&run, VIOLSTREAM_LEAST, &rows);
 *         if (result != 0) {
 *             fprintf(stderr, "refused: %s (place %" PRIu64 ")\n",
 *                     violstream_reason(result), violstream_place(result));
 *             return 1;
 *         }
 *         printf("sum %" PRIu64 "\n", rows.sums[VIOLSTREAM_SUM]);
 *         for (uint64_t i = 0; i < rows.sums[VIOLSTREAM_DETOURS]; i++)
 *             printf("detour %" PRIu64 ",%" PRIu64 "\n", from[i], to[i]);
 *         for (int i = 0; i < 3; i++)
 *             printf("file %" PRIu64 " at %" PRIu64 " in leg %" PRIu64 "\n", numbers[i], times[i], legs[i]);
 *         return 0;
 *     }
 * ---- end of example.c ----
 *
 * It prints
 *
 * ---- output ----
 *     sum 409
 *     detour 2,2
 *     file 1 at 93 in leg 2
 *     file 3 at 61 in leg 1
 *     file 4 at 133 in leg 2
 * ---- end of output ----
 *
 * The detour is to stop 2, which is aggregate 7: the head reads it from 10 to 20 for the three who wait for file 3. Were
 * all four numbers 0, the sum would be 349, and the detour 3,3.
 *
 * ANOTHER, for a tape just mounted, whose head stands at its start
 *
 * ---- anywhere.c ----
 *     #include <inttypes.h>
 *     #include <stdio.h>
 *     #include <violstream.h>
 *
 *     int main(void)
 *     {
 *         const uint64_t starts[] = {0, 10, 20}, lengths[] = {10, 4, 30}, aggregates[] = {0, 0, 0};
 *         const uint64_t numbers[] = {1, 2, 3}, counts[] = {1, 3, 1};
 *         static uint64_t room[VIOLSTREAM_ROOM_WORDS(3, 5)];
 *         uint64_t from[2], to[2], times[3], legs[3];
 *         struct violstream_run run;
 *         struct violstream_rows rows;
 *
 *         if (violstream_version() != VIOLSTREAM_VERSION_NUMBER)
 *             return 1;                                               // another library than this header's
 *         run.starts = starts, run.lengths = lengths, run.aggregates = aggregates, run.files = 3;
 *         run.numbers = numbers, run.counts = counts, run.wants = 3;
 *         run.head = 0, run.turn = 1;
 *         rows.detour_starts = from, rows.detour_ends = to, rows.detours = 2;
 *         rows.times = times, rows.times_len = 3;
 *         rows.legs = legs, rows.legs_len = 3;
 *         rows.room = room, rows.room_len = VIOLSTREAM_ROOM_WORDS(3, 5);
 *         printf("%s\n", violstream_reason(violstream_plan_rows(&run, VIOLSTREAM_LEAST, &rows)));
 *         if (violstream_plan_any_rows(&run, &rows) != 0)
 *             return 1;
 *         printf("from 0: sum %" PRIu64 ", and the head ends at %" PRIu64 "\n", rows.sums[VIOLSTREAM_SUM],
 *                rows.sums[VIOLSTREAM_END]);
 *         run.head = rows.sums[VIOLSTREAM_END];                       // where the next run begins
 *         rows.detours = 0;                                           // priced is the empty list
 *         if (violstream_price_any_rows(&run, &rows) != 0)
 *             return 1;
 *         printf("from there without detours: sum %" PRIu64 "\n", rows.sums[VIOLSTREAM_SUM]);
 *         from[0] = to[0] = 2, rows.detours = 1;
 *         if (violstream_price_rows(&run, &rows) != 0)
 *             return 1;
 *         printf("with a detour to file 2: sum %" PRIu64 "\n", rows.sums[VIOLSTREAM_SUM]);
 *         return 0;
 *     }
 * ---- end of anywhere.c ----
 *
 * It prints
 *
 * ---- anywhere ----
 *     head above 2^40, or left of the end of the rightmost wanted file or its aggregate
 *     from 0: sum 107, and the head ends at 50
 *     from there without detours: sum 357
 *     with a detour to file 2: sum 317
 * ---- end of anywhere ----
 *
 * ANOTHER, with sheets: one from mail put in order, planned, what its detours buy, and its plan checked
 *
 * ---- sheet.c ----
 *     #include <stdio.h>
 *     #include <string.h>
 *     #include <violstream.h>
 *
 *     static void print(const struct violstream_text *text)
 *     {
 *         fwrite(text->bytes, 1, VIOLSTREAM_AS(size_t, text->size), stdout);
 *     }
 *
 *     int main(void)
 *     {
 *         const char *mail = "tape=VX0041\nhead=60\nturn=1\nrule=least\nfiles=2\nfile=0,10,0\nfile=10,4,0\n"
 *                            "wants=3\nwant=2,1\nwant=1,1\nwant=2,2\n";  // out of order, and file 2 twice
 *         static uint64_t room[VIOLSTREAM_ROOM_MOST];
 *         static uint8_t sheet_bytes[VIOLSTREAM_SHEET_MOST], change_bytes[VIOLSTREAM_CHANGES_MOST];
 *         static uint8_t plan_bytes[VIOLSTREAM_PLAN_MOST], figure_bytes[VIOLSTREAM_BUYS_MOST];
 *         static uint8_t verdict_bytes[VIOLSTREAM_CHECK_MOST];
 *         struct violstream_rows rows;
 *         struct violstream_text sheet, changes, plan, figures, verdict;
 *
 *         rows.room = room, rows.room_len = VIOLSTREAM_ROOM_MOST;
 *         sheet.bytes = sheet_bytes, sheet.room = sizeof sheet_bytes;
 *         changes.bytes = change_bytes, changes.room = sizeof change_bytes;
 *         plan.bytes = plan_bytes, plan.room = sizeof plan_bytes;
 *         figures.bytes = figure_bytes, figures.room = sizeof figure_bytes;
 *         verdict.bytes = verdict_bytes, verdict.room = sizeof verdict_bytes;
 *         uint64_t result = violstream_mend_rows(mail, strlen(mail), &sheet, &changes);
 *         if (result == 0)
 *             result = violstream_answer_rows(sheet.bytes, VIOLSTREAM_AS(size_t, sheet.size), &rows, &plan);
 *         if (result == 0)
 *             result = violstream_buys_rows(sheet.bytes, VIOLSTREAM_AS(size_t, sheet.size), &rows, &figures);
 *         if (result == 0)
 *             result = violstream_check_rows(sheet.bytes, VIOLSTREAM_AS(size_t, sheet.size), plan.bytes,
 *                                            VIOLSTREAM_AS(size_t, plan.size), &rows, &verdict);
 *         if (result != 0) {
 *             fprintf(stderr, "refused: %s\n", violstream_reason(result));
 *             return 1;
 *         }
 *         print(&changes);
 *         print(&plan);
 *         print(&figures);
 *         print(&verdict);
 *         return 0;
 *     }
 * ---- end of sheet.c ----
 *
 * It prints
 *
 * ---- sheet ----
 *     change=8,wants
 *     change=10,moved
 *     change=11,added
 *     tape=VX0041
 *     sum=246
 *     reads=4
 *     finish=81
 *     end=10
 *     detours=1
 *     detour=2,2
 *     time=1,81,2
 *     time=2,55,1
 *     tape=VX0041
 *     sum=246
 *     detours=1
 *     buys=2,2,50
 *     formed=yes
 *     walk=yes
 *     least=yes
 * ---- end of sheet ----
 *
 * ANOTHER, with files by path: a tape's label and index as LTFS software writes them, here cut down to what is read
 *
 * ---- paths.c ----
 *     #include <inttypes.h>
 *     #include <stdio.h>
 *     #include <string.h>
 *     #include <violstream.h>
 *
 *     int main(void)
 *     {
 *         const char *label = "<ltfslabel><partitions><index>a</index><data>b</data></partitions>"
 *                             "<blocksize>10</blocksize></ltfslabel>";
 *         const char *index = "<ltfsindex><directory><name>VX0041</name><contents>"
 *                             "<directory><name>reel 1</name><contents>"
 *                             "<file><name>a.dpx</name><extentinfo><extent><partition>b</partition><startblock>4</startblock>"
 *                             "<byteoffset>0</byteoffset><bytecount>25</bytecount></extent></extentinfo></file>"
 *                             "<file><name>b.dpx</name><extentinfo><extent><partition>b</partition><startblock>9</startblock>"
 *                             "<byteoffset>0</byteoffset><bytecount>10</bytecount></extent></extentinfo></file>"
 *                             "</contents></directory></contents></directory></ltfsindex>";
 *         const char *list = "reel 1/b.dpx\nreel 1/a.dpx\n/reel 1/b.dpx\n"; // two read b.dpx
 *         const uint64_t head = 0;                                    // the tape was just mounted
 *         static uint8_t sheet_bytes[VIOLSTREAM_SHEET_MOST], name_bytes[VIOLSTREAM_NAMES_MOST(40)];
 *         struct violstream_paths paths;
 *         struct violstream_text sheet, names;
 *
 *         paths.tape = "VX0041", paths.tape_len = 6;
 *         paths.label = label, paths.label_len = strlen(label);
 *         paths.index = index, paths.index_len = strlen(index);
 *         paths.list = list, paths.list_len = strlen(list);           // 40 bytes
 *         paths.unit = VIOLSTREAM_BYTES, paths.head = &head, paths.turn = NULL;
 *         sheet.bytes = sheet_bytes, sheet.room = sizeof sheet_bytes;
 *         names.bytes = name_bytes, names.room = sizeof name_bytes;
 *         uint64_t result = violstream_pick_rows(&paths, &sheet, &names);
 *         if (result != 0) {
 *             fprintf(stderr, "refused: %s (place %" PRIu64 ")\n", violstream_reason(result), violstream_place(result));
 *             return 1;
 *         }
 *         fwrite(sheet.bytes, 1, VIOLSTREAM_AS(size_t, sheet.size), stdout); // for violstream_answer
 *         fwrite(names.bytes, 1, VIOLSTREAM_AS(size_t, names.size), stdout);
 *         paths.list = "reel 1/c.dpx\n", paths.list_len = 13;
 *         printf("refused: %s\n", violstream_reason(violstream_pick_rows(&paths, &sheet, &names)));
 *         return 0;
 *     }
 * ---- end of paths.c ----
 *
 * It prints
 *
 * ---- paths ----
 *     tape=VX0041
 *     head=0
 *     turn=12000
 *     rule=least
 *     files=2
 *     file=40,25,0
 *     file=90,10,0
 *     wants=2
 *     want=1,1
 *     want=2,2
 *     name=1,1,reel 1/a.dpx
 *     name=2,2,reel 1/b.dpx
 *     refused: path of no file of the index, or of several
 * ---- end of paths ----
 *
 * ANOTHER, with tickets
 *
 * ---- tickets.c ----
 *     #include <inttypes.h>
 *     #include <stdio.h>
 *     #include <string.h>
 *     #include <violstream.h>
 *
 *     int main(void)
 *     {
 *         const uint64_t starts[] = {0, 10, 16, 20}, lengths[] = {10, 4, 4, 30}, aggregates[] = {0, 7, 7, 0};
 *         static struct violstream_desk desk;                        // zeros: nobody waits
 *         static uint64_t room[VIOLSTREAM_ROOM_WORDS(8, 1024)];
 *         uint64_t from[7], to[7], times[8], legs[8], number;
 *         uint8_t bytes[VIOLSTREAM_TEXT_MOST];
 *         struct violstream_text text;
 *         struct violstream_run run;
 *         struct violstream_rows rows;
 *
 *         run.starts = starts, run.lengths = lengths, run.aggregates = aggregates, run.files = 4;
 *         run.numbers = NULL, run.counts = NULL, run.wants = 0;     // the tickets' wants
 *         run.head = 60, run.turn = 1;
 *         rows.detour_starts = from, rows.detour_ends = to, rows.detours = 7;
 *         rows.times = times, rows.times_len = 8;
 *         rows.legs = legs, rows.legs_len = 8;
 *         rows.room = room, rows.room_len = VIOLSTREAM_ROOM_WORDS(8, 1024);
 *         text.bytes = bytes, text.room = sizeof bytes;
 *         if (violstream_file_rows(&desk, 1, 3, 3, run.files, &number) != 0
 *             || violstream_file_rows(&desk, 2, 1, 1, run.files, &number) != 0
 *             || violstream_file_rows(&desk, 2, 4, 1, run.files, &number) != 0)
 *             return 1;
 *         printf("the last is office 2's number %" PRIu64 "\n", number);
 *         if (violstream_withdraw_rows(&desk, 2, 1) != 0 || violstream_waiting_rows(&desk, &text) != 0)
 *             return 1;
 *         printf("%.*s", VIOLSTREAM_AS(int, text.size), VIOLSTREAM_AS(const char *, VIOLSTREAM_AS(const void *, bytes)));
 *         if (violstream_board_rows(&desk, &run, &rows) != 0)
 *             return 1;
 *         printf("%" PRIu64 " and %" PRIu64 " left, sum %" PRIu64 "\n", desk.taken[0], desk.taken[1], rows.sums[VIOLSTREAM_SUM]);
 *         for (uint64_t i = 0; i < desk.taken[0] + desk.taken[1]; i++) {
 *             uint64_t want = desk.taken[2 + i] - 1;                 // among the run's wants
 *             printf("ticket at %" PRIu64 " in leg %" PRIu64 "\n", times[want], legs[want]);
 *         }
 *         const char *line = "withdraw=2,1\n";                       // as typed at the desk
 *         uint64_t result = violstream_event_rows(&desk, &run, line, strlen(line), &rows, &text);
 *         printf("refused: %s\n", violstream_reason(result));
 *         return 0;
 *     }
 * ---- end of tickets.c ----
 *
 * It prints
 *
 * ---- tickets ----
 *     the last is office 2's number 2
 *     waits=1,1,3,3,0,1
 *     waits=2,2,4,1,0,1
 *     waiting=1,1
 *     1 and 1 left, sum 274
 *     ticket at 61 in leg 1
 *     ticket at 91 in leg 1
 *     refused: no such ticket waits
 * ---- end of tickets ----
 */
#ifndef VIOLSTREAM_H
#define VIOLSTREAM_H

#include <stddef.h>
#include <stdint.h>

#define VIOLSTREAM_VERSION "4.0.0"
#define VIOLSTREAM_VERSION_NUMBER 40000                 /* what violstream_version gives of the same version */

/* A value as another type, in the words of either language. */
#ifdef __cplusplus
#define VIOLSTREAM_AS(type, value) (static_cast<type>(value))
#else
#define VIOLSTREAM_AS(type, value) ((type)(value))
#endif

/* Limits. Each is itself still accepted. */
#define VIOLSTREAM_MAX_FILES 4096
#define VIOLSTREAM_MAX_AGGREGATE 4096                   /* the largest aggregate number */
#define VIOLSTREAM_MAX_WANTS 64
#define VIOLSTREAM_MAX_READS 1024                       /* of all wants together */
#define VIOLSTREAM_MAX_POSITION (UINT64_C(1) << 40)     /* of the head and of every file's end */
#define VIOLSTREAM_MAX_TURN (UINT64_C(1) << 32)
#define VIOLSTREAM_MAX_COUNT 128                        /* of one ticket */
#define VIOLSTREAM_MAX_NUMBER 65535                     /* of an office's tickets */

/* What the calls for tickets ask for. */
#define VIOLSTREAM_OFFICES 2
#define VIOLSTREAM_PLACES 32                            /* records of the waiting table, 16 of each office */
#define VIOLSTREAM_BOARDERS 8                           /* the most tickets that leave at once */
#define VIOLSTREAM_TAKEN 10                             /* the words of `taken` */
#define VIOLSTREAM_PLAN_MOST 7644                       /* no plan sheet is longer */
#define VIOLSTREAM_BUYS_MOST 4492                       /* no figure sheet is longer */
#define VIOLSTREAM_CHECK_MOST 24115                     /* no text of violstream_check is longer */
#define VIOLSTREAM_SHEET_MOST 16384                     /* no run sheet is longer */
#define VIOLSTREAM_CHANGES_MOST 98424                   /* no text of changes is longer */
#define VIOLSTREAM_NAMES_MOST(list_len) \
    (VIOLSTREAM_AS(size_t, list_len) + 10240)           /* no text of names is longer: ten bytes more for each of 1,024 lines */
#define VIOLSTREAM_TEXT_MOST 2677                       /* no text of violstream_event or violstream_waiting is longer */

/*
 * The words of room that violstream_plan needs for that many stops and that many reads of all wants together. There are
 * no more stops than wants, so the number of wants will do for `stops`.
 * It is a constant when its arguments are, and evaluates `stops` twice. For a run at the limits it is 4,198,400 words
 * (33,587,200 bytes), which is VIOLSTREAM_ROOM_MOST: so many words do for every run that is accepted. With numbers past
 * the limits it may wrap: check them first, or lend VIOLSTREAM_ROOM_MOST words.
 */
#define VIOLSTREAM_ROOM_WORDS(stops, reads) \
    (VIOLSTREAM_AS(size_t, stops) * VIOLSTREAM_AS(size_t, stops) * (VIOLSTREAM_AS(size_t, reads) + 1))
#define VIOLSTREAM_ROOM_MOST VIOLSTREAM_ROOM_WORDS(VIOLSTREAM_MAX_WANTS, VIOLSTREAM_MAX_READS)

#ifdef __cplusplus
extern "C" {
#endif

/* What to plan by: the one value of `rule`. What a sweep without detours costs, violstream_price says of the empty list. */
enum violstream_rule {
    VIOLSTREAM_LEAST = 1 /* the well-formed list of smallest sum, the first of those with that sum */
};

/* In what a sheet that violstream_pick writes counts positions: `unit`. */
enum violstream_unit {
    VIOLSTREAM_BYTES = 0,
    VIOLSTREAM_BLOCKS = 1 /* of the label's block size */
};

/* Places in the row `sums`. Every sum of an accepted run is below 2^58. */
enum violstream_sums {
    VIOLSTREAM_SUM = 0,     /* the total, over wants, of reads times time */
    VIOLSTREAM_FINISH = 1,  /* the clock at the end of the last sweep, which is the largest time; 0 without wants */
    VIOLSTREAM_END = 2,     /* where the head is then, at the end of the stop read last; `head` without wants */
    VIOLSTREAM_DETOURS = 3, /* the number of detours in the list */
    VIOLSTREAM_SUMS = 4     /* the words that `sums` must have */
};

/*
 * Why a call is refused. The checks are made in the order in which they stand here, and the first that applies is the
 * answer. Files, wants and entries of a list count from 1. Numbers are judged as whole numbers: no sum wraps.
 */
enum violstream_refusal {
    VIOLSTREAM_ACCEPTED = 0,
    VIOLSTREAM_FILE_ROWS = 1,      /* over 4,096 files, or starts, lengths and aggregates of unequal number; place 0 */
    VIOLSTREAM_BAD_FILE = 2,       /* length 0, start before the previous end, end above 2^40, aggregate number above
                                      4,096, or an aggregate number that returns after a file with another or none;
                                      place: the first file with any of these */
    VIOLSTREAM_WANT_ROWS = 3,      /* over 64 wants, or numbers and counts of unequal number; place 0 */
    VIOLSTREAM_BAD_WANT = 4,       /* file not in the table or not ascending, or count 0; place: the want */
    VIOLSTREAM_TOO_MANY_READS = 5, /* over 1,024 reads; place 0 */
    VIOLSTREAM_TURN_PRICE = 6,     /* turn price above 2^32; place 0 */
    VIOLSTREAM_HEAD_PLACE = 7,     /* head above 2^40, or left of the end of the rightmost stop, which is a whole
                                      aggregate where the last want is of a file in one; where the head may stand
                                      anywhere, only above 2^40; place 0 */
    VIOLSTREAM_BAD_RULE = 14,      /* violstream_plan: rule other than VIOLSTREAM_LEAST; place 0 */
    VIOLSTREAM_BAD_ENTRY = 10,     /* violstream_price: list not well formed; place: the first entry that breaks a rule
                                      by itself or against an earlier one, 0 if starts and ends differ in number. An
                                      entry that names a file of an aggregate other than the first breaks one; of
                                      violstream_price_any also one that starts right of the head's own stop */
    VIOLSTREAM_SHORT_ROW = 8,      /* times or legs shorter than the wants, or sums below 4 words; violstream_plan: also
                                      a row for starts or ends of detours shorter than the stops less one (0 for
                                      none); place 0 */
    VIOLSTREAM_SHORT_ROOM = 9,     /* violstream_plan: room below VIOLSTREAM_ROOM_WORDS of the stops and the reads; place 0 */

    /* Of the calls for sheets and for tickets. Each says below in which order it checks. */
    VIOLSTREAM_BAD_LINE = 11,      /* violstream_event: not one line that is an event, with its LF; place 0. Of a sheet:
                                      a line that is not as described; place: the line */
    VIOLSTREAM_LONG_SHEET = 12,    /* a sheet of over 16,384 bytes; violstream_mend: also one that would be, mended;
                                      place 0 */
    VIOLSTREAM_RETIRED_RULE = 19,  /* a run sheet with rule=sweep, unless it is to be mended; place: its line, 4 */
    VIOLSTREAM_BAD_TICKET = 15,    /* office other than 1 and 2, file not in the table or above 4,096, count 0 or above 128;
                                      place 0 */
    VIOLSTREAM_OFFICE_FULL = 16,   /* that office has 16 waiting; place 0 */
    VIOLSTREAM_NOT_WAITING = 17,   /* no ticket of that office and number waits; place 0 */
    VIOLSTREAM_NUMBERS_SPENT = 18, /* that office has been given number 65,535; place 0 */
    VIOLSTREAM_BAD_RECORD = 26,    /* a record that is neither empty nor a ticket of its place's office with a number up to the
                                      last given, or a ticket behind an empty place or a number not below its own;
                                      place: the first such record */

    /* Of violstream_pick. Its 3 is over 64 entries, its 5 over 1,024 lines, its 11 a line that is no path. */
    VIOLSTREAM_BAD_TAPE = 13,      /* a tape name that is not 1 to 16 of A to Z and 0 to 9; place 0 */
    VIOLSTREAM_BAD_INDEX = 20,     /* a label or index that is not balanced, is over 32 elements deep, lacks a needed element,
                                      or has a value that is none; block size 0 where blocks are counted; place 0 */
    VIOLSTREAM_HIGH_END = 23,      /* a wanted file that ends above 2^40; place: the first such line */
    VIOLSTREAM_NO_FILE = 41,       /* a path of no file of the index, or of several; place: the first such line */
    VIOLSTREAM_NO_RANGE = 42,      /* a file without bytes, or with some in the other partition; place: the first such line */
    VIOLSTREAM_OTHER_WINDOW = 43,  /* no call's: at a window of `violstream serve` an event of another window; place 0 */
    VIOLSTREAM_OTHER_VOLUME = 44   /* label and index are of different volumes; place 0 */
};

/* The refusal's number in a result; VIOLSTREAM_ACCEPTED for 0. */
static inline enum violstream_refusal violstream_number(uint64_t result)
{
    return VIOLSTREAM_AS(enum violstream_refusal, result % 256);
}

/* The file, want, entry, line or record that a refusal names, counted from 1; 0 if it names none. */
static inline uint64_t violstream_place(uint64_t result)
{
    return result / 256;
}

/* A refusal in words, for a log. */
static inline const char *violstream_reason(uint64_t result)
{
    switch (violstream_number(result)) {
    case VIOLSTREAM_ACCEPTED: return "accepted";
    case VIOLSTREAM_FILE_ROWS: return "over 4,096 files, or starts, lengths and aggregates of unequal number";
    case VIOLSTREAM_BAD_FILE:
        return "file of length 0, before the previous end or ending above 2^40, or aggregate number above 4,096 or returning";
    case VIOLSTREAM_WANT_ROWS: return "over 64 wants, or numbers and counts of unequal number";
    case VIOLSTREAM_BAD_WANT: return "want of a file not in the table or not ascending, or with count 0";
    case VIOLSTREAM_TOO_MANY_READS: return "over 1,024 reads";
    case VIOLSTREAM_TURN_PRICE: return "turn price above 2^32";
    case VIOLSTREAM_HEAD_PLACE: return "head above 2^40, or left of the end of the rightmost wanted file or its aggregate";
    case VIOLSTREAM_BAD_RULE: return "rule number other than 1";
    case VIOLSTREAM_BAD_ENTRY: return "list of detours not well formed";
    case VIOLSTREAM_SHORT_ROW: return "row for the answer too short";
    case VIOLSTREAM_SHORT_ROOM: return "working room too small";
    case VIOLSTREAM_BAD_LINE: return "line that is not as described";
    case VIOLSTREAM_LONG_SHEET: return "sheet of over 16,384 bytes";
    case VIOLSTREAM_RETIRED_RULE: return "the sheet names the retired rule sweep";
    case VIOLSTREAM_BAD_TICKET: return "office, file or count of a ticket out of range";
    case VIOLSTREAM_OFFICE_FULL: return "that office has 16 tickets waiting";
    case VIOLSTREAM_NOT_WAITING: return "no such ticket waits";
    case VIOLSTREAM_NUMBERS_SPENT: return "that office has been given its last number";
    case VIOLSTREAM_BAD_RECORD: return "record of the waiting table that no ticket can have left there";
    case VIOLSTREAM_BAD_TAPE: return "tape name that is none";
    case VIOLSTREAM_BAD_INDEX: return "label or index not balanced, too deep, or without a value that is needed";
    case VIOLSTREAM_HIGH_END: return "wanted file that ends above 2^40";
    case VIOLSTREAM_NO_FILE: return "path of no file of the index, or of several";
    case VIOLSTREAM_NO_RANGE: return "file without bytes, or with some in the other partition";
    case VIOLSTREAM_OTHER_WINDOW: return "event that is not for this window";
    case VIOLSTREAM_OTHER_VOLUME: return "label and index of different volumes";
    }
    return "no refusal of this library";
}

/*
 * What a list of detours costs.
 *
 *   starts, lengths, aggregates  the tape: each file's start, length and aggregate number, lent to be read
 *   numbers, counts              the wants: each wanted file's number and its reads, lent to be read
 *   head, turn                   where the head starts, in units of tape; what a turn costs, in units of time
 *   detour_starts, detour_ends   the list: each detour's first and last stop, by their first files, lent to be read
 *   times, legs                  for the answer, each at least one word for each want
 *   sums                         for the answer, at least 4 words
 *
 * Gives 0, or the refusal's number plus 256 times its place. On 0, times[i] is the time of want i + 1 and legs[i] its
 * leg, the same for wants of one aggregate, and sums holds sum, finish, end and the number of detours.
 */
uint64_t violstream_price(const uint64_t *starts, size_t starts_len,
                          const uint64_t *lengths, size_t lengths_len,
                          const uint64_t *aggregates, size_t aggregates_len,
                          const uint64_t *numbers, size_t numbers_len,
                          const uint64_t *counts, size_t counts_len,
                          uint64_t head, uint64_t turn,
                          const uint64_t *detour_starts, size_t detour_starts_len,
                          const uint64_t *detour_ends, size_t detour_ends_len,
                          uint64_t *times, size_t times_len,
                          uint64_t *legs, size_t legs_len,
                          uint64_t *sums, size_t sums_len);

/*
 * The best list of detours, and what it costs.
 *
 *   starts, lengths, aggregates, numbers, counts, head, turn   the run, as above
 *   rule                         VIOLSTREAM_LEAST
 *   detour_starts, detour_ends   for the answer, each at least one word for each stop but one
 *   times, legs, sums            for the answer, as above
 *   room                         working room, at least VIOLSTREAM_ROOM_WORDS(stops, reads) words, of any content
 *
 * Gives 0, or the refusal's number plus 256 times its place. On 0, the first sums[VIOLSTREAM_DETOURS] words of
 * detour_starts and detour_ends hold the list in the order done, times, legs and sums are as violstream_price gives them
 * for that list, and the first VIOLSTREAM_ROOM_WORDS(stops, reads) words of room are 0.
 */
uint64_t violstream_plan(const uint64_t *starts, size_t starts_len,
                         const uint64_t *lengths, size_t lengths_len,
                         const uint64_t *aggregates, size_t aggregates_len,
                         const uint64_t *numbers, size_t numbers_len,
                         const uint64_t *counts, size_t counts_len,
                         uint64_t head, uint64_t turn, uint64_t rule,
                         uint64_t *detour_starts, size_t detour_starts_len,
                         uint64_t *detour_ends, size_t detour_ends_len,
                         uint64_t *times, size_t times_len,
                         uint64_t *legs, size_t legs_len,
                         uint64_t *sums, size_t sums_len,
                         uint64_t *room, size_t room_len);

/*
 * The two calls for a head anywhere. Parameters, rows and results are those of the calls above; the planner's takes no rule.
 */
uint64_t violstream_price_any(const uint64_t *starts, size_t starts_len,
                              const uint64_t *lengths, size_t lengths_len,
                              const uint64_t *aggregates, size_t aggregates_len,
                              const uint64_t *numbers, size_t numbers_len,
                              const uint64_t *counts, size_t counts_len,
                              uint64_t head, uint64_t turn,
                              const uint64_t *detour_starts, size_t detour_starts_len,
                              const uint64_t *detour_ends, size_t detour_ends_len,
                              uint64_t *times, size_t times_len,
                              uint64_t *legs, size_t legs_len,
                              uint64_t *sums, size_t sums_len);

uint64_t violstream_plan_any(const uint64_t *starts, size_t starts_len,
                             const uint64_t *lengths, size_t lengths_len,
                             const uint64_t *aggregates, size_t aggregates_len,
                             const uint64_t *numbers, size_t numbers_len,
                             const uint64_t *counts, size_t counts_len,
                             uint64_t head, uint64_t turn,
                             uint64_t *detour_starts, size_t detour_starts_len,
                             uint64_t *detour_ends, size_t detour_ends_len,
                             uint64_t *times, size_t times_len,
                             uint64_t *legs, size_t legs_len,
                             uint64_t *sums, size_t sums_len,
                             uint64_t *room, size_t room_len);

/*
 * The run sheet of the files that a list asks for by their paths, and their names.
 *
 *   tape          the tape's name
 *   label, index  the bytes of the tape's LTFS label and of an index of it, of any length and with any number of files
 *   list          a path on each line, ended by LF, each line a read: names joined by `/`, one more `/` before them or none. The
 *                 name of the volume is not in a path
 *   unit          VIOLSTREAM_BYTES, or any other for blocks
 *   head, turn    the sheet's: rows of one word, or of none for the end of the last entry and for 12,000. Whether they fit, the
 *                 planner says
 *   out           for the run sheet, at least as many bytes as it has; VIOLSTREAM_SHEET_MOST do for every sheet
 *   names         for the names, at least as many bytes as they have; VIOLSTREAM_NAMES_MOST(list_len) do for every list
 *   sizes         for the bytes of both texts, at least 2 words
 *
 * The sheet holds the wanted files alone; those that overlap are one entry, from the first start to the last end. Written as
 * names is a line name=ENTRY,READS,PATH for each different path, by entry, then by its first line in the list. No 0 byte ends a
 * text.
 *
 * Checks: 13, 20, 44, 11, 5, 41, 42, 23, 3, and last 8 for out, names and sizes.
 */
uint64_t violstream_pick(const uint8_t *tape, size_t tape_len,
                         const uint8_t *label, size_t label_len,
                         const uint8_t *index, size_t index_len,
                         const uint8_t *list, size_t list_len,
                         uint64_t unit,
                         const uint64_t *head, size_t head_len,
                         const uint64_t *turn, size_t turn_len,
                         uint8_t *out, size_t out_len,
                         uint8_t *names, size_t names_len,
                         uint64_t *sizes, size_t sizes_len);

/*
 * A run sheet to its plan sheet, for a head anywhere.
 *
 *   sheet   the run sheet's bytes
 *   out     for the plan sheet, at least as many bytes as it has; VIOLSTREAM_PLAN_MOST do for every plan sheet
 *   room    working room, as for violstream_plan_any
 *   sizes   for the number of its bytes, at least 1 word
 *
 * Checks: 12, 11, 19, 1 to 7 and 9, each as for the sheet's run, and last 8 for out and sizes. A plan that is made leaves the
 * room cleared, by 8 too. No 0 byte ends the text.
 */
uint64_t violstream_answer(const uint8_t *sheet, size_t sheet_len,
                           uint8_t *out, size_t out_len,
                           uint64_t *room, size_t room_len,
                           uint64_t *sizes, size_t sizes_len);

/*
 * A run sheet to the figure sheet of its plan, for a head anywhere: tape, sum, detours, and a line buys=START,END,FIGURE for each
 * detour, by how much larger the sum is without it. The figure is above 0.
 *
 *   sheet         the run sheet's bytes
 *   out           for the figure sheet, at least as many bytes as it has; VIOLSTREAM_BUYS_MOST do for every figure sheet
 *   room, sizes   as for violstream_answer
 *
 * Checks: as for violstream_answer. A plan that is made leaves the room cleared, by 8 too.
 */
uint64_t violstream_buys(const uint8_t *sheet, size_t sheet_len,
                         uint8_t *out, size_t out_len,
                         uint64_t *room, size_t room_len,
                         uint64_t *sizes, size_t sizes_len);

/*
 * Whether a plan sheet, whoever made it, is right for a run sheet, for a head anywhere. A `no` is an answer.
 *
 *   sheet, plan   the two sheets' bytes
 *   out           for the verdict, at least as many bytes as it has; VIOLSTREAM_CHECK_MOST do for every verdict
 *   room, sizes   as for violstream_answer
 *
 * Written is formed=yes or formed=no,ENTRY: whether the list is well formed, or its first entry that breaks a rule. In the first
 * case walk=yes or walk=no,LINE follows: whether every number is the walk's, or the first line that is not as it should be; and
 * least=yes or least=no,DIFFERENCE: whether the list is the best, or by how much its sum is larger. With walk=no then found= and
 * expected=, that line as it stands and as it should.
 *
 * Checks: 12, 11, 19 of the run sheet, 12 and 11 of the plan sheet, 1 to 7 and 9, and last 8 for out and sizes. A verdict that is
 * made leaves the room cleared, by 8 too.
 */
uint64_t violstream_check(const uint8_t *sheet, size_t sheet_len,
                          const uint8_t *plan, size_t plan_len,
                          uint8_t *out, size_t out_len,
                          uint64_t *room, size_t room_len,
                          uint64_t *sizes, size_t sizes_len);

/*
 * A run sheet from mail put in order: counts that are not the lines' number, a price left out, the retired rule, wants out of
 * order, twice, or with count 0.
 *
 *   sheet     the sheet's bytes
 *   out       for the mended sheet, at least as many bytes as it has; VIOLSTREAM_SHEET_MOST do for every sheet
 *   changes   for a line change=LINE,WHAT for each line of the sheet that is not as it was; VIOLSTREAM_CHANGES_MOST bytes do
 *   sizes     for the number of bytes of both, at least 2 words
 *
 * Checks: 12, 11, 3, 5, then 12 for the mended sheet, and last 8 for out, changes and sizes.
 */
uint64_t violstream_mend(const uint8_t *sheet, size_t sheet_len,
                         uint8_t *out, size_t out_len,
                         uint8_t *changes, size_t changes_len,
                         uint64_t *sizes, size_t sizes_len);

/* A ticket: office 1 or 2, the file's number, how often it is to be read, the number given. An empty place is all 0. */
struct violstream_ticket {
    uint64_t office, file, count, number;
};

/*
 * A ticket filed.
 *
 *   tickets              the waiting table, at least 32 records
 *   lasts                the last number given to each office, at least 2 words
 *   office, file, count  the ticket; files: the number of files of the tape
 *   given                for the ticket's number, at least 1 word
 *
 * Checks: 8 (of tickets, lasts and given), 26, 15, 16, 18. On 0 the ticket stands behind its office's tickets, given[0] is its
 * number, one more than the last, and lasts says so too.
 */
uint64_t violstream_file(struct violstream_ticket *tickets, size_t tickets_len,
                         uint64_t *lasts, size_t lasts_len,
                         uint64_t office, uint64_t file, uint64_t count, uint64_t files,
                         uint64_t *given, size_t given_len);

/*
 * The ticket of an office with a number withdrawn: those behind it move up. Numbers are never given again.
 *
 * Checks: 8 (of tickets and lasts), 26, 17.
 */
uint64_t violstream_withdraw(struct violstream_ticket *tickets, size_t tickets_len,
                             const uint64_t *lasts, size_t lasts_len,
                             uint64_t office, uint64_t number);

/*
 * Up to eight tickets leave on one run.
 *
 *   tickets, lasts               as above; lasts is read alone
 *   starts, lengths, aggregates, head, turn   the tape and the head, as for violstream_plan
 *   detour_starts, detour_ends, times, legs, room   for the plan of the run of those who leave, as for violstream_plan. Seven
 *                                words for each detour row, eight for times and legs, and VIOLSTREAM_ROOM_WORDS(8, 1024) of room
 *                                do for every boarding
 *   taken                        for who has left, at least 10 words
 *   sums                         as for violstream_plan
 *
 * Checks: 8 (of tickets, lasts, taken and sums), 26, then those of violstream_plan. On 0 the tickets have left the table; taken[0]
 * and taken[1] say how many of each office, and taken[2] on, for each of them, office 1's first, each office's in order of
 * filing, the place of its want among the run's wants, counted from 1: its time is times[place - 1], its leg likewise. Words of
 * taken behind the last ticket stay. Where nobody waits, the run without wants is planned and nobody leaves.
 */
uint64_t violstream_board(struct violstream_ticket *tickets, size_t tickets_len,
                          const uint64_t *lasts, size_t lasts_len,
                          const uint64_t *starts, size_t starts_len,
                          const uint64_t *lengths, size_t lengths_len,
                          const uint64_t *aggregates, size_t aggregates_len,
                          uint64_t head, uint64_t turn,
                          uint64_t *detour_starts, size_t detour_starts_len,
                          uint64_t *detour_ends, size_t detour_ends_len,
                          uint64_t *times, size_t times_len,
                          uint64_t *legs, size_t legs_len,
                          uint64_t *room, size_t room_len,
                          uint64_t *taken, size_t taken_len,
                          uint64_t *sums, size_t sums_len);

/*
 * One event of a day at the desk, and the text that is answered.
 *
 *   tickets, lasts, starts, lengths, aggregates, room   as above
 *   line    file=OFFICE,FILE,COUNT or withdraw=OFFICE,NUMBER or board=HEAD,TURN, with its LF and nothing behind it
 *   out     for the text, at least as many bytes as it has; VIOLSTREAM_TEXT_MOST do for every text
 *   sizes   for the number of its bytes, at least 1 word
 *
 * Checks: 11, then 8 (of tickets, lasts and sizes), 26, those of the event, and last 8 for out. The number of files is that of
 * starts. No 0 byte ends the text. With less than VIOLSTREAM_TEXT_MOST bytes in out a boarding is planned twice.
 */
uint64_t violstream_event(struct violstream_ticket *tickets, size_t tickets_len,
                          uint64_t *lasts, size_t lasts_len,
                          const uint64_t *starts, size_t starts_len,
                          const uint64_t *lengths, size_t lengths_len,
                          const uint64_t *aggregates, size_t aggregates_len,
                          const uint8_t *line, size_t line_len,
                          uint8_t *out, size_t out_len,
                          uint64_t *room, size_t room_len,
                          uint64_t *sizes, size_t sizes_len);

/*
 * Who waits: a line waits=OFFICE,NUMBER,FILE,COUNT,AHEAD,BOARDINGS for each ticket, office 1's first, each office's in order of
 * filing; AHEAD is how many of its own office are ahead, BOARDINGS is AHEAD / 4 + 1, the accepted boarding by which it leaves. Then
 * waiting=N1,N2, how many wait at each office.
 *
 * Checks: 8 (of tickets and sizes), 26 (with any number up to 65,535), and last 8 for out.
 */
uint64_t violstream_waiting(const struct violstream_ticket *tickets, size_t tickets_len,
                            uint8_t *out, size_t out_len,
                            uint64_t *sizes, size_t sizes_len);

/* The version of the library that is linked: 10,000 times its first number, 100 times its second, and its third. */
uint64_t violstream_version(void);

/*
 * The calls above with their parameters by name. They only call the functions above. A length that several rows share
 * stands once in the struct. Set every member that a call takes, but for `sums`, which is filled by the call. Where no file
 * lies in an aggregate, `aggregates` is a row of zeros, as long as the others.
 */
struct violstream_run {
    const uint64_t *starts, *lengths, *aggregates; /* the tape: `files` words each */
    size_t files;
    const uint64_t *numbers, *counts; /* the wants: `wants` words each */
    size_t wants;
    uint64_t head, turn;
};

struct violstream_rows {
    uint64_t *detour_starts, *detour_ends; /* `detours` words each: for a price the list, for a plan where to put it */
    size_t detours;
    uint64_t *times;
    size_t times_len;
    uint64_t *legs;
    size_t legs_len;
    uint64_t *room; /* for a plan; a price takes none */
    size_t room_len;
    uint64_t sums[VIOLSTREAM_SUMS];
};

static inline uint64_t violstream_price_rows(const struct violstream_run *run, struct violstream_rows *rows)
{
    return violstream_price(run->starts, run->files, run->lengths, run->files, run->aggregates, run->files, run->numbers,
                            run->wants, run->counts, run->wants, run->head, run->turn, rows->detour_starts, rows->detours,
                            rows->detour_ends, rows->detours, rows->times, rows->times_len, rows->legs, rows->legs_len,
                            rows->sums, VIOLSTREAM_SUMS);
}

static inline uint64_t violstream_plan_rows(const struct violstream_run *run, uint64_t rule, struct violstream_rows *rows)
{
    return violstream_plan(run->starts, run->files, run->lengths, run->files, run->aggregates, run->files, run->numbers,
                           run->wants, run->counts, run->wants, run->head, run->turn, rule, rows->detour_starts,
                           rows->detours, rows->detour_ends, rows->detours, rows->times, rows->times_len, rows->legs,
                           rows->legs_len, rows->sums, VIOLSTREAM_SUMS, rows->room, rows->room_len);
}

static inline uint64_t violstream_price_any_rows(const struct violstream_run *run, struct violstream_rows *rows)
{
    return violstream_price_any(run->starts, run->files, run->lengths, run->files, run->aggregates, run->files, run->numbers,
                                run->wants, run->counts, run->wants, run->head, run->turn, rows->detour_starts, rows->detours,
                                rows->detour_ends, rows->detours, rows->times, rows->times_len, rows->legs, rows->legs_len,
                                rows->sums, VIOLSTREAM_SUMS);
}

static inline uint64_t violstream_plan_any_rows(const struct violstream_run *run, struct violstream_rows *rows)
{
    return violstream_plan_any(run->starts, run->files, run->lengths, run->files, run->aggregates, run->files, run->numbers,
                               run->wants, run->counts, run->wants, run->head, run->turn, rows->detour_starts, rows->detours,
                               rows->detour_ends, rows->detours, rows->times, rows->times_len, rows->legs, rows->legs_len,
                               rows->sums, VIOLSTREAM_SUMS, rows->room, rows->room_len);
}

/* A waiting table with the last numbers given, all zeros at first; and who left with the last boarding that was accepted. */
struct violstream_desk {
    struct violstream_ticket tickets[VIOLSTREAM_PLACES];
    uint64_t lasts[VIOLSTREAM_OFFICES], taken[VIOLSTREAM_TAKEN];
};

/* A row of `room` bytes for a text, of which a call has written `size`. */
struct violstream_text {
    uint8_t *bytes;
    size_t room;
    uint64_t size;
};

/* Of the rows the room. */
static inline uint64_t violstream_answer_rows(const void *sheet, size_t sheet_len, struct violstream_rows *rows,
                                              struct violstream_text *text)
{
    return violstream_answer(VIOLSTREAM_AS(const uint8_t *, sheet), sheet_len, text->bytes, text->room, rows->room, rows->room_len,
                             &text->size, 1);
}

/* Of the rows the room. */
static inline uint64_t violstream_buys_rows(const void *sheet, size_t sheet_len, struct violstream_rows *rows,
                                            struct violstream_text *text)
{
    return violstream_buys(VIOLSTREAM_AS(const uint8_t *, sheet), sheet_len, text->bytes, text->room, rows->room, rows->room_len,
                           &text->size, 1);
}

/* Of the rows the room. */
static inline uint64_t violstream_check_rows(const void *sheet, size_t sheet_len, const void *plan, size_t plan_len,
                                             struct violstream_rows *rows, struct violstream_text *text)
{
    return violstream_check(VIOLSTREAM_AS(const uint8_t *, sheet), sheet_len, VIOLSTREAM_AS(const uint8_t *, plan), plan_len,
                            text->bytes, text->room, rows->room, rows->room_len, &text->size, 1);
}

static inline uint64_t violstream_mend_rows(const void *sheet, size_t sheet_len, struct violstream_text *text,
                                            struct violstream_text *changes)
{
    uint64_t sizes[2] = {0, 0};
    uint64_t result = violstream_mend(VIOLSTREAM_AS(const uint8_t *, sheet), sheet_len, text->bytes, text->room, changes->bytes,
                                      changes->room, sizes, 2);
    if (result == 0)
        text->size = sizes[0], changes->size = sizes[1];
    return result;
}

/* A tape with its label and index, and a list of paths. `head` and `turn` point to a word, or are null where none is given. */
struct violstream_paths {
    const void *tape;
    size_t tape_len;
    const void *label;
    size_t label_len;
    const void *index;
    size_t index_len;
    const void *list;
    size_t list_len;
    uint64_t unit;
    const uint64_t *head, *turn;
};

static inline uint64_t violstream_pick_rows(const struct violstream_paths *paths, struct violstream_text *text,
                                            struct violstream_text *names)
{
    uint64_t sizes[2] = {0, 0};
    uint64_t result = violstream_pick(VIOLSTREAM_AS(const uint8_t *, paths->tape), paths->tape_len,
                                      VIOLSTREAM_AS(const uint8_t *, paths->label), paths->label_len,
                                      VIOLSTREAM_AS(const uint8_t *, paths->index), paths->index_len,
                                      VIOLSTREAM_AS(const uint8_t *, paths->list), paths->list_len, paths->unit, paths->head,
                                      paths->head ? 1 : 0, paths->turn, paths->turn ? 1 : 0, text->bytes, text->room,
                                      names->bytes, names->room, sizes, 2);
    if (result == 0)
        text->size = sizes[0], names->size = sizes[1];
    return result;
}

static inline uint64_t violstream_file_rows(struct violstream_desk *desk, uint64_t office, uint64_t file, uint64_t count,
                                            uint64_t files, uint64_t *number)
{
    return violstream_file(desk->tickets, VIOLSTREAM_PLACES, desk->lasts, VIOLSTREAM_OFFICES, office, file, count, files, number, 1);
}

static inline uint64_t violstream_withdraw_rows(struct violstream_desk *desk, uint64_t office, uint64_t number)
{
    return violstream_withdraw(desk->tickets, VIOLSTREAM_PLACES, desk->lasts, VIOLSTREAM_OFFICES, office, number);
}

/* Of the run its tape, head and turn price; the wants are the tickets'. */
static inline uint64_t violstream_board_rows(struct violstream_desk *desk, const struct violstream_run *run,
                                             struct violstream_rows *rows)
{
    return violstream_board(desk->tickets, VIOLSTREAM_PLACES, desk->lasts, VIOLSTREAM_OFFICES, run->starts, run->files,
                            run->lengths, run->files, run->aggregates, run->files, run->head, run->turn, rows->detour_starts,
                            rows->detours, rows->detour_ends, rows->detours, rows->times, rows->times_len, rows->legs,
                            rows->legs_len, rows->room, rows->room_len, desk->taken, VIOLSTREAM_TAKEN, rows->sums,
                            VIOLSTREAM_SUMS);
}

/* Of the run its tape, of the rows the room. */
static inline uint64_t violstream_event_rows(struct violstream_desk *desk, const struct violstream_run *run, const void *line,
                                             size_t line_len, struct violstream_rows *rows, struct violstream_text *text)
{
    return violstream_event(desk->tickets, VIOLSTREAM_PLACES, desk->lasts, VIOLSTREAM_OFFICES, run->starts, run->files,
                            run->lengths, run->files, run->aggregates, run->files, VIOLSTREAM_AS(const uint8_t *, line), line_len,
                            text->bytes, text->room, rows->room, rows->room_len, &text->size, 1);
}

static inline uint64_t violstream_waiting_rows(const struct violstream_desk *desk, struct violstream_text *text)
{
    return violstream_waiting(desk->tickets, VIOLSTREAM_PLACES, text->bytes, text->room, &text->size, 1);
}

#ifdef __cplusplus
}
#endif

#endif
