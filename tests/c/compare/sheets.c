/* Accepted plans that a run sheet can hold, written down for the programs that read sheets: the run sheet, an empty line,
 * the plan sheet that must come of it, an empty line. field.py runs the plain engine's program on them. */
#include <inttypes.h>
#include <stdio.h>
#include <stdlib.h>
#include "call.h"
#include "oracle.h"

enum { MOST_SHEETS = 400, MOST_FILES = 256, MOST_WANTS = 8 };

static FILE *sheets;
static uint64_t sheets_written;

void open_sheets(const char *path)
{
    sheets = path == NULL ? NULL : fopen(path, "w");
    if (sheets == NULL) {
        fprintf(stderr, "compare: --sheets needs a file that can be written\n");
        exit(2);
    }
}

void close_sheets(void)
{
    if (sheets != NULL && fclose(sheets) != 0) {
        fprintf(stderr, "compare: the sheets could not be written\n");
        exit(1);
    }
}

static void print_run(void)
{
    fprintf(sheets, "tape=C%" PRIu64 "\nhead=%" PRIu64 "\nturn=%" PRIu64 "\nrule=least\nfiles=%zu\n", sheets_written, call.head,
            call.turn, call.length[STARTS]);
    for (size_t i = 0; i < call.length[STARTS]; i++)
        fprintf(sheets, "file=%" PRIu64 ",%" PRIu64 ",%" PRIu64 "\n", expected(STARTS)[i], expected(LENGTHS)[i],
                expected(AGGREGATES)[i]);
    fprintf(sheets, "wants=%zu\n", call.length[NUMBERS]);
    for (size_t i = 0; i < call.length[NUMBERS]; i++)
        fprintf(sheets, "want=%" PRIu64 ",%" PRIu64 "\n", expected(NUMBERS)[i], expected(COUNTS)[i]);
}

static void print_plan(void)
{
    const uint64_t *sums = expected(SUMS);
    fprintf(sheets, "tape=C%" PRIu64 "\nsum=%" PRIu64 "\nreads=%" PRIu64 "\nfinish=%" PRIu64 "\nend=%" PRIu64 "\ndetours=%" PRIu64 "\n",
            sheets_written, sums[0], drafted_reads(), sums[1], sums[2], sums[3]);
    for (size_t i = 0; i < sums[3]; i++)
        fprintf(sheets, "detour=%" PRIu64 ",%" PRIu64 "\n", expected(DETOUR_STARTS)[i], expected(DETOUR_ENDS)[i]);
    for (size_t i = 0; i < call.length[NUMBERS]; i++)
        fprintf(sheets, "time=%" PRIu64 ",%" PRIu64 ",%" PRIu64 "\n", expected(NUMBERS)[i], expected(TIMES)[i], expected(LEGS)[i]);
}

void note_sheet(void)
{
    if (sheets == NULL || !call.plan || call.any || sheets_written == MOST_SHEETS || call.length[STARTS] > MOST_FILES
        || call.length[NUMBERS] > MOST_WANTS)
        return;
    print_run();
    fputc('\n', sheets);
    print_plan();
    fputc('\n', sheets);
    sheets_written++;
}
