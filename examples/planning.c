/* Plans and prices for whoever asks: rows and room are set aside once, then each line of standard input is a request and
 * gets one line of answer. daemon.c beside this file is a daemon's day with tickets.
 *
 *   plan HEAD TURN files N START LENGTH AGGREGATE ... wants N FILE COUNT ...
 *   price HEAD TURN files N START LENGTH AGGREGATE ... wants N FILE COUNT ... detours N START END ...
 *
 * AGGREGATE is 0 for a file that lies in none. An answer is
 *
 *   sum=367 finish=121 end=50 detours=2,2 times=1:81,2:55,3:121 legs=1:2,2:1,3:2
 *   refused=7 place=0 head above 2^40, or left of the end of the rightmost wanted file or its aggregate
 *   unreadable: word 4: a number was expected, not 'x'
 *
 * Against an installed library:  cc examples/planning.c $(pkg-config --cflags --libs violstream) -o planning
 * Against the build itself:      cc -I include examples/planning.c target/staticlib/libviolstream.a -o planning
 * ./planning < examples/planning.requests, or ./planning --example for one request that is built in. */
#define _POSIX_C_SOURCE 200809L
#include <errno.h>
#include <inttypes.h>
#include <stdbool.h>
#include <stdio.h>
#include <stdlib.h>
#include <string.h>
#include <violstream.h>

static const char example[] = "plan 60 1 files 3 0 10 0 10 4 0 20 30 0 wants 3 1 1 2 3 3 1";

/* One place more than the limits, so that a request over a limit can be lent as it is, and refused by the library. */
enum { FILES = VIOLSTREAM_MAX_FILES + 1, WANTS = VIOLSTREAM_MAX_WANTS + 1 };

/* Rows of the same length: two for wants and detours, three for files. */
enum { MOST_ROWS = 3 };
struct entries {
    size_t length;
    uint64_t row[MOST_ROWS][FILES];
};

static struct {
    struct entries files, wants, detours;
    uint64_t times[WANTS], legs[WANTS];
    uint64_t *room;
} rows;

/* ---- Reading a request ---- */

struct request {
    bool plan;
    uint64_t head, turn;
};

struct words {
    char *rest;                             /* where strtok_r goes on */
    unsigned number;                        /* of the last word, from 1 */
    bool good;                              /* until a word is not what was expected, which is then said */
};

static void say_unreadable(struct words *words, const char *expected, const char *word)
{
    if (words->good)
        printf("unreadable: word %u: %s was expected, not '%.40s'\n", words->number, expected, word);
    words->good = false;
}

static const char *next_word(struct words *words)
{
    const char *word = strtok_r(NULL, " \t\r\n", &words->rest);
    words->number++;
    return word == NULL ? "" : word;
}

static uint64_t next_number(struct words *words)
{
    const char *word = next_word(words);
    char *end;
    errno = 0;
    uint64_t value = strtoull(word, &end, 10);
    if (*word < '0' || *word > '9' || *end != '\0' || errno != 0)
        say_unreadable(words, "a number", word);
    return value;
}

static void expect_word(struct words *words, const char *expected)
{
    const char *word = next_word(words);
    if (strcmp(word, expected) != 0)
        say_unreadable(words, expected, word);
}

/* A key, the number of entries, and the entries, with a number for each row. Those past what the rows hold are read and
 * left out. */
static void read_entries(struct words *words, const char *key, int numbers, size_t most, struct entries *entries)
{
    expect_word(words, key);
    uint64_t length = next_number(words);
    entries->length = 0;
    for (uint64_t i = 0; words->good && i < length; i++) {
        for (int r = 0; r < numbers; r++) {
            uint64_t number = next_number(words);
            if (i < most)
                entries->row[r][i] = number;
        }
        entries->length += i < most;
    }
}

/* Takes the request into the rows; false, with the reason printed, if it cannot be read. */
static bool read_request(char *line, struct request *request)
{
    struct words words = {.number = 1, .good = true};
    const char *key = strtok_r(line, " \t\r\n", &words.rest);
    request->plan = key != NULL && strcmp(key, "plan") == 0;
    if (!request->plan && (key == NULL || strcmp(key, "price") != 0))
        say_unreadable(&words, "plan or price", key == NULL ? "" : key);
    if (!words.good)
        return false;
    request->head = next_number(&words);
    request->turn = next_number(&words);
    read_entries(&words, "files", 3, FILES, &rows.files);
    read_entries(&words, "wants", 2, WANTS, &rows.wants);
    if (!request->plan)
        read_entries(&words, "detours", 2, WANTS, &rows.detours);
    expect_word(&words, "");
    return words.good;
}

/* ---- Answering it ---- */

/* The run of the request, in the rows that it was read into. */
static struct violstream_run run_of(const struct request *request)
{
    return (struct violstream_run){
        .starts = rows.files.row[0], .lengths = rows.files.row[1], .aggregates = rows.files.row[2],
        .files = rows.files.length,
        .numbers = rows.wants.row[0], .counts = rows.wants.row[1], .wants = rows.wants.length,
        .head = request->head, .turn = request->turn,
    };
}

/* The rows for the answer; for a price the list of detours is as long as it was read. */
static struct violstream_rows lent(const struct request *request)
{
    return (struct violstream_rows){
        .detour_starts = rows.detours.row[0], .detour_ends = rows.detours.row[1],
        .detours = request->plan ? WANTS : rows.detours.length,
        .times = rows.times, .times_len = WANTS,
        .legs = rows.legs, .legs_len = WANTS,
        .room = rows.room, .room_len = VIOLSTREAM_ROOM_MOST,
    };
}

/* A row of the answer: for each want its file number and its entry. */
static void print_entries(const char *key, const uint64_t *entries)
{
    printf(" %s=", key);
    for (size_t i = 0; i < rows.wants.length; i++)
        printf("%s%" PRIu64 ":%" PRIu64, i == 0 ? "" : ",", rows.wants.row[0][i], entries[i]);
}

static void print_accepted(const uint64_t *sums)
{
    printf("sum=%" PRIu64 " finish=%" PRIu64 " end=%" PRIu64 " detours=", sums[VIOLSTREAM_SUM],
           sums[VIOLSTREAM_FINISH], sums[VIOLSTREAM_END]);
    for (size_t i = 0; i < sums[VIOLSTREAM_DETOURS]; i++)
        printf("%s%" PRIu64 ",%" PRIu64, i == 0 ? "" : ";", rows.detours.row[0][i], rows.detours.row[1][i]);
    print_entries("times", rows.times);
    print_entries("legs", rows.legs);
    printf("\n");
}

static void answer(char *line)
{
    struct request request = {0};
    if (!read_request(line, &request))
        return;
    struct violstream_run run = run_of(&request);
    struct violstream_rows given = lent(&request);
    uint64_t result = request.plan ? violstream_plan_rows(&run, VIOLSTREAM_LEAST, &given) : violstream_price_rows(&run, &given);
    if (result == 0)
        print_accepted(given.sums);
    else
        printf("refused=%d place=%" PRIu64 " %s\n", (int)violstream_number(result), violstream_place(result),
               violstream_reason(result));
}

static int answer_all(void)
{
    char *line = NULL;
    size_t size = 0;
    while (getline(&line, &size, stdin) >= 0) {
        answer(line);
        fflush(stdout);
    }
    free(line);
    return ferror(stdin) || ferror(stdout) ? 1 : 0;
}

static int answer_example(void)
{
    char line[sizeof example];
    memcpy(line, example, sizeof example);
    printf("%s\n", example);
    answer(line);
    return ferror(stdout) ? 1 : 0;
}

int main(int argc, char **argv)
{
    bool asked_for_example = argc == 2 && strcmp(argv[1], "--example") == 0;
    if (argc > 1 && !asked_for_example) {
        fprintf(stderr, "usage: planning < requests\n       planning --example\n");
        return 2;
    }
    rows.room = calloc(VIOLSTREAM_ROOM_MOST, sizeof *rows.room);
    if (rows.room == NULL) {
        fprintf(stderr, "planning: no memory for a room of %zu words\n", VIOLSTREAM_ROOM_MOST);
        return 1;
    }
    int status = asked_for_example ? answer_example() : answer_all();
    free(rows.room);
    return status;
}
