/* A recall daemon's day. Two offices ask for files of one tape by tickets; tickets are filed and withdrawn, up to eight leave on each boarding, and each
 * that has left is closed from its own want's time and leg. Whenever the daemon ends, between any two of its steps, it goes on from there when it is
 * started again: no ticket is lost, no number is given twice, and every request has one answer.
 *
 *   daemon STATE TAPE.run REQUESTS ANSWERS [--end-at STEP]
 *   daemon STATE LIST REQUESTS ANSWERS --pick NAME LABEL INDEX [--end-at STEP]
 *
 * The tape's files are those of a run sheet, or those that a list asks for by path: NAME is then the tape's, LABEL and INDEX are files with its LTFS label and an index, and
 * file N is entry N of what violstream_pick makes of them. A line of REQUESTS is one of
 *
 *   file=OFFICE,FILE,COUNT    filed=OFFICE,NUMBER
 *   withdraw=OFFICE,NUMBER    withdrawn=OFFICE,NUMBER
 *   board=HEAD,TURN           boarded=N1,N2,SUM,FINISH,END, then closed=OFFICE,NUMBER,FILE,TIME,LEG for each that has left
 *   waiting                   waits=OFFICE,NUMBER,FILE,COUNT,AHEAD,BOARDINGS for each that waits, then waiting=N1,N2
 *
 * and its answer, in ANSWERS, is what stands beside it, or refused=NUMBER,PLACE and the words of violstream.h, or unreadable. A last line without LF waits for its end.
 *
 * STATE holds the waiting table, the last numbers given, how much of REQUESTS is done, and the last answer with its place in ANSWERS. A request goes in three
 * steps: it is carried out in memory; STATE is replaced, by a file written beside it, synced and renamed; the answer is put in its place in ANSWERS and
 * synced. Until STATE is replaced nothing has happened. From then on the answer is in STATE, and is put in its place again at every start.
 *
 * --end-at STEP ends the daemon there with status 70, as a crash would: tests/python/daemon.py tries every step.
 *
 * cc examples/daemon.c $(pkg-config --cflags --libs violstream) -o daemon */
#define _POSIX_C_SOURCE 200809L
#include <errno.h>
#include <fcntl.h>
#include <inttypes.h>
#include <stdarg.h>
#include <stdio.h>
#include <stdlib.h>
#include <string.h>
#include <sys/stat.h>
#include <unistd.h>
#include <violstream.h>

enum { LINE_MOST = 200, TEXT_MOST = 4096, SHEET_MOST = 16384 };
_Static_assert(TEXT_MOST >= VIOLSTREAM_TEXT_MOST, "an answer takes the longest text");

/* What is kept, and nothing else: words and bytes, without a gap. */
struct state {
    char kind[8];
    struct violstream_ticket tickets[VIOLSTREAM_PLACES];
    uint64_t lasts[VIOLSTREAM_OFFICES];
    uint64_t requests_done;                 /* bytes of REQUESTS */
    uint64_t answer_at, answer_bytes;       /* where the last answer stands in ANSWERS */
    char answer[TEXT_MOST];
};
static const char KIND[8] = "viols-1";

static struct {
    const char *state, *tape, *requests, *answers;
    const char *name, *label, *index;       /* with --pick */
    long end_at, steps;
} daemon_;
static struct state kept;
static struct violstream_desk desk;
static struct violstream_run tape;
static uint64_t starts[VIOLSTREAM_MAX_FILES], lengths[VIOLSTREAM_MAX_FILES], aggregates[VIOLSTREAM_MAX_FILES];
static uint64_t room[VIOLSTREAM_ROOM_WORDS(VIOLSTREAM_BOARDERS, VIOLSTREAM_MAX_READS)];

/* ---- Ends ---- */

static _Noreturn void fail(const char *what, const char *path)
{
    fprintf(stderr, "daemon: %s %s: %s\n", what, path, strerror(errno));
    exit(1);
}

static _Noreturn void refuse(const char *sentence)
{
    fprintf(stderr, "daemon: %s\n", sentence);
    exit(1);
}

/* Between any two steps. */
static void step(void)
{
    if (++daemon_.steps == daemon_.end_at)
        _exit(70);
}

/* ---- Files ---- */

/* At most so many bytes of a file from a place; how many there are. */
static size_t read_at(const char *path, uint64_t from, void *into, size_t most)
{
    int file = open(path, O_RDONLY | O_CLOEXEC);
    size_t have = 0;
    ssize_t got = 1;
    if (file < 0)
        fail("cannot open", path);
    while (have < most && got != 0) {
        got = pread(file, (char *)into + have, most - have, (off_t)(from + have));
        if (got < 0 && errno != EINTR)
            fail("cannot read", path);
        have += got > 0 ? (size_t)got : 0;
    }
    close(file);
    return have;
}

/* A step between the halves of what is written, so that an end there is tried too. */
static void write_at(int file, const char *path, uint64_t to, const void *from, size_t bytes)
{
    size_t put = 0;
    while (put < bytes) {
        ssize_t some = pwrite(file, (const char *)from + put, put == 0 && bytes > 1 ? bytes / 2 : bytes - put, (off_t)(to + put));
        if (some < 0 && errno != EINTR)
            fail("cannot write", path);
        put += some > 0 ? (size_t)some : 0;
        step();
    }
}

static void sync_folder_of(const char *path)
{
    char folder[4096];
    snprintf(folder, sizeof folder, "%s", path);
    char *slash = strrchr(folder, '/');
    if (slash == NULL)
        strcpy(folder, ".");
    else
        slash[slash == folder] = '\0';
    int file = open(folder, O_RDONLY | O_DIRECTORY | O_CLOEXEC);
    if (file < 0 || fsync(file) != 0)
        fail("cannot sync", folder);
    close(file);
}

/* The state, whole or as it was. */
static void keep(const struct state *next)
{
    char beside[4096];
    if ((size_t)snprintf(beside, sizeof beside, "%s.new", daemon_.state) >= sizeof beside)
        refuse("the name of the state is too long");
    int file = open(beside, O_WRONLY | O_CREAT | O_TRUNC | O_CLOEXEC, 0600);
    if (file < 0)
        fail("cannot make", beside);
    step();
    write_at(file, beside, 0, next, sizeof *next);
    if (fsync(file) != 0 || close(file) != 0)
        fail("cannot sync", beside);
    step();
    if (rename(beside, daemon_.state) != 0)
        fail("cannot replace", daemon_.state);
    step();
    sync_folder_of(daemon_.state);
    step();
    kept = *next;
}

/* The last answer, in its place, with nothing behind it. */
static void put_answer(void)
{
    int file = open(daemon_.answers, O_WRONLY | O_CREAT | O_CLOEXEC, 0600);
    if (file < 0)
        fail("cannot open", daemon_.answers);
    step();
    write_at(file, daemon_.answers, kept.answer_at, kept.answer, (size_t)kept.answer_bytes);
    if (ftruncate(file, (off_t)(kept.answer_at + kept.answer_bytes)) != 0 || fdatasync(file) != 0 || close(file) != 0)
        fail("cannot write", daemon_.answers);
    step();
}

/* ---- Answers ---- */

static void say(struct state *next, const char *form, ...)
{
    va_list words;
    size_t left = sizeof next->answer - (size_t)next->answer_bytes;
    va_start(words, form);
    int bytes = vsnprintf(next->answer + next->answer_bytes, left, form, words);
    va_end(words);
    if (bytes < 0 || (size_t)bytes >= left)
        refuse("an answer is longer than there is room for");
    next->answer_bytes += (uint64_t)bytes;
}

static void say_refused(struct state *next, uint64_t result)
{
    say(next, "refused=%d,%" PRIu64 " %s\n", (int)violstream_number(result), violstream_place(result), violstream_reason(result));
}

static void file_ticket(struct state *next, uint64_t office, uint64_t file, uint64_t count)
{
    uint64_t number;
    uint64_t result = violstream_file_rows(&desk, office, file, count, tape.files, &number);
    if (result == 0)
        say(next, "filed=%" PRIu64 ",%" PRIu64 "\n", office, number);
    else
        say_refused(next, result);
}

static void withdraw_ticket(struct state *next, uint64_t office, uint64_t number)
{
    uint64_t result = violstream_withdraw_rows(&desk, office, number);
    if (result == 0)
        say(next, "withdrawn=%" PRIu64 ",%" PRIu64 "\n", office, number);
    else
        say_refused(next, result);
}

/* Who has left stood first in each office's places; `taken` has for each the place of its want, and so its time and leg. */
static void board(struct state *next, uint64_t head, uint64_t turn)
{
    uint64_t from[VIOLSTREAM_BOARDERS - 1], to[VIOLSTREAM_BOARDERS - 1], times[VIOLSTREAM_BOARDERS], legs[VIOLSTREAM_BOARDERS];
    struct violstream_rows rows = {
        .detour_starts = from, .detour_ends = to, .detours = VIOLSTREAM_BOARDERS - 1,
        .times = times, .times_len = VIOLSTREAM_BOARDERS, .legs = legs, .legs_len = VIOLSTREAM_BOARDERS,
        .room = room, .room_len = sizeof room / sizeof *room,
    };
    struct violstream_ticket before[VIOLSTREAM_PLACES];
    memcpy(before, desk.tickets, sizeof before);
    tape.head = head, tape.turn = turn;
    uint64_t result = violstream_board_rows(&desk, &tape, &rows);
    if (result != 0) {
        say_refused(next, result);
        return;
    }
    say(next, "boarded=%" PRIu64 ",%" PRIu64 ",%" PRIu64 ",%" PRIu64 ",%" PRIu64 "\n", desk.taken[0], desk.taken[1], rows.sums[VIOLSTREAM_SUM],
        rows.sums[VIOLSTREAM_FINISH], rows.sums[VIOLSTREAM_END]);
    const uint64_t *want = desk.taken + 2;
    for (size_t office = 0; office < VIOLSTREAM_OFFICES; office++)
        for (size_t i = 0; i < desk.taken[office]; i++, want++) {
            const struct violstream_ticket *ticket = &before[office * (VIOLSTREAM_PLACES / VIOLSTREAM_OFFICES) + i];
            say(next, "closed=%" PRIu64 ",%" PRIu64 ",%" PRIu64 ",%" PRIu64 ",%" PRIu64 "\n", ticket->office, ticket->number, ticket->file, times[*want - 1],
                legs[*want - 1]);
        }
}

static void tell_waiting(struct state *next)
{
    struct violstream_text text = {.bytes = (uint8_t *)next->answer, .room = sizeof next->answer};
    uint64_t result = violstream_waiting_rows(&desk, &text);
    if (result == 0)
        next->answer_bytes = text.size;
    else
        say_refused(next, result);
}

/* ---- Requests ---- */

/* Numbers behind a key, with commas between them and nothing behind the last. */
static int numbers_behind(const char *line, const char *key, int many, uint64_t *numbers)
{
    size_t length = strlen(key);
    if (strncmp(line, key, length) != 0)
        return 0;
    line += length;
    for (int i = 0; i < many; i++) {
        char *end;
        errno = 0;
        numbers[i] = strtoull(line, &end, 10);
        if (*line < '0' || *line > '9' || errno != 0 || *end != (i + 1 < many ? ',' : '\0'))
            return 0;
        line = end + 1;
    }
    return 1;
}

/* A request carried out, in memory; what is to be kept of it. */
static struct state carried_out(const char *line, size_t bytes)
{
    struct state next = kept;
    uint64_t n[3];
    next.requests_done += bytes;
    next.answer_at += kept.answer_bytes;
    next.answer_bytes = 0;
    if (numbers_behind(line, "file=", 3, n))
        file_ticket(&next, n[0], n[1], n[2]);
    else if (numbers_behind(line, "withdraw=", 2, n))
        withdraw_ticket(&next, n[0], n[1]);
    else if (numbers_behind(line, "board=", 2, n))
        board(&next, n[0], n[1]);
    else if (strcmp(line, "waiting") == 0)
        tell_waiting(&next);
    else
        say(&next, "unreadable\n");
    memset(next.answer + next.answer_bytes, 0, sizeof next.answer - (size_t)next.answer_bytes);
    memcpy(next.tickets, desk.tickets, sizeof next.tickets);
    memcpy(next.lasts, desk.lasts, sizeof next.lasts);
    return next;
}

/* The bytes of the next request with its LF, 0 while it has none; its line, which is empty where it is none that can be read. */
static size_t next_line(char line[LINE_MOST])
{
    size_t have, bytes = 0;
    char *end;
    do {
        have = read_at(daemon_.requests, kept.requests_done + bytes, line, LINE_MOST);
        end = memchr(line, '\n', have);
        bytes += end == NULL ? have : (size_t)(end - line) + 1;
    } while (end == NULL && have == LINE_MOST);
    if (end == NULL)
        return 0;
    *end = '\0';
    if (bytes > LINE_MOST || strlen(line) + 1 != bytes)
        line[0] = '\0';
    return bytes;
}

/* Whether there was a whole line. */
static int serve_one(void)
{
    char line[LINE_MOST];
    size_t bytes = next_line(line);
    if (bytes == 0)
        return 0;
    step();
    struct state next = carried_out(line, bytes);
    step();
    keep(&next);
    put_answer();
    return 1;
}

/* ---- The tape, and where the day goes on ---- */

/* A whole file, which may be long. */
static char *whole(const char *path, size_t *bytes)
{
    struct stat about;
    if (stat(path, &about) != 0)
        fail("cannot find", path);
    char *text = malloc((size_t)about.st_size + 1);
    if (text == NULL)
        fail("no memory for", path);
    *bytes = read_at(path, 0, text, (size_t)about.st_size);
    return text;
}

/* The run sheet of the files that the list asks for by path; how many bytes it has. The names beside it say which path is which file: an office that asks by path is
 * given the number from there. */
static size_t pick_files(char sheet[SHEET_MOST])
{
    struct violstream_paths paths = {.tape = daemon_.name, .tape_len = strlen(daemon_.name), .unit = VIOLSTREAM_BYTES};
    char *label = whole(daemon_.label, &paths.label_len), *index = whole(daemon_.index, &paths.index_len), *list = whole(daemon_.tape, &paths.list_len);
    struct violstream_text text = {.bytes = (uint8_t *)sheet, .room = SHEET_MOST}, names = {.room = VIOLSTREAM_NAMES_MOST(paths.list_len)};
    paths.label = label, paths.index = index, paths.list = list;
    names.bytes = malloc(names.room);
    if (names.bytes == NULL)
        fail("no memory for the names of", daemon_.tape);
    uint64_t result = violstream_pick_rows(&paths, &text, &names);
    if (result != 0) {
        fprintf(stderr, "daemon: %s: refused=%d,%" PRIu64 " %s\n", daemon_.tape, (int)violstream_number(result), violstream_place(result), violstream_reason(result));
        exit(1);
    }
    free(label), free(index), free(list), free(names.bytes);
    return (size_t)text.size;
}

/* The tape's files, from a run sheet; its wants are the tickets'. */
static void mount_tape(void)
{
    static char sheet[SHEET_MOST + 1];
    size_t have = daemon_.name != NULL ? pick_files(sheet) : read_at(daemon_.tape, 0, sheet, SHEET_MOST);
    sheet[have] = '\0';
    for (char *line = strtok(sheet, "\n"); line != NULL; line = strtok(NULL, "\n")) {
        uint64_t n[3];
        if (strncmp(line, "file=", 5) != 0)
            continue;
        if (tape.files == VIOLSTREAM_MAX_FILES || !numbers_behind(line, "file=", 3, n))
            refuse("the tape's sheet has a file line that is none");
        starts[tape.files] = n[0], lengths[tape.files] = n[1], aggregates[tape.files] = n[2];
        tape.files++;
    }
    tape.starts = starts, tape.lengths = lengths, tape.aggregates = aggregates;
}

/* What was kept, or the morning of a day; the table is judged by the library. */
static void go_on(void)
{
    struct stat about;
    uint8_t bytes[VIOLSTREAM_TEXT_MOST];
    struct violstream_text text = {.bytes = bytes, .room = sizeof bytes};
    memcpy(kept.kind, KIND, sizeof KIND);
    if (stat(daemon_.state, &about) != 0) {
        if (errno != ENOENT)
            fail("cannot find", daemon_.state);
        return;
    }
    if (read_at(daemon_.state, 0, &kept, sizeof kept) != sizeof kept || memcmp(kept.kind, KIND, sizeof KIND) != 0 || kept.answer_bytes > sizeof kept.answer)
        refuse("the state is none that this daemon keeps");
    memcpy(desk.tickets, kept.tickets, sizeof desk.tickets);
    memcpy(desk.lasts, kept.lasts, sizeof desk.lasts);
    if (violstream_waiting_rows(&desk, &text) != 0)
        refuse("the state holds no waiting table");
    put_answer();
}

int main(int words, char **word)
{
    int at = 5;
    if (words >= at + 4 && strcmp(word[at], "--pick") == 0) {
        daemon_.name = word[at + 1], daemon_.label = word[at + 2], daemon_.index = word[at + 3];
        at += 4;
    }
    if (words == at + 2 && strcmp(word[at], "--end-at") == 0)
        daemon_.end_at = atol(word[at + 1]);
    else if (words != at) {
        fprintf(stderr, "usage: daemon STATE TAPE.run REQUESTS ANSWERS [--end-at STEP]\n       daemon STATE LIST REQUESTS ANSWERS --pick NAME LABEL INDEX [--end-at STEP]\n");
        return 2;
    }
    if (violstream_version() / 10000 != VIOLSTREAM_VERSION_NUMBER / 10000)
        refuse("the library is not the one that this was compiled for");
    daemon_.state = word[1], daemon_.tape = word[2], daemon_.requests = word[3], daemon_.answers = word[4];
    mount_tape();
    go_on();
    while (serve_one())
        step();
    return 0;
}
