/* Makes calls of the library that it is told on standard input, with every row at a page that cannot be touched and a pattern around it, and says on standard output what came of each.
 * tests/python/caller.py is the other side.
 *
 * make -C tests/c caller    (Makefile beside this folder says against what)
 *
 * All numbers are words of eight bytes. A batch is the number of its bytes, and so many bytes of requests; it is answered when it has been read as a whole.
 *
 *   request    the call's name without violstream_, in eight bytes; how many arguments; each of them
 *   argument   NUMBER, the number; or a row: how many bytes lie between its end and the page, its length in bytes, and, behind ROW in place of NUMBER, its bytes, behind FILLED + B no
 *              bytes: all are B
 *   answer     ANSWERED, the code, and for each row SAME; or BROKEN, where the pattern around it has changed; or where it has: ROW or FILLED + B, from which byte on, how many, and what
 *              they are now, as above
 *              ENDED where the call has not come back: the signal, or 0 for a sanitizer's stop; 1 + the number of the argument at whose page it was, or 0; how many bytes behind
 *              the row's end. The program ends then */
#define _DEFAULT_SOURCE
#include <signal.h>
#include <stdio.h>
#include <stdlib.h>
#include <string.h>
#include <unistd.h>
#include "caller.h"

#ifdef __SANITIZE_ADDRESS__
#include <sanitizer/asan_interface.h>
#endif

enum { NUMBER = 0, ROW = 1, FILLED = 256 };
enum { ANSWERED = 0, ENDED = 1 };
enum { SAME = 0, BROKEN = 2 };

static const unsigned char *at, *end; /* what is left of the batch */
static volatile sig_atomic_t calling;

void give_up(const char *reason)
{
    fprintf(stderr, "caller: %s\n", reason);
    exit(2);
}

static void say(uint64_t word)
{
    fwrite(&word, sizeof word, 1, stdout);
}

/* ---- A call that does not come back */

static void say_ended(uint64_t by, uint64_t argument, uint64_t behind)
{
    if (!calling)
        return;
    calling = 0;
    say(ENDED);
    say(by);
    say(argument);
    say(behind);
    fflush(stdout);
}

#ifdef __SANITIZE_ADDRESS__
static void on_death(void)
{
    say_ended(0, 0, 0);
}
#endif

/* The call is cut off in the library's code, never in that of the C library's output: it can be written here. */
static void on_signal(int signal, siginfo_t *about, void *context)
{
    (void)context;
    const unsigned char *touched = about->si_addr;
    for (size_t i = 0; i < ARGUMENTS; i++) {
        const struct argument *row = &given[i];
        if (row->row != NULL && touched >= row->memory + row->size && touched < row->memory + row->size + PAGE)
            say_ended((uint64_t)signal, 1 + i, (uint64_t)(touched - row->row) - row->bytes);
    }
    say_ended((uint64_t)signal, 0, 0);
    _exit(3);
}

/* A signal that a sanitizer has taken stays with it. */
static void hear_of_ends(void)
{
    static const int signals[] = {SIGSEGV, SIGBUS, SIGILL, SIGFPE, SIGABRT, SIGTRAP};
    struct sigaction before, action;
    memset(&action, 0, sizeof action);
    action.sa_sigaction = on_signal;
    action.sa_flags = SA_SIGINFO;
    for (size_t i = 0; i < sizeof signals / sizeof signals[0]; i++)
        if (sigaction(signals[i], NULL, &before) == 0 && before.sa_handler == SIG_DFL)
            sigaction(signals[i], &action, NULL);
#ifdef __SANITIZE_ADDRESS__
    __asan_set_death_callback(on_death);
#endif
}

/* ---- Requests */

static const unsigned char *next_bytes(uint64_t bytes)
{
    if ((uint64_t)(end - at) < bytes)
        give_up("a request is cut off");
    at += bytes;
    return at - bytes;
}

static uint64_t next_word(void)
{
    uint64_t word;
    memcpy(&word, next_bytes(sizeof word), sizeof word);
    return word;
}

static void take(struct argument *argument)
{
    uint64_t kind = next_word();
    argument->row = NULL;
    argument->number = argument->bytes = 0;
    if (kind == NUMBER) {
        argument->number = next_word();
        return;
    }
    argument->behind = next_word();
    argument->bytes = next_word();
    argument->before = kind == ROW ? next_bytes(argument->bytes) : NULL;
    argument->fill = (unsigned char)(kind - FILLED);
    lay(argument);
}

/* ---- Answers */

/* From the first byte that has changed to the last. */
static void say_changed(const struct argument *row)
{
    size_t first = 0, last = row->bytes;
    while (was_at(row, first))
        first++;
    while (was_at(row, last - 1))
        last--;
    const unsigned char *now = row->row + first;
    size_t bytes = last - first;
    bool filled = memcmp(now, now + 1, bytes - 1) == 0;
    say(filled ? FILLED + (uint64_t)now[0] : ROW);
    say(first);
    say(bytes);
    if (!filled)
        fwrite(now, 1, bytes, stdout);
}

static void say_row(struct argument *row)
{
    bool whole = is_whole(row);
    if (!whole)
        say(BROKEN);
    else if (is_as_before(row))
        say(SAME);
    else
        say_changed(row);
}

static void answer(void)
{
    const struct call *call = call_named((const char *)next_bytes(8));
    if (next_word() != call->arguments)
        give_up("a call with too many arguments or too few");
    for (size_t i = 0; i < ARGUMENTS; i++)
        given[i].row = NULL;
    for (size_t i = 0; i < call->arguments; i++)
        take(&given[i]);
    calling = 1;
    uint64_t code = call->make();
    calling = 0;
    say(ANSWERED);
    say(code);
    for (size_t i = 0; i < call->arguments; i++)
        if (given[i].row != NULL)
            say_row(&given[i]);
}

int main(void)
{
    static unsigned char *batch;
    static size_t room;
    uint64_t bytes;
    hear_of_ends();
    while (fread(&bytes, sizeof bytes, 1, stdin) == 1) {
        if (bytes > room && (batch = realloc(batch, room = bytes)) == NULL)
            give_up("no memory for a batch");
        if (fread(batch, 1, bytes, stdin) != bytes)
            give_up("a batch is cut off");
        at = batch;
        end = batch + bytes;
        while (at < end)
            answer();
        if (fflush(stdout) != 0)
            give_up("the answers cannot be written");
    }
    free(batch);
    return 0;
}
