/* The program behind `violstream ltfs`, its main and its reading and writing by other names (run.sh): an input is a tape's name, a label and an index; one without a separator is the
 * program's whole standard input. The sheet that it writes is one that violstream_answer plans. */
#include "../fuzz.h"
#include <stdio.h>
#include <string.h>

enum { SHEET = 16384, NOTES = 54, INPUT = 1 << 20 };

struct written {
    uint8_t sheet[SHEET + 1], notes[NOTES + 1];
    size_t sheet_len, notes_len;
};

int ltfs_main(void);
static uint8_t input_bytes[INPUT];
static size_t input_len, input_read;
static struct written first, now;

/* In pieces, as a pipe gives them. */
long ltfs_read(int descriptor, void *at, size_t len)
{
    size_t left = input_len - input_read, piece = left < 5 ? left : 1 + left / 2;
    if (descriptor != 0)
        wrong("the program reads from another place", 0);
    piece = piece < len ? piece : len;
    memcpy(at, input_bytes + input_read, piece);
    input_read += piece;
    return (long)piece;
}

long ltfs_write(int descriptor, const void *at, size_t len)
{
    uint8_t *to = descriptor == 1 ? now.sheet : now.notes;
    size_t *done = descriptor == 1 ? &now.sheet_len : &now.notes_len, most = descriptor == 1 ? SHEET : NOTES;
    if ((descriptor != 1 && descriptor != 2) || len > most - *done)
        wrong("the program writes more than its rows have, or to another place", 0);
    memcpy(to + *done, at, len);
    *done += len;
    return (long)len;
}

static void run(void)
{
    input_read = 0;
    memset(&now, 0, sizeof now);
    if (ltfs_main() != 0)
        wrong("the program does not end with 0", 0);
}

static void add(const void *bytes, size_t len)
{
    if (len > INPUT - input_len)
        len = INPUT - input_len;
    memcpy(input_bytes + input_len, bytes, len);
    input_len += len;
}

static void add_text(const char *key, struct text text)
{
    char line[40];
    add(line, (size_t)snprintf(line, sizeof line, "%s=%zu\n", key, text.len));
    add(text.bytes, text.len);
}

/* A refusal with a number that the table has for this command, or a sheet that can be planned. */
static void look(void)
{
    static const char *const refusals[] = {"refused=13\nplace=0\n", "refused=20\nplace=0\n", "refused=21\nplace=0\n", "refused=22\nplace=0\n", "refused=23\nplace=0\n"};
    for (size_t i = 0; i < sizeof refusals / sizeof *refusals; i++)
        if (strcmp((char *)now.sheet, refusals[i]) == 0 && now.notes_len == 0)
            return;
    uint8_t plan[VIOLSTREAM_PLAN_MOST];
    uint64_t size;
    uint64_t code = violstream_answer(now.sheet, now.sheet_len, plan, sizeof plan, NULL, 0, &size, 1);
    if (code != 0 || strncmp((char *)now.notes, "empty=", 6) != 0)
        wrong("neither a refusal nor a sheet that can be planned, with its report", code);
}

void try_input(const uint8_t *input, size_t len)
{
    input_len = 0;
    if (len == 0 || memchr(input, 0x1e, len) == NULL) {
        add(input, len);
    } else {
        struct text tape = next_text(&input, &len), label = next_text(&input, &len), indexed = next_text(&input, &len);
        add("tape=", 5), add(tape.bytes, tape.len), add("\n", 1);
        add_text("label", label), add_text("index", indexed);
    }
    run();
    look();
    first = now;
    run();
    if (memcmp(&first, &now, sizeof now) != 0)
        wrong("the same input is answered otherwise", 0);
}
