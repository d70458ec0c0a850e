/* violstream_event: an input is a day's lines, each an event with its LF; the last may have none. Lines that begin otherwise are the day's own, which no event has:
 *
 *   tape=START,LENGTH,AGGREGATE            a file more on the tape; where there is none of these, the tape is that of `files` below
 *   record=PLACE,OFFICE,FILE,COUNT,NUMBER  a record of the waiting table (from 0) as it stands there, sound or not
 *   last=OFFICE,NUMBER                     the last number given to an office
 *
 * After each event violstream_waiting must say who waits, or that the table is damaged. */
#include "../fuzz.h"
#include <string.h>

enum { FILES = 8, LINES = 48 };

static const uint64_t files[6][3] = {{0, 10, 0}, {10, 4, 7}, {14, 2, 7}, {20, 5, 0}, {30, 10, 0}, {45, 5, 0}};
static uint64_t *starts, *lengths, *aggregates;
static size_t tape;
static struct violstream_ticket table[VIOLSTREAM_PLACES], *tickets;
static uint64_t given[VIOLSTREAM_OFFICES], *lasts;
static struct text line;

static void lay(void)
{
    memcpy(tickets, table, sizeof table);
    memcpy(lasts, given, sizeof given);
}

static void must_stand(uint64_t code)
{
    if (memcmp(tickets, table, sizeof table) != 0 || memcmp(lasts, given, sizeof given) != 0)
        wrong("a refused event has changed the waiting table", code);
}

static uint64_t make(const struct lent rows[ROWS])
{
    return violstream_event(tickets, VIOLSTREAM_PLACES, lasts, VIOLSTREAM_OFFICES, starts, tape, lengths, tape, aggregates, tape, line.bytes, line.len, rows[FIRST].at, rows[FIRST].len,
                            rows[ROOM].at, rows[ROOM].len, rows[SIZES].at, rows[SIZES].len);
}

static uint64_t make_waiting(const struct lent rows[ROWS])
{
    return violstream_waiting(tickets, VIOLSTREAM_PLACES, rows[FIRST].at, rows[FIRST].len, rows[SIZES].at, rows[SIZES].len);
}

/* Up to five numbers with commas between them; any byte that is no comma counts as a digit. */
static void numbers_of(const uint8_t *at, size_t len, uint64_t numbers[5])
{
    memset(numbers, 0, 5 * sizeof *numbers);
    for (size_t i = 0, n = 0; i < len && at[i] != '\n' && n < 5; i++)
        if (at[i] == ',')
            n++;
        else
            numbers[n] = numbers[n] * 10 + (at[i] & 15);
}

static bool begins(const uint8_t *at, size_t len, const char *key)
{
    return len >= strlen(key) && memcmp(at, key, strlen(key)) == 0;
}

/* Whether a line is one of the day's own, which is then done. */
static bool is_own(const uint8_t *at, size_t len)
{
    uint64_t n[5];
    if (begins(at, len, "tape=") && tape < FILES) {
        numbers_of(at + 5, len - 5, n);
        starts[tape] = n[0], lengths[tape] = n[1], aggregates[tape] = n[2];
        tape++;
    } else if (begins(at, len, "record=")) {
        numbers_of(at + 7, len - 7, n);
        table[n[0] % VIOLSTREAM_PLACES] = (struct violstream_ticket){n[1], n[2], n[3], n[4]};
    } else if (begins(at, len, "last=")) {
        numbers_of(at + 5, len - 5, n);
        given[n[0] % VIOLSTREAM_OFFICES] = n[1];
    } else {
        return false;
    }
    return true;
}

static void set_tape(void)
{
    for (; tape < sizeof files / sizeof *files; tape++)
        starts[tape] = files[tape][0], lengths[tape] = files[tape][1], aggregates[tape] = files[tape][2];
}

static void one_event(const uint8_t *at, size_t len)
{
    static const uint8_t numbers[] = {11, 26, 15, 16, 18, 17, 1, 2, 3, 4, 5, 6, 7, 0}, waiting_numbers[] = {26, 0};
    static const struct call call = {{[FIRST] = VIOLSTREAM_TEXT_MOST, [ROOM] = VIOLSTREAM_ROOM_WORDS(8, 24), [SIZES] = 1}, numbers, make, lay, must_stand};
    static const struct call waiting = {{[FIRST] = VIOLSTREAM_TEXT_MOST, [SIZES] = 1}, waiting_numbers, make_waiting, lay, must_stand};
    line = (struct text){block(len), len, at};
    memcpy(line.bytes, at, len);
    if (hold(&call) == 0) {
        /* hold's last calls are refused ones */
        uint8_t *out = block(VIOLSTREAM_TEXT_MOST);
        uint64_t *room = block(sizeof(uint64_t) * VIOLSTREAM_ROOM_WORDS(8, 24)), size;
        lay();
        if (make((struct lent[ROWS]){{out, VIOLSTREAM_TEXT_MOST}, {NULL, 0}, {room, VIOLSTREAM_ROOM_WORDS(8, 24)}, {&size, 1}}) != 0)
            wrong("the same event is refused now", 0);
        memcpy(table, tickets, sizeof table);
        memcpy(given, lasts, sizeof given);
    }
    hold(&waiting);
}

void try_input(const uint8_t *input, size_t len)
{
    memset(table, 0, sizeof table);
    memset(given, 0, sizeof given);
    starts = block(FILES * sizeof *starts), lengths = block(FILES * sizeof *lengths), aggregates = block(FILES * sizeof *aggregates);
    tickets = block(sizeof table), lasts = block(sizeof given);
    tape = 0;
    for (int lines = 0; len > 0 && lines < LINES; lines++) {
        const uint8_t *end = memchr(input, '\n', len);
        size_t one = end == NULL ? len : (size_t)(end - input) + 1;
        if (!is_own(input, one)) {
            if (tape == 0)
                set_tape();
            one_event(input, one);
        }
        input += one;
        len -= one;
    }
}
