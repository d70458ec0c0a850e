/* The loop over inputs, by AFL++ or over the files that are named; and what fuzz.h says. */
#include "fuzz.h"
#include <inttypes.h>
#include <stdio.h>
#include <stdlib.h>
#include <string.h>
#include <unistd.h>

enum { SEPARATOR = 0x1e, PATTERN = 0xa5, BLOCKS = 4096, TEXTS = 16 };

static void *blocks[BLOCKS];
static size_t blocks_made;
static struct text read_only[TEXTS];
static size_t texts_made;

/* Blocks that are given back need not be kept long: an input has its own, and all go together. */
const char *__asan_default_options(void);
const char *__asan_default_options(void)
{
    return "quarantine_size_mb=1:detect_leaks=0";
}

_Noreturn void wrong(const char *what, uint64_t code)
{
    fprintf(stderr, "fuzz: %s (code %" PRIu64 " at %" PRIu64 ")\n", what, code % 256, code / 256);
    abort();
}

void *block(size_t bytes)
{
    if (blocks_made == BLOCKS)
        exit(2);
    void *at = malloc(bytes);
    if (at == NULL && bytes > 0)
        exit(2);
    blocks[blocks_made++] = at;
    if (bytes > 0)
        memset(at, PATTERN, bytes);
    return at;
}

bool untouched(const void *at, size_t bytes)
{
    const uint8_t *byte = at;
    return bytes == 0 || (byte[0] == PATTERN && memcmp(byte, byte + 1, bytes - 1) == 0);
}

void note_text(struct text text)
{
    if (texts_made < TEXTS)
        read_only[texts_made++] = text;
}

struct text next_text(const uint8_t **input, size_t *len)
{
    const uint8_t *end = *len == 0 ? NULL : memchr(*input, SEPARATOR, *len);
    struct text text = {NULL, end == NULL ? *len : (size_t)(end - *input), *input};
    text.bytes = block(text.len);
    if (text.len > 0)
        memcpy(text.bytes, text.from, text.len);
    note_text(text);
    *input += text.len + (end != NULL);
    *len -= text.len + (end != NULL);
    return text;
}

/* ---- What must hold of a call ---- */

static struct lent rows[ROWS];
static const size_t unit[ROWS] = {1, 1, sizeof(uint64_t), sizeof(uint64_t)};

static uint64_t make(const struct call *call, const size_t len[ROWS])
{
    for (int r = 0; r < ROWS; r++) {
        rows[r].len = len[r];
        rows[r].at = block(len[r] * unit[r]);
    }
    if (call->before != NULL)
        call->before();
    uint64_t code = call->make(rows);
    for (size_t i = 0; i < texts_made; i++)
        if (read_only[i].len > 0 && memcmp(read_only[i].bytes, read_only[i].from, read_only[i].len) != 0)
            wrong("a text that was lent to be read has changed", code);
    return code;
}

/* Nothing that was lent has changed; but of a plan that was made and did not fit, the room is cleared. */
static void must_be_untouched(const struct call *call, uint64_t code, size_t cleared)
{
    for (int r = 0; r < ROWS; r++) {
        size_t from = r == ROOM ? cleared * unit[r] : 0;
        if (!untouched((uint8_t *)rows[r].at + from, rows[r].len * unit[r] - from))
            wrong("a refusal has changed a row", code);
    }
    if (call->refused != NULL)
        call->refused(code);
}

static bool is_among(uint64_t code, const uint8_t *numbers)
{
    while (*numbers != 0 && *numbers != code % 256)
        numbers++;
    return *numbers != 0;
}

/* The words of a room that are 0 at its front; all others must be as they were. */
static size_t room_cleared(uint64_t code)
{
    const uint64_t *word = rows[ROOM].at;
    size_t many = 0;
    while (many < rows[ROOM].len && word[many] == 0)
        many++;
    if (!untouched(word + many, (rows[ROOM].len - many) * unit[ROOM]))
        wrong("words of the room behind those that are cleared have changed", code);
    return many;
}

/* An answer with rows that do for every one: its sizes, and what stands behind it. */
static void measure(const struct call *call, size_t need[ROWS])
{
    const uint64_t *sizes = rows[SIZES].at;
    for (int r = FIRST; r <= SECOND; r++) {
        need[r] = call->most[r] == 0 ? 0 : (size_t)sizes[r];
        if (need[r] > call->most[r])
            wrong("an answer is longer than it can be", 0);
        if (!untouched((uint8_t *)rows[r].at + need[r], rows[r].len - need[r]))
            wrong("bytes behind an answer have changed", 0);
    }
    need[ROOM] = room_cleared(0);
    need[SIZES] = call->most[SIZES];
}

/* The same call with the rows that the answer just takes. */
static void again(const struct call *call, const size_t need[ROWS])
{
    struct lent first[ROWS];
    memcpy(first, rows, sizeof rows);
    uint64_t code = make(call, need);
    if (code != 0)
        wrong("refused in rows of just the length that the answer takes", code);
    for (int r = 0; r < ROWS; r++)
        if (need[r] > 0 && memcmp(first[r].at, rows[r].at, need[r] * unit[r]) != 0)
            wrong("the same call gives another answer", code);
}

static void one_short(const struct call *call, const size_t need[ROWS], int r)
{
    size_t len[ROWS];
    memcpy(len, need, sizeof len);
    len[r]--;
    uint64_t code = make(call, len), must = r == ROOM ? VIOLSTREAM_SHORT_ROOM : VIOLSTREAM_SHORT_ROW;
    if (code != must)
        wrong("a row that is one entry short is not refused as it must be", code);
    must_be_untouched(call, code, r == ROOM || untouched(rows[ROOM].at, rows[ROOM].len * unit[ROOM]) ? 0 : need[ROOM]);
}

uint64_t hold(const struct call *call)
{
    size_t need[ROWS];
    uint64_t code = make(call, call->most);
    if (code != 0) {
        if (code % 256 != VIOLSTREAM_SHORT_ROOM && !is_among(code, call->numbers))
            wrong("a refusal that the table does not have for this call", code);
        must_be_untouched(call, code, 0);
        if (make(call, call->most) != code)
            wrong("the same call is refused otherwise", code);
        return code;
    }
    measure(call, need);
    again(call, need);
    for (int r = 0; r < ROWS; r++)
        if (need[r] > 0)
            one_short(call, need, r);
    return 0;
}

/* ---- The loop ---- */

static void try_one(const uint8_t *input, size_t len)
{
    try_input(input, len);
    while (blocks_made > 0)
        free(blocks[--blocks_made]);
    texts_made = 0;
}

#ifdef __AFL_HAVE_MANUAL_CONTROL
__AFL_FUZZ_INIT();

int main(void)
{
    __AFL_INIT();
    const uint8_t *input = __AFL_FUZZ_TESTCASE_BUF;
    while (__AFL_LOOP(20000)) {
        size_t len = (size_t)__AFL_FUZZ_TESTCASE_LEN;
        try_one(input, len);
    }
    return 0;
}
#else
/* The inputs that are named, each once. */
int main(int words, char **word)
{
    static uint8_t input[1 << 20];
    for (int i = 1; i < words; i++) {
        FILE *file = fopen(word[i], "rb");
        if (file == NULL) {
            perror(word[i]);
            return 2;
        }
        size_t len = fread(input, 1, sizeof input, file);
        fclose(file);
        try_one(input, len);
    }
    printf("%d inputs: as it must be\n", words - 1);
    return 0;
}
#endif
