/* How much of the stack violstream_price and violstream_plan take, and the same two for a head anywhere, with all that they
 * call: at the limits, for the empty list, for the longest and the deepest list, and for every refusal. Fails where a call takes more bytes than violstream.h says, or
 * does not give the result that its case is there for.
 *
 * A figure is what a call writes on a stack painted before (bench/stack.c), less what the same call writes if it reaches a
 * function that does nothing. So it holds the return address, which is added again, and every word below it. It does not
 * hold the caller's frame, to which the arguments beyond the sixth belong (x86-64: sixteen words for violstream_price,
 * nineteen for violstream_plan, eighteen for violstream_plan_any).
 *
 * make -C tests/c stack               (Makefile beside this file says against what)
 * target/tests/stack [PRICE [PLAN]]   the bytes allowed (default 1,024 and 6,144); exit status: 0 none above, 1 some, or a wrong result */
#include <inttypes.h>
#include <stdbool.h>
#include <stdio.h>
#include <stdlib.h>
#include <violstream.h>
#include "stack.h"

/* The last two are the bytes that violstream.h allows each function. */
enum { FILES = VIOLSTREAM_MAX_FILES, WANTS = VIOLSTREAM_MAX_WANTS, PRICE_MOST = 1024, PLAN_MOST = 6144 };

static _Noreturn void fail(const char *why, const char *what)
{
    fprintf(stderr, "stack.c: %s: %s\n", why, what);
    exit(1);
}

/* ---- Calls ---- */

/* A row, with room for one entry over the limit. */
#define ROW(name, most) uint64_t name[(most) + 1]; size_t name##_len
#define LEND(name) call.name, call.name##_len

static struct {
    ROW(starts, FILES);
    ROW(lengths, FILES);
    ROW(aggregates, FILES);
    ROW(numbers, WANTS);
    ROW(counts, WANTS);
    ROW(from, WANTS);
    ROW(to, WANTS);
    ROW(times, WANTS);
    ROW(legs, WANTS);
    ROW(sums, VIOLSTREAM_SUMS);
    uint64_t head, turn, rule, result;
    size_t room_len;
} call;
static uint64_t *room;

/* Read at each call, so that both callees are reached by the same instructions, from the same frame. */
static __typeof__(&violstream_price) volatile price;
static __typeof__(&violstream_plan) volatile plan;
static __typeof__(&violstream_plan_any) volatile plan_any;
static bool anywhere;                   /* the calls for a head anywhere; both pricers have the same parameters */

static void call_price(void)
{
    call.result = price(LEND(starts), LEND(lengths), LEND(aggregates), LEND(numbers), LEND(counts), call.head, call.turn,
                        LEND(from), LEND(to), LEND(times), LEND(legs), LEND(sums));
}

static void call_plan(void)
{
    call.result = plan(LEND(starts), LEND(lengths), LEND(aggregates), LEND(numbers), LEND(counts), call.head, call.turn,
                       call.rule, LEND(from), LEND(to), LEND(times), LEND(legs), LEND(sums), room, call.room_len);
}

static void call_plan_any(void)
{
    call.result = plan_any(LEND(starts), LEND(lengths), LEND(aggregates), LEND(numbers), LEND(counts), call.head, call.turn,
                           LEND(from), LEND(to), LEND(times), LEND(legs), LEND(sums), room, call.room_len);
}

/* In the place of any function. It looks at no argument, the caller clears them away; compiled with -O2 it writes no word. */
static uint64_t nothing(void)
{
    return 0;
}

static void call_nothing(void)
{
    nothing();
}

/* What `made` takes, which has reached a library function, against `idle`: the same call that reached `nothing`. */
static size_t taken(size_t made, size_t idle)
{
    if (idle <= stack_bytes(call_nothing))
        fail("the stack cannot be measured", "a call with arguments seems to take no more than one without");
    return made - idle + sizeof(void *);
}

static size_t price_bytes(void)
{
    price = (__typeof__(price))(void (*)(void))nothing;
    size_t idle = stack_bytes(call_price);
    price = anywhere ? violstream_price_any : violstream_price;
    return taken(stack_bytes(call_price), idle);
}

static size_t plan_bytes(void)
{
    plan = (__typeof__(plan))(void (*)(void))nothing;
    size_t idle = stack_bytes(call_plan);
    plan = violstream_plan;
    return taken(stack_bytes(call_plan), idle);
}

static size_t plan_any_bytes(void)
{
    plan_any = (__typeof__(plan_any))(void (*)(void))nothing;
    size_t idle = stack_bytes(call_plan_any);
    plan_any = violstream_plan_any;
    return taken(stack_bytes(call_plan_any), idle);
}

/* ---- Cases ---- */

/* The tape is full and as long as can be; every 64th file is wanted, 16 times each. No list. */
static void at_the_limits(void)
{
    const uint64_t part = VIOLSTREAM_MAX_POSITION / FILES;
    for (size_t i = 0; i <= FILES; i++) {
        call.starts[i] = i * part;
        call.lengths[i] = part;
        call.aggregates[i] = 0;
    }
    for (size_t i = 0; i <= WANTS; i++) {
        call.numbers[i] = (i + 1) * (FILES / WANTS);
        call.counts[i] = VIOLSTREAM_MAX_READS / WANTS;
    }
    call.starts_len = call.lengths_len = call.aggregates_len = FILES;
    call.numbers_len = call.counts_len = call.times_len = call.legs_len = WANTS;
    call.from_len = call.to_len = 0;
    call.sums_len = VIOLSTREAM_SUMS;
    call.head = VIOLSTREAM_MAX_POSITION;
    call.turn = VIOLSTREAM_MAX_TURN;
    call.rule = VIOLSTREAM_LEAST;
    call.room_len = VIOLSTREAM_ROOM_MOST;
}

static void no_wants(void)
{
    call.numbers_len = call.counts_len = call.times_len = call.legs_len = 0;
}

static void no_files(void)
{
    no_wants();
    call.starts_len = call.lengths_len = call.aggregates_len = 0;
}

/* A detour for each want but the leftmost, from the right: no longer list is well formed. */
static void apart(void)
{
    for (size_t i = 0; i + 1 < WANTS; i++)
        call.from[i] = call.to[i] = call.numbers[WANTS - 1 - i];
    call.from_len = call.to_len = WANTS - 1;
}

/* Each detour around the one before it, from the middle to both ends: starts and ends are then all different, but for the
 * innermost, and 63 wants have room for 32. */
static void nested(void)
{
    for (size_t i = 0; i < WANTS / 2; i++) {
        call.from[i] = call.numbers[WANTS / 2 - i];
        call.to[i] = call.numbers[WANTS / 2 + i];
    }
    call.from_len = call.to_len = WANTS / 2;
}

/* Every file in an aggregate of its own: the lowest number, the highest, then those between them, so that each is looked for
 * among all before it. */
static void each_its_own(void)
{
    for (size_t i = 0; i < FILES; i++)
        call.aggregates[i] = i;
    call.aggregates[0] = 1;
    call.aggregates[1] = VIOLSTREAM_MAX_AGGREGATE;
}

/* The 64 files up to each wanted one in an aggregate, which the list names by the first of them. */
static void in_aggregates(void)
{
    for (size_t i = 0; i < FILES; i++)
        call.aggregates[i] = WANTS - i / (FILES / WANTS);
    for (size_t i = 0; i + 1 < WANTS; i++)
        call.from[i] = call.to[i] = call.numbers[WANTS - 1 - i] - (FILES / WANTS - 1);
    call.from_len = call.to_len = WANTS - 1;
}

/* The last 64 files wanted, all in one aggregate with every other file: one stop. */
static void all_in_one(void)
{
    for (size_t i = 0; i < FILES; i++)
        call.aggregates[i] = VIOLSTREAM_MAX_AGGREGATE;
    for (size_t i = 0; i < WANTS; i++)
        call.numbers[i] = FILES - WANTS + 1 + i;
}

/* The head at the start of the wanted file with that many others left of it, which is its own stop. */
static void head_at(size_t want) { call.head = call.starts[call.numbers[want] - 1]; }

static void head_at_zero(void) { call.head = 0; }
static void head_amid(void) { nested(); head_at(WANTS / 2); }
static void head_inside(void) { in_aggregates(); call.head--; }
static void first_beyond_head(void) { nested(); head_at(WANTS / 2 - 1); }
static void file_over(void) { call.starts_len = call.lengths_len = call.aggregates_len = FILES + 1; }
static void lengths_short(void) { call.lengths_len--; }
static void aggregates_short(void) { call.aggregates_len--; }
static void number_over(void) { call.aggregates[FILES - 1] = VIOLSTREAM_MAX_AGGREGATE + 1; }
static void number_returns(void) { each_its_own(); call.aggregates[FILES - 1] = call.aggregates[0]; }
static void head_in_aggregate(void) { all_in_one(); call.numbers_len = call.counts_len = WANTS - 1; call.head = call.starts[FILES - 1]; }
static void last_later_member(void) { in_aggregates(); call.from[WANTS - 2]++; }
static void file_empty(void) { call.lengths[FILES - 1] = 0; }
static void file_early(void) { call.starts[FILES - 1]--; }
static void file_far(void) { call.lengths[FILES - 1]++; }
static void file_past(void) { call.starts[FILES - 1] = UINT64_MAX; }
static void want_over(void) { call.numbers_len = call.counts_len = WANTS + 1; }
static void counts_short(void) { call.counts_len--; }
static void want_unknown(void) { call.numbers[WANTS - 1]++; }
static void want_twice(void) { call.numbers[WANTS - 1] = call.numbers[WANTS - 2]; }
static void count_zero(void) { call.counts[WANTS - 1] = 0; }
static void reads_over(void) { call.counts[WANTS - 1]++; }
static void turn_over(void) { call.turn++; }
static void head_over(void) { call.head++; }
static void head_left(void) { call.head--; }
static void ends_short(void) { apart(); call.to_len--; }
static void last_unwanted(void) { apart(); call.from[WANTS - 2]--; }
static void last_backwards(void) { apart(); call.to[WANTS - 2] = call.numbers[0]; }
static void last_leftmost(void) { apart(); call.from[WANTS - 2] = call.numbers[0]; }
static void last_again(void) { nested(); call.to[WANTS / 2 - 1] = call.to[WANTS / 2 - 2]; }
static void last_not_falling(void) { apart(); call.from[WANTS - 2] = call.to[WANTS - 2] = call.from[WANTS - 3]; }
static void times_short(void) { apart(); call.times_len--; }
static void legs_short(void) { apart(); call.legs_len--; }
static void rule_zero(void) { call.rule = 0; }
static void room_short(void) { call.room_len--; }

#define AT(number, place) ((number) + UINT64_C(256) * (place))

static const struct {
    const char *what;
    void (*change)(void);
    uint64_t result;
    enum { EITHER, RIGHT, ANYWHERE } head; /* for which calls: those with the head right of everything, anywhere, or both */
} cases[] = {
    {"no detours", at_the_limits, 0, EITHER},
    {"63 detours apart", apart, 0, EITHER},
    {"32 detours nested", nested, 0, EITHER},
    {"4,096 aggregates of one file", each_its_own, 0, EITHER},
    {"64 aggregates of 64 files, a detour for each", in_aggregates, 0, EITHER},
    {"all files in one aggregate, 64 of them wanted", all_in_one, 0, EITHER},
    {"no wants", no_wants, 0, EITHER},
    {"no files", no_files, 0, EITHER},
    {"the head at 0", head_at_zero, 0, ANYWHERE},
    {"32 detours nested, the head amid them", head_amid, 0, ANYWHERE},
    {"the head inside the last aggregate, 63 detours", head_inside, 0, ANYWHERE},
    {"1: 4,097 files", file_over, VIOLSTREAM_FILE_ROWS, EITHER},
    {"1: a length too few", lengths_short, VIOLSTREAM_FILE_ROWS, EITHER},
    {"1: an aggregate number too few", aggregates_short, VIOLSTREAM_FILE_ROWS, EITHER},
    {"2: the last aggregate number is too high", number_over, AT(VIOLSTREAM_BAD_FILE, FILES), EITHER},
    {"2: the last aggregate number is that of the first file", number_returns, AT(VIOLSTREAM_BAD_FILE, FILES), EITHER},
    {"2: the last file is empty", file_empty, AT(VIOLSTREAM_BAD_FILE, FILES), EITHER},
    {"2: the last file starts too early", file_early, AT(VIOLSTREAM_BAD_FILE, FILES), EITHER},
    {"2: the last file ends past the tape", file_far, AT(VIOLSTREAM_BAD_FILE, FILES), EITHER},
    {"2: the last file starts past the tape", file_past, AT(VIOLSTREAM_BAD_FILE, FILES), EITHER},
    {"3: 65 wants", want_over, VIOLSTREAM_WANT_ROWS, EITHER},
    {"3: a count too few", counts_short, VIOLSTREAM_WANT_ROWS, EITHER},
    {"4: the last want is not in the table", want_unknown, AT(VIOLSTREAM_BAD_WANT, WANTS), EITHER},
    {"4: the last want stands there twice", want_twice, AT(VIOLSTREAM_BAD_WANT, WANTS), EITHER},
    {"4: the last count is 0", count_zero, AT(VIOLSTREAM_BAD_WANT, WANTS), EITHER},
    {"5: 1,025 reads", reads_over, VIOLSTREAM_TOO_MANY_READS, EITHER},
    {"6: a turn price over the limit", turn_over, VIOLSTREAM_TURN_PRICE, EITHER},
    {"7: the head past the tape", head_over, VIOLSTREAM_HEAD_PLACE, EITHER},
    {"7: the head left of the last end", head_left, VIOLSTREAM_HEAD_PLACE, RIGHT},
    {"7: the head left of the last aggregate's end", head_in_aggregate, VIOLSTREAM_HEAD_PLACE, RIGHT},
    {"10: an end too few", ends_short, VIOLSTREAM_BAD_ENTRY, EITHER},
    {"10: the last entry starts at an unwanted file", last_unwanted, AT(VIOLSTREAM_BAD_ENTRY, WANTS - 1), EITHER},
    {"10: the last entry ends left of its start", last_backwards, AT(VIOLSTREAM_BAD_ENTRY, WANTS - 1), EITHER},
    {"10: the last entry starts at the leftmost want", last_leftmost, AT(VIOLSTREAM_BAD_ENTRY, WANTS - 1), EITHER},
    {"10: the last entry starts at the second file of an aggregate", last_later_member, AT(VIOLSTREAM_BAD_ENTRY, WANTS - 1), EITHER},
    {"10: the last start does not fall", last_not_falling, AT(VIOLSTREAM_BAD_ENTRY, WANTS - 1), EITHER},
    {"10: the last entry ends where one inside it does", last_again, AT(VIOLSTREAM_BAD_ENTRY, WANTS / 2), EITHER},
    {"10: the first entry starts right of the head's own stop", first_beyond_head, AT(VIOLSTREAM_BAD_ENTRY, 1), ANYWHERE},
    {"8: a time too few", times_short, VIOLSTREAM_SHORT_ROW, EITHER},
    {"8: a leg too few", legs_short, VIOLSTREAM_SHORT_ROW, EITHER},
    {"14: a rule that is none", rule_zero, VIOLSTREAM_BAD_RULE, RIGHT},
    {"9: a word of room too few", room_short, VIOLSTREAM_SHORT_ROOM, EITHER},
};

enum { CASES = sizeof cases / sizeof *cases };

/* Of a list that is handed in a plan knows nothing, and of rule and room a price. */
static bool is_tried(size_t i, bool planned)
{
    enum violstream_refusal number = violstream_number(cases[i].result);
    if (cases[i].head == (anywhere ? RIGHT : ANYWHERE))
        return false;
    return planned ? number != VIOLSTREAM_BAD_ENTRY : number != VIOLSTREAM_BAD_RULE && number != VIOLSTREAM_SHORT_ROOM;
}

/* A case by itself, or with a row of sums that is too short: then whatever is not refused before that is refused with 8. */
static size_t case_bytes(size_t i, bool short_sums, bool planned)
{
    at_the_limits();
    cases[i].change();
    call.sums_len -= short_sums;
    if (planned)
        call.from_len = call.to_len = WANTS - 1;
    size_t bytes = !planned ? price_bytes() : anywhere ? plan_any_bytes() : plan_bytes();
    bool not_before = cases[i].result == 0 || cases[i].result == VIOLSTREAM_SHORT_ROOM;
    if (call.result != (short_sums && not_before ? VIOLSTREAM_SHORT_ROW : cases[i].result))
        fail("not the result that the case is there for", cases[i].what);
    return bytes;
}

/* Every case of a function: prints the most that a call takes, and fails where that is above the bar. */
static void judge(const char *function, bool planned, size_t bar)
{
    size_t largest = 0, calls = 0;
    const char *where = "", *how = "";
    for (size_t i = 0; i < 2 * CASES; i++) {
        if (!is_tried(i / 2, planned))
            continue;
        size_t bytes = case_bytes(i / 2, i % 2, planned);
        calls++;
        if (bytes > largest) {
            largest = bytes;
            where = cases[i / 2].what;
            how = i % 2 ? ", sums too short" : "";
        }
    }
    printf("stack.c: %s takes at most %zu bytes of stack in %zu calls (first so: %s%s), allowed are %zu\n", function, largest, calls,
           where, how, bar);
    if (largest > bar) {
        fflush(stdout);
        fail("too much of the stack", function);
    }
}

int main(int argc, char **argv)
{
    room = calloc(VIOLSTREAM_ROOM_MOST, sizeof *room);
    if (room == NULL)
        fail("no memory", "room");
    size_t for_price = argc > 1 ? strtoul(argv[1], NULL, 10) : PRICE_MOST, for_plan = argc > 2 ? strtoul(argv[2], NULL, 10) : PLAN_MOST;
    judge("violstream_price", false, for_price);
    judge("violstream_plan", true, for_plan);
    anywhere = true;
    judge("violstream_price_any", false, for_price);
    judge("violstream_plan_any", true, for_plan);
    free(room);
    return 0;
}
