/*
 * replay FILE: makes the calls that a probe file lists (docs/PROBE.md) through painterend.h and prints the probe's line for
 * each: N, M, G, S, X, Q, H and V. D, W and L have no call in the header; they are passed over and print nothing.
 *
 * The book lies between guard bytes. A call that changes one of them ends the program with status 1.
 */
#include "painterend.h"

#include <errno.h>
#include <inttypes.h>
#include <stdio.h>
#include <stdlib.h>
#include <string.h>

enum {
    LONGEST_FILE = 1048576,
    LARGEST_ROOM = 256,
    NYSE = 1,
    BAD_FIELD = 4, /* the answer that has an offset */
    GUARD_BYTES = 4096,
    GUARD_MARK = 0x5A
};

static struct {
    uint8_t before[GUARD_BYTES];
    painterend_book book;
    uint8_t after[GUARD_BYTES];
} state;

_Static_assert(sizeof(painterend_book) == PAINTEREND_BOOK_BYTES, "the header's number is the size of a book");
_Static_assert(sizeof state == PAINTEREND_BOOK_BYTES + 2 * GUARD_BYTES, "the guards touch the book");

/* ---- the guards */

static void raise_guards(void)
{
    memset(state.before, GUARD_MARK, GUARD_BYTES);
    memset(state.after, GUARD_MARK, GUARD_BYTES);
}

/* The reads are volatile, since a compiler may hold that a call which is lent the book alone can't reach its neighbours. */
static bool intact(const volatile uint8_t *guard)
{
    for (size_t place = 0; place < GUARD_BYTES; place++) {
        if (guard[place] != GUARD_MARK) {
            return false;
        }
    }
    return true;
}

static void test_guards(uint8_t letter)
{
    if (!intact(state.before) || !intact(state.after)) {
        fflush(stdout);
        fprintf(stderr, "replay: the call %c wrote beside the book\n", letter);
        exit(EXIT_FAILURE);
    }
}

/* ---- the fields of a call; false where it is cut short */

struct slice {
    const uint8_t *bytes;
    size_t length;
};

static bool take(struct slice *calls, size_t length, struct slice *taken)
{
    if (calls->length < length) {
        return false;
    }
    *taken = (struct slice){calls->bytes, length};
    calls->bytes += length;
    calls->length -= length;
    return true;
}

/* A little-endian number of at most four bytes. */
static bool take_number(struct slice *calls, size_t width, uint32_t *number)
{
    struct slice taken;
    if (!take(calls, width, &taken)) {
        return false;
    }
    *number = 0;
    for (size_t place = width; place > 0; place--) {
        *number = *number << 8 | taken.bytes[place - 1];
    }
    return true;
}

/* A length of `width` bytes, then so many bytes. */
static bool take_counted(struct slice *calls, size_t width, struct slice *taken)
{
    uint32_t length;
    return take_number(calls, width, &length) && take(calls, length, taken);
}

static bool take_room(struct slice *calls)
{
    uint32_t room;
    return take_number(calls, 2, &room) && room <= LARGEST_ROOM;
}

/* The position of a call, and what of its bytes lies from there on: nothing where the position is beyond them. */
static bool take_rest(struct slice *calls, uint32_t *position, struct slice *rest)
{
    struct slice skipped;
    if (!take_number(calls, 2, position) || !take_counted(calls, 2, rest)) {
        return false;
    }
    return take(rest, *position < rest->length ? *position : rest->length, &skipped);
}

/* ---- one function for each letter; false where it is no call */

static bool start(uint16_t market)
{
    struct painterend_made made = painterend_new(market);
    state.book = made.book;
    return made.known;
}

static bool new_of_nyse(struct slice *calls)
{
    (void)calls;
    if (!start(NYSE)) {
        return false;
    }
    puts("N");
    return true;
}

static bool new_of_market(struct slice *calls)
{
    uint32_t market;
    if (!take_number(calls, 1, &market) || !start((uint16_t)market)) {
        return false;
    }
    puts("M");
    return true;
}

static bool register_symbol(struct slice *calls)
{
    uint32_t index, scale;
    struct slice name;
    if (!take_number(calls, 4, &index) || !take_number(calls, 1, &scale) || !take_counted(calls, 1, &name)) {
        return false;
    }
    struct painterend_done done = painterend_register(state.book, index, name.bytes, name.length, (uint8_t)scale);
    state.book = done.book;
    printf("G,%u\n", done.answer);
    return true;
}

static bool step(struct slice *calls)
{
    uint32_t position;
    struct slice rest;
    if (!take_rest(calls, &position, &rest)) {
        return false;
    }
    struct painterend_passed passed = painterend_apply(&state.book, rest.bytes, rest.length);
    printf("S,%u,%zu", passed.answer, position + passed.at);
    if (passed.answer == BAD_FIELD) {
        printf(",%zu", passed.offset);
    }
    puts("");
    return true;
}

static bool run(struct slice *calls)
{
    uint32_t position;
    struct slice rest;
    if (!take_rest(calls, &position, &rest)) {
        return false;
    }
    struct painterend_ended ended = painterend_run(&state.book, rest.bytes, rest.length);
    printf("X,%u,%zu\n", ended.answer, position + ended.at);
    return true;
}

static void print_side(struct painterend_side side)
{
    if (side.some) {
        printf(",%" PRIu32 ",%" PRIu64, side.price, side.size);
    } else {
        printf(",,");
    }
}

static bool quote(struct slice *calls)
{
    uint32_t index;
    if (!take_number(calls, 4, &index)) {
        return false;
    }
    struct painterend_sides sides = painterend_quote(state.book, index);
    printf("Q,%u", sides.answer);
    print_side(sides.bid);
    print_side(sides.ask);
    puts("");
    return true;
}

/* A row that is not used is all zero: were it not, its fields would be printed, and the line be another one. */
static void print_row(struct painterend_level_row row)
{
    if (row.used || row.price != 0 || row.size != 0 || row.orders != 0) {
        printf(",%" PRIu32 ",%" PRIu64 ",%" PRIu32, row.price, row.size, row.orders);
    } else {
        printf(",,,");
    }
}

static void print_rows(const struct painterend_level_row *rows)
{
    for (size_t place = 0; place < PAINTEREND_LEVELS; place++) {
        print_row(rows[place]);
    }
}

static bool depth(struct slice *calls)
{
    uint32_t index;
    if (!take_number(calls, 4, &index)) {
        return false;
    }
    struct painterend_levels levels = painterend_depth(state.book, index);
    printf("H,%u", levels.answer);
    print_rows(levels.bids);
    print_rows(levels.asks);
    puts("");
    return true;
}

static bool volume(struct slice *calls)
{
    uint32_t index;
    if (!take_number(calls, 4, &index)) {
        return false;
    }
    struct painterend_day day = painterend_volume(state.book, index);
    printf("V,%u,%" PRIu64 ",%d\n", day.answer, day.shares, day.whole);
    return true;
}

/* ---- the letters that are passed over */

static bool pass_read(struct slice *calls)
{
    uint32_t position;
    struct slice rest;
    return take_rest(calls, &position, &rest);
}

static bool pass_write(struct slice *calls)
{
    uint32_t nanoseconds;
    struct slice bytes;
    return take_number(calls, 4, &nanoseconds) && take_room(calls) && take_counted(calls, 2, &bytes);
}

static bool pass_line(struct slice *calls)
{
    uint32_t nanoseconds, sequence, second;
    struct slice bytes;
    return take_number(calls, 4, &nanoseconds) && take_number(calls, 4, &sequence) && take_number(calls, 4, &second) &&
           take_room(calls) && take_counted(calls, 2, &bytes);
}

/* ---- the list */

static const struct {
    uint8_t letter;
    bool (*call)(struct slice *calls);
} letters[] = {
    {'N', new_of_nyse}, {'M', new_of_market}, {'G', register_symbol}, {'S', step},
    {'X', run},         {'Q', quote},         {'H', depth},           {'V', volume},
    {'D', pass_read},   {'W', pass_write},    {'L', pass_line},
};

static bool make_call(uint8_t letter, struct slice *calls)
{
    for (size_t place = 0; place < sizeof letters / sizeof letters[0]; place++) {
        if (letters[place].letter == letter) {
            return letters[place].call(calls);
        }
    }
    return false;
}

static void replay(struct slice calls)
{
    raise_guards();
    if (!start(NYSE)) {
        fputs("replay: no book of NYSE, so the library and the header are not of one build\n", stderr);
        exit(EXIT_FAILURE);
    }
    test_guards('N');
    while (calls.length > 0) {
        uint8_t letter = *calls.bytes++;
        calls.length--;
        bool made = make_call(letter, &calls);
        test_guards(letter);
        if (!made) {
            puts("?");
            return;
        }
    }
}

/* ---- the file */

static uint8_t file_bytes[LONGEST_FILE + 1]; /* one more than is allowed shows that a file is too long */

static void report(const char *what)
{
    fprintf(stderr, "replay: %s: %s\n", what, strerror(errno));
}

static bool read_file(const char *name, struct slice *calls)
{
    FILE *file = fopen(name, "rb");
    if (file == NULL) {
        report(name);
        return false;
    }
    *calls = (struct slice){file_bytes, fread(file_bytes, 1, sizeof file_bytes, file)};
    bool good = !ferror(file);
    if (!good) {
        report(name);
    }
    fclose(file);
    return good;
}

int main(int count, char **arguments)
{
    if (count != 2) {
        fputs("usage: replay FILE\n", stderr);
        return 2;
    }
    struct slice calls;
    if (!read_file(arguments[1], &calls)) {
        return EXIT_FAILURE;
    }
    bool fits = calls.length <= LONGEST_FILE;
    if (fits) {
        replay(calls);
    } else {
        puts("?");
        fprintf(stderr, "replay: %s: longer than %d bytes\n", arguments[1], LONGEST_FILE);
    }
    if (fflush(stdout) != 0 || ferror(stdout)) {
        report("standard output");
        return EXIT_FAILURE;
    }
    return fits ? EXIT_SUCCESS : EXIT_FAILURE;
}
