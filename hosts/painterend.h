/*
 * painterend.h: the verified reader of the NYSE Pillar Integrated Feed, called from C or C++.
 *
 * Link with target/staticlib/libhost.a, which `hosts/archive` makes: x86-64 Linux, System V calling rules. It calls
 * nothing but memcpy and its like, allocates nothing, keeps nothing between calls and does no input or output.
 *
 * A book is the state of one market: up to eight registered symbols, each with its live orders, its kept trades and crosses
 * and the number that it expects next. A host makes one, registers symbols, passes the bytes of the feed and asks:
 *
 *     struct painterend_made made = painterend_new(1);
 *     struct painterend_done done = painterend_register(made.book, 7, (const uint8_t *)"ABC", 3, 4);
 *     struct painterend_ended ended = painterend_run(&done.book, bytes, length);
 *     struct painterend_sides sides = painterend_quote(done.book, 7);
 *
 * No call asks for a check beforehand: any bytes, any number and any book that a call handed out give one numbered answer.
 *
 * What a host owes, since nothing can test it from within:
 * - A book comes from a call. A host may copy it, move it, keep it and drop it, as it may any struct, but it never makes or
 *   changes one by hand, and stores none on disk for a library of another build.
 * - A book that is lent (painterend_apply, painterend_run) is used by one thread at a time. Two books never touch each
 *   other, and calls that take a book by value may run side by side as long as nobody changes it meanwhile.
 * - A pointer to bytes is not NULL, also with length 0, and that many bytes behind it can be read and stay as they are
 *   during the call. They do not overlap a lent book.
 * - The thread that calls has a stack of 8 MB, the usual one of a program's first thread. Many systems give other threads
 *   less unless they are asked.
 *
 * What a call costs beside its work: a call by value (register, quote, depth, volume) copies the book,
 * PAINTEREND_BOOK_BYTES, into its arguments, and painterend_new and painterend_register copy it out again with their
 * answer. painterend_apply makes some copies of the book for each message, painterend_run a few for each run, however many
 * messages it passes: a host that has many messages at hand runs.
 */
#ifndef PAINTEREND_H
#define PAINTEREND_H

#include <stdbool.h>
#include <stddef.h>
#include <stdint.h>

#ifdef __cplusplus
extern "C" {
#endif

/* How large a book is. The number stands here alone; a host compiled with another one is to be compiled anew. */
#define PAINTEREND_BOOK_BYTES 99272

#if PAINTEREND_BOOK_BYTES % 8 != 0
#error "a book is made of whole words of 8 bytes"
#endif

/* A book: opaque bytes, aligned to 8 (as words, which C99 and C++ align without being told). */
typedef struct {
    uint64_t opaque[PAINTEREND_BOOK_BYTES / 8];
} painterend_book;

/*
 * The answers. A message that is passed moves the position by its own size, also when it is refused.
 *
 *    0  done
 *    1  the bytes end before the message does; the position stays
 *    2  the message's size is wrong for its type; below 4 it can't be one, and the position stays
 *    3  a type that is not read here
 *    4  a field has a value that it can't have, or a trade a condition that its market doesn't list
 *    5  the symbol is not registered
 *    6  an old number, below the one expected
 *    7  a number was skipped, so something was lost: the symbol is stale from here on
 *    8  the symbol is stale: neither messages nor quotes nor depths until a clear
 *    9  the message doesn't fit the book: the symbol is stale from here on
 *   10  the symbol has no room for one more order (256 are live): it is stale from here on
 *   11  the index is registered already
 *   12  eight symbols are registered, and there is no place for another
 *   13  a name that can't be one (1 to 11 printable bytes, no space, no comma), or a price scale above 6
 *
 * 14 and 15 are of printed lines and written messages, for which this header has no call. Answers 1 to 6, 8 and 11 to 13
 * leave the book as it was; 7, 9 and 10 change no order.
 */

/* A new book. */
struct painterend_made {
    painterend_book book;
    bool known; /* whether the number names a market; if not, the book is a new one of NYSE */
};

/* The book after registering. */
struct painterend_done {
    painterend_book book; /* the one that was passed, where the answer is not 0 */
    uint8_t answer;       /* 0, 11, 12 or 13 */
};

/* What became of one message. */
struct painterend_passed {
    size_t at;      /* where the next message starts, counted from the bytes passed */
    uint8_t answer; /* 0 to 10 */
    size_t offset;  /* with answer 4: where in its message the first bad field starts, Msg Size being at 0; else 0 */
    bool stops;     /* nothing more can be passed here: answer 1, or 2 with a size below 4; `at` is then 0 */
};

/* Where a run ended. */
struct painterend_ended {
    size_t at;      /* the first byte that was not passed, counted from the bytes passed */
    uint8_t answer; /* 1, or 2 with a size below 4 */
};

/* One side of a quote: its best price with the sum of the shares there. */
struct painterend_side {
    bool some;      /* whether there is an order on this side; if not, price and size say nothing */
    uint32_t price; /* in units of the symbol's price scale: 1234500 at scale 4 is 123.4500 */
    uint64_t size;  /* shares */
};

/* The quote of a symbol. */
struct painterend_sides {
    uint8_t answer; /* 0, 5 or 8; refused, it shows neither side */
    struct painterend_side bid;
    struct painterend_side ask;
};

/* How many prices of a side a depth shows. */
#define PAINTEREND_LEVELS 10

/* A price of a side with what stands there. A row that is not needed is marked, and all zero: 0 is a price too. */
struct painterend_level_row {
    bool used;
    uint32_t price;  /* in units of the symbol's price scale */
    uint64_t size;   /* the sum of the shares there */
    uint32_t orders; /* the number of live orders there */
};

/* The best prices of each side of a symbol, best first, used rows before unused ones. The first rows are the quote. */
struct painterend_levels {
    uint8_t answer; /* 0, 5 or 8; refused, no row is used */
    struct painterend_level_row bids[PAINTEREND_LEVELS];
    struct painterend_level_row asks[PAINTEREND_LEVELS];
};

/* The day's volume of a symbol. It keeps up to 128 trades and 16 crosses. */
struct painterend_day {
    uint8_t answer;  /* 0 or 5; a stale symbol has a volume too */
    uint64_t shares; /* the sum over the kept trades and the kept crosses */
    bool whole;      /* whether these are all of the day, as far as losses show */
};

/*
 * Makes a new book of a market, which it keeps for good: 1 NYSE, 3 Arca, 9 American, 10 National, 11 Texas. No symbol is
 * registered in it. The market decides which conditions a trade may have.
 */
struct painterend_made painterend_new(uint16_t market);

/*
 * Registers a symbol under the feed's index, with a name of `length` bytes (no closing zero) and the price scale, 0 to 6.
 * The symbol starts without orders, trades and crosses and expects number 1. Keep the book that is handed back; the one
 * passed is a copy.
 */
struct painterend_done painterend_register(painterend_book book, uint32_t index, const uint8_t *name, size_t length,
                                           uint8_t scale);

/*
 * Passes the one message at the start of the bytes and changes the lent book in place. What lies behind the message is not
 * looked at. A host that walks a file goes on at `bytes + at`, with `length - at` bytes, until `stops`.
 */
struct painterend_passed painterend_apply(painterend_book *book, const uint8_t *bytes, size_t length);

/*
 * Passes messages from the start of the bytes until one stops it, and changes the lent book in place, as painterend_apply
 * does for one after the other; refused messages are passed over. With answer 1 the bytes from `at` on are the beginning
 * of a message or nothing: a host that reads a file in parts puts them before the next part and goes on there.
 */
struct painterend_ended painterend_run(painterend_book *book, const uint8_t *bytes, size_t length);

/* The best price of each side of a symbol, with its shares. The book stays as it is. */
struct painterend_sides painterend_quote(painterend_book book, uint32_t index);

/* The ten best prices of each side of a symbol, with shares and orders. The book stays as it is. */
struct painterend_levels painterend_depth(painterend_book book, uint32_t index);

/* The volume of a symbol's day, and whether it is whole. The book stays as it is. */
struct painterend_day painterend_volume(painterend_book book, uint32_t index);

#ifdef __cplusplus
}
#endif

#endif
