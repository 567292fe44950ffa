/* The transmission rights auction engine, to link: libtra_engine.a, which `rt lib` in crates/tra_engine writes to its folder out.
 *
 * Every function takes any numbers and any bytes, and returns: 0 where it did its work, or the number of a refusal of the calling
 * program, and then nothing that was lent has changed. 1: a buffer is too short. 2: the words of the book are no book.
 *
 * A buffer is its address and how many elements it has. Addresses are not null, are aligned for their elements, and no two
 * buffers overlap; a length is the true one. Nothing can test these three for a caller in C. The functions keep nothing between
 * calls and use no memory but what is lent and the stack. How much stack is tried and not proved: on x86-64, 256 kB were enough for
 * 300 random sheets, 60 random journals and the largest sheets, and 192 kB were not; TRA_STACK_BYTES leaves room. */
#ifndef TRA_H
#define TRA_H

#include <stddef.h>
#include <stdint.h>

#ifdef __cplusplus
extern "C" {
#endif

#define TRA_OUT_BYTES 65536     /* room for any output of a sheet, and for any reply to a line */
#define TRA_BOOK_WORDS 263      /* a book */
#define TRA_REGISTER_WORDS 6144 /* the register: 1,024 entries of six words */
#define TRA_ROOM_WORDS 32768    /* room for the words of a line */
#define TRA_STACK_BYTES 1048576

/* The engine's release and the edition of its rules. */
uint32_t tra_release(void);
uint32_t tra_rules(void);

/* The output of a sheet, its award sheet or the one line in its place, to the front of `out`, and its length to `used`.
 * `out` has TRA_OUT_BYTES bytes or more. */
uint32_t tra_sheet(const uint8_t *sheet, size_t sheet_bytes, uint8_t *out, size_t out_bytes, size_t *used);

/* One line of a journal, without its byte 10, made on a state that the caller keeps: the reply, with its byte 10, to the front of
 * `out`, and its length to `used`. What a line says and what the reply means is in docs/JOURNAL.md; a call that the rules refuse
 * has the reply "= refused N", and the state is as it was.
 *
 * The state is `book`, `account` and `entries`, the register. Before the first line `book` and `account` are 0, and the
 * register may hold any words. The words of a book:
 *   0 paths, 1 entries of the register, 2 stage (0 idle, 1 open), 3 kind (0 S, 1 L), 4 next round, 5 first day, 6 last day;
 *   from 7 on, 16 paths of four: direction (0 X, 1 M), zone, offer, sold;
 *   from 71 on, 32 bidders of six: cash, applied, letter, hold, owed, step.
 * An entry of the register: bidder, path, MW, first day, last day, state (1 pending, 2 issued).
 * `room` may hold any words, and is left with the line's own. */
uint32_t tra_line(uint64_t *book, size_t book_words, int64_t *account, uint32_t *entries, size_t entry_words,
                  const uint8_t *line, size_t line_bytes, uint32_t *room, size_t room_words, uint8_t *out, size_t out_bytes,
                  size_t *used);

#ifdef __cplusplus
}
#endif

#endif
