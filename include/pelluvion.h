/* Pelluvion, the result sheet: the C interface of libcapi.a (x86-64 Linux).

   Every function answers with a refusal's number, or 0 when it accepted.  Every other answer comes through
   the last pointers and is 0 on refusal, but for the column at fault of check and board.  A place counts
   numbers, an offset counts bytes; every slice is a pointer and how many elements it has.  A refused call
   changes no output; an accepted write changes `size` bytes of it, an accepted read `count` numbers.  What
   the work slice holds after a call is not said.  No function keeps a pointer, allocates or has a state; a
   call takes less than 32 KB of stack.  No pointer may be null, not even to a slice of length 0, and what a
   call may change (work, output and answers) must not overlap anything else that it is lent.

    1  sheet below 2 or above 65,536 bytes, byte 0 neither 1 nor 2, over 16 columns; rank and select: a slice
       above 65,536 bytes
    2  table cut short, kind above 1, count above 1,024, body lengths not filling the rest
    3  malformed plan
    4  plan not passed for its kind
    5  no such column
    6  place not below the count; rank: bit above the number of bits; select: k not below the number of ones
    7  output shorter than the answer, or a written sheet would pass 65,536 bytes
    8  work slice too short
    9  a body cut short: it ends before the unit or header that is read does
   10  writing: a list of kind 1 that does not rise as the edition means it
   11  edition neither 1 nor 2, over 16 orders, kind above 1, count above 1,024, counts not summing to the
       joined slice
   12  board rules broken
   13  any other fault of a body, also a list of kind 1 that does not rise as the sheet's edition means it

   Byte 0 of a sheet is its edition, 1 or 2, and every function that is lent a sheet finds it there.  Kind 0
   is any list, kind 1 a rising one: in edition 1 no number is below the one before, in edition 2 each is
   above the one before.  In all else the two editions are the same.

   A plan's bytes: codes 1 VByte, 2 group of four, 3 G8IU, 4 Stream VByte, 5 gamma, 6 delta, 7 four-wise null
   suppression and 8 directly addressed, in which a lookup reads no other number and takes the sums that it
   finds as they are; stages 16 reference and 17 differences, each before one plan, and 18 runs before two.

   On a sheet the order is 1; 2; each plan in turn, 3 before 4; 5; 6; 8; 7; 9 or 13, whichever the body meets
   first; 12.  On writing it is 11; each plan in turn, 3 before 4; each list in turn 10; 8; 7.  For rank and select
   it is 1; 6. */

#ifndef PELLUVION_H
#define PELLUVION_H

#include <stddef.h>
#include <stdint.h>

#ifdef __cplusplus
extern "C" {
#endif

#define PELLUVION_PLAN 15       /* bytes a plan, zero-filled */
#define PELLUVION_COLUMNS 16    /* most columns a sheet */
#define PELLUVION_COUNT 1024    /* most numbers a column */
#define PELLUVION_SHEET 65536   /* most bytes a sheet, and a slice of bits */

/* Judges a plan for a kind, 0 any or 1 rising, in either edition.  A plan that is not 15 bytes long is 3. */
uint32_t pelluvion_judge(uint8_t kind, const uint8_t *plan, size_t plan_len);

/* The most bytes that a plan takes for n numbers. */
uint32_t pelluvion_worst(const uint8_t *plan, size_t plan_len, size_t n, size_t *size);

/* Writes a sheet of an edition, 1 or 2: column i has kinds[i], the 15 bytes of plans from 15 * i (15 zeros:
   the default plan) and counts[i] numbers, which stand in `joined` after those of the columns before it.
   Another edition, plans_len not 15 times kinds_len, or counts_len not kinds_len, is 11.  Work: 7 times the
   largest count. */
uint32_t pelluvion_write(uint8_t edition, const uint8_t *kinds, size_t kinds_len, const uint8_t *plans,
                         size_t plans_len, const uint32_t *counts, size_t counts_len, const uint32_t *joined,
                         size_t joined_len, uint32_t *work, size_t work_len, uint8_t *out, size_t out_len,
                         size_t *size);

/* Checks a whole sheet.  Refused: the column at fault (0 for 1, 2 and 8).  Work: 8 times the largest count. */
uint32_t pelluvion_check(const uint8_t *sheet, size_t sheet_len, uint32_t *work, size_t work_len, size_t *column);

/* Reads a column's list.  Work: 7 times the count. */
uint32_t pelluvion_read(const uint8_t *sheet, size_t sheet_len, size_t column, uint32_t *work, size_t work_len,
                        uint32_t *out, size_t out_len, size_t *count);

/* Looks up the number at a place of a column. */
uint32_t pelluvion_lookup(const uint8_t *sheet, size_t sheet_len, size_t column, size_t place, uint32_t *number);

/* Where a column's body stands in the sheet: `length` bytes from `offset` on. */
uint32_t pelluvion_fetch(const uint8_t *sheet, size_t sheet_len, size_t column, size_t *offset, size_t *length);

/* Counts the endings of a board: column 0 job numbers, column 1 endings.  0 is passed, 124 killed (what GNU
   coreutils' `timeout` ends with when it stopped a job), any other of 1 to 255 failed, 256 unended; the four
   tallies sum to the count.  Checks the sheet first, and names the column at fault as the check does (0 for 12).
   Work: 8 times the largest count. */
uint32_t pelluvion_board(const uint8_t *sheet, size_t sheet_len, uint32_t *work, size_t work_len,
                         size_t *column, size_t *passed, size_t *failed, size_t *killed, size_t *unended);

/* Rank and select over the bits of a slice, the lowest bit of each byte first.  Rank counts the ones before a
   bit, which may be the number of bits; select finds the bit of the k-th one, k counted from 0.  Rank at the bit
   that select finds is k. */
uint32_t pelluvion_rank(const uint8_t *bytes, size_t len, size_t bit, size_t *ones);
uint32_t pelluvion_select(const uint8_t *bytes, size_t len, size_t k, size_t *bit);

#ifdef __cplusplus
}
#endif

#endif
