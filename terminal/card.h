/* A timing table as foremen write it, a card of text, to a table's bytes and back, answered by the proved library libcard.a.
 *
 * Tables are those of judge.h. A card says "timer" for a clock, a bound is a guard, and "zero" is a reset.
 *
 * A card has lines, each ended by a line feed, with single blanks between its words and nothing else:
 *   timers N                             the first line: there are N timers, 1 to 6
 *   N < C, N <= C, N = C, N >= C, N > C  a bound: timer N must read under, at most, exactly, at least, or over C ticks, 0 to 4,000
 *   zero N                               timer N is zeroed
 *   step                                 the step with the bounds and zeros since the last one is finished
 *   end                                  the last line
 * Bounds and zeros of a step stand in any order, which the table keeps. N and C are decimal numbers of any length, with no leading
 * zero and no sign. There are 1 to 16 steps, none of which zeroes a timer twice, and at most 64 bounds. Sample S1 is
 *   timers 1 / 1 >= 3 / zero 1 / step / end.
 *
 * What is promised
 *   - Every table that judge_read accepts goes to a card, which is accepted and returns to the same bytes.
 *   - Every card that is accepted goes to a table, which judge_read accepts and which returns to the same text.
 *
 * Rules for every call
 *   - A room is a pointer and the number of its places. The pointer is not null, also where the number is 0, and is aligned
 *     for its type. A room lent to be written overlaps no other room of the call.
 *   - `answer` needs 4 places. With fewer, false is returned and no room changes. Otherwise true is returned.
 *   - The room for the output needs a place for each byte of it. With fewer, the call is refused. CARD_TABLE and CARD_CARD places
 *     always do.
 *   - Places that are not named as written keep their contents. No 0 is written after a card.
 *   - Nothing is kept between calls, and no memory is allocated.
 *
 * Refusals of a card, in the order of the tests, with the place that each gives. Lines are taken from the top, and the first fault
 * counts. "Start" is the place of the line's first byte, from 0.
 *   20 card      the text has over 16,384 bytes                                    16,384
 *    2 cut       the text stops before "end", after a line feed or at once         the text's length
 *   20 card      a line is none of those above, or has no line feed                its start
 *    4 head      the first line is not "timers N", or a later one is               its start
 *                N is not 1 to 6                                                   its start
 *    5 bounds    a bound is the 65th                                               its start
 *    6 timer     the timer of a bound or "zero" is not 1 to N                      its start
 *   16 twice     the timer of a "zero" is zeroed already in the same step          its start
 *    8 constant  a bound's C is above 4,000                                        its start
 *    9 steps     a "step" is the 17th                                              its start
 *                at "end", no step or a bound or zero since the last               its start
 *   10 tail      a byte follows the line "end"                                     that byte
 *   21 output    `table` has fewer places than the table has bytes                 0
 * Refusals of a table:
 *  1 to 10, 16   as in judge.h
 *   21 output    `card` has fewer places than the card has bytes                   0
 */
#ifndef CARD_H
#define CARD_H

#include <stdbool.h>
#include <stddef.h>
#include <stdint.h>

#ifdef __cplusplus
extern "C" {
#endif

/* The most places that a room can need. */
enum {
    CARD_ANSWER = 4,
    CARD_TEXT = 16384, /* more bytes of a card are refused unread */
    CARD_CARD = 1405,  /* the most bytes of a card that is accepted */
    CARD_TABLE = 531   /* the most bytes of its table */
};

/* Card to table. The first 4 places of `answer` become:
 *   { 0, bytes, 0, 0 }         The first so many places of `table` hold the table, and the rest of it is kept.
 * or a refusal 2, 4, 5, 6, 8, 9, 10, 16, 20 or 21: { number, place of a byte, 0, 0 }, and `table` is kept. */
bool card_to_table(const uint8_t *card, size_t card_len,
                   uint8_t *table, size_t table_len,
                   uint64_t *answer, size_t answer_len);

/* Table to card. The first 4 places of `answer` become:
 *   { 0, bytes, 0, 0 }         The first so many places of `card` hold the card, and the rest of it is kept.
 * or a refusal 1 to 10, 16 or 21: { number, place of a byte, 0, 0 }, and `card` is kept. */
bool card_from_table(const uint8_t *table, size_t table_len,
                     uint8_t *card, size_t card_len,
                     uint64_t *answer, size_t answer_len);

#ifdef __cplusplus
}
#endif

#endif
