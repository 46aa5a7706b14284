/* Four questions about a timing table, answered by the proved library libjudge.a.
 *
 * A table has n clocks (1 to 6), L steps a round (1 to 16), none of which resets a clock twice, and at most 64 guards. Time is
 * counted in parts, P to a tick.
 *
 * Where a run starts
 *   - At log-in: every clock reads 0, as log-in sets it. judge_rounds, judge_plan and judge_demands mean this. A terminal that
 *     loads a table at log-in calls these.
 *   - In mid-shift: the clocks read anything, 0 or more, each its own. judge_rounds_mid_shift, judge_plan_mid_shift and
 *     judge_demands_mid_shift mean this, with the same parameters. They tell whether there are readings from which the rounds
 *     can go on; what the clocks read now they are not told. A terminal that loads a table while a shift goes on calls these.
 *   - A run from log-in is also one in mid-shift. So a table may allow more rounds in mid-shift than from log-in, never fewer,
 *     and its plan from log-in is nowhere earlier than that in mid-shift.
 *   - judge_read tells what the bytes hold, whatever the clocks read.
 *
 * Rules for every call
 *   - A room is a pointer and the number of its places. The pointer is not null, also where the number is 0, and is aligned
 *     for its type. A room lent to be written overlaps no other room of the call.
 *   - `answer` needs 4 places. With fewer, false is returned and no room changes. Otherwise true is returned and the first 4
 *     places of `answer` hold the answer.
 *   - answer[0] is 0, or the number of a refusal. A refusal is { number, place of a byte, 0, 0 }, and no other room changes.
 *   - Places that are not named as written keep their contents.
 *   - Nothing is kept between calls, and no memory is allocated. Stack that a call takes, measured: rounds 52 KB, plan 42 KB,
 *     demands 5 KB, read under 1 KB, whatever the table is. Of the system, memcpy and memset are asked, and nothing else.
 *
 * Refusals, in the order of the tests, with the place that each gives. Records are taken from the left, and the first fault
 * counts. "Plan" and "demands" are those from log-in and those in mid-shift.
 *    1 length    the table has over 4,096 bytes                           4,096
 *    3 kind      a record's kind is not 1 to 5                            its kind byte
 *    4 head      the first record is not of kind 1, or a later one is     its kind byte
 *    2 cut       the bytes run out in a record's body                     its kind byte
 *                no record begins where one is due                        the table's length
 *    4 head      n is not 1 to 6                                          its kind byte
 *    5 bounds    a guard is the 65th                                      its kind byte
 *    6 timer     the clock of a guard or reset is not 1 to n              its kind byte
 *   16 twice     the clock of a reset is reset already in the same step   its kind byte
 *    7 relation  a guard's relation is above 4                            its kind byte
 *    8 constant  a guard's constant is above 4,000                        its kind byte
 *    9 steps     a finished step is the 17th                              its kind byte
 *                at the end, no step or a guard or reset since the last   its kind byte
 *   10 tail      a byte follows the end                                   that byte
 *   11 rounds    plan, demands: k is 0, or k L is above 1,024             0
 *   12 times     plan: `times` has fewer than k L places                  0
 *   13 starts    plan: `starts` has fewer than n places                   0
 *   14 loop      plan: `loop` has fewer than k L + n + 1 places           0
 *   15 list      demands: `row` has fewer than 4 places for each demand   0
 */
#ifndef JUDGE_H
#define JUDGE_H

#include <stdbool.h>
#include <stddef.h>
#include <stdint.h>

#ifdef __cplusplus
extern "C" {
#endif

/* The most places that a room can need. */
enum {
    JUDGE_ANSWER = 4,
    JUDGE_TABLE = 4096,  /* more bytes are refused unread */
    JUDGE_LONGEST = 531, /* the most bytes of a table that is accepted: 64 guards, and 6 resets in each of 16 steps */
    JUDGE_TIMES = 1024,
    JUDGE_STARTS = 6,
    JUDGE_LOOP = 1031,
    JUDGE_ROW = 4 * 132108 /* 1,024 rounds of one step with 64 exact guards, from log-in with 6 clocks: two demands of each */
};

/* Read: what the table has.
 *   { 0, n, L, number of guards }
 * or a refusal 1 to 10, or 16. */
bool judge_read(const uint8_t *table, size_t table_len,
                uint64_t *answer, size_t answer_len);

/* Rounds: the greatest number of rounds, 0 included, that has a run from log-in.
 *   { 0, 0, count, 0 }         The count, below 2^32.
 *   { 0, 1, 0, 0 }             Without end: every number of rounds has a run.
 * or a refusal 1 to 10, or 16. */
bool judge_rounds(const uint8_t *table, size_t table_len,
                  uint64_t *answer, size_t answer_len);

/* The same in mid-shift. Each number of rounds may have its run from other readings. */
bool judge_rounds_mid_shift(const uint8_t *table, size_t table_len,
                            uint64_t *answer, size_t answer_len);

/* Plan for k rounds from log-in.
 *   { 0, 0, P, 0 }             A run exists, and P = k L + n + 1 is the parts to a tick. The first k L places of `times` hold
 *                              the moments of the steps, in parts since the start: of all runs in these parts the earliest,
 *                              for every step at once. The first n places of `starts` hold what the clocks read at the start,
 *                              0 each. `loop` is kept.
 *   { 0, 1, length, 0 }        No run exists. The first `length` places of `loop` hold a loop: at least two distinct moments,
 *                              0 to k L + n, with a demand from each to the next and from the last to the first; the
 *                              tightest of these sum to below 0, or to 0 with a strict one among them. Which loop is written
 *                              is not fixed. `times` and `starts` are kept.
 * or a refusal 1 to 14, or 16. */
bool judge_plan(const uint8_t *table, size_t table_len, uint64_t k,
                uint64_t *times, size_t times_len,
                uint64_t *starts, size_t starts_len,
                uint64_t *loop, size_t loop_len,
                uint64_t *answer, size_t answer_len);

/* The same in mid-shift. The moments are the earliest of all runs from any readings, and the first n places of `starts` hold the
 * smallest readings, in parts, with which the clocks can start for these moments. A loop is one of the demands in mid-shift. */
bool judge_plan_mid_shift(const uint8_t *table, size_t table_len, uint64_t k,
                          uint64_t *times, size_t times_len,
                          uint64_t *starts, size_t starts_len,
                          uint64_t *loop, size_t loop_len,
                          uint64_t *answer, size_t answer_len);

/* Demands of k rounds from log-in.
 *   { 0, number, 0, 0 }        The first 4 * number places of `row` hold the demands, in their order, four numbers to each:
 *                              from, to, bound, strict (0 or 1). The time at moment `to` less that at moment `from` is at
 *                              most `bound` ticks, or under it if strict. Moment 0 is the start, 1 to k L are the steps, and
 *                              k L + j is the last reset of clock j before the start. The number is k (L + G) + 2 n, where G
 *                              is the number of guards, with exact ones counted twice. The last 2 n are, for each clock j,
 *                              { 0, k L + j, 0, 0 } and { k L + j, 0, 0, 0 }: its last reset is at the start.
 * or a refusal 1 to 11, 15 or 16. */
bool judge_demands(const uint8_t *table, size_t table_len, uint64_t k,
                   int64_t *row, size_t row_len,
                   uint64_t *answer, size_t answer_len);

/* The same in mid-shift. Of each clock's two last demands only the first is there: its last reset is not after the start. So
 * the number is k (L + G) + n, and `row` needs 4 places fewer for each clock. */
bool judge_demands_mid_shift(const uint8_t *table, size_t table_len, uint64_t k,
                             int64_t *row, size_t row_len,
                             uint64_t *answer, size_t answer_len);

#ifdef __cplusplus
}
#endif

#endif
