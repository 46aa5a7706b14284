/* The wall panel of a timing table: when each step of a plan may happen, in seconds, answered by the proved library libpanel.a.
 *
 * Tables, rounds and steps are those of judge.h. Runs start at log-in, where every clock reads 0. Time is counted in parts,
 * P = k L + n + 1 to a tick for k rounds of a table with n clocks and L steps, and a tick is a tenth of a second.
 *
 * What is shown
 *   - A window of each step: its earliest moment and its latest one, over all runs of k rounds from log-in in these parts. A
 *     window is closed, with both; open, with the earliest only, where the step can be put off without end; or absent, where no
 *     run exists. Then all windows are absent.
 *   - Seconds are binary64. Moments and P are whole numbers, and a moment of m parts is shown as the one number nearest to the
 *     fraction m / (10 P); were two as near, as the even one of them. The fraction is rounded once.
 *   - All steps at their earliest are a run together, the plan of judge.h. All at their latest are one too, where all windows are
 *     closed. Some at their earliest and others at their latest need not be.
 *
 * Rules for every call
 *   - A room is a pointer and the number of its places. The pointer is not null, also where the number is 0, and is aligned
 *     for its type. A room lent to be written overlaps no other room of the call.
 *   - The processor rounds to nearest, as it does unless a program asks it otherwise.
 *   - Places that are not named as written keep their contents.
 *   - Nothing is kept between calls, and no memory is allocated. Stack that a call takes, measured: 58 KB, whatever the table is.
 *     Of the system, memcpy and memset are asked, and nothing else.
 *
 * Refusals, in the order of the tests, with the place that each gives
 *  1 to 10, 16  the table's, as in judge.h
 *   11 rounds    k is 0, or k L is above 1,024                                                         0
 *   12 times     windows: `marks` has fewer than k L places, or `times` fewer than 2 k L               0
 */
#ifndef PANEL_H
#define PANEL_H

#include <stdbool.h>
#include <stddef.h>
#include <stdint.h>

#ifdef __cplusplus
extern "C" {
#endif

/* The most places that a room can need. */
enum {
    PANEL_ANSWER = 4,
    PANEL_MARKS = 1024,
    PANEL_TIMES = 2048
};

/* The marks of windows. */
enum {
    PANEL_ABSENT = 0,
    PANEL_OPEN = 1,
    PANEL_CLOSED = 2
};

/* Windows for k rounds.
 *   { 0, k L, 0, 0 }           For each of the k L steps in their order, the i-th from 0, marks[i] is 2 (closed), 1 (open) or 0
 *                              (absent), and times[2 i] and times[2 i + 1] are the earliest and the latest second. What there is
 *                              not is 0.0: the latest of an open window, and both of an absent one. Also where no run exists
 *                              all k L marks and 2 k L times are written. The rest of both rooms is kept.
 * or a refusal 1 to 12, or 16: { number, place of a byte, 0, 0 }, and no other room changes.
 * `answer` needs 4 places. With fewer, false is returned and no room changes. Otherwise true is returned and the first 4 places
 * of `answer` hold the answer. */
bool panel_windows(const uint8_t *table, size_t table_len, uint64_t k,
                   uint8_t *marks, size_t marks_len,
                   double *times, size_t times_len,
                   uint64_t *answer, size_t answer_len);

/* The answer to "widest". */
struct panel_widest_answer {
    uint64_t number; /* 0, or the number of a refusal 1 to 11, or 16 */
    uint64_t place;  /* the refusal's; else 0 */
    uint64_t mark;   /* 2, or 0 where no window is closed */
    double first;    /* the earliest second */
    double last;     /* the latest second */
};

/* Widest closed window for k rounds.
 *   { 0, 0, 2, first, last }   The widest, latest less earliest in exact parts, and of equally wide ones that of the first step.
 *                              One moment is a window too, with a width of 0.
 *   { 0, 0, 0, 0.0, 0.0 }      No window is closed: each step can be put off without end, or no run exists.
 * or a refusal 1 to 11, or 16: { number, place of a byte, 0, 0.0, 0.0 }. */
struct panel_widest_answer panel_widest(const uint8_t *table, size_t table_len, uint64_t k);

#ifdef __cplusplus
}
#endif

#endif
