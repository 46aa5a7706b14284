/* Each scan of a shift, judged as it comes by a timing table, answered by the proved library libscan.a.
 *
 * Tables, clocks, steps, guards and resets are those of judge.h, with n for the clocks of a table and L for its steps. A scan
 * brings the rail's counter, which counts ticks in 16 bits and starts again after 65,535. Scans that have gathered are
 * handed over together by tray.h.
 *
 * The running record: what a terminal holds for a table from log-in on, a row of 8 numbers
 *   - running[0] is the next step, 1 to L. After step L it is step 1 again.
 *   - running[1] to running[6] are what clocks 1 to 6 read at the last accepted scan, or at log-in, in whole ticks. A reading is
 *     held at 4,001 once there and stands for all longer ones, until a reset: no constant is above 4,000. Of clocks past n
 *     readings mean nothing, and a scan keeps them, whatever they are.
 *   - running[7] is the counter of the last accepted scan, or of log-in.
 *   Log-in writes the record. From then on it is lent with each scan, with the same table, and kept in between.
 *
 * The premise, which the terminal has to see to: a scan is not before the last accepted one, or log-in, and fewer than 65,536
 * ticks after it (an hour and 49 minutes, where a tick is a tenth of a second). Scans turned away do not count here.
 *   - The elapsed ticks are the difference of the two counters on their circle: from 65,535 to 1 they are 2.
 *   - Where more have passed, 65,536 or a multiple of it is missing: the clocks read too little, so that a scan that comes too
 *     late may be accepted, and one that is late enough turned away. A scan from before the last accepted one is taken for one
 *     65,536 ticks later. No call can see either, and what is promised here holds again only from the next log-in on.
 *
 * What is promised of log-in and any number of scans after it that keep the premise
 *   - The accepted scans, m of them, keep every rule of a run: of the first m steps of the table repeated, in whole ticks, from
 *     all readings 0. Their times are the true ticks since log-in, which may come to more than 65,535.
 *   - A scan is turned away exactly where a guard of the next step does not hold of the true reading. All guards of a step are
 *     tested before its resets take place.
 *   - Ticks are whole: under 3 means at most 2, and over 3 at least 4. Plans (judge.h) and panels (panel.h) count in parts of a
 *     tick, and may have a step between two ticks where no scan can be.
 *   - Steps are judged as far as they have come. Whether the rest of the round can still be done is not told.
 *
 * Rules for every call
 *   - A room is a pointer and the number of its places. The pointer is not null, also where the number is 0, and is aligned
 *     for its type. A room lent to be written overlaps no other room of the call: the record neither the table nor the answer.
 *   - `running` needs 8 places, and `answer` 4. With fewer, false is returned and no room changes. Otherwise true is returned.
 *   - Places that are not named as written keep their contents.
 *   - The table is given with every scan, and checked each time.
 *   - Nothing is kept between calls, and no memory is allocated. Stack that a call takes, measured: under 1 KB, whatever the
 *     table is. Nothing is asked of the system.
 *
 * Refusals of a scan, in the order of the tests, with the place that each gives. Log-in is never refused.
 *  1 to 10, 16  the table's, as in judge.h
 *   17 record    running[0] is not 1 to L, or one of running[1] to running[n] is above 4,001           0
 */
#ifndef SCAN_H
#define SCAN_H

#include <stdbool.h>
#include <stddef.h>
#include <stdint.h>

#ifdef __cplusplus
extern "C" {
#endif

/* The places that the rooms need. */
enum {
    SCAN_RUNNING = 8,
    SCAN_ANSWER = 4
};

/* The places of a running record. */
enum {
    SCAN_STEP = 0,
    SCAN_READINGS = 1, /* clock 1; clocks 2 to 6 follow */
    SCAN_COUNTER = 7
};

/* The reading that stands for itself and all longer ones. */
enum {
    SCAN_HELD = 4001
};

/* Log-in: the first 8 places of `running` become { 1, 0, 0, 0, 0, 0, 0, counter }. */
bool scan_log_in(uint16_t counter,
                 uint16_t *running, size_t running_len);

/* One scan, at the rail's counter. The first 4 places of `answer` become:
 *   { 0, 0, 0, 0 }             Accepted, and the first 8 places of `running` are updated: the step is the next one; clocks 1 to n
 *                              have gone on by the elapsed ticks, but read 0 where the step resets them; the counter is this one.
 *                              The readings of clocks past n are kept.
 *   { 0, b, 0, 0 }             Turned away, and `running` is kept, its counter too. Guard b is the first of the step that does
 *                              not hold: they are counted from 1 in their step, in the table's order, resets not counted, and
 *                              "exactly" is one guard.
 * or a refusal 1 to 10, 16 or 17: { number, place of a byte, 0, 0 }, and `running` is kept. */
bool scan_one(const uint8_t *table, size_t table_len, uint16_t counter,
              uint16_t *running, size_t running_len,
              uint64_t *answer, size_t answer_len);

#ifdef __cplusplus
}
#endif

#endif
