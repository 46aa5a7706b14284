/* A tray of scans, judged together by a timing table, answered by the proved library libtray.a.
 *
 * After a gap in the network a terminal has several scans to hand over at once. A tray is up to 256 of them, by their counters,
 * in the order in which they were made. Tables are those of judge.h; the running record, log-in, which writes it, and a single
 * scan are those of scan.h.
 *
 * What is promised of every tray that is not refused
 *   - The record and the row of verdicts are those of giving the scans singly (scan_one), in the same order, from the same
 *     record. A scan that is turned away leaves the record as it is, and the next one goes on from there.
 *   - So what scan.h promises of log-in and any number of scans after it that keep the premise also holds where some of them are
 *     given singly and others in trays.
 *
 * The premise is scan.h's, at each scan of the tray: it is not before the last accepted scan, or log-in, and fewer than 65,536
 * ticks after it.
 *   - The ticks are measured from the last accepted scan, in this tray or before it, and not from the scan's neighbour in the
 *     tray: scans turned away do not count. Where scans 30,000 and 60,000 ticks after the last accepted one are turned away, the
 *     next must be fewer than 5,536 ticks after the second of them.
 *
 * Rules for every call
 *   - A room is a pointer and the number of its places. The pointer is not null, also where the number is 0, and is aligned
 *     for its type. A room lent to be written overlaps no other room of the call: verdicts are not written over the counters.
 *   - `running` needs 8 places, and `answer` 4. With fewer, false is returned and no room changes. Otherwise true is returned.
 *   - `verdicts` needs a place for each counter. With fewer, the tray is refused.
 *   - Places that are not named as written keep their contents.
 *   - The table is given with every tray, and checked once for all its scans.
 *   - Nothing is kept between calls, and no memory is allocated. Stack that a call takes, measured: under 6 KB, whatever the
 *     table and the counters are. Of the system, memcpy and memset are asked, and nothing else.
 *
 * Refusals, in the order of the tests, with the place that each gives. All tests come before the first scan, and an empty tray is
 * refused as others are.
 *  1 to 10, 16  the table's, as in judge.h
 *   17 record    as in scan.h                                                                          0
 *   18 tray      there are more than 256 counters                                                      0
 *   19 verdicts  `verdicts` has fewer places than there are counters                                   0
 */
#ifndef TRAY_H
#define TRAY_H

#include "scan.h"

#ifdef __cplusplus
extern "C" {
#endif

/* The most counters of a tray, and the most places that its verdicts need. `running` and `answer` need those of scan.h. */
enum {
    TRAY_COUNTERS = 256
};

/* A tray of scans at these counters, in their order. The first 4 places of `answer` become:
 *   { 0, a, 0, 0 }             So many scans are accepted, 0 to 256. For each counter in its order, the i-th from 0, verdicts[i]
 *                              is 0 where its scan is accepted, or else the number of the guard that turned it away, as
 *                              scan_one tells it. The rest of `verdicts` is kept. The first 8 places of `running` are the record
 *                              after the last scan. Where no scan is accepted the record is kept, and where there is no counter
 *                              the verdicts too.
 * or a refusal 1 to 10, 16 to 19: { number, place of a byte, 0, 0 }, and `running` and `verdicts` are kept. */
bool tray_scan(const uint8_t *table, size_t table_len,
               const uint16_t *counters, size_t counters_len,
               uint16_t *running, size_t running_len,
               uint16_t *verdicts, size_t verdicts_len,
               uint64_t *answer, size_t answer_len);

#ifdef __cplusplus
}
#endif

#endif
