/* The entries, called as judge.h, panel.h, scan.h, tray.h and card.h declare them: compare.rs, trials.rs and bench.rs link this file
 * and call the libraries through it. */
#include "card.h"
#include "judge.h"
#include "panel.h"
#include "scan.h"
#include "tray.h"

bool through_read(const uint8_t *table, size_t table_len, uint64_t *answer, size_t answer_len)
{
    return judge_read(table, table_len, answer, answer_len);
}

bool through_rounds(const uint8_t *table, size_t table_len, uint64_t *answer, size_t answer_len)
{
    return judge_rounds(table, table_len, answer, answer_len);
}

bool through_rounds_mid_shift(const uint8_t *table, size_t table_len, uint64_t *answer, size_t answer_len)
{
    return judge_rounds_mid_shift(table, table_len, answer, answer_len);
}

bool through_plan(const uint8_t *table, size_t table_len, uint64_t k, uint64_t *times, size_t times_len, uint64_t *starts,
                  size_t starts_len, uint64_t *loop, size_t loop_len, uint64_t *answer, size_t answer_len)
{
    return judge_plan(table, table_len, k, times, times_len, starts, starts_len, loop, loop_len, answer, answer_len);
}

bool through_plan_mid_shift(const uint8_t *table, size_t table_len, uint64_t k, uint64_t *times, size_t times_len,
                            uint64_t *starts, size_t starts_len, uint64_t *loop, size_t loop_len, uint64_t *answer,
                            size_t answer_len)
{
    return judge_plan_mid_shift(table, table_len, k, times, times_len, starts, starts_len, loop, loop_len, answer, answer_len);
}

bool through_demands(const uint8_t *table, size_t table_len, uint64_t k, int64_t *row, size_t row_len, uint64_t *answer,
                     size_t answer_len)
{
    return judge_demands(table, table_len, k, row, row_len, answer, answer_len);
}

bool through_demands_mid_shift(const uint8_t *table, size_t table_len, uint64_t k, int64_t *row, size_t row_len,
                               uint64_t *answer, size_t answer_len)
{
    return judge_demands_mid_shift(table, table_len, k, row, row_len, answer, answer_len);
}

bool through_windows(const uint8_t *table, size_t table_len, uint64_t k, uint8_t *marks, size_t marks_len, double *times,
                     size_t times_len, uint64_t *answer, size_t answer_len)
{
    return panel_windows(table, table_len, k, marks, marks_len, times, times_len, answer, answer_len);
}

struct panel_widest_answer through_widest(const uint8_t *table, size_t table_len, uint64_t k)
{
    return panel_widest(table, table_len, k);
}

bool through_log_in(uint16_t counter, uint16_t *running, size_t running_len)
{
    return scan_log_in(counter, running, running_len);
}

bool through_scan(const uint8_t *table, size_t table_len, uint16_t counter, uint16_t *running, size_t running_len,
                  uint64_t *answer, size_t answer_len)
{
    return scan_one(table, table_len, counter, running, running_len, answer, answer_len);
}

bool through_tray(const uint8_t *table, size_t table_len, const uint16_t *counters, size_t counters_len, uint16_t *running,
                  size_t running_len, uint16_t *verdicts, size_t verdicts_len, uint64_t *answer, size_t answer_len)
{
    return tray_scan(table, table_len, counters, counters_len, running, running_len, verdicts, verdicts_len, answer, answer_len);
}

bool through_to_table(const uint8_t *card, size_t card_len, uint8_t *table, size_t table_len, uint64_t *answer, size_t answer_len)
{
    return card_to_table(card, card_len, table, table_len, answer, answer_len);
}

bool through_from_table(const uint8_t *table, size_t table_len, uint8_t *card, size_t card_len, uint64_t *answer,
                        size_t answer_len)
{
    return card_from_table(table, table_len, card, card_len, answer, answer_len);
}

/* No argument and no result is converted on the way. */
#define SAME(declared, ours) _Static_assert(_Generic(&declared, __typeof__(&ours): 1, default: 0), #declared)
SAME(judge_read, through_read);
SAME(judge_rounds, through_rounds);
SAME(judge_rounds_mid_shift, through_rounds_mid_shift);
SAME(judge_plan, through_plan);
SAME(judge_plan_mid_shift, through_plan_mid_shift);
SAME(judge_demands, through_demands);
SAME(judge_demands_mid_shift, through_demands_mid_shift);
SAME(panel_windows, through_windows);
SAME(panel_widest, through_widest);
SAME(scan_log_in, through_log_in);
SAME(scan_one, through_scan);
SAME(tray_scan, through_tray);
SAME(card_to_table, through_to_table);
SAME(card_from_table, through_from_table);

/* The record as panel.rs has it: five places of eight bytes, in this order. */
#define AT(field, number, type)                                                                            \
    _Static_assert(offsetof(struct panel_widest_answer, field) == 8 * number &&                            \
                       _Generic(((struct panel_widest_answer *)0)->field, type: 1, default: 0), #field)
AT(number, 0, uint64_t);
AT(place, 1, uint64_t);
AT(mark, 2, uint64_t);
AT(first, 3, double);
AT(last, 4, double);
_Static_assert(sizeof(struct panel_widest_answer) == 40, "panel_widest_answer");
