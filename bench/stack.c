/* Measures the stack that each entry takes, by painting what lies below the caller's frame and looking how far down the paint is
 * gone. Needs the static libraries; prints one line for each table and entry, and fails if one takes more than LIMIT bytes. */
#include "../terminal/card.h"
#include "../terminal/judge.h"
#include "../terminal/panel.h"
#include "../terminal/scan.h"
#include "../terminal/tray.h"
#include <stdio.h>
#include <stdlib.h>
#include <string.h>

enum { DEPTH = 1 << 20, MARGIN = 512, PAINT = 0xA5, LIMIT = 64 * 1024 };

static uint8_t table[5000];
static size_t length;
static uint64_t rounds_asked;
static uint64_t times[1024], starts[6], room[1031], answer[4];
static int64_t row[JUDGE_ROW];
static uint8_t marks[PANEL_MARKS];
static double seconds[PANEL_TIMES];
static struct panel_widest_answer widest;
static uint16_t running[SCAN_RUNNING], verdicts[TRAY_COUNTERS];
static uint8_t card[CARD_CARD], converted[CARD_TABLE];
static size_t card_length;

static void ask_read(void) { judge_read(table, length, answer, 4); }
static void ask_rounds(void) { judge_rounds(table, length, answer, 4); }
static void ask_rounds_mid_shift(void) { judge_rounds_mid_shift(table, length, answer, 4); }
static void ask_plan(void) {
    judge_plan(table, length, rounds_asked, times, 1024, starts, 6, room, 1031, answer, 4);
}
static void ask_plan_mid_shift(void) {
    judge_plan_mid_shift(table, length, rounds_asked, times, 1024, starts, 6, room, 1031, answer, 4);
}
static void ask_demands(void) { judge_demands(table, length, rounds_asked, row, JUDGE_ROW, answer, 4); }
static void ask_demands_mid_shift(void) { judge_demands_mid_shift(table, length, rounds_asked, row, JUDGE_ROW, answer, 4); }
static void ask_windows(void) {
    panel_windows(table, length, rounds_asked, marks, PANEL_MARKS, seconds, PANEL_TIMES, answer, 4);
}
static void ask_widest(void) { widest = panel_widest(table, length, rounds_asked); }
static void ask_log_in(void) { scan_log_in(7, running, SCAN_RUNNING); }
/* A scan after no, few and many ticks at each step that there can be, and at one that there is not. */
static void ask_scan(void) {
    static const uint16_t passed[] = {0, 3, 4000};
    for (uint16_t step = 0; step <= 16; step++)
        for (int i = 0; i < 3; i++) {
            memset(running, 0, sizeof running);
            running[SCAN_STEP] = step;
            scan_one(table, length, passed[i], running, SCAN_RUNNING, answer, 4);
        }
}

/* A tray as large as there can be, with no, few and many ticks between scans, from each step that there can be, and from one that
 * there is not. */
static void ask_tray(void) {
    static const uint16_t passed[] = {0, 3, 4000};
    static uint16_t counters[TRAY_COUNTERS];
    for (uint16_t step = 0; step <= 16; step++)
        for (int i = 0; i < 3; i++) {
            for (int j = 0; j < TRAY_COUNTERS; j++) counters[j] = (uint16_t)((j + 1) * passed[i]);
            memset(running, 0, sizeof running);
            running[SCAN_STEP] = step;
            tray_scan(table, length, counters, TRAY_COUNTERS, running, SCAN_RUNNING, verdicts, TRAY_COUNTERS, answer, 4);
        }
}

static void ask_from_table(void) { card_from_table(table, length, card, CARD_CARD, answer, 4); }
static void ask_to_table(void) { card_to_table(card, card_length, converted, CARD_TABLE, answer, 4); }

/* The bytes below this frame that a call changed, MARGIN at least. */
static __attribute__((noinline)) size_t taken(void (*call)(void)) {
    volatile uint8_t *top = __builtin_frame_address(0);
    volatile uint8_t *bottom = top - DEPTH;
    for (volatile uint8_t *p = bottom; p < top - MARGIN; p++) *p = PAINT;
    call();
    volatile uint8_t *p = bottom;
    while (p < top - MARGIN && *p == PAINT) p++;
    return (size_t)(top - p);
}

/* Guards, resets and steps of a table under construction. */
static void put(int count, const uint8_t *bytes) {
    memcpy(table + length, bytes, (size_t)count);
    length += (size_t)count;
}
static void guard(int clock, int relation, int constant) {
    put(5, (uint8_t[]){2, (uint8_t)clock, (uint8_t)relation, (uint8_t)(constant % 256), (uint8_t)(constant / 256)});
}
static void reset(int clock) { put(2, (uint8_t[]){3, (uint8_t)clock}); }

/* Six clocks, sixteen steps, 64 guards: without end, or with a clock that is never reset and runs out. */
static void largest(int with_an_end) {
    length = 0;
    put(2, (uint8_t[]){1, 6});
    for (int i = 0; i < 16; i++) {
        int clocks = with_an_end ? 5 : 6;
        guard(i % clocks + 1, 3, 1);
        guard((i + 1) % clocks + 1, 1, 400);
        guard((i + 2) % clocks + 1, 4, 0);
        with_an_end ? guard(6, 0, 4000) : guard((i + 3) % clocks + 1, 0, 500);
        reset(i % clocks + 1);
        put(1, (uint8_t[]){4});
    }
    put(1, (uint8_t[]){5});
}

/* One step with 64 guards on six clocks, all reset. */
static void crowded(void) {
    length = 0;
    put(2, (uint8_t[]){1, 6});
    for (int i = 0; i < 64; i++) guard(i % 6 + 1, 2, 3);
    for (int j = 1; j <= 6; j++) reset(j);
    put(2, (uint8_t[]){4, 5});
}

/* S11: 4,000 rounds from log-in, 4,001 in mid-shift. */
static void counted(void) {
    length = 0;
    put(2, (uint8_t[]){1, 2});
    guard(1, 3, 1);
    guard(2, 1, 4000);
    reset(1);
    put(2, (uint8_t[]){4, 5});
}

/* Five steps, whose plan takes a way home and a way out. */
static void receding(void) {
    length = 0;
    put(2, (uint8_t[]){1, 3});
    reset(3);
    put(1, (uint8_t[]){4});
    guard(2, 0, 3979);
    put(1, (uint8_t[]){4});
    reset(2);
    put(1, (uint8_t[]){4});
    guard(3, 1, 3);
    put(1, (uint8_t[]){4});
    guard(1, 4, 3990);
    reset(1);
    put(2, (uint8_t[]){4, 5});
}

static int failed;

static void line(const char *name, uint64_t k) {
    rounds_asked = k;
    void (*asked[])(void) = {ask_read, ask_rounds, ask_plan, ask_demands,
                             ask_rounds_mid_shift, ask_plan_mid_shift, ask_demands_mid_shift, ask_windows, ask_widest,
                             ask_log_in, ask_scan, ask_tray, ask_from_table, ask_to_table};
    ask_from_table();
    card_length = answer[0] == 0 ? (size_t)answer[1] : 0;
    printf("%-44s", name);
    for (int i = 0; i < 14; i++) {
        size_t bytes = taken(asked[i]);
        printf(" %8zu", bytes);
        if (bytes > LIMIT) failed = 1;
    }
    printf("\n");
}

static void sample(const char *path, uint64_t k) {
    FILE *f = fopen(path, "rb");
    if (!f) { fprintf(stderr, "cannot read %s\n", path); exit(2); }
    length = fread(table, 1, sizeof table, f);
    fclose(f);
    line(path, k);
}

int main(void) {
    printf("%-44s %8s %26s %26s %17s %26s %17s\n", "", "", "from log-in", "in mid-shift", "panel", "scans", "card");
    printf("%-44s %8s", "stack in bytes", "read");
    for (int i = 0; i < 2; i++) printf(" %8s %8s %8s", "rounds", "plan", "demands");
    printf(" %8s %8s %8s %8s %8s %8s %8s\n", "windows", "widest", "log-in", "scan", "tray", "written", "read");
    sample("samples/S1.table", 1024);
    sample("samples/S2.table", 2);
    sample("samples/S10.table", 2);
    sample("samples/S11.table", 1024);
    largest(0);
    line("6 clocks, 16 steps, 64 guards, without end", 64);
    largest(1);
    line("6 clocks, 16 steps, 64 guards, a count", 64);
    crowded();
    line("1 step, 64 exact guards, six clocks", 1024);
    counted();
    line("4,000 and 4,001 rounds", 1024);
    receding();
    line("5 steps, ways home and out", 204);
    memset(table, 3, sizeof table);
    length = 4096;
    line("refused", 1);
    return failed;
}
