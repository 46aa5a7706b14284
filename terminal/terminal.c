/* What a terminal shows for a timing table, at log-in or in mid-shift; `usage` says how it is asked. */
#include "program.h"

#include <inttypes.h>

enum { ALLOWED = 0, NOT_ALLOWED = 1, REFUSED = 2, TROUBLE = 3 };

static const char usage[] =
    "usage: terminal [mid-shift] [FILE [K]]\n"
    "       terminal --help\n"
    "\n"
    "The table is read from FILE, or from standard input without one or with \"-\". Shown are whether the table is allowed, how\n"
    "many rounds it allows and the plan of 2 rounds, or of 1 where it allows no more. With K the plan of K rounds is shown\n"
    "instead. Where there is no run, the loop of demands that contradict each other is shown in words.\n"
    "\n"
    "The table is judged from log-in, where every clock starts at 0. With the word mid-shift first it is judged in mid-shift,\n"
    "where the clocks may start at any readings; the plan shows the smallest that serve. (A FILE of that name: ./mid-shift.)\n"
    "\n"
    "Exit status: 0 the table allows rounds (with K: it allows K rounds); 1 it does not; 2 it is refused; 3 the program could\n"
    "not ask.\n";

static bool mid_shift;
static uint64_t clocks, steps;
static uint64_t times[JUDGE_TIMES], starts[JUDGE_STARTS], loop[JUDGE_LOOP];
static int64_t row[JUDGE_ROW];

/* The questions in the variant that is asked for. */
static void ask_rounds(uint64_t *answer, size_t answer_len)
{
    (mid_shift ? judge_rounds_mid_shift : judge_rounds)(table, table_len, answer, answer_len);
}

static void ask_plan(uint64_t k, uint64_t *answer, size_t answer_len)
{
    (mid_shift ? judge_plan_mid_shift : judge_plan)(table, table_len, k, ROOM(times), ROOM(starts), ROOM(loop), answer,
                                                    answer_len);
}

static void ask_demands(uint64_t k, uint64_t *answer, size_t answer_len)
{
    (mid_shift ? judge_demands_mid_shift : judge_demands)(table, table_len, k, ROOM(row), answer, answer_len);
}

static const char *variant(void)
{
    return mid_shift ? "in mid-shift" : "from log-in";
}

static int show_refusal(const uint64_t *answer)
{
    printf("refused: %s (%" PRIu64 " at %" PRIu64 ")\n", reason(answer[0]), answer[0], answer[1]);
    return REFUSED;
}

/* A moment of k rounds: the start, a scan, or the last reset of a clock before the start. Log-in is the start, and resets all. */
static void show_moment(uint64_t k, uint64_t moment)
{
    uint64_t total = k * steps;
    if (moment == 0)
        printf(mid_shift ? "the start" : "log-in");
    else if (moment > total)
        printf("clock %" PRIu64 "'s %s", moment - total, mid_shift ? "last reset before the start" : "reset at log-in");
    else if (steps == 1)
        printf("scan %" PRIu64, moment);
    else
        printf("scan %" PRIu64 " (round %" PRIu64 " step %" PRIu64 ")", moment, (moment - 1) / steps + 1,
               (moment - 1) % steps + 1);
}

/* Whether one moment comes after another whatever the times are. Resets before the start come before all. */
static bool after(uint64_t total, uint64_t a, uint64_t b)
{
    return a <= total && (b > total || a > b);
}

static void show_demand(uint64_t k, const int64_t *demand)
{
    uint64_t from = (uint64_t)demand[0], to = (uint64_t)demand[1];
    int64_t ticks = demand[2];
    bool strict = demand[3] == 1;
    printf("  ");
    if (after(k * steps, from, to)) {
        show_moment(k, from);
        if (ticks == 0 && !strict)
            printf(" not before ");
        else
            printf(" %s %" PRId64 " tick%s after ", strict ? "more than" : "at least", -ticks, plural((uint64_t)-ticks));
        show_moment(k, to);
    } else {
        show_moment(k, to);
        printf(" %s %" PRId64 " tick%s after ", strict ? "less than" : "at most", ticks, plural((uint64_t)ticks));
        show_moment(k, from);
    }
    printf("\n");
}

/* The tightest of the demands in the row from a moment to another. */
static const int64_t *tightest(uint64_t number, uint64_t from, uint64_t to)
{
    const int64_t *best = NULL;
    for (uint64_t i = 0; i < number; i++) {
        const int64_t *d = row + 4 * i;
        if (d[0] != (int64_t)from || d[1] != (int64_t)to)
            continue;
        if (best == NULL || d[2] < best[2] || (d[2] == best[2] && d[3] > best[3]))
            best = d;
    }
    return best;
}

/* Where in the loop its latest scan stands, so that it is shown from there. */
static uint64_t latest(uint64_t total, uint64_t length)
{
    uint64_t best = 0;
    for (uint64_t i = 1; i < length; i++)
        if (after(total, loop[i], loop[best]))
            best = i;
    return best;
}

/* The loop that stands in its room, each demand in words. */
static int show_loop(uint64_t k, uint64_t length)
{
    uint64_t answer[JUDGE_ANSWER];
    ask_demands(k, ROOM(answer));
    if (answer[0] != 0)
        return show_refusal(answer);
    printf("no plan of %" PRIu64 " round%s %s: these demands contradict each other\n", k, plural(k), variant());
    int64_t sum = 0;
    bool strict = false;
    uint64_t first = latest(k * steps, length);
    for (uint64_t i = 0; i < length; i++) {
        uint64_t from = loop[(first + i) % length], to = loop[(first + i + 1) % length];
        const int64_t *d = tightest(answer[1], from, to);
        if (d == NULL) {
            fprintf(stderr, "terminal: no demand from %" PRIu64 " to %" PRIu64 "\n", from, to);
            return TROUBLE;
        }
        show_demand(k, d);
        sum += d[2];
        strict = strict || d[3] == 1;
    }
    printf("  sum %" PRId64 "%s\n", sum, strict ? ", strict" : "");
    return NOT_ALLOWED;
}

static int show_plan(uint64_t k)
{
    uint64_t answer[JUDGE_ANSWER];
    ask_plan(k, ROOM(answer));
    if (answer[0] != 0)
        return show_refusal(answer);
    if (answer[1] != 0)
        return show_loop(k, answer[2]);
    printf("plan of %" PRIu64 " round%s %s, %" PRIu64 " parts to a tick\n", k, plural(k), variant(), answer[2]);
    for (uint64_t j = 0; j < clocks; j++)
        printf("  clock %" PRIu64 " starts at %" PRIu64 "\n", j + 1, starts[j]);
    for (uint64_t i = 0; i < k * steps; i++) {
        printf("  ");
        show_moment(k, i + 1);
        printf(" at %" PRIu64 "\n", times[i]);
    }
    return ALLOWED;
}

static int show_table(bool asked, uint64_t k)
{
    uint64_t answer[JUDGE_ANSWER];
    judge_read(table, table_len, ROOM(answer));
    if (answer[0] != 0)
        return show_refusal(answer);
    clocks = answer[1];
    steps = answer[2];
    uint64_t guards = answer[3];
    ask_rounds(ROOM(answer));
    bool endless = answer[1] == 1;
    uint64_t count = answer[2];
    printf("%s %s: ", endless || count > 0 ? "allowed" : "not allowed", variant());
    if (endless)
        printf("rounds without end");
    else
        printf("%" PRIu64 " round%s", count, plural(count));
    printf("; %" PRIu64 " clock%s, %" PRIu64 " step%s, %" PRIu64 " guard%s\n", clocks, plural(clocks), steps, plural(steps),
           guards, plural(guards));
    return show_plan(asked ? k : endless || count > 1 ? 2 : 1);
}

int main(int argc, char **argv)
{
    uint64_t k = 0;
    if (argc == 2 && strcmp(argv[1], "--help") == 0)
        return fputs(usage, stdout) < 0 || fflush(stdout) != 0 ? TROUBLE : 0;
    mid_shift = argc > 1 && strcmp(argv[1], "mid-shift") == 0;
    if (mid_shift) {
        argc--;
        argv++;
    }
    if (argc > 3 || (argc == 3 && !number(argv[2], &k))) {
        fputs(usage, stderr);
        return TROUBLE;
    }
    const char *name = argc > 1 ? argv[1] : "-";
    if (!load(name)) {
        fprintf(stderr, "terminal: cannot read %s\n", name);
        return TROUBLE;
    }
    int status = show_table(argc == 3, k);
    if (fflush(stdout) != 0)
        return TROUBLE;
    return status;
}
