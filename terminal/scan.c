/* What a terminal shows for each scan of a shift as it comes, or for a tray of them; `usage` says how it is asked. */
#include "program.h"
#include "scan.h"
#include "tray.h"

#include <inttypes.h>

enum { ACCEPTED = 0, TURNED_AWAY = 1, REFUSED = 2, TROUBLE = 3 };

static const char usage[] =
    "usage: scan [--record] [--tray] [--from STEP,R1,..,R6,COUNTER] TABLE\n"
    "       scan --help\n"
    "\n"
    "The table is read from the file TABLE, and the rail's counters from standard input, one a line, as decimal numbers of 0 to\n"
    "65535. The first is that of log-in, and each further one that of a scan. Shown at once is whether a scan is accepted, with\n"
    "its round and step, or turned away, with the guard that does not hold and what its clock reads in ticks. From 4,001 on a\n"
    "clock is held. A line that is no counter is told by its number, and changes nothing.\n"
    "\n"
    "Fewer than 65,536 ticks must pass from the last accepted scan, or log-in, to a scan: the counter does not tell more.\n"
    "\n"
    "With --record, the running record is shown after each line, as --from takes it: the next step, what clocks 1 to 6 read at\n"
    "the last accepted scan, or log-in, and its counter. With --from, the shift goes on from such a record: there is no log-in,\n"
    "each counter is that of a scan, and rounds are counted from the record's own, as round 1.\n"
    "\n"
    "With --tray, all scans, up to 256, are handed over together, as after a gap in the network. They are shown once the last is\n"
    "read, each as above, and then how many are accepted, and with --record the record after them. Where some line is no counter,\n"
    "no scan is handed over.\n"
    "\n"
    "Exit status: 0 all scans are accepted; 1 some are turned away; 2 the table, the record or the tray is refused; 3 the program\n"
    "could not ask, or some line is no counter.\n";

/* Steps of a round, and the round that the next step is of. */
static uint64_t steps, rounds = 1;

static bool shown_record, in_tray;

/* The running record, once there is one. */
static bool running_now;
static uint16_t running[SCAN_RUNNING];

/* The counters of a tray, and one more, so that a larger tray is seen to be larger. */
static uint16_t tray[TRAY_COUNTERS + 1];
static size_t tray_len;

/* A record from the command line, which is cut up. */
static bool given_record(char *text)
{
    for (size_t i = 0; i < SCAN_RUNNING; i++) {
        char *comma = strchr(text, ',');
        bool last = i + 1 == SCAN_RUNNING;
        uint64_t value;
        if ((comma == NULL) != last)
            return false;
        if (!last)
            *comma = '\0';
        if (!number(text, &value) || value > UINT16_MAX)
            return false;
        running[i] = (uint16_t)value;
        text = last ? text : comma + 1;
    }
    running_now = true;
    return true;
}

static void show_record(void)
{
    printf("  record");
    for (size_t i = 0; i < SCAN_RUNNING; i++)
        printf("%c%" PRIu16, i == 0 ? ' ' : ',', running[i]);
    printf("\n");
}

static int show_refusal(const uint64_t *answer)
{
    printf("refused: %s (%" PRIu64 " at %" PRIu64 ")\n", reason(answer[0]), answer[0], answer[1]);
    return REFUSED;
}

/* What the next line of standard input is. */
enum line { COUNTER, NO_NUMBER, TOO_LARGE, NO_LINE };

static enum line read_line(uint16_t *counter)
{
    int c = getchar();
    if (c == EOF)
        return NO_LINE;
    bool digits = c != '\n';
    uint32_t value = 0;
    for (; c != '\n' && c != EOF; c = getchar()) {
        digits = digits && c >= '0' && c <= '9';
        if (digits && value <= UINT16_MAX)
            value = 10 * value + (uint32_t)(c - '0');
    }
    if (!digits)
        return NO_NUMBER;
    if (value > UINT16_MAX)
        return TOO_LARGE;
    *counter = (uint16_t)value;
    return COUNTER;
}

/* Where the guard of a number stands in the next step. The accepted bytes are walked from record to record. */
static const uint8_t *guard(uint64_t wanted)
{
    static const size_t length[] = { 0, 2, 5, 2, 1, 1 };
    uint64_t step = 1, guards = 0;
    for (size_t at = 0; table[at] != 5; at += length[table[at]]) {
        if (table[at] == 4)
            step++;
        if (table[at] == 2 && step == running[SCAN_STEP] && ++guards == wanted)
            return table + at;
    }
    return NULL;
}

/* Ticks, of which there are 4,001 at most. */
static void show_ticks(unsigned ticks)
{
    if (ticks >= 1000)
        printf("%u,%03u", ticks / 1000, ticks % 1000);
    else
        printf("%u", ticks);
}

/* What a guard asks of its clock, and what that reads at a counter. */
static void show_guard(const uint8_t *bytes, uint16_t counter)
{
    static const char *const relations[] = { "under", "at most", "exactly", "at least", "over" };
    unsigned clock = bytes[1], constant = bytes[3] + 256u * bytes[4];
    unsigned elapsed = (uint16_t)(counter - running[SCAN_COUNTER]);
    unsigned reading = running[SCAN_READINGS + clock - 1] + elapsed;
    bool held = reading >= SCAN_HELD;
    printf("clock %u must read %s ", clock, relations[bytes[2]]);
    show_ticks(constant);
    printf(" tick%s, and reads ", plural(constant));
    show_ticks(held ? SCAN_HELD : reading);
    printf("%s", held ? " or more" : "");
}

/* What a scan at a step came to: 0, accepted; or the number of the guard that turned it away, and the record stayed. */
static int show_verdict(uint16_t counter, uint16_t step, uint64_t verdict)
{
    bool accepted = verdict == 0;
    printf("scan at %" PRIu16 ": %s, round %" PRIu64 " step %" PRIu16, counter, accepted ? "accepted" : "turned away", rounds,
           step);
    if (accepted) {
        printf("\n");
        rounds += step == steps;
        return ACCEPTED;
    }
    const uint8_t *bytes = guard(verdict);
    printf(", guard %" PRIu64 ": ", verdict);
    if (bytes == NULL) {
        printf("there is none\n");
        return TROUBLE;
    }
    show_guard(bytes, counter);
    printf("\n");
    return TURNED_AWAY;
}

static int show_scan(uint16_t counter)
{
    uint64_t answer[SCAN_ANSWER];
    uint16_t step = running[SCAN_STEP];
    scan_one(table, table_len, counter, ROOM(running), ROOM(answer));
    return answer[0] != 0 ? show_refusal(answer) : show_verdict(counter, step, answer[1]);
}

/* The scans of the tray, by their verdicts. What a clock read is told by the record before the scan: those that were accepted are
 * given once more, singly. */
static int show_verdicts(const uint16_t *verdicts)
{
    uint64_t answer[SCAN_ANSWER];
    int status = ACCEPTED;
    for (size_t i = 0; i < tray_len; i++) {
        uint16_t step = running[SCAN_STEP];
        if (verdicts[i] == 0)
            scan_one(table, table_len, tray[i], ROOM(running), ROOM(answer));
        int shown = show_verdict(tray[i], step, verdicts[i]);
        if (shown > status)
            status = shown;
    }
    return status;
}

static int show_tray(void)
{
    uint64_t answer[SCAN_ANSWER];
    uint16_t verdicts[TRAY_COUNTERS], after[SCAN_RUNNING];
    memcpy(after, running, sizeof after);
    tray_scan(table, table_len, tray, tray_len, ROOM(after), ROOM(verdicts), ROOM(answer));
    if (answer[0] != 0)
        return show_refusal(answer);
    int status = show_verdicts(verdicts);
    memcpy(running, after, sizeof running);
    printf("tray: %" PRIu64 " of %zu scan%s accepted\n", answer[1], tray_len, plural(tray_len));
    return status;
}

static int show_log_in(uint16_t counter)
{
    scan_log_in(counter, ROOM(running));
    running_now = true;
    printf("log-in at %" PRIu16 "\n", counter);
    return ACCEPTED;
}

/* What comes of a line, by its number. */
static int show_line(enum line line, uint64_t at, uint16_t counter)
{
    if (line != COUNTER) {
        printf("line %" PRIu64 ": %s\n", at, line == TOO_LARGE ? "above 65,535" : "not a decimal number");
        return TROUBLE;
    }
    return running_now ? show_scan(counter) : show_log_in(counter);
}

/* All lines, up to one that is refused. Each is shown before the next is read, but for the scans of a tray. */
static int show_shift(void)
{
    uint16_t counter = 0;
    enum line line;
    int status = ACCEPTED;
    for (uint64_t at = 1; status != REFUSED && tray_len <= TRAY_COUNTERS && (line = read_line(&counter)) != NO_LINE; at++) {
        if (in_tray && running_now && line == COUNTER) {
            tray[tray_len++] = counter;
            continue;
        }
        int shown = show_line(line, at, counter);
        if (shown == REFUSED || shown > status)
            status = shown;
        if (shown_record && running_now)
            show_record();
        if (fflush(stdout) != 0)
            return TROUBLE;
    }
    if (ferror(stdin)) {
        fprintf(stderr, "scan: cannot read the counters\n");
        return TROUBLE;
    }
    if (in_tray && running_now && status == ACCEPTED) {
        status = show_tray();
        if (shown_record)
            show_record();
    }
    return status;
}

static int show_table(void)
{
    uint64_t answer[JUDGE_ANSWER];
    judge_read(table, table_len, ROOM(answer));
    if (answer[0] != 0)
        return show_refusal(answer);
    steps = answer[2];
    return show_shift();
}

int main(int argc, char **argv)
{
    if (argc == 2 && strcmp(argv[1], "--help") == 0)
        return fputs(usage, stdout) < 0 || fflush(stdout) != 0 ? TROUBLE : 0;
    int next = 1;
    bool asked = true;
    for (; asked && next < argc && argv[next][0] == '-'; next++)
        if (strcmp(argv[next], "--record") == 0)
            shown_record = true;
        else if (strcmp(argv[next], "--tray") == 0)
            in_tray = true;
        else
            asked = strcmp(argv[next], "--from") == 0 && ++next < argc && given_record(argv[next]);
    if (!asked || next + 1 != argc) {
        fputs(usage, stderr);
        return TROUBLE;
    }
    if (!load(argv[next])) {
        fprintf(stderr, "scan: cannot read %s\n", argv[next]);
        return TROUBLE;
    }
    int status = show_table();
    if (fflush(stdout) != 0)
        return TROUBLE;
    return status;
}
