/* What the panel over the rail shows for a timing table: when each step may happen, in seconds since log-in; `usage` says how
 * it is asked. */
#include "panel.h"
#include "program.h"

#include <inttypes.h>

enum { SHOWN = 0, NO_RUN = 1, REFUSED = 2, TROUBLE = 3 };

static const char usage[] =
    "usage: panel [--svg] [FILE [K]]\n"
    "       panel --help\n"
    "\n"
    "The table is read from FILE, or from standard input without one or with \"-\". Shown is for each step of 2 rounds from\n"
    "log-in, or of 1 where the table allows no more, when it may happen at the earliest and at the latest, in seconds, with a\n"
    "bar to scale, and below them the widest window. With K it is shown for K rounds. A step that can be put off without end is\n"
    "open and has an arrow. Times are rounded to the decimals that are shown.\n"
    "\n"
    "With --svg first, the same is written as a picture to print and hang up, on as many pages of A4 as the steps take.\n"
    "\n"
    "Exit status: 0 windows are shown; 1 no run exists; 2 the table or K is refused; 3 the program could not ask.\n";

static const char *name;

static uint64_t clocks, steps, guards;

/* The windows of k rounds. */
static uint64_t k, total;
static uint8_t marks[PANEL_MARKS];
static double times[PANEL_TIMES];

static uint64_t round_of(uint64_t i)
{
    return i / steps + 1;
}

static uint64_t step_of(uint64_t i)
{
    return i % steps + 1;
}

static bool closed(uint64_t i)
{
    return marks[i] == PANEL_CLOSED;
}

static double earliest(uint64_t i)
{
    return times[2 * i];
}

static double latest(uint64_t i)
{
    return times[2 * i + 1];
}

/* The last second that is shown: of all windows, the greatest. */
static double span(void)
{
    double most = 0.0;
    for (uint64_t i = 0; i < 2 * total; i++)
        if (times[i] > most)
            most = times[i];
    return most;
}

/* Decimals that show a part. */
static int decimals(void)
{
    return total + clocks + 1 <= 100 ? 3 : 4;
}

/* The widest closed window, and its step: the first that has its two times; past the last step where there is none. */
static struct panel_widest_answer widest;
static uint64_t widest_step;

static bool find_widest(void)
{
    widest = panel_widest(table, table_len, k);
    uint64_t i = 0;
    while (i < total && !(closed(i) && earliest(i) == widest.first && latest(i) == widest.last))
        i++;
    widest_step = i;
    return widest.number == 0 && (widest.mark == PANEL_CLOSED) == (widest_step < total);
}

/* In words. */

enum { WORDS = 240 };

static void refusal(char *words, const uint64_t *answer)
{
    snprintf(words, WORDS, "refused: %s (%" PRIu64 " at %" PRIu64 ")", reason(answer[0]), answer[0], answer[1]);
}

static void no_run(char *words)
{
    uint64_t answer[JUDGE_ANSWER];
    judge_rounds(table, table_len, ROOM(answer));
    snprintf(words, WORDS, "no run of %" PRIu64 " round%s exists: from log-in the table allows %" PRIu64, k, plural(k),
             answer[2]);
}

static void size(char *words)
{
    snprintf(words, WORDS,
             "%" PRIu64 " round%s from log-in, in seconds; %" PRIu64 " clock%s, %" PRIu64 " step%s, %" PRIu64 " guard%s", k,
             plural(k), clocks, plural(clocks), steps, plural(steps), guards, plural(guards));
}

static void widest_window(char *words)
{
    if (widest_step == total) {
        snprintf(words, WORDS, "no window is closed: every step can be put off without end");
        return;
    }
    int places = decimals();
    int shown = snprintf(words, WORDS, "widest closed window: round %" PRIu64 " step %" PRIu64 ", ", round_of(widest_step),
                         step_of(widest_step));
    if (widest.first == widest.last)
        snprintf(words + shown, WORDS - (size_t)shown, "at %.*f s, one moment", places, widest.first);
    else
        snprintf(words + shown, WORDS - (size_t)shown, "from %.*f to %.*f s, %.*f s wide", places, widest.first, places,
                 widest.last, places, widest.last - widest.first);
}

/* As lines. */

enum { COLUMNS = 61 };

/* The column of a time. */
static int column(double time, double most)
{
    return most > 0.0 ? (int)(time / most * (COLUMNS - 1) + 0.5) : 0;
}

/* A bar to scale, and past the last column the arrow of an open window. */
static void bar(uint64_t i, double most)
{
    char drawn[COLUMNS + 2];
    memset(drawn, ' ', sizeof drawn);
    int first = column(earliest(i), most);
    int last = closed(i) ? column(latest(i), most) : COLUMNS;
    if (first == last) {
        drawn[first] = '|';
    } else {
        memset(drawn + first, '=', (size_t)(last - first));
        drawn[first] = '[';
        drawn[last] = closed(i) ? ']' : '>';
    }
    printf("  %.*s\n", last + 1, drawn);
}

static int show_lines(void)
{
    char words[WORDS];
    int places = decimals();
    double most = span();
    size(words);
    printf("windows of %s\n", words);
    int shown = printf("%5s %4s %12s %12s  0", "round", "step", "earliest", "latest") - 1;
    printf("%*.*f s\n", COLUMNS - 1, places, most);
    printf("%*s|", shown, "");
    for (int i = 1; i < COLUMNS - 1; i++)
        putchar(i % 10 == 0 ? '+' : '-');
    printf("|\n");
    for (uint64_t i = 0; i < total; i++) {
        printf("%5" PRIu64 " %4" PRIu64 " %12.*f", round_of(i), step_of(i), places, earliest(i));
        if (closed(i))
            printf(" %12.*f", places, latest(i));
        else
            printf(" %12s", "open");
        bar(i, most);
    }
    widest_window(words);
    printf("%s\n", words);
    return SHOWN;
}

/* As a picture, in millimetres: pages of A4, lying, one below the other. */

enum { WIDTH = 297, HEIGHT = 210, ROWS = 32 };

static const double LEFT = 104.0, RIGHT = 277.0, TOP = 42.0, BOTTOM = 190.0;

/* Where the numbers of a row end. */
static const double COLUMN[] = { 33.0, 46.0, 71.0, 97.0 };

/* A file's name in printable characters that mean nothing in the picture's language. */
static void put_name(void)
{
    for (const char *c = strcmp(name, "-") == 0 ? "standard input" : name; *c != '\0'; c++)
        switch (*c) {
        case '&':
            printf("&amp;");
            break;
        case '<':
            printf("&lt;");
            break;
        case '>':
            printf("&gt;");
            break;
        default:
            putchar(*c >= ' ' && *c <= '~' ? *c : '?');
        }
}

static void begin_picture(uint64_t pages)
{
    printf("<svg xmlns=\"http://www.w3.org/2000/svg\" width=\"%dmm\" height=\"%" PRIu64 "mm\" viewBox=\"0 0 %d %" PRIu64 "\" "
           "font-family=\"Helvetica, Arial, sans-serif\" font-size=\"3.4\" fill=\"#1c2733\">\n",
           WIDTH, pages * HEIGHT, WIDTH, pages * HEIGHT);
    printf("<title>When each step may happen</title>\n");
    printf("<rect width=\"%d\" height=\"%" PRIu64 "\" fill=\"#ffffff\"/>\n", WIDTH, pages * HEIGHT);
}

static void put_text(double x, double y, const char *more, const char *words)
{
    printf("<text x=\"%.2f\" y=\"%.2f\"%s>%s</text>\n", x, y, more, words);
}

static void put_title(uint64_t page, uint64_t pages)
{
    char words[WORDS];
    put_text(20.0, 20.0, " font-size=\"7.5\" font-weight=\"bold\"", "When each step may happen");
    if (pages > 1) {
        snprintf(words, WORDS, "page %" PRIu64 " of %" PRIu64, page, pages);
        put_text(RIGHT + 9.0, BOTTOM + 9.0, " text-anchor=\"end\" fill=\"#5b6875\"", words);
    }
    size(words);
    printf("<text x=\"20\" y=\"27\" font-size=\"3.8\" fill=\"#5b6875\">");
    put_name();
    printf(": %s</text>\n", words);
}

/* The time axis of a page: its first and last second, its ticks apart from each other, and their decimals. */
struct axis {
    double first, last, apart;
    int places;
};

static double across(const struct axis *axis, double time)
{
    double wide = axis->last - axis->first;
    return LEFT + (wide > 0.0 ? (time - axis->first) / wide : 0.0) * (RIGHT - LEFT);
}

/* Ticks are 1, 2 or 5 times a power of ten apart, the least of these that is not under a tenth of the axis. */
static struct axis axis_of(double first, double last)
{
    static const double by[] = { 1.0, 2.0, 5.0 };
    struct axis axis = { first, last, 1.0, 0 };
    if (last <= first)
        return axis;
    double power = 1e-6;
    int places = 6;
    for (int i = 0;; i = (i + 1) % 3) {
        axis.apart = by[i] * power;
        axis.places = places > 0 ? places : 0;
        if (axis.apart * 10.0 >= last - first)
            return axis;
        if (i == 2) {
            places--;
            power *= 10.0;
        }
    }
}

/* The axis of the steps from one to another: on a single page from log-in on, else from a little before the first of them. */
static struct axis axis_for(uint64_t from, uint64_t end, bool single)
{
    double first = earliest(from), last = 0.0;
    for (uint64_t i = 2 * from; i < 2 * end; i++)
        if (times[i] > last)
            last = times[i];
    struct axis axis = axis_of(single ? 0.0 : first, last);
    if (!single)
        axis.first = (double)(uint64_t)(first / axis.apart) * axis.apart;
    return axis;
}

/* A line down the page for each tick, and above them their seconds and the heads of the columns. */
static void put_axis(const struct axis *axis, double foot)
{
    char words[WORDS];
    double i = (double)(uint64_t)(axis->first / axis->apart + 0.5);
    for (; i * axis->apart <= axis->last + axis->apart * 1e-6; i += 1.0) {
        double x = across(axis, i * axis->apart);
        printf("<path d=\"M%.2f %.2fV%.2f\" stroke=\"#c5ced8\" stroke-width=\"0.2\"/>\n", x, TOP - 1.5, foot);
        snprintf(words, WORDS, "%.*f", axis->places, i * axis->apart);
        put_text(x, TOP - 3.0, " font-size=\"3\" text-anchor=\"middle\" fill=\"#5b6875\"", words);
    }
    put_text(RIGHT + 9.0, TOP - 3.0, " font-size=\"3\" text-anchor=\"end\" fill=\"#5b6875\"", "s");
    static const char *const heads[] = { "round", "step", "earliest", "latest" };
    for (int j = 0; j < 4; j++)
        put_text(COLUMN[j], TOP - 3.0, " text-anchor=\"end\" font-weight=\"bold\"", heads[j]);
    printf("<path d=\"M20 %.2fH%.2f\" stroke=\"#1c2733\" stroke-width=\"0.35\"/>\n", TOP - 1.5, RIGHT + 9.0);
}

/* A closed window, one moment, and an open window. */

static void put_bar(double first, double last, double y, double high, const char *colour)
{
    double wide = last - first > 0.6 ? last - first : 0.6;
    printf("<rect x=\"%.2f\" y=\"%.2f\" width=\"%.2f\" height=\"%.2f\" rx=\"0.3\" fill=\"%s\"/>\n", first, y, wide, high,
           colour);
}

static void put_moment(double x, double y, double high, const char *colour)
{
    double half = high / 2.0;
    printf("<path d=\"M%.2f %.2fl1.4 %.2fl-1.4 %.2fl-1.4 -%.2fz\" fill=\"%s\"/>\n", x, y, half, half, half, colour);
}

static void put_arrow(double first, double last, double y, double high, const char *colour)
{
    printf("<path d=\"M%.2f %.2fH%.2fv-0.6L%.2f %.2fL%.2f %.2fv-0.6H%.2fz\" fill=\"%s\"/>\n", first, y, last, last + 5.0,
           y + high / 2.0, last, y + high + 0.6, first, colour);
}

static const char *const CLOSED_BLUE = "#2b6cb0", *const OPEN_GREEN = "#7fb79a", *const WIDEST_ORANGE = "#d9822b";

/* What the colours mean. */
static void put_key(bool has_widest)
{
    static const double y = 17.4, base = 20.0, high = 2.8;
    put_bar(182.0, 190.0, y, high, CLOSED_BLUE);
    put_text(192.0, base, "", "closed");
    put_moment(209.0, y, high, CLOSED_BLUE);
    put_text(212.0, base, "", "one moment");
    put_arrow(237.0, 241.0, y, high, OPEN_GREEN);
    put_text(248.0, base, "", "open");
    if (has_widest) {
        put_bar(263.0, 271.0, y, high, WIDEST_ORANGE);
        put_text(273.0, base, "", "widest");
    }
}

static void put_row(uint64_t i, bool is_widest, double y, double high, const struct axis *axis)
{
    char words[WORDS], more[WORDS];
    int places = decimals();
    double font = 2.6 + 0.16 * high, base = y + high / 2.0 + 0.36 * font;
    snprintf(more, WORDS, " font-size=\"%.2f\" text-anchor=\"end\"", font);
    snprintf(words, WORDS, "%" PRIu64, round_of(i));
    put_text(COLUMN[0], base, more, words);
    snprintf(words, WORDS, "%" PRIu64, step_of(i));
    put_text(COLUMN[1], base, more, words);
    snprintf(words, WORDS, "%.*f", places, earliest(i));
    put_text(COLUMN[2], base, more, words);
    snprintf(words, WORDS, "%.*f", places, latest(i));
    put_text(COLUMN[3], base, more, closed(i) ? words : "open");
    double first = across(axis, earliest(i)), last = across(axis, latest(i));
    const char *colour = is_widest ? WIDEST_ORANGE : CLOSED_BLUE;
    y += 0.2 * high;
    high *= 0.6;
    if (!closed(i))
        put_arrow(first, RIGHT + 1.0, y, high, OPEN_GREEN);
    else if (earliest(i) == latest(i))
        put_moment(first, y, high, colour);
    else
        put_bar(first, last, y, high, colour);
}

/* The rounds of a page apart: every other one on a ground of its own. */
static void put_ground(uint64_t first, uint64_t end, double high)
{
    for (uint64_t i = first; i < end; i++) {
        uint64_t next = i / steps * steps + steps, past = next < end ? next : end;
        if (round_of(i) % 2 == 0)
            printf("<rect x=\"20\" y=\"%.2f\" width=\"%.2f\" height=\"%.2f\" fill=\"#eff3f7\"/>\n",
                   TOP + (double)(i - first) * high, RIGHT + 9.0 - 20.0, (double)(past - i) * high);
        i = past - 1;
    }
}

static int show_picture(void)
{
    uint64_t pages = (total + ROWS - 1) / ROWS;
    uint64_t rows = pages > 1 ? ROWS : total;
    double high = (BOTTOM - TOP) / (double)(rows > 10 ? rows : 10);
    char words[WORDS];
    widest_window(words);
    begin_picture(pages);
    for (uint64_t page = 0; page < pages; page++) {
        uint64_t first = page * ROWS, end = first + ROWS < total ? first + ROWS : total;
        printf("<g transform=\"translate(0 %" PRIu64 ")\">\n", page * HEIGHT);
        put_title(page + 1, pages);
        put_key(widest_step < total);
        put_ground(first, end, high);
        struct axis axis = axis_for(first, end, pages == 1);
        put_axis(&axis, TOP + (double)(end - first) * high);
        for (uint64_t i = first; i < end; i++)
            put_row(i, i == widest_step, TOP + (double)(i - first) * high, high, &axis);
        put_text(20.0, BOTTOM + 9.0, " font-size=\"3.8\"", words);
        printf("</g>\n");
    }
    printf("</svg>\n");
    return SHOWN;
}

/* What there is to say where there are no windows: a line, or a page. */
static void show_words(bool picture, const char *words)
{
    if (!picture) {
        printf("%s\n", words);
        return;
    }
    begin_picture(1);
    put_text(20.0, 20.0, " font-size=\"7.5\" font-weight=\"bold\"", "When each step may happen");
    printf("<text x=\"20\" y=\"27\" font-size=\"3.8\" fill=\"#5b6875\">");
    put_name();
    printf("</text>\n");
    put_text(20.0, 60.0, " font-size=\"6\" fill=\"#b03a2e\"", words);
    printf("</svg>\n");
}

static int show_panel(bool picture, bool asked)
{
    char words[WORDS];
    uint64_t answer[PANEL_ANSWER];
    judge_read(table, table_len, ROOM(answer));
    if (answer[0] == 0) {
        clocks = answer[1];
        steps = answer[2];
        guards = answer[3];
        if (!asked) {
            judge_rounds(table, table_len, ROOM(answer));
            k = answer[1] == 1 || answer[2] > 1 ? 2 : 1;
        }
        panel_windows(table, table_len, k, ROOM(marks), ROOM(times), ROOM(answer));
    }
    if (answer[0] != 0) {
        refusal(words, answer);
        show_words(picture, words);
        return REFUSED;
    }
    total = answer[1];
    if (marks[0] == PANEL_ABSENT) {
        no_run(words);
        show_words(picture, words);
        return NO_RUN;
    }
    if (!find_widest()) {
        fprintf(stderr, "panel: the widest window is of no step\n");
        return TROUBLE;
    }
    return picture ? show_picture() : show_lines();
}

int main(int argc, char **argv)
{
    if (argc == 2 && strcmp(argv[1], "--help") == 0)
        return fputs(usage, stdout) < 0 || fflush(stdout) != 0 ? TROUBLE : 0;
    bool picture = argc > 1 && strcmp(argv[1], "--svg") == 0;
    if (picture) {
        argc--;
        argv++;
    }
    if (argc > 3 || (argc == 3 && !number(argv[2], &k))) {
        fputs(usage, stderr);
        return TROUBLE;
    }
    name = argc > 1 ? argv[1] : "-";
    if (!load(name)) {
        fprintf(stderr, "panel: cannot read %s\n", name);
        return TROUBLE;
    }
    int status = show_panel(picture, argc == 3);
    if (fflush(stdout) != 0)
        return TROUBLE;
    return status;
}
