/* Converts a card to a table, or a table to a card; `usage` says how it is asked. */
#include "program.h"
#include "card.h"

#include <inttypes.h>

enum { CONVERTED = 0, REFUSED = 2, TROUBLE = 3 };

static const char usage[] =
    "usage: card [--to-table] [FILE]\n"
    "       card --from-table [FILE]\n"
    "       card --help\n"
    "\n"
    "A card, the text of a timing table, is read from FILE, or from standard input without one or with \"-\", and its table is\n"
    "written to standard output. With --from-table a table is read, and its card is written. Each returns as it was.\n"
    "\n"
    "A card has a line \"timers N\"; for each step any number of lines \"N < C\", \"N <= C\", \"N = C\", \"N >= C\", \"N > C\" and\n"
    "\"zero N\", in any order, and then \"step\"; and last a line \"end\". There are single blanks, decimal numbers with no leading\n"
    "zeros, and a line feed after each line, the last too. N is a timer, and C a number of ticks.\n"
    "\n"
    "Where a card is refused, the first line that is wrong, what is wrong with it and what is expected are told on standard error,\n"
    "and nothing is written.\n"
    "\n"
    "Exit status: 0 it is converted; 2 it is refused; 3 the program could not read or write.\n";

/* One byte more than a card may have, so that a longer one is seen to be longer. */
static uint8_t text[CARD_TEXT + 1];
static size_t text_len;

/* The most bytes of a line that are shown. */
enum { SHOWN = 60 };

/* What is wrong with a line, and what is expected there. */
struct told {
    const char *wrong, *expected;
};

/* Where the line that starts at a place ends: at its line feed, or at the end of the text. */
static size_t line_end(size_t start)
{
    const uint8_t *feed = memchr(text + start, '\n', text_len - start);
    return feed == NULL ? text_len : (size_t)(feed - text);
}

static bool line_is(size_t start, const char *line)
{
    size_t len = line_end(start) - start;
    return len == strlen(line) && memcmp(text + start, line, len) == 0;
}

/* Whether a step is finished before the line at a place. */
static bool step_before(size_t place)
{
    for (size_t at = 0; at < place; at = line_end(at) + 1)
        if (line_is(at, "step"))
            return true;
    return false;
}

static struct told not_a_line(size_t place)
{
    if (text_len > CARD_TEXT)
        return (struct told){ "the text is too long", "at most 16,384 bytes" };
    if (line_end(place) == text_len)
        return (struct told){ "the last line has no line feed", "a line feed after each line, also after \"end\"" };
    if (place == 0)
        return (struct told){ "not a line of a card", "\"timers N\", with a single blank, no leading zero and a line feed" };
    return (struct told){ "not a line of a card",
                          "\"N < C\", \"N <= C\", \"N = C\", \"N >= C\", \"N > C\", \"zero N\", \"step\" or \"end\", with single "
                          "blanks, no leading zeros and a line feed" };
}

static struct told wrong_head(size_t place)
{
    if (place != 0)
        return (struct told){ "the number of timers is told already", "\"timers N\" in the first line only" };
    if (memcmp(text, "timers ", 7) == 0)
        return (struct told){ "so many timers there cannot be", "1 to 6 timers" };
    return (struct told){ "the number of timers must come first", "\"timers N\" in the first line, with 1 to 6 timers" };
}

/* The timers that there are: the first line is accepted. */
static struct told no_timer(void)
{
    static const char *const timers[] = { "", "timer 1", "timer 1 or 2", "timer 1 to 3", "timer 1 to 4", "timer 1 to 5",
                                          "timer 1 to 6" };
    return (struct told){ "there is no such timer", timers[text[7] - '0'] };
}

static struct told wrong_step(size_t place)
{
    if (line_is(place, "step"))
        return (struct told){ "this is the 17th step", "at most 16 steps" };
    if (step_before(place))
        return (struct told){ "the last step is not finished", "\"step\" after its bounds and zeros, and then \"end\"" };
    return (struct told){ "no step is finished", "at least one \"step\" before \"end\"" };
}

static struct told tell(uint64_t number, size_t place)
{
    switch (number) {
    case 2: return (struct told){ "the text stops before \"end\"", "more lines, and \"end\" as the last of them" };
    case 4: return wrong_head(place);
    case 5: return (struct told){ "this is the 65th bound", "at most 64 bounds in all steps together" };
    case 6: return no_timer();
    case 8: return (struct told){ "the number of ticks is too large", "0 to 4,000 ticks" };
    case 9: return wrong_step(place);
    case 10: return (struct told){ "something follows \"end\"", "nothing after its line feed" };
    case 16: return (struct told){ "the timer is zeroed already in this step", "\"zero N\" once for a timer in each step" };
    case 20: return not_a_line(place);
    case 21: return (struct told){ "the room for the table is too short", "531 places" };
    default: return (struct told){ reason(number), "a card" };
    }
}

/* A byte of a line, made visible. */
static void show_byte(uint8_t c)
{
    if (c == '\t')
        fprintf(stderr, "\\t");
    else if (c == '\r')
        fprintf(stderr, "\\r");
    else if (c == '"' || c == '\\')
        fprintf(stderr, "\\%c", c);
    else if (c < ' ' || c > '~')
        fprintf(stderr, "\\x%02x", c);
    else
        fprintf(stderr, "%c", c);
}

/* The line that starts at a place, with its number from 1. */
static void show_line(size_t start)
{
    size_t number = 1, len = line_end(start) - start;
    for (size_t i = 0; i < start; i++)
        number += text[i] == '\n';
    fprintf(stderr, "line %zu: ", number);
    if (start == text_len) {
        fprintf(stderr, "the end of the text\n");
        return;
    }
    fprintf(stderr, "\"");
    for (size_t i = 0; i < len && i < SHOWN; i++)
        show_byte(text[start + i]);
    fprintf(stderr, "\"");
    if (len > SHOWN)
        fprintf(stderr, " and %zu bytes more", len - SHOWN);
    fprintf(stderr, "\n");
}

static int show_card_refusal(const uint64_t *answer)
{
    size_t place = (size_t)answer[1];
    struct told told = tell(answer[0], place);
    if (text_len <= CARD_TEXT && answer[0] != 21)
        show_line(place);
    fprintf(stderr, "refused %" PRIu64 " at %" PRIu64 ": %s. Expected: %s\n", answer[0], answer[1], told.wrong, told.expected);
    return REFUSED;
}

static int show_table_refusal(const uint64_t *answer)
{
    fprintf(stderr, "refused: %s (%" PRIu64 " at %" PRIu64 ")\n", reason(answer[0]), answer[0], answer[1]);
    return REFUSED;
}

static int put(const uint8_t *bytes, uint64_t len)
{
    if (fwrite(bytes, 1, (size_t)len, stdout) == len && fflush(stdout) == 0)
        return CONVERTED;
    fprintf(stderr, "card: cannot write\n");
    return TROUBLE;
}

static int to_table(void)
{
    static uint8_t out[CARD_TABLE];
    uint64_t answer[CARD_ANSWER];
    card_to_table(text, text_len, ROOM(out), ROOM(answer));
    return answer[0] != 0 ? show_card_refusal(answer) : put(out, answer[1]);
}

static int from_table(void)
{
    static uint8_t out[CARD_CARD];
    uint64_t answer[CARD_ANSWER];
    card_from_table(table, table_len, ROOM(out), ROOM(answer));
    return answer[0] != 0 ? show_table_refusal(answer) : put(out, answer[1]);
}

int main(int argc, char **argv)
{
    if (argc == 2 && strcmp(argv[1], "--help") == 0)
        return fputs(usage, stdout) < 0 || fflush(stdout) != 0 ? TROUBLE : 0;
    bool back = argc > 1 && strcmp(argv[1], "--from-table") == 0;
    if (back || (argc > 1 && strcmp(argv[1], "--to-table") == 0)) {
        argc--;
        argv++;
    }
    const char *name = argc > 1 ? argv[1] : "-";
    if (argc > 2 || (name[0] == '-' && name[1] != '\0')) {
        fputs(usage, stderr);
        return TROUBLE;
    }
    if (back ? !load(name) : !load_into(name, ROOM(text), &text_len)) {
        fprintf(stderr, "card: cannot read %s\n", name);
        return TROUBLE;
    }
    return back ? from_table() : to_table();
}
