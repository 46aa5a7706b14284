/* What the terminal's programs share: the table that they are given, numbers on the command line, and refusals in words. */
#ifndef PROGRAM_H
#define PROGRAM_H

#include "judge.h"

#include <errno.h>
#include <stdio.h>
#include <stdlib.h>
#include <string.h>

/* One byte more than a table may have, so that a longer one is seen to be longer. */
static uint8_t table[JUDGE_TABLE + 1];
static size_t table_len;

#define ROOM(a) (a), sizeof(a) / sizeof *(a)

/* Bytes, as many as there is room for, from a file or with "-" from standard input. */
static bool load_into(const char *name, uint8_t *bytes, size_t room, size_t *len)
{
    bool standard = strcmp(name, "-") == 0;
    FILE *file = standard ? stdin : fopen(name, "rb");
    if (file == NULL)
        return false;
    *len = fread(bytes, 1, room, file);
    bool whole = !ferror(file);
    if (!standard)
        fclose(file);
    return whole;
}

/* The table's bytes. */
static bool load(const char *name)
{
    return load_into(name, table, sizeof table, &table_len);
}

/* A number in decimal digits and nothing else. */
static inline bool number(const char *text, uint64_t *value)
{
    char *end;
    if (*text < '0' || *text > '9')
        return false;
    errno = 0;
    *value = strtoull(text, &end, 10);
    return errno == 0 && *end == '\0';
}

static inline const char *plural(uint64_t n)
{
    return n == 1 ? "" : "s";
}

/* Why something is refused. */
static const char *reason(uint64_t refusal)
{
    static const char *const reasons[] = {
        "", "the table is longer than 4,096 bytes", "the table is cut short", "there is no record of this kind",
        "the head is missing, misplaced or has a wrong number of clocks", "there are more than 64 guards",
        "the table has no such clock", "there is no such relation", "the constant is above 4,000",
        "there is no step, an unfinished one or one too many", "bytes follow the end", "the number of rounds is 0 or too large",
        "the room for moments is too short", "the room for starts is too short", "the room for a loop is too short",
        "the room for demands is too short", "the clock is reset already in the same step",
        "the running record fits no step of the table, or has a reading above 4,001",
        "there are more than 256 scans in the tray", "the room for verdicts is too short", "the text is not a card",
        "the room for the output is too short",
    };
    return refusal < sizeof reasons / sizeof *reasons ? reasons[refusal] : "for an unknown reason";
}

#endif
