/*
 * A host in C: calls the entry on texts of document 01, and on two of change 6 of
 * document 02, and compares each answer with a literal.
 */
#include <inttypes.h>
#include <stdio.h>

#include "edzl.h"

struct check {
    const char *name;
    const uint8_t *text;
    size_t len;
    uint32_t cores;
    uint32_t expected;
};

/* A string without its closing byte 0: the entry gets a length. */
#define TEXT(string) (const uint8_t *)(string), sizeof(string) - 1

#define NAMES "PERIOD BUDGET DEADLINE\n"
#define EXAMPLE NAMES "4 1 4\n6 2 5\n10 6 8\n"
#define CASE_G NAMES "10 9 10\n10 6 10\n5 2 5\n"
#define CASE_H NAMES "5 5 5\n"
#define CASE_I NAMES "5 5 5\n5 5 5\n"
/* Document 002's four tasks, which the window test refuses on 2 cores. */
#define FOUR_TASKS NAMES "2 1 2\n2 1 2\n7 1 7\n8 3 8\n"
/* Two reach at the cut after 64 rounds, and would not a round later. */
#define CUT NAMES "188 1 1\n157 31 94\n188 30 32\n188 32 188\n"
#define LINES_8 "4 1 4\n4 1 4\n4 1 4\n4 1 4\n4 1 4\n4 1 4\n4 1 4\n4 1 4\n"
#define LINES_32 NAMES LINES_8 LINES_8 LINES_8 LINES_8

static const uint8_t bytes_4097[4097];

static const struct check checks[] = {
    {"the example on 1 core", TEXT(EXAMPLE), 1, 0},
    {"the example on 2 cores", TEXT(EXAMPLE), 2, 1},
    {"the example on 3 cores", TEXT(EXAMPLE), 3, 1},
    {"the example on 0 cores", TEXT(EXAMPLE), 0, 107},
    {"the example on 16 cores", TEXT(EXAMPLE), 16, 1},
    {"the example on 17 cores", TEXT(EXAMPLE), 17, 107},
    {"the example on 4294967295 cores", TEXT(EXAMPLE), UINT32_MAX, 107},
    {"case g on 2 cores", TEXT(CASE_G), 2, 0},
    {"case h on 1 core", TEXT(CASE_H), 1, 1},
    {"case i on 1 core", TEXT(CASE_I), 1, 0},
    {"document 002's four tasks on 1 core", TEXT(FOUR_TASKS), 1, 0},
    {"document 002's four tasks on 2 cores", TEXT(FOUR_TASKS), 2, 1},
    {"a table cut after 64 rounds on 1 core", TEXT(CUT), 1, 0},
    {"a table cut after 64 rounds on 2 cores", TEXT(CUT), 2, 1},
    {"an empty text", TEXT(""), 1, 102},
    {"an empty text on 0 cores", TEXT(""), 0, 102},
    {"4097 bytes", bytes_4097, 4097, 1, 101},
    {"4096 bytes", bytes_4097, 4096, 1, 102},
    {"32 value lines", TEXT(LINES_32), 1, 0},
    {"one byte after 32 value lines", TEXT(LINES_32 "\n"), 1, 103},
    {"a last line not ended", TEXT(NAMES "5 5 5"), 1, 104},
    {"a leading zero", TEXT(NAMES "5 05 5\n"), 1, 104},
    {"a budget above the deadline", TEXT(NAMES "5 5 4\n"), 1, 105},
    {"a names line alone", TEXT(NAMES), 1, 106},
    {"the names in another order", TEXT("BUDGET DEADLINE PERIOD\n2 5 9\n"), 1, 1},
    {"the first 23 bytes of case h", (const uint8_t *)CASE_H, 23, 1, 106},
    {"the first 28 bytes of case h", (const uint8_t *)CASE_H, 28, 1, 104},
};

/* 1 for the expected answer; a mismatch is printed and gives 0. */
static int passes(const struct check *check)
{
    uint32_t answer = edzl_admit(check->text, check->len, check->cores);
    if (answer == check->expected)
        return 1;
    printf("host: %s: expected %" PRIu32 ", got %" PRIu32 "\n", check->name, check->expected,
           answer);
    return 0;
}

int main(void)
{
    size_t count = sizeof checks / sizeof checks[0];
    size_t passed = 0;
    for (size_t i = 0; i < count; i++)
        passed += (size_t)passes(&checks[i]);
    printf("host: %zu passed, %zu failed\n", passed, count - passed);
    return passed == count ? 0 : 1;
}
