/* The waits call from C: the small day with times worked out by hand, each refusal that the call knows, and null pointers for what is empty. A
   refusal leaves all figures 0, and nothing is written behind them. */
#include <stdio.h>
#include <string.h>

#include "roadthrum.h"

/* The rows of the small day's table of contents. */
#define BOARD_ROW 4
#define CANCEL_ROW (4 + 2 * 24)

static uint8_t day[4096];
static size_t day_len;
static int failed;

/* The times of the small day's numbers, 0 to 28, and two more. The calls start at 10, 45, 65, 130 and 190, the cancellations at 40 and 60, and the
   boardings at 74 and 137. */
static const uint32_t times[31] = {5,  10, 40, 40, 45, 60, 60, 65, 74,  77,  77,  77,  77,  77,  77, 77,
                                   77, 77, 77, 77, 77, 130, 137, 140, 140, 140, 140, 190, 230, 230, 231};

static void expect(const char *what, const char *figure, uint64_t expected, uint64_t given)
{
    if (expected != given) {
        printf("waits: %s: %s: expected %llu, given %llu\n", what, figure, (unsigned long long)expected, (unsigned long long)given);
        failed = 1;
    }
}

/* What a waiting table has to be. */
struct table {
    uint64_t refusal, calls, boarded, cancelled, open, total, longest, over;
};

/* The call on an index and times. The ninth number is behind its figures. */
static void expect_table(const char *what, struct table told, const uint8_t *index, size_t index_len, const uint32_t *of, size_t of_len)
{
    uint64_t figures[9] = {9, 9, 9, 9, 9, 9, 9, 9, 99};
    roadthrum_waits(index, index_len, of, of_len, figures);
    expect(what, "refusal", told.refusal, figures[ROADTHRUM_REFUSAL]);
    expect(what, "calls", told.calls, figures[ROADTHRUM_CALLS]);
    expect(what, "boarded", told.boarded, figures[ROADTHRUM_BOARDED]);
    expect(what, "cancelled", told.cancelled, figures[ROADTHRUM_CANCELLED]);
    expect(what, "open", told.open, figures[ROADTHRUM_OPEN]);
    expect(what, "total", told.total, figures[ROADTHRUM_TOTAL]);
    expect(what, "longest", told.longest, figures[ROADTHRUM_LONGEST]);
    expect(what, "over", told.over, figures[ROADTHRUM_OVER]);
    expect(what, "the ninth number", 99, figures[8]);
}

/* A refusal, on which all figures are 0. */
static void expect_refusal(const char *what, uint64_t refusal, const uint8_t *index, size_t index_len, const uint32_t *of, size_t of_len)
{
    struct table none = {0, 0, 0, 0, 0, 0, 0, 0};
    none.refusal = refusal;
    expect_table(what, none, index, index_len, of, of_len);
}

/* The small day with one byte changed. */
static const uint8_t *changed(size_t place, uint8_t byte)
{
    static uint8_t other[sizeof day];
    memcpy(other, day, sizeof day);
    other[place] = byte;
    return other;
}

static void tables(void)
{
    /* 40 - 10 and 60 - 45 until somebody gave up, 74 - 65 and 137 - 130 until somebody boarded: 30 + 15 + 9 + 7 = 61. */
    struct table small_day = {0, 5, 2, 2, 1, 61, 30, 4};
    /* Without cancellations 8:9 is the first inside three calls: 74 - 10, 74 - 45 and 74 - 65, and 7 as before: 64 + 29 + 9 + 7 = 109. */
    struct table no_cancellations = {0, 5, 4, 0, 1, 109, 64, 4};
    /* Without boardings: 30 + 15. */
    struct table no_boardings = {0, 5, 0, 2, 3, 45, 30, 2};
    expect_table("the small day, 29 times", small_day, day, day_len, times, 29);
    expect_table("the small day, 31 times", small_day, day, day_len, times, 31);
    expect_table("no row of cancellations", no_cancellations, changed(CANCEL_ROW + 5, 'm'), day_len, times, 29);
    expect_table("no row of boardings", no_boardings, changed(BOARD_ROW + 4, 'c'), day_len, times, 29);
}

/* A total of more than 32 bits: two calls around a boarding, from 0 to the greatest time. */
static void large_total(void)
{
    static const uint8_t index[76] = {2, 0, 1, 0, 'b', 'o', 'a', 'r', 'd', 0, 0, 0, 0, 0, 0, 0, 0, 0, 0, 0, 52, 0, 0, 0, 1, 0, 0, 0,
                                      'c', 'a', 'l', 'l', 0, 0, 0, 0, 0, 0, 0, 0, 0, 0, 0, 0, 60, 0, 0, 0, 2, 0, 0, 0,
                                      2, 0, 0, 0, 3, 0, 0, 0, 0, 0, 0, 0, 5, 0, 0, 0, 1, 0, 0, 0, 4, 0, 0, 0};
    static const uint32_t leap[6] = {0, 0, 4294967295u, 4294967295u, 4294967295u, 4294967295u};
    struct table told = {0, 2, 2, 0, 0, 8589934590u, 4294967295u, 2};
    expect_table("a total of over 32 bits", told, index, sizeof index, leap, 6);
}

static void refusals(void)
{
    uint32_t other[31];
    expect_refusal("3 bytes", ROADTHRUM_TOO_SHORT, day, 3, times, 29);
    expect_refusal("version 2", ROADTHRUM_OTHER_VERSION, changed(2, 2), day_len, times, 29);
    expect_refusal("a name that begins with a digit", ROADTHRUM_WRONG_CONTENTS, changed(4, '1'), day_len, times, 29);
    expect_refusal("a byte less", ROADTHRUM_WRONG_LENGTH, day, day_len - 1, times, 29);
    expect_refusal("a boarding 9:9", ROADTHRUM_WRONG_LISTS, changed(76, 9), day_len, times, 29);
    expect_refusal("a boarding 8:20 in a call 1:20", ROADTHRUM_WRONG_NESTING, changed(80, 20), day_len, times, 29);
    expect_refusal("28 times", ROADTHRUM_NO_ENTRY, day, day_len, times, 28);
    memcpy(other, times, sizeof other);
    other[16] = 76;
    expect_refusal("a time in the middle", ROADTHRUM_TIMES_DESCEND, day, day_len, other, 29);
    expect_refusal("28 times, and one in the middle", ROADTHRUM_NO_ENTRY, day, day_len, other, 28);
    expect_refusal("version 2, and a time in the middle", ROADTHRUM_OTHER_VERSION, changed(2, 2), day_len, other, 28);
    memcpy(other, times, sizeof other);
    other[30] = 229;
    expect_refusal("a time past the numbers in use", ROADTHRUM_TIMES_DESCEND, day, day_len, other, 31);
}

static void null_pointers(void)
{
    static const uint8_t no_rows[4] = {0, 0, 1, 0};
    expect_refusal("no index and no times", ROADTHRUM_TOO_SHORT, NULL, 0, NULL, 0);
    expect_refusal("no index", ROADTHRUM_TOO_SHORT, NULL, 0, times, 29);
    expect_refusal("no times", ROADTHRUM_NO_ENTRY, day, day_len, NULL, 0);
    /* Not refused, and all figures are 0. */
    expect_refusal("no rows and no times", 0, no_rows, sizeof no_rows, NULL, 0);
}

int main(int argc, char **argv)
{
    FILE *file = argc == 2 ? fopen(argv[1], "rb") : NULL;
    if (!file)
        return 2;
    day_len = fread(day, 1, sizeof day, file);
    fclose(file);
    tables();
    large_total();
    refusals();
    null_pointers();
    return failed;
}
