/* Each refusal that the header names is given for its reason, by all calls that know it; a name without a row is no refusal, but is told;
   and what is empty may have a null pointer. */
#include <stdio.h>
#include <string.h>

#include "roadthrum.h"

static uint8_t day[4096];
static size_t day_len;
static int failed;

static void expect(const char *what, uint32_t expected, uint32_t given)
{
    if (expected != given) {
        printf("%s: expected %u, given %u\n", what, (unsigned)expected, (unsigned)given);
        failed = 1;
    }
}

/* One of the two calls for rows. */
typedef void rows_call(const uint8_t *, size_t, const uint8_t *, size_t, uint32_t, uint32_t *, size_t, uint32_t *);

/* A call with no room for rows. The sixth number is behind its result. */
static void expect_result(const char *what, rows_call *call, uint32_t refusal, uint32_t unknown, const uint8_t *index, size_t index_len,
                          const void *question, size_t question_len)
{
    uint32_t result[6] = {9, 9, 9, 9, 9, 9};
    call(index, index_len, question, question_len, 0, NULL, 0, result);
    expect(what, refusal, result[ROADTHRUM_REFUSAL]);
    expect(what, 0, result[ROADTHRUM_ROWS]);
    expect(what, unknown, result[ROADTHRUM_UNKNOWN]);
    expect(what, 9, result[5]);
}

/* All calls on an index and a question. */
static void expect_calls(const char *what, uint32_t refusal, uint32_t unknown, const uint8_t *index, size_t index_len, const void *question,
                         size_t question_len)
{
    expect(what, refusal <= ROADTHRUM_WRONG_NESTING ? refusal : 0, roadthrum_check(index, index_len));
    expect_result(what, roadthrum_answer, refusal, unknown, index, index_len, question, question_len);
    expect_result(what, roadthrum_evidence, refusal, unknown, index, index_len, question, question_len);
}

/* The same where no step is unknown, as on every refusal. */
static void expect_refusal(const char *what, uint32_t refusal, const uint8_t *index, size_t index_len, const void *question,
                           size_t question_len)
{
    expect_calls(what, refusal, ROADTHRUM_NO_STEP, index, index_len, question, question_len);
}

/* The same on the small day with one byte changed, and a question that is accepted. */
static void expect_changed(const char *what, uint32_t refusal, size_t place, uint8_t byte)
{
    uint8_t changed[sizeof day];
    memcpy(changed, day, sizeof day);
    changed[place] = byte;
    expect_refusal(what, refusal, changed, day_len, "//call", 6);
}

static void names(void)
{
    static char longest[1025];
    char steps[33 * 3 + 1] = "";
    int step;
    memset(longest, '/', sizeof longest);
    for (step = 0; step < 33; step++)
        strcat(steps, "//a");
    expect_refusal("the small day", 0, day, day_len, "//call", 6);
    expect_refusal("3 bytes", ROADTHRUM_TOO_SHORT, day, 3, "//call", 6);
    expect_changed("version 2", ROADTHRUM_OTHER_VERSION, 2, 2);
    expect_changed("a name that begins with a digit", ROADTHRUM_WRONG_CONTENTS, 4, '1');
    expect_refusal("a byte less", ROADTHRUM_WRONG_LENGTH, day, day_len - 1, "//call", 6);
    expect_changed("a boarding 9:9", ROADTHRUM_WRONG_LISTS, 76, 9);
    expect_changed("a boarding 8:20 in a call 1:20", ROADTHRUM_WRONG_NESTING, 80, 20);
    expect_refusal("1,025 bytes", ROADTHRUM_TOO_LONG, day, day_len, longest, 1025);
    expect_refusal("one slash", ROADTHRUM_NOT_FOLLOWING, day, day_len, "/call", 5);
    expect_refusal("33 steps", ROADTHRUM_TOO_LARGE, day, day_len, steps, 99);
    expect_calls("32 steps", 0, 0, day, day_len, steps, 96);
}

/* A question that is accepted, on the small day. */
static void expect_unknown(uint32_t step, const char *question)
{
    expect_calls(question, 0, step, day, day_len, question, strlen(question));
}

static void unknown_names(void)
{
    /* One row, `call`, with 0 labels. */
    static const uint8_t empty_row[28] = {1, 0, 1, 0, 'c', 'a', 'l', 'l', 0, 0, 0, 0, 0, 0, 0, 0, 0, 0, 0, 0, 28};
    expect_unknown(ROADTHRUM_NO_STEP, "//call[//cancel]");
    expect_unknown(ROADTHRUM_NO_STEP, "//cancel//board");
    expect_unknown(0, "//cancle");
    expect_unknown(1, "//call[//cancle]");
    expect_unknown(1, "//call[//cancle]//bord");
    expect_unknown(2, "//call[//call[//cancle]]//board");
    expect_unknown(2, "//call[//cancel]//Board");
    expect_calls("a row with 0 labels", 0, ROADTHRUM_NO_STEP, empty_row, sizeof empty_row, "//call", 6);
    expect_calls("no row behind one with 0 labels", 0, 1, empty_row, sizeof empty_row, "//call//call.", 13);
    expect_refusal("an unknown name and an open bracket", ROADTHRUM_NOT_FOLLOWING, day, day_len, "//cancle[", 9);
}

static void null_pointers(void)
{
    uint32_t result[5];
    expect_refusal("no index", ROADTHRUM_TOO_SHORT, NULL, 0, "//call", 6);
    expect_refusal("no index and no question", ROADTHRUM_TOO_SHORT, NULL, 0, NULL, 0);
    expect_refusal("no question", ROADTHRUM_NOT_FOLLOWING, day, day_len, NULL, 0);
    roadthrum_answer(day, day_len, (const uint8_t *)"//call", 6, 2, NULL, 0, result);
    expect("no room for rows: rows", 0, result[ROADTHRUM_ROWS]);
    expect("no room for rows: more", 1, result[ROADTHRUM_MORE]);
    expect("no room for rows: next place", 2, result[ROADTHRUM_NEXT]);
    expect("no room for rows: unknown step", ROADTHRUM_NO_STEP, result[ROADTHRUM_UNKNOWN]);
}

int main(int argc, char **argv)
{
    FILE *file = argc == 2 ? fopen(argv[1], "rb") : NULL;
    if (!file)
        return 2;
    day_len = fread(day, 1, sizeof day, file);
    fclose(file);
    names();
    unknown_names();
    null_pointers();
    return failed;
}
