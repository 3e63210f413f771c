/* Runs the lines that the README shows to callers from C, on the small day and on a day of several pages, and prints what they give. */
#include <stdio.h>
#include <string.h>

#include "roadthrum.h"

static size_t shown;
static int quiet;
static uint32_t unknown;

static void show(const uint32_t *row, size_t steps)
{
    size_t step;
    shown++;
    for (step = 0; step < steps && !quiet; step++)
        printf(step + 1 < steps ? "%u " : "%u\n", (unsigned)row[step]);
}

static void note_unknown(uint32_t step)
{
    unknown = step;
}

/* Shows all rows, and notes an unknown step. Gives the refusal, or 0. */
static uint32_t walk(const uint8_t *index, size_t index_len, const uint8_t *question, size_t question_len)
{
#include "readme_lines.c"
    return 0;
}

static void ask(const uint8_t *index, size_t index_len, const char *question)
{
    uint32_t refusal;
    printf("%s\n", question);
    shown = 0;
    unknown = ROADTHRUM_NO_STEP;
    refusal = walk(index, index_len, (const uint8_t *)question, strlen(question));
    printf("rows %u, refusal %u, unknown %u\n", (unsigned)shown, (unsigned)refusal, (unsigned)unknown);
}

/* A day of one list of 700 calls, one after the other. */
static uint8_t calls[28 + 8 * 700];

static void write_calls(void)
{
    uint32_t number;
    calls[0] = 1;
    calls[2] = 1;
    memcpy(calls + 4, "call", 4);
    calls[20] = 28;
    calls[24] = 700 & 255;
    calls[25] = 700 >> 8;
    for (number = 0; number < 1400; number++) {
        calls[28 + 4 * number] = (uint8_t)(number & 255);
        calls[29 + 4 * number] = (uint8_t)(number >> 8);
    }
}

int main(int argc, char **argv)
{
    static uint8_t small_day[4096];
    size_t small_day_len;
    FILE *file = argc == 2 ? fopen(argv[1], "rb") : NULL;
    if (!file)
        return 2;
    small_day_len = fread(small_day, 1, sizeof small_day, file);
    fclose(file);
    ask(small_day, small_day_len, "//call[//board]");
    ask(small_day, small_day_len, "//call[//call[//cancel]]//board");
    ask(small_day, small_day_len, "//lobby");
    ask(small_day, small_day_len, "//call[//cancle]");
    ask(small_day, small_day_len, "//cancel//board");
    ask(small_day, small_day_len, "//call[//board");
    ask(small_day, 3, "//call");
    write_calls();
    quiet = 1;
    ask(calls, sizeof calls, "//call");
    return 0;
}
