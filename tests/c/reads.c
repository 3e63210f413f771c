/*
 * One call on a day made for it, so that its reads can be counted from outside (tests/reads.test).
 *
 * reads CALL N FIRST EVERY BRACKETS: the day has N records `b`, none inside another. Around the one of position FIRST, and around each that
 * is EVERY further on, lies a record `a`. CALL is `check`, or `answer` to the question `//a` with so many times `[//b]`, which returns all
 * `a`: so each cursor goes from `b` to `b` in an `a`. It ends with status 0 exactly if the call gives that.
 */
#include <stdio.h>
#include <stdlib.h>
#include <string.h>

#include "roadthrum.h"

#define HEAD (4 + 2 * 24)

static void put16(uint8_t *to, uint32_t n)
{
    to[0] = (uint8_t)n;
    to[1] = (uint8_t)(n >> 8);
}

static void put32(uint8_t *to, uint32_t n)
{
    put16(to, n);
    put16(to + 2, n >> 16);
}

static void put_row(uint8_t *row, char name, uint32_t offset, uint32_t count)
{
    row[0] = (uint8_t)name;
    put32(row + 16, offset);
    put32(row + 20, count);
}

/* The index of the day: the records `a`, of which there are `around`, and then the n records `b`. */
static void write_day(uint8_t *index, uint32_t n, uint32_t around, uint32_t first, uint32_t every)
{
    uint8_t *a = index + HEAD;
    uint8_t *b = a + 8 * around;
    uint32_t now = 0;
    uint32_t i;
    put16(index, 2);
    put16(index + 2, 1);
    put_row(index + 4, 'a', HEAD, around);
    put_row(index + 4 + 24, 'b', HEAD + 8 * around, n);
    for (i = 0; i < n; i++, b += 8) {
        int inside = i >= first && (i - first) % every == 0;
        if (inside)
            put32(a, now++);
        put32(b, now++);
        put32(b + 4, now++);
        if (inside) {
            put32(a + 4, now++);
            a += 8;
        }
    }
}

static uint32_t number(const char *text)
{
    return (uint32_t)strtoul(text, NULL, 10);
}

int main(int argc, char **argv)
{
    char question[1024] = "//a";
    uint32_t result[5];
    uint32_t n, first, every, around, brackets;
    size_t length;
    uint8_t *index;
    uint32_t *rows;
    if (argc != 6)
        return 2;
    n = number(argv[2]);
    first = number(argv[3]);
    every = number(argv[4]);
    brackets = number(argv[5]);
    if (first >= n || every == 0 || brackets > 31)
        return 2;
    around = (n - first - 1) / every + 1;
    length = HEAD + 8 * ((size_t)around + n);
    index = calloc(length, 1);
    rows = calloc(around, sizeof *rows);
    if (!index || !rows)
        return 2;
    write_day(index, n, around, first, every);
    while (brackets-- > 0)
        strcat(question, "[//b]");
    if (strcmp(argv[1], "check") == 0)
        return roadthrum_check(index, length) != 0;
    roadthrum_answer(index, length, (const uint8_t *)question, strlen(question), 0, rows, around, result);
    return result[ROADTHRUM_REFUSAL] != 0 || result[ROADTHRUM_ROWS] != around || result[ROADTHRUM_MORE] != 0;
}
