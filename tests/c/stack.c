/*
 * Measures how much of its stack each call touches. This is the one place that says how much that is: a call has to stay below what the
 * header promises, and within the range that stands beside it in `calls`, which is about half to twice what was measured when it was written.
 * A range that no longer holds is a reason to look at what has changed, and then to write another.
 *
 * The stack below the call is filled with a pattern, and what the call has left of it is counted from the far end. Two functions of which
 * is known what they touch show that this works.
 */
#include <pthread.h>
#include <stdio.h>
#include <stdlib.h>
#include <string.h>

#include "roadthrum.h"

#define STACK (1u << 20)
#define PATTERN 0xa5

/* Bytes below the frame address that are not painted, since the painter's own frame is there. Whatever touches no more counts as so many. */
#define FRAME 512

#define KNOWN 20000

static uint8_t day[4 + 32 * 256];
static uint8_t steps[32 * 4];
static uint8_t brackets[1024];
static uint32_t rows[64];
static uint32_t times[512];
static uint32_t result[5];
static uint64_t figures[8];

static void write_name(unsigned tag, const char *name) { memcpy(day + 4 + 24 * tag, name, strlen(name)); }

/*
 * An index of 256 tags, each with one record, 64 of them nested again and again: every part of the check has work to do. Three of them have the
 * names that the waiting table looks for, where these stand in the order of names; the cancellation lies in the call. Each number, 0 to 511, has a
 * time, which is 0.
 */
static void write_day(void)
{
    unsigned tag;
    uint8_t *body = day + 4 + 24 * 256;
    day[1] = 1;
    day[2] = 1;
    for (tag = 0; tag < 256; tag++) {
        uint8_t *row = day + 4 + 24 * tag;
        uint32_t offset = 4 + 24 * 256 + 8 * tag;
        uint32_t start = (tag / 64) * 128 + tag % 64;
        uint32_t end = (tag / 64) * 128 + 127 - tag % 64;
        row[0] = (uint8_t)('a' + tag / 16);
        row[1] = (uint8_t)('a' + tag % 16);
        memcpy(row + 16, &offset, 4);
        row[20] = 1;
        memcpy(body + 8 * tag, &start, 4);
        memcpy(body + 8 * tag + 4, &end, 4);
    }
    write_name(30, "board");
    write_name(32, "call");
    write_name(33, "cancel");
}

static void write_questions(void)
{
    size_t i;
    for (i = 0; i < sizeof steps; i += 4)
        memcpy(steps + i, "//aa", 4);
    /* Of all texts this opens the most brackets, each of which is a call more of the function that reads a path. */
    for (i = 0; i < sizeof brackets; i += 4)
        memcpy(brackets + i, "//a[", 4);
}

static void nothing(void) { }

static void known(void)
{
    volatile uint8_t room[KNOWN];
    size_t i;
    for (i = 0; i < KNOWN; i++)
        room[i] = 0;
    result[0] = room[KNOWN - 1];
}

static void check(void) { result[0] = roadthrum_check(day, sizeof day); }

static void answer_steps(void) { roadthrum_answer(day, sizeof day, steps, sizeof steps, 0, rows, 64, result); }

static void evidence_steps(void) { roadthrum_evidence(day, sizeof day, steps, sizeof steps, 0, rows, 64, result); }

static void answer_brackets(void) { roadthrum_answer(day, sizeof day, brackets, sizeof brackets, 0, rows, 64, result); }

static void evidence_brackets(void) { roadthrum_evidence(day, sizeof day, brackets, sizeof brackets, 0, rows, 64, result); }

static void waits(void)
{
    roadthrum_waits(day, sizeof day, times, 512, figures);
    /* Where no call is cancelled, the table was not made. */
    result[0] = figures[ROADTHRUM_CANCELLED] == 1 ? (uint32_t)figures[ROADTHRUM_REFUSAL] : 99;
}

static const struct {
    const char *name;
    void (*work)(void);
    uint32_t refusal;
    size_t least, most;
} calls[] = {
    {"nothing", nothing, 0, FRAME, FRAME},
    {"a function that touches 20,000", known, 0, KNOWN, KNOWN + FRAME},
    {"the check of 256 tags", check, 0, 3500, 14000},
    {"the waiting table of 256 tags", waits, 0, 3500, 14000},
    {"the answer to 32 steps", answer_steps, 0, 5000, 20000},
    {"the evidence of 32 steps", evidence_steps, 0, 5000, 20000},
    {"the answer to 256 open brackets", answer_brackets, ROADTHRUM_NOT_FOLLOWING, 9500, 38000},
    {"the evidence of 256 open brackets", evidence_brackets, ROADTHRUM_NOT_FOLLOWING, 9500, 38000},
};

static uint8_t *stack;
static void (*work)(void);
static size_t touched;

/* Runs the work below a painted stack. */
static void *measured(void *unused)
{
    volatile uint8_t *here = __builtin_frame_address(0), *clean;
    for (clean = stack; clean < here - FRAME; clean++)
        *clean = PATTERN;
    work();
    for (clean = stack; clean < here - FRAME && *clean == PATTERN; clean++)
        ;
    touched = (size_t)(here - clean);
    return unused;
}

/* How many bytes of a thread's stack a piece of work touches. */
static size_t measure(void (*of)(void))
{
    pthread_attr_t how;
    pthread_t thread;
    work = of;
    touched = 0;
    if (pthread_attr_init(&how) || pthread_attr_setstack(&how, stack, STACK) || pthread_create(&thread, &how, measured, NULL))
        exit(2);
    pthread_join(thread, NULL);
    pthread_attr_destroy(&how);
    return touched;
}

int main(void)
{
    int failed = 0;
    size_t i;
    stack = aligned_alloc(4096, STACK);
    if (!stack)
        return 2;
    write_day();
    write_questions();
    for (i = 0; i < sizeof calls / sizeof calls[0]; i++) {
        /* The first time the loader may have to find memcpy and its like, on the same stack. That is within the promise, too. */
        size_t first = measure(calls[i].work), later = measure(calls[i].work);
        printf("stack of %s: %zu bytes, the first time %zu\n", calls[i].name, later, first);
        if (result[0] != calls[i].refusal) {
            printf("  it gave %u, not %u\n", (unsigned)result[0], (unsigned)calls[i].refusal);
            failed = 1;
        }
        if (later < calls[i].least || later > calls[i].most || first > ROADTHRUM_STACK) {
            printf("  which is not within %zu to %zu\n", calls[i].least, calls[i].most);
            failed = 1;
        }
    }
    free(stack);
    return failed;
}
