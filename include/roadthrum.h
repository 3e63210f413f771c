/*
 * Roadthrum: questions put to a day of a building's lifts, answered with evidence, and how long its callers waited.
 *
 * Link with libroadthrum_c.a, which `make library` makes for x86-64 Linux. It needs no other library than C's own, keeps nothing between
 * calls, allocates nothing, and may be called from several threads at once.
 *
 * What is promised is proved of the library for every byte string as index and as question, whole or broken, for every place, and for every
 * list of times. What a caller owes:
 *   - each pointer goes with its true length: so many bytes and so many numbers of `times` can be read, and so many numbers of `rows`, 5 of
 *     `result` and 8 of `figures` be written; a pointer whose length is 0 is not used, and may be null;
 *   - `rows`, `result` and `figures` overlap neither each other nor what is read, and nothing else changes what is lent while a call runs;
 *   - `times`, `rows` and `result` are aligned as uint32_t is, and `figures` as uint64_t is;
 *   - stack: a call needs at most ROADTHRUM_STACK bytes.
 */
#ifndef ROADTHRUM_H
#define ROADTHRUM_H

#include <stddef.h>
#include <stdint.h>

#ifdef __cplusplus
extern "C" {
#endif

/* Bytes of stack that are enough for any call; tests/c/stack.c measures what the calls take. */
#define ROADTHRUM_STACK 98304

/* The numbers of `result`. */
enum {
    ROADTHRUM_REFUSAL = 0, /* the refusal, or 0 */
    ROADTHRUM_ROWS = 1,    /* the rows written, at most 1,048,576 */
    ROADTHRUM_MORE = 2,    /* 1 if a further record remains, else 0 */
    ROADTHRUM_NEXT = 3,    /* the place from which the next page goes on */
    ROADTHRUM_UNKNOWN = 4  /* the first step whose name has no row in the index, counted from 0, or ROADTHRUM_NO_STEP */
};

/* What stands there where each step's name has a row, and on a refusal. No step has this number: steps go from 0 to at most 31. */
#define ROADTHRUM_NO_STEP 32

/*
 * The numbers of `figures`, which the waits call writes. Before them, at place 0, stands the refusal, or 0: ROADTHRUM_REFUSAL is the same
 * name and the same place as in `result`.
 */
enum {
    ROADTHRUM_CALLS = 1,     /* the calls of the day */
    ROADTHRUM_BOARDED = 2,   /* those in which a boarding came first */
    ROADTHRUM_CANCELLED = 3, /* those in which a cancellation came first */
    ROADTHRUM_OPEN = 4,      /* those with neither inside */
    ROADTHRUM_TOTAL = 5,     /* the waits of the boarded and the cancelled calls together, in milliseconds */
    ROADTHRUM_LONGEST = 6,   /* the longest of these waits, in milliseconds, or 0 if there is none */
    ROADTHRUM_OVER = 7       /* the boarded and the cancelled calls: what the total is divided by for the mean */
};

/*
 * The refusals, in the order in which the checks run; the first that applies is given. All calls know the first six, which are of the
 * index, and the check call knows no others. Those of the question, 7 to 9, are of the answer and the evidence call; those of the times, 20
 * and 21, of the waits call.
 */
enum roadthrum_refusal {
    ROADTHRUM_TOO_SHORT = 1,      /* the index has fewer than 4 bytes */
    ROADTHRUM_OTHER_VERSION = 2,  /* its version is not 1 */
    ROADTHRUM_WRONG_CONTENTS = 3, /* over 256 tags, fewer bytes than its table of contents takes, a row's name, order or offset is wrong,
                                     or over 1,048,576 labels */
    ROADTHRUM_WRONG_LENGTH = 4,   /* its length is not 4 + 24 for each tag + 8 for each label */
    ROADTHRUM_WRONG_LISTS = 5,    /* a label with start >= end, or a list not strictly ascending by start */
    ROADTHRUM_WRONG_NESTING = 6,  /* two labels share a number or cross, or 65 are nested */
    ROADTHRUM_TOO_LONG = 7,       /* the question has over 1,024 bytes */
    ROADTHRUM_NOT_FOLLOWING = 8,  /* the question does not follow the notation */
    ROADTHRUM_TOO_LARGE = 9,      /* it follows it with over 32 steps or brackets over 8 deep */
    ROADTHRUM_NO_ENTRY = 20,      /* some start or end in the index, of any tag, has no entry in the times */
    ROADTHRUM_TIMES_DESCEND = 21  /* an entry of the times, also one past the numbers in use, is smaller than the one before */
};

/* Checks an index. Gives 0 exactly for a lawful one, and else the number of the first refusal that applies, of the first six. */
uint32_t roadthrum_check(const uint8_t *index, size_t index_len);

/*
 * The answer call. Writes the list positions of the returned records at position `place` or later, each once and in order of start, as
 * many as `rows` has room for, from its beginning; the rest of `rows` stays as it was.
 *
 * `result` gets five numbers. The refusal is 0 or the number of the first refusal that applies, of the first nine. Look at it first: a
 * refusal has 0 rows as well, no further record, next place 0 and ROADTHRUM_NO_STEP, and changes no number of `rows`. Else there follow the
 * rows written, whether a further record remains, and the next place: the position of the first record not written, or, if none remains,
 * the number of labels in the returned step's list. The last is the unknown step: the first whose name has no row in the index, or
 * ROADTHRUM_NO_STEP.
 *
 * Steps are counted from 0 in the order of the text, those in brackets too. A misspelled name gives no records, just as a true "none" does:
 * look at the unknown step before saying that there are none. A name whose row has 0 labels is known.
 *
 * A page with room for at least one row either ends the walk or names a later place than it was given. All records are had by pages from
 * place 0, each going on from the next place of the one before as long as a further record remains.
 */
void roadthrum_answer(const uint8_t *index, size_t index_len, const uint8_t *question, size_t question_len, uint32_t place,
                      uint32_t *rows, size_t rows_len, uint32_t result[5]);

/*
 * The evidence call. The same, but for each returned record it writes a row of as many list positions as the question has steps: of each
 * step the record that stands as evidence, the earliest at every step at once. There is room for rows_len / steps of them, and row i
 * begins at rows + i * steps.
 *
 * How many steps a question has that is accepted: the number of its bytes `/`, divided by 2. Each step begins with two of them, and
 * nothing else in it has one. Of a question that is refused this says nothing. It is 1 to 32, so that a buffer of 32 numbers has room for a
 * row of any.
 */
void roadthrum_evidence(const uint8_t *index, size_t index_len, const uint8_t *question, size_t question_len, uint32_t place,
                        uint32_t *rows, size_t rows_len, uint32_t result[5]);

/*
 * The waits call: the waiting table of a day, with those who gave up. `times` has the time of each number of the index, in milliseconds:
 * entry i, counted from 0, is the time of the start or end i. Entries may be equal, and there may be more of them than numbers in use.
 *
 * What became of a `call` of the day is said by the `board` or `cancel` inside it that starts first, also where that lies in another `call`
 * inside it: the `call` is boarded or cancelled, and with neither inside it is open. The wait runs from the start of the `call` to the
 * start of that record. Whoever gave up and pressed again inside the first `call` is counted with every press, and each press that is not
 * open has a wait of its own. A name without a row counts as one whose row has 0 labels.
 *
 * `figures` gets eight numbers. The refusal is 0 or the number of the first refusal that applies, of the first six, ROADTHRUM_NO_ENTRY and
 * ROADTHRUM_TIMES_DESCEND. Look at it first: on a refusal all figures behind it are 0, just as on a day without calls. Else there follow
 * the calls, and how many of them are boarded, cancelled and open, which together are all; then the total wait of those boarded or
 * cancelled, the longest of these waits, or 0 if there is none, and how many waits there are: boarded plus cancelled.
 *
 * The mean wait is the total over that last number, as two numbers that are not reduced. An open call is one of the calls, but has no wait
 * and is not in the mean. Where ROADTHRUM_OVER is 0 there is no mean: do not divide by it. The total has room in its 64 bits whatever the
 * times are: it is at most 1,048,576 x 4,294,967,295, which is below 2^52.
 */
void roadthrum_waits(const uint8_t *index, size_t index_len, const uint32_t *times, size_t times_len, uint64_t figures[8]);

#ifdef __cplusplus
}
#endif

#endif
