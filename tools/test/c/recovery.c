/* Lexes texts with errors by `wat_next`. On short texts each result must be that of `wat_scan` and `wat_resume`, also with fewer marks. On long texts
 * the number of errors must be that by which the text was built, and the processor time must not grow with the square of the length. Prints what it
 * compared, and exits with status 1 at the first difference. */
#include "wat.h"

#include <float.h>
#include <stdio.h>
#include <stdlib.h>
#include <string.h>
#include <time.h>

enum { SHORTEST = 3 << 18, LONGEST = 4 * SHORTEST, LEAST_TRIES = 3, MOST_TRIES = 10 };

static uint8_t text[LONGEST];
static unsigned steps_seen, texts_seen;

static void fail(const char *what, size_t pos) {
    printf("%s at byte %lu\n", what, (unsigned long)pos);
    exit(1);
}

static bool are_same(struct wat_found a, struct wat_found b) {
    return a.token.offset == b.token.offset && a.token.len == b.token.len && a.token.kind.code == b.token.kind.code &&
           a.token.kind.sign == b.token.kind.sign && a.token.kind.has_underscores == b.token.kind.has_underscores &&
           a.token.kind.hex == b.token.kind.hex && a.fault == b.fault && a.found == b.found && a.wanted == b.wanted;
}

/* Compares each step of a loop over a text, with the first `count` marks. */
static void compare_steps(size_t len, size_t count, bool allow) {
    uint32_t marks[WAT_MARKS + 1] = {0};
    size_t pos = 0;
    while (pos < len) {
        struct wat_step step = wat_next(text, len, pos, allow, false, marks, count);
        if (!are_same(step.found, wat_scan(text, len, pos, allow, false))) {
            fail("wat_next finds something else than wat_scan", pos);
        }
        if (step.next != wat_resume(text, len, pos, allow, false)) {
            fail("wat_next continues elsewhere than wat_resume", pos);
        }
        if (marks[count] != 0) {
            fail("wat_next writes after the marks", pos);
        }
        pos = step.next;
        steps_seen++;
    }
}

/* Compares the steps of random texts, which consist of few kinds of parts. */
static void compare_short_texts(void) {
    static const char *const parts[] = {"(;", ";)", "(;", "(;)", "(", ";", ")", "\"", "\n", ";;", "a", "\xc3\xa9", "\xe2\x80\xae", "\"\\q\""};
    static const size_t counts[] = {WAT_MARKS, 0, 1, 2, 5};
    uint32_t random = 1;
    unsigned i, k;
    for (i = 0; i < 20000; i++) {
        size_t len = 0;
        for (k = 0; k <= i % 60; k++) {
            const char *part;
            random = random * 1664525u + 1013904223u;
            part = parts[(random >> 16) % (sizeof parts / sizeof *parts)];
            memcpy(text + len, part, strlen(part));
            len += strlen(part);
        }
        compare_steps(len, counts[i % 5], i % 2 == 0);
        texts_seen++;
    }
}

/* Returns the number of errors of a text, with all marks. */
static size_t errors_of(size_t len) {
    uint32_t marks[WAT_MARKS] = {0};
    size_t pos = 0, errors = 0;
    while (pos < len) {
        struct wat_step step = wat_next(text, len, pos, false, false, marks, WAT_MARKS);
        errors += step.found.fault != WAT_NO_FAULT;
        pos = step.next;
    }
    return errors;
}

/* A long text: copies of `first` and then, in the last `eighths` eighths and the last `bytes` bytes, copies of `second`. It has `per_24` errors in each
 * 24 bytes, and `more` in addition. */
struct shape {
    const char *name, *first, *second;
    size_t eighths, bytes, per_24;
    int more;
};

static const struct shape shapes[] = {{"unclosed", "(;", "(;", 0, 0, 12, 0},
                                      {"unclosed but the last", "(;", ";)", 0, 2, 12, -2},
                                      {"two of three unclosed", "(;", ";)", 2, 0, 6, 0},
                                      {"closed in unclosed", "(;(;;)", "(;", 0, 0, 4, 0},
                                      {"with a parenthesis", "(;)", "(;", 0, 0, 8, 0},
                                      {"strings before unclosed", "\"(;\"", "(;", 0, 8, 0, 4},
                                      {"strings in unclosed", "(;\"(;\"", "(;", 0, 0, 4, 0},
                                      {"closed", "(;;)", "(;;)", 0, 0, 0, 0}};

static void build(const struct shape *shape, size_t len) {
    size_t begins = len - len / 8 * shape->eighths - shape->bytes, i;
    for (i = 0; i < begins; i++) {
        text[i] = (uint8_t)shape->first[i % strlen(shape->first)];
    }
    for (; i < len; i++) {
        text[i] = (uint8_t)shape->second[(i - begins) % strlen(shape->second)];
    }
}

/* Returns the processor time of a loop over the text, in microseconds. */
static double time_of(size_t len, size_t errors) {
    clock_t start = clock();
    size_t found = errors_of(len);
    double taken = (double)(clock() - start) * 1e6 / CLOCKS_PER_SEC;
    if (found != errors) {
        printf("%lu errors in place of %lu\n", (unsigned long)found, (unsigned long)errors);
        exit(1);
    }
    return taken;
}

/* Checks the number of errors in texts of n, 2n and 4n bytes, and keeps the least time of each length in `times`. */
static void measure_lengths(const struct shape *shape, double times[3]) {
    size_t len = SHORTEST, i;
    for (i = 0; i < 3; i++, len *= 2) {
        double taken;
        build(shape, len);
        taken = time_of(len, len / 24 * shape->per_24 + (size_t)shape->more);
        times[i] = taken < times[i] ? taken : times[i];
    }
}

/* Checks that the text of 4n bytes takes less than 9 times the time of n bytes: linear time is 4 times, quadratic time 16 times as long. As
 * other processes can slow down any loop, the least times of all tries count, and there are more tries while these exceed the bound. */
static void measure(const struct shape *shape) {
    double times[3] = {DBL_MAX, DBL_MAX, DBL_MAX};
    int tries;
    for (tries = 0; tries < LEAST_TRIES || (times[2] > 9 * times[0] && tries < MOST_TRIES); tries++) {
        measure_lengths(shape, times);
    }
    if (times[2] > 9 * times[0]) {
        printf("%s: %.0f, %.0f and %.0f us for n, 2n and 4n bytes, at best of %d tries\n", shape->name, times[0], times[1], times[2], tries);
        exit(1);
    }
    if (getenv("TIMES") != NULL) {
        printf("%s: %.0f, %.0f and %.0f us, at best of %d tries\n", shape->name, times[0], times[1], times[2], tries);
    }
}

int main(void) {
    size_t i;
    compare_short_texts();
    for (i = 0; i < sizeof shapes / sizeof *shapes; i++) {
        measure(&shapes[i]);
    }
    printf("%u steps in %u texts; the time of %u texts is not quadratic\n", steps_seen, texts_seen, (unsigned)i);
    return 0;
}
