// Loops over numbers that stay in the first caches: what `bench/cache` compares scalar functions with.
#include <stdint.h>
#include <stdio.h>
#include <stdlib.h>
#include <string.h>
#include <time.h>

enum { MOST = 10000 };

// Truth values take a byte each, as in the calculator.
typedef unsigned char truth;

static int64_t left[MOST], right[MOST];
static truth left_truths[MOST], right_truths[MOST];

// A line writes its result while the name still has the one before it. So the passes write into two rooms in turn.
static int64_t results[2][MOST];

// A loop from arguments of one type to results of another. Its flag is set by any result that leaves the range, and no number is tested by
// itself.
#define LOOP(name, argument, outcome, step)                                                                    \
    static __attribute__((noinline)) long name(const void *x, const void *y, void *room, long count) {         \
        const argument *a = x, *b = y;                                                                         \
        (void)a;                                                                                               \
        outcome *r = room;                                                                                     \
        long faults = 0;                                                                                       \
        for (long i = 0; i < count; i++) {                                                                     \
            step;                                                                                              \
        }                                                                                                      \
        return faults;                                                                                         \
    }

LOOP(plus, int64_t, int64_t, faults |= __builtin_add_overflow(a[i], b[i], &r[i]))
LOOP(minus, int64_t, int64_t, faults |= __builtin_sub_overflow(a[i], b[i], &r[i]))
LOOP(times, int64_t, int64_t, faults |= __builtin_mul_overflow(a[i], b[i], &r[i]))
LOOP(least, int64_t, int64_t, r[i] = a[i] < b[i] ? a[i] : b[i])
LOOP(greatest, int64_t, int64_t, r[i] = a[i] > b[i] ? a[i] : b[i])
LOOP(less, int64_t, truth, r[i] = a[i] < b[i])
LOOP(at_most, int64_t, truth, r[i] = a[i] <= b[i])
LOOP(equal, int64_t, truth, r[i] = a[i] == b[i])
LOOP(at_least, int64_t, truth, r[i] = a[i] >= b[i])
LOOP(greater, int64_t, truth, r[i] = a[i] > b[i])
LOOP(unequal, int64_t, truth, r[i] = a[i] != b[i])
LOOP(and, truth, truth, r[i] = a[i] & b[i])
LOOP(or, truth, truth, r[i] = a[i] | b[i])
LOOP(nand, truth, truth, r[i] = (a[i] & b[i]) ^ 1)
LOOP(nor, truth, truth, r[i] = (a[i] | b[i]) ^ 1)
LOOP(negative, int64_t, int64_t, faults |= __builtin_sub_overflow(0, b[i], &r[i]))
LOOP(magnitude, int64_t, int64_t, (r[i] = b[i] < 0 ? (int64_t)(0 - (uint64_t)b[i]) : b[i], faults |= b[i] == INT64_MIN))
LOOP(signum, int64_t, int64_t, r[i] = (b[i] > 0) - (b[i] < 0))
LOOP(not, truth, truth, r[i] = b[i] ^ 1)
LOOP(equal_to_one, truth, truth, r[i] = b[i] == 1)
LOOP(one_less, truth, int64_t, r[i] = 1 - b[i])

static const struct {
    const char *name;
    long (*loop)(const void *, const void *, void *, long);
    int of_truths;
} LOOPS[] = {{"+", plus}, {"-", minus}, {"×", times}, {"⌊", least}, {"⌈", greatest}, {"<", less}, {"≤", at_most}, {"=", equal},
             {"≥", at_least}, {">", greater}, {"≠", unequal}, {"∧", and, 1}, {"∨", or, 1}, {"⍲", nand, 1}, {"⍱", nor, 1}, {"negative", negative},
             {"magnitude", magnitude}, {"signum", signum}, {"not", not, 1}, {"1=L", equal_to_one, 1}, {"1-L", one_less, 1}};

// Prints the least nanoseconds a number of the named loop, over `rounds` times a thousand passes of `count` numbers.
int main(int words, char **word) {
    if (words != 4) return 2;
    long count = atol(word[3]);
    if (count < 1 || count > MOST) return 2;
    for (int i = 0; i < MOST; i++) {
        left[i] = i % 2;
        right[i] = i / 2 % 2;
        left_truths[i] = left[i];
        right_truths[i] = right[i];
    }
    for (size_t k = 0; k < sizeof LOOPS / sizeof *LOOPS; k++) {
        if (strcmp(LOOPS[k].name, word[1])) continue;
        const void *x = LOOPS[k].of_truths ? (const void *)left_truths : left;
        const void *y = LOOPS[k].of_truths ? (const void *)right_truths : right;
        double best = 1e9;
        for (int round = atoi(word[2]); round > 0; round--) {
            struct timespec begin, end;
            long faults = 0;
            clock_gettime(CLOCK_MONOTONIC, &begin);
            for (int pass = 0; pass < 1000; pass++) faults |= LOOPS[k].loop(x, y, results[pass % 2], count);
            clock_gettime(CLOCK_MONOTONIC, &end);
            if (faults) return 1;
            double taken = ((end.tv_sec - begin.tv_sec) * 1e9 + (end.tv_nsec - begin.tv_nsec)) / 1000 / count;
            best = taken < best ? taken : best;
        }
        printf("%f\n", best);
        return 0;
    }
    return 2;
}
