/* What the measuring programs share: a clock, numbers that are the same in each run, and the least and the middle time of many rounds. */
#ifndef TIMING_H
#define TIMING_H
#include <stdint.h>
#include <stdlib.h>
#include <time.h>

enum { ROUNDS = 25 };
struct times { double least, middle; };

static uint32_t next(void)
{
    static uint64_t x = 88172645463325252u;
    x ^= x << 13, x ^= x >> 7, x ^= x << 17;
    return x >> 32;
}

/* microseconds */
static double now(void)
{
    struct timespec t;
    clock_gettime(CLOCK_MONOTONIC, &t);
    return t.tv_sec * 1e6 + t.tv_nsec * 1e-3;
}

/* the time of one of so many calls */
static double one_of(int count, void (*call)(void))
{
    double start = now();
    for (int i = 0; i < count; i++)
        call();
    return (now() - start) / count;
}

static int by_size(const void *a, const void *b) { return (*(const double *)a > *(const double *)b) - (*(const double *)a < *(const double *)b); }

static struct times of_rounds(double *rounds)
{
    qsort(rounds, ROUNDS, sizeof *rounds, by_size);
    return (struct times){rounds[0], rounds[ROUNDS / 2]};
}

/* two calls in turn, so that both meet the same machine */
static void measure(void (*first)(void), void (*second)(void), struct times *of_first, struct times *of_second)
{
    double a[ROUNDS], b[ROUNDS];
    int count = 1 + (int)(4000 / one_of(1, first));
    for (int round = 0; round < ROUNDS; round++) {
        a[round] = one_of(count, first);
        b[round] = one_of(count, second);
    }
    *of_first = of_rounds(a);
    *of_second = of_rounds(b);
}

static void nothing(void) {}

static double least_of(void (*call)(void))
{
    struct times a, b;
    measure(call, nothing, &a, &b);
    return a.least;
}

#endif
