/* What the benches share: numbers from a fixed seed, and a row that compares one piece of work of ours with the same in C. */
#ifndef MEASURE_H
#define MEASURE_H

#include <stdint.h>
#include <stdio.h>
#include <stdlib.h>
#include <string.h>
#include <time.h>

#define ROUNDS 15

static uint64_t seed = 20260715;

static uint32_t any(void)
{
    seed ^= seed << 13;
    seed ^= seed >> 7;
    seed ^= seed << 17;
    return (uint32_t)(seed >> 32);
}

static double seconds(void)
{
    struct timespec t;
    clock_gettime(CLOCK_MONOTONIC, &t);
    return (double)t.tv_sec + 1e-9 * (double)t.tv_nsec;
}

static int by_size(const void *a, const void *b)
{
    double x = *(const double *)a, y = *(const double *)b;
    return (x > y) - (x < y);
}

static inline double median(double *times)
{
    qsort(times, ROUNDS, sizeof times[0], by_size);
    return times[ROUNDS / 2];
}

/* While this is set, the two sides are held to the same answers and not timed. */
static int agreeing;

/* A sum of what was written to lent memory, which is then wiped, so that the other side has to write it too; 0 while times are taken. */
static inline uint64_t written(void *memory, size_t length)
{
    uint8_t *bytes = memory;
    uint64_t sum = 0;
    size_t i;
    if (!agreeing) return 0;
    for (i = 0; i < length; i++) sum = sum * 31 + bytes[i];
    memset(bytes, 0, length);
    return sum;
}

/* Work: `times` pieces, and a sum of what came out. */
typedef uint64_t work(void);

/* A row: what a piece takes on each side, in seconds, their ratio, and how our time has grown from the row of the same work and inputs
   before it. */
static inline void print_row(const char *what, unsigned long size, const char *inputs, double ours, double in_c)
{
    static struct {
        const char *what, *inputs;
        double time;
    } last[16];
    int i;
    printf("%-22s %9lu  %-9s%6.2f %10.1f ns %10.1f ns", what, size, inputs, ours / in_c, 1e9 * ours, 1e9 * in_c);
    for (i = 0; i < 16 && last[i].what && (last[i].what != what || last[i].inputs != inputs); i++) {}
    if (i < 16) {
        if (last[i].what) printf("  x %.2f", ours / last[i].time);
        last[i].what = what;
        last[i].inputs = inputs;
        last[i].time = ours;
    }
    printf("\n");
}

/* Round by round, ours and then C's; the row has their median times. */
static inline void row(const char *what, unsigned long size, const char *inputs, work *ours, work *in_c, unsigned long times)
{
    double a[ROUNDS], b[ROUNDS];
    int i;
    agreeing = 1;
    ours();
    if (ours() != in_c()) {
        printf("%s, %lu, %s: the answers differ\n", what, size, inputs);
        exit(1);
    }
    agreeing = 0;
    for (i = 0; i < ROUNDS; i++) {
        double t0 = seconds(), t1;
        ours();
        t1 = seconds();
        in_c();
        a[i] = t1 - t0;
        b[i] = seconds() - t1;
    }
    print_row(what, size, inputs, median(a) / (double)times, median(b) / (double)times);
}

#endif
