#define _POSIX_C_SOURCE 199309L
#include "clock.h"

#include <stdlib.h>
#include <time.h>

double now_ns(void)
{
    struct timespec t;

    clock_gettime(CLOCK_MONOTONIC, &t);
    return (double)t.tv_sec * 1e9 + (double)t.tv_nsec;
}

static int rising(const void *a, const void *b)
{
    double x = *(const double *)a, y = *(const double *)b;

    return (x > y) - (x < y);
}

double median(double *times, size_t n)
{
    qsort(times, n, sizeof *times, rising);
    return times[n / 2];
}
