/* Time, and the middle of several. */
#ifndef CLOCK_H
#define CLOCK_H

#include <stddef.h>

double now_ns(void);

/* Puts the times in order. */
double median(double *times, size_t n);

#endif
