/* What a measurement takes: the processor's time, and the middle of several. */
#ifndef CLOCK_H
#define CLOCK_H

/* Nanoseconds of the processor's time of this program: what others run meanwhile does not count. */
double now(void);

/* The median of n numbers, which it sorts. */
double median(double *of, int n);

#endif
