/* What the programs of bench/ have in common: the processor time of this thread, which other work on the machine does not lengthen, and medians. */
#include <stdlib.h>
#include <time.h>

enum { ROUNDS = 21 };

static double now(void)
{
    struct timespec t;
    clock_gettime(CLOCK_THREAD_CPUTIME_ID, &t);
    return t.tv_sec * 1e9 + t.tv_nsec;
}

static int by_value(const void *a, const void *b)
{
    double x = *(const double *)a, y = *(const double *)b;
    return (x > y) - (x < y);
}

/* the median of ROUNDS values, which are sorted */
static double median(double *values)
{
    qsort(values, ROUNDS, sizeof *values, by_value);
    return values[ROUNDS / 2];
}
