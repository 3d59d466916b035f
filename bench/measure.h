/* Timing, and the lines that bench/table reads: fields with a tab between them. */
#ifndef MEASURE_H
#define MEASURE_H
#include <stdio.h>
#include <stdlib.h>
#include <time.h>

enum { MOST_COLUMNS = 16 };

static inline double now(void)
{
    struct timespec t;
    clock_gettime(CLOCK_MONOTONIC, &t);
    return t.tv_sec * 1e9 + t.tv_nsec;
}

/* Sets ns[i] to the nanoseconds of one run(i), the best of many batches of a tenth of a millisecond, all in turn. */
static inline void alternate(size_t count, void (*run)(size_t), double *ns)
{
    int calls[MOST_COLUMNS];
    for (size_t i = 0; i < count; i++) {
        run(i);
        double t = now();
        run(i);
        t = now() - t;
        calls[i] = t < 1e5 ? (int)(1e5 / t) : 1;
        ns[i] = t;
    }
    double end = now() + 1e8;
    for (int round = 0; round < 5 || now() < end; round++)
        for (size_t i = 0; i < count; i++) {
            double t = now();
            for (int j = 0; j < calls[i]; j++)
                run(i);
            t = (now() - t) / calls[i];
            if (t < ns[i])
                ns[i] = t;
        }
}

/* The names of the columns come first, with an empty label and unit. */
static inline void head(const char *label, const char *unit, size_t bytes)
{
    printf("%s\t%s\t%zu", label, unit, bytes);
}

static inline void numbers(size_t count, const double *x)
{
    for (size_t i = 0; i < count; i++)
        printf("\t%.1f", x[i]);
    putchar('\n');
}

static inline void demand(int right, const char *what)
{
    if (!right) {
        fprintf(stderr, "%s: a wrong value or answer\n", what);
        exit(1);
    }
}
#endif
