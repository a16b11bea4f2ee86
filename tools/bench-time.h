/* Processor time, for the hosts of tools/bench that measure it. */
#ifndef BENCH_TIME_H
#define BENCH_TIME_H

#include "bench-table.h"
#include "xaluudhiga.h"

struct timespec {
    long seconds, nanoseconds;
};
int clock_gettime(int, struct timespec *);
enum { PROCESS_CPU_TIME = 2 };

// In nanoseconds.
static inline double now(void) {
    struct timespec t;
    clock_gettime(PROCESS_CPU_TIME, &t);
    return t.seconds * 1e9 + t.nanoseconds;
}

// One check of the table that stands there, as the mean of about a millisecond of them.
static inline double mean_time(void) {
    double start = now(), spent = 0;
    int n = 0;
    while (spent < 1e6) {
        xal_check(table, 12 * frames);
        n++;
        spent = now() - start;
    }
    return spent / n;
}

#endif
