/* A clock, where there is no C library: what it counts is the board's affair. */
#ifndef SMALL_TIME_H
#define SMALL_TIME_H
#define CLOCK_MONOTONIC 1
struct timespec {
    long tv_sec;
    long tv_nsec;
};
int clock_gettime(int clock, struct timespec *t);
#endif
