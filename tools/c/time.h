/* The steady clock of Linux on x86-64: the kit's compiler comes without headers, and this is all that the C code here needs of this one. */
#ifndef TOOLS_C_TIME_H
#define TOOLS_C_TIME_H

struct timespec {
    long tv_sec;
    long tv_nsec;
};
#define CLOCK_MONOTONIC 1
int clock_gettime(int clock, struct timespec *now);

#endif
