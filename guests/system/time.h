/* The C library declares the clocks where it is told that there are some. */
#pragma GCC system_header
#define _POSIX_TIMERS 1
#define _POSIX_CPUTIME 1
#define _POSIX_MONOTONIC_CLOCK 200112L
#include_next <time.h>
