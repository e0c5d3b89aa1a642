/*
 * A clock that a test sets: linked with a program by -Wl,--wrap=clock_gettime, it gives the milliseconds that stand in decimal digits in the file
 * that CLOCK in the environment names.
 */
#define _POSIX_C_SOURCE 200809L

#include <inttypes.h>
#include <stdio.h>
#include <stdlib.h>
#include <time.h>

int __wrap_clock_gettime(clockid_t id, struct timespec *t);

int __wrap_clock_gettime(clockid_t id, struct timespec *t)
{
    const char *const name = getenv("CLOCK");
    FILE *const file = name != NULL ? fopen(name, "r") : NULL;
    int64_t time = 0;

    if (file == NULL || fscanf(file, "%" SCNd64, &time) != 1 || id != CLOCK_MONOTONIC) {
        fputs("clock: CLOCK has to name a file with a number, and nobody may ask for another clock\n", stderr);
        exit(EXIT_FAILURE);
    }
    (void)fclose(file);
    t->tv_sec = (time_t)(time / 1000);
    t->tv_nsec = (long)(time % 1000) * 1000000 + 999999;
    return 0;
}
