/* Makes the syncs of a program take longer. It is put under the program by LD_PRELOAD.

   The file that SLOW_DISK names has a number of 64 bits, which is mapped: the nanoseconds that each sync takes more. */

#define _GNU_SOURCE
#include "mapped.h"

#include <dlfcn.h>
#include <stdint.h>
#include <time.h>

static volatile uint64_t *nanoseconds;

__attribute__((constructor)) static void map_number(void)
{
    nanoseconds = mapped("SLOW_DISK", sizeof *nanoseconds);
}

/* Waits, and then syncs by the function of that name. */
static int sync_late(const char *name, int file)
{
    int (*next)(int) = dlsym(RTLD_NEXT, name);
    uint64_t time = nanoseconds ? *nanoseconds : 0;
    struct timespec left = {time / 1000000000, time % 1000000000};
    nanosleep(&left, NULL);
    return next(file);
}

int fsync(int file)
{
    return sync_late("fsync", file);
}

int fdatasync(int file)
{
    return sync_late("fdatasync", file);
}
